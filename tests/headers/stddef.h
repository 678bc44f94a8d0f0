/* What the tests want of <stddef.h>: the toolchain has a compiler and no headers. */
typedef __SIZE_TYPE__ size_t;
