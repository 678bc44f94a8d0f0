/* What the tests want of <stdio.h>: the toolchain has a compiler and no headers. */
#ifdef __cplusplus
extern "C"
#endif
int printf(const char *format, ...);
