/* What the tests want of <pthread.h>, on x86-64: the toolchain has a compiler and no headers. */
typedef unsigned long pthread_t;
int pthread_create(pthread_t *thread, const void *attributes, void *(*start)(void *), void *argument);
int pthread_join(pthread_t thread, void **result);
