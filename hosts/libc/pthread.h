/* What hosts/ uses of <pthread.h>: the layout of glibc on x86-64. */
#ifndef HOST_PTHREAD_H
#define HOST_PTHREAD_H
#include <stddef.h>
typedef unsigned long pthread_t;
typedef union { char bytes[56]; long align; } pthread_attr_t;
int pthread_attr_init(pthread_attr_t *attr);
int pthread_attr_setstack(pthread_attr_t *attr, void *stack, size_t bytes);
int pthread_create(pthread_t *thread, const pthread_attr_t *attr,
                   void *(*start)(void *), void *argument);
int pthread_join(pthread_t thread, void **result);
#endif
