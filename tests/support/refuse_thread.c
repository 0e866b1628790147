/* Preloaded into a program (LD_PRELOAD), it refuses the start of one thread: the one whose number, from 1, is in the
   environment variable REFUSE_THREAD. */
#define _GNU_SOURCE
#include <dlfcn.h>
#include <errno.h>
#include <pthread.h>
#include <stdlib.h>

static unsigned long starts;

int pthread_create(pthread_t *thread, const pthread_attr_t *attributes, void *(*body)(void *), void *given)
{
    static int (*real)(pthread_t *, const pthread_attr_t *, void *(*)(void *), void *);
    const char *number = getenv("REFUSE_THREAD");
    if (!real)
        real = (int (*)(pthread_t *, const pthread_attr_t *, void *(*)(void *), void *))dlsym(RTLD_NEXT, "pthread_create");
    starts++;
    if (number && starts == strtoul(number, NULL, 10))
        return EAGAIN;
    return real(thread, attributes, body, given);
}
