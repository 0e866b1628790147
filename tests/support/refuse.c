/* Preloaded into a program (LD_PRELOAD), it refuses one growth of its memory: the one whose number, from 1, is in the
   environment variable REFUSE, or each one, where that is the word "all". With REFUSE_AFTER, growths count from the first
   write on whose text that is. (A proved program grows its memory by these two calls alone.) */
#define _GNU_SOURCE
#include <dlfcn.h>
#include <errno.h>
#include <stddef.h>
#include <stdlib.h>
#include <string.h>
#include <unistd.h>

static unsigned long growths;
static int has_begun;

static int refused(void)
{
    const char *number = getenv("REFUSE");
    if (!number || (!has_begun && getenv("REFUSE_AFTER")))
        return 0;
    growths++;
    if (strcmp(number, "all") && growths != strtoul(number, NULL, 10))
        return 0;
    errno = ENOMEM;
    return 1;
}

void *malloc(size_t size)
{
    static void *(*real)(size_t);
    if (!real)
        real = (void *(*)(size_t))dlsym(RTLD_NEXT, "malloc");
    return refused() ? NULL : real(size);
}

void *realloc(void *old, size_t size)
{
    static void *(*real)(void *, size_t);
    if (!real)
        real = (void *(*)(void *, size_t))dlsym(RTLD_NEXT, "realloc");
    return refused() ? NULL : real(old, size);
}

ssize_t write(int descriptor, const void *text, size_t size)
{
    static ssize_t (*real)(int, const void *, size_t);
    const char *after = getenv("REFUSE_AFTER");
    if (!real)
        real = (ssize_t (*)(int, const void *, size_t))dlsym(RTLD_NEXT, "write");
    if (after && size == strlen(after) && !memcmp(text, after, size))
        has_begun = 1;
    return real(descriptor, text, size);
}
