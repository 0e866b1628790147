/* Preloaded into a program (LD_PRELOAD), it lets one call fail: of the calls that FAIL names (read, write or accept, a
   colon, and a descriptor's number or the word socket, for all sockets) the one whose number, from 1, is in FAIL_AT. It
   answers the error of the number FAIL_WITH; a write that FAIL_WITH is 0 for takes no byte. With SHORT, no read of such a
   descriptor gives more bytes than that. */
#define _GNU_SOURCE
#include <dlfcn.h>
#include <errno.h>
#include <pthread.h>
#include <stdlib.h>
#include <string.h>
#include <sys/socket.h>
#include <sys/stat.h>
#include <unistd.h>

static unsigned long calls;
static pthread_mutex_t counting = PTHREAD_MUTEX_INITIALIZER;

static unsigned long number_of(const char *name)
{
    const char *it = getenv(name);
    return it ? strtoul(it, NULL, 10) : 0;
}

static int is_named(const char *call, int descriptor)
{
    const char *named = getenv("FAIL");
    size_t length = strlen(call);
    struct stat found;
    if (!named || strncmp(named, call, length) || named[length] != ':')
        return 0;
    named += length + 1;
    if (strcmp(named, "socket"))
        return atoi(named) == descriptor;
    return !fstat(descriptor, &found) && S_ISSOCK(found.st_mode);
}

static int fails(void)
{
    unsigned long number;
    pthread_mutex_lock(&counting);
    number = ++calls;
    pthread_mutex_unlock(&counting);
    if (number != number_of("FAIL_AT"))
        return 0;
    errno = (int)number_of("FAIL_WITH");
    return 1;
}

static size_t shortened(size_t size)
{
    unsigned long most = number_of("SHORT");
    return most && most < size ? most : size;
}

ssize_t read(int descriptor, void *buffer, size_t size)
{
    static ssize_t (*real)(int, void *, size_t);
    if (!real)
        real = (ssize_t (*)(int, void *, size_t))dlsym(RTLD_NEXT, "read");
    if (!is_named("read", descriptor))
        return real(descriptor, buffer, size);
    return fails() ? -1 : real(descriptor, buffer, shortened(size));
}

ssize_t recv(int descriptor, void *buffer, size_t size, int flags)
{
    static ssize_t (*real)(int, void *, size_t, int);
    if (!real)
        real = (ssize_t (*)(int, void *, size_t, int))dlsym(RTLD_NEXT, "recv");
    if (!is_named("read", descriptor))
        return real(descriptor, buffer, size, flags);
    return fails() ? -1 : real(descriptor, buffer, shortened(size), flags);
}

ssize_t write(int descriptor, const void *text, size_t size)
{
    static ssize_t (*real)(int, const void *, size_t);
    if (!real)
        real = (ssize_t (*)(int, const void *, size_t))dlsym(RTLD_NEXT, "write");
    if (is_named("write", descriptor) && fails())
        return errno ? -1 : 0;
    return real(descriptor, text, size);
}

ssize_t send(int descriptor, const void *text, size_t size, int flags)
{
    static ssize_t (*real)(int, const void *, size_t, int);
    if (!real)
        real = (ssize_t (*)(int, const void *, size_t, int))dlsym(RTLD_NEXT, "send");
    if (is_named("write", descriptor) && fails())
        return errno ? -1 : 0;
    return real(descriptor, text, size, flags);
}

int accept(int descriptor, struct sockaddr *from, socklen_t *size)
{
    static int (*real)(int, struct sockaddr *, socklen_t *);
    if (!real)
        real = (int (*)(int, struct sockaddr *, socklen_t *))dlsym(RTLD_NEXT, "accept");
    return is_named("accept", descriptor) && fails() ? -1 : real(descriptor, from, size);
}

int accept4(int descriptor, struct sockaddr *from, socklen_t *size, int flags)
{
    static int (*real)(int, struct sockaddr *, socklen_t *, int);
    if (!real)
        real = (int (*)(int, struct sockaddr *, socklen_t *, int))dlsym(RTLD_NEXT, "accept4");
    return is_named("accept", descriptor) && fails() ? -1 : real(descriptor, from, size, flags);
}
