/* Preloaded into a program (LD_PRELOAD), it makes each sync of the file that SLOW names wait first, for MILLISECONDS; or
   of each file, without SLOW. */
#define _GNU_SOURCE
#include <dlfcn.h>
#include <stdlib.h>
#include <sys/stat.h>
#include <unistd.h>

static void wait_if_slow(int descriptor)
{
    const char *path = getenv("SLOW"), *milliseconds = getenv("MILLISECONDS");
    struct stat named, synced;
    if (!milliseconds || fstat(descriptor, &synced) || (path && stat(path, &named)))
        return;
    if (path ? named.st_dev == synced.st_dev && named.st_ino == synced.st_ino : S_ISREG(synced.st_mode))
        usleep(1000 * (useconds_t)strtoul(milliseconds, NULL, 10));
}

int fdatasync(int descriptor)
{
    static int (*real)(int);
    if (!real)
        real = (int (*)(int))dlsym(RTLD_NEXT, "fdatasync");
    wait_if_slow(descriptor);
    return real(descriptor);
}

int fsync(int descriptor)
{
    static int (*real)(int);
    if (!real)
        real = (int (*)(int))dlsym(RTLD_NEXT, "fsync");
    wait_if_slow(descriptor);
    return real(descriptor);
}
