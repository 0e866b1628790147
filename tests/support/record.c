/* Preloaded into a program (LD_PRELOAD), it writes a line for each of its reads and writes to the file that the
   environment variable RECORD names: the call, the descriptor, how many bytes were asked for, how many were answered
   (or -1), and the first bytes of a write in hexadecimal. A limit of time for a socket's reads is a line `limit`, with
   its seconds in place of the bytes asked for. (strace isn't on every machine, and may not trace.) */
#define _GNU_SOURCE
#include <dlfcn.h>
#include <errno.h>
#include <fcntl.h>
#include <stdio.h>
#include <stdlib.h>
#include <string.h>
#include <sys/socket.h>
#include <sys/time.h>
#include <unistd.h>

#define SHOWN 48 /* bytes of a text that a line has */

typedef ssize_t (*transfer)(int, void *, size_t);

static transfer real_write(void)
{
    static transfer found;
    if (!found)
        found = (transfer)dlsym(RTLD_NEXT, "write");
    return found;
}

static void record(const char *call, int descriptor, size_t asked, ssize_t answered, const unsigned char *text)
{
    static int file = -1;
    char line[64 + 2 * SHOWN + 2];
    const char *name = getenv("RECORD");
    size_t length, at;
    if (file < 0 && name)
        file = open(name, O_WRONLY | O_CREAT | O_APPEND | O_CLOEXEC, 0600);
    if (file < 0)
        return;
    length = (size_t)snprintf(line, 64, "%s %d %zu %zd ", call, descriptor, asked, answered);
    for (at = 0; text && at < asked && at < SHOWN; at++)
        length += (size_t)snprintf(line + length, 3, "%02x", text[at]);
    line[length++] = '\n';
    real_write()(file, line, length);
}

ssize_t read(int descriptor, void *buffer, size_t size)
{
    static transfer real;
    ssize_t answered;
    if (!real)
        real = (transfer)dlsym(RTLD_NEXT, "read");
    answered = real(descriptor, buffer, size);
    record("read", descriptor, size, answered, NULL);
    return answered;
}

ssize_t write(int descriptor, const void *text, size_t size)
{
    ssize_t answered = real_write()(descriptor, (void *)text, size);
    record("write", descriptor, size, answered, text);
    return answered;
}

int setsockopt(int descriptor, int level, int option, const void *value, socklen_t size)
{
    static int (*real)(int, int, int, const void *, socklen_t);
    int answered;
    if (!real)
        real = (int (*)(int, int, int, const void *, socklen_t))dlsym(RTLD_NEXT, "setsockopt");
    answered = real(descriptor, level, option, value, size);
    if (level == SOL_SOCKET && option == SO_RCVTIMEO)
        record("limit", descriptor, (size_t)((const struct timeval *)value)->tv_sec, answered, NULL);
    return answered;
}
