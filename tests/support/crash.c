/* Preloaded into a program (LD_PRELOAD), it counts the calls that change or sync the file that JOURNAL names, or one beside
   it (`.new` or `.next` after its name): write, pwrite, fsync, fdatasync, link, unlink and rename; and, once a file was renamed, the sync
   of its folder.

   FAIL_AT: the call of this number, from 1, does nothing and answers the error FAIL_WITH (a number). A pwrite may have written
   the first half of its bytes before: HALF.

   CRASH_AT: the machine stops within the call of this number. Of what was written to the file since its last sync, this call's
   bytes among it, each byte is kept or lost: none are with KEEP=none, all with KEEP=all, the first of them with KEEP=first,
   and else those that the bits of a generator choose that begins at KEEP. The process ends with the status 77 at once. The file
   beside isn't torn, since it has no name that counts. Once it is renamed, and until the folder is synced, a crash leaves it
   under the name, torn where it wasn't synced, or the file that stood there: that one with KEEP=none, the new one with KEEP=all
   and KEEP=first, else as the generator says.

   The file is small: it is held in memory as it was at its last sync. */
#define _GNU_SOURCE
#include <dlfcn.h>
#include <errno.h>
#include <fcntl.h>
#include <stdint.h>
#include <stdio.h>
#include <stdlib.h>
#include <string.h>
#include <sys/stat.h>
#include <unistd.h>

#define LONGEST 65536 /* bytes of a file */

static unsigned long calls;
static uint64_t generator;
static unsigned char synced[LONGEST]; /* what the file had at its last sync */
static int known;                     /* whether that is so */
static int beside_synced;             /* whether the file beside was synced since it was written */
static unsigned char before[LONGEST]; /* what the name had before a rename */
static size_t before_size;
static int renamed; /* whether it has another file since, in a folder that isn't synced */

#define REAL(name) ((__typeof__(&name))dlsym(RTLD_NEXT, #name))

static unsigned long number_of(const char *name)
{
    const char *it = getenv(name);
    return it ? strtoul(it, NULL, 10) : 0;
}

/* 1 for the journal's file, 2 for one beside it, 3 for their folder while a rename isn't synced, else 0. */
static int which(const char *path)
{
    const char *journal = getenv("JOURNAL");
    size_t length = journal ? strlen(journal) : 0, folder = strlen(path);
    if (!journal)
        return 0;
    if (renamed && folder < length && !strncmp(path, journal, folder) && strrchr(journal, '/') == journal + folder)
        return 3;
    if (strncmp(path, journal, length))
        return 0;
    return !path[length] ? 1 : !strcmp(path + length, ".new") || !strcmp(path + length, ".next") ? 2 : 0;
}

/* The journal's file, opened anew. */
static int journal_file(void)
{
    int descriptor = open(getenv("JOURNAL"), O_RDWR);
    if (descriptor < 0)
        _exit(78);
    return descriptor;
}

static int which_descriptor(int descriptor)
{
    char link[64], path[4096];
    ssize_t length;
    snprintf(link, sizeof link, "/proc/self/fd/%d", descriptor);
    length = readlink(link, path, sizeof path - 1);
    if (length < 0)
        return 0;
    path[length] = 0;
    return which(path);
}

static size_t size_of(int descriptor)
{
    struct stat found;
    if (fstat(descriptor, &found) || found.st_size > LONGEST)
        _exit(78);
    return (size_t)found.st_size;
}

static void take(int descriptor)
{
    size_t size = size_of(descriptor);
    if (REAL(pread)(descriptor, synced, size, 0) != (ssize_t)size)
        _exit(78);
    known = 1;
}

static int is_kept(const char *keep, size_t changed)
{
    if (!strcmp(keep, "none") || !strcmp(keep, "all"))
        return !strcmp(keep, "all");
    if (!strcmp(keep, "first"))
        return changed == 0;
    generator = generator * 6364136223846793005u + 1442695040888963407u;
    return (int)(generator >> 63);
}

/* Gives the name the file back that it had before a rename, where a crash takes the rename away. */
static void crash_name(const char *keep)
{
    int descriptor;
    if (!renamed || !strcmp(keep, "all") || !strcmp(keep, "first") || (strcmp(keep, "none") && is_kept(keep, 0)))
        return;
    descriptor = journal_file();
    if (REAL(pwrite)(descriptor, before, before_size, 0) != (ssize_t)before_size)
        _exit(78);
    _exit(77);
}

/* Leaves of the file what a crash leaves, once this call's bytes are written. */
static void crash(int descriptor)
{
    static unsigned char written[LONGEST];
    const char *keep = getenv("KEEP") ? getenv("KEEP") : "all";
    size_t size = size_of(descriptor), at, changed = 0;
    if (REAL(pread)(descriptor, written, size, 0) != (ssize_t)size)
        _exit(78);
    generator = strtoull(keep, NULL, 10);
    crash_name(keep);
    for (at = 0; known && at < size; at++)
        if (written[at] != synced[at] && !is_kept(keep, changed++))
            written[at] = synced[at];
    if (REAL(pwrite)(descriptor, written, size, 0) != (ssize_t)size)
        _exit(78);
    _exit(77);
}

/* Counts a call: 1 where it is to fail, 2 where the machine stops within it, else 0. */
static int counted(void)
{
    calls++;
    if (calls == number_of("FAIL_AT")) {
        errno = (int)number_of("FAIL_WITH");
        return 1;
    }
    return calls == number_of("CRASH_AT") ? 2 : 0;
}

ssize_t write(int descriptor, const void *text, size_t size)
{
    int of = which_descriptor(descriptor), end = of ? counted() : 0;
    if (of == 2)
        beside_synced = 0;
    if (end == 2)
        _exit(77);
    return end ? -1 : REAL(write)(descriptor, text, size);
}

ssize_t pwrite(int descriptor, const void *text, size_t size, off_t at)
{
    ssize_t done;
    int of = which_descriptor(descriptor), end;
    if (!of)
        return REAL(pwrite)(descriptor, text, size, at);
    if (of == 2) {
        beside_synced = 0;
        end = counted();
        if (end == 2)
            _exit(77);
        return end ? -1 : REAL(pwrite)(descriptor, text, size, at);
    }
    if (!known)
        take(descriptor);
    end = counted();
    if (end == 1) {
        int error = errno;
        if (getenv("HALF"))
            REAL(pwrite)(descriptor, text, size / 2, at);
        errno = error;
        return -1;
    }
    done = REAL(pwrite)(descriptor, text, size, at);
    if (end == 2)
        crash(descriptor);
    return done;
}

ssize_t pwrite64(int descriptor, const void *text, size_t size, off64_t at)
{
    return pwrite(descriptor, text, size, (off_t)at);
}

static int sync_by(int (*real)(int), int descriptor)
{
    int of = which_descriptor(descriptor), end = of ? counted() : 0, done;
    if (end == 2 && of != 2)
        crash(of == 1 ? descriptor : journal_file());
    if (end)
        return end == 2 ? (_exit(77), -1) : -1;
    done = real(descriptor);
    if (!done && of == 1)
        take(descriptor);
    if (!done && of == 2)
        beside_synced = 1;
    if (!done && of == 3)
        renamed = 0;
    return done;
}

int fsync(int descriptor)
{
    return sync_by(REAL(fsync), descriptor);
}

int fdatasync(int descriptor)
{
    return sync_by(REAL(fdatasync), descriptor);
}

int rename(const char *from, const char *to)
{
    int of = which(to), end = of == 1 ? counted() : 0, done, descriptor;
    if (of != 1)
        return REAL(rename)(from, to);
    if (end == 1)
        return -1;
    descriptor = journal_file();
    before_size = size_of(descriptor);
    if (REAL(pread)(descriptor, before, before_size, 0) != (ssize_t)before_size)
        _exit(78);
    close(descriptor);
    done = REAL(rename)(from, to);
    if (done)
        return done;
    descriptor = journal_file();
    if (beside_synced)
        take(descriptor);
    else
        memset(synced, 0, sizeof synced);
    known = renamed = 1;
    if (end == 2)
        crash(descriptor);
    close(descriptor);
    return 0;
}

int link(const char *from, const char *to)
{
    int end = which(to) ? counted() : 0;
    if (end == 2)
        _exit(77);
    return end ? -1 : REAL(link)(from, to);
}

int unlink(const char *path)
{
    int end = which(path) ? counted() : 0;
    if (end == 2)
        _exit(77);
    return end ? -1 : REAL(unlink)(path);
}
