/* Preloaded into a program (LD_PRELOAD), it lets the machine stop, or a call fail, for the files in the folder that FOLDER names
   and the file that OUTBOX names. It counts the calls that write, sync, link, rename or take away one of these, or sync
   the folder; where ON is set, only those on the file of that name in the folder (journal, marks) or on the outbox (outbox).

   (A process that is killed leaves all that it wrote, synced or not: so kills alone show no loss.)

   FAIL_AT: the call of this number, from 1, does nothing and answers the error FAIL_WITH (a number). With FAIL_ALL each later
   one fails too.

   STOP_AT: the machine stops within the call of this number, which has done its work. Then what no sync has put on the disk is
   kept or lost: a generator that begins at KEEP decides of each byte of a write, of how much of the outbox's end is kept, and of
   how many of the links, renames and removals since the folder's last sync. KEEP=none loses all of them, KEEP=all none. The process
   ends with the status 77 at once.

   A file's old bytes are held for each write until it is synced, and a name that is taken away is held as a link in the folder
   SHADOW, which must be on the same file system, until the folder is synced. The calls come one after another, whichever thread
   makes them. */
#define _GNU_SOURCE
#include <dlfcn.h>
#include <errno.h>
#include <fcntl.h>
#include <pthread.h>
#include <stdint.h>
#include <stdio.h>
#include <stdlib.h>
#include <string.h>
#include <sys/stat.h>
#include <unistd.h>

#define REAL(name) ((__typeof__(&name))dlsym(RTLD_NEXT, #name))
#define STOPPED 77
#define BROKEN 78

/* What a write changed: the bytes before it (none where the file was shorter), kept until a sync. */
struct change {
    struct change *before;
    dev_t device;
    ino_t file;
    char path[512];
    off_t at;
    size_t size, had;
    unsigned char old[];
};

/* What was done to a name. */
struct naming {
    struct naming *before;
    char path[512];   /* the name that changed */
    char shadow[512]; /* what it had before, if anything */
};

static pthread_mutex_t one = PTHREAD_MUTEX_INITIALIZER;
static unsigned long calls, shadows;
static uint64_t generator;
static struct change *changes;
static struct naming *namings;

static unsigned long number_of(const char *name)
{
    const char *it = getenv(name);
    return it ? strtoul(it, NULL, 10) : 0;
}

static void must(int holds)
{
    if (!holds)
        _exit(BROKEN);
}

/* 1 for a file of the folder, 2 for the outbox, 3 for the folder itself, else 0. */
static int which(const char *path)
{
    const char *folder = getenv("FOLDER"), *outbox = getenv("OUTBOX");
    size_t length = folder ? strlen(folder) : 0;
    if (outbox && !strcmp(path, outbox))
        return 2;
    if (!folder || strncmp(path, folder, length))
        return 0;
    return !path[length] ? 3 : path[length] == '/' ? 1 : 0;
}

static int path_of(int descriptor, char *path)
{
    char link[64];
    ssize_t length;
    snprintf(link, sizeof link, "/proc/self/fd/%d", descriptor);
    length = readlink(link, path, 511);
    path[length < 0 ? 0 : length] = 0;
    return which(path);
}

/* Whether a generator keeps something. */
static int keeps(void)
{
    const char *keep = getenv("KEEP") ? getenv("KEEP") : "all";
    if (!strcmp(keep, "none") || !strcmp(keep, "all"))
        return !strcmp(keep, "all");
    generator = generator * 6364136223846793005u + 1442695040888963407u;
    return (int)(generator >> 63);
}

/* How much of so much is kept. */
static size_t front(size_t size)
{
    const char *keep = getenv("KEEP") ? getenv("KEEP") : "all";
    if (!strcmp(keep, "none") || !strcmp(keep, "all"))
        return strcmp(keep, "all") ? 0 : size;
    keeps();
    return (size_t)((generator >> 16) % (size + 1));
}

/* Takes a write's bytes away again, or some of them. */
static void undo_change(struct change *it)
{
    static unsigned char now[1 << 20];
    size_t at, part;
    int file = REAL(open)(it->path, O_RDWR);
    struct stat found;
    if (file < 0)
        return; /* its name is gone */
    must(!fstat(file, &found));
    if (found.st_ino != it->file || found.st_dev != it->device) {
        close(file);
        return;
    }
    if (it->had < it->size) { /* the file grew: a front of it is kept */
        if (found.st_size > it->at)
            must(!ftruncate(file, it->at + (off_t)front((size_t)(found.st_size - it->at))));
    } else
        for (at = 0; at < it->size; at += part) {
            size_t byte;
            part = it->size - at < sizeof now ? it->size - at : sizeof now;
            must(pread(file, now, part, it->at + (off_t)at) == (ssize_t)part);
            for (byte = 0; byte < part; byte++)
                if (now[byte] != it->old[at + byte] && !keeps())
                    now[byte] = it->old[at + byte];
            must(REAL(pwrite)(file, now, part, it->at + (off_t)at) == (ssize_t)part);
        }
    close(file);
}

/* Leaves what a machine leaves that stops. The names come first: a file whose name a crash takes away has none to be torn by. */
static void stop(void)
{
    struct naming *name;
    struct change *it;
    generator = number_of("KEEP");
    for (name = namings; name; name = name->before) {
        if (keeps())
            break; /* the names change in their order: those before one that is kept are kept */
        if (name->shadow[0])
            must(!REAL(rename)(name->shadow, name->path));
        else
            REAL(unlink)(name->path);
    }
    for (it = changes; it; it = it->before)
        undo_change(it);
    _exit(STOPPED);
}

/* Counts a call on this path: 1 where it is to fail, 2 where the machine stops within it, else 0. */
static int counted(const char *path)
{
    const char *on = getenv("ON"), *name = strrchr(path, '/');
    unsigned long fails = number_of("FAIL_AT");
    if (on && (which(path) == 2 ? strcmp(on, "outbox") : strcmp(on, name ? name + 1 : path)))
        return 0;
    calls++;
    if (fails && (calls == fails || (calls > fails && getenv("FAIL_ALL")))) {
        errno = (int)number_of("FAIL_WITH");
        return 1;
    }
    return calls == number_of("STOP_AT") ? 2 : 0;
}

/* Keeps what a write at this place will change. */
static void keep_old(int descriptor, const char *path, off_t at, size_t size)
{
    struct change *it = malloc(sizeof *it + size);
    struct stat found;
    ssize_t had;
    must(it && !fstat(descriptor, &found));
    *it = (struct change){.before = changes, .device = found.st_dev, .file = found.st_ino, .at = at, .size = size};
    snprintf(it->path, sizeof it->path, "%s", path);
    /* (a file that is appended to may not be opened for reading) */
    had = at < found.st_size ? pread(descriptor, it->old, size, at) : 0;
    must(had >= 0);
    it->had = (size_t)had;
    changes = it;
}

/* What is synced of a file can't be lost any more. */
static void forget_changes(int descriptor)
{
    struct change **it = &changes, *found;
    struct stat file;
    must(!fstat(descriptor, &file));
    while ((found = *it))
        if (found->file == file.st_ino && found->device == file.st_dev) {
            *it = found->before;
            free(found);
        } else
            it = &found->before;
}

/* Keeps what a name has before it is changed. */
static void keep_name(const char *path)
{
    struct naming *it = calloc(1, sizeof *it);
    must(it && getenv("SHADOW"));
    it->before = namings;
    snprintf(it->path, sizeof it->path, "%s", path);
    if (!access(path, F_OK)) {
        snprintf(it->shadow, sizeof it->shadow, "%s/%lu", getenv("SHADOW"), ++shadows);
        must(!REAL(link)(path, it->shadow));
    }
    namings = it;
}

/* The folder is synced: its names can't be lost any more. */
static void forget_names(void)
{
    while (namings) {
        struct naming *it = namings;
        namings = it->before;
        if (it->shadow[0])
            REAL(unlink)(it->shadow);
        free(it);
    }
}

static ssize_t written(int descriptor, const void *text, size_t size, off_t at, int appends)
{
    char path[512];
    struct stat found;
    ssize_t done = -1;
    int of = path_of(descriptor, path), end;
    if (!of)
        return appends ? REAL(write)(descriptor, text, size) : REAL(pwrite)(descriptor, text, size, at);
    pthread_mutex_lock(&one);
    end = counted(path);
    if (end != 1) {
        if (appends) {
            must(!fstat(descriptor, &found));
            at = of == 2 ? found.st_size : lseek(descriptor, 0, SEEK_CUR);
        }
        keep_old(descriptor, path, at, size);
        done = appends ? REAL(write)(descriptor, text, size) : REAL(pwrite)(descriptor, text, size, at);
    }
    if (end == 2)
        stop();
    pthread_mutex_unlock(&one);
    return done;
}

ssize_t write(int descriptor, const void *text, size_t size)
{
    return written(descriptor, text, size, 0, 1);
}

ssize_t pwrite(int descriptor, const void *text, size_t size, off_t at)
{
    return written(descriptor, text, size, at, 0);
}

static int synced(int (*real)(int), int descriptor)
{
    char path[512];
    int of = path_of(descriptor, path), end, done = -1;
    if (!of)
        return real(descriptor);
    pthread_mutex_lock(&one);
    end = counted(path);
    if (end == 2)
        stop(); /* before it has done anything: nobody was told that it had */
    if (!end)
        done = real(descriptor);
    if (!done && of == 3)
        forget_names();
    else if (!done)
        forget_changes(descriptor);
    pthread_mutex_unlock(&one);
    return done;
}

int fsync(int descriptor)
{
    return synced(REAL(fsync), descriptor);
}

int fdatasync(int descriptor)
{
    return synced(REAL(fdatasync), descriptor);
}

/* A file that has another name now is to be found by that. */
static void move_changes(const char *from, const char *to)
{
    struct change *it;
    for (it = changes; it; it = it->before)
        if (!strcmp(it->path, from))
            snprintf(it->path, sizeof it->path, "%s", to);
}

/* A call on names of the folder, of which the first is changed too where it is given. */
static int named(const char *first, const char *path, int (*two)(const char *, const char *), int (*single)(const char *), const char *from)
{
    int end, done = -1;
    if (which(path) != 1)
        return two ? two(from, path) : single(path);
    pthread_mutex_lock(&one);
    end = counted(path);
    if (end != 1) {
        if (first)
            keep_name(first);
        keep_name(path);
        done = two ? two(from, path) : single(path);
    }
    if (!done && two)
        move_changes(from, path);
    if (end == 2)
        stop();
    pthread_mutex_unlock(&one);
    return done;
}

int rename(const char *from, const char *to)
{
    return named(from, to, REAL(rename), NULL, from);
}

int link(const char *from, const char *to)
{
    return named(NULL, to, REAL(link), NULL, from);
}

int unlink(const char *path)
{
    return named(NULL, path, NULL, REAL(unlink), NULL);
}
