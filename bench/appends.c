/* Clients that ask at once, each for one append after another, and wait for each answer: `appends frames SOCKET FILE..` over one
   connection each, with the frames that a file has; `appends sessions SOCKET FILE..` over a connection for each frame;
   `appends requests SOCKET FILE..` over a connection for each request to bounce(8), as Postfix's programs do, with the requests
   that a file has, each behind its length in four bytes. It prints how many were answered that they are kept, and the seconds
   from the first to the last. */
#define _GNU_SOURCE
#include <pthread.h>
#include <stdint.h>
#include <stdio.h>
#include <stdlib.h>
#include <string.h>
#include <sys/socket.h>
#include <sys/stat.h>
#include <sys/un.h>
#include <time.h>
#include <unistd.h>

enum { MOST = 64, LOGGED = 1, ANSWER = 14 };
static const char DONE[] = "status\0" "0\0";

struct client {
    pthread_t thread;
    const char *file;
    unsigned char *bytes;
    size_t size;
    unsigned long kept;
};

static struct sockaddr_un place = {.sun_family = AF_UNIX};
static int keeps, by_frames; /* the connection; as the daemon takes them */

static void fail(const char *what)
{
    perror(what);
    exit(1);
}

static double now(void)
{
    struct timespec it;
    clock_gettime(CLOCK_MONOTONIC, &it);
    return (double)it.tv_sec + 1e-9 * (double)it.tv_nsec;
}

static int connected(void)
{
    int to = socket(AF_UNIX, SOCK_STREAM, 0);
    if (to < 0 || connect(to, (struct sockaddr *)&place, sizeof place))
        fail("connect");
    return to;
}

static void send_all(int to, const unsigned char *bytes, size_t size)
{
    while (size) {
        ssize_t sent = write(to, bytes, size);
        if (sent <= 0)
            fail("write");
        bytes += sent;
        size -= (size_t)sent;
    }
}

/* What the peer says, up to so many bytes or to its end. */
static size_t heard(int from, unsigned char *bytes, size_t most)
{
    size_t size = 0;
    while (size < most) {
        ssize_t more = read(from, bytes + size, most - size);
        if (more < 0)
            fail("read");
        if (!more)
            break;
        size += (size_t)more;
    }
    return size;
}

static size_t length_at(const unsigned char *bytes)
{
    return (size_t)bytes[0] << 24 | (size_t)bytes[1] << 16 | (size_t)bytes[2] << 8 | bytes[3];
}

/* One frame over a connection: whether it was answered that it is kept. */
static int asked_by_frame(int to, const unsigned char *frame, size_t size)
{
    unsigned char answer[ANSWER];
    send_all(to, frame, size);
    return heard(to, answer, ANSWER) == ANSWER && answer[5] == LOGGED;
}

/* One request of bounce(8) over a connection: whether it was answered that it is kept. */
static int asked_by_request(int to, const unsigned char *request, size_t size)
{
    unsigned char said[512];
    send_all(to, request, size);
    return memmem(said, heard(to, said, sizeof said), DONE, sizeof DONE - 1) != NULL;
}

static void *ask_all(void *of)
{
    struct client *client = of;
    int to = -1;
    for (size_t at = 0, size; at < client->size; at += 4 + size) {
        size = length_at(client->bytes + at);
        if (to < 0)
            to = connected();
        client->kept += by_frames ? asked_by_frame(to, client->bytes + at, 4 + size)
                                  : asked_by_request(to, client->bytes + at + 4, size);
        if (!keeps) {
            close(to);
            to = -1;
        }
    }
    if (to >= 0)
        close(to);
    return NULL;
}

static void take(struct client *client, const char *file)
{
    struct stat found;
    FILE *from = fopen(file, "rb");
    if (!from || stat(file, &found))
        fail(file);
    client->size = (size_t)found.st_size;
    client->bytes = malloc(client->size);
    if (!client->bytes || fread(client->bytes, 1, client->size, from) != client->size)
        fail(file);
    fclose(from);
}

int main(int count, char **words)
{
    static struct client clients[MOST];
    int many = count - 3;
    unsigned long kept = 0;
    double began;
    if (many < 1 || many > MOST || strlen(words[2]) >= sizeof place.sun_path)
        return 2;
    keeps = !strcmp(words[1], "frames");
    by_frames = keeps || !strcmp(words[1], "sessions");
    strcpy(place.sun_path, words[2]);
    for (int it = 0; it < many; it++)
        take(&clients[it], words[3 + it]);
    began = now();
    for (int it = 0; it < many; it++)
        if (pthread_create(&clients[it].thread, NULL, ask_all, &clients[it]))
            fail("thread");
    for (int it = 0; it < many; it++) {
        pthread_join(clients[it].thread, NULL);
        kept += clients[it].kept;
    }
    printf("%lu %.6f\n", kept, now() - began);
    return 0;
}
