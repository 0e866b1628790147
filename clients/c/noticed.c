/* See noticed.h. */
#define _POSIX_C_SOURCE 200809L
#include "noticed.h"
#include <errno.h>
#include <poll.h>
#include <string.h>
#include <sys/socket.h>
#include <sys/un.h>
#include <time.h>
#include <unistd.h>

/* A frame in the making. Once it is too long, its size is 0. */
struct frame {
    unsigned char *to;
    size_t size;
};

static void number_to(unsigned char *to, uint64_t number, int width)
{
    for (; width > 0; number >>= 8)
        to[--width] = (unsigned char)(number & 255);
}

static void put(struct frame *frame, const void *bytes, size_t size)
{
    int fits = frame->size > 0 && size <= 4 + NOTICED_LONGEST_FRAME - frame->size;
    if (fits && size > 0)
        memcpy(frame->to + frame->size, bytes, size);
    frame->size = fits ? frame->size + size : 0;
    number_to(frame->to, frame->size - 4, 4);
}

static void put_number(struct frame *frame, uint64_t number, int width)
{
    unsigned char bytes[8];
    number_to(bytes, number, width);
    put(frame, bytes, (size_t)width);
}

static void put_text(struct frame *frame, const char *text, size_t longest)
{
    size_t size = text == NULL ? 0 : strnlen(text, longest);
    put_number(frame, size, 2);
    put(frame, text, size);
}

/* The size of a reply code that a line begins with, as 550; 0 without one. */
static size_t code_size(const char *line, size_t size)
{
    int is_code = size >= 3 && *line >= '2' && *line <= '5' && strspn(line, "0123456789") == 3;
    return is_code && (size == 3 || line[3] == ' ' || line[3] == '-') ? 3 : 0;
}

/* The size of a status that a line begins with, as 5.1.1; 0 without one. */
static size_t status_size(const char *line, size_t size)
{
    static const char *const digits = "0123456789";
    if (size < 5 || strchr("245", *line) == NULL || line[1] != '.')
        return 0;
    size_t subject = strspn(line + 2, digits), at = 2 + subject;
    if (subject < 1 || subject > 3 || line[at] != '.')
        return 0;
    size_t detail = strspn(line + at + 1, digits), end = at + 1 + detail;
    return detail >= 1 && detail <= 3 && (end == size || line[end] == ' ' || line[end] == '-') ? end : 0;
}

/* How many bytes of a line are a code that it begins with and what is between that and the rest. */
static size_t behind(const char *line, size_t size, const char *code, size_t code_size)
{
    if (code_size == 0 || size < code_size || memcmp(line, code, code_size) != 0)
        return 0;
    if (size == code_size)
        return size;
    if (line[code_size] != ' ' && line[code_size] != '-')
        return 0;
    size_t at = code_size + 1;
    while (at < size && line[at] == ' ')
        at++;
    return at;
}

/* A text in the making, which is cut at its end. */
struct said {
    char text[NOTICED_LONGEST_TEXT];
    size_t size;
};

/* Adds a part, behind a space unless it is the first. */
static void add(struct said *said, const char *part, size_t size)
{
    if (size > 0 && said->size > 0 && said->size < sizeof said->text)
        said->text[said->size++] = ' ';
    if (size > sizeof said->text - said->size)
        size = sizeof said->text - said->size;
    memcpy(said->text + said->size, part, size);
    said->size += size;
}

/* A text of several lines as one. Each line of a reply repeats the reply code (RFC 5321 section 4.2.1), and often the
 * status: both are kept once. Line ends become a space; the daemon would make each of their bytes a question mark. */
static void put_one_line(struct frame *frame, const char *text)
{
    struct said said = { .size = 0 };
    const char *code = NULL, *status = NULL;
    size_t of_code = 0, of_status = 0;
    if (text != NULL && text[strcspn(text, "\r\n")] == '\0')
        add(&said, text, strnlen(text, sizeof said.text));
    else
        while (text != NULL && *(text += strspn(text, "\r\n \t")) != '\0') {
            size_t size = strcspn(text, "\r\n"), at = 0;
            const char *end = text + size;
            while (text[size - 1] == ' ' || text[size - 1] == '\t')
                size--;
            if (code == NULL) {
                code = text;
                of_code = code_size(text, size);
                at = behind(text, size, code, of_code);
                status = text + at;
                of_status = status_size(status, size - at);
                add(&said, code, of_code);
            } else {
                at = behind(text, size, code, of_code);
                at += behind(text + at, size - at, status, of_status);
            }
            add(&said, text + at, size - at);
            text = end;
        }
    put_number(frame, said.size, 2);
    put(frame, said.text, said.size);
}

size_t noticed_encode_closing(unsigned char *to, uint8_t kind, uint32_t number, struct noticed_key key)
{
    struct frame frame = { to, 4 };
    put_number(&frame, 3, 1);
    put_number(&frame, kind, 1);
    put_number(&frame, number, 4);
    put_number(&frame, key.service, 1);
    put_text(&frame, key.queue_id, NOTICED_LONGEST_FRAME);
    return frame.size;
}

size_t noticed_encode_append(unsigned char *to, uint32_t number, struct noticed_key key, const struct noticed_outcome *it)
{
    struct frame frame = { to, noticed_encode_closing(to, 1, number, key) };
    put_text(&frame, it->original_recipient, NOTICED_LONGEST_FRAME);
    put_text(&frame, it->recipient, NOTICED_LONGEST_FRAME);
    put_number(&frame, it->action, 1);
    put_text(&frame, it->status, NOTICED_LONGEST_FRAME);
    put_text(&frame, it->remote_mta, NOTICED_LONGEST_FRAME);
    put_one_line(&frame, it->diagnostic);
    put_one_line(&frame, it->reason);
    put_number(&frame, it->last_attempt == 0 ? UINT64_MAX : it->last_attempt, 8);
    put_number(&frame, it->retry_until == 0 ? UINT64_MAX : it->retry_until, 8);
    put_text(&frame, it->recipient_type, NOTICED_LONGEST_FRAME);
    put_text(&frame, it->original_type, NOTICED_LONGEST_FRAME);
    put_text(&frame, it->diagnostic_type, NOTICED_LONGEST_FRAME);
    put_text(&frame, it->extensions, NOTICED_LONGEST_FRAME);
    return frame.size;
}

/* The size of the lines before the first empty one. */
static size_t header_size(const char *text, size_t size)
{
    char before = '\n';
    for (size_t at = 0; at < size; before = text[at++])
        if (before == '\n' && (text[at] == '\n' || (text[at] == '\r' && at + 1 < size && text[at + 1] == '\n')))
            return at;
    return size;
}

size_t noticed_encode_flush(unsigned char *to, uint32_t number, struct noticed_key key, const struct noticed_notice *it)
{
    int is_cut = it->header_size > NOTICED_LONGEST_HEADER && (it->returned == NOTICED_HEADER || it->returned == NOTICED_MESSAGE_OR_HEADER);
    size_t size = is_cut ? header_size(it->header, it->header_size) : it->header_size;
    if (size > NOTICED_LONGEST_HEADER || it->return_path == NULL || *it->return_path == '\0' || it->moment == 0 || it->arrival == 0)
        return 0;
    struct frame frame = { to, noticed_encode_closing(to, 2, number, key) };
    put_number(&frame, it->moment, 8);
    put_number(&frame, it->arrival, 8);
    put_text(&frame, strcmp(it->return_path, NOTICED_NULL_PATH) == 0 ? NULL : it->return_path, NOTICED_LONGEST_FRAME);
    put_text(&frame, it->envelope_id, NOTICED_LONGEST_FRAME);
    put_number(&frame, size, 2);
    put(&frame, it->header, size);
    put_number(&frame, it->expected, 4);
    put_number(&frame, is_cut ? NOTICED_HEADER : it->returned == NOTICED_MESSAGE_OR_HEADER ? NOTICED_MESSAGE : it->returned, 1);
    put_number(&frame, it->wording == 0 ? NOTICED_BY_OUTCOME : it->wording == NOTICED_BY_SERVICE ? 0 : it->wording, 1);
    put_text(&frame, it->extensions, NOTICED_LONGEST_FRAME);
    return frame.size;
}

static uint64_t number_at(const unsigned char *bytes, int width)
{
    uint64_t number = 0;
    for (int at = 0; at < width; at++)
        number = number << 8 | bytes[at];
    return number;
}

int noticed_decode(const unsigned char *body, size_t size, uint32_t *number, struct noticed_answer *answer)
{
    if ((size != 10 && (size != 18 || body[1] != NOTICED_SEALED)) || body[0] != 1 || body[1] < 1 || body[1] > 13)
        return 0;
    *number = (uint32_t)number_at(body + 2, 4);
    uint64_t serial = number_at(body + 10, (int)size - 10);
    *answer = (struct noticed_answer){ (enum noticed_reply)body[1], (uint32_t)number_at(body + 6, 4), size == 18, serial };
    return 1;
}

/* The words of the number of a refusal. */
static const char *fault(uint32_t number)
{
    static const char *const words[] = {
        [1] = "the final recipient is not an address",
        [2] = "the original recipient is neither empty nor an address",
        [3] = "the action is unknown, or the service's log takes none of it",
        [4] = "the status is not a status code",
        [5] = "the class of the status does not fit the action",
        [6] = "the remote system's name is neither empty nor a name",
        [7] = "the diagnostic is too long",
        [8] = "the reason is too long",
        [9] = "memory was refused",
        [10] = "a time until which delivery is retried, for a recipient that is not delayed",
        [15] = "the type of the final recipient is neither empty nor the name of a type",
        [16] = "the type of the original recipient is malformed, or there is no original recipient",
        [17] = "the type of the diagnostic is malformed, or there is no diagnostic",
        [18] = "it is unknown whether the header field holds the header or the message",
        [19] = "the wording of a notice is unknown",
        [20] = "the extension fields are malformed",
        [21] = "the version of a request is unknown",
        [22] = "the kind of a request, or of an answer's reply, is unknown",
        [23] = "a request ends before its fields do",
        [24] = "bytes follow the last field of a request",
        [25] = "the service is unknown",
        [26] = "the queue id is malformed",
        [27] = "a moment is after the year 9999",
        [28] = "the returned header is too long",
        [29] = "the return path is neither empty nor an address",
        [30] = "the envelope id is neither empty nor valid",
    };
    const char *found = number < sizeof words / sizeof *words ? words[number] : NULL;
    return found != NULL ? found : "the request was refused: see noticed help faults";
}

const char *noticed_words(enum noticed_error error, const struct noticed_answer *answer)
{
    switch (error) {
    case NOTICED_OK: return "the request was answered";
    case NOTICED_INVALID: return "the request is too long, or a flush without return path, moment or arrival";
    case NOTICED_UNREACHABLE: return "no daemon carried the request out in time";
    case NOTICED_UNANSWERED: return "an append was sent and not answered: it may be logged";
    case NOTICED_DENIED: return "no permission to connect";
    case NOTICED_LONG_PATH: return "the socket's path is longer than 107 bytes";
    case NOTICED_REFUSAL: return fault(answer->value);
    }
    return "an unknown error";
}

static long long now(void) /* milliseconds of a clock that is never set */
{
    struct timespec time;
    clock_gettime(CLOCK_MONOTONIC, &time);
    return (long long)time.tv_sec * 1000 + time.tv_nsec / 1000000;
}

void noticed_init(struct noticed_client *client, const char *path)
{
    client->limits = (struct noticed_limits){ 30000, 60000, 30000, 300000, 10000 };
    client->path = path;
    client->is_reached = 0;
    client->stream = -1;
}

void noticed_close(struct noticed_client *client)
{
    if (client->stream >= 0)
        close(client->stream);
    client->stream = -1;
}

/* Moves all bytes until a moment; 0 if it fails. */
static int moves(struct noticed_client *client, unsigned char *bytes, size_t size, int is_read, long long until)
{
    while (size > 0) {
        ssize_t moved = is_read ? recv(client->stream, bytes, size, 0) : send(client->stream, bytes, size, MSG_NOSIGNAL);
        if (moved > 0) {
            bytes += moved;
            size -= (size_t)moved;
        } else if (moved == 0 || (errno != EAGAIN && errno != EINTR) || (client->is_silent = now() >= until)) {
            return 0;
        } else {
            poll(&(struct pollfd){ client->stream, is_read ? POLLIN : POLLOUT, 0 }, 1, (int)(until - now()) + 1);
        }
    }
    return 1;
}

/* Sends a frame and reads its answer. UNREACHABLE: it was not sent whole; UNANSWERED: it was. */
static enum noticed_error exchange(struct noticed_client *client, unsigned char *frame, size_t size, int limit,
                                   struct noticed_answer *answer)
{
    unsigned char body[4 + 18];
    uint32_t number;
    client->is_silent = 0;
    if (!moves(client, frame, size, 0, now() + client->limits.send))
        return NOTICED_UNREACHABLE;
    long long until = now() + limit;
    if (!moves(client, body, 4, 1, until) || (size = (size_t)number_at(body, 4)) > 18 || !moves(client, body, size, 1, until)
        || !noticed_decode(body, size, &number, answer) || number != client->number)
        return NOTICED_UNANSWERED;
    client->number++;
    return NOTICED_OK;
}

static enum noticed_error connects(struct noticed_client *client)
{
    struct sockaddr_un to = { .sun_family = AF_UNIX };
    struct noticed_answer answer;
    unsigned char greeting[] = { 0, 0, 0, 1, 0 }; /* is refused: its answer says that a worker is there */
    if (strlen(client->path) > NOTICED_LONGEST_PATH)
        return NOTICED_LONG_PATH;
    strcpy(to.sun_path, client->path);
    client->stream = socket(AF_UNIX, SOCK_STREAM | SOCK_CLOEXEC | SOCK_NONBLOCK, 0);
    client->number = 0;
    if (client->stream < 0)
        return NOTICED_UNREACHABLE;
    /* that does not wait: EAGAIN says that the queue of the socket is full, so a daemon listens */
    int is_connected = connect(client->stream, (struct sockaddr *)&to, sizeof to) == 0;
    client->is_reached |= is_connected || errno == EAGAIN;
    if (!is_connected)
        return errno == EACCES ? NOTICED_DENIED : NOTICED_UNREACHABLE;
    int is_served = exchange(client, greeting, sizeof greeting, client->limits.worker, &answer) == NOTICED_OK;
    return is_served ? NOTICED_OK : NOTICED_UNREACHABLE;
}

/* The answer to the frame of this size in the client. */
static enum noticed_error ask(struct noticed_client *client, size_t size, int again, struct noticed_answer *answer)
{
    long long began = now();
    if (size == 0)
        return NOTICED_INVALID;
    for (int pause = 50;; pause = pause < 2500 ? 2 * pause : 5000) {
        enum noticed_error error = client->stream < 0 ? connects(client) : NOTICED_OK;
        if (error == NOTICED_OK) {
            number_to(client->frame + 6, client->number, 4);
            error = exchange(client, client->frame, size, client->limits.answer, answer);
        }
        if (error == NOTICED_OK && answer->reply != NOTICED_REFUSED)
            return NOTICED_OK;
        if (error == NOTICED_OK && answer->value != 44 && answer->value != 46)
            return NOTICED_REFUSAL;
        noticed_close(client); /* after 44 and 46 too: another connection serves */
        if (error == NOTICED_LONG_PATH || error == NOTICED_DENIED || (error == NOTICED_UNANSWERED && !again))
            return error;
        int limit = client->limits.request;
        if (!client->is_reached && client->limits.reach < limit)
            limit = client->limits.reach;
        if (now() + pause > began + limit)
            return NOTICED_UNREACHABLE;
        poll(NULL, 0, pause);
    }
}

enum noticed_error noticed_append(struct noticed_client *client, struct noticed_key key, const struct noticed_outcome *outcome,
                                  int place, struct noticed_answer *answer)
{
    /* no log has so many outcomes: the answer is DIFFERS, and nothing is changed */
    struct noticed_notice count = { .return_path = NOTICED_NULL_PATH, .moment = 1, .arrival = 1, .expected = NOTICED_ANY - 1 };
    do {
        enum noticed_error error = ask(client, noticed_encode_append(client->frame, 0, key, outcome), 0, answer);
        if (error != NOTICED_UNANSWERED || place < 0 || client->is_silent)
            return error;
        if (noticed_flush(client, key, &count, answer) != NOTICED_OK || answer->value > (uint32_t)place + 1)
            return NOTICED_UNANSWERED;
    } while (answer->value <= (uint32_t)place);
    *answer = (struct noticed_answer){ NOTICED_LOGGED, (uint32_t)place, 0, 0 };
    return NOTICED_OK;
}

enum noticed_error noticed_flush(struct noticed_client *client, struct noticed_key key, const struct noticed_notice *notice,
                                 struct noticed_answer *answer)
{
    return ask(client, noticed_encode_flush(client->frame, 0, key, notice), 1, answer);
}

enum noticed_error noticed_discard(struct noticed_client *client, struct noticed_key key, struct noticed_answer *answer)
{
    return ask(client, noticed_encode_closing(client->frame, 3, 0, key), 1, answer);
}

enum noticed_error noticed_forget(struct noticed_client *client, struct noticed_key key, struct noticed_answer *answer)
{
    return ask(client, noticed_encode_closing(client->frame, 4, 0, key), 1, answer);
}
