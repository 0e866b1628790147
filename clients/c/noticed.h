/* A client of noticed(8): it logs what happened to each recipient of a mail, and has the notice made. C99 and POSIX.
 *
 *     struct noticed_client client;
 *     struct noticed_answer answer;
 *     struct noticed_key key = { NOTICED_BOUNCE, "A1B2C3" };
 *     struct noticed_outcome outcome = { .recipient = "bob@example.org", .action = NOTICED_FAILED, .status = "5.1.1" };
 *     struct noticed_notice notice = { .return_path = "ann@example.com", .moment = now, .arrival = arrived, .expected = 1 };
 *     noticed_init(&client, "/run/noticed/socket");
 *     enum noticed_error error = noticed_append(&client, key, &outcome, 0, &answer);
 *     if (error == NOTICED_OK && answer.reply == NOTICED_LOGGED)
 *         error = noticed_flush(&client, key, &notice, &answer);
 *     if (error != NOTICED_OK)
 *         fprintf(stderr, "%s\n", noticed_words(error, &answer));
 *     noticed_close(&client);
 *
 * The fields are those of noticed-protocol(5), version 3: the daemon tests their values. A null pointer is an empty text.
 * Open a client for one message, then close it: it occupies a worker of the daemon. Threads cannot share one.
 *
 * When may a request be repeated? The client waits for a daemon, connects again, and repeats what is safe: a request that
 * was not sent whole, and a flush, discard or forget without an answer (a repeated flush is answered CLOSED then). An
 * append without an answer may have been logged. If this client alone appends to the log, give append its place: how many
 * outcomes you logged there before. When the connection has ended, the client counts the log, and appends again if the
 * outcome is missing. Otherwise it returns NOTICED_UNANSWERED: discard and forget the log, and append all outcomes again. */
#ifndef NOTICED_H
#define NOTICED_H
#include <stddef.h>
#include <stdint.h>
#ifdef __cplusplus
extern "C" {
#endif

enum { NOTICED_BOUNCE = 1, NOTICED_DEFER, NOTICED_TRACE }; /* services: for failures, for delays, for other reports */
enum { NOTICED_FAILED = 1, NOTICED_DELAYED, NOTICED_DELIVERED, NOTICED_RELAYED, NOTICED_EXPANDED }; /* actions */
enum { NOTICED_HEADER, NOTICED_MESSAGE, NOTICED_EIGHT_BIT_MESSAGE, /* the third: if the next server offers 8BITMIME */
       NOTICED_MESSAGE_OR_HEADER };                                   /* its header alone if it is too long */
enum { NOTICED_BY_OUTCOME = 1, NOTICED_BY_SERVICE };                  /* how words are chosen; 0 too is by the outcome */
enum { NOTICED_LONGEST_FRAME = 65536, NOTICED_LONGEST_HEADER = 32768, NOTICED_LONGEST_TEXT = 800,
       NOTICED_LONGEST_PATH = 107, NOTICED_NO_PLACE = -1 };
#define NOTICED_NULL_PATH "<>"  /* the null return path, which gets no notice; an empty path is an error */
#define NOTICED_ANY UINT32_MAX  /* expected: any number of outcomes */

/* What an answer says, and what to do. */
enum noticed_reply {
    NOTICED_LOGGED = 1,     /* behind value others; below the place: the daemon lost outcomes: append them again */
    NOTICED_CLOSED = 2,     /* the log takes no more; after a flush: the notice is made */
    NOTICED_TABLE_FULL = 3, /* no key is free: forget one, or try later */
    NOTICED_LOG_FULL = 4,   /* flush, forget, and append the rest for a notice of its own */
    NOTICED_NOTHING = 5,    /* the log is empty; if it should not be, the daemon lost outcomes: forget, append, flush */
    NOTICED_NO_RETURN = 6,  /* the log is dropped, since the return path is null */
    NOTICED_SEALED = 7,     /* a notice of value outcomes is made */
    NOTICED_DISCARDED = 8,  /* the log of value outcomes is dropped */
    NOTICED_GONE = 9,       /* never sent */
    NOTICED_REFUSED = 10,   /* nothing was changed; the error is NOTICED_REFUSAL */
    NOTICED_FORGOTTEN = 11, /* the key is free */
    NOTICED_NOT_CLOSED = 12, /* the log is open, or was forgotten before */
    NOTICED_DIFFERS = 13    /* nothing was changed; the log has value outcomes: append what is missing, and flush */
};

enum noticed_error {
    NOTICED_OK,
    NOTICED_INVALID,     /* too long, or a flush without a return path, moment or arrival */
    NOTICED_UNREACHABLE, /* no daemon in time: keep the message, and try again with the next run of your queue */
    NOTICED_UNANSWERED,  /* an append was sent and not answered: it may be logged */
    NOTICED_DENIED,      /* no permission to connect */
    NOTICED_LONG_PATH,   /* no socket has so long a path */
    NOTICED_REFUSAL      /* nothing was changed; answer.value is the number: after 9 try later, else correct the request */
};

struct noticed_key {
    uint8_t service;
    const char *queue_id;
};

/* What happened to a recipient. A moment is seconds since 1970, 0 for none; extensions are lines that LF ends. */
struct noticed_outcome {
    const char *recipient, *status, *original_recipient, *remote_mta;
    const char *diagnostic, *reason; /* several lines are sent as one, which is cut after NOTICED_LONGEST_TEXT bytes */
    const char *recipient_type, *original_type, *diagnostic_type, *extensions;
    uint64_t last_attempt, retry_until;
    uint8_t action;
};

/* What a flush says: moment is the notice's date, expected how many outcomes the log must have. */
struct noticed_notice {
    const char *return_path, *envelope_id, *extensions, *header;
    size_t header_size;
    uint64_t moment, arrival;
    uint32_t expected;
    uint8_t returned, wording;
};

struct noticed_answer {
    enum noticed_reply reply;
    uint32_t value;
    int has_serial;
    uint64_t serial; /* of a notice: a part of its Message-ID */
};

/* Milliseconds to send a request, until a worker is free, until an answer, for all tries of a request, and for all of
 * them while no daemon was ever reached. A connect does not wait. */
struct noticed_limits {
    int send, worker, answer, request, reach;
};

struct noticed_client {
    struct noticed_limits limits;
    const char *path; /* not copied */
    int stream, is_silent, is_reached;
    uint32_t number;
    unsigned char frame[4 + NOTICED_LONGEST_FRAME];
};

/* A client of the daemon at a socket, with the limits that noticed-protocol(5) recommends. */
void noticed_init(struct noticed_client *client, const char *path);
/* Ends the connection; the next request opens another. */
void noticed_close(struct noticed_client *client);

enum noticed_error noticed_append(struct noticed_client *, struct noticed_key, const struct noticed_outcome *, int place,
                                  struct noticed_answer *);
enum noticed_error noticed_flush(struct noticed_client *, struct noticed_key, const struct noticed_notice *,
                                 struct noticed_answer *);
enum noticed_error noticed_discard(struct noticed_client *, struct noticed_key, struct noticed_answer *);
/* Do it when no late outcome of the message can come. */
enum noticed_error noticed_forget(struct noticed_client *, struct noticed_key, struct noticed_answer *);

/* What an error means, in words; those of a refusal by its answer. */
const char *noticed_words(enum noticed_error error, const struct noticed_answer *answer);

/* Each writes a frame of at most 4 + NOTICED_LONGEST_FRAME bytes, and returns its size, or 0 if it is invalid. */
size_t noticed_encode_append(unsigned char *to, uint32_t number, struct noticed_key, const struct noticed_outcome *);
size_t noticed_encode_flush(unsigned char *to, uint32_t number, struct noticed_key, const struct noticed_notice *);
size_t noticed_encode_closing(unsigned char *to, uint8_t kind, uint32_t number, struct noticed_key); /* 3 discard, 4 forget */
/* Reads an answer of a frame without its length; 0 if it is not an answer. */
int noticed_decode(const unsigned char *body, size_t size, uint32_t *number, struct noticed_answer *answer);
#ifdef __cplusplus
}
#endif
#endif
