/* As driver.py, for the client in C. */
#include "noticed.h"
#include <stdio.h>
#include <stdlib.h>
#include <string.h>

static struct noticed_key key;
static struct noticed_outcome outcome;
static struct noticed_notice notice;
static struct noticed_client client;
static char kind[16];
static unsigned number;
static int place;

/* The bytes of digits, in their place, ended by NUL. */
static size_t from_hex(char *text)
{
    size_t size = strlen(text) / 2;
    unsigned byte;
    for (size_t at = 0; at < size; at++) {
        sscanf(text + 2 * at, "%2x", &byte);
        text[at] = (char)byte;
    }
    text[size] = '\0';
    return size;
}

static void field(const char *name, char *value)
{
    const struct {
        const char *name;
        const char **text;
    } texts[] = {
        { "queue_id", &key.queue_id }, { "recipient", &outcome.recipient }, { "status", &outcome.status },
        { "original_recipient", &outcome.original_recipient }, { "remote_mta", &outcome.remote_mta },
        { "diagnostic", &outcome.diagnostic }, { "reason", &outcome.reason },
        { "recipient_type", &outcome.recipient_type }, { "original_type", &outcome.original_type },
        { "diagnostic_type", &outcome.diagnostic_type }, { "return_path", &notice.return_path },
        { "envelope_id", &notice.envelope_id }, { "header", &notice.header },
    };
    unsigned long long given = strtoull(value, NULL, 10);
    for (size_t at = 0; at < sizeof texts / sizeof *texts; at++)
        if (strcmp(name, texts[at].name) == 0) {
            size_t size = from_hex(value);
            *texts[at].text = value;
            if (texts[at].text == &notice.header)
                notice.header_size = size;
        }
    if (strcmp(name, "extensions") == 0) {
        from_hex(value);
        outcome.extensions = notice.extensions = value;
    }
    if (strcmp(name, "service") == 0) key.service = (uint8_t)given;
    if (strcmp(name, "action") == 0) outcome.action = (uint8_t)given;
    if (strcmp(name, "last_attempt") == 0) outcome.last_attempt = given;
    if (strcmp(name, "retry_until") == 0) outcome.retry_until = given;
    if (strcmp(name, "moment") == 0) notice.moment = given;
    if (strcmp(name, "arrival") == 0) notice.arrival = given;
    if (strcmp(name, "expected") == 0) notice.expected = (uint32_t)given;
    if (strcmp(name, "returned") == 0) notice.returned = (uint8_t)given;
    if (strcmp(name, "wording") == 0) notice.wording = given == 0 ? NOTICED_BY_SERVICE : (uint8_t)given;
    if (strcmp(name, "place") == 0) place = (int)given;
}

static void request(char *line)
{
    memset(&outcome, 0, sizeof outcome);
    memset(&notice, 0, sizeof notice);
    place = NOTICED_NO_PLACE;
    strcpy(kind, strtok(line, " "));
    number = (unsigned)strtoul(strtok(NULL, " "), NULL, 10);
    for (char *word; (word = strtok(NULL, " ")) != NULL;) {
        char *value = strchr(word, '=');
        *value = '\0';
        field(word, value + 1);
    }
}

static void show(const struct noticed_answer *answer)
{
    printf("%d %lu ", (int)answer->reply, (unsigned long)answer->value);
    if (answer->has_serial)
        printf("%llu\n", (unsigned long long)answer->serial);
    else
        puts("-");
}

static void encode(char *line)
{
    static unsigned char frame[4 + NOTICED_LONGEST_FRAME];
    request(line);
    size_t size = *kind == 'a'   ? noticed_encode_append(frame, number, key, &outcome)
                  : strcmp(kind, "flush") == 0 ? noticed_encode_flush(frame, number, key, &notice)
                  : noticed_encode_closing(frame, *kind == 'd' ? 3 : 4, number, key);
    for (size_t at = 0; at < size; at++)
        printf("%02x", frame[at]);
    puts(size == 0 ? "invalid" : "");
}

static void decode(char *line)
{
    struct noticed_answer answer;
    uint32_t of;
    size_t size = from_hex(line);
    if (!noticed_decode((unsigned char *)line + 4, size - 4, &of, &answer)) {
        puts("invalid");
        return;
    }
    printf("%lu ", (unsigned long)of);
    show(&answer);
}

static void carry(char *line)
{
    static const char *const words[] = { "ok", "invalid", "unreachable", "unanswered", "denied", "path" };
    struct noticed_answer answer;
    if (strcmp(line, "close") == 0) {
        noticed_close(&client);
        puts("closed");
        return;
    }
    request(line);
    enum noticed_error error = *kind == 'a'   ? noticed_append(&client, key, &outcome, place, &answer)
                               : strcmp(kind, "flush") == 0 ? noticed_flush(&client, key, &notice, &answer)
                               : *kind == 'd' ? noticed_discard(&client, key, &answer)
                                              : noticed_forget(&client, key, &answer);
    if (error == NOTICED_OK)
        show(&answer);
    else if (error == NOTICED_REFUSAL)
        printf("refused %lu: %s\n", (unsigned long)answer.value, noticed_words(error, &answer));
    else
        puts(words[error]);
}

int main(int argc, char **argv)
{
    static char line[400000];
    if (argc > 2)
        noticed_init(&client, argv[2]);
    int *limits[] = { &client.limits.send, &client.limits.worker, &client.limits.answer, &client.limits.request,
                      &client.limits.reach };
    for (int at = 4; at < argc; at++)
        *limits[at - 4] = (int)(1000 * atof(argv[at])); /* the first is to connect, which does not wait here */
    while (fgets(line, sizeof line, stdin) != NULL) {
        line[strcspn(line, "\n")] = '\0';
        (*argv[1] == 'e' ? encode : *argv[1] == 'd' ? decode : carry)(line);
        fflush(stdout);
    }
    noticed_close(&client);
    return 0;
}
