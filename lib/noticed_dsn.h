/* The writer of noticed(8) as a library: a notice (RFC 3464) from the requests of one log. It keeps nothing between two
 * calls, opens no file and starts no thread; several threads may call it at once. C99, or any language that calls C.
 *
 *     size_t size = noticed_dsn_notice("mx.example.net", 14, frames, frames_size, serial, out, sizeof out, &fault);
 *     if (fault == 0 && size <= sizeof out)
 *         the first size bytes of out are the notice
 *
 * frames: the frames of noticed-protocol(5) for an append of each outcome, numbered from 0, and then for the flush of
 * the same log. The clients in C, Go, Perl, Python and Rust encode them without a daemon, as by noticed_encode_append.
 * serial: a part of the Message-ID, so give each notice another.
 *
 * A call returns the length of its text and sets fault to 0. If the text is longer than the room, nothing is written: call
 * again with that much. The lines of a notice end with CRLF, and no text has a zero byte, not even at its end. If there is
 * no text, a call returns 0, leaves the room as it was, and sets fault: to 9 if memory was refused, to 51 if host is not a
 * host name, or else to the number of the first fault of the frames. `noticed help faults` lists them; four more are
 *
 *     101  the frames are not the appends of one log, 1,000 at most, and then its flush
 *     102  the flush comes without an append before it
 *     103  the flush expects another number of outcomes
 *     104  the return path is null: no notice may be sent
 *
 * Memory comes from malloc and is freed before a call returns. No pointer may be null, also of an empty text, and what
 * is written must not overlap what is read. */
#ifndef NOTICED_DSN_H
#define NOTICED_DSN_H
#include <stddef.h>
#include <stdint.h>
#ifdef __cplusplus
extern "C" {
#endif

/* The notice, as a mail program shows it. Send it with MAIL FROM:<>, and with BODY=8BITMIME if a byte is above 127. */
size_t noticed_dsn_notice(const char *host, size_t host_size, const unsigned char *frames, size_t frames_size,
                          uint64_t serial, unsigned char *out, size_t room, uint32_t *fault);

/* The same as mail data, which follow SMTP's DATA: with the dots that SMTP adds, and the final dot. */
size_t noticed_dsn_mail_data(const char *host, size_t host_size, const unsigned char *frames, size_t frames_size,
                             uint64_t serial, unsigned char *out, size_t room, uint32_t *fault);

/* The address that the notice is sent to, for RCPT TO. */
size_t noticed_dsn_return_path(const unsigned char *frames, size_t frames_size, unsigned char *out, size_t room,
                               uint32_t *fault);

/* The words of a fault; 0 if there is no such fault. They are at most 90 bytes. */
size_t noticed_dsn_fault(uint32_t fault, char *out, size_t room);

#ifdef __cplusplus
}
#endif
#endif
