/* Prints the notice of a recipient that was refused:
 *
 *     cc -I../clients/c notice.c ../clients/c/noticed.c libnoticed_dsn.a -o notice && ./notice */
#include "noticed.h"
#include "noticed_dsn.h"
#include <stdio.h>

int main(void)
{
    static unsigned char frames[2 * (4 + NOTICED_LONGEST_FRAME)], out[100000];
    char words[90];
    uint32_t fault;
    struct noticed_key key = { NOTICED_BOUNCE, "A1B2C3" };
    struct noticed_outcome outcome = { .recipient = "bob@example.org", .action = NOTICED_FAILED, .status = "5.1.1" };
    struct noticed_notice notice = {
        .return_path = "ann@example.com", .moment = 1700000000, .arrival = 1699996400, .expected = 1
    };
    size_t size = noticed_encode_append(frames, 0, key, &outcome);
    size += noticed_encode_flush(frames + size, 1, key, &notice);
    size_t written = noticed_dsn_notice("mx.example.net", 14, frames, size, 0, out, sizeof out, &fault);
    if (fault != 0 || written > sizeof out) {
        int length = (int)noticed_dsn_fault(fault, words, sizeof words);
        fprintf(stderr, "no notice: fault %u: %.*s\n", (unsigned)fault, length, words);
        return 1;
    }
    return fwrite(out, 1, written, stdout) == written ? 0 : 1;
}
