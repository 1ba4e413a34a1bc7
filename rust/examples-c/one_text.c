/*
 * Reads a historian's text export on standard input and writes its day records on standard output; or writes none, and
 * on standard error the refusal and what it means.
 *
 * In the folder rust/ on x86-64, after `tools/staticlib.sh` in the repository root:
 *
 *     mkdir -p target
 *     cc -std=c99 -Wall -Wextra -Wpedantic -O2 -I include -o target/one_text \
 *         examples-c/one_text.c ../target/staticlib/libdoarpezwim.a
 *     target/one_text < EXPORT.csv > days.rec
 */
#include <inttypes.h>
#include <stdio.h>

#include "doarpezwim.h"

/* The call has no limit; a text of 92 days with no leading zeros has under 60,000 bytes. */
#define MOST_BYTES (1024 * 1024)

static uint8_t text[MOST_BYTES];
static uint8_t records[DOARPEZWIM_DAY_BYTES * DOARPEZWIM_MOST_DAYS];

int main(void)
{
    size_t length = fread(text, 1, sizeof text, stdin);
    if (ferror(stdin) || getchar() != EOF) {
        fprintf(stderr, "one_text: the input cannot be read, or is over %d bytes\n", MOST_BYTES);
        return 2;
    }
    uint64_t answer[DOARPEZWIM_IMPORT_CELLS];
    uint32_t number = doarpezwim_import(text, length, records, sizeof records, answer);
    if (number != DOARPEZWIM_ACCEPTED) {
        uint64_t line = answer[DOARPEZWIM_IMPORT_LINE];
        fprintf(stderr, "refused %" PRIu32 " %" PRIu64 "\n", number, line);
        fprintf(stderr, "one_text: at line %" PRIu64 ": %s\n", line, doarpezwim_refusal_text(number));
        return 1;
    }
    size_t count = (size_t)answer[DOARPEZWIM_IMPORT_COUNT];
    if (fwrite(records, 1, count, stdout) != count || fflush(stdout) != 0) {
        fprintf(stderr, "one_text: the records cannot be written\n");
        return 2;
    }
    return 0;
}
