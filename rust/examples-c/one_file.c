/*
 * Reads a record file on standard input and prints its rows and totals; or prints its refusal, and on standard error
 * what that means.
 *
 * In the folder rust/ on x86-64, after `tools/staticlib.sh` in the repository root:
 *
 *     mkdir -p target
 *     cc -std=c99 -Wall -Wextra -Wpedantic -O2 -I include -o target/one_file \
 *         examples-c/one_file.c ../target/staticlib/libdoarpezwim.a
 *     target/one_file < ../samples/example.rec
 */
#include <inttypes.h>
#include <stdio.h>

#include "doarpezwim.h"

/* The call has no limit; this program takes what the largest file of 48 lines needs, and some room over. */
#define MOST_BYTES (2 * 1024 * 1024)

static uint8_t file[MOST_BYTES];
static uint64_t rows[DOARPEZWIM_ROW_CELLS * DOARPEZWIM_MOST_LINES];
static uint32_t concentration[DOARPEZWIM_WORK_CELLS];
static uint32_t flow[DOARPEZWIM_WORK_CELLS];

static void print_row(const uint64_t *row)
{
    for (int cell = 0; cell < DOARPEZWIM_ROW_CELLS; cell++) {
        printf(cell == 0 ? "%" PRIu64 : " %" PRIu64, row[cell]);
    }
    putchar('\n');
}

/* The totals are the last cells of an answer. */
static void print_totals(const uint64_t *answer)
{
    printf("total");
    for (int cell = DOARPEZWIM_ANSWER_SULPHUR_DIOXIDE; cell < DOARPEZWIM_ANSWER_CELLS; cell++) {
        printf(" %" PRIu64, answer[cell]);
    }
    putchar('\n');
}

static void print_refusal(uint32_t number, uint64_t place)
{
    printf("refused %" PRIu32 " %" PRIu64 "\n", number, place);
    fprintf(stderr, "one_file: at byte %" PRIu64 ": %s\n", place, doarpezwim_refusal_text(number));
}

int main(void)
{
    size_t length = fread(file, 1, sizeof file, stdin);
    if (ferror(stdin) || getchar() != EOF) {
        fprintf(stderr, "one_file: the input cannot be read, or is over %d bytes\n", MOST_BYTES);
        return 2;
    }
    uint64_t answer[DOARPEZWIM_ANSWER_CELLS];
    uint32_t number = doarpezwim_account(file, length, rows, sizeof rows / sizeof *rows, concentration,
                                         DOARPEZWIM_WORK_CELLS, flow, DOARPEZWIM_WORK_CELLS, answer);
    if (number != DOARPEZWIM_ACCEPTED) {
        print_refusal(number, answer[DOARPEZWIM_ANSWER_PLACE]);
        return 1;
    }
    for (uint64_t row = 0; row < answer[DOARPEZWIM_ANSWER_ROWS]; row++) {
        print_row(rows + DOARPEZWIM_ROW_CELLS * row);
    }
    print_totals(answer);
    return 0;
}
