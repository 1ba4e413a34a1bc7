/*
 * Checks what a plant has filed: reads a record file and the text of its rows and totals, as `account` prints them, and
 * says on standard output in words whether they agree, or what is wrong first.
 *
 * In the folder rust/ on x86-64, after `tools/staticlib.sh` in the repository root:
 *
 *     mkdir -p target
 *     cc -std=c99 -Wall -Wextra -Wpedantic -O2 -I include -o target/one_filing \
 *         examples-c/one_filing.c ../target/staticlib/libdoarpezwim.a
 *     target/one_filing ../samples/example.rec ../samples/example.out
 *
 * It takes numbers with any blanks or line feeds between them: the program `checker` is the one that judges lines.
 */
#include <ctype.h>
#include <errno.h>
#include <inttypes.h>
#include <stdio.h>
#include <stdlib.h>
#include <string.h>

#include "doarpezwim.h"

/* The call has no limit; this program takes what the largest file of 48 lines needs, and some room over. */
#define MOST_BYTES (2 * 1024 * 1024)
#define MOST_CELLS 4096

static uint8_t file[MOST_BYTES];
static char text[MOST_BYTES + 1];
static uint64_t rows[MOST_CELLS];
static uint64_t totals[DOARPEZWIM_TOTALS];

/* Reads a file whole, and gives its length; -1 where that cannot be done. */
static long read_whole(const char *path, void *bytes)
{
    FILE *input = fopen(path, "rb");
    if (input == NULL) {
        return -1;
    }
    size_t length = fread(bytes, 1, MOST_BYTES, input);
    int failed = ferror(input) || getc(input) != EOF;
    fclose(input);
    return failed ? -1 : (long)length;
}

/* Takes numbers with blanks between them, up to the end; gives how many, or -1 if it is anything else. */
static long read_numbers(const char *from, uint64_t *cells, long most)
{
    for (long count = 0;; count++) {
        while (isspace((unsigned char)*from)) {
            from++;
        }
        if (*from == '\0') {
            return count;
        }
        if (!isdigit((unsigned char)*from) || count == most) {
            return -1;
        }
        char *end;
        errno = 0;
        cells[count] = strtoull(from, &end, 10);
        if (errno != 0) {
            return -1;
        }
        from = end;
    }
}

/* The rows stand before the word `total`, the totals behind it; gives the number of row cells, or -1. */
static long read_filing(void)
{
    char *word = strstr(text, "total");
    if (word == NULL || read_numbers(word + strlen("total"), totals, DOARPEZWIM_TOTALS) != DOARPEZWIM_TOTALS) {
        return -1;
    }
    *word = '\0';
    return read_numbers(text, rows, MOST_CELLS);
}

static void print_wrong(uint64_t lines, uint64_t row, uint64_t field)
{
    const char *name = doarpezwim_field_text(lines, row, field);
    if (row == lines) {
        printf("wrong: the total of %s\n", name);
    } else {
        printf("wrong: row %" PRIu64 ", counted from 0, in its field %s\n", row, name);
    }
}

int main(int count, char **words)
{
    if (count != 3) {
        fprintf(stderr, "usage: one_filing FILE.rec FILED.txt\n");
        return 2;
    }
    long length = read_whole(words[1], file);
    long cells = length < 0 || read_whole(words[2], text) < 0 ? -1 : read_filing();
    if (cells < 0) {
        fprintf(stderr, "one_filing: a file cannot be read, is over %d bytes, or has no rows and totals\n", MOST_BYTES);
        return 2;
    }
    uint64_t answer[DOARPEZWIM_CHECK_CELLS];
    uint32_t outcome = doarpezwim_check(file, (size_t)length, rows, (size_t)cells, totals, answer);
    if (outcome == DOARPEZWIM_AGREES) {
        puts("the filing agrees with the record file");
        return 0;
    }
    if (outcome == DOARPEZWIM_WRONG) {
        uint64_t lines = (uint64_t)cells / DOARPEZWIM_ROW_CELLS;
        print_wrong(lines, answer[DOARPEZWIM_CHECK_ROW], answer[DOARPEZWIM_CHECK_FIELD]);
        return 1;
    }
    uint64_t number = answer[DOARPEZWIM_CHECK_NUMBER];
    printf("refused %" PRIu64 " %" PRIu64 "\n", number, answer[DOARPEZWIM_CHECK_PLACE]);
    fprintf(stderr, "one_filing: %s\n", doarpezwim_refusal_text((uint32_t)number));
    return 1;
}
