/* Prints the sheets of a stream of records from standard input, each with an empty line behind it, as the program `card` does. A record is a 4-byte length,
 * high byte first, and that many bytes. Each sheet is asked for three times, into bytes of which each holds a mark: into more bytes than it has, into
 * exactly as many, and into one less, which is refused. Every mark that must stay is looked for, in out and on both sides of it. */
#include <stdio.h>
#include <stdlib.h>
#include <string.h>

#include "paperwhelk.h"

_Static_assert(PAPERWHELK_VERSION >= 2, "the header has the sheet of a record");

enum { SIDE = 64, MARK = 0xA5 };

static uint8_t space[SIDE + 2 * PAPERWHELK_MOST_SHEET + SIDE];
static uint8_t *const out = space + SIDE;

static void wrong(const char *what) {
    fprintf(stderr, "sheets: %s\n", what);
    exit(1);
}

static int32_t ask(const uint8_t *record, size_t length, size_t out_length) {
    memset(space, MARK, sizeof space);
    return paperwhelk_sheet(record, length, out, out_length);
}

/* only the first n bytes of out were touched */
static void touched(size_t n) {
    for (size_t k = 0; k < sizeof space; k++)
        if ((k < SIDE || k >= SIDE + n) && space[k] != MARK) wrong("a byte was touched that must stay");
}

/* the sheet is left in out; how many bytes it has */
static size_t sheet(const uint8_t *record, size_t length) {
    uint8_t first[PAPERWHELK_MOST_SHEET];
    int32_t n = ask(record, length, 2 * PAPERWHELK_MOST_SHEET);
    if (n < 1 || n > PAPERWHELK_MOST_SHEET) wrong("no such answer");
    touched((size_t)n);
    memcpy(first, out, (size_t)n);
    if (ask(record, length, (size_t)n - 1) != PAPERWHELK_DOES_NOT_FIT) wrong("it fits into one byte less");
    touched(0);
    if (ask(record, length, (size_t)n) != n || memcmp(first, out, (size_t)n) != 0) wrong("it does not fit into as many bytes as it has");
    touched((size_t)n);
    return (size_t)n;
}

/* the next record, for the caller to free; NULL at the end of the stream */
static uint8_t *next_record(size_t *length) {
    uint8_t b[4];
    size_t got = fread(b, 1, 4, stdin);
    if (got == 0 && feof(stdin)) return NULL;
    *length = (size_t)b[0] << 24 | (size_t)b[1] << 16 | (size_t)b[2] << 8 | b[3];
    /* as long as the record is; malloc(0) may be NULL */
    uint8_t *bytes = malloc(*length > 0 ? *length : 1);
    if (got != 4 || bytes == NULL || fread(bytes, 1, *length, stdin) != *length) wrong("the stream could not be read");
    return bytes;
}

/* no bytes at all */
static void nothing_lent(void) {
    static const char line[] = "refused 15 field 1\n";
    if (sheet(NULL, 0) != sizeof line - 1 || memcmp(out, line, sizeof line - 1) != 0) wrong("another sheet of no bytes");
    if (paperwhelk_sheet(NULL, 0, NULL, 0) != PAPERWHELK_DOES_NOT_FIT) wrong("a sheet fits into no bytes");
}

int main(void) {
    size_t length;
    nothing_lent();
    for (uint8_t *record; (record = next_record(&length)) != NULL; free(record)) {
        size_t n = sheet(record, length);
        if (fwrite(out, 1, n, stdout) != n || putchar('\n') == EOF) wrong("the output was lost");
    }
    return fflush(stdout) == 0 ? 0 : 1;
}
