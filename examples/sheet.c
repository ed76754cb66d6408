/* Prints the sheet of a record, as `bin/paperwhelk sheet` does:
 *
 *     bin/library
 *     gcc -std=c11 -Iinclude examples/sheet.c target/staticlib/libpaperwhelk.a -o sheet
 *     ./sheet examples/closed.rec
 *
 * Without a file, or with -, it reads standard input. Exit status 0: figures were given. 1: the record or a figure was refused. 2: the record could not be
 * read, the sheet could not be written, or wrong usage; a message on standard error says so.
 * Built and run by `.ci/c/run`, which compares what it prints of every record in examples/ with its sheet. */
#include <stdio.h>
#include <stdlib.h>
#include <string.h>

#include "paperwhelk.h"

enum { GIVEN = 0, REFUSED = 1, FAILED = 2 };

static int failed(const char *what, const char *why) {
    fprintf(stderr, "sheet: %s: %s\n", what, why);
    return FAILED;
}

/* all bytes of the file, for the caller to free; NULL where they could not be read or held */
static uint8_t *whole(FILE *file, size_t *length) {
    size_t room = 1 << 16;
    uint8_t *bytes = malloc(room), *more;
    for (*length = 0; bytes != NULL; bytes = more, room *= 2) {
        *length += fread(bytes + *length, 1, room - *length, file);
        if (*length < room) break;
        more = room <= SIZE_MAX / 2 ? realloc(bytes, 2 * room) : NULL;
        if (more == NULL) free(bytes);
    }
    if (bytes == NULL || !ferror(file)) return bytes;
    free(bytes);
    return NULL;
}

/* the record's bytes: those of the file of this name, or of standard input */
static uint8_t *record_of(const char *name, size_t *length) {
    if (strcmp(name, "-") == 0) return whole(stdin, length);
    FILE *file = fopen(name, "rb");
    if (file == NULL) return NULL;
    uint8_t *bytes = whole(file, length);
    fclose(file);
    return bytes;
}

/* whether a line begins with `refused` */
static int is_refused(const char *sheet) { return strncmp(sheet, "refused", 7) == 0 || strstr(sheet, "\nrefused") != NULL; }

static int print_sheet(const uint8_t *record, size_t length) {
    char sheet[PAPERWHELK_MOST_SHEET + 1] = {0};
    int32_t n = paperwhelk_sheet(record, length, (uint8_t *)sheet, PAPERWHELK_MOST_SHEET);
    if (n < 0) return failed("the sheet", "it does not fit");
    if (fwrite(sheet, 1, (size_t)n, stdout) != (size_t)n || fflush(stdout) != 0) return failed("standard output", "the sheet was lost");
    return is_refused(sheet) ? REFUSED : GIVEN;
}

int main(int argc, char **argv) {
    if (argc > 2) return failed("usage", "sheet [FILE]");
    const char *name = argc == 2 ? argv[1] : "-";
    size_t length;
    uint8_t *record = record_of(name, &length);
    if (record == NULL) return failed(name, "it could not be read");
    int status = print_sheet(record, length);
    free(record);
    return status;
}
