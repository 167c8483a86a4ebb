/*
 * Makes a sheet of a din trace on standard input: ./import K SHEET < TRACE > NEW, with pages of 2 to the power K bytes and the rows of the
 * sheet SHEET. A refusal is told on standard error as refused= and its number, with status 1, and nothing is written.
 *
 *     cc -Iinclude examples/traces/import.c target/staticlib/libexports.a -o import
 */
#include "segtrace.h"

#include <inttypes.h>
#include <stdio.h>
#include <stdlib.h>

/* Lines of 11 bytes, 2,048 of them, and one more, so that a trace with too many lines is refused and not cut off. */
enum { TRACE_BYTES = 11 * (SEGTRACE_STEPS + 1) };

/* One byte more than a sheet may have, so that a longer file is refused and not cut off. */
static uint8_t rows[SEGTRACE_SHEET_BYTES + 1], sheet[SEGTRACE_SHEET_BYTES_FORM_1], trace[TRACE_BYTES];

int main(int argc, char **argv)
{
    FILE *file = argc == 3 ? fopen(argv[2], "rb") : NULL;
    uint64_t written, refusal;
    size_t rows_length, trace_length;
    if (file == NULL) {
        fprintf(stderr, "usage: %s K SHEET < TRACE, where SHEET can be read\n", argv[0]);
        return 2;
    }
    rows_length = fread(rows, 1, sizeof rows, file);
    trace_length = fread(trace, 1, sizeof trace, stdin);
    if (ferror(file) || ferror(stdin)) {
        perror("the sheet or the trace cannot be read");
        return 2;
    }
    fclose(file);
    refusal = segtrace_import_din(trace, trace_length, strtoull(argv[1], NULL, 10), rows, rows_length, sheet, sizeof sheet, &written);
    if (refusal != 0) {
        fprintf(stderr, "refused=%" PRIu64 "\n", refusal);
        return 1;
    }
    return fwrite(sheet, 1, (size_t)written, stdout) == written && fflush(stdout) == 0 ? 0 : 2;
}
