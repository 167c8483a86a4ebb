/*
 * Prints the operating points of a sheet and where its rows stand, for examples/curve: ./points FILE. A line for each point,
 * `point R w optmem load`, then one for each row, `row h d optmem load`. A refusal is printed as refused= and its number.
 *
 *     cc -Iinclude examples/points.c target/staticlib/libexports.a -o points
 */
#include "segtrace.h"

#include <inttypes.h>
#include <stdio.h>

/* One byte more than a sheet may have, so that a longer file is refused and not cut off. */
static uint8_t sheet[SEGTRACE_SHEET_BYTES + 1];
static uint64_t points[SEGTRACE_POINT * SEGTRACE_POINTS], rows[SEGTRACE_FIGURES * SEGTRACE_ROWS];

int main(int argc, char **argv)
{
    FILE *file = argc == 2 ? fopen(argv[1], "rb") : NULL;
    uint64_t count, refusal;
    const uint64_t *at;
    size_t length;
    if (file == NULL) {
        fprintf(stderr, "usage: %s FILE, which can be read\n", argv[0]);
        return 2;
    }
    length = fread(sheet, 1, sizeof sheet, file);
    if (ferror(file)) {
        perror(argv[1]);
        return 2;
    }
    fclose(file);
    refusal = segtrace_points(sheet, length, points, sizeof points / sizeof *points, &count);
    if (refusal != 0) {
        printf("refused=%" PRIu64 "\n", refusal);
        return 1;
    }
    for (at = points; at < points + count; at += SEGTRACE_POINT)
        printf("point %" PRIu64 " %" PRIu64 " %" PRIu64 " %" PRIu64 "\n", at[SEGTRACE_POINT_R], at[SEGTRACE_POINT_W],
               at[SEGTRACE_POINT_OPTMEM], at[SEGTRACE_POINT_LOAD]);
    /* The sheet is accepted and the place long enough for 64 rows, so this is not refused. */
    refusal = segtrace_all_figures(sheet, length, rows, sizeof rows / sizeof *rows, &count);
    for (at = rows; refusal == 0 && at < rows + count; at += SEGTRACE_FIGURES)
        printf("row %" PRIu64 " %" PRIu64 " %" PRIu64 " %" PRIu64 "\n", at[SEGTRACE_H], at[SEGTRACE_D], at[SEGTRACE_OPTMEM],
               at[SEGTRACE_LOAD]);
    return 0;
}
