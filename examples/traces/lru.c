/*
 * Prints the misses of least-recently-used replacement of a sheet on standard input, for every number of frames: ./lru < SHEET, a line
 * of the two numbers with a tab between, after a line with their names. ./lru --plain has the list from the second engine, which simulates
 * one memory for each number of frames. A refusal is told on standard error as refused= and its number, with status 1.
 *
 *     cc -Iinclude examples/traces/lru.c target/staticlib/libexports.a -o lru
 */
#include "segtrace.h"

#include <inttypes.h>
#include <stdio.h>
#include <string.h>

/* One byte more than a sheet may have, so that a longer file is refused and not cut off. */
static uint8_t sheet[SEGTRACE_SHEET_BYTES + 1];
static uint64_t misses[SEGTRACE_SEGS];

int main(int argc, char **argv)
{
    int plain = argc == 2 && strcmp(argv[1], "--plain") == 0;
    size_t length = fread(sheet, 1, sizeof sheet, stdin);
    uint64_t count, looked, frames, refusal;
    if (argc > 1 + plain || ferror(stdin)) {
        fprintf(stderr, "usage: %s [--plain] < SHEET, which can be read\n", argv[0]);
        return 2;
    }
    refusal = plain ? segtrace_lru_plain(sheet, length, misses, SEGTRACE_SEGS, &count)
                    : segtrace_lru(sheet, length, misses, SEGTRACE_SEGS, &count, &looked);
    if (refusal != 0) {
        fprintf(stderr, "refused=%" PRIu64 "\n", refusal);
        return 1;
    }
    printf("frames\tmisses\n");
    for (frames = 1; frames <= count; frames++)
        printf("%" PRIu64 "\t%" PRIu64 "\n", frames, misses[frames - 1]);
    return fflush(stdout) == 0 ? 0 : 2;
}
