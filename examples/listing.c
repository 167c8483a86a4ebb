/*
 * Prints the listing of a sheet and, for row 0, the optimal total and load and what the optimal schedule costs when it is priced, for a
 * sheet of form 4 the one with stores counted: ./listing FILE. A refusal is printed as the analyser prints it, refused= and its number.
 *
 *     cc -Iinclude examples/listing.c target/staticlib/libexports.a -o listing
 */
#include "segtrace.h"

#include <inttypes.h>
#include <stdio.h>

/* One byte more than a sheet may have, so that a longer file is refused and not cut off. */
static uint8_t sheet[SEGTRACE_SHEET_BYTES + 1];
static uint8_t listing[SEGTRACE_LISTING_BYTES];
static uint8_t schedule[SEGTRACE_SCHEDULE_BYTES];

/* Reads the front of a file; 1 where that fails. */
static int read_sheet(const char *name, size_t *length)
{
    FILE *file = fopen(name, "rb");
    int failed;
    if (file == NULL) {
        perror(name);
        return 1;
    }
    *length = fread(sheet, 1, sizeof sheet, file);
    failed = ferror(file);
    if (failed)
        perror(name);
    fclose(file);
    return failed != 0;
}

/* What row 0 says: its figures, its optimal schedule, and the price of that schedule. */
static uint64_t print_row_0(size_t length)
{
    uint64_t figures[SEGTRACE_FIGURES], price[SEGTRACE_PRICE], written, refusal;
    if ((refusal = segtrace_figures(sheet, length, 0, figures)) != 0)
        return refusal;
    /* Each of the two calls gives 4 for the forms that the other is made for. */
    refusal = segtrace_optimal_schedule(sheet, length, 0, schedule, sizeof schedule, &written);
    if (refusal == 4)
        refusal = segtrace_modified_schedule(sheet, length, 0, schedule, sizeof schedule, &written);
    if (refusal != 0)
        return refusal;
    if ((refusal = segtrace_price(sheet, length, 0, schedule, (size_t)written, price)) != 0)
        return refusal;
    printf("row 0: the optimal total is %" PRIu64 ", with load %" PRIu64 "\n", figures[SEGTRACE_OPTTOTAL], figures[SEGTRACE_LOAD]);
    printf("row 0: its schedule has %" PRIu64 " bytes; priced: memory %" PRIu64 ", load %" PRIu64 ", total %" PRIu64 "\n", written,
           price[SEGTRACE_PRICE_MEMORY], price[SEGTRACE_PRICE_LOAD], price[SEGTRACE_PRICE_TOTAL]);
    return 0;
}

int main(int argc, char **argv)
{
    size_t length;
    uint64_t written, refusal;
    if (argc != 2) {
        fprintf(stderr, "usage: %s FILE\n", argv[0]);
        return 2;
    }
    if (read_sheet(argv[1], &length) != 0)
        return 2;
    refusal = segtrace_listing(sheet, length, listing, sizeof listing, &written);
    if (refusal == 0) {
        fwrite(listing, 1, (size_t)written, stdout);
        refusal = print_row_0(length);
    }
    if (refusal != 0) {
        printf("refused=%" PRIu64 "\n", refusal);
        return 1;
    }
    return 0;
}
