/*
 * The segment trace analyser as a library: link libexports.a, which `tools/build archive` makes.
 *
 * Every call returns 0, or the number of the refusal (docs/GUIDE.md lists them; where several apply, the first that the call's
 * comment names). A refused call writes nothing: every lent place, number and recorder is as it was. No call keeps a pointer or
 * allocates. Lent places overlap nothing else. A pointer that comes with a length may be NULL where the length is 0; no other may be
 * NULL. A call uses less than SEGTRACE_STACK_BYTES of stack, which is not proved; tests/calls.c measures it (76 KB).
 */
#ifndef SEGTRACE_INCLUDED
#define SEGTRACE_INCLUDED

#include <stddef.h>
#include <stdint.h>

#ifdef __cplusplus
extern "C" {
#endif

/*
 * The most bytes of a sheet (of form 1, of form 2, of form 3, and of any form), of a listing, of two pages and of a schedule; the most
 * rows, steps and segments; more stack than a call uses. That no listing is longer is proved (`listing-most`,
 * crates/listing/proofs/ListingMost.antt): each figure with as many digits as it can have.
 */
enum {
    SEGTRACE_SHEET_BYTES_FORM_1 = 20012,
    SEGTRACE_SHEET_BYTES_FORM_2 = 29163,
    SEGTRACE_SHEET_BYTES_FORM_3 = 31366,
    SEGTRACE_SHEET_BYTES = 33414,
    SEGTRACE_LISTING_BYTES = 13158,
    SEGTRACE_PAGE_BYTES = 8760,
    SEGTRACE_SCHEDULE_BYTES = 65536,
    SEGTRACE_ROWS = 64,
    SEGTRACE_STEPS = 2048,
    SEGTRACE_SEGS = 256,
    SEGTRACE_STACK_BYTES = 81920
};

/* The places of a row's figures in a list of SEGTRACE_FIGURES numbers. */
enum {
    SEGTRACE_H,
    SEGTRACE_D,
    SEGTRACE_MISSES,
    SEGTRACE_VOLUME,
    SEGTRACE_LOAD,
    SEGTRACE_OPTMEM,
    SEGTRACE_OPTTOTAL,
    SEGTRACE_OPTOCC,
    SEGTRACE_WSMEM,
    SEGTRACE_WSOCC,
    SEGTRACE_MEAN,
    SEGTRACE_FIGURES
};

/* The places of a price in a list of SEGTRACE_PRICE numbers. */
enum { SEGTRACE_PRICE_MEMORY, SEGTRACE_PRICE_LOAD, SEGTRACE_PRICE_TOTAL, SEGTRACE_PRICE };

/*
 * A sheet is of form 1, or of form 2, 3 or 4 where its first line is form=2, form=3 or form=4. Its refusals are 1 to 6, 16 and 19: the
 * first faulty line decides, and on one line 16 and 19 come after 4. A call that is not made for a sheet's form gives 4 on the form line,
 * or for form 1 on the kind line. From form 3 on a sheet names the warm segments, those in memory before step 1: such a segment counts as
 * touched at step 0 without cost, so its first touch is a reuse, and in a schedule it may be held from step 1 on. In form 4 the letter w
 * marks the touches that modify. A stay of a segment, an unbroken run of steps that hold it, from step 0 on for a warm one held in step 1,
 * is stored once where it has such a touch: that adds its w to the load, where the stay ends or the record ends. Only segtrace_price, the
 * line modtotal= of segtrace_listing and segtrace_modified_schedule see the letters.
 */

/* Whether the bytes are a sheet: its refusals. */
uint64_t segtrace_check(const uint8_t *sheet, size_t sheet_length);

/* The sheet read and written again, at the front of `out`, and its length; the sheet's refusals, 11. The bytes are the sheet's own. */
uint64_t segtrace_rewrite(const uint8_t *sheet, size_t sheet_length, uint8_t *out, size_t out_length, uint64_t *written);

/* A sheet of form 1 in form 2, at the front of `out`, and its length: the sheet's refusals, where any other form is 4, 11. */
uint64_t segtrace_to_form_2(const uint8_t *sheet, size_t sheet_length, uint8_t *out, size_t out_length, uint64_t *written);

/* A sheet of form 2 in form 1, at the front of `out`, and its length: the sheet's refusals, where any other form is 4, 17 where a step is
   idle, 11. There and back restores the bytes. */
uint64_t segtrace_to_form_1(const uint8_t *sheet, size_t sheet_length, uint8_t *out, size_t out_length, uint64_t *written);

/*
 * Two sheets of form 2 or 3 with the same kind, a and row lines as one sheet of form 3 on the same clock, at the front of `out`, and its
 * length: the second's segments are numbered after the first's, and steps is the greater of the two. The first sheet's refusals, where any
 * other form is 4, then the second's; 20 where kind, a or a row line differs, 21 where both touch at one step, 22 where together they have
 * more than 256 segments, 11. The two sheets may be the same bytes; neither may overlap `out`. SEGTRACE_SHEET_BYTES_FORM_3 always suffice.
 */
uint64_t segtrace_join(const uint8_t *first, size_t first_length, const uint8_t *second, size_t second_length, uint8_t *out,
                       size_t out_length, uint64_t *written);

/*
 * A din trace as a sheet of form 1 of kind time, a=0 and sizes 1, with the rows of a sheet of any form, at the front of `out`, and its
 * length. A line of the trace is a label 0, 1 or 2, one blank, a hexadecimal address of 1 to 8 digits and a line feed. Each page of 2 to
 * the power k bytes is a segment, numbered by first appearance. The sheet's refusals; 23 where k is not from 8 to 24; then, line by line,
 * 24 for a malformed line and 25 for a 2,049th line or a 257th page; 11. The trace and the sheet may overlap; neither may overlap `out`.
 * SEGTRACE_SHEET_BYTES_FORM_1 always suffice.
 */
uint64_t segtrace_import_din(const uint8_t *trace, size_t trace_length, uint64_t k, const uint8_t *sheet, size_t sheet_length,
                             uint8_t *out, size_t out_length, uint64_t *written);

/* The eleven figures of a row, counted from 0; the sheet's refusals, 7. */
uint64_t segtrace_figures(const uint8_t *sheet, size_t sheet_length, uint64_t row, uint64_t figures[SEGTRACE_FIGURES]);

/* The figures of every row, SEGTRACE_FIGURES numbers each, at the front of `out`, and how many numbers; the sheet's refusals, 11. */
uint64_t segtrace_all_figures(const uint8_t *sheet, size_t sheet_length, uint64_t *out, size_t out_length, uint64_t *written);

/* The listing at the front of `out`, and its length; the sheet's refusals, 11. In form 4 it has after each mean the row's modtotal: the
   least d * memory + h * load of a permitted schedule with stores counted. */
uint64_t segtrace_listing(const uint8_t *sheet, size_t sheet_length, uint8_t *out, size_t out_length, uint64_t *written);

/* The page for the binder, 60 lines of 72 characters and a line feed, at the front of `out`, two pages where there are more than 58 rows,
   and their length, 4380 or 8760; the sheet's refusals, 11. */
uint64_t segtrace_page(const uint8_t *sheet, size_t sheet_length, uint8_t *out, size_t out_length, uint64_t *written);

/* The optimal schedule of a row of a sheet of forms 1 to 3, 32 bytes a step, at the front of `out`, and its length; the sheet's refusals,
   where form 4 is 4, 7, 11. */
uint64_t segtrace_optimal_schedule(const uint8_t *sheet, size_t sheet_length, uint64_t row, uint8_t *out, size_t out_length,
                                   uint64_t *written);

/* The schedule of the least total with stores counted, of a row of a sheet of form 4, 32 bytes a step, at the front of `out`, and its
   length; the sheet's refusals, where any other form is 4, 7, 11. Its total is the row's modtotal, and of several that have it, it is the
   one with the least load, stores counted. Without a letter w it is the optimal schedule of the same sheet in form 3. */
uint64_t segtrace_modified_schedule(const uint8_t *sheet, size_t sheet_length, uint64_t row, uint8_t *out, size_t out_length,
                                    uint64_t *written);

/* Memory, load and total of a schedule at a row, in form 4 with stores counted; the sheet's refusals, 7, 8, then 9 or 10 of the earliest
   faulty step. */
uint64_t segtrace_price(const uint8_t *sheet, size_t sheet_length, uint64_t row, const uint8_t *schedule, size_t schedule_length,
                        uint64_t price[SEGTRACE_PRICE]);

/* The margin h*w - d*R of a reference, counted from 1, at a row; the reuse is kept where it is 0 or more; the sheet's refusals, 7, 14, 15
   where it is a first touch of a segment that is not warm. */
uint64_t segtrace_margin(const uint8_t *sheet, size_t sheet_length, uint64_t row, uint64_t reference, int64_t *margin);

/* The lowest row with the least load among the rows with optmem within the ceiling; the sheet's refusals, 12. */
uint64_t segtrace_size(const uint8_t *sheet, size_t sheet_length, uint64_t ceiling, uint64_t *row);

/*
 * The misses of least-recently-used replacement with 1, 2, .., segs frames, at the front of `out`, and how many numbers, segs: for a sheet
 * of any form with every size 1 and no warm segment, from stack distances in one pass. Idle steps play no part. `looked` gets the
 * entries of the recency list that the pass looks at, each counted as it is looked at: the list has the segments touched so far, and a
 * touch looks from the most recent up to its segment, a first touch at all; never more than refs times the number of distinct segments
 * touched. The sheet's refusals, 26 where a size is not 1, 27 where a warm segment is named, 11. SEGTRACE_SEGS numbers always suffice.
 */
uint64_t segtrace_lru(const uint8_t *sheet, size_t sheet_length, uint64_t *out, size_t out_length, uint64_t *written, uint64_t *looked);

/* The same list, by simulating one memory for each number of frames in turn: slower by two orders of magnitude. The same refusals. */
uint64_t segtrace_lru_plain(const uint8_t *sheet, size_t sheet_length, uint64_t *out, size_t out_length, uint64_t *written);

/*
 * wsocc for every window T from 1 to steps, which is that of the row T-1/1, at the front of `out`, and how many numbers, steps: for a sheet
 * of any form of kind time with a=0, every size 1 and no warm segment, by the window recursion. The sheet's refusals, 28 where kind or a
 * differs, 26 where a size is not 1, 27 where a warm segment is named, 11. SEGTRACE_STEPS numbers always suffice.
 */
uint64_t segtrace_windows(const uint8_t *sheet, size_t sheet_length, uint64_t *out, size_t out_length, uint64_t *written);

/* The places of an operating point in a list of SEGTRACE_POINT numbers, and the most points of a sheet. */
enum { SEGTRACE_POINT_R, SEGTRACE_POINT_W, SEGTRACE_POINT_OPTMEM, SEGTRACE_POINT_LOAD, SEGTRACE_POINT };
enum { SEGTRACE_POINTS = 2048 };

/*
 * Every operating point of a sheet of any form, SEGTRACE_POINT numbers each, at the front of `out`, and how many numbers: each distinct
 * ratio R/w among the reuses once, ascending, as the R and w of the earliest reuse having it, with optmem and load at that threshold. Where
 * no reuse has ratio 0, the list starts with 0 and 1, where every reuse is dropped. First touches of warm segments are reuses. The sheet's
 * refusals, 11. SEGTRACE_POINT * SEGTRACE_POINTS numbers always suffice.
 */
uint64_t segtrace_points(const uint8_t *sheet, size_t sheet_length, uint64_t *out, size_t out_length, uint64_t *written);

/* The largest rate and the largest minimum of the loading tariff, in cents. */
enum { SEGTRACE_MAX_RATE = 9999, SEGTRACE_MAX_MINIMUM = 99999 };

/*
 * The bill of a row in cents: the started thousands of its optmem at one rate and those of its load at another, raised to the minimum
 * where it is lower; the sheet's refusals, 7, 18.
 */
uint64_t segtrace_bill(const uint8_t *sheet, size_t sheet_length, uint64_t row, uint64_t memory_rate, uint64_t load_rate,
                       uint64_t minimum, uint64_t *cents);

/*
 * A recorder: filled by segtrace_start, and then handed to the calls below. With any other numbers in it a call still returns and does
 * nothing undefined.
 */
typedef struct {
    uint64_t head[5];    /* kind (0 time, 1 space), a, segs, rows, warm */
    uint64_t counts[3];  /* steps taken, the references' cost Q and volume V */
    uint16_t sizes[256]; /* of the segments, then 0 */
    uint16_t holds[256]; /* the warm segments, ascending, then 0 */
    uint16_t h[64];      /* prices of the rows, then 0 */
    uint16_t d[64];
    uint16_t last[256];  /* last steps of the segments, 0 for a warm one at first */
    uint64_t sums[390];  /* 65 buckets: count, volume, retention, swap, and the last two times the size */
} segtrace_recorder;

/* The calls on the parts of a recorder; the calls below them take it whole. */
uint64_t segtrace_recorder_start(const uint8_t *sheet, size_t sheet_length, uint64_t *head, uint64_t *counts, uint16_t *sizes,
                                 uint16_t *holds, uint16_t *h, uint16_t *d, uint16_t *last, uint64_t *sums);
uint64_t segtrace_recorder_touch(const uint64_t *head, uint64_t *counts, const uint16_t *sizes, const uint16_t *holds, const uint16_t *h,
                                 const uint16_t *d, uint16_t *last, uint64_t *sums, uint64_t segment);
uint64_t segtrace_recorder_idle(uint64_t *counts);
uint64_t segtrace_recorder_touch_all(const uint64_t *head, uint64_t *counts, const uint16_t *sizes, const uint16_t *holds,
                                     const uint16_t *h, const uint16_t *d, uint16_t *last, uint64_t *sums, const uint16_t *segments,
                                     size_t segments_length);
uint64_t segtrace_recorder_figures(const uint64_t *head, const uint64_t *counts, const uint16_t *sizes, const uint16_t *holds,
                                   const uint16_t *h, const uint16_t *d, const uint16_t *last, const uint64_t *sums, uint64_t row,
                                   uint64_t *figures);

/* A recorder with the kind, a, sizes, rows and warm segments of a sheet of forms 1 to 3 and no steps; the sheet's refusals, where form 4
   is 4. Refused, the recorder stays as it was. */
static inline uint64_t segtrace_start(const uint8_t *sheet, size_t sheet_length, segtrace_recorder *r)
{
    return segtrace_recorder_start(sheet, sheet_length, r->head, r->counts, r->sizes, r->holds, r->h, r->d, r->last, r->sums);
}

/* Takes one reference: 4 for a segment not below segs, then 13 where 2,048 steps were taken. */
static inline uint64_t segtrace_touch(segtrace_recorder *r, uint64_t segment)
{
    return segtrace_recorder_touch(r->head, r->counts, r->sizes, r->holds, r->h, r->d, r->last, r->sums, segment);
}

/* Takes one step without a touch: 13 where 2,048 steps were taken. */
static inline uint64_t segtrace_idle(segtrace_recorder *r)
{
    return segtrace_recorder_idle(r->counts);
}

/* Takes all references, or none: 4 and 13 as for a touch, of the first reference that would be refused. */
static inline uint64_t segtrace_touch_all(segtrace_recorder *r, const uint16_t *segments, size_t segments_length)
{
    return segtrace_recorder_touch_all(r->head, r->counts, r->sizes, r->holds, r->h, r->d, r->last, r->sums, segments, segments_length);
}

/* The eleven figures of a row at this moment: those of the sheet ending there: 7. Refused, the list `figures` stays as it was. */
static inline uint64_t segtrace_figures_now(const segtrace_recorder *r, uint64_t row, uint64_t figures[SEGTRACE_FIGURES])
{
    return segtrace_recorder_figures(r->head, r->counts, r->sizes, r->holds, r->h, r->d, r->last, r->sums, row, figures);
}

#ifdef __cplusplus
}
#endif

#endif
