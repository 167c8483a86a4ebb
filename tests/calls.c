/*
 * The calls from C as include/segtrace.h declares them: NULL with length 0 for every run of bytes, list and place, and the stack that the
 * calls use, measured on a painted stack with the largest sheet of each form. Fails with status 1 where an answer is another, or where more
 * stack is used than the header says.
 *
 *     cc -Iinclude tests/calls.c target/staticlib/libexports.a -lpthread -o calls
 */
#include "segtrace.h"

#include <pthread.h>
#include <stdio.h>
#include <stdlib.h>
#include <string.h>

static uint8_t sheet[SEGTRACE_SHEET_BYTES];
static size_t sheet_length;
static uint8_t listing[SEGTRACE_LISTING_BYTES], page[SEGTRACE_PAGE_BYTES], schedule[SEGTRACE_SCHEDULE_BYTES];
static uint8_t again[SEGTRACE_SHEET_BYTES], other[SEGTRACE_SHEET_BYTES];
static uint64_t all[SEGTRACE_ROWS * SEGTRACE_FIGURES];
static uint16_t segments[SEGTRACE_STEPS];

static void expect(const char *call, uint64_t got, uint64_t wanted)
{
    if (got == wanted)
        return;
    fprintf(stderr, "FAILED: %s gives %d and not %d\n", call, (int)got, (int)wanted);
    exit(1);
}

/* NULL with length 0: a sheet without bytes is refused with 2, a place without bytes with 11 unless the result has none. */
static void without_pointers(void)
{
    static const char text[] = "kind=time\na=0\nsegs=1\nsize=1\nrows=1\nrow=1/1\nrefs=0\n";
    static const char once[] = "kind=time\na=0\nsegs=1\nsize=1\nrows=1\nrow=1/1\nrefs=1\nref=0\n";
    const uint8_t *none = (const uint8_t *)text, *one = (const uint8_t *)once;
    size_t none_length = sizeof text - 1, one_length = sizeof once - 1;
    uint64_t figures[SEGTRACE_FIGURES], price[SEGTRACE_PRICE], written = 7, looked = 7, row;
    int64_t margin;
    segtrace_recorder r;
    expect("check", segtrace_check(NULL, 0), 2);
    expect("rewrite", segtrace_rewrite(NULL, 0, NULL, 0, &written), 2);
    expect("join", segtrace_join(NULL, 0, NULL, 0, NULL, 0, &written), 2);
    expect("import_din", segtrace_import_din(NULL, 0, 12, NULL, 0, NULL, 0, &written), 2);
    expect("import_din, no place", segtrace_import_din(NULL, 0, 12, none, none_length, NULL, 0, &written), 11);
    expect("lru", segtrace_lru(NULL, 0, NULL, 0, &written, &looked), 2);
    expect("lru_plain", segtrace_lru_plain(NULL, 0, NULL, 0, &written), 2);
    expect("lru, no place", segtrace_lru(one, one_length, NULL, 0, &written, &looked), 11);
    expect("lru_plain, no place", segtrace_lru_plain(one, one_length, NULL, 0, &written), 11);
    expect("windows", segtrace_windows(NULL, 0, NULL, 0, &written), 2);
    expect("windows, no place", segtrace_windows(one, one_length, NULL, 0, &written), 11);
    expect("points", segtrace_points(NULL, 0, NULL, 0, &written), 2);
    expect("points, no place", segtrace_points(none, none_length, NULL, 0, &written), 11);
    expect("figures", segtrace_figures(NULL, 0, 0, figures), 2);
    expect("all_figures", segtrace_all_figures(NULL, 0, NULL, 0, &written), 2);
    expect("listing", segtrace_listing(NULL, 0, NULL, 0, &written), 2);
    expect("optimal_schedule", segtrace_optimal_schedule(NULL, 0, 0, NULL, 0, &written), 2);
    expect("modified_schedule", segtrace_modified_schedule(NULL, 0, 0, NULL, 0, &written), 2);
    expect("price", segtrace_price(NULL, 0, 0, NULL, 0, price), 2);
    expect("margin", segtrace_margin(NULL, 0, 0, 1, &margin), 2);
    expect("size", segtrace_size(NULL, 0, 0, &row), 2);
    expect("start", segtrace_start(NULL, 0, &r), 2);
    expect("rewrite, no place", segtrace_rewrite(one, one_length, NULL, 0, &written), 11);
    expect("all_figures, no place", segtrace_all_figures(one, one_length, NULL, 0, &written), 11);
    expect("listing, no place", segtrace_listing(one, one_length, NULL, 0, &written), 11);
    expect("page, no place", segtrace_page(one, one_length, NULL, 0, &written), 11);
    expect("optimal_schedule, no place", segtrace_optimal_schedule(one, one_length, 0, NULL, 0, &written), 11);
    expect("modified_schedule of form 1", segtrace_modified_schedule(one, one_length, 0, NULL, 0, &written), 4);
    expect("price, no schedule", segtrace_price(one, one_length, 0, NULL, 0, price), 8);
    expect("written", written, 7);
    expect("looked", looked, 7);
    expect("optimal_schedule of no references", segtrace_optimal_schedule(none, none_length, 0, NULL, 0, &written), 0);
    expect("its length", written, 0);
    expect("windows of no steps", segtrace_windows(none, none_length, NULL, 0, &written), 0);
    expect("how many", written, 0);
    expect("price of no references", segtrace_price(none, none_length, 0, NULL, 0, price), 0);
    expect("start", segtrace_start(one, one_length, &r), 0);
    expect("touch_all of no references", segtrace_touch_all(&r, NULL, 0), 0);
}

/* A recorder starts with the warm segments of a sheet: the first touch of segment 1, in step 1, is kept, that of segment 0 is a miss. */
static void warm_recorder(void)
{
    static const char text[] = "form=3\nkind=space\na=1\nsegs=2\nsize=1\nsize=3\nrows=1\nrow=1/1\nwarm=1\nhold=1\nsteps=0\nrefs=0\n";
    uint64_t figures[SEGTRACE_FIGURES];
    segtrace_recorder r;
    expect("start", segtrace_start((const uint8_t *)text, sizeof text - 1, &r), 0);
    expect("warm segments", r.head[4], 1);
    expect("the warm segment", r.holds[0], 1);
    expect("touch", segtrace_touch(&r, 1), 0);
    expect("touch", segtrace_touch(&r, 0), 0);
    expect("figures_now", segtrace_figures_now(&r, 0, figures), 0);
    expect("misses", figures[SEGTRACE_MISSES], 1);
    expect("volume", figures[SEGTRACE_VOLUME], 1);
}

/* Segment 1, w = 4, is modified at steps 1 and 4 and held between: one load and one store. With the touch at step 4 not marked it is
   dropped. Refused with 4 in form 3, with 7 and with 11. */
static void modified(void)
{
    static char text[] = "form=4\nkind=space\na=1\nsegs=2\nsize=1\nsize=3\nrows=1\nrow=1/1\nwarm=0\nsteps=4\nrefs=2\n"
                         "ref=1@1w\nref=1@4w\n";
    static uint8_t place[4 * 32 + 1];
    const uint8_t *bytes = (const uint8_t *)text;
    size_t length = sizeof text - 1;
    uint64_t price[SEGTRACE_PRICE], written = 7;
    int t;
    memset(place, 7, sizeof place);
    expect("modified_schedule, row 1", segtrace_modified_schedule(bytes, length, 1, place, sizeof place, &written), 7);
    expect("modified_schedule, no place", segtrace_modified_schedule(bytes, length, 0, NULL, 0, &written), 11);
    expect("modified_schedule, short", segtrace_modified_schedule(bytes, length, 0, place, 4 * 32 - 1, &written), 11);
    expect("optimal_schedule of form 4", segtrace_optimal_schedule(bytes, length, 0, place, sizeof place, &written), 4);
    expect("written", written, 7);
    expect("the place", place[0], 7);
    expect("modified_schedule", segtrace_modified_schedule(bytes, length, 0, place, sizeof place, &written), 0);
    expect("its length", written, 4 * 32);
    for (t = 0; t < 4; t++)
        expect("its step", place[32 * t], 2);
    expect("the byte beyond it", place[4 * 32], 7);
    expect("price", segtrace_price(bytes, length, 0, place, 4 * 32, price), 0);
    expect("memory", price[SEGTRACE_PRICE_MEMORY], 12);
    expect("load", price[SEGTRACE_PRICE_LOAD], 8);
    expect("total", price[SEGTRACE_PRICE_TOTAL], 20);
    text[5] = '3';
    expect("a letter in form 3", segtrace_check(bytes, length), 3);
    expect("modified_schedule of form 3", segtrace_modified_schedule(bytes, length, 0, place, sizeof place, &written), 4);
    text[5] = '4';
    text[length - 2] = '\n';
    expect("modified_schedule", segtrace_modified_schedule(bytes, length - 1, 0, place, sizeof place, &written), 0);
    expect("its step 2", place[32], 0);
}

/* The largest sheet of a form: every number has as many digits as it may have, from form 3 on every segment is warm, in form 4 every touch
   modifies, and the references go round the segments from 100 on. */
static void make_sheet(int form, size_t length)
{
    char *at = (char *)sheet;
    int i;
    if (form > 1)
        at += sprintf(at, "form=%d\n", form);
    at += sprintf(at, "kind=space\na=255\nsegs=256\n");
    for (i = 0; i < 256; i++)
        at += sprintf(at, "size=4095\n");
    at += sprintf(at, "rows=64\n");
    for (i = 0; i < 64; i++)
        at += sprintf(at, "row=%d/%d\n", 10000 + 800 * i, 65535 - i);
    if (form > 2) {
        at += sprintf(at, "warm=256\n");
        for (i = 0; i < 256; i++)
            at += sprintf(at, "hold=%d\n", i);
    }
    if (form > 1)
        at += sprintf(at, "steps=2048\n");
    at += sprintf(at, "refs=2048\n");
    for (i = 0; i < 2048; i++) {
        segments[i] = (uint16_t)(100 + i * 7 % 156);
        at += form > 1 ? sprintf(at, "ref=%d@%d", segments[i], i + 1) : sprintf(at, "ref=%d", segments[i]);
        if (form > 3)
            *at++ = 'w';
        *at++ = '\n';
    }
    sheet_length = length;
    expect("bytes of the largest sheet", (uint64_t)(at - (char *)sheet), length);
}

/* One of two sheets whose joint sheet has as many bytes as a sheet may have: 128 warm segments, 64 rows, 1,024 touches
   in every other step (or none). */
static size_t make_part(uint8_t *place, int part, int refs)
{
    char *at = (char *)place;
    int i;
    at += sprintf(at, "form=3\nkind=space\na=255\nsegs=128\n");
    for (i = 0; i < 128; i++)
        at += sprintf(at, "size=4095\n");
    at += sprintf(at, "rows=64\n");
    for (i = 0; i < 64; i++)
        at += sprintf(at, "row=%d/%d\n", 10000 + 800 * i, 65535 - i);
    at += sprintf(at, "warm=128\n");
    for (i = 0; i < 128; i++)
        at += sprintf(at, "hold=%d\n", i);
    at += sprintf(at, "steps=2048\nrefs=%d\n", refs);
    for (i = 0; i < refs; i++)
        at += sprintf(at, "ref=%d@%d\n", 100 + i * 5 % 28, 2 * i + 1 + part);
    return (size_t)(at - (char *)place);
}

/* Joining the largest pair; its refusals 4 (form 1), 20, 21, 22 and 11, which write nothing. */
static void joins(void)
{
    static const char text[] = "form=2\nkind=time\na=0\nsegs=1\nsize=1\nrows=1\nrow=1/1\nsteps=0\nrefs=0\n";
    static const char joint[] = "form=3\nkind=time\na=0\nsegs=2\nsize=1\nsize=1\nrows=1\nrow=1/1\nwarm=0\nsteps=0\nrefs=0\n";
    const uint8_t *one = (const uint8_t *)text, *of_form_1 = (const uint8_t *)strchr(text, '\n') + 1;
    size_t one_length = sizeof text - 1, first = make_part(sheet, 0, 1024), second = make_part(other, 1, 1024);
    uint64_t written = 7, length;
    expect("join of form 1", segtrace_join(of_form_1, one_length - 7, one, one_length, again, sizeof again, &written), 4);
    expect("join, a differs", segtrace_join(one, one_length, sheet, first, again, sizeof again, &written), 20);
    expect("join, both touch", segtrace_join(sheet, first, sheet, first, again, sizeof again, &written), 21);
    expect("join, no place", segtrace_join(one, one_length, one, one_length, NULL, 0, &written), 11);
    expect("written", written, 7);
    expect("join of the same bytes", segtrace_join(one, one_length, one, one_length, again, sizeof again, &written), 0);
    expect("its length", written, sizeof joint - 1);
    expect("its bytes", memcmp(again, joint, sizeof joint - 1) != 0, 0);
    expect("join", segtrace_join(sheet, first, other, second, again, sizeof again, &length), 0);
    expect("bytes of the largest joint sheet", length, SEGTRACE_SHEET_BYTES_FORM_3);
    expect("check of it", segtrace_check(again, length), 0);
    first = make_part(sheet, 0, 0);
    expect("join to 256 segments", segtrace_join(again, length, sheet, first, other, sizeof other, &written), 22);
}

/* Importing the largest trace, 2,048 lines of 256 pages, with the rows of the sheet; an empty one; its refusals, which write nothing. */
static void imports(void)
{
    static const char empty[] = "kind=time\na=0\nsegs=1\nsize=1\nrows=64\n";
    static uint8_t trace[11 * SEGTRACE_STEPS + 4];
    char *at = (char *)trace;
    size_t length;
    uint64_t written = 7;
    int i;
    for (i = 0; i < SEGTRACE_STEPS; i++)
        at += sprintf(at, "%d %08X\n", i % 3, (unsigned)(i * 37 % 256) << 24 | 0xbeef);
    length = (size_t)(at - (char *)trace);
    at += sprintf(at, "0 0\n");
    expect("import_din, k = 25", segtrace_import_din(trace, length, 25, sheet, sheet_length, again, sizeof again, &written), 23);
    expect("import_din, cut off", segtrace_import_din(trace, length - 1, 24, sheet, sheet_length, again, sizeof again, &written), 24);
    expect("import_din, one more", segtrace_import_din(trace, length + 4, 24, sheet, sheet_length, again, sizeof again, &written), 25);
    expect("import_din, short", segtrace_import_din(trace, length, 24, sheet, sheet_length, again, 999, &written), 11);
    expect("written", written, 7);
    expect("import_din", segtrace_import_din(trace, length, 24, sheet, sheet_length, again, sizeof again, &written), 0);
    expect("check of it", segtrace_check(again, written), 0);
    expect("import_din of nothing", segtrace_import_din(NULL, 0, 8, sheet, sheet_length, again, sizeof again, &written), 0);
    expect("its head", memcmp(again, empty, sizeof empty - 1) != 0, 0);
    expect("its end", memcmp(again + written - 7, "refs=0\n", 7) != 0, 0);
}

/* The misses with every number of frames: of Belady's string, of 2,048 references to 256 segments by both engines, and refused with 26 and
   27; and the working set at every window of the latter, and refused with 28. */
static void curves(void)
{
    static const char head[] = "form=3\nkind=time\na=0\nsegs=5\nsize=1\nsize=1\nsize=1\nsize=1\nsize=1\nrows=1\nrow=1/1\n";
    static const uint64_t wanted[5] = {12, 12, 10, 8, 5};
    static const char string[] = "012301401234";
    static uint64_t list[SEGTRACE_SEGS], plain[SEGTRACE_SEGS], values[SEGTRACE_STEPS];
    char *at = (char *)other + sprintf((char *)other, "%swarm=0\nsteps=12\nrefs=12\n", head);
    uint64_t written = 7, looked = 7;
    int i;
    for (i = 0; i < 12; i++)
        at += sprintf(at, "ref=%c@%d\n", string[i], i + 1);
    expect("lru", segtrace_lru(other, (size_t)(at - (char *)other), list, 5, &written, &looked), 0);
    expect("how many", written, 5);
    expect("entries looked at", looked, 39);
    expect("the misses", memcmp(list, wanted, sizeof wanted) != 0, 0);
    at = (char *)other + sprintf((char *)other, "%swarm=1\nhold=4\nsteps=0\nrefs=0\n", head);
    expect("lru of a warm segment", segtrace_lru(other, (size_t)(at - (char *)other), list, 5, &written, &looked), 27);
    expect("lru_plain of it", segtrace_lru_plain(other, (size_t)(at - (char *)other), list, 5, &written), 27);
    expect("lru of sizes", segtrace_lru(sheet, sheet_length, list, SEGTRACE_SEGS, &written, &looked), 26);
    expect("looked", looked, 39);
    expect("lru_plain of sizes", segtrace_lru_plain(sheet, sheet_length, list, SEGTRACE_SEGS, &written), 26);
    at = (char *)other + sprintf((char *)other, "kind=time\na=0\nsegs=256\n");
    for (i = 0; i < 256; i++)
        at += sprintf(at, "size=1\n");
    at += sprintf(at, "rows=1\nrow=1/1\nrefs=2048\n");
    for (i = 0; i < 2048; i++)
        at += sprintf(at, "ref=%d\n", (i * i + i / 5) % 256);
    expect("lru", segtrace_lru(other, (size_t)(at - (char *)other), list, SEGTRACE_SEGS, &written, &looked), 0);
    expect("how many", written, SEGTRACE_SEGS);
    expect("lru_plain", segtrace_lru_plain(other, (size_t)(at - (char *)other), plain, SEGTRACE_SEGS, &written), 0);
    expect("the same misses", memcmp(list, plain, sizeof list) != 0, 0);
    expect("windows", segtrace_windows(other, (size_t)(at - (char *)other), values, SEGTRACE_STEPS, &written), 0);
    expect("how many", written, SEGTRACE_STEPS);
    expect("the first window", values[0], 2048);
    expect("windows of kind space", segtrace_windows(sheet, sheet_length, values, SEGTRACE_STEPS, &written), 28);
}

/* The operating points of the sheet, of one without references, and refused with 11: a place for 2,048 always suffices. */
static void operating_points(void)
{
    static const char text[] = "kind=time\na=0\nsegs=1\nsize=1\nrows=1\nrow=1/1\nrefs=0\n";
    static const uint64_t wanted[SEGTRACE_POINT] = {0, 1, 0, 0};
    static uint64_t points[SEGTRACE_POINT * SEGTRACE_POINTS];
    uint64_t written, length;
    expect("points", segtrace_points(sheet, sheet_length, points, SEGTRACE_POINT * SEGTRACE_POINTS, &length), 0);
    expect("whole points", length % SEGTRACE_POINT, 0);
    expect("points, short", segtrace_points(sheet, sheet_length, points, (size_t)length - 1, &written), 11);
    expect("points of no reuse", segtrace_points((const uint8_t *)text, sizeof text - 1, points, SEGTRACE_POINT, &written), 0);
    expect("how many numbers", written, SEGTRACE_POINT);
    expect("the one point", memcmp(points, wanted, sizeof wanted) != 0, 0);
}

/* Every call on the sheet: those that are not made for its form give 4. */
static void calls_on_sheet(int form)
{
    uint64_t (*best)(const uint8_t *, size_t, uint64_t, uint8_t *, size_t, uint64_t *) = segtrace_optimal_schedule;
    uint64_t (*other)(const uint8_t *, size_t, uint64_t, uint8_t *, size_t, uint64_t *) = segtrace_modified_schedule;
    uint64_t figures[SEGTRACE_FIGURES], price[SEGTRACE_PRICE], written, row, cents;
    int64_t margin;
    static segtrace_recorder r;
    expect("check", segtrace_check(sheet, sheet_length), 0);
    expect("rewrite", segtrace_rewrite(sheet, sheet_length, again, sizeof again, &written), 0);
    expect("figures", segtrace_figures(sheet, sheet_length, 63, figures), 0);
    expect("all_figures", segtrace_all_figures(sheet, sheet_length, all, sizeof all / sizeof *all, &written), 0);
    expect("listing", segtrace_listing(sheet, sheet_length, listing, sizeof listing, &written), 0);
    expect("page", segtrace_page(sheet, sheet_length, page, sizeof page, &written), 0);
    if (form > 3) {
        best = segtrace_modified_schedule;
        other = segtrace_optimal_schedule;
    }
    expect("the schedule of its form", best(sheet, sheet_length, 63, schedule, sizeof schedule, &written), 0);
    expect("the other schedule", other(sheet, sheet_length, 63, schedule, sizeof schedule, &written), 4);
    expect("price", segtrace_price(sheet, sheet_length, 63, schedule, sizeof schedule, price), 0);
    expect("margin", segtrace_margin(sheet, sheet_length, 63, 2048, &margin), 0);
    expect("size", segtrace_size(sheet, sheet_length, UINT64_MAX, &row), 0);
    expect("bill", segtrace_bill(sheet, sheet_length, 63, 9999, 9999, 99999, &cents), 0);
    expect("start", segtrace_start(sheet, sheet_length, &r), form > 3 ? 4 : 0);
    if (form < 4) {
        expect("touch", segtrace_touch(&r, 0), 0);
        expect("idle", segtrace_idle(&r), 0);
        expect("touch_all", segtrace_touch_all(&r, segments, 2046), 0);
        expect("idle of a full recorder", segtrace_idle(&r), 13);
        expect("figures_now", segtrace_figures_now(&r, 63, figures), 0);
    }
    imports();
    curves();
    operating_points();
}

/* Every call on the largest sheet of form 1, then on the same sheet in form 2, which is its largest too; and back; then on those of form 3
   and form 4, which are not converted. */
static void *every_call(void *unused)
{
    uint64_t written;
    make_sheet(1, SEGTRACE_SHEET_BYTES_FORM_1);
    calls_on_sheet(1);
    expect("to_form_1 of form 1", segtrace_to_form_1(sheet, sheet_length, again, sizeof again, &written), 4);
    expect("to_form_2", segtrace_to_form_2(sheet, sheet_length, again, sizeof again, &written), 0);
    make_sheet(2, SEGTRACE_SHEET_BYTES_FORM_2);
    expect("bytes of the largest sheet of form 2", written, SEGTRACE_SHEET_BYTES_FORM_2);
    expect("the largest sheet of form 2", memcmp(sheet, again, written) != 0, 0);
    calls_on_sheet(2);
    expect("to_form_2 of form 2", segtrace_to_form_2(sheet, sheet_length, again, sizeof again, &written), 4);
    expect("to_form_1", segtrace_to_form_1(sheet, sheet_length, again, sizeof again, &written), 0);
    expect("bytes of the largest sheet of form 1", written, SEGTRACE_SHEET_BYTES_FORM_1);
    make_sheet(3, SEGTRACE_SHEET_BYTES_FORM_3);
    calls_on_sheet(3);
    expect("to_form_2 of form 3", segtrace_to_form_2(sheet, sheet_length, again, sizeof again, &written), 4);
    expect("to_form_1 of form 3", segtrace_to_form_1(sheet, sheet_length, again, sizeof again, &written), 4);
    make_sheet(4, SEGTRACE_SHEET_BYTES);
    calls_on_sheet(4);
    expect("to_form_2 of form 4", segtrace_to_form_2(sheet, sheet_length, again, sizeof again, &written), 4);
    expect("to_form_1 of form 4", segtrace_to_form_1(sheet, sheet_length, again, sizeof again, &written), 4);
    expect("join of form 4", segtrace_join(sheet, sheet_length, sheet, sheet_length, again, sizeof again, &written), 4);
    joins();
    return unused;
}

/* The bytes of a stack of 1 MB that are used by a function: those beyond the deepest byte that is still painted. */
static size_t stack_of(void *(*run)(void *))
{
    size_t size = 1 << 20, unused = 0;
    uint8_t *stack = aligned_alloc(4096, size);
    pthread_attr_t attributes;
    pthread_t thread;
    memset(stack, 0xa5, size);
    pthread_attr_init(&attributes);
    pthread_attr_setstack(&attributes, stack, size);
    expect("a thread", (uint64_t)pthread_create(&thread, &attributes, run, NULL), 0);
    pthread_join(thread, NULL);
    while (unused < size && stack[unused] == 0xa5)
        unused++;
    free(stack);
    return size - unused;
}

static void *no_call(void *unused) { return unused; }

int main(void)
{
    size_t used;
    without_pointers();
    warm_recorder();
    modified();
    used = stack_of(every_call) - stack_of(no_call);
    if (used > SEGTRACE_STACK_BYTES) {
        fprintf(stderr, "FAILED: the calls use %zu bytes of stack and not at most %d\n", used, SEGTRACE_STACK_BYTES);
        return 1;
    }
    printf("calls from C: NULL with length 0 taken; at most %zu bytes of stack used\n", used);
    return 0;
}
