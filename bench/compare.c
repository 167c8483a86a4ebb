/*
 * Two builds of the library, measured in turns: ./compare BEFORE.so NOW.so GROUPS. For each sheet and call it prints the time of the second
 * divided by that of the first, and the microseconds of the second. A number is the best of GROUPS groups of calls at each of 64 places of
 * the stack, since a call's time depends on where in a page its stack stands.
 */
#include "segtrace.h"

#include <alloca.h>
#include <dlfcn.h>
#include <stdio.h>
#include <stdlib.h>
#include <time.h>

enum { CALLS = 9, PLACES = 64, SIZES = 4, STEPS_A_GROUP = 4096 };

/* The calls of one build, by name. */
typedef struct {
    uint64_t (*check)(const uint8_t *, size_t);
    uint64_t (*figures)(const uint8_t *, size_t, uint64_t, uint64_t *);
    uint64_t (*all_figures)(const uint8_t *, size_t, uint64_t *, size_t, uint64_t *);
    uint64_t (*listing)(const uint8_t *, size_t, uint8_t *, size_t, uint64_t *);
    uint64_t (*page)(const uint8_t *, size_t, uint8_t *, size_t, uint64_t *);
    uint64_t (*schedule)(const uint8_t *, size_t, uint64_t, uint8_t *, size_t, uint64_t *);
    uint64_t (*price)(const uint8_t *, size_t, uint64_t, const uint8_t *, size_t, uint64_t *);
    uint64_t (*margin)(const uint8_t *, size_t, uint64_t, uint64_t, int64_t *);
    uint64_t (*rewrite)(const uint8_t *, size_t, uint8_t *, size_t, uint64_t *);
} library;

static const char *const names[CALLS] = {"check", "figures", "all_figures", "listing", "page",
                                         "optimal_schedule", "price", "margin", "rewrite"};

static char sheet[SEGTRACE_SHEET_BYTES];
static size_t sheet_length;
static uint8_t place[SEGTRACE_SCHEDULE_BYTES], schedule[SEGTRACE_SCHEDULE_BYTES];
static uint64_t numbers[SEGTRACE_ROWS * SEGTRACE_FIGURES], written, schedule_length, margin_reference;
static int64_t margin;

static void *call_of(void *build, const char *name)
{
    char symbol[64];
    void *found;
    snprintf(symbol, sizeof symbol, "segtrace_%s", name);
    found = dlsym(build, symbol);
    if (found == NULL) {
        fprintf(stderr, "%s is missing\n", symbol);
        exit(2);
    }
    return found;
}

static library opened(const char *name)
{
    library l;
    void *build = dlopen(name, RTLD_NOW | RTLD_LOCAL);
    if (build == NULL) {
        fprintf(stderr, "%s\n", dlerror());
        exit(2);
    }
    *(void **)&l.check = call_of(build, names[0]);
    *(void **)&l.figures = call_of(build, names[1]);
    *(void **)&l.all_figures = call_of(build, names[2]);
    *(void **)&l.listing = call_of(build, names[3]);
    *(void **)&l.page = call_of(build, names[4]);
    *(void **)&l.schedule = call_of(build, names[5]);
    *(void **)&l.price = call_of(build, names[6]);
    *(void **)&l.margin = call_of(build, names[7]);
    *(void **)&l.rewrite = call_of(build, names[8]);
    return l;
}

/* A sheet of form 1, or of form 2 with every tenth step idle; the segments are touched at random, and the last reference is a reuse. */
static void make_sheet(int form, int segs, int rows, int steps)
{
    int entries[SEGTRACE_STEPS], refs = 0, i;
    char *at = sheet;
    srand((unsigned)steps);
    at += sprintf(at, "%skind=%s\na=3\nsegs=%d\n", form == 2 ? "form=2\n" : "", steps % 4 == 0 ? "space" : "time", segs);
    for (i = 0; i < segs; i++)
        at += sprintf(at, "size=%d\n", 1 + rand() % 4095);
    at += sprintf(at, "rows=%d\n", rows);
    for (i = 0; i < rows; i++)
        at += sprintf(at, "row=%d/3\n", 9 * i + 1);
    for (i = 0; i < steps; i++) {
        entries[i] = form == 2 && i % 10 == 4 ? -1 : i == steps - 1 ? entries[0] : rand() % segs;
        refs += entries[i] >= 0;
    }
    if (form == 2)
        at += sprintf(at, "steps=%d\n", steps);
    at += sprintf(at, "refs=%d\n", refs);
    for (i = 0; i < steps; i++) {
        if (form == 1)
            at += sprintf(at, "ref=%d\n", entries[i]);
        else if (entries[i] >= 0)
            at += sprintf(at, "ref=%d@%d\n", entries[i], i + 1);
    }
    sheet_length = (size_t)(at - sheet);
    margin_reference = (uint64_t)refs;
}

static uint64_t called(const library *l, int call)
{
    const uint8_t *bytes = (const uint8_t *)sheet;
    switch (call) {
    case 0:
        return l->check(bytes, sheet_length);
    case 1:
        return l->figures(bytes, sheet_length, 0, numbers);
    case 2:
        return l->all_figures(bytes, sheet_length, numbers, SEGTRACE_ROWS * SEGTRACE_FIGURES, &written);
    case 3:
        return l->listing(bytes, sheet_length, place, sizeof place, &written);
    case 4:
        return l->page(bytes, sheet_length, place, sizeof place, &written);
    case 5:
        return l->schedule(bytes, sheet_length, 0, place, sizeof place, &written);
    case 6:
        return l->price(bytes, sheet_length, 0, schedule, (size_t)schedule_length, numbers);
    case 7:
        return l->margin(bytes, sheet_length, 0, margin_reference, &margin);
    default:
        return l->rewrite(bytes, sheet_length, place, sizeof place, &written);
    }
}

static double now(void)
{
    struct timespec t;
    clock_gettime(CLOCK_MONOTONIC, &t);
    return (double)t.tv_sec * 1e6 + (double)t.tv_nsec / 1e3;
}

/* The microseconds of so many calls with the stack moved on by `offset` bytes. */
static __attribute__((noinline)) double group(const library *l, int call, int count, size_t offset)
{
    volatile char *moved = alloca(offset + 16);
    double start;
    int i;
    moved[0] = 0;
    start = now();
    for (i = 0; i < count; i++)
        if (called(l, call) != 0) {
            fprintf(stderr, "%s is refused\n", names[call]);
            exit(2);
        }
    return now() - start;
}

static void measure(const library *before, const library *after, int call, int count, int groups)
{
    double best[2] = {1e30, 1e30}, t;
    int offset, i;
    for (offset = 0; offset < PLACES; offset++)
        for (i = 0; i < groups; i++) {
            if ((t = group(before, call, count, (size_t)offset * 64)) < best[0])
                best[0] = t;
            if ((t = group(after, call, count, (size_t)offset * 64)) < best[1])
                best[1] = t;
        }
    printf("    %-18s %6.3f  %9.3f\n", names[call], best[1] / best[0], best[1] / count);
}

int main(int argc, char **argv)
{
    static const int sizes[SIZES][3] = {{2, 1, 6}, {16, 2, 64}, {64, 8, 256}, {256, 64, 2048}};
    library before, after;
    int form, size, call;
    if (argc != 4) {
        fprintf(stderr, "usage: %s BEFORE.so NOW.so GROUPS\n", argv[0]);
        return 2;
    }
    before = opened(argv[1]);
    after = opened(argv[2]);
    for (form = 1; form <= 2; form++)
        for (size = 0; size < SIZES; size++) {
            const int *s = sizes[size];
            make_sheet(form, s[0], s[1], s[2]);
            if (after.schedule((const uint8_t *)sheet, sheet_length, 0, schedule, sizeof schedule, &schedule_length) != 0) {
                fprintf(stderr, "optimal_schedule is refused\n");
                return 2;
            }
            printf("form %d, %d segments, %d rows, %d steps\n", form, s[0], s[1], s[2]);
            for (call = 0; call < CALLS; call++)
                measure(&before, &after, call, STEPS_A_GROUP / (s[2] + 64) + 1, atoi(argv[3]));
            fflush(stdout);
        }
    return 0;
}
