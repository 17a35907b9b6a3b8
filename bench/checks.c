/* Times the table check on stores of several shapes and sizes, by where the floor is: the library, plain C (plain.c) and, where
   BEFORE is defined, an earlier library whose entries are renamed before_fresh and before_batch. Three calls without a request: an
   empty batch; one refused with 3 since only the number of places in use is wrong, which checks all and writes nothing back; and one
   refused with 1 since the floor is above now, which decodes all and checks no row. The check alone is the second less the third.
   Results, counts and all areas are compared after every call. Times are of the processor, not of the clock.
   usage: checks [REPETITIONS]      an odd number up to 201, by default 41 */
#define _POSIX_C_SOURCE 200809L
#include <stdio.h>
#include <stdlib.h>
#include <string.h>
#include "kizmoolet.h"
#include "store.h"
#include "shapes.h"

_Noreturn void fail(const char *what)
{
    fprintf(stderr, "checks: %s\n", what);
    exit(1);
}

#define BATCH_BYTES 1u
#define ANSWERS_BYTES 1u
#define SLAB_STAYS
#include "turns.h"

/* ---- stores */

enum level { ZERO, HALF, NOW, LEVELS };
static const char *const level_names[LEVELS] = {"0", "half", "now"};

static int by_number(const void *x, const void *y)
{
    uint32_t a = *(const uint32_t *)x, b = *(const uint32_t *)y;
    return a < b ? -1 : a > b;
}

/* The moment that half of the records lie below, or nearly: several may have it. */
static uint32_t median_moment(const struct areas *s)
{
    uint32_t n = head_records(s), *moments = room(n * sizeof *moments);
    for (uint32_t i = 0; i < n; i++)
        moments[i] = record_at(s, i).moment;
    qsort(moments, n, sizeof *moments, by_number);
    uint32_t middle = moments[n / 2];
    free(moments);
    return middle;
}

static uint32_t below_floor(const struct areas *s)
{
    uint32_t below = 0;
    for (uint32_t i = 0; i < head_records(s); i++)
        below += record_at(s, i).moment < head_floor(s);
    return below;
}

/* Every branch whose successor begins at the floor or before ends a moment sooner, as if a branch behind it were gone. */
static void open_gaps(struct areas *s)
{
    for (uint32_t k = 0; k + 1 < head_branches(s) && branch_at(s, k + 1).start <= head_floor(s); k++)
        put32(s->branches + KIZMOOLET_BRANCH_BYTES * (size_t)k + 4, branch_at(s, k).end - 1);
}

static void make_at(struct areas *s, enum shape shape, const uint32_t *size, enum level level)
{
    make(s, shape, size[0], size[1]);
    put32(s->head + KIZMOOLET_HEAD_FLOOR_AT, level == ZERO ? 0 : level == HALF ? median_moment(s) : head_now(s));
    if (shape == GAPS)
        open_gaps(s);
}

/* ---- calls */

enum call { EMPTY, COUNTED, RANGE, CALLS };
static const uint32_t dues[CALLS] = {0, 3, 1};

/* A row of the tables. */
struct row {
    enum shape shape;
    enum level level;
    uint32_t records, below;
    double times[CALLS][CONTENDERS];
};

/* With one record fewer in the head, its place is one in use too many. */
static void put_wrong(struct areas *s, enum call call)
{
    if (call == COUNTED)
        put32(s->head + KIZMOOLET_HEAD_RECORDS_AT, head_records(s) - 1);
    if (call == RANGE)
        put32(s->head + KIZMOOLET_HEAD_FLOOR_AT, OPEN_END);
}

static void time_call(struct row *row, enum call call, int repetitions)
{
    uint8_t head[sizeof found.head];
    memcpy(head, found.head, sizeof head);
    put_wrong(&found, call);
    stop_due = dues[call];
    time_batch(LIBRARY);
    if (!same_branches(&used, &found, 0) || !same_others(&used, &found) || !same_disks(&used, &found))
        fail("a call without a request changes the store");
    keep_first();
    take_turns(CONTENDERS, repetitions);
    for (int c = 0; c < CONTENDERS; c++)
        row->times[call][c] = median_of(c, repetitions);
    memcpy(found.head, head, sizeof head);
}

static void time_row(struct row *row, const uint32_t *size, int repetitions)
{
    make_at(&found, row->shape, size, row->level);
    make_at(&used, row->shape, size, row->level);
    make_at(&left, row->shape, size, row->level);
    row->records = head_records(&found);
    row->below = below_floor(&found);
    for (int call = 0; call < CALLS; call++)
        time_call(row, (enum call)call, repetitions);
    free_stores();
}

/* ---- tables */

#define BOTH (CONTENDERS > 2) /* an earlier library too */
#define EARLIER_ONE (CONTENDERS - 1)

static void print_times(const double *t)
{
    print_time(t[LIBRARY]);
    if (BOTH) {
        print_time(t[EARLIER_ONE]);
        printf(" %.2f |", t[EARLIER_ONE] / t[LIBRARY]);
    }
    print_time(t[PLAIN]);
    printf(" %.2f |", t[LIBRARY] / t[PLAIN]);
}

static void print_row(const struct row *row)
{
    double alone[CONTENDERS];
    for (int c = 0; c < CONTENDERS; c++)
        alone[c] = row->times[COUNTED][c] - row->times[RANGE][c];
    printf("| %s | %s | %u | %u |", shape_names[row->shape], level_names[row->level], (unsigned)row->records, (unsigned)row->below);
    print_times(row->times[EMPTY]);
    print_time(row->times[COUNTED][LIBRARY]);
    if (BOTH)
        print_time(row->times[COUNTED][EARLIER_ONE]);
    print_times(alone);
    printf("\n");
    fflush(stdout);
}

static void print_head(const uint32_t *size)
{
    const char *compared = BOTH ? " before | before / now | plain C | now / plain C |" : " plain C | now / plain C |";
    printf("### %u records, %u branches\n\n| Shape | Floor | Records | Below it |", (unsigned)size[0], (unsigned)size[1]);
    printf(" An empty batch |%s Refused with 3 |%s The check alone |%s\n", compared, BOTH ? " before |" : "", compared);
    printf("|---|---|---|---|---|---|---|---|---|---|---|%s\n", BOTH ? "---|---|---|---|---|" : "");
}

/* Without a floor there is no gap, and without a reclaim the shape "nothing older" is that of one address. */
static int left_out(enum shape shape, enum level level)
{
    return shape == YOUNG || (shape == GAPS && level == ZERO);
}

int main(int argc, char **argv)
{
    static const uint32_t sizes[][2] = {{65536, 4096}, {4096, 256}, {1024, 64}};
    int repetitions = repetitions_of(argc, argv);
    for (size_t i = 0; i < sizeof sizes / sizeof *sizes; i++) {
        print_head(sizes[i]);
        for (int k = 0; k < LEVELS * SHAPES; k++) {
            struct row row = {.shape = (enum shape)(k % SHAPES), .level = (enum level)(k / SHAPES)};
            if (left_out(row.shape, row.level))
                continue;
            time_row(&row, sizes[i], repetitions);
            print_row(&row);
        }
        printf("\n");
    }
    return 0;
}
