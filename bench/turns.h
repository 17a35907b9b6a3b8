/* Batches timed in turns: the library, plain C and, where BEFORE is defined, an earlier library, each on the same store, with the
   answers, all six areas of the store, live disk and marks compared byte for byte after every batch (of an earlier library see
   before.h). Whoever includes it says before it BATCH_BYTES and ANSWERS_BYTES, the most bytes of a batch and of its answers, and
   SLAB_STAYS where no batch writes to slab and disk. */
#include <time.h>
#include "before.h"

#ifdef BEFORE
enum { LIBRARY, PLAIN, EARLIER, CONTENDERS };
static batch_function *const contenders[CONTENDERS] = {kizmoolet_batch, plain_batch, earlier_batch};
#else
enum { LIBRARY, PLAIN, CONTENDERS };
static batch_function *const contenders[CONTENDERS] = {kizmoolet_batch, plain_batch};
#endif

#define MOST_REPETITIONS 201
static double times[CONTENDERS][MOST_REPETITIONS];

/* The store that a batch finds, the one it works on, the one that the library left the first time; the same for the answers. */
static struct areas found, used, left;
static uint8_t batch[BATCH_BYTES];
static uint8_t answers[ANSWERS_BYTES], answers_left[ANSWERS_BYTES];
static size_t batch_len, answers_len = ANSWERS_BYTES; /* of the batch, and of the answer area that is lent for it */
static uint64_t answered, answer_bytes, answered_left, answer_bytes_left;
static uint32_t stop_due; /* 0, or the number of the table check that is to refuse the batch */

/* Head, tables and marks. */
static void copy_tables(struct areas *to, const struct areas *from)
{
    memcpy(to->marks, from->marks, from->marks_len);
    memcpy(to->branches, from->branches, from->branches_len);
    memcpy(to->records, from->records, from->records_len);
    memcpy(to->places, from->places, from->places_len);
    memcpy(to->names, from->names, sizeof to->names);
    memcpy(to->head, from->head, sizeof to->head);
}

/* The store in use as it was found, for whoever is next, an earlier library too. */
static void restore_tables(void)
{
    copy_tables(&used, &found);
    lend_earlier(used.branches, used.branches_len);
}

static int is_earlier(int c)
{
    return c > PLAIN;
}

static int same_branches(const struct areas *a, const struct areas *b, int with_earlier)
{
    return memcmp(a->head + 4, b->head + 4, 4) == 0 && same_rows(a->branches, b->branches, a->branches_len, with_earlier);
}

static int same_others(const struct areas *a, const struct areas *b)
{
    return memcmp(a->head, b->head, 4) == 0 && memcmp(a->head + 8, b->head + 8, sizeof a->head - 8) == 0
        && memcmp(a->records, b->records, a->records_len) == 0 && memcmp(a->places, b->places, a->places_len) == 0
        && memcmp(a->names, b->names, sizeof a->names) == 0 && memcmp(a->slab, b->slab, a->slab_len) == 0;
}

static int same_disks(const struct areas *a, const struct areas *b)
{
    return memcmp(a->disk, b->disk, a->disk_len) == 0 && memcmp(a->marks, b->marks, a->marks_len) == 0;
}

static void free_areas(struct areas *s)
{
    free(s->branches);
    free(s->records);
    free(s->places);
    free(s->slab);
    free(s->disk);
    free(s->marks);
}

static void free_stores(void)
{
    free_areas(&found);
    free_areas(&used);
    free_areas(&left);
}

static double seconds(void)
{
    struct timespec t;
    clock_gettime(CLOCK_PROCESS_CPUTIME_ID, &t);
    return (double)t.tv_sec + 1e-9 * (double)t.tv_nsec;
}

/* One batch on the store as it was found. */
static double time_batch(int c)
{
    uint64_t taken, rows;
#ifndef SLAB_STAYS
    memcpy(used.slab, found.slab, found.slab_len);
    memcpy(used.disk, found.disk, found.disk_len);
#endif
    restore_tables();
    memset(answers, 0xA5, answers_len);
    double began = seconds();
    uint32_t stop = contenders[c](used.head, sizeof used.head, used.branches, used.branches_len, used.records, used.records_len,
        used.places, used.places_len, used.names, sizeof used.names, used.slab, used.slab_len, used.disk, used.disk_len, used.marks,
        used.marks_len, batch, batch_len, answers, answers_len, &answered, &taken, &answer_bytes, &rows);
    double took = seconds() - began;
    if (is_earlier(c))
        take_earlier(used.branches, used.branches_len);
    if (stop != stop_due || taken != (stop ? 0 : batch_len))
        fail("a batch does not end as is due");
    if (rows != (stop == 1 ? 0 : head_records(&found)))
        fail("the table checks did not read as many record rows as are due");
    return took;
}

/* What the first batch left, to compare the others with. */
static void keep_first(void)
{
    copy_tables(&left, &used);
    memcpy(left.slab, used.slab, used.slab_len);
    memcpy(left.disk, used.disk, used.disk_len);
    memcpy(answers_left, answers, answers_len);
    answered_left = answered;
    answer_bytes_left = answer_bytes;
}

/* Whether contender c keeps the branches that the library keeps. */
static int keeps_same(int c)
{
#if defined BEFORE && !defined BEFORE_WEEKLY
    return c != EARLIER;
#else
    (void)c;
    return 1;
#endif
}

/* Whether contender c has a live disk. */
static int has_disk(int c)
{
#if defined BEFORE && !defined BEFORE_DISK
    return c != EARLIER;
#else
    (void)c;
    return 1;
#endif
}

static void compare(int c)
{
    if (answered != answered_left || answer_bytes != answer_bytes_left || memcmp(answers, answers_left, answers_len) != 0)
        fail("two contenders give different answers");
    if (!same_others(&used, &left) || (keeps_same(c) && !same_branches(&used, &left, is_earlier(c))))
        fail("two contenders leave different stores");
    if (has_disk(c) ? !same_disks(&used, &left) : !same_disks(&used, &found))
        fail("two contenders leave different live disks");
}

/* The first n contenders take turns; what is short is run several times a turn. */
static void take_turns(int n, int repetitions)
{
    double once = time_batch(LIBRARY);
    int runs = once < 5e-4 ? (int)(5e-4 / (once + 1e-6)) + 1 : 1;
    compare(LIBRARY);
    for (int r = 0; r < repetitions; r++)
        for (int turn = 0; turn < n; turn++) {
            int c = (turn + r) % n;
            times[c][r] = 0;
            for (int run = 0; run < runs; run++) {
                times[c][r] += time_batch(c) / runs;
                compare(c);
            }
        }
}

static int by_value(const void *x, const void *y)
{
    double a = *(const double *)x, b = *(const double *)y;
    return a < b ? -1 : a > b;
}

static double median_of(int c, int repetitions)
{
    qsort(times[c], (size_t)repetitions, sizeof times[c][0], by_value);
    return times[c][repetitions / 2];
}

/* Three digits of a time. */
static void print_time(double t)
{
    double x = t * (t < 1e-3 ? 1e6 : 1e3);
    printf(" %.*f %s |", x < 10 ? 2 : x < 100 ? 1 : 0, x, t < 1e-3 ? "µs" : "ms");
}

static int repetitions_of(int argc, char **argv)
{
    int repetitions = argc > 1 ? atoi(argv[1]) : 41;
    if (repetitions < 1 || repetitions > MOST_REPETITIONS || repetitions % 2 == 0)
        fail("repetitions are an odd number, 1 to 201");
    return repetitions;
}
