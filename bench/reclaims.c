/* Times a batch of one reclaim on stores of several shapes and sizes: the library, an earlier one where BEFORE is defined (its entries
   renamed before_fresh and before_batch), and plain C by the fast and by the slow method. Answers and tables of all are compared (of an
   earlier one see before.h).
   usage: reclaims [REPETITIONS]      an odd number, by default 15. Times are of the processor, not of the clock. */
#define _POSIX_C_SOURCE 200809L
#include <stdio.h>
#include <stdlib.h>
#include <string.h>
#include <time.h>
#include "before.h"
#include "kizmoolet.h"
#include "store.h"
#include "shapes.h"

_Noreturn void fail(const char *what)
{
    fprintf(stderr, "reclaims: %s\n", what);
    exit(1);
}

/* ---- contenders */

#ifdef BEFORE
enum { LIBRARY, FAST, SLOW, EARLIER, CONTENDERS };
static batch_function *const contenders[] = {kizmoolet_batch, plain_batch, plain_batch, earlier_batch};
#else
enum { LIBRARY, FAST, SLOW, CONTENDERS };
static batch_function *const contenders[] = {kizmoolet_batch, plain_batch, plain_batch};
#endif

static double seconds(void)
{
    struct timespec t;
    clock_gettime(CLOCK_PROCESS_CPUTIME_ID, &t);
    return (double)t.tv_sec + (double)t.tv_nsec * 1e-9;
}

static int by_time(const void *x, const void *y)
{
    double a = *(const double *)x, b = *(const double *)y;
    return a < b ? -1 : a > b;
}

static void print_time(double t)
{
    if (t >= 1e-3)
        printf(" %.3g ms |", t * 1e3);
    else
        printf(" %.3g µs |", t * 1e6);
}

static uint8_t *joined(const struct areas *s, size_t *length)
{
    *length = sizeof s->head + s->branches_len + s->records_len + s->places_len + sizeof s->names;
    uint8_t *p = room(*length), *q = p;
    memcpy(q, s->head, sizeof s->head);
    memcpy(q += sizeof s->head, s->branches, s->branches_len);
    memcpy(q += s->branches_len, s->records, s->records_len);
    memcpy(q += s->records_len, s->places, s->places_len);
    memcpy(q + s->places_len, s->names, sizeof s->names);
    return p;
}

/* Whether contender c left what is due; `from` and `to` are where records begin and names end. */
static int same_tables(int c, const uint8_t *left, const uint8_t *due, size_t from, size_t to)
{
    const size_t head = KIZMOOLET_HEAD_BYTES;
    int same = memcmp(left, due, 4) == 0 && memcmp(left + 8, due + 8, head - 8) == 0
        && memcmp(left + from, due + from, to - from) == 0;
#if defined BEFORE && !defined BEFORE_WEEKLY
    if (c == EARLIER)
        return same;
#endif
    return same && memcmp(left + 4, due + 4, 4) == 0 && same_rows(left + head, due + head, from - head, c > SLOW);
}

static void restore(struct areas *s, const uint8_t *p)
{
    memcpy(s->head, p, sizeof s->head);
    memcpy(s->branches, p += sizeof s->head, s->branches_len);
    memcpy(s->records, p += s->branches_len, s->records_len);
    memcpy(s->places, p += s->records_len, s->places_len);
    memcpy(s->names, p + s->places_len, sizeof s->names);
}

static int all_zero(const uint8_t *p, size_t length)
{
    return p[0] == 0 && memcmp(p, p + 1, length - 1) == 0;
}

static void row(enum shape shape, uint32_t n, uint32_t b, int repetitions)
{
    struct areas s;
    make(&s, shape, n, b);
    uint32_t floor = shape == YOUNG ? 0 : b / 2 * width_of(n, b);
    size_t length;
    uint8_t *first = joined(&s, &length), *due = NULL, batch[7] = {5u << 5};
    uint8_t answers[KIZMOOLET_ANSWER_BYTES], answer_due[sizeof answers];
    uint64_t word = (uint64_t)5 << 53 | (uint64_t)floor << 5;
    for (int i = 0; i < 7; i++)
        batch[i] = (uint8_t)(word >> (48 - 8 * i));
    double *times = room(CONTENDERS * (size_t)repetitions * sizeof *times), middle[CONTENDERS];
    for (int r = 0; r < repetitions; r++)
        for (int turn = 0; turn < CONTENDERS; turn++) {
            int c = (turn + r) % CONTENDERS;
            uint64_t answered, taken, sent, rows;
            restore(&s, first);
            marks_by_groups = c == SLOW;
            lend_earlier(s.branches, s.branches_len);
            double t = seconds();
            uint32_t stop = contenders[c](s.head, sizeof s.head, s.branches, s.branches_len, s.records, s.records_len, s.places,
                s.places_len, s.names, sizeof s.names, s.slab, s.slab_len, s.disk, s.disk_len, s.marks, s.marks_len, batch, 7,
                answers, sizeof answers, &answered, &taken, &sent, &rows);
            times[c * repetitions + r] = seconds() - t;
            if (c > SLOW)
                take_earlier(s.branches, s.branches_len);
            if (stop != 0 || answered != 1 || sent != sizeof answers || answers[0] != 0)
                fail("a reclaim was not accepted");
            if (rows != get32(first + 8))
                fail("the table checks did not read all record rows");
            uint8_t *left = joined(&s, &length);
            if (!due) {
                due = left;
                memcpy(answer_due, answers, sizeof answers);
            } else {
                if (!same_tables(c, left, due, sizeof s.head + s.branches_len, length) || memcmp(answer_due, answers, sizeof answers) != 0)
                    fail("two contenders leave different tables");
                free(left);
            }
        }
    if (!all_zero(s.disk, s.disk_len) || !all_zero(s.marks, s.marks_len))
        fail("a reclaim writes to the live disk or its marks");
    printf("| %s | %u | %u | %u | %u |", shape_names[shape], get32(first + 8), b, get32(answer_due + 1), b - get32(due + 4));
    for (int c = 0; c < CONTENDERS; c++) {
        qsort(times + c * repetitions, (size_t)repetitions, sizeof *times, by_time);
        middle[c] = times[c * repetitions + repetitions / 2];
    }
    for (int c = 0; c < CONTENDERS; c++)
        print_time(middle[c]);
    printf(" %.2f |", middle[FAST] / middle[LIBRARY]);
#ifdef BEFORE
    printf(" %.2f |", middle[EARLIER] / middle[LIBRARY]);
#endif
    printf("\n");
    fflush(stdout);
    free(times);
    free(first);
    free(due);
    free(s.branches);
    free(s.records);
    free(s.places);
    free(s.slab);
    free(s.disk);
    free(s.marks);
}

int main(int argc, char **argv)
{
    static const uint32_t sizes[][2] = {{65536, 4096}, {16384, 1024}, {4096, 256}, {1024, 64}, {128, 16}};
    int repetitions = argc > 1 ? atoi(argv[1]) : 15;
    if (repetitions < 1 || repetitions % 2 == 0)
        fail("the repetitions are an odd number");
    printf("| Shape | Records | Branches | Freed | Branches gone | kizmoolet | plain C, fast method | plain C, slow method |");
#ifdef BEFORE
    printf(" before |");
#endif
    printf(" fast C / kizmoolet |");
#ifdef BEFORE
    printf(" before / now |");
#endif
    printf("\n|---|---|---|---|---|---|---|---|---|");
#ifdef BEFORE
    printf("---|---|");
#endif
    printf("\n");
    for (size_t i = 0; i < sizeof sizes / sizeof *sizes; i++)
        for (int shape = DISTINCT; shape <= YOUNG; shape++)
            row((enum shape)shape, sizes[i][0], sizes[i][1], repetitions);
    return 0;
}
