/* Times the library and what it is compared with on the same batches, and prints tables in Markdown.
   usage: bench [RECORDS [BRANCHES [REPETITIONS]]]      the greatest sizes, by default 65536 4096 5
   Each contender takes the same bytes; every answer, number, date and page, is compared with the library's, and the tables,
   slab and live disk that the library and the plain implementation leave are compared byte for byte; the databases have no live
   disk. Times are of the processor, not of the clock. */
#define _POSIX_C_SOURCE 200809L
#include <math.h>
#include <stdio.h>
#include <stdlib.h>
#include <string.h>
#include <time.h>
#include <unistd.h>
#include "before.h"
#include "kizmoolet.h"
#include "store.h"

#define GROUP 300u      /* writes of a setting group */
#define READS 1024u     /* reads of a timed batch */
#define FEW 64u         /* the same for the databases */
#define AFTER 32u       /* reads after a revert */
#define DATES 32u       /* reads that are only compared */
#define NAMES 8u        /* names of the batch that is only compared */
#define WEEK_ONE 32u    /* addresses that only the first week writes */
#define POOL 4096u      /* addresses that the later weeks write */

_Noreturn void fail(const char *what)
{
    fprintf(stderr, "bench: %s\n", what);
    exit(1);
}

/* ---- the library and the plain implementation, each on its own copy of the tables */

static void copy_areas(struct areas *to, const struct areas *from)
{
    *to = *from;
    memcpy(to->branches = room(from->branches_len), from->branches, from->branches_len);
    memcpy(to->records = room(from->records_len), from->records, from->records_len);
    memcpy(to->places = room(from->places_len), from->places, from->places_len);
    memcpy(to->slab = room(from->slab_len), from->slab, from->slab_len);
    memcpy(to->disk = room(from->disk_len), from->disk, from->disk_len);
    memcpy(to->marks = room(from->marks_len), from->marks, from->marks_len);
}

static void free_areas(struct areas *s)
{
    free(s->branches);
    free(s->records);
    free(s->places);
    free(s->slab);
    free(s->disk);
    free(s->marks);
    memset(s, 0, sizeof *s);
}

static int same_areas(const struct areas *a, const struct areas *b)
{
    return memcmp(a->head, b->head, sizeof a->head) == 0 && memcmp(a->branches, b->branches, a->branches_len) == 0
        && memcmp(a->records, b->records, a->records_len) == 0 && memcmp(a->places, b->places, a->places_len) == 0
        && memcmp(a->names, b->names, sizeof a->names) == 0 && memcmp(a->slab, b->slab, a->slab_len) == 0
        && memcmp(a->disk, b->disk, a->disk_len) == 0 && memcmp(a->marks, b->marks, a->marks_len) == 0;
}

static struct areas of_library, of_plain, left_by_library;

static size_t run_batch(batch_function *f, struct areas *s, const uint8_t *batch, size_t batch_len, uint8_t *answers, size_t answers_len)
{
    uint64_t answered, taken, sent, rows, records = head_records(s);
    uint32_t stop = f(s->head, sizeof s->head, s->branches, s->branches_len, s->records, s->records_len, s->places,
        s->places_len, s->names, sizeof s->names, s->slab, s->slab_len, s->disk, s->disk_len, s->marks, s->marks_len, batch,
        batch_len, answers, answers_len, &answered, &taken, &sent, &rows);
    if (stop != 0 || taken != batch_len) {
        fprintf(stderr, "bench: stop %u after %llu requests\n", (unsigned)stop, (unsigned long long)answered);
        exit(1);
    }
    if (rows != records)
        fail("the table checks did not read all record rows");
    return (size_t)sent;
}

static void library_load(const struct areas *s) { copy_areas(&of_library, s); }
static void plain_load(const struct areas *s) { copy_areas(&of_plain, s); }

static size_t library_run(const uint8_t *batch, size_t batch_len, uint8_t *answers, size_t answers_len)
{
    return run_batch(kizmoolet_batch, &of_library, batch, batch_len, answers, answers_len);
}

static size_t plain_run(const uint8_t *batch, size_t batch_len, uint8_t *answers, size_t answers_len)
{
    return run_batch(plain_batch, &of_plain, batch, batch_len, answers, answers_len);
}

static void library_drop(void)
{
    free_areas(&left_by_library);
    left_by_library = of_library;
}

static void plain_drop(void)
{
    if (!same_areas(&of_plain, &left_by_library))
        fail("the plain implementation leaves other tables");
    free_areas(&of_plain);
}

const struct contender library = {"kizmoolet", library_load, library_run, library_drop, 0};
const struct contender plain = {"plain C", plain_load, plain_run, plain_drop, 0};

/* ---- sound tables of a shape, written directly */

enum shape { DISTINCT, ONE, WEEKLY, SHAPES };
static const char *const shape_names[] = {"distinct", "one address", "weekly"};

static int by_writing(const void *x, const void *y)
{
    const struct record *a = x, *b = y;
    if (a->moment != b->moment)
        return a->moment < b->moment ? -1 : 1;
    return a->address < b->address ? -1 : a->address > b->address;
}

static int by_address(const void *x, const void *y)
{
    const struct record *a = x, *b = y;
    if (a->address != b->address)
        return a->address < b->address ? -1 : 1;
    return a->moment < b->moment ? -1 : a->moment > b->moment;
}

/* A store with tables of n records and places and b branches, of which a setting group and a branch are still free. A branch has
   `width` moments; the reclaim goes to `middle`. */
struct made {
    struct areas areas;
    uint32_t n, b, width, now, middle, span;
    enum shape shape;
};

static void make(struct made *s, enum shape shape, uint32_t n, uint32_t b)
{
    uint32_t rows = b - 1, count = n - GROUP;
    *s = (struct made){.n = n, .b = b, .shape = shape, .width = n / (rows - 2) + 4};
    s->now = rows * s->width - 1;
    s->middle = rows / 2 * s->width;
    s->areas.branches = room(s->areas.branches_len = KIZMOOLET_BRANCH_BYTES * (size_t)b);
    s->areas.records = room(s->areas.records_len = 12 * (size_t)n);
    s->areas.places = room(s->areas.places_len = 4 * (size_t)n);
    s->areas.slab = room(s->areas.slab_len = PAGE * (size_t)n);
    const uint32_t head[6] = {65536, rows, count, s->now, 0, 0};
    for (int i = 0; i < 6; i++)
        put32(s->areas.head + 4 * i, head[i]);
    lend_disk(&s->areas);
    for (uint32_t k = 0; k < rows; k++) {
        uint32_t end = k == rows - 1 ? OPEN_END : (k + 1) * s->width - 1, cut = shape == WEEKLY && k > 0 ? k * s->width - 2 : 0;
        set_branch(&s->areas, k, (struct branch){k * s->width, end, cut, order_of(k)});
    }
    struct record *r = room(count * sizeof *r);
    uint32_t last = 0, index = 0;
    for (uint32_t i = 0; i < count; i++) {
        uint32_t k = 0;
        switch (shape) {
        case DISTINCT: /* even addresses at moment 0, odd ones in a branch before the middle */
            r[i].address = i;
            r[i].moment = i % 2 == 0 ? 0 : (1 + i / 2 % (rows / 2 - 1)) * s->width + 1;
            continue;
        case ONE: /* one at moment 0, the others over all branches but the first and the last */
            r[i].address = GROUP;
            if (i > 0)
                k = 1 + (uint32_t)((uint64_t)(i - 1) * (rows - 2) / (count - 1));
            break;
        default: /* the first addresses at moment 0 only, then as many each week */
            if (i < WEEK_ONE) {
                r[i].address = i;
                continue;
            }
            k = (uint32_t)((uint64_t)(i - WEEK_ONE) * rows / (count - WEEK_ONE));
            r[i].address = WEEK_ONE + i * 40503u % POOL;
        }
        index = k == last ? index + (i > 0) : 0;
        last = k;
        r[i].moment = k * s->width + index + (shape == WEEKLY);
    }
    qsort(r, count, sizeof *r, by_writing);
    for (uint32_t i = 0; i < count; i++)
        r[i].place = i;
    qsort(r, count, sizeof *r, by_address);
    for (uint32_t i = 0; i < count; i++) {
        uint8_t *p = s->areas.records + 12 * (size_t)i;
        put32(p, r[i].address);
        put32(p + 4, r[i].moment);
        put32(p + 8, r[i].place);
        put32(s->areas.places + 4 * (size_t)r[i].place, i + 1);
    }
    free(r);
    for (uint32_t i = 0; i < n; i++) {
        memset(s->areas.slab + PAGE * (size_t)i, (int)(i % 251), PAGE);
        put32(s->areas.slab + PAGE * (size_t)i, i);
    }
    s->span = shape == DISTINCT ? count : shape == ONE ? GROUP : WEEK_ONE + POOL;
}

/* ---- the batches that are timed, one after the other on the same store, and behind them two that are only compared: the timed
   reads find pages of moment 0 alone, and a date that is always 0 would pass; and no store that is timed has a name */

enum operation { OP_READS, OP_SINGLE, OP_REVERT, OP_GROUP, OP_RECLAIM, OPS, OP_DATES = OPS, OP_NAMES, BATCHES };
static const char *const op_names[] = {
    "a read, of 1,024 in a batch", "a batch of one read", "a revert and 32 reads", "mark and 300 writes", "reclaim"};
static const char *const op_short[] = {
    "read", "one-request batch", "revert and 32 reads", "mark and 300 writes", "reclaim", "pages of many dates", "names"};

static uint8_t *put_request(uint8_t *p, unsigned operation, uint32_t address, uint32_t moment)
{
    uint64_t n = (uint64_t)operation << 53 | (uint64_t)address << 37 | (uint64_t)moment << 5;
    for (int i = 6; i >= 0; i--, n >>= 8)
        p[i] = (uint8_t)n;
    return p + 7;
}

static uint32_t read_address(const struct made *s, uint32_t i)
{
    switch (s->shape) {
    case DISTINCT:
        return i * 2654435761u % ((s->n - GROUP) / 2) * 2;
    case ONE:
        return GROUP;
    default:
        return i % WEEK_ONE;
    }
}

static uint32_t group_address(const struct made *s, uint32_t i)
{
    return (uint32_t)((uint64_t)i * s->span / GROUP);
}

/* A mark, so that no page is of the last moment; then reads, by turns at an address of the group and at one of the timed reads,
   at the last moment and at earlier ones from the floor on. */
static uint8_t *put_dates(const struct made *s, uint8_t *p)
{
    uint32_t last = s->now + 3; /* a revert and two marks later */
    p = put_request(p, MARK, 0, 0);
    for (uint32_t i = 0; i < DATES; i++) {
        uint32_t address = i % 2 == 0 ? group_address(s, i * (GROUP / DATES)) : read_address(s, i);
        p = put_request(p, READ, address, i % 4 == 0 ? last : s->middle + i * 40503u % (last - s->middle));
    }
    return p;
}

static uint8_t *put_named(uint8_t *p, unsigned operation, uint32_t moment, uint32_t name)
{
    p = put_request(p, operation, 0, moment);
    put32(p, name);
    put32(p + 4, ~name);
    return p + KIZMOOLET_NAME_BYTES;
}

/* Names for moments from the floor on; a reclaim to the last moment, and reads at the named ones; then half of the names are
   withdrawn, and so again. */
static uint8_t *put_names(const struct made *s, uint8_t *p)
{
    uint32_t last = s->now + 3, step = (last - s->middle) / NAMES;
    for (uint32_t k = 0; k < NAMES; k++)
        p = put_named(p, GIVE, s->middle + k * step, k);
    for (uint32_t first = 0; first < NAMES; first += NAMES / 2) {
        p = put_request(p, RECLAIM, 0, last);
        for (uint32_t i = 0; i < DATES; i++) {
            uint32_t address = i % 2 == 0 ? group_address(s, i * (GROUP / DATES)) : read_address(s, i);
            p = put_request(p, READ, address, s->middle + (first + i / 2 % (NAMES - first)) * step);
        }
        for (uint32_t k = 0; k < NAMES / 2; k++)
            p = put_named(p, WITHDRAW, 0, first + k);
    }
    return put_request(p, RECLAIM, 0, last);
}

static size_t make_batch(const struct made *s, enum operation op, int slow, uint8_t *batch)
{
    uint8_t *p = batch;
    switch (op) {
    case OP_READS:
        for (uint32_t i = 0; i < (slow ? FEW : READS); i++)
            p = put_request(p, READ, read_address(s, i), s->now);
        break;
    case OP_SINGLE:
        p = put_request(p, READ, read_address(s, 1), s->now);
        break;
    case OP_REVERT:
        p = put_request(p, REVERT, order_of(s->b), s->now - 1);
        for (uint32_t i = 0; i < AFTER; i++)
            p = put_request(p, READ, read_address(s, i), s->now + 1);
        break;
    case OP_GROUP:
        p = put_request(p, MARK, 0, 0);
        for (uint32_t i = 0; i < GROUP; i++) {
            p = put_request(p, WRITE, group_address(s, i), 0);
            memset(p, (int)(i % 256), PAGE);
            p += PAGE;
        }
        break;
    case OP_RECLAIM:
        p = put_request(p, RECLAIM, 0, s->middle);
        break;
    case OP_DATES:
        p = put_dates(s, p);
        break;
    default:
        p = put_names(s, p);
    }
    return (size_t)(p - batch);
}

/* ---- timing */

#define CONTENDERS 5
static const struct contender *const contenders[CONTENDERS] = {&library, &plain, &paper, &paper_short, &sqlite};
static const char *const labels[CONTENDERS] = {"kizmoolet", "(c) plain C", "(a) paper", "(a') paper, short", "(b) SQLite"};

#define MOST_REPETITIONS 15
#define RUNS 5
#define MOST_SIZES 16
static uint32_t sizes[MOST_SIZES][2];
static size_t size_count;
static double medians[SHAPES][MOST_SIZES][OPS][CONTENDERS]; /* seconds */

static double seconds(void)
{
    struct timespec t;
    clock_gettime(CLOCK_PROCESS_CPUTIME_ID, &t);
    return (double)t.tv_sec + 1e-9 * (double)t.tv_nsec;
}

static int by_value(const void *x, const void *y)
{
    double a = *(const double *)x, b = *(const double *)y;
    return a < b ? -1 : a > b;
}

static uint8_t *expected[BATCHES]; /* the library's answers */
static size_t expected_len[BATCHES];
static double times[BATCHES][CONTENDERS][MOST_REPETITIONS * RUNS];
static size_t time_count[BATCHES][CONTENDERS];

/* One pass of a contender over all batches, each on the store that the last one left; batches of reads change nothing, and
   what is fast runs them several times. */
static void time_pass(const struct made *s, size_t which)
{
    static uint8_t batch[GROUP * (7 + PAGE) + 7 + READS * 7];
    static uint8_t answers[READS * KIZMOOLET_PAGE_ANSWER_BYTES];
    const struct contender *c = contenders[which];
    c->load(&s->areas);
    for (int op = 0; op < BATCHES; op++) {
        size_t batch_len = make_batch(s, op, c->slow, batch);
        int runs = !c->slow && (op == OP_READS || op == OP_SINGLE) ? RUNS : 1;
        for (int run = 0; run < runs; run++) {
            double began = seconds();
            size_t len = c->run(batch, batch_len, answers, sizeof answers);
            times[op][which][time_count[op][which]++] = seconds() - began;
            if (which == 0) {
                free(expected[op]);
                memcpy(expected[op] = room(len), answers, expected_len[op] = len);
            } else if (len > expected_len[op] || (len < expected_len[op] && !(c->slow && op == OP_READS))
                || memcmp(answers, expected[op], len) != 0) {
                fprintf(stderr, "bench: %s answers otherwise: %s, %s, n %u, b %u\n", labels[which], shape_names[s->shape], op_short[op],
                    (unsigned)s->n, (unsigned)s->b);
                exit(1);
            }
        }
    }
    c->drop();
}

static double median(double *x, size_t n)
{
    qsort(x, n, sizeof *x, by_value);
    return x[n / 2];
}

/* The contenders take turns, so that what else the machine does falls on all of them. */
static void time_all(const struct made *s, int repetitions, double out[OPS][CONTENDERS])
{
    memset(time_count, 0, sizeof time_count);
    for (int rep = 0; rep < repetitions; rep++)
        for (size_t c = 0; c < CONTENDERS; c++) {
            if (isatty(2))
                fprintf(stderr, "%s, n %u, b %u: %-20s\r", shape_names[s->shape], (unsigned)s->n, (unsigned)s->b, contenders[c]->name);
            time_pass(s, c);
        }
    for (int op = 0; op < OPS; op++)
        for (size_t c = 0; c < CONTENDERS; c++) {
            out[op][c] = median(times[op][c], time_count[op][c]);
            if (op == OP_READS)
                out[op][c] /= contenders[c]->slow ? FEW : READS;
        }
}

/* ---- the tables */

static const char *shown(double s)
{
    static char texts[8][32];
    static int next;
    char *t = texts[next++ % 8];
    const char *unit = s < 1e-3 ? "µs" : s < 1 ? "ms" : "s";
    double x = s < 1e-3 ? s * 1e6 : s < 1 ? s * 1e3 : s;
    snprintf(t, sizeof texts[0], "%.*f %s", x < 10 ? 2 : x < 100 ? 1 : 0, x, unit);
    return t;
}

static const char *ratio(double x)
{
    static char texts[8][32];
    static int next;
    char *t = texts[next++ % 8];
    snprintf(t, sizeof texts[0], "%.*f", x < 0.1 ? 4 : x < 10 ? 2 : x < 100 ? 1 : 0, x);
    return t;
}

static void print_times(int shape, size_t size, int op)
{
    const double *t = medians[shape][size][op];
    for (size_t c = 0; c < CONTENDERS; c++)
        printf(" %s |", shown(t[c]));
    for (size_t c = 1; c < CONTENDERS; c++)
        printf(" %s |", ratio(t[c] / t[0]));
    printf("\n");
}

static void print_columns(void)
{
    for (size_t c = 0; c < CONTENDERS; c++)
        printf(" %s |", labels[c]);
    printf(" c/k | a/k | a'/k | b/k |\n");
}

/* The slope of log time over log size, by least squares; column 0 of `sizes` is n, column 1 is b. */
static double slope(int shape, int op, size_t c, int column)
{
    uint32_t full = sizes[0][1 - column];
    double k = 0, sx = 0, sy = 0, sxx = 0, sxy = 0;
    for (size_t i = 0; i < size_count; i++)
        if (sizes[i][1 - column] == full) {
            double x = log(sizes[i][column]), y = log(medians[shape][i][op][c]);
            k++, sx += x, sy += y, sxx += x * x, sxy += x * y;
        }
    return (k * sxy - sx * sy) / (k * sxx - sx * sx);
}

int main(int argc, char **argv)
{
    uint32_t full_n = argc > 1 ? (uint32_t)atoi(argv[1]) : 65536, full_b = argc > 2 ? (uint32_t)atoi(argv[2]) : 4096;
    int repetitions = argc > 3 ? atoi(argv[3]) : 5;
    if (full_n < 4096 || full_n > 65536 || full_b < 32 || full_b > 4096 || repetitions < 1 || repetitions > MOST_REPETITIONS)
        fail("records 4096 to 65536, branches 32 to 4096, repetitions 1 to 15");
    uint32_t least_n = full_n;
    for (uint32_t n = full_n; n >= 1024 && n * 64 >= full_n; n /= 4) {
        sizes[size_count][0] = least_n = n;
        sizes[size_count++][1] = full_b;
    }
    for (uint32_t b = full_b / 4; b >= 8 && b * 64 >= full_b; b /= 4)
        sizes[size_count][0] = full_n, sizes[size_count++][1] = b;

    for (int shape = 0; shape < SHAPES; shape++)
        for (size_t i = 0; i < size_count; i++) {
            struct made s;
            make(&s, shape, sizes[i][0], sizes[i][1]);
            time_all(&s, repetitions, medians[shape][i]);
            free_areas(&s.areas);
        }
    if (isatty(2))
        fprintf(stderr, "%60s\r", "");

    printf("## Full size: %u records, %u branches, %u places\n\n", (unsigned)full_n, (unsigned)full_b, (unsigned)full_n);
    printf("Processor time, medians of %d. c/k is the time of (c) divided by that of kizmoolet, and so on: below 1 the other is "
           "faster.\n\n", repetitions);
    printf("| Shape | Operation |");
    print_columns();
    printf("|---|---|---|---|---|---|---|---|---|---|---|\n");
    for (int shape = 0; shape < SHAPES; shape++)
        for (int op = 0; op < OPS; op++) {
            printf("| %s | %s |", shape_names[shape], op_names[op]);
            print_times(shape, 0, op);
        }

    printf("\n## Fitted growth\n\nThe slope of log time over log size: 1 is growth in step with the size, 0 none. "
           "In n: at %u branches, n from %u to %u. In b: at %u records, b from %u to %u.\n\n",
        (unsigned)full_b, (unsigned)least_n, (unsigned)full_n, (unsigned)full_n, (unsigned)sizes[size_count - 1][1], (unsigned)full_b);
    printf("| Shape | Operation |");
    for (int column = 0; column < 2; column++)
        for (size_t c = 0; c < CONTENDERS; c++)
            printf(" %s, in %s |", c == 0 ? "kizmoolet" : c == 1 ? "(c)" : c == 2 ? "(a)" : c == 3 ? "(a')" : "(b)", column ? "b" : "n");
    printf("\n|---|---|---|---|---|---|---|---|---|---|---|---|\n");
    for (int shape = 0; shape < SHAPES; shape++)
        for (int op = 0; op < OPS; op++) {
            printf("| %s | %s |", shape_names[shape], op_short[op]);
            for (int column = 0; column < 2; column++)
                for (size_t c = 0; c < CONTENDERS; c++)
                    printf(" %.2f |", slope(shape, op, c, column));
            printf("\n");
        }

    printf("\n## All sizes\n");
    for (int shape = 0; shape < SHAPES; shape++)
        for (int op = 0; op < OPS; op++) {
            printf("\n### %s: %s\n\n| n | b |", shape_names[shape], op_names[op]);
            print_columns();
            printf("|---|---|---|---|---|---|---|---|---|---|---|\n");
            for (size_t i = size_count; i-- > 0;) {
                /* smallest b first, then n growing to full size */
                printf("| %u | %u |", (unsigned)sizes[i][0], (unsigned)sizes[i][1]);
                print_times(shape, i, op);
            }
        }
    return 0;
}
