/* Times lists of work orders: the library, plain C (plain.c) with the same checks, an earlier library if it has them
   (BEFORE_ORDERS, its entry renamed before_work_orders), and a host that walks the branch rows itself and checks nothing; beside
   them, on the same store, an empty batch, which makes the same checks. Then batches, for what the wider branch row costs them: an
   empty one, one of writes, one of reverts; where BEFORE is defined, of an earlier library too. Lists are compared with what is due
   from how the store was made, answers and all areas byte for byte. Times are of the processor, not of the clock.
   usage: orders [REPETITIONS [MOST_ROWS]]      an odd number up to 201, by default 41; the most records of a store, by default
   65536 */
#define _POSIX_C_SOURCE 200809L
#include <stdio.h>
#include <stdlib.h>
#include <string.h>
#include "kizmoolet.h"
#include "kizmoolet_requests.h"
#include "store.h"

_Noreturn void fail(const char *what)
{
    fprintf(stderr, "orders: %s\n", what);
    exit(1);
}

#define MOST_GROUP 300u
#define BATCH_BYTES (KIZMOOLET_REQUEST_BYTES + MOST_GROUP * KIZMOOLET_WRITE_BYTES)
#define ANSWERS_BYTES (KIZMOOLET_MOST_BRANCHES * KIZMOOLET_ANSWER_BYTES)
#include "turns.h"

#define BOTH (CONTENDERS > 2) /* an earlier library too */

#ifdef BEFORE_ORDERS
#define LISTERS CONTENDERS
static orders_function *const listers[LISTERS] = {kizmoolet_work_orders, plain_work_orders, before_work_orders};
#else
#define LISTERS (PLAIN + 1)
static orders_function *const listers[LISTERS] = {kizmoolet_work_orders, plain_work_orders};
#endif

/* ---- stores */

/* Pages of the volume, rows of the tables, writes of a batch. */
struct size {
    uint32_t pages, branches, rows, group;
};

/* Which branch each one is cut from: the one before, the first, or any before it. */
enum shape { CHAIN, FIRST, DRAWN, SHAPES };
static const char *const shape_names[SHAPES] = {"the one before", "the first", "drawn"};

#define MOMENTS 16u /* of a branch */

static uint32_t parents[KIZMOOLET_MOST_BRANCHES]; /* of each counted row, the row that it is cut from */
static uint32_t drawn_state;

static uint32_t drawn(uint32_t below)
{
    drawn_state = drawn_state * 1664525u + 1013904223u;
    return (uint32_t)((uint64_t)drawn_state * below >> 32);
}

static void make_branches(struct areas *s, enum shape shape, uint32_t counted)
{
    for (uint32_t k = 0; k < counted; k++) {
        uint32_t end = k == counted - 1 ? OPEN_END : (k + 1) * MOMENTS - 1;
        parents[k] = k == 0 || shape == FIRST ? 0 : shape == CHAIN ? k - 1 : drawn(k);
        set_branch(s, k, (struct branch){k * MOMENTS, end, k == 0 ? 0 : parents[k] * MOMENTS + k % MOMENTS, order_of(k)});
    }
}

/* So many records, spread evenly over the addresses and the moments, in places all over the table. */
static void make_records(struct areas *s, const struct size *z, uint32_t count, uint32_t addresses, uint32_t moments)
{
    uint32_t per = (count + addresses - 1) / addresses, span = moments / per;
    for (uint32_t i = 0; i < count; i++) {
        uint32_t place = i * 40503u % z->rows, address = i / per;
        put32(s->records + 12 * (size_t)i, address);
        put32(s->records + 12 * (size_t)i + 4, i % per * span + address * 7u % span);
        put32(s->records + 12 * (size_t)i + 8, place);
        put32(s->places + 4 * (size_t)place, i + 1);
    }
}

/* A store with so many branch rows in use, and all record rows but `spare`; as many of the last addresses have no record then. */
static void make(struct areas *s, const struct size *z, enum shape shape, uint32_t counted, uint32_t spare)
{
    *s = (struct areas){.branches_len = KIZMOOLET_BRANCH_BYTES * (size_t)z->branches, .records_len = 12 * (size_t)z->rows,
        .places_len = 4 * (size_t)z->rows, .slab_len = PAGE * (size_t)z->rows};
    s->branches = room(s->branches_len);
    s->records = room(s->records_len);
    s->places = room(s->places_len);
    s->slab = room(s->slab_len);
    drawn_state = 20267;
    make_branches(s, shape, counted);
    make_records(s, z, z->rows - spare, z->pages - spare, counted * MOMENTS);
    const uint32_t head[6] = {z->pages, counted, z->rows - spare, counted * MOMENTS - 1, 0, 0};
    for (int i = 0; i < 6; i++)
        put32(s->head + 4 * i, head[i]);
    for (uint32_t i = 0; i < z->rows; i++) {
        memset(s->slab + PAGE * (size_t)i, (int)(i % 251), PAGE);
        put32(s->slab + PAGE * (size_t)i, i);
    }
    lend_disk(s);
    memset(s->marks, KIZMOOLET_MARK_CURRENT, s->marks_len);
}

static void make_stores(const struct size *z, enum shape shape, uint32_t counted, uint32_t spare)
{
    make(&found, z, shape, counted, spare);
    make(&used, z, shape, counted, spare);
    make(&left, z, shape, counted, spare);
}

/* ---- a host that walks the branch rows itself: the work orders from the moment on, by bytes that it takes to be sound; that the
   moment can be read it knows */

typedef size_t host_function(const uint8_t *head, const uint8_t *branches, uint32_t moment, uint8_t *list);

static inline uint32_t start_at(const uint8_t *branches, size_t i) { return get32(branches + KIZMOOLET_BRANCH_BYTES * i); }
static inline uint32_t end_at(const uint8_t *branches, size_t i) { return get32(branches + KIZMOOLET_BRANCH_BYTES * i + 4); }
static inline uint32_t cut_at(const uint8_t *branches, size_t i) { return get32(branches + KIZMOOLET_BRANCH_BYTES * i + 8); }

static inline void list_row(const uint8_t *branches, size_t i, uint8_t *list, size_t at)
{
    memcpy(list + KIZMOOLET_ORDER_BYTES * at, branches + KIZMOOLET_BRANCH_BYTES * i + 14, KIZMOOLET_ORDER_BYTES);
}

/* From the last row to the first, each once. */
__attribute__((noinline)) static size_t host_pass(const uint8_t *head, const uint8_t *branches, uint32_t moment, uint8_t *list)
{
    size_t count = 0;
    for (size_t i = get32(head + KIZMOOLET_HEAD_BRANCHES_AT); i-- > 0;)
        if (start_at(branches, i) <= moment && moment <= end_at(branches, i)) {
            list_row(branches, i, list, count++);
            moment = cut_at(branches, i);
        }
    return count;
}

/* The last of the first n rows that starts at the moment or before. */
static inline size_t row_before(const uint8_t *branches, size_t n, uint32_t moment)
{
    size_t lo = 0;
    while (n > 1) {
        size_t half = n / 2;
        lo += start_at(branches, lo + half) <= moment ? half : 0;
        n -= half;
    }
    return lo;
}

/* The row before the last one is tried first, then the rows before it are searched. */
__attribute__((noinline)) static size_t host_search(const uint8_t *head, const uint8_t *branches, uint32_t moment, uint8_t *list)
{
    size_t count = 0, i = row_before(branches, get32(head + KIZMOOLET_HEAD_BRANCHES_AT), moment);
    list_row(branches, i, list, count++);
    while (i > 0) {
        moment = cut_at(branches, i);
        i = start_at(branches, i - 1) <= moment ? i - 1 : row_before(branches, i - 1, moment);
        list_row(branches, i, list, count++);
    }
    return count;
}

/* ---- lists */

#define UNTOUCHED 0xA5
static uint8_t list[KIZMOOLET_MOST_LIST_BYTES], list_due[sizeof list], no_list[sizeof list];
static uint64_t count_due;

/* The list that a moment of this row is to have: by the rows that the store was made of. */
static void make_due(uint32_t row)
{
    memset(list_due, UNTOUCHED, sizeof list_due);
    for (count_due = 0;; row = parents[row]) {
        list_due[2 * count_due] = (uint8_t)(order_of(row) >> 8);
        list_due[2 * count_due + 1] = (uint8_t)order_of(row);
        count_due++;
        if (row == 0)
            return;
    }
}

static uint32_t run_list(int c, uint32_t moment, size_t list_len, uint64_t *count)
{
    return listers[c](used.head, sizeof used.head, used.branches, used.branches_len, used.records, used.records_len, used.places,
        used.places_len, used.names, sizeof used.names, used.slab, used.slab_len, moment, list, list_len, count);
}

static void look_at(const uint8_t *due)
{
    if (memcmp(list, due, sizeof list) != 0)
        fail("a list is not what is due");
}

/* Lists at the first moments of some rows, in areas that they just fit in, and refused with 14 in areas a byte shorter. */
static void look_at_rows(int c)
{
    uint32_t counted = head_branches(&found), step = counted / 16 + 1;
    for (uint32_t row = 0; row < counted; row += step) {
        uint64_t count = 9;
        make_due(row);
        memset(list, UNTOUCHED, sizeof list);
        size_t bytes = KIZMOOLET_ORDER_BYTES * (size_t)count_due;
        if (run_list(c, row * MOMENTS, bytes - 1, &count) != KIZMOOLET_ANSWERS_FULL || count != 0)
            fail("a list that does not fit is not refused as is due");
        look_at(no_list);
        if (run_list(c, row * MOMENTS, bytes, &count) != 0 || count != count_due)
            fail("a list is refused, or its count is not what is due");
        look_at(list_due);
    }
}

/* What is timed on a store: lists, calls that are refused with 9 after all checks, empty batches; lists of the host's own. */
enum what { LIST, CHECKS, EMPTY_BATCH, PASS, SEARCH, WHATS };
static double list_times[WHATS][CONTENDERS][MOST_REPETITIONS];
static int list_runs[WHATS][CONTENDERS];

/* Whether contender c does that; what the host does itself stands with the library's. */
static int does(enum what what, int c)
{
    return what == EMPTY_BATCH || (what <= CHECKS ? c < LISTERS : c == LIBRARY);
}

static void one_call(enum what what, int c)
{
    uint32_t now = head_now(&found), result = 0;
    uint64_t count = 9, taken, rows;
    switch (what) {
    case LIST:
        result = run_list(c, now, sizeof list, &count);
        break;
    case CHECKS:
        result = run_list(c, now + 1, sizeof list, &count);
        break;
    case EMPTY_BATCH:
        result = contenders[c](used.head, sizeof used.head, used.branches, used.branches_len, used.records, used.records_len,
            used.places, used.places_len, used.names, sizeof used.names, used.slab, used.slab_len, used.disk, used.disk_len,
            used.marks, used.marks_len, batch, 0, answers, 0, &count, &taken, &answer_bytes, &rows);
        break;
    default:
        count = (what == PASS ? host_pass : host_search)(used.head, used.branches, now, list);
    }
    if (result != (what == CHECKS ? KIZMOOLET_MOMENT_TOO_LATE : 0)
        || count != (what == CHECKS || what == EMPTY_BATCH ? 0 : count_due))
        fail("a call does not end as is due");
}

/* The time of one of several calls; what they leave in the list is looked at after the last. */
static double some_calls(enum what what, int c)
{
    memset(list, UNTOUCHED, sizeof list);
    double began = seconds();
    for (int i = 0; i < list_runs[what][c]; i++)
        one_call(what, c);
    double took = (seconds() - began) / list_runs[what][c];
    look_at(what == CHECKS || what == EMPTY_BATCH ? no_list : list_due);
    return took;
}

static void time_lists(int repetitions)
{
    for (int r = -1; r < repetitions; r++) /* first once, to see how long it takes */
        for (int turn = 0; turn < WHATS * CONTENDERS; turn++) {
            int at = (turn + r + 1) % (WHATS * CONTENDERS), c = at % CONTENDERS;
            enum what what = (enum what)(at / CONTENDERS);
            if (!does(what, c))
                continue;
            if (r < 0) {
                list_runs[what][c] = 1;
                double once = some_calls(what, c);
                list_runs[what][c] = once < 5e-4 ? (int)(5e-4 / (once + 1e-8)) + 1 : 1;
            } else {
                list_times[what][c][r] = some_calls(what, c);
            }
        }
}

static double list_median(enum what what, int c, int repetitions)
{
    qsort(list_times[what][c], (size_t)repetitions, sizeof(double), by_value);
    return list_times[what][c][repetitions / 2];
}

static void print_short_time(double t)
{
    if (t < 1e-6)
        printf(" %.*f ns |", t < 1e-7 ? 1 : 0, t * 1e9);
    else
        print_time(t);
}

static void print_ratio(double ratio)
{
    printf(" %.*f |", ratio < 100 ? 2 : 0, ratio);
}

static void print_list_head(void)
{
    printf("### Lists of work orders at now\n\n| Pages | Records | Branches | Cut from | Listed | kizmoolet | the checks' part "
           "| an empty batch | list / empty batch | plain C | the checks' part | c/k |%s host, one pass | list / pass "
           "| host, by search | list / search |\n", LISTERS > 2 ? " before | before / now |" : "");
    printf("|---|---|---|---|---|---|---|---|---|---|---|---|%s---|---|---|---|\n", LISTERS > 2 ? "---|---|" : "");
}

static void print_list(enum shape shape, int repetitions)
{
    double t[WHATS][CONTENDERS];
    for (int what = 0; what < WHATS; what++)
        for (int c = 0; c < CONTENDERS; c++)
            t[what][c] = does((enum what)what, c) ? list_median((enum what)what, c, repetitions) : 0;
    printf("| %u | %u | %u | %s | %u |", (unsigned)head_size(&found), (unsigned)head_records(&found),
        (unsigned)head_branches(&found), shape_names[shape], (unsigned)count_due);
    for (int c = LIBRARY; c < LISTERS; c++) {
        print_short_time(t[LIST][c]);
        if (c <= PLAIN)
            printf(" %.0f %% |", 100 * t[CHECKS][c] / t[LIST][c]);
        if (c == LIBRARY) {
            print_short_time(t[EMPTY_BATCH][c]);
            print_ratio(t[LIST][c] / t[EMPTY_BATCH][c]);
        } else {
            print_ratio(t[LIST][c] / t[LIST][LIBRARY]);
        }
    }
    for (int what = PASS; what <= SEARCH; what++) {
        print_short_time(t[what][LIBRARY]);
        print_ratio(t[LIST][LIBRARY] / t[what][LIBRARY]);
    }
    printf("\n");
    fflush(stdout);
}

/* All rows in use. No call changes the store. */
static void time_shape(const struct size *z, enum shape shape, int repetitions)
{
    make_stores(z, shape, z->branches, 0);
    restore_tables();
    for (int c = 0; c < LISTERS; c++)
        look_at_rows(c);
    make_due(z->branches - 1);
    time_lists(repetitions);
    if (!same_branches(&used, &found, 0) || !same_others(&used, &found) || !same_disks(&used, &found))
        fail("a list or an empty batch changes the store");
    print_list(shape, repetitions);
    free_stores();
}

/* ---- batches */

enum kind { EMPTY, WRITES, REVERTS, KINDS };
static const char *const kinds[KINDS] = {"an empty batch", "mark, writes at the last addresses", "reverts"};

static uint32_t counted_of(const struct size *z, enum kind kind)
{
    return kind == REVERTS ? z->branches / 2 : z->branches;
}

/* What revert i goes back to: a drawn moment of before the batch. */
static uint32_t target_of(const struct areas *s, uint32_t i)
{
    return (uint32_t)((uint64_t)(i * 2654435761u) * head_now(s) >> 32);
}

static void make_batch(const struct size *z, enum kind kind)
{
    struct kizmoolet_requests requests = kizmoolet_requests_in(batch, sizeof batch);
    uint32_t count = 0;
    uint8_t page[PAGE];
    if (kind == WRITES) {
        kizmoolet_add_mark(&requests);
        for (uint32_t i = 0; i < z->group; i++) {
            memset(page, (int)(255 - i % 256), sizeof page);
            put32(page, ~i);
            kizmoolet_add_write(&requests, z->pages - z->group + i, page);
        }
        count = z->group + 1;
    }
    if (kind == REVERTS)
        for (uint32_t i = counted_of(z, kind); i < z->branches; i++, count++)
            kizmoolet_add_revert(&requests, target_of(&found, i), QUOTED(order_of(i)));
    if (requests.failed)
        fail("the batch is longer than its area");
    batch_len = requests.length;
    answers_len = count * (size_t)KIZMOOLET_ANSWER_BYTES;
}

/* Whether every request is accepted, and the reverts left the rows that are due, and a list at now its first work order. */
static void look_at_batch(const struct size *z, enum kind kind)
{
    uint32_t counted = counted_of(z, kind), now = head_now(&found);
    uint64_t count;
    if (answer_bytes != answers_len)
        fail("a batch does not give as many answers as are due");
    for (uint64_t i = 0; i < answered; i++)
        if (answers[i * KIZMOOLET_ANSWER_BYTES] != 0)
            fail("a request is refused");
    if (kind != REVERTS)
        return;
    for (uint32_t i = counted; i < z->branches; i++) {
        struct branch b = branch_at(&used, i);
        uint32_t start = now + 1 + i - counted, end = i == z->branches - 1 ? OPEN_END : start;
        if (b.start != start || b.end != end || b.cut != target_of(&found, i) || b.order != QUOTED(order_of(i)))
            fail("a revert leaves another branch row than is due");
        parents[i] = target_of(&found, i) / MOMENTS;
    }
    uint32_t last = z->branches - 1;
    make_due(parents[last]);
    if (run_list(LIBRARY, head_now(&used), sizeof list, &count) != 0 || count != count_due + 1
        || kizmoolet_order_at(list, 0) != QUOTED(order_of(last))
        || memcmp(list + KIZMOOLET_ORDER_BYTES, list_due, KIZMOOLET_ORDER_BYTES * (size_t)count_due) != 0)
        fail("the list after the last revert is not its work order and the list of its moment");
}

static void time_kind(const struct size *z, enum kind kind, int repetitions)
{
    double t[CONTENDERS];
    make_stores(z, DRAWN, counted_of(z, kind), kind == WRITES ? z->group : 0);
    make_batch(z, kind);
    time_batch(LIBRARY);
    look_at_batch(z, kind);
    keep_first();
    take_turns(CONTENDERS, repetitions);
    printf("| %u | %u | %u | %s | %u |", (unsigned)z->pages, (unsigned)z->rows, (unsigned)z->branches, kinds[kind],
        (unsigned)answered_left);
    for (int c = 0; c < CONTENDERS; c++)
        print_time(t[c] = median_of(c, repetitions));
    for (int c = 1; c < CONTENDERS; c++)
        printf(" %.2f |", t[c] / t[LIBRARY]);
    printf("\n");
    fflush(stdout);
    free_stores();
}

int main(int argc, char **argv)
{
    static const struct size list_sizes[] = {{64, 16, 128, 0}, {4096, 256, 4096, 0}, {65536, 4096, 65536, 0}};
    static const struct size sizes[] = {
        {64, 16, 128, 24}, {4096, 256, 8192, 300}, {64, 4096, 65536, 24}, {65536, 4096, 65536, 300}};
    int repetitions = repetitions_of(argc, argv);
    uint32_t most = argc > 2 ? (uint32_t)atoi(argv[2]) : KIZMOOLET_MOST_RECORDS;
    memset(no_list, UNTOUCHED, sizeof no_list);
    print_list_head();
    for (size_t i = 0; i < sizeof list_sizes / sizeof *list_sizes; i++)
        for (int shape = 0; shape < SHAPES && list_sizes[i].rows <= most; shape++)
            time_shape(&list_sizes[i], (enum shape)shape, repetitions);
    printf("\n### Batches, with branch rows of 16 bytes\n\n");
    printf("| Pages | Record rows | Branch rows | Batch | Requests | kizmoolet | plain C |");
    printf("%s c/k |%s\n|---|---|---|---|---|---|---|---|%s\n", BOTH ? " before |" : "", BOTH ? " before / now |" : "",
        BOTH ? "---|---|" : "");
    for (size_t i = 0; i < sizeof sizes / sizeof *sizes; i++)
        for (int kind = 0; kind < KINDS && sizes[i].rows <= most; kind++)
            time_kind(&sizes[i], (enum kind)kind, repetitions);
    return 0;
}
