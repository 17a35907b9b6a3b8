/* Times the live disk: the library, plain C (plain.c) and, where BEFORE is defined, an earlier library whose entries are renamed
   before_fresh, before_batch and, if it has them (BEFORE_DISK), before_live_read and before_copy_step. First, setting a volume back
   and bringing all pages of the disk to date by copying steps, beside reading all pages in a batch; then live reads and steps by
   themselves; then batches that write to the disk or make it stale. Results, counts, places of pages, disk and marks are compared
   with what is due: the pages that reads at now give. Times are of the processor, not of the clock.
   usage: live [REPETITIONS [MOST_PAGES]]      an odd number up to 201, by default 15; the largest volume, by default 65536 */
#define _POSIX_C_SOURCE 200809L
#include <stdio.h>
#include <stdlib.h>
#include <string.h>
#include "kizmoolet.h"
#include "kizmoolet_requests.h"
#include "store.h"

_Noreturn void fail(const char *what)
{
    fprintf(stderr, "live: %s\n", what);
    exit(1);
}

#define BATCH_BYTES ((KIZMOOLET_MOST_PAGES + 1u) * KIZMOOLET_REQUEST_BYTES)
#define ANSWERS_BYTES ((KIZMOOLET_MOST_PAGES + 1u) * KIZMOOLET_PAGE_ANSWER_BYTES)
#include "turns.h"

#define BOTH (CONTENDERS > 2) /* an earlier library too */
#define EARLIER_ONE (CONTENDERS - 1)

#if defined BEFORE && defined BEFORE_DISK
static live_function *const lives[CONTENDERS] = {kizmoolet_live_read, plain_live_read, earlier_live_read};
static step_function *const steps[CONTENDERS] = {kizmoolet_copy_step, plain_copy_step, earlier_copy_step};
#else
static live_function *const lives[CONTENDERS] = {kizmoolet_live_read, plain_live_read};
static step_function *const steps[CONTENDERS] = {kizmoolet_copy_step, plain_copy_step};
#endif

/* ---- stores */

/* Pages of the volume, rows of the tables, writes of a batch. */
struct size {
    uint32_t pages, branches, rows, group;
};

static const struct size sizes[] = {{64, 16, 128, 24}, {4096, 256, 8192, 300}, {65536, 4096, 65536, 300}};

/* What a store holds: a record for every address, or for half of them, in the first branch or in all; a later record too, which is
   not seen after setting back; the last addresses without a record, or with one at now. */
struct history {
    const char *name;
    int blank, branched, again, spare, at_now;
};

#define MOMENTS 16u         /* of a branch */
#define ORDER 4711u         /* the work order of the reverts */
#define NO_PLACE 0xFFFFFFFFu

static uint32_t first_place[KIZMOOLET_MOST_PAGES]; /* of each address, the place of its page at the moment set back to */

static uint32_t put_record(struct areas *s, uint32_t i, uint32_t address, uint32_t moment)
{
    uint32_t place = i * 40503u % (uint32_t)(s->places_len / 4);
    put32(s->records + 12 * (size_t)i, address);
    put32(s->records + 12 * (size_t)i + 4, moment);
    put32(s->records + 12 * (size_t)i + 8, place);
    put32(s->places + 4 * (size_t)place, i + 1);
    return place;
}

/* The records; how many there are. `last` is where the last branch begins, and what the volume is set back to. */
static uint32_t make_records(struct areas *s, const struct size *z, const struct history *h, uint32_t counted, uint32_t last)
{
    uint32_t n = 0;
    int twice = h->again && z->rows >= 2 * z->pages;
    for (uint32_t address = 0; address < z->pages; address++) {
        first_place[address] = NO_PLACE;
        if (h->blank && (address + 1) / 2 % 2 == 1) /* of four the middle two */
            continue;
        if (address >= z->pages - z->group && (h->spare || h->at_now)) {
            if (h->at_now)
                put_record(s, n++, address, last + MOMENTS - 1);
            continue;
        }
        uint32_t row = h->branched ? address * 40503u % (counted - 1) : 0;
        first_place[address] = put_record(s, n++, address, row * MOMENTS + address % (MOMENTS - 2));
        if (twice)
            put_record(s, n++, address, last + 1 + address % (MOMENTS - 2));
    }
    return n;
}

static uint32_t counted_of(const struct size *z, const struct history *h)
{
    return h->branched ? z->branches - 1 : 2;
}

/* The moment that the volume is set back to: the first of the last branch. */
static uint32_t target_of(const struct size *z, const struct history *h)
{
    return (counted_of(z, h) - 1) * MOMENTS;
}

/* Two branches, or all but one, each of which reverts into the one before. The disk holds no page of the store, so that one that is
   not copied is seen; all pages are marked current, some blank. */
static void make(struct areas *s, const struct size *z, const struct history *h)
{
    uint32_t counted = counted_of(z, h), last = target_of(z, h);
    *s = (struct areas){.branches_len = KIZMOOLET_BRANCH_BYTES * (size_t)z->branches, .records_len = 12 * (size_t)z->rows,
        .places_len = 4 * (size_t)z->rows, .slab_len = PAGE * (size_t)z->rows};
    s->branches = room(s->branches_len);
    s->records = room(s->records_len);
    s->places = room(s->places_len);
    s->slab = room(s->slab_len);
    for (uint32_t k = 0; k < counted; k++) {
        uint32_t end = k == counted - 1 ? OPEN_END : (k + 1) * MOMENTS - 1;
        set_branch(s, k, (struct branch){k * MOMENTS, end, k == 0 ? 0 : k * MOMENTS - 2, order_of(k)});
    }
    const uint32_t head[6] = {z->pages, counted, make_records(s, z, h, counted, last), last + MOMENTS - 1, 0, 0};
    for (int i = 0; i < 6; i++)
        put32(s->head + 4 * i, head[i]);
    for (uint32_t i = 0; i < z->rows; i++) {
        memset(s->slab + PAGE * (size_t)i, (int)(i % 251), PAGE);
        put32(s->slab + PAGE * (size_t)i, i);
    }
    lend_disk(s);
    memset(s->disk, 0xD5, s->disk_len);
    for (uint32_t i = 0; i < z->pages; i++)
        s->marks[i] = i % 3 == 0 ? KIZMOOLET_MARK_CURRENT | KIZMOOLET_MARK_BLANK : KIZMOOLET_MARK_CURRENT;
}

static void make_stores(const struct size *z, const struct history *h)
{
    make(&found, z, h);
    make(&used, z, h);
    make(&left, z, h);
}

/* ---- calls on the store in use */

static uint32_t run_batch(int c)
{
    uint64_t taken, rows;
    return contenders[c](used.head, sizeof used.head, used.branches, used.branches_len, used.records, used.records_len, used.places,
        used.places_len, used.names, sizeof used.names, used.slab, used.slab_len, used.disk, used.disk_len, used.marks,
        used.marks_len, batch, batch_len, answers, answers_len, &answered, &taken, &answer_bytes, &rows);
}

static uint32_t run_live(int c, uint32_t address, uint32_t *area, uint64_t *offset)
{
    return lives[c](used.head, sizeof used.head, used.branches, used.branches_len, used.records, used.records_len, used.places,
        used.places_len, used.names, sizeof used.names, used.slab, used.slab_len, used.disk, used.disk_len, used.marks,
        used.marks_len, address, area, offset);
}

static uint32_t run_step(int c, uint32_t budget, uint64_t *copied)
{
    return steps[c](used.head, sizeof used.head, used.branches, used.branches_len, used.records, used.records_len, used.places,
        used.places_len, used.names, sizeof used.names, used.slab, used.slab_len, used.disk, used.disk_len, used.marks,
        used.marks_len, budget, copied);
}

/* Contenders take turns at what gives its own time. */
static void turns_of(double (*once)(int c), int needs_disk, int repetitions)
{
    for (int r = 0; r < repetitions; r++)
        for (int turn = 0; turn < CONTENDERS; turn++) {
            int c = (turn + r) % CONTENDERS;
            times[c][r] = needs_disk && !has_disk(c) ? 0 : once(c);
        }
}

static void medians_of(double *to, int repetitions)
{
    for (int c = 0; c < CONTENDERS; c++)
        to[c] = median_of(c, repetitions);
}

/* ---- setting back and copying */

static const struct history set_back_histories[] = {
    {.name = "all written", .again = 1},
    {.name = "half blank", .blank = 1, .again = 1},
    {.name = "many branches", .branched = 1, .again = 1},
};

#define MOST_STEPS 4096u /* that are timed one and all */
#define SAMPLES 256u     /* else so many, at even distances */

static uint8_t *due_disk, *due_marks; /* after setting back, all pages brought to date */
static uint32_t set_back_to, budget;
static int looking; /* whether what a revert leaves is looked at, which takes its time */

static void restore(void)
{
    memcpy(used.disk, found.disk, found.disk_len);
    restore_tables();
}

static void add_revert_and_reads(uint32_t reads)
{
    struct kizmoolet_requests requests = kizmoolet_requests_in(batch, sizeof batch);
    kizmoolet_add_revert(&requests, set_back_to, QUOTED(ORDER));
    for (uint32_t i = 0; i < reads; i++)
        kizmoolet_add_read(&requests, i, head_now(&found) + 1);
    if (requests.failed)
        fail("the batch is longer than its area");
    batch_len = requests.length;
    answers_len = (1 + reads) * (size_t)KIZMOOLET_PAGE_ANSWER_BYTES;
}

/* The pages of the answers behind the revert's, put on a disk as a host without copying steps does. */
static void take_pages(uint8_t *disk, uint8_t *marks, uint32_t pages)
{
    struct kizmoolet_answers from = kizmoolet_answers_in(answers, (size_t)answer_bytes);
    struct kizmoolet_answer answer;
    if (kizmoolet_next_answer(&from, &answer) != 1 || answer.refusal)
        fail("a revert is not accepted");
    for (uint32_t i = 0; i < pages; i++) {
        if (kizmoolet_next_answer(&from, &answer) != 1 || answer.refusal)
            fail("a read is not accepted");
        if (answer.page)
            memcpy(disk + PAGE * (size_t)i, answer.page, PAGE);
        marks[i] = answer.page ? KIZMOOLET_MARK_CURRENT : KIZMOOLET_MARK_CURRENT | KIZMOOLET_MARK_BLANK;
    }
}

/* What is due, from reads of all pages at now by the library, and whether these are the pages that the store was made with; how many
   are blank. */
static uint32_t make_due(void)
{
    uint32_t pages = head_size(&found), blank = 0;
    memcpy(due_disk = room(found.disk_len), found.disk, found.disk_len);
    due_marks = room(found.marks_len);
    restore();
    add_revert_and_reads(pages);
    if (run_batch(LIBRARY) != 0 || answered != pages + 1)
        fail("a batch is not carried out to its end");
    take_pages(due_disk, due_marks, pages);
    for (uint32_t i = 0; i < pages; i++) {
        int none = due_marks[i] & KIZMOOLET_MARK_BLANK;
        if (none ? first_place[i] != NO_PLACE : get32(due_disk + PAGE * (size_t)i) != first_place[i])
            fail("a read after setting back gives another page than is due");
        blank += none != 0;
    }
    return blank;
}

static void look_at_disk(const uint8_t *disk, const uint8_t *marks)
{
    if (memcmp(disk, due_disk, found.disk_len) != 0 || memcmp(marks, due_marks, found.marks_len) != 0)
        fail("the live disk is not what reads at now give");
}

/* A revert, the batch that stands ready: all pages stale, blank marks and bytes as they were. */
static void one_revert(int c)
{
    if (run_batch(c) != 0 || answered != 1 || answers[0] != 0)
        fail("a revert is not accepted");
    for (size_t i = 0; looking && i < used.marks_len; i++)
        if (used.marks[i] != (found.marks[i] & KIZMOOLET_MARK_BLANK))
            fail("a revert leaves other marks than are due");
    if (looking && memcmp(used.disk, found.disk, found.disk_len) != 0)
        fail("a revert writes to the live disk");
}

/* A step with so many stale pages before it; how many it leaves. */
static uint32_t one_step(int c, uint32_t most, uint32_t stale)
{
    uint64_t copied;
    if (run_step(c, most, &copied) != 0 || copied != (most < stale ? most : stale))
        fail("a step does not copy as many pages as are due");
    return stale - (uint32_t)copied;
}

/* A revert, and steps until no page is stale. Where the steps are too many, some of them are timed, and others with larger budgets
   between them are not. */
static double set_back(int c)
{
    uint32_t pages = head_size(&found), stale = pages, count = (pages + budget - 1) / budget;
    restore();
    double began = seconds();
    one_revert(c);
    for (uint32_t i = 0; count <= MOST_STEPS && i < count; i++)
        stale = one_step(c, budget, stale);
    double took = seconds() - began;
    for (uint32_t i = 0; count > MOST_STEPS && i < SAMPLES; i++) {
        began = seconds();
        stale = one_step(c, budget, stale);
        took += (seconds() - began) * count / SAMPLES;
        stale = one_step(c, pages / SAMPLES - budget, stale);
    }
    if (is_earlier(c))
        take_earlier(used.branches, used.branches_len);
    if (stale != 0)
        fail("steps leave a page stale");
    look_at_disk(used.disk, used.marks);
    return took;
}

/* A step with budget 0, which checks all and copies nothing, on the store that the last one to set it back left. */
static double no_step(int c)
{
    enum { RUNS = 8 };
    lend_earlier(used.branches, used.branches_len);
    double began = seconds();
    for (int i = 0; i < RUNS; i++)
        one_step(c, 0, 0);
    return (seconds() - began) / RUNS;
}

/* The same without steps: all pages read in the revert's batch, and put on a disk of the host's. */
static double read_all(int c)
{
    uint32_t pages = head_size(&found);
    restore();
    memcpy(left.disk, found.disk, found.disk_len);
    memset(left.marks, 0, left.marks_len);
    double began = seconds();
    uint32_t stop = run_batch(c);
    if (stop != 0 || answered != pages + 1)
        fail("a batch is not carried out to its end");
    take_pages(left.disk, left.marks, pages);
    double took = seconds() - began;
    look_at_disk(left.disk, left.marks);
    return took;
}

static void print_set_back_head(void)
{
    printf("### Setting back, and bringing all pages to date\n\n| Pages | History | Blank | Step | Steps | kizmoolet | the checks' part "
           "| plain C | the checks' part | c/k |");
    if (BOTH && has_disk(EARLIER_ONE))
        printf(" before | before / now |");
    printf(" all pages read: kizmoolet | plain C |");
    if (BOTH)
        printf(" before |");
    printf(" reads / steps |%s\n", BOTH ? " reads before / steps now |" : "");
    printf("|---|---|---|---|---|---|---|---|---|---|%s---|---|---|%s\n", BOTH && has_disk(EARLIER_ONE) ? "---|---|" : "",
        BOTH ? "---|---|" : "");
}

static void print_part(double part, double whole)
{
    printf(" %.0f %% |", 100 * part / whole);
}

static void print_set_back(const char *name, uint32_t blank, const double *t, const double *check, const double *reads)
{
    uint32_t pages = head_size(&found), count = (pages + budget - 1) / budget;
    printf("| %u | %s | %u | %u | %u%s |", (unsigned)pages, name, (unsigned)blank, (unsigned)budget, (unsigned)count,
        count > MOST_STEPS ? ", of samples" : "");
    for (int c = LIBRARY; c <= PLAIN; c++) {
        print_time(t[c]);
        print_part(count * check[c], t[c]);
    }
    printf(" %.2f |", t[PLAIN] / t[LIBRARY]);
    if (BOTH && has_disk(EARLIER_ONE)) {
        print_time(t[EARLIER_ONE]);
        printf(" %.2f |", t[EARLIER_ONE] / t[LIBRARY]);
    }
    for (int c = 0; c < CONTENDERS; c++)
        print_time(reads[c]);
    printf(" %.2f |", reads[LIBRARY] / t[LIBRARY]);
    if (BOTH)
        printf(" %.2f |", reads[EARLIER_ONE] / t[LIBRARY]);
    printf("\n");
    fflush(stdout);
}

static void time_set_back(const struct size *z, const struct history *h, int repetitions)
{
    static const uint32_t budgets[] = {1, 64, 4096, KIZMOOLET_MOST_PAGES};
    double t[CONTENDERS], check[CONTENDERS], reads[CONTENDERS];
    make_stores(z, h);
    set_back_to = target_of(z, h);
    uint32_t blank = make_due();
    turns_of(read_all, 0, repetitions);
    medians_of(reads, repetitions);
    add_revert_and_reads(0);
    budget = z->pages;
    looking = 1;
    for (int c = 0; c < CONTENDERS; c++)
        if (has_disk(c))
            set_back(c);
    looking = 0;
    turns_of(no_step, 1, repetitions);
    medians_of(check, repetitions);
    for (size_t i = 0; i < sizeof budgets / sizeof *budgets && budgets[i] <= z->pages; i++) {
        budget = budgets[i];
        turns_of(set_back, 1, repetitions);
        medians_of(t, repetitions);
        print_set_back(h->name, blank, t, check, reads);
    }
    free(due_disk);
    free(due_marks);
    free_stores();
}

/* ---- live reads and steps by themselves */

static const struct history call_history = {.name = "many branches, half blank", .branched = 1, .blank = 1};

enum call {
    FLOOR, UNFIT, TOO_HIGH, CURRENT, STALE, BLANK, STALE_BLANK, NO_BUDGET, LOWEST, HIGHEST, HIGHEST_ALL, NONE_STALE, EMPTY, PAGE_READ,
    BLANK_READ, CALLS
};
static const char *const calls[CALLS] = {
    "live read refused with 1: floor above now",
    "live read refused with 18: the last mark above 3",
    "live read refused with 4",
    "live read, current",
    "live read, stale: a page of the first branch",
    "live read, current and blank",
    "live read, stale: no page",
    "step with budget 0",
    "step of 1, the lowest page stale",
    "step of 1, only the highest page stale",
    "step with budget A, only the highest page stale",
    "step of 1, no page stale",
    "an empty batch",
    "a batch of one read at now: a page of the first branch",
    "a batch of one read at now: no page",
};

#define WRITTEN 0u /* an address whose page is of the first branch; */
#define NEVER 1u   /* and one that has none */

static enum call calling;
static int call_runs[CONTENDERS];

static int is_live(enum call call) { return call <= STALE_BLANK; }
static int is_step(enum call call) { return call >= NO_BUDGET && call <= NONE_STALE; }

static uint32_t address_of(enum call call)
{
    return call == TOO_HIGH ? head_size(&found) : call == BLANK || call == STALE_BLANK || call == BLANK_READ ? NEVER : WRITTEN;
}

/* The page that a step is to bring to date; both have a record. */
static uint32_t stale_of(enum call call)
{
    return call == LOWEST ? WRITTEN : head_size(&found) - 1;
}

static uint32_t result_of(enum call call)
{
    if (call == FLOOR)
        return KIZMOOLET_OUT_OF_RANGE;
    return call == UNFIT ? KIZMOOLET_DISK_UNFIT : call == TOO_HIGH ? KIZMOOLET_ADDRESS_TOO_HIGH : 0;
}

/* What the call is about: head and marks as they were found, all pages current, but for what it needs. */
static void set_up(enum call call)
{
    struct kizmoolet_requests requests = kizmoolet_requests_in(batch, sizeof batch);
    restore_tables();
    if (call == FLOOR)
        put32(used.head + KIZMOOLET_HEAD_FLOOR_AT, OPEN_END);
    if (call == UNFIT)
        used.marks[used.marks_len - 1] = 4;
    if (call == STALE)
        used.marks[WRITTEN] = KIZMOOLET_MARK_BLANK; /* which says nothing of a stale page */
    if (call == STALE_BLANK)
        used.marks[NEVER] = 0;
    if (call == PAGE_READ || call == BLANK_READ)
        kizmoolet_add_read(&requests, address_of(call), head_now(&found));
    batch_len = requests.length;
    answers_len = KIZMOOLET_PAGE_ANSWER_BYTES;
}

/* The areas and offset that a live read is to tell. */
static int live_due(enum call call, uint32_t area, uint64_t offset)
{
    if (call == CURRENT)
        return area == KIZMOOLET_AREA_DISK && offset == PAGE * WRITTEN;
    if (call == STALE)
        return area == KIZMOOLET_AREA_SLAB && offset == PAGE * (uint64_t)first_place[WRITTEN]
            && memcmp(kizmoolet_live_page(area, offset, used.disk, used.slab), used.disk + PAGE * WRITTEN, PAGE) == 0;
    return area == KIZMOOLET_AREA_NONE && offset == 0;
}

static int answer_due(enum call call)
{
    if (call == EMPTY)
        return answered == 0 && answer_bytes == 0;
    if (call == BLANK_READ)
        return answered == 1 && answer_bytes == KIZMOOLET_ANSWER_BYTES && answers[0] == 0;
    return answered == 1 && answer_bytes == KIZMOOLET_PAGE_ANSWER_BYTES
        && memcmp(answers + KIZMOOLET_PAGE_ANSWER_BYTES - PAGE, used.disk + PAGE * WRITTEN, PAGE) == 0;
}

/* A call, and whether it did what is due; the page that a step brings to date is made stale before it. */
static void one_call(int c, enum call call)
{
    uint32_t area = 9, result;
    uint64_t offset = 9, copied = 9;
    int due;
    if (is_live(call)) {
        result = run_live(c, address_of(call), &area, &offset);
        due = live_due(call, area, offset);
    } else if (is_step(call)) {
        int one = call != NO_BUDGET && call != NONE_STALE;
        if (one)
            used.marks[stale_of(call)] = 0;
        result = run_step(c, call == NO_BUDGET ? 0 : call == HIGHEST_ALL ? head_size(&found) : 1, &copied);
        due = copied == (one ? 1 : 0);
    } else {
        result = run_batch(c);
        due = answer_due(call);
    }
    if (result != result_of(call) || !due)
        fail(calls[call]);
}

static double call_some(int c)
{
    double began = seconds();
    for (int i = 0; i < call_runs[c]; i++)
        one_call(c, calling);
    return (seconds() - began) / call_runs[c];
}

/* The disk is brought to date once, and no call is to leave it otherwise. */
static void time_call(enum call call, double *to, int repetitions)
{
    int needs_disk = is_live(call) || is_step(call);
    calling = call;
    set_up(call);
    for (int c = 0; c < CONTENDERS; c++)
        if (has_disk(c) || !needs_disk) {
            call_runs[c] = 1;
            double once = call_some(c);
            call_runs[c] = once < 5e-4 ? (int)(5e-4 / (once + 1e-6)) + 1 : 1;
            if (is_step(call)) { /* a step that copies does it */
                memset(used.disk + PAGE * (size_t)stale_of(call), 0xA5, PAGE);
                one_call(c, call);
                if (call == NO_BUDGET || call == NONE_STALE)
                    memcpy(used.disk + PAGE * (size_t)stale_of(call), found.disk + PAGE * (size_t)stale_of(call), PAGE);
            }
        }
    turns_of(call_some, needs_disk, repetitions);
    medians_of(to, repetitions);
    if (memcmp(used.disk, found.disk, found.disk_len) != 0 || (is_step(call) && memcmp(used.marks, found.marks, found.marks_len) != 0))
        fail("a call leaves another live disk than is due");
}

static void bring_to_date(struct areas *s)
{
    uint64_t copied;
    kizmoolet_make_stale(s->marks, s->marks_len);
    if (plain_copy_step(s->head, sizeof s->head, s->branches, s->branches_len, s->records, s->records_len, s->places, s->places_len,
            s->names, sizeof s->names, s->slab, s->slab_len, s->disk, s->disk_len, s->marks, s->marks_len, head_size(s), &copied) != 0
        || copied != head_size(s))
        fail("the live disk is not brought to date");
}

/* The checks' part is the time of the call that makes all checks and nothing else, divided by the time of the call. */
static void print_call(enum call call, double all[CALLS][CONTENDERS])
{
    int check = is_live(call) ? TOO_HIGH : is_step(call) ? NO_BUDGET : EMPTY, disk = is_live(call) || is_step(call);
    const double *t = all[call];
    printf("| %s |", calls[call]);
    for (int c = LIBRARY; c <= PLAIN; c++) {
        print_time(t[c]);
        if (call < TOO_HIGH)
            printf(" |");
        else
            print_part(all[check][c], t[c]);
    }
    printf(" %.2f |", t[PLAIN] / t[LIBRARY]);
    if (BOTH && disk && !has_disk(EARLIER_ONE))
        printf(" | |");
    else if (BOTH) {
        print_time(t[EARLIER_ONE]);
        printf(" %.2f |", t[EARLIER_ONE] / t[LIBRARY]);
    }
    printf(" %.2f |\n", t[LIBRARY] / all[PAGE_READ][LIBRARY]);
}

static void time_calls(const struct size *z, int repetitions)
{
    static double all[CALLS][CONTENDERS];
    make_stores(z, &call_history);
    bring_to_date(&found);
    memcpy(used.disk, found.disk, found.disk_len);
    printf("### Live reads and steps by themselves: %u pages, %u branches, %u records\n\n", (unsigned)z->pages,
        (unsigned)head_branches(&found), (unsigned)head_records(&found));
    printf("| Call | kizmoolet | the checks' part | plain C | the checks' part | c/k |%s in batches of one read |\n",
        BOTH ? " before | before / now |" : "");
    printf("|---|---|---|---|---|---|%s---|\n", BOTH ? "---|---|" : "");
    for (int call = 0; call < CALLS; call++)
        time_call((enum call)call, all[call], repetitions);
    for (int call = 0; call < CALLS; call++)
        print_call((enum call)call, all);
    printf("\n");
    fflush(stdout);
    free_stores();
}

/* ---- batches */

enum kind { WRITES, SINGLE, OVER, BACK, MARKED, KINDS };
static const char *const kinds[KINDS] = {
    "mark, writes at the last addresses", "one write", "writes over pages of now", "a revert", "a mark"};
static const struct history kind_histories[KINDS] = {
    {.branched = 1, .spare = 1}, {.branched = 1, .spare = 1}, {.branched = 1, .at_now = 1}, {.branched = 1}, {.branched = 1}};

static void make_batch(const struct size *z, enum kind kind)
{
    struct kizmoolet_requests requests = kizmoolet_requests_in(batch, sizeof batch);
    uint32_t writes = kind == WRITES || kind == OVER ? z->group : kind == SINGLE;
    uint8_t page[PAGE];
    if (kind == WRITES || kind == MARKED)
        kizmoolet_add_mark(&requests);
    for (uint32_t i = 0; i < writes; i++) {
        memset(page, (int)(255 - i % 256), sizeof page);
        put32(page, ~i);
        kizmoolet_add_write(&requests, z->pages - z->group + i, page);
    }
    if (kind == BACK)
        kizmoolet_add_revert(&requests, target_of(z, &kind_histories[kind]), QUOTED(ORDER));
    if (requests.failed)
        fail("the batch is longer than its area");
    batch_len = requests.length;
    answers_len = (writes + 1) * (size_t)KIZMOOLET_ANSWER_BYTES;
}

/* Whether every request is accepted, pages written are on the disk, current and not blank, a revert has made all stale, and nothing
   else of disk and marks has changed. */
static int batch_due(enum kind kind)
{
    for (uint64_t i = 0; i < answered; i++)
        if (answers[i * KIZMOOLET_ANSWER_BYTES] != 0)
            return 0;
    for (size_t i = 0; i < found.marks_len && kind == BACK; i++)
        found.marks[i] &= KIZMOOLET_MARK_BLANK;
    for (size_t at = 0; at < batch_len; at += request_bytes(request_at(batch + at).operation)) {
        struct request q = request_at(batch + at);
        if (q.operation != WRITE)
            continue;
        memcpy(found.disk + PAGE * (size_t)q.address, batch + at + KIZMOOLET_REQUEST_BYTES, PAGE);
        found.marks[q.address] = KIZMOOLET_MARK_CURRENT;
    }
    return same_disks(&used, &found);
}

static void print_batch(const struct size *z, enum kind kind, int repetitions)
{
    double t[CONTENDERS];
    medians_of(t, repetitions);
    printf("| %u | %s | %u |", (unsigned)z->pages, kinds[kind], (unsigned)answered_left);
    for (int c = 0; c < CONTENDERS; c++)
        print_time(t[c]);
    for (int c = 1; c < CONTENDERS; c++)
        printf(" %.2f |", t[c] / t[LIBRARY]);
    printf("\n");
    fflush(stdout);
}

static void time_kind(const struct size *z, enum kind kind, int repetitions)
{
    make_stores(z, &kind_histories[kind]);
    make_batch(z, kind);
    time_batch(LIBRARY);
    keep_first();
    if (!batch_due(kind))
        fail("a batch leaves another live disk than is due");
    free_areas(&found);
    make(&found, z, &kind_histories[kind]);
    take_turns(CONTENDERS, repetitions);
    print_batch(z, kind, repetitions);
    free_stores();
}

int main(int argc, char **argv)
{
    const size_t count = sizeof sizes / sizeof *sizes;
    int repetitions = argc > 1 ? repetitions_of(argc, argv) : 15;
    uint32_t most = argc > 2 ? (uint32_t)atoi(argv[2]) : KIZMOOLET_MOST_PAGES;
    print_set_back_head();
    for (size_t i = 0; i < count && sizes[i].pages <= most; i++)
        for (size_t h = 0; h < sizeof set_back_histories / sizeof *set_back_histories; h++)
            time_set_back(&sizes[i], &set_back_histories[h], repetitions);
    printf("\n");
    for (size_t i = 0; i < count && sizes[i].pages <= most; i++)
        time_calls(&sizes[i], repetitions);
    printf("### Batches with a live disk\n\n| Pages | Batch | Requests | kizmoolet | plain C |%s c/k |%s\n", BOTH ? " before |" : "",
        BOTH ? " before / now |" : "");
    printf("|---|---|---|---|---|---|%s\n", BOTH ? "---|---|" : "");
    for (size_t i = 0; i < count && sizes[i].pages <= most; i++)
        for (int kind = 0; kind < KINDS; kind++)
            time_kind(&sizes[i], (enum kind)kind, repetitions);
    return 0;
}
