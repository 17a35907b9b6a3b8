/* Times a call by itself: refused calls, an empty batch, batches of one request, a fresh store; beside each, in the same run, a
   memcpy of head and tables (names included). Prints tables in Markdown. Built with BEFORE, it times an earlier archive too, whose functions are
   renamed before_fresh and before_batch; its answers may be those of a version without dates, its areas those of one without names. Times are of the processor, not
   of the clock.
   usage: calls [REPETITIONS]        by default 41, an odd number up to 201 */
#define _POSIX_C_SOURCE 200809L
#include <stdio.h>
#include <stdlib.h>
#include <string.h>
#include <time.h>
#include "before.h"
#include "kizmoolet.h"
#include "kizmoolet_requests.h"

static void fail(const char *what)
{
    fprintf(stderr, "calls: %s\n", what);
    exit(1);
}

static void *room(size_t bytes)
{
    void *p = calloc(bytes, 1);
    if (!p)
        fail("out of memory");
    return p;
}

/* ---- stores */

struct store {
    uint8_t head[KIZMOOLET_HEAD_BYTES];
    uint8_t *branches, *records, *places, *names, *slab, *copy; /* branches, records, places and names stand in one piece */
    uint8_t *disk, *marks;
    size_t branches_len, records_len, places_len, slab_len, disk_len, marks_len;
};

static void put_number(uint8_t *to, uint32_t number)
{
    to[0] = (uint8_t)(number >> 24);
    to[1] = (uint8_t)(number >> 16);
    to[2] = (uint8_t)(number >> 8);
    to[3] = (uint8_t)number;
}

static uint64_t drawn_from = 1;

static uint32_t drawn(uint32_t below)
{
    drawn_from = drawn_from * 6364136223846793005u + 1442695040888963407u;
    return (uint32_t)((drawn_from >> 33) % below);
}

static size_t tables_of(const struct store *s)
{
    return s->branches_len + s->records_len + s->places_len + KIZMOOLET_NAMES_BYTES;
}

#define MOMENTS 16u /* of a branch */

/* A store of these rows; with all rows in use, each record at an address of its own, at any moment and in any place. */
static void make(struct store *s, uint32_t pages, uint32_t branches, uint32_t records, int used)
{
    s->branches_len = (size_t)KIZMOOLET_BRANCH_BYTES * branches;
    s->records_len = (size_t)KIZMOOLET_RECORD_BYTES * records;
    s->places_len = (size_t)KIZMOOLET_PLACE_BYTES * records;
    s->slab_len = (size_t)KIZMOOLET_PAGE_BYTES * records;
    s->branches = room(tables_of(s));
    s->records = s->branches + s->branches_len;
    s->places = s->records + s->records_len;
    s->names = s->places + s->places_len;
    s->copy = room(KIZMOOLET_HEAD_BYTES + tables_of(s));
    s->slab = room(s->slab_len);
    memset(s->slab, 0x5A, s->slab_len);
    s->marks_len = pages;
    s->disk_len = (size_t)KIZMOOLET_PAGE_BYTES * pages;
    s->marks = room(s->marks_len);
    s->disk = room(s->disk_len);
    kizmoolet_make_stale(s->marks, s->marks_len);
    if (kizmoolet_fresh(pages, s->head, sizeof s->head, s->branches, s->branches_len, s->records, s->records_len, s->places,
            s->places_len, s->names, KIZMOOLET_NAMES_BYTES, s->slab, s->slab_len))
        fail("no fresh store");
    if (!used)
        return;
    uint32_t now = branches * MOMENTS - 1;
    const uint32_t head[6] = {pages, branches, records, now, 0, 0};
    for (int i = 0; i < 6; i++)
        put_number(s->head + 4 * i, head[i]);
    for (uint32_t k = 0; k < branches; k++) {
        uint8_t *p = s->branches + (size_t)KIZMOOLET_BRANCH_BYTES * k;
        put_number(p, k * MOMENTS);
        put_number(p + 4, k == branches - 1 ? KIZMOOLET_LAST_MOMENT : (k + 1) * MOMENTS - 1);
        put_number(p + 8, k == 0 ? 0 : drawn(k * MOMENTS));
        put_number(p + 12, k * 40503u % (KIZMOOLET_MOST_ORDER + 1));
    }
    uint32_t *place = room(records * sizeof *place);
    for (uint32_t i = 0; i < records; i++) {
        uint32_t j = drawn(i + 1);
        place[i] = place[j];
        place[j] = i;
    }
    for (uint32_t i = 0; i < records; i++) {
        uint8_t *p = s->records + (size_t)KIZMOOLET_RECORD_BYTES * i;
        put_number(p, records > pages ? i / 2 : i);
        put_number(p + 4, records > pages ? i % 2 * (now / 2 + 1) + drawn(now / 2) : drawn(now + 1));
        put_number(p + 8, place[i]);
        put_number(s->places + (size_t)KIZMOOLET_PLACE_BYTES * place[i], i + 1);
    }
    free(place);
}

/* ---- what is timed */

struct library {
    fresh_function *fresh;
    batch_function *batch;
};

#ifdef BEFORE
#define LIBRARIES 2
static const struct library libraries[LIBRARIES] = {{kizmoolet_fresh, kizmoolet_batch}, {earlier_fresh, earlier_batch}};
#else
#define LIBRARIES 1
static const struct library libraries[LIBRARIES] = {{kizmoolet_fresh, kizmoolet_batch}};
#endif

enum call { COPY, CLEAR, HEAD_LENGTH, FLOOR, FIRST_BRANCH, FIRST_RECORD, LAST_RECORD, FRESH_SIZE, FRESH, EMPTY, ONE_READ, MANY_READS, ONE_MARK, CALLS };

static const char *const names[CALLS] = {
    "memcpy of head and tables",
    "memset of 1,114,112 bytes, as many as the largest tables have",
    "refused with 1: a head that is a byte too short",
    "refused with 1: floor above now",
    "refused with 2: the first branch row",
    "refused with 3: the first record row",
    "refused with 3: the last record row",
    "kizmoolet_fresh refused with 1: size 0",
    "kizmoolet_fresh",
    "an empty batch",
    "a batch of one read that finds a page",
    "a batch of 1,024 reads that find a page",
    "a batch of one mark",
};

static const uint32_t due[CALLS] = {0, 0, 1, 1, 2, 3, 3, 1, 0, 0, 0, 0, 0};

#define MANY 1024u /* reads of a batch */

/* How many reads the batch of a call has. */
static uint32_t reads_of(enum call call)
{
    return call == ONE_READ ? 1 : call == MANY_READS ? MANY : 0;
}

/* The number that is put wrong for a refused call, and back afterwards. */
static uint8_t *wrong_number(struct store *s, enum call call)
{
    switch (call) {
    case FLOOR:
        return s->head + KIZMOOLET_HEAD_FLOOR_AT;
    case FIRST_BRANCH:
        return s->branches + 8;
    case FIRST_RECORD:
        return s->records + 8;
    case LAST_RECORD:
        return s->records + s->records_len - 4;
    default:
        return NULL;
    }
}

static uint8_t answers[MANY * KIZMOOLET_PAGE_ANSWER_BYTES];
static uint64_t answer_bytes, rows_read;
static uint8_t cleared[KIZMOOLET_MOST_BRANCHES * KIZMOOLET_BRANCH_BYTES + KIZMOOLET_MOST_RECORDS * KIZMOOLET_RECORD_BYTES
    + KIZMOOLET_MOST_PLACES * KIZMOOLET_PLACE_BYTES];

static uint32_t one_call(struct store *s, const struct library *with, enum call call, const uint8_t *batch, size_t batch_len)
{
    uint64_t answered, request_bytes;
    size_t head_len = sizeof s->head - (call == HEAD_LENGTH);
    switch (call) {
    case COPY:
        memcpy(s->copy, s->head, sizeof s->head);
        memcpy(s->copy + sizeof s->head, s->branches, tables_of(s));
        __asm__ volatile("" : : "r"(s->copy) : "memory");
        return 0;
    case CLEAR:
        memset(cleared, 0, sizeof cleared);
        __asm__ volatile("" : : "r"(cleared) : "memory");
        return 0;
    case FRESH:
    case FRESH_SIZE:
        return with->fresh(call == FRESH ? 64 : 0, s->head, sizeof s->head, s->branches, s->branches_len, s->records,
            s->records_len, s->places, s->places_len, s->names, KIZMOOLET_NAMES_BYTES, s->slab, s->slab_len);
    default:
        return with->batch(s->head, head_len, s->branches, s->branches_len, s->records, s->records_len, s->places,
            s->places_len, s->names, KIZMOOLET_NAMES_BYTES, s->slab, s->slab_len, s->disk, s->disk_len, s->marks, s->marks_len,
            batch, batch_len, answers, sizeof answers, &answered, &request_bytes, &answer_bytes, &rows_read);
    }
}

/* Whether a read of the first record has got a page and, from the present library, the record's moment as its date. */
static int found_first(const struct store *s, size_t library)
{
    struct kizmoolet_answers from = kizmoolet_answers_in(answers, (size_t)answer_bytes);
    struct kizmoolet_answer answer;
    if (library > 0)
        return answers[0] == 2 && answer_bytes >= KIZMOOLET_ANSWER_BYTES + KIZMOOLET_PAGE_BYTES;
    return kizmoolet_next_answer(&from, &answer) == 1 && answer.page && answer.date == kizmoolet_number_at(s->records + 4);
}

/* Whether the present library has read as many record rows as are due: none with 1 and 2, else up to the wrong one, or all. */
static int rows_due(const struct store *s, size_t library, enum call call)
{
    if (library > 0 || call == COPY || call == CLEAR || call == FRESH || call == FRESH_SIZE)
        return 1;
    if (due[call] == 1 || due[call] == 2)
        return rows_read == 0;
    return rows_read == (call == FIRST_RECORD ? 1 : kizmoolet_number_at(s->head + KIZMOOLET_HEAD_RECORDS_AT));
}

static double seconds(void)
{
    struct timespec t;
    clock_gettime(CLOCK_PROCESS_CPUTIME_ID, &t);
    return (double)t.tv_sec + 1e-9 * (double)t.tv_nsec;
}

#define MOST_REPETITIONS 201
static double times[CALLS][LIBRARIES][MOST_REPETITIONS];

static int by_value(const void *x, const void *y)
{
    double a = *(const double *)x, b = *(const double *)y;
    return a < b ? -1 : a > b;
}

/* So many calls one after the other that they take about a third of a millisecond; one at least. */
static void time_call(struct store *s, size_t library, enum call call, int repetition)
{
    static uint8_t kept[4], batch[MANY * KIZMOOLET_REQUEST_BYTES];
    static int runs[CALLS][LIBRARIES];
    struct kizmoolet_requests requests = kizmoolet_requests_in(batch, sizeof batch);
    uint8_t *wrong = wrong_number(s, call);
    uint8_t *before = NULL;
    size_t tables = tables_of(s);
    for (uint32_t i = 0; i < reads_of(call); i++) /* the first record, at its own moment */
        kizmoolet_add_read(&requests, kizmoolet_number_at(s->records), kizmoolet_number_at(s->records + 4));
    if (call == ONE_MARK)
        kizmoolet_add_mark(&requests);
    if (wrong) {
        memcpy(kept, wrong, 4);
        memset(wrong, 0xFF, 4);
    }
    if (call == FRESH || call == ONE_MARK) {
        before = room(sizeof s->head + tables);
        memcpy(before, s->head, sizeof s->head);
        memcpy(before + sizeof s->head, s->branches, tables);
    }
    if (library > 0)
        lend_earlier(s->branches, s->branches_len);
    if (repetition < 0) { /* a first run, to see how long it takes */
        double began = seconds();
        if (one_call(s, &libraries[library], call, batch, requests.length) != due[call])
            fail(names[call]);
        double took = seconds() - began;
        runs[call][library] = took < 3e-4 ? (int)(3e-4 / (took + 3e-7)) + 1 : 1;
    } else {
        double began = seconds();
        for (int i = 0; i < runs[call][library]; i++)
            if (one_call(s, &libraries[library], call, batch, requests.length) != due[call])
                fail(names[call]);
        times[call][library][repetition] = (seconds() - began) / runs[call][library];
    }
    if (reads_of(call) > 0 && !found_first(s, library))
        fail("the read finds no page, or not with its date");
    if (!rows_due(s, library, call))
        fail("the count of record rows read is wrong");
    if (before) {
        memcpy(s->head, before, sizeof s->head);
        memcpy(s->branches, before + sizeof s->head, tables);
        free(before);
    }
    if (wrong)
        memcpy(wrong, kept, 4);
}

/* Three digits of a time. */
static const char *shown(double t)
{
    static char texts[8][32];
    static int next;
    char *text = texts[next++ % 8];
    const char *unit = t < 1e-6 ? "ns" : t < 1e-3 ? "µs" : "ms";
    double x = t * (t < 1e-6 ? 1e9 : t < 1e-3 ? 1e6 : 1e3);
    snprintf(text, sizeof texts[0], "%.*f %s", x < 10 ? 2 : x < 100 ? 1 : 0, x, unit);
    return text;
}

/* A store that has no record has none to put wrong or to read. */
static int left_out(enum call call, int used)
{
    return !used && (call == FIRST_RECORD || call == LAST_RECORD || reads_of(call) > 0);
}

static void time_store(const char *name, struct store *s, int used, int repetitions)
{
    for (int repetition = -1; repetition < repetitions; repetition++)
        for (int call = 0; call < CALLS; call++) {
            if (left_out(call, used))
                continue;
            for (size_t i = 0; i < LIBRARIES; i++) /* each of them is the first in turn */
                time_call(s, (i + (size_t)(repetition & 1)) % LIBRARIES, call, repetition);
        }
    printf("### %s\n\n| Call | Time | In memcpys |%s\n|---|---|---|%s\n", name, LIBRARIES > 1 ? " Before | Before / now |" : "",
        LIBRARIES > 1 ? "---|---|" : "");
    double unit = 0;
    for (int call = 0; call < CALLS; call++) {
        if (left_out(call, used))
            continue;
        double medians[LIBRARIES];
        for (size_t library = 0; library < LIBRARIES; library++) {
            qsort(times[call][library], (size_t)repetitions, sizeof(double), by_value);
            medians[library] = times[call][library][repetitions / 2];
        }
        if (call == COPY)
            unit = medians[0];
        printf("| %s | %s | %.2f |", names[call], shown(medians[0]), medians[0] / unit);
        if (LIBRARIES > 1 && call <= CLEAR)
            printf(" | |");
        else if (LIBRARIES > 1)
            printf(" %s | %.2f |", shown(medians[LIBRARIES - 1]), medians[LIBRARIES - 1] / medians[0]);
        printf("\n");
    }
    printf("\n");
}

int main(int argc, char **argv)
{
    int repetitions = argc > 1 ? atoi(argv[1]) : 41;
    if (repetitions < 1 || repetitions > MOST_REPETITIONS)
        fail("repetitions 1 to 201");
    struct store full, empty, small;
    make(&full, KIZMOOLET_MOST_PAGES, KIZMOOLET_MOST_BRANCHES, KIZMOOLET_MOST_RECORDS, 1);
    make(&empty, KIZMOOLET_MOST_PAGES, KIZMOOLET_MOST_BRANCHES, KIZMOOLET_MOST_RECORDS, 0);
    make(&small, 64, 16, 128, 1);
    time_store("Largest tables, all rows in use: 4,096 branches, 65,536 records, 65,536 places", &full, 1, repetitions);
    time_store("Largest tables, a fresh store", &empty, 0, repetitions);
    time_store("Tables as the batch program has them, all rows in use: 16 branches, 128 records, 128 places", &small, 1,
        repetitions);
    return 0;
}
