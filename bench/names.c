/* Times what names cost: naming and withdrawing, reads at named moments below the floor, a reclaim and a table check with 32 names
   and with none; the library, plain C (plain.c) and, where BEFORE is defined and the store has no name, an earlier library whose
   entries are renamed before_fresh and before_batch. Answers and all areas are compared byte for byte after every batch, and
   once for each row of a table with what is due. Times are of the processor, not of the clock.
   usage: names [REPETITIONS]      an odd number up to 201, by default 41 */
#define _POSIX_C_SOURCE 200809L
#include <stdio.h>
#include <stdlib.h>
#include <string.h>
#include "kizmoolet.h"
#include "kizmoolet_requests.h"
#include "store.h"

_Noreturn void fail(const char *what)
{
    fprintf(stderr, "names: %s\n", what);
    exit(1);
}

/* ---- stores */

struct size {
    const char *name;
    uint32_t pages, branches, rows;
};

static const struct size sizes[] = {
    {"Largest tables: 65,536 pages, 4,096 branches, 65,536 records, 65,536 places", 65536, 4096, 65536},
    {"4,096 pages, 256 branches, 4,096 records, 4,096 places", 4096, 256, 4096},
    {"Tables as the batch program has them: 64 pages, 16 branches, 128 records, 128 places", 64, 16, 128},
};

#define MOMENTS 18u     /* of a branch */
#define PER_ADDRESS 16u /* records */
#define NEAR 8u         /* a branch reverts to a moment of one of so many before it */
#define MOST KIZMOOLET_MOST_NAMES
#define MANY 1024u      /* reads of a batch; as many requests that name or withdraw */

enum kind { EMPTY, MARKS, READS, NAMED_READS, RECLAIMS, NAMING, CHURN, REFUSED, KINDS };
static const char *const kinds[KINDS] = {
    "an empty batch",
    "a mark",
    "reads, from the floor on",
    "the same reads, at named moments below the floor",
    "a reclaim",
    "32 names given, 32 withdrawn from the first on, by turns",
    "the last name withdrawn and given again, by turns",
    "names refused with 15",
};

/* A row of a table: a batch, and how many names the store has before it. */
struct work {
    const struct size *size;
    enum kind kind;
    uint32_t names;
};

static uint32_t drawn_state;

static uint32_t drawn(uint32_t below)
{
    drawn_state = drawn_state * 1664525u + 1013904223u;
    return (uint32_t)((uint64_t)drawn_state * below >> 32);
}

static uint32_t moments_of(const struct size *z)
{
    return z->branches * MOMENTS;
}

/* The floor that reclaims go to, and the moment of name k, below it. */
static uint32_t middle_of(const struct size *z)
{
    return z->branches / 2 * MOMENTS;
}

static uint32_t moment_of(const struct size *z, uint32_t k)
{
    return (uint32_t)((uint64_t)(2 * k + 1) * middle_of(z) / (2 * MOST));
}

static void name_of(uint32_t k, uint8_t *to)
{
    put32(to, 0x4B5A0000u);
    put32(to + 4, k);
}

static void make_tables(struct areas *s, const struct size *z)
{
    for (uint32_t k = 0; k < z->branches; k++) {
        uint32_t end = k == z->branches - 1 ? OPEN_END : (k + 1) * MOMENTS - 1;
        uint32_t cut = k == 0 ? 0 : k * MOMENTS - 1 - drawn(k < NEAR ? k * MOMENTS : NEAR * MOMENTS);
        set_branch(s, k, (struct branch){k * MOMENTS, end, cut, order_of(k)});
    }
    for (uint32_t i = 0; i < z->rows; i++) {
        uint32_t place = i * 40503u % z->rows, span = moments_of(z) / PER_ADDRESS;
        put32(s->records + 12 * (size_t)i, i / PER_ADDRESS);
        put32(s->records + 12 * (size_t)i + 4, i % PER_ADDRESS * span + drawn(span));
        put32(s->records + 12 * (size_t)i + 8, place);
        put32(s->places + 4 * (size_t)place, i + 1);
    }
}

/* All rows in use: sixteen records an address over all branches, cuts drawn from the branches near by. The floor is 0 but where named moments below it are
   read: there it is the middle, and no row is freed, so that the tables are the same. */
static void make(struct areas *s, const struct work *w)
{
    const struct size *z = w->size;
    *s = (struct areas){.branches_len = KIZMOOLET_BRANCH_BYTES * (size_t)z->branches, .records_len = 12 * (size_t)z->rows,
        .places_len = 4 * (size_t)z->rows, .slab_len = PAGE * (size_t)z->rows};
    s->branches = room(s->branches_len);
    s->records = room(s->records_len);
    s->places = room(s->places_len);
    s->slab = room(s->slab_len);
    drawn_state = 20263;
    make_tables(s, z);
    const uint32_t head[6] = {z->pages, z->branches, z->rows, moments_of(z) - 1, w->kind == NAMED_READS ? middle_of(z) : 0, w->names};
    for (int i = 0; i < 6; i++)
        put32(s->head + 4 * i, head[i]);
    lend_disk(s);
    for (uint32_t k = 0; k < w->names; k++) {
        name_of(k, s->names + 12 * k);
        put32(s->names + 12 * k + 8, moment_of(z, k));
    }
    for (uint32_t i = 0; i < z->rows; i++) {
        memset(s->slab + PAGE * (size_t)i, (int)(i % 251), PAGE);
        put32(s->slab + PAGE * (size_t)i, i);
    }
}

/* ---- batches */

static void add_name(struct kizmoolet_requests *to, const struct size *z, unsigned operation, uint32_t k)
{
    uint8_t name[KIZMOOLET_NAME_BYTES];
    name_of(k, name);
    if (operation == GIVE)
        kizmoolet_add_name(to, moment_of(z, k), name);
    else
        kizmoolet_add_withdraw(to, name);
}

static size_t make_batch(const struct work *w, uint8_t *batch, size_t room_for)
{
    const struct size *z = w->size;
    struct kizmoolet_requests requests = kizmoolet_requests_in(batch, room_for);
    if (w->kind == MARKS)
        kizmoolet_add_mark(&requests);
    if (w->kind == RECLAIMS)
        kizmoolet_add_reclaim(&requests, middle_of(z));
    for (uint32_t i = 0; i < MANY; i++)
        switch (w->kind) {
        case READS:
        case NAMED_READS:
            kizmoolet_add_read(&requests, i * 2654435761u % (z->rows / PER_ADDRESS), moment_of(z, i % MOST));
            break;
        case NAMING:
            add_name(&requests, z, i / MOST % 2 == 0 ? GIVE : WITHDRAW, i % MOST);
            break;
        case CHURN:
            add_name(&requests, z, i % 2 == 0 ? WITHDRAW : GIVE, MOST - 1);
            break;
        case REFUSED:
            add_name(&requests, z, GIVE, i % MOST);
            break;
        default:
            break;
        }
    if (requests.failed)
        fail("the batch is longer than its area");
    return requests.length;
}

/* ---- timing */

#define BATCH_BYTES (MANY * KIZMOOLET_NAMED_BYTES)
#define ANSWERS_BYTES (MANY * KIZMOOLET_PAGE_ANSWER_BYTES)
#define SLAB_STAYS /* no batch here writes to it */
#include "turns.h"

static uint8_t reads_due[ANSWERS_BYTES];

/* An earlier library serves stores without names, and no request of names. */
static int contenders_of(const struct work *w)
{
    return w->names == 0 && w->kind < NAMING ? CONTENDERS : PLAIN + 1;
}

/* Whether each answer has the refusal and the number that are due; of reads a quarter and more find a page. */
static int answers_due(const struct work *w)
{
    struct kizmoolet_answers from = kizmoolet_answers_in(answers, (size_t)answer_bytes);
    struct kizmoolet_answer answer;
    uint32_t i = 0, pages = 0;
    for (; kizmoolet_next_answer(&from, &answer) == 1; i++) {
        uint32_t moment = moment_of(w->size, w->kind == CHURN ? MOST - 1 : i % MOST);
        if (answer.refusal != (w->kind == REFUSED ? (uint32_t)KIZMOOLET_NAME_IN_USE : 0))
            return 0;
        if (w->kind != MARKS && w->kind != RECLAIMS && w->kind != REFUSED && answer.number != moment)
            return 0;
        pages += answer.page != NULL;
    }
    int reads = w->kind == READS || w->kind == NAMED_READS;
    return i == (w->kind == EMPTY ? 0 : w->kind == MARKS || w->kind == RECLAIMS ? 1 : MANY) && (reads ? pages > MANY / 4 : pages == 0);
}

/* The library's first batch: compared with what is due, and kept to compare the others with. Reads have the same answers with
   names and without, and below the floor as above it. */
static void first_batch(const struct work *w)
{
    time_batch(LIBRARY);
    if (!answers_due(w) || head_names(&used) != w->names)
        fail(kinds[w->kind]);
    if (w->kind == READS && w->names == 0)
        memcpy(reads_due, answers, sizeof answers);
    else if ((w->kind == READS || w->kind == NAMED_READS) && memcmp(reads_due, answers, sizeof answers) != 0)
        fail("a named moment reads otherwise");
    keep_first();
}

static void print_row(const struct work *w, int repetitions)
{
    double middle[CONTENDERS];
    int n = contenders_of(w);
    printf("| %s | %u | %u | %u | %u |", kinds[w->kind], (unsigned)answered_left, (unsigned)w->names, (unsigned)head_branches(&left),
        (unsigned)head_records(&left));
    for (int c = 0; c < CONTENDERS; c++)
        if (c < n)
            print_time(middle[c] = median_of(c, repetitions));
        else
            printf(" |");
    for (int c = 1; c < CONTENDERS; c++)
        if (c < n)
            printf(" %.2f |", middle[c] / middle[LIBRARY]);
        else
            printf(" |");
    printf("\n");
    fflush(stdout);
}

/* A row of a table. */
static void time_work(const struct work *w, int repetitions)
{
    make(&found, w);
    make(&used, w);
    make(&left, w);
    batch_len = make_batch(w, batch, sizeof batch);
    first_batch(w);
    take_turns(contenders_of(w), repetitions);
    print_row(w, repetitions);
    free_stores();
}

static void time_size(const struct size *z, int repetitions)
{
    int both = CONTENDERS > 2;
    printf("### %s\n\n| Batch | Requests | Names | Branches left | Records left | kizmoolet | plain C |%s c/k |%s\n", z->name,
        both ? " before |" : "", both ? " before / now |" : "");
    printf("|---|---|---|---|---|---|---|---|%s\n", both ? "---|---|" : "");
    for (int kind = EMPTY; kind < KINDS; kind++) {
        if (kind != NAMED_READS && kind != CHURN && kind != REFUSED)
            time_work(&(struct work){z, kind, 0}, repetitions);
        if (kind != NAMING)
            time_work(&(struct work){z, kind, MOST}, repetitions);
    }
    printf("\n");
}

int main(int argc, char **argv)
{
    int repetitions = repetitions_of(argc, argv);
    for (size_t i = 0; i < sizeof sizes / sizeof *sizes; i++)
        time_size(&sizes[i], repetitions);
    return 0;
}
