/* Times batches by how far their writes look for a free place: the library, plain C (plain.c) and, where BEFORE is defined, an
   earlier library whose entries are renamed before_fresh and before_batch. Answers and all areas are compared byte for byte
   after every batch, and once for each row of a table with what is due: each write in the smallest free place, looked for from
   the first one on, and on the live disk. Times are of the processor, not of the clock.
   usage: places [REPETITIONS]      an odd number up to 201, by default 41 */
#define _POSIX_C_SOURCE 200809L
#include <stdio.h>
#include <stdlib.h>
#include <string.h>
#include "kizmoolet.h"
#include "kizmoolet_requests.h"
#include "store.h"

_Noreturn void fail(const char *what)
{
    fprintf(stderr, "places: %s\n", what);
    exit(1);
}

/* ---- stores */

/* Pages of the volume and rows of the tables; the writes of a batch, how many places are in use where the search is long, and
   which places are free where there are gaps: every so many-th. */
struct size {
    const char *name;
    uint32_t pages, branches, rows, group, used, gap;
};

static const struct size sizes[] = {
    {"Largest tables: 65,536 pages, 4,096 branches, 65,536 records, 65,536 places", 65536, 4096, 65536, 300, 65000, 200},
    {"1,024 pages, 64 branches, 1,024 records, 1,024 places", 1024, 64, 1024, 300, 700, 3},
    {"Tables as the batch program has them: 64 pages, 16 branches, 128 records, 128 places", 64, 16, 128, 24, 100, 5},
};

enum kind { LAST, FIRST, SINGLE, GAPS, ONE_RECLAIM, RECLAIMS, REFUSED, OVER, READS, NONE, KINDS };
static const char *const names[KINDS] = {
    "mark, writes at the last addresses",
    "mark, writes at the first addresses",
    "one write",
    "mark, writes into gaps",
    "write and mark by turns, a reclaim half way",
    "the same, a reclaim after every tenth write",
    "writes refused with 6",
    "writes over pages of now",
    "reads",
    "an empty batch",
};

/* A row of a table: a batch, and how many places are in use before it. */
struct work {
    const struct size *size;
    enum kind kind;
    uint32_t used;
};

#define MOMENTS 16u /* of a branch */
#define MOST_GROUP 300u
#define FREED 5u    /* places that each of several reclaims frees */

/* How many records an address has, at different moments: two, or as many as it takes to leave the first and last addresses
   without any. */
static uint32_t per_address(const struct size *z, uint32_t count)
{
    uint32_t between = z->pages - 2 * z->group, least = (count + between - 1) / between;
    return least < 2 ? 2 : least;
}

/* The moment of record i of so many: the first one of each address in turn, then the second one of each, and so on. None is the
   last of a branch, which the next branch does not see. */
static uint32_t moment_of(const struct size *z, uint32_t count, uint32_t i)
{
    uint32_t per = per_address(z, count), span = z->branches * MOMENTS / per, addresses = (count + per - 1) / per;
    uint32_t moment = i % per * span + (uint32_t)((uint64_t)(i / per) * span / addresses);
    return moment % MOMENTS == MOMENTS - 1 ? moment - 1 : moment;
}

static void put_record(struct areas *s, uint32_t i, struct record r)
{
    put32(s->records + 12 * (size_t)i, r.address);
    put32(s->records + 12 * (size_t)i + 4, r.moment);
    put32(s->records + 12 * (size_t)i + 8, r.place);
    put32(s->places + 4 * (size_t)r.place, i + 1);
}

/* The records of a store, with places in the order of their moments, from the first place on and without the gaps; where a batch
   writes over pages of now, the last records are at now and at the last addresses. */
static void make_records(struct areas *s, const struct work *w)
{
    const struct size *z = w->size;
    uint32_t at_now = w->kind == OVER ? z->group : 0, count = w->used - at_now, per = per_address(z, count), place = 0;
    for (uint32_t k = 0; k < per; k++)
        for (uint32_t i = k; i < count; i += per, place++) {
            place += w->kind == GAPS && place % z->gap == z->gap - 1;
            put_record(s, i, (struct record){z->group + i / per, moment_of(z, count, i), place});
        }
    for (uint32_t i = 0; i < at_now; i++, place++)
        put_record(s, count + i, (struct record){z->pages - z->group + i, head_now(s), place});
}

/* A store all of whose branches are in use, each of which reverts into the one before. Where writes are refused there are fewer
   place rows than record rows, all in use. */
static void make(struct areas *s, const struct work *w)
{
    const struct size *z = w->size;
    uint32_t places = w->kind == REFUSED ? w->used : z->rows;
    *s = (struct areas){.branches_len = KIZMOOLET_BRANCH_BYTES * (size_t)z->branches, .records_len = 12 * (size_t)z->rows,
        .places_len = 4 * (size_t)places, .slab_len = PAGE * (size_t)places};
    s->branches = room(s->branches_len);
    s->records = room(s->records_len);
    s->places = room(s->places_len);
    s->slab = room(s->slab_len);
    const uint32_t head[6] = {z->pages, z->branches, w->used, z->branches * MOMENTS - 1, 0, 0};
    for (int i = 0; i < 6; i++)
        put32(s->head + 4 * i, head[i]);
    lend_disk(s);
    for (uint32_t k = 0; k < z->branches; k++) {
        uint32_t end = k == z->branches - 1 ? OPEN_END : (k + 1) * MOMENTS - 1;
        set_branch(s, k, (struct branch){k * MOMENTS, end, k == 0 ? 0 : k * MOMENTS - 2, order_of(k)});
    }
    make_records(s, w);
    for (uint32_t i = 0; i < places; i++) {
        memset(s->slab + PAGE * (size_t)i, (int)(i % 251), PAGE);
        put32(s->slab + PAGE * (size_t)i, i);
    }
}

/* ---- batches */

static void add_write(struct kizmoolet_requests *to, uint32_t address, uint32_t i)
{
    uint8_t page[PAGE];
    memset(page, (int)(255 - i % 256), sizeof page);
    put32(page, ~i);
    kizmoolet_add_write(to, address, page);
}

/* A reclaim that frees the first record of each of the first so many addresses: these stand in the first places. */
static void add_reclaim(struct kizmoolet_requests *to, const struct work *w, uint32_t addresses)
{
    kizmoolet_add_reclaim(to, moment_of(w->size, w->used, (addresses - 1) * per_address(w->size, w->used) + 1));
}

/* Writes with a mark behind each; a reclaim behind every `step`-th frees `freed` places more. */
static void add_turns(struct kizmoolet_requests *to, const struct work *w, uint32_t step, uint32_t freed)
{
    for (uint32_t i = 0; i < w->size->group; i++) {
        add_write(to, w->size->pages - w->size->group + i, i);
        kizmoolet_add_mark(to);
        if (i % step == step - 1 && i + 1 < w->size->group)
            add_reclaim(to, w, (i + 1) / step * freed);
    }
}

static size_t make_batch(const struct work *w, const struct areas *s, uint8_t *batch, size_t room_for)
{
    const struct size *z = w->size;
    struct kizmoolet_requests requests = kizmoolet_requests_in(batch, room_for);
    uint32_t count = w->kind == NONE ? 0 : w->kind == SINGLE ? 1 : z->group;
    switch (w->kind) {
    case ONE_RECLAIM:
        add_turns(&requests, w, z->group / 2, z->group / 3);
        break;
    case RECLAIMS:
        add_turns(&requests, w, 10, FREED);
        break;
    case READS: /* records at their own moments */
        for (uint32_t i = 0; i < count; i++) {
            struct record r = record_at(s, (uint64_t)i * w->used / count);
            kizmoolet_add_read(&requests, r.address, r.moment);
        }
        break;
    default:
        if (w->kind == LAST || w->kind == FIRST || w->kind == GAPS)
            kizmoolet_add_mark(&requests);
        for (uint32_t i = 0; i < count; i++)
            add_write(&requests, w->kind == FIRST ? i : z->pages - z->group + i, i);
    }
    if (requests.failed)
        fail("the batch is longer than its area");
    return requests.length;
}

/* ---- what is due: for each write the smallest free place, looked for from the first one on */

struct due {
    struct record *rows;   /* the records, in order */
    const uint8_t **pages; /* of each place, what it holds */
    uint8_t *taken;        /* of each place, whether it is in use */
    const uint8_t **live;  /* of each address, what was written there, if anything */
    uint32_t n, most, now, places;
    uint64_t passed;       /* places in use that the searches went past */
    uint32_t searches, freed;
};

static void due_at_first(struct due *d, const struct areas *s)
{
    *d = (struct due){.n = head_records(s), .most = (uint32_t)(s->records_len / 12), .now = head_now(s),
        .places = (uint32_t)(s->places_len / 4)};
    d->rows = room(d->most * sizeof *d->rows);
    d->pages = room(d->places * sizeof *d->pages);
    d->taken = room(d->places);
    d->live = room(head_size(s) * sizeof *d->live);
    for (uint32_t i = 0; i < d->n; i++)
        d->rows[i] = record_at(s, i);
    for (uint32_t i = 0; i < d->places; i++) {
        d->pages[i] = s->slab + PAGE * (size_t)i;
        d->taken[i] = get32(s->places + 4 * (size_t)i) != 0;
    }
}

/* The refusal that a write is to have. */
static uint32_t due_write(struct due *d, uint32_t address, const uint8_t *page)
{
    uint32_t at = d->n, place = 0;
    while (at > 0 && d->rows[at - 1].address > address)
        at--;
    if (at > 0 && d->rows[at - 1].address == address && d->rows[at - 1].moment == d->now) {
        d->pages[d->rows[at - 1].place] = d->live[address] = page;
        return 0;
    }
    if (d->n == d->most)
        return KIZMOOLET_RECORDS_FULL;
    while (place < d->places && d->taken[place])
        place++;
    d->passed += place;
    d->searches++;
    if (place == d->places)
        return KIZMOOLET_PLACES_FULL;
    memmove(d->rows + at + 1, d->rows + at, (d->n - at) * sizeof *d->rows);
    d->rows[at] = (struct record){address, d->now, place};
    d->n++;
    d->taken[place] = 1;
    d->pages[place] = d->live[address] = page;
    return 0;
}

/* How many records a reclaim is to free: those whose address has a later one that is not above the floor. That is so in these
   stores, where every record is seen from all branches behind its own. */
static uint32_t due_reclaim(struct due *d, uint32_t floor)
{
    uint32_t kept = 0, n = d->n;
    for (uint32_t i = 0; i < n; i++)
        if (i + 1 < n && d->rows[i + 1].address == d->rows[i].address && d->rows[i + 1].moment <= floor)
            d->taken[d->rows[i].place] = 0;
        else
            d->rows[kept++] = d->rows[i];
    d->n = kept;
    d->freed += n - kept;
    return n - kept;
}

/* Carries out a request, and looks whether the answer is the one due. */
static int due_answer(struct due *d, const uint8_t *at, const struct kizmoolet_answer *answer)
{
    struct request q = request_at(at);
    uint32_t refusal = 0, number = d->now;
    if (q.operation == WRITE)
        refusal = due_write(d, q.address, at + KIZMOOLET_REQUEST_BYTES);
    else if (q.operation == MARK)
        d->now++;
    else if (q.operation == RECLAIM)
        number = due_reclaim(d, q.moment);
    else
        return answer->page && answer->date == q.moment;
    return answer->refusal == refusal && answer->number == (refusal ? 0 : number) && !answer->page;
}

static int due_left(const struct due *d, const struct areas *s)
{
    int same = head_records(s) == d->n && head_now(s) == d->now;
    for (uint32_t i = 0; same && i < d->n; i++) {
        struct record r = record_at(s, i), x = d->rows[i];
        same = r.address == x.address && r.moment == x.moment && r.place == x.place;
        same = same && get32(s->places + 4 * (size_t)x.place) == i + 1;
    }
    for (uint32_t i = 0; same && i < d->places; i++)
        same = (get32(s->places + 4 * (size_t)i) != 0) == d->taken[i]
            && memcmp(s->slab + PAGE * (size_t)i, d->pages[i], PAGE) == 0;
    return same;
}

/* What was written is on the live disk too, current and not blank; all else of it is as before. */
static int due_live(const struct due *d, const struct areas *s, const struct areas *before)
{
    int same = 1;
    for (size_t i = 0; same && i < s->marks_len; i++) {
        const uint8_t *page = d->live[i] ? d->live[i] : before->disk + PAGE * i;
        same = memcmp(s->disk + PAGE * i, page, PAGE) == 0
            && s->marks[i] == (d->live[i] ? KIZMOOLET_MARK_CURRENT : before->marks[i]);
    }
    return same;
}

/* A batch is to do what its row of the table says: else its time says something else. */
static int as_named(const struct work *w, const struct due *d)
{
    uint32_t group = w->size->group, added = d->n + d->freed - w->used;
    uint64_t all = (uint64_t)group * w->used, pairs = (uint64_t)group * (group - 1) / 2;
    switch (w->kind) {
    case LAST:
    case FIRST: /* each passes the places that the writes before it took, too */
        return d->searches == group && added == group && d->passed == all + pairs;
    case SINGLE:
        return d->searches == 1 && added == 1 && d->passed == w->used;
    case GAPS:
        return d->searches == group && added == group && d->passed == w->size->gap * (pairs + group) - group;
    case ONE_RECLAIM:
        return d->searches == group && added == group && d->freed == group / 3;
    case RECLAIMS:
        return d->searches == group && added == group && d->freed == (group - 1) / 10 * FREED;
    case REFUSED:
        return d->searches == group && added == 0 && d->passed == all;
    default:
        return d->searches == 0 && added == 0;
    }
}

/* ---- timing */

#define BATCH_BYTES (MOST_GROUP * (KIZMOOLET_WRITE_BYTES + 2 * KIZMOOLET_REQUEST_BYTES))
#define ANSWERS_BYTES (MOST_GROUP * KIZMOOLET_PAGE_ANSWER_BYTES)
#include "turns.h"

/* The library's first batch: compared with what is due, and kept to compare the others with. */
static struct due first_batch(const struct work *w)
{
    struct due d;
    struct kizmoolet_answer answer;
    time_batch(LIBRARY);
    struct kizmoolet_answers from = kizmoolet_answers_in(answers, (size_t)answer_bytes);
    due_at_first(&d, &found);
    for (size_t at = 0; at < batch_len;) {
        if (kizmoolet_next_answer(&from, &answer) != 1 || !due_answer(&d, batch + at, &answer))
            fail("an answer is not the one due");
        at += request_at(batch + at).operation == WRITE ? KIZMOOLET_WRITE_BYTES : KIZMOOLET_REQUEST_BYTES;
    }
    if (kizmoolet_next_answer(&from, &answer) != 0 || !due_left(&d, &used))
        fail("a write is not in the smallest free place, or the store is not the one due");
    if (!due_live(&d, &used, &found))
        fail("the live disk is not the one due");
    if (!as_named(w, &d))
        fail(names[w->kind]);
    keep_first();
    free(d.rows);
    free(d.pages);
    free(d.taken);
    free(d.live);
    return d;
}

static void print_row(const struct work *w, const struct due *d, int repetitions)
{
    double middle[CONTENDERS];
    printf("| %s | %u | %u | %llu |", names[w->kind], (unsigned)answered_left, (unsigned)w->used, (unsigned long long)d->passed);
    for (int c = 0; c < CONTENDERS; c++)
        print_time(middle[c] = median_of(c, repetitions));
    for (int c = 1; c < CONTENDERS; c++)
        printf(" %.2f |", middle[c] / middle[LIBRARY]);
    printf("\n");
    fflush(stdout);
}

/* A row of a table. */
static void time_work(const struct work *w, int repetitions)
{
    make(&found, w);
    make(&used, w);
    make(&left, w);
    batch_len = make_batch(w, &found, batch, sizeof batch);
    struct due d = first_batch(w);
    take_turns(CONTENDERS, repetitions);
    print_row(w, &d, repetitions);
    free_stores();
}

static void time_size(const struct size *z, int repetitions)
{
    int both = CONTENDERS > 2;
    printf("### %s\n\n| Batch | Requests | Places in use | Passed | kizmoolet | plain C |%s c/k |%s\n", z->name,
        both ? " before |" : "", both ? " before / now |" : "");
    printf("|---|---|---|---|---|---|---|%s\n", both ? "---|---|" : "");
    for (int kind = LAST; kind <= FIRST; kind++)
        for (uint32_t quarters = 0; quarters <= 4; quarters += quarters < 2 ? 1 : 2)
            time_work(&(struct work){z, kind, z->used / 4 * quarters}, repetitions);
    time_work(&(struct work){z, SINGLE, 0}, repetitions);
    for (int kind = SINGLE; kind < KINDS; kind++)
        time_work(&(struct work){z, kind, kind == GAPS ? z->rows - z->rows / z->gap : z->used}, repetitions);
    printf("\n");
}

int main(int argc, char **argv)
{
    int repetitions = repetitions_of(argc, argv);
    for (size_t i = 0; i < sizeof sizes / sizeof *sizes; i++)
        time_size(&sizes[i], repetitions);
    return 0;
}
