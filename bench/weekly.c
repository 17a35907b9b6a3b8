/* A hundred years of weekly setting-back: the library, plain C (plain.c) and, where BEFORE is defined, an earlier library whose entries
   are renamed before_fresh and before_batch, each on a store of its own. A week is one batch: a page is written, the moment marked,
   another page tried, and the volume set back to that moment, so that each branch is cut from the one of the week before. Twelve times
   in 52 weeks a batch with a reclaim follows, to now as it was a year ago. A contender that is refused with 7 stops there. Answers are
   compared as long as nobody is refused, and the tables and live disks of the library and of plain C after every reclaim. Times are
   of the processor.
   usage: weekly [YEARS]      of 52 weeks, by default 100 */
#define _POSIX_C_SOURCE 200809L
#include <stdio.h>
#include <stdlib.h>
#include <string.h>
#include <time.h>
#include "before.h"
#include "kizmoolet.h"
#include "kizmoolet_requests.h"
#include "store.h"

_Noreturn void fail(const char *what)
{
    fprintf(stderr, "weekly: %s\n", what);
    exit(1);
}

#define PAGES 64u
#define BRANCHES 4096u
#define ROWS 4096u /* records and places */
#define WEEKS 52u  /* of a year */
#define MONTHS 12u
#define DECADE 10u

#ifdef BEFORE
enum { LIBRARY, PLAIN, EARLIER, CONTENDERS };
static const char *const names[CONTENDERS] = {"kizmoolet", "plain C", "before"};
static batch_function *const batches[CONTENDERS] = {kizmoolet_batch, plain_batch, earlier_batch};
#else
enum { LIBRARY, PLAIN, CONTENDERS };
static const char *const names[CONTENDERS] = {"kizmoolet", "plain C"};
static batch_function *const batches[CONTENDERS] = {kizmoolet_batch, plain_batch};
#endif

struct contender_state {
    struct areas store;
    uint8_t answers[4 * KIZMOOLET_ANSWER_BYTES];
    double week_seconds, reclaim_seconds; /* of this decade */
    uint32_t most;                        /* counted branches, after a week */
    uint32_t full;                        /* the week that was refused with 7, counted from 1 */
};

static struct contender_state all[CONTENDERS];
static uint8_t batch[2 * KIZMOOLET_WRITE_BYTES + 2 * KIZMOOLET_REQUEST_BYTES];

static double seconds(void)
{
    struct timespec t;
    clock_gettime(CLOCK_PROCESS_CPUTIME_ID, &t);
    return (double)t.tv_sec + 1e-9 * (double)t.tv_nsec;
}

static void make(struct areas *s)
{
    *s = (struct areas){.branches_len = KIZMOOLET_BRANCH_BYTES * BRANCHES, .records_len = 12 * ROWS, .places_len = 4 * ROWS,
        .slab_len = PAGE * (size_t)ROWS};
    s->branches = room(s->branches_len);
    s->records = room(s->records_len);
    s->places = room(s->places_len);
    s->slab = room(s->slab_len);
    if (kizmoolet_fresh(PAGES, s->head, sizeof s->head, s->branches, s->branches_len, s->records, s->records_len, s->places,
            s->places_len, s->names, sizeof s->names, s->slab, s->slab_len) != 0)
        fail("a fresh store was refused");
    lend_disk(s);
}

/* A batch on a contender's store; 7 if its last request was refused with that. */
static unsigned send(int c, const struct kizmoolet_requests *requests, size_t count, double *took)
{
    struct areas *s = &all[c].store;
    uint64_t answered, taken, sent, rows, records = head_records(s);
    lend_earlier(s->branches, s->branches_len);
    double began = seconds();
    uint32_t stop = batches[c](s->head, sizeof s->head, s->branches, s->branches_len, s->records, s->records_len, s->places,
        s->places_len, s->names, sizeof s->names, s->slab, s->slab_len, s->disk, s->disk_len, s->marks, s->marks_len, batch,
        requests->length, all[c].answers, sizeof all[c].answers, &answered, &taken, &sent, &rows);
    *took += seconds() - began;
    if (c > PLAIN)
        take_earlier(s->branches, s->branches_len);
    if (requests->failed || stop != 0 || answered != count || rows != records)
        fail("a batch was not carried out to its end, or not all record rows were read");
    for (size_t i = 0; i < count; i++) {
        unsigned refusal = all[c].answers[i * KIZMOOLET_ANSWER_BYTES] >> 2;
        if (refusal != 0 && !(refusal == 7 && i + 1 == count))
            fail("a request was refused");
        if (refusal == 7)
            return 7;
    }
    return 0;
}

static void compare(int c, int tables)
{
    const struct areas *a = &all[LIBRARY].store, *b = &all[c].store;
    if (all[LIBRARY].full || all[c].full)
        return;
    if (memcmp(all[LIBRARY].answers, all[c].answers, sizeof all[c].answers) != 0)
        fail("two contenders give different answers");
    if (tables && c == PLAIN
        && (memcmp(a->head, b->head, sizeof a->head) != 0 || memcmp(a->branches, b->branches, a->branches_len) != 0
            || memcmp(a->records, b->records, a->records_len) != 0 || memcmp(a->places, b->places, a->places_len) != 0
            || memcmp(a->slab, b->slab, a->slab_len) != 0 || memcmp(a->disk, b->disk, a->disk_len) != 0
            || memcmp(a->marks, b->marks, a->marks_len) != 0))
        fail("two contenders leave different stores");
}

/* A week has two moments: it begins at 2 w. */
static void week(uint32_t w)
{
    struct kizmoolet_requests requests = kizmoolet_requests_in(batch, sizeof batch);
    uint8_t page[PAGE];
    memset(page, (int)(w % 256), sizeof page);
    kizmoolet_add_write(&requests, w % PAGES, page);
    kizmoolet_add_mark(&requests);
    memset(page, 0xEE, sizeof page);
    kizmoolet_add_write(&requests, (w + 7) % PAGES, page);
    kizmoolet_add_revert(&requests, 2 * w, QUOTED(order_of(w + 1)));
    for (int c = 0; c < CONTENDERS; c++)
        if (!all[c].full) {
            if (send(c, &requests, 4, &all[c].week_seconds) == 7)
                all[c].full = w + 1;
            uint32_t rows = head_branches(&all[c].store);
            all[c].most = rows > all[c].most ? rows : all[c].most;
            compare(c, 0);
        }
}

static void month(uint32_t w)
{
    uint32_t now = 2 * (w + 1), year = 2 * WEEKS;
    struct kizmoolet_requests requests = kizmoolet_requests_in(batch, sizeof batch);
    kizmoolet_add_reclaim(&requests, now > year ? now - year : 0);
    for (int c = 0; c < CONTENDERS; c++)
        if (!all[c].full) {
            send(c, &requests, 1, &all[c].reclaim_seconds);
            compare(c, 1);
        }
}

static void print_time(double t)
{
    double x = t * (t < 1e-3 ? 1e6 : 1e3);
    printf(" %.*f %s |", x < 10 ? 2 : x < 100 ? 1 : 0, x, t < 1e-3 ? "µs" : "ms");
}

static void print_decade(uint32_t years)
{
    printf("| %u |", years);
    for (int c = 0; c < CONTENDERS; c++) {
        struct contender_state *s = &all[c];
        if (s->full && s->full <= (years - DECADE) * WEEKS) {
            printf(" | | |");
            continue;
        }
        printf(" %u%s |", head_branches(&s->store), s->full ? ", full" : "");
        print_time(s->week_seconds / (DECADE * WEEKS));
        print_time(s->reclaim_seconds / (DECADE * MONTHS));
        s->week_seconds = s->reclaim_seconds = 0;
    }
    printf("\n");
    fflush(stdout);
}

int main(int argc, char **argv)
{
    int years = argc > 1 ? atoi(argv[1]) : 100;
    if (years < 10 || years > 1000 || years % 10 != 0)
        fail("the years are 10, 20, .. 1000");
    for (int c = 0; c < CONTENDERS; c++)
        make(&all[c].store);
    printf("| Years |");
    for (int c = 0; c < CONTENDERS; c++)
        printf(" %s: branches | a week | a reclaim |", names[c]);
    printf("\n|---|");
    for (int c = 0; c < CONTENDERS; c++)
        printf("---|---|---|");
    printf("\n");
    for (uint32_t w = 0; w < (uint32_t)years * WEEKS; w++) {
        week(w);
        if ((w + 1) * MONTHS / WEEKS != w * MONTHS / WEEKS)
            month(w);
        if ((w + 1) % (DECADE * WEEKS) == 0)
            print_decade((w + 1) / WEEKS);
    }
    printf("\nMost branches at a time, of %u:", BRANCHES);
    for (int c = 0; c < CONTENDERS; c++) {
        printf("%s %s %u", c ? ";" : "", names[c], all[c].most);
        if (all[c].full)
            printf(" (refused with 7 in week %u)", all[c].full);
    }
    printf(".\n");
    return 0;
}
