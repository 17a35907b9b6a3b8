/* What the parts of the benchmark share: a store as bytes, and the contenders that run batches on it. */
#ifndef BENCH_STORE_H
#define BENCH_STORE_H

#include <stddef.h>
#include <stdint.h>
#include <stdlib.h>
#include "kizmoolet.h"

#define PAGE KIZMOOLET_PAGE_BYTES
#define OPEN_END 4294967295u

static inline uint32_t get32(const uint8_t *p)
{
    return (uint32_t)p[0] << 24 | (uint32_t)p[1] << 16 | (uint32_t)p[2] << 8 | p[3];
}

static inline void put32(uint8_t *p, uint32_t x)
{
    p[0] = (uint8_t)(x >> 24);
    p[1] = (uint8_t)(x >> 16);
    p[2] = (uint8_t)(x >> 8);
    p[3] = (uint8_t)x;
}

/* A row of the branch or record table as numbers. */
struct branch { uint32_t start, end, cut, order; };
struct record { uint32_t address, moment, place; };

/* A name's eight bytes, as two numbers, and its moment. */
struct name { uint32_t high, low, moment; };

/* Head, tables, slab, live disk and marks as the C interface takes them; head and names have one length each. */
struct areas {
    uint8_t head[KIZMOOLET_HEAD_BYTES], names[KIZMOOLET_NAMES_BYTES];
    uint8_t *branches, *records, *places, *slab, *disk, *marks;
    size_t branches_len, records_len, places_len, slab_len, disk_len, marks_len;
};

static inline uint32_t head_size(const struct areas *s) { return get32(s->head); }
static inline uint32_t head_branches(const struct areas *s) { return get32(s->head + 4); }
static inline uint32_t head_records(const struct areas *s) { return get32(s->head + 8); }
static inline uint32_t head_now(const struct areas *s) { return get32(s->head + 12); }
static inline uint32_t head_floor(const struct areas *s) { return get32(s->head + 16); }
static inline uint32_t head_names(const struct areas *s) { return get32(s->head + 20); }

static inline struct branch branch_at(const struct areas *s, size_t i)
{
    const uint8_t *p = s->branches + KIZMOOLET_BRANCH_BYTES * i;
    return (struct branch){get32(p), get32(p + 4), get32(p + 8), get32(p + 12)};
}

static inline void set_branch(struct areas *s, size_t i, struct branch b)
{
    uint8_t *p = s->branches + KIZMOOLET_BRANCH_BYTES * i;
    put32(p, b.start);
    put32(p + 4, b.end);
    put32(p + 8, b.cut);
    put32(p + 12, b.order);
}

/* The work order of branch row i in the stores that are made here: of each row another, 0 of the first. */
static inline uint32_t order_of(uint32_t i)
{
    return i * 40503u % (KIZMOOLET_MOST_ORDER + 1);
}

static inline struct record record_at(const struct areas *s, size_t i)
{
    const uint8_t *p = s->records + 12 * i;
    return (struct record){get32(p), get32(p + 4), get32(p + 8)};
}

static inline struct name name_at(const struct areas *s, size_t i)
{
    const uint8_t *p = s->names + 12 * i;
    return (struct name){get32(p), get32(p + 4), get32(p + 8)};
}

/* A request as its seven bytes spell it, and how many bytes it has with what follows it. */
enum { WRITE = 1, MARK = 2, REVERT = 3, READ = 4, RECLAIM = 5, GIVE = 6, WITHDRAW = 7 };
struct request { unsigned operation; uint32_t address, moment, spare; };

static inline struct request request_at(const uint8_t *p)
{
    uint64_t n = 0;
    for (int i = 0; i < 7; i++)
        n = n << 8 | p[i];
    return (struct request){(unsigned)(n >> 53 & 7), (uint32_t)(n >> 37 & 65535), (uint32_t)(n >> 5), (uint32_t)(n & 31)};
}

static inline size_t request_bytes(unsigned operation)
{
    return operation == WRITE ? KIZMOOLET_WRITE_BYTES : operation >= GIVE ? KIZMOOLET_NAMED_BYTES : KIZMOOLET_REQUEST_BYTES;
}

/* The name that follows a request. */
static inline struct name name_in(const uint8_t *p, uint32_t moment)
{
    return (struct name){get32(p + KIZMOOLET_REQUEST_BYTES), get32(p + KIZMOOLET_REQUEST_BYTES + 4), moment};
}

/* What a lookup gives: a page, NULL where there is none, and its date, the moment of the record that was found. */
struct found { const uint8_t *page; uint32_t date; };
#define NOTHING ((struct found){NULL, 0})

static inline uint8_t *put_answer(uint8_t *out, unsigned refusal, uint32_t number, struct found found)
{
    out[0] = (uint8_t)(refusal << 2 | (found.page ? 2u : 0u));
    put32(out + 1, number);
    out += KIZMOOLET_ANSWER_BYTES;
    if (found.page) {
        put32(out, found.date);
        out += KIZMOOLET_DATE_BYTES;
        __builtin_memcpy(out, found.page, PAGE);
        out += PAGE;
    }
    return out;
}

/* Something that runs batches. `load` takes over a store; `run` carries out a batch, writes the answers and
   returns their length; `drop` lets the store go. */
struct contender {
    const char *name;
    void (*load)(const struct areas *);
    size_t (*run)(const uint8_t *batch, size_t batch_len, uint8_t *answers, size_t answers_len);
    void (*drop)(void);
    int slow; /* gets fewer reads where they are timed */
};

extern const struct contender library, plain, paper, paper_short, sqlite;

/* The plain implementation under the signatures of kizmoolet_batch, kizmoolet_live_read, kizmoolet_copy_step and
   kizmoolet_work_orders. */
uint32_t plain_batch(uint8_t *head, size_t head_len, uint8_t *branches, size_t branches_len, uint8_t *records, size_t records_len,
    uint8_t *places, size_t places_len, uint8_t *names, size_t names_len, uint8_t *slab, size_t slab_len, uint8_t *disk,
    size_t disk_len, uint8_t *marks, size_t marks_len, const uint8_t *batch, size_t batch_len, uint8_t *answers, size_t answers_len,
    uint64_t *answered, uint64_t *taken, uint64_t *sent, uint64_t *rows);
uint32_t plain_live_read(const uint8_t *head, size_t head_len, const uint8_t *branches, size_t branches_len, const uint8_t *records,
    size_t records_len, const uint8_t *places, size_t places_len, const uint8_t *names, size_t names_len, const uint8_t *slab,
    size_t slab_len, const uint8_t *disk, size_t disk_len, const uint8_t *marks, size_t marks_len, uint32_t address, uint32_t *area,
    uint64_t *offset);
uint32_t plain_copy_step(const uint8_t *head, size_t head_len, const uint8_t *branches, size_t branches_len, const uint8_t *records,
    size_t records_len, const uint8_t *places, size_t places_len, const uint8_t *names, size_t names_len, const uint8_t *slab,
    size_t slab_len, uint8_t *disk, size_t disk_len, uint8_t *marks, size_t marks_len, uint32_t budget, uint64_t *copied);
uint32_t plain_work_orders(const uint8_t *head, size_t head_len, const uint8_t *branches, size_t branches_len,
    const uint8_t *records, size_t records_len, const uint8_t *places, size_t places_len, const uint8_t *names, size_t names_len,
    const uint8_t *slab, size_t slab_len, uint32_t moment, uint8_t *list, size_t list_len, uint64_t *count);

/* Which records and branches a reclaim keeps; shared by the three that the library is compared with. */
struct marking {
    size_t n, named_count;
    uint32_t floor, named[KIZMOOLET_MOST_NAMES];
    struct branch rows[4096];
    uint32_t parent[4096];
    uint32_t inherited[4096];
    uint8_t kept[4096];
    uint32_t cut[4096];
};
size_t row_holding(const struct branch *rows, size_t n, uint32_t moment);
void find_parents(struct marking *m); /* from n and rows */
/* From all that and the kept records: the branches that stay, and what their cuts become. */
void mark_branches(struct marking *m, const uint32_t *moments, size_t count, const uint8_t *kept);
/* Which of the records, in order of address and moment, are kept: by spans (fast_marks.c), or where `marks_by_groups` is set
   an address at a time (marks.c). */
extern int marks_by_groups;
void mark_records(struct marking *m, const uint32_t *addresses, const uint32_t *moments, size_t count, uint8_t *kept);
void mark_spans(const struct marking *m, const uint32_t *addresses, const uint32_t *moments, size_t count, uint8_t *kept);

_Noreturn void fail(const char *what);

/* Memory, all zero. */
static inline void *room(size_t bytes)
{
    void *p = calloc(bytes ? bytes : 1, 1);
    if (!p)
        fail("out of memory");
    return p;
}

/* A live disk for the pages that the head tells, every page of it stale. */
static inline void lend_disk(struct areas *s)
{
    s->marks_len = head_size(s);
    s->disk_len = PAGE * s->marks_len;
    s->disk = room(s->disk_len);
    s->marks = room(s->marks_len);
}

#endif
