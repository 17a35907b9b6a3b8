/* The entries of the library as types and, where BEFORE is defined, an earlier archive under the present signatures. Its entries
   are renamed before_fresh, before_batch, before_live_read, before_copy_step and before_work_orders, as far as it has them. An
   archive of version 0.2 or earlier has five areas: it gets the first 20 bytes of the head, and no names, and serves stores that
   have none; BEFORE_NAMES says that it is of 0.3 or later. An archive of before 0.4 keeps more branches in a reclaim: unless
   BEFORE_WEEKLY is defined, branch rows and their count are not compared with its. One of before 0.5 does not report how many
   record rows it read: it is called without that count, and is taken to have read all, or none with 1 and 2; BEFORE_ROWS says
   that it is of 0.5 or later. One of before 0.6 has no live disk, and is called without it: disk and marks stay as they were;
   BEFORE_DISK says that it is of 0.6 or later. One of before 0.7 has branch rows of 12 bytes, without a work order: it gets rows
   of its own, which lend_earlier makes from those of now before a call and take_earlier puts back after it, both outside of what
   is timed; a batch for it has no work order in a revert (QUOTED). One of 0.7 or later (BEFORE_ORDERS) has all this, and is
   called as it is. */
#ifndef BENCH_BEFORE_H
#define BENCH_BEFORE_H

#include <stddef.h>
#include <stdint.h>
#include "kizmoolet.h"
#include "kizmoolet_requests.h"

#ifdef BEFORE_ORDERS
#define BEFORE_DISK 1
#endif

#ifdef BEFORE_DISK
#define BEFORE_ROWS 1
#endif

#ifdef BEFORE_ROWS
#define BEFORE_NAMES 1
#define BEFORE_WEEKLY 1
#endif

typedef uint32_t fresh_function(uint32_t, uint8_t *, size_t, uint8_t *, size_t, uint8_t *, size_t, uint8_t *, size_t, uint8_t *,
    size_t, const uint8_t *, size_t);
typedef uint32_t batch_function(uint8_t *, size_t, uint8_t *, size_t, uint8_t *, size_t, uint8_t *, size_t, uint8_t *, size_t,
    uint8_t *, size_t, uint8_t *, size_t, uint8_t *, size_t, const uint8_t *, size_t, uint8_t *, size_t, uint64_t *, uint64_t *,
    uint64_t *, uint64_t *);
typedef uint32_t live_function(const uint8_t *, size_t, const uint8_t *, size_t, const uint8_t *, size_t, const uint8_t *, size_t,
    const uint8_t *, size_t, const uint8_t *, size_t, const uint8_t *, size_t, const uint8_t *, size_t, uint32_t, uint32_t *,
    uint64_t *);
typedef uint32_t step_function(const uint8_t *, size_t, const uint8_t *, size_t, const uint8_t *, size_t, const uint8_t *, size_t,
    const uint8_t *, size_t, const uint8_t *, size_t, uint8_t *, size_t, uint8_t *, size_t, uint32_t, uint64_t *);
typedef uint32_t orders_function(const uint8_t *, size_t, const uint8_t *, size_t, const uint8_t *, size_t, const uint8_t *, size_t,
    const uint8_t *, size_t, const uint8_t *, size_t, uint32_t, uint8_t *, size_t, uint64_t *);

#if defined BEFORE && !defined BEFORE_ORDERS
#define EARLIER_BRANCH_BYTES 12u
#define QUOTED(order) 0u /* the work order of a revert in a batch that an earlier library gets too */
static uint8_t earlier_rows[KIZMOOLET_MOST_BRANCHES * EARLIER_BRANCH_BYTES];
#define EARLIER_BRANCHES(branches) ((void)(branches), earlier_rows)
#define EARLIER_LENGTH(length) ((length) / KIZMOOLET_BRANCH_BYTES * EARLIER_BRANCH_BYTES)

static inline void lend_earlier(const uint8_t *branches, size_t length)
{
    for (size_t i = 0; i < length / KIZMOOLET_BRANCH_BYTES; i++)
        __builtin_memcpy(earlier_rows + EARLIER_BRANCH_BYTES * i, branches + KIZMOOLET_BRANCH_BYTES * i, EARLIER_BRANCH_BYTES);
}

/* Work orders become 0. */
static inline void take_earlier(uint8_t *branches, size_t length)
{
    kizmoolet_widen_branches(earlier_rows, length / KIZMOOLET_BRANCH_BYTES, branches);
}
#else
#define EARLIER_BRANCH_BYTES KIZMOOLET_BRANCH_BYTES
#define QUOTED(order) (order)
#define EARLIER_BRANCHES(branches) (branches)
#define EARLIER_LENGTH(length) (length)
static inline void lend_earlier(const uint8_t *branches, size_t length) { (void)branches, (void)length; }
static inline void take_earlier(uint8_t *branches, size_t length) { (void)branches, (void)length; }
#endif

/* Whether two branch tables are the same; with an earlier library's, that has no work orders, but for these. */
static inline int same_rows(const uint8_t *a, const uint8_t *b, size_t length, int with_earlier)
{
    size_t bytes = with_earlier ? EARLIER_BRANCH_BYTES : KIZMOOLET_BRANCH_BYTES;
    for (size_t at = 0; at < length; at += KIZMOOLET_BRANCH_BYTES)
        if (__builtin_memcmp(a + at, b + at, bytes) != 0)
            return 0;
    return 1;
}

#ifdef BEFORE
#ifdef BEFORE_NAMES
fresh_function before_fresh;
#else
#define NUMBER_BYTES 4u /* by so much the head is longer now */

uint32_t before_fresh(uint32_t, uint8_t *, size_t, uint8_t *, size_t, uint8_t *, size_t, uint8_t *, size_t, const uint8_t *, size_t);
#endif

static inline uint32_t earlier_fresh(uint32_t size, uint8_t *head, size_t head_len, uint8_t *branches, size_t branches_len,
    uint8_t *records, size_t records_len, uint8_t *places, size_t places_len, uint8_t *names, size_t names_len,
    const uint8_t *slab, size_t slab_len)
{
#ifdef BEFORE_NAMES
    return before_fresh(size, head, head_len, EARLIER_BRANCHES(branches), EARLIER_LENGTH(branches_len), records, records_len,
        places, places_len, names, names_len, slab, slab_len);
#else
    (void)names, (void)names_len;
    return before_fresh(size, head, head_len - NUMBER_BYTES, EARLIER_BRANCHES(branches), EARLIER_LENGTH(branches_len), records,
        records_len, places, places_len, slab, slab_len);
#endif
}
#endif

#if defined BEFORE && defined BEFORE_DISK
live_function before_live_read;
step_function before_copy_step;
#endif

#ifdef BEFORE_ORDERS
batch_function before_batch;
orders_function before_work_orders;
#define earlier_batch before_batch
#define earlier_live_read before_live_read
#define earlier_copy_step before_copy_step
#elif defined BEFORE
#if defined BEFORE_DISK
batch_function before_batch;

static inline uint32_t earlier_live_read(const uint8_t *head, size_t head_len, const uint8_t *branches, size_t branches_len,
    const uint8_t *records, size_t records_len, const uint8_t *places, size_t places_len, const uint8_t *names, size_t names_len,
    const uint8_t *slab, size_t slab_len, const uint8_t *disk, size_t disk_len, const uint8_t *marks, size_t marks_len,
    uint32_t address, uint32_t *area, uint64_t *offset)
{
    return before_live_read(head, head_len, EARLIER_BRANCHES(branches), EARLIER_LENGTH(branches_len), records, records_len, places,
        places_len, names, names_len, slab, slab_len, disk, disk_len, marks, marks_len, address, area, offset);
}

static inline uint32_t earlier_copy_step(const uint8_t *head, size_t head_len, const uint8_t *branches, size_t branches_len,
    const uint8_t *records, size_t records_len, const uint8_t *places, size_t places_len, const uint8_t *names, size_t names_len,
    const uint8_t *slab, size_t slab_len, uint8_t *disk, size_t disk_len, uint8_t *marks, size_t marks_len, uint32_t budget,
    uint64_t *copied)
{
    return before_copy_step(head, head_len, EARLIER_BRANCHES(branches), EARLIER_LENGTH(branches_len), records, records_len, places,
        places_len, names, names_len, slab, slab_len, disk, disk_len, marks, marks_len, budget, copied);
}
#elif defined BEFORE_ROWS
uint32_t before_batch(uint8_t *, size_t, uint8_t *, size_t, uint8_t *, size_t, uint8_t *, size_t, uint8_t *, size_t,
    uint8_t *, size_t, const uint8_t *, size_t, uint8_t *, size_t, uint64_t *, uint64_t *, uint64_t *, uint64_t *);
#elif defined BEFORE_NAMES
uint32_t before_batch(uint8_t *, size_t, uint8_t *, size_t, uint8_t *, size_t, uint8_t *, size_t, uint8_t *, size_t,
    uint8_t *, size_t, const uint8_t *, size_t, uint8_t *, size_t, uint64_t *, uint64_t *, uint64_t *);
#else
uint32_t before_batch(uint8_t *, size_t, uint8_t *, size_t, uint8_t *, size_t, uint8_t *, size_t, uint8_t *, size_t,
    const uint8_t *, size_t, uint8_t *, size_t, uint64_t *, uint64_t *, uint64_t *);
#endif

static inline uint32_t earlier_batch(uint8_t *head, size_t head_len, uint8_t *branches, size_t branches_len, uint8_t *records,
    size_t records_len, uint8_t *places, size_t places_len, uint8_t *names, size_t names_len, uint8_t *slab, size_t slab_len,
    uint8_t *disk, size_t disk_len, uint8_t *marks, size_t marks_len, const uint8_t *batch, size_t batch_len, uint8_t *answers,
    size_t answers_len, uint64_t *answered, uint64_t *request_bytes, uint64_t *answer_bytes, uint64_t *rows_read)
{
    uint8_t *rows = EARLIER_BRANCHES(branches);
    size_t rows_len = EARLIER_LENGTH(branches_len);
#ifdef BEFORE_DISK
    return before_batch(head, head_len, rows, rows_len, records, records_len, places, places_len, names, names_len, slab, slab_len,
        disk, disk_len, marks, marks_len, batch, batch_len, answers, answers_len, answered, request_bytes, answer_bytes, rows_read);
#else
    (void)disk, (void)disk_len, (void)marks, (void)marks_len;
#ifdef BEFORE_ROWS
    return before_batch(head, head_len, rows, rows_len, records, records_len, places, places_len, names, names_len,
        slab, slab_len, batch, batch_len, answers, answers_len, answered, request_bytes, answer_bytes, rows_read);
#else
    const uint8_t *count = head + KIZMOOLET_HEAD_RECORDS_AT;
    uint64_t all = (uint64_t)count[0] << 24 | count[1] << 16 | count[2] << 8 | count[3];
#ifdef BEFORE_NAMES
    uint32_t stop = before_batch(head, head_len, rows, rows_len, records, records_len, places, places_len, names, names_len,
        slab, slab_len, batch, batch_len, answers, answers_len, answered, request_bytes, answer_bytes);
#else
    (void)names, (void)names_len;
    uint32_t stop = before_batch(head, head_len - NUMBER_BYTES, rows, rows_len, records, records_len, places, places_len,
        slab, slab_len, batch, batch_len, answers, answers_len, answered, request_bytes, answer_bytes);
#endif
    *rows_read = stop == 1 || stop == 2 ? 0 : all;
    return stop;
#endif
#endif
}
#endif

#endif
