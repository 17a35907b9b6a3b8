/*
 * Requests packed and answers unpacked, what head, places, names and lists of work orders tell, and the marks of a live disk, for
 * hosts of kizmoolet.h.
 * All functions are inline: there is nothing to link.
 *
 *     struct kizmoolet_requests requests = kizmoolet_requests_in(batch, sizeof batch);
 *     kizmoolet_add_write(&requests, 5, page);
 *     kizmoolet_add_mark(&requests);
 *     if (requests.failed)
 *         .. a request could not be added: this is not the batch that was meant, do not send it ..
 *     stop = kizmoolet_batch(.., batch, requests.length, answers, sizeof answers, &answered, &request_bytes, &answer_bytes,
 *         &rows_read);
 *
 *     struct kizmoolet_answers from = kizmoolet_answers_in(answers, (size_t)answer_bytes);
 *     struct kizmoolet_answer answer;
 *     while (kizmoolet_next_answer(&from, &answer) == 1)
 *         .. answer.refusal, answer.number, answer.page, answer.date ..
 */
#ifndef KIZMOOLET_REQUESTS_H
#define KIZMOOLET_REQUESTS_H

#include <stddef.h>
#include <stdint.h>
#include "kizmoolet.h"

/* Requests in an area of the caller's, one behind the other. */
struct kizmoolet_requests {
    uint8_t *bytes;
    size_t room;   /* the length of the area */
    size_t length; /* the bytes of the requests added: what to pass as batch_len */
    int failed;    /* 1 from the first request on that could not be added; none is added after it */
};

/* An answer. */
struct kizmoolet_answer {
    uint32_t refusal;    /* 0, or 4 to 10, or 15 to 17 */
    uint32_t number;     /* 0 in a refusal */
    uint32_t date;       /* the moment at which the page was written; 0 where there is no page */
    const uint8_t *page; /* KIZMOOLET_PAGE_BYTES bytes in the answer area, or NULL */
    size_t length;       /* the bytes of the answer, with its date and page */
};

/* Answers in an area of the caller's, one behind the other. */
struct kizmoolet_answers {
    const uint8_t *bytes;
    size_t length; /* answer_bytes as the batch reported it */
    size_t at;     /* where the next answer begins */
};

/* A number of head or tables, or of an answer. */
static inline uint32_t kizmoolet_number_at(const uint8_t *from)
{
    return (uint32_t)from[0] << 24 | (uint32_t)from[1] << 16 | (uint32_t)from[2] << 8 | (uint32_t)from[3];
}

/* The present moment, the earliest that can be read without a name, and how many names there are, from the 24 bytes of a head. */
static inline uint32_t kizmoolet_now(const uint8_t *head)
{
    return kizmoolet_number_at(head + KIZMOOLET_HEAD_NOW_AT);
}

static inline uint32_t kizmoolet_floor(const uint8_t *head)
{
    return kizmoolet_number_at(head + KIZMOOLET_HEAD_FLOOR_AT);
}

static inline uint32_t kizmoolet_name_count(const uint8_t *head)
{
    return kizmoolet_number_at(head + KIZMOOLET_HEAD_NAMES_AT);
}

/* The row of the name table, counted from 0, that has this name of 8 bytes; the name count, at most 32, where none has. */
static inline uint32_t kizmoolet_name_row(const uint8_t *head, const uint8_t *names, const uint8_t *name)
{
    uint32_t count = kizmoolet_name_count(head), row, i;
    if (count > KIZMOOLET_MOST_NAMES)
        count = KIZMOOLET_MOST_NAMES;
    for (row = 0; row < count; row++) {
        const uint8_t *at = names + row * KIZMOOLET_NAME_ROW_BYTES;
        for (i = 0; i < KIZMOOLET_NAME_BYTES && at[i] == name[i]; i++)
            ;
        if (i == KIZMOOLET_NAME_BYTES)
            return row;
    }
    return count;
}

/* The moment that a row of the name table stands for. */
static inline uint32_t kizmoolet_named_moment(const uint8_t *names, uint32_t row)
{
    return kizmoolet_number_at(names + row * KIZMOOLET_NAME_ROW_BYTES + KIZMOOLET_NAME_BYTES);
}

/* The work order i, counted from 0, of a list that kizmoolet_work_orders made. */
static inline uint32_t kizmoolet_order_at(const uint8_t *list, size_t i)
{
    return (uint32_t)list[i * KIZMOOLET_ORDER_BYTES] << 8 | (uint32_t)list[i * KIZMOOLET_ORDER_BYTES + 1];
}

/* Branch rows of a version before 0.7.0, 12 bytes each, as rows of 16 with work order 0. Nothing else of such a store changes. The
   two areas do not overlap. */
static inline void kizmoolet_widen_branches(const uint8_t *old, size_t rows, uint8_t *branches)
{
    size_t row, i;
    for (row = 0; row < rows; row++)
        for (i = 0; i < KIZMOOLET_BRANCH_BYTES; i++)
            branches[row * KIZMOOLET_BRANCH_BYTES + i] = i < 12 ? old[row * 12 + i] : 0;
}

/*
 * Up to which byte the slab is in use: 256 times the number of the last place in use, plus 256; 0 where none is. A copy of the
 * store needs no byte of the slab from there on. It looks at the place table from its end, and only at whole rows.
 */
static inline size_t kizmoolet_slab_in_use(const uint8_t *places, size_t places_len)
{
    size_t rows = places_len / KIZMOOLET_PLACE_BYTES;
    while (rows > 0 && kizmoolet_number_at(places + (rows - 1) * KIZMOOLET_PLACE_BYTES) == 0)
        rows--;
    return rows * KIZMOOLET_PAGE_BYTES;
}

/* How many pages of a live disk are stale: what copying steps have still to bring to date. */
static inline size_t kizmoolet_stale_pages(const uint8_t *marks, size_t marks_len)
{
    size_t i, stale = 0;
    for (i = 0; i < marks_len; i++)
        stale += (marks[i] & KIZMOOLET_MARK_CURRENT) == 0;
    return stale;
}

/* Makes every page of a live disk stale, blank marks kept: after kizmoolet_fresh, or where somebody else wrote to disk or store.
   Marks above 3, which would be refused with 18, become 0 or 2. */
static inline void kizmoolet_make_stale(uint8_t *marks, size_t marks_len)
{
    size_t i;
    for (i = 0; i < marks_len; i++)
        marks[i] = (uint8_t)(marks[i] & KIZMOOLET_MARK_BLANK);
}

/* An empty list of requests, to be added in this area. */
static inline struct kizmoolet_requests kizmoolet_requests_in(uint8_t *bytes, size_t room)
{
    struct kizmoolet_requests requests;
    requests.bytes = bytes;
    requests.room = room;
    requests.length = 0;
    requests.failed = 0;
    return requests;
}

/* Room for one more request of this many bytes; NULL, and the list has failed, where there is none. */
static inline uint8_t *kizmoolet_add_room(struct kizmoolet_requests *to, size_t length)
{
    uint8_t *at;
    if (to->failed || to->room - to->length < length) {
        to->failed = 1;
        return NULL;
    }
    at = to->bytes + to->length;
    to->length += length;
    return at;
}

/* The seven bytes of a request; of a revert the address is the work order. A field that the operation does not use is to be given
   as 0, else the batch stops there with 13. */
static inline void kizmoolet_pack(uint8_t *to, uint32_t operation, uint16_t address, uint32_t moment)
{
    to[0] = (uint8_t)((operation & 7u) << 5 | (uint32_t)address >> 11);
    to[1] = (uint8_t)(address >> 3);
    to[2] = (uint8_t)((address & 7u) << 5 | moment >> 27);
    to[3] = (uint8_t)(moment >> 19);
    to[4] = (uint8_t)(moment >> 11);
    to[5] = (uint8_t)(moment >> 3);
    to[6] = (uint8_t)((moment & 7u) << 5);
}

/*
 * Each adds one request. Result: 1; or 0, and nothing is written, where the area is too short, where an address or a work order is
 * above 65,535 and has no place in a request, or where a request before could not be added. So one look at `failed` after the last
 * is enough.
 */
static inline int kizmoolet_add_write(struct kizmoolet_requests *to, uint32_t address, const uint8_t *page)
{
    uint8_t *at;
    size_t i;
    if (address > 65535u)
        to->failed = 1;
    at = kizmoolet_add_room(to, KIZMOOLET_WRITE_BYTES);
    if (at == NULL)
        return 0;
    kizmoolet_pack(at, KIZMOOLET_WRITE, (uint16_t)address, 0);
    for (i = 0; i < KIZMOOLET_PAGE_BYTES; i++)
        at[KIZMOOLET_REQUEST_BYTES + i] = page[i];
    return 1;
}

static inline int kizmoolet_add_mark(struct kizmoolet_requests *to)
{
    uint8_t *at = kizmoolet_add_room(to, KIZMOOLET_REQUEST_BYTES);
    if (at == NULL)
        return 0;
    kizmoolet_pack(at, KIZMOOLET_MARK, 0, 0);
    return 1;
}

/* The work order that the crew quotes, 0 where there is none; one above 65,535 has no place in a request. */
static inline int kizmoolet_add_revert(struct kizmoolet_requests *to, uint32_t moment, uint32_t order)
{
    uint8_t *at;
    if (order > KIZMOOLET_MOST_ORDER)
        to->failed = 1;
    at = kizmoolet_add_room(to, KIZMOOLET_REQUEST_BYTES);
    if (at == NULL)
        return 0;
    kizmoolet_pack(at, KIZMOOLET_REVERT, (uint16_t)order, moment);
    return 1;
}

static inline int kizmoolet_add_read(struct kizmoolet_requests *to, uint32_t address, uint32_t moment)
{
    uint8_t *at;
    if (address > 65535u)
        to->failed = 1;
    at = kizmoolet_add_room(to, KIZMOOLET_REQUEST_BYTES);
    if (at == NULL)
        return 0;
    kizmoolet_pack(at, KIZMOOLET_READ, (uint16_t)address, moment);
    return 1;
}

static inline int kizmoolet_add_reclaim(struct kizmoolet_requests *to, uint32_t moment)
{
    uint8_t *at = kizmoolet_add_room(to, KIZMOOLET_REQUEST_BYTES);
    if (at == NULL)
        return 0;
    kizmoolet_pack(at, KIZMOOLET_RECLAIM, 0, moment);
    return 1;
}

/* The 8 bytes of a name follow a request. */
static inline int kizmoolet_add_named(struct kizmoolet_requests *to, uint32_t operation, uint32_t moment, const uint8_t *name)
{
    size_t i;
    uint8_t *at = kizmoolet_add_room(to, KIZMOOLET_NAMED_BYTES);
    if (at == NULL)
        return 0;
    kizmoolet_pack(at, operation, 0, moment);
    for (i = 0; i < KIZMOOLET_NAME_BYTES; i++)
        at[KIZMOOLET_REQUEST_BYTES + i] = name[i];
    return 1;
}

static inline int kizmoolet_add_name(struct kizmoolet_requests *to, uint32_t moment, const uint8_t *name)
{
    return kizmoolet_add_named(to, KIZMOOLET_NAME, moment, name);
}

static inline int kizmoolet_add_withdraw(struct kizmoolet_requests *to, const uint8_t *name)
{
    return kizmoolet_add_named(to, KIZMOOLET_WITHDRAW, 0, name);
}

/* The answers in this area, from the first one on. */
static inline struct kizmoolet_answers kizmoolet_answers_in(const uint8_t *bytes, size_t length)
{
    struct kizmoolet_answers answers;
    answers.bytes = bytes;
    answers.length = length;
    answers.at = 0;
    return answers;
}

/*
 * The next answer. Result: 1; 0 where there is no more; -1 where the bytes that are left do not begin with a whole answer as the
 * library writes them: cut short, a spare bit that is set, a refusal that is none of 4 to 10 and 15 to 17, a refusal with a
 * number or a page. With 0 and -1 the answer is all zero, and the list stays where it is.
 */
static inline int kizmoolet_next_answer(struct kizmoolet_answers *from, struct kizmoolet_answer *answer)
{
    const uint8_t *at;
    size_t left = from->length - from->at, length = KIZMOOLET_ANSWER_BYTES;
    uint32_t refusal, number;
    int page;
    answer->refusal = 0;
    answer->number = 0;
    answer->date = 0;
    answer->page = NULL;
    answer->length = 0;
    if (left == 0)
        return 0;
    if (left < KIZMOOLET_ANSWER_BYTES)
        return -1;
    at = from->bytes + from->at;
    refusal = (uint32_t)at[0] >> 2;
    page = (at[0] & 2u) != 0;
    number = kizmoolet_number_at(at + 1);
    if (page)
        length = KIZMOOLET_PAGE_ANSWER_BYTES;
    if ((at[0] & 1u) != 0 || left < length)
        return -1;
    if (refusal != 0 && (number != 0 || page))
        return -1;
    if (refusal != 0 && (refusal < KIZMOOLET_ADDRESS_TOO_HIGH || refusal > KIZMOOLET_MOMENTS_USED_UP)
        && (refusal < KIZMOOLET_NAME_IN_USE || refusal > KIZMOOLET_NO_SUCH_NAME))
        return -1;
    answer->refusal = refusal;
    answer->number = number;
    answer->length = length;
    if (page) {
        answer->date = kizmoolet_number_at(at + KIZMOOLET_ANSWER_BYTES);
        answer->page = at + KIZMOOLET_ANSWER_BYTES + KIZMOOLET_DATE_BYTES;
    }
    from->at += length;
    return 1;
}

#endif
