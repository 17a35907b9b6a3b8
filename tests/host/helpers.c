/* The constants of include/kizmoolet.h and the functions of include/kizmoolet_requests.h. Built as C99, with the sanitizers, and
   as C++11.

   1. Every request and answer that helpers/main.rs writes, packed and unpacked: the bytes are those of the reference; into an
      area that is too short nothing is packed, and answers that are cut short anywhere are not unpacked. For every place table
      that it writes, up to which byte the slab is in use; only whole rows are looked at. For every name table, which row has a
      name, and its moment. For the marks of every live disk, how many pages are stale, and the marks once all are. For every list
      of work orders each of them, and branch rows of 12 bytes made rows of 16.
   2. The pointer to the page of a live read.
   3. Each of the numbers 0 to 18, by its name, comes from the library where the header says, and so do a page's date, the rows
      of names, the record rows read, live reads, copying steps and work orders. */

#include "kizmoolet.h"
#include "kizmoolet_requests.h"

#include <stdio.h>
#include <stdlib.h>
#include <string.h>

enum { GUARD = 0x5C, ROOM = 1 << 20 };

static unsigned long checks, wrong;

#define CHECK(condition) check((condition) != 0, #condition, __LINE__)

static void check(int good, const char *what, int line)
{
    checks++;
    if (!good && ++wrong <= 20) {
        printf("  line %d: not so: %s\n", line, what);
        fflush(stdout); /* what is wrong may end the program soon after */
    }
}

static void fail(const char *what)
{
    fprintf(stderr, "helpers: %s\n", what);
    exit(2);
}

static void get(void *to, size_t length)
{
    if (length != 0 && fread(to, 1, length, stdin) != length)
        fail("the cases end early");
}

static uint64_t get_number(void)
{
    uint8_t bytes[8];
    uint64_t number = 0;
    int i;
    get(bytes, 8);
    for (i = 7; i >= 0; i--)
        number = number << 8 | bytes[i];
    return number;
}

static size_t get_area(uint8_t *to, size_t most)
{
    uint64_t length = get_number();
    if (length > most)
        fail("an area is too long");
    get(to, (size_t)length);
    return (size_t)length;
}

static int all_guard(const uint8_t *from, size_t length)
{
    size_t i;
    for (i = 0; i < length; i++)
        if (from[i] != GUARD)
            return 0;
    return 1;
}

/* Behind a request: its page or its name. The address of a revert is its work order. */
static int add(struct kizmoolet_requests *to, uint64_t operation, uint32_t address, uint32_t moment, const uint8_t *behind)
{
    switch (operation) {
    case KIZMOOLET_WRITE:
        return kizmoolet_add_write(to, address, behind);
    case KIZMOOLET_MARK:
        return kizmoolet_add_mark(to);
    case KIZMOOLET_REVERT:
        return kizmoolet_add_revert(to, moment, address);
    case KIZMOOLET_READ:
        return kizmoolet_add_read(to, address, moment);
    case KIZMOOLET_RECLAIM:
        return kizmoolet_add_reclaim(to, moment);
    case KIZMOOLET_NAME:
        return kizmoolet_add_name(to, moment, behind);
    case KIZMOOLET_WITHDRAW:
        return kizmoolet_add_withdraw(to, behind);
    default:
        fail("no such operation");
        return 0;
    }
}

/* ---- 1. against the reference's bytes */

static uint8_t all_requests[4u << 20], packed_requests[4u << 20]; /* all requests one behind the other, and the same packed */
static size_t all_requests_len;
static struct kizmoolet_requests all_packed;

static void one_request(void)
{
    uint64_t operation = get_number();
    uint32_t address = (uint32_t)get_number(), moment = (uint32_t)get_number();
    uint8_t behind[KIZMOOLET_PAGE_BYTES], bytes[KIZMOOLET_WRITE_BYTES], area[KIZMOOLET_WRITE_BYTES + 8];
    size_t room, behind_len = get_area(behind, sizeof behind), length = get_area(bytes, sizeof bytes);
    int named = operation == KIZMOOLET_NAME || operation == KIZMOOLET_WITHDRAW;
    CHECK(behind_len == (operation == KIZMOOLET_WRITE ? KIZMOOLET_PAGE_BYTES : named ? KIZMOOLET_NAME_BYTES : 0));
    CHECK(length
        == (operation == KIZMOOLET_WRITE ? KIZMOOLET_WRITE_BYTES : named ? KIZMOOLET_NAMED_BYTES : KIZMOOLET_REQUEST_BYTES));
    for (room = 0; room <= length + 1; room++) {
        struct kizmoolet_requests to;
        memset(area, GUARD, sizeof area);
        to = kizmoolet_requests_in(area, room);
        CHECK(add(&to, operation, address, moment, behind) == (room >= length));
        if (room >= length) {
            CHECK(to.length == length && !to.failed);
            CHECK(memcmp(area, bytes, length) == 0 && all_guard(area + length, sizeof area - length));
        } else {
            CHECK(to.length == 0 && to.failed);
            CHECK(all_guard(area, sizeof area));
            /* A list that has failed takes nothing more, also what would fit. */
            to.room = sizeof area;
            CHECK(kizmoolet_add_mark(&to) == 0 && to.length == 0 && all_guard(area, sizeof area));
        }
        if (room == KIZMOOLET_REQUEST_BYTES + 1 && operation == KIZMOOLET_WRITE)
            room = length - 3; /* not each of the page's bytes */
    }
    kizmoolet_pack(area, (uint32_t)operation, (uint16_t)address, moment);
    CHECK(memcmp(area, bytes, KIZMOOLET_REQUEST_BYTES) == 0);
    if (all_requests_len + length <= sizeof all_requests) {
        memcpy(all_requests + all_requests_len, bytes, length);
        all_requests_len += length;
        CHECK(add(&all_packed, operation, address, moment, behind) == 1);
    }
}

static uint8_t all_answers[4u << 20]; /* all answers one behind the other */
static size_t all_answers_len;
static unsigned long answers_seen;

/* The next answer, into a place that held another before. */
static int next_answer(struct kizmoolet_answers *from, struct kizmoolet_answer *answer)
{
    memset(answer, GUARD, sizeof *answer);
    return kizmoolet_next_answer(from, answer);
}

static int all_zero(const struct kizmoolet_answer *answer)
{
    return answer->refusal == 0 && answer->number == 0 && answer->date == 0 && answer->page == NULL && answer->length == 0;
}

static void one_answer(void)
{
    uint32_t refusal = (uint32_t)get_number(), number = (uint32_t)get_number(), date = (uint32_t)get_number();
    uint8_t page[KIZMOOLET_PAGE_BYTES], bytes[KIZMOOLET_PAGE_ANSWER_BYTES];
    size_t cut, page_len = get_area(page, sizeof page), length = get_area(bytes, sizeof bytes);
    struct kizmoolet_answers from = kizmoolet_answers_in(bytes, length);
    struct kizmoolet_answer answer;
    unsigned bit;
    CHECK(length == (page_len != 0 ? KIZMOOLET_PAGE_ANSWER_BYTES : KIZMOOLET_ANSWER_BYTES));
    CHECK(next_answer(&from, &answer) == 1);
    CHECK(answer.refusal == refusal && answer.number == number && answer.length == length && from.at == length);
    CHECK(answer.date == date && (page_len != 0 || date == 0));
    CHECK(page_len != 0 ? answer.page == bytes + KIZMOOLET_ANSWER_BYTES + KIZMOOLET_DATE_BYTES
                && memcmp(answer.page, page, page_len) == 0
                        : answer.page == NULL);
    CHECK(next_answer(&from, &answer) == 0 && from.at == length && all_zero(&answer));
    for (cut = 0; cut < length; cut++) {
        /* An allocation of its own, so that the sanitizers see what is read past it. */
        uint8_t *part = (uint8_t *)malloc(cut != 0 ? cut : 1);
        if (part == NULL)
            fail("no memory");
        memcpy(part, bytes, cut);
        from = kizmoolet_answers_in(part, cut);
        CHECK(next_answer(&from, &answer) == (cut == 0 ? 0 : -1));
        CHECK(from.at == 0 && all_zero(&answer));
        free(part);
    }
    if (all_answers_len + length <= sizeof all_answers) {
        memcpy(all_answers + all_answers_len, bytes, length);
        all_answers_len += length;
        answers_seen++;
    }
    /* Bytes that the library never writes. */
    bytes[0] |= 1;
    from = kizmoolet_answers_in(bytes, length);
    CHECK(next_answer(&from, &answer) == -1 && from.at == 0 && all_zero(&answer));
    for (bit = 0; bit < 64; bit++) {
        uint8_t first = (uint8_t)(bit << 2 | (page_len != 0 ? 2u : 0u));
        int refusal_number = (bit >= 4 && bit <= 10) || (bit >= 15 && bit <= 17);
        int good = bit == 0 || (refusal_number && page_len == 0 && number == 0);
        bytes[0] = first;
        from = kizmoolet_answers_in(bytes, length);
        CHECK(next_answer(&from, &answer) == (good ? 1 : -1) && (good || all_zero(&answer)));
    }
}

static uint8_t place_bytes[KIZMOOLET_PLACE_BYTES * KIZMOOLET_MOST_PLACES + 3];

static void one_place_table(void)
{
    size_t length = get_area(place_bytes, sizeof place_bytes), whole = length / KIZMOOLET_PLACE_BYTES * KIZMOOLET_PLACE_BYTES;
    uint64_t in_use = get_number();
    uint8_t *part = NULL;
    CHECK(kizmoolet_slab_in_use(place_bytes, length) == in_use);
    /* An allocation of the whole rows alone, so that the sanitizers see what is read past them; none where there is no byte. */
    if (length != 0) {
        part = (uint8_t *)malloc(whole != 0 ? whole : 1);
        if (part == NULL)
            fail("no memory");
        memcpy(part, place_bytes, whole);
    }
    CHECK(kizmoolet_slab_in_use(part, length) == in_use);
    free(part);
}

/* The row of a name, and its moment. The areas are allocations of their own, so that the sanitizers see what is read past
   them. */
static void one_name_table(void)
{
    uint8_t head_bytes[KIZMOOLET_HEAD_BYTES], names_bytes[KIZMOOLET_NAMES_BYTES], name_bytes[KIZMOOLET_NAME_BYTES];
    size_t head_len = get_area(head_bytes, sizeof head_bytes), names_len = get_area(names_bytes, sizeof names_bytes);
    size_t name_len = get_area(name_bytes, sizeof name_bytes), row = (size_t)get_number();
    uint8_t *head_part = (uint8_t *)malloc(head_len), *names_part = (uint8_t *)malloc(names_len);
    uint8_t *name_part = (uint8_t *)malloc(name_len);
    if (head_part == NULL || names_part == NULL || name_part == NULL)
        fail("no memory");
    memcpy(head_part, head_bytes, head_len);
    memcpy(names_part, names_bytes, names_len);
    memcpy(name_part, name_bytes, name_len);
    CHECK(kizmoolet_name_count(head_part) == kizmoolet_number_at(head_bytes + 20));
    CHECK(kizmoolet_name_row(head_part, names_part, name_part) == row);
    for (row = 0; row < KIZMOOLET_MOST_NAMES; row++)
        CHECK(kizmoolet_named_moment(names_part, (uint32_t)row) == kizmoolet_number_at(names_bytes + 12 * row + 8));
    free(head_part);
    free(names_part);
    free(name_part);
}

/* Stale pages counted, and made stale. The marks are an allocation of their own, none where there is no mark, so that the
   sanitizers see what is read or written past them. */
static void one_table_of_marks(void)
{
    static uint8_t before[KIZMOOLET_MOST_PAGES], after[KIZMOOLET_MOST_PAGES];
    size_t length = get_area(before, sizeof before), stale = (size_t)get_number();
    size_t same = get_area(after, sizeof after);
    uint8_t *marks = length != 0 ? (uint8_t *)malloc(length) : NULL;
    if (same != length || (length != 0 && marks == NULL))
        fail("no memory, or marks of another number");
    if (length != 0)
        memcpy(marks, before, length);
    CHECK(kizmoolet_stale_pages(marks, length) == stale);
    CHECK(length == 0 || memcmp(marks, before, length) == 0);
    kizmoolet_make_stale(marks, length);
    CHECK(length == 0 || memcmp(marks, after, length) == 0);
    CHECK(kizmoolet_stale_pages(marks, length) == length);
    free(marks);
}

/* Each work order of a list, an allocation of its own. */
static void one_list(void)
{
    static uint8_t bytes[KIZMOOLET_MOST_LIST_BYTES];
    size_t i, length = get_area(bytes, sizeof bytes), count = (size_t)get_number();
    uint8_t *part = (uint8_t *)malloc(length != 0 ? length : 1);
    if (part == NULL)
        fail("no memory");
    memcpy(part, bytes, length);
    CHECK(length == count * KIZMOOLET_ORDER_BYTES);
    for (i = 0; i < count; i++)
        CHECK(kizmoolet_order_at(part, i) == get_number());
    free(part);
}

/* Branch rows of a version before 0.7.0; the areas are allocations of their own, none where there is no row. */
static void some_branch_rows(void)
{
    static uint8_t narrow[12 * KIZMOOLET_MOST_BRANCHES], wide[KIZMOOLET_BRANCH_BYTES * KIZMOOLET_MOST_BRANCHES];
    size_t length = get_area(narrow, sizeof narrow), wide_len = get_area(wide, sizeof wide), count = length / 12;
    uint8_t *from = length != 0 ? (uint8_t *)malloc(length) : NULL, *to = length != 0 ? (uint8_t *)malloc(wide_len) : NULL;
    if (length != 0 && (from == NULL || to == NULL))
        fail("no memory");
    if (length != 0) {
        memcpy(from, narrow, length);
        memset(to, GUARD, wide_len);
    }
    kizmoolet_widen_branches(from, count, to);
    CHECK(wide_len == count * KIZMOOLET_BRANCH_BYTES);
    CHECK(length == 0 || (memcmp(to, wide, wide_len) == 0 && memcmp(from, narrow, length) == 0));
    free(from);
    free(to);
}

static void reference_sizes(void)
{
    CHECK(get_number() == KIZMOOLET_PAGE_BYTES);
    CHECK(get_number() == KIZMOOLET_HEAD_BYTES);
    CHECK(get_number() == KIZMOOLET_BRANCH_BYTES);
    CHECK(get_number() == KIZMOOLET_RECORD_BYTES);
    CHECK(get_number() == KIZMOOLET_PLACE_BYTES);
    CHECK(get_number() == KIZMOOLET_MOST_BRANCHES);
    CHECK(get_number() == KIZMOOLET_MOST_RECORDS);
    CHECK(get_number() == KIZMOOLET_MOST_PLACES);
    CHECK(get_number() == KIZMOOLET_NAME_BYTES);
    CHECK(get_number() == KIZMOOLET_NAME_ROW_BYTES);
    CHECK(get_number() == KIZMOOLET_MOST_NAMES);
    CHECK(get_number() == KIZMOOLET_NAMES_BYTES);
    CHECK(get_number() == KIZMOOLET_NAMED_BYTES);
    CHECK(get_number() == KIZMOOLET_MOST_PAGES);
    CHECK(get_number() == KIZMOOLET_LAST_MOMENT);
    CHECK(get_number() == KIZMOOLET_ANSWER_BYTES);
    CHECK(get_number() == KIZMOOLET_DATE_BYTES);
    CHECK(get_number() == KIZMOOLET_PAGE_ANSWER_BYTES);
    CHECK(get_number() == KIZMOOLET_MARK_CURRENT);
    CHECK(get_number() == KIZMOOLET_MARK_BLANK);
    CHECK(get_number() == KIZMOOLET_AREA_NONE);
    CHECK(get_number() == KIZMOOLET_AREA_DISK);
    CHECK(get_number() == KIZMOOLET_AREA_SLAB);
    CHECK(get_number() == KIZMOOLET_ORDER_BYTES);
    CHECK(get_number() == KIZMOOLET_MOST_ORDER);
    CHECK(get_number() == KIZMOOLET_MOST_LIST_BYTES);
}

static void against_reference(void)
{
    unsigned long requests = 0, answers = 0, place_tables = 0, name_tables = 0, live_disks = 0, lists = 0, widened = 0;
    struct kizmoolet_answers from;
    struct kizmoolet_answer answer;
    all_packed = kizmoolet_requests_in(packed_requests, sizeof packed_requests);
    for (;;) {
        uint8_t tag;
        get(&tag, 1);
        if (tag == 'K') {
            reference_sizes();
        } else if (tag == 'Q') {
            one_request();
            requests++;
        } else if (tag == 'A') {
            one_answer();
            answers++;
        } else if (tag == 'S') {
            one_place_table();
            place_tables++;
        } else if (tag == 'N') {
            one_name_table();
            name_tables++;
        } else if (tag == 'M') {
            one_table_of_marks();
            live_disks++;
        } else if (tag == 'O') {
            one_list();
            lists++;
        } else if (tag == 'W') {
            some_branch_rows();
            widened++;
        } else if (tag == 'Z') {
            break;
        } else {
            fail("no such record");
        }
    }
    CHECK(all_packed.length == all_requests_len && !all_packed.failed);
    CHECK(memcmp(packed_requests, all_requests, all_requests_len) == 0);
    from = kizmoolet_answers_in(all_answers, all_answers_len);
    while (kizmoolet_next_answer(&from, &answer) == 1)
        answers_seen--;
    CHECK(answers_seen == 0 && from.at == all_answers_len);
    CHECK(requests > 14000 && answers > 4000 && place_tables > 20000 && name_tables > 20000 && live_disks > 8000);
    CHECK(lists > 100 && widened > 60);
    printf("  %lu requests, %lu answers, %lu place tables, %lu name tables, marks of %lu live disks, %lu lists of work orders, "
           "%lu tables of branch rows\n",
        requests, answers, place_tables, name_tables, live_disks, lists, widened);
}

/* ---- 2. the pointer to the page of a live read */

/* The largest disk and the largest slab are of one length; the pointers are made, and nothing is read there. */
static void live_pages(void)
{
    size_t length = (size_t)KIZMOOLET_PAGE_BYTES * KIZMOOLET_MOST_PAGES, offset;
    uint8_t *on_disk = (uint8_t *)malloc(length), *in_slab = (uint8_t *)malloc(length);
    uint32_t area;
    if (on_disk == NULL || in_slab == NULL)
        fail("no memory");
    for (offset = 0; offset < length; offset += KIZMOOLET_PAGE_BYTES * 5) {
        CHECK(kizmoolet_live_page(KIZMOOLET_AREA_DISK, offset, on_disk, in_slab) == on_disk + offset);
        CHECK(kizmoolet_live_page(KIZMOOLET_AREA_SLAB, offset, on_disk, in_slab) == in_slab + offset);
        CHECK(kizmoolet_live_page(KIZMOOLET_AREA_NONE, offset, on_disk, in_slab) == NULL);
    }
    for (area = 3; area < 9; area++)
        CHECK(kizmoolet_live_page(area, 0, on_disk, in_slab) == NULL);
    CHECK(kizmoolet_live_page(UINT32_MAX, 0, on_disk, in_slab) == NULL);
    free(on_disk);
    free(in_slab);
}

/* ---- 3. each number by its name */

/* A store of the smallest tables, and some more. */
static uint8_t head[KIZMOOLET_HEAD_BYTES], branches[KIZMOOLET_BRANCH_BYTES * 2], records[KIZMOOLET_RECORD_BYTES * 2];
static uint8_t places[KIZMOOLET_PLACE_BYTES * 3], names[KIZMOOLET_NAMES_BYTES], slab[KIZMOOLET_PAGE_BYTES * 3];
static uint8_t disk[KIZMOOLET_PAGE_BYTES * 7], marks[7]; /* room for one page more than the six that a store has */
static size_t branch_rows, record_rows, place_rows, disk_len, marks_len;
static uint8_t batch[ROOM], answers_area[ROOM];
static struct kizmoolet_requests list;
static struct kizmoolet_answers answers;
static uint64_t answered, request_bytes, answer_bytes, rows_read;
static const uint8_t letters[KIZMOOLET_PAGE_BYTES] = { 'A' };

static void put_number(uint8_t *to, uint32_t number)
{
    to[0] = (uint8_t)(number >> 24);
    to[1] = (uint8_t)(number >> 16);
    to[2] = (uint8_t)(number >> 8);
    to[3] = (uint8_t)number;
}

static void fresh(size_t branch_count, size_t record_count, size_t place_count)
{
    branch_rows = branch_count;
    record_rows = record_count;
    place_rows = place_count;
    CHECK(kizmoolet_fresh(6, head, sizeof head, branches, KIZMOOLET_BRANCH_BYTES * branch_rows, records,
              KIZMOOLET_RECORD_BYTES * record_rows, places, KIZMOOLET_PLACE_BYTES * place_rows, names, sizeof names, slab,
              KIZMOOLET_PAGE_BYTES * place_rows)
        == KIZMOOLET_OK);
    list = kizmoolet_requests_in(batch, sizeof batch);
    disk_len = KIZMOOLET_PAGE_BYTES * 6;
    marks_len = 6;
    kizmoolet_make_stale(marks, sizeof marks);
}

/* Sends the list, and begins a new one. */
static uint32_t send_to(size_t room)
{
    uint32_t stop;
    CHECK(!list.failed);
    answered = request_bytes = answer_bytes = rows_read = UINT64_MAX; /* each is written */
    stop = kizmoolet_batch(head, sizeof head, branches, KIZMOOLET_BRANCH_BYTES * branch_rows, records,
        KIZMOOLET_RECORD_BYTES * record_rows, places, KIZMOOLET_PLACE_BYTES * place_rows, names, sizeof names, slab,
        KIZMOOLET_PAGE_BYTES * place_rows, disk, disk_len, marks, marks_len, batch, list.length, answers_area, room, &answered,
        &request_bytes, &answer_bytes, &rows_read);
    CHECK(answered <= list.length && request_bytes <= list.length && answer_bytes <= room && rows_read <= record_rows);
    list = kizmoolet_requests_in(batch, sizeof batch);
    answers = kizmoolet_answers_in(answers_area, (size_t)answer_bytes);
    return stop;
}

static uint32_t send_list(void)
{
    return send_to(sizeof answers_area);
}

/* The refusal of the next answer. */
static uint32_t refused(void)
{
    struct kizmoolet_answer answer;
    CHECK(kizmoolet_next_answer(&answers, &answer) == 1);
    return answer.refusal;
}

/* A page written at a moment and read at this one or a later: its date lies between number and page, and its answer fits into
   so many bytes as the header says and into no fewer. */
static void dated(uint32_t written, uint32_t asked)
{
    struct kizmoolet_answer answer;
    fresh(1, 1, 1);
    put_number(head + KIZMOOLET_HEAD_NOW_AT, written);
    kizmoolet_add_write(&list, 5, letters);
    CHECK(send_list() == KIZMOOLET_OK && refused() == KIZMOOLET_OK);
    put_number(head + KIZMOOLET_HEAD_NOW_AT, asked);
    kizmoolet_add_read(&list, 5, asked);
    CHECK(send_to(KIZMOOLET_PAGE_ANSWER_BYTES - 1) == KIZMOOLET_ANSWERS_FULL && answered == 0 && answer_bytes == 0);
    kizmoolet_add_read(&list, 5, asked);
    CHECK(send_to(KIZMOOLET_PAGE_ANSWER_BYTES) == KIZMOOLET_OK && answer_bytes == KIZMOOLET_PAGE_ANSWER_BYTES);
    CHECK(kizmoolet_number_at(answers_area + KIZMOOLET_ANSWER_BYTES) == written);
    CHECK(memcmp(answers_area + KIZMOOLET_ANSWER_BYTES + KIZMOOLET_DATE_BYTES, letters, sizeof letters) == 0);
    CHECK(kizmoolet_next_answer(&answers, &answer) == 1 && answer.number == asked && answer.date == written);
}

/* Names given, found in the table, used below the floor, and withdrawn; and their refusals. */
static void named(void)
{
    static const uint8_t built[] = "as built", later[] = "as later";
    struct kizmoolet_answer answer;
    uint8_t other[KIZMOOLET_NAME_BYTES] = { 0 };
    uint32_t i;
    fresh(2, 2, 2);
    kizmoolet_add_write(&list, 5, letters);
    kizmoolet_add_mark(&list);
    kizmoolet_add_mark(&list);
    kizmoolet_add_name(&list, 1, later);
    kizmoolet_add_name(&list, 0, built);
    kizmoolet_add_name(&list, 1, built);
    kizmoolet_add_name(&list, 2, other);
    kizmoolet_add_reclaim(&list, 2);
    kizmoolet_add_read(&list, 5, 0);
    kizmoolet_add_withdraw(&list, later);
    kizmoolet_add_withdraw(&list, later);
    kizmoolet_add_read(&list, 5, 1);
    CHECK(send_list() == KIZMOOLET_OK && answered == 12);
    for (i = 0; i < 3; i++)
        CHECK(refused() == KIZMOOLET_OK);
    CHECK(kizmoolet_next_answer(&answers, &answer) == 1 && answer.refusal == KIZMOOLET_OK && answer.number == 1);
    CHECK(kizmoolet_next_answer(&answers, &answer) == 1 && answer.refusal == KIZMOOLET_OK && answer.number == 0);
    CHECK(refused() == KIZMOOLET_NAME_IN_USE && refused() == KIZMOOLET_MOMENT_TOO_LATE && refused() == KIZMOOLET_OK);
    CHECK(kizmoolet_next_answer(&answers, &answer) == 1 && answer.number == 0 && answer.page != NULL);
    CHECK(kizmoolet_next_answer(&answers, &answer) == 1 && answer.refusal == KIZMOOLET_OK && answer.number == 1);
    CHECK(refused() == KIZMOOLET_NO_SUCH_NAME && refused() == KIZMOOLET_MOMENT_TOO_EARLY);
    CHECK(kizmoolet_name_count(head) == 1 && kizmoolet_number_at(head + KIZMOOLET_HEAD_NAMES_AT) == 1);
    CHECK(kizmoolet_name_row(head, names, built) == 0 && kizmoolet_named_moment(names, 0) == 0);
    CHECK(kizmoolet_name_row(head, names, later) == 1 && kizmoolet_name_row(head, names, other) == 1);
    kizmoolet_add_revert(&list, 0, 1);
    for (i = 1; i < KIZMOOLET_MOST_NAMES; i++) {
        other[0] = (uint8_t)i;
        kizmoolet_add_name(&list, i % 3, other);
    }
    CHECK(send_list() == KIZMOOLET_OK && refused() == KIZMOOLET_OK && answered == KIZMOOLET_MOST_NAMES);
    /* Moment 1 has no name any more. */
    for (i = 1; i < KIZMOOLET_MOST_NAMES; i++)
        CHECK(refused() == (i % 3 == 1 ? KIZMOOLET_MOMENT_TOO_EARLY : KIZMOOLET_OK));
    for (i = kizmoolet_name_count(head); i < KIZMOOLET_MOST_NAMES; i++) {
        other[1] = (uint8_t)i;
        kizmoolet_add_name(&list, 2, other);
    }
    kizmoolet_add_name(&list, 2, later);
    kizmoolet_add_name(&list, 2, other);
    CHECK(send_list() == KIZMOOLET_OK && kizmoolet_name_count(head) == KIZMOOLET_MOST_NAMES);
    while (answers.at + 2 * KIZMOOLET_ANSWER_BYTES < answers.length)
        CHECK(refused() == KIZMOOLET_OK);
    CHECK(refused() == KIZMOOLET_NAMES_FULL && refused() == KIZMOOLET_NAME_IN_USE);
    CHECK(kizmoolet_name_row(head, names, other) == 31 && kizmoolet_named_moment(names, 31) == 2);
    CHECK(kizmoolet_name_row(head, names, later) == 32);

    put_number(head + KIZMOOLET_HEAD_NAMES_AT, 33);
    CHECK(send_list() == KIZMOOLET_OUT_OF_RANGE);
    put_number(head + KIZMOOLET_HEAD_NAMES_AT, 32);
    CHECK(send_list() == KIZMOOLET_OK);
    memcpy(names + KIZMOOLET_NAME_ROW_BYTES, other, sizeof other);
    CHECK(send_list() == KIZMOOLET_BRANCHES_UNSOUND);
    fresh(1, 1, 1);
    kizmoolet_add_name(&list, 0, built);
    list.length--;
    CHECK(send_list() == KIZMOOLET_CUT_SHORT);
    kizmoolet_add_named(&list, KIZMOOLET_WITHDRAW, 1, built);
    CHECK(send_list() == KIZMOOLET_SPARE_BITS);
}

/* How many record rows the table checks read: the count before the batch; with 3 up to the first row that breaks a rule, or all
   where only the number of places in use is wrong; none with 1 and 2. */
static void rows(void)
{
    fresh(2, 2, 3);
    kizmoolet_add_write(&list, 4, letters);
    kizmoolet_add_write(&list, 5, letters);
    CHECK(send_list() == KIZMOOLET_OK && answered == 2 && rows_read == 0);
    kizmoolet_add_mark(&list);
    CHECK(send_to(KIZMOOLET_ANSWER_BYTES - 1) == KIZMOOLET_ANSWERS_FULL && rows_read == 2);
    put_number(places + 2 * KIZMOOLET_PLACE_BYTES, 1);
    CHECK(send_list() == KIZMOOLET_RECORDS_UNSOUND && rows_read == 2);
    put_number(places + KIZMOOLET_PLACE_BYTES, 0);
    CHECK(send_list() == KIZMOOLET_RECORDS_UNSOUND && rows_read == 2);
    put_number(records, 6);
    CHECK(send_list() == KIZMOOLET_RECORDS_UNSOUND && rows_read == 1);
    put_number(branches + 8, 1);
    CHECK(send_list() == KIZMOOLET_BRANCHES_UNSOUND && rows_read == 0);
    put_number(head + KIZMOOLET_HEAD_FLOOR_AT, 1);
    CHECK(send_list() == KIZMOOLET_OUT_OF_RANGE && rows_read == 0);
}

/* What a live read or a copying step tells, each number other before the call. */
static uint32_t area;
static uint64_t offset, copied;

static uint32_t live_read(uint32_t address)
{
    area = UINT32_MAX;
    offset = UINT64_MAX;
    return kizmoolet_live_read(head, sizeof head, branches, KIZMOOLET_BRANCH_BYTES * branch_rows, records,
        KIZMOOLET_RECORD_BYTES * record_rows, places, KIZMOOLET_PLACE_BYTES * place_rows, names, sizeof names, slab,
        KIZMOOLET_PAGE_BYTES * place_rows, disk, disk_len, marks, marks_len, address, &area, &offset);
}

static uint32_t copy_step(uint32_t budget)
{
    copied = UINT64_MAX;
    return kizmoolet_copy_step(head, sizeof head, branches, KIZMOOLET_BRANCH_BYTES * branch_rows, records,
        KIZMOOLET_RECORD_BYTES * record_rows, places, KIZMOOLET_PLACE_BYTES * place_rows, names, sizeof names, slab,
        KIZMOOLET_PAGE_BYTES * place_rows, disk, disk_len, marks, marks_len, budget, &copied);
}

/* The page of a live read of this address lies here; there is none where the pointer is null. */
static int lies_at(uint32_t address, const uint8_t *page)
{
    return live_read(address) == KIZMOOLET_OK && kizmoolet_live_page(area, offset, disk, slab) == page
        && (page != NULL || (area == KIZMOOLET_AREA_NONE && offset == 0));
}

/* Every call is refused with this number and tells nothing. */
static int all_refused(uint32_t number, uint64_t rows)
{
    kizmoolet_add_mark(&list);
    return send_list() == number && answered == 0 && request_bytes == 0 && answer_bytes == 0 && rows_read == rows
        && live_read(6) == number && area == KIZMOOLET_AREA_NONE && offset == 0 && copy_step(6) == number && copied == 0;
}

/* A page written, set back, copied; blank pages; refusals 4 and 18, which comes after 3. */
static void live(void)
{
    const uint8_t current = KIZMOOLET_MARK_CURRENT, blank = KIZMOOLET_MARK_BLANK;
    fresh(2, 2, 3);
    CHECK(kizmoolet_stale_pages(marks, marks_len) == 6 && lies_at(5, NULL));
    kizmoolet_add_write(&list, 5, letters);
    CHECK(send_list() == KIZMOOLET_OK && marks[5] == current && lies_at(5, disk + 5 * KIZMOOLET_PAGE_BYTES));
    CHECK(memcmp(disk + 5 * KIZMOOLET_PAGE_BYTES, letters, sizeof letters) == 0);
    CHECK(copy_step(2) == KIZMOOLET_OK && copied == 2 && marks[0] == (current | blank) && marks[1] == (current | blank));
    CHECK(kizmoolet_stale_pages(marks, marks_len) == 3 && lies_at(0, NULL) && lies_at(2, NULL));
    kizmoolet_add_mark(&list);
    kizmoolet_add_revert(&list, 0, 2);
    CHECK(send_list() == KIZMOOLET_OK && kizmoolet_stale_pages(marks, marks_len) == 6 && marks[0] == blank && marks[5] == 0);
    CHECK(lies_at(5, slab) && area == KIZMOOLET_AREA_SLAB && lies_at(0, NULL));
    CHECK(copy_step(0) == KIZMOOLET_OK && copied == 0);
    CHECK(copy_step(UINT32_MAX) == KIZMOOLET_OK && copied == 6 && kizmoolet_stale_pages(marks, marks_len) == 0);
    CHECK(lies_at(5, disk + 5 * KIZMOOLET_PAGE_BYTES) && area == KIZMOOLET_AREA_DISK && marks[5] == current);
    CHECK(live_read(6) == KIZMOOLET_ADDRESS_TOO_HIGH && area == KIZMOOLET_AREA_NONE && offset == 0);
    CHECK(live_read(65536 + 5) == KIZMOOLET_ADDRESS_TOO_HIGH && area == KIZMOOLET_AREA_NONE && offset == 0);

    disk_len = KIZMOOLET_PAGE_BYTES * 7;
    CHECK(all_refused(KIZMOOLET_DISK_UNFIT, 1));
    disk_len = KIZMOOLET_PAGE_BYTES * 6 - 1;
    CHECK(all_refused(KIZMOOLET_DISK_UNFIT, 1));
    disk_len = KIZMOOLET_PAGE_BYTES * 6;
    marks_len = 7;
    CHECK(all_refused(KIZMOOLET_DISK_UNFIT, 1));
    marks_len = 5;
    CHECK(all_refused(KIZMOOLET_DISK_UNFIT, 1));
    marks_len = 6;
    marks[5] = 4;
    CHECK(all_refused(KIZMOOLET_DISK_UNFIT, 1));
    put_number(places + KIZMOOLET_PLACE_BYTES, 1);
    CHECK(all_refused(KIZMOOLET_RECORDS_UNSOUND, 1));
    put_number(branches + 8, 1);
    CHECK(all_refused(KIZMOOLET_BRANCHES_UNSOUND, 0));
    put_number(head + KIZMOOLET_HEAD_PAGES_AT, 0);
    CHECK(all_refused(KIZMOOLET_OUT_OF_RANGE, 0));
}

static void by_name(void)
{
    struct kizmoolet_answer answer;
    CHECK(kizmoolet_fresh(0, head, sizeof head, branches, sizeof branches, records, sizeof records, places, sizeof places,
              names, sizeof names, slab, sizeof slab)
        == KIZMOOLET_OUT_OF_RANGE);
    CHECK(kizmoolet_fresh(KIZMOOLET_MOST_PAGES + 1, head, sizeof head, branches, sizeof branches, records, sizeof records,
              places, sizeof places, names, sizeof names, slab, sizeof slab)
        == KIZMOOLET_OUT_OF_RANGE);
    CHECK(kizmoolet_fresh(6, head, sizeof head, branches, sizeof branches, records, sizeof records, places, sizeof places,
              names, sizeof names - KIZMOOLET_NAME_ROW_BYTES, slab, sizeof slab)
        == KIZMOOLET_OUT_OF_RANGE);

    fresh(2, 2, 2);
    kizmoolet_add_write(&list, 5, letters);
    kizmoolet_add_mark(&list);
    kizmoolet_add_revert(&list, 0, 3);
    kizmoolet_add_read(&list, 5, 2);
    kizmoolet_add_read(&list, 4, 2);
    kizmoolet_add_reclaim(&list, 1);
    CHECK(send_list() == KIZMOOLET_OK && answered == 6 && answer_bytes == 5 * 5 + KIZMOOLET_PAGE_ANSWER_BYTES);
    CHECK(kizmoolet_next_answer(&answers, &answer) == 1 && answer.refusal == KIZMOOLET_OK && answer.number == 0);
    CHECK(kizmoolet_next_answer(&answers, &answer) == 1 && answer.number == 0);
    CHECK(kizmoolet_next_answer(&answers, &answer) == 1 && answer.number == 1);
    CHECK(kizmoolet_next_answer(&answers, &answer) == 1 && answer.number == 2 && answer.date == 0 && answer.page != NULL
        && memcmp(answer.page, letters, sizeof letters) == 0);
    CHECK(kizmoolet_next_answer(&answers, &answer) == 1 && answer.number == 2 && answer.date == 0 && answer.page == NULL);
    CHECK(kizmoolet_next_answer(&answers, &answer) == 1 && answer.number == 0);
    CHECK(kizmoolet_next_answer(&answers, &answer) == 0);
    CHECK(kizmoolet_now(head) == 2 && kizmoolet_floor(head) == 1);
    CHECK(kizmoolet_number_at(head + KIZMOOLET_HEAD_PAGES_AT) == 6);
    CHECK(kizmoolet_number_at(head + KIZMOOLET_HEAD_BRANCHES_AT) == 2);
    CHECK(kizmoolet_number_at(head + KIZMOOLET_HEAD_RECORDS_AT) == 1);
    kizmoolet_add_revert(&list, 0, 4);
    CHECK(send_list() == KIZMOOLET_OK && refused() == KIZMOOLET_MOMENT_TOO_EARLY);
    dated(0, 1);
    dated(0x01020304, 0x01020305);
    dated(0xFEDCBA98, KIZMOOLET_LAST_MOMENT);
    dated(KIZMOOLET_LAST_MOMENT, KIZMOOLET_LAST_MOMENT);

    fresh(1, 1, 1);
    put_number(head + KIZMOOLET_HEAD_FLOOR_AT, 1);
    CHECK(send_list() == KIZMOOLET_OUT_OF_RANGE);
    fresh(1, 1, 1);
    put_number(branches + 8, 1);
    CHECK(send_list() == KIZMOOLET_BRANCHES_UNSOUND);
    fresh(1, 1, 1);
    put_number(places, 1);
    CHECK(send_list() == KIZMOOLET_RECORDS_UNSOUND && answered == 0 && request_bytes == 0 && answer_bytes == 0);

    fresh(1, 1, 2);
    kizmoolet_add_read(&list, 6, 0);
    kizmoolet_add_write(&list, 0, letters);
    kizmoolet_add_write(&list, 1, letters);
    CHECK(send_list() == KIZMOOLET_OK);
    CHECK(refused() == KIZMOOLET_ADDRESS_TOO_HIGH && refused() == KIZMOOLET_OK && refused() == KIZMOOLET_RECORDS_FULL);
    fresh(1, 2, 1);
    kizmoolet_add_write(&list, 0, letters);
    kizmoolet_add_write(&list, 1, letters);
    CHECK(send_list() == KIZMOOLET_OK && refused() == KIZMOOLET_OK && refused() == KIZMOOLET_PLACES_FULL);
    fresh(1, 1, 1);
    kizmoolet_add_mark(&list);
    kizmoolet_add_revert(&list, 0, 0);
    kizmoolet_add_read(&list, 0, 2);
    CHECK(send_list() == KIZMOOLET_OK && refused() == KIZMOOLET_OK);
    CHECK(refused() == KIZMOOLET_BRANCHES_FULL && refused() == KIZMOOLET_MOMENT_TOO_LATE);
    fresh(2, 1, 1);
    put_number(head + KIZMOOLET_HEAD_NOW_AT, KIZMOOLET_LAST_MOMENT);
    kizmoolet_add_mark(&list);
    CHECK(send_list() == KIZMOOLET_OK && refused() == KIZMOOLET_MOMENTS_USED_UP);

    fresh(1, 1, 1);
    kizmoolet_add_mark(&list);
    list.length--;
    CHECK(send_list() == KIZMOOLET_CUT_SHORT);
    kizmoolet_pack(batch, 0, 0, 0);
    list.length = KIZMOOLET_REQUEST_BYTES;
    CHECK(send_list() == KIZMOOLET_NO_OPERATION);
    kizmoolet_pack(batch, KIZMOOLET_MARK, 1, 0);
    list.length = KIZMOOLET_REQUEST_BYTES;
    CHECK(send_list() == KIZMOOLET_SPARE_BITS);
    kizmoolet_add_mark(&list);
    CHECK(send_to(KIZMOOLET_ANSWER_BYTES - 1) == KIZMOOLET_ANSWERS_FULL && answered == 0);

    /* An address that has no place in a request is not cut down to one that has. */
    kizmoolet_add_mark(&list);
    CHECK(kizmoolet_add_write(&list, 65536, letters) == 0 && list.failed && list.length == KIZMOOLET_REQUEST_BYTES);
    list = kizmoolet_requests_in(batch, sizeof batch);
    CHECK(kizmoolet_add_read(&list, 65536 + 5, 0) == 0 && list.failed && list.length == 0);
    CHECK(kizmoolet_add_reclaim(&list, 0) == 0 && list.length == 0);
    /* Nor is a work order. */
    list = kizmoolet_requests_in(batch, sizeof batch);
    batch[0] = GUARD;
    CHECK(kizmoolet_add_revert(&list, 0, KIZMOOLET_MOST_ORDER + 1) == 0 && list.failed && list.length == 0 && batch[0] == GUARD);
    CHECK(kizmoolet_add_mark(&list) == 0 && list.length == 0);
    list = kizmoolet_requests_in(batch, sizeof batch);
    CHECK(kizmoolet_add_revert(&list, 0, UINT32_MAX) == 0 && list.failed && list.length == 0);
    list = kizmoolet_requests_in(batch, sizeof batch);
    CHECK(kizmoolet_add_revert(&list, 0, KIZMOOLET_MOST_ORDER) == 1 && !list.failed && list.length == KIZMOOLET_REQUEST_BYTES);
}

static uint8_t orders[8];
static uint64_t count;

/* A listing; the count holds another number before the call, the list guards. */
static uint32_t work_orders(uint32_t moment, size_t space)
{
    memset(orders, GUARD, sizeof orders);
    count = UINT64_MAX;
    return kizmoolet_work_orders(head, sizeof head, branches, KIZMOOLET_BRANCH_BYTES * branch_rows, records,
        KIZMOOLET_RECORD_BYTES * record_rows, places, KIZMOOLET_PLACE_BYTES * place_rows, names, sizeof names, slab,
        KIZMOOLET_PAGE_BYTES * place_rows, moment, orders, space, &count);
}

/* The listing is refused with this number, and writes nothing but the count. */
static int not_listed(uint32_t moment, size_t space, uint32_t number)
{
    return work_orders(moment, space) == number && count == 0 && all_guard(orders, sizeof orders);
}

/* Work orders by the names of the header; and a store with branch rows of 12 bytes, as a version before 0.7.0 left them. */
static void listed(void)
{
    static const uint8_t built[] = "as built";
    uint8_t narrow[24], before[sizeof branches];
    size_t row;
    fresh(2, 2, 2);
    CHECK(work_orders(0, 2) == KIZMOOLET_OK && count == 1 && kizmoolet_order_at(orders, 0) == 0);
    CHECK(all_guard(orders + 2, sizeof orders - 2));
    kizmoolet_add_mark(&list);
    kizmoolet_add_name(&list, 0, built);
    kizmoolet_add_revert(&list, 0, 0x1234);
    kizmoolet_add_revert(&list, 1, KIZMOOLET_MOST_ORDER);
    CHECK(send_list() == KIZMOOLET_OK && answered == 4);
    CHECK(refused() == KIZMOOLET_OK && refused() == KIZMOOLET_OK && refused() == KIZMOOLET_OK);
    CHECK(refused() == KIZMOOLET_BRANCHES_FULL);
    CHECK(work_orders(2, sizeof orders) == KIZMOOLET_OK && count == 2 && all_guard(orders + 4, sizeof orders - 4));
    CHECK(kizmoolet_order_at(orders, 0) == 0x1234 && orders[0] == 0x12 && orders[1] == 0x34 && kizmoolet_order_at(orders, 1) == 0);
    CHECK(work_orders(2, 2 * KIZMOOLET_ORDER_BYTES) == KIZMOOLET_OK && count == 2);
    CHECK(not_listed(2, 2 * KIZMOOLET_ORDER_BYTES - 1, KIZMOOLET_ANSWERS_FULL) && not_listed(2, 0, KIZMOOLET_ANSWERS_FULL));
    CHECK(not_listed(3, 0, KIZMOOLET_MOMENT_TOO_LATE) && not_listed(KIZMOOLET_LAST_MOMENT, 8, KIZMOOLET_MOMENT_TOO_LATE));
    kizmoolet_add_reclaim(&list, 2);
    CHECK(send_list() == KIZMOOLET_OK && refused() == KIZMOOLET_OK);
    CHECK(not_listed(1, 0, KIZMOOLET_MOMENT_TOO_EARLY) && not_listed(1, 8, KIZMOOLET_MOMENT_TOO_EARLY));
    CHECK(work_orders(0, 8) == KIZMOOLET_OK && count == 1 && kizmoolet_order_at(orders, 0) == 0);

    put_number(branches + KIZMOOLET_BRANCH_BYTES + 12, KIZMOOLET_MOST_ORDER);
    CHECK(send_list() == KIZMOOLET_OK && work_orders(2, 4) == KIZMOOLET_OK);
    CHECK(kizmoolet_order_at(orders, 0) == KIZMOOLET_MOST_ORDER);
    put_number(branches + KIZMOOLET_BRANCH_BYTES + 12, KIZMOOLET_MOST_ORDER + 1);
    CHECK(send_list() == KIZMOOLET_BRANCHES_UNSOUND && not_listed(2, 4, KIZMOOLET_BRANCHES_UNSOUND));
    put_number(branches + KIZMOOLET_BRANCH_BYTES + 12, 0);
    memcpy(before, branches, sizeof before);
    for (row = 0; row < 2; row++)
        memcpy(narrow + 12 * row, branches + KIZMOOLET_BRANCH_BYTES * row, 12);
    memset(branches, GUARD, sizeof branches);
    kizmoolet_widen_branches(narrow, 2, branches);
    CHECK(memcmp(before, branches, sizeof before) == 0);
    CHECK(send_list() == KIZMOOLET_OK && work_orders(2, 4) == KIZMOOLET_OK && count == 2 && kizmoolet_order_at(orders, 0) == 0);
    put_number(branches + 12, 1);
    CHECK(send_list() == KIZMOOLET_BRANCHES_UNSOUND && not_listed(2, 4, KIZMOOLET_BRANCHES_UNSOUND));
    put_number(branches + 12, 0);
    put_number(places, 1);
    CHECK(not_listed(2, 4, KIZMOOLET_RECORDS_UNSOUND));
    put_number(head + KIZMOOLET_HEAD_PAGES_AT, 0);
    CHECK(not_listed(2, 4, KIZMOOLET_OUT_OF_RANGE));
}

int main(void)
{
    char version[32];
    sprintf(version, "%d.%d.%d", KIZMOOLET_VERSION_MAJOR, KIZMOOLET_VERSION_MINOR, KIZMOOLET_VERSION_PATCH);
    CHECK(strcmp(version, KIZMOOLET_VERSION) == 0);
    CHECK(KIZMOOLET_WRITE_BYTES == KIZMOOLET_REQUEST_BYTES + KIZMOOLET_PAGE_BYTES);
    CHECK(KIZMOOLET_PAGE_ANSWER_BYTES == KIZMOOLET_ANSWER_BYTES + KIZMOOLET_DATE_BYTES + KIZMOOLET_PAGE_BYTES);
    CHECK(KIZMOOLET_NAMED_BYTES == KIZMOOLET_REQUEST_BYTES + KIZMOOLET_NAME_BYTES);
    CHECK(KIZMOOLET_NAMES_BYTES == KIZMOOLET_MOST_NAMES * KIZMOOLET_NAME_ROW_BYTES);
    CHECK(KIZMOOLET_MOST_LIST_BYTES == KIZMOOLET_MOST_BRANCHES * KIZMOOLET_ORDER_BYTES);
    against_reference();
    live_pages();
    by_name();
    named();
    rows();
    live();
    listed();
    printf("  %lu checks, %lu wrong\n", checks, wrong);
    return wrong == 0 ? 0 : 1;
}
