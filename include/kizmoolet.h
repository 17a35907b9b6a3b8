/*
 * Kizmoolet: the page history of a volume, in areas that the caller lends.
 *
 * A volume is 1 to 65,536 pages of 256 bytes. A store keeps every sealed state of it: moments are numbered from 0, the
 * present one, now, is open, and a write goes there. All memory is the caller's; a call keeps nothing from one to the next,
 * allocates nothing, opens nothing, and always returns.
 *
 * What the five functions do, for all lengths and all bytes, is proved: crates/kizmoolet in the repository. That holds for callers
 * who keep the duties below.
 *
 *
 * THE CALLER'S DUTIES
 *
 * 1. Each pointer and the length behind it name an area of that many bytes that may be read; areas passed without const, and
 *    the numbers that are told through a pointer, may also be written. A null pointer only with length 0, and never for a number.
 * 2. No two areas overlap, no area overlaps a number, and no two numbers overlap.
 * 3. Nobody else writes to the areas during a call, or reads those that it may change. Calls on different stores may run at
 *    the same time.
 * 4. KIZMOOLET_STACK_BYTES of stack are free: the tables' numbers stand there during the call. The usual 8 MB of a main
 *    thread are enough; a thread with a small stack is not.
 * 5. Head, tables and slab belong to the caller, who keeps them between calls as the last call left them, and passes the same
 *    six areas, with the same lengths, to the next. A copy of the six areas is a copy of the store; of the slab it needs the
 *    pages in use alone (below, PAGES PACKED TOWARDS THE FRONT).
 * 6. Live disk and marks, too, are kept as the last call left them. After kizmoolet_fresh, which leaves them alone, and whenever
 *    somebody else wrote to disk, marks or store, the caller makes every page stale before the next call (kizmoolet_make_stale of
 *    kizmoolet_requests.h); where the new volume has another size, disk and marks get its size. A copy of a store has a live disk
 *    of its own, which begins with every page stale.
 *
 * No other duty: wrong lengths and unsound contents are refused (1, 2, 3, 18). A call that is refused so writes to no area; the
 * four counts of kizmoolet_batch are written, three of them with zeros, the fourth as is said below (HOW FAR THE TABLE CHECK CAME),
 * and what the other functions tell is zero.
 *
 *
 * WHAT IT NEEDS
 *
 * An x86-64 processor. From outside the archive needs one symbol, memset, which any C library has.
 *
 *
 * WHAT A CALL COSTS
 *
 * Each call of kizmoolet_batch decodes head and tables, all rows lent, and checks them before it looks at the first request;
 * unless it is refused, it encodes all rows lent again after the last. The check goes through the counted record rows once, for
 * order and places together, as far as the first row that breaks a rule, and counts the place rows in use. An empty batch costs
 * this too, and a host that sends its requests together pays it once. Of the slab only those pages are touched that a request
 * writes or finds. Measured for an empty batch on archives of an older kit, as all times here, over all runs on one machine
 * (docs/BENCHMARKS.md, "A call by itself" and "The table check"): on the largest tables with all rows in use 0.28 to 0.69 ms,
 * and up to 2.8 ms where as many moments as can be are missing between the branches below the floor; on a fresh store of that
 * size 0.20 to 0.24 ms; on small tables 14 to 16 us, about what it takes to clear the 1.1 MB of stack.
 *
 * A live read and a copying step decode and check just so, the marks too, and encode nothing. A step looks up and copies each page
 * that it brings to date, and passes over the marks before; a lookup passes up the branches to the one that has the page, or, where
 * there is none, to the first. With a live disk a write makes one copy more, and a revert one pass over the marks. Measured on a
 * volume of 65,536 pages (docs/BENCHMARKS.md, "The live disk"): a live read 0.20 to 0.24 ms; all pages copied by one step 5 to 6 ms
 * where pages are found at once, 0.21 s where each lookup passes some 2,000 branches; by steps of 64 pages 0.21 to 0.50 s.
 *
 * A list of work orders decodes and checks just so, but for live disk and marks, passes over the counted branch rows twice, and
 * encodes nothing. Measured on the largest tables with all rows in use (docs/BENCHMARKS.md, "Work orders"): 0.20 to 0.21 ms, for 2
 * work orders as for 4,096.
 *
 *
 * THE SIX AREAS OF A STORE
 *
 * Every number of head and tables is four bytes, most significant first.
 *
 *   head      24 bytes: volume size A (1 to 65,536), branch count, record count, now, floor, name count (0 to 32). A batch
 *             brings it up to date. Moments from the floor to now can be read, and moments that have a name.
 *   branches  16 bytes a row, 1 to 4,096 rows: start, end, cut, work order. Start and end are the first and last moment of the
 *             branch (the end of the open one is 4,294,967,295), the cut is the moment reverted to, or an earlier one, where a
 *             reclaim dropped the branch of that moment. The work order is that of the revert, at most 65,535; the first row has 0.
 *   records   12 bytes a row, 1 to 65,536 rows: address, moment, place. Ascending by address, then moment.
 *   places    4 bytes a row, 1 to 65,536 rows: 0 is free, k means that record row k - 1 (counted from 0) uses the place.
 *   names     384 bytes, 32 rows of 12: the 8 bytes of a name, then the moment that it stands for. In the order given.
 *   slab      256 bytes for each place, no more and no fewer: the pages.
 *
 * The rows lent are the length of a table; the head's counts say how many of them are in use. A record is needed for each
 * page written at each moment, and a branch for each revert, until a reclaim frees them.
 *
 *
 * THE LIVE DISK
 *
 * The disk that the relays read, as it is at now, lent beside the store:
 *
 *   disk      256 bytes for each address, A pages.
 *   marks     a byte for each address: 1 if the page is current, plus 2 if it is blank, that is, if the address has no page.
 *
 * A write goes to both: the page's bytes to the disk, and its mark becomes 1. A revert makes every page stale (marks 0 and 2) and
 * leaves the disk's bytes and the blank marks. Other requests, and refused ones, touch neither. kizmoolet_copy_step brings up to
 * `budget` stale pages to date, lowest address first: one that a read at now finds is copied to the disk, mark 1; where it finds
 * none, the mark becomes 3 and the bytes stay. With a budget of n, A divided by n, rounded up, steps leave no page stale, if no
 * revert comes between; batches without one may. kizmoolet_live_read tells where the page of an address lies at once, without
 * waiting: on the disk if it is current, else in the slab. If every page began stale and duty 6 is kept, that is the page that a
 * read at now gives. A stale page's blank mark says nothing.
 *
 *
 * HOW FAR THE TABLE CHECK CAME
 *
 * The fourth count of kizmoolet_batch, rows_read, says how many record rows the table check read, from the first on:
 *
 *   with 1 and 2    0: the record rows were not looked at;
 *   with 3          n: record row n - 1, counted from 0, is the first that breaks a rule, by itself (its address, its moment, its
 *                   place, or the place row, which does not name it) or against the row before (the order). It lies in the 12
 *                   bytes from 12 (n - 1) on of the record table. Where n is the record count, it may also be that no row breaks a
 *                   rule and only the number of places in use is wrong; where n is 0, it is that;
 *   with all else   the record count of the head as it was lent, with 18 too: all counted rows were read, and none breaks a rule.
 *
 *
 * WHAT A RECLAIM LEAVES
 *
 * Of the records those that a read from the new floor to now, or at a named moment, gives. Of the branches the first one, those
 * that end at the new floor or above, those that hold a named moment, and those that hold a record that stays. No other row is
 * counted right after an accepted reclaim. Where a branch goes, each branch whose cut lies in it takes over its cut, again and
 * again until that lies in a branch that stays. Starts, ends and work orders do not change, nor does any page that can be read.
 * So a host that reverts every week into the branch of the week before needs, besides the rows of the weeks since the floor, no
 * more than one for each record kept and for each name, and the first. A host whose revert is refused (7) reclaims, and reverts
 * again, or goes on with a copy over more rows. After a withdrawal, or in a store that a version before 0.4.0 has reclaimed, also a
 * reclaim to the floor as it is may drop branches; that gives up no moment.
 *
 *
 * PAGES PACKED TOWARDS THE FRONT
 *
 * A write that needs a place takes the free one with the smallest number, as the place table stands at that request: places
 * that a reclaim freed earlier in the same batch are among the free ones. A write to an address that has a record at now
 * overwrites the page in its own place. No page is ever moved. So the slab is used up to a certain byte, which
 * kizmoolet_slab_in_use (kizmoolet_requests.h) tells from the place table, and which grows only while no place below it is
 * free. In a store begun by kizmoolet_fresh it is never past 256 times the most records that were counted at once.
 *
 * Head, tables and the slab up to that byte are a whole copy of the store: whatever bytes lie behind it, every read answers the
 * same. The areas of a copy may also be longer than those it was made from: with any bytes behind the branch and record rows,
 * and zeros behind the place rows. Of the name rows, too, only the counted ones matter.
 *
 *
 * COMMISSIONED STATES BY NAME
 *
 * A sealed moment that can be read can be given a name, at most 32 at a time; any 8 bytes are a name, and two names may stand for
 * one moment. As long as a moment has a name it can be read, reverted to and named again, also below the floor, and every read at
 * it answers as it did when the name was given: a reclaim keeps what such reads need. A reclaim to a moment below the floor is
 * refused (8), named or not. A withdrawn name is gone at once: below the floor its moment can then no longer be read, and what was
 * kept for it is freed by the next reclaim. Later names close up, in their order, and the row that becomes free is zero.
 *
 *
 * WORK ORDERS
 *
 * A revert carries a work order of 16 bits, which stands in the row of the branch that it begins; 0 where none is quoted.
 * kizmoolet_work_orders lists, for a moment that can be read, the work orders from the branch of that moment up to and with the
 * first row, nearest first: the branch of the moment, the branch that it was cut from, and so on. Two bytes each, high byte first;
 * the last is the first row's 0. So right after a revert to m with work order w the list at now is w, and then the list of m as it
 * was. Writes, marks, reads and names change no list. A branch that a reclaim drops is in no list from then on: what is left of the
 * list of a moment that can be read are the work orders of the branches that stay, in their order.
 *
 *
 * REQUESTS, one behind the other in a batch
 *
 * Packed fields, most significant first: operation 3 bits, address 16, moment 32, spare 5; 7 bytes. Fields that an operation
 * does not use are zero. kizmoolet_requests.h has functions that pack requests and unpack answers.
 *
 *   1 write    address; the page's 256 bytes follow    puts the page at now                    answer: now
 *   2 mark                                             seals now, which grows by 1             answer: the sealed moment
 *   3 revert   work order in place of the address,     seals now; the volume is as at moment   answer: the sealed moment, which
 *              moment                                                                          is the one to name to undo it
 *   4 read     address, moment                         the page at that moment                 answer: the moment asked, and the
 *                                                                                              page with its date if there is one
 *   5 reclaim  moment                                  makes it the floor, frees what no read  answer: how many records it freed
 *                                                      from there to now, or at a name, gives  (the head has the branches left)
 *   6 name     moment; the name's 8 bytes follow       gives the moment the name               answer: the moment
 *   7 withdraw the name's 8 bytes follow               takes the name back                     answer: the moment it stood for
 *
 * ANSWERS, one behind the other in the answer area, in the order of the requests
 *
 * Packed fields: refusal 6 bits (0: accepted), page present 1, spare 1 (zero), number 32; 5 bytes. Where a page is present, its
 * date follows in 4 bytes, the moment at which it was written, and then its 256 bytes: 265 in all. An answer without a page has
 * 5 bytes and no date. A refusal has number 0. What lies past the answers is not written.
 *
 *
 * THE NUMBERS
 *
 * The result of a call is 0 or the number of what refused or stopped it. Of a batch 4 to 10 and 15 to 17 are never the result: they
 * stand in a request's answer, and the batch goes on. A refused request alters nothing.
 *
 * Where several apply: 1, 2, 3, 18 in this order, then 4 of a live read; of a list of work orders 1, 2, 3, then 8, 9, 14, and never
 * 18, since it is not given the live disk; of a request 11 (fewer than 7 bytes), 12, 13, 11 (page or
 * name), then its own refusals (write 4, 5, 6; read 4, 8, 9; revert 8, 9, 10, 7; reclaim 8, 9; mark 10; name 8, 9, 15, 16; withdraw
 * 17), then 14.
 */
#ifndef KIZMOOLET_H
#define KIZMOOLET_H

#include <stddef.h>
#include <stdint.h>

/* The version of this header and of the archive beside it; CHANGELOG.md says what changed. */
#define KIZMOOLET_VERSION "0.7.0"
#define KIZMOOLET_VERSION_MAJOR 0
#define KIZMOOLET_VERSION_MINOR 7
#define KIZMOOLET_VERSION_PATCH 0

#define KIZMOOLET_OK 0u

/* Result of kizmoolet_fresh (1), of kizmoolet_work_orders (1, 2, 3) and of the other functions (1, 2, 3, 18): nothing is written but
   what is told through a pointer, zero but for the record rows read (HOW FAR THE TABLE CHECK CAME). */
#define KIZMOOLET_OUT_OF_RANGE 1u       /* head, counts or lengths outside their ranges, a table no whole number of rows, or
                                           floor above now */
#define KIZMOOLET_BRANCHES_UNSOUND 2u   /* branch rows or names not sound */
#define KIZMOOLET_RECORDS_UNSOUND 3u    /* records or places not sound; rows_read says which row */
#define KIZMOOLET_DISK_UNFIT 18u        /* the live disk is not 256 x A bytes, its marks are not A in number, or one is above 3 */

/* Refusal in an answer; the batch goes on. 4 is also the result of a live read, 8 and 9 of a list of work orders. */
#define KIZMOOLET_ADDRESS_TOO_HIGH 4u   /* write, read, live read: address at or above A */
#define KIZMOOLET_RECORDS_FULL 5u       /* write: it needs a row, and the record table is full */
#define KIZMOOLET_PLACES_FULL 6u        /* write: it needs a place, and none is free */
#define KIZMOOLET_BRANCHES_FULL 7u      /* revert: the branch table is full (WHAT A RECLAIM LEAVES says what makes room) */
#define KIZMOOLET_MOMENT_TOO_EARLY 8u   /* read, revert, name, work orders: moment below the floor, and it has no name; reclaim:
                                           moment below the floor */
#define KIZMOOLET_MOMENT_TOO_LATE 9u    /* read, reclaim, work orders: moment above now; revert, name: moment now or above */
#define KIZMOOLET_MOMENTS_USED_UP 10u   /* mark, revert: now is 4,294,967,295 */
#define KIZMOOLET_NAME_IN_USE 15u       /* name: the name stands for a moment already, this one or another */
#define KIZMOOLET_NAMES_FULL 16u        /* name: all 32 names are given */
#define KIZMOOLET_NO_SUCH_NAME 17u      /* withdraw: no moment has this name */

/* Result of kizmoolet_batch at a request that is not carried out; the requests before it stand. */
#define KIZMOOLET_CUT_SHORT 11u         /* request, page or name cut short */
#define KIZMOOLET_NO_OPERATION 12u      /* operation 0 */
#define KIZMOOLET_SPARE_BITS 13u        /* spare bits, or a field that the operation does not use, are not zero */
#define KIZMOOLET_ANSWERS_FULL 14u      /* the answer that results, a refusal's 5 bytes too, is longer than what is left of the
                                           answer area; also the result of kizmoolet_work_orders: the list does not fit */

/* The operations of requests. */
#define KIZMOOLET_WRITE 1u
#define KIZMOOLET_MARK 2u
#define KIZMOOLET_REVERT 3u
#define KIZMOOLET_READ 4u
#define KIZMOOLET_RECLAIM 5u
#define KIZMOOLET_NAME 6u
#define KIZMOOLET_WITHDRAW 7u

/* Bytes of a page, of a name, of the head, of a row of each table. The slab has KIZMOOLET_PAGE_BYTES for each place row. */
#define KIZMOOLET_PAGE_BYTES 256u
#define KIZMOOLET_NAME_BYTES 8u
#define KIZMOOLET_HEAD_BYTES 24u
#define KIZMOOLET_BRANCH_BYTES 16u
#define KIZMOOLET_RECORD_BYTES 12u
#define KIZMOOLET_PLACE_BYTES 4u
#define KIZMOOLET_NAME_ROW_BYTES 12u

/* The most pages of a volume and rows of each table; of each there is at least 1. */
#define KIZMOOLET_MOST_PAGES 65536u
#define KIZMOOLET_MOST_BRANCHES 4096u
#define KIZMOOLET_MOST_RECORDS 65536u
#define KIZMOOLET_MOST_PLACES 65536u

/* The highest work order, the bytes of one in a list, and the bytes of the longest list: one of every branch. */
#define KIZMOOLET_MOST_ORDER 65535u
#define KIZMOOLET_ORDER_BYTES 2u
#define KIZMOOLET_MOST_LIST_BYTES 8192u

/* Marks of a page of the live disk: one of these, both together, or 0. */
#define KIZMOOLET_MARK_CURRENT 1u
#define KIZMOOLET_MARK_BLANK 2u

/* Where the page of a live read lies. */
#define KIZMOOLET_AREA_NONE 0u
#define KIZMOOLET_AREA_DISK 1u
#define KIZMOOLET_AREA_SLAB 2u

/* The most names; as many name rows are lent, no more and no fewer, and their bytes. */
#define KIZMOOLET_MOST_NAMES 32u
#define KIZMOOLET_NAMES_BYTES 384u

/* The last moment there is; also the end of the branch that is open. */
#define KIZMOOLET_LAST_MOMENT 4294967295u

/* Where the numbers of the head stand. */
#define KIZMOOLET_HEAD_PAGES_AT 0u
#define KIZMOOLET_HEAD_BRANCHES_AT 4u
#define KIZMOOLET_HEAD_RECORDS_AT 8u
#define KIZMOOLET_HEAD_NOW_AT 12u
#define KIZMOOLET_HEAD_FLOOR_AT 16u
#define KIZMOOLET_HEAD_NAMES_AT 20u

/* Bytes of a request, of a write with its page, of a request with its name, of an answer, of a page's date, of an answer with a
   page and its date. */
#define KIZMOOLET_REQUEST_BYTES 7u
#define KIZMOOLET_WRITE_BYTES 263u
#define KIZMOOLET_NAMED_BYTES 15u
#define KIZMOOLET_ANSWER_BYTES 5u
#define KIZMOOLET_DATE_BYTES 4u
#define KIZMOOLET_PAGE_ANSWER_BYTES 265u

/* Enough stack for a call of any of the functions. Measured on an archive of an older kit: kizmoolet_batch 1.40 MB, the others
   1.12 MB, whatever the sizes of the tables and the batch. */
#define KIZMOOLET_STACK_BYTES 1572864u

#ifdef __cplusplus
extern "C" {
#endif

/*
 * Makes a fresh store of `size` pages in the six areas, whatever they hold: now 0, floor 0, no page, no name. The slab is not
 * written. Live disk and marks are not passed: the caller makes every page stale (THE CALLER'S DUTIES, 6).
 * Result: 0; or 1, and nothing is written, where the size or a length is out of range.
 */
uint32_t kizmoolet_fresh(uint32_t size, uint8_t *head, size_t head_len, uint8_t *branches, size_t branches_len,
    uint8_t *records, size_t records_len, uint8_t *places, size_t places_len, uint8_t *names, size_t names_len,
    const uint8_t *slab, size_t slab_len);

/*
 * Checks the tables, then carries out the requests of a batch in order, each on the store that the last one left.
 * Result: 0 where all requests were answered, else the number at which the batch stopped.
 * Always written, zero where the result is 1, 2, 3 or 18: the requests answered, refused ones included; the bytes of those
 * requests, which is where in the batch the next one begins; and the bytes of their answers.
 * Always written, too: the record rows that the table check read (HOW FAR THE TABLE CHECK CAME).
 */
uint32_t kizmoolet_batch(uint8_t *head, size_t head_len, uint8_t *branches, size_t branches_len,
    uint8_t *records, size_t records_len, uint8_t *places, size_t places_len, uint8_t *names, size_t names_len,
    uint8_t *slab, size_t slab_len, uint8_t *disk, size_t disk_len, uint8_t *marks, size_t marks_len,
    const uint8_t *batch, size_t batch_len, uint8_t *answers, size_t answers_len,
    uint64_t *answered, uint64_t *request_bytes, uint64_t *answer_bytes, uint64_t *rows_read);

/*
 * A live read: checks the tables as a batch does, and tells where the page of an address lies, as it is at now. No area is written.
 * Result: 0; 1, 2, 3 or 18; or 4, where the address is at or above A.
 * Always written, zero where the result is not 0 and where the address has no page: the area (KIZMOOLET_AREA_DISK or
 * KIZMOOLET_AREA_SLAB) and the offset from which the page's 256 bytes lie there. kizmoolet_live_page makes a pointer of them; the
 * page is the lent bytes themselves, good until the next call that may write to them.
 */
uint32_t kizmoolet_live_read(const uint8_t *head, size_t head_len, const uint8_t *branches, size_t branches_len,
    const uint8_t *records, size_t records_len, const uint8_t *places, size_t places_len,
    const uint8_t *names, size_t names_len, const uint8_t *slab, size_t slab_len,
    const uint8_t *disk, size_t disk_len, const uint8_t *marks, size_t marks_len,
    uint32_t address, uint32_t *area, uint64_t *offset);

/*
 * A copying step: checks the tables as a batch does, and brings the stale pages of the lowest addresses to date, at most `budget`.
 * Only disk and marks are written. Result: 0; or 1, 2, 3 or 18.
 * Always written, zero where the result is not 0: how many pages it brought to date, blank ones counted; that is the smaller of
 * the budget and of the stale pages. A budget of 0 is no refusal.
 */
uint32_t kizmoolet_copy_step(const uint8_t *head, size_t head_len, const uint8_t *branches, size_t branches_len,
    const uint8_t *records, size_t records_len, const uint8_t *places, size_t places_len,
    const uint8_t *names, size_t names_len, const uint8_t *slab, size_t slab_len,
    uint8_t *disk, size_t disk_len, uint8_t *marks, size_t marks_len, uint32_t budget, uint64_t *copied);

/*
 * The work orders of a moment: checks the tables as a batch does, and lists the work orders from the branch of the moment up to
 * and with the first row, nearest first, KIZMOOLET_ORDER_BYTES each, high byte first. Only the list is written, and what of it lies
 * past the work orders is left as it was. kizmoolet_order_at reads one.
 * Result: 0; 1, 2 or 3; 8 or 9, as of a read at that moment; or 14, where the list does not fit. Twice the branch count of the head
 * is always enough.
 * Always written, zero where the result is not 0: how many work orders are listed, at least 1. A refusal writes nothing else.
 */
uint32_t kizmoolet_work_orders(const uint8_t *head, size_t head_len, const uint8_t *branches, size_t branches_len,
    const uint8_t *records, size_t records_len, const uint8_t *places, size_t places_len,
    const uint8_t *names, size_t names_len, const uint8_t *slab, size_t slab_len,
    uint32_t moment, uint8_t *list, size_t list_len, uint64_t *count);

/* The page that a live read told of: its first byte, or a null pointer where there is none. */
static inline const uint8_t *kizmoolet_live_page(uint32_t area, uint64_t offset, const uint8_t *disk, const uint8_t *slab)
{
    if (area == KIZMOOLET_AREA_DISK)
        return disk + offset;
    if (area == KIZMOOLET_AREA_SLAB)
        return slab + offset;
    return NULL;
}

#ifdef __cplusplus
}
#endif

#endif
