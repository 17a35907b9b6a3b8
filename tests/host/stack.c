/* How much of the stack a call takes: each function is called on a stack filled with a pattern, and the lowest byte that is no
   longer the pattern tells. Ends with 1 if a call takes more than the header says, or less than half of it. */

#define _GNU_SOURCE
#include "kizmoolet.h"
#include "kizmoolet_requests.h"

#include <pthread.h>
#include <stdio.h>
#include <stdlib.h>
#include <string.h>
#include <sys/mman.h>

enum { STACK = 4 << 20, PATTERN = 0xA7, BATCH_ROOM = 1 << 16 };

/* A store with the rows lent, and the call that is made on it. */
struct store {
    uint8_t head[KIZMOOLET_HEAD_BYTES], names[KIZMOOLET_NAMES_BYTES];
    uint8_t *branches, *records, *places, *slab, *disk, *marks;
    size_t branches_len, records_len, places_len, slab_len, disk_len, marks_len;
    uint32_t pages;
};

static struct store store;
static uint8_t batch[BATCH_ROOM], answers[BATCH_ROOM];
static size_t batch_len;
static uint32_t result;
static uint8_t *called_from;

static void fail(const char *what)
{
    fprintf(stderr, "stack: %s\n", what);
    exit(2);
}

static void *room(size_t length)
{
    void *area = calloc(length, 1);
    if (area == NULL)
        fail("no memory");
    return area;
}

static void make(uint32_t pages, uint32_t branches, uint32_t records, uint32_t places)
{
    free(store.branches);
    free(store.records);
    free(store.places);
    free(store.slab);
    free(store.disk);
    free(store.marks);
    store.pages = pages;
    store.branches = room(store.branches_len = (size_t)KIZMOOLET_BRANCH_BYTES * branches);
    store.records = room(store.records_len = (size_t)KIZMOOLET_RECORD_BYTES * records);
    store.places = room(store.places_len = (size_t)KIZMOOLET_PLACE_BYTES * places);
    store.slab = room(store.slab_len = (size_t)KIZMOOLET_PAGE_BYTES * places);
    store.disk = room(store.disk_len = (size_t)KIZMOOLET_PAGE_BYTES * pages);
    store.marks = room(store.marks_len = pages);
}

/* The six areas of the store, and live disk and marks, as a call takes them. */
#define STORE \
    store.head, sizeof store.head, store.branches, store.branches_len, store.records, store.records_len, store.places, \
        store.places_len, store.names, sizeof store.names, store.slab, store.slab_len
#define LIVE store.disk, store.disk_len, store.marks, store.marks_len

/* The lowest address of the frame that calls, which the frame of the call lies below. */
static __attribute__((noinline)) void *call_fresh(void *unused)
{
    called_from = __builtin_frame_address(0);
    result = kizmoolet_fresh(store.pages, STORE);
    return unused;
}

static __attribute__((noinline)) void *call_batch(void *unused)
{
    uint64_t answered, request_bytes, answer_bytes, rows_read;
    called_from = __builtin_frame_address(0);
    result = kizmoolet_batch(
        STORE, LIVE, batch, batch_len, answers, sizeof answers, &answered, &request_bytes, &answer_bytes, &rows_read);
    return unused;
}

static uint32_t address, budget;

static __attribute__((noinline)) void *call_live_read(void *unused)
{
    uint32_t area;
    uint64_t offset;
    called_from = __builtin_frame_address(0);
    result = kizmoolet_live_read(STORE, LIVE, address, &area, &offset);
    return unused;
}

static __attribute__((noinline)) void *call_copy_step(void *unused)
{
    uint64_t copied;
    called_from = __builtin_frame_address(0);
    result = kizmoolet_copy_step(STORE, LIVE, budget, &copied);
    return unused;
}

static uint32_t moment;
static uint8_t list[KIZMOOLET_MOST_LIST_BYTES];
static size_t list_len = sizeof list;

static __attribute__((noinline)) void *call_work_orders(void *unused)
{
    uint64_t count;
    called_from = __builtin_frame_address(0);
    result = kizmoolet_work_orders(STORE, moment, list, list_len, &count);
    return unused;
}

/* The bytes of stack that the call takes. */
static size_t taken(void *(*call)(void *))
{
    static uint8_t *stack;
    if (stack == NULL) {
        stack = mmap(NULL, STACK, PROT_READ | PROT_WRITE, MAP_PRIVATE | MAP_ANONYMOUS, -1, 0);
        if (stack == MAP_FAILED)
            fail("no memory");
    }
    memset(stack, PATTERN, STACK);
    pthread_attr_t attributes;
    pthread_t thread;
    if (pthread_attr_init(&attributes) != 0 || pthread_attr_setstack(&attributes, stack, STACK) != 0
        || pthread_create(&thread, &attributes, call, NULL) != 0 || pthread_join(thread, NULL) != 0)
        fail("no thread");
    pthread_attr_destroy(&attributes);
    size_t lowest = 0;
    while (lowest < STACK && stack[lowest] == PATTERN)
        lowest++;
    return (size_t)(called_from - (stack + lowest));
}

static size_t most = 0;

static void tell(const char *what, void *(*call)(void *), uint32_t due)
{
    size_t bytes = taken(call);
    if (result != due)
        fail("another result than due");
    printf("  %-70s %8zu bytes\n", what, bytes);
    if (bytes > most)
        most = bytes;
}

static void all_requests(void)
{
    static const uint8_t page[KIZMOOLET_PAGE_BYTES];
    uint8_t name[KIZMOOLET_NAME_BYTES] = { 0 };
    struct kizmoolet_requests to = kizmoolet_requests_in(batch, sizeof batch);
    for (uint32_t i = 0; i < 100; i++) {
        kizmoolet_add_write(&to, i, page);
        kizmoolet_add_mark(&to);
        kizmoolet_add_revert(&to, 2 * i, 600 * i);
        kizmoolet_add_read(&to, i, i);
        name[0] = (uint8_t)i;
        kizmoolet_add_name(&to, i, name);
        if (i % 4 == 3)
            kizmoolet_add_withdraw(&to, name);
    }
    kizmoolet_add_reclaim(&to, 100);
    if (to.failed)
        fail("the batch is too long");
    batch_len = to.length;
}

/* Live reads and copying steps: of pages that are stale, with pages and without; refused; of pages that are current. */
static void tell_live(void)
{
    address = 5;
    tell("kizmoolet_live_read, largest tables, a stale page", call_live_read, KIZMOOLET_OK);
    address = KIZMOOLET_MOST_PAGES;
    tell("kizmoolet_live_read, largest tables, refused with 4", call_live_read, KIZMOOLET_ADDRESS_TOO_HIGH);
    budget = 1;
    tell("kizmoolet_copy_step, largest tables, one page", call_copy_step, KIZMOOLET_OK);
    budget = UINT32_MAX;
    tell("kizmoolet_copy_step, largest tables, all pages", call_copy_step, KIZMOOLET_OK);
    address = 5;
    tell("kizmoolet_live_read, largest tables, a current page", call_live_read, KIZMOOLET_OK);
    store.marks_len--;
    tell("kizmoolet_batch, largest tables, refused with 18", call_batch, KIZMOOLET_DISK_UNFIT);
    tell("kizmoolet_live_read, largest tables, refused with 18", call_live_read, KIZMOOLET_DISK_UNFIT);
    tell("kizmoolet_copy_step, largest tables, refused with 18", call_copy_step, KIZMOOLET_DISK_UNFIT);
    store.marks_len++;
}

/* Work orders at now, which lists the most; no space for them; a moment that cannot be read. */
static void tell_orders(void)
{
    moment = kizmoolet_now(store.head);
    tell("kizmoolet_work_orders, largest tables", call_work_orders, KIZMOOLET_OK);
    list_len = 1;
    tell("kizmoolet_work_orders, largest tables, refused with 14", call_work_orders, KIZMOOLET_ANSWERS_FULL);
    list_len = sizeof list;
    moment++;
    tell("kizmoolet_work_orders, largest tables, refused with 9", call_work_orders, KIZMOOLET_MOMENT_TOO_LATE);
}

int main(void)
{
    make(KIZMOOLET_MOST_PAGES, KIZMOOLET_MOST_BRANCHES, KIZMOOLET_MOST_RECORDS, KIZMOOLET_MOST_PLACES);
    tell("kizmoolet_fresh, largest tables", call_fresh, KIZMOOLET_OK);
    batch_len = 0;
    tell("kizmoolet_batch, largest tables, empty batch", call_batch, KIZMOOLET_OK);
    all_requests();
    tell("kizmoolet_batch, largest tables, all seven requests", call_batch, KIZMOOLET_OK);
    tell_live();
    tell_orders();
    store.places[0] ^= 1;
    tell("kizmoolet_batch, largest tables, refused with 3", call_batch, KIZMOOLET_RECORDS_UNSOUND);
    tell("kizmoolet_live_read, largest tables, refused with 3", call_live_read, KIZMOOLET_RECORDS_UNSOUND);
    tell("kizmoolet_copy_step, largest tables, refused with 3", call_copy_step, KIZMOOLET_RECORDS_UNSOUND);
    tell("kizmoolet_work_orders, largest tables, refused with 3", call_work_orders, KIZMOOLET_RECORDS_UNSOUND);
    make(1, 1, 1, 1);
    tell("kizmoolet_fresh, tables of one row", call_fresh, KIZMOOLET_OK);
    batch_len = 0;
    tell("kizmoolet_batch, tables of one row, empty batch", call_batch, KIZMOOLET_OK);
    address = 0;
    tell("kizmoolet_live_read, tables of one row", call_live_read, KIZMOOLET_OK);
    tell("kizmoolet_copy_step, tables of one row", call_copy_step, KIZMOOLET_OK);
    moment = 0;
    tell("kizmoolet_work_orders, tables of one row", call_work_orders, KIZMOOLET_OK);
    store.places_len = 3;
    tell("kizmoolet_fresh, refused with 1 for a length", call_fresh, KIZMOOLET_OUT_OF_RANGE);
    tell("kizmoolet_batch, refused with 1 for a length", call_batch, KIZMOOLET_OUT_OF_RANGE);
    tell("kizmoolet_live_read, refused with 1 for a length", call_live_read, KIZMOOLET_OUT_OF_RANGE);
    tell("kizmoolet_copy_step, refused with 1 for a length", call_copy_step, KIZMOOLET_OUT_OF_RANGE);
    tell("kizmoolet_work_orders, refused with 1 for a length", call_work_orders, KIZMOOLET_OUT_OF_RANGE);
    printf("  KIZMOOLET_STACK_BYTES %53u bytes\n", KIZMOOLET_STACK_BYTES);
    return most <= KIZMOOLET_STACK_BYTES && most > KIZMOOLET_STACK_BYTES / 2 ? 0 : 1;
}
