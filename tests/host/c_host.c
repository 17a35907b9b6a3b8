/* A host in C: reads the cases that cases/main.rs writes from standard input, lends areas to the
   static library, calls it and compares each area, byte for byte.

   How an area lies in memory, by the first argument:
   pages      between two pages that may not be touched, against the one after it or the one before it
              in turn; the other side has bytes that nobody may change
   protected  as pages; and what a call must not write to may only be read while it runs: all areas where
              1, 2, 3 or 18 is due, and of a live read always; the batch always; the slab of a fresh store
              always, and live disk and marks, which it does not get; all but live disk and marks of a
              copying step; all but the list of a listing, and the list where it is refused. A call that
              writes there all the same counts as one that differs
   exact      an allocation of just its length, for a run under a tool that watches allocations

   With `all` as the second argument every refusal and stop must come up; with `first` the first difference ends it. */

#define _GNU_SOURCE
#include "kizmoolet.h"
#include "kizmoolet_requests.h"

#include <inttypes.h>
#include <pthread.h>
#include <setjmp.h>
#include <signal.h>
#include <stdbool.h>
#include <stdio.h>
#include <stdlib.h>
#include <string.h>
#include <sys/mman.h>
#include <unistd.h>

enum { HEAD, BRANCHES, RECORDS, PLACES, NAMES, SLAB, DISK, MARKS, BATCH, ANSWERS, LIST, AREAS };

static const char *const area_names[AREAS] = {
    "head", "branches", "records", "places", "names", "slab", "disk", "marks", "batch", "answers", "list"
};

/* An area as a call takes it; those of a store; live disk and marks. */
#define LENT(i) areas[i].bytes, areas[i].length
#define STORE LENT(HEAD), LENT(BRANCHES), LENT(RECORDS), LENT(PLACES), LENT(NAMES), LENT(SLAB)
#define LIVE LENT(DISK), LENT(MARKS)

/* The kinds of calls. */
enum { FRESH, A_BATCH, LIVE_READ, STEP, LISTING, KINDS };

static const char *const kind_names[KINDS] = { "fresh stores", "batches", "live reads", "steps", "listings" };

enum { MARGIN = 512 };

/* What a batch counts: requests answered, their bytes, the bytes of their answers, record rows read. */
enum { COUNTS = 4 };

/* More than the largest number that is a refusal or a stop; and one after the largest. */
enum { NUMBERS = 32, NUMBERS_END = KIZMOOLET_DISK_UNFIT + 1 };

/* More than the longest area of any case. */
static const size_t most_bytes = (size_t)40 << 20;

struct area {
    uint8_t *between; /* the memory between the two pages that may not be touched */
    uint8_t *bytes;
    size_t length;
    bool against_end;
};

struct counts {
    uint64_t calls, compared, differ, answered;
    uint64_t results[KINDS][NUMBERS], refusals[NUMBERS];
    uint64_t pages[3], copied;            /* pages of live reads: none, on the disk, in the slab; pages brought to date */
    uint64_t orders;                      /* work orders listed */
    uint64_t read_only[KINDS][NUMBERS];   /* calls whose store was protected, by their results */
};

static struct area areas[AREAS];
static struct counts counts;
static uint64_t seen[KINDS][NUMBERS], seen_read_only[KINDS][NUMBERS];
static uint64_t all_differ;
static bool call_told;
static unsigned printed;
static bool exact;
static bool protecting;
static bool all_families;
static bool only_first;
static uint8_t *expected;

static void fail(const char *what)
{
    fprintf(stderr, "c_host: %s\n", what);
    exit(2);
}

static void differs(const char *what, const char *of)
{
    if (!call_told) {
        counts.differ++;
        all_differ++;
        call_told = true;
    }
    if (++printed <= 20)
        printf("differs at call %" PRIu64 " of the family: %s %s\n", counts.calls, what, of);
    fflush(stdout); /* what differs may end the program soon after */
    if (only_first)
        _exit(1);
}

static void get(void *to, size_t length)
{
    if (length != 0 && fread(to, 1, length, stdin) != length)
        fail("the cases end early");
}

static uint64_t get_number(void)
{
    uint8_t bytes[8];
    uint64_t number = 0;
    get(bytes, 8);
    for (int i = 7; i >= 0; i--)
        number = number << 8 | bytes[i];
    return number;
}

static uint8_t margin_byte(size_t index)
{
    return (uint8_t)(index * 37 ^ 0xC3);
}

/* The bytes on the open side of an area, a margin's worth. */
static uint8_t *margin(const struct area *area)
{
    return area->against_end ? area->bytes - MARGIN : area->bytes + area->length;
}

/* Makes an area of this length; its bytes are to be filled in. */
static void make_area(struct area *area, size_t length)
{
    if (length + MARGIN > most_bytes)
        fail("an area is too long");
    area->length = length;
    if (exact) {
        /* An area of no bytes is lent as a null pointer. */
        free(area->bytes);
        area->bytes = length == 0 ? NULL : malloc(length);
        if (length != 0 && area->bytes == NULL)
            fail("no memory");
        return;
    }
    area->against_end = !area->against_end;
    area->bytes = area->against_end ? area->between + most_bytes - length : area->between;
    for (size_t i = 0; i < MARGIN; i++)
        margin(area)[i] = margin_byte(i);
}

static void get_area(struct area *area)
{
    make_area(area, get_number());
    get(area->bytes, area->length);
}

/* A copy of the store, laid onto bytes that are read: head and tables whole, but of the names the rows that are counted, and
   of the slab what is in use. The live disk is another, with every page stale. */
static void copy_areas(void)
{
    size_t in_use = kizmoolet_slab_in_use(areas[PLACES].bytes, areas[PLACES].length);
    size_t named = (size_t)KIZMOOLET_NAME_ROW_BYTES * kizmoolet_name_count(areas[HEAD].bytes);
    for (int i = HEAD; i <= SLAB; i++) {
        size_t length = i == SLAB ? in_use : i == NAMES ? named : areas[i].length;
        if (length != 0)
            memcpy(expected, areas[i].bytes, length);
        get_area(&areas[i]);
        if (length > areas[i].length)
            fail("a copy has no room");
        if (length != 0)
            memcpy(areas[i].bytes, expected, length);
    }
    get_area(&areas[DISK]);
    get_area(&areas[MARKS]);
    kizmoolet_make_stale(areas[MARKS].bytes, areas[MARKS].length);
}

static void check_margins(void)
{
    if (exact)
        return;
    for (int i = 0; i < AREAS; i++) {
        if (areas[i].bytes == NULL)
            continue;
        for (size_t j = 0; j < MARGIN; j++)
            if (margin(&areas[i])[j] != margin_byte(j)) {
                differs("bytes beside the area", area_names[i]);
                break;
            }
    }
}

/* Reads what an area must hold and compares; where it differs it is set right. */
static void compare_area(struct area *area, const char *name)
{
    uint64_t length = get_number();
    if (length != area->length)
        fail("the cases have another length");
    get(expected, length);
    if (length != 0 && memcmp(expected, area->bytes, length) != 0) {
        differs("the area", name);
        memcpy(area->bytes, expected, length);
    }
}

static sigjmp_buf before_call;
static volatile sig_atomic_t calling;
static void *volatile touched;

/* A call touched what it may not: back to before the call, with the address. */
static void on_fault(int number, siginfo_t *info, void *context)
{
    (void)context;
    if (!calling) {
        signal(number, SIG_DFL);
        return;
    }
    touched = info->si_addr;
    siglongjmp(before_call, 1);
}

/* Lets the pages of an area, with the bytes beside it, be read only, or written again. */
static void protect(const struct area *area, int how)
{
    size_t page = (size_t)sysconf(_SC_PAGESIZE);
    size_t length = (area->length + MARGIN + page - 1) / page * page;
    uint8_t *from = area->against_end ? area->between + most_bytes - length : area->between;
    if (area->bytes != NULL && mprotect(from, length, how) != 0)
        fail("the areas cannot be protected");
}

/* Is this a refusal before anything is written? */
static bool refused(uint64_t result)
{
    return (result >= KIZMOOLET_OUT_OF_RANGE && result <= KIZMOOLET_RECORDS_UNSOUND) || result == KIZMOOLET_DISK_UNFIT;
}

/* May this kind of call, for which this is due, not write to the area? */
static bool only_read(int area, int kind, uint64_t due)
{
    bool live = area == DISK || area == MARKS;
    switch (kind) {
    case FRESH:
        return refused(due) || live || area == SLAB;
    case A_BATCH:
        return refused(due) || area == BATCH;
    case STEP:
        return refused(due) || !live;
    case LISTING:
        return due != KIZMOOLET_OK || area != LIST;
    default:
        return true;
    }
}

static void protect_for(int kind, uint64_t due, int how)
{
    for (int i = HEAD; protecting && i < AREAS; i++) {
        bool lent = i <= MARKS || (kind == A_BATCH && i <= ANSWERS) || (kind == LISTING && i == LIST);
        if (lent && only_read(i, kind, due))
            protect(&areas[i], how);
    }
}

/* The result of a call is the one that is due. */
static void count_read_only(int kind, uint64_t result)
{
    if (protecting && (refused(result) || kind >= LIVE_READ))
        counts.read_only[kind][result % NUMBERS]++;
}

static void tell_fault(void)
{
    for (int i = 0; i < AREAS; i++) {
        const uint8_t *at = touched;
        if (at >= areas[i].bytes && at < areas[i].bytes + areas[i].length) {
            differs("written to, although it may only be read:", area_names[i]);
            return;
        }
    }
    differs("a fault", "outside the areas");
}

static void run_fresh(void)
{
    uint32_t size = (uint32_t)get_number();
    uint32_t result = (uint32_t)get_number();
    counts.calls++;
    call_told = false;
    protect_for(FRESH, result, PROT_READ);
    if (sigsetjmp(before_call, 1) == 0) {
        calling = 1;
        uint32_t got = kizmoolet_fresh(size, STORE);
        calling = 0;
        counts.results[FRESH][got % NUMBERS]++;
        if (got != result)
            differs("the result of", "a fresh store");
        else
            count_read_only(FRESH, result);
    } else {
        calling = 0;
        tell_fault();
    }
    protect_for(FRESH, result, PROT_READ | PROT_WRITE);
    check_margins();
}

/* Takes the answers apart with the functions for hosts: as many as the batch reports, and no byte is left. */
static void count_refusals(uint64_t answered, uint64_t answer_bytes)
{
    struct kizmoolet_answers answers = kizmoolet_answers_in(areas[ANSWERS].bytes, answer_bytes);
    struct kizmoolet_answer answer;
    uint64_t unpacked = 0;
    while (kizmoolet_next_answer(&answers, &answer) == 1) {
        counts.refusals[answer.refusal % NUMBERS]++;
        unpacked++;
    }
    if (unpacked != answered || answers.at != answer_bytes)
        differs("the answers, taken apart, of", "the batch");
}

static void run_batch(void)
{
    get_area(&areas[BATCH]);
    get_area(&areas[ANSWERS]);
    uint64_t stop = get_number();
    uint64_t counted[COUNTS];
    static uint64_t got[COUNTS];
    for (int i = 0; i < COUNTS; i++) {
        counted[i] = get_number();
        got[i] = ~counted[i]; /* another number than is due: each count must be written */
    }
    /* The library only reads the batch. */
    if (areas[BATCH].length != 0)
        memcpy(expected, areas[BATCH].bytes, areas[BATCH].length);
    counts.calls++;
    call_told = false;
    protect_for(A_BATCH, stop, PROT_READ);
    if (sigsetjmp(before_call, 1) == 0) {
        calling = 1;
        uint32_t got_stop = kizmoolet_batch(STORE, LIVE, LENT(BATCH), LENT(ANSWERS), &got[0], &got[1], &got[2], &got[3]);
        calling = 0;
        counts.results[A_BATCH][got_stop % NUMBERS]++;
        if (got_stop != stop || memcmp(got, counted, sizeof got) != 0) {
            differs("what is reported of", "the batch");
            if (printed <= 20)
                printf("  stop %" PRIu32 ", should %" PRIu64 "; counts %" PRIu64 " %" PRIu64 " %" PRIu64 " %" PRIu64
                       ", should %" PRIu64 " %" PRIu64 " %" PRIu64 " %" PRIu64 "\n",
                    got_stop, stop, got[0], got[1], got[2], got[3], counted[0], counted[1], counted[2], counted[3]);
        } else {
            counts.answered += got[0];
            count_refusals(got[0], got[2]);
            count_read_only(A_BATCH, stop);
        }
    } else {
        calling = 0;
        tell_fault();
    }
    protect_for(A_BATCH, stop, PROT_READ | PROT_WRITE);
    if (areas[BATCH].length != 0 && memcmp(expected, areas[BATCH].bytes, areas[BATCH].length) != 0)
        differs("the area", "batch");
    compare_area(&areas[ANSWERS], area_names[ANSWERS]);
    check_margins();
}

/* The page that a live read tells of is compared byte for byte, at the pointer that a host makes of it. */
static void compare_page(uint32_t area, uint64_t offset, size_t length)
{
    const uint8_t *page = kizmoolet_live_page(area, offset, areas[DISK].bytes, areas[SLAB].bytes);
    const uint8_t *due = length == 0 ? NULL : areas[area == 1 ? DISK : SLAB].bytes + offset;
    if (page != due || (length != 0 && memcmp(page, expected, length) != 0))
        differs("the page of", "the live read");
}

static void run_live_read(void)
{
    uint32_t address = (uint32_t)get_number(), result = (uint32_t)get_number(), area = (uint32_t)get_number();
    uint64_t offset = get_number(), length = get_number();
    static uint32_t got_area;
    static uint64_t got_offset;
    got_area = ~area; /* other numbers than are due: both must be written */
    got_offset = ~offset;
    if (length != 0 && length != KIZMOOLET_PAGE_BYTES)
        fail("a page has another length");
    get(expected, length);
    counts.calls++;
    call_told = false;
    protect_for(LIVE_READ, result, PROT_READ);
    if (sigsetjmp(before_call, 1) == 0) {
        calling = 1;
        uint32_t got = kizmoolet_live_read(STORE, LIVE, address, &got_area, &got_offset);
        calling = 0;
        counts.results[LIVE_READ][got % NUMBERS]++;
        if (got != result || got_area != area || got_offset != offset) {
            differs("what is told of", "the live read");
            if (printed <= 20)
                printf("  address %" PRIu32 ": result %" PRIu32 ", area %" PRIu32 ", offset %" PRIu64 ", should %" PRIu32
                       ", %" PRIu32 ", %" PRIu64 "\n",
                    address, got, got_area, got_offset, result, area, offset);
        } else {
            compare_page(area, offset, length);
            count_read_only(LIVE_READ, result);
            if (result == KIZMOOLET_OK)
                counts.pages[area % 3]++;
        }
    } else {
        calling = 0;
        tell_fault();
    }
    protect_for(LIVE_READ, result, PROT_READ | PROT_WRITE);
    check_margins();
}

/* A function of its own: nothing of it is alive where a call jumps back. */
static __attribute__((noinline)) uint64_t stale_pages(void)
{
    return kizmoolet_stale_pages(areas[MARKS].bytes, areas[MARKS].length);
}

static void run_copy_step(void)
{
    uint32_t budget = (uint32_t)get_number(), result = (uint32_t)get_number();
    uint64_t copied = get_number();
    static uint64_t got_copied;
    got_copied = ~copied; /* another number than is due: it must be written */
    uint64_t stale = stale_pages();
    counts.calls++;
    call_told = false;
    protect_for(STEP, result, PROT_READ);
    if (sigsetjmp(before_call, 1) == 0) {
        calling = 1;
        uint32_t got = kizmoolet_copy_step(STORE, LIVE, budget, &got_copied);
        calling = 0;
        counts.results[STEP][got % NUMBERS]++;
        if (got != result || got_copied != copied) {
            differs("what is told of", "the step");
            if (printed <= 20)
                printf("  budget %" PRIu32 ": result %" PRIu32 ", copied %" PRIu64 ", should %" PRIu32 ", %" PRIu64 "\n",
                    budget, got, got_copied, result, copied);
        } else {
            count_read_only(STEP, result);
            counts.copied += copied;
            if (stale_pages() != stale - copied)
                differs("the stale pages that are left by", "the step");
        }
    } else {
        calling = 0;
        tell_fault();
    }
    protect_for(STEP, result, PROT_READ | PROT_WRITE);
    check_margins();
}

/* The list of work orders: what it must hold, and the same by the function for hosts. */
static void compare_orders(uint64_t count)
{
    const uint8_t *list = areas[LIST].bytes;
    for (size_t i = 0; i < count; i++)
        if (kizmoolet_order_at(list, i) != (uint32_t)list[2 * i] * 256 + list[2 * i + 1]) {
            differs("a work order, taken from", "the list");
            break;
        }
}

static void run_work_orders(void)
{
    uint32_t moment = (uint32_t)get_number();
    get_area(&areas[LIST]);
    uint32_t result = (uint32_t)get_number();
    uint64_t count = get_number();
    static uint64_t got_count;
    got_count = ~count; /* another number than is due: it must be written */
    counts.calls++;
    call_told = false;
    protect_for(LISTING, result, PROT_READ);
    if (sigsetjmp(before_call, 1) == 0) {
        calling = 1;
        uint32_t got = kizmoolet_work_orders(STORE, moment, LENT(LIST), &got_count);
        calling = 0;
        counts.results[LISTING][got % NUMBERS]++;
        if (got != result || got_count != count) {
            differs("what is told of", "the listing");
            if (printed <= 20)
                printf("  moment %" PRIu32 ", space %zu: result %" PRIu32 ", count %" PRIu64 ", should %" PRIu32 ", %" PRIu64 "\n",
                    moment, areas[LIST].length, got, got_count, result, count);
        } else {
            count_read_only(LISTING, result);
            counts.orders += count;
        }
    } else {
        calling = 0;
        tell_fault();
    }
    protect_for(LISTING, result, PROT_READ | PROT_WRITE);
    compare_area(&areas[LIST], area_names[LIST]);
    compare_orders(count);
    check_margins();
}

static void print_numbers(const uint64_t *numbers, int from)
{
    const char *before = "";
    bool some = false;
    for (int i = from; i < NUMBERS; i++)
        if (numbers[i] != 0) {
            printf("%s%d: %" PRIu64, before, i, numbers[i]);
            before = ", ";
            some = true;
        }
    if (!some)
        printf("none");
}

/* Of each kind of calls its results. */
static void print_kinds(uint64_t (*numbers)[NUMBERS])
{
    for (int kind = FRESH; kind < KINDS; kind++) {
        printf("%s%s ", kind == FRESH ? "" : "; ", kind_names[kind]);
        print_numbers(numbers[kind], 0);
    }
}

static void end_family(void)
{
    char name[64] = { 0 };
    uint64_t length = get_number();
    if (length >= sizeof name)
        fail("the family's name is too long");
    get(name, length);
    printf("  %s: %" PRIu64 " calls, %" PRIu64 " requests answered, %" PRIu64
           " times all areas compared, %" PRIu64 " calls differ\n    results: ",
        name, counts.calls, counts.answered, counts.compared, counts.differ);
    print_kinds(counts.results);
    printf("; refusals ");
    print_numbers(counts.refusals, 1);
    printf("\n    pages of live reads: on the disk %" PRIu64 ", in the slab %" PRIu64 ", none %" PRIu64 "; copied %" PRIu64
           "; work orders listed %" PRIu64 "\n",
        counts.pages[KIZMOOLET_AREA_DISK], counts.pages[KIZMOOLET_AREA_SLAB], counts.pages[KIZMOOLET_AREA_NONE], counts.copied,
        counts.orders);
    if (protecting) {
        printf("    on areas that may only be read: ");
        print_kinds(counts.read_only);
        printf("\n");
    }
    for (int i = 0; i < NUMBERS; i++) {
        for (int kind = FRESH; kind < KINDS; kind++) {
            seen[kind][i] += counts.results[kind][i];
            seen_read_only[kind][i] += counts.read_only[kind][i];
        }
        seen[A_BATCH][i] += counts.refusals[i];
    }
    memset(&counts, 0, sizeof counts);
}

static void get_note(void)
{
    char line[256] = { 0 };
    uint64_t length = get_number();
    if (length >= sizeof line)
        fail("a line is too long");
    get(line, length);
    printf("    %s\n", line);
}

/* May a call of this kind have this result, or a request of it this refusal? */
static bool may_be(int kind, int number)
{
    bool table_check = number == KIZMOOLET_OK || refused((uint64_t)number);
    switch (kind) {
    case FRESH:
        return number == KIZMOOLET_OK || number == KIZMOOLET_OUT_OF_RANGE;
    case A_BATCH:
        return true;
    case LIVE_READ:
        return table_check || number == KIZMOOLET_ADDRESS_TOO_HIGH;
    case LISTING:
        return (table_check && number != KIZMOOLET_DISK_UNFIT) || number == KIZMOOLET_MOMENT_TOO_EARLY
            || number == KIZMOOLET_MOMENT_TOO_LATE || number == KIZMOOLET_ANSWERS_FULL;
    default:
        return table_check;
    }
}

/* And then on areas that may only be read? */
static bool may_be_read_only(int kind, int number)
{
    return may_be(kind, number) && (refused((uint64_t)number) || kind >= LIVE_READ);
}

static void *work(void *result)
{
    bool *good = result;
    /* A fault is told from a stack of its own. */
    static uint8_t fault_stack[1 << 16];
    stack_t stack = { .ss_sp = fault_stack, .ss_size = sizeof fault_stack };
    struct sigaction action = { .sa_sigaction = on_fault, .sa_flags = SA_SIGINFO | SA_ONSTACK };
    if (protecting
        && (sigaltstack(&stack, NULL) != 0 || sigaction(SIGSEGV, &action, NULL) != 0
            || sigaction(SIGBUS, &action, NULL) != 0))
        fail("faults cannot be told");
    for (;;) {
        uint8_t tag;
        get(&tag, 1);
        if (tag == 'L') {
            for (int i = HEAD; i <= MARKS; i++)
                get_area(&areas[i]);
        } else if (tag == 'Y') {
            copy_areas();
        } else if (tag == 'F') {
            run_fresh();
        } else if (tag == 'M') {
            kizmoolet_make_stale(areas[MARKS].bytes, areas[MARKS].length);
        } else if (tag == 'B') {
            run_batch();
        } else if (tag == 'R') {
            run_live_read();
        } else if (tag == 'S') {
            run_copy_step();
        } else if (tag == 'O') {
            run_work_orders();
        } else if (tag == 'C') {
            counts.compared++;
            for (int i = HEAD; i <= MARKS; i++)
                compare_area(&areas[i], area_names[i]);
        } else if (tag == 'E') {
            end_family();
        } else if (tag == 'N') {
            get_note();
        } else if (tag == 'Z') {
            all_differ += get_number();
            break;
        } else {
            fail("no such record");
        }
    }
    *good = all_differ == 0;
    for (int kind = FRESH; kind < KINDS; kind++)
        for (int i = 0; i < NUMBERS_END; i++)
            if ((all_families && may_be(kind, i) && seen[kind][i] == 0)
                || (protecting && may_be_read_only(kind, i) && seen_read_only[kind][i] == 0)) {
                printf("  never seen of %s: %d\n", kind_names[kind], i);
                *good = false;
            }
    printf("  in all %" PRIu64 " calls differ\n", all_differ);
    return NULL;
}

int main(int argc, char **argv)
{
    exact = argc > 1 && strcmp(argv[1], "exact") == 0;
    protecting = argc > 1 && strcmp(argv[1], "protected") == 0;
    all_families = argc > 2 && strcmp(argv[2], "all") == 0;
    only_first = argc > 2 && strcmp(argv[2], "first") == 0;
    size_t page = (size_t)sysconf(_SC_PAGESIZE);
    if (most_bytes % page != 0)
        fail("a page is larger than thought");
    expected = malloc(most_bytes);
    if (expected == NULL)
        fail("no memory");
    for (int i = 0; i < AREAS && !exact; i++) {
        uint8_t *whole = mmap(NULL, most_bytes + 2 * page, PROT_NONE,
            MAP_PRIVATE | MAP_ANONYMOUS | MAP_NORESERVE, -1, 0);
        if (whole == MAP_FAILED || mprotect(whole + page, most_bytes, PROT_READ | PROT_WRITE) != 0)
            fail("no memory");
        areas[i].between = whole + page;
    }
    /* The host itself takes little of the stack. */
    pthread_attr_t attributes;
    pthread_t thread;
    bool good = false;
    if (pthread_attr_init(&attributes) != 0
        || pthread_attr_setstacksize(&attributes, (size_t)KIZMOOLET_STACK_BYTES + (128 << 10)) != 0
        || pthread_create(&thread, &attributes, work, &good) != 0
        || pthread_join(thread, NULL) != 0)
        fail("no thread");
    pthread_attr_destroy(&attributes);
    for (int i = 0; i < AREAS && exact; i++)
        free(areas[i].bytes);
    free(expected);
    return good ? 0 : 1;
}
