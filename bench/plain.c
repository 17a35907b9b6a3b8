/* (c) The same job in plain C, not verified: the same byte tables, the same checks, refusals and counts; it too remembers within a
   batch below which place none is free. It works on the bytes in place, and renames the places of the rows that moved one by one,
   where the library passes over the place table. Below the last gap between the branch rows, where the library searches the rows for a
   moment, it searches among the stretches that the gaps leave, with an index by ranges of moments. The live disk's marks it
   passes over eight at a time. */
#include <string.h>
#include "store.h"

static void set_record(struct areas *s, size_t i, struct record r)
{
    uint8_t *p = s->records + 12 * i;
    put32(p, r.address);
    put32(p + 4, r.moment);
    put32(p + 8, r.place);
}

/* Which counted row has this name; the count where none has. */
static size_t row_called(const struct areas *s, struct name x)
{
    size_t i = 0, n = head_names(s);
    while (i < n && (name_at(s, i).high != x.high || name_at(s, i).low != x.low))
        i++;
    return i;
}

/* ---- the table checks */

/* Branch rows that follow one another without a gap are one stretch of moments. `first[k]` is the last stretch that starts at the
   moment k << shift or before. */
struct stretches {
    size_t n;
    uint32_t start[4096], end[4096];
    unsigned shift;
    uint16_t first[2 * 4096 + 2];
};

/* The last of the stretches lo to hi that starts at the moment or before, where lo does; as many turns for every moment. */
static size_t last_from(const struct stretches *t, size_t lo, size_t hi, uint32_t moment)
{
    const uint32_t *at = t->start + lo;
    for (size_t n = hi - lo + 1; n > 1;) {
        size_t half = n / 2;
        at += at[half] <= moment ? half : 0;
        n -= half;
    }
    return (size_t)(at - t->start);
}

/* Whether a stretch holds the moment. From the start of the last one on there is no gap: most moments need no search. */
static int held(const struct stretches *t, uint32_t moment)
{
    size_t last = t->n - 1;
    return moment <= t->end[moment >= t->start[last] ? last : last_from(t, 0, last, moment)];
}

/* So that a search begins with a stretch or two in place of all. */
static void number_ranges(struct stretches *t)
{
    uint32_t last = t->start[t->n - 1];
    t->shift = 0;
    while (last >> t->shift >= 2 * t->n)
        t->shift++;
    for (size_t k = 0, i = 0; k <= (last >> t->shift) + 1; k++) {
        while (i + 1 < t->n && t->start[i + 1] <= (uint64_t)k << t->shift)
            i++;
        t->first[k] = (uint16_t)i;
    }
}

static int held_by_range(const struct stretches *t, uint32_t moment)
{
    size_t last = t->n - 1, k = moment >> t->shift;
    return moment >= t->start[last] || moment <= t->end[last_from(t, t->first[k], t->first[k + 1], moment)];
}

/* Check 1. */
static int in_range(const struct areas *s)
{
    size_t b = s->branches_len / KIZMOOLET_BRANCH_BYTES, r = s->records_len / 12, p = s->places_len / 4;
    if (s->branches_len % KIZMOOLET_BRANCH_BYTES || s->records_len % 12 || s->places_len % 4)
        return 0;
    if (b < 1 || b > 4096 || r < 1 || r > 65536 || p < 1 || p > 65536 || s->slab_len != PAGE * p)
        return 0;
    return head_size(s) >= 1 && head_size(s) <= 65536 && head_branches(s) >= 1 && head_branches(s) <= b && head_records(s) <= r
        && head_floor(s) <= head_now(s) && head_names(s) <= KIZMOOLET_MOST_NAMES;
}

/* The branches of check 2, and their stretches. */
static int branches_sound(const struct areas *s, struct stretches *t)
{
    struct branch x = branch_at(s, 0);
    uint32_t floor = head_floor(s), n = head_branches(s), end = x.end;
    if (x.start != 0 || x.cut != 0 || x.order != 0)
        return 0;
    t->n = 1;
    t->start[0] = 0;
    t->end[0] = end;
    for (size_t i = 1; i < n; i++) {
        x = branch_at(s, i);
        if (x.end < x.start || x.start <= end || x.order > KIZMOOLET_MOST_ORDER || !held(t, x.cut))
            return 0;
        if (x.start != end + 1) {
            if (x.start > floor)
                return 0;
            t->start[t->n++] = x.start;
        }
        t->end[t->n - 1] = end = x.end;
    }
    return end == OPEN_END && x.start <= head_now(s);
}

/* The names of check 2. */
static int names_sound(const struct areas *s, const struct stretches *t)
{
    for (size_t i = 0; i < head_names(s); i++) {
        struct name x = name_at(s, i);
        if (row_called(s, x) != i || x.moment >= head_now(s) || !held(t, x.moment))
            return 0;
    }
    return 1;
}

/* How many counted record rows stand before the first that breaks a rule, by itself or against the row before it. */
static size_t rows_kept(const struct areas *s, const struct stretches *t)
{
    uint32_t size = head_size(s), n = head_records(s), now = head_now(s);
    size_t places = s->places_len / 4, i = 0;
    uint64_t least = 0; /* of an address and a moment, as one number */
    for (; i < n; i++) {
        struct record x = record_at(s, i);
        uint64_t key = (uint64_t)x.address << 32 | x.moment;
        if (key < least || x.address >= size || x.moment > now || x.place >= places)
            break;
        if (get32(s->places + 4 * (size_t)x.place) != i + 1 || !held_by_range(t, x.moment))
            break;
        least = key + 1;
    }
    return i;
}

static size_t places_in_use(const struct areas *s)
{
    size_t used = 0;
    for (size_t i = 0; i < s->places_len; i += 4)
        used += get32(s->places + i) != 0;
    return used;
}

/* Eight marks, or zeros past the last one, as one number; bit 0 of each byte says that the page is current. */
#define MARKS_OF(mark) ((mark) * 0x0101010101010101u)

static uint64_t eight_marks(const uint8_t *marks, size_t n)
{
    uint64_t eight = 0;
    memcpy(&eight, marks, n < 8 ? n : 8);
    return eight;
}

static int disk_fits(const struct areas *s)
{
    uint64_t any = 0;
    if (s->disk_len != PAGE * (size_t)head_size(s) || s->marks_len != head_size(s))
        return 0;
    size_t i = 0;
    for (; i + 8 <= s->marks_len; i += 8)
        any |= eight_marks(s->marks + i, 8);
    any |= eight_marks(s->marks + i, s->marks_len - i);
    return (any & ~MARKS_OF(3)) == 0;
}

/* The refusal of the table checks, 0 where there is none, and how many record rows they read; the live disk is none of theirs. */
static unsigned check(const struct areas *s, uint64_t *rows)
{
    struct stretches t;
    *rows = 0;
    if (!in_range(s))
        return 1;
    if (!branches_sound(s, &t) || !names_sound(s, &t))
        return 2;
    number_ranges(&t);
    size_t kept = rows_kept(s, &t), n = head_records(s);
    *rows = kept < n ? kept + 1 : n;
    return kept < n || places_in_use(s) != n ? 3 : 0;
}

/* ---- the requests */

/* How many records stand up to (address, moment), itself included. */
static size_t up_to(const struct areas *s, uint32_t address, uint32_t moment)
{
    size_t lo = 0, hi = head_records(s);
    while (lo < hi) {
        size_t mid = lo + (hi - lo) / 2;
        uint32_t a = get32(s->records + 12 * mid);
        if (a < address || (a == address && get32(s->records + 12 * mid + 4) <= moment))
            lo = mid + 1;
        else
            hi = mid;
    }
    return lo;
}

static struct found lookup(const struct areas *s, uint32_t address, uint32_t moment)
{
    size_t j = up_to(s, address, moment);
    for (size_t i = head_branches(s); i-- > 0;) {
        struct branch b = branch_at(s, i);
        if (moment < b.start || b.end < moment)
            continue;
        while (j > 0) {
            struct record r = record_at(s, j - 1);
            if (r.address != address)
                return NOTHING;
            if (r.moment <= moment) {
                if (r.moment >= b.start)
                    return (struct found){s->slab + PAGE * r.place, r.moment};
                break;
            }
            j--;
        }
        moment = b.cut;
    }
    return NOTHING;
}

/* A page that was put into the store goes to the live disk too. */
static void put_live(struct areas *s, uint32_t address, const uint8_t *page)
{
    memcpy(s->disk + PAGE * (size_t)address, page, PAGE);
    s->marks[address] = KIZMOOLET_MARK_CURRENT;
}

/* A page at (address, now). No place below *from is free: a new record's place is looked for from there on. */
static unsigned write_page(struct areas *s, size_t *from, uint32_t address, const uint8_t *page)
{
    if (address >= head_size(s))
        return 4;
    uint32_t now = head_now(s);
    size_t n = head_records(s), at = up_to(s, address, now);
    if (at > 0) {
        struct record r = record_at(s, at - 1);
        if (r.address == address && r.moment == now) {
            memcpy(s->slab + PAGE * r.place, page, PAGE);
            put_live(s, address, page);
            return 0;
        }
    }
    if (n >= s->records_len / 12)
        return 5;
    size_t place = *from, places = s->places_len / 4;
    while (place < places && get32(s->places + 4 * place) != 0)
        place++;
    *from = place;
    if (place == places)
        return 6;
    memmove(s->records + 12 * (at + 1), s->records + 12 * at, 12 * (n - at));
    for (size_t i = at + 1; i <= n; i++)
        put32(s->places + 4 * get32(s->records + 12 * i + 8), (uint32_t)i + 1);
    set_record(s, at, (struct record){address, now, (uint32_t)place});
    put32(s->places + 4 * place, (uint32_t)at + 1);
    memcpy(s->slab + PAGE * place, page, PAGE);
    put_live(s, address, page);
    put32(s->head + 8, (uint32_t)n + 1);
    return 0;
}

/* Every page becomes stale; blank marks stay. */
static void make_stale(struct areas *s)
{
    uint8_t *marks = s->marks;
    size_t i = 0, n = s->marks_len;
    for (; i + 8 <= n; i += 8) {
        uint64_t eight = eight_marks(marks + i, 8) & MARKS_OF(KIZMOOLET_MARK_BLANK);
        memcpy(marks + i, &eight, 8);
    }
    for (; i < n; i++)
        marks[i] &= KIZMOOLET_MARK_BLANK;
}

/* The first stale page from an address on; how many pages there are, where none is. */
static size_t next_stale(const struct areas *s, size_t address)
{
    size_t n = s->marks_len;
    while (address < n && s->marks[address] & KIZMOOLET_MARK_CURRENT) {
        address++;
        while (address + 8 <= n
            && (eight_marks(s->marks + address, 8) & MARKS_OF(KIZMOOLET_MARK_CURRENT)) == MARKS_OF(KIZMOOLET_MARK_CURRENT))
            address += 8;
    }
    return address;
}

/* From the floor on, or named. */
static int readable(const struct areas *s, uint32_t moment)
{
    int is = moment >= head_floor(s);
    for (size_t i = 0; !is && i < head_names(s); i++)
        is = name_at(s, i).moment == moment;
    return is;
}

static unsigned revert(struct areas *s, uint32_t moment, uint32_t order)
{
    uint32_t now = head_now(s);
    size_t n = head_branches(s);
    if (!readable(s, moment))
        return 8;
    if (moment >= now)
        return 9;
    if (now == OPEN_END)
        return 10;
    if (n >= s->branches_len / KIZMOOLET_BRANCH_BYTES)
        return 7;
    put32(s->branches + KIZMOOLET_BRANCH_BYTES * (n - 1) + 4, now);
    set_branch(s, n, (struct branch){now + 1, OPEN_END, moment, order});
    put32(s->head + 4, (uint32_t)n + 1);
    put32(s->head + 12, now + 1);
    make_stale(s);
    return 0;
}

static unsigned reclaim(struct areas *s, uint32_t floor, uint32_t *freed)
{
    static struct marking m;
    static uint32_t addresses[65536], moments[65536];
    static uint8_t kept[65536];
    if (floor < head_floor(s))
        return 8;
    if (floor > head_now(s))
        return 9;
    size_t n = head_records(s), w = 0;
    m.n = head_branches(s);
    m.floor = floor;
    for (size_t i = 0; i < m.n; i++)
        m.rows[i] = branch_at(s, i);
    m.named_count = head_names(s);
    for (size_t i = 0; i < m.named_count; i++)
        m.named[i] = name_at(s, i).moment;
    find_parents(&m);
    for (size_t i = 0; i < n; i++) {
        addresses[i] = get32(s->records + 12 * i);
        moments[i] = get32(s->records + 12 * i + 4);
    }
    mark_records(&m, addresses, moments, n, kept);
    mark_branches(&m, moments, n, kept);
    for (size_t i = 0; i < n; i++) {
        struct record r = record_at(s, i);
        if (kept[i])
            set_record(s, w++, r);
        put32(s->places + 4 * r.place, kept[i] ? (uint32_t)w : 0);
    }
    memset(s->records + 12 * w, 0, 12 * (n - w));
    *freed = (uint32_t)(n - w);
    put32(s->head + 8, (uint32_t)w);
    w = 0;
    for (size_t i = 0; i < m.n; i++)
        if (m.kept[i])
            set_branch(s, w++, (struct branch){m.rows[i].start, m.rows[i].end, m.cut[i], m.rows[i].order});
    memset(s->branches + KIZMOOLET_BRANCH_BYTES * w, 0, KIZMOOLET_BRANCH_BYTES * (m.n - w));
    put32(s->head + 4, (uint32_t)w);
    put32(s->head + 16, floor);
    return 0;
}

static unsigned give(struct areas *s, struct name x)
{
    size_t n = head_names(s);
    if (!readable(s, x.moment))
        return 8;
    if (x.moment >= head_now(s))
        return 9;
    if (row_called(s, x) < n)
        return 15;
    if (n == KIZMOOLET_MOST_NAMES)
        return 16;
    put32(s->names + 12 * n, x.high);
    put32(s->names + 12 * n + 4, x.low);
    put32(s->names + 12 * n + 8, x.moment);
    put32(s->head + 20, (uint32_t)n + 1);
    return 0;
}

/* The later names close up, and the row that becomes free is zero. */
static unsigned withdraw(struct areas *s, struct name x, uint32_t *moment)
{
    size_t n = head_names(s), at = row_called(s, x);
    if (at == n)
        return 17;
    *moment = name_at(s, at).moment;
    memmove(s->names + 12 * at, s->names + 12 * (at + 1), 12 * (n - 1 - at));
    memset(s->names + 12 * (n - 1), 0, 12);
    put32(s->head + 20, (uint32_t)n - 1);
    return 0;
}

/* The stop number of what stands at the front of the input, 0 for a request. */
static unsigned unreadable(const uint8_t *p, size_t left, struct request *q)
{
    if (left < 7)
        return 11;
    *q = request_at(p);
    if (q->operation < WRITE)
        return 12;
    uint32_t unused = q->spare;
    if (q->operation != WRITE && q->operation != READ && q->operation != REVERT)
        unused |= q->address;
    if (q->operation == WRITE || q->operation == MARK || q->operation == WITHDRAW)
        unused |= q->moment;
    if (unused)
        return 13;
    return left < request_bytes(q->operation) ? 11 : 0;
}

/* Takes over head and names, and makes the table checks. */
static unsigned take(struct areas *s, const uint8_t *head, size_t head_len, const uint8_t *names, size_t names_len, uint64_t *rows)
{
    *rows = 0;
    if (head_len != sizeof s->head || names_len != sizeof s->names)
        return 1;
    memcpy(s->head, head, sizeof s->head);
    memcpy(s->names, names, sizeof s->names);
    return check(s, rows);
}

/* The same, and whether the live disk fits. */
static unsigned take_with_disk(struct areas *s, const uint8_t *head, size_t head_len, const uint8_t *names, size_t names_len,
    uint64_t *rows)
{
    unsigned refusal = take(s, head, head_len, names, names_len, rows);
    return refusal ? refusal : disk_fits(s) ? 0 : 18;
}

/* The work orders of the branch that holds the moment, of the one that holds its cut, and so on; how many they are. A cut lies in
   an earlier row, so that one pass from the last row to the first meets them all. */
static size_t orders_from(const struct areas *s, uint32_t moment, uint8_t *list)
{
    size_t count = 0;
    for (size_t i = head_branches(s); i-- > 0;) {
        struct branch b = branch_at(s, i);
        if (moment < b.start || b.end < moment)
            continue;
        list[2 * count] = (uint8_t)(b.order >> 8);
        list[2 * count++ + 1] = (uint8_t)b.order;
        moment = b.cut;
    }
    return count;
}

uint32_t plain_work_orders(const uint8_t *head, size_t head_len, const uint8_t *branches, size_t branches_len,
    const uint8_t *records, size_t records_len, const uint8_t *places, size_t places_len, const uint8_t *names, size_t names_len,
    const uint8_t *slab, size_t slab_len, uint32_t moment, uint8_t *list, size_t list_len, uint64_t *count)
{
    /* the areas are not const in the struct, and are not written to */
    struct areas s = {{0}, {0}, (uint8_t *)branches, (uint8_t *)records, (uint8_t *)places, (uint8_t *)slab, NULL, NULL,
        branches_len, records_len, places_len, slab_len, 0, 0};
    uint8_t all[KIZMOOLET_MOST_LIST_BYTES];
    uint64_t rows;
    *count = 0;
    unsigned refusal = take(&s, head, head_len, names, names_len, &rows);
    if (refusal)
        return refusal;
    if (!readable(&s, moment))
        return 8;
    if (moment > head_now(&s))
        return 9;
    size_t n = orders_from(&s, moment, all);
    if (KIZMOOLET_ORDER_BYTES * n > list_len)
        return 14;
    memcpy(list, all, KIZMOOLET_ORDER_BYTES * n);
    *count = n;
    return 0;
}

uint32_t plain_live_read(const uint8_t *head, size_t head_len, const uint8_t *branches, size_t branches_len, const uint8_t *records,
    size_t records_len, const uint8_t *places, size_t places_len, const uint8_t *names, size_t names_len, const uint8_t *slab,
    size_t slab_len, const uint8_t *disk, size_t disk_len, const uint8_t *marks, size_t marks_len, uint32_t address, uint32_t *area,
    uint64_t *offset)
{
    /* the areas are not const in the struct, and are not written to */
    struct areas s = {{0}, {0}, (uint8_t *)branches, (uint8_t *)records, (uint8_t *)places, (uint8_t *)slab, (uint8_t *)disk,
        (uint8_t *)marks, branches_len, records_len, places_len, slab_len, disk_len, marks_len};
    uint64_t rows;
    *area = KIZMOOLET_AREA_NONE;
    *offset = 0;
    unsigned refusal = take_with_disk(&s, head, head_len, names, names_len, &rows);
    if (refusal)
        return refusal;
    if (address >= head_size(&s))
        return 4;
    if (marks[address] & KIZMOOLET_MARK_CURRENT) {
        if (marks[address] & KIZMOOLET_MARK_BLANK)
            return 0;
        *area = KIZMOOLET_AREA_DISK;
        *offset = PAGE * (uint64_t)address;
        return 0;
    }
    struct found found = lookup(&s, address, head_now(&s));
    if (found.page) {
        *area = KIZMOOLET_AREA_SLAB;
        *offset = (uint64_t)(found.page - slab);
    }
    return 0;
}

uint32_t plain_copy_step(const uint8_t *head, size_t head_len, const uint8_t *branches, size_t branches_len, const uint8_t *records,
    size_t records_len, const uint8_t *places, size_t places_len, const uint8_t *names, size_t names_len, const uint8_t *slab,
    size_t slab_len, uint8_t *disk, size_t disk_len, uint8_t *marks, size_t marks_len, uint32_t budget, uint64_t *copied)
{
    /* the areas are not const in the struct; disk and marks alone are written to */
    struct areas s = {{0}, {0}, (uint8_t *)branches, (uint8_t *)records, (uint8_t *)places, (uint8_t *)slab, disk, marks,
        branches_len, records_len, places_len, slab_len, disk_len, marks_len};
    uint64_t rows, done = 0;
    *copied = 0;
    unsigned refusal = take_with_disk(&s, head, head_len, names, names_len, &rows);
    if (refusal)
        return refusal;
    for (size_t at = 0; done < budget && (at = next_stale(&s, at)) < marks_len; done++, at++) {
        struct found found = lookup(&s, (uint32_t)at, head_now(&s));
        if (found.page)
            put_live(&s, (uint32_t)at, found.page);
        else
            marks[at] = KIZMOOLET_MARK_CURRENT | KIZMOOLET_MARK_BLANK;
    }
    *copied = done;
    return 0;
}

uint32_t plain_batch(uint8_t *head, size_t head_len, uint8_t *branches, size_t branches_len, uint8_t *records, size_t records_len,
    uint8_t *places, size_t places_len, uint8_t *names, size_t names_len, uint8_t *slab, size_t slab_len, uint8_t *disk,
    size_t disk_len, uint8_t *marks, size_t marks_len, const uint8_t *batch, size_t batch_len, uint8_t *answers, size_t answers_len,
    uint64_t *answered, uint64_t *taken, uint64_t *sent, uint64_t *rows)
{
    struct areas s = {{0}, {0}, branches, records, places, slab, disk, marks, branches_len, records_len, places_len, slab_len,
        disk_len, marks_len};
    *answered = *taken = *sent = 0;
    unsigned stop = take_with_disk(&s, head, head_len, names, names_len, rows);
    if (stop)
        return stop;
    size_t at = 0, out = 0, from = 0; /* no place below `from` is free */
    while (at < batch_len) {
        struct request q;
        struct found found = NOTHING;
        uint32_t now = head_now(&s), number = now;
        unsigned refusal = 0;
        stop = unreadable(batch + at, batch_len - at, &q);
        if (stop)
            break;
        if (answers_len - out < KIZMOOLET_ANSWER_BYTES) {
            stop = 14;
            break;
        }
        switch (q.operation) {
        case WRITE:
            refusal = write_page(&s, &from, q.address, batch + at + 7);
            break;
        case MARK:
            if (now == OPEN_END)
                refusal = 10;
            else
                put32(s.head + 12, now + 1);
            break;
        case REVERT:
            refusal = revert(&s, q.moment, q.address);
            break;
        case READ:
            number = q.moment;
            if (q.address >= head_size(&s))
                refusal = 4;
            else if (!readable(&s, q.moment))
                refusal = 8;
            else if (q.moment > now)
                refusal = 9;
            else
                found = lookup(&s, q.address, q.moment);
            break;
        case RECLAIM:
            refusal = reclaim(&s, q.moment, &number);
            from = 0;
            break;
        case GIVE:
            number = q.moment;
            refusal = give(&s, name_in(batch + at, q.moment));
            break;
        case WITHDRAW:
            refusal = withdraw(&s, name_in(batch + at, 0), &number);
            break;
        }
        if (found.page && answers_len - out < KIZMOOLET_PAGE_ANSWER_BYTES) {
            stop = 14;
            break;
        }
        out = (size_t)(put_answer(answers + out, refusal, refusal ? 0 : number, found) - answers);
        at += request_bytes(q.operation);
        ++*answered;
    }
    memcpy(head, s.head, sizeof s.head);
    memcpy(names, s.names, sizeof s.names);
    *taken = at;
    *sent = out;
    return stop;
}
