/* Stores of several shapes for the programs that time a reclaim and a table check by themselves: all branches in use, as many moments
   each, without a gap. */
#include <string.h>
#include "store.h"

enum shape { DISTINCT, ONE, WEEKLY, SPREAD, ENDS, YOUNG, DRAWN, GAPS, SHAPES };
static const char *const shape_names[SHAPES] = {
    "distinct", "one address", "weekly", "spread", "both ends", "nothing older", "drawn", "gaps"};

static uint32_t drawn_state;

static uint32_t drawn(uint32_t below)
{
    drawn_state = drawn_state * 1664525u + 1013904223u;
    return (uint32_t)((uint64_t)drawn_state * below >> 32);
}

static int by_address(const void *x, const void *y)
{
    const struct record *a = x, *b = y;
    if (a->address != b->address)
        return a->address < b->address ? -1 : 1;
    return a->moment < b->moment ? -1 : a->moment > b->moment;
}

/* The moments of a branch. */
static uint32_t width_of(uint32_t n, uint32_t b)
{
    return n / (b - 2) + 4;
}

/* A drawn moment below this one; of the shape with gaps not the last of a branch. */
static uint32_t drawn_moment(enum shape shape, uint32_t below, uint32_t width)
{
    uint32_t moment = drawn(below);
    return shape == GAPS && moment % width == width - 1 ? moment - 1 : moment;
}

static uint32_t cut_of(enum shape shape, uint32_t k, uint32_t width)
{
    if (k == 0)
        return 0;
    if (shape == WEEKLY || shape == ENDS)
        return k * width - 2;
    return shape == SPREAD || shape == DRAWN || shape == GAPS ? drawn_moment(shape, k * width, width) : 0;
}

/* A record of each shape; `rows` branches of `width` moments. */
static struct record record_of(enum shape shape, uint32_t i, uint32_t count, uint32_t rows, uint32_t width)
{
    uint32_t k;
    switch (shape) {
    case DISTINCT: /* each its own address: every second at moment 0, the others in a branch before the middle */
        return (struct record){i, i % 2 == 0 ? 0 : (1 + i / 2 % (rows / 2 - 1)) * width + 1, 0};
    case ENDS: /* two for each address, at both ends of a chain of branches */
        return (struct record){i / 2, i % 2 == 0 ? 1 : (rows - 1) * width + 1, 0};
    case SPREAD: /* sixteen for each address, over all branches */
        return (struct record){i / 16, i % 16 * (rows * width / 16) + drawn(rows * width / 16), 0};
    case WEEKLY: /* 4,096 addresses, over and over */
        k = (uint32_t)((uint64_t)i * rows / count);
        return (struct record){i * 40503u % 4096, k * width + 1 + i % (width - 2), 0};
    case DRAWN: /* each its own address, at any moment */
    case GAPS:
        return (struct record){i, drawn_moment(shape, rows * width, width), 0};
    default: /* one address; one at moment 0, the others over all branches */
        k = i == 0 ? 0 : (uint32_t)((uint64_t)(i - 1) * (rows - 2) / count + 1);
        return (struct record){300, i == 0 ? 0 : k * width + i % (width - 1), 0};
    }
}

/* The records in their order, each once, in places all over the table; how many there are. */
static uint32_t make_records(struct areas *s, enum shape shape, uint32_t n, uint32_t b)
{
    uint32_t count = 0;
    struct record *r = room(n * sizeof *r);
    for (uint32_t i = 0; i < n; i++)
        r[i] = record_of(shape, i, n, b, width_of(n, b));
    qsort(r, n, sizeof *r, by_address);
    for (uint32_t i = 0; i < n; i++)
        if (count == 0 || by_address(&r[count - 1], &r[i]) != 0)
            r[count++] = r[i];
    for (uint32_t i = 0; i < count; i++) {
        uint32_t place = (uint32_t)((uint64_t)i * 40503u % n);
        while (get32(s->places + 4 * (size_t)place) != 0)
            place = (place + 1) % n;
        put32(s->records + 12 * (size_t)i, r[i].address);
        put32(s->records + 12 * (size_t)i + 4, r[i].moment);
        put32(s->records + 12 * (size_t)i + 8, place);
        put32(s->places + 4 * (size_t)place, i + 1);
    }
    free(r);
    return count;
}

/* A store with tables of n records and places and b branches, the floor at 0. */
static void make(struct areas *s, enum shape shape, uint32_t n, uint32_t b)
{
    uint32_t width = width_of(n, b);
    drawn_state = 20261;
    *s = (struct areas){.branches_len = KIZMOOLET_BRANCH_BYTES * (size_t)b, .records_len = 12 * (size_t)n,
        .places_len = 4 * (size_t)n, .slab_len = PAGE * (size_t)n};
    s->branches = room(s->branches_len);
    s->records = room(s->records_len);
    s->places = room(s->places_len);
    s->slab = room(s->slab_len);
    for (uint32_t k = 0; k < b; k++) {
        uint32_t end = k == b - 1 ? OPEN_END : (k + 1) * width - 1;
        set_branch(s, k, (struct branch){k * width, end, cut_of(shape, k, width), order_of(k)});
    }
    const uint32_t head[6] = {65536, b, make_records(s, shape, n, b), b * width - 1, 0, 0};
    for (int i = 0; i < 6; i++)
        put32(s->head + 4 * i, head[i]);
    lend_disk(s);
}
