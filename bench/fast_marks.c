/* Which records a reclaim keeps, in a few searches a record. The moments that decide (the floor, the starts above it, and the
   named ones) are numbered so that those whose lookup comes by a moment have one span of numbers; records go from the last to the first,
   and one is kept where its span has a number that no later record of its address has. */
#include <stdlib.h>
#include <string.h>
#include "store.h"

#define MOST 8224 /* events: 4,129 moments and 4,095 cuts */

static uint64_t keys[MOST], taken[MOST];
static uint32_t sums[MOST + 1], edges[4096], firsts[4096];
static size_t events;

static int falling(const void *x, const void *y)
{
    uint64_t a = *(const uint64_t *)x, b = *(const uint64_t *)y;
    return a < b ? 1 : a > b ? -1 : 0;
}

/* How many events have the moment m or a later one; c and the next number are tried first. */
static int is_above(uint64_t m, size_t c)
{
    return (c == 0 || m <= keys[c - 1] >> 32) && (c == events || keys[c] >> 32 < m);
}

static size_t above(uint64_t m, size_t c)
{
    if (is_above(m, c))
        return c;
    if (c < events && is_above(m, c + 1))
        return c + 1;
    size_t lo = 0, hi = events;
    while (lo < hi) {
        size_t mid = lo + (hi - lo) / 2;
        if (m <= keys[mid] >> 32)
            lo = mid + 1;
        else
            hi = mid;
    }
    return lo;
}

/* The row that holds the moment m; i and the one before it are tried first. */
static size_t row_near(const struct marking *m, uint32_t moment, size_t i)
{
    if (m->rows[i].start <= moment) {
        if (moment <= m->rows[i].end)
            return i;
    } else if (i > 0 && m->rows[i - 1].start <= moment) {
        return i - 1;
    }
    return row_holding(m->rows, m->n, moment);
}

static void number_moments(const struct marking *m)
{
    events = 0;
    keys[events++] = (uint64_t)m->floor << 32;
    for (size_t i = m->n; i-- > 0;)
        if (m->rows[i].start > m->floor)
            keys[events++] = (uint64_t)m->rows[i].start << 32;
    for (size_t i = 0; i < m->named_count; i++)
        keys[events++] = (uint64_t)m->named[i] << 32;
    for (size_t i = 1; i < m->n; i++)
        keys[events++] = (uint64_t)m->rows[i].cut << 32 | i;
    qsort(keys, events, sizeof *keys, falling);
    size_t c = 0;
    for (size_t i = m->n; i-- > 0;)
        edges[i] = (uint32_t)(c = above((uint64_t)m->rows[i].end + 1, c));
    sums[0] = 0;
    for (size_t k = 0; k < events; k++) {
        uint32_t j = (uint32_t)keys[k];
        sums[k + 1] = sums[k] + (j == 0 ? 1 : sums[edges[j - 1]] - sums[edges[j]]);
    }
    firsts[0] = 0;
    size_t p = 0;
    for (size_t k = events; k-- > 0;) {
        uint32_t j = (uint32_t)keys[k];
        if (j == 0)
            continue;
        p = row_near(m, (uint32_t)(keys[k] >> 32), p);
        firsts[j] = firsts[p] + (sums[k] - sums[edges[p]]);
    }
}

void mark_spans(const struct marking *m, const uint32_t *addresses, const uint32_t *moments, size_t count, uint8_t *kept)
{
    int older = 0;
    for (size_t k = 0; k < count; k++) {
        kept[k] = moments[k] >= m->floor;
        older |= !kept[k];
    }
    if (!older)
        return;
    number_moments(m);
    memset(taken, 0, events * sizeof *taken);
    size_t near = 0, at = 0;
    for (size_t k = count; k-- > 0;) {
        near = row_near(m, moments[k], near);
        at = above(moments[k], at);
        uint32_t lo = firsts[near], hi = lo + (sums[at] - sums[edges[near]]), p = lo;
        if (hi <= lo)
            continue;
        while (p < hi && taken[p] >> 32 == addresses[k] && (uint32_t)taken[p])
            p = (uint32_t)taken[p];
        taken[lo] = (uint64_t)addresses[k] << 32 | hi;
        kept[k] |= p < hi;
    }
}
