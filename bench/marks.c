/* What a reclaim keeps. Records by the slow method, an address at a time: those from the floor on, what the lookups at the
   floor and at the named moments give, and what is found at the start of each branch that begins above the floor.
   fast_marks.c has the fast method. Then the branches: the first, one that ends at or above the floor, holds a named moment or
   a kept record; where a parent goes, its cut is taken over, from the oldest row to the newest. */
#include "store.h"

size_t row_holding(const struct branch *rows, size_t n, uint32_t moment)
{
    size_t lo = 0, hi = n;
    while (lo + 1 < hi) {
        size_t mid = lo + (hi - lo) / 2;
        if (rows[mid].start <= moment)
            lo = mid;
        else
            hi = mid;
    }
    return lo;
}

void find_parents(struct marking *m)
{
    m->parent[0] = 0;
    for (size_t i = 1; i < m->n; i++)
        m->parent[i] = (uint32_t)row_holding(m->rows, i, m->rows[i].cut);
}

void mark_branches(struct marking *m, const uint32_t *moments, size_t count, const uint8_t *kept)
{
    for (size_t i = 0; i < m->n; i++)
        m->kept[i] = i == 0 || m->rows[i].end >= m->floor;
    for (size_t i = 0; i < m->named_count; i++)
        m->kept[row_holding(m->rows, m->n, m->named[i])] = 1;
    for (size_t k = 0; k < count; k++)
        if (kept[k] && moments[k] < m->floor)
            m->kept[row_holding(m->rows, m->n, moments[k])] = 1;
    m->cut[0] = m->rows[0].cut;
    for (size_t i = 1; i < m->n; i++)
        m->cut[i] = m->kept[m->parent[i]] ? m->rows[i].cut : m->cut[m->parent[i]];
}

/* One more than the last of the group's records with a moment from `from` to `to`, else `other`. */
static uint32_t latest(const uint32_t *moments, size_t count, uint32_t from, uint32_t to, uint32_t other)
{
    size_t lo = 0, hi = count;
    while (lo < hi) {
        size_t mid = lo + (hi - lo) / 2;
        if (moments[mid] <= to)
            lo = mid + 1;
        else
            hi = mid;
    }
    return lo > 0 && moments[lo - 1] >= from ? (uint32_t)lo : other;
}

/* What the lookup at a moment gives is kept. */
static void mark_found(const struct marking *m, const uint32_t *moments, size_t count, uint32_t moment, uint8_t *kept)
{
    size_t at = row_holding(m->rows, m->n, moment);
    uint32_t found = latest(moments, count, m->rows[at].start, moment, m->inherited[at]);
    if (found)
        kept[found - 1] = 1;
}

static void mark_group(struct marking *m, const uint32_t *moments, size_t count, uint8_t *kept)
{
    for (size_t i = 0; i < count; i++)
        kept[i] = moments[i] >= m->floor;
    if (kept[0])
        return;
    m->inherited[0] = 0;
    for (size_t i = 1; i < m->n; i++) {
        uint32_t p = m->parent[i];
        m->inherited[i] = latest(moments, count, m->rows[p].start, m->rows[i].cut, m->inherited[p]);
    }
    mark_found(m, moments, count, m->floor, kept);
    for (size_t i = 0; i < m->named_count; i++)
        mark_found(m, moments, count, m->named[i], kept);
    for (size_t i = 0; i < m->n; i++)
        if (m->rows[i].start > m->floor) {
            uint32_t found = latest(moments, count, m->rows[i].start, m->rows[i].start, m->inherited[i]);
            if (found)
                kept[found - 1] = 1;
        }
}

int marks_by_groups;

void mark_records(struct marking *m, const uint32_t *addresses, const uint32_t *moments, size_t count, uint8_t *kept)
{
    if (!marks_by_groups) {
        mark_spans(m, addresses, moments, count, kept);
        return;
    }
    for (size_t lo = 0, hi; lo < count; lo = hi) {
        for (hi = lo + 1; hi < count && addresses[hi] == addresses[lo]; hi++)
            ;
        mark_group(m, moments + lo, hi - lo, kept + lo);
    }
}
