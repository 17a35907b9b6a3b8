/* (a) Document 004's own design on Berkeley DB, in memory: three B-trees and a repository device; and a fourth tree for names,
   which the document does not have.
   branch table  key start of the branch (its number)   data end, parent's start, cut
   lpmap         key address, moment                    data place; the moment found is the page's date
   free extents  key first place                        data length
   names         key the name's 8 bytes                 data moment
   Keys are four bytes a number, most significant first, so that their order is the numbers'. No table check, no
   refusals. `paper` looks up as Figure 1 has it, a search of the lpmap for each branch on the way; `paper_short` keeps
   the entry that the last search gave and searches again only where that one is above the parent's cut. */
#include <db.h>
#include <stdlib.h>
#include <string.h>
#include "store.h"

static DB *branches, *lpmap, *extents, *names;
static uint32_t now, current; /* the present moment, and the start of the current branch */
static uint8_t *slab;

static void ok(int code)
{
    if (code)
        fail(db_strerror(code));
}

static DB *tree(void)
{
    DB *db;
    ok(db_create(&db, NULL, 0));
    ok(db->set_cachesize(db, 0, 64u << 20, 1));
    ok(db->open(db, NULL, NULL, NULL, DB_BTREE, DB_CREATE, 0600));
    return db;
}

static DBT dbt(void *p, uint32_t size)
{
    DBT d;
    memset(&d, 0, sizeof d);
    d.data = p;
    d.size = d.ulen = size;
    d.flags = DB_DBT_USERMEM;
    return d;
}

static void put(DB *db, uint8_t *key, uint32_t key_size, uint8_t *data, uint32_t data_size)
{
    DBT k = dbt(key, key_size), d = dbt(data, data_size);
    ok(db->put(db, NULL, &k, &d, 0));
}

/* The entry with the greatest key up to `key`; 0 where there is none. The key becomes the entry's. */
static int at_or_before(DBC *c, uint8_t *key, uint32_t key_size, uint8_t *data, uint32_t data_size)
{
    uint8_t wanted[8];
    memcpy(wanted, key, key_size);
    DBT k = dbt(key, key_size), d = dbt(data, data_size);
    int code = c->get(c, &k, &d, DB_SET_RANGE);
    if (code == 0 && memcmp(key, wanted, key_size) == 0)
        return 1;
    if (code != 0 && code != DB_NOTFOUND)
        ok(code);
    code = c->get(c, &k, &d, code == 0 ? DB_PREV : DB_LAST);
    if (code == DB_NOTFOUND)
        return 0;
    ok(code);
    return 1;
}

/* A row of the branch table: its end, the start of the branch that it was cut from, the cut, the work order. */
#define ROW 16u

static void put_branch(uint32_t start, uint32_t end, uint32_t parent, uint32_t cut, uint32_t order)
{
    uint8_t key[4], data[ROW];
    put32(key, start);
    put32(data, end);
    put32(data + 4, parent);
    put32(data + 8, cut);
    put32(data + 12, order);
    put(branches, key, 4, data, ROW);
}

static uint32_t start_of_holder(uint32_t moment, uint8_t *data)
{
    DBC *c;
    uint8_t key[4];
    put32(key, moment);
    ok(branches->cursor(branches, NULL, &c, 0));
    if (!at_or_before(c, key, 4, data, ROW))
        fail("no branch holds the moment");
    ok(c->close(c));
    return get32(key);
}

static void load(const struct areas *s)
{
    branches = tree();
    lpmap = tree();
    extents = tree();
    names = tree();
    now = head_now(s);
    for (size_t i = 0; i < head_branches(s); i++) {
        struct branch b = branch_at(s, i);
        uint8_t data[ROW];
        put_branch(b.start, b.end, i == 0 ? 0 : start_of_holder(b.cut, data), b.cut, b.order);
        current = b.start;
    }
    for (size_t i = 0; i < head_records(s); i++)
        put(lpmap, s->records + 12 * i, 8, s->records + 12 * i + 8, 4);
    for (size_t i = 0, n = s->places_len / 4; i < n; i++) {
        size_t first = i;
        while (i < n && get32(s->places + 4 * i) == 0)
            i++;
        if (i > first) {
            uint8_t key[4], data[4];
            put32(key, (uint32_t)first);
            put32(data, (uint32_t)(i - first));
            put(extents, key, 4, data, 4);
        }
    }
    for (size_t i = 0; i < head_names(s); i++) {
        uint8_t row[12];
        memcpy(row, s->names + 12 * i, sizeof row);
        put(names, row, 8, row + 8, 4);
    }
    slab = malloc(s->slab_len);
    if (!slab)
        fail("out of memory");
    memcpy(slab, s->slab, s->slab_len);
}

static void drop(void)
{
    ok(branches->close(branches, 0));
    ok(lpmap->close(lpmap, 0));
    ok(extents->close(extents, 0));
    ok(names->close(names, 0));
    free(slab);
}

static struct found lookup(DBC *c, uint32_t address, uint32_t moment, int keep)
{
    uint8_t row[ROW], key[8], place[4];
    uint32_t start = start_of_holder(moment, row);
    int searched = 0;
    for (;;) {
        if (!keep || !searched || get32(key + 4) > moment) {
            put32(key, address);
            put32(key + 4, moment);
            int some = at_or_before(c, key, 8, place, 4) && get32(key) == address;
            searched = 1;
            if (!some && keep)
                return NOTHING; /* nor is there any for an earlier moment */
            if (!some)
                goto parent;
        }
        if (get32(key + 4) >= start)
            return (struct found){slab + PAGE * get32(place), get32(key + 4)};
    parent:
        if (start == 0)
            return NOTHING;
        start = get32(row + 4);
        moment = get32(row + 8);
        uint8_t number[4];
        put32(number, start);
        DBT k = dbt(number, 4), d = dbt(row, ROW);
        ok(branches->get(branches, NULL, &k, &d, 0));
    }
}

static uint32_t take_place(void)
{
    DBC *c;
    uint8_t key[4], data[4];
    DBT k = dbt(key, 4), d = dbt(data, 4);
    ok(extents->cursor(extents, NULL, &c, 0));
    ok(c->get(c, &k, &d, DB_FIRST));
    uint32_t length = get32(data);
    if (length == 1) {
        ok(c->del(c, 0));
    } else {
        put32(data, length - 1);
        ok(c->put(c, &k, &d, DB_CURRENT));
    }
    ok(c->close(c));
    return get32(key) + length - 1;
}

static void write_page(uint32_t address, const uint8_t *page)
{
    uint8_t key[8], place[4];
    put32(key, address);
    put32(key + 4, now);
    DBT k = dbt(key, 8), d = dbt(place, 4);
    int code = lpmap->get(lpmap, NULL, &k, &d, 0);
    if (code == DB_NOTFOUND) {
        put32(place, take_place());
        code = lpmap->put(lpmap, NULL, &k, &d, 0);
    }
    ok(code);
    memcpy(slab + PAGE * get32(place), page, PAGE);
}

static void revert(uint32_t moment, uint32_t order)
{
    uint8_t row[ROW], parent[ROW], key[4];
    put32(key, current);
    DBT k = dbt(key, 4), d = dbt(row, ROW);
    ok(branches->get(branches, NULL, &k, &d, 0));
    put_branch(current, now, get32(row + 4), get32(row + 8), get32(row + 12));
    current = ++now;
    put_branch(current, OPEN_END, start_of_holder(moment, parent), moment, order);
}

static void free_place(uint8_t *place)
{
    uint8_t one[4] = {0, 0, 0, 1};
    put(extents, place, 4, one, 4);
}

static void give(const uint8_t *name, uint32_t moment)
{
    uint8_t key[8], data[4];
    memcpy(key, name, sizeof key);
    put32(data, moment);
    put(names, key, 8, data, 4);
}

/* The name's moment; the name is gone. */
static uint32_t withdraw(const uint8_t *name)
{
    uint8_t key[8], data[4];
    memcpy(key, name, sizeof key);
    DBT k = dbt(key, 8), d = dbt(data, 4);
    ok(names->get(names, NULL, &k, &d, 0));
    ok(names->del(names, NULL, &k, 0));
    return get32(data);
}

/* The named moments. */
static size_t named_moments(uint32_t *moments)
{
    DBC *c;
    uint8_t key[8], data[4];
    DBT k = dbt(key, 8), d = dbt(data, 4);
    size_t n = 0;
    int code;
    ok(names->cursor(names, NULL, &c, 0));
    while ((code = c->get(c, &k, &d, DB_NEXT)) == 0)
        moments[n++] = get32(data);
    if (code != DB_NOTFOUND)
        ok(code);
    ok(c->close(c));
    return n;
}

/* Document 004, 3.2.3: a scan of the lpmap; the branch table is held in an array meanwhile, and rows are deleted after the scan. */
static uint32_t reclaim(uint32_t floor)
{
    static struct marking m;
    static uint32_t addresses[65536], moments[65536];
    static uint8_t places[65536][4], kept[65536];
    DBC *c;
    uint8_t key[8], data[ROW];
    DBT k = dbt(key, 4), d = dbt(data, ROW);
    m.n = 0;
    m.floor = floor;
    ok(branches->cursor(branches, NULL, &c, 0));
    int code;
    while ((code = c->get(c, &k, &d, DB_NEXT)) == 0)
        m.rows[m.n++] = (struct branch){get32(key), get32(data), get32(data + 8), get32(data + 12)};
    if (code != DB_NOTFOUND)
        ok(code);
    ok(c->close(c));
    m.named_count = named_moments(m.named);
    find_parents(&m);

    uint32_t freed = 0;
    size_t count = 0;
    ok(lpmap->cursor(lpmap, NULL, &c, 0));
    k = dbt(key, 8);
    d = dbt(data, 4);
    while ((code = c->get(c, &k, &d, DB_NEXT)) == 0) {
        addresses[count] = get32(key);
        moments[count] = get32(key + 4);
        memcpy(places[count++], data, 4);
    }
    if (code != DB_NOTFOUND)
        ok(code);
    ok(c->close(c));
    mark_records(&m, addresses, moments, count, kept);
    mark_branches(&m, moments, count, kept);
    for (size_t i = 0; i < count; i++)
        if (!kept[i]) {
            uint8_t old[8];
            put32(old, addresses[i]);
            put32(old + 4, moments[i]);
            DBT o = dbt(old, 8);
            ok(lpmap->del(lpmap, NULL, &o, 0));
            free_place(places[i]);
            freed++;
        }
    for (size_t i = 0; i < m.n; i++)
        if (!m.kept[i]) {
            put32(key, m.rows[i].start);
            DBT o = dbt(key, 4);
            ok(branches->del(branches, NULL, &o, 0));
        } else if (m.cut[i] != m.rows[i].cut) {
            put_branch(m.rows[i].start, m.rows[i].end, m.rows[row_holding(m.rows, i, m.cut[i])].start, m.cut[i], m.rows[i].order);
        }
    return freed;
}

static size_t run_with(const uint8_t *batch, size_t batch_len, uint8_t *answers, int keep)
{
    uint8_t *out = answers;
    DBC *c;
    ok(lpmap->cursor(lpmap, NULL, &c, 0));
    struct request q;
    for (size_t at = 0; at < batch_len; at += request_bytes(q.operation)) {
        uint32_t number = now;
        struct found found = NOTHING;
        q = request_at(batch + at);
        switch (q.operation) {
        case WRITE:
            write_page(q.address, batch + at + 7);
            break;
        case MARK:
            now++;
            break;
        case REVERT:
            revert(q.moment, q.address);
            break;
        case READ:
            number = q.moment;
            found = lookup(c, q.address, q.moment, keep);
            break;
        case RECLAIM:
            number = reclaim(q.moment);
            break;
        case GIVE:
            give(batch + at + 7, number = q.moment);
            break;
        case WITHDRAW:
            number = withdraw(batch + at + 7);
            break;
        }
        out = put_answer(out, 0, number, found);
    }
    ok(c->close(c));
    return (size_t)(out - answers);
}

static size_t run(const uint8_t *batch, size_t batch_len, uint8_t *answers, size_t answers_len)
{
    (void)answers_len;
    return run_with(batch, batch_len, answers, 0);
}

static size_t run_short(const uint8_t *batch, size_t batch_len, uint8_t *answers, size_t answers_len)
{
    (void)answers_len;
    return run_with(batch, batch_len, answers, 1);
}

const struct contender paper = {"paper", load, run, drop, 1};
const struct contender paper_short = {"paper, short", load, run_short, drop, 1};
