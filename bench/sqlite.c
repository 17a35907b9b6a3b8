/* (b) SQLite in memory: a table of branches, one of names, and a table (address, moment, page) with an index; the way up the branches
   is walked by two prepared queries a branch. A batch is one transaction. No table check, no refusals. */
#include <sqlite3.h>
#include <string.h>
#include "store.h"

static sqlite3 *db;
static sqlite3_stmt *begin, *commit, *holder, *latest, *put_record, *put_branch, *close_branch;
static sqlite3_stmt *drop_record, *drop_branch, *recut_branch, *all_branches, *all_records, *put_name, *moment_named, *drop_name, *all_names;
static uint32_t now;

static void ok(int code)
{
    if (code != SQLITE_OK && code != SQLITE_DONE && code != SQLITE_ROW)
        fail(sqlite3_errmsg(db));
}

static sqlite3_stmt *prepared(const char *text)
{
    sqlite3_stmt *q;
    ok(sqlite3_prepare_v3(db, text, -1, SQLITE_PREPARE_PERSISTENT, &q, NULL));
    return q;
}

static void bind(sqlite3_stmt *q, int i, uint32_t x) { ok(sqlite3_bind_int64(q, i, x)); }
static uint32_t column(sqlite3_stmt *q, int i) { return (uint32_t)sqlite3_column_int64(q, i); }

static void once(sqlite3_stmt *q)
{
    ok(sqlite3_step(q));
    ok(sqlite3_reset(q));
}

static void insert_page(uint32_t address, uint32_t moment, const uint8_t *page)
{
    bind(put_record, 1, address);
    bind(put_record, 2, moment);
    ok(sqlite3_bind_blob(put_record, 3, page, PAGE, SQLITE_STATIC));
    once(put_record);
}

static void insert_branch(struct branch b)
{
    bind(put_branch, 1, b.start);
    bind(put_branch, 2, b.end);
    bind(put_branch, 3, b.cut);
    bind(put_branch, 4, b.order);
    once(put_branch);
}

static void bind_name(sqlite3_stmt *q, const uint8_t *name)
{
    ok(sqlite3_bind_blob(q, 1, name, KIZMOOLET_NAME_BYTES, SQLITE_STATIC));
}

static void give(const uint8_t *name, uint32_t moment)
{
    bind_name(put_name, name);
    bind(put_name, 2, moment);
    once(put_name);
}

/* The name's moment; the name is gone. */
static uint32_t withdraw(const uint8_t *name)
{
    bind_name(moment_named, name);
    if (sqlite3_step(moment_named) != SQLITE_ROW)
        fail("no such name");
    uint32_t moment = column(moment_named, 0);
    ok(sqlite3_reset(moment_named));
    bind_name(drop_name, name);
    once(drop_name);
    return moment;
}

static void load(const struct areas *s)
{
    if (sqlite3_open(":memory:", &db) != SQLITE_OK)
        fail("no database");
    ok(sqlite3_exec(db,
        "create table branches (start integer primary key, last integer not null, cut integer not null,"
        " work_order integer not null);"
        "create table records (address integer not null, moment integer not null, page blob not null);"
        "create unique index by_address on records (address, moment);"
        "create table names (name blob primary key, moment integer not null);",
        NULL, NULL, NULL));
    begin = prepared("begin");
    commit = prepared("commit");
    holder = prepared("select start, cut from branches where start <= ?1 order by start desc limit 1");
    latest = prepared("select page, moment from records where address = ?1 and moment between ?2 and ?3 order by moment desc limit 1");
    put_record = prepared("insert into records values (?1, ?2, ?3) on conflict (address, moment) do update set page = excluded.page");
    put_branch = prepared("insert into branches values (?1, ?2, ?3, ?4)");
    close_branch = prepared("update branches set last = ?1 where start = (select max(start) from branches)");
    drop_record = prepared("delete from records where address = ?1 and moment = ?2");
    drop_branch = prepared("delete from branches where start = ?1");
    recut_branch = prepared("update branches set cut = ?2 where start = ?1");
    all_branches = prepared("select start, last, cut, work_order from branches order by start");
    all_records = prepared("select address, moment from records order by address, moment");
    put_name = prepared("insert into names values (?1, ?2)");
    moment_named = prepared("select moment from names where name = ?1");
    drop_name = prepared("delete from names where name = ?1");
    all_names = prepared("select moment from names");
    now = head_now(s);
    once(begin);
    for (size_t i = 0; i < head_branches(s); i++)
        insert_branch(branch_at(s, i));
    for (size_t i = 0; i < head_records(s); i++) {
        struct record r = record_at(s, i);
        insert_page(r.address, r.moment, s->slab + PAGE * r.place);
    }
    for (size_t i = 0; i < head_names(s); i++)
        give(s->names + 12 * i, name_at(s, i).moment);
    once(commit);
}

static void drop(void)
{
    sqlite3_stmt *q;
    while ((q = sqlite3_next_stmt(db, NULL)))
        sqlite3_finalize(q);
    ok(sqlite3_close(db));
}

/* Leaves the query that found the page open, so that the page can be copied; the caller resets it. */
static struct found lookup(uint32_t address, uint32_t moment)
{
    for (;;) {
        bind(holder, 1, moment);
        if (sqlite3_step(holder) != SQLITE_ROW)
            fail("no branch holds the moment");
        uint32_t start = column(holder, 0), cut = column(holder, 1);
        ok(sqlite3_reset(holder));
        bind(latest, 1, address);
        bind(latest, 2, start);
        bind(latest, 3, moment);
        int code = sqlite3_step(latest);
        if (code == SQLITE_ROW)
            return (struct found){sqlite3_column_blob(latest, 0), column(latest, 1)};
        ok(sqlite3_reset(latest));
        if (start == 0)
            return NOTHING;
        moment = cut;
    }
}

/* A scan in order; the branch table is held in an array meanwhile. Rows are deleted after it. */
static uint32_t reclaim(uint32_t floor)
{
    static struct marking m;
    static uint32_t addresses[65536], moments[65536];
    static uint8_t kept[65536];
    m.n = 0;
    m.floor = floor;
    while (sqlite3_step(all_branches) == SQLITE_ROW)
        m.rows[m.n++] = (struct branch){column(all_branches, 0), column(all_branches, 1), column(all_branches, 2),
            column(all_branches, 3)};
    ok(sqlite3_reset(all_branches));
    m.named_count = 0;
    while (sqlite3_step(all_names) == SQLITE_ROW)
        m.named[m.named_count++] = column(all_names, 0);
    ok(sqlite3_reset(all_names));
    find_parents(&m);
    size_t n = 0;
    while (sqlite3_step(all_records) == SQLITE_ROW) {
        addresses[n] = column(all_records, 0);
        moments[n++] = column(all_records, 1);
    }
    ok(sqlite3_reset(all_records));
    mark_records(&m, addresses, moments, n, kept);
    mark_branches(&m, moments, n, kept);
    uint32_t freed = 0;
    for (size_t i = 0; i < n; i++)
        if (!kept[i]) {
            bind(drop_record, 1, addresses[i]);
            bind(drop_record, 2, moments[i]);
            once(drop_record);
            freed++;
        }
    for (size_t i = 0; i < m.n; i++)
        if (!m.kept[i]) {
            bind(drop_branch, 1, m.rows[i].start);
            once(drop_branch);
        } else if (m.cut[i] != m.rows[i].cut) {
            bind(recut_branch, 1, m.rows[i].start);
            bind(recut_branch, 2, m.cut[i]);
            once(recut_branch);
        }
    return freed;
}

static size_t run(const uint8_t *batch, size_t batch_len, uint8_t *answers, size_t answers_len)
{
    (void)answers_len;
    uint8_t *out = answers;
    once(begin);
    struct request q;
    for (size_t at = 0; at < batch_len; at += request_bytes(q.operation)) {
        uint32_t number = now;
        struct found found = NOTHING;
        q = request_at(batch + at);
        switch (q.operation) {
        case WRITE:
            insert_page(q.address, now, batch + at + 7);
            break;
        case MARK:
            now++;
            break;
        case REVERT:
            bind(close_branch, 1, now);
            once(close_branch);
            insert_branch((struct branch){++now, OPEN_END, q.moment, q.address});
            break;
        case READ:
            number = q.moment;
            found = lookup(q.address, q.moment);
            break;
        case RECLAIM:
            number = reclaim(q.moment);
            break;
        case GIVE:
            give(batch + at + 7, number = q.moment);
            break;
        case WITHDRAW:
            number = withdraw(batch + at + 7);
            break;
        }
        out = put_answer(out, 0, number, found);
        if (found.page)
            ok(sqlite3_reset(latest));
    }
    once(commit);
    return (size_t)(out - answers);
}

const struct contender sqlite = {"SQLite", load, run, drop, 1};
