//! What reclaims do to the branches (document 02, Four), counted for each family.

use crate::Host;
use reference::*;

/// What is counted, of the reclaims that are accepted.
pub const WHAT: [&str; 9] = [
    "reclaims that take rows out",
    "rows taken out",
    "rows taken out on the way from a readable moment to the first row",
    "cuts taken over",
    "cuts taken over more than once",
    "rows that stay for a kept record alone",
    "rows that stay for a named moment alone",
    "rows that stay for their end at the floor alone",
    "rows that stay as the first alone",
];

#[derive(Default)]
pub struct TakenOut {
    /// How often each of these was seen.
    pub seen: [u64; WHAT.len()],
    reclaims: u64,
    /// How often one cut was taken over, at most.
    most: u64,
}

/// These rows, and those on the way from them through parents to the first: what the rule before Four kept.
fn on_way(store: &Store, rows: Vec<bool>) -> Vec<bool> {
    let mut way = rows;
    for row in (1..way.len()).rev() {
        if way[row] {
            way[parent(store, row)] = true;
        }
    }
    way
}

fn parent(store: &Store, row: usize) -> usize {
    store.branch_holding(store.branches[row].cut).expect("the cut lies inside an earlier row")
}

impl TakenOut {
    pub fn count(&mut self, store: &Store, floor: u32, kept: &Kept) {
        let rows = store.counted_branches();
        let mut named = vec![false; rows.len()];
        let mut recorded = vec![false; rows.len()];
        for name in store.counted_names() {
            named[store.branch_holding(name.moment).expect("a row holds it")] = true;
        }
        for (row, record) in store.counted_records().iter().enumerate() {
            recorded[store.branch_holding(record.moment).expect("a row holds it")] |= kept.records[row];
        }
        let readable = rows.iter().zip(&named).map(|(row, named)| *named || row.end >= floor);
        let way = on_way(store, readable.collect());
        // How often the cut of each row is taken over, that of a row that goes included.
        let mut times = vec![0; rows.len()];
        for row in 1..rows.len() {
            let parent = parent(store, row);
            times[row] = if kept.branches[parent] { 0 } else { times[parent] + 1 };
        }
        self.reclaims += 1;
        let mut see = |what: usize, seen: bool| self.seen[what] += u64::from(seen);
        see(0, kept.branches.contains(&false));
        for (row, branch) in rows.iter().enumerate() {
            let stays = kept.branches[row];
            let reasons = [row == 0, branch.end >= floor, named[row], recorded[row]];
            let alone = |reason: usize| (0..4).all(|other| reasons[other] == (other == reason));
            see(1, !stays);
            see(2, !stays && way[row]);
            see(3, stays && times[row] > 0);
            see(4, stays && times[row] > 1);
            see(5, stays && alone(3));
            see(6, stays && alone(2));
            see(7, stays && alone(1) && branch.end == floor);
            see(8, stays && alone(0));
            self.most = self.most.max(if stays { times[row] } else { 0 });
        }
    }

    fn note(&self, host: &mut dyn Host) {
        let [reclaims, rows, on_way, cuts, again, record, name, floor, first] = self.seen;
        host.note(&format!(
            "{reclaims} of {} reclaims take out {rows} branches, {on_way} of them on the way from a readable moment; \
             {cuts} cuts are taken over, {again} more than once, at most {} times",
            self.reclaims, self.most
        ));
        host.note(&format!(
            "branches that stay for a kept record alone: {record}; for a named moment alone: {name}; for their end at \
             the floor alone: {floor}; as the first alone: {first}"
        ));
    }
}

/// A host beside which the reclaims of each family are counted.
pub struct Counting<'a> {
    pub host: &'a mut dyn Host,
    pub taken_out: TakenOut,
}

impl Host for Counting<'_> {
    fn lend(&mut self, areas: &Areas) {
        self.host.lend(areas);
    }

    fn copy_onto(&mut self, onto: &Areas) {
        self.host.copy_onto(onto);
    }

    fn fresh(&mut self, size: u32, result: u32) {
        self.host.fresh(size, result);
    }

    fn make_stale(&mut self) {
        self.host.make_stale();
    }

    fn live_read(&mut self, address: u32, told: &LiveRead, page: &[u8]) {
        self.host.live_read(address, told, page);
    }

    fn copy_step(&mut self, budget: u32, told: &Step) {
        self.host.copy_step(budget, told);
    }

    fn work_orders(&mut self, moment: u32, before: &[u8], told: &Listing, after: &[u8]) {
        self.host.work_orders(moment, before, told, after);
    }

    fn batch(&mut self, batch: &[u8], before: &[u8], report: &Report, after: &[u8]) {
        self.host.batch(batch, before, report, after);
    }

    fn compare(&mut self, areas: &Areas) {
        self.host.compare(areas);
    }

    fn end(&mut self, name: &str) {
        self.host.end(name);
        let counted = std::mem::take(&mut self.taken_out);
        if counted.seen[0] > 0 {
            counted.note(&mut *self.host);
        }
    }

    fn note(&mut self, what: &str) {
        self.host.note(what);
    }

    fn pile_differs(&mut self, what: &str) {
        self.host.pile_differs(what);
    }

    fn reclaims(&mut self, store: &Store, floor: u32, kept: &Kept) {
        self.taken_out.count(store, floor, kept);
    }
}
