//! Work orders (document 02, Seven): lists from fresh stores in which after every request the work orders of every readable moment
//! are listed, so that a revert, a reclaim or a listing that does otherwise shows at once; work orders that table check 2 refuses;
//! and lists of the largest size.

use crate::draw::*;
use crate::offences::*;
use crate::tables::*;
use crate::unfit::calls;
use crate::{broken, drawn_answer_area, Host, Run};
use reference::pictures::Pile;
use reference::*;
use std::collections::BTreeMap;

/// What every list has, in the order of `WHAT`.
#[derive(Clone, Copy)]
enum What {
    Revert,
    RevertSmall,
    RevertLarge,
    RevertOutside,
    RevertZero,
    RevertNamed,
    RevertSide,
    RevertRefused,
    RevertStopped,
    Mark,
    Write,
    Read,
    Name,
    Withdraw,
    ReclaimLeaves,
    ReclaimShortens,
    ReclaimBetween,
    ReclaimKeepsOwn,
    ReclaimKeepsNothing,
    FreshOver,
    AtFloor,
    AtNow,
    AtNamed,
    AtSealed,
    BehindCut,
    OnlyFirst,
    Several,
    Equal,
    FallsAndRises,
    BothBytes,
    Below,
    BelowNoSpace,
    Withdrawn,
    AfterNow,
    AfterNowNoSpace,
    Last,
    Exact,
    OneShort,
    TwoShort,
    NoSpace,
    Larger,
}

const WHAT: [&str; 41] = [
    "reverts whose work order stands before what the moment listed",
    "reverts with a work order of 1, 255 or 256",
    "reverts with work order 65,535",
    "reverts with a work order at or above A",
    "reverts with work order 0",
    "reverts to a named moment below the floor",
    "reverts into a branch that is not the open one",
    "reverts refused, which change no listing",
    "reverts stopped by 13 or 14, which change no listing",
    "moments sealed, whose next moment lists the same",
    "writes, which change no listing",
    "reads, which change no listing",
    "names given, which change no listing",
    "names withdrawn, which change no listing",
    "reclaims that leave the listings",
    "reclaims after which a moment lists fewer work orders",
    "reclaims that take a row out between two that stay in a list",
    "reclaims after which a row has another cut and its own work order, another than that of the row gone",
    "reclaims after which now lists its own work order and the first row's",
    "fresh stores over rows with work orders",
    "listings at the floor",
    "listings at now",
    "listings at a named moment below the floor",
    "listings of a branch that is not the open one",
    "listings of a branch behind the cut of another",
    "lists with the first row alone",
    "lists of five work orders and more",
    "lists with the same work order twice in a row",
    "lists that neither fall nor rise",
    "lists with a work order whose two bytes differ",
    "8 below the floor",
    "8 with no space",
    "8 at a moment whose name is withdrawn",
    "9 after now",
    "9 with no space",
    "9 at the last moment",
    "lists of just the space",
    "14 with a byte too little",
    "14 with two bytes too little",
    "14 with no space",
    "lists of larger space",
];

type Seen = [u64; WHAT.len()];

/// The work orders of each readable moment.
type Listed = BTreeMap<u32, Vec<u32>>;

struct List<'a> {
    run: Run<'a>,
    pile: Option<Pile>,
    seen: Seen,
    listed: Listed,
}

/// The rows from the branch of the moment to the first, by the cuts.
fn way(store: &Store, moment: u32) -> Vec<usize> {
    let holding = |moment| store.branch_holding(moment).expect("a row holds it");
    let mut rows = vec![holding(moment)];
    while rows[rows.len() - 1] > 0 {
        rows.push(holding(store.branches[rows[rows.len() - 1]].cut));
    }
    rows
}

/// The work orders that these bytes begin with.
fn orders_in(list: &[u8], count: u64) -> Vec<u32> {
    let pairs = list.chunks_exact(ORDER_BYTES).take(count as usize);
    pairs.map(|pair| 256 * u32::from(pair[0]) + u32::from(pair[1])).collect()
}

impl<'a> List<'a> {
    fn new(host: &'a mut dyn Host, draw: &mut Draw, sizes: &Sizes) -> List<'a> {
        let run = Run::fresh_of(host, draw, sizes);
        let pile = Some(Pile::new(sizes.size));
        let mut list = List { run, pile, seen: [0; WHAT.len()], listed: Listed::new() };
        list.look(draw);
        list
    }

    fn see(&mut self, what: What, seen: bool) {
        self.seen[what as usize] += u64::from(seen);
    }

    fn store(&self) -> Store {
        rows(&self.run.areas)
    }

    fn now(&self) -> u64 {
        u64::from(self.run.head(3))
    }

    fn floor(&self) -> u64 {
        u64::from(self.run.head(4))
    }

    // -----------------------------------------------------------------------------------------
    // Listings

    /// The listing of a moment into so much space, which does not suffice or is told to.
    fn list(&mut self, draw: &mut Draw, moment: u32, space: usize) -> (u32, Vec<u32>) {
        let before = draw.bytes(space);
        let (told, after) = self.run.work_orders(&self.pile, moment, &before);
        assert!(told.refusal == 0 || (told.count == 0 && after == before), "a refusal writes nothing and says 0");
        assert!(after[ORDER_BYTES * told.count as usize..] == before[ORDER_BYTES * told.count as usize..]);
        (told.refusal, orders_in(&after, told.count))
    }

    fn count_listing(&mut self, store: &Store, moment: u32, orders: &[u32]) {
        let head = &store.head;
        let open = head.branch_count as usize - 1;
        let row = store.branch_holding(moment).expect("a row holds it");
        let branch = store.branches[row];
        let behind = |child: &Branch| branch.start <= child.cut && child.cut < moment && moment <= branch.end;
        let pairs = || orders.windows(2);
        self.see(What::AtFloor, moment == head.floor && head.floor < head.now);
        self.see(What::AtNow, moment == head.now);
        self.see(What::AtNamed, moment < head.floor);
        self.see(What::AtSealed, row < open);
        self.see(What::BehindCut, store.counted_branches()[row + 1..].iter().any(behind));
        self.see(What::OnlyFirst, orders.len() == 1);
        self.see(What::Several, orders.len() >= 5);
        self.see(What::Equal, pairs().any(|pair| pair[0] == pair[1]));
        self.see(What::FallsAndRises, pairs().any(|pair| pair[0] < pair[1]) && pairs().any(|pair| pair[0] > pair[1]));
        self.see(What::BothBytes, orders.iter().any(|order| order / 256 != order % 256));
    }

    /// The work orders of every readable moment; then the moments that cannot be read, and all spaces.
    fn look(&mut self, draw: &mut Draw) {
        let store = self.store();
        let named = store.counted_names().iter().map(|name| name.moment);
        let moments: Vec<u32> = named.chain(store.head.floor..=store.head.now).collect();
        self.listed.clear();
        for moment in &moments {
            let needed = ORDER_BYTES * way(&store, *moment).len();
            let (refusal, orders) = self.list(draw, *moment, needed);
            let due: Vec<u32> = way(&store, *moment).iter().map(|row| store.branches[*row].order).collect();
            assert_eq!((refusal, &orders), (0, &due), "the orders on the way to the first row, nearest first");
            self.count_listing(&store, *moment, &orders);
            self.see(What::Exact, true);
            self.listed.insert(*moment, orders);
        }
        let moment = moments[draw.below(moments.len() as u64) as usize];
        self.spaces(draw, moment);
        self.unreadable(draw, &store);
        self.run.compare();
    }

    /// A readable moment's list into too little space, and into more.
    fn spaces(&mut self, draw: &mut Draw, moment: u32) {
        let orders = self.listed[&moment].clone();
        let needed = ORDER_BYTES * orders.len();
        for (space, what) in [(needed - 1, What::OneShort), (needed - 2, What::TwoShort), (0, What::NoSpace)] {
            assert_eq!(self.list(draw, moment, space), (14, Vec::new()));
            self.see(what, true);
        }
        let more = draw.within(3, 60) as usize;
        for space in [needed + 1, needed + 2, needed + more] {
            assert_eq!(self.list(draw, moment, space), (0, orders.clone()));
            self.see(What::Larger, true);
        }
    }

    fn unreadable(&mut self, draw: &mut Draw, store: &Store) {
        let head = store.head;
        for space in [0, 1, 2 * MOST_BRANCHES] {
            assert_eq!(self.list(draw, OPEN_END, space).0, 9);
            assert_eq!(self.list(draw, head.now + 1, space).0, 9);
            self.see(What::Last, true);
            self.see(What::AfterNow, space > 1);
            self.see(What::AfterNowNoSpace, space == 0);
            for moment in [0, head.floor.wrapping_sub(1), draw.below(u64::from(head.floor).max(1)) as u32] {
                if moment < head.floor && !store.is_named(moment) {
                    assert_eq!(self.list(draw, moment, space).0, 8);
                    self.see(What::Below, space > 1);
                    self.see(What::BelowNoSpace, space == 0);
                }
            }
        }
    }

    // -----------------------------------------------------------------------------------------
    // Requests

    /// The moments that could be read before list as they did; those of one moment alone are the other's.
    fn unchanged(&self, before: &Listed) -> bool {
        self.listed.iter().all(|(moment, orders)| before.get(moment).map_or(true, |listed| listed == orders))
    }

    fn check_revert(&mut self, store: &Store, before: &Listed, moment: u32, order: u32) {
        let now = self.now() as u32;
        let due = [vec![order], before[&moment].clone()].concat();
        assert_eq!(self.listed[&now], due, "the work order, and behind it what the moment listed");
        assert!(self.unchanged(before), "a revert changes the listing of no other moment");
        assert_eq!(self.listed.len(), before.len() + 1);
        let open = store.head.branch_count as usize - 1;
        self.see(What::Revert, true);
        self.see(What::RevertSmall, [1, 255, 256].contains(&order));
        self.see(What::RevertLarge, order == MOST_ORDER);
        self.see(What::RevertOutside, order >= store.head.size);
        self.see(What::RevertZero, order == 0);
        self.see(What::RevertNamed, moment < store.head.floor);
        self.see(What::RevertSide, store.branch_holding(moment) != Some(open));
    }

    /// Of every listing exactly the orders of the rows that stay.
    fn check_reclaim(&mut self, store: &Store, before: &Listed) {
        let after = self.store();
        let stays = |row: usize| after.counted_branches().iter().any(|kept| kept.start == store.branches[row].start);
        let (mut shorter, mut between) = (false, false);
        for (moment, orders) in &self.listed {
            let rows = way(store, *moment);
            let kept = rows.iter().filter(|row| stays(**row));
            let due: Vec<u32> = kept.map(|row| store.branches[*row].order).collect();
            assert_eq!(*orders, due, "the orders of the rows that stay");
            shorter |= orders.len() < before[moment].len();
            // The first row stays, so one that goes with a row before it that stays lies between two.
            let gone = rows.iter().rposition(|row| !stays(*row));
            between |= gone.is_some_and(|gone| rows[1..gone].iter().any(|row| stays(*row)));
        }
        let keeps_own = |kept: &Branch| {
            let old = store.counted_branches().iter().find(|row| row.start == kept.start).expect("it was there");
            let parent = store.branch_holding(old.cut).map(|row| store.branches[row]);
            assert_eq!(kept.order, old.order, "a row that stays keeps its work order");
            kept.cut != old.cut && parent.is_some_and(|parent| parent.order != old.order)
        };
        let own = after.counted_branches().iter().any(keeps_own);
        let now = after.head.now;
        self.see(What::ReclaimLeaves, self.unchanged(before));
        self.see(What::ReclaimShortens, shorter);
        self.see(What::ReclaimBetween, between);
        self.see(What::ReclaimKeepsOwn, own);
        self.see(What::ReclaimKeepsNothing, self.listed[&now].len() == 2 && before[&now].len() > 2);
    }

    fn check(&mut self, store: &Store, before: &Listed, request: &Request, result: u32) {
        let same = self.unchanged(before);
        if result != 0 {
            assert!(same && self.listed.len() == before.len(), "a request that is refused or stopped changes no listing");
            let stopped = result == 13 || result == 14;
            if matches!(request, Request::Revert { .. }) {
                self.see(if stopped { What::RevertStopped } else { What::RevertRefused }, true);
            }
            return;
        }
        let plain = match request {
            Request::Revert { moment, order } => return self.check_revert(store, before, *moment, *order),
            Request::Reclaim { .. } => return self.check_reclaim(store, before),
            Request::Mark => {
                let now = store.head.now;
                assert_eq!(self.listed[&(now + 1)], before[&now], "the next moment lists as the one that is sealed");
                What::Mark
            }
            Request::Write { .. } => What::Write,
            Request::Read { .. } => What::Read,
            Request::Name { .. } => What::Name,
            Request::Withdraw { .. } => What::Withdraw,
        };
        assert!(same, "neither a write, nor a mark, a read or a name changes a listing");
        self.see(plain, true);
    }

    /// One request, with this space for its answer, and a look at everything behind it. The result: its refusal, or what
    /// stopped it, or 0.
    fn serve(&mut self, draw: &mut Draw, bytes: &[u8], space: usize) -> u32 {
        let (store, before) = (self.store(), self.listed.clone());
        let area = draw.bytes(space);
        let (report, answers) = self.run.batch_beside(&mut self.pile, bytes, &area);
        let result = if report.stop != 0 { report.stop } else { u32::from(answers[0] >> 2) };
        self.look(draw);
        // Seven bytes with a spare bit are read without it, to see which request they were.
        let plain = [&bytes[..6], &[bytes[6] & 0xE0], &bytes[7..]].concat();
        let (request, _) = read_request(&plain).expect("a whole request");
        self.check(&store, &before, &request, result);
        result
    }

    fn accepted(&mut self, draw: &mut Draw, bytes: &[u8]) {
        assert_eq!(self.serve(draw, bytes, PAGE_ANSWER_BYTES), 0, "the request is accepted");
    }

    // -----------------------------------------------------------------------------------------
    // Lists

    /// The open branch gets one or two moments more, and is left by a revert into it.
    fn week(&mut self, draw: &mut Draw, order: u64) {
        let start = u64::from(self.store().counted_branches().last().expect("the open row").start);
        for _ in 0..draw.within(1, 2) {
            self.accepted(draw, &mark());
        }
        let moment = draw.within(start, self.now() - 1);
        self.accepted(draw, &revert(moment, order));
    }

    /// Reverts that are refused or stopped, with work orders of any kind.
    fn turned_away(&mut self, draw: &mut Draw) {
        let (now, floor, order) = (self.now(), self.floor(), drawn_order(draw));
        let space = draw.below(5) as usize;
        assert_eq!(self.serve(draw, &revert(now, order), 5), 9);
        assert_eq!(self.serve(draw, &revert(u64::from(OPEN_END), order), 5), 9);
        assert_eq!(self.serve(draw, &revert(floor, order), space), 14);
        let spare = draw.one_bit(5);
        assert_eq!(self.serve(draw, &packed(3, order, floor, spare), 5), 13);
        if floor > 0 && !self.store().is_named(floor as u32 - 1) {
            assert_eq!(self.serve(draw, &revert(floor - 1, order), 5), 8);
        }
    }

    /// A chain of branches, of which one has a name, one a page, and the others nothing that a reclaim would keep.
    fn beginning(&mut self, draw: &mut Draw) {
        let page = draw.bytes(PAGE);
        let small = draw.one_of(&[1, 255, 256]);
        let same = draw.one_of(&[3, 700, 40_000]);
        self.accepted(draw, &write(0, &page));
        self.week(draw, small);
        self.week(draw, 65_535);
        let named = self.now();
        self.accepted(draw, &mark());
        self.accepted(draw, &name(named, b"in a row"));
        let between = drawn_order(draw) | 1;
        self.week(draw, between);
        self.week(draw, 0);
        self.turned_away(draw);
        self.week(draw, same);
        self.week(draw, same);
        self.accepted(draw, &write(1, &page));
        self.accepted(draw, &reclaim(0));
        self.accepted(draw, &mark());
        // A side branch from the first row, and one from the open branch, which is left undone.
        let order = drawn_order(draw);
        self.accepted(draw, &revert(0, order));
        let undone = self.now() - 1;
        let order = drawn_order(draw);
        self.accepted(draw, &revert(undone, order));
        self.accepted(draw, &read(1, undone));
        // Rows go between the first, the named one, the one with the page, and the open one.
        self.accepted(draw, &reclaim(undone));
        self.accepted(draw, &reclaim(undone));
        self.accepted(draw, &mark());
        let now = self.now();
        self.accepted(draw, &reclaim(now));
        self.turned_away(draw);
        let order = drawn_order(draw);
        self.accepted(draw, &revert(named, order));
        self.accepted(draw, &write(1, &page));
        self.accepted(draw, &mark());
        // The row of the name goes with the reclaim after its withdrawal.
        self.accepted(draw, &withdraw(b"in a row"));
        assert_eq!(self.list(draw, named as u32, 100).0, 8);
        self.see(What::Withdrawn, true);
        let floor = self.floor();
        self.accepted(draw, &reclaim(floor));
        // Everything that is written is written again, so that nothing stays but the first row and the open one.
        let order = drawn_order(draw) | 2;
        self.week(draw, order);
        self.week(draw, order);
        for address in 0..u64::from(self.run.head(0)) {
            self.accepted(draw, &write(address, &page));
        }
        let now = self.now();
        self.accepted(draw, &reclaim(now));
    }

    /// Any request; now and then several in one batch.
    fn round(&mut self, draw: &mut Draw) {
        let mix = &MIXES[draw.below(MIXES.len() as u64) as usize];
        let mut outlook = self.run.outlook();
        if draw.percent(20) {
            let bytes = drawn_batch(draw, mix, &mut outlook, 8, 5);
            let area = drawn_answer_area(draw, &self.run.areas, &bytes);
            self.run.batch_beside(&mut self.pile, &bytes, &area);
            self.look(draw);
        } else {
            let bytes = drawn_request(draw, mix, &mut outlook);
            let space = if draw.percent(90) { PAGE_ANSWER_BYTES } else { draw.below(6) as usize };
            self.serve(draw, &bytes, space);
        }
    }

    /// Reverts until no row is left, and one more.
    fn fill(&mut self, draw: &mut Draw) {
        self.accepted(draw, &mark());
        while self.run.head(1) as usize * BRANCH_BYTES < self.run.areas.branches.len() {
            let order = drawn_order(draw);
            let moment = draw.within(self.floor(), self.now() - 1);
            self.accepted(draw, &revert(moment, order));
        }
        let moment = self.floor();
        assert_eq!(self.serve(draw, &revert(moment, 65_535), 5), 7);
    }

    fn fresh_over(&mut self, draw: &mut Draw) {
        let old = self.store().counted_branches().iter().any(|row| row.order != 0);
        let size = self.run.head(0);
        self.run.fresh(size);
        self.pile = Some(Pile::new(size));
        self.look(draw);
        assert_eq!(self.listed, Listed::from([(0, vec![0])]), "a fresh store lists the first row's 0");
        self.see(What::FreshOver, old);
    }
}

/// A list over a small store; what it has.
fn order_list(host: &mut dyn Host, draw: &mut Draw) -> Seen {
    let size = draw.within(2, 5) as u32;
    let mut list = List::new(host, draw, &Sizes { size, branches: 14, records: 30, places: 30 });
    list.beginning(draw);
    for _ in 0..draw.within(2, 12) {
        list.round(draw);
    }
    list.fill(draw);
    if let Some(what) = list.pile.as_ref().and_then(|pile| pile.difference(&list.run.areas)) {
        list.run.host.pile_differs(&what);
    }
    list.fresh_over(draw);
    for _ in 0..draw.within(2, 8) {
        list.round(draw);
    }
    list.seen
}

/// Lists over small stores.
pub fn orders(host: &mut dyn Host, seed: u64, count: u64) {
    let mut all = [0; WHAT.len()];
    for list in 0..count {
        let draw = &mut Draw::new(seed ^ (list + 1).wrapping_mul(0x94D0_49BB_1331_11EB));
        let seen = order_list(host, draw);
        for what in 0..WHAT.len() {
            assert!(seen[what] > 0, "every list has {}", WHAT[what]);
            all[what] += seen[what];
        }
    }
    host.end("work orders");
    host.note(&format!("{count} lists, and each has all of these"));
    for what in 0..WHAT.len() {
        host.note(&format!("  {}: {}", WHAT[what], all[what]));
    }
}

// ---------------------------------------------------------------------------------------------
// Work orders that table check 2 refuses

fn set_order(areas: &mut Areas, row: usize, order: u32) {
    set_number_at(&mut areas.branches, 4 * row + 3, order);
}

/// A work order that the row may not have: alone, besides 3, besides 18, besides 1.
fn refused_orders(run: &mut Run, draw: &mut Draw, sound: &Areas, row: usize, order: u32) {
    let count = number_at(&sound.head, 2) as usize;
    let mut wrong = sound.clone();
    set_order(&mut wrong, row, order);
    calls(run, draw, &wrong, (2, 0));
    let mut areas = wrong.clone();
    if count > 0 && break_row(&mut areas, draw.below(count as u64) as usize, any_offence(draw), draw) {
        calls(run, draw, &areas, (2, 0));
    }
    let mut areas = wrong.clone();
    areas.marks[0] = 4;
    calls(run, draw, &areas, (2, 0));
    OUT_OF_RANGE[draw.below(OUT_OF_RANGE.len() as u64) as usize](&mut wrong);
    calls(run, draw, &wrong, (1, 0));
}

/// What the listing of now gives, with ample space.
fn listed_at_now(run: &mut Run, draw: &mut Draw) -> Vec<u32> {
    let before = draw.bytes(ORDER_BYTES * MOST_BRANCHES);
    let now = run.head(3);
    let (told, after) = run.work_orders(&None, now, &before);
    assert_eq!(told.refusal, 0, "the tables are sound");
    run.compare();
    orders_in(&after, told.count)
}

/// Work orders up to 65,535 in the rows behind the first, and anything in rows past the count.
fn accepted_orders(run: &mut Run, draw: &mut Draw, sound: &Areas) {
    let count = number_at(&sound.head, 2) as usize;
    let branches = number_at(&sound.head, 1) as usize;
    let lent = sound.branches.len() / BRANCH_BYTES;
    for order in [0, 1, 256, 65_534, 65_535] {
        let mut areas = sound.clone();
        for row in 1..branches {
            set_order(&mut areas, row, order);
        }
        broken::call(run, draw, areas.clone(), (0, count));
        run.lend(areas);
        let listed = listed_at_now(run, draw);
        let (first, others) = listed.split_last().expect("the first row");
        assert!(*first == 0 && others.iter().all(|listed| *listed == order));
    }
    run.lend(sound.clone());
    let listed = listed_at_now(run, draw);
    for order in [65_536, 65_537, OPEN_END, draw.next() as u32] {
        let mut areas = sound.clone();
        for row in branches..lent {
            set_order(&mut areas, row, order);
        }
        broken::call(run, draw, areas.clone(), (0, count));
        run.lend(areas);
        assert_eq!(listed_at_now(run, draw), listed, "rows past the count are not looked at");
    }
}

/// Drawn stores with work orders in the first row and of more than 16 bits.
pub fn broken_orders(host: &mut dyn Host, seed: u64, count: u64) {
    let mut refused = [0; 4];
    for store in 0..count {
        let draw = &mut Draw::new(seed ^ (store + 1).wrapping_mul(0xBF58_476D_1CE4_E5B9));
        let sizes = Sizes { size: draw.within(1, 9) as u32, ..drawn_sizes(draw) };
        let sound = drawn_sound(draw, &sizes);
        let branches = number_at(&sound.head, 1) as usize;
        let mut run = Run::new(&mut *host);
        accepted_orders(&mut run, draw, &sound);
        let high = 1 << draw.within(16, 31);
        let own = number_at(&sound.branches, 4 * (branches - 1) + 3);
        for order in [1, 256, 65_535, 65_536, OPEN_END, draw.next() as u32 | 1, high] {
            refused_orders(&mut run, draw, &sound, 0, order);
            refused[0] += 1;
        }
        for (kind, row) in [(1, 1), (2, branches / 2), (3, branches - 1)] {
            for order in [65_536, 65_537, 131_071, OPEN_END, high, high | own] {
                if row > 0 && row < branches {
                    refused_orders(&mut run, draw, &sound, row, order);
                    refused[kind] += 1;
                }
            }
        }
    }
    host.end("work orders that are refused");
    let [first, second, middle, last] = refused;
    host.note(&format!(
        "{count} stores; in the first row {first}, in the second {second}, in a middle one {middle}, in the last {last}"
    ));
}

// ---------------------------------------------------------------------------------------------
// The largest lists

/// The list of this moment into these spaces around what it needs, and what it has.
fn around(run: &mut Run, draw: &mut Draw, moment: u32, due: &[u32]) {
    let needed = ORDER_BYTES * due.len();
    for space in [needed, needed - 1, needed - 2, 0, needed + 1, needed + 2, ORDER_BYTES * MOST_BRANCHES + 9] {
        let before = draw.bytes(space);
        let (told, after) = run.work_orders(&None, moment, &before);
        if space < needed {
            assert_eq!((told.refusal, told.count, &after), (14, 0, &before));
        } else {
            assert_eq!((told.refusal, told.count), (0, due.len() as u64));
            assert!(orders_in(&after, told.count) == due && after[needed..] == before[needed..]);
        }
    }
    run.compare();
}

/// A chain of 4,096 branches made by one batch, each from the one before, and listed from several of them; then all but three
/// go with a reclaim.
fn chain(host: &mut dyn Host, draw: &mut Draw) {
    let mut run = Run::fresh_of(host, draw, &Sizes { size: 1, branches: MOST_BRANCHES, records: 1, places: 1 });
    // Row i has the moments 2 i and 2 i + 1.
    let made: Vec<u64> = (1..MOST_BRANCHES).map(|_| drawn_order(draw)).collect();
    let weeks = made.iter().enumerate().map(|(row, order)| [mark(), revert(2 * row as u64, *order)].concat());
    let area = draw.bytes(2 * ANSWER_BYTES * MOST_BRANCHES);
    run.batch(&weeks.collect::<Vec<_>>().concat(), &area, |_, answer| assert_eq!(answer.refusal, 0));
    let due = |row: usize| -> Vec<u32> {
        let orders = made[..row].iter().rev().map(|order| *order as u32);
        orders.chain([0]).collect()
    };
    let last = MOST_BRANCHES - 1;
    for row in [0, 1, 2, 127, 255, 256, 2_047, 2_048, last - 1, last] {
        around(&mut run, draw, 2 * row as u32, &due(row));
    }
    assert_eq!((due(last).len(), run.head(1)), (4_096, 4_096));
    let moment = 2 * last as u64;
    let name_row = draw.within(2, 4_000);
    let bytes = [name(2 * name_row, b"in a row"), revert(0, 9), mark(), revert(moment, 8), reclaim(moment + 1)].concat();
    let mut refusals = Vec::new();
    run.batch(&bytes, &area, |_, answer| refusals.push(answer.refusal));
    assert_eq!(refusals, [0, 7, 0, 7, 0]);
    let stay = [made[last - 1] as u32, made[name_row as usize - 1] as u32, 0];
    around(&mut run, draw, moment as u32 + 1, &stay);
    around(&mut run, draw, 2 * name_row as u32, &stay[1..]);
}

/// The same shape in a table that is drawn, at the last moments; and full tables of any shape.
fn full(host: &mut dyn Host, draw: &mut Draw, table: u64) {
    let sizes = Sizes { size: 65_536, branches: MOST_BRANCHES, records: 4_000, places: 4_000 };
    let areas = drawn_full(draw, &sizes, table);
    let store = rows(&areas);
    let mut run = Run::new(host);
    run.lend(areas);
    let named = store.counted_names()[0].moment;
    for moment in [store.head.now, store.head.floor, draw.within(0, 100) as u32 + store.head.floor, named] {
        let due: Vec<u32> = way(&store, moment).iter().map(|row| store.branches[*row].order).collect();
        around(&mut run, draw, moment, &due);
    }
    let lent = ORDER_BYTES * MOST_BRANCHES;
    for row in [1, 2_048, store.head.branch_count as usize - 1] {
        let mut areas = run.areas.clone();
        set_order(&mut areas, row, 65_536);
        let sound = std::mem::replace(&mut run.areas, areas.clone());
        run.lend(areas);
        let list = draw.bytes(lent);
        assert_eq!(run.work_orders(&None, store.head.now, &list).0, Listing { refusal: 2, count: 0 });
        run.compare();
        run.lend(sound);
    }
}

pub fn largest_lists(host: &mut dyn Host, seed: u64) {
    let draw = &mut Draw::new(seed);
    chain(host, draw);
    full(host, draw, 0);
    full(host, draw, 3);
    host.end("the largest lists");
}
