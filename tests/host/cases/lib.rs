//! The cases that a host runs on the library, each with what the reference says of it. The same cases
//! serve a host in this process and, written out as bytes, a host in C.

use reference::pictures::Pile;
use reference::*;

mod broken;
mod chains;
mod copies;
mod draw;
mod live;
mod names;
mod offences;
mod orders;
mod packed;
mod tables;
mod taken_out;
mod unfit;
mod weekly;

use broken::{broken_rows, broken_rows_of_full_tables};
use chains::chains;
use copies::copies;
use draw::*;
use live::{largest_live_disk, live_disks};
use names::names;
use orders::{broken_orders, largest_lists, orders};
use packed::packed;
use tables::*;
use taken_out::{Counting, TakenOut};
use unfit::{unfit_disks, unfit_large_disks};
use weekly::weekly;

/// A host that lends areas to the library, calls it and compares.
pub trait Host {
    /// From here on the lent areas have these lengths and bytes.
    fn lend(&mut self, areas: &Areas);
    /// From here on a copy of the store is lent. It is laid onto areas of these lengths and bytes: head and
    /// tables, of the name table the counted rows, and of the slab the bytes in use. Live disk and marks are those that are
    /// laid onto, and every page is made stale.
    fn copy_onto(&mut self, onto: &Areas);
    /// Calls for a fresh store; the result that the reference gives.
    fn fresh(&mut self, size: u32, result: u32);
    /// The caller makes every page stale, and leaves blank marks.
    fn make_stale(&mut self);
    /// Calls for a batch, with an answer area of these bytes; report and answer area that the reference gives.
    fn batch(&mut self, batch: &[u8], before: &[u8], report: &Report, after: &[u8]);
    /// Calls for a live read; what the reference tells, and the page, or no bytes where there is none.
    fn live_read(&mut self, address: u32, told: &LiveRead, page: &[u8]);
    /// Calls for a copying step; what the reference tells.
    fn copy_step(&mut self, budget: u32, told: &Step);
    /// Calls for the work orders of a moment, with a list of these bytes; what the reference tells, and the list that it gives.
    fn work_orders(&mut self, moment: u32, before: &[u8], told: &Listing, after: &[u8]);
    /// The lent areas that the reference has after the last call; a host that differs takes these over.
    fn compare(&mut self, areas: &Areas);
    /// The family of cases is complete.
    fn end(&mut self, name: &str);
    /// Says more of the family that is complete.
    fn note(&mut self, what: &str);
    /// A difference between the reference and the pile of pictures.
    fn pile_differs(&mut self, what: &str);
    /// The reference is about to carry out a reclaim to this floor, in this store, that keeps this.
    fn reclaims(&mut self, _store: &Store, _floor: u32, _kept: &Kept) {}
}

/// The lent areas in their order.
pub fn list(areas: &Areas) -> [&Vec<u8>; 8] {
    let Areas { head, branches, records, places, names, slab, disk, marks } = areas;
    [head, branches, records, places, names, slab, disk, marks]
}

// ---------------------------------------------------------------------------------------------
// One call on both sides

/// The areas as the reference leaves them, and what is fed with them.
struct Run<'a> {
    host: &'a mut dyn Host,
    areas: Areas,
    /// Compare the lent areas after every call.
    always: bool,
    /// Every page began stale, in a fresh store: a live read gives the page of a read at now.
    began_stale: bool,
}

impl<'a> Run<'a> {
    fn new(host: &'a mut dyn Host) -> Run<'a> {
        Run { host, areas: Areas::default(), always: true, began_stale: false }
    }

    /// A fresh store of these sizes in areas of any bytes.
    fn fresh_of(host: &'a mut dyn Host, draw: &mut Draw, sizes: &Sizes) -> Run<'a> {
        let mut run = Run::new(host);
        run.lend(drawn_areas(draw, sizes));
        run.fresh(sizes.size);
        run.began_stale = run.areas.marks.iter().all(|mark| mark & CURRENT == 0);
        run
    }

    fn lend(&mut self, areas: Areas) {
        self.host.lend(&areas);
        self.areas = areas;
    }

    /// Goes on with a copy, laid onto these areas. Of the slab it has the pages up to the last that a record has, of the
    /// name rows the counted ones. Every page of its live disk is stale.
    fn copy_onto(&mut self, mut onto: Areas) {
        self.host.copy_onto(&onto);
        let places = rows(&self.areas).counted_records().iter().map(|record| record.place as usize + 1).max();
        let in_use = PAGE * places.unwrap_or(0);
        let named = NAME_ROW_BYTES * self.head(5) as usize;
        onto.head.copy_from_slice(&self.areas.head);
        onto.branches[..self.areas.branches.len()].copy_from_slice(&self.areas.branches);
        onto.records[..self.areas.records.len()].copy_from_slice(&self.areas.records);
        onto.places[..self.areas.places.len()].copy_from_slice(&self.areas.places);
        onto.names[..named].copy_from_slice(&self.areas.names[..named]);
        onto.slab[..in_use].copy_from_slice(&self.areas.slab[..in_use]);
        make_stale(&mut onto.marks);
        self.host.compare(&onto);
        self.areas = onto;
    }

    fn fresh(&mut self, size: u32) -> u32 {
        let result = reference::fresh(size, &mut self.areas);
        self.host.fresh(size, result);
        self.compare();
        result
    }

    fn make_stale(&mut self) {
        make_stale(&mut self.areas.marks);
        self.host.make_stale();
        self.compare();
    }

    fn compare(&mut self) {
        if self.always {
            self.host.compare(&self.areas);
        }
    }

    fn batch(&mut self, bytes: &[u8], before: &[u8], watch: impl FnMut(&Request, &Answer)) -> (Report, Vec<u8>) {
        let mut after = before.to_vec();
        let host = &mut *self.host;
        let follow = |store: &Store, change: &Change| {
            if let Change::Reclaim { floor, kept } = change {
                host.reclaims(store, *floor, kept);
            }
        };
        let report = batch_followed(&mut self.areas, bytes, &mut after, follow, watch);
        self.host.batch(bytes, before, &report, &after);
        self.compare();
        (report, after)
    }

    /// A batch whose answers are compared with the pile, too, if there is one.
    fn batch_beside(&mut self, pile: &mut Option<Pile>, bytes: &[u8], before: &[u8]) -> (Report, Vec<u8>) {
        let mut wrong = None;
        let served = self.batch(bytes, before, |request, answer| {
            let due = pile.as_mut().and_then(|pile| pile.take(request, answer.refusal != 0));
            if due.is_some_and(|due| due != *answer) {
                wrong = Some(format!("the answer to {request:?}"));
            }
        });
        if let Some(what) = wrong {
            self.host.pile_differs(&what);
        }
        served
    }

    /// A live read, compared with the pile where there is one and every page began stale. The areas, which it must leave, are
    /// compared by the caller, after one or more of them.
    fn live_read(&mut self, pile: &Option<Pile>, address: u32) -> LiveRead {
        let told = live_read(&mut self.areas, address);
        let page = page_told(&self.areas, &told).unwrap_or_default();
        self.host.live_read(address, &told, &page);
        if let (Some(pile), true, 0) = (pile, self.began_stale, told.refusal) {
            let due = pile.page(address, pile.now).map_or(&[] as &[u8], |found| &found.page);
            if page != due {
                self.host.pile_differs(&format!("the live page at {address}"));
            }
        }
        told
    }

    /// Live reads of every address, and of the one behind; how many.
    fn read_all_live(&mut self, pile: &Option<Pile>) -> u64 {
        let size = self.head(0);
        for address in 0..=size {
            self.live_read(pile, address);
        }
        self.compare();
        u64::from(size) + 1
    }

    fn copy_step(&mut self, budget: u32) -> Step {
        let told = copy_step(&mut self.areas, budget);
        self.host.copy_step(budget, &told);
        self.compare();
        told
    }

    /// The work orders of a moment, into a list of these bytes; compared with the pile, too, if there is one. The areas, which it
    /// must leave, are compared by the caller, after one or more of them.
    fn work_orders(&mut self, pile: &Option<Pile>, moment: u32, before: &[u8]) -> (Listing, Vec<u8>) {
        let mut after = before.to_vec();
        let told = work_orders(&mut self.areas, moment, &mut after);
        self.host.work_orders(moment, before, &told, &after);
        if let Some(pile) = pile {
            if (told, after.clone()) != listing_of(pile, moment, before) {
                self.host.pile_differs(&format!("the work orders of moment {moment}"));
            }
        }
        (told, after)
    }

    /// The same with a list of any length, often just what is needed or nearly so.
    fn drawn_work_orders(&mut self, draw: &mut Draw, pile: &Option<Pile>, moment: u32) -> Listing {
        let needed = work_orders(&mut self.areas, moment, &mut [0; ORDER_BYTES * MOST_BRANCHES]).count;
        let space = drawn_space(draw, ORDER_BYTES as u64 * needed);
        let list = draw.bytes(space);
        self.work_orders(pile, moment, &list).0
    }

    /// Some live reads, copying steps and listings, or none, whatever the areas hold.
    fn other_calls(&mut self, draw: &mut Draw, pile: &Option<Pile>) {
        let size = self.areas.marks.len() as u64;
        if draw.percent(25) {
            for _ in 0..draw.within(1, 2) {
                self.live_read(pile, drawn_live_address(draw, size));
            }
            self.compare();
        }
        if draw.percent(20) {
            self.copy_step(drawn_budget(draw, size));
            self.live_read(pile, drawn_live_address(draw, size));
            self.compare();
        }
        if draw.percent(25) {
            for _ in 0..draw.within(1, 3) {
                let moment = drawn_list_moment(draw, &self.areas);
                self.drawn_work_orders(draw, pile, moment);
            }
            self.compare();
        }
    }

    fn head(&self, index: usize) -> u32 {
        number_at(&self.areas.head, index)
    }

    fn outlook(&self) -> Outlook {
        outlook_of(&self.areas, if self.areas.records.len() > 1_000 { 60 } else { 5 })
    }
}

fn make_stale(marks: &mut [u8]) {
    for mark in marks {
        *mark &= BLANK;
    }
}

/// What requests to a store in these areas, which are sound, are drawn from.
fn outlook_of(areas: &Areas, few: u64) -> Outlook {
    let head = |index| u64::from(number_at(&areas.head, index));
    let rows = areas.names.chunks_exact(NAME_ROW_BYTES).take(head(5) as usize);
    let names = rows.map(|row| Name { bytes: name_at(row), moment: number_at(row, 2) }).collect();
    Outlook { size: head(0), few, now: head(3), floor: head(4), names }
}

/// A moment to list the work orders of, whatever the areas hold: at the floor, at now, named, beside these, or any.
fn drawn_list_moment(draw: &mut Draw, areas: &Areas) -> u32 {
    let number = |area: &[u8], index: usize| area.get(4 * index..4 * index + 4).map_or(0, |bytes| number_at(bytes, 0));
    let (now, floor) = (number(&areas.head, 3), number(&areas.head, 4));
    let names = u64::from(number(&areas.head, 5)).clamp(1, MOST_NAMES as u64);
    let named = number(&areas.names, 3 * draw.below(names) as usize + 2);
    match draw.below(16) {
        0 => floor.wrapping_sub(1),
        1 => now.wrapping_add(1),
        2 => OPEN_END,
        3 => draw.next() as u32,
        4 => draw.one_of(&[0, 1, 4_294_967_294]) as u32,
        5 | 6 => floor,
        7..=9 => now,
        10 | 11 => named,
        12 => named.wrapping_add(1),
        _ if floor <= now => draw.within(u64::from(floor), u64::from(now)) as u32,
        _ => floor,
    }
}

/// A list's space, where so much is needed: just that, a byte or two less or more, none, more, or any.
fn drawn_space(draw: &mut Draw, needed: u64) -> usize {
    (match draw.below(12) {
        0 => needed.saturating_sub(1),
        1 => needed.saturating_sub(2),
        2 => 0,
        3 => needed + draw.within(1, 2),
        4 | 5 => needed + draw.within(3, 40),
        6 => draw.below(needed + 1),
        _ => needed,
    }) as usize
}

/// What the pile claims of a listing, and the list that it gives.
fn listing_of(pile: &Pile, moment: u32, before: &[u8]) -> (Listing, Vec<u8>) {
    let refused = |refusal| (Listing { refusal, count: 0 }, before.to_vec());
    if !pile.can_read(moment) {
        return refused(if moment < pile.floor { 8 } else { 9 });
    }
    let orders = pile.orders(moment);
    let bytes: Vec<u8> = orders.iter().flat_map(|order| (*order as u16).to_be_bytes()).collect();
    if bytes.len() > before.len() {
        return refused(14);
    }
    let past = before[bytes.len()..].to_vec();
    (Listing { refusal: 0, count: orders.len() as u64 }, [bytes, past].concat())
}

/// No fewer bytes than the answers of these requests take.
fn most_answer_bytes(bytes: &[u8]) -> usize {
    let mut at = 0;
    let mut most = 16;
    while at < bytes.len() {
        let operation = bytes[at] >> 5;
        at += match operation {
            1 => 7 + PAGE,
            6 | 7 => 7 + NAME_BYTES,
            _ => 7,
        };
        most += if operation == 4 { PAGE_ANSWER_BYTES } else { ANSWER_BYTES };
    }
    most
}

/// An answer area: mostly ample, else of any size or near what the batch needs.
fn drawn_answer_area(draw: &mut Draw, areas: &Areas, bytes: &[u8]) -> Vec<u8> {
    let ample = most_answer_bytes(bytes);
    let length = match draw.below(10) {
        0 => draw.below(ample as u64 + 1) as usize,
        1 => draw.below(30) as usize,
        2 => {
            let needed = reference::batch(&mut areas.clone(), bytes, &mut vec![0; ample]).answer_bytes;
            (needed + draw.below(3)).saturating_sub(1) as usize
        }
        _ => ample,
    };
    draw.bytes(length)
}

// ---------------------------------------------------------------------------------------------
// Lists of batches

/// Runs batches of any cut; what a batch left unread begins the next one, or is dropped.
fn run_batches(run: &mut Run, draw: &mut Draw, batches: u64, most: u64, pile: &mut Option<Pile>) {
    let mix = &MIXES[draw.below(MIXES.len() as u64) as usize];
    let mut waiting: Vec<u8> = Vec::new();
    for _ in 0..batches {
        let mut outlook = run.outlook();
        let more = drawn_batch(draw, mix, &mut outlook, most, 10);
        waiting.extend(more);
        let cut = if draw.percent(30) { draw.below(waiting.len() as u64 + 1) as usize } else { waiting.len() };
        let area = drawn_answer_area(draw, &run.areas, &waiting[..cut]);
        let (report, _) = run.batch_beside(pile, &waiting[..cut], &area);
        run.other_calls(draw, pile);
        if draw.percent(60) {
            let unread = if report.stop == 12 || report.stop == 13 { draw.one_of(&[1, 7]) as usize } else { 0 };
            let dropped = (report.request_bytes as usize + unread).min(waiting.len());
            waiting.drain(..dropped);
            if waiting.len() > 4_000 {
                waiting.clear();
            }
        } else {
            waiting.clear();
        }
    }
}

/// A read of every address below the size and below 6, at every readable moment, a few hundred at most, and at the named ones.
fn read_all(run: &mut Run, draw: &mut Draw, pile: &mut Option<Pile>) {
    let outlook = run.outlook();
    let mut bytes = Vec::new();
    let named = outlook.names.iter().map(|name| u64::from(name.moment));
    for moment in (outlook.floor..=outlook.now.min(outlook.floor + 60)).chain(named) {
        for address in 0..outlook.size.min(6) {
            bytes.extend(read(address, moment));
        }
    }
    let area = draw.bytes(PAGE_ANSWER_BYTES * bytes.len() / 7);
    run.batch_beside(pile, &bytes, &area);
}

/// The work orders of every readable moment, a few hundred at most, of the moments beside them and of the last; how many
/// listings.
fn list_all(run: &mut Run, draw: &mut Draw, pile: &Option<Pile>) -> u64 {
    let outlook = run.outlook();
    let mut moments: Vec<u64> = (outlook.floor..=outlook.now.min(outlook.floor + 200)).collect();
    moments.extend(outlook.names.iter().map(|name| u64::from(name.moment)));
    moments.extend([outlook.floor.saturating_sub(1), outlook.now, outlook.now + 1, u64::from(OPEN_END)]);
    for moment in &moments {
        run.drawn_work_orders(draw, pile, (*moment).min(u64::from(OPEN_END)) as u32);
    }
    run.compare();
    moments.len() as u64
}

/// Moves now forward by hand, so that the last moments come up; the tables stay sound.
fn jump(run: &mut Run, draw: &mut Draw) {
    let now = u64::from(run.head(3));
    let last = u64::from(OPEN_END);
    let to = match draw.below(3) {
        0 => last - draw.below(12),
        1 => draw.within(now, last),
        _ => now + draw.below(100),
    };
    let mut areas = run.areas.clone();
    set_number_at(&mut areas.head, 3, to.max(now).min(last) as u32);
    run.lend(areas);
}

/// The session of document 01, one request a batch, its small examples of refusals, and its whole case; the
/// space that a page with its date needs.
pub fn examples(host: &mut dyn Host, seed: u64) {
    let draw = &mut Draw::new(seed);
    let page = |letter: u8| [letter; PAGE];
    let usual = (64, 16, 128, 128);
    let named = vec![
        write(5, &page(b'A')),
        mark(),
        name(0, b"as built"),
        write(5, &page(b'B')),
        name(1, b"too late"),
        mark(),
        name(1, b"as built"),
        withdraw(b"not this"),
        reclaim(2),
        read(5, 0),
        read(5, 1),
        reclaim(0),
        name(0, b"the same"),
        name(1, b"not this"),
        revert(0, 256),
        read(5, 3),
        withdraw(b"as built"),
        read(5, 0),
        withdraw(b"the same"),
        read(5, 0),
        revert(0, 9),
        reclaim(2),
    ];
    let session = vec![
        read(5, 0),
        write(5, &page(b'A')),
        mark(),
        write(5, &page(b'B')),
        mark(),
        write(5, &page(b'C')),
        revert(0, 4_711),
        read(5, 3),
        write(5, &page(b'D')),
        revert(2, 65_535),
        read(5, 4),
        read(5, 3),
        read(5, 2),
        read(5, 1),
        reclaim(3),
        read(5, 2),
        reclaim(4),
        read(5, 4),
    ];
    // The cut of the open row is taken over from 4 to 2 and to 0; then a row stays for its page, and one for a name.
    let week = |sealed: u64| [mark(), revert(sealed, 1_000 + sealed)].concat();
    let weekly = vec![
        [week(0), week(2), week(4)].concat(),
        reclaim(6),
        [write(5, &page(b'A')), week(6), week(8), week(10), name(11, b"in a row")].concat(),
        [week(12), week(14), reclaim(16), reclaim(16)].concat(),
        read(5, 16),
        read(5, 11),
        [revert(11, 1), read(5, 17), read(5, 10)].concat(),
        [withdraw(b"in a row"), reclaim(16), reclaim(17), week(17)].concat(),
        [write(5, &page(b'B')), mark(), reclaim(20), read(5, 20)].concat(),
    ];
    let lists = [
        (usual, session),
        (usual, named),
        ((64, 7, 2, 2), weekly),
        (usual, vec![write(5, &page(b'A')), write(5, &page(b'B'))]),
        (usual, vec![mark(), revert(1, 6), revert(0, 7)]),
        (usual, vec![[mark(), revert(0, 0), read(5, 2)].concat()]),
        ((6, 1, 1, 1), vec![read(6, 0)]),
        ((6, 1, 1, 2), vec![write(0, &page(1)), write(1, &page(1)), write(0, &page(2))]),
        ((6, 1, 2, 1), vec![write(0, &page(1)), write(1, &page(1)), write(0, &page(2))]),
        ((6, 1, 1, 1), vec![mark(), revert(0, 6)]),
        // A work order at or above A, and one of all bits; a spare bit besides.
        ((6, 4, 1, 1), vec![mark(), revert(0, 6), revert(1, 65_535), draw::packed(3, 6, 0, 1)]),
        ((6, 1, 1, 1), vec![[mark(), mark(), mark(), reclaim(3)].concat(), read(0, 2)]),
        ((6, 2, 1, 1), vec![[mark(), mark(), mark(), mark()].concat(), revert(4, 5)]),
        ((6, 1, 1, 1), vec![vec![0x40, 0, 0], vec![0; 7], vec![0x40, 0, 0, 0, 0, 0, 1]]),
        (
            (6, 1, 1, 1),
            vec![mark(), name(0, b"cut shor"), name(0, b"cut sho"), name(0, b""), withdraw(b""), withdraw(b"cut sho")],
        ),
        (
            (6, 1, 1, 1),
            vec![vec![0xC0, 0, 0, 0, 0, 0, 1], vec![0xC0, 0, 0x20, 0, 0, 0, 0], vec![0xE0, 0, 0, 0, 0, 0, 0x20]],
        ),
    ];
    for ((size, branches, records, places), batches) in lists {
        let mut run = Run::fresh_of(host, draw, &Sizes { size, branches, records, places });
        for bytes in batches {
            let area = draw.bytes(300);
            run.batch(&bytes, &area, |_, _| {});
            run.other_calls(draw, &None);
            list_all(&mut run, draw, &None);
        }
        run.batch(&mark(), &[1, 2, 3, 4], |_, _| {});
    }
    // A write and a read that finds its page: their answers have 5 and 265 bytes.
    for space in [4, 5, 265, 266, 269, 270, 271] {
        let mut run = Run::fresh_of(host, draw, &Sizes { size: 6, branches: 1, records: 1, places: 1 });
        let area = draw.bytes(space);
        run.batch(&[write(5, &page(b'A')), read(5, 0)].concat(), &area, |_, _| {});
    }
    host.end("the documents' examples");
}

/// Lists over small tables from a fresh store, so that every refusal comes up.
pub fn lists(host: &mut dyn Host, seed: u64, count: u64) {
    for list in 0..count {
        let draw = &mut Draw::new(seed ^ (list + 1).wrapping_mul(0xA24B_AED4_963E_E407));
        let sizes = drawn_sizes(draw);
        let mut run = Run::fresh_of(host, draw, &sizes);
        // The pile is compared where it is small and nobody else writes to the head.
        let mut pile = if sizes.size <= 16 { Some(Pile::new(sizes.size)) } else { None };
        let batches = draw.within(2, 24);
        run_batches(&mut run, draw, batches, 16, &mut pile);
        read_all(&mut run, draw, &mut pile);
        list_all(&mut run, draw, &pile);
        if let Some(what) = pile.as_ref().and_then(|pile| pile.difference(&run.areas)) {
            run.host.pile_differs(&what);
        }
        if draw.percent(15) {
            jump(&mut run, draw);
            run_batches(&mut run, draw, 4, 16, &mut None);
        }
    }
    host.end("lists of batches");
}

/// Longer lists over tables of some hundred rows.
pub fn longer_lists(host: &mut dyn Host, seed: u64, count: u64) {
    for list in 0..count {
        let draw = &mut Draw::new(seed ^ (list + 1).wrapping_mul(0xD6E8_FEB8_6659_FD93));
        let records = draw.within(100, 1_500) as usize;
        let sizes = Sizes {
            size: if list % 50 == 7 { 65_536 } else { draw.one_of(&[16, 40, 300, 5_000]) as u32 },
            branches: draw.within(40, 300) as usize,
            records,
            places: (records as u64 + draw.within(0, 100) - 50).max(1) as usize,
        };
        let mut run = Run::fresh_of(host, draw, &sizes);
        for _ in 0..draw.within(4, 10) {
            run_batches(&mut run, draw, 4, 100, &mut None);
        }
    }
    host.end("longer lists");
}

// ---------------------------------------------------------------------------------------------
// Sound tables of any shape

/// Batches over sound tables that no list from a fresh store need reach.
pub fn sound_tables(host: &mut dyn Host, seed: u64, count: u64) {
    for table in 0..count {
        let draw = &mut Draw::new(seed ^ (table + 1).wrapping_mul(0xC2B2_AE3D_27D4_EB4F));
        let sizes = drawn_sizes(draw);
        let areas = drawn_sound(draw, &sizes);
        assert_eq!(check(&areas), 0, "the tables drawn are sound");
        let mut run = Run::new(&mut *host);
        run.lend(areas);
        let batches = draw.within(1, 4);
        run_batches(&mut run, draw, batches, 12, &mut None);
    }
    host.end("sound tables of any shape");
}

// ---------------------------------------------------------------------------------------------
// Damaged tables

/// Tables with anything changed by hand; what still passes the check runs on as any other store.
pub fn damaged_tables(host: &mut dyn Host, seed: u64, count: u64) {
    for table in 0..count {
        let draw = &mut Draw::new(seed ^ (table + 1).wrapping_mul(0x1656_67B1_9E37_79F9));
        let sizes = drawn_sizes(draw);
        let mut areas = drawn_sound(draw, &sizes);
        let names = outlook_of(&areas, 5).names;
        damage(draw, &mut areas);
        let mut run = Run::new(&mut *host);
        run.lend(areas);
        if draw.percent(10) {
            let size = draw.one_of(&[0, 1, 64, 65_535, 65_536, 65_537, 4_294_967_295]) as u32;
            run.fresh(size);
        }
        // A head that is no head is no outlook either.
        let mut outlook = Outlook { size: u64::from(sizes.size), few: 5, now: 6, floor: 2, names };
        let mix = &MIXES[draw.below(MIXES.len() as u64) as usize];
        let bytes = drawn_batch(draw, mix, &mut outlook, 8, 5);
        let area = drawn_answer_area(draw, &run.areas, &bytes);
        let (report, _) = run.batch(&bytes, &area, |_, _| {});
        run.other_calls(draw, &None);
        if ![1, 2, 3, 18].contains(&report.stop) {
            run_batches(&mut run, draw, 2, 12, &mut None);
        }
    }
    host.end("damaged tables");
}

/// Tables at and just above the largest sizes.
pub fn edge_sizes(host: &mut dyn Host, seed: u64) {
    let draw = &mut Draw::new(seed);
    for (branches, records, places) in [
        (4_096, 1, 1),
        (4_097, 1, 1),
        (1, 65_536, 1),
        (1, 65_537, 1),
        (1, 1, 65_536),
        (1, 1, 65_537),
        (4_096, 65_536, 65_536),
        (4_097, 65_537, 65_537),
        (0, 1, 1),
        (1, 0, 1),
        (1, 1, 0),
        (0, 0, 0),
    ] {
        for size in [0, 1, 65_536, 65_537] {
            let sizes = Sizes { size, branches, records, places };
            let mut run = Run::new(&mut *host);
            run.lend(drawn_areas(draw, &sizes));
            let result = run.fresh(size);
            if result != 0 {
                // A head and first rows that would do, were it not for the lengths.
                let mut areas = run.areas.clone();
                for (index, number) in [size, 1, 0, 3, 1, 0].iter().enumerate() {
                    set_number_at(&mut areas.head, index, *number);
                }
                if branches > 0 {
                    set_number_at(&mut areas.branches, 0, 0);
                    set_number_at(&mut areas.branches, 1, OPEN_END);
                    set_number_at(&mut areas.branches, 2, 0);
                    set_number_at(&mut areas.branches, 3, 0);
                }
                areas.places.fill(0);
                run.lend(areas);
            }
            let bytes = [mark(), write(0, &[7; PAGE]), read(0, 1), revert(0, 65_535), mark(), reclaim(1)].concat();
            let area = draw.bytes(600);
            run.batch(&bytes, &area, |_, _| {});
            let last = u64::from(size).saturating_sub(1).min(65_535);
            run.batch(&[write(last, &[8; PAGE]), read(last, 1), write(0, &[9; PAGE])].concat(), &area, |_, _| {});
            run.other_calls(draw, &None);
            let now = run.head(3);
            run.work_orders(&None, now, &[0x66; 5]);
            run.compare();
        }
    }
    lengths_of_head_and_names(host, draw);
    host.end("largest sizes");
}

/// Heads and name tables of other lengths, by bytes, by numbers and by rows; all else would do.
fn lengths_of_head_and_names(host: &mut dyn Host, draw: &mut Draw) {
    let heads = [0, 4, 19, 20, 21, 23, 25, 27, 28, 32];
    let names = [0, 1, 4, 12, 24, 360, 372, 376, 380, 383, 385, 388, 392, 396, 408, 768];
    for (which, length) in heads.map(|length| (0, length)).into_iter().chain(names.map(|length| (4, length))) {
        let sizes = Sizes { size: 5, branches: 3, records: 3, places: 3 };
        let mut run = Run::fresh_of(host, draw, &sizes);
        run.batch(&[mark(), name(0, b"a state.")].concat(), &[0x33; 10], |_, _| {});
        let mut areas = run.areas.clone();
        area_of(&mut areas, which).resize(length, 0);
        run.lend(areas);
        run.batch(&mark(), &[0x33; 9], |_, _| {});
        run.other_calls(draw, &None);
        run.fresh(5);
    }
}

/// Every area empty in turn, and a batch with more requests and bytes than 16 bits count.
pub fn empty_areas(host: &mut dyn Host, seed: u64) {
    let draw = &mut Draw::new(seed);
    for which in 0..10 {
        let sizes = Sizes { size: 5, branches: 3, records: 3, places: 3 };
        let mut run = Run::fresh_of(host, draw, &sizes);
        let mut areas = run.areas.clone();
        if which < 8 {
            area_of(&mut areas, which).clear();
        }
        run.lend(areas);
        let bytes = if which == 8 { Vec::new() } else { mark() };
        let area = if which == 9 { Vec::new() } else { draw.bytes(9) };
        run.batch(&bytes, &area, |_, _| {});
        run.live_read(&None, 0);
        for space in [0, 1, 2, 3] {
            run.work_orders(&None, 0, &[0x66; 3][..space]);
        }
        run.copy_step(3);
        run.fresh(5);
    }
    for room in [350_000, 349_999, 400_000] {
        let sizes = Sizes { size: 5, branches: 3, records: 3, places: 3 };
        let mut run = Run::fresh_of(host, draw, &sizes);
        let area = draw.bytes(room);
        run.batch(&mark().repeat(70_000), &area, |_, _| {});
        run.batch(&[write(0, &[1; PAGE]), revert(65_536, 65_535), reclaim(65_537)].concat(), &area, |_, _| {});
    }
    host.end("empty areas and many requests");
}

/// Full tables: thousands of branches and tens of thousands of records, drawn, then a few batches.
pub fn full_tables(host: &mut dyn Host, seed: u64, count: u64) {
    for table in 0..count {
        let draw = &mut Draw::new(seed ^ (table + 1).wrapping_mul(0x27D4_EB2F_1656_67C5));
        let sizes = Sizes { size: 65_536, branches: 4_096, records: 65_536, places: 65_536 };
        let areas = drawn_full(draw, &sizes, table);
        assert_eq!(check(&areas), 0, "the tables drawn are sound");
        let mut run = Run::new(&mut *host);
        run.lend(areas);
        let outlook = run.outlook();
        let mut bytes = Vec::new();
        let any_name = |draw: &mut Draw| outlook.names[draw.below(outlook.names.len() as u64) as usize];
        for _ in 0..6 {
            bytes.extend(write(draw.below(65_536), &draw.bytes(PAGE)));
            bytes.extend(read(draw.below(65_536), draw.within(outlook.floor, outlook.now)));
            bytes.extend(read(draw.below(400), u64::from(any_name(draw).moment)));
            bytes.extend(mark());
            bytes.extend(revert(draw.within(outlook.floor, outlook.now), drawn_order(draw)));
            bytes.extend(name(u64::from(any_name(draw).moment), &drawn_name(draw, &outlook)));
        }
        bytes.extend(revert(u64::from(any_name(draw).moment), drawn_order(draw)));
        for step in [0, 5, 40] {
            bytes.extend(reclaim((outlook.floor + step).min(outlook.now)));
        }
        for _ in 0..6 {
            bytes.extend(write(draw.below(65_536), &draw.bytes(PAGE)));
            bytes.extend(revert(draw.within(outlook.now - 2, outlook.now), drawn_order(draw)));
            bytes.extend(read(draw.below(65_536), outlook.now));
            bytes.extend(withdraw(&any_name(draw).bytes));
            bytes.extend(name(outlook.now - draw.within(0, 200), &drawn_name(draw, &outlook)));
        }
        bytes.extend(reclaim(outlook.now));
        let area = draw.bytes(20_000);
        run.batch(&bytes, &area, |_, _| {});
        for address in [0, 399, draw.below(400), draw.below(65_536), 65_535, 65_536] {
            run.live_read(&None, address as u32);
        }
        run.copy_step(draw.within(1, 300) as u32);
        for _ in 0..4 {
            let moment = drawn_list_moment(draw, &run.areas);
            run.drawn_work_orders(draw, &None, moment);
        }
        // The same tables with one number changed, anywhere.
        let sound = drawn_full(draw, &sizes, table);
        for _ in 0..3 {
            let mut areas = sound.clone();
            change_number(draw, &mut areas);
            run.lend(areas);
            run.batch(&mark(), &area[..9], |_, _| {});
            run.live_read(&None, draw.below(65_536) as u32);
            let now = run.head(3);
            run.drawn_work_orders(draw, &None, now);
        }
    }
    host.end("full tables");
}

// ---------------------------------------------------------------------------------------------
// A hundred years

/// A hundred years are 5,218 weeks. Weekly changes of one group of settings over full tables: writes to
/// some of the group's 128 pages and a mark; now and then a set-back, some of them undone weeks later;
/// every month a reclaim that leaves a year, in some decades ten, and a few writes behind it. In the last
/// decades the record table gets full now and then. Twice a year the state is commissioned, by a name; names are withdrawn
/// after a year or more, most of them below the floor by then. Every week is read at a named moment, and some set-backs go to
/// one. Every month there is a copying step, every second week a live read, every fourth a listing. The lent areas are compared
/// every `interval` weeks, answers and counts after every call.
pub fn hundred_years(host: &mut dyn Host, seed: u64, weeks: u64, interval: u64) {
    let draw = &mut Draw::new(seed);
    let sizes = Sizes { size: 65_536, branches: 4_096, records: 65_536, places: 65_536 };
    let mut run = Run::new(&mut *host);
    run.always = false;
    run.lend(drawn_areas(draw, &sizes));
    run.fresh(65_536);
    run.host.compare(&run.areas);

    // The pages in use from the start: 100 of each of 512 groups.
    for part in 0..64 {
        let mut bytes = Vec::new();
        for group in 8 * part..8 * part + 8 {
            for page in 0..100 {
                bytes.extend(write(128 * group + page, &draw.bytes(PAGE)));
            }
        }
        run.batch(&bytes, &[0x11; ANSWER_BYTES * 800], |_, _| {});
    }
    run.host.compare(&run.areas);

    // The moment to revert to, to undo a set-back, and the week to do so.
    let mut undo: Option<(u64, u64)> = None;
    for week in 0..weeks {
        let outlook = run.outlook();
        let mut bytes = Vec::new();
        let group = draw.below(512);
        for _ in 0..draw.within(8, 40) {
            bytes.extend(write(128 * group + draw.below(128), &draw.bytes(PAGE)));
        }
        bytes.extend(mark());
        let now = outlook.now + 1;
        for _ in 0..4 {
            bytes.extend(read(draw.below(65_536), draw.within(outlook.floor, now)));
        }
        let mut undo_at = None;
        match undo {
            Some((sealed, when)) if when == week => {
                bytes.extend(revert(sealed, drawn_order(draw)));
                undo = None;
            }
            None if draw.percent(25) => {
                let mut moment = now.saturating_sub(draw.within(1, 30)).max(outlook.floor);
                if !outlook.names.is_empty() && draw.percent(10) {
                    moment = u64::from(outlook.names[draw.below(outlook.names.len() as u64) as usize].moment);
                }
                bytes.extend(revert(moment, drawn_order(draw)));
                if draw.percent(50) {
                    undo_at = Some(week + draw.within(1, 8));
                }
            }
            _ => {}
        }
        bytes.extend(names_of_week(draw, &outlook, week));
        if week % 13 % 4 == 3 {
            let years = if week / 522 % 3 == 1 { 10 } else { 1 };
            bytes.extend(reclaim(now.saturating_sub(65 * years).max(outlook.floor)));
            bytes.extend(read(128 * group, now));
            // Some of the places that it freed are taken at once.
            for _ in 0..draw.within(1, 12) {
                bytes.extend(write(128 * group + draw.below(128), &draw.bytes(PAGE)));
            }
        }
        let mut sealed = None;
        run.batch(&bytes, &[0x22; PAGE_ANSWER_BYTES * 60], |request, answer| {
            if matches!(request, Request::Revert { .. }) && answer.refusal == 0 {
                sealed = Some(u64::from(answer.number));
            }
        });
        if let (Some(sealed), Some(week)) = (sealed, undo_at) {
            undo = Some((sealed, week));
        }
        if week % 2 == 0 {
            run.live_read(&None, draw.below(65_536) as u32);
        }
        if week % 4 == 1 {
            let moment = drawn_list_moment(draw, &run.areas);
            run.drawn_work_orders(draw, &None, moment);
        }
        if week % 13 % 4 == 1 {
            run.copy_step(draw.within(1, 2_000) as u32);
        }
        if (week + 1) % interval == 0 || week + 1 == weeks {
            run.host.compare(&run.areas);
        }
    }
    host.end(&format!("weekly changes, {weeks} weeks"));
}

/// Reads at a named moment; every half year a new name; now and then one withdrawn, mostly the oldest.
fn names_of_week(draw: &mut Draw, outlook: &Outlook, week: u64) -> Vec<u8> {
    let mut bytes = Vec::new();
    if !outlook.names.is_empty() {
        let named = outlook.names[draw.below(outlook.names.len() as u64) as usize];
        for _ in 0..3 {
            bytes.extend(read(draw.below(65_536), u64::from(named.moment)));
        }
    }
    if week % 26 == 5 {
        let moment = draw.within(outlook.now.saturating_sub(20).max(outlook.floor), outlook.now);
        bytes.extend(name(moment, &(week / 26).to_be_bytes()));
    }
    if week % 26 == 9 && outlook.names.len() > 2 && draw.percent(90) {
        let row = if draw.percent(75) { 0 } else { draw.below(outlook.names.len() as u64) };
        bytes.extend(withdraw(&outlook.names[row as usize].bytes));
    }
    bytes
}

// ---------------------------------------------------------------------------------------------
// Counting

/// More than the largest number that is a refusal or a stop.
pub const NUMBERS: usize = 32;

#[derive(Default)]
pub struct Counts {
    pub calls: u64,
    pub compared: u64,
    pub differ: u64,
    pub answered: u64,
    pub stops: [u64; NUMBERS],
    pub refusals: [u64; NUMBERS],
    /// Results of live reads, of copying steps and of listings.
    pub live_reads: [u64; NUMBERS],
    pub steps: [u64; NUMBERS],
    pub lists: [u64; NUMBERS],
    /// Pages of live reads: none, on the disk, in the slab.
    pub pages: [u64; 3],
    /// Pages brought to date.
    pub copied: u64,
    /// Work orders listed.
    pub orders: u64,
}

/// All families, in order. `scale` is in hundredths of the usual number of cases.
pub fn all(host: &mut dyn Host, seed: u64, scale: u64, families: &str) {
    let host = &mut Counting { host, taken_out: TakenOut::default() };
    let part = |usual: u64| (usual * scale / 100).max(1);
    let chosen = |name: &str| families == "all" || families.split(',').any(|family| family == name);
    if chosen("examples") {
        examples(host, seed);
    }
    if chosen("lists") {
        lists(host, seed, part(30_000));
    }
    if chosen("longer") {
        longer_lists(host, seed, part(100));
    }
    if chosen("packed") {
        packed(host, seed, part(4_000), part(20));
    }
    if chosen("names") {
        names(host, seed, part(3_000));
    }
    if chosen("chains") {
        chains(host, seed, part(3_000));
    }
    if chosen("copies") {
        copies(host, seed, part(1_500));
    }
    if chosen("sound") {
        sound_tables(host, seed, part(80_000));
    }
    if chosen("damaged") {
        damaged_tables(host, seed, part(200_000));
    }
    if chosen("broken") {
        broken_rows(host, seed, part(300));
    }
    if chosen("live") {
        live_disks(host, seed, part(400));
    }
    if chosen("unfit") {
        unfit_disks(host, seed, part(100));
    }
    if chosen("orders") {
        orders(host, seed, part(400));
    }
    if chosen("broken_orders") {
        broken_orders(host, seed, part(400));
    }
    if chosen("edges") {
        edge_sizes(host, seed);
    }
    if chosen("empty") {
        empty_areas(host, seed);
    }
    if chosen("full") {
        full_tables(host, seed, part(8));
    }
    if chosen("broken_full") {
        broken_rows_of_full_tables(host, seed);
    }
    if chosen("large_lists") {
        largest_lists(host, seed);
    }
    if chosen("large_disks") {
        largest_live_disk(host, seed);
        unfit_large_disks(host, seed);
    }
    if chosen("years") {
        hundred_years(host, seed, part(5_218), 261);
    }
    if chosen("weekly") {
        weekly(host, seed, part(5_218));
    }
}
