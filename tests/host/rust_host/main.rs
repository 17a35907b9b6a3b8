//! A host in Rust: lends areas to the static library, calls it and compares each area, byte for byte,
//! with what the reference says.

use cases::{Counts, Host, NUMBERS};
use reference::*;

extern "C" {
    fn kizmoolet_fresh(
        size: u32,
        head: *mut u8,
        head_len: usize,
        branches: *mut u8,
        branches_len: usize,
        records: *mut u8,
        records_len: usize,
        places: *mut u8,
        places_len: usize,
        names: *mut u8,
        names_len: usize,
        slab: *const u8,
        slab_len: usize,
    ) -> u32;
    fn kizmoolet_batch(
        head: *mut u8,
        head_len: usize,
        branches: *mut u8,
        branches_len: usize,
        records: *mut u8,
        records_len: usize,
        places: *mut u8,
        places_len: usize,
        names: *mut u8,
        names_len: usize,
        slab: *mut u8,
        slab_len: usize,
        disk: *mut u8,
        disk_len: usize,
        marks: *mut u8,
        marks_len: usize,
        batch: *const u8,
        batch_len: usize,
        answers: *mut u8,
        answers_len: usize,
        answered: *mut u64,
        request_bytes: *mut u64,
        answer_bytes: *mut u64,
        rows_read: *mut u64,
    ) -> u32;
    fn kizmoolet_live_read(
        head: *const u8,
        head_len: usize,
        branches: *const u8,
        branches_len: usize,
        records: *const u8,
        records_len: usize,
        places: *const u8,
        places_len: usize,
        names: *const u8,
        names_len: usize,
        slab: *const u8,
        slab_len: usize,
        disk: *const u8,
        disk_len: usize,
        marks: *const u8,
        marks_len: usize,
        address: u32,
        area: *mut u32,
        offset: *mut u64,
    ) -> u32;
    fn kizmoolet_copy_step(
        head: *const u8,
        head_len: usize,
        branches: *const u8,
        branches_len: usize,
        records: *const u8,
        records_len: usize,
        places: *const u8,
        places_len: usize,
        names: *const u8,
        names_len: usize,
        slab: *const u8,
        slab_len: usize,
        disk: *mut u8,
        disk_len: usize,
        marks: *mut u8,
        marks_len: usize,
        budget: u32,
        copied: *mut u64,
    ) -> u32;
    fn kizmoolet_work_orders(
        head: *const u8,
        head_len: usize,
        branches: *const u8,
        branches_len: usize,
        records: *const u8,
        records_len: usize,
        places: *const u8,
        places_len: usize,
        names: *const u8,
        names_len: usize,
        slab: *const u8,
        slab_len: usize,
        moment: u32,
        list: *mut u8,
        list_len: usize,
        count: *mut u64,
    ) -> u32;
}

/// Bytes before and after every area that nobody may change.
const MARGIN: usize = 48;

fn margin_byte(index: usize) -> u8 {
    (index as u8).wrapping_mul(37) ^ 0xC3
}

/// An area with its margins.
#[derive(Default)]
struct Lent {
    bytes: Vec<u8>,
    length: usize,
}

impl Lent {
    fn fill(&mut self, contents: &[u8]) {
        self.length = contents.len();
        self.bytes.clear();
        self.bytes.extend((0..MARGIN).map(margin_byte));
        self.bytes.extend_from_slice(contents);
        self.bytes.extend((0..MARGIN).map(margin_byte));
    }

    fn address(&mut self) -> *mut u8 {
        self.bytes[MARGIN..].as_mut_ptr()
    }

    fn contents(&self) -> &[u8] {
        &self.bytes[MARGIN..MARGIN + self.length]
    }

    fn contents_mut(&mut self) -> &mut [u8] {
        &mut self.bytes[MARGIN..MARGIN + self.length]
    }

    fn lay(&mut self, front: &[u8]) {
        self.bytes[MARGIN..MARGIN + front.len()].copy_from_slice(front);
    }

    fn margins_hold(&self) -> bool {
        let after = MARGIN + self.length;
        let same = |at: usize| (0..MARGIN).all(|index| self.bytes[at + index] == margin_byte(index));
        same(0) && same(after)
    }
}

const NAMES: [&str; 8] = ["head", "branches", "records", "places", "names", "slab", "disk", "marks"];
const SLAB: usize = 5;
const DISK: usize = 6;
const MARKS: usize = 7;

#[derive(Default)]
struct RustHost {
    lent: [Lent; 8],
    batch: Lent,
    answers: Lent,
    list: Lent,
    counts: Counts,
    seen: [u64; NUMBERS],
    seen_live: [u64; NUMBERS],
    seen_steps: [u64; NUMBERS],
    seen_lists: [u64; NUMBERS],
    differ: u64,
    /// The call at work has been counted as differing.
    told: bool,
    printed: u64,
    /// The first difference ends the program.
    only_first: bool,
}

impl RustHost {
    fn differs(&mut self, what: &str) {
        if !self.told {
            self.counts.differ += 1;
            self.differ += 1;
            self.told = true;
        }
        self.printed += 1;
        if self.printed <= 20 {
            println!("differs at call {} of the family: {what}", self.counts.calls);
        }
        if self.only_first {
            std::process::exit(1);
        }
    }

    fn check_margins(&mut self) {
        for index in 0..NAMES.len() {
            if !self.lent[index].margins_hold() {
                self.differs(&format!("bytes beside the area {}", NAMES[index]));
            }
        }
    }

    /// The bytes that a live read told of; none where it told of none.
    fn live_page(&self, told: &LiveRead) -> &[u8] {
        let from = told.offset as usize;
        match told.area {
            AREA_DISK => &self.lent[DISK].contents()[from..from + PAGE],
            AREA_SLAB => &self.lent[SLAB].contents()[from..from + PAGE],
            _ => &[],
        }
    }

    fn count_refusals(&mut self, answer_bytes: usize) {
        let mut at = 0;
        let answers = self.answers.contents();
        while at + ANSWER_BYTES <= answer_bytes {
            self.counts.refusals[usize::from(answers[at] >> 2) % NUMBERS] += 1;
            at += if answers[at] & 2 != 0 { PAGE_ANSWER_BYTES } else { ANSWER_BYTES };
        }
    }
}

impl Host for RustHost {
    fn lend(&mut self, areas: &Areas) {
        for (lent, area) in self.lent.iter_mut().zip(cases::list(areas)) {
            lent.fill(area);
        }
    }

    fn copy_onto(&mut self, onto: &Areas) {
        let mut kept: Vec<Vec<u8>> = self.lent.iter().map(|lent| lent.contents().to_vec()).collect();
        let (in_use, named) = (slab_in_use(&kept[3]), number_at(&kept[0], 5) as usize);
        kept[4].truncate(NAME_ROW_BYTES * named);
        kept[SLAB].truncate(in_use);
        self.lend(onto);
        for (lent, front) in self.lent.iter_mut().zip(&kept[..=SLAB]) {
            lent.lay(front);
        }
        self.make_stale();
    }

    fn make_stale(&mut self) {
        let marks = self.lent[MARKS].contents_mut();
        marks.iter_mut().for_each(|mark| *mark &= BLANK);
    }

    fn fresh(&mut self, size: u32, result: u32) {
        self.counts.calls += 1;
        self.told = false;
        let [head, branches, records, places, names, slab, ..] = &mut self.lent;
        // Every area is a part of its own, as long as is said.
        let got = unsafe {
            kizmoolet_fresh(
                size,
                head.address(),
                head.length,
                branches.address(),
                branches.length,
                records.address(),
                records.length,
                places.address(),
                places.length,
                names.address(),
                names.length,
                slab.address(),
                slab.length,
            )
        };
        self.counts.stops[got as usize % NUMBERS] += 1;
        if got != result {
            self.differs(&format!("a fresh store gave {got}, should {result}"));
        }
        self.check_margins();
    }

    fn batch(&mut self, batch: &[u8], before: &[u8], report: &Report, after: &[u8]) {
        self.counts.calls += 1;
        self.told = false;
        self.batch.fill(batch);
        self.answers.fill(before);
        let [head, branches, records, places, names, slab, disk, marks] = &mut self.lent;
        // Other numbers than are due: each count must be written.
        let mut got = Report {
            stop: 0,
            answered: !report.answered,
            request_bytes: !report.request_bytes,
            answer_bytes: !report.answer_bytes,
            rows_read: !report.rows_read,
        };
        got.stop = unsafe {
            kizmoolet_batch(
                head.address(),
                head.length,
                branches.address(),
                branches.length,
                records.address(),
                records.length,
                places.address(),
                places.length,
                names.address(),
                names.length,
                slab.address(),
                slab.length,
                disk.address(),
                disk.length,
                marks.address(),
                marks.length,
                self.batch.address(),
                self.batch.length,
                self.answers.address(),
                self.answers.length,
                &mut got.answered,
                &mut got.request_bytes,
                &mut got.answer_bytes,
                &mut got.rows_read,
            )
        };
        self.counts.stops[got.stop as usize % NUMBERS] += 1;
        if got != *report {
            self.differs(&format!("the batch reports {got:?}, should {report:?}"));
        } else {
            self.counts.answered += got.answered;
            self.count_refusals(got.answer_bytes as usize);
        }
        if self.answers.contents() != after {
            self.differs("the answer area");
        }
        if self.batch.contents() != batch {
            self.differs("the batch was changed");
        }
        if !self.batch.margins_hold() || !self.answers.margins_hold() {
            self.differs("bytes beside the batch or the answer area");
        }
        self.check_margins();
    }

    fn live_read(&mut self, address: u32, told: &LiveRead, page: &[u8]) {
        self.counts.calls += 1;
        self.told = false;
        let [head, branches, records, places, names, slab, disk, marks] = &mut self.lent;
        let mut got = LiveRead { refusal: 0, area: !told.area, offset: !told.offset };
        got.refusal = unsafe {
            kizmoolet_live_read(
                head.address(),
                head.length,
                branches.address(),
                branches.length,
                records.address(),
                records.length,
                places.address(),
                places.length,
                names.address(),
                names.length,
                slab.address(),
                slab.length,
                disk.address(),
                disk.length,
                marks.address(),
                marks.length,
                address,
                &mut got.area,
                &mut got.offset,
            )
        };
        self.counts.live_reads[got.refusal as usize % NUMBERS] += 1;
        if got != *told {
            self.differs(&format!("the live read tells {got:?}, should {told:?}"));
        } else if self.live_page(&got) != page {
            self.differs("the page of the live read");
        } else if got.refusal == 0 {
            self.counts.pages[got.area as usize] += 1;
        }
        self.check_margins();
    }

    fn copy_step(&mut self, budget: u32, told: &Step) {
        self.counts.calls += 1;
        self.told = false;
        let [head, branches, records, places, names, slab, disk, marks] = &mut self.lent;
        let mut got = Step { refusal: 0, copied: !told.copied };
        got.refusal = unsafe {
            kizmoolet_copy_step(
                head.address(),
                head.length,
                branches.address(),
                branches.length,
                records.address(),
                records.length,
                places.address(),
                places.length,
                names.address(),
                names.length,
                slab.address(),
                slab.length,
                disk.address(),
                disk.length,
                marks.address(),
                marks.length,
                budget,
                &mut got.copied,
            )
        };
        self.counts.steps[got.refusal as usize % NUMBERS] += 1;
        if got != *told {
            self.differs(&format!("the step tells {got:?}, should {told:?}"));
        } else {
            self.counts.copied += got.copied;
        }
        self.check_margins();
    }

    fn work_orders(&mut self, moment: u32, before: &[u8], told: &Listing, after: &[u8]) {
        self.counts.calls += 1;
        self.told = false;
        self.list.fill(before);
        let [head, branches, records, places, names, slab, ..] = &mut self.lent;
        let mut got = Listing { refusal: 0, count: !told.count };
        got.refusal = unsafe {
            kizmoolet_work_orders(
                head.address(),
                head.length,
                branches.address(),
                branches.length,
                records.address(),
                records.length,
                places.address(),
                places.length,
                names.address(),
                names.length,
                slab.address(),
                slab.length,
                moment,
                self.list.address(),
                self.list.length,
                &mut got.count,
            )
        };
        self.counts.lists[got.refusal as usize % NUMBERS] += 1;
        if got != *told {
            self.differs(&format!("the listing of moment {moment} tells {got:?}, should {told:?}"));
        } else {
            self.counts.orders += got.count;
        }
        if self.list.contents() != after {
            self.differs("the list of work orders");
        }
        if !self.list.margins_hold() {
            self.differs("bytes beside the list");
        }
        self.check_margins();
    }

    fn compare(&mut self, areas: &Areas) {
        self.counts.compared += 1;
        let list = cases::list(areas);
        let mut same = true;
        for index in 0..NAMES.len() {
            if self.lent[index].contents() != list[index].as_slice() {
                self.differs(&format!("the area {}", NAMES[index]));
                same = false;
            }
        }
        if !same {
            self.lend(areas);
        }
    }

    fn end(&mut self, name: &str) {
        let counts = std::mem::take(&mut self.counts);
        println!(
            "  {name}: {} calls, {} requests answered, {} times all areas compared, {} calls differ",
            counts.calls, counts.answered, counts.compared, counts.differ
        );
        let list = |numbers: &[u64; NUMBERS], range: std::ops::Range<usize>| {
            let seen = range.filter(|number| numbers[*number] != 0);
            let parts: Vec<String> = seen.map(|number| format!("{number}: {}", numbers[number])).collect();
            if parts.is_empty() {
                "none".to_string()
            } else {
                parts.join(", ")
            }
        };
        println!(
            "    results and stops {}; refusals {}",
            list(&counts.stops, 0..NUMBERS),
            list(&counts.refusals, 1..NUMBERS)
        );
        if counts.live_reads != [0; NUMBERS] || counts.steps != [0; NUMBERS] {
            println!(
                "    live reads {}; pages on the disk {}, in the slab {}, none {}; steps {}, {} pages",
                list(&counts.live_reads, 0..NUMBERS),
                counts.pages[AREA_DISK as usize],
                counts.pages[AREA_SLAB as usize],
                counts.pages[AREA_NONE as usize],
                list(&counts.steps, 0..NUMBERS),
                counts.copied
            );
        }
        if counts.lists != [0; NUMBERS] {
            println!("    listings {}; {} work orders", list(&counts.lists, 0..NUMBERS), counts.orders);
        }
        for number in 0..NUMBERS {
            self.seen[number] += counts.stops[number] + counts.refusals[number];
            self.seen_live[number] += counts.live_reads[number];
            self.seen_steps[number] += counts.steps[number];
            self.seen_lists[number] += counts.lists[number];
        }
    }

    fn note(&mut self, what: &str) {
        println!("    {what}");
    }

    fn pile_differs(&mut self, what: &str) {
        println!("the reference differs from the pile of pictures: {what}");
        self.differ += 1;
    }
}

fn work() -> bool {
    let arguments: Vec<String> = std::env::args().collect();
    let seed = arguments[1].parse().expect("a seed");
    let scale = arguments[2].parse().expect("a scale in hundredths");
    let only_first = arguments.get(4).is_some_and(|word| word == "first");
    let mut host = RustHost { only_first, ..RustHost::default() };
    cases::all(&mut host, seed, scale, &arguments[3]);
    let mut missing: Vec<String> = Vec::new();
    let mut want = |what: &str, seen: &[u64; NUMBERS], numbers: &[usize]| {
        let never = numbers.iter().filter(|number| seen[**number] == 0);
        missing.extend(never.map(|number| format!("{what} {number}")));
    };
    want("batch", &host.seen, &(1..=18).collect::<Vec<_>>());
    want("live read", &host.seen_live, &[0, 1, 2, 3, 4, 18]);
    want("step", &host.seen_steps, &[0, 1, 2, 3, 18]);
    want("listing", &host.seen_lists, &[0, 1, 2, 3, 8, 9, 14]);
    if arguments[3] == "all" && !missing.is_empty() {
        println!("  never seen: {}", missing.join(", "));
        return false;
    }
    println!("  in all {} calls differ", host.differ);
    host.differ == 0
}

fn main() {
    // The library takes somewhat more than a megabyte of the stack.
    let worker = std::thread::Builder::new().stack_size(8 << 20).spawn(work).expect("a thread");
    match worker.join() {
        Ok(true) => {}
        _ => std::process::exit(1),
    }
}
