//! The live disk behind the history (document 02, Six): lists in which every page begins stale, so that after every call a live
//! read of each address must give the page of a read at now, and of the pile's picture now.

use crate::draw::*;
use crate::tables::{drawn_areas, Sizes};
use crate::{make_stale, Host, Run};
use reference::pictures::Pile;
use reference::*;

/// What every list has, in the order of `WHAT`. Partly copied: some pages are current, others stale.
#[derive(Clone, Copy)]
enum What {
    WriteStale,
    WriteStaleBlank,
    WriteCurrent,
    WriteBlank,
    WriteRefused,
    WriteStopped,
    RevertCurrent,
    RevertPartly,
    RevertUndone,
    RevertBlank,
    RevertRefused,
    RevertStopped,
    MarkPartly,
    NamePartly,
    ReclaimPartly,
    StepCopies,
    StepBlank,
    StepBoth,
    StepPasses,
    StepLeaves,
    StepNothing,
    StepMore,
    CopiedAll,
    LiveDisk,
    LiveBlank,
    LiveSlab,
    LiveSlabBlankMark,
    LiveSlabOtherBytes,
    LiveNone,
    LiveNoneUnmarked,
    FreshOver,
}

const WHAT: [&str; 31] = [
    "writes to a stale page",
    "writes to a stale page with a blank mark",
    "writes to a current page",
    "writes to a blank page",
    "writes refused",
    "writes stopped by 14",
    "reverts with every page current",
    "reverts with the disk partly copied",
    "reverts undone with the disk partly copied",
    "reverts that leave a blank mark",
    "reverts refused while pages are current",
    "reverts stopped by 14 while pages are current",
    "moments sealed with the disk partly copied",
    "names given or withdrawn with the disk partly copied",
    "reclaims with the disk partly copied",
    "steps that copy pages",
    "steps that bring pages to date as blank",
    "steps that do both",
    "steps that pass current pages by",
    "steps that leave stale pages",
    "steps with budget 0",
    "steps with a budget above the stale pages",
    "rounds of A / n steps, rounded up, that leave none stale",
    "live pages on the disk",
    "live reads of blank pages",
    "live pages in the slab",
    "live pages in the slab in spite of a blank mark",
    "live pages in the slab that the disk has otherwise",
    "live reads of stale pages that have none",
    "the same without a blank mark",
    "fresh stores over current pages, made stale",
];

type Seen = [u64; WHAT.len()];

struct List<'a> {
    run: Run<'a>,
    pile: Option<Pile>,
    /// The moments that reverts sealed: a revert to one of them undoes a revert.
    sealed: Vec<u32>,
    seen: Seen,
}

fn is_current(mark: &u8) -> bool {
    mark & CURRENT != 0
}

fn stale_in(marks: &[u8]) -> u64 {
    marks.iter().filter(|mark| !is_current(mark)).count() as u64
}

impl<'a> List<'a> {
    /// A fresh store, every page stale; the second and third address have marks 0 and 2, or 2 and 0.
    fn new(host: &'a mut dyn Host, draw: &mut Draw, sizes: &Sizes) -> List<'a> {
        let size = sizes.size;
        let mut areas = drawn_areas(draw, sizes);
        make_stale(&mut areas.marks);
        if size > 2 {
            areas.marks[1] = draw.one_of(&[0, 2]) as u8;
            areas.marks[2] = BLANK - areas.marks[1];
        }
        let mut run = Run::new(host);
        run.lend(areas);
        run.fresh(size);
        run.began_stale = true;
        List { run, pile: Some(Pile::new(size)), sealed: Vec::new(), seen: [0; WHAT.len()] }
    }

    fn size(&self) -> u64 {
        u64::from(self.run.head(0))
    }

    fn now(&self) -> u64 {
        u64::from(self.run.head(3))
    }

    fn marks(&self) -> &[u8] {
        &self.run.areas.marks
    }

    fn see(&mut self, what: What, seen: bool) {
        self.seen[what as usize] += u64::from(seen);
    }

    // -----------------------------------------------------------------------------------------
    // Live reads

    fn count_live(&mut self, address: u32, told: &LiveRead) {
        let mark = self.marks()[address as usize];
        let at = PAGE * address as usize;
        let page = page_told(&self.run.areas, told);
        let stale = !is_current(&mark);
        let in_slab = told.area == AREA_SLAB;
        let other = page.is_some_and(|page| page != self.run.areas.disk[at..at + PAGE]);
        self.see(What::LiveDisk, told.area == AREA_DISK);
        self.see(What::LiveBlank, mark == CURRENT + BLANK);
        self.see(What::LiveSlab, in_slab);
        self.see(What::LiveSlabBlankMark, in_slab && mark == BLANK);
        self.see(What::LiveSlabOtherBytes, in_slab && other);
        self.see(What::LiveNone, stale && told.area == AREA_NONE);
        self.see(What::LiveNoneUnmarked, mark == 0 && told.area == AREA_NONE);
    }

    /// A live read of every address and of the one behind, each compared with the pile; and a batch that reads every address
    /// at now, which finds the same pages.
    fn look(&mut self, draw: &mut Draw) {
        let size = self.run.head(0);
        let mut live = Vec::new();
        for address in 0..size {
            let told = self.run.live_read(&self.pile, address);
            self.count_live(address, &told);
            live.push(page_told(&self.run.areas, &told));
        }
        let behind = self.run.live_read(&self.pile, size);
        assert_eq!(behind, LiveRead { refusal: 4, area: AREA_NONE, offset: 0 });
        self.run.compare();
        let now = self.now();
        let reads: Vec<Vec<u8>> = (0..self.size()).map(|address| read(address, now)).collect();
        let area = draw.bytes(PAGE_ANSWER_BYTES * size as usize);
        let mut found = Vec::new();
        let keep = |_: &Request, answer: &Answer| found.push(answer.found.as_ref().map(|found| found.page.clone()));
        self.run.batch(&reads.concat(), &area, keep);
        assert!(live == found || !self.run.began_stale, "a live read gives the page of a read at now");
    }

    // -----------------------------------------------------------------------------------------
    // Requests

    fn count_request(&mut self, marks: &[u8], request: &Request, result: u32) {
        let partly = marks.iter().any(is_current) && !marks.iter().all(is_current);
        let (accepted, stopped) = (result == 0, result == 14);
        let refused = !accepted && !stopped;
        match request {
            Request::Write { address, .. } => {
                self.see(What::WriteRefused, refused);
                self.see(What::WriteStopped, stopped);
                if accepted {
                    let kinds = [What::WriteStale, What::WriteCurrent, What::WriteStaleBlank, What::WriteBlank];
                    self.see(kinds[marks[*address as usize] as usize], true);
                }
            }
            Request::Revert { moment, .. } => {
                let some = marks.iter().any(is_current);
                self.see(What::RevertCurrent, accepted && marks.iter().all(is_current));
                self.see(What::RevertPartly, accepted && partly);
                self.see(What::RevertUndone, accepted && partly && self.sealed.contains(moment));
                self.see(What::RevertBlank, accepted && marks.contains(&(CURRENT + BLANK)));
                self.see(What::RevertRefused, refused && some);
                self.see(What::RevertStopped, stopped && some);
                if accepted {
                    self.sealed.push(self.run.head(3) - 1);
                }
            }
            Request::Mark => self.see(What::MarkPartly, accepted && partly),
            Request::Name { .. } | Request::Withdraw { .. } => self.see(What::NamePartly, accepted && partly),
            Request::Reclaim { .. } => self.see(What::ReclaimPartly, accepted && partly),
            Request::Read { .. } => {}
        }
    }

    /// One request, with this space for its answer, and a look at everything behind it. The result: its refusal, or what
    /// stopped it, or 0.
    fn serve(&mut self, draw: &mut Draw, bytes: &[u8], space: usize) -> u32 {
        let before = self.run.areas.clone();
        let area = draw.bytes(space);
        let (report, answers) = self.run.batch_beside(&mut self.pile, bytes, &area);
        let result = if report.stop != 0 { report.stop } else { u32::from(answers[0] >> 2) };
        let (request, _) = read_request(bytes).expect("a whole request");
        self.count_request(&before.marks, &request, result);
        let changes = matches!(request, Request::Write { .. } | Request::Revert { .. });
        if result != 0 || !changes {
            let same = before.disk == self.run.areas.disk && before.marks == self.run.areas.marks;
            assert!(same, "all but accepted writes and reverts leave disk and marks");
        }
        self.look(draw);
        result
    }

    /// A request that is accepted.
    fn accepted(&mut self, draw: &mut Draw, bytes: &[u8]) {
        assert_eq!(self.serve(draw, bytes, PAGE_ANSWER_BYTES), 0, "the request is accepted");
    }

    fn write(&mut self, draw: &mut Draw, address: u64) {
        let page = draw.bytes(PAGE);
        self.accepted(draw, &write(address, &page));
    }

    fn revert(&mut self, draw: &mut Draw, moment: u64) {
        let order = drawn_order(draw);
        self.accepted(draw, &revert(moment, order));
    }

    /// Writes and reverts that are refused, and that have no space for their answer.
    fn turned_away(&mut self, draw: &mut Draw) {
        let page = draw.bytes(PAGE);
        let (size, now) = (self.size(), self.now());
        let (address, space) = (draw.below(size), draw.below(5) as usize);
        assert_eq!(self.serve(draw, &write(size, &page), 5), 4);
        assert_eq!(self.serve(draw, &write(address, &page), space), 14);
        assert_eq!(self.serve(draw, &revert(now, 7), 5), 9);
        assert_eq!(self.serve(draw, &revert(0, 65_535), space), 14);
        assert_eq!(self.serve(draw, &revert(now, 0), 4), 14);
        assert_eq!(self.serve(draw, &write(size, &page), 4), 14);
    }

    /// A request that is no accepted revert.
    fn beside(&mut self, draw: &mut Draw) {
        let (size, now, floor) = (self.size(), self.now(), u64::from(self.run.head(4)));
        let page = draw.bytes(PAGE);
        let request = match draw.below(8) {
            0..=2 => write(draw.below(size + 1), &page),
            3 => mark(),
            4 => read(draw.below(size), now),
            5 => reclaim(draw.within(floor, now)),
            6 => name(draw.within(floor, now), &page[..NAME_BYTES]),
            _ => revert(now, drawn_order(draw)),
        };
        let space = draw.one_of(&[PAGE_ANSWER_BYTES as u64, PAGE_ANSWER_BYTES as u64, 4]);
        self.serve(draw, &request, space as usize);
    }

    // -----------------------------------------------------------------------------------------
    // Copying steps

    fn count_step(&mut self, before: &[u8], budget: u64, copied: u64) {
        let stale = stale_in(before);
        let after = self.marks();
        let brought: Vec<usize> =
            (0..before.len()).filter(|at| !is_current(&before[*at]) && is_current(&after[*at])).collect();
        let blank = brought.iter().any(|at| after[*at] == CURRENT + BLANK);
        let found = brought.iter().any(|at| after[*at] == CURRENT);
        let passes = brought.last().is_some_and(|last| before[..*last].iter().any(is_current));
        assert_eq!(brought.len() as u64, copied, "it says how many pages it copied");
        self.see(What::StepCopies, found);
        self.see(What::StepBlank, blank);
        self.see(What::StepBoth, found && blank);
        self.see(What::StepPasses, passes);
        self.see(What::StepLeaves, 0 < copied && copied < stale);
        self.see(What::StepNothing, budget == 0 && stale > 0);
        self.see(What::StepMore, budget > stale && stale > 0);
    }

    fn step(&mut self, draw: &mut Draw, budget: u64) {
        let before = self.marks().to_vec();
        let told = self.run.copy_step(budget as u32);
        assert_eq!(told, Step { refusal: 0, copied: budget.min(stale_in(&before)) });
        self.count_step(&before, budget, told.copied);
        self.look(draw);
    }

    /// As many steps of this budget as A divided by it, rounded up, with requests among them: no page is stale then.
    fn copy_all(&mut self, draw: &mut Draw, budget: u64) {
        for _ in 0..self.size().div_ceil(budget) {
            self.step(draw, budget);
            for _ in 0..draw.below(3) {
                self.beside(draw);
            }
        }
        assert_eq!(stale_in(self.marks()), 0, "so many steps leave none stale");
        self.see(What::CopiedAll, true);
    }

    // -----------------------------------------------------------------------------------------
    // Lists

    /// Every page but one, the bare one, is written; that one later, so that at moment 0 it has no page and at the moment that
    /// the first revert seals it has one.
    fn beginning(&mut self, draw: &mut Draw) {
        let size = self.size();
        let mut bare = draw.below(size);
        if bare == 1 || bare == 2 {
            // These begin with different marks, and are written.
            bare = 0;
        }
        let other = (bare + 1) % size;
        self.look(draw);
        for address in (0..size).filter(|address| *address != bare) {
            self.write(draw, address);
        }
        self.step(draw, 0);
        self.step(draw, size);
        self.write(draw, other);
        self.accepted(draw, &mark());
        self.write(draw, bare);
        self.write(draw, other);
        self.turned_away(draw);

        // Set back, partly copied, and the set-back undone.
        let first = self.now();
        self.revert(draw, 0);
        let few = draw.within(1, size - 1);
        self.step(draw, few);
        self.turned_away(draw);
        self.accepted(draw, &name(0, b"the base"));
        self.accepted(draw, &name(first, b"with all"));
        self.accepted(draw, &mark());
        self.accepted(draw, &reclaim(0));
        self.revert(draw, first);
        let budget = draw.within(1, size + 1);
        self.copy_all(draw, budget);

        // Blank pages that have a page after the next revert; a current page before stale ones.
        self.revert(draw, 0);
        self.step(draw, size + few);
        self.revert(draw, first);
        self.write(draw, 0);
        self.step(draw, 1);
        self.accepted(draw, &reclaim(self.now()));
        self.revert(draw, 0);
        self.write(draw, bare);
        self.copy_all(draw, few);
    }

    /// The old marks are left by a fresh store, and live reads go by them until the caller makes them stale.
    fn fresh_over(&mut self, draw: &mut Draw) {
        let size = self.run.head(0);
        self.see(What::FreshOver, self.marks().iter().any(is_current));
        self.run.fresh(size);
        self.run.began_stale = false;
        self.look(draw);
        self.run.make_stale();
        self.run.began_stale = true;
        self.pile = Some(Pile::new(size));
        self.sealed.clear();
        self.look(draw);
    }

    /// Any request, step or round of steps; now and then several requests in one batch.
    fn round(&mut self, draw: &mut Draw) {
        let mix = &MIXES[draw.below(MIXES.len() as u64) as usize];
        let mut outlook = self.run.outlook();
        let budget = u64::from(drawn_budget(draw, self.size()));
        match draw.below(12) {
            0 => self.copy_all(draw, budget.max(1)),
            1..=3 => self.step(draw, budget),
            4 | 5 => {
                let bytes = drawn_batch(draw, mix, &mut outlook, 8, 5);
                let area = crate::drawn_answer_area(draw, &self.run.areas, &bytes);
                self.run.batch_beside(&mut self.pile, &bytes, &area);
                self.sealed.clear();
                self.look(draw);
            }
            _ => {
                let bytes = drawn_request(draw, mix, &mut outlook);
                let space = if draw.percent(85) { PAGE_ANSWER_BYTES } else { draw.below(6) as usize };
                self.serve(draw, &bytes, space);
            }
        }
    }

    fn rounds(&mut self, draw: &mut Draw, most: u64) {
        for _ in 0..draw.within(2, most) {
            self.round(draw);
        }
        if let Some(what) = self.pile.as_ref().and_then(|pile| pile.difference(&self.run.areas)) {
            self.run.host.pile_differs(&what);
        }
    }
}

/// A list over a small store; what it has.
fn live_list(host: &mut dyn Host, draw: &mut Draw) -> Seen {
    let size = draw.within(3, 8) as u32;
    let mut list = List::new(host, draw, &Sizes { size, branches: 20, records: 48, places: 44 });
    list.beginning(draw);
    list.rounds(draw, 10);
    list.copy_all(draw, u64::from(size));
    list.fresh_over(draw);
    list.rounds(draw, 6);
    list.seen
}

/// A list over tables that are soon full, of any requests and steps.
fn full_list(host: &mut dyn Host, draw: &mut Draw) {
    let sizes = Sizes {
        size: draw.within(1, 4) as u32,
        branches: draw.within(2, 5) as usize,
        records: draw.within(2, 9) as usize,
        places: draw.within(2, 9) as usize,
    };
    List::new(host, draw, &sizes).rounds(draw, 30);
}

/// Budgets from none to the largest, over a live disk of so many pages: each after a revert, with the last page written again,
/// and once more.
fn budgets(host: &mut dyn Host, draw: &mut Draw, size: u32) {
    let last = u64::from(size) - 1;
    let mut list = List::new(host, draw, &Sizes { size, branches: 20, records: 48, places: 44 });
    list.run.began_stale = false;
    for address in [0, last / 2, last] {
        let page = draw.bytes(PAGE);
        list.run.batch(&write(address, &page), &[0x55; ANSWER_BYTES], |_, _| {});
    }
    list.run.batch(&mark(), &[0x55; ANSWER_BYTES], |_, _| {});
    for budget in [0, 1, 2, last, last + 1, last + 2, 65_537, u64::from(OPEN_END)] {
        let again = [revert(0, budget % 65_536), write(last, &draw.bytes(PAGE))].concat();
        list.run.batch(&again, &[0x55; 2 * ANSWER_BYTES], |_, _| {});
        let steps = if budget == 0 { 1 } else { u64::from(size).div_ceil(budget).min(2) };
        for turn in 0..steps {
            let stale = stale_in(list.marks());
            assert!(turn > 0 || stale == last, "every page but the one written again is stale");
            let told = list.run.copy_step(budget as u32);
            assert_eq!(told, Step { refusal: 0, copied: budget.min(stale) });
        }
        for address in [0, 1, last / 2, last, last + 1, 65_536, u64::from(OPEN_END)] {
            list.run.live_read(&None, address as u32);
        }
        list.run.compare();
    }
}

/// The same over the largest live disk.
pub fn largest_live_disk(host: &mut dyn Host, seed: u64) {
    budgets(host, &mut Draw::new(seed), LARGEST_SIZE);
    host.end("the largest live disk");
}

/// Lists over small stores, and as many over smaller ones; budgets over the smallest live disk.
pub fn live_disks(host: &mut dyn Host, seed: u64, count: u64) {
    let mut all = [0; WHAT.len()];
    for list in 0..count {
        let draw = &mut Draw::new(seed ^ (list + 1).wrapping_mul(0xD1B5_4A32_D192_ED03));
        let seen = live_list(host, draw);
        for what in 0..WHAT.len() {
            assert!(seen[what] > 0, "every list has {}", WHAT[what]);
            all[what] += seen[what];
        }
        full_list(host, draw);
    }
    budgets(host, &mut Draw::new(seed), 1);
    host.end("live disks");
    host.note(&format!("{count} lists, and each has all of these"));
    for what in 0..WHAT.len() {
        host.note(&format!("  {}: {}", WHAT[what], all[what]));
    }
}
