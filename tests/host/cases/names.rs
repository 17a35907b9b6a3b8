//! Commissioned states by name (document 02, Three): lists of batches in which names keep states below the floor, so that
//! a reclaim that forgets them, or a read, revert or naming that does not know them, shows in answers and tables.

use crate::draw::*;
use crate::tables::Sizes;
use crate::{outlook_of, Host, Run};
use reference::pictures::Pile;
use reference::*;

/// What every list has.
const WHAT: [&str; 11] = [
    "reclaims that keep a record for a name alone",
    "reclaims that keep a branch for a name alone",
    "reclaims to the floor itself that free what a name kept",
    "reclaims to a named moment below the floor, refused",
    "pages read at a named moment below the floor",
    "reverts to a named moment below the floor",
    "names given to a named moment below the floor",
    "names withdrawn with names behind",
    "names refused with 15 while all 32 are given",
    "names refused with 16",
    "names refused with 9 at now",
];

type Seen = [u64; WHAT.len()];

/// A batch as it is drawn. The reference carries out each request at once, so that the next one is drawn from the tables as
/// they stand.
pub struct Draft {
    pub areas: Areas,
    bytes: Vec<u8>,
    /// The bytes that the answers take.
    needed: usize,
    /// The areas before the last request, and the request.
    last: (Areas, Vec<u8>),
    seen: Seen,
}

impl Draft {
    pub fn new(run: &Run) -> Draft {
        let areas = run.areas.clone();
        Draft { last: (areas.clone(), Vec::new()), areas, bytes: Vec::new(), needed: 0, seen: [0; WHAT.len()] }
    }

    /// Adds a request and carries it out; its answer.
    pub fn add(&mut self, bytes: Vec<u8>) -> Answer {
        self.last = (self.areas.clone(), bytes.clone());
        let before = rows(&self.areas);
        let mut served = None;
        let report = batch_watched(&mut self.areas, &bytes, &mut [0; PAGE_ANSWER_BYTES], |request, answer| {
            served = Some((request.clone(), answer.clone()));
        });
        self.bytes.extend(bytes);
        self.needed += report.answer_bytes as usize;
        let (request, answer) = served.expect("a whole request");
        self.count(&before, &request, &answer);
        answer
    }

    fn count(&mut self, before: &Store, request: &Request, answer: &Answer) {
        let head = &before.head;
        let below = |moment: u32| moment < head.floor && before.is_named(moment);
        let all_given = head.name_count as usize == MOST_NAMES;
        let mut see = |what: usize, seen: bool| self.seen[what] += u64::from(seen);
        match request {
            Request::Reclaim { moment } if answer.refusal == 0 => {
                let mut without = before.clone();
                without.head.name_count = 0;
                let (kept, without) = (before.kept_by_every_moment(*moment), without.kept_by_every_moment(*moment));
                see(0, kept.records != without.records);
                see(1, kept.branches != without.branches);
                see(2, *moment == head.floor && answer.number > 0);
            }
            Request::Reclaim { moment } => see(3, below(*moment) && answer.refusal == 8),
            Request::Read { moment, .. } => see(4, below(*moment) && answer.found.is_some()),
            Request::Revert { moment, .. } => see(5, below(*moment) && answer.refusal == 0),
            Request::Name { moment, .. } => {
                see(6, below(*moment) && answer.refusal == 0);
                see(8, all_given && answer.refusal == 15);
                see(9, answer.refusal == 16);
                see(10, answer.refusal == 9 && *moment == head.now);
            }
            Request::Withdraw { name } => {
                see(7, answer.refusal == 0 && before.counted_names().last().is_some_and(|last| last.bytes != *name));
            }
            _ => {}
        }
    }

    pub fn outlook(&self) -> Outlook {
        outlook_of(&self.areas, 12)
    }

    pub fn now(&self) -> u64 {
        self.outlook().now
    }

    /// Writes to each address with this chance in hundredths, to one at least; then seals the moment, which is the result.
    pub fn change(&mut self, draw: &mut Draw, chance: u64) -> u64 {
        let size = self.outlook().size;
        let one = draw.below(size);
        for address in 0..size {
            if address == one || draw.percent(chance) {
                self.add(write(address, &draw.bytes(PAGE)));
            }
        }
        u64::from(self.add(mark()).number)
    }

    /// A name that is not given.
    fn new_name(&self, draw: &mut Draw) -> [u8; NAME_BYTES] {
        let outlook = self.outlook();
        loop {
            let bytes = drawn_name(draw, &outlook);
            if outlook.names.iter().all(|name| name.bytes != bytes) {
                return bytes;
            }
        }
    }

    /// Gives the moment a new name, which is the result.
    pub fn name(&mut self, draw: &mut Draw, moment: u64) -> [u8; NAME_BYTES] {
        let bytes = self.new_name(draw);
        self.add(name(moment, &bytes));
        bytes
    }

    pub fn read_at(&mut self, moment: u64) {
        for address in 0..self.outlook().size {
            self.add(read(address, moment));
        }
    }

    /// Reads everything at all named moments, and at those beside them.
    pub fn read_named(&mut self, draw: &mut Draw) {
        for named in self.outlook().names {
            self.read_at(u64::from(named.moment));
            if draw.percent(20) {
                self.add(read(0, u64::from(named.moment) + 1));
            }
        }
    }

    /// Gives names until none is left, to sealed moments that can be read; then names that are refused, each for several
    /// reasons.
    fn fill(&mut self, draw: &mut Draw) {
        while self.outlook().names.len() < MOST_NAMES {
            let outlook = self.outlook();
            let moment = match draw.below(3) {
                0 if !outlook.names.is_empty() => outlook.names[draw.below(outlook.names.len() as u64) as usize].moment,
                _ if outlook.floor == outlook.now => 0,
                _ => draw.within(outlook.floor, outlook.now - 1) as u32,
            };
            if moment as u64 >= outlook.floor || outlook.names.iter().any(|name| name.moment == moment) {
                self.name(draw, u64::from(moment));
            } else {
                self.add(mark());
            }
        }
        let outlook = self.outlook();
        for row in [0, 31, draw.below(32) as usize] {
            let given = outlook.names[row];
            self.add(name(u64::from(given.moment), &given.bytes));
            self.add(name(u64::from(outlook.names[0].moment), &given.bytes));
            self.add(name(outlook.now, &given.bytes));
            self.add(name(outlook.now + 1, &given.bytes));
            self.add(name(outlook.floor.saturating_sub(1), &given.bytes));
            self.name(draw, u64::from(given.moment));
            self.name(draw, outlook.floor.saturating_sub(1));
        }
        self.name(draw, outlook.now);
        let unknown = self.new_name(draw);
        self.add(withdraw(&unknown));
    }

    /// Withdraws the name, and asks for what is then no longer there.
    pub fn withdraw(&mut self, draw: &mut Draw, row: Name) {
        let moment = u64::from(row.moment);
        self.add(withdraw(&row.bytes));
        self.add(withdraw(&row.bytes));
        match draw.below(4) {
            0 => self.add(read(0, moment)),
            1 => self.add(revert(moment, drawn_order(draw))),
            2 => self.add(name(moment, &row.bytes)),
            _ => self.add(reclaim(self.outlook().floor)),
        };
    }

    /// Some requests more, of any kind.
    fn round(&mut self, draw: &mut Draw) {
        let outlook = self.outlook();
        match draw.below(9) {
            0 if draw.percent(20) => self.fill(draw),
            1 => {
                self.add(reclaim(draw.within(outlook.floor, outlook.now)));
            }
            2 => self.read_named(draw),
            3 => {
                self.change(draw, 30);
            }
            4 if !outlook.names.is_empty() => {
                let row = outlook.names[draw.below(outlook.names.len() as u64) as usize];
                self.withdraw(draw, row);
            }
            5 if !outlook.names.is_empty() => {
                let row = outlook.names[draw.below(outlook.names.len() as u64) as usize];
                self.add(revert(u64::from(row.moment), drawn_order(draw)));
                self.change(draw, 20);
            }
            6 => {
                // A name on the moment just sealed, and the floor lifted to it, past it, or to now.
                let sealed = self.change(draw, 20);
                self.name(draw, sealed);
                self.add(reclaim(draw.within(sealed, sealed + 1)));
            }
            _ => {
                for _ in 0..draw.within(4, 16) {
                    let mix = &MIXES[draw.below(MIXES.len() as u64) as usize];
                    let mut outlook = self.outlook();
                    self.add(drawn_request(draw, mix, &mut outlook));
                }
            }
        }
    }

    /// Sends the batch, mostly with something behind it that stops it; or with an answer area that is one byte short, and
    /// then its last request again.
    pub fn send(&self, run: &mut Run, draw: &mut Draw, pile: &mut Option<Pile>) -> Seen {
        if draw.percent(20) && !self.bytes.is_empty() {
            let area = draw.bytes(self.needed - 1);
            let (report, _) = run.batch_beside(pile, &self.bytes, &area);
            assert_eq!(report.stop, 14);
            assert!(run.areas == self.last.0, "what does not fit is not carried out");
            let area = draw.bytes(PAGE_ANSWER_BYTES);
            run.batch_beside(pile, &self.last.1, &area);
        } else {
            let (tail, stop) = if draw.percent(70) { drawn_tail(draw) } else { (Vec::new(), 0) };
            let room = self.needed + draw.below(20) as usize;
            let area = draw.bytes(room);
            let (report, _) = run.batch_beside(pile, &[self.bytes.as_slice(), &tail].concat(), &area);
            assert_eq!(report.stop, stop);
        }
        assert!(run.areas == self.areas, "a batch serves its requests as one batch for each would");
        run.other_calls(draw, pile);
        self.seen
    }
}

/// A request with a name that is no whole or no good one, and the number that it stops a batch with.
fn drawn_tail(draw: &mut Draw) -> (Vec<u8>, u32) {
    let operation = draw.within(6, 7);
    let cut = draw.below(NAME_BYTES as u64) as usize;
    let bytes = draw.bytes(cut);
    // A field that is not used comes before a name that is cut short.
    match draw.below(5) {
        0 => ([packed(operation, draw.one_bit(16), 0, 0), bytes].concat(), 13),
        1 => ([packed(operation, 0, 0, draw.one_bit(5)), bytes].concat(), 13),
        2 => ([packed(7, 0, draw.one_bit(32), 0), draw.bytes(NAME_BYTES)].concat(), 13),
        3 => ([packed(7, 0, draw.one_bit(32), 0), bytes].concat(), 13),
        _ => ([packed(operation, 0, if operation == 6 { draw.below(9) } else { 0 }, 0), bytes].concat(), 11),
    }
}

/// A main line and a side branch, a name in each, and everything written again; the floor is lifted to now. Then whatever a
/// name allows and does not allow; the side branch's name is withdrawn, and what it kept is freed. Then all names.
fn beginning(draft: &mut Draft, draw: &mut Draw) {
    for _ in 0..draw.within(1, 3) {
        draft.change(draw, 70);
    }
    let main = draw.below(draft.now());
    draft.name(draw, main);
    let back = draft.change(draw, 100);
    draft.add(revert(draw.below(back), drawn_order(draw)));
    let side = draft.change(draw, 50);
    let of_side = draft.name(draw, side);
    if draw.percent(30) {
        draft.change(draw, 20);
    }
    draft.add(revert(back, drawn_order(draw)));
    draft.change(draw, 100);
    draft.change(draw, 100);
    draft.add(reclaim(draft.now()));

    draft.read_at(main);
    draft.read_at(side);
    draft.add(reclaim(main));
    draft.add(reclaim(side));
    draft.name(draw, main);
    draft.add(revert(main, drawn_order(draw)));
    draft.change(draw, 20);
    draft.withdraw(draw, Name { bytes: of_side, moment: side as u32 });
    draft.add(reclaim(draft.outlook().floor));
    draft.read_named(draw);
    draft.fill(draw);
}

fn names_list(host: &mut dyn Host, draw: &mut Draw) -> Seen {
    let size = draw.within(1, 5) as u32;
    let rows = draw.within(9 * u64::from(size), 14 * u64::from(size)) as usize;
    let sizes = Sizes { size, branches: draw.within(5, 12) as usize, records: rows, places: rows };
    let mut run = Run::fresh_of(host, draw, &sizes);
    let pile = &mut Some(Pile::new(size));
    let mut draft = Draft::new(&run);
    beginning(&mut draft, draw);
    let mut seen = draft.send(&mut run, draw, pile);
    for _ in 0..draw.within(1, 5) {
        let mut draft = Draft::new(&run);
        for _ in 0..draw.within(1, 4) {
            draft.round(draw);
        }
        for (sum, more) in seen.iter_mut().zip(draft.send(&mut run, draw, pile)) {
            *sum += more;
        }
    }
    let mut draft = Draft::new(&run);
    draft.read_named(draw);
    draft.send(&mut run, draw, pile);
    if let Some(what) = pile.as_ref().and_then(|pile| pile.difference(&run.areas)) {
        run.host.pile_differs(&what);
    }
    seen
}

/// Lists over small stores.
pub fn names(host: &mut dyn Host, seed: u64, count: u64) {
    let mut all = [0; WHAT.len()];
    for list in 0..count {
        let draw = &mut Draw::new(seed ^ (list + 1).wrapping_mul(0xB492_B66F_BE98_F273));
        let seen = names_list(host, draw);
        for what in 0..WHAT.len() {
            assert!(seen[what] > 0, "every list has {}", WHAT[what]);
            all[what] += seen[what];
        }
    }
    host.end("commissioned states by name");
    host.note(&format!("{count} lists, and each has all of these"));
    for what in 0..WHAT.len() {
        host.note(&format!("  {}: {}", WHAT[what], all[what]));
    }
}
