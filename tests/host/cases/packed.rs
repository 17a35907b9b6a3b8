//! Pages packed towards the front (document 02, Two): batches that free places and write again, made so
//! that another choice than the smallest free place shows in the tables.

use crate::draw::*;
use crate::tables::Sizes;
use crate::{most_answer_bytes, outlook_of, Host, Run};
use reference::pictures::Pile;
use reference::*;

/// Ways to go wrong. The first four are other free places, each with the smallest one where there is none
/// of its kind.
const WRONG: [&str; 5] = [
    "the largest free place",
    "the place after the last one used",
    "the first place that was free when the batch began",
    "the first free place from the one taken last, a reclaim or not",
    "a smaller place for an overwrite",
];

/// How many writes tell each way to go wrong from the right one: after a reclaim of the same batch that
/// freed a place, and with another place than the right one.
type Told = [u64; WRONG.len()];

/// A batch as it is drawn. The reference carries out each request at once, so that the next one is drawn
/// from the tables as they stand.
struct Draft {
    areas: Areas,
    bytes: Vec<u8>,
    /// The place table when the batch began.
    start: Vec<u32>,
    /// The place that a write of this batch took last.
    last: Option<usize>,
    /// A reclaim of this batch has freed a place.
    freed: bool,
    told: Told,
}

impl Draft {
    fn new(run: &Run) -> Draft {
        let areas = run.areas.clone();
        let start = rows(&areas).places;
        Draft { areas, bytes: Vec::new(), start, last: None, freed: false, told: [0; WRONG.len()] }
    }

    /// Adds a request and carries it out; its refusal, or 0.
    fn add(&mut self, bytes: Vec<u8>) -> u32 {
        let before = rows(&self.areas);
        let mut served = None;
        batch_watched(&mut self.areas, &bytes, &mut [0; PAGE_ANSWER_BYTES], |request, answer| {
            served = Some((request.clone(), answer.clone()));
        });
        self.bytes.extend(bytes);
        let (request, answer) = served.expect("a whole request");
        match request {
            Request::Write { address, .. } if answer.refusal == 0 => self.count_write(&before, address),
            Request::Reclaim { .. } => self.freed |= answer.number > 0,
            _ => {}
        }
        answer.refusal
    }

    fn count_write(&mut self, before: &Store, address: u32) {
        let free: Vec<usize> = (0..before.places.len()).filter(|place| before.places[*place] == 0).collect();
        let at_now = |record: &&Record| (record.address, record.moment) == (address, before.head.now);
        let after = rows(&self.areas);
        let place = after.counted_records().iter().find(at_now).expect("the record written").place as usize;
        let overwritten = before.counted_records().iter().find(at_now);
        let mut wrong = [None; WRONG.len()];
        if let Some(record) = overwritten {
            assert_eq!(place, record.place as usize, "an overwrite stays in its place");
            wrong[4] = free.first().filter(|other| **other < place);
        } else {
            assert_eq!(place, free[0], "the smallest free place");
            let used = (0..before.places.len()).rev().find(|place| before.places[*place] != 0);
            wrong[0] = free.last();
            wrong[1] = free.iter().find(|other| used.is_some_and(|used| **other == used + 1));
            wrong[2] = free.iter().find(|other| self.start[**other] == 0);
            wrong[3] = free.iter().find(|other| self.last.is_some_and(|last| **other >= last));
            self.last = Some(place);
        }
        for (told, wrong) in self.told.iter_mut().zip(wrong) {
            *told += u64::from(self.freed && wrong.is_some_and(|other| *other != place));
        }
    }

    fn outlook(&self) -> Outlook {
        outlook_of(&self.areas, 12)
    }

    fn write(&mut self, draw: &mut Draw, address: u64) -> u32 {
        self.add(write(address, &draw.bytes(PAGE)))
    }

    /// A request, or none, that takes no place and frees none.
    fn beside(&mut self, draw: &mut Draw) {
        let outlook = self.outlook();
        let rows = rows(&self.areas);
        let at_now = rows.counted_records().iter().filter(|record| record.moment == rows.head.now);
        let at_now: Vec<u64> = at_now.map(|record| u64::from(record.address)).collect();
        match draw.below(12) {
            0 => self.write(draw, outlook.size), // 4
            1 | 2 if !at_now.is_empty() => {
                let address = draw.one_of(&at_now);
                self.write(draw, address)
            }
            3 => self.add(reclaim(outlook.floor)),
            4 if outlook.floor > 0 => self.add(reclaim(draw.below(outlook.floor))), // 8
            5 => self.add(reclaim(outlook.now + draw.within(1, 3))),                 // 9
            6 => self.add(revert(outlook.now, drawn_order(draw))),                   // 9
            7 => self.add(read(draw.below(outlook.size), outlook.now)),
            _ => 0,
        };
    }

    /// Writes to these addresses, with other requests between.
    fn writes(&mut self, draw: &mut Draw, addresses: &[u64]) {
        for address in addresses {
            self.beside(draw);
            self.write(draw, *address);
        }
        self.beside(draw);
    }

    /// Writes until one is refused with 5 or 6, at more moments where the addresses do not suffice.
    fn fill(&mut self, draw: &mut Draw) {
        let size = self.outlook().size;
        for write in 0..=self.start.len() as u64 {
            if self.write(draw, write % size) != 0 {
                return;
            }
            if write % size == size - 1 {
                self.add(mark());
            }
        }
    }

    /// Some requests more: pages written again, and the older ones freed; a fill; a reclaim; or any.
    fn round(&mut self, draw: &mut Draw) {
        let outlook = self.outlook();
        let mix = Mix { write: 50, mark: 15, revert: 10, read: 5, reclaim: 20, name: 5, withdraw: 4 };
        match draw.below(6) {
            0 => self.fill(draw),
            1 => {
                self.add(reclaim(draw.within(outlook.floor, outlook.now)));
            }
            2 => {
                for _ in 0..draw.within(4, 16) {
                    let mut outlook = self.outlook();
                    self.add(drawn_request(draw, &mix, &mut outlook));
                }
            }
            _ => {
                let addresses = shuffled(draw, outlook.size);
                let (again, others) = addresses.split_at(draw.below(outlook.size) as usize);
                self.add(mark());
                self.writes(draw, again);
                self.add(reclaim(self.outlook().now));
                let most = draw.below(others.len() as u64 + 1) as usize;
                self.writes(draw, &others[..most]);
            }
        }
    }

    /// Sends the batch; how much it tells.
    fn send(self, run: &mut Run, draw: &mut Draw, pile: &mut Option<Pile>) -> Told {
        let area = draw.bytes(most_answer_bytes(&self.bytes));
        run.batch_beside(pile, &self.bytes, &area);
        assert!(run.areas == self.areas, "a batch serves its requests as one batch for each would");
        run.other_calls(draw, pile);
        self.told
    }
}

/// A batch of some rounds; how much it tells.
pub fn rounds(run: &mut Run, draw: &mut Draw, pile: &mut Option<Pile>) -> Told {
    let mut draft = Draft::new(run);
    for _ in 0..draw.within(1, 3) {
        draft.round(draw);
    }
    draft.send(run, draw, pile)
}

/// The addresses below a limit, in any order.
fn shuffled(draw: &mut Draw, limit: u64) -> Vec<u64> {
    let mut list: Vec<u64> = (0..limit).collect();
    for index in (1..list.len()).rev() {
        list.swap(index, draw.below(index as u64 + 1) as usize);
    }
    list
}

/// A store with so many pages at its front, and a batch that writes some of them again, frees their first
/// places, which lie among these, and goes on writing. At the first write after the reclaim each of the
/// wrong places is another than the right one, since places behind those in use are free. Then come rounds
/// of any kind, in this batch and in more.
fn packed_list(host: &mut dyn Host, draw: &mut Draw, used: u64) -> Told {
    let renewed = draw.within(2, used - 1);
    let sizes = Sizes {
        size: (used + draw.within(2, 8)) as u32,
        branches: draw.within(1, 6) as usize,
        // Just enough, so that 5 comes up before the reclaim; or more rows than places, so that 6 does later.
        records: (used + renewed + draw.one_of(&[0, 0, 2, 20])) as usize,
        places: (used + renewed + draw.within(1, 6)) as usize,
    };
    let mut run = Run::fresh_of(host, draw, &sizes);
    let pile = &mut (used < 10).then(|| Pile::new(sizes.size));
    let mut draft = Draft::new(&run);
    let addresses = shuffled(draw, used);
    draft.writes(draw, &addresses);
    draft.add(mark());
    draft.send(&mut run, draw, pile);

    let mut draft = Draft::new(&run);
    let addresses = shuffled(draw, used);
    let (again, others) = addresses.split_at(renewed as usize);
    draft.writes(draw, again);
    if sizes.records as u64 == used + renewed {
        assert_eq!(draft.write(draw, others[0]), 5);
    }
    draft.add(reclaim(1));
    draft.write(draw, again[0]);
    draft.writes(draw, others);
    for _ in 0..draw.below(4) {
        draft.round(draw);
    }
    let mut told = draft.send(&mut run, draw, pile);
    assert!(told.iter().all(|count| *count > 0), "the list tells each wrong way from the right one");

    for _ in 0..draw.below(4) {
        for (sum, more) in told.iter_mut().zip(rounds(&mut run, draw, pile)) {
            *sum += more;
        }
    }
    if let Some(what) = pile.as_ref().and_then(|pile| pile.difference(&run.areas)) {
        run.host.pile_differs(&what);
    }
    told
}

/// Lists over small stores, and some over larger ones.
pub fn packed(host: &mut dyn Host, seed: u64, small: u64, larger: u64) {
    let mut lists = [0; WRONG.len()];
    let mut writes = [0; WRONG.len()];
    for list in 0..small + larger {
        let draw = &mut Draw::new(seed ^ (list + 1).wrapping_mul(0x9FB2_1C65_1E98_DF25));
        let used = if list < small { draw.within(3, 9) } else { draw.within(60, 400) };
        let told = packed_list(host, draw, used);
        for wrong in 0..WRONG.len() {
            lists[wrong] += u64::from(told[wrong] > 0);
            writes[wrong] += told[wrong];
        }
    }
    host.end("pages packed towards the front");
    host.note(&format!("{} lists. After a reclaim of the same batch the right place is told from", small + larger));
    for wrong in 0..WRONG.len() {
        host.note(&format!("  {}: in {} lists, by {} writes", WRONG[wrong], lists[wrong], writes[wrong]));
    }
}
