//! Ways to break the rules of sound tables, each in a row of its own.

use crate::draw::Draw;
use reference::*;

#[derive(Clone, Copy, PartialEq)]
pub enum Rule {
    Address,
    Moment,
    Place,
    Order,
}

/// What is put in place of a record row, or into the place row that it names.
enum Put {
    Row(Record),
    PlaceRow(u32),
}

/// A way to break a rule in a row; none where it cannot be had there.
pub struct Offence {
    pub what: &'static str,
    pub rule: Rule,
    put: fn(&Store, usize, &mut Draw) -> Option<Put>,
}

const fn offence(what: &'static str, rule: Rule, put: fn(&Store, usize, &mut Draw) -> Option<Put>) -> Offence {
    Offence { what, rule, put }
}

pub const WAYS: usize = 20;

pub static OFFENCES: [Offence; WAYS] = [
    offence("address A", Rule::Address, |s, row, _| address(s, row, s.head.size)),
    offence("address above A", Rule::Address, |s, row, d| address(s, row, s.head.size + few(d))),
    offence("address with a bit above the 16th", Rule::Address, |s, row, d| {
        address(s, row, s.records[row].address | bit_from(16, d))
    }),
    offence("moment after now", Rule::Moment, |s, row, _| moment(s, row, s.head.now.checked_add(1))),
    offence("last moment", Rule::Moment, |s, row, _| moment(s, row, Some(OPEN_END).filter(|last| s.head.now < *last))),
    offence("first moment of a gap", Rule::Moment, |s, row, d| moment(s, row, any_of(&gaps(s), d).map(|gap| gap.0))),
    offence("last moment of a gap", Rule::Moment, |s, row, d| moment(s, row, any_of(&gaps(s), d).map(|gap| gap.1))),
    offence("moment before the floor, in a gap", Rule::Moment, |s, row, _| {
        moment(s, row, gaps(s).last().map(|gap| gap.1).filter(|last| last + 1 == s.head.floor))
    }),
    offence("place behind the last", Rule::Place, |s, row, _| place(s, row, s.places.len() as u32)),
    offence("place further behind", Rule::Place, |s, row, d| place(s, row, s.places.len() as u32 + few(d))),
    offence("place with a bit above the 16th", Rule::Place, |s, row, d| {
        place(s, row, s.records[row].place | bit_from(16, d))
    }),
    offence("place of another record", Rule::Place, |s, row, d| {
        any_of(&places_where(s, |k| k != 0 && k != row as u32 + 1), d).and_then(|at| place(s, row, at))
    }),
    offence("free place", Rule::Place, |s, row, d| {
        any_of(&places_where(s, |k| k == 0), d).and_then(|at| place(s, row, at))
    }),
    offence("place row free", Rule::Place, |s, row, _| place_row(s, row, 0)),
    offence("place row names the row before", Rule::Place, |s, row, _| {
        before(s, row).and_then(|_| place_row(s, row, row as u32))
    }),
    offence("place row names the row behind", Rule::Place, |s, row, _| place_row(s, row, row as u32 + 2)),
    offence("place row with a bit above the 17th", Rule::Place, |s, row, d| {
        place_row(s, row, row as u32 + 1 | bit_from(17, d))
    }),
    offence("the row before again", Rule::Order, |s, row, _| {
        before(s, row).and_then(|b| pair(s, row, b.address, b.moment))
    }),
    offence("address falls", Rule::Order, |s, row, _| {
        before(s, row)?.address.checked_sub(1).and_then(|lower| address(s, row, lower))
    }),
    offence("moment falls", Rule::Order, |s, row, _| {
        before(s, row).filter(|b| b.moment > 0).and_then(|b| pair(s, row, b.address, 0))
    }),
];

pub fn any_offence(draw: &mut Draw) -> &'static Offence {
    &OFFENCES[draw.below(OFFENCES.len() as u64) as usize]
}

fn few(draw: &mut Draw) -> u32 {
    draw.within(1, 9) as u32
}

/// One of the bits above the lowest ones.
fn bit_from(lowest: u64, draw: &mut Draw) -> u32 {
    1 << draw.within(lowest, 31)
}

pub fn any_of<T: Copy>(list: &[T], draw: &mut Draw) -> Option<T> {
    if list.is_empty() {
        None
    } else {
        Some(list[draw.below(list.len() as u64) as usize])
    }
}

pub fn before(store: &Store, row: usize) -> Option<Record> {
    row.checked_sub(1).map(|row| store.records[row])
}

/// Does the record follow the one before, if there is one?
pub fn follows(before: Option<Record>, record: Record) -> bool {
    before.map_or(true, |before| (before.address, before.moment) < (record.address, record.moment))
}

fn pair(store: &Store, row: usize, address: u32, moment: u32) -> Option<Put> {
    Some(Put::Row(Record { address, moment, ..store.records[row] }))
}

fn address(store: &Store, row: usize, address: u32) -> Option<Put> {
    pair(store, row, address, store.records[row].moment)
}

fn moment(store: &Store, row: usize, moment: Option<u32>) -> Option<Put> {
    pair(store, row, store.records[row].address, moment?)
}

fn place(store: &Store, row: usize, place: u32) -> Option<Put> {
    Some(Put::Row(Record { place, ..store.records[row] }))
}

fn place_row(store: &Store, row: usize, number: u32) -> Option<Put> {
    Some(Put::PlaceRow(number)).filter(|_| (store.records[row].place as usize) < store.places.len())
}

pub fn places_where(store: &Store, which: impl Fn(u32) -> bool) -> Vec<u32> {
    (0..store.places.len() as u32).filter(|place| which(store.places[*place as usize])).collect()
}

/// The first and last moments of the gaps between counted branch rows.
pub fn gaps(store: &Store) -> Vec<(u32, u32)> {
    let neighbours = store.counted_branches().windows(2).map(|rows| (rows[0].end + 1, rows[1].start - 1));
    neighbours.filter(|gap| gap.0 <= gap.1).collect()
}

pub fn set_record(areas: &mut Areas, row: usize, record: Record) {
    for (index, number) in [record.address, record.moment, record.place].into_iter().enumerate() {
        set_number_at(&mut areas.records, 3 * row + index, number);
    }
}

/// Breaks a rule in a row, unless that cannot be had there. Rows before it keep the rules that they kept.
pub fn break_row(areas: &mut Areas, row: usize, offence: &Offence, draw: &mut Draw) -> bool {
    let store = rows(areas);
    match (offence.put)(&store, row, draw) {
        Some(Put::Row(record)) => set_record(areas, row, record),
        Some(Put::PlaceRow(number)) => set_number_at(&mut areas.places, store.records[row].place as usize, number),
        None => return false,
    }
    true
}

// ---------------------------------------------------------------------------------------------
// Refused before any record row is read

/// Makes the branch rows or the names unsound.
pub const UNSOUND: [fn(&mut Areas); 8] = [
    |areas| set_number_at(&mut areas.branches, 0, 1),
    |areas| set_number_at(&mut areas.branches, 2, 1),
    |areas| {
        let last = number_at(&areas.head, 1) as usize - 1;
        set_number_at(&mut areas.branches, 4 * last + 1, OPEN_END - 1);
    },
    |areas| {
        // The cut of the last row at its end.
        let last = number_at(&areas.head, 1) as usize - 1;
        set_number_at(&mut areas.branches, 4 * last + 2, OPEN_END);
    },
    |areas| set_number_at(&mut areas.branches, 3, 1),
    |areas| {
        // A work order of more than 16 bits.
        let last = number_at(&areas.head, 1) as usize - 1;
        set_number_at(&mut areas.branches, 4 * last + 3, MOST_ORDER + 1);
    },
    |areas| {
        // A name for now.
        let now = number_at(&areas.head, 3);
        set_number_at(&mut areas.names, 2, now);
        let names = number_at(&areas.head, 5);
        set_number_at(&mut areas.head, 5, names.max(1));
    },
    |areas| {
        // The same name twice.
        areas.names.copy_within(..NAME_ROW_BYTES, NAME_ROW_BYTES);
        let names = number_at(&areas.head, 5);
        set_number_at(&mut areas.head, 5, names.max(2));
    },
];

/// Makes head, counts or lengths those that check 1 refuses.
pub const OUT_OF_RANGE: [fn(&mut Areas); 16] = [
    |areas| set_number_at(&mut areas.head, 0, 0),
    |areas| set_number_at(&mut areas.head, 0, LARGEST_SIZE + 1),
    |areas| set_number_at(&mut areas.head, 1, 0),
    |areas| set_number_at(&mut areas.head, 1, (areas.branches.len() / BRANCH_BYTES) as u32 + 1),
    |areas| set_number_at(&mut areas.head, 2, (areas.records.len() / RECORD_BYTES) as u32 + 1),
    |areas| set_number_at(&mut areas.head, 2, OPEN_END),
    |areas| set_number_at(&mut areas.head, 5, MOST_NAMES as u32 + 1),
    |areas| {
        // The floor above now.
        let now = number_at(&areas.head, 3).min(OPEN_END - 1);
        set_number_at(&mut areas.head, 3, now);
        set_number_at(&mut areas.head, 4, now + 1);
    },
    |areas| areas.head.truncate(HEAD_BYTES - 4),
    |areas| areas.head.push(0),
    |areas| areas.branches.push(0),
    |areas| areas.records.push(0),
    |areas| areas.records.truncate(areas.records.len() - 1),
    |areas| areas.places.truncate(areas.places.len() - PLACE_BYTES),
    |areas| areas.names.truncate(NAME_ROW_BYTES * (MOST_NAMES - 1)),
    |areas| areas.slab.truncate(areas.slab.len() - 1),
];
