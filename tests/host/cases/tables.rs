//! Tables drawn: sound ones of any shape, and damage to them.

use crate::draw::{drawn_order, Draw};
use reference::*;
use std::collections::BTreeSet;

pub struct Sizes {
    pub size: u32,
    pub branches: usize,
    pub records: usize,
    pub places: usize,
}

pub fn drawn_count(draw: &mut Draw) -> usize {
    (match draw.below(10) {
        0..=2 => draw.within(1, 4),
        3..=7 => draw.within(4, 16),
        _ => draw.within(16, 48),
    }) as usize
}

/// The live disk has 256 bytes for each page: large sizes are rare here, and have families of their own.
pub fn drawn_sizes(draw: &mut Draw) -> Sizes {
    let size = match draw.below(20_000) {
        0 => 65_536,
        1..=9 => draw.within(1, 4_000),
        10..=1_000 => draw.within(1, 100),
        _ => draw.within(1, 8),
    } as u32;
    let records = drawn_count(draw);
    let places = if draw.percent(50) { records } else { drawn_count(draw) };
    Sizes { size, branches: drawn_count(draw), records, places }
}

/// A live disk of so many pages, and its marks: zeros, every page stale; any bytes and every page stale, some of them with
/// blank marks; any bytes and any marks.
fn drawn_disk(draw: &mut Draw, size: u32) -> (Vec<u8>, Vec<u8>) {
    let size = size as usize;
    let kind = draw.below(4);
    if kind == 0 {
        return (vec![0; PAGE * size], vec![0; size]);
    }
    let allowed = if kind == 3 { CURRENT + BLANK } else { BLANK };
    let marks = draw.bytes(size).into_iter().map(|mark| mark & allowed).collect();
    (draw.bytes(PAGE * size), marks)
}

pub fn drawn_areas(draw: &mut Draw, sizes: &Sizes) -> Areas {
    let (disk, marks) = drawn_disk(draw, sizes.size);
    Areas {
        head: draw.bytes(HEAD_BYTES),
        branches: draw.bytes(BRANCH_BYTES * sizes.branches),
        records: draw.bytes(RECORD_BYTES * sizes.records),
        places: draw.bytes(PLACE_BYTES * sizes.places),
        names: draw.bytes(NAME_ROW_BYTES * MOST_NAMES),
        slab: draw.bytes(PAGE * sizes.places),
        disk,
        marks,
    }
}

/// So many names, all different, for moments of these branch rows below now; none where there is no such moment.
/// Many names are different in one byte alone, and many moments have two names.
fn drawn_names(draw: &mut Draw, rows: &[(u64, u64, u64)], now: u64, count: u64) -> Vec<Name> {
    let mut names: Vec<Name> = Vec::new();
    while now > 0 && (names.len() as u64) < count {
        let (start, end, _) = rows[draw.below(rows.len() as u64) as usize];
        let last = end.min(now - 1);
        let moment = match draw.below(6) {
            0 if !names.is_empty() => u64::from(names[0].moment),
            1 => start.min(last),
            2 => last,
            _ => draw.within(start.min(last), last),
        } as u32;
        let mut bytes = [b'n'; NAME_BYTES];
        if draw.percent(10) {
            bytes.copy_from_slice(&draw.bytes(NAME_BYTES));
        } else {
            bytes[draw.below(NAME_BYTES as u64) as usize] = draw.below(12) as u8;
        }
        let inside = rows.iter().any(|row| row.0 <= u64::from(moment) && u64::from(moment) <= row.1);
        if inside && names.iter().all(|name| name.bytes != bytes) {
            names.push(Name { bytes, moment });
        }
    }
    names
}

/// Areas with these branch rows, any work orders, these records and names, places in any order, and any bytes past the counts.
fn laid_out(
    draw: &mut Draw,
    sizes: &Sizes,
    rows: &[(u64, u64, u64)],
    pairs: &BTreeSet<(u32, u32)>,
    names: &[Name],
    now: u64,
    floor: u64,
) -> Areas {
    let mut areas = drawn_areas(draw, sizes);
    let mut places: Vec<u32> = (0..sizes.places as u32).collect();
    for index in (1..places.len()).rev() {
        places.swap(index, draw.below(index as u64 + 1) as usize);
    }
    for (row, (start, end, cut)) in rows.iter().enumerate() {
        let order = if row == 0 { 0 } else { drawn_order(draw) };
        for (index, number) in [*start, *end, *cut, order].into_iter().enumerate() {
            set_number_at(&mut areas.branches, 4 * row + index, number as u32);
        }
    }
    areas.places.fill(0);
    for (row, (address, moment)) in pairs.iter().enumerate() {
        set_number_at(&mut areas.records, 3 * row, *address);
        set_number_at(&mut areas.records, 3 * row + 1, *moment);
        set_number_at(&mut areas.records, 3 * row + 2, places[row]);
        set_number_at(&mut areas.places, places[row] as usize, row as u32 + 1);
    }
    for (row, name) in names.iter().enumerate() {
        areas.names[NAME_ROW_BYTES * row..NAME_ROW_BYTES * row + NAME_BYTES].copy_from_slice(&name.bytes);
        set_number_at(&mut areas.names, 3 * row + 2, name.moment);
    }
    let counts = [rows.len() as u32, pairs.len() as u32];
    let head = [sizes.size, counts[0], counts[1], now as u32, floor as u32, names.len() as u32];
    for (index, number) in head.iter().enumerate() {
        set_number_at(&mut areas.head, index, *number);
    }
    areas
}

/// Sound tables drawn row by row: branches with gaps up to the floor, cuts anywhere in earlier rows,
/// records and named moments anywhere in the rows, places in any order, any bytes past the counts.
pub fn drawn_sound(draw: &mut Draw, sizes: &Sizes) -> Areas {
    let last = u64::from(OPEN_END);
    let branch_count = draw.within(1, sizes.branches as u64) as usize;
    let long = draw.percent(20);
    let gaps_before = draw.below(branch_count as u64 + 1) as usize;
    let mut rows: Vec<(u64, u64, u64)> = Vec::new();
    let mut floor_at_least = 0;
    let mut next = 0;
    for row in 0..branch_count {
        let mut start = next;
        if row > 0 && row < gaps_before && draw.percent(60) {
            start += if long { draw.below(100_000) } else { draw.within(1, 4) };
        }
        if row > 0 && start != next {
            floor_at_least = start;
        }
        let length = if long { draw.below(100_000) } else { draw.below(4) };
        let end = if row + 1 == branch_count { last } else { start + length };
        let mut cut = 0;
        if row > 0 {
            let parent = if draw.percent(50) { row - 1 } else { draw.below(row as u64) as usize };
            let (from, to, _) = rows[parent];
            cut = match draw.below(4) {
                0 => from,
                1 => to,
                _ => draw.within(from, to),
            };
        }
        rows.push((start, end, cut));
        next = end + 1;
    }
    let open_start = rows[branch_count - 1].0;
    let now = match draw.below(12) {
        0 => last - draw.below(3),
        1 => draw.within(open_start, last),
        _ => open_start + draw.below(8),
    }
    .max(open_start)
    .max(floor_at_least);
    let floor = match draw.below(3) {
        0 => floor_at_least,
        1 => draw.within(floor_at_least, now),
        _ => draw.within(floor_at_least, now.min(floor_at_least + 10)),
    };
    let mut pairs = BTreeSet::new();
    let most = sizes.records.min(sizes.places) as u64;
    for _ in 0..draw.below(most + 1) {
        let (start, end, _) = rows[draw.below(branch_count as u64) as usize];
        let address = match draw.below(10) {
            0 => u64::from(sizes.size) - 1,
            1 => draw.below(u64::from(sizes.size)),
            _ => draw.below(u64::from(sizes.size.min(5))),
        };
        let moment = match draw.below(4) {
            0 => start,
            1 => end.min(now),
            _ => draw.within(start, end.min(now)),
        };
        pairs.insert((address as u32, moment as u32));
    }
    let count = match draw.below(10) {
        0..=2 => 0,
        3..=7 => draw.within(1, 8),
        8 => draw.within(9, 32),
        _ => draw.within(31, 32),
    };
    let names = drawn_names(draw, &rows, now, count);
    laid_out(draw, sizes, &rows, &pairs, &names, now, floor)
}

/// Sound tables with all branch rows in use and the record and place tables full or nearly so. In two of four tables the
/// records are of few addresses: then most rows go with a reclaim, and long lines of cuts are taken over.
pub fn drawn_full(draw: &mut Draw, sizes: &Sizes, table: u64) -> Areas {
    let mut rows: Vec<(u64, u64, u64)> = Vec::new();
    let mut next = 0;
    let branch_count = sizes.branches - if table % 2 == 0 { 0 } else { 5 };
    for row in 0..branch_count {
        let end = if row + 1 == branch_count { u64::from(OPEN_END) } else { next + draw.below(6) };
        let mut cut = 0;
        if row > 0 {
            // Long lines of parents, with a side branch now and then.
            let parent = if draw.percent(80) { row - 1 } else { row - draw.within(1, row.min(40) as u64) as usize };
            cut = draw.within(rows[parent].0, rows[parent].1);
        }
        rows.push((next, end, cut));
        next = end + 1;
    }
    let open_start = rows[branch_count - 1].0;
    let now = open_start + 3;
    let floor = now - 200;
    let record_count = sizes.records - if table % 2 == 0 { 0 } else { 4 };
    let mut pairs = BTreeSet::new();
    while pairs.len() < record_count {
        let address = if table % 4 >= 2 || draw.percent(50) { draw.below(400) } else { draw.below(65_536) };
        pairs.insert((address as u32, draw.below(now + 1) as u32));
    }
    let names = drawn_names(draw, &rows, now, if table % 2 == 0 { 32 } else { 3 });
    laid_out(draw, sizes, &rows, &pairs, &names, now, floor)
}

/// Sound tables with a gap before most branches, all of them below the floor, and nearly all rows in use; most records stand at
/// the start or the end of a branch. A moment is in a branch or in a gap by the search of many rows alone.
pub fn drawn_with_gaps(draw: &mut Draw, sizes: &Sizes) -> Areas {
    let mut rows: Vec<(u64, u64, u64)> = Vec::new();
    let mut next = 0;
    let branch_count = sizes.branches - draw.below(3) as usize;
    for row in 0..branch_count {
        let start = if row == 0 { 0 } else { next + draw.below(4) };
        let end = if row + 1 == branch_count { u64::from(OPEN_END) } else { start + draw.below(4) };
        let cut = if row == 0 { 0 } else { rows[draw.below(row as u64) as usize].0 };
        rows.push((start, end, cut));
        next = end + 1;
    }
    let floor = rows[branch_count - 1].0;
    let now = floor + 3;
    let mut pairs = BTreeSet::new();
    let record_count = sizes.records.min(sizes.places) - draw.below(3) as usize;
    while pairs.len() < record_count {
        let (start, end, _) = rows[draw.below(branch_count as u64) as usize];
        let moment = match draw.below(3) {
            0 => start,
            1 => end.min(now),
            _ => draw.within(start, end.min(now)),
        };
        pairs.insert((draw.below(u64::from(sizes.size)) as u32, moment as u32));
    }
    let names = drawn_names(draw, &rows, now, 5);
    laid_out(draw, sizes, &rows, &pairs, &names, now, floor)
}

pub fn area_of(areas: &mut Areas, index: u64) -> &mut Vec<u8> {
    match index {
        0 => &mut areas.head,
        1 => &mut areas.branches,
        2 => &mut areas.records,
        3 => &mut areas.places,
        4 => &mut areas.names,
        5 => &mut areas.slab,
        6 => &mut areas.disk,
        _ => &mut areas.marks,
    }
}

/// Changes one number of the head or of a table.
pub fn change_number(draw: &mut Draw, areas: &mut Areas) {
    if areas.head.len() < HEAD_BYTES {
        return;
    }
    let head: Vec<u32> = (0..6).map(|index| number_at(&areas.head, index)).collect();
    let which = draw.below(5);
    // Mostly one that is counted.
    let counted = match which {
        0 => 6,
        1 => 4 * u64::from(head[1]),
        2 => 3 * u64::from(head[2]),
        4 => 3 * u64::from(head[5]),
        _ => 0,
    };
    let area = area_of(areas, which);
    let numbers = area.len() / 4;
    if numbers == 0 {
        return;
    }
    let most = if counted > 0 && counted <= numbers as u64 && draw.percent(90) { counted } else { numbers as u64 };
    let at = draw.below(most) as usize;
    let old = number_at(area, at);
    let new = match draw.below(9) {
        0 | 1 => old.wrapping_add(1),
        2 | 3 => old.wrapping_sub(1),
        4 => 0,
        5 => draw.one_of(&[1, 2, 3, 31, 32, 33, 4_096, 4_097, 65_535, 65_536, 65_537, 4_294_967_294, 4_294_967_295])
            as u32,
        6 => head[draw.below(6) as usize],
        7 => number_at(area, draw.below(numbers as u64) as usize),
        _ => draw.next() as u32,
    };
    set_number_at(area, at, new);
}

/// A work order of more than 16 bits, or of the first row; in a row that is counted, mostly.
fn change_order(draw: &mut Draw, areas: &mut Areas) {
    let rows = (areas.branches.len() / BRANCH_BYTES) as u64;
    if areas.head.len() < HEAD_BYTES || rows == 0 {
        return;
    }
    let counted = u64::from(number_at(&areas.head, 1)).clamp(1, rows);
    let row = match draw.below(4) {
        0 => 0,
        1 => counted - 1,
        2 => draw.below(counted),
        _ => draw.below(rows),
    };
    let any = draw.below(1 << 32);
    let order = draw.one_of(&[0, 1, 65_535, 65_536, 65_537, 131_071, 16_777_216, 4_294_967_295, any]);
    set_number_at(&mut areas.branches, 4 * row as usize + 3, order as u32);
}

fn swap_rows(draw: &mut Draw, areas: &mut Areas) {
    let which = draw.within(1, 4);
    let width = [HEAD_BYTES, BRANCH_BYTES, RECORD_BYTES, PLACE_BYTES, NAME_ROW_BYTES][which as usize];
    let area = area_of(areas, which);
    let rows = (area.len() / width) as u64;
    if rows < 2 {
        return;
    }
    let first = draw.below(rows - 1) as usize;
    let second = if draw.percent(70) { first + 1 } else { draw.below(rows) as usize };
    for byte in 0..width {
        area.swap(first * width + byte, second * width + byte);
    }
}

/// Changes the length of one area: by bytes, by numbers, by rows, or to none at all.
fn change_length(draw: &mut Draw, areas: &mut Areas) {
    let which = draw.below(8);
    let width = match which {
        0 => 24,
        1 => 16,
        2 | 4 => 12,
        3 => 4,
        7 => 1,
        _ => 256,
    };
    let by = match draw.below(4) {
        0 => draw.within(1, 3),
        1 => 4 * draw.within(1, 6),
        2 => width,
        _ => width * draw.within(1, 3),
    } as usize;
    let more = draw.bytes(by);
    let empty = draw.percent(10);
    let longer = draw.percent(50);
    let area = area_of(areas, which);
    if empty {
        area.clear();
    } else if longer {
        area.extend(more);
    } else {
        area.truncate(area.len().saturating_sub(by));
    }
    // Sometimes the slab follows the places, so that the lengths may be right again.
    if which == 3 && draw.percent(50) {
        let length = 64 * areas.places.len();
        areas.slab.resize(length, 0xA5);
    }
    // Sometimes live disk and marks are those of another volume size.
    if which == 7 && draw.percent(50) {
        areas.disk.resize(PAGE * areas.marks.len(), 0xA5);
    }
}

/// Marks of any value, most of them above 3; or one of them.
fn change_marks(draw: &mut Draw, areas: &mut Areas) {
    if areas.marks.is_empty() {
        return;
    }
    let last = areas.marks.len() as u64 - 1;
    for _ in 0..draw.one_of(&[1, 1, 1, 2, 9]) {
        let (any, any_mark) = (draw.below(last + 1), draw.below(256));
        let address = draw.one_of(&[0, last / 2, last, any]);
        let mark = draw.one_of(&[3, 4, 5, 7, 128, 255, any_mark]);
        areas.marks[address as usize] = mark as u8;
    }
}

/// Makes names equal, or nearly so; puts a named moment to or beside now, or beside the end of a branch; takes more rows
/// as names.
fn change_names(draw: &mut Draw, areas: &mut Areas) {
    if areas.head.len() < HEAD_BYTES || areas.branches.len() < BRANCH_BYTES {
        return;
    }
    let now = number_at(&areas.head, 3);
    let count = number_at(&areas.head, 5).clamp(1, MOST_NAMES as u32) as usize;
    let rows = if draw.percent(80) { count } else { MOST_NAMES } as u64;
    let row = draw.below(rows) as usize;
    match draw.below(5) {
        0 | 1 => {
            let other = draw.below(rows) as usize;
            let from = NAME_ROW_BYTES * other;
            areas.names.copy_within(from..from + NAME_BYTES, NAME_ROW_BYTES * row);
            if draw.percent(50) {
                areas.names[NAME_ROW_BYTES * row + draw.below(NAME_BYTES as u64) as usize] ^= draw.one_bit(8) as u8;
            }
        }
        2 => {
            let moment = now.wrapping_add(draw.below(3) as u32).wrapping_sub(1);
            set_number_at(&mut areas.names, 3 * row + 2, moment);
        }
        3 => {
            let branch = draw.below((areas.branches.len() / BRANCH_BYTES) as u64) as usize;
            let end = number_at(&areas.branches, 4 * branch + 1);
            set_number_at(&mut areas.names, 3 * row + 2, end.wrapping_add(draw.below(3) as u32));
        }
        _ => {
            let more = draw.one_of(&[1, 2, 31, 32, 33, 34, 4_294_967_295]) as u32;
            set_number_at(&mut areas.head, 5, more);
        }
    }
}

pub fn damage(draw: &mut Draw, areas: &mut Areas) {
    match draw.below(14) {
        13 => change_order(draw, areas),
        12 => change_marks(draw, areas),
        10 | 11 => {
            for _ in 0..draw.one_of(&[1, 1, 1, 2, 3]) {
                change_names(draw, areas);
            }
        }
        0..=4 => {
            for _ in 0..draw.one_of(&[1, 1, 1, 2, 3]) {
                change_number(draw, areas);
            }
        }
        5 => {
            for _ in 0..draw.within(1, 12) {
                change_number(draw, areas);
            }
        }
        6 => swap_rows(draw, areas),
        7 | 8 => change_length(draw, areas),
        _ => {
            change_length(draw, areas);
            change_number(draw, areas);
            if draw.percent(30) {
                swap_rows(draw, areas);
            }
        }
    }
}
