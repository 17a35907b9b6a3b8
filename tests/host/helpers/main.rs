//! Writes requests and answers to standard output, each with its bytes, place tables, name tables, marks, lists of work orders and
//! branch rows, for the test of include/kizmoolet_requests.h. Every number is eight bytes, least significant first; an area is its
//! length and its bytes. Records:
//! K numbers                                   the reference's sizes
//! Q operation address moment behind bytes     a request as the reference reads these bytes; the address of a revert is its work
//!                                             order; behind: the page or name, empty if there is none
//! A refusal number date page bytes            an answer and the bytes that the reference writes for it; date 0 and page
//!                                             empty if there is none
//! S places in-use                             a place table, and up to which byte the slab is in use
//! N head names name row                       a head and a name table, and the row that has this name, or how many there are
//! M marks stale after                         the marks of a live disk, how many pages are stale, and the marks once all are
//! O list count numbers                        a list of work orders, and each of them
//! W narrow wide                               branch rows of 12 bytes, and of 16 with work order 0
//! Z                                           the end

use reference::*;
use std::io::{BufWriter, StdoutLock, Write};

struct Out(BufWriter<StdoutLock<'static>>);

impl Out {
    fn bytes(&mut self, bytes: &[u8]) {
        if self.0.write_all(bytes).is_err() {
            std::process::exit(2);
        }
    }

    fn number(&mut self, number: u64) {
        self.bytes(&number.to_le_bytes());
    }

    fn area(&mut self, area: &[u8]) {
        self.number(area.len() as u64);
        self.bytes(area);
    }
}

/// Numbers that look drawn, from a seed.
struct Drawn(u64);

impl Drawn {
    fn next(&mut self) -> u64 {
        self.0 = self.0.wrapping_add(0x9E37_79B9_7F4A_7C15);
        let mut mixed = self.0;
        mixed = (mixed ^ mixed >> 30).wrapping_mul(0xBF58_476D_1CE4_E5B9);
        mixed = (mixed ^ mixed >> 27).wrapping_mul(0x94D0_49BB_1331_11EB);
        mixed ^ mixed >> 31
    }

    fn page(&mut self) -> Vec<u8> {
        (0..PAGE).map(|_| self.next() as u8).collect()
    }
}

/// The request that has these 48 bits between operation and spare, those cleared that the operation does not use.
fn request(out: &mut Out, drawn: &mut Drawn, operation: u64, between: u64) {
    let used = match operation {
        1 => 0xFFFF_0000_0000,
        2 => 0,
        3 | 4 => 0xFFFF_FFFF_FFFF,
        7 => 0,
        _ => 0x0000_FFFF_FFFF,
    };
    let packed = operation << 53 | (between & used) << 5;
    let mut bytes = packed.to_be_bytes()[1..].to_vec();
    if operation == 1 {
        bytes.extend(drawn.page());
    } else if operation >= 6 {
        bytes.extend(drawn.next().to_be_bytes());
    }
    let (number, address, moment, behind) = match read_request(&bytes) {
        Ok((Request::Write { address, page }, 263)) => (1, address, 0, page),
        Ok((Request::Mark, 7)) => (2, 0, 0, Vec::new()),
        Ok((Request::Revert { moment, order }, 7)) => (3, order, moment, Vec::new()),
        Ok((Request::Read { address, moment }, 7)) => (4, address, moment, Vec::new()),
        Ok((Request::Reclaim { moment }, 7)) => (5, 0, moment, Vec::new()),
        Ok((Request::Name { moment, name }, 15)) => (6, 0, moment, name.to_vec()),
        Ok((Request::Withdraw { name }, 15)) => (7, 0, 0, name.to_vec()),
        other => panic!("the reference reads {other:?}"),
    };
    out.bytes(b"Q");
    out.number(number);
    out.number(u64::from(address));
    out.number(u64::from(moment));
    out.area(&behind);
    out.area(&bytes);
}

fn answer(out: &mut Out, refusal: u32, number: u32, found: Option<DatedPage>) {
    let answer = Answer { refusal, number, found };
    let none = DatedPage { date: 0, page: Vec::new() };
    let found = answer.found.as_ref().unwrap_or(&none);
    out.bytes(b"A");
    out.number(u64::from(refusal));
    out.number(u64::from(number));
    out.number(u64::from(found.date));
    out.area(&found.page);
    out.area(&answer_bytes(&answer));
}

fn place_table(out: &mut Out, places: &[u8]) {
    out.bytes(b"S");
    out.area(places);
    out.number(slab_in_use(places) as u64);
}

/// A table of these rows: as it is, and with one to three bytes behind its last row, set or not.
fn place_tables(out: &mut Out, rows: &[u32]) {
    let bytes: Vec<u8> = rows.iter().flat_map(|row| row.to_be_bytes()).collect();
    place_table(out, &bytes);
    for odd in 1..PLACE_BYTES {
        for byte in [0, 1, 0xFF] {
            place_table(out, &[bytes.as_slice(), &vec![byte; odd]].concat());
        }
    }
}

/// Place tables of up to 9 rows, with the last one in use at each place; and some of the largest size.
fn all_place_tables(out: &mut Out, drawn: &mut Drawn) {
    for length in 0..10 {
        place_tables(out, &vec![0; length]);
        let used: Vec<u32> = (1..=length as u32).collect();
        place_tables(out, &used);
        for last in 0..length {
            // Every bit alone, so every one of the four bytes alone; with any rows before.
            for bit in 0..32 {
                let mut rows = vec![0; length];
                rows[last] = 1 << bit;
                place_tables(out, &rows);
                rows[..last].fill_with(|| drawn.next() as u32 & 3);
                place_tables(out, &rows);
            }
        }
    }
    place_tables(out, &vec![0; MOST_PLACES]);
    for last in [0, 1, 255, 256, 32_767, 65_534, 65_535] {
        let mut rows = vec![0; MOST_PLACES];
        rows[last] = 65_536;
        place_tables(out, &rows);
    }
}

/// The count of the head, and these names, at these moments, with zeros behind them; asked for this name.
fn name_table(out: &mut Out, count: u32, rows: &[Name], name: &[u8; NAME_BYTES]) {
    let mut head = vec![0xFF; HEAD_BYTES];
    set_number_at(&mut head, 5, count);
    let mut names = vec![0; NAME_ROW_BYTES * MOST_NAMES];
    for (row, name) in rows.iter().enumerate() {
        names[NAME_ROW_BYTES * row..NAME_ROW_BYTES * row + NAME_BYTES].copy_from_slice(&name.bytes);
        set_number_at(&mut names, 3 * row + 2, name.moment);
    }
    let counted = (count as usize).min(MOST_NAMES);
    let has = |row: &usize| names[NAME_ROW_BYTES * row..NAME_ROW_BYTES * row + NAME_BYTES] == *name;
    out.bytes(b"N");
    out.area(&head);
    out.area(&names);
    out.area(name);
    out.number((0..counted).find(has).unwrap_or(counted) as u64);
}

/// Every count from 0 to 34, and the largest, with names that are different, in one byte or in all: each row's name asked
/// for, and with each of its bits changed.
fn all_name_tables(out: &mut Out, drawn: &mut Drawn) {
    for count in (0..35).chain([u32::MAX]) {
        for alike in [false, true] {
            let any = drawn.next().to_be_bytes();
            let mut rows = Vec::new();
            for row in 0..MOST_NAMES {
                let mut bytes = if alike { any } else { drawn.next().to_be_bytes() };
                if alike {
                    bytes[row % NAME_BYTES] ^= 1 + (row / NAME_BYTES) as u8;
                }
                rows.push(Name { bytes, moment: drawn.next() as u32 });
            }
            for row in 0..MOST_NAMES {
                name_table(out, count, &rows, &rows[row].bytes);
                for bit in 0..8 * NAME_BYTES {
                    let mut other = rows[row].bytes;
                    other[bit / 8] ^= 1 << (bit % 8);
                    if row % 8 == 0 || bit % 8 == row / 8 {
                        name_table(out, count, &rows, &other);
                    }
                }
            }
            name_table(out, count, &[], &[0; NAME_BYTES]);
            name_table(out, count, &rows, &[0; NAME_BYTES]);
        }
    }
}

/// The marks as they are; stale are those whose lowest bit is not set, and once all are, the blank marks are left.
fn table_of_marks(out: &mut Out, marks: &[u8]) {
    let after: Vec<u8> = marks.iter().map(|mark| mark & BLANK).collect();
    out.bytes(b"M");
    out.area(marks);
    out.number(marks.iter().filter(|mark| **mark & CURRENT == 0).count() as u64);
    out.area(&after);
}

/// Up to five pages with every mark; more with any; one mark of any byte among others; the largest live disk.
fn all_tables_of_marks(out: &mut Out, drawn: &mut Drawn) {
    for length in 0..6_u32 {
        for number in 0..4_u32.pow(length) {
            let marks: Vec<u8> = (0..length).map(|at| (number >> (2 * at) & 3) as u8).collect();
            table_of_marks(out, &marks);
        }
    }
    for length in 6..600_u64 {
        for _ in 0..10 {
            let marks: Vec<u8> = (0..length).map(|_| drawn.next() as u8 & 3).collect();
            table_of_marks(out, &marks);
        }
    }
    for byte in 0..=255 {
        for others in 0..4 {
            table_of_marks(out, &[others, byte, others]);
        }
    }
    for byte in 0..4 {
        table_of_marks(out, &vec![byte; LARGEST_SIZE as usize]);
    }
}

/// Lists of no work order to 40, of any bytes and of few; one of the largest size.
fn all_lists(out: &mut Out, drawn: &mut Drawn) {
    for count in (0..41).chain([MOST_BRANCHES]) {
        for mask in [0xFF, 0x01, 0x80, 0x00] {
            let list: Vec<u8> = (0..ORDER_BYTES * count).map(|_| drawn.next() as u8 & mask).collect();
            out.bytes(b"O");
            out.area(&list);
            out.number(count as u64);
            for order in list.chunks_exact(ORDER_BYTES) {
                out.number(u64::from(order[0]) * 256 + u64::from(order[1]));
            }
        }
    }
}

/// Branch rows of 12 bytes, of any bytes: none, one, some, and as many as there can be.
fn all_branch_rows(out: &mut Out, drawn: &mut Drawn) {
    for rows in (0..60).chain([MOST_BRANCHES]) {
        let narrow: Vec<u8> = (0..12 * rows).map(|_| drawn.next() as u8).collect();
        let wide: Vec<u8> = narrow.chunks_exact(12).flat_map(|row| [row, &[0; 4]].concat()).collect();
        assert_eq!(wide.len(), BRANCH_BYTES * rows);
        out.bytes(b"W");
        out.area(&narrow);
        out.area(&wide);
    }
}

fn main() {
    let seed = std::env::args().nth(1).and_then(|word| word.parse().ok()).expect("a seed");
    let mut drawn = Drawn(seed);
    let mut out = Out(BufWriter::with_capacity(1 << 20, std::io::stdout().lock()));
    out.bytes(b"K");
    for size in [PAGE, HEAD_BYTES, BRANCH_BYTES, RECORD_BYTES, PLACE_BYTES, MOST_BRANCHES, MOST_RECORDS, MOST_PLACES] {
        out.number(size as u64);
    }
    for size in [NAME_BYTES, NAME_ROW_BYTES, MOST_NAMES, NAME_ROW_BYTES * MOST_NAMES, 7 + NAME_BYTES] {
        out.number(size as u64);
    }
    out.number(u64::from(LARGEST_SIZE));
    out.number(u64::from(OPEN_END));
    for length in [ANSWER_BYTES, DATE_BYTES, PAGE_ANSWER_BYTES] {
        out.number(length as u64);
    }
    for number in [u32::from(CURRENT), u32::from(BLANK), AREA_NONE, AREA_DISK, AREA_SLAB] {
        out.number(u64::from(number));
    }
    for number in [ORDER_BYTES, MOST_ORDER as usize, ORDER_BYTES * MOST_BRANCHES] {
        out.number(number as u64);
    }
    for operation in 1..=7 {
        // No bit, all bits, each bit alone, each bit missing, and any.
        request(&mut out, &mut drawn, operation, 0);
        request(&mut out, &mut drawn, operation, u64::MAX);
        for bit in 0..48 {
            request(&mut out, &mut drawn, operation, 1 << bit);
            request(&mut out, &mut drawn, operation, !(1 << bit));
        }
        for _ in 0..2_000 {
            let between = drawn.next();
            request(&mut out, &mut drawn, operation, between);
        }
    }
    for refusal in (4..=10).chain(15..=17) {
        answer(&mut out, refusal, 0, None);
    }
    // No bit, all bits, four different bytes, each bit alone, and any: as a number, and as a date.
    let mut numbers = vec![0, u32::MAX, 0x0123_4567, 0x89AB_CDEF];
    numbers.extend((0..32).map(|bit| 1 << bit));
    numbers.extend((0..1_000).map(|_| drawn.next() as u32));
    for number in numbers {
        let other = drawn.next() as u32;
        answer(&mut out, 0, number, None);
        for (number, date) in [(number, other), (other, number), (number, number)] {
            let page = drawn.page();
            answer(&mut out, 0, number, Some(DatedPage { date, page }));
        }
    }
    all_place_tables(&mut out, &mut drawn);
    all_name_tables(&mut out, &mut drawn);
    all_tables_of_marks(&mut out, &mut drawn);
    all_lists(&mut out, &mut drawn);
    all_branch_rows(&mut out, &mut drawn);
    out.bytes(b"Z");
    if out.0.flush().is_err() {
        std::process::exit(2);
    }
}
