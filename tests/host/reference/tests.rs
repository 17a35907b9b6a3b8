//! The documents' own examples.

use super::*;

fn areas(branches: usize, records: usize, places: usize) -> Areas {
    Areas {
        head: vec![0xEE; HEAD_BYTES],
        branches: vec![0xEE; BRANCH_BYTES * branches],
        records: vec![0xEE; RECORD_BYTES * records],
        places: vec![0xEE; PLACE_BYTES * places],
        names: vec![0xEE; NAME_ROW_BYTES * MOST_NAMES],
        slab: vec![0xEE; PAGE * places],
        ..Areas::default()
    }
}

/// A fresh store, with a live disk on which every page is stale.
fn made(size: u32, branches: usize, records: usize, places: usize) -> Areas {
    let mut areas = areas(branches, records, places);
    areas.disk = vec![b'.'; PAGE * size as usize];
    areas.marks = vec![0; size as usize];
    assert_eq!(fresh(size, &mut areas), 0);
    areas
}

fn packed(operation: u64, address: u64, moment: u64) -> Vec<u8> {
    let bits = operation << 53 | address << 37 | moment << 5;
    bits.to_be_bytes()[1..].to_vec()
}

fn write(address: u64, letter: u8) -> Vec<u8> {
    let mut bytes = packed(1, address, 0);
    bytes.extend([letter; PAGE]);
    bytes
}

fn mark() -> Vec<u8> {
    packed(2, 0, 0)
}

fn revert(moment: u64) -> Vec<u8> {
    packed(3, 0, moment)
}

/// A revert with a work order.
fn revert_by(moment: u64, order: u64) -> Vec<u8> {
    packed(3, order, moment)
}

fn read(address: u64, moment: u64) -> Vec<u8> {
    packed(4, address, moment)
}

fn reclaim(moment: u64) -> Vec<u8> {
    packed(5, 0, moment)
}

/// The name that is eight times this letter.
fn name(moment: u64, letter: u8) -> Vec<u8> {
    [packed(6, 0, moment), vec![letter; 8]].concat()
}

fn withdraw(letter: u8) -> Vec<u8> {
    [packed(7, 0, 0), vec![letter; 8]].concat()
}

/// The answers to these requests: refusal, number, and of a page its letter and date.
fn answers(areas: &mut Areas, requests: &[Vec<u8>]) -> Vec<(u32, u32, Option<(u8, u32)>)> {
    let bytes = requests.concat();
    let mut area = vec![0x77; PAGE_ANSWER_BYTES * requests.len()];
    let report = batch(areas, &bytes, &mut area);
    assert_eq!(report.stop, 0);
    assert_eq!(report.answered, requests.len() as u64);
    assert_eq!(report.request_bytes, bytes.len() as u64);
    assert!(area[report.answer_bytes as usize..].iter().all(|byte| *byte == 0x77));
    let mut list = Vec::new();
    let mut at = 0;
    while at < report.answer_bytes as usize {
        let first = area[at];
        let number = number_at(&area[at + 1..], 0);
        at += 5;
        let mut found = None;
        assert_eq!(first & 1, 0);
        if first & 2 != 0 {
            let letter = area[at + 4];
            found = Some((letter, number_at(&area[at..], 0)));
            at += 4;
            assert!(area[at..at + PAGE].iter().all(|byte| *byte == letter));
            at += PAGE;
        }
        list.push((u32::from(first >> 2), number, found));
    }
    list
}

#[test]
fn session() {
    let mut store = made(64, 16, 128, 128);
    assert_eq!(answers(&mut store, &[read(5, 0)]), [(0, 0, None)]); // P1
    assert_eq!(answers(&mut store, &[write(5, b'A'), mark()]), [(0, 0, None), (0, 0, None)]); // P2
    assert_eq!(answers(&mut store, &[write(5, b'B'), mark()]), [(0, 1, None), (0, 1, None)]); // P3
    assert_eq!(
        answers(&mut store, &[write(5, b'C'), revert(0), read(5, 3)]),
        [(0, 2, None), (0, 2, None), (0, 3, Some((b'A', 0)))]
    ); // P4
    assert_eq!(
        answers(&mut store, &[write(5, b'D'), revert(2), read(5, 4)]),
        [(0, 3, None), (0, 3, None), (0, 4, Some((b'C', 2)))]
    ); // P5
    assert_eq!(
        answers(&mut store, &[read(5, 3), read(5, 2), read(5, 1)]),
        [(0, 3, Some((b'D', 3))), (0, 2, Some((b'C', 2))), (0, 1, Some((b'B', 1)))]
    ); // P6
    let slab = store.slab.clone();
    assert_eq!(answers(&mut store, &[reclaim(3)]), [(0, 2, None)]); // P7
    assert_eq!(number_at(&store.head, 1), 3);
    assert_eq!(answers(&mut store, &[read(5, 2)]), [(8, 0, None)]); // P8
    assert_eq!(answers(&mut store, &[reclaim(4)]), [(0, 1, None)]); // P9
    assert_eq!(number_at(&store.head, 1), 2);
    let left = rows(&store);
    assert_eq!(left.counted_branches()[1], Branch { start: 4, end: OPEN_END, cut: 2, order: 0 });
    assert!(left.branches[2..].iter().all(|row| (row.start, row.end, row.cut, row.order) == (0, 0, 0, 0)));
    assert!(left.records[1..].iter().all(|row| (row.address, row.moment, row.place) == (0, 0, 0)));
    assert_eq!(left.places.iter().filter(|place| **place != 0).count(), 1);
    assert_eq!(store.slab, slab);
    assert_eq!(answers(&mut store, &[read(5, 4)]), [(0, 4, Some((b'C', 2)))]); // P10

    let mut store = made(64, 16, 128, 128);
    answers(&mut store, &[write(5, b'A'), write(5, b'B')]);
    assert_eq!(number_at(&store.head, 2), 1); // P11

    // P12
    let mut store = made(64, 16, 128, 128);
    assert_eq!(answers(&mut store, &[mark(), revert(1), revert(0)]), [(0, 0, None), (9, 0, None), (0, 1, None)]);
}

/// Every byte of the answer to a read: a found page with its date between number and page, and an absent one.
#[test]
fn answers_to_reads() {
    let mut store = made(6, 1, 2, 2);
    set_head(&mut store, [6, 1, 0, 0x0102_0304, 0, 0]);
    let list = [write(0, b'A'), mark(), read(0, 0x0102_0305), read(0, 0x0102_0303)].concat();
    let mut area = [0x77; 10 + 265 + 5];
    assert_eq!(batch(&mut store, &list, &mut area).answer_bytes, 280);
    assert_eq!(area[10..19], [2, 1, 2, 3, 5, 1, 2, 3, 4]);
    assert_eq!(area[19..275], [b'A'; 256]);
    assert_eq!(area[275..], [0, 1, 2, 3, 3]);
}

#[test]
fn whole_case_of_the_batch_program() {
    let input = [0x40, 0, 0, 0, 0, 0, 0, 0x60, 0, 0, 0, 0, 0, 0, 0x80, 0, 0xA0, 0, 0, 0, 0x40];
    let output = [0, 0, 0, 0, 0, 0, 0, 0, 0, 1, 0, 0, 0, 0, 2];
    let mut store = made(64, 16, 128, 128);
    let mut area = vec![0; 65_536];
    let report = batch(&mut store, &input, &mut area);
    assert_eq!(report, Report { stop: 0, answered: 3, request_bytes: 21, answer_bytes: 15, rows_read: 0 });
    assert_eq!(area[..15], output);
}

fn set_head(areas: &mut Areas, numbers: [u32; 6]) {
    for (index, number) in numbers.iter().enumerate() {
        set_number_at(&mut areas.head, index, *number);
    }
}

/// Start, end and cut; the work order becomes 0.
fn set_branch(areas: &mut Areas, row: usize, numbers: [u32; 3]) {
    for (index, number) in numbers.iter().chain(&[0]).enumerate() {
        set_number_at(&mut areas.branches, 4 * row + index, *number);
    }
}

fn set_order(areas: &mut Areas, row: usize, order: u32) {
    set_number_at(&mut areas.branches, 4 * row + 3, order);
}

#[test]
fn refusal_1() {
    let mut store = made(6, 2, 2, 2);
    set_head(&mut store, [6, 1, 0, 1, 2, 0]);
    assert_eq!(check(&store), 1);
    set_head(&mut store, [6, 1, 0, 2, 2, 0]);
    assert_eq!(check(&store), 0);
    for numbers in [
        [0, 1, 0, 0, 0, 0],
        [65_537, 1, 0, 0, 0, 0],
        [6, 0, 0, 0, 0, 0],
        [6, 3, 0, 0, 0, 0],
        [6, 1, 3, 0, 0, 0],
        [6, 1, 0, 99, 0, 33],
    ] {
        set_head(&mut store, numbers);
        assert_eq!(check(&store), 1);
    }
    for (b, r, p) in [(0, 1, 1), (1, 0, 1), (1, 1, 0), (4_097, 1, 1), (1, 65_537, 1), (1, 1, 65_537)] {
        let before = areas(b, r, p);
        let mut after = before.clone();
        assert_eq!(fresh(1, &mut after), 1);
        assert_eq!(after, before);
    }
    for (b, r, p) in [(4_096, 1, 1), (1, 65_536, 1), (1, 1, 65_536)] {
        assert_eq!(check(&made(65_536, b, r, p)), 0);
    }
    let mut short = made(6, 2, 2, 2);
    short.slab.pop();
    assert_eq!(check(&short), 1);
    let mut uneven = made(6, 2, 2, 2);
    uneven.records.push(0);
    assert_eq!(check(&uneven), 1);
    for length in [0, 12, 372, 383, 385, 396] {
        let mut other = made(6, 2, 2, 2);
        other.names.resize(length, 0);
        assert_eq!(check(&other), 1);
        assert_eq!(fresh(6, &mut other), 1);
    }
    for length in [20, 23, 25, 28] {
        let mut other = made(6, 2, 2, 2);
        other.head.resize(length, 0);
        assert_eq!(check(&other), 1);
        assert_eq!(fresh(6, &mut other), 1);
    }
    assert_eq!(fresh(0, &mut areas(1, 1, 1)), 1);
    assert_eq!(fresh(65_537, &mut areas(1, 1, 1)), 1);
}

#[test]
fn refusal_2() {
    let mut store = made(6, 2, 2, 2);
    set_head(&mut store, [6, 2, 0, 4, 0, 0]);
    set_branch(&mut store, 0, [0, 3, 0]);
    set_branch(&mut store, 1, [4, OPEN_END, 4]);
    let before = store.clone();
    let mut area = [0x77; 16];
    assert_eq!(batch(&mut store, &mark(), &mut area), Report { stop: 2, ..Report::default() });
    assert_eq!((store.clone(), area), (before, [0x77; 16]));
    set_branch(&mut store, 1, [4, OPEN_END, 3]);
    assert_eq!(check(&store), 0);
    // A gap is sound up to the floor only.
    set_head(&mut store, [6, 2, 0, 9, 6, 0]);
    set_branch(&mut store, 1, [7, OPEN_END, 3]);
    assert_eq!(check(&store), 2);
    set_branch(&mut store, 1, [6, OPEN_END, 3]);
    assert_eq!(check(&store), 0);
}

#[test]
fn refusal_3() {
    let mut store = made(6, 2, 2, 2);
    answers(&mut store, &[write(1, b'A')]);
    assert_eq!(check(&store), 0);
    let place = rows(&store).records[0].place as usize;
    set_number_at(&mut store.places, place, 0);
    assert_eq!(check(&store), 3);
    set_number_at(&mut store.places, place, 1);
    set_number_at(&mut store.places, 1 - place, 7);
    assert_eq!(check(&store), 3);
}

#[test]
fn refusals_4_to_10() {
    assert_eq!(answers(&mut made(6, 2, 2, 2), &[read(6, 0)]), [(4, 0, None)]);
    assert_eq!(
        answers(&mut made(6, 1, 1, 2), &[write(0, 1), write(1, 1), write(0, 2), read(0, 0)]),
        [(0, 0, None), (5, 0, None), (0, 0, None), (0, 0, Some((2, 0)))]
    );
    assert_eq!(answers(&mut made(6, 1, 2, 1), &[write(0, 1), write(1, 1)]), [(0, 0, None), (6, 0, None)]);
    assert_eq!(answers(&mut made(6, 1, 2, 1), &[mark(), revert(0)]), [(0, 0, None), (7, 0, None)]);
    assert_eq!(
        answers(&mut made(6, 1, 2, 1), &[mark(), mark(), mark(), reclaim(3), read(0, 2), read(7, 2)])[3..],
        [(0, 0, None), (8, 0, None), (4, 0, None)]
    );
    assert_eq!(answers(&mut made(6, 2, 2, 1), &[mark(), mark(), mark(), mark(), revert(4)])[4], (9, 0, None));
    let mut store = made(6, 1, 2, 1);
    set_head(&mut store, [6, 1, 0, OPEN_END, 0, 0]);
    assert_eq!(
        answers(&mut store, &[mark(), revert(OPEN_END as u64), revert(3), write(2, 9), read(2, OPEN_END as u64)]),
        [(10, 0, None), (9, 0, None), (10, 0, None), (0, OPEN_END, None), (0, OPEN_END, Some((9, OPEN_END)))]
    );
}

fn stop(bytes: &[u8], room: usize) -> Report {
    batch(&mut made(6, 2, 2, 2), bytes, &mut vec![0; room])
}

#[test]
fn stops_11_to_14() {
    assert_eq!(stop(&[0x40, 0, 0], 100).stop, 11);
    assert_eq!(stop(&[0; 7], 100).stop, 12);
    // Names cut short; the spare bits come before.
    assert_eq!(stop(&[0xC0, 0, 0, 0, 0, 0, 0], 100).stop, 11);
    assert_eq!(stop(&[0xE0, 0, 0, 0, 0, 0, 0], 100).stop, 11);
    assert_eq!(stop(&name(0, 1)[..14], 100).stop, 11);
    assert_eq!(stop(&withdraw(1)[..14], 0).stop, 11);
    assert_eq!(stop(&[0xC0, 0, 0, 0, 0, 0, 1], 100).stop, 13);
    assert_eq!(stop(&[0xC0, 1, 0, 0, 0, 0, 0], 100).stop, 13);
    assert_eq!(stop(&[0xE0, 0, 0, 0, 0, 0, 0x20], 100).stop, 13);
    assert_eq!(stop(&withdraw(1), 4).stop, 14);
    assert_eq!(
        stop(&withdraw(1), 5),
        Report { stop: 0, answered: 1, request_bytes: 15, answer_bytes: 5, rows_read: 0 }
    );
    assert_eq!(stop(&[0x40, 0, 0, 0, 0, 0, 1], 100).stop, 13);
    assert_eq!(stop(&[0x40, 0, 0, 0, 0, 0, 0x20], 100).stop, 13);
    assert_eq!(stop(&write(0, 1)[..262], 0).stop, 11);
    assert_eq!(stop(&mark(), 4), Report { stop: 14, ..Report::default() });
    assert_eq!(stop(&mark(), 5), Report { stop: 0, answered: 1, request_bytes: 7, answer_bytes: 5, rows_read: 0 });
    let list = [write(0, 1), read(0, 0)].concat();
    assert_eq!(stop(&list, 269), Report { stop: 14, answered: 1, request_bytes: 263, answer_bytes: 5, rows_read: 0 });
    assert_eq!(stop(&list, 270), Report { stop: 0, answered: 2, request_bytes: 270, answer_bytes: 270, rows_read: 0 });
    // An absent page has no date, and its answer fits where any other without a page does.
    assert_eq!(stop(&read(0, 0), 5), Report { stop: 0, answered: 1, request_bytes: 7, answer_bytes: 5, rows_read: 0 });
    // A refusal that does not fit is a stop, too.
    assert_eq!(stop(&read(9, 0), 4).stop, 14);
    // A request that does not fit is not carried out.
    let mut store = made(6, 2, 2, 2);
    let before = store.clone();
    assert_eq!(batch(&mut store, &write(0, 1), &mut [0; 4]).stop, 14);
    assert_eq!(store, before);
}

#[test]
fn reclaim_keeps_by_branch() {
    // Address 1: kept through a cut although a newer record of the parent lies above the cut.
    let mut store = made(6, 4, 8, 8);
    answers(&mut store, &[write(1, b'A'), mark(), write(1, b'B'), mark(), revert(0)]);
    // Now 3, in the branch cut at 0: only A is read from 3 on.
    assert_eq!(answers(&mut store, &[reclaim(3), read(1, 3)]), [(0, 1, None), (0, 3, Some((b'A', 0)))]);
    assert_eq!(answers(&mut store, &[reclaim(3)]), [(0, 0, None)]);
}

struct Drawn(u64);

impl Drawn {
    fn below(&mut self, limit: u64) -> u64 {
        self.0 = self.0.wrapping_mul(6_364_136_223_846_793_005).wrapping_add(1_442_695_040_888_963_407);
        (self.0 >> 33) % limit
    }
}

/// A store after sixty requests of any kind.
fn drawn_store(draw: &mut Drawn) -> Areas {
    let mut store = made(5, 12, 30, 30);
    for _ in 0..60 {
        let rows = rows(&store);
        let (now, floor) = (u64::from(rows.head.now), u64::from(rows.head.floor));
        let named: Vec<u64> = rows.counted_names().iter().map(|name| u64::from(name.moment)).collect();
        let moment = match draw.below(4) {
            0 if !named.is_empty() => named[draw.below(named.len() as u64) as usize],
            _ => floor + draw.below(now - floor + 1),
        };
        let request = match draw.below(13) {
            0..=3 => write(draw.below(5), b'x'),
            4 => mark(),
            5..=7 => revert_by(moment, draw.below(65_536)),
            8 => reclaim(floor + draw.below(2)),
            9 => reclaim(floor),
            10 | 11 => name(moment, b'a' + draw.below(6) as u8),
            _ => withdraw(b'a' + draw.below(6) as u8),
        };
        batch(&mut store, &request, &mut [0; 300]);
    }
    assert_eq!(check(&store), 0);
    store
}

/// The two ways to say what a reclaim keeps are the same, on tables of any shape.
#[test]
fn kept_by_branch_is_kept_by_every_moment() {
    let draw = &mut Drawn(1);
    for _ in 0..3_000 {
        let rows = rows(&drawn_store(draw));
        for floor in rows.head.floor..=rows.head.now {
            assert_eq!(rows.kept_by_branch(floor), rows.kept_by_every_moment(floor));
        }
    }
}

// ---------------------------------------------------------------------------------------------
// Document 02, Two: a write takes the free place with the smallest number

/// The place table as letters: of the page at each place in use, and a dot where the place is free.
fn slab_letters(areas: &Areas) -> String {
    let places = rows(areas).places;
    let letter = |place: usize| if places[place] == 0 { '.' } else { char::from(areas.slab[PAGE * place]) };
    (0..places.len()).map(letter).collect()
}

/// The refusals of these requests, and the place table after them.
fn placed(areas: &mut Areas, requests: &[Vec<u8>]) -> (Vec<u32>, String) {
    let refusals = answers(areas, requests).iter().map(|answer| answer.0).collect();
    (refusals, slab_letters(areas))
}

/// Pages A to F of moment 0 at places 0 to 5; at moment 1 addresses 4, 1 and 0 are written again, at places 6 to 8.
fn six_pages(places: usize) -> Areas {
    let mut store = made(20, 4, 30, places);
    let first: Vec<Vec<u8>> = (0..6).map(|address| write(address, b'A' + address as u8)).collect();
    assert_eq!(placed(&mut store, &first).1[..7], *"ABCDEF.");
    let again = [mark(), write(4, b'e'), write(1, b'b'), write(0, b'a')];
    assert_eq!(placed(&mut store, &again).1[..10], *"ABCDEFeba.");
    store
}

#[test]
fn places_of_a_fresh_store() {
    let mut store = made(64, 16, 5, 5);
    assert_eq!(placed(&mut store, &[write(9, b'A'), write(3, b'B'), mark()]).1, "AB...");
    assert_eq!(placed(&mut store, &[write(9, b'C')]).1, "ABC..");
    let records: Vec<(u32, u32, u32)> =
        rows(&store).counted_records().iter().map(|record| (record.address, record.moment, record.place)).collect();
    assert_eq!(records, [(3, 0, 1), (9, 0, 0), (9, 1, 2)]);
    // A write over a page at now, a mark, a revert and a read take no place.
    assert_eq!(placed(&mut store, &[write(9, b'D'), mark(), revert(0), read(9, 0)]).1, "ABD..");
    assert_eq!(placed(&mut store, &[write(0, b'E'), write(1, b'F')]).1, "ABDEF");
}

#[test]
fn places_freed_in_the_same_batch() {
    // The reclaim frees places 4, 1 and 0, in the middle and before it: the next writes take them in
    // ascending order, and then go on behind the last one in use.
    let mut store = six_pages(12);
    let list = [reclaim(1), write(7, b'0'), write(8, b'1'), write(9, b'4'), write(10, b'9'), write(11, b'x')];
    assert_eq!(placed(&mut store, &list), (vec![0; 6], "01CD4Feba9x.".to_string()));
    // Step by step.
    let mut store = six_pages(12);
    for (request, after) in [
        (reclaim(1), "..CD.Feba..."),
        (write(7, b'0'), "0.CD.Feba..."),
        // An overwrite stays in its place, though a place before it is free.
        (write(0, b'z'), "0.CD.Febz..."),
        (write(7, b'y'), "y.CD.Febz..."),
        (write(8, b'1'), "y1CD.Febz..."),
        (write(9, b'4'), "y1CD4Febz..."),
        (write(10, b'9'), "y1CD4Febz9.."),
    ] {
        assert_eq!(placed(&mut store, &[request]), (vec![0], after.to_string()));
    }
    // Write, free, write, free in one batch: the second reclaim frees place 0 again.
    let mut store = six_pages(12);
    let list = [reclaim(1), write(7, b'0'), mark(), write(7, b'1'), reclaim(2), write(8, b'2'), write(9, b'3')];
    assert_eq!(placed(&mut store, &list).1, "21CD3Feba...");
    // One that frees nothing, and two that are refused.
    let list = [reclaim(2), reclaim(1), reclaim(3), write(10, b'4')];
    assert_eq!(placed(&mut store, &list), (vec![0, 8, 9, 0], "21CD3Feba4..".to_string()));
}

#[test]
fn places_freed_in_another_batch() {
    let mut store = six_pages(12);
    assert_eq!(placed(&mut store, &[reclaim(1)]).1, "..CD.Feba...");
    assert_eq!(placed(&mut store, &[write(7, b'0'), write(8, b'1')]).1, "01CD.Feba...");
    // Nor does a revert take one.
    assert_eq!(placed(&mut store, &[mark(), revert(1), write(7, b'4'), write(8, b'9')]).1, "01CD4Feba9..");
}

#[test]
fn places_and_refusals_of_writes() {
    // 5 takes no place: the write after the reclaim has the first freed one.
    let mut store = made(20, 4, 4, 8);
    let list = [write(0, b'A'), write(1, b'B'), mark(), write(1, b'b'), write(0, b'a'), write(2, b'x'), write(3, b'y')];
    assert_eq!(placed(&mut store, &list), (vec![0, 0, 0, 0, 0, 5, 5], "ABba....".to_string()));
    let list = [reclaim(1), write(4, b'0'), write(5, b'1'), write(6, b'x'), write(20, b'x')];
    assert_eq!(placed(&mut store, &list), (vec![0, 0, 0, 5, 4], "01ba....".to_string()));
    // 6 only where no place row is 0: with one free place in front, in the middle or at the end there is none.
    for freed in 0..6 {
        let mut store = made(20, 4, 30, 7);
        let first: Vec<Vec<u8>> = (0..6).map(|address| write(address, b'A' + address as u8)).collect();
        placed(&mut store, &first);
        let list = [mark(), write(freed, b'g'), write(9, b'x'), reclaim(1), write(9, b'9'), write(10, b'x')];
        let letter = |place| if place == freed { '9' } else { char::from(b'A' + place as u8) };
        let due: String = (0..6).map(letter).collect();
        assert_eq!(placed(&mut store, &list), (vec![0, 0, 6, 0, 0, 6], due + "g"));
    }
}

#[test]
fn slab_in_use_by_the_place_table() {
    assert_eq!(slab_in_use(&[]), 0);
    assert_eq!(slab_in_use(&[0, 0, 0, 0]), 0);
    for row in [[1, 0, 0, 0], [0, 1, 0, 0], [0, 0, 1, 0], [0, 0, 0, 1]] {
        assert_eq!(slab_in_use(&row), 256);
        assert_eq!(slab_in_use(&[[0; 4], row, [0; 4]].concat()), 512);
    }
    assert_eq!(slab_in_use(&[0, 0, 0, 1, 0, 0, 0, 0, 9, 9, 9]), 256);
    let mut store = six_pages(12);
    assert_eq!(slab_in_use(&store.places), 9 * 256);
    // Nothing is moved: what is in use ends where it did until the last places are free.
    answers(&mut store, &[reclaim(1)]);
    assert_eq!(slab_in_use(&store.places), 9 * 256);
    answers(&mut store, &[mark(), write(0, b'A'), reclaim(2)]);
    assert_eq!(slab_letters(&store), "A.CD.Feb....");
    assert_eq!(slab_in_use(&store.places), 8 * 256);
    // A copy up to there has every page, whatever lies behind.
    let mut copy = store.clone();
    copy.slab[8 * 256..].fill(0x99);
    let reads: Vec<Vec<u8>> = (0..20).map(|address| read(address, 2)).collect();
    assert_eq!(answers(&mut copy, &reads), answers(&mut store, &reads));
}

// ---------------------------------------------------------------------------------------------
// Document 02, Three: commissioned states by name

/// The name table as text, the letter of each name and its moment; the rows behind are zero.
fn names_of(areas: &Areas) -> String {
    let rows = rows(areas);
    let counted = rows.counted_names();
    assert!(rows.names[counted.len()..].iter().all(|row| (row.bytes, row.moment) == ([0; 8], 0)));
    counted.iter().map(|row| format!("{}{} ", char::from(row.bytes[0]), row.moment)).collect()
}

/// Address 5 has page A from moment 0, B from 1, C from 2 on; now is 3.
fn three_pages() -> Areas {
    let mut store = made(64, 16, 128, 128);
    answers(&mut store, &[write(5, b'A'), mark(), write(5, b'B'), mark(), write(5, b'C'), mark()]);
    store
}

#[test]
fn a_named_moment_below_the_floor() {
    let mut store = three_pages();
    assert_eq!(answers(&mut store, &[name(0, b'x')]), [(0, 0, None)]);
    // B goes, A is kept for the name.
    assert_eq!(answers(&mut store, &[reclaim(2)]), [(0, 1, None)]);
    assert_eq!(
        answers(&mut store, &[read(5, 0), read(4, 0), read(5, 1), read(5, 2)]),
        [(0, 0, Some((b'A', 0))), (0, 0, None), (8, 0, None), (0, 2, Some((b'C', 2)))]
    );
    // It can be named again, and reverted to; a reclaim to it gets 8.
    assert_eq!(answers(&mut store, &[name(0, b'y'), name(1, b'z')]), [(0, 0, None), (8, 0, None)]);
    assert_eq!(answers(&mut store, &[reclaim(0), reclaim(1)]), [(8, 0, None), (8, 0, None)]);
    assert_eq!(answers(&mut store, &[revert(0), read(5, 4)]), [(0, 3, None), (0, 4, Some((b'A', 0)))]);
    assert_eq!(answers(&mut store, &[revert(1)]), [(8, 0, None)]);
    assert_eq!(names_of(&store), "x0 y0 ");
    assert_eq!(check(&store), 0);
}

#[test]
fn a_name_withdrawn() {
    let mut store = three_pages();
    answers(&mut store, &[name(0, b'x'), name(0, b'y'), reclaim(3)]);
    assert_eq!(number_at(&store.head, 2), 2);
    // The other name still stands for the moment.
    assert_eq!(answers(&mut store, &[withdraw(b'x'), read(5, 0)]), [(0, 0, None), (0, 0, Some((b'A', 0)))]);
    let places = store.places.clone();
    assert_eq!(
        answers(&mut store, &[withdraw(b'y'), read(5, 0), revert(0), name(0, b'x')]),
        [(0, 0, None), (8, 0, None), (8, 0, None), (8, 0, None)]
    );
    // Its page is there until the next reclaim, to any moment.
    assert_eq!((number_at(&store.head, 2), &store.places), (2, &places));
    assert_eq!(answers(&mut store, &[reclaim(3)]), [(0, 1, None)]);
    assert_eq!(number_at(&store.head, 2), 1);
    // At the floor or above, a moment without its name is readable all the same.
    answers(&mut store, &[mark(), name(3, b'x')]);
    assert_eq!(answers(&mut store, &[withdraw(b'x'), read(5, 3)]), [(0, 3, None), (0, 3, Some((b'C', 2)))]);
}

#[test]
fn names_stand_in_the_order_given() {
    let mut store = three_pages();
    answers(&mut store, &[name(2, b'x'), name(0, b'y'), name(1, b'z'), name(1, b'u')]);
    assert_eq!(names_of(&store), "x2 y0 z1 u1 ");
    assert_eq!(answers(&mut store, &[withdraw(b'y')]), [(0, 0, None)]);
    assert_eq!(names_of(&store), "x2 z1 u1 ");
    assert_eq!(answers(&mut store, &[withdraw(b'x'), name(0, b'x')]), [(0, 2, None), (0, 0, None)]);
    assert_eq!(names_of(&store), "z1 u1 x0 ");
    assert_eq!(answers(&mut store, &[withdraw(b'x'), withdraw(b'z'), withdraw(b'u')]).len(), 3);
    assert_eq!(names_of(&store), "");
    assert!(store.names.iter().all(|byte| *byte == 0));
    // Bytes of rows past the count are carried along, and not looked at.
    store.names.fill(0x55);
    assert_eq!(answers(&mut store, &[withdraw(0x55), name(1, 0x55)]), [(17, 0, None), (0, 1, None)]);
    assert_eq!(store.names[..12], [0x55, 0x55, 0x55, 0x55, 0x55, 0x55, 0x55, 0x55, 0, 0, 0, 1]);
    assert!(store.names[12..].iter().all(|byte| *byte == 0x55));
}

#[test]
fn refusals_of_names() {
    let mut store = three_pages();
    // The open moment, and later ones.
    assert_eq!(answers(&mut store, &[name(3, b'x'), name(4, b'x')]), [(9, 0, None), (9, 0, None)]);
    assert_eq!(answers(&mut store, &[withdraw(b'x')]), [(17, 0, None)]);
    // 15 for this moment and for another; all eight bytes are compared.
    assert_eq!(
        answers(&mut store, &[name(1, b'x'), name(1, b'x'), name(2, b'x')])[1..],
        [(15, 0, None), (15, 0, None)]
    );
    for byte in 0..8 {
        let mut other = name(1, b'x');
        other[7 + byte] = b'y';
        let mut back = withdraw(b'x');
        back[7 + byte] = b'y';
        let list = [back.clone(), other.clone(), other, back.clone(), back];
        assert_eq!(
            answers(&mut store, &list),
            [(17, 0, None), (0, 1, None), (15, 0, None), (0, 1, None), (17, 0, None)]
        );
    }
    // Eight zero bytes are a name.
    assert_eq!(
        answers(&mut store, &[withdraw(0), name(1, 0), withdraw(0)]),
        [(17, 0, None), (0, 1, None), (0, 1, None)]
    );
    // 32 names: 8 and 9 before 15, 15 before 16.
    answers(&mut store, &[reclaim(1)]);
    let more: Vec<Vec<u8>> = (1..32).map(|letter| name(2, letter)).collect();
    assert!(answers(&mut store, &more).iter().all(|answer| *answer == (0, 2, None)));
    assert_eq!(number_at(&store.head, 5), 32);
    let before = store.clone();
    assert_eq!(
        answers(
            &mut store,
            &[name(2, 32), name(2, 31), name(1, b'x'), name(3, 31), name(3, 32), name(0, 31), name(0, 32)]
        ),
        [(16, 0, None), (15, 0, None), (15, 0, None), (9, 0, None), (9, 0, None), (8, 0, None), (8, 0, None)]
    );
    assert_eq!(store, before);
    assert_eq!(
        answers(&mut store, &[withdraw(32), withdraw(31), name(1, 32)]),
        [(17, 0, None), (0, 2, None), (0, 1, None)]
    );
    assert_eq!(check(&store), 0);
}

#[test]
fn a_reclaim_keeps_branches_of_named_moments() {
    // Branches 0 to 1, 2 to 3 cut at 0, 4 cut at 2, and 5 on, cut at 0.
    let mut store = made(6, 4, 8, 8);
    let list = [write(1, b'A'), mark(), write(1, b'B'), revert(0), write(2, b'C'), mark(), revert(2), revert(0)];
    assert!(answers(&mut store, &list).iter().all(|answer| answer.0 == 0));
    assert_eq!(number_at(&store.head, 1), 4);
    let mut other = store.clone();
    assert_eq!(answers(&mut other, &[reclaim(5)]), [(0, 2, None)]);
    assert_eq!(number_at(&other.head, 1), 2);
    // With a name for moment 4 its row is kept, and that of C, which is read there.
    assert_eq!(answers(&mut store, &[name(4, b'x'), reclaim(5)]), [(0, 4, None), (0, 1, None)]);
    assert_eq!(number_at(&store.head, 1), 4);
    assert_eq!(
        answers(&mut store, &[read(1, 4), read(2, 4), read(2, 5), read(2, 3)]),
        [(0, 4, Some((b'A', 0))), (0, 4, Some((b'C', 2))), (0, 5, None), (8, 0, None)]
    );
    assert_eq!(answers(&mut store, &[withdraw(b'x'), reclaim(5)]), [(0, 4, None), (0, 1, None)]);
    assert_eq!(number_at(&store.head, 1), 2);
}

#[test]
fn a_revert_with_now_at_the_floor() {
    let mut store = three_pages();
    answers(&mut store, &[name(0, b'x'), reclaim(3)]);
    assert_eq!(answers(&mut store, &[revert(0), read(5, 4)]), [(0, 3, None), (0, 4, Some((b'A', 0)))]);
    // The cut lies below the floor.
    assert_eq!(rows(&store).counted_branches()[1], Branch { start: 4, end: OPEN_END, cut: 0, order: 0 });
    // A moment that has just been sealed can be named; reclaimed past, it can still be reverted to.
    assert_eq!(answers(&mut store, &[name(3, b'y'), reclaim(4), revert(3), read(5, 5)])[3], (0, 5, Some((b'C', 2))));
    assert_eq!(check(&store), 0);
}

#[test]
fn names_in_the_table_check() {
    let mut store = three_pages();
    answers(&mut store, &[name(0, b'x'), name(1, b'y'), name(1, b'z')]);
    let sound = store.clone();
    let set = |row: usize, number: usize, value: u32| {
        let mut areas = sound.clone();
        set_number_at(&mut areas.names, 3 * row + number, value);
        check(&areas)
    };
    let (x, y) = (0x7878_7878, 0x7979_7979);
    // The moment of a name is below now.
    assert_eq!((set(2, 2, 2), set(2, 2, 3), set(0, 2, 4), set(1, 2, OPEN_END)), (0, 2, 2, 2));
    // Names are different in one of their bytes.
    assert_eq!((set(1, 0, x), set(1, 1, x), set(2, 1, y)), (0, 0, 0));
    let mut equal = sound.clone();
    equal.names[24..32].fill(b'x');
    assert_eq!(check(&equal), 2);
    // Rows past the count do not matter, and the count itself is at most 32.
    set_number_at(&mut equal.head, 5, 2);
    assert_eq!(check(&equal), 0);
    set_number_at(&mut equal.head, 5, 33);
    assert_eq!(check(&equal), 1);
    // A gap below the floor holds no named moment.
    set_head(&mut store, [64, 2, 0, 9, 6, 1]);
    store.places.fill(0);
    set_branch(&mut store, 0, [0, 3, 0]);
    set_branch(&mut store, 1, [6, OPEN_END, 3]);
    for (moment, due) in [(0, 0), (3, 0), (4, 2), (5, 2), (6, 0), (8, 0), (9, 2)] {
        set_number_at(&mut store.names, 2, moment);
        assert_eq!(check(&store), due);
    }
    // 2 comes before 3.
    set_number_at(&mut store.places, 0, 1);
    assert_eq!(check(&store), 2);
    set_number_at(&mut store.names, 2, 8);
    assert_eq!(check(&store), 3);
}

// ---------------------------------------------------------------------------------------------
// Document 02, Four: weekly setting-back

/// The counted branch rows: start, end and cut.
fn branches_of(areas: &Areas) -> Vec<(u32, u32, u32)> {
    rows(areas).counted_branches().iter().map(|row| (row.start, row.end, row.cut)).collect()
}

fn now_of(areas: &Areas) -> u64 {
    u64::from(number_at(&areas.head, 3))
}

/// Weeks in which nothing is written: each seals a moment and sets back to it, in the branch of the week before.
fn idle_weeks(areas: &mut Areas, weeks: usize) {
    for _ in 0..weeks {
        let now = now_of(areas);
        let list = [mark(), revert(now)];
        assert_eq!(answers(areas, &list), [(0, now as u32, None), (0, now as u32 + 1, None)]);
    }
}

/// A reclaim to this moment, which frees so many records. Rows past the count stay as they are, vacated ones become zero; a
/// second reclaim changes nothing.
fn reclaims(areas: &mut Areas, moment: u64, freed: u32) {
    let before = number_at(&areas.head, 1) as usize;
    areas.branches[BRANCH_BYTES * before..].fill(0x55);
    assert_eq!(answers(areas, &[reclaim(moment)]), [(0, freed, None)]);
    let after = number_at(&areas.head, 1) as usize;
    assert!(areas.branches[BRANCH_BYTES * after..BRANCH_BYTES * before].iter().all(|byte| *byte == 0));
    assert!(areas.branches[BRANCH_BYTES * before..].iter().all(|byte| *byte == 0x55));
    assert_eq!(check(areas), 0);
    let once = areas.clone();
    assert_eq!(answers(areas, &[reclaim(moment)]), [(0, 0, None)]);
    assert_eq!(*areas, once);
}

#[test]
fn idle_weeks_leave_the_first_row_and_the_open_one() {
    let mut store = made(64, 8, 4, 4);
    idle_weeks(&mut store, 3);
    assert_eq!(branches_of(&store), [(0, 1, 0), (2, 3, 0), (4, 5, 2), (6, OPEN_END, 4)]);
    // The cut of the open row is taken over twice: from 4 to 2, and to 0.
    reclaims(&mut store, 6, 0);
    assert_eq!(branches_of(&store), [(0, 1, 0), (6, OPEN_END, 0)]);
    // So it goes on for ever; a table that nothing is reclaimed in is full after seven weeks.
    for _ in 0..500 {
        idle_weeks(&mut store, 6);
        let now = now_of(&store);
        reclaims(&mut store, now, 0);
        assert_eq!(branches_of(&store), [(0, 1, 0), (now as u32, OPEN_END, 0)]);
    }
    idle_weeks(&mut store, 6);
    let now = now_of(&store);
    assert_eq!(answers(&mut store, &[mark(), revert(now)])[1], (7, 0, None));
}

#[test]
fn a_row_with_a_kept_record_stays() {
    let mut store = made(64, 16, 8, 8);
    answers(&mut store, &[write(1, b'A')]);
    idle_weeks(&mut store, 3);
    answers(&mut store, &[write(2, b'B')]);
    idle_weeks(&mut store, 3);
    reclaims(&mut store, 12, 0);
    // Its own cut is taken over twice, and that of the open row, which comes to lie in it: at its moment 6.
    assert_eq!(branches_of(&store), [(0, 1, 0), (6, 7, 0), (12, OPEN_END, 6)]);
    assert_eq!(answers(&mut store, &[read(1, 12), read(2, 12)]), [(0, 12, Some((b'A', 0))), (0, 12, Some((b'B', 6)))]);
    // Written again, the old page is freed, and its row goes: the open row takes over what that had taken over.
    idle_weeks(&mut store, 1);
    answers(&mut store, &[write(2, b'C')]);
    reclaims(&mut store, 14, 1);
    assert_eq!(branches_of(&store), [(0, 1, 0), (14, OPEN_END, 0)]);
    assert_eq!(answers(&mut store, &[read(1, 14), read(2, 14)]), [(0, 14, Some((b'A', 0))), (0, 14, Some((b'C', 14)))]);
}

#[test]
fn a_row_with_a_named_moment_stays() {
    let mut store = made(64, 16, 8, 8);
    answers(&mut store, &[write(1, b'A')]);
    idle_weeks(&mut store, 3);
    // Nothing is written in the row from 6 to 7.
    idle_weeks(&mut store, 3);
    answers(&mut store, &[name(7, b'x'), write(1, b'B')]);
    reclaims(&mut store, 12, 0);
    assert_eq!(branches_of(&store), [(0, 1, 0), (6, 7, 0), (12, OPEN_END, 6)]);
    assert_eq!(answers(&mut store, &[read(1, 7), read(1, 6)]), [(0, 7, Some((b'A', 0))), (8, 0, None)]);
    // A revert below the floor, to the named moment. The row that it sealed ends at 12: it goes with a floor above that.
    assert_eq!(answers(&mut store, &[revert(7), read(1, 13)]), [(0, 12, None), (0, 13, Some((b'A', 0)))]);
    reclaims(&mut store, 12, 0);
    assert_eq!(branches_of(&store), [(0, 1, 0), (6, 7, 0), (12, 12, 6), (13, OPEN_END, 7)]);
    reclaims(&mut store, 13, 1);
    assert_eq!(branches_of(&store), [(0, 1, 0), (6, 7, 0), (13, OPEN_END, 7)]);
    // A withdrawal takes no row out; the next reclaim does, to any moment.
    assert_eq!(answers(&mut store, &[withdraw(b'x')]), [(0, 7, None)]);
    assert_eq!(branches_of(&store), [(0, 1, 0), (6, 7, 0), (13, OPEN_END, 7)]);
    assert_eq!(answers(&mut store, &[read(1, 13), read(1, 7)]), [(0, 13, Some((b'A', 0))), (8, 0, None)]);
    reclaims(&mut store, 13, 0);
    assert_eq!(branches_of(&store), [(0, 1, 0), (13, OPEN_END, 0)]);
    assert_eq!(answers(&mut store, &[read(1, 13)]), [(0, 13, Some((b'A', 0)))]);
}

#[test]
fn a_row_that_ends_at_the_floor_stays() {
    let mut store = made(64, 16, 8, 8);
    idle_weeks(&mut store, 4);
    // The row from 4 to 5, and the floor at its start, at its end, and behind it.
    for floor in [4, 5] {
        reclaims(&mut store, floor, 0);
        assert_eq!(branches_of(&store), [(0, 1, 0), (4, 5, 0), (6, 7, 4), (8, OPEN_END, 6)]);
    }
    reclaims(&mut store, 6, 0);
    assert_eq!(branches_of(&store), [(0, 1, 0), (6, 7, 0), (8, OPEN_END, 6)]);
    // With the floor at 8 the first row stays though it ends before, and so it does where it is all that ends before.
    reclaims(&mut store, 8, 0);
    assert_eq!(branches_of(&store), [(0, 1, 0), (8, OPEN_END, 0)]);
    assert_eq!(answers(&mut store, &[mark(), mark()]).len(), 2);
    reclaims(&mut store, 10, 0);
    assert_eq!(branches_of(&store), [(0, 1, 0), (8, OPEN_END, 0)]);
}

#[test]
fn a_cut_into_a_row_that_stays_is_left() {
    // The row from 2 to 5 is cut at 0, and the next one in it, at 3, before its page.
    let mut store = made(64, 16, 8, 8);
    answers(&mut store, &[mark(), revert(0), mark(), mark(), write(1, b'A'), mark(), revert(3)]);
    assert_eq!(branches_of(&store), [(0, 1, 0), (2, 5, 0), (6, OPEN_END, 3)]);
    answers(&mut store, &[name(4, b'x'), mark()]);
    reclaims(&mut store, 7, 0);
    // No record at or below the cut is kept there.
    assert_eq!(branches_of(&store), [(0, 1, 0), (2, 5, 0), (6, OPEN_END, 3)]);
    answers(&mut store, &[withdraw(b'x')]);
    reclaims(&mut store, 7, 1);
    assert_eq!(branches_of(&store), [(0, 1, 0), (6, OPEN_END, 0)]);
}

#[test]
fn children_of_one_row_take_over_its_cut() {
    // The row from 3 to 5 is cut at 1, and has three children: cut at its start, inside, and at its end.
    let mut store = made(64, 16, 8, 8);
    let list = [mark(), mark(), revert(1), mark(), mark(), revert(3), revert(4), revert(5), mark()];
    assert!(answers(&mut store, &list).iter().all(|answer| answer.0 == 0));
    let children = [(6, 6, 3), (7, 7, 4), (8, OPEN_END, 5)];
    assert_eq!(branches_of(&store), [vec![(0, 2, 0), (3, 5, 1)], children.to_vec()].concat());
    reclaims(&mut store, 6, 0);
    assert_eq!(branches_of(&store), [(0, 2, 0), (6, 6, 1), (7, 7, 1), (8, OPEN_END, 1)]);
}

#[test]
fn rows_of_p7_and_p9() {
    let mut store = made(64, 16, 128, 128);
    let list = [write(5, b'A'), mark(), write(5, b'B'), mark(), write(5, b'C'), revert(0), write(5, b'D'), revert(2)];
    answers(&mut store, &list);
    reclaims(&mut store, 3, 2);
    assert_eq!(branches_of(&store), [(0, 2, 0), (3, 3, 0), (4, OPEN_END, 2)]);
    reclaims(&mut store, 4, 1);
    assert_eq!(branches_of(&store), [(0, 2, 0), (4, OPEN_END, 2)]);
}

/// Does the row stay, by the sentence of the document?
fn stays(row: &Branch, floor: u32, named: &[u32], kept: &[Record]) -> bool {
    let holds = |moment: u32| row.start <= moment && moment <= row.end;
    row.start == 0
        || row.end >= floor
        || named.iter().any(|moment| holds(*moment))
        || kept.iter().any(|record| holds(record.moment))
}

/// On tables of any shape: what stays, its starts, ends and work orders; the order in which rows go; the pictures of readable
/// moments.
#[test]
fn rows_go_in_any_order() {
    let draw = &mut Drawn(2);
    let (mut gone, mut taken_over) = (0, 0);
    for _ in 0..3_000 {
        let store = drawn_store(draw);
        let before = rows(&store);
        let floor = before.head.floor + draw.below(u64::from(before.head.now - before.head.floor + 1)) as u32;
        let mut after = store.clone();
        answers(&mut after, &[reclaim(u64::from(floor))]);
        let after = rows(&after);
        let named: Vec<u32> = before.counted_names().iter().map(|name| name.moment).collect();
        let stay = |row: &&Branch| stays(row, floor, &named, after.counted_records());
        let ends = |row: &Branch| (row.start, row.end, row.order);
        let due: Vec<(u32, u32, u32)> = before.counted_branches().iter().filter(stay).map(ends).collect();
        assert_eq!(after.counted_branches().iter().map(ends).collect::<Vec<_>>(), due);

        let leaving = before.counted_branches().iter().filter(|row| !stay(row));
        let mut going: Vec<u32> = leaving.map(|row| row.start).collect();
        for _ in 0..3 {
            let mut other = before.clone();
            for index in (1..going.len()).rev() {
                going.swap(index, draw.below(index as u64 + 1) as usize);
            }
            for start in &going {
                other.take_out(other.branch_holding(*start).expect("a row that is counted"));
            }
            assert_eq!(other.branches, after.branches);
        }
        let same = |row: &&Branch| before.counted_branches().contains(row);
        gone += going.len();
        taken_over += after.counted_branches().iter().filter(|row| !same(row)).count();

        for moment in (floor..=before.head.now).chain(named) {
            for address in 0..5 {
                let found = |store: &Store| store.find(address, moment).map(|row| store.records[row].moment);
                assert_eq!(found(&before), found(&after));
            }
        }
    }
    assert!(gone > 3_000 && taken_over > 1_000, "{gone} rows gone, {taken_over} cuts taken over");
}

// ---------------------------------------------------------------------------------------------
// Document 02, Five: how many record rows the table check reads

/// Three records, a gap at 4 and 5, the floor at 6, now 9, and place 1 free.
fn three_records() -> Areas {
    let mut store = made(6, 2, 4, 4);
    set_head(&mut store, [6, 2, 3, 9, 6, 0]);
    set_branch(&mut store, 0, [0, 3, 0]);
    set_branch(&mut store, 1, [6, OPEN_END, 3]);
    for (index, number) in [1, 0, 2, 1, 3, 0, 4, 9, 3].into_iter().enumerate() {
        set_number_at(&mut store.records, index, number);
    }
    for (place, number) in [2, 0, 1, 3].into_iter().enumerate() {
        set_number_at(&mut store.places, place, number);
    }
    store
}

/// The result of a mark with this space, and the rows read.
fn told_with(areas: &Areas, space: usize) -> (u32, u64) {
    let report = batch(&mut areas.clone(), &mark(), &mut vec![0; space]);
    (report.stop, report.rows_read)
}

fn told(areas: &Areas) -> (u32, u64) {
    told_with(areas, 5)
}

/// The same with these numbers of the record table changed: row, which of its numbers, and what it becomes.
fn told_of(changes: &[(usize, usize, u32)]) -> (u32, u64) {
    let mut store = three_records();
    for (row, number, value) in changes {
        set_number_at(&mut store.records, 3 * row + number, *value);
    }
    told(&store)
}

#[test]
fn rows_read_up_to_the_first_that_breaks_a_rule() {
    assert_eq!(told_of(&[]), (0, 3));
    // Address at A.
    assert_eq!([0, 1, 2].map(|row| told_of(&[(row, 0, 6)])), [(3, 1), (3, 2), (3, 3)]);
    assert_eq!((told_of(&[(2, 0, 5)]), told_of(&[(2, 0, 65_540)])), ((0, 3), (3, 3)));
    // A moment in the gap, at its edges, at the floor, at now, after now.
    assert_eq!([0, 1, 2].map(|row| told_of(&[(row, 1, 4)])), [(3, 1), (3, 2), (3, 3)]);
    assert_eq!([3, 4, 5, 6].map(|moment| told_of(&[(2, 1, moment)])), [(0, 3), (3, 3), (3, 3), (0, 3)]);
    assert_eq!([9, 10, OPEN_END].map(|moment| told_of(&[(1, 1, moment)])), [(0, 3), (3, 2), (3, 2)]);
    // A place past the last; a free one; that of another record.
    assert_eq!([4, 1, 3].map(|place| told_of(&[(0, 2, place)])), [(3, 1); 3]);
    assert_eq!([4, 1, 0].map(|place| told_of(&[(2, 2, place)])), [(3, 3); 3]);
    // The row before again; address falls; moment falls; both in the last row; an address that comes again at a later moment.
    assert_eq!((told_of(&[(1, 1, 0)]), told_of(&[(1, 0, 0)])), ((3, 2), (3, 2)));
    assert_eq!((told_of(&[(2, 0, 1), (2, 1, 2)]), told_of(&[(2, 0, 0)])), ((3, 3), (3, 3)));
    assert_eq!(told_of(&[(2, 0, 1)]), (0, 3));
}

/// Of two rows the earlier one counts, whichever the rules.
#[test]
fn rows_read_of_two_that_break_a_rule() {
    assert_eq!(told_of(&[(0, 0, 6), (2, 1, 10)]), (3, 1));
    let order = (1, 1, 0);
    assert_eq!([0, 1, 2].map(|row| told_of(&[order, (row, 2, 1)])), [(3, 1), (3, 2), (3, 2)]);
}

#[test]
fn rows_read_where_places_are_wrong() {
    let with = |place: usize, number: u32| {
        let mut store = three_records();
        set_number_at(&mut store.places, place, number);
        told(&store)
    };
    // The number in use alone: all rows.
    assert_eq!((with(1, 1), with(1, 4), with(1, 77)), ((3, 3), (3, 3), (3, 3)));
    // The place rows of the records, in the order of the records.
    assert_eq!([2, 0, 3].map(|place| with(place, 0)), [(3, 1), (3, 2), (3, 3)]);
    assert_eq!((with(2, 2), with(0, 1), with(3, 4)), ((3, 1), (3, 2), (3, 3)));
    // Another count: the last place is left over; it is free.
    let mut store = three_records();
    set_number_at(&mut store.head, 2, 2);
    assert_eq!(told(&store), (3, 2));
    set_number_at(&mut store.places, 3, 0);
    assert_eq!(told(&store), (0, 2));
    // No record.
    set_number_at(&mut store.head, 2, 0);
    assert_eq!(told(&store), (3, 0));
    store.places.fill(0);
    assert_eq!(told(&store), (0, 0));
}

#[test]
fn rows_read_where_1_or_2_refuses() {
    for first in [1, 6] {
        let mut store = three_records();
        set_number_at(&mut store.records, 0, first);
        let with = |change: fn(&mut Areas)| {
            let mut areas = store.clone();
            change(&mut areas);
            told(&areas)
        };
        assert_eq!(with(|areas| set_branch(areas, 1, [6, OPEN_END, 4])), (2, 0));
        assert_eq!(with(|areas| set_number_at(&mut areas.head, 4, 5)), (2, 0));
        assert_eq!(with(|areas| set_number_at(&mut areas.head, 5, 2)), (2, 0));
        assert_eq!(with(|areas| set_number_at(&mut areas.head, 4, 10)), (1, 0));
        assert_eq!(with(|areas| set_number_at(&mut areas.head, 2, 5)), (1, 0));
        assert_eq!(with(|areas| areas.records.truncate(47)), (1, 0));
        assert_eq!(with(|areas| areas.slab.push(0)), (1, 0));
    }
}

/// The records counted before the batch, whatever it does and whatever ends it.
#[test]
fn rows_read_before_a_batch() {
    let mut store = three_records();
    assert_eq!((told_with(&store, 5), told_with(&store, 4)), ((0, 3), (14, 3)));
    let mut area = [0; 20];
    for (bytes, due) in [(vec![0x40, 0, 0], 11), (vec![0; 7], 12), (vec![0x40, 0, 0, 0, 0, 0, 1], 13)] {
        let report = batch(&mut store.clone(), &[write(0, b'A'), bytes].concat(), &mut area);
        assert_eq!((report.stop, report.answered, report.rows_read), (due, 1, 3));
    }
    assert_eq!(batch(&mut store, &write(0, b'A'), &mut area).rows_read, 3);
    assert_eq!(batch(&mut store, &reclaim(9), &mut area).rows_read, 4);
    assert_eq!(batch(&mut store, &[], &mut area).rows_read, u64::from(number_at(&store.head, 2)));
}

// ---------------------------------------------------------------------------------------------
// Document 02, Six: the live disk behind the history

/// The live disk: of each page its letter, and its mark.
fn disk_of(areas: &Areas) -> String {
    let pages = areas.disk.chunks_exact(PAGE).zip(&areas.marks);
    let told = |(page, mark): (&[u8], &u8)| {
        assert!(page.iter().all(|byte| *byte == page[0]));
        format!("{}{mark}", page[0] as char)
    };
    pages.map(told).collect::<Vec<_>>().join(" ")
}

/// A live read of every address: d and the letter of a page on the disk, s and that of one in the slab, a dash where there is
/// none. It changes nothing, and its page is that of a read at now, if this is said.
fn live_of(areas: &mut Areas, as_read: bool) -> String {
    let (before, now) = (areas.clone(), now_of(areas));
    let mut list = Vec::new();
    for address in 0..number_at(&areas.head, 0) {
        let told = live_read(areas, address);
        assert_eq!((told.refusal, &before), (0, &*areas));
        let page = page_told(areas, &told);
        assert!(page.is_some() || (told.area, told.offset) == (AREA_NONE, 0));
        let letter = page.map(|page| page[0]);
        if as_read {
            let read = answers(&mut areas.clone(), &[read(u64::from(address), now)])[0];
            assert_eq!((letter, 0), (read.2.map(|found| found.0), read.0));
        }
        list.push(match (told.area, letter) {
            (AREA_DISK, Some(letter)) => format!("d{}", letter as char),
            (AREA_SLAB, Some(letter)) => format!("s{}", letter as char),
            _ => "-".to_string(),
        });
    }
    list.join(" ")
}

/// An accepted copying step: how many pages it brought to date. It changes nothing but live disk and marks.
fn step(areas: &mut Areas, budget: u32) -> u64 {
    let before = areas.clone();
    let told = copy_step(areas, budget);
    assert_eq!(told.refusal, 0);
    assert_eq!(Areas { disk: areas.disk.clone(), marks: areas.marks.clone(), ..before }, *areas);
    told.copied
}

/// Four pages, of which 0 to 2 are written.
fn a_live_disk() -> Areas {
    let mut store = made(4, 4, 12, 12);
    answers(&mut store, &[write(0, b'A'), write(1, b'B'), write(2, b'C'), mark()]);
    store
}

#[test]
fn a_write_goes_to_both() {
    let mut store = made(4, 4, 12, 12);
    store.marks.copy_from_slice(&[0, 2, 3, 1]);
    answers(&mut store, &[write(0, b'A'), write(1, b'B'), write(2, b'C')]);
    assert_eq!((disk_of(&store), slab_letters(&store)), ("A1 B1 C1 .1".to_string(), "ABC.........".to_string()));
    answers(&mut store, &[write(0, b'D'), write(3, b'E'), mark(), write(3, b'F')]);
    assert_eq!((disk_of(&store), slab_letters(&store)), ("D1 B1 C1 F1".to_string(), "DBCEF.......".to_string()));
    assert_eq!(live_of(&mut store, true), "dD dB dC dF");
}

#[test]
fn a_revert_makes_every_page_stale() {
    let mut store = a_live_disk();
    answers(&mut store, &[write(0, b'D')]);
    assert_eq!(step(&mut store, 1), 1);
    assert_eq!((disk_of(&store), live_of(&mut store, true)), ("D1 B1 C1 .3".to_string(), "dD dB dC -".to_string()));
    // The disk's bytes and the blank marks stay, and live reads go by the stored pages.
    answers(&mut store, &[revert(0)]);
    assert_eq!((disk_of(&store), live_of(&mut store, true)), ("D0 B0 C0 .2".to_string(), "sA sB sC -".to_string()));
    // A write to a stale page, a copying step, and the revert undone while the disk is partly copied.
    answers(&mut store, &[write(2, b'E')]);
    assert_eq!(step(&mut store, 1), 1);
    assert_eq!((disk_of(&store), live_of(&mut store, true)), ("A1 B0 E1 .2".to_string(), "dA sB dE -".to_string()));
    answers(&mut store, &[revert(1)]);
    assert_eq!((disk_of(&store), live_of(&mut store, true)), ("A0 B0 E0 .2".to_string(), "sD sB sC -".to_string()));
    assert_eq!(step(&mut store, 9), 4);
    assert_eq!((disk_of(&store), live_of(&mut store, true)), ("D1 B1 C1 .3".to_string(), "dD dB dC -".to_string()));
}

/// Requests that are no writes and reverts, refused ones, and what stops a batch.
#[test]
fn all_else_leaves_the_live_disk() {
    let mut store = a_live_disk();
    answers(&mut store, &[write(3, b'D'), revert(0), write(1, b'E')]);
    assert_eq!(step(&mut store, 2), 2);
    answers(&mut store, &[write(0, b'F'), mark(), name(0, b'n')]);
    let due = "F1 E1 C1 D0";
    assert_eq!(disk_of(&store), due);
    let leaves = |requests: &[Vec<u8>], refusals: &[u32]| {
        let mut after = store.clone();
        let told: Vec<u32> = answers(&mut after, requests).iter().map(|answer| answer.0).collect();
        assert_eq!((told.as_slice(), disk_of(&after).as_str()), (refusals, due));
    };
    leaves(&[mark(), read(0, 3), reclaim(2), name(2, b'm'), withdraw(b'n')], &[0; 5]);
    leaves(&[write(4, b'x'), revert(4), name(0, b'n'), withdraw(b'x'), read(4, 3), reclaim(5)], &[4, 9, 15, 17, 4, 9]);
    leaves(&[reclaim(3), revert(1), revert(3)], &[0, 8, 9]);
    let mut last = store.clone();
    set_number_at(&mut last.head, 3, OPEN_END);
    assert_eq!(answers(&mut last, &[mark(), revert(0)]), [(10, 0, None), (10, 0, None)]);
    assert_eq!(disk_of(&last), due);
    // Not carried out for want of space: a write, a revert; and what cannot be read.
    for (bytes, stop) in [
        (write(3, b'x'), 14),
        (revert(0), 14),
        (write(3, b'x')[..262].to_vec(), 11),
        (vec![0; 7], 12),
        (packed(5, 1, 0), 13),
    ] {
        let mut after = store.clone();
        assert_eq!(batch(&mut after, &bytes, &mut [0; 4]).stop, stop);
        assert_eq!(after, store);
    }
}

#[test]
fn full_tables_leave_the_live_disk() {
    let mut store = made(2, 1, 1, 2);
    assert_eq!(answers(&mut store, &[write(0, b'A'), write(1, b'B'), mark(), revert(0)])[1], (5, 0, None));
    assert_eq!(disk_of(&store), "A1 .0");
    let mut store = made(2, 1, 2, 1);
    let told = answers(&mut store, &[write(0, b'A'), write(1, b'B'), mark(), revert(0)]);
    assert_eq!((told[1].0, told[3].0, disk_of(&store).as_str()), (6, 7, "A1 .0"));
}

#[test]
fn a_fresh_store_leaves_the_live_disk() {
    let mut store = a_live_disk();
    assert_eq!(step(&mut store, 1), 1);
    assert_eq!(fresh(4, &mut store), 0);
    assert_eq!((disk_of(&store), live_of(&mut store, false)), ("A1 B1 C1 .3".to_string(), "dA dB dC -".to_string()));
    // Made stale by the caller.
    store.marks.copy_from_slice(&[0, 0, 0, 2]);
    assert_eq!(live_of(&mut store, true), "- - - -");
    assert_eq!((step(&mut store, 3), disk_of(&store)), (3, "A3 B3 C3 .2".to_string()));
}

/// Whatever the marks are: of the disk if current, empty if blank; else of the stored pages, whatever the blank mark.
#[test]
fn live_reads_of_each_mark() {
    let mut store = a_live_disk();
    store.disk.fill(b'x');
    for (marks, due) in [([0, 1, 2, 0], "sA dx sC -"), ([2, 3, 0, 2], "sA - sC -"), ([1, 1, 3, 1], "dx dx - dx")] {
        store.marks.copy_from_slice(&marks);
        assert_eq!(live_of(&mut store, false), due);
    }
    let told = [0, 1, 2, 3].map(|address| live_read(&mut store, address));
    let told = told.map(|told| (told.refusal, told.area, told.offset));
    assert_eq!(told, [(0, 1, 0), (0, 1, 256), (0, 0, 0), (0, 1, 768)]);
    store.marks.fill(0);
    assert_eq!(live_read(&mut store, 2), LiveRead { refusal: 0, area: 2, offset: 512 });
    for address in [4, 5, 65_535, 65_536, 65_538, OPEN_END] {
        assert_eq!(live_read(&mut store, address), LiveRead { refusal: 4, area: 0, offset: 0 });
    }
}

#[test]
fn steps_bring_the_lowest_stale_pages_to_date() {
    let mut store = a_live_disk();
    store.disk.fill(b'x');
    store.marks.copy_from_slice(&[2, 1, 0, 2]);
    assert_eq!((step(&mut store, 0), disk_of(&store)), (0, "x2 x1 x0 x2".to_string()));
    assert_eq!((step(&mut store, 1), disk_of(&store)), (1, "A1 x1 x0 x2".to_string()));
    // A page brought to date as blank is counted, and keeps its bytes.
    assert_eq!((step(&mut store, 2), disk_of(&store)), (2, "A1 x1 C1 x3".to_string()));
    assert_eq!((step(&mut store, OPEN_END), disk_of(&store)), (0, "A1 x1 C1 x3".to_string()));
    store.marks.fill(2);
    assert_eq!((step(&mut store, OPEN_END), disk_of(&store)), (4, "A1 B1 C1 x3".to_string()));
}

/// With n at least 1 A divided by n, rounded up, steps leave none stale, whatever comes among them that is no revert.
#[test]
fn so_many_steps_leave_none_stale() {
    for budget in 1..7 {
        let mut store = a_live_disk();
        answers(&mut store, &[write(1, b'D'), revert(0)]);
        for turn in 0..(4 + budget - 1) / budget {
            assert!(store.marks.iter().any(|mark| mark & CURRENT == 0));
            step(&mut store, budget);
            answers(&mut store, &[read(0, 2), mark(), write(u64::from(turn % 2), b'E'), reclaim(2)]);
            live_of(&mut store, true);
        }
        assert!(store.marks.iter().all(|mark| mark & CURRENT != 0), "budget {budget}");
    }
}

/// 18 after 1, 2 and 3, in all three calls; nothing is written, and all record rows were read.
#[test]
fn refusal_18() {
    let sound = {
        let mut store = three_records();
        store.marks.copy_from_slice(&[0, 1, 2, 3, 0, 1]);
        store
    };
    let refused = |areas: &Areas, due: (u32, u64)| {
        let mut after = areas.clone();
        let mut area = [0x77; 300];
        let report = Report { stop: due.0, rows_read: due.1, ..Report::default() };
        assert_eq!(batch(&mut after, &write(0, b'x'), &mut area), report);
        for address in [0, 5, 6, 70_000] {
            assert_eq!(live_read(&mut after, address), LiveRead { refusal: due.0, area: 0, offset: 0 });
        }
        for budget in [0, 1, 6, OPEN_END] {
            assert_eq!(copy_step(&mut after, budget), Step { refusal: due.0, copied: 0 });
        }
        assert!(after == *areas && area == [0x77; 300]);
    };
    assert_eq!(told(&sound), (0, 3));
    let unfit: [fn(&mut Areas); 11] = [
        |areas| areas.disk.clear(),
        |areas| areas.disk.truncate(256 * 6 - 1),
        |areas| areas.disk.truncate(256 * 5),
        |areas| areas.disk.push(0),
        |areas| areas.disk.resize(256 * 7, 0),
        |areas| areas.marks.clear(),
        |areas| areas.marks.truncate(5),
        |areas| areas.marks.push(0),
        |areas| areas.marks[0] = 4,
        |areas| areas.marks[3] = 255,
        |areas| areas.marks[5] = 128,
    ];
    for change in unfit {
        let mut areas = sound.clone();
        change(&mut areas);
        refused(&areas, (18, 3));
        let mut records = areas.clone();
        set_number_at(&mut records.records, 3, 6);
        refused(&records, (3, 2));
        set_branch(&mut records, 1, [6, OPEN_END, 4]);
        refused(&records, (2, 0));
        set_number_at(&mut records.head, 4, 10);
        refused(&records, (1, 0));
    }
    // Disk and marks of another volume size.
    let mut areas = sound.clone();
    areas.disk.truncate(256 * 5);
    areas.marks.truncate(5);
    refused(&areas, (18, 3));
    set_number_at(&mut areas.head, 0, 5);
    assert_eq!(told(&areas), (0, 3));
}

/// Where every page began stale: a live read gives the page of a read at now, and of picture now, after every request and step
/// of any list.
#[test]
fn live_reads_are_reads_at_now() {
    let draw = &mut Drawn(3);
    for _ in 0..400 {
        let mut store = made(5, 6, 12, 12);
        store.marks.fill_with(|| 2 * draw.below(2) as u8);
        let mut pile = pictures::Pile::new(5);
        for _ in 0..60 {
            if draw.below(4) == 0 {
                step(&mut store, draw.below(4) as u32);
            }
            let request = drawn_request_of_six(draw, &store);
            let room = draw.below(5) * 2;
            batch_watched(&mut store, &request, &mut vec![0; room as usize], |request, answer| {
                pile.take(request, answer.refusal != 0);
            });
            live_of(&mut store, true);
            assert_eq!(pile.live_difference(&mut store), None);
        }
    }
}

/// A request that changes something, mostly.
fn drawn_request_of_six(draw: &mut Drawn, store: &Areas) -> Vec<u8> {
    let (now, floor) = (u64::from(number_at(&store.head, 3)), u64::from(number_at(&store.head, 4)));
    let moment = floor + draw.below(now - floor + 1);
    match draw.below(9) {
        0..=3 => write(draw.below(6), b'a' + draw.below(26) as u8),
        4 => mark(),
        5 => revert_by(moment, draw.below(65_536)),
        6 => reclaim(moment),
        7 => name(moment, b'a' + draw.below(3) as u8),
        _ => withdraw(b'a' + draw.below(3) as u8),
    }
}

// ---------------------------------------------------------------------------------------------
// Document 02, Seven: work order on a revert

/// The listing of a moment with ample space: its refusal and its work orders. It changes nothing, and its list is as long as it
/// says; with a byte less, two or none it is 14.
fn listed(areas: &mut Areas, moment: u32) -> (u32, Vec<u32>) {
    let before = areas.clone();
    let mut list = [0x77; 40];
    let told = work_orders(areas, moment, &mut list);
    let length = 2 * told.count as usize;
    assert!(list[length..].iter().all(|byte| *byte == 0x77));
    assert!((told.refusal == 0) == (told.count > 0));
    for space in [0, 1, length.saturating_sub(2), length.saturating_sub(1)] {
        let mut short = [0x77; 40];
        let refusal = if told.refusal == 0 { 14 } else { told.refusal };
        if space < length || told.refusal != 0 {
            assert_eq!(work_orders(areas, moment, &mut short[..space]), Listing { refusal, count: 0 });
        }
        assert_eq!(short, [0x77; 40]);
    }
    let mut exact = vec![0x77; length];
    if told.refusal == 0 {
        assert_eq!((work_orders(areas, moment, &mut exact), &exact[..]), (told, &list[..length]));
    }
    assert_eq!(before, *areas);
    let pairs = list[..length].chunks_exact(2);
    (told.refusal, pairs.map(|pair| u32::from(pair[0]) << 8 | u32::from(pair[1])).collect())
}

fn orders_of(areas: &mut Areas, moment: u32) -> Vec<u32> {
    let (refusal, orders) = listed(areas, moment);
    assert_eq!(refusal, 0);
    orders
}

#[test]
fn a_fresh_store_lists_the_first_row() {
    let mut store = made(6, 3, 2, 2);
    assert_eq!(listed(&mut store, 0), (0, vec![0]));
    assert_eq!(listed(&mut store, 1), (9, vec![]));
    assert_eq!(listed(&mut store, OPEN_END), (9, vec![]));
    assert_eq!(store.branches[..16], [0, 0, 0, 0, 255, 255, 255, 255, 0, 0, 0, 0, 0, 0, 0, 0]);
    assert!(store.branches[16..].iter().all(|byte| *byte == 0));
}

#[test]
fn the_row_of_a_revert_has_its_work_order() {
    let mut store = made(6, 3, 2, 2);
    let told = answers(&mut store, &[mark(), revert_by(0, 0x1234), mark(), revert_by(2, 0xFFFF)]);
    assert_eq!(told, [(0, 0, None), (0, 1, None), (0, 2, None), (0, 3, None)]);
    assert_eq!(store.branches[16..32], [0, 0, 0, 2, 0, 0, 0, 3, 0, 0, 0, 0, 0, 0, 0x12, 0x34]);
    assert_eq!(store.branches[32..48], [0, 0, 0, 4, 255, 255, 255, 255, 0, 0, 0, 2, 0, 0, 0xFF, 0xFF]);
    // The listing: nearest first, high byte first, the first row last.
    let mut list = [0x77; 7];
    assert_eq!(work_orders(&mut store, 4, &mut list), Listing { refusal: 0, count: 3 });
    assert_eq!(list, [0xFF, 0xFF, 0x12, 0x34, 0, 0, 0x77]);
    assert_eq!([0, 1].map(|moment| orders_of(&mut store, moment)), [vec![0], vec![0]]);
    assert_eq!([2, 3].map(|moment| orders_of(&mut store, moment)), [vec![0x1234, 0], vec![0x1234, 0]]);
}

/// Any value of 16 bits, whatever the size of the volume; 13 looks at the spare bits alone.
#[test]
fn any_work_order_is_taken() {
    for order in [0, 1, 5, 6, 7, 255, 256, 32_768, 65_534, 65_535] {
        let mut store = made(6, 2, 2, 2);
        assert_eq!(answers(&mut store, &[mark(), revert_by(0, order)])[1], (0, 1, None));
        assert_eq!(orders_of(&mut store, 2), [order as u32, 0]);
        // Refused: 9, 7; and not carried out for a spare bit, or for want of space.
        let before = store.clone();
        assert_eq!(answers(&mut store, &[revert_by(2, order), revert_by(1, order)]), [(9, 0, None), (7, 0, None)]);
        let mut spare = revert_by(0, order);
        spare[6] |= 1;
        assert_eq!(batch(&mut store, &spare, &mut [0; 9]).stop, 13);
        assert_eq!(batch(&mut store, &revert_by(0, order), &mut [0; 4]).stop, 14);
        assert_eq!(store, before);
    }
    let mut store = made(6, 2, 2, 2);
    let list = [mark(), mark(), reclaim(1), revert_by(0, 9)];
    assert_eq!(answers(&mut store, &list)[3], (8, 0, None));
    set_number_at(&mut store.head, 3, OPEN_END);
    assert_eq!(answers(&mut store, &[revert_by(1, 9)]), [(10, 0, None)]);
    // The address of the others still counts as spare.
    for operation in [2, 5, 6, 7] {
        assert_eq!(stop(&[packed(operation, 1, 0), vec![1; 8]].concat(), 100).stop, 13);
    }
}

/// A side branch, a set-back undone, moments before and behind a cut.
#[test]
fn listings_go_by_the_cuts() {
    let mut store = made(6, 8, 2, 2);
    answers(&mut store, &[mark(), mark(), revert_by(0, 10), mark(), revert_by(2, 20), mark(), revert_by(4, 30)]);
    // Rows: 0 to 2; 3 and 4, cut at 0; 5 and 6, cut at 2; from 7 on, cut at 4.
    assert_eq!(branches_of(&store), [(0, 2, 0), (3, 4, 0), (5, 6, 2), (7, OPEN_END, 4)]);
    let due = [(0, vec![0]), (2, vec![0]), (3, vec![10, 0]), (4, vec![10, 0]), (5, vec![20, 0]), (7, vec![30, 10, 0])];
    for (moment, orders) in due {
        assert_eq!(orders_of(&mut store, moment), orders);
    }
}

/// Of every listing exactly the orders of the rows that stay; who takes over a cut keeps its own work order.
#[test]
fn rows_that_go_leave_the_listings() {
    let mut store = made(6, 8, 4, 4);
    answers(&mut store, &[mark(), revert_by(0, 10), mark(), name(2, b'n'), revert_by(2, 20), mark(), revert_by(4, 30)]);
    answers(&mut store, &[write(1, b'A'), mark(), revert_by(6, 40), mark(), revert_by(8, 50)]);
    let all = [50, 40, 30, 20, 10, 0];
    for moment in 0..11 {
        assert_eq!(orders_of(&mut store, moment), all[5 - moment as usize / 2..]);
    }
    answers(&mut store, &[reclaim(0)]);
    assert_eq!(orders_of(&mut store, 10), all);
    // 20 and 40 go: the row with the page, and the open one, have another cut, and their own work orders.
    reclaims(&mut store, 10, 0);
    assert_eq!(branches_of(&store), [(0, 1, 0), (2, 3, 0), (6, 7, 2), (10, OPEN_END, 6)]);
    assert_eq!(orders_of(&mut store, 10), [50, 30, 10, 0]);
    assert_eq!(orders_of(&mut store, 2), [10, 0]);
    assert_eq!([0, 1, 3, 9, 11].map(|moment| listed(&mut store, moment).0), [8, 8, 8, 8, 9]);
    // A withdrawal changes no listing; the row goes with the next reclaim.
    answers(&mut store, &[withdraw(b'n')]);
    assert_eq!((listed(&mut store, 2).0, orders_of(&mut store, 10)), (8, vec![50, 30, 10, 0]));
    reclaims(&mut store, 10, 0);
    assert_eq!(orders_of(&mut store, 10), [50, 30, 0]);
    assert_eq!(branches_of(&store), [(0, 1, 0), (6, 7, 0), (10, OPEN_END, 6)]);
}

#[test]
fn a_named_moment_below_the_floor_is_listed() {
    let mut store = made(6, 8, 4, 4);
    answers(&mut store, &[mark(), revert_by(0, 10), mark(), name(2, b'n'), revert_by(2, 20), mark(), reclaim(5)]);
    assert_eq!([1, 2, 3, 4, 5, 6].map(|moment| listed(&mut store, moment).0), [8, 0, 8, 8, 0, 9]);
    assert_eq!(orders_of(&mut store, 2), [10, 0]);
    answers(&mut store, &[revert_by(2, 30)]);
    assert_eq!((orders_of(&mut store, 6), orders_of(&mut store, 5)), (vec![30, 10, 0], vec![20, 10, 0]));
}

/// 2 for the first row's work order and for one of more than 16 bits, before 3 and 18 and after 1, in every call; rows past the
/// count hold anything.
#[test]
fn work_orders_of_table_check_2() {
    let sound = {
        let mut store = made(6, 4, 4, 4);
        answers(&mut store, &[write(1, b'A'), mark(), revert_by(0, 65_535), mark(), revert_by(2, 1)]);
        store
    };
    let refused = |areas: &Areas, refusal: u32| {
        let mut after = areas.clone();
        let mut area = [0x77; 300];
        assert_eq!(batch(&mut after, &write(0, b'x'), &mut area), Report { stop: refusal, ..Report::default() });
        assert_eq!(live_read(&mut after, 0), LiveRead { refusal, area: 0, offset: 0 });
        assert_eq!(copy_step(&mut after, 9), Step { refusal, copied: 0 });
        assert_eq!([0, 4, 5].map(|moment| listed(&mut after, moment)), [0; 3].map(|_| (refusal, vec![])));
        assert!(after == *areas && area == [0x77; 300]);
    };
    let orders = [(0, 1), (0, 65_535), (0, 65_536), (1, 65_536), (1, OPEN_END), (2, 65_536), (2, 1 << 31)];
    for (row, order) in orders {
        let mut areas = sound.clone();
        set_order(&mut areas, row, order);
        refused(&areas, 2);
        set_number_at(&mut areas.records, 0, 6);
        refused(&areas, 2);
        areas.marks[0] = 4;
        refused(&areas, 2);
        set_number_at(&mut areas.head, 4, 5);
        refused(&areas, 1);
    }
    let mut areas = sound.clone();
    set_order(&mut areas, 3, OPEN_END);
    assert_eq!((check(&areas), orders_of(&mut areas, 4)), (0, vec![1, 65_535, 0]));
    for order in [0, 65_534, 65_535] {
        set_order(&mut areas, 2, order);
        assert_eq!((check(&areas), orders_of(&mut areas, 4)), (0, vec![order, 65_535, 0]));
    }
}

/// 1, 2, 3, then 8, then 9, then 14; never 18.
#[test]
fn refusals_of_listings() {
    let mut store = made(6, 4, 4, 4);
    answers(&mut store, &[write(1, b'A'), mark(), mark(), mark(), reclaim(2)]);
    assert_eq!([0, 1, 2, 3, 4].map(|moment| listed(&mut store, moment).0), [8, 8, 0, 0, 9]);
    // The live disk is not looked at.
    store.marks[0] = 4;
    store.disk.clear();
    assert_eq!((check(&store), orders_of(&mut store, 2)), (18, vec![0]));
    set_number_at(&mut store.places, 3, 9);
    assert_eq!([1, 2, 4].map(|moment| listed(&mut store, moment).0), [3, 3, 3]);
    store.slab.pop();
    assert_eq!([1, 2, 4].map(|moment| listed(&mut store, moment).0), [1, 1, 1]);
    for length in [0, 12, 15, 17, 24, 60] {
        let mut store = made(6, 4, 4, 4);
        store.branches.resize(length, 0);
        assert_eq!((check(&store), listed(&mut store, 0).0), (1, 1));
        assert_eq!(fresh(6, &mut store), 1);
    }
}

/// The largest list: 4,096 work orders, 8,192 bytes.
#[test]
fn the_largest_list() {
    let mut store = made(1, 4_096, 1, 1);
    let weeks: Vec<Vec<u8>> = (0..4_095).flat_map(|row| [mark(), revert_by(2 * row, 65_535 - row)]).collect();
    assert!(answers(&mut store, &weeks).iter().all(|answer| answer.0 == 0));
    let mut list = vec![0x77; 8_193];
    assert_eq!(work_orders(&mut store, 8_190, &mut list[..8_191]), Listing { refusal: 14, count: 0 });
    assert!(list.iter().all(|byte| *byte == 0x77));
    assert_eq!(work_orders(&mut store, 8_190, &mut list[..8_192]), Listing { refusal: 0, count: 4_096 });
    for row in 0..4_095 {
        assert_eq!(list[2 * row..2 * row + 2], (61_441 + row as u16).to_be_bytes());
    }
    assert_eq!(list[8_190..], [0, 0, 0x77]);
}

/// After every request of any list: a revert's work order stands before what its moment listed, a moment sealed lists as before,
/// and the listing of every other moment that could and can be read changes with a reclaim alone, which leaves the orders of the
/// rows that stay. The pile's listings, which go by the branches that were made, are the same.
#[test]
fn listings_of_any_list() {
    let draw = &mut Drawn(7);
    for _ in 0..300 {
        let mut store = made(5, 8, 12, 12);
        let mut pile = pictures::Pile::new(5);
        for _ in 0..50 {
            let moments: Vec<u32> = pile.readable().into_iter().collect();
            let before: Vec<Vec<u32>> = moments.iter().map(|moment| orders_of(&mut store, *moment)).collect();
            let at = |moment: u32| before[moments.binary_search(&moment).unwrap()].clone();
            let now = pile.now;
            let bytes = drawn_request_of_six(draw, &store);
            let room = draw.below(5) * 2;
            let mut served = None;
            batch_watched(&mut store, &bytes, &mut vec![0; room as usize], |request, answer| {
                pile.take(request, answer.refusal != 0);
                served = Some((request.clone(), answer.refusal));
            });
            assert_eq!(pile.difference(&store), None);
            let readable = pile.readable();
            let reclaimed = matches!(served, Some((Request::Reclaim { .. }, 0)));
            for moment in readable.iter().filter(|moment| moments.contains(moment)) {
                let after = orders_of(&mut store, *moment);
                assert!(reclaimed && after.len() <= at(*moment).len() || after == at(*moment));
            }
            match served {
                Some((Request::Revert { moment, order }, 0)) => {
                    assert_eq!(orders_of(&mut store, now + 1), [vec![order], at(moment)].concat());
                }
                Some((Request::Mark, 0)) => assert_eq!(orders_of(&mut store, now + 1), at(now)),
                _ => assert_eq!(pile.now, now),
            }
        }
    }
}
