//! Live disks that do not fit (document 02, Six): 18, after 1, 2 and 3, in every call. Each case says itself what is due, so that a
//! wrong reference is found, too.

use crate::broken::call;
use crate::draw::*;
use crate::offences::*;
use crate::tables::*;
use crate::{Host, Run};
use reference::*;

/// Makes a live disk that fits unfit.
const UNFIT: [fn(&mut Areas, &mut Draw); 20] = [
    |areas, _| areas.disk.clear(),
    |areas, _| areas.disk.truncate(areas.disk.len() - 1),
    |areas, _| areas.disk.truncate(areas.disk.len() - PAGE),
    |areas, _| areas.disk.push(0),
    |areas, _| areas.disk.extend([0; PAGE]),
    |areas, _| areas.disk.extend([0; PAGE - 1]),
    |areas, _| areas.marks.clear(),
    |areas, _| areas.marks.truncate(areas.marks.len() - 1),
    |areas, _| areas.marks.push(0),
    |areas, _| areas.marks.extend([0; 255]),
    |areas, _| {
        // Disk and marks of one page more, or fewer.
        areas.marks.push(CURRENT);
        areas.disk.extend([7; PAGE]);
    },
    |areas, _| {
        areas.marks.pop();
        areas.disk.truncate(areas.disk.len() - PAGE);
    },
    |areas, _| areas.marks[0] = 4,
    |areas, _| areas.marks[0] = 255,
    |areas, _| *middle(areas) = 4,
    |areas, _| *middle(areas) = 255,
    |areas, _| *last(areas) = 4,
    |areas, _| *last(areas) = 255,
    |areas, draw| *last(areas) = draw.within(4, 255) as u8,
    |areas, draw| *any(areas, draw) |= draw.one_of(&[4, 8, 16, 32, 64, 128]) as u8,
];

fn middle(areas: &mut Areas) -> &mut u8 {
    let at = areas.marks.len() / 2;
    &mut areas.marks[at]
}

fn last(areas: &mut Areas) -> &mut u8 {
    areas.marks.last_mut().expect("a page")
}

fn any<'a>(areas: &'a mut Areas, draw: &mut Draw) -> &'a mut u8 {
    let at = draw.below(areas.marks.len() as u64) as usize;
    &mut areas.marks[at]
}

/// A batch, live reads, copying steps and listings on these areas, for which this is due: a refusal, and the rows read. A listing
/// has no use for the live disk: it does not test 18.
pub fn calls(run: &mut Run, draw: &mut Draw, areas: &Areas, due: (u32, usize)) {
    call(run, draw, areas.clone(), due);
    let size = areas.head.get(..4).map_or(0, |bytes| number_at(bytes, 0));
    for address in [0, size.wrapping_sub(1), size, 65_536, OPEN_END] {
        let told = run.live_read(&None, address);
        assert_eq!(told, LiveRead { refusal: due.0, area: AREA_NONE, offset: 0 }, "the case says what is due");
    }
    for budget in [0, 1, size, OPEN_END] {
        assert_eq!(run.copy_step(budget), Step { refusal: due.0, copied: 0 }, "the case says what is due");
    }
    let number = |index: usize| areas.head.get(4 * index..4 * index + 4).map_or(0, |bytes| number_at(bytes, 0));
    for (moment, space) in [(number(3), 2 * MOST_BRANCHES), (number(4), 2), (number(3), 0), (OPEN_END, 9)] {
        let list = draw.bytes(space);
        let (told, after) = run.work_orders(&None, moment, &list);
        let ample = space >= ORDER_BYTES * number(1) as usize && moment <= number(3);
        if due.0 != 18 {
            assert_eq!(told, Listing { refusal: due.0, count: 0 }, "the case says what is due");
        } else if ample {
            assert_eq!(told.refusal, 0, "a listing does not look at the live disk");
        }
        assert!(told.refusal == 0 || after == list, "a refused call writes nothing");
    }
    run.compare();
    assert!(run.areas == *areas, "a refused call writes nothing");
}

/// The live disk does not fit: alone, besides 3 for a row or for the number of places in use, besides 2, besides 1.
fn unfit_over(run: &mut Run, draw: &mut Draw, sound: &Areas, make: fn(&mut Areas, &mut Draw)) {
    let count = number_at(&sound.head, 2) as usize;
    let mut unfit = sound.clone();
    make(&mut unfit, draw);
    calls(run, draw, &unfit, (18, count));

    let mut areas = unfit.clone();
    let row = draw.below(count.max(1) as u64) as usize;
    if count > 0 && break_row(&mut areas, row, any_offence(draw), draw) {
        calls(run, draw, &areas, (3, row + 1));
    }
    let mut areas = unfit.clone();
    if let Some(place) = any_of(&places_where(&rows(sound), |k| k == 0), draw) {
        set_number_at(&mut areas.places, place as usize, 1);
        calls(run, draw, &areas, (3, count));
    }
    let mut areas = unfit.clone();
    UNSOUND[draw.below(UNSOUND.len() as u64) as usize](&mut areas);
    calls(run, draw, &areas, (2, 0));
    let mut areas = unfit;
    OUT_OF_RANGE[draw.below(OUT_OF_RANGE.len() as u64) as usize](&mut areas);
    calls(run, draw, &areas, (1, 0));
}

/// Marks up to 3 fit, whatever the pages are; and so does the live disk of another volume size, if the head has that size.
fn fitting(run: &mut Run, draw: &mut Draw, sound: &Areas) {
    let count = number_at(&sound.head, 2) as usize;
    for mark in 0..=3 {
        let mut areas = sound.clone();
        areas.marks.fill(mark);
        call(run, draw, areas, (0, count));
    }
    let mut areas = sound.clone();
    let size = number_at(&areas.head, 0) + 1;
    set_number_at(&mut areas.head, 0, size);
    if size <= LARGEST_SIZE {
        calls(run, draw, &areas, (18, count));
        areas.disk.extend(draw.bytes(PAGE));
        areas.marks.push(3);
        call(run, draw, areas, (0, count));
    }
}

/// Small stores of any shape.
pub fn unfit_disks(host: &mut dyn Host, seed: u64, count: u64) {
    for store in 0..count {
        let draw = &mut Draw::new(seed ^ (store + 1).wrapping_mul(0xEB44_ACCA_B455_D165));
        let any = draw.within(1, 40);
        let sizes = Sizes { size: draw.one_of(&[1, 2, 5, any]) as u32, ..drawn_sizes(draw) };
        let sound = drawn_sound(draw, &sizes);
        let mut run = Run::new(&mut *host);
        fitting(&mut run, draw, &sound);
        for make in UNFIT {
            unfit_over(&mut run, draw, &sound, make);
        }
    }
    host.end("live disks that do not fit");
    host.note(&format!("{count} stores, each with {} live disks that do not fit", UNFIT.len()));
}

/// The largest live disk.
pub fn unfit_large_disks(host: &mut dyn Host, seed: u64) {
    let draw = &mut Draw::new(seed);
    let sizes = Sizes { size: LARGEST_SIZE, branches: 9, records: 30, places: 30 };
    let sound = drawn_sound(draw, &sizes);
    let count = number_at(&sound.head, 2) as usize;
    let mut run = Run::new(&mut *host);
    for make in UNFIT {
        let mut unfit = sound.clone();
        make(&mut unfit, draw);
        call(&mut run, draw, unfit, (18, count));
        assert_eq!(run.live_read(&None, LARGEST_SIZE - 1).refusal, 18);
        assert_eq!(run.copy_step(OPEN_END).refusal, 18);
    }
    host.end("live disks that do not fit, the largest");
}
