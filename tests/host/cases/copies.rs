//! Copies of a store: head, tables, of the name table the counted rows, and the slab up to the last page in use (document 02,
//! Two and Three). A copy gets a live disk of its own, on which every page is stale (Six).

use crate::draw::*;
use crate::packed::rounds;
use crate::tables::*;
use crate::{drawn_answer_area, list_all, run_batches, Host, Run};
use reference::pictures::Pile;
use reference::*;

#[derive(Default)]
struct Counted {
    copies: u64,
    /// Copies without the end of the slab, and copies with free places before it.
    shorter: u64,
    with_gaps: u64,
    with_names: u64,
    reads: u64,
    pages: u64,
    live_reads: u64,
    listings: u64,
}

/// A read of every address at every readable moment.
fn all_reads(run: &Run) -> Vec<u8> {
    let outlook = run.outlook();
    let mut bytes = Vec::new();
    let named = outlook.names.iter().map(|name| u64::from(name.moment));
    for moment in (outlook.floor..=outlook.now).chain(named.filter(|moment| *moment < outlook.floor)) {
        for address in 0..outlook.size {
            bytes.extend(read(address, moment));
        }
    }
    bytes
}

/// What a copy is laid onto: any bytes, but zeros where place rows are added.
fn drawn_onto(draw: &mut Draw, areas: &Areas, larger: bool) -> Areas {
    let mut added = |most| if larger { draw.within(1, most) as usize } else { 0 };
    let sizes = Sizes {
        size: number_at(&areas.head, 0),
        branches: areas.branches.len() / BRANCH_BYTES + added(5),
        records: areas.records.len() / RECORD_BYTES + added(12),
        places: areas.places.len() / PLACE_BYTES + added(12),
    };
    let mut onto = drawn_areas(draw, &sizes);
    onto.places.fill(0);
    onto
}

/// Reads everything; then from a copy with equal tables, and from one with larger ones; then sends a batch
/// more to each copy, and to the store itself.
fn copy_and_read(run: &mut Run, draw: &mut Draw, pile: &mut Option<Pile>, counted: &mut Counted) {
    let reads = all_reads(run);
    let area = draw.bytes(PAGE_ANSWER_BYTES * reads.len() / 7);
    let read = run.batch_beside(pile, &reads, &area);
    let original = run.areas.clone();

    let mix = &MIXES[draw.below(MIXES.len() as u64) as usize];
    let more = drawn_batch(draw, mix, &mut run.outlook(), 16, 5);
    let more_area = drawn_answer_area(draw, &original, &more);
    let mut after = original.clone();
    let mut answers = more_area.clone();
    let report = batch(&mut after, &more, &mut answers);

    for larger in [false, true] {
        let onto = drawn_onto(draw, &original, larger);
        run.copy_onto(onto);
        let read_of_copy = run.batch_beside(pile, &reads, &area);
        assert!(read_of_copy == read, "the reads of a copy are answered as those of the store");
        counted.live_reads += run.read_all_live(pile);
        counted.listings += list_all(run, draw, pile);
        let served = run.batch(&more, &more_area, |_, _| {});
        if !larger {
            // The slab, the live disk and the name rows that are not counted are the copy's own; all else is as in the store.
            assert!(served == (report, answers.clone()), "a copy answers as the store does");
            let own = run.areas.clone();
            let counted = NAME_ROW_BYTES * run.head(5) as usize;
            let mut names = run.areas.names.clone();
            names[..counted].copy_from_slice(&after.names[..counted]);
            run.host.compare(&Areas { slab: own.slab, disk: own.disk, marks: own.marks, names, ..after.clone() });
        }
        run.other_calls(draw, &None);
        run.lend(original.clone());
        counted.copies += 1;
        counted.reads += read.0.answered;
        counted.pages += (read.0.answer_bytes - ANSWER_BYTES as u64 * read.0.answered) / (DATE_BYTES + PAGE) as u64;
    }
    let places = rows(&original).places;
    let used = places.iter().filter(|place| **place != 0).count();
    counted.shorter += 2 * u64::from(slab_in_use(&original.places) < original.slab.len());
    counted.with_names += 2 * u64::from(!rows(&original).counted_names().is_empty());
    counted.with_gaps += 2 * u64::from(PAGE * used < slab_in_use(&original.places));

    run.batch_beside(pile, &more, &more_area);
    run.other_calls(draw, pile);
}

/// Lists over small stores, copied now and then.
pub fn copies(host: &mut dyn Host, seed: u64, count: u64) {
    let mut counted = Counted::default();
    for list in 0..count {
        let draw = &mut Draw::new(seed ^ (list + 1).wrapping_mul(0xE703_7ED1_A0B4_28DB));
        let size = draw.within(1, 8) as u32;
        let sizes = Sizes { size, ..drawn_sizes(draw) };
        let mut run = Run::fresh_of(host, draw, &sizes);
        let mut pile = Some(Pile::new(size));
        for _ in 0..draw.within(1, 4) {
            if draw.percent(40) {
                rounds(&mut run, draw, &mut pile);
            }
            let batches = draw.below(16);
            run_batches(&mut run, draw, batches, 16, &mut pile);
            if draw.percent(20) {
                rounds(&mut run, draw, &mut pile);
            }
            copy_and_read(&mut run, draw, &mut pile, &mut counted);
        }
        if let Some(what) = pile.as_ref().and_then(|pile| pile.difference(&run.areas)) {
            run.host.pile_differs(&what);
        }
    }
    host.end("copies up to the last page in use");
    host.note(&format!(
        "{} copies, {} of them without the end of the slab, {} with free places before it, {} with names; {} reads, \
         {} pages found; {} live reads; {} listings",
        counted.copies,
        counted.shorter,
        counted.with_gaps,
        counted.with_names,
        counted.reads,
        counted.pages,
        counted.live_reads,
        counted.listings
    ));
}
