//! Record rows that break a rule (document 02, Five). Each case says itself what is due, the refusal and the rows read, so that
//! a wrong reference is found, too.

use crate::draw::*;
use crate::offences::*;
use crate::tables::*;
use crate::{Host, Run};
use reference::*;

/// Rows that break a rule and no other rule, so that a check without this rule gives another answer: of each offence in the
/// first row, a middle one, the last.
type Alone = [[u64; 3]; WAYS];

fn count_alone(alone: &mut Alone, areas: &Areas, row: usize, which: usize) {
    let store = rows(areas);
    let ascends = follows(before(&store, row), store.records[row]);
    let count = store.counted_records().len();
    if ascends != (OFFENCES[which].rule == Rule::Order) && places_where(&store, |k| k != 0).len() == count {
        let at = [row == 0, 0 < row && row + 1 < count, row + 1 == count];
        for (alone, at) in alone[which].iter_mut().zip(at) {
            *alone += u64::from(at);
        }
    }
}

// ---------------------------------------------------------------------------------------------
// One call

/// A batch, the space for its answers, and its result on tables that pass the check.
fn drawn_call(draw: &mut Draw, now: u32) -> (Vec<u8>, usize, u32) {
    let page = draw.bytes(PAGE);
    match draw.below(8) {
        0 => (Vec::new(), 0, 0),
        1 => (mark(), 9, 0),
        2 => ([write(0, &page), mark(), write(0, &page)].concat(), 15, 0),
        3 => (reclaim(u64::from(now)), 5, 0),
        4 => ([write(0, &page), vec![0x40, 0, 0]].concat(), 20, 11),
        5 => ([mark(), write(0, &page), vec![0; 7]].concat(), 20, 12),
        6 => ([write(0, &page), packed(2, 0, 0, 1)].concat(), 20, 13),
        _ => ([write(0, &page), mark()].concat(), 9, 14),
    }
}

/// A live read, a copying step or a listing, for which this is due: 0 or a refusal. A listing does not test 18.
fn another_call(run: &mut Run, draw: &mut Draw, due: u32) {
    let size = u64::from(run.head(0)).clamp(1, u64::from(LARGEST_SIZE));
    match draw.below(4) {
        0 => {
            let any = draw.below(size);
            let address = draw.one_of(&[0, size - 1, any]) as u32;
            assert_eq!(run.live_read(&None, address).refusal, due, "the case says what is due");
            run.compare();
        }
        1 => {
            // On tables of the largest size a page takes long to find that no branch has.
            let most = if due == 0 && size > 1_000 { 300 } else { OPEN_END };
            let budget = drawn_budget(draw, size).min(most);
            assert_eq!(run.copy_step(budget).refusal, due, "the case says what is due");
        }
        2 => {
            let list = draw.bytes(ORDER_BYTES * MOST_BRANCHES);
            let now = run.areas.head.get(12..16).map_or(0, |bytes| number_at(bytes, 0));
            let told = run.work_orders(&None, now, &list).0;
            assert_eq!(told.refusal, if due == 18 { 0 } else { due }, "the case says what is due");
            run.compare();
        }
        _ => {}
    }
}

/// A call on these areas, for which this is due: 0 or a refusal, and the rows read.
pub fn call(run: &mut Run, draw: &mut Draw, areas: Areas, due: (u32, usize)) {
    let (bytes, space, stop) = drawn_call(draw, number_at(&areas.head, 3));
    let area = draw.bytes(space);
    run.lend(areas.clone());
    let (report, after) = run.batch(&bytes, &area, |_, _| {});
    let result = if due.0 == 0 { stop } else { due.0 };
    assert_eq!((report.stop, report.rows_read), (result, due.1 as u64), "the case says what is due");
    another_call(run, draw, due.0);
    if due.0 != 0 {
        assert_eq!((report.answered, report.request_bytes, report.answer_bytes), (0, 0, 0), "nothing is answered");
        assert!(run.areas == areas && after == area, "a refused call writes nothing");
    }
}

// ---------------------------------------------------------------------------------------------
// Cases over a sound store

/// The first two rows, the middle one, the last two.
fn some_rows(count: usize) -> Vec<usize> {
    let mut list: Vec<usize> = [0, 1, count / 2, count.wrapping_sub(2), count.wrapping_sub(1)].to_vec();
    list.retain(|row| *row < count);
    list.sort();
    list.dedup();
    list
}

/// Each offence in this row.
fn one_row(run: &mut Run, draw: &mut Draw, sound: &Areas, row: usize, alone: &mut Alone) {
    for (which, offence) in OFFENCES.iter().enumerate() {
        let mut areas = sound.clone();
        if break_row(&mut areas, row, offence, draw) {
            count_alone(alone, &areas, row, which);
            call(run, draw, areas, (3, row + 1));
        }
    }
}

/// Two rows break a rule: the earlier one counts, whichever the rules. The later one is broken first, so that the earlier one
/// is as it is left.
fn two_rows(run: &mut Run, draw: &mut Draw, sound: &Areas, count: usize) {
    for _ in 0..if count < 2 { 0 } else { 40 } {
        let later = draw.within(1, count as u64 - 1);
        let earlier = if draw.percent(50) { later - 1 } else { draw.below(later) } as usize;
        let mut areas = sound.clone();
        let (one, other) = (any_offence(draw), any_offence(draw));
        if break_row(&mut areas, later as usize, one, draw) && break_row(&mut areas, earlier, other, draw) {
            call(run, draw, areas, (3, earlier + 1));
        }
    }
}

/// The order is broken in this row, and another rule in the row before, in the same row, or in the row behind.
fn order_and_another(run: &mut Run, draw: &mut Draw, sound: &Areas, row: usize, count: usize) {
    let others: Vec<&Offence> = OFFENCES.iter().filter(|offence| offence.rule != Rule::Order).collect();
    for order in OFFENCES.iter().filter(|offence| offence.rule == Rule::Order) {
        for at in row.saturating_sub(1)..(row + 2).min(count) {
            let other = others[draw.below(others.len() as u64) as usize];
            let mut both = [(row, order), (at, other)];
            both.sort_by_key(|(row, _)| std::cmp::Reverse(*row));
            let mut areas = sound.clone();
            if both.iter().all(|(row, offence)| break_row(&mut areas, *row, offence, draw)) {
                call(run, draw, areas, (3, row.min(at) + 1));
            }
        }
    }
}

/// The number of places in use is wrong: all rows are read where none breaks a rule.
fn number_in_use(run: &mut Run, draw: &mut Draw, sound: &Areas, count: usize) {
    let free = places_where(&rows(sound), |k| k == 0);
    for number in [1, count as u32, count as u32 + 1, draw.next() as u32, OPEN_END] {
        let Some(place) = any_of(&free, draw) else { break };
        let mut areas = sound.clone();
        set_number_at(&mut areas.places, place as usize, number.max(1));
        call(run, draw, areas.clone(), (3, count));
        let row = draw.below(count.max(1) as u64) as usize;
        if count > 0 && break_row(&mut areas, row, any_offence(draw), draw) {
            call(run, draw, areas, (3, row + 1));
        }
    }
}

/// Another record count: a place in use is left over; or rows past the count, which are not read, whatever they hold; or a row
/// of zeros is counted, too.
fn another_count(run: &mut Run, draw: &mut Draw, sound: &Areas, count: usize) {
    if count > 0 {
        let last = rows(sound).records[count - 1];
        let mut areas = sound.clone();
        set_number_at(&mut areas.head, 2, count as u32 - 1);
        call(run, draw, areas.clone(), (3, count - 1));
        set_number_at(&mut areas.places, last.place as usize, 0);
        call(run, draw, areas.clone(), (0, count - 1));
        areas.records[RECORD_BYTES * (count - 1)..].fill(0xFF);
        call(run, draw, areas, (0, count - 1));
    }
    if count < sound.records.len() / RECORD_BYTES {
        let mut areas = sound.clone();
        set_record(&mut areas, count, Record { address: 0, moment: 0, place: 0 });
        set_number_at(&mut areas.head, 2, count as u32 + 1);
        call(run, draw, areas, (3, count + 1));
    }
}

/// Moments that a record may have: at the floor and beside it, at now, at the ends of some branches.
fn edge_moments(store: &Store, draw: &mut Draw) -> Vec<u32> {
    let (now, floor) = (store.head.now, store.head.floor);
    let mut moments = vec![floor, floor.saturating_sub(1), floor.saturating_add(1), now];
    for _ in 0..6 {
        let branch = any_of(store.counted_branches(), draw).expect("the first row");
        moments.extend([branch.start, branch.end]);
    }
    moments.retain(|moment| *moment <= now && gaps(store).iter().all(|gap| *moment < gap.0 || gap.1 < *moment));
    moments
}

/// The row has another moment or the last address, and keeps the rules.
fn row_within_the_rules(run: &mut Run, draw: &mut Draw, sound: &Areas, row: usize, count: usize) {
    let store = rows(sound);
    let own = store.records[row];
    let moments = edge_moments(&store, draw).into_iter().map(|moment| Record { moment, ..own });
    for record in moments.chain([Record { address: store.head.size - 1, ..own }]) {
        let in_order =
            follows(before(&store, row), record) && (row + 1 == count || follows(Some(record), store.records[row + 1]));
        if in_order {
            let mut areas = sound.clone();
            set_record(&mut areas, row, record);
            call(run, draw, areas, (0, count));
        }
    }
}

/// The row has a place that was free, which names it.
fn row_in_another_place(run: &mut Run, draw: &mut Draw, sound: &Areas, row: usize, count: usize) {
    let store = rows(sound);
    let own = store.records[row];
    if let Some(place) = any_of(&places_where(&store, |k| k == 0), draw) {
        let mut areas = sound.clone();
        set_record(&mut areas, row, Record { place, ..own });
        set_number_at(&mut areas.places, own.place as usize, 0);
        set_number_at(&mut areas.places, place as usize, row as u32 + 1);
        call(run, draw, areas, (0, count));
    }
}

/// 2 or 1 besides: no row is read, whether one breaks a rule or not.
fn refused_before(run: &mut Run, draw: &mut Draw, sound: &Areas, count: usize) {
    let cases = UNSOUND.iter().map(|make| (2, make)).chain(OUT_OF_RANGE.iter().map(|make| (1, make)));
    for (refusal, make) in cases {
        let mut areas = sound.clone();
        if count > 0 && draw.percent(50) {
            break_row(&mut areas, draw.below(count as u64) as usize, any_offence(draw), draw);
        }
        if refusal == 1 && draw.percent(30) {
            UNSOUND[draw.below(UNSOUND.len() as u64) as usize](&mut areas);
        }
        make(&mut areas);
        call(run, draw, areas, (refusal, 0));
    }
}

/// All of these over the store that is lent, which is sound.
fn cases_over(run: &mut Run, draw: &mut Draw, alone: &mut Alone) {
    let sound = run.areas.clone();
    let count = run.head(2) as usize;
    for _ in 0..4 {
        call(run, draw, sound.clone(), (0, count));
    }
    for row in some_rows(count) {
        one_row(run, draw, &sound, row, alone);
        order_and_another(run, draw, &sound, row, count);
        row_within_the_rules(run, draw, &sound, row, count);
        row_in_another_place(run, draw, &sound, row, count);
    }
    two_rows(run, draw, &sound, count);
    number_in_use(run, draw, &sound, count);
    another_count(run, draw, &sound, count);
    refused_before(run, draw, &sound, count);
}

// ---------------------------------------------------------------------------------------------
// Stores

/// Serves requests, which are accepted.
fn serve(run: &mut Run, bytes: &[u8]) {
    run.batch(bytes, &[0x44; 200], |_, answer| assert_eq!(answer.refusal, 0, "the request is accepted"));
}

fn now(run: &Run) -> u64 {
    u64::from(run.head(3))
}

/// Weeks in which nothing is written: a moment is sealed and set back to. A reclaim later takes their branches out.
fn idle_weeks(run: &mut Run, draw: &mut Draw) {
    for _ in 0..draw.within(2, 3) {
        serve(run, &[mark(), revert(now(run), drawn_order(draw))].concat());
    }
}

fn pages(run: &mut Run, draw: &mut Draw, addresses: &[u64]) {
    let writes: Vec<Vec<u8>> = addresses.iter().map(|address| write(*address, &draw.bytes(PAGE))).collect();
    serve(run, &writes.concat());
}

/// Branches with pages, and between them gaps that a reclaim has left; the floor at the start of the branch behind the last gap,
/// or above it; two branches above the floor. Address 5 is written in each, some moments have names.
fn with_gaps(run: &mut Run, draw: &mut Draw, above: u64) {
    pages(run, draw, &[0, 1, 5, 9]);
    idle_weeks(run, draw);
    pages(run, draw, &[2, 3, 5, 8]);
    serve(run, &[mark(), name(now(run), b"in a row")].concat());
    idle_weeks(run, draw);
    let start = now(run);
    pages(run, draw, &[1, 4, 5]);
    serve(run, &mark());
    pages(run, draw, &[5, 6]);
    serve(run, &reclaim(start + above));
    serve(run, &[mark(), revert(start + above, drawn_order(draw))].concat());
    pages(run, draw, &[3, 5, 7]);
    let store = rows(&run.areas);
    assert!(gaps(&store).len() >= 2, "there are gaps below the floor");
    assert!(store.counted_records().iter().any(|record| record.moment < store.head.floor), "and records");
}

/// Writes at moment after moment until no row is left.
fn fill(run: &mut Run, draw: &mut Draw) {
    for _ in run.head(2) as usize..run.areas.records.len() / RECORD_BYTES {
        let address = draw.below(u64::from(run.head(0)));
        serve(run, &mark());
        pages(run, draw, &[address]);
    }
}

const SHAPES: u64 = 7;

/// A sound store, made by batches or drawn row by row.
fn store_of<'a>(host: &'a mut dyn Host, draw: &mut Draw, shape: u64) -> Run<'a> {
    let places = if shape == 2 { 24 } else { draw.within(20, 28) as usize };
    let sizes = Sizes { size: draw.within(10, 14) as u32, branches: 12, records: 24, places };
    let mut run = Run::fresh_of(host, draw, &sizes);
    match shape {
        0 | 1 => with_gaps(&mut run, draw, shape),
        2 => {
            // No row and no place is left.
            with_gaps(&mut run, draw, 0);
            fill(&mut run, draw);
        }
        3 | 4 => {
            // One record, or none.
            idle_weeks(&mut run, draw);
            let address = draw.below(u64::from(sizes.size));
            pages(&mut run, draw, &[address][..4 - shape as usize]);
            let floor = now(&run);
            serve(&mut run, &reclaim(floor));
        }
        5 => {
            let (branches, records) = (draw.within(3, 700) as usize, draw.within(20, 160) as usize);
            let sizes = Sizes { size: 200, branches, records, places: records + draw.below(4) as usize };
            run.lend(drawn_with_gaps(draw, &sizes));
        }
        _ => {
            let sizes = drawn_sizes(draw);
            run.lend(drawn_sound(draw, &sizes));
        }
    }
    run
}

/// Does this offence need a row before, or leave another number of places in use?
fn is_never_alone(offence: &Offence, at: usize) -> bool {
    at == 0 && (offence.rule == Rule::Order || offence.what == "place row names the row before")
        || offence.what == "place row free"
}

/// Small stores of each shape in turn.
pub fn broken_rows(host: &mut dyn Host, seed: u64, count: u64) {
    let mut alone: Alone = [[0; 3]; WAYS];
    for store in 0..count.max(SHAPES) {
        let draw = &mut Draw::new(seed ^ (store + 1).wrapping_mul(0xB492_B66F_BE98_F273));
        let mut run = store_of(host, draw, store % SHAPES);
        cases_over(&mut run, draw, &mut alone);
    }
    host.end("record rows that break a rule");
    let mut least = [u64::MAX; 3];
    for (offence, alone) in OFFENCES.iter().zip(alone) {
        for at in (0..3).filter(|at| !is_never_alone(offence, *at)) {
            assert!(alone[at] > 0, "each rule is broken alone in each row: {}, {at}", offence.what);
            least[at] = least[at].min(alone[at]);
        }
    }
    host.note(&format!(
        "{} ways to break a rule, each of them the only rule that the row breaks at least {} times in the first row, {} in a \
         middle one, {} in the last",
        WAYS,
        least[0],
        least[1],
        least[2]
    ));
}

/// Tables of the largest size: the number of a row takes more than 16 bits. The third table has gaps, and moments in them.
pub fn broken_rows_of_full_tables(host: &mut dyn Host, seed: u64) {
    for table in 0..3_u64 {
        let draw = &mut Draw::new(seed ^ (table + 1).wrapping_mul(0x9FB2_1C65_1E98_DF25));
        let sizes = Sizes { size: 65_536, branches: 4_096, records: 65_536, places: 65_536 };
        let sound = if table < 2 { drawn_full(draw, &sizes, table) } else { drawn_with_gaps(draw, &sizes) };
        let mut run = Run::new(&mut *host);
        let count = number_at(&sound.head, 2) as usize;
        let offences: Vec<_> = OFFENCES.iter().filter(|offence| table < 2 || offence.rule == Rule::Moment).collect();
        call(&mut run, draw, sound.clone(), (0, count));
        for row in [0, 255, 256, 32_768, count - 2, count - 1] {
            let mut areas = sound.clone();
            while !break_row(&mut areas, row, offences[draw.below(offences.len() as u64) as usize], draw) {}
            call(&mut run, draw, areas, (3, row + 1));
        }
        another_count(&mut run, draw, &sound, count);
    }
    host.end("record rows that break a rule, full tables");
}
