//! A hundred years of weekly setting-back (document 02, Four): each week the operator sets back into the branch of the week
//! before, and each month reclaims, over a branch table of the largest size.

use crate::draw::*;
use crate::tables::Sizes;
use crate::{Host, Run};
use reference::pictures::Pile;
use reference::*;

/// What an operator does beside setting back.
struct Operator {
    what: &'static str,
    /// A page is written every week, and in one week of two another one that the set-back undoes.
    writes: bool,
    /// A state is commissioned every year, by a name; of 32 the oldest is withdrawn.
    names: bool,
    /// How many weeks the floor is behind now.
    behind: u64,
}

const YEAR: u64 = 52;

const OPERATORS: [Operator; 5] = [
    Operator { what: "nothing written, the floor at now", writes: false, names: false, behind: 0 },
    Operator { what: "a state named every year", writes: false, names: true, behind: 0 },
    Operator { what: "a page written every week", writes: true, names: false, behind: 0 },
    Operator { what: "the floor a year behind", writes: false, names: false, behind: YEAR },
    Operator { what: "pages, names, and the floor a year behind", writes: true, names: true, behind: YEAR },
];

/// Every row that was ever made, with the number of rows on the way from it through parents to the first. The rule before
/// Four kept all rows on the way from now.
struct Made(Vec<(Branch, usize)>);

impl Made {
    fn new() -> Made {
        Made(vec![(Branch { start: 0, end: OPEN_END, cut: 0, order: 0 }, 1)])
    }

    /// A revert at now: the way from the new row is one row longer than that from its parent.
    fn revert(&mut self, now: u32, cut: u32) {
        let parent = self.0.partition_point(|(row, _)| row.start <= cut) - 1;
        let way = self.0[parent].1 + 1;
        self.0.last_mut().expect("the open row").0.end = now;
        self.0.push((Branch { start: now + 1, end: OPEN_END, cut, order: 0 }, way));
    }

    /// The rows on the way from now to the first.
    fn way(&self) -> usize {
        self.0.last().expect("the open row").1
    }
}

/// A week of this operator: two moments, one of them sealed by the set-back.
fn requests_of_week(draw: &mut Draw, operator: &Operator, outlook: &Outlook, week: u64) -> Vec<u8> {
    let mut bytes = Vec::new();
    let now = outlook.now;
    if !outlook.names.is_empty() {
        let named = outlook.names[draw.below(outlook.names.len() as u64) as usize];
        bytes.extend(read(draw.below(outlook.size), u64::from(named.moment)));
    }
    if operator.writes {
        bytes.extend(write(draw.below(outlook.size), &draw.bytes(PAGE)));
    }
    bytes.extend(mark());
    if operator.writes && draw.percent(50) {
        bytes.extend(write(draw.below(outlook.size), &draw.bytes(PAGE)));
    }
    if operator.names && week % YEAR == 20 {
        if outlook.names.len() == MOST_NAMES {
            bytes.extend(withdraw(&outlook.names[0].bytes));
        }
        bytes.extend(name(now, &(week / YEAR).to_be_bytes()));
    }
    bytes.extend(revert(now, week % 65_536));
    for _ in 0..2 {
        bytes.extend(read(draw.below(outlook.size), draw.within(outlook.floor, now + 2)));
    }
    if week % 13 % 4 == 3 {
        bytes.extend(reclaim((now + 2).saturating_sub(2 * operator.behind).max(outlook.floor)));
    }
    bytes
}

/// The weeks of one operator; no request is refused. All areas are compared at each reclaim, and the store with the pile.
/// The result: the largest number of rows counted; and by the rule before Four the weeks after which no row is left, if that
/// is so, and the number of rows on the way from now to the first at the end.
fn operate(host: &mut dyn Host, draw: &mut Draw, operator: &Operator, weeks: u64) -> (u32, Option<u64>, usize) {
    let sizes = Sizes { size: 8, branches: MOST_BRANCHES, records: 400, places: 400 };
    let mut run = Run::fresh_of(host, draw, &sizes);
    run.always = false;
    let pile = &mut Some(Pile::new(sizes.size));
    let mut made = Made::new();
    let (mut largest, mut full) = (1, None);
    for week in 0..weeks {
        let outlook = run.outlook();
        let bytes = requests_of_week(draw, operator, &outlook, week);
        largest = largest.max(run.head(1) + 1);
        let (report, answers) = run.batch_beside(pile, &bytes, &[0x44; PAGE_ANSWER_BYTES * 8]);
        assert_eq!(report.request_bytes as usize, bytes.len());
        assert_eq!(refused(&answers[..report.answer_bytes as usize]), 0, "week {week}");
        made.revert(outlook.now as u32 + 1, outlook.now as u32);
        if full.is_none() && made.way() == MOST_BRANCHES {
            full = Some(week + 1);
        }
        if week % 13 % 4 == 3 || week + 1 == weeks {
            run.other_calls(draw, pile);
            run.host.compare(&run.areas);
            if let Some(what) = pile.as_ref().and_then(|pile| pile.difference(&run.areas)) {
                run.host.pile_differs(&what);
            }
        }
    }
    (largest, full, made.way())
}

/// How many of these answers are refusals.
fn refused(answers: &[u8]) -> u64 {
    let (mut at, mut refused) = (0, 0);
    while at < answers.len() {
        refused += u64::from(answers[at] >> 2 != 0);
        at += if answers[at] & 2 != 0 { PAGE_ANSWER_BYTES } else { ANSWER_BYTES };
    }
    refused
}

/// A hundred years are 5,218 weeks.
pub fn weekly(host: &mut dyn Host, seed: u64, weeks: u64) {
    let mut notes = Vec::new();
    for (number, operator) in OPERATORS.iter().enumerate() {
        let draw = &mut Draw::new(seed ^ (number as u64 + 1).wrapping_mul(0xA076_1D64_78BD_642F));
        let (largest, full, way) = operate(host, draw, operator, weeks);
        let before = match full {
            Some(week) => format!("{MOST_BRANCHES} after {week} weeks, and 7 in the next"),
            None => format!("{way} after these weeks"),
        };
        notes.push(format!(
            "{}: at most {largest} of {MOST_BRANCHES} branches counted, no set-back refused; by the rule before Four {before}",
            operator.what
        ));
    }
    host.end(&format!("weekly setting-back, {weeks} weeks for each of {} operators", OPERATORS.len()));
    for note in notes {
        host.note(&note);
    }
}
