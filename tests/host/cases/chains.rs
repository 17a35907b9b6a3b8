//! Set-backs into the branch before (document 02, Four): lists of batches in which branches go that others are cut from, so
//! that a reclaim that takes out another row, or leaves another cut, shows in the branch table.

use crate::draw::*;
use crate::names::Draft;
use crate::tables::Sizes;
use crate::taken_out::{TakenOut, WHAT};
use crate::{Host, Run};
use reference::pictures::Pile;
use reference::*;

/// What a week has beside its set-back.
#[derive(Clone, Copy, PartialEq)]
enum Week {
    /// Nothing; or a page that the set-back undoes.
    Idle,
    /// Nothing at all.
    Empty,
    /// A page at address 0, which is read from then on.
    Page,
    /// A name for a moment of the branch.
    Named,
}

/// A list as it is drawn, and what its reclaims do.
struct List {
    draft: Draft,
    taken_out: TakenOut,
}

impl List {
    /// A week: a moment or more is sealed, and the open branch is left by a set-back into it. The result is the name given.
    fn week(&mut self, draw: &mut Draw, week: Week) -> Option<Name> {
        let draft = &mut self.draft;
        let mut from = u64::from(rows(&draft.areas).counted_branches().last().expect("the open row").start);
        if week == Week::Page {
            from = draft.now();
            draft.add(write(0, &draw.bytes(PAGE)));
        }
        for _ in 0..draw.within(1, 2) {
            draft.add(mark());
        }
        let last = draft.now() - 1;
        let mut given = None;
        if week == Week::Named {
            let moment = draw.within(from, last);
            given = Some(Name { bytes: draft.name(draw, moment), moment: moment as u32 });
        }
        if week == Week::Idle && draw.percent(40) {
            draft.add(write(draw.within(1, draft.outlook().size - 1), &draw.bytes(PAGE)));
        }
        draft.add(revert(draw.within(from, last), drawn_order(draw)));
        given
    }

    fn idle_weeks(&mut self, draw: &mut Draw, least: u64) {
        for _ in 0..draw.within(least, 4) {
            self.week(draw, Week::Idle);
        }
    }

    fn reclaim(&mut self, moment: u64) {
        let before = rows(&self.draft.areas);
        self.taken_out.count(&before, moment as u32, &before.kept_by_every_moment(moment as u32));
        self.draft.add(reclaim(moment));
    }

    /// A reclaim, and the same once more, which changes nothing.
    fn reclaim_twice(&mut self, moment: u64) {
        self.reclaim(moment);
        let once = self.draft.areas.clone();
        self.draft.add(reclaim(moment));
        assert!(self.draft.areas == once, "a second reclaim to the same moment changes nothing");
    }

    fn branches(&self) -> Vec<Branch> {
        rows(&self.draft.areas).counted_branches().to_vec()
    }

    /// Reads everything at the floor, at now, and at named moments.
    fn read_some(&mut self, draw: &mut Draw) {
        let outlook = self.draft.outlook();
        self.draft.read_at(outlook.floor);
        self.draft.read_at(outlook.now);
        self.draft.read_named(draw);
    }

    /// Rows for a page and for a name between rows that go; the floor at the end of a row, and behind it; a set-back below
    /// the floor; the name withdrawn, with which its row goes at the next reclaim; everything written again.
    fn beginning(&mut self, draw: &mut Draw) {
        self.draft.change(draw, 50);
        self.idle_weeks(draw, 2);
        self.week(draw, Week::Page);
        self.idle_weeks(draw, 2);
        let name = self.week(draw, Week::Named).expect("the name given");
        self.idle_weeks(draw, 2);
        self.week(draw, Week::Empty);
        let sealed = self.branches().iter().rev().nth(1).expect("a sealed row").end;
        self.reclaim_twice(u64::from(sealed));
        assert!(self.branches().iter().any(|row| row.end == sealed), "a row that ends at the floor stays");
        self.read_some(draw);
        self.reclaim(u64::from(sealed) + 1);
        assert!(self.branches().iter().all(|row| row.end != sealed), "it goes with a floor above its end");
        if draw.percent(70) {
            self.draft.add(revert(u64::from(name.moment), drawn_order(draw)));
            self.idle_weeks(draw, 1);
            self.reclaim(self.draft.now());
            self.read_some(draw);
        }
        let held = |list: &List| rows(&list.draft.areas).branch_holding(name.moment).is_some();
        self.draft.add(withdraw(&name.bytes));
        assert!(held(self), "a withdrawal takes no row out");
        self.idle_weeks(draw, 0);
        self.reclaim_twice(self.draft.outlook().floor);
        assert!(!held(self), "the next reclaim does");
        self.read_some(draw);
        self.draft.change(draw, 100);
        self.reclaim_twice(self.draft.now());
        self.read_some(draw);
    }

    /// Some weeks more, with a reclaim behind them; or any requests.
    fn round(&mut self, draw: &mut Draw) {
        for _ in 0..draw.within(1, 8) {
            let weeks = [Week::Idle, Week::Idle, Week::Idle, Week::Empty, Week::Page, Week::Named];
            let week = weeks[draw.below(6) as usize];
            self.week(draw, week);
        }
        let outlook = self.draft.outlook();
        match draw.below(4) {
            0 if !outlook.names.is_empty() => {
                let row = outlook.names[draw.below(outlook.names.len() as u64) as usize];
                self.draft.withdraw(draw, row);
                self.draft.add(reclaim(outlook.floor));
            }
            1 if !outlook.names.is_empty() => {
                let row = outlook.names[draw.below(outlook.names.len() as u64) as usize];
                self.draft.add(revert(u64::from(row.moment), drawn_order(draw)));
            }
            2 => {
                let mix = &MIXES[draw.below(MIXES.len() as u64) as usize];
                for _ in 0..draw.within(2, 10) {
                    self.draft.add(drawn_request(draw, mix, &mut self.draft.outlook()));
                }
            }
            _ => {}
        }
        let outlook = self.draft.outlook();
        self.reclaim(draw.within(outlook.floor, outlook.now));
        self.read_some(draw);
    }
}

fn chain_list(host: &mut dyn Host, draw: &mut Draw) -> [u64; WHAT.len()] {
    let size = draw.within(2, 5) as u32;
    let rows = draw.within(40, 60) as usize;
    let sizes = Sizes { size, branches: draw.within(26, 40) as usize, records: rows, places: rows };
    let mut run = Run::fresh_of(host, draw, &sizes);
    let pile = &mut Some(Pile::new(size));
    let mut list = List { draft: Draft::new(&run), taken_out: TakenOut::default() };
    list.beginning(draw);
    list.draft.send(&mut run, draw, pile);
    assert!(list.taken_out.seen.iter().all(|seen| *seen > 0), "every list has each: {:?}", list.taken_out.seen);
    for _ in 0..draw.below(4) {
        list.draft = Draft::new(&run);
        for _ in 0..draw.within(1, 3) {
            list.round(draw);
        }
        list.draft.send(&mut run, draw, pile);
    }
    if let Some(what) = pile.as_ref().and_then(|pile| pile.difference(&run.areas)) {
        run.host.pile_differs(&what);
    }
    list.taken_out.seen
}

/// Lists over small stores.
pub fn chains(host: &mut dyn Host, seed: u64, count: u64) {
    let mut least = [u64::MAX; WHAT.len()];
    for list in 0..count {
        let draw = &mut Draw::new(seed ^ (list + 1).wrapping_mul(0x8CB9_2BA7_2F3D_8DD7));
        let seen = chain_list(host, draw);
        for what in 0..WHAT.len() {
            least[what] = least[what].min(seen[what]);
        }
    }
    host.end("set-backs into the branch before");
    host.note(&format!("{count} lists, and each has at least"));
    for what in 0..WHAT.len() {
        host.note(&format!("  {}: {}", WHAT[what], least[what]));
    }
}
