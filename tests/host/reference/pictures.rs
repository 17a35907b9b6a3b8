//! The pile of pictures of document 01, with the names of document 02, Three, and the work orders of Seven: a whole picture for
//! each moment.
//! It is fed the answered requests and, of each answer, only whether it is a refusal.

use crate::{dated_page, live_read, page_told, Answer, Areas, DatedPage, Name, Request};
use std::collections::BTreeSet;
use std::rc::Rc;

/// For each address no page, or its bytes with the moment of their write, which is their date.
type Picture = Vec<Option<Rc<DatedPage>>>;

/// A branch as the work orders need it: it never forgets which branch it was made from.
struct Made {
    order: u32,
    /// The branch that the revert went back to; the first branch is its own.
    parent: usize,
    /// Its last moment, once it is left.
    last: Option<u32>,
    /// A reclaim has taken its row out.
    gone: bool,
}

pub struct Pile {
    pub now: u32,
    pub floor: u32,
    pub pictures: Vec<Picture>,
    pub held: BTreeSet<(u32, u32)>,
    /// In the order given.
    pub names: Vec<Name>,
    /// Every branch that was ever made, and for each moment the one that it belongs to.
    made: Vec<Made>,
    branch_of: Vec<usize>,
}

impl Pile {
    pub fn new(size: u32) -> Pile {
        Pile {
            now: 0,
            floor: 0,
            pictures: vec![vec![None; size as usize]],
            held: BTreeSet::new(),
            names: Vec::new(),
            made: vec![Made { order: 0, parent: 0, last: None, gone: false }],
            branch_of: vec![0],
        }
    }

    /// Takes one answered request; the result is the answer that the documents claim, if they claim one:
    /// to a read at a readable moment, and to any other request that is accepted.
    pub fn take(&mut self, request: &Request, refused: bool) -> Option<Answer> {
        let accepted = |number| Some(Answer { refusal: 0, number, found: None });
        let before = self.now;
        match request {
            Request::Read { address, moment } => self.read(*address, *moment),
            _ if refused => None,
            Request::Write { address, page } => {
                let written = DatedPage { date: before, page: page.clone() };
                self.pictures[before as usize][*address as usize] = Some(Rc::new(written));
                self.held.insert((*address, before));
                accepted(before)
            }
            Request::Mark => {
                self.add_copy(before);
                self.branch_of.push(self.made.len() - 1);
                accepted(before)
            }
            Request::Revert { moment, order } => {
                self.add_copy(*moment);
                self.add_branch(*moment, *order);
                accepted(before)
            }
            Request::Reclaim { moment } => {
                self.floor = *moment;
                let shown = self.shown();
                let held_before = self.held.len();
                self.held.retain(|pair| shown.contains(pair));
                self.take_branches_out();
                accepted((held_before - self.held.len()) as u32)
            }
            Request::Name { moment, name } => {
                self.names.push(Name { bytes: *name, moment: *moment });
                accepted(*moment)
            }
            Request::Withdraw { name } => {
                let row = self.names.iter().position(|row| row.bytes == *name);
                row.and_then(|row| accepted(self.names.remove(row).moment))
            }
        }
    }

    /// The answer to a read of an address below the size at a readable moment.
    fn read(&self, address: u32, moment: u32) -> Option<Answer> {
        let below_size = (address as usize) < self.pictures[0].len();
        (below_size && self.can_read(moment)).then(|| {
            let found = self.page(address, moment).cloned();
            Answer { refusal: 0, number: moment, found }
        })
    }

    /// Picture now+1 is a copy of the picture of this moment; then now grows by 1.
    fn add_copy(&mut self, moment: u32) {
        let copy = self.pictures[moment as usize].clone();
        self.pictures.push(copy);
        self.now += 1;
    }

    /// The moment that a revert begins belongs to a new branch, made from the branch of the moment that it went back to.
    fn add_branch(&mut self, moment: u32, order: u32) {
        self.made.last_mut().expect("the open branch").last = Some(self.now - 1);
        self.branch_of.push(self.made.len());
        self.made.push(Made { order, parent: self.branch_of[moment as usize], last: None, gone: false });
    }

    /// The rows that a reclaim does not keep (document 02, Four): it keeps the first, those that end at or above the floor, and
    /// those of named moments and held pages.
    fn take_branches_out(&mut self) {
        let moments = self.names.iter().map(|name| name.moment).chain(self.held.iter().map(|(_, moment)| *moment));
        let stays: BTreeSet<usize> = moments.map(|moment| self.branch_of[moment as usize]).collect();
        for branch in 1..self.made.len() {
            let ended = self.made[branch].last.is_some_and(|last| last < self.floor);
            self.made[branch].gone |= ended && !stays.contains(&branch);
            // Those that are gone are passed by, also later: no moment of theirs is readable again.
            let parent = self.made[branch].parent;
            if self.made[parent].gone {
                self.made[branch].parent = self.made[parent].parent;
            }
        }
    }

    /// The work orders of a readable moment: of its branch, of the branch that this was made from, and so on, without those
    /// that are gone.
    pub fn orders(&self, moment: u32) -> Vec<u32> {
        let mut branch = self.branch_of[moment as usize];
        let mut orders = vec![self.made[branch].order];
        while branch != 0 {
            branch = self.made[branch].parent;
            orders.push(self.made[branch].order);
        }
        orders
    }

    pub fn can_read(&self, moment: u32) -> bool {
        (self.floor..=self.now).contains(&moment) || self.names.iter().any(|name| name.moment == moment)
    }

    /// The moments from the floor to now, and the named ones.
    pub fn readable(&self) -> BTreeSet<u32> {
        (self.floor..=self.now).chain(self.names.iter().map(|name| name.moment)).collect()
    }

    /// Address and moment of every page in a readable picture.
    pub fn shown(&self) -> BTreeSet<(u32, u32)> {
        let mut shown = BTreeSet::new();
        for moment in self.readable() {
            for (address, page) in self.pictures[moment as usize].iter().enumerate() {
                if let Some(page) = page {
                    shown.insert((address as u32, page.date));
                }
            }
        }
        shown
    }

    pub fn page(&self, address: u32, moment: u32) -> Option<&DatedPage> {
        self.pictures[moment as usize][address as usize].as_deref()
    }

    /// Compares every live read with picture now, as document 02 claims it in Six where every page began stale: the first
    /// difference, if any.
    pub fn live_difference(&self, areas: &mut Areas) -> Option<String> {
        for address in 0..self.pictures[0].len() as u32 {
            let told = live_read(areas, address);
            let due = self.page(address, self.now).map(|found| &found.page);
            if told.refusal != 0 || page_told(areas, &told).as_ref() != due {
                return Some(format!("live page at address {address}, now {}", self.now));
            }
        }
        None
    }

    /// Compares a store with the pile, as the document claims it after every list: the first
    /// difference, if any.
    pub fn difference(&self, areas: &Areas) -> Option<String> {
        let store = crate::rows(areas);
        if (store.head.now, store.head.floor) != (self.now, self.floor) {
            return Some("now or floor".to_string());
        }
        if store.counted_names() != self.names {
            return Some("names".to_string());
        }
        let mut pairs = BTreeSet::new();
        for record in store.counted_records() {
            if !pairs.insert((record.address, record.moment)) {
                return Some(format!("record {} {} twice", record.address, record.moment));
            }
        }
        if pairs != self.held {
            return Some("held pairs".to_string());
        }
        for moment in self.readable() {
            if store.orders_from(moment) != self.orders(moment) {
                return Some(format!("work orders at moment {moment}"));
            }
            for address in 0..store.head.size {
                let row = store.find(address, moment);
                let found = row.map(|row| dated_page(&store.records[row], &areas.slab));
                if found.as_ref() != self.page(address, moment) {
                    return Some(format!("page or date at address {address}, moment {moment}"));
                }
            }
        }
        None
    }
}
