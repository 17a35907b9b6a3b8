//! The page history store of document 01, with change requests One to Seven of document 02, written from
//! these documents alone and as plainly as they read. It works on the same byte areas as the library that
//! it is compared with: every number of head and tables is four bytes, most significant first. Each batch
//! turns the bytes into rows, checks them, serves the requests on the rows and turns the rows back into
//! bytes.

/// The end of the branch that is still open.
pub const OPEN_END: u32 = 4_294_967_295;
pub const PAGE: usize = 256;
pub const HEAD_BYTES: usize = 24;
pub const BRANCH_BYTES: usize = 16;
pub const RECORD_BYTES: usize = 12;
pub const PLACE_BYTES: usize = 4;
pub const NAME_BYTES: usize = 8;
pub const NAME_ROW_BYTES: usize = NAME_BYTES + 4;
/// A work order in a list, and the highest that there is.
pub const ORDER_BYTES: usize = 2;
pub const MOST_ORDER: u32 = 65_535;
/// An answer, a found page's date, and an answer with date and page.
pub const ANSWER_BYTES: usize = 5;
pub const DATE_BYTES: usize = 4;
pub const PAGE_ANSWER_BYTES: usize = ANSWER_BYTES + DATE_BYTES + PAGE;
pub const MOST_BRANCHES: usize = 4_096;
pub const MOST_RECORDS: usize = 65_536;
pub const MOST_PLACES: usize = 65_536;
pub const MOST_NAMES: usize = 32;
pub const LARGEST_SIZE: u32 = 65_536;
/// The mark of a page of the live disk: 1 if it is current, plus 2 if it is blank.
pub const CURRENT: u8 = 1;
pub const BLANK: u8 = 2;
/// Where the page of a live read lies: nowhere, on the live disk, in the slab.
pub const AREA_NONE: u32 = 0;
pub const AREA_DISK: u32 = 1;
pub const AREA_SLAB: u32 = 2;

/// With fewer readable moments and fewer records than this a reclaim tries every moment, as the document
/// defines it. Else it goes by branch; `kept_by_branch` says why that is the same.
const FEW_MOMENTS: u32 = 40;
const FEW_RECORDS: u32 = 100;

#[derive(Clone, Copy, Debug, PartialEq, Eq)]
pub struct Head {
    pub size: u32,
    pub branch_count: u32,
    pub record_count: u32,
    pub now: u32,
    pub floor: u32,
    pub name_count: u32,
}

#[derive(Clone, Copy, Debug, PartialEq, Eq)]
pub struct Branch {
    pub start: u32,
    pub end: u32,
    pub cut: u32,
    /// The work order that the revert quoted which made this branch.
    pub order: u32,
}

#[derive(Clone, Copy, Debug, PartialEq, Eq)]
pub struct Record {
    pub address: u32,
    pub moment: u32,
    pub place: u32,
}

/// A row of the name table: a name, and the moment that it stands for.
#[derive(Clone, Copy, Debug, PartialEq, Eq)]
pub struct Name {
    pub bytes: [u8; NAME_BYTES],
    pub moment: u32,
}

/// The lent areas: the six of the store, the live disk, and its marks.
#[derive(Clone, Debug, PartialEq, Eq, Default)]
pub struct Areas {
    pub head: Vec<u8>,
    pub branches: Vec<u8>,
    pub records: Vec<u8>,
    pub places: Vec<u8>,
    pub names: Vec<u8>,
    pub slab: Vec<u8>,
    pub disk: Vec<u8>,
    pub marks: Vec<u8>,
}

/// What a batch reports.
#[derive(Clone, Copy, Debug, PartialEq, Eq, Default)]
pub struct Report {
    pub stop: u32,
    pub answered: u64,
    pub request_bytes: u64,
    pub answer_bytes: u64,
    pub rows_read: u64,
}

/// What a live read tells: a refusal, or 0 and where the page lies. Without a page area and offset are 0.
#[derive(Clone, Copy, Debug, PartialEq, Eq, Default)]
pub struct LiveRead {
    pub refusal: u32,
    pub area: u32,
    pub offset: u64,
}

/// What a copying step tells: a refusal, or 0 and how many pages it brought to date.
#[derive(Clone, Copy, Debug, PartialEq, Eq, Default)]
pub struct Step {
    pub refusal: u32,
    pub copied: u64,
}

/// What a listing tells: a refusal, or 0 and how many work orders the list has.
#[derive(Clone, Copy, Debug, PartialEq, Eq, Default)]
pub struct Listing {
    pub refusal: u32,
    pub count: u64,
}

#[derive(Clone, Debug, PartialEq, Eq)]
pub enum Request {
    Write { address: u32, page: Vec<u8> },
    Mark,
    Revert { moment: u32, order: u32 },
    Read { address: u32, moment: u32 },
    Reclaim { moment: u32 },
    Name { moment: u32, name: [u8; NAME_BYTES] },
    Withdraw { name: [u8; NAME_BYTES] },
}

/// A page with its date: the moment at which it was written.
#[derive(Clone, Debug, PartialEq, Eq)]
pub struct DatedPage {
    pub date: u32,
    pub page: Vec<u8>,
}

/// An answer before it is written out: a refusal has number 0 and no page.
#[derive(Clone, Debug, PartialEq, Eq)]
pub struct Answer {
    pub refusal: u32,
    pub number: u32,
    pub found: Option<DatedPage>,
}

/// For each counted record row and each counted branch row: does a reclaim keep it?
#[derive(Clone, Debug, PartialEq, Eq)]
pub struct Kept {
    pub records: Vec<bool>,
    pub branches: Vec<bool>,
}

/// What an accepted request changes.
pub enum Change {
    Nothing,
    Write { address: u32, page: Vec<u8> },
    Mark,
    Revert { cut: u32, order: u32 },
    Reclaim { floor: u32, kept: Kept },
    Name { name: Name },
    Withdraw { row: usize },
}

// ---------------------------------------------------------------------------------------------
// Numbers and rows

pub fn number_at(bytes: &[u8], index: usize) -> u32 {
    let at = 4 * index;
    u32::from_be_bytes([bytes[at], bytes[at + 1], bytes[at + 2], bytes[at + 3]])
}

pub fn set_number_at(bytes: &mut [u8], index: usize, value: u32) {
    bytes[4 * index..4 * index + 4].copy_from_slice(&value.to_be_bytes());
}

/// The name that these bytes begin with.
pub fn name_at(bytes: &[u8]) -> [u8; NAME_BYTES] {
    let mut name = [0; NAME_BYTES];
    name.copy_from_slice(&bytes[..NAME_BYTES]);
    name
}

/// The store as rows. The tables have all rows lent; those past a count are carried along unread.
#[derive(Clone, Debug, PartialEq, Eq)]
pub struct Store {
    pub head: Head,
    pub branches: Vec<Branch>,
    pub records: Vec<Record>,
    pub places: Vec<u32>,
    pub names: Vec<Name>,
    pub slab: Vec<u8>,
    pub disk: Vec<u8>,
    pub marks: Vec<u8>,
}

fn lengths_allowed(areas: &Areas) -> bool {
    let whole = areas.head.len() == HEAD_BYTES
        && areas.branches.len() % BRANCH_BYTES == 0
        && areas.records.len() % RECORD_BYTES == 0
        && areas.places.len() % PLACE_BYTES == 0;
    let branches = areas.branches.len() / BRANCH_BYTES;
    let records = areas.records.len() / RECORD_BYTES;
    let places = areas.places.len() / PLACE_BYTES;
    whole
        && (1..=MOST_BRANCHES).contains(&branches)
        && (1..=MOST_RECORDS).contains(&records)
        && (1..=MOST_PLACES).contains(&places)
        && areas.names.len() == NAME_ROW_BYTES * MOST_NAMES
        && areas.slab.len() == PAGE * places
}

/// Reads the areas, whose lengths are allowed, as rows.
fn rows_of(areas: &mut Areas) -> Store {
    let head = Head {
        size: number_at(&areas.head, 0),
        branch_count: number_at(&areas.head, 1),
        record_count: number_at(&areas.head, 2),
        now: number_at(&areas.head, 3),
        floor: number_at(&areas.head, 4),
        name_count: number_at(&areas.head, 5),
    };
    let mut branches = Vec::new();
    for row in areas.branches.chunks_exact(BRANCH_BYTES) {
        branches.push(Branch {
            start: number_at(row, 0),
            end: number_at(row, 1),
            cut: number_at(row, 2),
            order: number_at(row, 3),
        });
    }
    let mut records = Vec::new();
    for row in areas.records.chunks_exact(RECORD_BYTES) {
        records.push(Record { address: number_at(row, 0), moment: number_at(row, 1), place: number_at(row, 2) });
    }
    let mut places = Vec::new();
    for row in areas.places.chunks_exact(PLACE_BYTES) {
        places.push(number_at(row, 0));
    }
    let mut names = Vec::new();
    for row in areas.names.chunks_exact(NAME_ROW_BYTES) {
        names.push(Name { bytes: name_at(row), moment: number_at(row, 2) });
    }
    // Slab and live disk are handed over and back, since they may be large.
    let slab = std::mem::take(&mut areas.slab);
    let disk = std::mem::take(&mut areas.disk);
    let marks = std::mem::take(&mut areas.marks);
    Store { head, branches, records, places, names, slab, disk, marks }
}

/// Hands slab and live disk back.
fn hand_back(store: Store, areas: &mut Areas) {
    areas.slab = store.slab;
    areas.disk = store.disk;
    areas.marks = store.marks;
}

fn bytes_of(store: Store, areas: &mut Areas) {
    set_number_at(&mut areas.head, 0, store.head.size);
    set_number_at(&mut areas.head, 1, store.head.branch_count);
    set_number_at(&mut areas.head, 2, store.head.record_count);
    set_number_at(&mut areas.head, 3, store.head.now);
    set_number_at(&mut areas.head, 4, store.head.floor);
    set_number_at(&mut areas.head, 5, store.head.name_count);
    for (row, branch) in areas.branches.chunks_exact_mut(BRANCH_BYTES).zip(&store.branches) {
        set_number_at(row, 0, branch.start);
        set_number_at(row, 1, branch.end);
        set_number_at(row, 2, branch.cut);
        set_number_at(row, 3, branch.order);
    }
    for (row, record) in areas.records.chunks_exact_mut(RECORD_BYTES).zip(&store.records) {
        set_number_at(row, 0, record.address);
        set_number_at(row, 1, record.moment);
        set_number_at(row, 2, record.place);
    }
    for (row, place) in areas.places.chunks_exact_mut(PLACE_BYTES).zip(&store.places) {
        set_number_at(row, 0, *place);
    }
    for (row, name) in areas.names.chunks_exact_mut(NAME_ROW_BYTES).zip(&store.names) {
        row[..NAME_BYTES].copy_from_slice(&name.bytes);
        set_number_at(row, 2, name.moment);
    }
    hand_back(store, areas);
}

/// The page of a record, dated with the record's moment.
pub fn dated_page(record: &Record, slab: &[u8]) -> DatedPage {
    let from = PAGE * record.place as usize;
    DatedPage { date: record.moment, page: slab[from..from + PAGE].to_vec() }
}

/// Up to which byte the slab is in use, by the bytes of a place table: 256 times the last place that is
/// not free, plus 256; 0 if every place is free. Bytes past the last whole row are not looked at.
pub fn slab_in_use(places: &[u8]) -> usize {
    let mut end = 0;
    for (place, row) in places.chunks_exact(PLACE_BYTES).enumerate() {
        if number_at(row, 0) != 0 {
            end = PAGE * (place + 1);
        }
    }
    end
}

// ---------------------------------------------------------------------------------------------
// A fresh store

/// Makes a fresh store in the areas; the result is 0, or refusal 1 with nothing changed. Live disk and marks are left.
pub fn fresh(size: u32, areas: &mut Areas) -> u32 {
    if !(1..=LARGEST_SIZE).contains(&size) || !lengths_allowed(areas) {
        return 1;
    }
    areas.head.fill(0);
    areas.branches.fill(0);
    areas.records.fill(0);
    areas.places.fill(0);
    areas.names.fill(0);
    set_number_at(&mut areas.head, 0, size);
    set_number_at(&mut areas.head, 1, 1);
    set_number_at(&mut areas.branches, 1, OPEN_END);
    0
}

// ---------------------------------------------------------------------------------------------
// Sound tables

impl Store {
    pub fn counted_branches(&self) -> &[Branch] {
        &self.branches[..self.head.branch_count as usize]
    }

    pub fn counted_records(&self) -> &[Record] {
        &self.records[..self.head.record_count as usize]
    }

    pub fn counted_names(&self) -> &[Name] {
        &self.names[..self.head.name_count as usize]
    }

    fn head_allowed(&self) -> bool {
        let head = &self.head;
        (1..=LARGEST_SIZE).contains(&head.size)
            && 1 <= head.branch_count
            && head.branch_count as usize <= self.branches.len()
            && head.record_count as usize <= self.records.len()
            && head.name_count as usize <= MOST_NAMES
            && head.floor <= head.now
    }

    fn branches_sound(&self) -> bool {
        let rows = self.counted_branches();
        let last = rows.len() - 1;
        // The first row starts at 0 with cut 0.
        if rows[0].start != 0 || rows[0].cut != 0 {
            return false;
        }
        // The first row has work order 0, and no row has more than 65,535.
        if rows[0].order != 0 || rows.iter().any(|row| row.order > MOST_ORDER) {
            return false;
        }
        for i in 0..rows.len() {
            // Each start is at most its end.
            if rows[i].start > rows[i].end {
                return false;
            }
            // Exactly the last counted row is still open.
            if (rows[i].end == OPEN_END) != (i == last) {
                return false;
            }
            if i > 0 {
                // Each start is above the end before it.
                let before = rows[i - 1];
                if rows[i].start <= before.end {
                    return false;
                }
                // It follows the previous end by one or is at most the floor.
                if rows[i].start != before.end + 1 && rows[i].start > self.head.floor {
                    return false;
                }
                // The cut lies inside an earlier row, ends included.
                if !rows[..i].iter().any(|row| row.start <= rows[i].cut && rows[i].cut <= row.end) {
                    return false;
                }
            }
        }
        // The open row's start is at most now.
        rows[last].start <= self.head.now
    }

    /// The branch rows are sound.
    fn names_sound(&self) -> bool {
        let rows = self.counted_names();
        for i in 0..rows.len() {
            // No name twice.
            if rows[..i].iter().any(|row| row.bytes == rows[i].bytes) {
                return false;
            }
            // The moment is below now and inside a row.
            if rows[i].moment >= self.head.now || self.branch_holding(rows[i].moment).is_none() {
                return false;
            }
        }
        true
    }

    /// Does the counted record row break a record rule, against the row before or by itself?
    fn record_breaks(&self, row: usize) -> bool {
        let rows = self.counted_records();
        let record = rows[row];
        // Strictly ascending by address, then moment.
        if row > 0 && (rows[row - 1].address, rows[row - 1].moment) >= (record.address, record.moment) {
            return true;
        }
        if record.address >= self.head.size {
            return true;
        }
        if record.moment > self.head.now || self.branch_holding(record.moment).is_none() {
            return true;
        }
        record.place as usize >= self.places.len() || self.places[record.place as usize] as usize != row + 1
    }

    fn places_in_use(&self) -> usize {
        self.places.iter().filter(|place| **place != 0).count()
    }

    /// The live disk has 256 bytes for each page, and a mark for each, none above 3.
    fn disk_fits(&self) -> bool {
        let size = self.head.size as usize;
        self.disk.len() == PAGE * size && self.marks.len() == size && self.marks.iter().all(|mark| *mark <= 3)
    }

    /// The table checks: 0, or the refusal 1, 2 or 3, the first in this order that holds; and how many record rows were
    /// read (document 02, Five): up to and including the first that breaks a rule, else all; 0 where 1 or 2 refuses.
    fn check_tables(&self) -> (u32, usize) {
        if !self.head_allowed() {
            return (1, 0);
        }
        if !self.branches_sound() || !self.names_sound() {
            return (2, 0);
        }
        let all = self.counted_records().len();
        match (0..all).find(|row| self.record_breaks(*row)) {
            Some(row) => (3, row + 1),
            None if self.places_in_use() != all => (3, all),
            None => (0, all),
        }
    }

    /// The check before a call that is lent the live disk: the table checks, then 18.
    fn check(&self) -> (u32, usize) {
        match self.check_tables() {
            (0, all) if !self.disk_fits() => (18, all),
            checked => checked,
        }
    }

    // -----------------------------------------------------------------------------------------
    // Names

    /// Does the moment have a name?
    pub fn is_named(&self, moment: u32) -> bool {
        self.counted_names().iter().any(|name| name.moment == moment)
    }

    /// The counted name row of this name.
    fn row_of_name(&self, name: &[u8; NAME_BYTES]) -> Option<usize> {
        self.counted_names().iter().position(|row| row.bytes == *name)
    }

    fn give(&mut self, name: Name) {
        self.names[self.head.name_count as usize] = name;
        self.head.name_count += 1;
    }

    /// The names behind it close the gap, and the row that is vacated becomes zero.
    fn withdraw(&mut self, row: usize) {
        let count = self.head.name_count as usize;
        self.names.copy_within(row + 1..count, row);
        self.names[count - 1] = Name { bytes: [0; NAME_BYTES], moment: 0 };
        self.head.name_count -= 1;
    }

    // -----------------------------------------------------------------------------------------
    // Reading

    /// The counted branch row that holds the moment. The rows are sound, so they ascend and do not
    /// overlap: the only row that can hold it is the last whose start is at most the moment.
    pub fn branch_holding(&self, moment: u32) -> Option<usize> {
        let rows = self.counted_branches();
        let started = rows.partition_point(|row| row.start <= moment);
        if started > 0 && moment <= rows[started - 1].end {
            Some(started - 1)
        } else {
            None
        }
    }

    /// The counted record rows of an address, which lie together since the rows ascend by address.
    fn rows_of_address(&self, address: u32) -> std::ops::Range<usize> {
        let rows = self.counted_records();
        let from = rows.partition_point(|record| record.address < address);
        let to = rows.partition_point(|record| record.address <= address);
        from..to
    }

    /// The latest of these record rows from one moment to another, both included. The rows ascend by
    /// moment, so it is the last that fits.
    fn latest(&self, rows: std::ops::Range<usize>, from: u32, to: u32) -> Option<usize> {
        let mut latest = None;
        for row in rows {
            if from <= self.records[row].moment && self.records[row].moment <= to {
                latest = Some(row);
            }
        }
        latest
    }

    /// The record row that a read gives (document 004, Figure 1). The moment lies inside a counted row.
    pub fn find(&self, address: u32, moment: u32) -> Option<usize> {
        let rows = self.rows_of_address(address);
        let mut moment = moment;
        loop {
            let branch = self.branch_holding(moment).expect("the moment lies inside a counted row");
            let found = self.latest(rows.clone(), self.branches[branch].start, moment);
            if found.is_some() || branch == 0 {
                return found;
            }
            moment = self.branches[branch].cut;
        }
    }

    /// The work orders from the branch of the moment up to and with the first row, nearest first. A branch's cut lies inside an
    /// earlier row, so each row of the way is met in one walk up the table: the row that holds the moment, then the row that holds
    /// its cut, and so on. The moment lies inside a counted row.
    pub fn orders_from(&self, moment: u32) -> Vec<u32> {
        let mut orders = Vec::new();
        let mut sought = moment;
        for row in self.counted_branches().iter().rev() {
            if row.start <= sought && sought <= row.end {
                orders.push(row.order);
                sought = row.cut;
            }
        }
        orders
    }

    /// The refusal of a listing at this moment, or 0.
    fn listing_refusal(&self, moment: u32) -> u32 {
        if moment < self.head.floor && !self.is_named(moment) {
            8
        } else if moment > self.head.now {
            9
        } else {
            0
        }
    }

    // -----------------------------------------------------------------------------------------
    // Reclaiming

    /// What a reclaim keeps, as the documents define it: each record that some read from the floor to
    /// now, or at a named moment, gives; and the branches by these records.
    pub fn kept_by_every_moment(&self, floor: u32) -> Kept {
        let records = self.counted_records();
        let mut kept = Kept { records: vec![false; records.len()], branches: Vec::new() };
        let named = self.counted_names().iter().map(|name| name.moment);
        for moment in (floor..=self.head.now).chain(named) {
            for record in records {
                if let Some(row) = self.find(record.address, moment) {
                    kept.records[row] = true;
                }
            }
        }
        kept.branches = self.kept_branches(floor, &kept.records);
        kept
    }

    /// The branches that a reclaim keeps, which keeps these records (document 02, Four): the first row, rows that
    /// end at or above the floor, rows that hold a named moment, and rows that hold a kept record.
    fn kept_branches(&self, floor: u32, records: &[bool]) -> Vec<bool> {
        let holding = |moment| self.branch_holding(moment).expect("the moment lies inside a counted row");
        let rows = self.counted_branches();
        let mut keep: Vec<bool> = rows.iter().map(|row| row.start == 0 || row.end >= floor).collect();
        let named = self.counted_names().iter().map(|name| name.moment);
        for moment in named {
            keep[holding(moment)] = true;
        }
        for (row, record) in self.counted_records().iter().enumerate() {
            if records[row] {
                keep[holding(record.moment)] = true;
            }
        }
        keep
    }

    fn parent(&self, branch: usize) -> usize {
        self.branch_holding(self.branches[branch].cut).expect("the cut lies inside an earlier row")
    }

    /// The same without trying every moment. A branch with readable moments has a first one: the
    /// floor, or its start where that is above the floor. Take a read at a readable moment m, in
    /// branch b, whose first readable moment is f, and let r be the latest record at the address from
    /// b's start to m.
    /// - r is at the floor or later: the read at r's own moment, which is readable, gives r too. And
    ///   every record at the floor or later is given by the read at its own moment.
    /// - r is below the floor: then f is the floor, and no record lies between r and m, so the read
    ///   at f gives r too.
    /// - there is no r: then there is none from b's start to f either, and both reads go on in the
    ///   parent with the same cut.
    /// So it is enough to keep the records at the floor or later, and what reads at the first readable
    /// moments give. What reads at named moments give is kept besides, each for itself.
    ///
    /// A read searches its branch, the parent of that, and so on to the first row, each from its start up
    /// to a moment: the first readable moment in b, the cut of the child in the others. A parent's part lies
    /// before its child's, so the first record that the search finds is the latest of all records that lie
    /// in one of these parts.
    pub fn kept_by_branch(&self, floor: u32) -> Kept {
        let records = self.counted_records();
        let branches = self.counted_branches();
        let mut kept = Kept { records: vec![false; records.len()], branches: Vec::new() };
        let holding = |moment| self.branch_holding(moment).expect("the moment lies inside a counted row");
        let branch_of: Vec<usize> = records.iter().map(|record| holding(record.moment)).collect();
        let first = branches.iter().filter(|row| row.end >= floor).map(|row| row.start.max(floor));
        let named = self.counted_names().iter().map(|name| name.moment);
        for moment in first.chain(named) {
            let up_to = self.searched_up_to(holding(moment), moment);
            for row in 0..records.len() {
                let searched = |row: usize| up_to[branch_of[row]].is_some_and(|to| records[row].moment <= to);
                let last_searched = searched(row)
                    && !(row + 1..records.len())
                        .take_while(|later| records[*later].address == records[row].address)
                        .any(searched);
                if last_searched {
                    kept.records[row] = true;
                }
            }
        }
        for (row, record) in records.iter().enumerate() {
            if record.moment >= floor {
                kept.records[row] = true;
            }
        }
        kept.branches = self.kept_branches(floor, &kept.records);
        kept
    }

    /// For each branch: up to which moment a read at this moment, in this branch, searches it, if at all.
    fn searched_up_to(&self, branch: usize, moment: u32) -> Vec<Option<u32>> {
        let mut searched = vec![None; self.counted_branches().len()];
        searched[branch] = Some(moment);
        let mut branch = branch;
        while branch != 0 {
            let parent = self.parent(branch);
            searched[parent] = Some(self.branches[branch].cut);
            branch = parent;
        }
        searched
    }

    fn kept(&self, floor: u32) -> Kept {
        if self.head.now - floor < FEW_MOMENTS && self.head.record_count < FEW_RECORDS {
            self.kept_by_every_moment(floor)
        } else {
            self.kept_by_branch(floor)
        }
    }

    /// Where a row goes, each child takes over its cut, and keeps its own work order: the rows go one by one, newest first, and the
    /// child of a child that has gone is a child by then. (Any order gives the same rows.) The rows behind close the gap, and the
    /// row that is vacated becomes zero.
    pub fn take_out(&mut self, row: usize) {
        let gone = self.branches[row];
        let count = self.head.branch_count as usize;
        for child in &mut self.branches[row + 1..count] {
            if gone.start <= child.cut && child.cut <= gone.end {
                child.cut = gone.cut;
            }
        }
        self.branches.copy_within(row + 1..count, row);
        self.branches[count - 1] = Branch { start: 0, end: 0, cut: 0, order: 0 };
        self.head.branch_count -= 1;
    }

    fn reclaim(&mut self, floor: u32, kept: &Kept) {
        self.head.floor = floor;

        for row in (0..kept.branches.len()).rev() {
            if !kept.branches[row] {
                self.take_out(row);
            }
        }

        let mut to = 0;
        for (from, keep) in kept.records.iter().enumerate() {
            let record = self.records[from];
            if *keep {
                self.records[to] = record;
                to += 1;
                self.places[record.place as usize] = to as u32;
            } else {
                self.places[record.place as usize] = 0;
            }
        }
        for row in to..kept.records.len() {
            self.records[row] = Record { address: 0, moment: 0, place: 0 };
        }
        self.head.record_count = to as u32;
    }

    // -----------------------------------------------------------------------------------------
    // Writing

    /// The counted record row of exactly this address and moment.
    fn row_of(&self, address: u32, moment: u32) -> Option<usize> {
        self.rows_of_address(address).find(|row| self.records[*row].moment == moment)
    }

    /// The place that a new record takes: the free one with the smallest number (document 02, Two), as the
    /// place table stands at this request of the batch.
    fn free_place(&self) -> Option<usize> {
        self.places.iter().position(|place| *place == 0)
    }

    fn write(&mut self, address: u32, page: &[u8]) {
        let now = self.head.now;
        let place = match self.row_of(address, now) {
            Some(row) => self.records[row].place as usize,
            None => {
                let place = self.free_place().expect("a place is free");
                let count = self.head.record_count as usize;
                let row = self.counted_records().partition_point(|r| (r.address, r.moment) < (address, now));
                // The rows from here on move down by one, and their places name them anew.
                self.records.copy_within(row..count, row + 1);
                self.records[row] = Record { address, moment: now, place: place as u32 };
                self.head.record_count += 1;
                for moved in row..count + 1 {
                    self.places[self.records[moved].place as usize] = moved as u32 + 1;
                }
                place
            }
        };
        self.slab[PAGE * place..PAGE * place + PAGE].copy_from_slice(page);
        self.put_on_disk(address, page);
    }

    /// The new branch has the work order that the revert quotes.
    fn revert(&mut self, moment: u32, order: u32) {
        let count = self.head.branch_count as usize;
        self.branches[count - 1].end = self.head.now;
        self.head.now += 1;
        self.branches[count] = Branch { start: self.head.now, end: OPEN_END, cut: moment, order };
        self.head.branch_count += 1;
        self.make_stale();
    }

    // -----------------------------------------------------------------------------------------
    // The live disk

    /// The page is then current and not blank.
    fn put_on_disk(&mut self, address: u32, page: &[u8]) {
        let at = PAGE * address as usize;
        self.disk[at..at + PAGE].copy_from_slice(page);
        self.marks[address as usize] = CURRENT;
    }

    /// Every page is then stale; the disk's bytes and the blank marks stay.
    fn make_stale(&mut self) {
        for mark in &mut self.marks {
            *mark &= BLANK;
        }
    }

    fn is_current(&self, address: u32) -> bool {
        self.marks[address as usize] & CURRENT != 0
    }

    /// Where the page of an address below A lies: area and offset.
    fn live_page(&self, address: u32) -> (u32, u64) {
        let on_disk = PAGE as u64 * u64::from(address);
        if self.is_current(address) {
            let blank = self.marks[address as usize] & BLANK != 0;
            return if blank { (AREA_NONE, 0) } else { (AREA_DISK, on_disk) };
        }
        match self.find(address, self.head.now) {
            Some(row) => (AREA_SLAB, PAGE as u64 * u64::from(self.records[row].place)),
            None => (AREA_NONE, 0),
        }
    }

    /// A page brought to date as blank keeps its bytes.
    fn bring_to_date(&mut self, address: u32) {
        match self.find(address, self.head.now) {
            Some(row) => {
                let page = dated_page(&self.records[row], &self.slab).page;
                self.put_on_disk(address, &page);
            }
            None => self.marks[address as usize] = CURRENT + BLANK,
        }
    }

    /// Brings up to so many stale pages to date, lowest address first; how many.
    fn copy_step(&mut self, budget: u32) -> u64 {
        let mut copied = 0;
        for address in 0..self.head.size {
            if copied < u64::from(budget) && !self.is_current(address) {
                self.bring_to_date(address);
                copied += 1;
            }
        }
        copied
    }

    // -----------------------------------------------------------------------------------------
    // One request

    /// The request's own refusal, or 0, in the order that the document gives.
    fn refusal(&self, request: &Request) -> u32 {
        let head = &self.head;
        match request {
            Request::Write { address, .. } => {
                if *address >= head.size {
                    4
                } else if self.row_of(*address, head.now).is_some() {
                    0
                } else if head.record_count as usize == self.records.len() {
                    5
                } else if self.free_place().is_none() {
                    6
                } else {
                    0
                }
            }
            Request::Mark => {
                if head.now == OPEN_END {
                    10
                } else {
                    0
                }
            }
            Request::Revert { moment, .. } => {
                if *moment < head.floor && !self.is_named(*moment) {
                    8
                } else if *moment >= head.now {
                    9
                } else if head.now == OPEN_END {
                    10
                } else if head.branch_count as usize == self.branches.len() {
                    7
                } else {
                    0
                }
            }
            Request::Read { address, moment } => {
                if *address >= head.size {
                    4
                } else if *moment < head.floor && !self.is_named(*moment) {
                    8
                } else if *moment > head.now {
                    9
                } else {
                    0
                }
            }
            // A name does not help here.
            Request::Reclaim { moment } => {
                if *moment < head.floor {
                    8
                } else if *moment > head.now {
                    9
                } else {
                    0
                }
            }
            Request::Name { name, moment } => {
                if *moment < head.floor && !self.is_named(*moment) {
                    8
                } else if head.now <= *moment {
                    9
                } else if self.row_of_name(name).is_some() {
                    15
                } else if head.name_count as usize == MOST_NAMES {
                    16
                } else {
                    0
                }
            }
            Request::Withdraw { name } if self.row_of_name(name).is_none() => 17,
            Request::Withdraw { .. } => 0,
        }
    }

    /// The answer that the request gets, and what carrying it out would change; nothing is changed yet.
    fn decide(&self, request: &Request) -> (Answer, Change) {
        let refusal = self.refusal(request);
        if refusal != 0 {
            return (Answer { refusal, number: 0, found: None }, Change::Nothing);
        }
        let now = self.head.now;
        let mut answer = Answer { refusal: 0, number: now, found: None };
        let change = match request {
            Request::Write { address, page } => Change::Write { address: *address, page: page.clone() },
            Request::Mark => Change::Mark,
            Request::Revert { moment, order } => Change::Revert { cut: *moment, order: *order },
            Request::Read { address, moment } => {
                answer.number = *moment;
                let row = self.find(*address, *moment);
                answer.found = row.map(|row| dated_page(&self.records[row], &self.slab));
                Change::Nothing
            }
            Request::Reclaim { moment } => {
                let kept = self.kept(*moment);
                answer.number = kept.records.iter().filter(|keep| !**keep).count() as u32;
                Change::Reclaim { floor: *moment, kept }
            }
            Request::Name { moment, name } => {
                answer.number = *moment;
                Change::Name { name: Name { bytes: *name, moment: *moment } }
            }
            Request::Withdraw { name } => {
                let row = self.row_of_name(name).expect("the name is given");
                answer.number = self.names[row].moment;
                Change::Withdraw { row }
            }
        };
        (answer, change)
    }

    fn carry_out(&mut self, change: Change) {
        match change {
            Change::Nothing => {}
            Change::Write { address, page } => self.write(address, &page),
            Change::Mark => self.head.now += 1,
            Change::Revert { cut, order } => self.revert(cut, order),
            Change::Reclaim { floor, kept } => self.reclaim(floor, &kept),
            Change::Name { name } => self.give(name),
            Change::Withdraw { row } => self.withdraw(row),
        }
    }
}

// ---------------------------------------------------------------------------------------------
// Requests and answers as bytes

/// Reads the request at the front of the bytes: the request with its length, or the stop number.
pub fn read_request(bytes: &[u8]) -> Result<(Request, usize), u32> {
    if bytes.len() < 7 {
        return Err(11);
    }
    let mut packed: u64 = 0;
    for byte in &bytes[..7] {
        packed = packed * 256 + u64::from(*byte);
    }
    let operation = packed >> 53;
    let address = (packed >> 37 & 0xFFFF) as u32;
    let moment = (packed >> 5 & 0xFFFF_FFFF) as u32;
    let spare = packed & 31;
    if operation == 0 {
        return Err(12);
    }
    // Fields that an operation does not use count as spare. The address of a revert is its work order.
    let uses_address = operation == 1 || operation == 3 || operation == 4;
    let uses_moment = operation == 3 || operation == 4 || operation == 5 || operation == 6;
    if spare != 0 || (!uses_address && address != 0) || (!uses_moment && moment != 0) {
        return Err(13);
    }
    match operation {
        1 => {
            if bytes.len() < 7 + PAGE {
                return Err(11);
            }
            Ok((Request::Write { address, page: bytes[7..7 + PAGE].to_vec() }, 7 + PAGE))
        }
        2 => Ok((Request::Mark, 7)),
        3 => Ok((Request::Revert { moment, order: address }, 7)),
        4 => Ok((Request::Read { address, moment }, 7)),
        5 => Ok((Request::Reclaim { moment }, 7)),
        _ => {
            if bytes.len() < 7 + NAME_BYTES {
                return Err(11);
            }
            let name = name_at(&bytes[7..]);
            let request = if operation == 6 { Request::Name { moment, name } } else { Request::Withdraw { name } };
            Ok((request, 7 + NAME_BYTES))
        }
    }
}

pub fn answer_bytes(answer: &Answer) -> Vec<u8> {
    let present = u32::from(answer.found.is_some());
    // Refusal 6 bits, page present 1 bit, spare 1 bit.
    let mut bytes = vec![(answer.refusal * 4 + present * 2) as u8];
    bytes.extend_from_slice(&answer.number.to_be_bytes());
    if let Some(found) = &answer.found {
        bytes.extend_from_slice(&found.date.to_be_bytes());
        bytes.extend_from_slice(&found.page);
    }
    bytes
}

// ---------------------------------------------------------------------------------------------
// The calls

/// The store in these areas, with slab and live disk handed over, or the refusal; and how many record rows the check read.
fn checked(areas: &mut Areas) -> (Result<Store, u32>, usize) {
    if !lengths_allowed(areas) {
        return (Err(1), 0);
    }
    let store = rows_of(areas);
    let (refused, rows_read) = store.check();
    if refused != 0 {
        hand_back(store, areas);
        return (Err(refused), rows_read);
    }
    (Ok(store), rows_read)
}

/// The same for a call that is not lent the live disk.
fn checked_tables(areas: &mut Areas) -> Result<Store, u32> {
    if !lengths_allowed(areas) {
        return Err(1);
    }
    let store = rows_of(areas);
    match store.check_tables().0 {
        0 => Ok(store),
        refusal => {
            hand_back(store, areas);
            Err(refusal)
        }
    }
}

/// The work orders of a moment, two bytes each, high byte first. Only the list is changed, and that only where it is given out.
pub fn work_orders(areas: &mut Areas, moment: u32, list: &mut [u8]) -> Listing {
    let store = match checked_tables(areas) {
        Ok(store) => store,
        Err(refusal) => return Listing { refusal, ..Listing::default() },
    };
    let refusal = store.listing_refusal(moment);
    let orders = if refusal == 0 { store.orders_from(moment) } else { Vec::new() };
    hand_back(store, areas);
    if refusal != 0 {
        return Listing { refusal, ..Listing::default() };
    }
    if ORDER_BYTES * orders.len() > list.len() {
        return Listing { refusal: 14, ..Listing::default() };
    }
    for (to, order) in list.chunks_exact_mut(ORDER_BYTES).zip(&orders) {
        to[0] = (order / 256) as u8;
        to[1] = (order % 256) as u8;
    }
    Listing { refusal: 0, count: orders.len() as u64 }
}

/// Where the page of an address lies, as it is at now. Nothing is changed: slab and live disk are only handed over and back.
pub fn live_read(areas: &mut Areas, address: u32) -> LiveRead {
    let store = match checked(areas).0 {
        Ok(store) => store,
        Err(refusal) => return LiveRead { refusal, ..LiveRead::default() },
    };
    let told = if address >= store.head.size {
        LiveRead { refusal: 4, ..LiveRead::default() }
    } else {
        let (area, offset) = store.live_page(address);
        LiveRead { refusal: 0, area, offset }
    };
    hand_back(store, areas);
    told
}

/// The 256 bytes that a live read told of.
pub fn page_told(areas: &Areas, told: &LiveRead) -> Option<Vec<u8>> {
    let from = told.offset as usize;
    match told.area {
        AREA_DISK => Some(areas.disk[from..from + PAGE].to_vec()),
        AREA_SLAB => Some(areas.slab[from..from + PAGE].to_vec()),
        _ => None,
    }
}

/// A copying step: changes live disk and marks alone.
pub fn copy_step(areas: &mut Areas, budget: u32) -> Step {
    let mut store = match checked(areas).0 {
        Ok(store) => store,
        Err(refusal) => return Step { refusal, ..Step::default() },
    };
    let copied = store.copy_step(budget);
    hand_back(store, areas);
    Step { refusal: 0, copied }
}

/// Runs one batch over the areas and the answer area.
pub fn batch(areas: &mut Areas, batch: &[u8], answers: &mut [u8]) -> Report {
    batch_watched(areas, batch, answers, |_, _| {})
}

/// The same, telling each answered request with its answer.
pub fn batch_watched(
    areas: &mut Areas,
    batch: &[u8],
    answers: &mut [u8],
    watch: impl FnMut(&Request, &Answer),
) -> Report {
    batch_followed(areas, batch, answers, |_, _| {}, watch)
}

/// The same, telling before that what is changed, with the store that it is changed in.
pub fn batch_followed(
    areas: &mut Areas,
    batch: &[u8],
    answers: &mut [u8],
    mut follow: impl FnMut(&Store, &Change),
    mut watch: impl FnMut(&Request, &Answer),
) -> Report {
    let (store, rows_read) = checked(areas);
    let mut report = Report { rows_read: rows_read as u64, ..Report::default() };
    let mut store = match store {
        Ok(store) => store,
        Err(refused) => {
            report.stop = refused;
            return report;
        }
    };
    loop {
        let left = &batch[report.request_bytes as usize..];
        if left.is_empty() {
            break;
        }
        let (request, length) = match read_request(left) {
            Ok(read) => read,
            Err(stop) => {
                report.stop = stop;
                break;
            }
        };
        let (answer, change) = store.decide(&request);
        let written = answer_bytes(&answer);
        let room = &mut answers[report.answer_bytes as usize..];
        if written.len() > room.len() {
            report.stop = 14;
            break;
        }
        follow(&store, &change);
        store.carry_out(change);
        room[..written.len()].copy_from_slice(&written);
        report.answered += 1;
        report.request_bytes += length as u64;
        report.answer_bytes += written.len() as u64;
        watch(&request, &answer);
    }
    bytes_of(store, areas);
    report
}

/// The check of the areas alone: 0, 1, 2, 3 or 18.
pub fn check(areas: &Areas) -> u32 {
    batch(&mut areas.clone(), &[], &mut []).stop
}

/// The store in areas that pass the check, as rows, without the slab and the live disk.
pub fn rows(areas: &Areas) -> Store {
    let mut tables = Areas {
        head: areas.head.clone(),
        branches: areas.branches.clone(),
        records: areas.records.clone(),
        places: areas.places.clone(),
        names: areas.names.clone(),
        ..Areas::default()
    };
    rows_of(&mut tables)
}

pub mod pictures;

#[cfg(test)]
mod tests;
