//! Writes the cases to standard output, for a host in another language. Every number is eight bytes,
//! least significant first; an area is its length and its bytes. Records:
//! L areas                              lend areas of these bytes: head, branches, records, places, names, slab, disk, marks
//! Y areas                              lend a copy, laid onto these bytes, and make every page stale
//! F size result                        a fresh store
//! M                                    every page is made stale
//! B batch area stop answered request-bytes answer-bytes rows-read after    a batch
//! R address result area offset page    a live read; the page is an area of no bytes where there is none
//! S budget result copied               a copying step
//! O moment list result count after     the work orders of a moment; the list before and after
//! C areas                              the lent areas as they must be
//! E name                               the end of a family
//! N line                               more to say of it
//! Z differences                        the end: differences between reference and pile of pictures

use cases::Host;
use reference::{Areas, Listing, LiveRead, Report, Step};
use std::io::{BufWriter, StdoutLock, Write};

struct Written {
    out: BufWriter<StdoutLock<'static>>,
    pile_differences: u64,
}

impl Written {
    fn bytes(&mut self, bytes: &[u8]) {
        if self.out.write_all(bytes).is_err() {
            eprintln!("the host stopped reading the cases");
            std::process::exit(2);
        }
    }

    fn tag(&mut self, tag: u8) {
        self.bytes(&[tag]);
    }

    fn number(&mut self, number: u64) {
        self.bytes(&number.to_le_bytes());
    }

    fn area(&mut self, area: &[u8]) {
        self.number(area.len() as u64);
        self.bytes(area);
    }

    fn areas(&mut self, areas: &Areas) {
        for area in cases::list(areas) {
            self.area(area);
        }
    }
}

impl Host for Written {
    fn lend(&mut self, areas: &Areas) {
        self.tag(b'L');
        self.areas(areas);
    }

    fn copy_onto(&mut self, onto: &Areas) {
        self.tag(b'Y');
        self.areas(onto);
    }

    fn fresh(&mut self, size: u32, result: u32) {
        self.tag(b'F');
        self.number(u64::from(size));
        self.number(u64::from(result));
    }

    fn make_stale(&mut self) {
        self.tag(b'M');
    }

    fn batch(&mut self, batch: &[u8], before: &[u8], report: &Report, after: &[u8]) {
        self.tag(b'B');
        self.area(batch);
        self.area(before);
        self.number(u64::from(report.stop));
        self.number(report.answered);
        self.number(report.request_bytes);
        self.number(report.answer_bytes);
        self.number(report.rows_read);
        self.area(after);
    }

    fn live_read(&mut self, address: u32, told: &LiveRead, page: &[u8]) {
        self.tag(b'R');
        self.number(u64::from(address));
        self.number(u64::from(told.refusal));
        self.number(u64::from(told.area));
        self.number(told.offset);
        self.area(page);
    }

    fn copy_step(&mut self, budget: u32, told: &Step) {
        self.tag(b'S');
        self.number(u64::from(budget));
        self.number(u64::from(told.refusal));
        self.number(told.copied);
    }

    fn work_orders(&mut self, moment: u32, before: &[u8], told: &Listing, after: &[u8]) {
        self.tag(b'O');
        self.number(u64::from(moment));
        self.area(before);
        self.number(u64::from(told.refusal));
        self.number(told.count);
        self.area(after);
    }

    fn compare(&mut self, areas: &Areas) {
        self.tag(b'C');
        self.areas(areas);
    }

    fn end(&mut self, name: &str) {
        self.tag(b'E');
        self.area(name.as_bytes());
    }

    fn note(&mut self, what: &str) {
        self.tag(b'N');
        self.area(what.as_bytes());
    }

    fn pile_differs(&mut self, what: &str) {
        eprintln!("the reference differs from the pile of pictures: {what}");
        self.pile_differences += 1;
    }
}

fn main() {
    let arguments: Vec<String> = std::env::args().collect();
    let seed = arguments[1].parse().expect("a seed");
    let scale = arguments[2].parse().expect("a scale in hundredths");
    let mut written = Written { out: BufWriter::with_capacity(1 << 20, std::io::stdout().lock()), pile_differences: 0 };
    cases::all(&mut written, seed, scale, &arguments[3]);
    written.tag(b'Z');
    let differences = written.pile_differences;
    written.number(differences);
    if written.out.flush().is_err() {
        std::process::exit(2);
    }
}
