//! The reference under the library's names, to try the hosts themselves on: over the reference as it
//! is they must find no difference, and over the reference with a fault put into it they must find one.
//! It is built with metadata of its own: the host in Rust has the reference inside, too, and a linker
//! would take one of the two for both sides if their names were the same.

use reference::Areas;

type Part = (*mut u8, usize);

unsafe fn copied(part: Part) -> Vec<u8> {
    if part.1 == 0 {
        Vec::new()
    } else {
        std::slice::from_raw_parts(part.0, part.1).to_vec()
    }
}

/// An area that stays as it was is not written to: it may be one that can only be read.
unsafe fn give_back(part: Part, bytes: &[u8]) {
    if part.1 != 0 && std::slice::from_raw_parts(part.0, part.1) != bytes {
        std::slice::from_raw_parts_mut(part.0, part.1).copy_from_slice(bytes);
    }
}

/// Head, branches, records, places, names, slab, live disk and marks.
type Parts = [Part; 8];

unsafe fn taken(parts: &Parts) -> Areas {
    Areas {
        head: copied(parts[0]),
        branches: copied(parts[1]),
        records: copied(parts[2]),
        places: copied(parts[3]),
        names: copied(parts[4]),
        slab: copied(parts[5]),
        disk: copied(parts[6]),
        marks: copied(parts[7]),
    }
}

unsafe fn returned(parts: &Parts, areas: &Areas) {
    give_back(parts[0], &areas.head);
    give_back(parts[1], &areas.branches);
    give_back(parts[2], &areas.records);
    give_back(parts[3], &areas.places);
    give_back(parts[4], &areas.names);
    give_back(parts[5], &areas.slab);
    give_back(parts[6], &areas.disk);
    give_back(parts[7], &areas.marks);
}

/// # Safety
/// Each pointer is to as many bytes as the length after it says.
#[no_mangle]
pub unsafe extern "C" fn kizmoolet_fresh(
    size: u32,
    head: *mut u8,
    head_len: usize,
    branches: *mut u8,
    branches_len: usize,
    records: *mut u8,
    records_len: usize,
    places: *mut u8,
    places_len: usize,
    names: *mut u8,
    names_len: usize,
    slab: *const u8,
    slab_len: usize,
) -> u32 {
    let parts = [
        (head, head_len),
        (branches, branches_len),
        (records, records_len),
        (places, places_len),
        (names, names_len),
        (slab.cast_mut(), slab_len),
        // Live disk and marks are not passed.
        (std::ptr::null_mut(), 0),
        (std::ptr::null_mut(), 0),
    ];
    let mut areas = taken(&parts);
    let result = reference::fresh(size, &mut areas);
    returned(&parts, &areas);
    result
}

/// # Safety
/// Each pointer is to as many bytes as the length after it says; the four counts may be written.
#[no_mangle]
pub unsafe extern "C" fn kizmoolet_batch(
    head: *mut u8,
    head_len: usize,
    branches: *mut u8,
    branches_len: usize,
    records: *mut u8,
    records_len: usize,
    places: *mut u8,
    places_len: usize,
    names: *mut u8,
    names_len: usize,
    slab: *mut u8,
    slab_len: usize,
    disk: *mut u8,
    disk_len: usize,
    marks: *mut u8,
    marks_len: usize,
    batch: *const u8,
    batch_len: usize,
    answers: *mut u8,
    answers_len: usize,
    answered: *mut u64,
    request_bytes: *mut u64,
    answer_bytes: *mut u64,
    rows_read: *mut u64,
) -> u32 {
    let parts = [
        (head, head_len),
        (branches, branches_len),
        (records, records_len),
        (places, places_len),
        (names, names_len),
        (slab, slab_len),
        (disk, disk_len),
        (marks, marks_len),
    ];
    let mut areas = taken(&parts);
    let requests = copied((batch.cast_mut(), batch_len));
    let mut area = copied((answers, answers_len));
    let report = reference::batch(&mut areas, &requests, &mut area);
    returned(&parts, &areas);
    give_back((answers, answers_len), &area);
    *answered = report.answered;
    *request_bytes = report.request_bytes;
    *answer_bytes = report.answer_bytes;
    *rows_read = report.rows_read;
    report.stop
}

/// # Safety
/// Each pointer is to as many bytes as the length after it says; area and offset may be written.
#[no_mangle]
pub unsafe extern "C" fn kizmoolet_live_read(
    head: *const u8,
    head_len: usize,
    branches: *const u8,
    branches_len: usize,
    records: *const u8,
    records_len: usize,
    places: *const u8,
    places_len: usize,
    names: *const u8,
    names_len: usize,
    slab: *const u8,
    slab_len: usize,
    disk: *const u8,
    disk_len: usize,
    marks: *const u8,
    marks_len: usize,
    address: u32,
    area: *mut u32,
    offset: *mut u64,
) -> u32 {
    let parts = [
        (head.cast_mut(), head_len),
        (branches.cast_mut(), branches_len),
        (records.cast_mut(), records_len),
        (places.cast_mut(), places_len),
        (names.cast_mut(), names_len),
        (slab.cast_mut(), slab_len),
        (disk.cast_mut(), disk_len),
        (marks.cast_mut(), marks_len),
    ];
    let mut areas = taken(&parts);
    let told = reference::live_read(&mut areas, address);
    returned(&parts, &areas);
    *area = told.area;
    *offset = told.offset;
    told.refusal
}

/// # Safety
/// Each pointer is to as many bytes as the length after it says; the count may be written.
#[no_mangle]
pub unsafe extern "C" fn kizmoolet_copy_step(
    head: *const u8,
    head_len: usize,
    branches: *const u8,
    branches_len: usize,
    records: *const u8,
    records_len: usize,
    places: *const u8,
    places_len: usize,
    names: *const u8,
    names_len: usize,
    slab: *const u8,
    slab_len: usize,
    disk: *mut u8,
    disk_len: usize,
    marks: *mut u8,
    marks_len: usize,
    budget: u32,
    copied_pages: *mut u64,
) -> u32 {
    let parts = [
        (head.cast_mut(), head_len),
        (branches.cast_mut(), branches_len),
        (records.cast_mut(), records_len),
        (places.cast_mut(), places_len),
        (names.cast_mut(), names_len),
        (slab.cast_mut(), slab_len),
        (disk, disk_len),
        (marks, marks_len),
    ];
    let mut areas = taken(&parts);
    let told = reference::copy_step(&mut areas, budget);
    returned(&parts, &areas);
    *copied_pages = told.copied;
    told.refusal
}

/// # Safety
/// Each pointer is to as many bytes as the length after it says; the count may be written.
#[no_mangle]
pub unsafe extern "C" fn kizmoolet_work_orders(
    head: *const u8,
    head_len: usize,
    branches: *const u8,
    branches_len: usize,
    records: *const u8,
    records_len: usize,
    places: *const u8,
    places_len: usize,
    names: *const u8,
    names_len: usize,
    slab: *const u8,
    slab_len: usize,
    moment: u32,
    list: *mut u8,
    list_len: usize,
    count: *mut u64,
) -> u32 {
    let parts = [
        (head.cast_mut(), head_len),
        (branches.cast_mut(), branches_len),
        (records.cast_mut(), records_len),
        (places.cast_mut(), places_len),
        (names.cast_mut(), names_len),
        (slab.cast_mut(), slab_len),
        // Live disk and marks are not passed.
        (std::ptr::null_mut(), 0),
        (std::ptr::null_mut(), 0),
    ];
    let mut areas = taken(&parts);
    let mut area = copied((list, list_len));
    let told = reference::work_orders(&mut areas, moment, &mut area);
    returned(&parts, &areas);
    give_back((list, list_len), &area);
    *count = told.count;
    told.refusal
}
