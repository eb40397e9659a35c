//! The eight symbols of `include/shelf.h` over the plain implementation, so
//! that everything above the library can be built and tested where its
//! archive cannot be linked. It proves nothing.

use crate::calls::{Calls, FileCalls};
use crate::plain::Plain;
use std::slice::{from_raw_parts, from_raw_parts_mut};

/// # Safety
/// As `include/shelf.h` says.
#[no_mangle]
unsafe extern "C" fn shelf_form(file: *const u8, len: usize, answer: *mut u32, answers: usize) {
    Plain.form(
        from_raw_parts(file, len),
        from_raw_parts_mut(answer, answers),
    );
}

/// # Safety
/// As `include/shelf.h` says.
#[no_mangle]
unsafe extern "C" fn shelf_references(
    file: *const u8,
    len: usize,
    table: *mut u32,
    words: usize,
    answer: *mut u32,
    answers: usize,
) {
    Plain.references(
        from_raw_parts(file, len),
        from_raw_parts_mut(table, words),
        from_raw_parts_mut(answer, answers),
    );
}

/// # Safety
/// As `include/shelf.h` says.
#[no_mangle]
unsafe extern "C" fn shelf_rewrite(
    file: *const u8,
    len: usize,
    table: *mut u32,
    words: usize,
    out: *mut u8,
    room: usize,
    answer: *mut u32,
    answers: usize,
) {
    Plain.rewrite(
        from_raw_parts(file, len),
        from_raw_parts_mut(table, words),
        from_raw_parts_mut(out, room),
        from_raw_parts_mut(answer, answers),
    );
}

/// # Safety
/// As `include/shelf.h` says.
#[no_mangle]
unsafe extern "C" fn shelf_read(
    file: *const u8,
    len: usize,
    record: u32,
    answer: *mut i64,
    answers: usize,
) {
    Plain.read(
        from_raw_parts(file, len),
        record,
        from_raw_parts_mut(answer, answers),
    );
}

/// # Safety
/// As `include/shelf.h` says.
#[no_mangle]
unsafe extern "C" fn shelf_field(
    file: *const u8,
    len: usize,
    record: u32,
    column: u32,
    answer: *mut u64,
    answers: usize,
) {
    Plain.field(
        from_raw_parts(file, len),
        record,
        column,
        from_raw_parts_mut(answer, answers),
    );
}

/// # Safety
/// As `include/shelf.h` says.
#[no_mangle]
unsafe extern "C" fn shelf_write(
    out: *mut u8,
    room: usize,
    values: *const i64,
    count: usize,
    first: *const u8,
    first_len: usize,
    second: *const u8,
    second_len: usize,
    third: *const u8,
    third_len: usize,
    answer: *mut u32,
    answers: usize,
) {
    Plain.write(
        from_raw_parts_mut(out, room),
        from_raw_parts(values, count),
        [
            from_raw_parts(first, first_len),
            from_raw_parts(second, second_len),
            from_raw_parts(third, third_len),
        ],
        from_raw_parts_mut(answer, answers),
    );
}

/// # Safety
/// As `include/shelf.h` says.
#[no_mangle]
unsafe extern "C" fn shelf_pad(
    input: *const u8,
    len: usize,
    out: *mut u8,
    room: usize,
    answer: *mut u32,
    answers: usize,
) {
    Plain.pad(
        from_raw_parts(input, len),
        from_raw_parts_mut(out, room),
        from_raw_parts_mut(answer, answers),
    );
}

/// # Safety
/// As `include/shelf.h` says.
#[no_mangle]
unsafe extern "C" fn shelf_pull(
    file: *const u8,
    len: usize,
    records: *const u32,
    entries: usize,
    out: *mut u8,
    room: usize,
    faults: *mut u32,
    places: usize,
    answer: *mut u32,
    answers: usize,
) {
    Plain.pull(
        from_raw_parts(file, len),
        from_raw_parts(records, entries),
        from_raw_parts_mut(out, room),
        from_raw_parts_mut(faults, places),
        from_raw_parts_mut(answer, answers),
    );
}
