//! A stand-in for the proved archive: the same C functions over the plain judge. It serves to try the header, the wrapper and the
//! harness before (or without) the proved archive. `tools/stand-in` builds it and names it as the wrapper expects.

use plain::{Condition, Table, Translated, Verdict};
use std::slice::{from_raw_parts, from_raw_parts_mut};

#[repr(C)]
pub struct Answer {
    verdict: u32,
    number: u32,
    place: u32,
    pair: u32,
    prefix_length: u32,
    cycle_length: u32,
    depth: u32,
}

#[repr(C)]
pub struct TranslatedTable {
    number: u32,
    place: u32,
    states: u32,
    edges: u32,
    start: u32,
}

fn answer(verdict: Verdict) -> Answer {
    let none = Answer { verdict: 0, number: 0, place: 0, pair: 0, prefix_length: 0, cycle_length: 0, depth: 0 };
    match verdict {
        Verdict::Refused { number, place } => Answer { number, place, ..none },
        Verdict::Empty { depth } => Answer { verdict: 1, depth, ..none },
        Verdict::Run { prefix, cycle, pair } => Answer { verdict: 2, pair, prefix_length: prefix, cycle_length: cycle, ..none },
    }
}

/// A lent slice; with a count of 0 the pointer is not looked at.
unsafe fn lent<'a>(cells: *const u32, count: usize) -> &'a [u32] {
    if count == 0 {
        &[]
    } else {
        from_raw_parts(cells, count)
    }
}

/// A lent slice to be written.
unsafe fn lent_mut<'a>(cells: *mut u32, count: usize) -> &'a mut [u32] {
    if count == 0 {
        &mut []
    } else {
        from_raw_parts_mut(cells, count)
    }
}

/// The parameters by which each function takes a table.
macro_rules! table {
    ($n:ident, $start:ident, $from:ident, $from_len:ident, $to:ident, $to_len:ident, $marks:ident, $marks_len:ident) => {
        Table { states: $n, start: $start, from: lent($from, $from_len), to: lent($to, $to_len), marks: lent($marks, $marks_len) }
    };
}

/// The version of the header that this stands in for.
#[no_mangle]
pub extern "C" fn mukhadero_version() -> u32 {
    20_000
}

/// # Safety
/// Each pointer is good for its count of cells; lent outputs overlap nothing.
#[rustfmt::skip]
#[no_mangle]
pub unsafe extern "C" fn mukhadero_judge_buchi(
    n: u32, start: u32, from: *const u32, from_len: usize, to: *const u32, to_len: usize, marks: *const u32, marks_len: usize,
    k: u32, room: *mut u32, room_len: usize, scratch: *mut u32, scratch_len: usize,
) -> Answer {
    let table = table!(n, start, from, from_len, to, to_len, marks, marks_len);
    let room = lent_mut(room, room_len);
    answer(plain::judge(&table, &Condition::Buchi(k), room, lent_mut(scratch, scratch_len)))
}

/// # Safety
/// As above.
#[rustfmt::skip]
#[no_mangle]
pub unsafe extern "C" fn mukhadero_judge_streett(
    n: u32, start: u32, from: *const u32, from_len: usize, to: *const u32, to_len: usize, marks: *const u32, marks_len: usize,
    p: u32, room: *mut u32, room_len: usize, scratch: *mut u32, scratch_len: usize,
) -> Answer {
    let table = table!(n, start, from, from_len, to, to_len, marks, marks_len);
    let room = lent_mut(room, room_len);
    answer(plain::judge(&table, &Condition::Streett(p), room, lent_mut(scratch, scratch_len)))
}

/// # Safety
/// As above; `needs` is good for eight cells.
#[rustfmt::skip]
#[no_mangle]
pub unsafe extern "C" fn mukhadero_judge_rabin(
    n: u32, start: u32, from: *const u32, from_len: usize, to: *const u32, to_len: usize, marks: *const u32, marks_len: usize,
    p: u32, needs: *const [u32; 8], room: *mut u32, room_len: usize, scratch: *mut u32, scratch_len: usize,
) -> Answer {
    let table = table!(n, start, from, from_len, to, to_len, marks, marks_len);
    let room = lent_mut(room, room_len);
    answer(plain::judge(&table, &Condition::Rabin(p, *needs), room, lent_mut(scratch, scratch_len)))
}

/// # Safety
/// As above.
#[rustfmt::skip]
#[no_mangle]
pub unsafe extern "C" fn mukhadero_one_mark(
    n: u32, start: u32, from: *const u32, from_len: usize, to: *const u32, to_len: usize, marks: *const u32, marks_len: usize,
    k: u32, out_from: *mut u32, out_from_len: usize, out_to: *mut u32, out_to_len: usize, out_marks: *mut u32, out_marks_len: usize,
) -> TranslatedTable {
    let table = table!(n, start, from, from_len, to, to_len, marks, marks_len);
    let made = plain::one_mark(
        &table,
        k,
        lent_mut(out_from, out_from_len),
        lent_mut(out_to, out_to_len),
        lent_mut(out_marks, out_marks_len),
    );
    match made {
        Translated::Made { states, edges, start } => TranslatedTable { number: 0, place: 0, states, edges, start },
        Translated::Refused { number, place } => TranslatedTable { number, place, states: 0, edges: 0, start: 0 },
    }
}
