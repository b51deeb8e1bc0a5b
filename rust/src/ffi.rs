//! The C face as it stands in `include/mukhadero.h`, and safe functions that only turn slices into pointers and counts. For those
//! who want the plain numbers; others use the crate's root.

use crate::{Condition, Table};

/// A verdict's number: refused.
pub const REFUSED: u32 = 0;
/// A verdict's number: empty.
pub const EMPTY: u32 = 1;
/// A verdict's number: run.
pub const RUN: u32 = 2;

/// `mukhadero_answer`. A field that has no meaning for the verdict is 0.
#[repr(C)]
#[derive(Clone, Copy, Debug, PartialEq, Eq)]
pub struct Answer {
    /// [`REFUSED`], [`EMPTY`] or [`RUN`].
    pub verdict: u32,
    /// 0, or the cause of the refusal.
    pub number: u32,
    /// The place of the refusal.
    pub place: u32,
    /// The pair of a Rabin run.
    pub pair: u32,
    /// Edges of the prefix.
    pub prefix_length: u32,
    /// Edges of the cycle.
    pub cycle_length: u32,
    /// How deep the erasing went, for an empty Streett verdict.
    pub depth: u32,
}

/// `mukhadero_table`. All but number and place are 0 if it was refused.
#[repr(C)]
#[derive(Clone, Copy, Debug, PartialEq, Eq)]
pub struct TranslatedTable {
    /// 0, or the cause of the refusal.
    pub number: u32,
    /// The place of the refusal.
    pub place: u32,
    /// Number of states.
    pub states: u32,
    /// Number of edges.
    pub edges: u32,
    /// The start state.
    pub start: u32,
}

/// The kind of a condition that was read: Büchi.
pub const KIND_BUCHI: u32 = 0;
/// The kind of a condition that was read: Streett.
pub const KIND_STREETT: u32 = 1;
/// The kind of a condition that was read: Rabin.
pub const KIND_RABIN: u32 = 2;

/// `mukhadero_hoa`. All but number and place are 0 if it was refused.
#[repr(C)]
#[derive(Clone, Copy, Debug, PartialEq, Eq)]
pub struct ReadText {
    /// 0, or the cause of the refusal.
    pub number: u32,
    /// [`KIND_BUCHI`], [`KIND_STREETT`] or [`KIND_RABIN`].
    pub kind: u32,
    /// The byte at which the text was refused.
    pub place: u64,
    /// Number of states.
    pub states: u32,
    /// The start state.
    pub start: u32,
    /// Number of edges.
    pub edges: u32,
    /// Number of marks or pairs.
    pub count: u32,
    /// Needed marks of each Rabin pair.
    pub needs: [u32; 8],
}

/// `mukhadero_text`. The length is 0 if it was refused.
#[repr(C)]
#[derive(Clone, Copy, Debug, PartialEq, Eq)]
pub struct WrittenText {
    /// 0, or the cause of the refusal.
    pub number: u32,
    /// The place of the refusal.
    pub place: u32,
    /// Bytes of the text.
    pub length: u64,
}

#[rustfmt::skip]
extern "C" {
    fn mukhadero_version() -> u32;
    fn mukhadero_judge_buchi(
        n: u32, start: u32, from: *const u32, from_len: usize, to: *const u32, to_len: usize, marks: *const u32, marks_len: usize,
        k: u32, room: *mut u32, room_len: usize, scratch: *mut u32, scratch_len: usize,
    ) -> Answer;
    fn mukhadero_judge_streett(
        n: u32, start: u32, from: *const u32, from_len: usize, to: *const u32, to_len: usize, marks: *const u32, marks_len: usize,
        p: u32, room: *mut u32, room_len: usize, scratch: *mut u32, scratch_len: usize,
    ) -> Answer;
    fn mukhadero_judge_rabin(
        n: u32, start: u32, from: *const u32, from_len: usize, to: *const u32, to_len: usize, marks: *const u32, marks_len: usize,
        p: u32, needs: *const [u32; 8], room: *mut u32, room_len: usize, scratch: *mut u32, scratch_len: usize,
    ) -> Answer;
    fn mukhadero_one_mark(
        n: u32, start: u32, from: *const u32, from_len: usize, to: *const u32, to_len: usize, marks: *const u32, marks_len: usize,
        k: u32, out_from: *mut u32, out_from_len: usize, out_to: *mut u32, out_to_len: usize, out_marks: *mut u32, out_marks_len: usize,
    ) -> TranslatedTable;
    fn mukhadero_read_hoa(
        text: *const u8, text_len: usize, from: *mut u32, from_len: usize, to: *mut u32, to_len: usize, marks: *mut u32, marks_len: usize,
    ) -> ReadText;
    fn mukhadero_write_hoa_buchi(
        n: u32, start: u32, from: *const u32, from_len: usize, to: *const u32, to_len: usize, marks: *const u32, marks_len: usize,
        k: u32, out: *mut u8, out_len: usize,
    ) -> WrittenText;
    fn mukhadero_write_hoa_streett(
        n: u32, start: u32, from: *const u32, from_len: usize, to: *const u32, to_len: usize, marks: *const u32, marks_len: usize,
        p: u32, out: *mut u8, out_len: usize,
    ) -> WrittenText;
    fn mukhadero_write_hoa_rabin(
        n: u32, start: u32, from: *const u32, from_len: usize, to: *const u32, to_len: usize, marks: *const u32, marks_len: usize,
        p: u32, needs: *const [u32; 8], out: *mut u8, out_len: usize,
    ) -> WrittenText;
    fn mukhadero_write_job(
        n: u32, start: u32, from: *const u32, from_len: usize, to: *const u32, to_len: usize, marks: *const u32, marks_len: usize,
        out: *mut u8, out_len: usize,
    ) -> WrittenText;
}

/// The version of the linked archive: 10,000 for the major number, 100 for the minor, 1 for the patch.
#[must_use]
pub fn version() -> u32 {
    // Safety: it takes and touches nothing.
    unsafe { mukhadero_version() }
}

/// Judges a table under Büchi `k`; the answer in plain numbers.
#[must_use]
#[rustfmt::skip]
pub fn judge_buchi(table: &Table, k: u32, room: &mut [u32], scratch: &mut [u32]) -> Answer {
    let Table { states: n, start, from, to, marks } = *table;
    // Safety: each pointer comes with the length of its own slice; room and scratch are `&mut`, so they overlap nothing.
    unsafe {
        mukhadero_judge_buchi(
            n, start, from.as_ptr(), from.len(), to.as_ptr(), to.len(), marks.as_ptr(), marks.len(),
            k, room.as_mut_ptr(), room.len(), scratch.as_mut_ptr(), scratch.len(),
        )
    }
}

/// Judges a table under Streett `p`; the answer in plain numbers.
#[must_use]
#[rustfmt::skip]
pub fn judge_streett(table: &Table, p: u32, room: &mut [u32], scratch: &mut [u32]) -> Answer {
    let Table { states: n, start, from, to, marks } = *table;
    // Safety: as above.
    unsafe {
        mukhadero_judge_streett(
            n, start, from.as_ptr(), from.len(), to.as_ptr(), to.len(), marks.as_ptr(), marks.len(),
            p, room.as_mut_ptr(), room.len(), scratch.as_mut_ptr(), scratch.len(),
        )
    }
}

/// Judges a table under Rabin `p` with these needs; the answer in plain numbers.
#[must_use]
#[rustfmt::skip]
pub fn judge_rabin(table: &Table, p: u32, needs: &[u32; 8], room: &mut [u32], scratch: &mut [u32]) -> Answer {
    let Table { states: n, start, from, to, marks } = *table;
    // Safety: as above; the needs are eight cells.
    unsafe {
        mukhadero_judge_rabin(
            n, start, from.as_ptr(), from.len(), to.as_ptr(), to.len(), marks.as_ptr(), marks.len(),
            p, needs, room.as_mut_ptr(), room.len(), scratch.as_mut_ptr(), scratch.len(),
        )
    }
}

/// Judges a table; the answer in plain numbers.
#[must_use]
pub fn judge(table: &Table, condition: &Condition, room: &mut [u32], scratch: &mut [u32]) -> Answer {
    match *condition {
        Condition::Buchi { marks } => judge_buchi(table, marks, room, scratch),
        Condition::Streett { pairs } => judge_streett(table, pairs, room, scratch),
        Condition::Rabin { pairs, ref needs } => judge_rabin(table, pairs, needs, room, scratch),
    }
}

/// Translates a table; the answer in plain numbers.
#[must_use]
#[rustfmt::skip]
pub fn one_mark(
    table: &Table,
    k: u32,
    out_from: &mut [u32],
    out_to: &mut [u32],
    out_marks: &mut [u32],
) -> TranslatedTable {
    let Table { states: n, start, from, to, marks } = *table;
    // Safety: each pointer comes with the length of its own slice; the outputs are `&mut`, so they overlap nothing.
    unsafe {
        mukhadero_one_mark(
            n, start, from.as_ptr(), from.len(), to.as_ptr(), to.len(), marks.as_ptr(), marks.len(), k,
            out_from.as_mut_ptr(), out_from.len(), out_to.as_mut_ptr(), out_to.len(), out_marks.as_mut_ptr(), out_marks.len(),
        )
    }
}

/// Reads a text in the Hanoi format into lent tables; the answer in plain numbers.
#[must_use]
#[rustfmt::skip]
pub fn read_hoa(text: &[u8], from: &mut [u32], to: &mut [u32], marks: &mut [u32]) -> ReadText {
    // Safety: each pointer comes with the length of its own slice; the tables are `&mut`, so they overlap nothing.
    unsafe {
        mukhadero_read_hoa(
            text.as_ptr(), text.len(), from.as_mut_ptr(), from.len(), to.as_mut_ptr(), to.len(), marks.as_mut_ptr(), marks.len(),
        )
    }
}

/// Writes a table under a condition as a text in the Hanoi format; the answer in plain numbers.
#[must_use]
#[rustfmt::skip]
pub fn write_hoa(table: &Table, condition: &Condition, out: &mut [u8]) -> WrittenText {
    let Table { states: n, start, from, to, marks } = *table;
    // Safety: each pointer comes with the length of its own slice; the output is `&mut`, so it overlaps nothing; the needs are eight cells.
    unsafe {
        match *condition {
            Condition::Buchi { marks: k } => mukhadero_write_hoa_buchi(
                n, start, from.as_ptr(), from.len(), to.as_ptr(), to.len(), marks.as_ptr(), marks.len(), k, out.as_mut_ptr(), out.len(),
            ),
            Condition::Streett { pairs } => mukhadero_write_hoa_streett(
                n, start, from.as_ptr(), from.len(), to.as_ptr(), to.len(), marks.as_ptr(), marks.len(), pairs, out.as_mut_ptr(), out.len(),
            ),
            Condition::Rabin { pairs, ref needs } => mukhadero_write_hoa_rabin(
                n, start, from.as_ptr(), from.len(), to.as_ptr(), to.len(), marks.as_ptr(), marks.len(), pairs, needs, out.as_mut_ptr(), out.len(),
            ),
        }
    }
}

/// Writes a table read as Büchi 1 as a job text; the answer in plain numbers.
#[must_use]
#[rustfmt::skip]
pub fn write_job(table: &Table, out: &mut [u8]) -> WrittenText {
    let Table { states: n, start, from, to, marks } = *table;
    // Safety: each pointer comes with the length of its own slice; the output is `&mut`, so it overlaps nothing.
    unsafe {
        mukhadero_write_job(
            n, start, from.as_ptr(), from.len(), to.as_ptr(), to.len(), marks.as_ptr(), marks.len(), out.as_mut_ptr(), out.len(),
        )
    }
}
