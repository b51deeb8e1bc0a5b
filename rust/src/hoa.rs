//! Tables read from and written to the Hanoi format (docs/RULES.md, "The Hanoi format").

use crate::{ffi, Cause, Condition, Refusal, Table};
use std::fmt;

/// Most states of a text that is read or written.
pub const MOST_HOA_STATES: u32 = 256;
/// Most edges of a text that is read or written; tables of so many cells are never too short to be read into.
pub const MOST_HOA_EDGES: usize = 512;
/// Bytes of the longest text that is written; an output of so many is never too short.
pub const MOST_HOA_BYTES: usize = 52205;

/// What a text says. Its edges stand in the lent tables.
#[must_use]
#[derive(Clone, Copy, Debug, PartialEq, Eq)]
pub struct HoaText {
    /// Number of states.
    pub states: u32,
    /// The start state.
    pub start: u32,
    /// Number of edges; cells of the tables from here on are 0.
    pub edges: usize,
    /// The condition.
    pub condition: Condition,
}

/// A text that is refused: why, and at which byte.
#[must_use]
#[derive(Clone, Copy, Debug, PartialEq, Eq, Hash)]
pub struct HoaRefusal {
    /// Why: [`Cause::HoaSyntax`], [`Cause::HoaSubset`], [`Cause::HoaLimits`], or [`Cause::Output`] for tables that are too short.
    pub cause: Cause,
    /// The byte where the faulty token begins, or the text's end; 0 for tables that are too short.
    pub place: u64,
}

impl fmt::Display for HoaRefusal {
    fn fmt(&self, f: &mut fmt::Formatter) -> fmt::Result {
        write!(f, "{} (number {}, byte {})", self.cause, self.cause.number(), self.place)
    }
}

impl std::error::Error for HoaRefusal {}

/// Reads a text into lent tables: its edges, sorted by the states that they leave, then zeros.
///
/// # Errors
///
/// [`Cause`]'s numbers 40 to 42 at the first faulty token, then 11. A refusal leaves the tables as they were.
///
/// ```
/// use mukhadero::{read_hoa, Cause, Condition, MOST_HOA_EDGES};
///
/// let text = b"HOA: v1 States: 1 Start: 0 AP: 1 \"a\" Acceptance: 1 Inf(0) --BODY-- State: 0 [0] 0 {0} [!0] 0 --END--";
/// let (mut from, mut to, mut marks) = ([9; MOST_HOA_EDGES], [9; MOST_HOA_EDGES], [9; MOST_HOA_EDGES]);
/// let read = read_hoa(text, &mut from, &mut to, &mut marks)?;
/// assert_eq!((read.states, read.start, read.edges, read.condition), (1, 0, 2, Condition::Buchi { marks: 1 }));
/// assert_eq!((&marks[..2], marks[2]), (&[1, 0][..], 0));
///
/// let refusal = read_hoa(b"HOA: v1 Start: 0&1", &mut from, &mut to, &mut marks).unwrap_err();
/// assert_eq!((refusal.cause, refusal.place), (Cause::HoaSubset, 16));
/// # Ok::<(), mukhadero::HoaRefusal>(())
/// ```
pub fn read_hoa(text: &[u8], from: &mut [u32], to: &mut [u32], marks: &mut [u32]) -> Result<HoaText, HoaRefusal> {
    let read = ffi::read_hoa(text, from, to, marks);
    if read.number != 0 {
        return Err(HoaRefusal { cause: Cause::of(read.number), place: read.place });
    }
    let condition = match read.kind {
        ffi::KIND_BUCHI => Condition::Buchi { marks: read.count },
        ffi::KIND_STREETT => Condition::Streett { pairs: read.count },
        _ => Condition::Rabin { pairs: read.count, needs: read.needs },
    };
    Ok(HoaText { states: read.states, start: read.start, edges: read.edges as usize, condition })
}

/// Writes a table under a condition as a text in the Hanoi format; gives the text's bytes. Zeros stand behind them.
///
/// # Errors
///
/// [`Cause`]'s numbers 1 to 7, then 42 and 11. A refusal leaves the output as it was.
///
/// ```
/// use mukhadero::{write_hoa, Condition, Table, MOST_HOA_BYTES};
///
/// let table = Table { states: 1, start: 0, from: &[0], to: &[0], marks: &[0b1] };
/// let mut out = [0; MOST_HOA_BYTES];
/// let text = write_hoa(&table, &Condition::Buchi { marks: 1 }, &mut out)?;
/// assert_eq!(text, b"HOA: v1\nStates: 1\nStart: 0\nAP: 0\nAcceptance: 1 Inf(0)\n--BODY--\nState: 0\n[t] 0 {0}\n--END--\n");
/// # Ok::<(), mukhadero::Refusal>(())
/// ```
pub fn write_hoa<'o>(table: &Table, condition: &Condition, out: &'o mut [u8]) -> Result<&'o [u8], Refusal> {
    let written = ffi::write_hoa(table, condition, out);
    if written.number != 0 {
        return Err(Refusal::of(written.number, written.place));
    }
    Ok(&out[..written.length as usize])
}
