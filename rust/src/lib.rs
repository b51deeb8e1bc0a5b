//! Does a table hold an accepted lasso?
//!
//! A *table* has states, a start state and edges; each edge bears a set of *marks*. A *lasso* is a prefix (a walk from the start,
//! perhaps empty) and a cycle (a non-empty walk from the end of the prefix back to it). A [`Condition`] says which lassos are
//! accepted. [`judge`] answers with an accepted lasso, with "empty" if there is none, or with a numbered [`Refusal`].
//!
//! The judge itself is a proved library, linked as a C archive: a false "run" and a false "empty" are both ruled out by proof, for
//! every input. This crate is not proved; it only turns slices into pointers and numbers into enums. It allocates only in
//! [`Judge`], which keeps room and scratch for those who do not want to lend their own. Calls may run at the same time in several
//! threads; a call takes less than 64 KB of stack, reading a text in the Hanoi format less than 96 KB. The archive is for x86-64
//! Linux. docs/RULES.md of the repository has the rules, complete.
//!
//! # Example
//!
//! ```
//! use mukhadero::{Condition, Judge, Table, Verdict};
//!
//! // 0>1{}, 1>2{0}, 2>1{1}
//! let table = Table { states: 3, start: 0, from: &[0, 1, 2], to: &[1, 2, 1], marks: &[0b00, 0b01, 0b10] };
//! let mut judge = Judge::new();
//!
//! // Both marks come round for ever: first edge 0, then edges 1 and 2 again and again.
//! match judge.judge(&table, &Condition::Buchi { marks: 2 })? {
//!     Verdict::Run(lasso) => {
//!         assert_eq!(lasso.prefix, [0]);
//!         assert_eq!(lasso.cycle, [1, 2]);
//!     }
//!     Verdict::Empty { .. } => unreachable!(),
//! }
//!
//! // A third mark is borne by no edge.
//! assert_eq!(judge.judge(&table, &Condition::Buchi { marks: 3 })?, Verdict::Empty { depth: 0 });
//! # Ok::<(), mukhadero::Refusal>(())
//! ```
//!
//! A refusal says what was wrong, and where:
//!
//! ```
//! use mukhadero::{Cause, Condition, Judge, Table};
//!
//! let table = Table { states: 2, start: 0, from: &[0, 1], to: &[1, 2], marks: &[0, 0] };
//! let refusal = Judge::new().judge(&table, &Condition::Buchi { marks: 0 }).unwrap_err();
//! assert_eq!(refusal.cause, Cause::EdgeEnd);
//! assert_eq!((refusal.cause.number(), refusal.place), (5, 1));
//! assert_eq!(refusal.to_string(), "an edge end is not below the number of states (number 5, edge 1)");
//! ```

#![warn(missing_docs)]

pub mod ffi;
mod hoa;
mod job;
mod refusal;

pub use hoa::{read_hoa, write_hoa, HoaRefusal, HoaText, MOST_HOA_BYTES, MOST_HOA_EDGES, MOST_HOA_STATES};
pub use job::{write_job, MOST_JOB_BYTES};
pub use refusal::{Cause, Refusal};

/// The version of this crate as the archive numbers its own: 10,000 for the major number, 100 for the minor, 1 for the patch.
pub const VERSION: u32 = 20_000;

/// The version of the linked archive; an archive that fits this crate gives [`VERSION`].
///
/// ```
/// assert_eq!(mukhadero::version(), mukhadero::VERSION);
/// ```
#[must_use]
pub fn version() -> u32 {
    ffi::version()
}

/// The waiting edge of a stop state, one that no edge of the table leaves: it leads to the state itself and bears no marks. It stands
/// in no table; in a [`Lasso`] it says that the walk waits there for ever.
///
/// ```
/// use mukhadero::{Condition, Judge, Table, Verdict, STOP};
///
/// // 0>1{}: state 1 is a stop state
/// let table = Table { states: 2, start: 0, from: &[0], to: &[1], marks: &[0] };
/// let mut judge = Judge::new();
/// let Verdict::Run(lasso) = judge.judge(&table, &Condition::Buchi { marks: 0 })? else { unreachable!() };
/// assert_eq!((lasso.prefix, lasso.cycle), (&[0][..], &[STOP][..]));
/// # Ok::<(), mukhadero::Refusal>(())
/// ```
pub const STOP: u32 = 65535;

/// Most states of a table.
pub const MOST_STATES: u32 = 4096;
/// Most edges of a table.
pub const MOST_EDGES: usize = 32768;
/// Most needed marks, pairs or marks that a condition that is not refused can ask of one cycle.
const MOST_WANTED: u32 = 32;

/// A table. Edge `e` leads from state `from[e]` to state `to[e]` and bears mark `i` if bit `i` of `marks[e]` is set.
///
/// The three slices have the same length and `from` never decreases; a table that breaks this is refused, never misread.
#[derive(Clone, Copy, Debug, PartialEq, Eq)]
pub struct Table<'a> {
    /// Number of states; they are numbered from 0.
    pub states: u32,
    /// The start state.
    pub start: u32,
    /// The state each edge leaves.
    pub from: &'a [u32],
    /// The state each edge arrives at.
    pub to: &'a [u32],
    /// The marks on each edge.
    pub marks: &'a [u32],
}

/// Which lassos are accepted, by the marks on their cycle. The prefix may bear any marks.
#[derive(Clone, Copy, Debug, PartialEq, Eq)]
pub enum Condition {
    /// The cycle bears each of the marks 0 to `marks - 1`. At most 32 marks.
    Buchi {
        /// Number of marks.
        marks: u32,
    },
    /// For each pair `i`, if the cycle bears mark `2i` then it bears mark `2i + 1`. At most 16 pairs.
    Streett {
        /// Number of pairs.
        pairs: u32,
    },
    /// Marks are dealt out in order: pair `i` takes one forbidden mark, then `needs[i]` needed marks. For some pair the cycle
    /// bears all the needed marks and not the forbidden one. At most 8 pairs and 32 marks in all; needs from `pairs` on are 0.
    Rabin {
        /// Number of pairs.
        pairs: u32,
        /// Needed marks of each pair.
        needs: [u32; 8],
    },
}

impl Condition {
    /// Rabin with one pair for each of these needs.
    ///
    /// # Errors
    ///
    /// [`Cause::Condition`] for more than 8 needs, as the judge would say. Needs that come to more than 32 marks are left to the
    /// judge.
    ///
    /// ```
    /// use mukhadero::{Cause, Condition};
    ///
    /// // Pair 0: mark 0 forbidden, marks 1 and 2 needed. Pair 1: mark 3 forbidden, nothing needed.
    /// assert_eq!(Condition::rabin(&[2, 0])?, Condition::Rabin { pairs: 2, needs: [2, 0, 0, 0, 0, 0, 0, 0] });
    /// assert_eq!(Condition::rabin(&[0; 9]).unwrap_err().cause, Cause::Condition);
    /// # Ok::<(), mukhadero::Refusal>(())
    /// ```
    pub fn rabin(needs: &[u32]) -> Result<Self, Refusal> {
        let mut eight = [0; 8];
        match eight.get_mut(..needs.len()) {
            Some(first) => first.copy_from_slice(needs),
            None => return Err(Refusal { cause: Cause::Condition, place: 0 }),
        }
        Ok(Condition::Rabin { pairs: needs.len() as u32, needs: eight })
    }

    /// The number of marks that a cycle may have to collect: the marks, the pairs, or the largest need.
    fn wanted(&self) -> u32 {
        match *self {
            Condition::Buchi { marks } => marks,
            Condition::Streett { pairs } => pairs,
            Condition::Rabin { needs, .. } => needs.into_iter().max().unwrap_or(0),
        }
    }
}

/// An accepted lasso. The cells stand in the lent room.
#[must_use]
#[derive(Clone, Copy, Debug, PartialEq, Eq)]
pub struct Lasso<'r> {
    /// Edges from the start to where the cycle begins; fewer than the table has states.
    pub prefix: &'r [u32],
    /// Edges of the cycle; at least one.
    pub cycle: &'r [u32],
    /// For a Rabin condition the lowest pair that some lasso meets; this lasso meets it.
    pub pair: Option<u32>,
}

/// What the judge says of a table that it does not refuse.
#[must_use]
#[derive(Clone, Copy, Debug, PartialEq, Eq)]
pub enum Verdict<'r> {
    /// There is an accepted lasso; here is one.
    Run(Lasso<'r>),
    /// There is none.
    Empty {
        /// For a Streett condition how deep the erasing went: the deepest level of the erasing tree, 1 to the number of pairs; else 0.
        depth: u32,
    },
}

/// Cells of lasso room that are enough for a number of states and a condition.
///
/// For input that is refused anyway the number is merely some bound.
///
/// ```
/// use mukhadero::{room_needed, Condition};
/// assert_eq!(room_needed(1, &Condition::Buchi { marks: 1 }), 2);
/// ```
#[must_use]
pub fn room_needed(states: u32, condition: &Condition) -> usize {
    (condition.wanted().min(MOST_WANTED) as usize + 2) * states.clamp(1, MOST_STATES) as usize - 1
}

/// Words of scratch that are enough for a number of states and edges.
///
/// ```
/// assert_eq!(mukhadero::scratch_needed(3, 3), 8 * 3 + 4 * 3 + 64);
/// ```
#[must_use]
pub fn scratch_needed(states: u32, edges: usize) -> usize {
    8 * states.min(MOST_STATES) as usize + 4 * edges.min(MOST_EDGES) + 64
}

/// Judges a table in lent room and scratch. Nothing is allocated; what both hold before does not matter.
///
/// Afterwards the room holds the prefix, the cycle and then zeros (all zeros if the verdict is empty), and the scratch holds zeros.
/// A refusal leaves both as they were.
///
/// # Errors
///
/// The first cause of [`Cause`]'s numbers 1 to 9, in the order of the numbers except that edges are looked at one by one (numbers
/// 5, 6 and 7 in this order within an edge).
///
/// ```
/// use mukhadero::{judge, room_needed, scratch_needed, Cause, Condition, Table, Verdict};
///
/// let table = Table { states: 1, start: 0, from: &[0], to: &[0], marks: &[0b01] };
/// let condition = Condition::Rabin { pairs: 2, needs: [0; 8] };
/// let mut room = vec![0; room_needed(1, &condition)];
/// let mut scratch = vec![0; scratch_needed(1, 1)];
///
/// // The only edge bears the mark that pair 0 forbids, and not the one that pair 1 forbids.
/// let Verdict::Run(lasso) = judge(&table, &condition, &mut room, &mut scratch)? else { panic!() };
/// assert_eq!((lasso.prefix, lasso.cycle, lasso.pair), (&[][..], &[0][..], Some(1)));
///
/// let refusal = judge(&table, &condition, &mut [], &mut scratch).unwrap_err();
/// assert_eq!(refusal.cause, Cause::Room);
/// # Ok::<(), mukhadero::Refusal>(())
/// ```
pub fn judge<'r>(table: &Table, condition: &Condition, room: &'r mut [u32], scratch: &mut [u32]) -> Result<Verdict<'r>, Refusal> {
    let answer = ffi::judge(table, condition, room, scratch);
    match answer.verdict {
        ffi::RUN => {
            let (prefix, behind) = room.split_at(answer.prefix_length as usize);
            let cycle = &behind[..answer.cycle_length as usize];
            let pair = matches!(condition, Condition::Rabin { .. }).then_some(answer.pair);
            Ok(Verdict::Run(Lasso { prefix, cycle, pair }))
        }
        ffi::EMPTY => Ok(Verdict::Empty { depth: answer.depth }),
        _ => Err(Refusal::of(answer.number, answer.place)),
    }
}

/// A judge with room and scratch of its own, which grow to what the largest table so far needed.
///
/// ```
/// use mukhadero::{Condition, Judge, Table, Verdict};
///
/// let table = Table { states: 2, start: 0, from: &[], to: &[], marks: &[] };
/// assert_eq!(Judge::new().judge(&table, &Condition::Buchi { marks: 1 }), Ok(Verdict::Empty { depth: 0 }));
/// ```
#[derive(Clone, Debug, Default)]
pub struct Judge {
    room: Vec<u32>,
    scratch: Vec<u32>,
}

impl Judge {
    /// A judge without any room yet.
    #[must_use]
    pub fn new() -> Self {
        Self::default()
    }

    /// Judges a table, as the function [`judge`] does.
    ///
    /// # Errors
    ///
    /// As for the function, except that room and scratch are never too short.
    pub fn judge(&mut self, table: &Table, condition: &Condition) -> Result<Verdict<'_>, Refusal> {
        self.room.resize(room_needed(table.states, condition), 0);
        self.scratch.resize(scratch_needed(table.states, table.from.len()), 0);
        judge(table, condition, &mut self.room, &mut self.scratch)
    }
}

/// The counts and the start of a translated table. Its edges stand in the lent outputs.
#[must_use]
#[derive(Clone, Copy, Debug, PartialEq, Eq)]
pub struct Translated {
    /// Number of states.
    pub states: u32,
    /// Number of edges; output cells from here on are 0.
    pub edges: usize,
    /// The start state.
    pub start: u32,
}

/// The one-mark translation of a table under Büchi with `k` marks, to be read as Büchi with one mark.
///
/// With K = max(k, 1), state s at level j has number s·K + j. The translated table has K times the states and edges.
///
/// # Errors
///
/// [`Cause`]'s numbers 1 to 7, then 10 and 11. A refusal leaves the outputs as they were.
///
/// ```
/// use mukhadero::{one_mark, Table};
///
/// let table = Table { states: 3, start: 0, from: &[0, 1, 2], to: &[1, 2, 1], marks: &[0b00, 0b01, 0b10] };
/// let (mut from, mut to, mut marks) = ([9; 7], [9; 7], [9; 7]);
/// let made = one_mark(&table, 2, &mut from, &mut to, &mut marks)?;
/// assert_eq!((made.states, made.edges, made.start), (6, 6, 0));
/// assert_eq!(from, [0, 1, 2, 3, 4, 5, 0]);
/// assert_eq!(to, [2, 3, 5, 5, 2, 2, 0]);
/// assert_eq!(marks, [0, 0, 0, 0, 0, 1, 0]);
/// # Ok::<(), mukhadero::Refusal>(())
/// ```
pub fn one_mark(
    table: &Table,
    k: u32,
    out_from: &mut [u32],
    out_to: &mut [u32],
    out_marks: &mut [u32],
) -> Result<Translated, Refusal> {
    let made = ffi::one_mark(table, k, out_from, out_to, out_marks);
    if made.number != 0 {
        return Err(Refusal::of(made.number, made.place));
    }
    Ok(Translated { states: made.states, edges: made.edges as usize, start: made.start })
}
