//! Refusals: their numbers (docs/RULES.md, "What comes back") and their places.

use std::fmt;

/// Why a table was refused. The numbers are those of docs/RULES.md, "What comes back", which also says which of several causes is
/// told.
#[derive(Clone, Copy, Debug, PartialEq, Eq, Hash)]
#[non_exhaustive]
pub enum Cause {
    /// Number 1: there are no states, or more than [`MOST_STATES`](crate::MOST_STATES).
    States,
    /// Number 2: `from`, `to` and `marks` differ in length, or there are more than [`MOST_EDGES`](crate::MOST_EDGES) edges.
    Edges,
    /// Number 3: the start is not below the number of states.
    Start,
    /// Number 4: more than 32 Büchi marks, 16 Streett pairs or 8 Rabin pairs; a Rabin need from `pairs` on that is not 0; or more
    /// than 32 Rabin marks in all, counting one forbidden mark and the needed ones of each pair.
    Condition,
    /// Number 5: an edge leaves or arrives at a number that is not below the number of states. The place is the first such edge.
    EdgeEnd,
    /// Number 6: an edge leaves a lower state than the edge before it does: the edges must be sorted by `from`. The place is the
    /// edge.
    EdgeOrder,
    /// Number 7: an edge bears a mark that the condition does not use: Büchi uses as many as it has marks, Streett two a pair, Rabin
    /// one and its need a pair. The place is the edge.
    EdgeMark,
    /// Number 8: the lasso room is shorter than [`room_needed`](crate::room_needed) says. Never told by [`Judge`](crate::Judge).
    Room,
    /// Number 9: the scratch is shorter than [`scratch_needed`](crate::scratch_needed) says. Never told by
    /// [`Judge`](crate::Judge).
    Scratch,
    /// Number 10, translation only: the translated table, with max(k, 1) times the states and edges, would have more than 4,096
    /// states or 32,768 edges.
    TableSize,
    /// Number 11: an output is shorter than the translated edge count, max(k, 1) times the table's; than the edges that were read; or
    /// than the text that was to be written.
    Output,
    /// Number 40: the text is not of the Hanoi format, version 1. The place is the byte where the faulty token begins.
    HoaSyntax,
    /// Number 41: the text is outside of what is read of the Hanoi format. The place is the byte.
    HoaSubset,
    /// Number 42: the text or, where one was to be written, the table is above the limits of the Hanoi format's reader and writer. The
    /// place is the byte, or 0.
    HoaLimits,
    /// A number that this crate does not know: the archive is of another version (see [`version`](crate::version)).
    Unknown(u32),
}

impl Cause {
    pub(crate) fn of(number: u32) -> Self {
        match number {
            1 => Cause::States,
            2 => Cause::Edges,
            3 => Cause::Start,
            4 => Cause::Condition,
            5 => Cause::EdgeEnd,
            6 => Cause::EdgeOrder,
            7 => Cause::EdgeMark,
            8 => Cause::Room,
            9 => Cause::Scratch,
            10 => Cause::TableSize,
            11 => Cause::Output,
            40 => Cause::HoaSyntax,
            41 => Cause::HoaSubset,
            42 => Cause::HoaLimits,
            number => Cause::Unknown(number),
        }
    }

    /// The number of the cause, as in the printed answer and in `mukhadero.h`.
    #[must_use]
    pub fn number(self) -> u32 {
        match self {
            Cause::States => 1,
            Cause::Edges => 2,
            Cause::Start => 3,
            Cause::Condition => 4,
            Cause::EdgeEnd => 5,
            Cause::EdgeOrder => 6,
            Cause::EdgeMark => 7,
            Cause::Room => 8,
            Cause::Scratch => 9,
            Cause::TableSize => 10,
            Cause::Output => 11,
            Cause::HoaSyntax => 40,
            Cause::HoaSubset => 41,
            Cause::HoaLimits => 42,
            Cause::Unknown(number) => number,
        }
    }
}

impl fmt::Display for Cause {
    fn fmt(&self, f: &mut fmt::Formatter) -> fmt::Result {
        f.write_str(match self {
            Cause::States => "the number of states is 0 or above 4096",
            Cause::Edges => "the edge tables differ in length, or have more than 32768 edges",
            Cause::Start => "the start is not below the number of states",
            Cause::Condition => "the condition has too many marks or pairs, or a need behind its pairs",
            Cause::EdgeEnd => "an edge end is not below the number of states",
            Cause::EdgeOrder => "an edge's from is below the one before it",
            Cause::EdgeMark => "an edge bears a mark that the condition does not use",
            Cause::Room => "the lasso room is too short",
            Cause::Scratch => "the scratch is too short",
            Cause::TableSize => "the translated table would be too large",
            Cause::Output => "a lent output is too short",
            Cause::HoaSyntax => "the text is not of the Hanoi format",
            Cause::HoaSubset => "the text is outside of what is read of the Hanoi format",
            Cause::HoaLimits => "above the limits of the Hanoi format's reader and writer",
            Cause::Unknown(_) => "a cause that this crate does not know",
        })
    }
}

/// A refusal: its cause and its place, which is the edge for the causes that name one, else 0.
#[must_use]
#[derive(Clone, Copy, Debug, PartialEq, Eq, Hash)]
pub struct Refusal {
    /// Why.
    pub cause: Cause,
    /// Where.
    pub place: u32,
}

impl Refusal {
    pub(crate) fn of(number: u32, place: u32) -> Self {
        Refusal { cause: Cause::of(number), place }
    }
}

impl fmt::Display for Refusal {
    fn fmt(&self, f: &mut fmt::Formatter) -> fmt::Result {
        write!(f, "{} (number {}", self.cause, self.cause.number())?;
        match self.cause {
            Cause::EdgeEnd | Cause::EdgeOrder | Cause::EdgeMark => write!(f, ", edge {})", self.place),
            _ => f.write_str(")"),
        }
    }
}

impl std::error::Error for Refusal {}
