//! How the lent scratch is laid out: columns of one or more words for each state, and behind them the parts that are kept.

use crate::Table;
use std::ops::Range;

/// Not yet met by the division at hand. It is above every position.
pub const UNSEEN: u32 = 1 << 31;
/// In a finished part, or not in the region that is being divided. It is above `UNSEEN`.
pub const DONE: u32 = u32::MAX;

/// A state on the path, and its next edge to look at.
pub type Step = [u32; 2];
/// A root below the topmost: the position at which its segment begins, `got` and `into` (see [`crate::parts`]).
pub type Root = [u32; 3];

/// The table and the scratch. While a table is divided, the live states are those that are met and not done.
pub struct Work<'t, 's> {
    pub to: &'t [u32],
    pub marks: &'t [u32],
    /// The row of state s is the edges `row[s]..row[s + 1]`.
    pub row: &'s mut [u32],
    /// What is known of a state: its position among the live ones, `UNSEEN` or `DONE`.
    pub place: &'s mut [u32],
    /// The live states in the order in which they were met.
    pub live: &'s mut [u32],
    /// The live states whose rows are not done with, but for the last: each one's last edge looked at met the next.
    pub path: &'s mut [Step],
    /// The roots, but for the last.
    pub roots: &'s mut [Root],
    pub kept: Kept<'s>,
}

impl<'t, 's> Work<'t, 's> {
    /// Lays out the scratch and finds the rows; no state is seen. The table has passed rows 1 to 9.
    pub fn new(table: &Table<'t>, scratch: &'s mut [u32]) -> Self {
        let n = table.states as usize;
        let (row, scratch) = scratch.split_at_mut(n + 1);
        let (place, scratch) = scratch.split_at_mut(n);
        let (live, scratch) = scratch.split_at_mut(n);
        let (path, scratch) = scratch.split_at_mut(2 * n);
        let (roots, kept) = scratch.split_at_mut(3 * n);
        find_rows(table.from, row);
        place.fill(UNSEEN);
        Work {
            to: table.to,
            marks: table.marks,
            row,
            place,
            live,
            path: path.as_chunks_mut().0,
            roots: roots.as_chunks_mut().0,
            kept: Kept { words: kept, end: 0 },
        }
    }
}

/// Each edge leaves its number, plus 1, where the row of its from state ends; the last one stays. Then the gaps are filled.
fn find_rows(from: &[u32], row: &mut [u32]) {
    row.fill(0);
    for (e, &s) in from.iter().enumerate() {
        row[s as usize + 1] = e as u32 + 1;
    }
    let mut end = 0;
    for row_end in row {
        end = end.max(*row_end);
        *row_end = end;
    }
}

/// A stack of regions to be divided: the start state alone, then parts to be divided again. A region is its states, then a set of
/// marks, then the number of its states.
///
/// The 4m + 63 words behind the columns hold it: a part that is kept has an inner edge, and no more states than inner edges, or is a
/// stop state with an edge into it, or the start; so parts without a state in common take at most 3m + 3; the region at hand, under
/// the parts that are found in it, takes at most m more; and the start state takes 3.
pub struct Kept<'s> {
    words: &'s mut [u32],
    end: usize,
}

/// Where the states of a region stand, and its marks.
pub struct Region {
    pub states: Range<usize>,
    pub marks: u32,
}

impl Kept<'_> {
    pub fn push(&mut self, states: &[u32], marks: u32) {
        let (cells, behind) = self.words[self.end..].split_at_mut(states.len());
        cells.copy_from_slice(states);
        behind[..2].copy_from_slice(&[marks, states.len() as u32]);
        self.end += states.len() + 2;
    }

    /// The region that ends at a word, or nothing at the bottom.
    fn before(&self, end: usize) -> Option<Region> {
        let marks = end.checked_sub(2)?;
        let count = self.words[marks + 1] as usize;
        Some(Region { states: marks - count..marks, marks: self.words[marks] })
    }

    pub fn top(&self) -> Option<Region> {
        self.before(self.end)
    }

    /// The region under another one.
    pub fn under(&self, region: &Region) -> Option<Region> {
        self.before(region.states.start)
    }

    /// Takes a region out; what stands above it moves down.
    pub fn take(&mut self, region: &Region) {
        let above = region.states.end + 2;
        self.words.copy_within(above..self.end, region.states.start);
        self.end -= above - region.states.start;
    }

    pub fn states(&self, region: &Region) -> &[u32] {
        &self.words[region.states.clone()]
    }

    /// The state at a word of a region.
    pub fn state(&self, word: usize) -> u32 {
        self.words[word]
    }
}
