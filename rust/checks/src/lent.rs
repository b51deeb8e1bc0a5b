//! Lent buffers: each stands between guard cells, and what it held before is kept beside it.

use crate::case::Case;
use crate::random::Random;
use mukhadero::Condition;

const GUARD: usize = 16;

/// A lent buffer between guard cells.
pub struct Lent {
    cells: Vec<u32>,
    before: Vec<u32>,
}

impl Lent {
    /// A buffer that holds these cells, between guards of junk.
    fn holding(contents: &[u32], random: &mut Random) -> Self {
        let mut cells = Vec::with_capacity(GUARD + contents.len() + GUARD);
        cells.extend((0..GUARD).map(|_| random.junk()));
        cells.extend_from_slice(contents);
        cells.extend((0..GUARD).map(|_| random.junk()));
        Lent { before: cells.clone(), cells }
    }

    /// A buffer of so many cells of junk: a judge may not count on what it is lent.
    fn junk(length: usize, random: &mut Random) -> Self {
        let cells: Vec<u32> = (0..GUARD + length + GUARD).map(|_| random.junk()).collect();
        Lent { before: cells.clone(), cells }
    }

    /// The part that is lent.
    pub fn part(&self) -> &[u32] {
        &self.cells[GUARD..self.cells.len() - GUARD]
    }

    pub fn part_mut(&mut self) -> &mut [u32] {
        let end = self.cells.len() - GUARD;
        &mut self.cells[GUARD..end]
    }

    /// The whole buffer with its guards: only for those who mean to spoil it.
    pub fn with_guards_mut(&mut self) -> &mut [u32] {
        &mut self.cells
    }

    pub fn guards_stand(&self) -> bool {
        let end = self.cells.len() - GUARD;
        self.cells[..GUARD] == self.before[..GUARD] && self.cells[end..] == self.before[end..]
    }

    pub fn untouched(&self) -> bool {
        // a callee in another language may have written where the compiler sees no writer
        std::hint::black_box(&self.cells) == &self.before
    }
}

/// All that is lent to a judge for one case.
pub struct JudgeLoan {
    pub from: Lent,
    pub to: Lent,
    pub marks: Lent,
    /// Rabin's eight needs; junk, and not lent, for other kinds.
    pub needs: Lent,
    pub room: Lent,
    pub scratch: Lent,
}

impl JudgeLoan {
    pub fn new(case: &Case, random: &mut Random) -> Self {
        let needs = match case.condition {
            Condition::Rabin { ref needs, .. } => Lent::holding(needs, random),
            _ => Lent::junk(8, random),
        };
        JudgeLoan {
            from: Lent::holding(&case.from, random),
            to: Lent::holding(&case.to, random),
            marks: Lent::holding(&case.marks, random),
            needs,
            room: Lent::junk(case.room, random),
            scratch: Lent::junk(case.scratch, random),
        }
    }
}

/// All that is lent to the translation for one case.
pub struct TranslationLoan {
    pub from: Lent,
    pub to: Lent,
    pub marks: Lent,
    pub out_from: Lent,
    pub out_to: Lent,
    pub out_marks: Lent,
}

impl TranslationLoan {
    pub fn new(case: &Case, outputs: [usize; 3], random: &mut Random) -> Self {
        TranslationLoan {
            from: Lent::holding(&case.from, random),
            to: Lent::holding(&case.to, random),
            marks: Lent::holding(&case.marks, random),
            out_from: Lent::junk(outputs[0], random),
            out_to: Lent::junk(outputs[1], random),
            out_marks: Lent::junk(outputs[2], random),
        }
    }
}
