//! The judges that can be put under test, all behind the plain numbers of the C face.

use crate::case::Case;
use crate::lent::{JudgeLoan, TranslationLoan};
use mukhadero::ffi::{self, Answer, TranslatedTable};
use mukhadero::{Condition, Table};

pub trait Judge {
    /// Judges a case whose tables, room and scratch are lent.
    fn judge(&self, case: &Case, loan: &mut JudgeLoan) -> Answer;

    /// Translates a case's table under Büchi k.
    fn one_mark(&self, case: &Case, k: u32, loan: &mut TranslationLoan) -> TranslatedTable;
}

/// A case's table, with its edges as they are lent.
fn table_over<'a>(case: &Case, from: &'a [u32], to: &'a [u32], marks: &'a [u32]) -> Table<'a> {
    Table { states: case.states, start: case.start, from, to, marks }
}

/// The archive that the wrapper links: the proved judge, or its stand-in.
pub struct Archive;

impl Judge for Archive {
    fn judge(&self, case: &Case, loan: &mut JudgeLoan) -> Answer {
        let table = table_over(case, loan.from.part(), loan.to.part(), loan.marks.part());
        let (room, scratch) = (loan.room.part_mut(), loan.scratch.part_mut());
        match case.condition {
            Condition::Buchi { marks } => ffi::judge_buchi(&table, marks, room, scratch),
            Condition::Streett { pairs } => ffi::judge_streett(&table, pairs, room, scratch),
            Condition::Rabin { pairs, .. } => {
                let needs = loan.needs.part().try_into().expect("eight needs are lent");
                ffi::judge_rabin(&table, pairs, needs, room, scratch)
            }
        }
    }

    fn one_mark(&self, case: &Case, k: u32, loan: &mut TranslationLoan) -> TranslatedTable {
        let table = table_over(case, loan.from.part(), loan.to.part(), loan.marks.part());
        ffi::one_mark(&table, k, loan.out_from.part_mut(), loan.out_to.part_mut(), loan.out_marks.part_mut())
    }
}

/// The plain judge.
pub struct Plain;

/// A condition as the plain judge takes it.
pub fn plain_condition(condition: &Condition) -> plain::Condition {
    match *condition {
        Condition::Buchi { marks } => plain::Condition::Buchi(marks),
        Condition::Streett { pairs } => plain::Condition::Streett(pairs),
        Condition::Rabin { pairs, needs } => plain::Condition::Rabin(pairs, needs),
    }
}

/// A table as the plain judge takes it.
pub fn plain_table<'a>(table: &Table<'a>) -> plain::Table<'a> {
    plain::Table { states: table.states, start: table.start, from: table.from, to: table.to, marks: table.marks }
}

impl Judge for Plain {
    fn judge(&self, case: &Case, loan: &mut JudgeLoan) -> Answer {
        let table = plain_table(&table_over(case, loan.from.part(), loan.to.part(), loan.marks.part()));
        let verdict = plain::judge(&table, &plain_condition(&case.condition), loan.room.part_mut(), loan.scratch.part_mut());
        let none = Answer { verdict: ffi::REFUSED, number: 0, place: 0, pair: 0, prefix_length: 0, cycle_length: 0, depth: 0 };
        match verdict {
            plain::Verdict::Refused { number, place } => Answer { number, place, ..none },
            plain::Verdict::Empty { depth } => Answer { verdict: ffi::EMPTY, depth, ..none },
            plain::Verdict::Run { prefix, cycle, pair } => {
                Answer { verdict: ffi::RUN, pair, prefix_length: prefix, cycle_length: cycle, ..none }
            }
        }
    }

    fn one_mark(&self, case: &Case, k: u32, loan: &mut TranslationLoan) -> TranslatedTable {
        let table = plain_table(&table_over(case, loan.from.part(), loan.to.part(), loan.marks.part()));
        let made = plain::one_mark(&table, k, loan.out_from.part_mut(), loan.out_to.part_mut(), loan.out_marks.part_mut());
        match made {
            plain::Translated::Made { states, edges, start } => TranslatedTable { number: 0, place: 0, states, edges, start },
            plain::Translated::Refused { number, place } => TranslatedTable { number, place, states: 0, edges: 0, start: 0 },
        }
    }
}
