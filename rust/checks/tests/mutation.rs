//! The harness itself under test: wrong copies of a right answer must be reported, each of them, and nothing else.

use checks::case::Case;
use checks::drive;
use checks::harness::{self, Promise};
use checks::judges::{Archive, Judge};
use checks::lent::{JudgeLoan, TranslationLoan};
use checks::oracle::Expected;
use checks::random::Random;
use mukhadero::ffi::{Answer, TranslatedTable, EMPTY, REFUSED, RUN};
use mukhadero::Condition;
use std::cell::Cell;

type SpoilAnswer = fn(&Case, &mut JudgeLoan, &mut Answer) -> bool;
type SpoilTable = fn(&Case, &mut TranslationLoan, &mut TranslatedTable) -> bool;

/// The linked judge with one wrong thing. A spoiler says whether it found something to spoil.
struct Wrong {
    answer: SpoilAnswer,
    table: SpoilTable,
    /// Which call of the judge for one table is spoiled: 0 judges the table, 1 and 2 the source and the translation.
    call: u32,
    calls: Cell<u32>,
    spoiled: Cell<bool>,
}

impl Judge for Wrong {
    fn judge(&self, case: &Case, loan: &mut JudgeLoan) -> Answer {
        let mut answer = Archive.judge(case, loan);
        if self.calls.replace(self.calls.get() + 1) == self.call {
            self.spoiled.set((self.answer)(case, loan, &mut answer));
        }
        answer
    }

    fn one_mark(&self, case: &Case, k: u32, loan: &mut TranslationLoan) -> TranslatedTable {
        let mut table = Archive.one_mark(case, k, loan);
        if (self.table)(case, loan, &mut table) {
            self.spoiled.set(true);
        }
        table
    }
}

const RIGHT_ANSWER: SpoilAnswer = |_, _, _| false;
const RIGHT_TABLE: SpoilTable = |_, _, _| false;

/// Puts many tables through the wrong judge: a failure exactly where something was spoiled, of one of the kinds named, printed as
/// job text.
fn assert_caught(answer: SpoilAnswer, table: SpoilTable, call: u32, promises: &[Promise]) {
    let wrong = Wrong { answer, table, call, calls: Cell::new(0), spoiled: Cell::new(false) };
    let mut caught = 0;
    for number in 0..1500 {
        wrong.calls.set(0);
        wrong.spoiled.set(false);
        let result = drive::run(&wrong, 4, number, 1);
        match result {
            Ok(_) => assert!(!wrong.spoiled.get(), "table {number}: nothing was noticed"),
            Err(failure) => {
                assert!(wrong.spoiled.get(), "a false alarm: {failure}");
                assert!(promises.contains(&failure.promise), "table {number}: {:?}", failure.promise);
                assert!(failure.text.contains("\nstates=") && failure.text.ends_with("end=job\n"), "{failure}");
                caught += 1;
            }
        }
    }
    assert!(caught > 10, "only {caught} times was there something to spoil");
}

fn assert_answer_caught(answer: SpoilAnswer, promises: &[Promise]) {
    assert_caught(answer, RIGHT_TABLE, 0, promises);
}

fn assert_table_caught(table: SpoilTable, promises: &[Promise]) {
    assert_caught(RIGHT_ANSWER, table, 0, promises);
}

/// The lasso's cells in the room.
fn lasso(answer: &Answer) -> std::ops::Range<usize> {
    0..(answer.prefix_length + answer.cycle_length) as usize
}

#[test]
fn a_run_called_empty() {
    // as clean a lie as can be told: the room is zeroed too
    let spoil: SpoilAnswer = |_, loan, answer| {
        let run = answer.verdict == RUN;
        if run {
            loan.room.part_mut().fill(0);
            *answer = Answer { verdict: EMPTY, number: 0, place: 0, pair: 0, prefix_length: 0, cycle_length: 0, depth: 0 };
        }
        run
    };
    assert_answer_caught(spoil, &[Promise::Verdict]);
}

#[test]
fn an_empty_called_run() {
    let spoil: SpoilAnswer = |_, _, answer| {
        let empty = answer.verdict == EMPTY;
        if empty {
            (answer.verdict, answer.cycle_length) = (RUN, 1);
        }
        empty
    };
    assert_answer_caught(spoil, &[Promise::Verdict]);
}

#[test]
fn a_refusal_called_empty() {
    let spoil: SpoilAnswer = |_, loan, answer| {
        let refused = answer.verdict == REFUSED;
        if refused {
            (answer.verdict, answer.number, answer.place) = (EMPTY, 0, 0);
            loan.room.part_mut().fill(0);
            loan.scratch.part_mut().fill(0);
        }
        refused
    };
    assert_answer_caught(spoil, &[Promise::Verdict]);
}

#[test]
fn a_shifted_place() {
    let spoil: SpoilAnswer = |_, _, answer| {
        answer.place += (answer.verdict == REFUSED) as u32;
        answer.verdict == REFUSED
    };
    assert_answer_caught(spoil, &[Promise::Place]);
}

#[test]
fn a_shifted_number() {
    let spoil: SpoilAnswer = |_, _, answer| {
        answer.number += (answer.verdict == REFUSED) as u32;
        answer.verdict == REFUSED
    };
    assert_answer_caught(spoil, &[Promise::Number]);
}

#[test]
fn one_wrong_lasso_edge() {
    // an edge that leaves elsewhere, at each place of the lasso by turns
    let spoil: SpoilAnswer = |case, loan, answer| {
        let cells = &mut loan.room.part_mut()[lasso(answer)];
        if cells.is_empty() {
            return false;
        }
        let at = case.from.len() % cells.len();
        let Some(&leaves) = case.from.get(cells[at] as usize) else {
            return false;
        };
        match case.from.iter().position(|&from| from != leaves) {
            Some(e) => cells[at] = e as u32,
            None => return false,
        }
        true
    };
    assert_answer_caught(spoil, &[Promise::Lasso]);
}

#[test]
fn an_edge_that_is_not_there() {
    let spoil: SpoilAnswer = |case, loan, answer| {
        match loan.room.part_mut()[lasso(answer)].last_mut() {
            Some(cell) => *cell = case.from.len() as u32,
            None => return false,
        }
        true
    };
    assert_answer_caught(spoil, &[Promise::Lasso]);
}

#[test]
fn a_cycle_that_is_too_long() {
    // turns of the cycle are added until it is above (r+1)·n, where the room has the cells for it
    let spoil: SpoilAnswer = |case, loan, answer| {
        if answer.verdict != RUN {
            return false;
        }
        let (prefix, cycle) = (answer.prefix_length as usize, answer.cycle_length as usize);
        let most = (checks::acceptance::r(&case.condition) as usize + 1) * case.states as usize;
        let length = (most / cycle + 1) * cycle;
        let room = loan.room.part_mut();
        if prefix + length > room.len() {
            return false;
        }
        for i in cycle..length {
            room[prefix + i] = room[prefix + i - cycle];
        }
        answer.cycle_length = length as u32;
        true
    };
    assert_answer_caught(spoil, &[Promise::Lengths]);
}

#[test]
fn lengths_made_up() {
    let spoil: SpoilAnswer = |case, _, answer| {
        let run = answer.verdict == RUN;
        if run {
            answer.prefix_length = case.states;
        }
        run
    };
    assert_answer_caught(spoil, &[Promise::Lengths]);
}

#[test]
fn a_cycle_that_is_not_accepted() {
    // two loops, of which one bears the mark: the other is a cycle too
    let edges = vec![(0, 0, 0), (0, 0, 1)];
    let case = Case::new("two loops", 1, 0, edges, Condition::Buchi { marks: 1 });
    let spoil: SpoilAnswer = |_, loan, answer| {
        loan.room.part_mut().copy_from_slice(&[0, 0]);
        (answer.prefix_length, answer.cycle_length) = (0, 1);
        true
    };
    let wrong = Wrong { answer: spoil, table: RIGHT_TABLE, call: 0, calls: Cell::new(0), spoiled: Cell::new(false) };
    let fault = harness::check_judge(&wrong, &case, Expected::Run { pair: 0 }, &mut Random::new(1)).unwrap_err();
    assert_eq!(fault.promise, Promise::Lasso);
}

#[test]
fn a_lasso_that_meets_another_pair() {
    // pair 0 is met by loop 1 only, pair 1 by both: the answer names pair 0, the lasso meets pair 1
    let edges = vec![(0, 0, 0b01), (0, 0, 0b00)];
    let case = Case::new("two loops", 1, 0, edges, Condition::Rabin { pairs: 2, needs: [0; 8] });
    let spoil: SpoilAnswer = |_, loan, answer| {
        loan.room.part_mut().fill(0);
        (answer.prefix_length, answer.cycle_length) = (0, 1);
        true
    };
    let wrong = Wrong { answer: spoil, table: RIGHT_TABLE, call: 0, calls: Cell::new(0), spoiled: Cell::new(false) };
    let fault = harness::check_judge(&wrong, &case, Expected::Run { pair: 0 }, &mut Random::new(1)).unwrap_err();
    assert_eq!(fault.promise, Promise::Pair);
}

#[test]
fn another_pair() {
    let spoil: SpoilAnswer = |case, _, answer| {
        let rabin = matches!(case.condition, Condition::Rabin { .. });
        answer.pair += (answer.verdict == RUN && rabin) as u32;
        answer.verdict == RUN && rabin
    };
    assert_answer_caught(spoil, &[Promise::Pair]);
}

#[test]
fn a_pair_where_there_is_none() {
    let spoil: SpoilAnswer = |case, _, answer| {
        let rabin = matches!(case.condition, Condition::Rabin { .. });
        answer.pair += (answer.verdict != RUN || !rabin) as u32;
        answer.verdict != RUN || !rabin
    };
    assert_answer_caught(spoil, &[Promise::Fields, Promise::Pair]);
}

#[test]
fn another_depth() {
    let spoil: SpoilAnswer = |case, _, answer| {
        let told = answer.verdict == EMPTY && matches!(case.condition, Condition::Streett { .. });
        answer.depth += told as u32;
        told
    };
    assert_answer_caught(spoil, &[Promise::Depth]);
}

#[test]
fn a_depth_where_there_is_none() {
    let spoil: SpoilAnswer = |case, _, answer| {
        let none = answer.verdict != EMPTY || !matches!(case.condition, Condition::Streett { .. });
        answer.depth += none as u32;
        none
    };
    assert_answer_caught(spoil, &[Promise::Fields, Promise::Depth]);
}

#[test]
fn one_dirty_scratch_word() {
    let first: SpoilAnswer = |_, loan, answer| {
        loan.scratch.part_mut().first_mut().filter(|_| answer.verdict != REFUSED).map(|word| *word = 1).is_some()
    };
    let last: SpoilAnswer = |_, loan, answer| {
        loan.scratch.part_mut().last_mut().filter(|_| answer.verdict != REFUSED).map(|word| *word = 1 << 31).is_some()
    };
    assert_answer_caught(first, &[Promise::Scratch]);
    assert_answer_caught(last, &[Promise::Scratch]);
}

#[test]
fn one_dirty_room_cell() {
    let spoil: SpoilAnswer = |_, loan, answer| {
        let used = lasso(answer).end;
        loan.room.part_mut()[used..].last_mut().filter(|_| answer.verdict != REFUSED).map(|cell| *cell = 1).is_some()
    };
    assert_answer_caught(spoil, &[Promise::Room]);
}

#[test]
fn a_refusal_that_writes() {
    let room: SpoilAnswer =
        |_, loan, answer| loan.room.part_mut().last_mut().filter(|_| answer.verdict == REFUSED).map(|cell| *cell ^= 1).is_some();
    let scratch: SpoilAnswer = |_, loan, answer| {
        loan.scratch.part_mut().first_mut().filter(|_| answer.verdict == REFUSED).map(|word| *word ^= 1).is_some()
    };
    assert_answer_caught(room, &[Promise::Refusal]);
    assert_answer_caught(scratch, &[Promise::Refusal]);
}

#[test]
fn a_write_into_a_table() {
    let spoil: SpoilAnswer = |_, loan, _| loan.marks.part_mut().last_mut().map(|cell| *cell ^= 1).is_some();
    let needs: SpoilAnswer = |_, loan, _| {
        loan.needs.part_mut()[7] ^= 1;
        true
    };
    assert_answer_caught(spoil, &[Promise::Tables]);
    assert_answer_caught(needs, &[Promise::Tables]);
}

#[test]
fn a_write_beside_a_buffer() {
    let behind_room: SpoilAnswer = |case, loan, _| {
        loan.room.with_guards_mut()[16 + case.room] ^= 1;
        true
    };
    let before_scratch: SpoilAnswer = |_, loan, _| {
        loan.scratch.with_guards_mut()[15] ^= 1;
        true
    };
    let behind_from: SpoilAnswer = |case, loan, _| {
        loan.from.with_guards_mut()[16 + case.from.len()] ^= 1;
        true
    };
    assert_answer_caught(behind_room, &[Promise::Guards]);
    assert_answer_caught(before_scratch, &[Promise::Guards]);
    assert_answer_caught(behind_from, &[Promise::Guards]);
}

#[test]
fn a_translation_with_one_wrong_cell() {
    let spoil: SpoilTable = |_, loan, table| {
        let made = table.number == 0 && table.edges > 0;
        if made {
            loan.out_to.part_mut()[table.edges as usize / 2] ^= 1;
        }
        made
    };
    assert_table_caught(spoil, &[Promise::Output]);
}

#[test]
fn a_translation_that_marks_all_edges() {
    let spoil: SpoilTable = |_, loan, table| {
        let marks = &mut loan.out_marks.part_mut()[..table.edges as usize];
        let spoils = marks.contains(&0);
        marks.fill(1);
        spoils
    };
    assert_table_caught(spoil, &[Promise::Output]);
}

#[test]
fn a_translation_without_zeros_behind() {
    let spoil: SpoilTable = |_, loan, table| {
        let made = table.number == 0;
        loan.out_from.part_mut()[table.edges as usize..].last_mut().filter(|_| made).map(|cell| *cell = 1).is_some()
    };
    assert_table_caught(spoil, &[Promise::Output]);
}

#[test]
fn a_translation_with_wrong_counts() {
    let spoil: SpoilTable = |_, _, table| {
        table.start += (table.number == 0) as u32;
        table.number == 0
    };
    assert_table_caught(spoil, &[Promise::Counts]);
}

#[test]
fn a_translation_that_is_refused_wrongly() {
    let shifted: SpoilTable = |_, _, table| {
        table.place += (table.number != 0) as u32;
        table.number != 0
    };
    let writes: SpoilTable =
        |_, loan, table| loan.out_marks.part_mut().first_mut().filter(|_| table.number != 0).map(|cell| *cell ^= 1).is_some();
    assert_table_caught(shifted, &[Promise::Place]);
    assert_table_caught(writes, &[Promise::Refusal]);
}

#[test]
fn a_translation_with_another_verdict() {
    let spoil: SpoilAnswer = |_, _, answer| {
        answer.verdict = if answer.verdict == RUN { EMPTY } else { RUN };
        true
    };
    assert_caught(spoil, RIGHT_TABLE, 2, &[Promise::SameVerdict]);
}
