//! One case through one judge: every promise of docs/RULES.md about the answer and the lent cells is looked at.

use crate::acceptance;
use crate::case::{Case, Edge};
use crate::erasing;
use crate::judges::Judge;
use crate::lent::{JudgeLoan, Lent, TranslationLoan};
use crate::oracle::{self, Expected};
use crate::random::Random;
use crate::refusal;
use mukhadero::ffi::{self, Answer};
use mukhadero::{Condition, STOP};
use std::fmt;

/// Which promise was broken.
#[derive(Clone, Copy, Debug, PartialEq, Eq)]
pub enum Promise {
    /// A cell outside what was lent is as before.
    Guards,
    /// The tables, and the needs, are only read.
    Tables,
    /// Verdict (or whether a translation is made), number and place are those of docs/RULES.md.
    Verdict,
    Number,
    Place,
    /// The pair is the lowest that some lasso meets, and this lasso meets it.
    Pair,
    /// The depth of an empty Streett verdict is the number of rounds in which the whole table is erased.
    Depth,
    /// A field without a meaning is 0.
    Fields,
    /// The prefix has at most n-1 edges, the cycle 1 to (r+1)·n.
    Lengths,
    /// The room's cells are an accepted lasso.
    Lasso,
    /// The room has zeros behind the lasso; all zeros if empty.
    Room,
    /// The scratch is all zero after an answer.
    Scratch,
    /// A refusal changes no lent cell.
    Refusal,
    /// The counts and the start of the translated table.
    Counts,
    /// The cells of the translated table, then zeros.
    Output,
    /// The source and its translation have the same verdict.
    SameVerdict,
}

/// A broken promise, and what was seen.
#[derive(Debug)]
pub struct Fault {
    pub promise: Promise,
    pub seen: String,
}

impl fmt::Display for Fault {
    fn fmt(&self, f: &mut fmt::Formatter) -> fmt::Result {
        write!(f, "{:?}: {}", self.promise, self.seen)
    }
}

fn demand(held: bool, promise: Promise, seen: impl FnOnce() -> String) -> Result<(), Fault> {
    if held {
        Ok(())
    } else {
        Err(Fault { promise, seen: seen() })
    }
}

/// Lends the case to a judge and looks at every promise. The answer comes back for those who count.
pub fn check_judge(judge: &dyn Judge, case: &Case, expected: Expected, random: &mut Random) -> Result<Answer, Fault> {
    let mut loan = JudgeLoan::new(case, random);
    let answer = judge.judge(case, &mut loan);
    check_lent(
        &[("from", &loan.from), ("to", &loan.to), ("marks", &loan.marks), ("needs", &loan.needs)],
        &[("room", &loan.room), ("scratch", &loan.scratch)],
    )?;
    let (verdict, number, place) = match expected {
        Expected::Refused { number, place } => (ffi::REFUSED, number, place),
        Expected::Empty => (ffi::EMPTY, 0, 0),
        Expected::Run { .. } => (ffi::RUN, 0, 0),
    };
    let against = || format!("{answer:?}, expected {expected:?}");
    demand(answer.verdict == verdict, Promise::Verdict, against)?;
    demand(answer.number == number, Promise::Number, against)?;
    demand(answer.place == place, Promise::Place, against)?;
    match expected {
        Expected::Refused { .. } => {
            check_no_run(&answer)?;
            demand(answer.depth == 0, Promise::Fields, against)?;
            demand(loan.room.untouched(), Promise::Refusal, || "the room has changed".into())?;
            demand(loan.scratch.untouched(), Promise::Refusal, || "the scratch has changed".into())?;
        }
        Expected::Empty => {
            check_no_run(&answer)?;
            let rounds = erasing::rounds(case);
            demand(answer.depth == rounds, Promise::Depth, || format!("{answer:?}, expected depth {rounds}"))?;
            check_zero(loan.room.part(), 0, Promise::Room)?;
            check_zero(loan.scratch.part(), 0, Promise::Scratch)?;
        }
        Expected::Run { pair } => {
            demand(answer.pair == pair, Promise::Pair, against)?;
            demand(answer.depth == 0, Promise::Fields, against)?;
            check_lasso(case, &answer, loan.room.part())?;
            check_zero(loan.scratch.part(), 0, Promise::Scratch)?;
        }
    }
    Ok(answer)
}

/// What is only read is as it was, and so are all guards.
fn check_lent(read: &[(&str, &Lent)], written: &[(&str, &Lent)]) -> Result<(), Fault> {
    for (name, lent) in read.iter().chain(written) {
        demand(lent.guards_stand(), Promise::Guards, || format!("a cell beside {name} has changed"))?;
    }
    for (name, lent) in read {
        demand(lent.untouched(), Promise::Tables, || format!("a cell of {name} has changed"))?;
    }
    Ok(())
}

/// Without a run, pair and lengths are 0.
fn check_no_run(answer: &Answer) -> Result<(), Fault> {
    let Answer { pair, prefix_length, cycle_length, .. } = *answer;
    demand((pair, prefix_length, cycle_length) == (0, 0, 0), Promise::Fields, || format!("{answer:?}"))
}

/// Cells from `first` on are 0.
fn check_zero(cells: &[u32], first: usize, promise: Promise) -> Result<(), Fault> {
    match cells[first..].iter().position(|&cell| cell != 0) {
        None => Ok(()),
        Some(i) => Err(Fault { promise, seen: format!("cell {} of {} is {}", first + i, cells.len(), cells[first + i]) }),
    }
}

/// The room holds an accepted lasso within the bounds, then zeros.
fn check_lasso(case: &Case, answer: &Answer, room: &[u32]) -> Result<(), Fault> {
    let (n, r) = (case.states as u64, acceptance::r(&case.condition));
    let (prefix, cycle) = (answer.prefix_length as u64, answer.cycle_length as u64);
    demand(prefix < n && 1 <= cycle && cycle <= (r + 1) * n, Promise::Lengths, || format!("{answer:?}"))?;
    let (prefix, behind) = room.split_at(prefix as usize);
    let (cycle, _) = behind.split_at(cycle as usize);
    let turn = walk(case, case.start, prefix)?;
    let end = walk(case, turn, cycle)?;
    demand(end == turn, Promise::Lasso, || format!("the cycle leads from {turn} to {end}"))?;
    let union = cycle.iter().filter(|&&e| e != STOP).fold(0, |union, &e| union | case.marks[e as usize]);
    demand(acceptance::accepted(&case.condition, union), Promise::Lasso, || {
        format!("the cycle bears {union:08x}: not accepted")
    })?;
    if let Condition::Rabin { pairs, ref needs } = case.condition {
        let met = acceptance::meets_pair(pairs, needs, answer.pair, union);
        demand(met, Promise::Pair, || format!("the cycle bears {union:08x}: pair {} is not met", answer.pair))?;
    }
    check_zero(room, prefix.len() + cycle.len(), Promise::Room)
}

/// Follows edges from a state, each leaving where the one before arrived; where the last one arrives comes back. At a stop state,
/// and only there, a walk waits.
fn walk(case: &Case, from: u32, edges: &[u32]) -> Result<u32, Fault> {
    let mut at = from;
    for (i, &e) in edges.iter().enumerate() {
        if e == STOP {
            demand(!case.from.contains(&at), Promise::Lasso, || format!("edges leave {at}, where the walk waits (step {i})"))?;
            continue;
        }
        demand((e as usize) < case.edges(), Promise::Lasso, || format!("there is no edge {e} (step {i})"))?;
        let leaves = case.from[e as usize];
        demand(leaves == at, Promise::Lasso, || format!("edge {e} leaves {leaves}, the walk stands at {at} (step {i})"))?;
        at = case.to[e as usize];
    }
    Ok(at)
}

/// Translates the case's table under Büchi k and looks at every promise; then the source's and the translation's verdicts are
/// compared. `outputs` are the lengths of the lent outputs. The number comes back for those who count.
pub fn check_one_mark(judge: &dyn Judge, case: &Case, k: u32, outputs: [usize; 3], random: &mut Random) -> Result<u32, Fault> {
    let mut loan = TranslationLoan::new(case, outputs, random);
    let made = judge.one_mark(case, k, &mut loan);
    let written = [("out_from", &loan.out_from), ("out_to", &loan.out_to), ("out_marks", &loan.out_marks)];
    check_lent(&[("from", &loan.from), ("to", &loan.to), ("marks", &loan.marks)], &written)?;
    if let Some((number, place)) = refusal::of_translation(case, k, outputs) {
        let against = || format!("{made:?}, expected number {number}, place {place}");
        demand(made.number != 0, Promise::Verdict, against)?;
        demand(made.number == number, Promise::Number, against)?;
        demand(made.place == place, Promise::Place, against)?;
        demand((made.states, made.edges, made.start) == (0, 0, 0), Promise::Fields, against)?;
        for (name, lent) in written {
            demand(lent.untouched(), Promise::Refusal, || format!("{name} has changed"))?;
        }
        return Ok(number);
    }
    demand(made.number == 0, Promise::Verdict, || format!("{made:?}, expected a table"))?;
    demand(made.place == 0, Promise::Place, || format!("{made:?}"))?;
    let edges = oracle::one_mark(case, k);
    let levels = if k == 0 { 1 } else { k };
    let counts = (case.states * levels, edges.len() as u32, case.start * levels);
    demand((made.states, made.edges, made.start) == counts, Promise::Counts, || format!("{made:?}, expected {counts:?}"))?;
    let columns: [fn(&Edge) -> u32; 3] = [|edge| edge.0, |edge| edge.1, |edge| edge.2];
    for ((name, lent), column) in written.into_iter().zip(columns) {
        for (i, edge) in edges.iter().enumerate() {
            let (cell, right) = (lent.part()[i], column(edge));
            demand(cell == right, Promise::Output, || format!("{name} has {cell} at {i}, expected {right}"))?;
        }
        check_zero(lent.part(), edges.len(), Promise::Output)?;
    }
    check_same_verdict(judge, case, k, edges, random)?;
    Ok(0)
}

/// The judge says the same of a table under Büchi k and of its translation under Büchi 1.
fn check_same_verdict(judge: &dyn Judge, case: &Case, k: u32, edges: Vec<Edge>, random: &mut Random) -> Result<(), Fault> {
    let levels = if k == 0 { 1 } else { k };
    let plain_edges = (0..case.edges()).map(|e| (case.from[e], case.to[e], case.marks[e])).collect();
    let source = Case::new(&case.origin, case.states, case.start, plain_edges, Condition::Buchi { marks: k });
    let translation = Case::new(&case.origin, case.states * levels, case.start * levels, edges, Condition::Buchi { marks: 1 });
    let mut ask = |case: &Case| judge.judge(case, &mut JudgeLoan::new(case, random));
    let (before, after) = (ask(&source), ask(&translation));
    demand(before.verdict != ffi::REFUSED && before.verdict == after.verdict, Promise::SameVerdict, || {
        format!("source {before:?}, translation {after:?}")
    })
}
