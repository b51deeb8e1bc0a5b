//! Rows 1 to 11, written from docs/RULES.md ("What comes back") alone: slowly, with wide numbers, word by word.

use crate::acceptance;
use crate::case::Case;
use mukhadero::Condition;

/// The number of marks that a condition uses, or nothing if it is row 4's.
fn marks_used(condition: &Condition) -> Option<u64> {
    match *condition {
        Condition::Buchi { marks } => (marks <= 32).then_some(marks as u64),
        Condition::Streett { pairs } => (pairs <= 16).then_some(2 * pairs as u64),
        Condition::Rabin { pairs, ref needs } => {
            if pairs > 8 || needs.iter().skip(pairs as usize).any(|&need| need != 0) {
                return None;
            }
            let all = pairs as u64 + needs.iter().map(|&need| need as u64).sum::<u64>();
            (all <= 32).then_some(all)
        }
    }
}

/// Rows 1 to 7 for a table and a condition: number and place of the first cause.
pub fn of_table(case: &Case, condition: &Condition) -> Option<(u32, u32)> {
    let (n, m) = (case.states, case.from.len());
    if n == 0 || n > 4096 {
        return Some((1, 0));
    }
    if m != case.to.len() || m != case.marks.len() || m > 32768 {
        return Some((2, 0));
    }
    if case.start >= n {
        return Some((3, 0));
    }
    let Some(used) = marks_used(condition) else { return Some((4, 0)) };
    for e in 0..m {
        if case.from[e] >= n || case.to[e] >= n {
            return Some((5, e as u32));
        }
        if e > 0 && case.from[e] < case.from[e - 1] {
            return Some((6, e as u32));
        }
        if (used..32).any(|mark| acceptance::holds(case.marks[e], mark)) {
            return Some((7, e as u32));
        }
    }
    None
}

/// Rows 1 to 9: what the judge refuses.
pub fn of_judge(case: &Case) -> Option<(u32, u32)> {
    of_table(case, &case.condition).or_else(|| {
        if (case.room as u64) < acceptance::room_needed(case.states, &case.condition) {
            Some((8, 0))
        } else if (case.scratch as u64) < acceptance::scratch_needed(case.states, case.edges()) {
            Some((9, 0))
        } else {
            None
        }
    })
}

/// Rows 1 to 7, 10, 11: what the translation under Büchi k refuses, given the lengths of its three outputs.
pub fn of_translation(case: &Case, k: u32, outputs: [usize; 3]) -> Option<(u32, u32)> {
    of_table(case, &Condition::Buchi { marks: k }).or_else(|| {
        let levels = if k == 0 { 1 } else { k as u64 };
        let waiting = if k == 0 { case.stop_states().len() as u64 } else { 0 };
        let edges = case.edges() as u64 * levels + waiting;
        if case.states as u64 * levels > 4096 || edges > 32768 {
            Some((10, 0))
        } else if outputs.iter().any(|&length| (length as u64) < edges) {
            Some((11, 0))
        } else {
            None
        }
    })
}
