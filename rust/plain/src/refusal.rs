//! Rows 1 to 9 (docs/RULES.md, "What comes back"), in their order.

use crate::{Condition, Table};

pub const MOST_STATES: u32 = 4096;
pub const MOST_EDGES: usize = 32768;

/// The set of the marks 0..count-1, for a count of at most 32.
pub fn first_marks(count: u32) -> u32 {
    if count == 0 {
        0
    } else {
        u32::MAX >> (32 - count)
    }
}

/// The marks that a condition uses, or nothing if row 4 refuses it.
fn used_marks(condition: &Condition) -> Option<u32> {
    let count = match *condition {
        Condition::Buchi(k) => k,
        Condition::Streett(p) if p <= 16 => 2 * p,
        Condition::Rabin(p, needs) if p <= 8 => {
            let (inside, behind) = needs.split_at(p as usize);
            if behind.iter().any(|&need| need != 0) {
                return None;
            }
            inside.iter().fold(p, |sum, &need| sum.saturating_add(need))
        }
        _ => return None,
    };
    (count <= 32).then(|| first_marks(count))
}

/// r of the rules: k, p, or the largest need.
fn most_legs(condition: &Condition) -> u32 {
    match *condition {
        Condition::Buchi(k) => k,
        Condition::Streett(p) => p,
        Condition::Rabin(_, needs) => needs.into_iter().max().unwrap_or(0),
    }
}

/// Lasso room in cells, for a condition and a number of states that rows 1 and 4 let through.
pub fn room_needed(states: u32, condition: &Condition) -> usize {
    (most_legs(condition) as usize + 2) * states as usize - 1
}

/// Scratch in words.
pub fn scratch_needed(states: u32, edges: usize) -> usize {
    8 * states as usize + 4 * edges + 64
}

/// Is there no fault in any edge? Two numbers are folded over the tables, so that no edge costs a branch: a word whose top bit tells
/// an end that is not below n or a from that falls, and the union of the marks. (For x below 2^31, `n - 1 - x` has its top bit
/// exactly if x is not below n; a larger x has it itself. Of two froms below 2^31 the difference has it exactly if they fall.)
fn edges_are_right(table: &Table, used: u32) -> bool {
    const TOP: u32 = 1 << 31;
    let last = table.states - 1;
    let beyond = |ends: &[u32]| ends.iter().fold(0, |top, &end| top | end | last.wrapping_sub(end));
    let falls = table.from.iter().zip(table.from.iter().skip(1)).fold(0, |top, (&before, &from)| top | from.wrapping_sub(before));
    let borne = table.marks.iter().fold(0, |union, &marks| union | marks);
    (beyond(table.from) | beyond(table.to) | falls) & TOP == 0 && borne & !used == 0
}

/// The first faulty edge, with rows 5, 6 and 7 in this order within it.
fn first_fault(table: &Table, used: u32) -> Option<(u32, u32)> {
    let n = table.states;
    let mut before = 0;
    for e in 0..table.from.len() {
        let from = table.from[e];
        if from >= n || table.to[e] >= n {
            return Some((5, e as u32));
        }
        if from < before {
            return Some((6, e as u32));
        }
        if table.marks[e] & !used != 0 {
            return Some((7, e as u32));
        }
        before = from;
    }
    None
}

/// Rows 1 to 7: number and place of the first cause.
pub fn of_table(table: &Table, condition: &Condition) -> Option<(u32, u32)> {
    let n = table.states;
    let m = table.from.len();
    if n == 0 || n > MOST_STATES {
        return Some((1, 0));
    }
    if table.to.len() != m || table.marks.len() != m || m > MOST_EDGES {
        return Some((2, 0));
    }
    if table.start >= n {
        return Some((3, 0));
    }
    let Some(used) = used_marks(condition) else {
        return Some((4, 0));
    };
    if edges_are_right(table, used) {
        None
    } else {
        first_fault(table, used)
    }
}

/// Rows 1 to 9.
pub fn of_judge(table: &Table, condition: &Condition, room: usize, scratch: usize) -> Option<(u32, u32)> {
    let first = of_table(table, condition);
    if first.is_some() {
        return first;
    }
    if room < room_needed(table.states, condition) {
        return Some((8, 0));
    }
    if scratch < scratch_needed(table.states, table.from.len()) {
        return Some((9, 0));
    }
    None
}
