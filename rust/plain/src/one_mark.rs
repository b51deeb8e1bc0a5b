//! The one-mark translation.

use crate::refusal::{self, MOST_EDGES, MOST_STATES};
use crate::{Condition, Table};

/// The translation's answer: the counts and the new start, or a refusal.
#[derive(Clone, Copy, Debug, PartialEq, Eq)]
pub enum Translated {
    Made { states: u32, edges: u32, start: u32 },
    Refused { number: u32, place: u32 },
}

/// Writes the translated edges, with k = 0 a loop at each stop state too; each output has zeros behind them.
pub fn one_mark(table: &Table, k: u32, out_from: &mut [u32], out_to: &mut [u32], out_marks: &mut [u32]) -> Translated {
    if let Some((number, place)) = refusal::of_table(table, &Condition::Buchi(k)) {
        return Translated::Refused { number, place };
    }
    let levels = k.max(1);
    let m = table.from.len();
    let waiting = if k == 0 { stop_states(table) } else { 0 };
    let edges = m * levels as usize + waiting;
    let states = table.states * levels;
    if states > MOST_STATES || edges > MOST_EDGES {
        return Translated::Refused { number: 10, place: 0 };
    }
    if out_from.len() < edges || out_to.len() < edges || out_marks.len() < edges {
        return Translated::Refused { number: 11, place: 0 };
    }
    let mut at = 0;
    let mut row = 0;
    for s in 0..table.states {
        let row_end = row + table.from[row..].iter().take_while(|&&from| from == s).count();
        for level in 0..levels {
            for e in row..row_end {
                // the marks from this level up, a run of ones as far as the edge climbs
                let climbed = level + (table.marks[e].checked_shr(level).unwrap_or(0)).trailing_ones();
                let top = climbed >= k;
                out_from[at] = s * levels + level;
                out_to[at] = table.to[e] * levels + if top { 0 } else { climbed };
                out_marks[at] = top as u32;
                at += 1;
            }
        }
        if k == 0 && row == row_end {
            // a stop state's waiting edge, written out
            (out_from[at], out_to[at], out_marks[at]) = (s, s, 1);
            at += 1;
        }
        row = row_end;
    }
    for out in [out_from, out_to, out_marks] {
        out[edges..].fill(0);
    }
    Translated::Made { states, edges: edges as u32, start: table.start * levels }
}

/// How many states no edge leaves.
fn stop_states(table: &Table) -> usize {
    let rows = table.from.len().min(1) + table.from.windows(2).filter(|pair| pair[0] != pair[1]).count();
    table.states as usize - rows
}
