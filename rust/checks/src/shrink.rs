//! A failing table is easier to read with fewer edges.

use crate::case::Case;

/// Tries that are made at most: each is a run of the judge and of whoever knows better.
const TRIES: u32 = 3000;

/// Drops edges, many at a time at first, as long as the case still fails.
pub fn fewer_edges(case: &Case, fails: impl Fn(&Case) -> bool) -> Case {
    let mut best = case.clone();
    if case.from.len() != case.to.len() || case.from.len() != case.marks.len() {
        return best;
    }
    let mut tries = 0;
    let mut chunk = case.edges().div_ceil(2);
    while chunk > 0 {
        let mut at = 0;
        while at < best.edges() && tries < TRIES {
            tries += 1;
            let mut candidate = best.clone();
            for table in [&mut candidate.from, &mut candidate.to, &mut candidate.marks] {
                table.drain(at..(at + chunk).min(best.edges()));
            }
            if fails(&candidate) {
                best = candidate;
            } else {
                at += chunk;
            }
        }
        chunk /= 2;
    }
    best
}
