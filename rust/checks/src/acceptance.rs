//! Acceptance and bounds, written from docs/RULES.md ("Conditions", "What comes back") alone: slowly, with wide numbers, word by
//! word.

use mukhadero::Condition;

/// Does the set `m` hold mark `i`?
pub fn holds(m: u32, i: u64) -> bool {
    i < 32 && (m >> i) & 1 == 1
}

/// The marks that Rabin's pairs take: for each pair its forbidden mark, and then as many needed ones as its need says.
pub fn rabin_pairs(pairs: u32, needs: &[u32; 8]) -> Vec<(u64, Vec<u64>)> {
    let mut next = 0u64;
    let mut deal = || {
        next += 1;
        next - 1
    };
    (0..pairs as usize).map(|i| (deal(), (0..needs[i]).map(|_| deal()).collect())).collect()
}

/// Is pair `i` of a Rabin condition met by a cycle whose marks are `m`?
pub fn meets_pair(pairs: u32, needs: &[u32; 8], i: u32, m: u32) -> bool {
    let dealt = rabin_pairs(pairs, needs);
    let (forbidden, needed) = &dealt[i as usize];
    !holds(m, *forbidden) && needed.iter().all(|&mark| holds(m, mark))
}

/// Is a lasso accepted whose cycle bears the marks `m`?
pub fn accepted(condition: &Condition, m: u32) -> bool {
    match *condition {
        Condition::Buchi { marks } => (0..marks as u64).all(|mark| holds(m, mark)),
        Condition::Streett { pairs } => (0..pairs as u64).all(|i| !holds(m, 2 * i) || holds(m, 2 * i + 1)),
        Condition::Rabin { pairs, ref needs } => (0..pairs).any(|i| meets_pair(pairs, needs, i, m)),
    }
}

/// r of docs/RULES.md, "What comes back".
pub fn r(condition: &Condition) -> u64 {
    match *condition {
        Condition::Buchi { marks } => marks as u64,
        Condition::Streett { pairs } => pairs as u64,
        Condition::Rabin { pairs: 0, .. } => 0,
        Condition::Rabin { needs, .. } => needs.iter().map(|&need| need as u64).max().unwrap(),
    }
}

/// Lasso room needed, in cells. (No states at all are refused before this matters.)
pub fn room_needed(states: u32, condition: &Condition) -> u64 {
    ((r(condition) + 2) * states as u64).saturating_sub(1)
}

/// Scratch needed, in words.
pub fn scratch_needed(states: u32, edges: usize) -> u64 {
    8 * states as u64 + 4 * edges as u64 + 64
}
