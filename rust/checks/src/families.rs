//! Families of tables: random ones, and structured ones that press on one point of the judge each. All are valid; [`crate::damage`]
//! breaks them.

use crate::case::{Case, Edge};
use crate::random::Random;
use mukhadero::Condition;

/// The number of marks that a valid condition uses.
pub fn marks_used(condition: &Condition) -> u32 {
    match *condition {
        Condition::Buchi { marks } => marks,
        Condition::Streett { pairs } => 2 * pairs,
        Condition::Rabin { pairs, needs } => pairs + needs.iter().sum::<u32>(),
    }
}

/// A valid condition of a random kind that uses at most `most` marks (of 32).
pub fn any_condition(most: u32, random: &mut Random) -> Condition {
    match random.below(3) {
        0 => Condition::Buchi { marks: random.within(0, most) },
        1 => Condition::Streett { pairs: random.within(0, most / 2) },
        _ => {
            let pairs = random.within(0, most.min(8));
            let mut needs = [0; 8];
            let mut left = most - pairs;
            for need in needs.iter_mut().take(pairs as usize) {
                *need = random.within(0, left.min(3));
                left -= *need;
            }
            Condition::Rabin { pairs, needs }
        }
    }
}

/// A random set of the condition's marks, each in it `percent` times in a hundred.
fn some_marks(used: u32, percent: u32, random: &mut Random) -> u32 {
    (0..used).filter(|_| random.chance(percent)).fold(0, |set, mark| set | 1 << mark)
}

/// Random edges between random states.
pub fn scattered(states: u32, edges: u32, condition: Condition, percent: u32, random: &mut Random) -> Case {
    let used = marks_used(&condition);
    let start = random.below(states);
    let edges = (0..edges).map(|_| (random.below(states), random.below(states), some_marks(used, percent, random))).collect();
    Case::new("scattered", states, start, edges, condition)
}

/// About as many edges as there are pairs of states.
pub fn dense(states: u32, condition: Condition, percent: u32, random: &mut Random) -> Case {
    let mut case = scattered(states, (states * states).min(32768), condition, percent, random);
    case.origin = "dense".to_string();
    case
}

/// Random edges between few states, very many for each pair of them; each mark of Büchi k stands on one edge.
pub fn few_states(states: u32, edges: u32, k: u32, random: &mut Random) -> Case {
    let mut list: Vec<Edge> = (0..edges).map(|_| (random.below(states), random.below(states), 0)).collect();
    for mark in 0..k {
        let e = random.below(edges) as usize;
        list[e].2 |= 1 << mark;
    }
    Case::new("few states", states, random.below(states), list, Condition::Buchi { marks: k })
}

/// A path over all states closed into one cycle; further edges lead backwards. Each mark of Büchi k stands on one edge; if `short`,
/// the last mark stands on none.
pub fn long_cycle(states: u32, edges: u32, k: u32, short: bool, random: &mut Random) -> Case {
    let mut list: Vec<Edge> = (0..states).map(|s| (s, (s + 1) % states, 0)).collect();
    while (list.len() as u32) < edges {
        let s = random.below(states);
        list.push((s, random.below(s + 1), 0));
    }
    for mark in 0..k - short as u32 {
        let e = random.below(list.len() as u32) as usize;
        list[e].2 |= 1 << mark;
    }
    Case::new("long cycle", states, random.below(states), list, Condition::Buchi { marks: k })
}

/// A path over all states with a loop at its end: the longest prefix. Further edges lead one step on or skip nothing.
pub fn long_prefix(states: u32, edges: u32, condition: Condition, random: &mut Random) -> Case {
    let used = marks_used(&condition);
    let mut list: Vec<Edge> = (1..states).map(|s| (s - 1, s, some_marks(used, 30, random))).collect();
    list.push((states - 1, states - 1, some_marks(used, 50, random)));
    while (list.len() as u32) < edges {
        let s = random.below(states);
        list.push((s, (s + 1).min(states - 1), some_marks(used, 30, random)));
    }
    Case::new("long prefix", states, 0, list, condition)
}

/// A cycle over all states whose last step is one of k parallel edges, each with a mark of its own: k rounds are needed, so the
/// cycle is as long as it can be but for one round.
pub fn round_per_mark(states: u32, k: u32, random: &mut Random) -> Case {
    let mut list: Vec<Edge> = (1..states).map(|s| (s - 1, s, 0)).collect();
    list.extend((0..k).map(|mark| (states - 1, 0, 1 << mark)));
    Case::new("a round per mark", states, random.below(states), list, Condition::Buchi { marks: k })
}

/// A chain of small parts (of up to four states), each with all the marks but one; the last one has them all if `accepted`.
pub fn small_parts(states: u32, edges: u32, k: u32, accepted: bool, random: &mut Random) -> Case {
    let all = if k == 0 { 0 } else { u32::MAX >> (32 - k) };
    let each = (edges / states).max(1);
    let mut list = Vec::new();
    let mut first = 0;
    while first < states {
        let size = 4.min(states - first);
        let last = first + size == states;
        let allowed = if last && accepted || k == 0 { all } else { all & !(1 << random.below(k)) };
        for s in 0..size {
            list.push((first + s, first + (s + 1) % size, if s == 0 { allowed } else { 0 }));
            for _ in 2..each {
                list.push((first + s, first + random.below(size), allowed & random.word() as u32));
            }
        }
        if !last {
            list.push((first + random.below(size), first + size, all));
        }
        first += size;
    }
    Case::new("small parts", states, 0, list, Condition::Buchi { marks: k })
}

/// A path closed again and again: closing edge i bears pair i's left mark and the right mark of pair i+1. So erasing one pair's
/// edges makes the next pair bad, and the erasing goes as many levels deep as there are pairs. Further edges lead backwards and
/// bear such marks too. At the end nothing is left, or, if `accepted`, an unmarked closing edge.
pub fn streett_deep(states: u32, edges: u32, pairs: u32, accepted: bool, random: &mut Random) -> Case {
    let level = |i: u32| 1u32 << (2 * i) | if i + 1 < pairs { 2 << (2 * (i + 1)) } else { 0 };
    let mut list: Vec<Edge> = (1..states).map(|s| (s - 1, s, 0)).collect();
    list.extend((0..pairs).map(|i| (states - 1, 0, level(i))));
    if accepted {
        list.push((states - 1, 0, 0));
    }
    while (list.len() as u32) < edges {
        let s = random.below(states);
        list.push((s, random.below(s + 1), level(random.below(pairs))));
    }
    Case::new("deep Streett", states, 0, list, Condition::Streett { pairs })
}

/// Like [`streett_deep`], but level i closes only a part of what level i-1 closed, so that dividing also cuts.
pub fn streett_shrinking(states: u32, edges: u32, pairs: u32, accepted: bool, random: &mut Random) -> Case {
    let level = |i: u32| 1u32 << (2 * i) | if i + 1 < pairs { 2 << (2 * (i + 1)) } else { 0 };
    let mut list: Vec<Edge> = (1..states).map(|s| (s - 1, s, 0)).collect();
    let (mut low, mut high) = (0, states - 1);
    for i in 0..pairs {
        list.push((high, low, level(i)));
        low = random.within(low, (low + (high - low) / 4).min(high));
        high = random.within(high - (high - low) / 4, high);
    }
    if accepted {
        list.push((high, low, 0));
    }
    while (list.len() as u32) < edges {
        let s = random.below(states);
        let t = random.within(s.saturating_sub(3), s);
        list.push((s, t, level(random.below(pairs))));
    }
    Case::new("shrinking Streett", states, 0, list, Condition::Streett { pairs })
}

/// A cycle through all states, with a loop at each. The closing edge is the one with pair 1's left mark, and the only one with pair
/// 0's right mark; the loops bear pair 0's left mark. So erasing the closing edge leaves as many parts as there are states, and
/// each is bad; but one loop bears nothing if `accepted`.
pub fn lone_loops(states: u32, accepted: bool, random: &mut Random) -> Case {
    let mut list: Vec<Edge> = (0..states).map(|s| (s, s, 1)).collect();
    if accepted {
        list[random.below(states) as usize].2 = 0;
    }
    list.extend((1..states).map(|s| (s - 1, s, 0)));
    list.push((states - 1, 0, 0b110));
    Case::new("lone loops", states, random.below(states), list, Condition::Streett { pairs: 2 })
}

/// Eight pairs with three needs each, and every cycle bears the forbidden marks of the first seven; the last pair is met if
/// `accepted`, else one of its needs is missing.
pub fn rabin_last(states: u32, edges: u32, accepted: bool, random: &mut Random) -> Case {
    let forbidden = (0..7).fold(0u32, |set, i| set | 1 << (4 * i));
    let last: [u32; 3] = [1 << 29, 1 << 30, 1 << 31];
    let mut list: Vec<Edge> = (1..states).map(|s| (s - 1, s, 0)).collect();
    list.push((states - 1, 0, forbidden));
    while (list.len() as u32) < edges {
        let s = random.below(states);
        let t = random.within(s, states - 1);
        let needed = random.word() as u32 & 0xEEEE_EEEE & !(last[0] | last[1] | last[2]);
        list.push((s, t, if s == t { forbidden } else { needed }));
    }
    for mark in &last[..if accepted { 3 } else { 2 }] {
        let e = random.below(states) as usize;
        list[e].2 |= mark;
    }
    Case::new("last Rabin pair", states, 0, list, Condition::Rabin { pairs: 8, needs: [3; 8] })
}

/// Edges only lead onward: every component is a lone state without a loop.
pub fn lone_states(states: u32, edges: u32, condition: Condition, random: &mut Random) -> Case {
    let used = marks_used(&condition);
    let mut list: Vec<Edge> = (1..states).map(|s| (s - 1, s, some_marks(used, 50, random))).collect();
    while states > 1 && (list.len() as u32) < edges {
        let s = random.below(states - 1);
        list.push((s, random.within(s + 1, states - 1), some_marks(used, 50, random)));
    }
    Case::new("lone states", states, 0, list, condition)
}

/// The first half of the states is a cycle that lacks a mark; the second half, which cannot be reached but leads into the first, has
/// them all.
pub fn unreachable_accepted(states: u32, edges: u32, k: u32, random: &mut Random) -> Case {
    let half = states.div_ceil(2);
    let all = u32::MAX >> (32 - k);
    let mut list: Vec<Edge> = (0..half).map(|s| (s, (s + 1) % half, all & !1)).collect();
    for s in half..states {
        list.push((s, if s + 1 < states { s + 1 } else { half }, all));
        list.push((s, random.below(half), all));
    }
    while (list.len() as u32) < edges {
        let s = random.below(states);
        let marks = random.word() as u32 & all;
        list.push(if s < half { (s, random.below(half), marks & !1) } else { (s, random.below(states), marks) });
    }
    Case::new("unreachable accepted part", states, random.below(half), list, Condition::Buchi { marks: k })
}

/// Components of random sizes with edges between them that bear every mark: marks of two components must not be counted together.
pub fn blocks(states: u32, edges: u32, condition: Condition, percent: u32, random: &mut Random) -> Case {
    let used = marks_used(&condition);
    let all = if used == 0 { 0 } else { u32::MAX >> (32 - used) };
    let mut block = Vec::new();
    let mut last = 0;
    for _ in 0..states {
        last += random.chance(30) as u32;
        block.push(last);
    }
    let list = (0..edges)
        .map(|_| {
            let (s, t) = (random.below(states), random.below(states));
            let (s, t) = if block[s as usize] == block[t as usize] { (s, t) } else { (s.min(t), s.max(t)) };
            let inner = block[s as usize] == block[t as usize];
            (s, t, if inner { some_marks(used, percent, random) } else { all })
        })
        .collect();
    Case::new("blocks", states, 0, list, condition)
}

/// A structured table of about this size.
pub fn any_structured(most_states: u32, most_marks: u32, random: &mut Random) -> Case {
    let states = random.within(1, most_states);
    let edges = random.within(0, 4 * states);
    let coin = random.chance(50);
    let k = random.within(1, most_marks);
    match random.below(12) {
        0 => long_cycle(states, edges, k, coin, random),
        1 => {
            let condition = any_condition(most_marks, random);
            long_prefix(states, edges, condition, random)
        }
        2 => round_per_mark(states, k, random),
        3 => small_parts(states, edges, k, coin, random),
        4 => streett_deep(states, edges, k.div_ceil(2).min(16), coin, random),
        5 => streett_shrinking(states, edges, k.div_ceil(2).min(16), coin, random),
        6 => rabin_last(states, edges, coin, random),
        7 => {
            let condition = any_condition(most_marks, random);
            lone_states(states, edges, condition, random)
        }
        8 => unreachable_accepted(states, edges, k, random),
        9 => lone_loops(states, coin, random),
        10 => {
            let condition = any_condition(most_marks, random);
            let percent = random.pick(&[2, 10, 30]);
            dense(states.min(180), condition, percent, random)
        }
        _ => {
            let condition = any_condition(most_marks, random);
            let percent = random.pick(&[10, 30, 60]);
            blocks(states, edges, condition, percent, random)
        }
    }
}

/// A random table: anything from no edges to many, few marks to most.
pub fn any_scattered(most_states: u32, most_marks: u32, random: &mut Random) -> Case {
    let states = random.within(1, most_states);
    let ratio = random.pick(&[0, 1, 1, 2, 2, 3, 5]);
    let edges = random.within(0, ratio * states);
    let condition = any_condition(most_marks, random);
    let percent = random.pick(&[5, 15, 30, 50, 80]);
    scattered(states, edges, condition, percent, random)
}
