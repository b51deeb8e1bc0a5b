//! Broken cases: each row 1 to 9 caused in several ways, and several rows at once, so that their order matters.

use crate::case::Case;
use crate::random::Random;
use mukhadero::Condition;

/// Applies one to three damages.
pub fn damaged(mut case: Case, random: &mut Random) -> Case {
    if random.chance(15) {
        damage_one_edge(&mut case, random);
        case.origin += ", several rows in one edge";
        return case;
    }
    let times = random.pick(&[1, 1, 1, 2, 2, 3]);
    for _ in 0..times {
        let row = random.within(1, 9);
        damage(&mut case, row, random);
        case.origin += &format!(", damaged for {row}");
    }
    case
}

/// Tries to cause the row; a case without edges has none to damage.
pub fn damage(case: &mut Case, row: u32, random: &mut Random) {
    match row {
        1 => case.states = random.pick(&[0, 4097, 4098, 8192, 65536, 1 << 31, u32::MAX]),
        2 => differ_in_length(case, random),
        3 => case.start = case.states.saturating_add(random.pick(&[0, 0, 1, 100, u32::MAX])),
        4 => case.condition = refused_condition(random),
        5 => {
            if let Some(e) = any_edge(case, random) {
                let end = case.states.saturating_add(random.pick(&[0, 0, 1, 1000, u32::MAX]));
                let side = if random.chance(50) { &mut case.from } else { &mut case.to };
                side[e] = end;
            }
        }
        6 => {
            if let Some(e) = any_edge(case, random) {
                case.from[e] = random.below(case.from[e].saturating_add(1).max(1));
                if e + 1 < case.from.len() {
                    case.from.swap(e, e + 1);
                }
            }
        }
        7 => {
            if let Some(e) = any_edge(case, random) {
                case.marks[e] |= unused_mark(&case.condition, random);
            }
        }
        8 => case.room = shorter(case.room, random),
        _ => case.scratch = shorter(case.scratch, random),
    }
}

/// A mark that the condition does not use, as a set; none if it uses all 32.
fn unused_mark(condition: &Condition, random: &mut Random) -> u32 {
    let used = match *condition {
        Condition::Buchi { marks } => marks,
        Condition::Streett { pairs } => pairs.saturating_mul(2),
        Condition::Rabin { pairs, needs } => needs.iter().fold(pairs, |sum, &need| sum.saturating_add(need)),
    };
    if used >= 32 {
        return 0;
    }
    let any = random.within(used, 31);
    1 << random.pick(&[used, used, any, 31])
}

/// Some of the rows 5, 6 and 7 in one edge, which leaves where row 6 can be caused if there is such an edge.
fn damage_one_edge(case: &mut Case, random: &mut Random) {
    let can_fall: Vec<usize> = (1..case.edges()).filter(|&e| case.from[e - 1] > 0).collect();
    if can_fall.is_empty() {
        return;
    }
    let e = random.pick(&can_fall);
    let rows = random.within(1, 7);
    if rows & 1 != 0 {
        case.to[e] = case.states.saturating_add(random.pick(&[0, 1, u32::MAX]));
    }
    if rows & 2 != 0 {
        case.from[e] = random.below(case.from[e - 1]);
    }
    if rows & 4 != 0 {
        case.marks[e] |= unused_mark(&case.condition, random);
    }
}

/// One cell too few, or far too few.
fn shorter(length: usize, random: &mut Random) -> usize {
    match random.below(4) {
        0 => 0,
        1 => length / 2,
        _ => length.saturating_sub(1),
    }
}

/// An edge that all three tables have.
fn any_edge(case: &Case, random: &mut Random) -> Option<usize> {
    let edges = case.from.len().min(case.to.len()).min(case.marks.len()) as u32;
    (edges > 0).then(|| random.below(edges) as usize)
}

fn differ_in_length(case: &mut Case, random: &mut Random) {
    let Case { from, to, marks, .. } = case;
    match random.below(8) {
        0 => drop(from.pop()),
        1 => drop(to.pop()),
        2 => drop(marks.pop()),
        3 => from.push(0),
        4 => to.push(0),
        5 => marks.push(0),
        6 => to.clear(),
        _ => {
            // equal lengths, one edge too many; rarely, as these are large
            if random.chance(20) {
                let last = from.last().copied().unwrap_or(0);
                from.resize(32769, last);
                to.resize(32769, 0);
                marks.resize(32769, 0);
            } else {
                marks.clear();
            }
        }
    }
}

fn refused_condition(random: &mut Random) -> Condition {
    let mut needs = [0; 8];
    match random.below(9) {
        0 => Condition::Buchi { marks: 33 },
        1 => Condition::Buchi { marks: random.pick(&[64, 65536, 1 << 31, u32::MAX]) },
        2 => Condition::Streett { pairs: 17 },
        3 => Condition::Streett { pairs: random.pick(&[32, 1 << 31, (1 << 31) + 1, u32::MAX]) },
        4 => Condition::Rabin { pairs: random.pick(&[9, 16, u32::MAX]), needs },
        5 => {
            let pairs = random.within(0, 7);
            needs[random.within(pairs, 7) as usize] = random.pick(&[1, 2, u32::MAX]);
            Condition::Rabin { pairs, needs }
        }
        6 => Condition::Rabin { pairs: 8, needs: [3, 3, 3, 3, 3, 3, 3, 4] },
        7 => {
            // sums that come round to a small number if they are taken modulo 2^32
            needs[..3].copy_from_slice(&[u32::MAX, u32::MAX, random.within(0, 3)]);
            Condition::Rabin { pairs: 3, needs }
        }
        _ => {
            needs[0] = random.pick(&[32, 33, 1 << 31]);
            Condition::Rabin { pairs: 1, needs }
        }
    }
}
