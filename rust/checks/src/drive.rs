//! Many tables through a judge, from a fixed seed; the first failure is printed as job text.

use crate::case::Case;
use crate::damage;
use crate::families;
use crate::harness::{self, Fault, Promise};
use crate::job_text;
use crate::judges::{Judge, Plain};
use crate::oracle::{self, Expected};
use crate::random::Random;
use crate::refusal;
use crate::shortest::{self, ByKind};
use crate::shrink;
use mukhadero::Condition;
use std::collections::BTreeMap;
use std::fmt;

/// How often each outcome was seen, under names as "buchi run" or "one mark refused 10".
#[derive(Default)]
pub struct Tally {
    pub tables: u64,
    pub seen: BTreeMap<String, u64>,
    /// The lengths of the judge's lassos on small tables.
    pub lengths: ByKind,
}

impl Tally {
    fn count(&mut self, name: String) {
        *self.seen.entry(name).or_default() += 1;
    }
}

/// A broken promise, with the case that shows it.
#[derive(Debug)]
pub struct Failure {
    pub promise: Promise,
    /// What was seen, and the table as job text.
    pub text: String,
    pub case: Case,
    /// The number of marks and the output lengths, where it was the translation that failed.
    pub translation: Option<(u32, [usize; 3])>,
}

impl Failure {
    fn new(what: &str, fault: Fault, case: &Case, translation: Option<(u32, [usize; 3])>) -> Self {
        let condition = translation.map_or(case.condition, |(k, _)| Condition::Buchi { marks: k });
        let outputs = translation.map_or(String::new(), |(_, outputs)| format!("; outputs {outputs:?}"));
        let text = format!("{what}: {fault}\n{}{outputs}\n{}", job_text::beside(case), job_text::of(case, &condition));
        Failure { promise: fault.promise, text, case: case.clone(), translation }
    }
}

impl fmt::Display for Failure {
    fn fmt(&self, f: &mut fmt::Formatter) -> fmt::Result {
        f.write_str(&self.text)
    }
}

/// Runs tables `first..first + count` of a seed through the judge; stops at the first failure, which is described in full.
pub fn run(judge: &dyn Judge, seed: u64, first: u64, count: u64) -> Result<Tally, Box<Failure>> {
    let mut tally = Tally::default();
    for number in first..first + count {
        table(judge, seed, number, &mut tally)?;
    }
    Ok(tally)
}

/// Makes table `number` of a seed and puts it through the judge: judged under its condition, then translated.
fn table(judge: &dyn Judge, seed: u64, number: u64, tally: &mut Tally) -> Result<(), Box<Failure>> {
    let mut random = Random::of_table(seed, number);
    let case = any_case(&mut random);
    let what = format!("seed {seed}, table {number}");
    tally.tables += 1;

    let (expected, by) = expected(&case, &mut random);
    tally.count(format!("expected by {by}"));
    tally.count(format!("{} {}", kind(&case.condition), outcome(expected)));
    harness::check_judge(&Plain, &case, expected, &mut random)
        .map_err(|fault| Failure::new(&format!("{what}, THE PLAIN JUDGE"), fault, &case, None))?;
    let answer =
        harness::check_judge(judge, &case, expected, &mut random).map_err(|fault| Failure::new(&what, fault, &case, None))?;
    if let (Expected::Empty, Condition::Streett { .. }) = (expected, &case.condition) {
        tally.count(format!("depth {}", answer.depth));
    }
    if let Expected::Run { pair } = expected {
        if shortest::is_small(&case, pair) {
            let reported = answer.prefix_length as u64 + answer.cycle_length as u64;
            // the lasso was found to be accepted: so there is a shortest one, and it is no longer
            let shortest = shortest::shortest(&case, pair).filter(|&length| length <= reported);
            let shortest = shortest.unwrap_or_else(|| panic!("{what}: {answer:?} is shorter than the shortest lasso: {case:?}"));
            tally.lengths.count(kind(&case.condition), reported, shortest, number);
        }
    }

    let (k, outputs) = any_translation(&case, &mut random);
    let number = harness::check_one_mark(judge, &case, k, outputs, &mut random)
        .map_err(|fault| Failure::new(&what, fault, &case, Some((k, outputs))))?;
    tally.count(if number == 0 { "one mark made".into() } else { format!("one mark refused {number}") });
    Ok(())
}

/// A failure with fewer edges, by dropping edges as long as the same promise stays broken.
pub fn smaller(judge: &dyn Judge, failure: &Failure) -> Failure {
    let broken = |case: &Case| {
        let mut random = Random::new(0);
        match failure.translation {
            None => harness::check_judge(judge, case, expected(case, &mut random).0, &mut random).err(),
            Some((k, outputs)) => harness::check_one_mark(judge, case, k, outputs, &mut random).err(),
        }
        .filter(|fault| fault.promise == failure.promise)
    };
    let case = shrink::fewer_edges(&failure.case, |case| broken(case).is_some());
    match broken(&case) {
        Some(fault) => Failure::new("with fewer edges", fault, &case, failure.translation),
        None => Failure::new("not seen again", Fault { promise: failure.promise, seen: "-".into() }, &case, failure.translation),
    }
}

/// Mostly small tables, for which the oracle is the definition itself; some middling, few as large as is allowed.
fn any_case(random: &mut Random) -> Case {
    let draw = random.below(1000);
    let (states, marks) = match draw {
        0..=4 => (4096, 32),
        5..=49 => (300, 12),
        50..=199 => (40, 8),
        200..=299 => (5, 32),
        300..=499 => (12, 6),
        500..=699 => (8, 10),
        _ => (6, 4),
    };
    let mut case = if random.chance(60) {
        families::any_scattered(states, marks, random)
    } else {
        families::any_structured(states, marks, random)
    };
    // longer buffers than needed: zeros must go to their own end
    case.room += random.pick(&[0, 0, 1, 7]);
    case.scratch += random.pick(&[0, 0, 1, 40]);
    if random.chance(20) {
        case = damage::damaged(case, random);
    }
    case
}

/// What a judge must say, and who says so: the definition where it is cheap enough, then reachability, then the plain judge (which
/// is itself held against the others wherever they are asked).
fn expected(case: &Case, random: &mut Random) -> (Expected, &'static str) {
    if refusal::of_judge(case).is_some() {
        return (oracle::by_marks_collected(case), "the rows of docs/RULES.md");
    }
    let (n, m) = (case.states as u64, case.edges() as u64);
    let borne = case.marks.iter().fold(0, |union, marks| union | marks).count_ones() as u64;
    let goals = match case.condition {
        Condition::Streett { pairs } => 1u64 << pairs,
        _ => 8,
    };
    if (n * m) << borne.min(m).min(20) <= 1_000_000 {
        (oracle::by_marks_collected(case), "marks collected")
    } else if goals * n * m <= 20_000_000 {
        (oracle::by_reachability(case), "reachability")
    } else {
        (verdict_of_plain(case, random), "the plain judge")
    }
}

/// The plain judge's word for it.
fn verdict_of_plain(case: &Case, random: &mut Random) -> Expected {
    let answer = Plain.judge(case, &mut crate::lent::JudgeLoan::new(case, random));
    match answer.verdict {
        mukhadero::ffi::RUN => Expected::Run { pair: answer.pair },
        mukhadero::ffi::EMPTY => Expected::Empty,
        _ => Expected::Refused { number: answer.number, place: answer.place },
    }
}

/// A number of marks and output lengths for the translation of a case's table: mostly one under which it is valid.
fn any_translation(case: &Case, random: &mut Random) -> (u32, [usize; 3]) {
    let highest = case.marks.iter().fold(0u32, |union, marks| union | marks);
    let least = 32 - highest.leading_zeros();
    let k = match random.below(10) {
        0 => random.pick(&[0, 1, 32, 33, u32::MAX]),
        1 => least.saturating_sub(1),
        2 | 3 => random.within(least, 32),
        4 => (least + 1).min(32),
        _ => least,
    };
    let waiting = if k == 0 && case.states <= 4096 { case.stop_states().len() } else { 0 };
    let edges = (case.from.len() * k.clamp(1, 32) as usize + waiting).min(40_000);
    let mut outputs = [edges; 3].map(|length| length + random.pick(&[0, 0, 1, 9]));
    if random.chance(10) {
        outputs[random.below(3) as usize] = random.pick(&[0, edges.saturating_sub(1), edges / 2]);
    }
    (k, outputs)
}

fn kind(condition: &Condition) -> &'static str {
    match condition {
        Condition::Buchi { .. } => "buchi",
        Condition::Streett { .. } => "streett",
        Condition::Rabin { .. } => "rabin",
    }
}

fn outcome(expected: Expected) -> String {
    match expected {
        Expected::Refused { number, .. } => format!("refused {number}"),
        Expected::Empty => "empty".into(),
        Expected::Run { pair: 0 } => "run".into(),
        Expected::Run { .. } => "run, pair above 0".into(),
    }
}
