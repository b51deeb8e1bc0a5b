//! The benchmark: the linked judge beside the plain one, in one run, on families of tables up to the limits. Prints a Markdown
//! table, of which `tools/bench` makes docs/bench-table.md. `bench` alone measures everything; `bench quick` only the smallest size,
//! to see that it works; `bench WORD` only the families with the word in their names. `bench once` prints a line for each row with its
//! number, and `bench once NUMBER` only has the linked judge pass over that row: `tools/bench --instructions` counts what that takes.
//!
//! A row's tables have the same number of edges together, whatever their size, and a sample is one pass over all of them: so small
//! tables gain nothing from a processor that has learnt a single one by heart, and growth can be read off. The first passes warm
//! caches and are not counted. Time is the thread's processor time. In a round each size of the family is passed over by the one
//! judge and then the other, and ratio and growth are medians of what each round says: so a slow spell of the machine, which lasts
//! longer than a round, meets both sides of each. Room and scratch are exactly as long as needed; each judge leaves them in order
//! itself, and that is part of its time.

use checks::case::Case;
use checks::families;
use checks::judges::{plain_condition, plain_table};
use checks::random::Random;
use mukhadero::{ffi, Condition};
use std::hint::black_box;

/// How often each row is passed over by each judge.
const ROUNDS: usize = 15;
/// Edges of all the tables of a row together.
const EDGES_TOGETHER: u32 = 16 * 32_768;

type Make = fn(edges: u32, random: &mut Random) -> Case;

/// Each family with the tables it gives for a number of edges.
const FAMILIES: &[(&str, Make)] = &[
    ("scattered, Büchi 2", |m, random| families::scattered(m / 8, m, Condition::Buchi { marks: 2 }, 10, random)),
    ("scattered, sparse, Büchi 3", |m, random| {
        families::scattered(m.div_ceil(2).min(4096), m, Condition::Buchi { marks: 3 }, 2, random)
    }),
    ("scattered, Streett 4", |m, random| families::scattered(m / 8, m, Condition::Streett { pairs: 4 }, 10, random)),
    ("scattered, Rabin 2,2,2,2", |m, random| {
        families::scattered(m / 8, m, Condition::Rabin { pairs: 4, needs: [2, 2, 2, 2, 0, 0, 0, 0] }, 10, random)
    }),
    ("dense, Büchi 8", |m, random| families::dense(m.isqrt(), Condition::Buchi { marks: 8 }, 5, random)),
    ("8 states, Büchi 1", |m, random| families::few_states(8, m, 1, random)),
    ("8 states, Büchi 32", |m, random| families::few_states(8, m, 32, random)),
    ("64 states, Büchi 8", |m, random| families::few_states(64, m, 8, random)),
    ("long cycle, m = n", |m, random| families::long_cycle(m / 8, m / 8, 4, false, random)),
    ("long cycle, edges back", |m, random| families::long_cycle(m / 8, m, 4, false, random)),
    ("long cycle, a mark short", |m, random| families::long_cycle(m / 8, m, 4, true, random)),
    ("long prefix", |m, random| families::long_prefix(m / 8, m, Condition::Buchi { marks: 0 }, random)),
    ("a round per mark, Büchi 32", |m, random| families::round_per_mark(m / 8, 32, random)),
    ("small parts, last accepted", |m, random| families::small_parts(m / 8, m, 4, true, random)),
    ("small parts, none accepted", |m, random| families::small_parts(m / 8, m, 4, false, random)),
    ("deep Streett 16, run", |m, random| families::streett_deep(m / 8, m, 16, true, random)),
    ("deep Streett 16, empty", |m, random| families::streett_deep(m / 8, m, 16, false, random)),
    ("shrinking Streett 16, empty", |m, random| families::streett_shrinking(m / 8, m, 16, false, random)),
    ("Rabin, last of 8 pairs", |m, random| families::rabin_last(m / 8, m, true, random)),
    ("Rabin, none of 8 pairs", |m, random| families::rabin_last(m / 8, m, false, random)),
    ("lone states", |m, random| families::lone_states(m / 8, m, Condition::Buchi { marks: 1 }, random)),
    ("unreachable accepted part", |m, random| families::unreachable_accepted(m / 8, m, 3, random)),
];

const SIZES: &[u32] = &[4_096, 8_192, 16_384, 32_768];

/// The tables of a row: a family at a size.
struct Row {
    cases: Vec<Case>,
    states: u64,
    edges: u64,
}

impl Row {
    fn new(make: Make, size: u32) -> Row {
        let tables = (EDGES_TOGETHER / size) as u64;
        let cases: Vec<Case> = (0..tables).map(|number| make(size, &mut Random::of_table(6, number))).collect();
        let states = cases.iter().map(|case| case.states as u64).sum();
        let edges = cases.iter().map(|case| case.edges() as u64).sum();
        Row { cases, states, edges }
    }

    fn tables(&self) -> u64 {
        self.cases.len() as u64
    }

    /// Whether a table has twice the states and twice the edges of one of the row before, but for some that a family has whatever its
    /// size: only then growth tells whether time is linear.
    fn doubles(&self, before: &Row) -> bool {
        let twice = |now: u64, then: u64| (2 * then).abs_diff(now) * 16 <= now;
        twice(self.states / self.tables(), before.states / before.tables()) && twice(self.edges / self.tables(), before.edges / before.tables())
    }
}

/// What one judge showed on the tables of a row: runs among its answers, edges of their lassos, and each round's time of a pass.
struct Shown {
    runs: u64,
    lasso: u64,
    times: Vec<f64>,
}

impl Shown {
    fn nanoseconds(&self, row: &Row) -> f64 {
        median(self.times.clone()) / row.edges as f64
    }

    /// The time for one table against that for one of the row before.
    fn growth(&self, row: &Row, before: &(Row, [Shown; 2]), judge: usize) -> String {
        if !row.doubles(&before.0) {
            return "-".to_string();
        }
        let tables = before.0.tables() as f64 / row.tables() as f64;
        format!("{:.2}", tables * between(&before.1[judge].times, &self.times))
    }

    fn mean_lasso(&self) -> String {
        match self.runs {
            0 => "-".to_string(),
            runs => format!("{:.1}", self.lasso as f64 / runs as f64),
        }
    }
}

/// Processor time of this thread, in nanoseconds: while others have the processor, it stands still.
fn now() -> f64 {
    #[repr(C)]
    struct Time {
        seconds: i64,
        nanoseconds: i64,
    }
    extern "C" {
        fn clock_gettime(clock: i32, time: *mut Time) -> i32;
    }
    const THREAD_PROCESSOR_TIME: i32 = 3; // CLOCK_THREAD_CPUTIME_ID on Linux
    let mut time = Time { seconds: 0, nanoseconds: 0 };
    // Safety: the C library writes one `struct timespec`, which on 64-bit Linux is laid out as `Time`.
    assert_eq!(unsafe { clock_gettime(THREAD_PROCESSOR_TIME, &mut time) }, 0);
    time.seconds as f64 * 1e9 + time.nanoseconds as f64
}

fn median(mut samples: Vec<f64>) -> f64 {
    samples.sort_by(f64::total_cmp);
    samples[samples.len() / 2]
}

/// The second over the first: the median of what each round says.
fn between(first: &[f64], second: &[f64]) -> f64 {
    median(first.iter().zip(second).map(|(first, second)| second / first).collect())
}

/// One judge over the tables of a row: runs and edges of lassos.
type Pass = fn(cases: &[Case], room: &mut [u32], scratch: &mut [u32]) -> (u64, u64);

/// The plain judge first.
const JUDGES: [Pass; 2] = [pass_of_plain, pass_of_linked];

fn pass_of_plain(cases: &[Case], room: &mut [u32], scratch: &mut [u32]) -> (u64, u64) {
    let (mut runs, mut lasso) = (0, 0);
    for case in cases {
        let (table, condition) = (plain_table(&case.table()), plain_condition(&case.condition));
        match plain::judge(black_box(&table), &condition, &mut room[..case.room], &mut scratch[..case.scratch]) {
            plain::Verdict::Run { prefix, cycle, .. } => (runs, lasso) = (runs + 1, lasso + (prefix + cycle) as u64),
            plain::Verdict::Empty { .. } => {}
            plain::Verdict::Refused { number, .. } => panic!("refused {number}"),
        }
    }
    (runs, lasso)
}

fn pass_of_linked(cases: &[Case], room: &mut [u32], scratch: &mut [u32]) -> (u64, u64) {
    let (mut runs, mut lasso) = (0, 0);
    for case in cases {
        let table = case.table();
        let answer = ffi::judge(black_box(&table), &case.condition, &mut room[..case.room], &mut scratch[..case.scratch]);
        assert_eq!(answer.number, 0);
        runs += (answer.verdict == ffi::RUN) as u64;
        lasso += (answer.prefix_length + answer.cycle_length) as u64;
    }
    (runs, lasso)
}

/// Measures both judges on the rows of a family, by turns. Each judge has room and scratch of its own.
fn measure(rows: Vec<Row>) -> Vec<(Row, [Shown; 2])> {
    let cells = |of: fn(&Case) -> usize| vec![0; rows.iter().flat_map(|row| &row.cases).map(of).max().unwrap()];
    let mut lent = JUDGES.map(|_| (cells(|case| case.room), cells(|case| case.scratch)));
    let mut pass = |judge: usize, row: &Row| {
        let (room, scratch) = &mut lent[judge];
        let begin = now();
        let (runs, lasso) = black_box(JUDGES[judge](&row.cases, room, scratch));
        (runs, lasso, now() - begin)
    };
    let mut measured: Vec<(Row, [Shown; 2])> = Vec::new();
    for row in rows {
        let shown = [0, 1].map(|judge| {
            let (runs, lasso, _) = pass(judge, &row);
            Shown { runs, lasso, times: Vec::new() }
        });
        measured.push((row, shown));
    }
    for _ in 0..ROUNDS {
        for (row, shown) in &mut measured {
            for (judge, shown) in shown.iter_mut().enumerate() {
                shown.times.push(pass(judge, row).2);
            }
        }
    }
    measured
}

/// Prints the rows: number, family, states and edges of a table, tables; or passes over one of them.
fn once(number: Option<usize>) {
    let rows = || FAMILIES.iter().flat_map(|(name, make)| SIZES.iter().map(move |&size| (name, make, size)));
    let Some(number) = number else {
        return rows().enumerate().for_each(|(number, (name, make, size))| {
            let case = make(size, &mut Random::of_table(6, 0));
            println!("{number}|{name}|{}|{}|{}", case.states, case.edges(), EDGES_TOGETHER / size);
        });
    };
    let (_, make, size) = rows().nth(number).expect("no such row");
    let row = Row::new(*make, size);
    let mut room = vec![0; row.cases.iter().map(|case| case.room).max().unwrap()];
    let mut scratch = vec![0; row.cases.iter().map(|case| case.scratch).max().unwrap()];
    black_box(pass_of_linked(&row.cases, &mut room, &mut scratch));
}

fn main() {
    let asked = std::env::args().nth(1).unwrap_or_default();
    if asked == "once" {
        return once(std::env::args().nth(2).map(|number| number.parse().expect("the number of a row")));
    }
    let (sizes, word) = if asked == "quick" { (&SIZES[..1], "") } else { (SIZES, asked.as_str()) };
    println!("| family | n | m | verdict | plain ns/edge | judge ns/edge | ratio | plain growth | growth | plain lasso | judge lasso |");
    println!("|---|---:|---:|---|---:|---:|---:|---:|---:|---:|---:|");
    let mut worst: (f64, String) = (0.0, String::new());
    for (name, make) in FAMILIES.iter().filter(|(name, _)| name.contains(word)) {
        let measured = measure(sizes.iter().map(|&size| Row::new(*make, size)).collect());
        for (at, (row, [plain, linked])) in measured.iter().enumerate() {
            assert_eq!(plain.runs, linked.runs, "{name}: the verdicts differ");
            let tables = row.tables();
            let verdict = match linked.runs {
                0 => "empty".to_string(),
                runs if runs == tables => "run".to_string(),
                runs => format!("{runs} of {tables} run"),
            };
            let [plain_growth, growth] = [(plain, 0), (linked, 1)]
                .map(|(shown, judge)| if at == 0 { "-".to_string() } else { shown.growth(row, &measured[at - 1], judge) });
            let ratio = between(&plain.times, &linked.times);
            println!(
                "| {name} | {} | {} | {verdict} | {:.2} | {:.2} | {ratio:.2} | {plain_growth} | {growth} | {} | {} |",
                row.states / tables,
                row.edges / tables,
                plain.nanoseconds(row),
                linked.nanoseconds(row),
                plain.mean_lasso(),
                linked.mean_lasso(),
            );
            if ratio > worst.0 {
                worst = (ratio, format!("{name}, m {}", row.edges / tables));
            }
        }
    }
    println!("\nWorst ratio: {:.2} ({}).", worst.0, worst.1);
}
