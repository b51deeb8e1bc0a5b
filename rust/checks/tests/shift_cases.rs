//! The fourteen cases of docs/RULES.md ("Shift cases"), its edges of the limits and large tables, through the linked judge
//! and the plain one: stored answers, each also put through the harness.

use checks::acceptance;
use checks::case::{Case, Edge};
use checks::families;
use checks::harness;
use checks::judges::{Archive, Judge, Plain};
use checks::lent::JudgeLoan;
use checks::oracle::{self, Expected};
use checks::random::Random;
use mukhadero::Condition::{self, Buchi, Rabin, Streett};
use mukhadero::STOP;

const RUN: Expected = Expected::Run { pair: 0 };
const EMPTY: Expected = Expected::Empty;

fn refused(number: u32, place: u32) -> Expected {
    Expected::Refused { number, place }
}

/// Both judges must give the answer; the linked one's comes back.
fn check(case: &Case, expected: Expected) -> mukhadero::ffi::Answer {
    let judged = |judge: &dyn Judge| {
        harness::check_judge(judge, case, expected, &mut Random::new(5)).unwrap_or_else(|fault| panic!("{fault}\n{case:?}"))
    };
    judged(&Plain);
    judged(&Archive)
}

/// A case from edges "from>to{marks}"; n is one above the largest state named.
fn case(text: &str, condition: Condition) -> Case {
    let mut edges: Vec<Edge> = Vec::new();
    for edge in text.split(", ").filter(|edge| !edge.is_empty()) {
        let (from, rest) = edge.split_once('>').unwrap();
        let (to, marks) = rest.trim_end_matches('}').split_once('{').unwrap();
        let marks = marks.split(',').filter(|mark| !mark.is_empty()).fold(0, |set, mark| set | 1 << mark.parse::<u32>().unwrap());
        edges.push((from.parse().unwrap(), to.parse().unwrap(), marks));
    }
    let states = edges.iter().map(|edge| edge.0.max(edge.1) + 1).max().unwrap();
    Case::new(text, states, 0, edges, condition)
}

fn rabin(needs: &[u32]) -> Condition {
    let mut eight = [0; 8];
    eight[..needs.len()].copy_from_slice(needs);
    Rabin { pairs: needs.len() as u32, needs: eight }
}

const A: &str = "0>1{}, 1>2{0}, 2>1{1}";

#[test]
fn the_fourteen_cases() {
    let cases = [
        (case(A, Buchi { marks: 2 }), RUN),
        (case(A, Buchi { marks: 3 }), EMPTY),
        (case(A, Streett { pairs: 1 }), RUN),
        (case(A, rabin(&[1])), EMPTY),
        (case("0>0{0}", Streett { pairs: 1 }), EMPTY),
        (case("0>0{}", Streett { pairs: 1 }), RUN),
        (case("0>0{}, 0>1{0}, 1>0{}", Streett { pairs: 1 }), RUN),
        (Case::new("two states, no edges", 2, 0, vec![], Streett { pairs: 0 }), RUN),
        (case("0>0{}", Buchi { marks: 0 }), RUN),
        (case("0>0{}", rabin(&[])), EMPTY),
        (case("1>1{0}", Buchi { marks: 1 }), EMPTY),
        (case("0>0{0}, 0>1{}, 1>1{1}", Buchi { marks: 2 }), EMPTY),
        (case("0>1{0}, 1>1{1}", rabin(&[1])), RUN),
    ];
    for (case, expected) in &cases {
        assert_eq!(oracle::by_marks_collected(case), *expected, "{case:?}");
        assert_eq!(oracle::by_reachability(case), *expected, "{case:?}");
        check(case, *expected);
    }
    let table_a = case(A, Buchi { marks: 2 });
    assert_eq!(oracle::one_mark(&table_a, 2), [(0, 2, 0), (1, 3, 0), (2, 5, 0), (3, 5, 0), (4, 2, 0), (5, 2, 1)]);
    harness::check_one_mark(&Archive, &table_a, 2, [6, 7, 8], &mut Random::new(5)).unwrap();
}

/// How deep the erasing goes: stored numbers, beside the rounds that the harness counts.
#[test]
fn depths() {
    let streett = |text: &str, pairs| case(text, Streett { pairs });
    let nested: Vec<Edge> = (0..16).map(|i| (0, 0, 1 << (2 * i) | if i < 15 { 8 << (2 * i) } else { 0 })).collect();
    let stored = [
        (streett("0>0{0}", 1), 1),
        (streett("0>1{0}, 1>0{}", 1), 1),            // only lone states are left
        (streett("0>1{0}, 1>2{0}, 2>0{0,2}", 2), 1), // two bad pairs, erased in one step
        (streett("0>0{2}, 0>1{0,3}, 1>0{}", 2), 2),
        (streett("0>0{0}, 0>1{}, 1>1{2}, 1>2{0,3}, 2>1{}", 2), 2), // the deepest part is not in the start's component
        (streett("0>0{2}, 0>1{0,3}, 1>0{}, 1>2{}, 2>2{0}", 2), 2), // .. and here it is
        (streett("0>0{2}, 0>1{0,3}, 1>0{}, 3>3{4}, 3>3{2,5}, 3>3{0,3}", 3), 2), // a deeper one that can't be reached
        (Case::new("sixteen levels", 1, 0, nested, Streett { pairs: 16 }), 16),
    ];
    for (case, depth) in &stored {
        assert_eq!(check(case, EMPTY).depth, *depth, "{case:?}");
    }
    // a run that is found after erasing, and other kinds
    assert_eq!(check(&streett("0>0{}, 0>1{0}, 1>0{}", 1), RUN).depth, 0);
    assert_eq!(check(&case("0>0{}, 0>0{0}", Buchi { marks: 2 }), EMPTY).depth, 0);
    assert_eq!(check(&case("0>0{0}", rabin(&[0])), EMPTY).depth, 0);
}

#[test]
fn the_printed_example() {
    check(&case("0>0{0}", rabin(&[0, 0])), Expected::Run { pair: 1 });
}

fn bare(states: u32, start: u32, condition: Condition) -> Case {
    Case::new("bare", states, start, vec![], condition)
}

#[test]
fn edges_of_the_limits() {
    check(&bare(4096, 0, Buchi { marks: 0 }), RUN);
    check(&bare(4096, 4095, Buchi { marks: 1 }), EMPTY);
    check(&bare(4097, 0, Buchi { marks: 0 }), refused(1, 0));
    check(&bare(0, 0, Buchi { marks: 0 }), refused(1, 0));
    check(&bare(7, 6, Buchi { marks: 0 }), RUN);
    check(&bare(7, 7, Buchi { marks: 0 }), refused(3, 0));
    let mut loop_one = case("0>0{0}", Buchi { marks: 1 });
    assert_eq!(loop_one.room, 2);
    check(&loop_one, RUN);
    loop_one.room = 1;
    check(&loop_one, refused(8, 0));
    loop_one.room = 2;
    loop_one.scratch -= 1;
    check(&loop_one, refused(9, 0));
    check(&case("0>0{}, 0>0{2}", Buchi { marks: 2 }), refused(7, 1));
    check(&bare(1, 0, Buchi { marks: 32 }), EMPTY);
    check(&bare(1, 0, Buchi { marks: 33 }), refused(4, 0));
    check(&bare(1, 0, Streett { pairs: 16 }), RUN);
    check(&bare(1, 0, Streett { pairs: 17 }), refused(4, 0));
    check(&bare(1, 0, rabin(&[3; 8])), EMPTY);
    check(&bare(1, 0, rabin(&[31])), EMPTY);
    check(&bare(1, 0, rabin(&[32])), refused(4, 0));
    check(&bare(1, 0, Rabin { pairs: 9, needs: [0; 8] }), refused(4, 0));
    check(&bare(1, 0, Rabin { pairs: 7, needs: [0, 0, 0, 0, 0, 0, 0, 1] }), refused(4, 0));
    check(&Case::new("most edges", 1, 0, vec![(0, 0, 0); 32768], Buchi { marks: 0 }), RUN);
    check(&Case::new("an edge too many", 1, 0, vec![(0, 0, 0); 32769], Buchi { marks: 0 }), refused(2, 0));
    // every edge bears all 32 marks; all 32 bits of a word take part
    check(&case("0>0{31}, 0>0{0}", Buchi { marks: 32 }), EMPTY);
    check(&Case::new("all marks", 1, 0, vec![(0, 0, u32::MAX)], Buchi { marks: 32 }), RUN);
    check(&Case::new("all marks", 1, 0, vec![(0, 0, u32::MAX)], Streett { pairs: 16 }), RUN);
}

#[test]
fn edges_of_the_translation() {
    let random = &mut Random::new(5);
    let mut number =
        |case: &Case, k: u32, output: usize| harness::check_one_mark(&Archive, case, k, [output; 3], random).unwrap();
    assert_eq!(number(&bare(2048, 0, Buchi { marks: 0 }), 2, 0), 0);
    assert_eq!(number(&bare(2049, 0, Buchi { marks: 0 }), 2, 0), 10);
    let most = Case::new("most edges", 1, 0, vec![(0, 0, 0); 16384], Buchi { marks: 0 });
    assert_eq!(number(&most, 2, 32768), 0);
    assert_eq!(number(&most, 2, 32767), 11);
    assert_eq!(number(&most, 3, 32768), 10);
    assert_eq!(number(&case("0>0{0,1,2}, 0>1{1,2}, 1>0{0}", Buchi { marks: 0 }), 3, 9), 0);
    assert_eq!(number(&case("0>0{}, 0>1{}, 1>0{}", Buchi { marks: 0 }), 0, 3), 0);
    assert_eq!(number(&Case::new("all marks", 3, 2, vec![(0, 2, u32::MAX), (2, 0, 1 << 31)], Buchi { marks: 0 }), 32, 64), 0);
}

/// A stop state waits for ever, on an edge without marks; a state that only lost its edges does not.
#[test]
fn stop_states() {
    let room = |case: &Case| {
        let mut loan = JudgeLoan::new(case, &mut Random::new(5));
        let answer = Archive.judge(case, &mut loan);
        loan.room.part()[..(answer.prefix_length + answer.cycle_length) as usize].to_vec()
    };
    for (case, expected, lasso) in [
        (bare(2, 0, Streett { pairs: 0 }), RUN, vec![STOP]),
        (bare(1, 0, rabin(&[])), EMPTY, vec![]),
        (bare(1, 0, rabin(&[1])), EMPTY, vec![]),
        (bare(1, 0, rabin(&[1, 0])), Expected::Run { pair: 1 }, vec![STOP]),
        (case("0>1{0}", Buchi { marks: 1 }), EMPTY, vec![]),
        (case("0>1{0}", Streett { pairs: 1 }), RUN, vec![0, STOP]),
        (case("0>1{0}", rabin(&[0])), RUN, vec![0, STOP]),
        // the loop meets pair 1, the stop state pair 0
        (case("0>0{0}, 0>1{0}", rabin(&[0, 0])), RUN, vec![1, STOP]),
        (case("0>0{0}", rabin(&[0])), EMPTY, vec![]),
        (case("0>0{0}", Streett { pairs: 1 }), EMPTY, vec![]),
        // state 1 cannot be reached
        (Case::new("a stop state out of reach", 2, 0, vec![(0, 0, 1)], Streett { pairs: 1 }), EMPTY, vec![]),
    ] {
        assert_eq!(oracle::by_marks_collected(&case), expected, "{case:?}");
        assert_eq!(oracle::by_reachability(&case), expected, "{case:?}");
        check(&case, expected);
        assert_eq!(room(&case), lasso, "{case:?}");
    }
}

#[test]
fn stop_states_translated() {
    let random = &mut Random::new(5);
    let mut number =
        |case: &Case, k: u32, output: usize| harness::check_one_mark(&Archive, case, k, [output; 3], random).unwrap();
    let four = Case::new("four states", 4, 0, vec![(0, 1, 0), (2, 2, 0)], Buchi { marks: 0 });
    assert_eq!(oracle::one_mark(&four, 0), [(0, 1, 1), (1, 1, 1), (2, 2, 1), (3, 3, 1)]);
    assert_eq!(number(&four, 0, 4), 0);
    assert_eq!(number(&four, 0, 3), 11);
    assert_eq!(number(&four, 1, 2), 0);
    let loops = |edges: usize| Case::new("loops and a stop state", 2, 0, vec![(0, 0, 0); edges], Buchi { marks: 0 });
    assert_eq!(number(&loops(32767), 0, 32768), 0);
    assert_eq!(number(&loops(32767), 0, 32767), 11);
    assert_eq!(number(&loops(32768), 0, 32769), 10);
    assert_eq!(number(&loops(32768), 1, 32768), 0);
    assert_eq!(number(&bare(4096, 0, Buchi { marks: 0 }), 0, 4096), 0);
    assert_eq!(number(&bare(4096, 0, Buchi { marks: 0 }), 1, 0), 0);
}

#[test]
fn large_tables() {
    let random = &mut Random::new(5);
    let run = check(&families::long_cycle(4096, 4096, 1, false, random), RUN);
    assert_eq!(run.cycle_length, 4096);
    check(&families::long_cycle(4096, 32768, 32, false, random), RUN);
    check(&families::long_cycle(4096, 32768, 32, true, random), EMPTY);
    let run = check(&families::round_per_mark(4096, 32, random), RUN);
    assert!(run.cycle_length >= 32 * 4096);
    let run = check(&families::long_prefix(4096, 4096, Buchi { marks: 0 }, random), RUN);
    assert_eq!((run.prefix_length, run.cycle_length), (4095, 1));
    check(&families::streett_deep(4096, 32768, 16, true, random), RUN);
    check(&families::streett_deep(4096, 32768, 16, false, random), EMPTY);
    check(&families::streett_shrinking(4096, 32768, 16, true, random), RUN);
    check(&families::streett_shrinking(4096, 32768, 16, false, random), EMPTY);
    check(&families::lone_loops(4096, true, random), RUN);
    check(&families::lone_loops(4096, false, random), EMPTY);
    check(&families::rabin_last(4096, 32768, true, random), Expected::Run { pair: 7 });
    check(&families::rabin_last(4096, 32768, false, random), EMPTY);
    check(&families::small_parts(4096, 32768, 5, true, random), RUN);
    check(&families::small_parts(4096, 32768, 5, false, random), EMPTY);
    check(&families::unreachable_accepted(4096, 32768, 3, random), EMPTY);
    let run = check(&families::lone_states(4096, 4096, Buchi { marks: 0 }, random), RUN);
    assert_eq!(run.cycle_length, 1);
    check(&families::lone_states(4096, 32768, Buchi { marks: 1 }, random), EMPTY);
    // from 257 states on that can be reached, a short round from the start is looked for first
    for states in [256, 257, 512, 4096] {
        check(&families::scattered(states, 8 * states, Streett { pairs: 4 }, 10, random), RUN);
    }
}

/// The deep family is as deep as it says: given only the first i rounds of erasing, something bad is still left.
#[test]
fn the_deep_family_needs_every_level() {
    let case = families::streett_deep(6, 0, 16, false, &mut Random::new(5));
    let mut avoid = 0u32;
    for level in 0..16 {
        // the path with its remaining closing edges is one component, so its marks are the union
        let union = case.marks.iter().filter(|&marks| marks & avoid == 0).fold(0, |union, marks| union | marks);
        let bad: Vec<u64> = (0..16).filter(|i| acceptance::holds(union, 2 * i) && !acceptance::holds(union, 2 * i + 1)).collect();
        assert_eq!(bad, [level]);
        avoid |= 1 << (2 * level);
    }
}
