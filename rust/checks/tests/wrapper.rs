//! The wrapper's own part: enums for numbers, slices of the room for lengths, and room and scratch that are never too short.

use checks::acceptance;
use checks::damage;
use checks::families;
use checks::oracle::{self, Expected};
use checks::random::Random;
use checks::refusal;
use mukhadero::{Condition, Judge, Lasso, Verdict, STOP};
use std::thread;

#[test]
fn a_judge_with_room_of_its_own_says_what_the_oracle_says() {
    let mut judge = Judge::new();
    for number in 0..3000 {
        let mut random = Random::of_table(8, number);
        let mut case = families::any_scattered(6, 6, &mut random);
        if random.chance(30) {
            // rows 1 to 7: the room and scratch are the judge's own
            let row = random.within(1, 7);
            damage::damage(&mut case, row, &mut random);
        }
        if refusal::of_table(&case, &case.condition).is_none() {
            case.room = acceptance::room_needed(case.states, &case.condition) as usize;
            case.scratch = acceptance::scratch_needed(case.states, case.edges()) as usize;
        }
        let said = match judge.judge(&case.table(), &case.condition) {
            Ok(Verdict::Run(Lasso { prefix, cycle, pair })) => {
                let union = cycle.iter().filter(|&&e| e != STOP).fold(0, |union, &e| union | case.marks[e as usize]);
                assert!(acceptance::accepted(&case.condition, union));
                assert!(prefix.len() < case.states as usize && !cycle.is_empty());
                assert_eq!(pair.is_some(), matches!(case.condition, Condition::Rabin { .. }));
                Expected::Run { pair: pair.unwrap_or(0) }
            }
            Ok(Verdict::Empty { .. }) => Expected::Empty,
            Err(refusal) => Expected::Refused { number: refusal.cause.number(), place: refusal.place },
        };
        assert_eq!(said, oracle::by_marks_collected(&case), "{case:?}");
    }
}

#[test]
fn crate_header_and_archive_have_one_version() {
    let parts: Vec<u32> = env!("CARGO_PKG_VERSION").split('.').map(|part| part.parse().unwrap()).collect();
    assert_eq!(mukhadero::VERSION, 10_000 * parts[0] + 100 * parts[1] + parts[2]);
    assert_eq!(mukhadero::version(), mukhadero::VERSION);
    let header = include_str!("../../../include/mukhadero.h");
    assert!(header.contains(&format!("#define MUKHADERO_VERSION_STRING \"{}\"", env!("CARGO_PKG_VERSION"))));
    for (name, part) in ["MAJOR", "MINOR", "PATCH"].iter().zip(parts) {
        assert!(header.contains(&format!("#define MUKHADERO_VERSION_{name}  {part}\n")));
    }
}

/// What the header says of threads and of the stack: tables are shared, and the deepest division fits a small stack.
#[test]
fn threads_share_a_table_and_need_little_stack() {
    for accepted in [false, true] {
        let case = families::streett_deep(4096, 32768, 16, accepted, &mut Random::of_table(11, 0));
        thread::scope(|scope| {
            for _ in 0..4 {
                let judged = thread::Builder::new().stack_size(64 * 1024).spawn_scoped(scope, || {
                    let run = matches!(Judge::new().judge(&case.table(), &case.condition), Ok(Verdict::Run(_)));
                    assert_eq!(run, accepted);
                });
                judged.unwrap();
            }
        });
    }
}
