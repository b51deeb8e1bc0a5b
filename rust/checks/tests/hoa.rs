//! The Hanoi format through the wrapper: what is written is read back, and a deep text needs little stack.

use mukhadero::{read_hoa, write_hoa, Cause, Condition, HoaText, Table, MOST_HOA_BYTES, MOST_HOA_EDGES};
use std::thread;

/// Reads a text into tables of its own.
fn read(text: &[u8]) -> Result<(HoaText, [Vec<u32>; 3]), (Cause, u64)> {
    let [mut from, mut to, mut marks] = [(); 3].map(|()| vec![7; MOST_HOA_EDGES]);
    let said = read_hoa(text, &mut from, &mut to, &mut marks).map_err(|refusal| (refusal.cause, refusal.place))?;
    for cells in [&mut from, &mut to, &mut marks] {
        assert!(cells[said.edges..].iter().all(|&cell| cell == 0), "zeros behind the edges");
        cells.truncate(said.edges);
    }
    Ok((said, [from, to, marks]))
}

#[test]
fn what_is_written_is_read_back() {
    let (from, to, marks) = ([0, 0, 1, 2], [1, 2, 2, 0], [0, 0b11, 0b101, 0b100]);
    let table = Table { states: 3, start: 1, from: &from, to: &to, marks: &marks };
    let needs = [1, 0, 0, 0, 0, 0, 0, 0];
    for condition in [Condition::Buchi { marks: 3 }, Condition::Streett { pairs: 2 }, Condition::Rabin { pairs: 2, needs }] {
        let mut out = [9; MOST_HOA_BYTES];
        let text = write_hoa(&table, &condition, &mut out).unwrap();
        let (said, cells) = read(text).unwrap();
        assert_eq!((said.states, said.start, said.edges, said.condition), (3, 1, 4, condition));
        assert_eq!(cells, [from.to_vec(), to.to_vec(), marks.to_vec()]);
    }
    let mut out = [9; 200];
    let none = Table { states: 1, start: 0, from: &[], to: &[], marks: &[] };
    let length = write_hoa(&none, &Condition::Streett { pairs: 0 }, &mut out).unwrap().len();
    assert!(out[length..].iter().all(|&byte| byte == 0), "zeros behind the text");
    assert_eq!(read(&out[..length]).unwrap().0.condition, Condition::Buchi { marks: 0 });
}

#[test]
fn refusals_name_their_byte_and_change_nothing() {
    assert_eq!(read(b"HOA: v2"), Err((Cause::HoaSubset, 5)));
    assert_eq!(read(b"HOA: v1 Start: 256"), Err((Cause::HoaLimits, 15)));
    assert_eq!(read(b"HOA: v1 /* open"), Err((Cause::HoaSyntax, 8)));
    let text = b"HOA: v1 Start: 0 Acceptance: 0 t --BODY-- State: 0 [t] 0 --END--";
    let (mut from, mut to, mut marks) = ([7; 1], [7; 1], [7; 0]);
    assert_eq!(read_hoa(text, &mut from, &mut to, &mut marks).unwrap_err().cause, Cause::Output);
    assert_eq!((from, to), ([7], [7]));
}

/// What the header says of the stack, for brackets as deep as they may nest.
#[test]
fn deep_labels_need_little_stack() {
    let deep = |levels| {
        let label = "(".repeat(levels) + "t" + &")".repeat(levels);
        format!("HOA: v1 Start: 0 Acceptance: 0 t --BODY-- State: 0 [{label}] 0 --END--")
    };
    for (levels, edges) in [(256, Ok(1)), (257, Err((Cause::HoaLimits, 52 + 256)))] {
        let text = deep(levels);
        let said = thread::Builder::new().stack_size(128 * 1024).spawn(move || read(text.as_bytes()).map(|(said, _)| said.edges));
        assert_eq!(said.unwrap().join().unwrap(), edges);
    }
}
