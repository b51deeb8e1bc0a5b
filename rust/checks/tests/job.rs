//! Job texts through the wrapper: what is written, in which order it is refused, and that a refusal changes nothing.

use mukhadero::{write_job, Cause, Table, MOST_JOB_BYTES};

/// A table with one state for each loop.
fn loops(states: u32, edges: usize) -> [Vec<u32>; 3] {
    let cells: Vec<u32> = (0..edges as u32).map(|edge| edge.min(states - 1)).collect();
    [cells.clone(), cells, vec![1; edges]]
}

#[test]
fn the_largest_table_is_written_in_the_stated_bytes() {
    let from: Vec<u32> = vec![255; 512];
    let table = Table { states: 256, start: 255, from: &from, to: &from, marks: &[1; 512] };
    let mut out = [9; MOST_JOB_BYTES + 3];
    let text = write_job(&table, &mut out).unwrap();
    assert_eq!(text.len(), MOST_JOB_BYTES);
    assert!(text.starts_with(b"form=2\nstates=256\nstart=255\nkind=buchi\ncount=1\nneed=-\nedges=512\nedge=255,255,00000001\n"));
    assert!(text.ends_with(b"\nedge=255,255,00000001\nend=job\n"));
    assert_eq!(out[MOST_JOB_BYTES..], [0; 3], "zeros behind the text");
}

#[test]
fn an_output_just_as_long_as_the_text_is_enough() {
    let table = Table { states: 1, start: 0, from: &[], to: &[], marks: &[] };
    let text = b"form=2\nstates=1\nstart=0\nkind=buchi\ncount=1\nneed=-\nedges=0\nend=job\n";
    let mut out = [9; 70];
    assert_eq!(write_job(&table, &mut out[..text.len()]).unwrap(), text);
    assert_eq!(out[text.len()..], vec![9; 70 - text.len()]);
    assert_eq!(write_job(&table, &mut out[..text.len() - 1]).unwrap_err().cause, Cause::Output);
}

#[test]
fn refusals_come_in_order_and_change_nothing() {
    let [from, to, marks] = loops(257, 513);
    let refused = |states, start, from: &[u32], to: &[u32], marks: &[u32], room| {
        let mut out = vec![9; room];
        let refusal = write_job(&Table { states, start, from, to, marks }, &mut out).unwrap_err();
        assert!(out.iter().all(|&byte| byte == 9), "the output is as it was");
        (refusal.cause.number(), refusal.place)
    };
    assert_eq!(refused(0, 0, &[], &[], &[], 0), (1, 0));
    assert_eq!(refused(1, 0, &[0], &[], &[0], 0), (2, 0));
    assert_eq!(refused(1, 1, &[], &[], &[], 0), (3, 0));
    assert_eq!(refused(2, 0, &[0, 1], &[0, 2], &[0, 0], 0), (5, 1));
    assert_eq!(refused(2, 0, &[1, 0], &[0, 0], &[0, 0], 0), (6, 1));
    assert_eq!(refused(257, 0, &[0, 0], &[0, 0], &[1, 2], 0), (7, 1), "row 7 comes before 23");
    assert_eq!(refused(257, 0, &from[..1], &to[..1], &marks[..1], 0), (23, 0), "23 comes before 11");
    assert_eq!(refused(256, 0, &from[..256], &to[..256], &marks[..256], 0), (11, 0));
    assert_eq!(refused(256, 0, &[0; 513], &[0; 513], &[1; 513], MOST_JOB_BYTES), (23, 0));
    assert_eq!(refused(257, 0, &from, &to, &marks, MOST_JOB_BYTES), (23, 0));
}
