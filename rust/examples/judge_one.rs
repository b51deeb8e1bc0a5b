//! Two benches and one barcode: is there a shift in which both marks come round for ever? The same as examples/c/judge_one.c:
//! `cargo run --offline --release --example judge_one`.

use mukhadero::{Condition, Judge, Refusal, Table, Verdict};

fn main() -> Result<(), Refusal> {
    // 0>1{}, 1>2{0}, 2>1{1} under Buchi 2
    let table = Table { states: 3, start: 0, from: &[0, 1, 2], to: &[1, 2, 1], marks: &[0b00, 0b01, 0b10] };
    match Judge::new().judge(&table, &Condition::Buchi { marks: 2 })? {
        Verdict::Run(lasso) => println!("run: prefix {:?}, cycle {:?}", lasso.prefix, lasso.cycle),
        Verdict::Empty { .. } => println!("empty"),
    }
    Ok(())
}
