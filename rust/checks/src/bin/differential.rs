//! The longer run: `differential [TABLES [SEED [FIRST]]]`, 100,000 tables of seed 1 from table 0 if nothing is said. A failure
//! names its seed and table, and `differential 1 SEED TABLE` makes that table again; it is printed as it is, and with fewer edges.

use checks::drive;
use checks::judges::Archive;

fn main() {
    let numbers: Vec<u64> = std::env::args().skip(1).map(|word| word.parse().expect("a number")).collect();
    let number = |i: usize, otherwise: u64| numbers.get(i).copied().unwrap_or(otherwise);
    match drive::run(&Archive, number(1, 1), number(2, 0), number(0, 100_000)) {
        Ok(tally) => {
            println!("{} tables, no failure", tally.tables);
            for (name, count) in &tally.seen {
                println!("{count:>9}  {name}");
            }
            println!("{}", tally.lengths);
            if let Err(longer) = tally.lengths.within_limit() {
                println!("{longer}");
                std::process::exit(1);
            }
        }
        Err(failure) => {
            println!("{failure}");
            println!("{}", drive::smaller(&Archive, &failure));
            std::process::exit(1);
        }
    }
}
