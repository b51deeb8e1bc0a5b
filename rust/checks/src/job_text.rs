//! A case as job text, so that a failing table can be kept, read and judged by hand.

use crate::case::Case;
use mukhadero::Condition;

/// The job text of a table and a condition. It may be above the judge program's limits; tables that differ in length are cut to the
/// shortest.
pub fn of(case: &Case, condition: &Condition) -> String {
    let (kind, count, need) = match *condition {
        Condition::Buchi { marks } => ("buchi", marks, "-".to_string()),
        Condition::Streett { pairs } => ("streett", pairs, "-".to_string()),
        Condition::Rabin { pairs, needs } => {
            let listed: Vec<String> = needs.iter().take(pairs as usize).map(u32::to_string).collect();
            ("rabin", pairs, if pairs == 0 { "-".to_string() } else { listed.join(",") })
        }
    };
    let edges = case.from.len().min(case.to.len()).min(case.marks.len());
    let mut text =
        format!("states={}\nstart={}\nkind={kind}\ncount={count}\nneed={need}\nedges={edges}\n", case.states, case.start);
    for e in 0..edges {
        text += &format!("edge={},{},{:08x}\n", case.from[e], case.to[e], case.marks[e]);
    }
    text + "end=job\n"
}

/// What the job text can't say about a case: lengths of lent buffers, and needs behind the pairs.
pub fn beside(case: &Case) -> String {
    let mut text = format!(
        "family {}; lent: from {}, to {}, marks {}, room {}, scratch {}",
        case.origin,
        case.from.len(),
        case.to.len(),
        case.marks.len(),
        case.room,
        case.scratch
    );
    if let Condition::Rabin { needs, .. } = case.condition {
        text += &format!("; needs {needs:?}");
    }
    text
}
