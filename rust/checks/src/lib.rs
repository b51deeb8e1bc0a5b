//! The linked judge held against something that shares none of its definitions.
//!
//! - [`acceptance`] and [`refusal`]: which lassos are accepted and what a table is refused for, in the words of docs/RULES.md.
//! - [`oracle`]: verdicts without components: a search over pairs of state and marks collected; and for tables too large for
//!   that, reachability goal by goal.
//! - [`families`] and [`damage`]: tables, structured, random and broken. [`random`]: numbers from fixed seeds.
//! - [`lent`]: buffers between guard cells. [`judges`]: the judges that can be put under test.
//! - [`shortest`]: how long a lasso need be, on small tables.
//! - [`harness`]: one table through one judge, every promise looked at. [`drive`]: many tables. [`job_text`]: a table in print.
//!   [`shrink`]: a failing table with fewer edges.

pub mod acceptance;
pub mod case;
pub mod damage;
pub mod drive;
pub mod erasing;
pub mod families;
pub mod harness;
pub mod job_text;
pub mod judges;
pub mod lent;
pub mod oracle;
pub mod random;
pub mod refusal;
pub mod shortest;
pub mod shrink;
