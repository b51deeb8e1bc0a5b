//! A case: a table with its condition, and how much room and scratch is lent with it.

use crate::acceptance;
use mukhadero::{Condition, Table};

/// Kept apart from the lent buffers: this is what the caller means, they are what the judge is handed.
#[derive(Clone, Debug)]
pub struct Case {
    /// Where the case comes from: its family, for the report of a failure.
    pub origin: String,
    pub states: u32,
    pub start: u32,
    pub from: Vec<u32>,
    pub to: Vec<u32>,
    pub marks: Vec<u32>,
    pub condition: Condition,
    /// Cells of room lent.
    pub room: usize,
    /// Words of scratch lent.
    pub scratch: usize,
}

/// An edge while a table is being made: from, to, marks.
pub type Edge = (u32, u32, u32);

impl Case {
    /// A case with exactly the room and scratch needed. Edges are put in order by where they leave, else as given.
    pub fn new(origin: &str, states: u32, start: u32, mut edges: Vec<Edge>, condition: Condition) -> Self {
        edges.sort_by_key(|&(from, _, _)| from);
        let room = acceptance::room_needed(states, &condition) as usize;
        let scratch = acceptance::scratch_needed(states, edges.len()) as usize;
        Case {
            origin: origin.to_string(),
            states,
            start,
            from: edges.iter().map(|edge| edge.0).collect(),
            to: edges.iter().map(|edge| edge.1).collect(),
            marks: edges.iter().map(|edge| edge.2).collect(),
            condition,
            room,
            scratch,
        }
    }

    pub fn table(&self) -> Table<'_> {
        Table { states: self.states, start: self.start, from: &self.from, to: &self.to, marks: &self.marks }
    }

    /// Number of edges, for a case whose tables agree in length.
    pub fn edges(&self) -> usize {
        self.from.len()
    }

    /// The stop states, in order: those that no edge leaves.
    pub fn stop_states(&self) -> Vec<u32> {
        (0..self.states).filter(|s| self.from.binary_search(s).is_err()).collect()
    }

    /// The same case with each stop state's waiting edge written out, behind the other edges: a loop without marks.
    pub fn with_waiting(&self) -> Case {
        let mut written = self.clone();
        for s in self.stop_states() {
            written.from.push(s);
            written.to.push(s);
            written.marks.push(0);
        }
        written
    }
}
