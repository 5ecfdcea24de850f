//! A translator of Muller policies into parity automata, written from the papers alone: `brute` follows the definitions by listing edge sets,
//! `fast` works on strongly connected components, by either of two searches. A solver of the supervisor's game on the rows, `solve`, and a check of its solutions by
//! the definitions, `check`. A reader of the Hanoi format, `hanoi`. They share nothing with what is proved. `random` and `texts` make policies and texts to try them on.

pub mod brute;
pub mod check;
mod children;
mod cycles;
pub mod fast;
pub mod hanoi;
pub mod judge;
pub mod policy;
pub mod random;
pub mod solve;
pub mod texts;

/// No node: what a root's parent and a missing leaf look like.
pub const NONE: u16 = 65_535;

/// A node of the forest.
#[derive(Clone, Copy, Debug, PartialEq, Eq)]
pub struct Node {
    pub mask: u64,
    pub parent: u16,
    pub priority: u8,
}

/// The forest and the automaton.
#[derive(Clone, Debug, Default, PartialEq, Eq)]
pub struct Automaton {
    pub nodes: Vec<Node>,
    /// Policy state and leaf of each built state.
    pub states: Vec<(u8, u16)>,
    /// Target and priority of each row.
    pub rows: Vec<(u16, u8)>,
    pub start: u16,
}

impl Automaton {
    /// How many levels the tree with the most of them has.
    pub fn levels(&self) -> usize {
        let mut levels: Vec<usize> = Vec::new();
        for node in &self.nodes {
            // a parent stands before its children
            let above = match node.parent {
                NONE => 0,
                parent => levels[usize::from(parent)],
            };
            levels.push(above + 1);
        }
        levels.into_iter().max().unwrap_or(0)
    }

    /// The listing of the program `translate`.
    pub fn listing(&self, letters: usize) -> String {
        let dash = |n: u16| {
            if n == NONE {
                "-".to_string()
            } else {
                n.to_string()
            }
        };
        let mut out = format!("nodes {} states {}\n", self.nodes.len(), self.states.len());
        for (i, n) in self.nodes.iter().enumerate() {
            out += &format!("n {} {} {} {}\n", i, n.mask, dash(n.parent), n.priority);
        }
        for (i, s) in self.states.iter().enumerate() {
            out += &format!("s {} {} {}\n", i, s.0, dash(s.1));
        }
        for (i, r) in self.rows.iter().enumerate() {
            out += &format!("t {} {} {} {}\n", i / letters, i % letters, r.0, r.1);
        }
        out + &format!("start {}\n", self.start)
    }
}

/// The seven tables of a caller.
pub struct Tables<'a> {
    pub node_masks: &'a mut [u64],
    pub node_parents: &'a mut [u16],
    pub node_priorities: &'a mut [u8],
    pub state_sources: &'a mut [u8],
    pub state_leaves: &'a mut [u16],
    pub row_targets: &'a mut [u16],
    pub row_priorities: &'a mut [u8],
}

impl Tables<'_> {
    /// Question 8.
    fn fit(&self, letters: usize) -> bool {
        let (nodes, states) = (self.node_masks.len(), self.state_sources.len());
        let rows = states.checked_mul(letters);
        self.node_parents.len() == nodes
            && self.node_priorities.len() == nodes
            && self.state_leaves.len() == states
            && Some(self.row_targets.len()) == rows
            && Some(self.row_priorities.len()) == rows
    }

    /// Stores an automaton for which there is room, and 0 past it.
    fn store(&mut self, a: &Automaton) {
        for (i, n) in a.nodes.iter().enumerate() {
            self.node_masks[i] = n.mask;
            self.node_parents[i] = n.parent;
            self.node_priorities[i] = n.priority;
        }
        for (i, s) in a.states.iter().enumerate() {
            (self.state_sources[i], self.state_leaves[i]) = *s;
        }
        for (i, r) in a.rows.iter().enumerate() {
            (self.row_targets[i], self.row_priorities[i]) = *r;
        }
        self.clear(a.nodes.len(), a.states.len(), a.rows.len());
    }

    /// Stores 0 past so many nodes, states and rows.
    fn clear(&mut self, nodes: usize, states: usize, rows: usize) {
        self.node_masks[nodes..].fill(0);
        self.node_parents[nodes..].fill(0);
        self.node_priorities[nodes..].fill(0);
        self.state_sources[states..].fill(0);
        self.state_leaves[states..].fill(0);
        self.row_targets[rows..].fill(0);
        self.row_priorities[rows..].fill(0);
    }
}

/// Why a translation was refused: document 01's number.
pub type Refusal = u8;

/// Panics where two answers differ: with both, and with what they are answers to.
#[track_caller]
pub fn alike<T: PartialEq + std::fmt::Debug>(first: T, second: T, to: impl std::fmt::Display) {
    assert!(
        first == second,
        "different answers to {to}\n  first:  {first:?}\n  second: {second:?}"
    );
}
