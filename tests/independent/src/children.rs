//! The children of a node, found in one of two ways.

use crate::cycles::{Cycles, Name};

/// How children are found.
#[derive(Clone, Copy, Debug, Default, PartialEq, Eq)]
pub enum Search {
    /// All cycles that can be nodes are listed first, colour set by colour set; the children of a node are the largest ones of the list inside it.
    BySets,
    /// Colours are taken away from the node, one at a time, and what is left falls into largest cycles. One of the other verdict is looked into no further, and the
    /// largest of these are the children; one of the same verdict loses colours in turn.
    #[default]
    ByNodes,
}

impl Search {
    pub const ALL: [Search; 2] = [Search::BySets, Search::ByNodes];
}

#[derive(Default)]
pub(crate) struct Children {
    pub search: Search,
    /// The children of the nodes whose trees grow, as masks and names: those of the innermost node last.
    pub found: Vec<(u64, Name)>,
    listed: Listed,
    wanted: Wanted,
}

impl Children {
    pub fn set(&mut self, cycles: &mut Cycles) {
        self.found.clear();
        if self.search == Search::BySets {
            self.listed.list(cycles);
        }
    }

    /// Finds the largest cycles, in the order of their masks.
    pub fn find_roots(&mut self, cycles: &mut Cycles) {
        let all = cycles.colours;
        let mut left = cycles.on_cycles(all);
        while left != 0 {
            let name = cycles.largest(all, left.trailing_zeros() as usize);
            let cycle = cycles.cycle(name);
            left &= !cycle.states;
            self.found.push((cycle.mask, name));
        }
        self.found.sort_unstable();
    }

    /// Finds the children of a cycle, in the order of their masks.
    pub fn find(&mut self, cycles: &mut Cycles, name: Name) {
        let from = self.found.len();
        match self.search {
            Search::BySets => self.listed.find(cycles, name, &mut self.found),
            Search::ByNodes => self.wanted.find(cycles, name, &mut self.found),
        }
        self.found[from..].sort_unstable();
    }
}

/// Whether one of these masks has all edges of another.
fn covered(by: &[(u64, Name)], mask: u64) -> bool {
    by.iter().any(|&(other, _)| mask & !other == 0)
}

/// The cycles that can be nodes, larger ones first: the rejecting and the accepting ones.
#[derive(Default)]
struct Listed([Vec<(u64, Name)>; 2]);

impl Listed {
    fn list(&mut self, cycles: &mut Cycles) {
        self.0.iter_mut().for_each(Vec::clear);
        let all = cycles.colours;
        for set in (usize::from(!cycles.has_quiet)..=all).rev() {
            let mut left = cycles.on_cycles(set);
            while left != 0 {
                let name = cycles.largest(set, left.trailing_zeros() as usize);
                let cycle = cycles.cycle(name);
                left &= !cycle.states;
                if usize::from(name >> 4) == set {
                    let mask = cycle.mask;
                    self.0[usize::from(cycles.accepts(name))].push((mask, name));
                }
            }
        }
    }

    fn find(&self, cycles: &mut Cycles, name: Name, found: &mut Vec<(u64, Name)>) {
        let from = found.len();
        let mask = cycles.cycle(name).mask;
        for &(other, name) in &self.0[usize::from(!cycles.accepts(name))] {
            if other & !mask == 0 && !covered(&found[from..], other) {
                found.push((other, name));
            }
        }
    }
}

/// The colour sets to look at, and among which states.
struct Wanted {
    sets: [u64; 4],
    states: [u16; 256],
}

impl Default for Wanted {
    fn default() -> Self {
        Wanted {
            sets: [0; 4],
            states: [0; 256],
        }
    }
}

impl Wanted {
    /// Sets are looked at from the largest mask on, so that a cycle comes after those that it lies in.
    fn find(&mut self, cycles: &mut Cycles, name: Name, found: &mut Vec<(u64, Name)>) {
        let from = found.len();
        let other = !cycles.accepts(name);
        self.add_smaller(cycles, name, other);
        for word in (0..4).rev() {
            while self.sets[word] != 0 {
                let bit = self.sets[word].ilog2() as usize;
                self.sets[word] ^= 1 << bit;
                let set = 64 * word + bit;
                let mut left = cycles.on_cycles(set) & std::mem::take(&mut self.states[set]);
                while left != 0 {
                    let name = cycles.largest(set, left.trailing_zeros() as usize);
                    let cycle = *cycles.cycle(name);
                    let colours = usize::from(name >> 4);
                    left &= !cycle.states;
                    if covered(&found[from..], cycle.mask) {
                        continue;
                    }
                    if colours != set {
                        // its turn comes
                        self.add(cycles, colours, cycle.states, other);
                    } else if cycles.accepts(name) == other {
                        found.push((cycle.mask, name));
                    } else {
                        self.add_smaller(cycles, name, other);
                    }
                }
            }
        }
    }

    /// A set, unless neither it nor one within has the other verdict.
    fn add(&mut self, cycles: &Cycles, set: usize, states: u16, other: bool) {
        if cycles.has_within(set, other) {
            self.sets[set >> 6 & 3] |= 1 << (set & 63);
            self.states[set & 255] |= states;
        }
    }

    /// The cycle's colours without one of them, for each.
    fn add_smaller(&mut self, cycles: &mut Cycles, name: Name, other: bool) {
        let states = cycles.cycle(name).states;
        let set = usize::from(name >> 4);
        let mut left = set;
        while left != 0 {
            let one = left & left.wrapping_neg();
            left ^= one;
            self.add(cycles, set ^ one, states, other);
        }
    }
}
