//! Random policies from a fixed seed: one generator, with switches; and of which kinds they are.

use crate::policy::Policy;
use crate::{Automaton, NONE};
use std::cmp::Ordering;
use std::ops::RangeInclusive;

pub struct Random(u64);

/// What a random policy may be.
#[derive(Clone, Debug)]
pub struct Shape {
    pub states: RangeInclusive<usize>,
    pub letters: RangeInclusive<usize>,
    pub colours: RangeInclusive<usize>,
    /// At most so many edges.
    pub edges: usize,
    pub targets: Targets,
    pub family: Family,
    pub quiet: Quiet,
    /// Any initial state, and not always 0.
    pub initial: bool,
}

#[derive(Clone, Copy, Debug)]
pub enum Targets {
    /// Any state.
    Any,
    /// The state itself or one of the two after it.
    Near,
    /// Most often the next state, the last one's itself; else any.
    Onward,
    /// The states in up to four parts: most often a state of the same part, else one of the same or a later part. So there are several roots, with edges between them.
    Parts,
    /// One of these.
    Mixed,
}

/// The non-empty sets of the family; of set 0, see [`Quiet`].
#[derive(Clone, Copy, Debug)]
pub enum Family {
    /// Each set with this chance in a hundred.
    Chance(usize),
    /// The sets with an even number of members.
    Even,
    /// The sets whose least member is even, if this is 0, or odd, if it is 1. Where colours are taken away from the least on, verdicts turn each time: trees are deep.
    Least(usize),
    /// The even sets, or each set with a chance, from an empty family to a full one.
    Mixed,
}

#[derive(Clone, Copy, Debug)]
pub enum Quiet {
    /// No edge is quiet, and set 0 is not in the family.
    No,
    /// Each edge is with this chance in a hundred, and set 0 is in the family half of the time.
    Chance(usize),
    /// The same, with one of several chances, from none to all.
    Mixed,
}

impl Shape {
    /// Policies of every shape, of at most so many edges.
    pub fn any(edges: usize) -> Self {
        Shape {
            states: 1..=16,
            letters: 1..=8,
            colours: 1..=8,
            edges,
            targets: Targets::Mixed,
            family: Family::Mixed,
            quiet: Quiet::No,
            initial: true,
        }
    }

    /// Policies in parts, most with several roots, of at most so many edges, 4 or more.
    pub fn parts(edges: usize) -> Self {
        Shape {
            states: 2..=16,
            letters: 2..=8,
            colours: 2..=8,
            targets: Targets::Parts,
            family: Family::Chance(50),
            ..Shape::any(edges)
        }
    }

    /// The same policies with some edges quiet, from none to all, and half of the time with set 0.
    pub fn with_quiet(self) -> Self {
        Shape {
            quiet: Quiet::Mixed,
            ..self
        }
    }
}

/// Which roots the trees with the most levels have. Priorities hang on it.
#[derive(Clone, Copy, Debug, PartialEq, Eq)]
pub enum Kind {
    /// Accepting ones; some other root is rejecting.
    Positive,
    /// Ones of both verdicts.
    Equidistant,
    /// Rejecting ones; some other root is accepting.
    Negative,
    /// Rejecting ones, as all roots are.
    Rejecting,
}

/// The kind of a policy with an edge in no cycle and a rejecting root.
pub fn kind(p: &Policy, a: &Automaton) -> Option<Kind> {
    let mut in_cycles = 0;
    // the most levels of a rejecting and of an accepting tree
    let mut most = [0; 2];
    for node in &a.nodes {
        let (mut root, mut level) = (node, 1);
        while root.parent != NONE {
            root = &a.nodes[root.parent as usize];
            level += 1;
        }
        in_cycles |= root.mask;
        let most = &mut most[p.accepts(root.mask) as usize];
        *most = level.max(*most);
    }
    let [rejecting, accepting] = most;
    if in_cycles.count_ones() as usize == p.edges.len() || rejecting == 0 {
        return None;
    }
    Some(match accepting.cmp(&rejecting) {
        _ if accepting == 0 => Kind::Rejecting,
        Ordering::Less => Kind::Negative,
        Ordering::Equal => Kind::Equidistant,
        Ordering::Greater => Kind::Positive,
    })
}

impl Random {
    pub fn new(seed: u64) -> Self {
        Random(seed.wrapping_mul(2).wrapping_add(1))
    }

    pub fn next(&mut self) -> u64 {
        self.0 ^= self.0 << 13;
        self.0 ^= self.0 >> 7;
        self.0 ^= self.0 << 17;
        self.0.wrapping_mul(0x2545_f491_4f6c_dd1d) >> 16
    }

    pub fn below(&mut self, n: usize) -> usize {
        (self.next() % n as u64) as usize
    }

    pub fn within(&mut self, range: &RangeInclusive<usize>) -> usize {
        range.start() + self.below(range.end() - range.start() + 1)
    }

    pub fn chance(&mut self, percent: usize) -> bool {
        self.below(100) < percent
    }

    pub fn letters(&mut self, letters: usize, most: usize) -> Vec<u8> {
        let n = self.below(most + 1);
        (0..n).map(|_| self.below(letters) as u8).collect()
    }

    pub fn policy(&mut self, shape: &Shape) -> Policy {
        let (states, letters) = loop {
            let counts = (self.within(&shape.states), self.within(&shape.letters));
            if counts.0 * counts.1 <= shape.edges {
                break counts;
            }
        };
        let colours = self.within(&shape.colours);
        let targets = match shape.targets {
            Targets::Mixed => [
                Targets::Any,
                Targets::Any,
                Targets::Near,
                Targets::Onward,
                Targets::Parts,
            ][self.below(5)],
            one => one,
        };
        let parts = match targets {
            Targets::Parts => 1 + self.below(states.min(4)),
            _ => 1,
        };
        let quiet = match shape.quiet {
            Quiet::No => None,
            Quiet::Chance(percent) => Some(percent),
            Quiet::Mixed => Some([0, 10, 33, 33, 50, 80, 100][self.below(7)]),
        };
        // without the switch no random number is taken for it
        let edges = (0..states * letters)
            .map(|e| {
                let target = self.target(targets, states, parts, e / letters);
                let colour = self.below(colours);
                let is_quiet = quiet.is_some_and(|percent| self.chance(percent));
                (target, (!is_quiet).then_some(colour))
            })
            .collect();
        let family = match shape.family {
            Family::Mixed if self.chance(20) => Family::Even,
            Family::Mixed => Family::Chance([0, 10, 30, 50, 80, 100][self.below(6)]),
            one => one,
        };
        let family = (0..1usize << colours)
            .map(|set| match set {
                0 => quiet.is_some() && self.chance(50),
                _ => self.member(family, set),
            })
            .collect();
        let initial = if shape.initial { self.below(states) } else { 0 };
        Policy {
            states,
            letters,
            colours,
            initial,
            edges,
            family,
        }
    }

    fn target(&mut self, targets: Targets, states: usize, parts: usize, v: usize) -> usize {
        match targets {
            Targets::Near => (v + self.below(3)) % states,
            Targets::Onward if self.chance(70) => (v + 1).min(states - 1),
            Targets::Parts => {
                // part i begins at state i times states over parts, rounded up
                let begin = |part: usize| (part * states).div_ceil(parts);
                let part = v * parts / states;
                let end = if self.chance(80) {
                    begin(part + 1)
                } else {
                    states
                };
                begin(part) + self.below(end - begin(part))
            }
            _ => self.below(states),
        }
    }

    fn member(&mut self, family: Family, set: usize) -> bool {
        match family {
            Family::Chance(percent) => self.chance(percent),
            Family::Least(odd) => set.trailing_zeros() as usize % 2 == odd,
            _ => set.count_ones() % 2 == 0,
        }
    }
}
