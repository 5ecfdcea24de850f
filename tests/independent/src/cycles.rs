//! The cycles that can be nodes. A node is one of the largest cycles among all edges with its colours and the quiet ones: a larger one would have the same colours, so
//! the same verdict, and lie in the same parent. So its colours and its least state name it. What is known of a colour set, or of a cycle, stands in a table at the
//! set, or at the name. Tables are not cleared: an entry of another policy has another turn.

use crate::policy::Policy;

/// A cycle's colours, times 16, plus its least state.
pub(crate) type Name = u16;

/// No cycle's name.
const NO_NAME: Name = Name::MAX;

/// A cycle, and the part of the node table that has its tree: empty until that is known.
#[derive(Clone, Copy, Default)]
pub(crate) struct Cycle {
    turn: u64,
    pub mask: u64,
    pub states: u16,
    pub tree: (u32, u32),
}

/// A row of 16 bits for each state, four in a word: the first four states, and so on.
type Rows = [u64; 4];

/// 1 in each row of a word.
const EACH: u64 = 0x0001_0001_0001_0001;

/// The edges with colours of a set, and quiet ones.
#[derive(Clone, Copy, Default)]
struct Set {
    turn: u64,
    edges: u64,
    /// The states that each state leads to, and those that lead to themselves.
    reach: Rows,
    on_cycles: u16,
    /// The largest cycles, by their least states, as far as they were asked for.
    names: [Name; 16],
}

pub(crate) struct Cycles {
    /// All colours, as a set.
    pub colours: usize,
    pub has_quiet: bool,
    states: usize,
    family: [bool; 256],
    /// The colour sets with a rejected set in them, and those with an accepted one.
    with: [[u64; 4]; 2],
    /// For each colour, its edges and the next states by them; then for none.
    edges: [u64; 9],
    next: [Rows; 9],
    /// The edges that leave, and that enter, some of the states 0 to 3, of 4 to 7, and so on.
    leaving: [[u64; 16]; 4],
    entering: [[u64; 16]; 4],
    turn: u64,
    sets: Vec<Set>,
    cycles: Vec<Cycle>,
}

impl Default for Cycles {
    fn default() -> Self {
        Cycles {
            colours: 0,
            has_quiet: false,
            states: 0,
            family: [false; 256],
            with: [[0; 4]; 2],
            edges: [0; 9],
            next: [[0; 4]; 9],
            leaving: [[0; 16]; 4],
            entering: [[0; 16]; 4],
            turn: 0,
            sets: vec![Set::default(); 256],
            cycles: vec![Cycle::default(); 256 * 16],
        }
    }
}

/// What leads to a state leads to what that leads to.
#[inline(always)]
fn by_way_of<const WORDS: usize>(rows: &mut [u64; WORDS], v: usize) {
    let further = rows[v / 4] >> (16 * (v % 4)) & 0xffff;
    for word in rows {
        *word |= (*word >> v & EACH) * further;
    }
}

/// From the next states of each state to all that it leads to. Step by step and by value, so that the rows stay in registers: half the time of a loop.
fn close<const WORDS: usize>(mut rows: [u64; WORDS]) -> [u64; WORDS] {
    by_way_of(&mut rows, 0);
    by_way_of(&mut rows, 1);
    by_way_of(&mut rows, 2);
    by_way_of(&mut rows, 3);
    if WORDS > 1 {
        by_way_of(&mut rows, 4);
        by_way_of(&mut rows, 5);
        by_way_of(&mut rows, 6);
        by_way_of(&mut rows, 7);
    }
    if WORDS > 2 {
        by_way_of(&mut rows, 8);
        by_way_of(&mut rows, 9);
        by_way_of(&mut rows, 10);
        by_way_of(&mut rows, 11);
    }
    if WORDS > 3 {
        by_way_of(&mut rows, 12);
        by_way_of(&mut rows, 13);
        by_way_of(&mut rows, 14);
        by_way_of(&mut rows, 15);
    }
    rows
}

/// Adds the sets that some set is in.
fn add_larger(sets: &mut [u64; 4], colours: usize) {
    // the sets without each of the first six colours
    const WITHOUT: [u64; 6] = [
        0x5555_5555_5555_5555,
        0x3333_3333_3333_3333,
        0x0f0f_0f0f_0f0f_0f0f,
        0x00ff_00ff_00ff_00ff,
        0x0000_ffff_0000_ffff,
        0x0000_0000_ffff_ffff,
    ];
    let words = (1 << colours) / 64;
    for word in &mut sets[..words.max(1)] {
        for (colour, without) in WITHOUT.iter().enumerate() {
            *word |= (*word & without) << (1 << colour);
        }
    }
    if words > 1 {
        sets[1] |= sets[0];
    }
    if words > 2 {
        sets[3] |= sets[2];
        sets[2] |= sets[0];
        sets[3] |= sets[1];
    }
}

/// Which of the four rows of two words are equal.
fn equal_rows(a: u64, b: u64) -> usize {
    let differing = a ^ b;
    let low = EACH * 0x7fff;
    // the highest bit of each row that differs in some bit
    let marks = (((differing & low) + low) | differing) >> 15;
    // one bit after the other
    ((!marks & EACH).wrapping_mul(1 << 48 | 1 << 33 | 1 << 18 | 1 << 3) >> 48 & 15) as usize
}

impl Cycles {
    /// Forgets what was known, and takes another policy.
    pub fn set(&mut self, p: &Policy) {
        self.turn += 1;
        self.states = p.states;
        self.colours = (1 << p.colours) - 1;
        self.family[..p.family.len()].copy_from_slice(&p.family);
        self.edges = [0; 9];
        self.next = [[0; 4]; 9];
        let (mut leaving, mut entering) = ([0u64; 16], [0u64; 16]);
        let mut e = 0;
        for v in 0..p.states {
            for &(target, colour) in &p.edges[e..e + p.letters] {
                let colour = colour.unwrap_or(8);
                self.edges[colour] |= 1 << e;
                self.next[colour][v / 4] |= 1 << (16 * (v % 4) + target);
                leaving[v] |= 1 << e;
                entering[target] |= 1 << e;
                e += 1;
            }
        }
        self.has_quiet = self.edges[8] != 0;
        for (at, sets) in p.family.chunks(64).enumerate() {
            let mut accepted = 0;
            for (i, &member) in sets.iter().enumerate() {
                accepted |= u64::from(member) << i;
            }
            self.with[0][at] = !accepted;
            self.with[1][at] = accepted;
        }
        for sets in &mut self.with {
            // set 0 is that of no cycle where no edge is quiet
            sets[0] &= !u64::from(!self.has_quiet);
            add_larger(sets, p.colours);
        }
        for first in (0..p.states).step_by(4) {
            let at = first / 4;
            for some in 1..1usize << (p.states - first).min(4) {
                let v = first + some.trailing_zeros() as usize;
                let others = some & (some - 1);
                self.leaving[at][some] = self.leaving[at][others] | leaving[v];
                self.entering[at][some] = self.entering[at][others] | entering[v];
            }
        }
    }

    pub fn accepts(&self, name: Name) -> bool {
        self.family[usize::from(name >> 4)]
    }

    /// Whether a colour set, or one in it, has this verdict.
    pub fn has_within(&self, set: usize, verdict: bool) -> bool {
        self.with[usize::from(verdict)][set >> 6 & 3] >> (set & 63) & 1 == 1
    }

    pub fn cycle(&mut self, name: Name) -> &mut Cycle {
        &mut self.cycles[usize::from(name) & 4095]
    }

    /// The states on cycles among the edges of a set.
    pub fn on_cycles(&mut self, set: usize) -> u16 {
        if self.sets[set].turn != self.turn {
            match self.states {
                0..=4 => self.look_at::<1>(set),
                5..=8 => self.look_at::<2>(set),
                9..=12 => self.look_at::<3>(set),
                _ => self.look_at::<4>(set),
            }
        }
        self.sets[set].on_cycles
    }

    /// The same where the rows have so many words.
    fn look_at<const WORDS: usize>(&mut self, set: usize) {
        let mut edges = self.edges[8];
        let mut next = [0; WORDS];
        next.copy_from_slice(&self.next[8][..WORDS]);
        for colour in 0..8 {
            let all = 0u64.wrapping_sub((set >> colour & 1) as u64);
            edges |= self.edges[colour] & all;
            for (word, more) in next.iter_mut().zip(&self.next[colour]) {
                *word |= more & all;
            }
        }
        let mut reach = [0; 4];
        reach[..WORDS].copy_from_slice(&close(next));
        let mut on_cycles = 0;
        for (i, word) in reach[..WORDS].iter().enumerate() {
            // the bit of each state in its own row
            let own = word & 0x0008_0004_0002_0001 << (4 * i);
            on_cycles |= own.wrapping_mul(EACH) >> 48;
        }
        self.sets[set] = Set {
            turn: self.turn,
            edges,
            reach,
            on_cycles: on_cycles as u16,
            names: [NO_NAME; 16],
        };
    }

    /// The largest cycle among the edges of a set whose least state is this one; it was asked before which states are on cycles.
    pub fn largest(&mut self, set: usize, least: usize) -> Name {
        match self.sets[set].names[least] {
            NO_NAME => match self.states {
                0..=4 => self.find::<1>(set, least),
                5..=8 => self.find::<2>(set, least),
                _ => self.find::<4>(set, least),
            },
            name => name,
        }
    }

    /// The same where the rows have so many words.
    fn find<const WORDS: usize>(&mut self, set: usize, least: usize) -> Name {
        let found = &mut self.sets[set];
        // states on one cycle lead to the same states
        let row = (found.reach[least / 4] >> (16 * (least % 4)) & 0xffff) * EACH;
        let (mut states, mut leaving, mut entering) = (0, 0, 0);
        for at in 0..WORDS {
            let some = equal_rows(found.reach[at], row) & usize::from(found.on_cycles >> (4 * at));
            states |= (some as u16) << (4 * at);
            leaving |= self.leaving[at][some];
            entering |= self.entering[at][some];
        }
        let mask = found.edges & leaving & entering;
        let mut colours = 0;
        for colour in 0..8 {
            colours |= u16::from(mask & self.edges[colour] != 0) << colour;
        }
        let name = colours << 4 | least as u16;
        found.names[least] = name;
        let cycle = &mut self.cycles[usize::from(name) & 4095];
        if cycle.turn != self.turn {
            *cycle = Cycle {
                turn: self.turn,
                mask,
                states,
                tree: (0, 0),
            };
        }
        name
    }
}
