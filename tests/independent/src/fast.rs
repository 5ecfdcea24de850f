//! A quick translator, on strongly connected components, with two ways to find the children of a node. Quiet edges are taken away by no colour, so that where all
//! colours are gone cycles of quiet edges are left. A [`Translator`] keeps its buffers from one policy to the next.
//! Comparing two policies, by taking colours of either away.

use crate::children::Children;
use crate::cycles::{Cycles, Name};
use crate::policy::Policy;
use crate::{Automaton, Node, Refusal, Tables, NONE};
use std::collections::HashSet;
use std::hash::{BuildHasherDefault, Hasher};

pub use crate::children::Search;

/// A hash for edge sets and states: one multiplication.
#[derive(Default)]
pub(crate) struct Mix(u64);

impl Hasher for Mix {
    fn finish(&self) -> u64 {
        self.0
    }
    fn write(&mut self, _: &[u8]) {
        unreachable!("only numbers of 64 bits are hashed");
    }
    fn write_u64(&mut self, mask: u64) {
        let x = (mask ^ mask >> 32).wrapping_mul(0x9e37_79b9_7f4a_7c15);
        self.0 = x ^ x >> 29;
    }
}

type Masks = HashSet<u64, BuildHasherDefault<Mix>>;

#[derive(Default)]
struct Graph {
    states: usize,
    /// The edges of each colour; quiet ones are in none.
    by_colour: Vec<u64>,
    /// The edges that leave each state.
    leaving: Vec<u64>,
    source: Vec<u8>,
    target: Vec<u8>,
    family: Vec<bool>,
}

/// All edges.
fn full(p: &Policy) -> u64 {
    u64::MAX >> (64 - p.edges.len())
}

impl Graph {
    fn set(&mut self, p: &Policy) {
        self.states = p.states;
        self.by_colour.clear();
        self.by_colour.resize(p.colours, 0);
        self.leaving.clear();
        self.leaving.resize(p.states, 0);
        self.source.clear();
        self.target.clear();
        self.family.clone_from(&p.family);
        for (e, edge) in p.edges.iter().enumerate() {
            if let Some(colour) = edge.1 {
                self.by_colour[colour] |= 1u64 << e;
            }
            self.leaving[e / p.letters] |= 1u64 << e;
            self.source.push((e / p.letters) as u8);
            self.target.push(edge.0 as u8);
        }
    }

    fn colours(&self, mask: u64) -> usize {
        let mut set = 0;
        for (c, edges) in self.by_colour.iter().enumerate() {
            set |= ((mask & edges != 0) as usize) << c;
        }
        set
    }

    fn accepts(&self, mask: u64) -> bool {
        self.family[self.colours(mask)]
    }

    /// The largest cycles inside an edge set.
    fn components(&self, mask: u64, out: &mut Vec<u64>) {
        let mut next = [0u16; 16];
        let mut back = [0u16; 16];
        let mut rest = mask;
        while rest != 0 {
            let e = rest.trailing_zeros() as usize;
            rest &= rest - 1;
            let (v, w) = (self.source[e] as usize & 15, self.target[e] as usize & 15);
            next[v] |= 1 << w;
            back[w] |= 1 << v;
        }
        let closure = |from: usize, step: &[u16; 16], within: u16| {
            let mut seen = 1u16 << from;
            let mut todo = seen;
            while todo != 0 {
                let v = todo.trailing_zeros() as usize & 15;
                todo &= todo - 1;
                let new = step[v] & within & !seen;
                seen |= new;
                todo |= new;
            }
            seen
        };
        let mut left = 0u16;
        for v in 0..self.states {
            left |= ((next[v] != 0 && back[v] != 0) as u16) << v;
        }
        while left != 0 {
            let v = left.trailing_zeros() as usize;
            let after = closure(v, &next, left);
            let part = closure(v, &back, after);
            left &= !part;
            let mut inner = 0;
            let mut states = part;
            while states != 0 {
                inner |= self.leaving[states.trailing_zeros() as usize];
                states &= states - 1;
            }
            inner &= mask;
            let mut found = inner;
            while inner != 0 {
                let e = inner.trailing_zeros() as usize;
                inner &= inner - 1;
                if part >> (self.target[e] & 15) & 1 == 0 {
                    found &= !(1u64 << e);
                }
            }
            if found != 0 {
                out.push(found);
            }
        }
    }
}

/// A translator with its buffers.
#[derive(Default)]
pub struct Translator {
    cycles: Cycles,
    children: Children,
    /// The next sibling of each node, and the states that it contains.
    next: Vec<u16>,
    states: Vec<u16>,
    /// The policy states that each node is a leaf of, and the built state of (node, policy state) or the first one below.
    leaf_of: Vec<u16>,
    at: Vec<u16>,
    out: Automaton,
}

impl Translator {
    pub fn new(search: Search) -> Self {
        let mut translator = Translator::default();
        translator.children.search = search;
        translator
    }

    /// Translates into tables of so many nodes and states.
    pub fn translate(
        &mut self,
        p: &Policy,
        node_room: usize,
        state_room: usize,
    ) -> Result<&Automaton, Refusal> {
        self.cycles.set(p);
        self.children.set(&mut self.cycles);
        self.out.nodes.clear();
        self.next.clear();
        self.states.clear();
        self.children.find_roots(&mut self.cycles);
        // the most levels of a rejecting tree, and of an accepting one
        let mut most = [0; 2];
        for i in 0..self.children.found.len() {
            let root = self.children.found[i].1;
            let from = self.out.nodes.len();
            self.grow(root, NONE, 0, node_room.min(NONE as usize))?;
            let most = &mut most[self.cycles.accepts(root) as usize];
            let levels = self.out.nodes[from..].iter().map(|n| n.priority + 1);
            *most = levels.fold(*most, u8::max);
        }
        let least = (most[1] < most[0]) as u8;
        self.number(2 * least);
        self.build(p, least, state_room.min(NONE as usize))?;
        Ok(&self.out)
    }

    /// The questions 7 to 10, and then the automaton in the tables; all 0 after 9 and 10.
    pub fn fill(&mut self, p: &Policy, mut tables: Tables<'_>) -> Result<&Automaton, Refusal> {
        self.put(p, &mut tables)
    }

    /// The same, in tables that are lent on.
    pub(crate) fn put(
        &mut self,
        p: &Policy,
        tables: &mut Tables<'_>,
    ) -> Result<&Automaton, Refusal> {
        if !p.is_legal() {
            return Err(7);
        }
        if !tables.fit(p.letters) {
            return Err(8);
        }
        let room = (tables.node_masks.len(), tables.state_sources.len());
        let answer = self.translate(p, room.0, room.1);
        match &answer {
            Ok(a) => tables.store(a),
            Err(_) => tables.clear(0, 0, 0),
        }
        answer
    }

    /// The tree below a cycle; a node's priority is its level until all are numbered. A tree that stands is copied.
    fn grow(&mut self, name: Name, parent: u16, level: u8, room: usize) -> Result<(), Refusal> {
        let number = self.out.nodes.len();
        let cycle = *self.cycles.cycle(name);
        if cycle.tree.0 < cycle.tree.1 {
            return self.copy(cycle.tree, parent, level, room);
        }
        if number == room {
            return Err(9);
        }
        self.out.nodes.push(Node {
            mask: cycle.mask,
            parent,
            priority: level,
        });
        self.next.push(NONE);
        self.states.push(cycle.states);
        let from = self.children.found.len();
        self.children.find(&mut self.cycles, name);
        for i in from..self.children.found.len() {
            let child = self.out.nodes.len();
            self.grow(self.children.found[i].1, number as u16, level + 1, room)?;
            if i + 1 < self.children.found.len() {
                self.next[child] = self.out.nodes.len() as u16;
            }
        }
        self.children.found.truncate(from);
        self.cycles.cycle(name).tree = (number as u32, self.out.nodes.len() as u32);
        Ok(())
    }

    fn copy(
        &mut self,
        (from, to): (u32, u32),
        parent: u16,
        level: u8,
        room: usize,
    ) -> Result<(), Refusal> {
        let (from, to) = (from as usize, to as usize);
        let nodes = &mut self.out.nodes;
        let number = nodes.len();
        if to - from > room - number {
            return Err(9);
        }
        let further = (number - from) as u16;
        let deeper = level.wrapping_sub(nodes[from].priority);
        nodes.extend_from_within(from..to);
        for node in &mut nodes[number..] {
            node.parent = node.parent.wrapping_add(further);
            node.priority = node.priority.wrapping_add(deeper);
        }
        nodes[number].parent = parent;
        self.next.extend_from_within(from..to);
        for next in &mut self.next[number..] {
            if *next != NONE {
                *next += further;
            }
        }
        self.next[number] = NONE;
        self.states.extend_from_within(from..to);
        Ok(())
    }

    /// From levels to priorities: a rejecting root has 1, and an accepting one what is given.
    fn number(&mut self, accepting: u8) {
        let (mut first, mut roots) = (0, self.children.found.iter());
        for node in &mut self.out.nodes {
            if node.parent == NONE {
                let root = roots.next().expect("as many roots");
                first = if self.cycles.accepts(root.1) {
                    accepting
                } else {
                    1
                };
            }
            node.priority += first;
        }
    }

    /// The states and the rows; an edge in no cycle has the least priority of a node.
    fn build(&mut self, p: &Policy, least: u8, state_room: usize) -> Result<(), Refusal> {
        let (nodes, states, rows) = (&self.out.nodes, &mut self.out.states, &mut self.out.rows);
        self.leaf_of.clone_from(&self.states);
        for (n, node) in nodes.iter().enumerate() {
            if node.parent != NONE {
                self.leaf_of[node.parent as usize] &= !self.states[n];
            }
        }
        states.clear();
        rows.clear();
        self.at.clear();
        self.at.resize(nodes.len() * p.states, NONE);
        let mut first_of = [0; 16];
        for v in 0..p.states {
            first_of[v] = states.len() as u16;
            for (n, set) in self.leaf_of.iter().enumerate() {
                if set >> v & 1 == 1 {
                    self.at[n * p.states + v] = states.len() as u16;
                    states.push((v as u8, n as u16));
                }
            }
            if first_of[v] as usize == states.len() {
                states.push((v as u8, NONE));
            }
            if states.len() > state_room {
                return Err(10);
            }
        }
        for (n, node) in nodes.iter().enumerate().rev() {
            if node.parent != NONE {
                let mut set = self.states[n];
                while set != 0 {
                    let v = set.trailing_zeros() as usize;
                    set &= set - 1;
                    self.at[node.parent as usize * p.states + v] = self.at[n * p.states + v];
                }
            }
        }
        for &(v, l) in states.iter() {
            for a in 0..p.letters {
                let e = v as usize * p.letters + a;
                let w = p.edges[e].0;
                let (mut n, mut led) = (l, NONE);
                while n != NONE && nodes[n as usize].mask >> e & 1 == 0 {
                    led = n;
                    n = nodes[n as usize].parent;
                }
                if n == NONE {
                    rows.push((first_of[w], least));
                    continue;
                }
                let mut c = if led == NONE {
                    NONE
                } else {
                    self.next[led as usize]
                };
                while c != NONE && self.states[c as usize] >> w & 1 == 0 {
                    c = self.next[c as usize];
                }
                let c = if c == NONE { n } else { c };
                rows.push((
                    self.at[c as usize * p.states + w],
                    nodes[n as usize].priority,
                ));
            }
        }
        self.out.start = first_of[p.initial];
        Ok(())
    }
}

/// Translates with buffers of its own.
pub fn translate(p: &Policy, node_room: usize, state_room: usize) -> Result<Automaton, Refusal> {
    Translator::default()
        .translate(p, node_room, state_room)
        .cloned()
}

/// Compares two policies: whether every cycle has the same verdict in both.
pub fn compare(p: &Policy, q: &Policy) -> Result<bool, Refusal> {
    if !(p.is_legal() && q.is_legal()) {
        return Err(7);
    }
    let targets = |p: &Policy| -> Vec<usize> { p.edges.iter().map(|e| e.0).collect() };
    if (p.states, p.letters) != (q.states, q.letters) || targets(p) != targets(q) {
        return Err(15);
    }
    Ok(same(p, q))
}

fn same(p: &Policy, q: &Policy) -> bool {
    let (mut g, mut h) = (Graph::default(), Graph::default());
    g.set(p);
    h.set(q);
    let mut seen = Masks::default();
    let mut todo = Vec::new();
    g.components(full(p), &mut todo);
    while let Some(cycle) = todo.pop() {
        if g.accepts(cycle) != h.accepts(cycle) {
            return false;
        }
        for edges in g.by_colour.iter().chain(&h.by_colour) {
            let less = cycle & !edges;
            if less != cycle && less != 0 && seen.insert(less) {
                g.components(less, &mut todo);
            }
        }
    }
    true
}
