//! The definitions, word for word, by listing edge sets, and for games by listing the choices of letters. For policies of few edges, and games of few states.

use crate::policy::Policy;
use crate::{Automaton, Node, NONE};

/// Some closed path uses exactly these edges: the set is not empty, and every edge leads to every other inside it.
pub fn is_cycle(p: &Policy, mask: u64) -> bool {
    let edges: Vec<usize> = (0..p.edges.len()).filter(|e| mask >> e & 1 == 1).collect();
    !edges.is_empty()
        && edges.iter().all(|&from| {
            let mut reached = vec![false; p.states];
            reached[p.edges[from].0] = true;
            for _ in 0..p.states {
                for &e in &edges {
                    if reached[p.source(e)] {
                        reached[p.edges[e].0] = true;
                    }
                }
            }
            edges.iter().all(|&to| reached[p.source(to)])
        })
}

fn largest(of: Vec<u64>) -> Vec<u64> {
    of.iter()
        .copied()
        .filter(|&m| !of.iter().any(|&x| x != m && x & m == m))
        .collect()
}

/// All cycles, ascending.
pub fn cycles(p: &Policy) -> Vec<u64> {
    (1..1u64 << p.edges.len())
        .filter(|&m| is_cycle(p, m))
        .collect()
}

/// The tree below a cycle; a node's priority is its level until all are numbered.
fn grow(p: &Policy, all: &[u64], mask: u64, parent: u16, level: u8, nodes: &mut Vec<Node>) {
    let number = nodes.len() as u16;
    nodes.push(Node {
        mask,
        parent,
        priority: level,
    });
    let inner = all
        .iter()
        .copied()
        .filter(|&m| m & mask == m && p.accepts(m) != p.accepts(mask))
        .collect();
    for child in largest(inner) {
        grow(p, all, child, number, level + 1, nodes);
    }
}

pub fn forest(p: &Policy) -> Vec<Node> {
    let all = cycles(p);
    let mut nodes = Vec::new();
    for root in largest(all.clone()) {
        grow(p, &all, root, NONE, 0, &mut nodes);
    }
    // of each tree: how many levels it has, and whether its root is accepting
    let trees: Vec<(usize, bool)> = (0..nodes.len())
        .filter(|&n| nodes[n].parent == NONE)
        .map(|root| {
            let branches = (0..nodes.len()).map(|n| branch(&nodes, n));
            let levels = branches.filter(|b| b.contains(&root)).map(|b| b.len());
            (levels.max().unwrap(), p.accepts(nodes[root].mask))
        })
        .collect();
    // some tree with the most levels has an accepting root
    let most = trees.iter().map(|tree| tree.0).max();
    let remain = trees.iter().any(|tree| Some(tree.0) == most && tree.1);
    for n in 0..nodes.len() {
        let root = *branch(&nodes, n).last().unwrap();
        nodes[n].priority += match (remain, p.accepts(nodes[root].mask)) {
            (true, true) => 0,
            (true, false) => 1,
            (false, true) => 2,
            (false, false) => 1,
        };
    }
    nodes
}

fn contains(p: &Policy, n: &Node, v: usize) -> bool {
    (0..p.edges.len()).any(|e| n.mask >> e & 1 == 1 && p.source(e) == v)
}

fn children(nodes: &[Node], n: usize) -> Vec<usize> {
    (0..nodes.len())
        .filter(|&j| nodes[j].parent as usize == n)
        .collect()
}

fn leaves(p: &Policy, nodes: &[Node], v: usize) -> Vec<usize> {
    (0..nodes.len())
        .filter(|&n| {
            contains(p, &nodes[n], v)
                && !children(nodes, n)
                    .iter()
                    .any(|&j| contains(p, &nodes[j], v))
        })
        .collect()
}

fn branch(nodes: &[Node], mut n: usize) -> Vec<usize> {
    let mut up = vec![n];
    while nodes[n].parent != NONE {
        n = nodes[n].parent as usize;
        up.push(n);
    }
    up
}

/// The leaf and the priority of edge `e` from leaf `l`, if an edge in no cycle has priority `lowest`.
fn step(p: &Policy, nodes: &[Node], lowest: u8, e: usize, l: u16) -> (u16, u8) {
    let w = p.edges[e].0;
    let of_w = leaves(p, nodes, w);
    if !nodes
        .iter()
        .any(|n| n.parent == NONE && n.mask >> e & 1 == 1)
    {
        return (of_w.first().map_or(NONE, |&n| n as u16), lowest);
    }
    let up = branch(nodes, l as usize);
    let n = *up.iter().find(|&&n| nodes[n].mask >> e & 1 == 1).unwrap();
    if of_w.contains(&n) {
        return (n as u16, nodes[n].priority);
    }
    let with_w: Vec<usize> = children(nodes, n)
        .into_iter()
        .filter(|&j| contains(p, &nodes[j], w))
        .collect();
    let entered = match up.iter().find(|&&c| nodes[c].parent as usize == n) {
        None => with_w[0],
        Some(&c) => with_w.iter().copied().find(|&j| j > c).unwrap_or(with_w[0]),
    };
    let leaf = of_w
        .into_iter()
        .find(|&x| branch(nodes, x).contains(&entered))
        .unwrap();
    (leaf as u16, nodes[n].priority)
}

pub fn translate(p: &Policy) -> Automaton {
    let nodes = forest(p);
    // every state has edges, so there is a cycle, and a node
    let lowest = nodes.iter().map(|n| n.priority).min().unwrap();
    let mut states = Vec::new();
    for v in 0..p.states {
        let of_v = leaves(p, &nodes, v);
        if of_v.is_empty() {
            states.push((v as u8, NONE));
        }
        states.extend(of_v.into_iter().map(|l| (v as u8, l as u16)));
    }
    let number = |v: usize, l: u16| states.iter().position(|&s| s == (v as u8, l)).unwrap() as u16;
    let mut rows = Vec::new();
    for &(v, l) in &states {
        for a in 0..p.letters {
            let e = v as usize * p.letters + a;
            let (leaf, priority) = step(p, &nodes, lowest, e, l);
            rows.push((number(p.edges[e].0, leaf), priority));
        }
    }
    let first = leaves(p, &nodes, p.initial)
        .first()
        .map_or(NONE, |&n| n as u16);
    let start = number(p.initial, first);
    Automaton {
        nodes,
        states,
        rows,
        start,
    }
}

/// Every cycle has the same verdict in both policies, which have one graph.
pub fn same(p: &Policy, q: &Policy) -> bool {
    cycles(p).into_iter().all(|m| p.accepts(m) == q.accepts(m))
}

/// The least priority that recurs from a state, with one letter for each state.
fn least(letters: usize, rows: &[(u16, u8)], choice: &[usize], mut s: usize) -> u8 {
    let mut follow = || {
        (0..choice.len()).fold(u8::MAX, |least, _| {
            let row = rows[s * letters + choice[s]];
            s = row.0 as usize;
            least.min(row.1)
        })
    };
    // after as many letters as there are states the run is in its loop, and as many more go round it
    follow();
    follow()
}

/// Calls with each choice of letters at the open states from `s` on; the others keep theirs.
fn each_choice(
    letters: usize,
    open: &[bool],
    s: usize,
    choice: &mut [usize],
    call: &mut dyn FnMut(&[usize]),
) {
    if s == choice.len() {
        return call(choice);
    }
    if !open[s] {
        return each_choice(letters, open, s + 1, choice, call);
    }
    for a in 0..letters {
        choice[s] = a;
        each_choice(letters, open, s + 1, choice, call);
    }
}

/// The states from which a player wins, whatever is picked at the open states.
fn won(
    letters: usize,
    rows: &[(u16, u8)],
    open: &[bool],
    choice: &[usize],
    player: u8,
) -> Vec<bool> {
    let mut won = vec![true; open.len()];
    each_choice(letters, open, 0, &mut choice.to_vec(), &mut |choice| {
        for (s, won) in won.iter_mut().enumerate() {
            *won &= least(letters, rows, choice, s) % 2 == player;
        }
    });
    won
}

/// The states from which some letters win for a player, whatever the other one picks.
pub fn wins(letters: usize, rows: &[(u16, u8)], owners: &[u8], player: u8) -> Vec<bool> {
    let mine: Vec<bool> = owners.iter().map(|&x| x == player).collect();
    let others: Vec<bool> = mine.iter().map(|x| !x).collect();
    let mut wins = vec![false; owners.len()];
    let mut choice = vec![0; owners.len()];
    each_choice(letters, &mine, 0, &mut choice, &mut |choice| {
        let won = won(letters, rows, &others, choice, player);
        wins.iter_mut().zip(won).for_each(|(w, won)| *w |= won);
    });
    wins
}

/// Whether each player wins from each of its states by its letters, whatever is picked at all other states.
pub fn solved(
    letters: usize,
    rows: &[(u16, u8)],
    owners: &[u8],
    winners: &[u8],
    choice: &[u8],
) -> bool {
    let choice: Vec<usize> = choice.iter().map(|&a| a as usize).collect();
    (0..2).all(|player| {
        let open: Vec<bool> = (0..owners.len())
            .map(|s| owners[s] != player || choice[s] >= letters)
            .collect();
        let won = won(letters, rows, &open, &choice, player);
        (0..owners.len()).all(|s| winners[s] != player || won[s])
    })
}
