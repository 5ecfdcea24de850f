//! What the comparisons and the benchmark share: tables to lend and the check of a solution, policies as hexadecimal text, seeds, commands in any order, damage, and the
//! program.

pub mod times;

use independent::fast::Translator;
use independent::random::Random;
use independent::solve::Solver;
use independent::{check, Automaton};
use std::path::PathBuf;
use wulfrenda::{Counts, Policy, ReadError, Refusal, Rows};

/// The seven tables.
#[derive(Clone, Debug, PartialEq, Eq)]
pub struct OwnedTables {
    pub node_masks: Vec<u64>,
    pub node_parents: Vec<u16>,
    pub node_priorities: Vec<u8>,
    pub state_sources: Vec<u8>,
    pub state_leaves: Vec<u16>,
    pub row_targets: Vec<u16>,
    pub row_priorities: Vec<u8>,
}

impl OwnedTables {
    /// Tables for so many nodes, states and rows, with `x` in every place.
    pub fn new(nodes: usize, states: usize, rows: usize, x: u8) -> Self {
        OwnedTables {
            node_masks: vec![x.into(); nodes],
            node_parents: vec![x.into(); nodes],
            node_priorities: vec![x; nodes],
            state_sources: vec![x; states],
            state_leaves: vec![x.into(); states],
            row_targets: vec![x.into(); rows],
            row_priorities: vec![x; rows],
        }
    }

    /// Tables as long as these, with `x` in every place.
    pub fn filled(&self, x: u8) -> Self {
        OwnedTables {
            node_masks: vec![x.into(); self.node_masks.len()],
            node_parents: vec![x.into(); self.node_parents.len()],
            node_priorities: vec![x; self.node_priorities.len()],
            state_sources: vec![x; self.state_sources.len()],
            state_leaves: vec![x.into(); self.state_leaves.len()],
            row_targets: vec![x.into(); self.row_targets.len()],
            row_priorities: vec![x; self.row_priorities.len()],
        }
    }

    /// Lends the tables to the proved translator.
    pub fn translate(&mut self, p: &Policy) -> Result<Counts, Refusal> {
        wulfrenda::translate(p, self.lend())
    }

    /// Lends them to it with the command bytes of a policy.
    pub fn translate_bytes<'a>(
        &mut self,
        bytes: &'a [u8],
    ) -> Result<(Counts, &'a [u8]), ReadError> {
        wulfrenda::translate_bytes(bytes, self.lend())
    }

    fn lend(&mut self) -> wulfrenda::Tables<'_> {
        wulfrenda::Tables {
            node_masks: &mut self.node_masks,
            node_parents: &mut self.node_parents,
            node_priorities: &mut self.node_priorities,
            state_sources: &mut self.state_sources,
            state_leaves: &mut self.state_leaves,
            row_targets: &mut self.row_targets,
            row_priorities: &mut self.row_priorities,
        }
    }

    /// Lends them to the independent translator.
    pub fn fill<'a>(
        &mut self,
        translator: &'a mut Translator,
        p: &independent::policy::Policy,
    ) -> Result<&'a Automaton, u8> {
        translator.fill(p, self.lend_independent())
    }

    fn lend_independent(&mut self) -> independent::Tables<'_> {
        independent::Tables {
            node_masks: &mut self.node_masks,
            node_parents: &mut self.node_parents,
            node_priorities: &mut self.node_priorities,
            state_sources: &mut self.state_sources,
            state_leaves: &mut self.state_leaves,
            row_targets: &mut self.row_targets,
            row_priorities: &mut self.row_priorities,
        }
    }

    pub fn rows(&self, letters: u8) -> Rows<'_> {
        Rows {
            letters,
            targets: &self.row_targets,
            priorities: &self.row_priorities,
        }
    }

    /// Where the tables first differ: the table, the place, and what both have there.
    pub fn difference(&self, other: &OwnedTables) -> Option<String> {
        first("node_masks", &self.node_masks, &other.node_masks)
            .or_else(|| first("node_parents", &self.node_parents, &other.node_parents))
            .or_else(|| {
                let (a, b) = (&self.node_priorities, &other.node_priorities);
                first("node_priorities", a, b)
            })
            .or_else(|| first("state_sources", &self.state_sources, &other.state_sources))
            .or_else(|| first("state_leaves", &self.state_leaves, &other.state_leaves))
            .or_else(|| first("row_targets", &self.row_targets, &other.row_targets))
            .or_else(|| {
                first(
                    "row_priorities",
                    &self.row_priorities,
                    &other.row_priorities,
                )
            })
    }
}

/// Where two tables first differ.
fn first<T: PartialEq + std::fmt::Debug>(name: &str, a: &[T], b: &[T]) -> Option<String> {
    let at = (0..a.len().max(b.len())).find(|&i| a.get(i) != b.get(i))?;
    Some(format!("{name}[{at}]: {:?} {:?}", a.get(at), b.get(at)))
}

/// The nine tables: the seven of a translation, and the two of a solution.
#[derive(Clone, Debug, PartialEq, Eq)]
pub struct SolvedTables {
    pub seven: OwnedTables,
    pub state_winners: Vec<u8>,
    pub state_letters: Vec<u8>,
}

impl SolvedTables {
    /// Tables for so many nodes, states and rows, with `x` in every place.
    pub fn new(nodes: usize, states: usize, rows: usize, x: u8) -> Self {
        SolvedTables {
            seven: OwnedTables::new(nodes, states, rows, x),
            state_winners: vec![x; states],
            state_letters: vec![x; states],
        }
    }

    /// Tables as long as these, with `x` in every place.
    pub fn filled(&self, x: u8) -> Self {
        SolvedTables {
            seven: self.seven.filled(x),
            state_winners: vec![x; self.state_winners.len()],
            state_letters: vec![x; self.state_letters.len()],
        }
    }

    /// Lends the tables to the proved solver.
    pub fn solve(&mut self, p: &Policy, owners: &[u8]) -> Result<Counts, Refusal> {
        let solution = wulfrenda::Solution {
            state_winners: &mut self.state_winners,
            state_letters: &mut self.state_letters,
        };
        wulfrenda::solve(p, owners, self.seven.lend(), solution)
    }

    /// Lends them to it with the command bytes of a policy.
    pub fn solve_bytes<'a>(
        &mut self,
        bytes: &'a [u8],
        owners: &[u8],
    ) -> Result<(Counts, &'a [u8]), ReadError> {
        let solution = wulfrenda::Solution {
            state_winners: &mut self.state_winners,
            state_letters: &mut self.state_letters,
        };
        wulfrenda::solve_bytes(bytes, owners, self.seven.lend(), solution)
    }

    /// Lends them to the independent solver.
    pub fn fill<'a>(
        &mut self,
        solver: &'a mut Solver,
        p: &independent::policy::Policy,
        owners: &[u8],
    ) -> Result<&'a Automaton, u8> {
        let solution = independent::solve::Solution {
            state_winners: &mut self.state_winners,
            state_letters: &mut self.state_letters,
        };
        solver.fill(p, owners, self.seven.lend_independent(), solution)
    }

    /// Where the tables first differ, the letters included.
    pub fn difference(&self, other: &SolvedTables) -> Option<String> {
        self.decided_difference(other)
            .or_else(|| first("state_letters", &self.state_letters, &other.state_letters))
    }

    /// Where they first differ in what is decided: not in the letters.
    pub fn decided_difference(&self, other: &SolvedTables) -> Option<String> {
        self.seven
            .difference(&other.seven)
            .or_else(|| first("state_winners", &self.state_winners, &other.state_winners))
    }

    /// What is wrong with the winners and letters of so many built states, or with what stands past them.
    pub fn check(&self, states: usize, letters: u8, owners: &[u8]) -> Result<(), String> {
        let rows = states * usize::from(letters);
        let sources = &self.seven.state_sources[..states];
        let owners: Vec<u8> = sources.iter().map(|&v| owners[usize::from(v)]).collect();
        let game = check::Game {
            letters: letters.into(),
            targets: &self.seven.row_targets[..rows],
            priorities: &self.seven.row_priorities[..rows],
            owners: &owners,
        };
        let (winners, past_winners) = self.state_winners.split_at(states);
        let (letters, past_letters) = self.state_letters.split_at(states);
        check::solution(&game, winners, letters)?;
        check::one_winner(sources, winners)?;
        if past_winners.iter().chain(past_letters).any(|&x| x != 0) {
            return Err("not 0 past the states".to_string());
        }
        Ok(())
    }
}

/// The counts of an independent translation.
pub fn counts(a: &Automaton) -> Counts {
    Counts {
        nodes: a.nodes.len() as u16,
        states: a.states.len() as u16,
        start: a.start,
    }
}

pub fn hex(bytes: &[u8]) -> String {
    bytes.iter().map(|b| format!("{b:02x}")).collect()
}

/// The bytes of hexadecimal text, in which # begins a comment.
///
/// # Panics
/// If there is another character, or an odd number of digits.
pub fn unhex(text: &str) -> Vec<u8> {
    let digits: Vec<u8> = text
        .lines()
        .flat_map(|l| l.split('#').next())
        .flat_map(str::chars)
        .filter(|c| !c.is_whitespace())
        .map(|c| c.to_digit(16).expect("hexadecimal digits") as u8)
        .collect();
    assert!(digits.len() % 2 == 0, "an even number of digits");
    digits.chunks(2).map(|d| d[0] * 16 + d[1]).collect()
}

/// A number of the environment, such as SEED or POLICIES.
fn number(name: &str, usual: u64) -> u64 {
    std::env::var(name).map_or(usual, |x| x.parse().expect("a number"))
}

/// The random numbers of a test: its own seed, and SEED if that is set.
pub fn random(seed: u64) -> Random {
    Random::new(seed + 1000 * number("SEED", 0))
}

/// How many policies a test takes: POLICIES if that is set.
pub fn policies(usual: u64) -> u64 {
    number("POLICIES", usual)
}

/// How many operands a command has.
fn operands(code: u8) -> Option<usize> {
    match code {
        0 => Some(0),
        1 | 2 => Some(4),
        3 => Some(1),
        4 => Some(3),
        _ => None,
    }
}

/// Command bytes as a list of commands, up to the end command; what follows it, or a command that breaks off or is none, is the last of the list, which may be empty.
pub fn commands(bytes: &[u8]) -> Vec<Vec<u8>> {
    let (mut list, mut rest, mut ended) = (Vec::new(), bytes, false);
    while let Some(&code) = rest.first() {
        let whole = operands(code).map(|n| n + 1).filter(|&n| n <= rest.len());
        let Some(n) = whole.filter(|_| !ended) else {
            break;
        };
        ended = code == 0;
        list.push(rest[..n].to_vec());
        rest = &rest[n..];
    }
    list.push(rest.to_vec());
    list
}

/// The command bytes of a policy, its edges and sets in any order.
pub fn shuffled(random: &mut Random, p: &independent::policy::Policy) -> Vec<u8> {
    let mut list = commands(&p.bytes());
    // the shape stays first, and behind the end command there is nothing
    let end = list.len() - 2;
    for i in (2..end).rev() {
        list.swap(i, 1 + random.below(i));
    }
    list.concat()
}

/// Bytes with a command put in, taken out, moved or cut off: an edge again, most often by the other of its two commands, set 0, any command again.
fn damage_commands(random: &mut Random, bytes: &[u8]) -> Vec<u8> {
    let mut list = commands(bytes);
    let (to, from) = (random.below(list.len()), random.below(list.len()));
    let edges = list.iter().filter(|c| matches!(c.first(), Some(2 | 4)));
    let mut edges: Vec<Vec<u8>> = edges.cloned().collect();
    match random.below(9) {
        0 | 1 if !edges.is_empty() => {
            let mut edge = edges.swap_remove(random.below(edges.len()));
            if random.chance(70) {
                edge[0] = 6 - edge[0];
                edge.resize(if edge[0] == 2 { 5 } else { 4 }, 0);
            }
            list.insert(to, edge);
        }
        2 | 3 => list.insert(to, vec![3, 0]),
        4 => list.insert(to, list[from].clone()),
        5 => drop(list.remove(from)),
        6 => drop(list.remove(0)),
        7 => {
            list.truncate(from + 1);
            list[from].pop();
        }
        _ => list.swap(to, from),
    }
    list.concat()
}

/// Bytes with some of them, or some commands, changed, cut off, put in or taken out.
pub fn damaged(random: &mut Random, mut bytes: Vec<u8>) -> Vec<u8> {
    let of_commands = random.chance(40);
    for _ in 0..=random.below(3) {
        if of_commands && bytes.len() > 1 {
            bytes = damage_commands(random, &bytes);
            continue;
        }
        if bytes.is_empty() {
            break;
        }
        let at = random.below(bytes.len());
        match random.below(4) {
            0 => bytes[at] = random.below(256) as u8,
            1 => bytes.truncate(at),
            2 => bytes.insert(at, random.below(8) as u8),
            _ => drop(bytes.remove(at)),
        }
    }
    bytes
}

/// The repository's root.
pub fn root() -> PathBuf {
    PathBuf::from(concat!(env!("CARGO_MANIFEST_DIR"), "/../.."))
}

/// What a proved program writes when it is given bytes: that of target/bin with this name, or the one that an environment variable names, TRANSLATE for `translate`.
///
/// # Panics
/// If there is no program, or it fails.
pub fn program(name: &str, bytes: &[u8]) -> String {
    use std::io::Write;
    use std::process::{Command, Stdio};
    let variable = name.to_uppercase();
    let path = std::env::var_os(&variable)
        .map_or_else(|| root().join("target/bin").join(name), PathBuf::from);
    assert!(
        path.is_file(),
        "{} is missing: run tools/programs in the repository's root, or set {variable} to the program's path",
        path.display()
    );
    let mut child = Command::new(&path)
        .stdin(Stdio::piped())
        .stdout(Stdio::piped())
        .spawn()
        .unwrap_or_else(|e| panic!("{}: {e}", path.display()));
    // a program reads so many bytes: it may have ended before all are written
    child.stdin.take().unwrap().write_all(bytes).ok();
    let output = child.wait_with_output().unwrap();
    assert!(
        output.status.success(),
        "{}: {}",
        path.display(),
        output.status
    );
    String::from_utf8(output.stdout).unwrap()
}
