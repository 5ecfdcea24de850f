//! The stored cases of tests/comparison/cases: what each call answers is held to the text there, on the proved side and on the independent one.
//!
//! In a file, # begins a comment. A line that is not indented begins a definition or a case; indented lines go on with it.
//!
//! ```text
//! policy NAME = HEX..                                its command bytes; or `file`, and a path from the repository's root
//! record NAME = POLICY AT=BYTE..                     a policy's record (or `zero`), some of its bytes changed
//! rows NAME = letters N targets N.. priorities N..   row tables
//! NAME: CALL = ANSWER                                a case: the answer is a line, or the indented lines that follow
//! ```
//!
//! A list may be empty, and N*M in a list is N, M times. POLICY is a name, or `bytes HEX..`; `first N` takes the first N bytes alone.
//!
//! ```text
//! read POLICY                                 where the rest begins, the counts and the initial state, each edge, the family; the quiet edges, if there are any
//! translate POLICY [nodes N states N rows N]  the listing, or the number and what became of the tables; 1,024 nodes and states
//!                                             if no lengths are given, and the program then prints the same
//! forest POLICY                               the nodes
//! run ROWS state N word N.. rounds N          a line for each round: the priorities that it meets, and the state after it
//! judge_policy POLICY state N stem N.. loop N..
//! judge_rows ROWS state N stem N.. loop N..
//! compare POLICY POLICY
//! solve POLICY owners N.. [nodes N states N rows N [winners N letters N]]
//!                                             the counts and the start; the winner of each built state; the letters by which its owner can win there, of which the
//!                                             call may give any, and a dash where there is none; or the number and what became of the tables
//! winners POLICY owners N..                   the winner over each policy state
//! ```

use comparison::{counts, program, root, unhex, OwnedTables, SolvedTables};
use independent::fast::{self, Translator};
use independent::solve::Solver;
use independent::{brute, judge, policy};
use std::collections::HashMap;
use std::fs;
use std::path::Path;
use wulfrenda::{Counts, Policy, Refusal, Rows, Run, NONE, NO_LETTER, RECORD_LEN};

type Record = [u8; RECORD_LEN];

/// What a definition gives.
#[derive(Clone)]
enum Given {
    Bytes(Vec<u8>),
    Record(Record),
    Rows {
        letters: u8,
        targets: Vec<u16>,
        priorities: Vec<u8>,
    },
}

/// A definition or a case: where it stands, the words before its `=`, and the lines after it.
struct Entry {
    line: usize,
    head: Vec<String>,
    body: Vec<String>,
}

fn entries(text: &str) -> Vec<Entry> {
    let mut all: Vec<Entry> = Vec::new();
    for (i, line) in text.lines().enumerate() {
        let line = line.split('#').next().unwrap().trim_end();
        let words = line.split_whitespace();
        match line.chars().next() {
            None => continue,
            Some(c) if c.is_whitespace() => {
                let words: Vec<&str> = words.collect();
                let last = all.last_mut().expect("a definition or a case");
                last.body.push(words.join(" "));
            }
            Some(_) => {
                let mut words = words.map(str::to_string);
                let head = words.by_ref().take_while(|w| w != "=").collect();
                let rest: Vec<String> = words.collect();
                all.push(Entry {
                    line: i + 1,
                    head,
                    body: [rest.join(" ")]
                        .into_iter()
                        .filter(|l| !l.is_empty())
                        .collect(),
                });
            }
        }
    }
    all
}

/// Each is followed by a list, and is no name.
const KEYS: [&str; 15] = [
    "bytes",
    "first",
    "nodes",
    "states",
    "rows",
    "state",
    "word",
    "rounds",
    "stem",
    "loop",
    "letters",
    "targets",
    "priorities",
    "owners",
    "winners",
];

/// The names that stand before the first key, and the words after each key.
struct Input<'a> {
    names: Vec<&'a str>,
    words: HashMap<&'a str, Vec<&'a str>>,
}

impl<'a> Input<'a> {
    fn of(words: impl Iterator<Item = &'a str>) -> Self {
        let mut input = Input {
            names: Vec::new(),
            words: HashMap::new(),
        };
        let mut key = None;
        for word in words {
            if KEYS.contains(&word) {
                key = Some(word);
                input.words.insert(word, Vec::new());
            } else if let Some(key) = key {
                input.words.get_mut(key).unwrap().push(word);
            } else {
                input.names.push(word);
            }
        }
        input
    }

    fn list<T: TryFrom<usize> + Clone>(&self, key: &str) -> Vec<T> {
        let number = |x: &str| {
            x.parse::<usize>()
                .unwrap_or_else(|_| panic!("{x}: a number"))
        };
        let words = self.words.get(key).unwrap_or_else(|| panic!("no {key}"));
        let each = words.iter().flat_map(|word| {
            let (x, times) = word.split_once('*').unwrap_or((word, "1"));
            std::iter::repeat_n(number(x), number(times))
        });
        each.map(|x| T::try_from(x).ok().expect("a number of this width"))
            .collect()
    }

    fn number<T: TryFrom<usize> + Clone>(&self, key: &str) -> T {
        let [one]: &[T] = &self.list(key)[..] else {
            panic!("{key}: one number")
        };
        one.clone()
    }

    fn has(&self, key: &str) -> bool {
        self.words.contains_key(key)
    }
}

/// The answers of the sides to one case, each with its side's name.
type Answers = Vec<(&'static str, String)>;

#[derive(Default)]
struct Definitions(HashMap<String, Given>);

impl Definitions {
    fn define(&mut self, entry: &Entry) {
        let body = entry.body.join(" ");
        let mut words = body.split_whitespace();
        let given = match entry.head[0].as_str() {
            "policy" => Given::Bytes(match body.strip_prefix("file ") {
                Some(path) => unhex(&fs::read_to_string(root().join(path)).unwrap()),
                None => unhex(&body),
            }),
            "record" => {
                let of = words.next().expect("a policy's name");
                let mut record = if of == "zero" {
                    [0; RECORD_LEN]
                } else {
                    *self.proved(of).record()
                };
                for change in words {
                    let (at, byte) = change.split_once('=').expect("AT=BYTE");
                    record[at.parse::<usize>().unwrap()] = byte.parse().unwrap();
                }
                Given::Record(record)
            }
            "rows" => {
                let input = Input::of(words);
                Given::Rows {
                    letters: input.number("letters"),
                    targets: input.list("targets"),
                    priorities: input.list("priorities"),
                }
            }
            other => panic!("{other}: no kind of definition"),
        };
        assert_eq!(entry.head.len(), 2, "a kind and a name");
        let before = self.0.insert(entry.head[1].clone(), given);
        assert!(before.is_none(), "{} is defined twice", entry.head[1]);
    }

    fn given(&self, name: &str) -> &Given {
        self.0.get(name).unwrap_or_else(|| panic!("no {name}"))
    }

    /// The policy on the proved side, legal or not.
    fn proved(&self, name: &str) -> Policy {
        match self.given(name) {
            Given::Bytes(bytes) => Policy::read(bytes).expect("a policy").0,
            Given::Record(record) => Policy::from_record(*record),
            Given::Rows { .. } => panic!("{name}: no policy"),
        }
    }

    /// The policy on the independent side; refused with 7 if it is not legal.
    fn independent(&self, name: &str) -> Result<policy::Policy, u8> {
        match self.given(name) {
            Given::Bytes(bytes) => Ok(policy::read(bytes).expect("a policy").0),
            Given::Record(record) => policy::from_record(record).ok_or(7),
            Given::Rows { .. } => panic!("{name}: no policy"),
        }
    }

    fn rows(&self, name: &str) -> Rows<'_> {
        let Given::Rows {
            letters,
            targets,
            priorities,
        } = self.given(name)
        else {
            panic!("{name}: no rows")
        };
        Rows {
            letters: *letters,
            targets,
            priorities,
        }
    }

    /// The bytes or the record that a call is given.
    fn source(&self, input: &Input) -> Given {
        let mut given = if input.has("bytes") {
            Given::Bytes(unhex(&input.words["bytes"].join(" ")))
        } else {
            self.given(input.names[0]).clone()
        };
        if input.has("first") {
            let Given::Bytes(bytes) = &mut given else {
                panic!("the first of some bytes")
            };
            bytes.truncate(input.number("first"));
        }
        given
    }

    fn answers(&self, call: &str, input: &Input) -> Answers {
        match call {
            "read" => match self.source(input) {
                Given::Bytes(bytes) => read(&bytes),
                _ => panic!("command bytes"),
            },
            "translate" => self.translate(input),
            "forest" => forest(
                &self.proved(input.names[0]),
                &self.independent(input.names[0]),
            ),
            "run" => run(&self.rows(input.names[0]), input),
            "judge_policy" => {
                let (ours, theirs) = (
                    self.proved(input.names[0]),
                    self.independent(input.names[0]),
                );
                judge_policy(&ours, theirs, input)
            }
            "judge_rows" => judge_rows(&self.rows(input.names[0]), input),
            "compare" => self.compare(input.names[0], input.names[1]),
            "solve" => self.solve(input, solution),
            "winners" => self.solve(input, winners),
            _ => panic!("{call}: no such call"),
        }
    }

    fn translate(&self, input: &Input) -> Answers {
        let given = self.source(input);
        let usual = !input.has("nodes");
        let tables = |letters: usize| {
            let (nodes, states, rows) = if usual {
                (1024, 1024, 1024 * letters)
            } else {
                (
                    input.number("nodes"),
                    input.number("states"),
                    input.number("rows"),
                )
            };
            OwnedTables::new(nodes, states, rows, FILL)
        };
        match given {
            Given::Bytes(bytes) => {
                let mut answers = Answers::new();
                let read = policy::read(&bytes);
                // where nothing was read there is no number of letters
                let letters = read.as_ref().map_or(1, |r| r.0.letters);
                let mut t = tables(letters);
                let answer = t.translate_bytes(&bytes);
                let answer = answer.map(|x| x.0).map_err(|e| (e.number(), e.offset));
                answers.push(("ours, from bytes", listing(answer, &t, letters)));
                if let Ok((ours, _)) = Policy::read(&bytes) {
                    let mut t = tables(letters);
                    let answer = t.translate(&ours).map_err(|e| (e.number(), 0));
                    answers.push(("ours, from a record", listing(answer, &t, letters)));
                }
                let mut t = tables(letters);
                let answer = read.and_then(|(p, _)| {
                    let answer = t.fill(&mut Translator::default(), &p).map(counts);
                    answer.map_err(|number| (number, 0))
                });
                answers.push(("independent", listing(answer, &t, letters)));
                if usual {
                    // the program says nothing of its tables
                    let mut text = program("translate", &bytes).trim_end().to_string();
                    if let Err((number, _)) = answer {
                        text += after(number);
                    }
                    answers.push(("the program", text));
                }
                if let (Ok(_), Ok((p, _))) = (answer, policy::read(&bytes)) {
                    if p.edges.len() <= FEW {
                        let text = brute::translate(&p).listing(letters);
                        answers.push(("by the definitions", text.trim_end().to_string()));
                    }
                }
                answers
            }
            Given::Record(record) => {
                let letters = usize::from(record[1]);
                let mut t = tables(letters);
                let answer = t.translate(&Policy::from_record(record));
                let ours = listing(answer.map_err(|e| (e.number(), 0)), &t, letters);
                let mut t = tables(letters);
                let answer = policy::from_record(&record).ok_or(7);
                let answer =
                    answer.and_then(|p| t.fill(&mut Translator::default(), &p).map(counts));
                let theirs = listing(answer.map_err(|number| (number, 0)), &t, letters);
                vec![("ours", ours), ("independent", theirs)]
            }
            Given::Rows { .. } => panic!("a policy"),
        }
    }

    fn compare(&self, p: &str, q: &str) -> Answers {
        let text = |answer: Result<bool, u8>| match answer {
            Ok(true) => "same".to_string(),
            Ok(false) => "different".to_string(),
            Err(number) => format!("refused {number}"),
        };
        let ours = wulfrenda::compare(&self.proved(p), &self.proved(q));
        let both = self
            .independent(p)
            .and_then(|p| Ok((p, self.independent(q)?)));
        let theirs = both
            .as_ref()
            .map_err(|&n| n)
            .and_then(|(p, q)| fast::compare(p, q));
        let mut answers = vec![
            ("ours", text(ours.map_err(Refusal::number))),
            ("independent", text(theirs)),
        ];
        if let (Ok(_), Ok((p, q))) = (theirs, &both) {
            if p.edges.len() <= FEW {
                answers.push(("by the definitions", text(Ok(brute::same(p, q)))));
            }
        }
        answers
    }
}

/// What a side answered, as the stored cases have it: of the letters and owners, the answer and the tables.
type Text = fn(usize, &[u8], Result<Counts, (u8, usize)>, &SolvedTables) -> String;

impl Definitions {
    fn solve(&self, input: &Input, text: Text) -> Answers {
        let owners: Vec<u8> = input.list("owners");
        let tables = |letters: usize| {
            if !input.has("nodes") {
                return SolvedTables::new(1024, 1024, 1024 * letters, FILL);
            }
            let (nodes, states) = (input.number("nodes"), input.number("states"));
            let mut t = SolvedTables::new(nodes, states, input.number("rows"), FILL);
            if input.has("winners") {
                t.state_winners.resize(input.number("winners"), FILL);
                t.state_letters.resize(input.number("letters"), FILL);
            }
            t
        };
        let mut answers = Answers::new();
        let (record, read) = match self.source(input) {
            Given::Bytes(bytes) => {
                let read = policy::read(&bytes).map(|r| r.0);
                // where nothing was read there is no number of letters
                let letters = read.as_ref().map_or(1, |p| p.letters);
                let mut t = tables(letters);
                let answer = t.solve_bytes(&bytes, &owners);
                let answer = answer.map(|x| x.0).map_err(|e| (e.number(), e.offset));
                answers.push(("ours, from bytes", text(letters, &owners, answer, &t)));
                (read.as_ref().ok().map(|p| p.record()), read)
            }
            Given::Record(record) => (Some(record), policy::from_record(&record).ok_or((7, 0))),
            Given::Rows { .. } => panic!("a policy"),
        };
        if let Some(record) = record {
            let letters = usize::from(record[1]);
            let mut t = tables(letters);
            let answer = t.solve(&Policy::from_record(record), &owners);
            let answer = answer.map_err(|e| (e.number(), 0));
            answers.push(("ours, from a record", text(letters, &owners, answer, &t)));
        }
        let letters = read.as_ref().map_or(1, |p| p.letters);
        let mut t = tables(letters);
        let answer = read.and_then(|p| {
            let answer = t.fill(&mut Solver::default(), &p, &owners).map(counts);
            answer.map_err(|number| (number, 0))
        });
        answers.push(("independent", text(letters, &owners, answer, &t)));
        answers
    }
}

/// A solution, and a line more if something is wrong with it; after a refusal, what became of the tables.
fn solution(
    letters: usize,
    owners: &[u8],
    answer: Result<Counts, (u8, usize)>,
    t: &SolvedTables,
) -> String {
    let counts = match answer {
        Ok(counts) => counts,
        Err((number, at)) => return refused(number, at, |x| *t == t.filled(x)),
    };
    let states = usize::from(counts.states);
    let rows: Vec<(u16, u8)> = (0..states * letters)
        .map(|row| (t.seven.row_targets[row], t.seven.row_priorities[row]))
        .collect();
    let owners_of: Vec<u8> = (0..states)
        .map(|s| owners[usize::from(t.seven.state_sources[s])])
        .collect();
    // the owner can win by a letter if it does when the state has no other
    let can = |s: usize, letter: usize| {
        let mut rows = rows.clone();
        let one = rows[s * letters + letter];
        rows[s * letters..][..letters].fill(one);
        brute::wins(letters, &rows, &owners_of, owners_of[s])[s]
    };
    let letter = |s: usize| match t.state_letters[s] {
        NO_LETTER => "-".to_string(),
        given => {
            let all = (0..letters).filter(|&a| can(s, a)).map(|a| a.to_string());
            let all: Vec<String> = all.collect();
            if all.contains(&given.to_string()) {
                all.join("|")
            } else {
                format!("{given}, not of {all:?}")
            }
        }
    };
    let mut lines = vec![
        format!(
            "nodes {} states {states} start {}",
            counts.nodes, counts.start
        ),
        join("winners", &t.state_winners[..states]),
        join("letters", (0..states).map(letter)),
    ];
    lines.extend(t.check(states, letters as u8, owners).err());
    lines.join("\n")
}

/// The winner over each policy state, or what is wrong with the solution.
fn winners(
    letters: usize,
    owners: &[u8],
    answer: Result<Counts, (u8, usize)>,
    t: &SolvedTables,
) -> String {
    let states = usize::from(answer.expect("a solution").states);
    if let Err(wrong) = t.check(states, letters as u8, owners) {
        return wrong;
    }
    // those over one policy state stand together, and have one winner
    let mut over: Vec<(u8, u8)> = (0..states)
        .map(|s| (t.seven.state_sources[s], t.state_winners[s]))
        .collect();
    over.dedup();
    let each: Vec<String> = over.iter().map(|x| x.1.to_string()).collect();
    each.join(" ")
}

/// What every place of the tables holds before a call.
const FILL: u8 = 7;

/// The definitions are followed by listing edge sets where there are at most so many edges.
const FEW: usize = 12;

fn join<T: ToString>(head: &str, values: impl IntoIterator<Item = T>) -> String {
    values
        .into_iter()
        .fold(head.to_string(), |text, x| text + " " + &x.to_string())
}

fn read(bytes: &[u8]) -> Answers {
    let text = |answer: Result<(Record, usize), (u8, usize)>| match answer {
        Err((number, at)) => format!("refused {number} {at}"),
        Ok((record, end)) => {
            let edges = usize::from(record[0]) * usize::from(record[1]);
            // as many as there are edges; more if there is something past them
            let values = |part: &[u8]| {
                let most = part.iter().rposition(|&x| x != 0).map_or(0, |i| i + 1);
                part[..edges.max(most)].to_vec()
            };
            let family = (0..256).filter(|set| record[132 + set] != 0);
            let mut lines = vec![
                format!("up to {end}"),
                join("counts", &record[..4]),
                join("targets", values(&record[4..68])),
                join("colours", values(&record[68..132])),
                join("family", family),
            ];
            let quiet: Vec<usize> = (0..64).filter(|e| record[388 + e] != 0).collect();
            if !quiet.is_empty() {
                lines.push(join("quiet", quiet));
            }
            lines.join("\n")
        }
    };
    let ours = Policy::read(bytes)
        .map(|(p, rest)| (*p.record(), bytes.len() - rest.len()))
        .map_err(|e| (e.number(), e.offset));
    let theirs = policy::read(bytes).map(|(p, end)| (p.record(), end));
    vec![("ours", text(ours)), ("independent", text(theirs))]
}

/// What a refusal leaves in the tables.
fn after(number: u8) -> &'static str {
    if number == 9 || number == 10 {
        "\ntables 0"
    } else {
        "\ntables unchanged"
    }
}

/// The number, its offset where there is one, and what became of the tables: whether all their places hold a number is asked.
fn refused(number: u8, at: usize, hold: impl Fn(u8) -> bool) -> String {
    let mut out = format!("refused {number}");
    if number <= 6 {
        out += &format!(" {at}");
    }
    out + if hold(0) {
        "\ntables 0"
    } else if hold(FILL) {
        "\ntables unchanged"
    } else {
        "\ntables changed"
    }
}

fn dash(n: u16) -> String {
    if n == NONE {
        "-".to_string()
    } else {
        n.to_string()
    }
}

/// The lines of the first nodes, and a line more if a place past them is not 0.
fn nodes(t: &OwnedTables, count: usize) -> String {
    let mut out = String::new();
    for n in 0..count {
        let (mask, parent) = (t.node_masks[n], dash(t.node_parents[n]));
        out += &format!("n {n} {mask} {parent} {}\n", t.node_priorities[n]);
    }
    let zero = t.node_masks[count..].iter().all(|&x| x == 0)
        && t.node_parents[count..].iter().all(|&x| x == 0)
        && t.node_priorities[count..].iter().all(|&x| x == 0);
    if !zero {
        out += "not 0 past the nodes\n";
    }
    out
}

/// The tables as the program lists them, and lines more if a place past the result is not 0; after a refusal, what became of them.
fn listing(answer: Result<Counts, (u8, usize)>, t: &OwnedTables, letters: usize) -> String {
    match answer {
        Err((number, at)) => refused(number, at, |x| *t == t.filled(x)),
        Ok(counts) => {
            let (states, rows) = (
                usize::from(counts.states),
                usize::from(counts.states) * letters,
            );
            let mut out = format!("nodes {} states {states}\n", counts.nodes);
            out += &nodes(t, usize::from(counts.nodes));
            for s in 0..states {
                out += &format!("s {s} {} {}\n", t.state_sources[s], dash(t.state_leaves[s]));
            }
            for row in 0..rows {
                let (target, priority) = (t.row_targets[row], t.row_priorities[row]);
                out += &format!(
                    "t {} {} {target} {priority}\n",
                    row / letters,
                    row % letters
                );
            }
            let zero = t.state_sources[states..].iter().all(|&x| x == 0)
                && t.state_leaves[states..].iter().all(|&x| x == 0)
                && t.row_targets[rows..].iter().all(|&x| x == 0)
                && t.row_priorities[rows..].iter().all(|&x| x == 0);
            if !zero {
                out += "not 0 past the states\n";
            }
            out + &format!("start {}", counts.start)
        }
    }
}

fn forest(ours: &Policy, theirs: &Result<policy::Policy, u8>) -> Answers {
    let most = usize::from(NONE);
    let p = theirs.as_ref().expect("a legal policy");
    let tables = || OwnedTables::new(most, most, most * p.letters, FILL);
    let text = |count: u16, t: &OwnedTables| {
        let count = usize::from(count);
        format!("nodes {count}\n{}", nodes(t, count))
            .trim_end()
            .to_string()
    };
    let mut t = tables();
    let count = t.translate(ours).expect("a forest that fits").nodes;
    let ours = text(count, &t);
    let mut t = tables();
    let count = t
        .fill(&mut Translator::default(), p)
        .map(counts)
        .unwrap()
        .nodes;
    let mut answers = vec![("ours", ours), ("independent", text(count, &t))];
    if p.edges.len() <= FEW {
        let mut t = tables();
        let all = brute::forest(p);
        t.node_masks.fill(0);
        t.node_parents.fill(0);
        t.node_priorities.fill(0);
        for (n, node) in all.iter().enumerate() {
            t.node_masks[n] = node.mask;
            t.node_parents[n] = node.parent;
            t.node_priorities[n] = node.priority;
        }
        answers.push(("by the definitions", text(all.len() as u16, &t)));
    }
    answers
}

fn run(rows: &Rows, input: &Input) -> Answers {
    type Step<'a> = &'a dyn Fn(u16, u8) -> Result<(u16, u8), u8>;
    let word: Vec<u8> = input.list("word");
    let text = |step: Step| {
        let mut state: u16 = input.number("state");
        let mut lines = Vec::new();
        for _ in 0..input.number::<usize>("rounds") {
            let mut line = String::new();
            for &letter in &word {
                match step(state, letter) {
                    Ok((next, priority)) => {
                        line += &format!("{priority} ");
                        state = next;
                    }
                    Err(number) => line += &format!("refused {number} "),
                }
            }
            lines.push(format!("{line}state {state}"));
        }
        lines.join("\n")
    };
    let ours = |state, letter| {
        let moved = Run { state }.read(letter, rows);
        moved
            .map(|(run, met)| (run.state, met))
            .map_err(Refusal::number)
    };
    let letters = usize::from(rows.letters);
    let theirs = |state, letter| judge::step(letters, rows.targets, rows.priorities, state, letter);
    vec![("ours", text(&ours)), ("independent", text(&theirs))]
}

fn judge_policy(ours: &Policy, theirs: Result<policy::Policy, u8>, input: &Input) -> Answers {
    let text = |answer: Result<(usize, bool), u8>| match answer {
        Ok((colours, true)) => format!("colours {colours} accepted"),
        Ok((colours, false)) => format!("colours {colours} rejected"),
        Err(number) => format!("refused {number}"),
    };
    let (stem, period): (Vec<u8>, Vec<u8>) = (input.list("stem"), input.list("loop"));
    let answer = wulfrenda::judge_policy(ours, input.number("state"), &stem, &period);
    let answer = answer.map(|v| (usize::from(v.colours), v.accepted));
    let theirs = theirs.and_then(|p| judge::policy(&p, input.number("state"), &stem, &period));
    vec![
        ("ours", text(answer.map_err(Refusal::number))),
        ("independent", text(theirs)),
    ]
}

fn judge_rows(rows: &Rows, input: &Input) -> Answers {
    let text = |answer: Result<u8, u8>| match answer {
        Ok(least) => format!("least {least}"),
        Err(number) => format!("refused {number}"),
    };
    let (stem, period): (Vec<u8>, Vec<u8>) = (input.list("stem"), input.list("loop"));
    let (state, letters) = (input.number("state"), usize::from(rows.letters));
    let ours = wulfrenda::judge_rows(rows, state, &stem, &period);
    let s = usize::from(state);
    let theirs = judge::rows(letters, rows.targets, rows.priorities, s, &stem, &period);
    vec![
        ("ours", text(ours.map_err(Refusal::number))),
        ("independent", text(theirs)),
    ]
}

/// The place of an entry, which is said where something is wrong with the entry itself.
struct Place(String);

impl Drop for Place {
    fn drop(&mut self) {
        if std::thread::panicking() {
            eprintln!("in {}", self.0);
        }
    }
}

/// How many cases a file has, and what is wrong with them.
fn check(path: &Path) -> (usize, Vec<String>) {
    let mut definitions = Definitions::default();
    let (mut cases, mut wrong) = (0, Vec::new());
    let file = path.file_name().unwrap().to_string_lossy();
    for entry in entries(&fs::read_to_string(path).unwrap()) {
        let place = Place(format!("{file}, line {}", entry.line));
        let Some(name) = entry.head.iter().position(|w| w.ends_with(':')) else {
            definitions.define(&entry);
            continue;
        };
        cases += 1;
        let (name, call) = entry.head.split_at(name + 1);
        let input = Input::of(call[1..].iter().map(String::as_str));
        let stored = entry.body.join("\n");
        for (side, answer) in definitions.answers(&call[0], &input) {
            if answer != stored {
                let (place, name) = (&place.0, name.join(" "));
                wrong.push(format!(
                    "{place}, {name} {side}\n{answer}\nstored\n{stored}"
                ));
            }
        }
    }
    (cases, wrong)
}

#[test]
fn stored_cases() {
    let folder = root().join("tests/comparison/cases");
    let mut files: Vec<_> = fs::read_dir(folder)
        .unwrap()
        .map(|entry| entry.unwrap().path())
        .collect();
    files.sort();
    assert!(!files.is_empty());
    let mut wrong = Vec::new();
    for path in files {
        let (cases, found) = check(&path);
        assert!(cases > 0, "{}: no case", path.display());
        wrong.extend(found);
    }
    assert!(wrong.is_empty(), "\n{}\n", wrong.join("\n\n"));
}
