//! Texts in the Hanoi format from a fixed seed: random documents, written in any of the ways that say the same, and damaged; and texts whose answers were found by hand.

use crate::hanoi::{Document, Formula, WORDS};
use crate::random::Random;

// ---- texts with known answers

/// Texts that are not in the subset, each in two parts: what some text of the subset begins with too, and what follows. The second is empty where a text breaks off.
pub const REFUSED: &[(&str, &str)] = &[
    ("", ""),
    ("", "x"),
    (" \t\r\n", ""),
    ("", "\u{b}HOA: v1"),
    ("HO", ""),
    ("HOA", " : v1"),
    ("HOA:v", "2"),
    // v1 and what would go on with it
    ("HOA:v1", "States:1"),
    ("HOA: v1", "1"),
    ("HOA: v1", ":"),
    ("HOA: v1 ", "name: \"a\""),
    ("HOA: v1\nState", ": 1"),
    // a start has to be below States, and numbers below 2^31
    ("HOA: v1 States: ", "0"),
    ("HOA: v1 States: 1", "x"),
    ("HOA: v1 States: 2147483647", ""),
    ("HOA: v1 States: 214748364", "8 "),
    ("HOA: v1 States: 2147483647", "0"),
    ("HOA: v1 States: 999999999", "99999999999999999999999"),
    ("HOA: v1 States: 1 ", "1"),
    ("HOA: v1 States: 2 Start: ", "2"),
    ("HOA: v1 States: 12 Start: 1", "2"),
    ("HOA: v1 States: 12 Start: 11 ", "Start: 0"),
    ("HOA: v1 States: 2 Start: 0", "1"),
    ("HOA: v1 States: 2 Start: 0 ", "& 1"),
    ("HOA: v1 States: 2147483647 Start: 2147483646AP: 0", ""),
    ("HOA: v1 States: 2147483647 Start: 214748364", "7AP: 0"),
    // names
    ("HOA: v1 States:1Start:0AP:", "4"),
    ("HOA: v1 States:1Start:0AP:1", "2"),
    ("HOA: v1 States:1Start:0AP:0", "\"a\""),
    ("HOA: v1 States:1Start:0AP:1\"a\"", "\"b\""),
    ("HOA: v1 States:1Start:0AP:2\"a\"", "Acceptance:"),
    ("HOA: v1 States:1Start:0AP:2\"ab\"\"ab", "\""),
    ("HOA: v1 States:1Start:0AP:2\"ab\"\"ab", ""),
    ("HOA: v1 States:1Start:0AP:3\"\"\"a\" \"", "\""),
    ("HOA: v1 States:1Start:0AP:3\"\"\"a\" \"aa\"Acc", ""),
    ("HOA: v1 States:1Start:0AP:2\"\\\"\" \"\\\"", "\""),
    ("HOA: v1 States:1Start:0AP:1\"a\nb\\", "\n\""),
    ("HOA: v1 States:1Start:0AP:1\"a\\\"", ""),
    ("HOA: v1 States:1Start:0AP:1\"a\\", ""),
    // acceptance sets and formulas
    ("HOA: v1 States:1Start:0AP:0Acceptance:3", "3 t"),
    ("HOA: v1 States:1Start:0AP:0Acceptance:0", "0 t"),
    ("HOA: v1 States:1Start:0AP:0Acceptance:0 ", "Inf(0)"),
    ("HOA: v1 States:1Start:0AP:0Acceptance:0 (", "Fin(0))"),
    ("HOA: v1 States:1Start:0AP:0Acceptance:1Inf(", "1)"),
    ("HOA: v1 States:1Start:0AP:0Acceptance:32Inf(31)|Fin(3", "2)"),
    ("HOA: v1 States:1Start:0AP:0Acceptance:1Inf(", "!0)"),
    ("HOA: v1 States:1Start:0AP:0Acceptance:1", "!Inf(0)"),
    ("HOA: v1 States:1Start:0AP:0Acceptance:1In", ""),
    ("HOA: v1 States:1Start:0AP:0Acceptance:1Inf ( 0 ", "0)"),
    ("HOA: v1 States:1Start:0AP:0Acceptance:1Inf", "0"),
    ("HOA: v1 States:1Start:0AP:0Acceptance:1t", "t"),
    ("HOA: v1 States:1Start:0AP:0Acceptance:1t ", "f"),
    ("HOA: v1 States:1Start:0AP:0Acceptance:1t&", "|f"),
    ("HOA: v1 States:1Start:0AP:0Acceptance:1(t", "rue)"),
    ("HOA: v1 States:1Start:0AP:0Acceptance:1(t|f", ""),
    ("HOA: v1 States:1Start:0AP:0Acceptance:1(", ")"),
    ("HOA: v1 States:1Start:0AP:0Acceptance:1(t)", ")"),
    ("HOA: v1 States:1Start:0AP:0Acceptance:1((t) ", "--BODY--"),
    // t and what would go on with it
    ("HOA: v1 States:1Start:0AP:0Acceptance:0t", "--BODY--"),
    ("HOA: v1 States:1Start:0AP:0Acceptance:0(f)--BODY", ""),
    ("HOA: v1 States:1Start:0AP:0Acceptance:0(f)--", "END--"),
    // a state has the next number
    ("HOA: v1 States: 2 Start: 0 AP: 0 Acceptance: 0 t --BODY-- State: ", "1"),
    ("HOA: v1 States: 2 Start: 0 AP: 0 Acceptance: 0 t --BODY-- State: 0", "0"),
    ("HOA: v1 States:20Start:0AP:0Acceptance:0t --BODY--State:0 0State:1 0State:", "1"),
    ("HOA: v1 States:20Start:0AP:0Acceptance:0t --BODY--State:0 0State:1", "0 0"),
    (
        "HOA: v1 States:12Start:0AP:0Acceptance:0t --BODY--State:0 0State:1 0State:2 0State:3 0State:4 0State:5 0State:6 0State:7 0State:8 0State:9 0State:1",
        " 0",
    ),
    (
        "HOA: v1 States:12Start:0AP:0Acceptance:0t --BODY--State:0 0State:1 0State:2 0State:3 0State:4 0State:5 0State:6 0State:7 0State:8 0State:9 0State:1",
        "1 0",
    ),
    (
        "HOA: v1 States:12Start:0AP:0Acceptance:0t --BODY--State:0 0State:1 0State:2 0State:3 0State:4 0State:5 0State:6 0State:7 0State:8 0State:9 0State:1",
        "",
    ),
    ("HOA: v1 States:2Start:0AP:0Acceptance:0t --BODY--State:0 0", "--END--"),
    ("HOA: v1 States:1Start:0AP:0Acceptance:0t --BODY--State:0 0", "State:1 0"),
    ("HOA: v1 States:1Start:0AP:0Acceptance:0t --BODY--State:0 ", "\"name\" 0"),
    ("HOA: v1 States:1Start:0AP:0Acceptance:1t --BODY--State:0 ", "{0} 0"),
    // edges
    ("HOA: v1 States:1Start:0AP:0Acceptance:0t --BODY--State:0 ", "[t] 0"),
    ("HOA: v1 States:1Start:0AP:0Acceptance:0t --BODY--State:0 ", "1"),
    ("HOA: v1 States:1Start:0AP:0Acceptance:0t --BODY--State:0 0", "&0"),
    ("HOA: v1 States:1Start:0AP:0Acceptance:0t --BODY--State:0 0 ", "0"),
    ("HOA: v1 States:1Start:0AP:1\"a\"Acceptance:0t --BODY--State:0 0", "--END--"),
    ("HOA: v1 States:1Start:0AP:1\"a\"Acceptance:0t --BODY--State:0 0", "0"),
    ("HOA: v1 States:1Start:0AP:0Acceptance:0t --BODY--State:0 0{", "0}"),
    ("HOA: v1 States:1Start:0AP:0Acceptance:1t --BODY--State:0 0{0", "0}"),
    ("HOA: v1 States:1Start:0AP:0Acceptance:1t --BODY--State:0 0{0 ", "1}"),
    ("HOA: v1 States:1Start:0AP:0Acceptance:1t --BODY--State:0 0{}", "{0}"),
    ("HOA: v1 States:1Start:0AP:0Acceptance:1t --BODY--State:0 0{0 0", ""),
    ("HOA: v1 States:1Start:0AP:0Acceptance:32t --BODY--State:0 0{31 3", "2}"),
    // the end
    ("HOA: v1 States:1Start:0AP:0Acceptance:0t --BODY--State:0 0 --EN", ""),
    ("HOA: v1 States:1Start:0AP:0Acceptance:0t --BODY--State:0 0 --", "ABORT--"),
    ("HOA: v1 States:1Start:0AP:0Acceptance:0t --BODY--State:0 0--END--", "HOA: v1"),
    ("HOA: v1 States:1Start:0AP:0Acceptance:0t --BODY--State:0 0--END--", "\u{c}"),
    ("HOA: v1 States:1Start:0AP:0Acceptance:0t --BODY--State:0 0--END-- \n", "\0"),
    (
        "HOA: v1 States: 2 Start: 0 AP: 1 \"a\" Acceptance: 2 Inf(0)&(Fin(1)|t) --BODY-- State: 0 0 {0} 1 State: 1 1{1 0}0 --END--\n",
        "x",
    ),
    // comments
    ("HOA: v1 ", "/* one */ States: 1"),
];

/// Texts of the subset, and for each the counts and the initial state, targets, colours, and the sets of the family.
pub const READ: &[(&str, [u8; 4], &[u8], &[u8], &[u8])] = &[
    // as little white space as there may be
    (
        "HOA:v1 States:1Start:0AP:0Acceptance:0t\t--BODY--State:0 0--END--",
        [1, 1, 1, 0],
        &[0],
        &[0],
        &[1],
    ),
    // as much as there may be between any two tokens
    (
        "\nHOA:\rv1\tStates: 2 Start: 1 AP: 1 \"a\"\n\nAcceptance: 1 Inf ( 0 ) & ( t )\r\n--BODY-- State: 0 1 { 0 } 0 { } State: 1 0 0 --END-- \n",
        [2, 2, 2, 1],
        &[1, 0, 0, 0],
        &[0, 1, 1, 1],
        &[1, 3],
    ),
    // {} and no braces are one mark set, order and repeats of marks are nothing, colours by first appearance
    (
        "HOA: v1 States: 1 Start: 0 AP: 3 \"\" \"\\\"\" \"--BODY--State:\" Acceptance: 2 Inf(0)&Fin(1) --BODY-- State: 0 0{1}0{0 1}0 0{}0{1 0 1}0{0}0{0 0}0{1} --END--",
        [1, 8, 4, 0],
        &[0; 8],
        &[0, 1, 2, 2, 1, 3, 3, 0],
        &[8, 12],
    ),
    // & binds closer than |
    (
        "HOA: v1 States: 1 Start: 0 AP: 1 \"a\" Acceptance: 2 Inf(0)|Inf(1)&f --BODY-- State: 0 0{0} 0{1} --END--",
        [1, 2, 2, 0],
        &[0, 0],
        &[0, 1],
        &[1, 3],
    ),
    (
        "HOA: v1 States: 1 Start: 0 AP: 1 \"a\" Acceptance: 2 f&Inf(1)|Inf(0) --BODY-- State: 0 0{0} 0{1} --END--",
        [1, 2, 2, 0],
        &[0, 0],
        &[0, 1],
        &[1, 3],
    ),
    (
        "HOA: v1 States: 1 Start: 0 AP: 1 \"a\" Acceptance: 2 (Inf(0)|Inf(1))&Fin(0) --BODY-- State: 0 0{0} 0{1} --END--",
        [1, 2, 2, 0],
        &[0, 0],
        &[0, 1],
        &[2],
    ),
    // the last of 32 sets; the union of all marks is another than that of some
    (
        "HOA: v1 States: 1 Start: 0 AP: 2 \"a\" \"b\" Acceptance: 32 Inf(31) & Fin(30) --BODY-- State: 0 0{30} 0{31} 0{30 31} 0 --END--",
        [1, 4, 4, 0],
        &[0, 0, 0, 0],
        &[0, 1, 2, 3],
        &[2, 10],
    ),
    // nothing recurs but the empty mark set
    (
        "HOA: v1 States: 1 Start: 0 AP: 0 Acceptance: 1 Fin(0) --BODY-- State: 0 0 --END--",
        [1, 1, 1, 0],
        &[0],
        &[0],
        &[1],
    ),
];

// ---- random documents

impl Random {
    /// A document with as many states as are asked for and at most so many names.
    pub fn document(&mut self, states: usize, most_names: usize) -> Document {
        let mut names: Vec<Vec<u8>> = Vec::new();
        for _ in 0..self.below(most_names + 1) {
            let name = self.name();
            if !names.contains(&name) {
                names.push(name);
            }
        }
        let sets = [0, 1, 1 + self.below(4), 1 + self.below(32), 32][self.below(5)];
        // a few mark sets, now and then more than there may be colours
        let most = [2, 4, 8, 24][self.below(4)];
        let few = 1 + self.below(most);
        let mark_sets: Vec<u32> = (0..few).map(|_| self.marks(sets)).collect();
        let edges = (0..states << names.len())
            .map(|_| (self.below(states), mark_sets[self.below(few)]))
            .collect();
        Document {
            states,
            start: self.below(states),
            names,
            sets,
            formula: self.formula(sets, 4),
            edges,
        }
    }

    fn name(&mut self) -> Vec<u8> {
        let pieces: [&[u8]; 12] = [
            b"a",
            b"b",
            b"p0",
            b" ",
            b"\n",
            b"\\\"",
            b"\\\\",
            b"\\a",
            b"\xff\0",
            b"--BODY--",
            b"State: 1",
            b"HOA: v1",
        ];
        let kinds = if self.chance(60) { 3 } else { pieces.len() };
        let n = self.below(4);
        (0..n)
            .flat_map(|_| pieces[self.below(kinds)])
            .copied()
            .collect()
    }

    fn marks(&mut self, sets: usize) -> u32 {
        let percent = [10, 30, 50][self.below(3)];
        let marks = (0..sets).filter(|_| self.chance(percent));
        marks.fold(0, |set, m| set | 1 << m)
    }

    /// A formula of at most so many levels.
    fn formula(&mut self, sets: usize, levels: usize) -> Formula {
        if levels > 0 && self.chance(60) {
            let n = 2 + self.below(3);
            let parts = (0..n).map(|_| self.formula(sets, levels - 1)).collect();
            return if self.chance(50) {
                Formula::All(parts)
            } else {
                Formula::Any(parts)
            };
        }
        match self.below(10) {
            _ if sets == 0 => Formula::Truth(self.chance(50)),
            0 => Formula::Truth(self.chance(50)),
            1..=5 => Formula::Inf(self.below(sets)),
            _ => Formula::Fin(self.below(sets)),
        }
    }

    // ---- written out

    /// The tokens of a document, in one of the ways that say the same: braces around no marks or none, marks in any order and some of them twice, more parentheses.
    pub fn tokens(&mut self, d: &Document) -> Vec<Vec<u8>> {
        let mut out = Tokens::default();
        out.words(["HOA:", "v1", "States:"]);
        out.number(d.states);
        out.words(["Start:"]);
        out.number(d.start);
        out.words(["AP:"]);
        out.number(d.names.len());
        for name in &d.names {
            out.0.push([b"\"", &name[..], b"\""].concat());
        }
        out.words(["Acceptance:"]);
        out.number(d.sets);
        self.formula_tokens(&d.formula, &mut out);
        out.words(["--BODY--"]);
        for (e, &(target, marks)) in d.edges.iter().enumerate() {
            if e % d.letters() == 0 {
                out.words(["State:"]);
                out.number(e / d.letters());
            }
            out.number(target);
            let mut marks: Vec<usize> = (0..32).filter(|m| marks >> m & 1 == 1).collect();
            if marks.is_empty() && self.chance(70) {
                continue;
            }
            if !marks.is_empty() && self.chance(20) {
                marks.push(marks[self.below(marks.len())]);
            }
            if self.chance(30) {
                marks.reverse();
            }
            out.words(["{"]);
            for mark in marks {
                out.number(mark);
            }
            out.words(["}"]);
        }
        out.words(["--END--"]);
        out.0
    }

    fn formula_tokens(&mut self, f: &Formula, out: &mut Tokens) {
        match f {
            Formula::Truth(b) => out.words([if *b { "t" } else { "f" }]),
            Formula::Inf(m) | Formula::Fin(m) => {
                let inf = matches!(f, Formula::Inf(_));
                out.words([if inf { "Inf" } else { "Fin" }, "("]);
                out.number(*m);
                out.words([")"]);
            }
            Formula::All(parts) | Formula::Any(parts) => {
                let all = matches!(f, Formula::All(_));
                for (i, part) in parts.iter().enumerate() {
                    if i > 0 {
                        out.words([if all { "&" } else { "|" }]);
                    }
                    let inside = match part {
                        Formula::Any(_) => true,
                        Formula::All(_) => all,
                        _ => false,
                    };
                    let more = usize::from(inside) + usize::from(self.chance(10));
                    out.words(vec!["("; more]);
                    self.formula_tokens(part, out);
                    out.words(vec![")"; more]);
                }
            }
        }
    }

    /// Tokens as a text, with white space where two would merge, and elsewhere none, little or much.
    pub fn spaced(&mut self, tokens: &[Vec<u8>]) -> Vec<u8> {
        let (percent, most) = [(0, 1), (100, 1), (50, 1), (50, 4)][self.below(4)];
        let kinds = [&b" "[..], b" \n", b" \t\n\r"][self.below(3)];
        let mut text: Vec<u8> = Vec::new();
        let mut before: &[u8] = b"";
        for token in tokens {
            if merge(before, token) || self.chance(percent) {
                for _ in 0..=self.below(most) {
                    text.push(kinds[self.below(kinds.len())]);
                }
            }
            text.extend(token);
            before = token;
        }
        if self.chance(50) {
            text.push(b'\n');
        }
        text
    }

    // ---- damaged

    /// A text of these tokens, some tokens or some bytes of it damaged.
    pub fn damaged_text(&mut self, tokens: &[Vec<u8>]) -> Vec<u8> {
        let mut tokens = tokens.to_vec();
        let of_tokens = self.chance(60);
        if of_tokens {
            for _ in 0..=self.below(2) {
                self.damage_tokens(&mut tokens);
            }
        }
        let mut text = self.spaced(&tokens);
        if !of_tokens {
            for _ in 0..=self.below(2) {
                self.damage_bytes(&mut text);
            }
        }
        text
    }

    fn damage_tokens(&mut self, tokens: &mut Vec<Vec<u8>>) {
        // every other time before the edges, which are most of the tokens
        let body = tokens.iter().position(|t| t == b"--BODY--");
        let most = match body {
            Some(body) if body > 0 && self.chance(50) => body,
            _ => tokens.len(),
        };
        let (at, other) = (self.below(most), self.below(tokens.len()));
        let next = (at + 1) % tokens.len();
        let begins = |byte: fn(u8) -> bool| {
            let found = (0..most).filter(|&i| byte(tokens[i][0]));
            found.collect::<Vec<usize>>()
        };
        let (numbers, names) = (begins(|b| b.is_ascii_digit()), begins(|b| b == b'"'));
        let number = if numbers.is_empty() {
            at
        } else {
            numbers[self.below(numbers.len())]
        };
        match self.below(12) {
            0 => tokens.swap(at, next),
            1 => tokens.swap(at, other),
            2 => drop(tokens.remove(at)),
            3 => tokens.insert(at, tokens[at].clone()),
            4 => tokens[at] = tokens[other].clone(),
            5 => tokens[number] = LARGE[self.below(LARGE.len())].into(),
            6 => tokens[number].insert(0, b'0'),
            7 => tokens[number].push(b'0' + self.below(10) as u8),
            // a number that is the count of states or of sets
            8 => {
                let count = ["States:", "Acceptance:"][self.below(2)].as_bytes();
                let count = tokens.iter().position(|t| t == count);
                if let Some(count) = count.and_then(|i| tokens.get(i + 1)) {
                    tokens[number] = count.clone();
                }
            }
            // a name again
            9 => {
                if let [first, .., last] = names[..] {
                    tokens[last] = tokens[first].clone();
                }
            }
            10 => tokens.insert(at, WORDS[self.below(WORDS.len())].into()),
            _ => tokens.insert(at, OUTSIDE[self.below(OUTSIDE.len())].into()),
        }
    }

    fn damage_bytes(&mut self, text: &mut Vec<u8>) {
        if text.is_empty() {
            return;
        }
        let at = self.below(text.len());
        let next = (at + 1) % text.len();
        let usual = b" \n\t\r\"\\{}()&|0123456789:-_tfvHIFSABx";
        let byte = if self.chance(70) {
            usual[self.below(usual.len())]
        } else {
            self.below(256) as u8
        };
        match self.below(6) {
            0 => text[at] = byte,
            1 => text.insert(at, byte),
            2 => drop(text.remove(at)),
            3 => text.truncate(at),
            4 => text.swap(at, next),
            // white space taken out
            _ => {
                let white = (at..text.len()).find(|&i| text[i].is_ascii_whitespace());
                if let Some(i) = white {
                    text.remove(i);
                }
            }
        }
    }
}

/// Numbers at some limit.
const LARGE: [&str; 9] = [
    "3",
    "10",
    "16",
    "32",
    "33",
    "2147483647",
    "2147483648",
    "4294967296",
    "18446744073709551616",
];

/// What the format has and the subset has not.
const OUTSIDE: [&str; 9] = [
    "name:",
    "acc-name:",
    "properties:",
    "!",
    "[t]",
    "/* one */",
    "--ABORT--",
    "\"a\"",
    "@b",
];

#[derive(Default)]
struct Tokens(Vec<Vec<u8>>);

impl Tokens {
    fn words<'a>(&mut self, words: impl IntoIterator<Item = &'a str>) {
        self.0.extend(words.into_iter().map(Vec::from));
    }

    fn number(&mut self, n: usize) {
        self.0.push(n.to_string().into());
    }
}

/// Whether two tokens would be read as others if they touched.
fn merge(before: &[u8], token: &[u8]) -> bool {
    let (Some(last), Some(&first)) = (before.last(), token.first()) else {
        return false;
    };
    if last.is_ascii_digit() && before[0].is_ascii_digit() {
        return first.is_ascii_digit();
    }
    let name = last.is_ascii_alphanumeric() && before[0] != b'"';
    name && (first.is_ascii_alphanumeric() || first == b'_' || first == b'-')
}
