//! A reader of the Hanoi format, version 1, as far as document 02's S-4 has it: tokens by longest match, as the format defines them, and a parser by recursive descent
//! that builds the document. How far a text goes is found by trying: a beginning is shared by some text of the subset if it can be completed to one. The recursion
//! follows the nesting of the formula.

use crate::policy::Policy;
use crate::Refusal;
use std::ops::Range;

/// An acceptance formula. Parentheses are gone, and what stands between several & or | in a row is one list.
#[derive(Clone, Debug, PartialEq, Eq)]
pub enum Formula {
    Truth(bool),
    Inf(usize),
    Fin(usize),
    All(Vec<Formula>),
    Any(Vec<Formula>),
}

impl Formula {
    /// Whether it holds where these marks recur and no others.
    pub fn holds(&self, marks: u32) -> bool {
        match self {
            Formula::Truth(b) => *b,
            Formula::Inf(m) => marks >> m & 1 == 1,
            Formula::Fin(m) => marks >> m & 1 == 0,
            Formula::All(parts) => parts.iter().all(|f| f.holds(marks)),
            Formula::Any(parts) => parts.iter().any(|f| f.holds(marks)),
        }
    }
}

/// What a text says.
#[derive(Clone, Debug, PartialEq, Eq)]
pub struct Document {
    pub states: usize,
    pub start: usize,
    pub names: Vec<Vec<u8>>,
    pub sets: usize,
    pub formula: Formula,
    /// Target and mark set of each edge, for each valuation at each state.
    pub edges: Vec<(usize, u32)>,
}

impl Document {
    pub fn letters(&self) -> usize {
        1 << self.names.len()
    }

    /// Its policy: a colour for each different mark set, by first appearance, the empty one too. No edge is quiet, and set 0 is not in the family. Refused with 4 or 19.
    pub fn policy(&self) -> Result<Policy, Refusal> {
        if self.states > 16 || self.states * self.letters() > 64 {
            return Err(4);
        }
        let mut sets = Vec::new();
        let mut edges = Vec::new();
        for &(target, marks) in &self.edges {
            let known = sets.iter().position(|&set| set == marks);
            let colour = known.unwrap_or(sets.len());
            if known.is_none() {
                sets.push(marks);
            }
            edges.push((target, Some(colour)));
        }
        if sets.len() > 8 {
            return Err(19);
        }
        let union = |colours: usize| {
            let members = sets.iter().enumerate().filter(|x| colours >> x.0 & 1 == 1);
            members.fold(0, |union, x| union | x.1)
        };
        let family = (0..1 << sets.len()).map(|c| c != 0 && self.formula.holds(union(c)));
        Ok(Policy {
            states: self.states,
            letters: self.letters(),
            colours: sets.len(),
            initial: self.start,
            edges,
            family: family.collect(),
        })
    }

    /// The text's own run from a state, over a stem and then a loop: the marks that recur, and whether the formula holds of them.
    pub fn judge(&self, state: usize, stem: &[u8], period: &[u8]) -> (u32, bool) {
        let edge = |v: usize, letter: u8| self.edges[v * self.letters() + usize::from(letter)];
        let mut v = stem.iter().fold(state, |v, &letter| edge(v, letter).0);
        // the state that each round began in, and the marks that it met
        let mut rounds: Vec<(usize, u32)> = Vec::new();
        loop {
            if let Some(first) = rounds.iter().position(|round| round.0 == v) {
                let marks = rounds[first..].iter().fold(0, |all, round| all | round.1);
                return (marks, self.formula.holds(marks));
            }
            let (began, mut met) = (v, 0);
            for &letter in period {
                let (target, marks) = edge(v, letter);
                met |= marks;
                v = target;
            }
            rounds.push((began, met));
        }
    }
}

/// The policy of a text, or the number and, beside 18, how many bytes some text of the subset begins with too.
pub fn read(text: &[u8]) -> Result<Policy, (Refusal, usize)> {
    match parse(text) {
        Some(document) => document.policy().map_err(|number| (number, 0)),
        None => Err((18, longest(text))),
    }
}

/// The document that a text says, if it is in the subset.
pub fn parse(text: &[u8]) -> Option<Document> {
    Parser::new(text, None)?.document()
}

/// The length of the longest beginning that some text of the subset shares. Every beginning of a shared one is shared, so that half of them need not be tried.
pub fn longest(text: &[u8]) -> usize {
    let (mut shared, mut not) = (0, text.len() + 1);
    while shared + 1 < not {
        let n = (shared + not) / 2;
        if begins(&text[..n]) {
            shared = n;
        } else {
            not = n;
        }
    }
    shared
}

/// Whether some text of the subset begins so: with some ending of the last token, and with the tokens that are then missing, it is one.
pub fn begins(start: &[u8]) -> bool {
    endings(start).iter().any(|ending| {
        let text = [start, ending].concat();
        match completion(&text) {
            Some(Rest::Written(rest)) => parse(&[text, rest].concat()).is_some(),
            Some(Rest::Long) => true,
            None => false,
        }
    })
}

// ---- completing a beginning

/// The words of the subset.
pub const WORDS: [&str; 19] = [
    "HOA:",
    "v1",
    "States:",
    "Start:",
    "AP:",
    "Acceptance:",
    "t",
    "f",
    "Inf",
    "Fin",
    "(",
    ")",
    "&",
    "|",
    "--BODY--",
    "State:",
    "{",
    "}",
    "--END--",
];

/// How the last token may end, if the text breaks off inside it: the rest of a word; the rest of the number of the state that is begun, which is how many states were
/// written before; for a name three ends, of which one makes it different from the two that may stand before it. Any other number that may go on may also end where
/// it is. What does not fit does no harm: the whole is parsed.
fn endings(start: &[u8]) -> Vec<Vec<u8>> {
    let mut all = vec![Vec::new()];
    let mut rests_of = |word: &[u8]| {
        for n in 1..word.len() {
            if start.ends_with(&word[..n]) {
                all.push(word[n..].to_vec());
            }
        }
    };
    for word in WORDS {
        rests_of(word.as_bytes());
    }
    // no name stands behind --BODY--
    let body = b"--BODY--";
    let body = start.windows(body.len()).rposition(|w| w == body);
    let states = start[body.unwrap_or(start.len())..].windows(6);
    if let Some(number) = states.filter(|w| w == b"State:").count().checked_sub(1) {
        rests_of(number.to_string().as_bytes());
    }
    all.extend([&b"a\""[..], b"aa\"", b"aaa\""].map(<[u8]>::to_vec));
    all
}

/// What makes a beginning a text of the subset.
enum Rest {
    Written(Vec<u8>),
    /// Many states: they are not written out. Each may have edges to state 0 alone.
    Long,
}

/// More missing states than these are not written out.
const MANY: usize = 100;

/// The tokens that are missing at the end of a beginning that ends with a token, or None if there are none such.
fn completion(start: &[u8]) -> Option<Rest> {
    let mut parser = Parser::new(start, Some(Vec::new()))?;
    parser.document()?;
    Some(if parser.long {
        Rest::Long
    } else {
        Rest::Written(parser.made?)
    })
}

// ---- tokens

#[derive(Clone, Copy)]
enum Token<'a> {
    /// A name with a colon behind it or not, `--BODY--`, `--END--`, or one of `( ) & | { }`.
    Word(&'a [u8]),
    Number(usize),
    /// What stands between double quotes.
    Name(&'a [u8]),
}

fn is_white(b: u8) -> bool {
    matches!(b, b' ' | b'\t' | b'\n' | b'\r')
}

/// Whether a byte may stand in a name of the format, behind the first.
fn goes_on(b: u8) -> bool {
    b.is_ascii_alphanumeric() || b == b'_' || b == b'-'
}

/// How many bytes in front are of a kind.
fn front(text: &[u8], kind: impl Fn(u8) -> bool) -> usize {
    text.iter().position(|&b| !kind(b)).unwrap_or(text.len())
}

/// The longest token in front of a text, and how long it is.
fn token(text: &[u8]) -> Option<(Token<'_>, usize)> {
    match *text.first()? {
        b'(' | b')' | b'&' | b'|' | b'{' | b'}' => Some((Token::Word(&text[..1]), 1)),
        b'0' => Some((Token::Number(0), 1)),
        b'1'..=b'9' => {
            let n = front(text, |b| b.is_ascii_digit());
            // ten digits are enough for every number below 2^31
            let value =
                |digits: &[u8]| digits.iter().fold(0, |v, d| 10 * v + usize::from(d - b'0'));
            (n <= 10).then(|| (Token::Number(value(&text[..n])), n))
        }
        b'"' => {
            let n = quoted(&text[1..])?;
            Some((Token::Name(&text[1..=n]), n + 2))
        }
        b'-' => {
            let marker = [&b"--BODY--"[..], b"--END--"]
                .into_iter()
                .find(|m| text.starts_with(m))?;
            Some((Token::Word(marker), marker.len()))
        }
        b if b.is_ascii_alphabetic() || b == b'_' => {
            let mut n = front(text, goes_on);
            n += usize::from(text.get(n) == Some(&b':'));
            Some((Token::Word(&text[..n]), n))
        }
        _ => None,
    }
}

/// How many bytes stand before the closing quote. A backslash takes the byte behind it with it, which is no line feed.
fn quoted(text: &[u8]) -> Option<usize> {
    let mut n = 0;
    loop {
        match (text.get(n)?, text.get(n + 1)) {
            (b'"', _) => return Some(n),
            (b'\\', Some(b'\n')) => return None,
            (b'\\', _) => n += 2,
            _ => n += 1,
        }
    }
}

// ---- the parser

/// Takes tokens from a text. Where the text has ended it makes up those that are missing, if it may. None: this is no text of the subset.
struct Parser<'a> {
    /// The next token; none at the end of the text.
    next: Option<Token<'a>>,
    /// What is behind it.
    rest: &'a [u8],
    /// The tokens that were made up, a space before each, if there may be any.
    made: Option<Vec<u8>>,
    /// Many states were left out.
    long: bool,
}

impl<'a> Parser<'a> {
    fn new(text: &'a [u8], made: Option<Vec<u8>>) -> Option<Self> {
        let mut parser = Parser {
            next: None,
            rest: text,
            made,
            long: false,
        };
        parser.advance()?;
        Some(parser)
    }

    fn advance(&mut self) -> Option<()> {
        let white = front(self.rest, is_white);
        let text = &self.rest[white..];
        let Some(first) = text.first() else {
            (self.next, self.rest) = (None, text);
            return Some(());
        };
        // no two numbers touch
        if white == 0 && first.is_ascii_digit() && matches!(self.next, Some(Token::Number(_))) {
            return None;
        }
        let (token, n) = token(text)?;
        (self.next, self.rest) = (Some(token), &text[n..]);
        Some(())
    }

    fn make(&mut self, token: &[u8]) -> Option<()> {
        let made = self.made.as_mut()?;
        made.push(b' ');
        made.extend(token);
        Some(())
    }

    fn at(&self, word: &[u8]) -> bool {
        matches!(self.next, Some(Token::Word(w)) if w == word)
    }

    fn word(&mut self, word: &str) -> Option<()> {
        if self.next.is_none() {
            return self.make(word.as_bytes());
        }
        if !self.at(word.as_bytes()) {
            return None;
        }
        self.advance()
    }

    fn number(&mut self, within: Range<usize>) -> Option<usize> {
        let n = match self.next {
            None => within.start,
            Some(Token::Number(n)) => n,
            Some(_) => return None,
        };
        if !within.contains(&n) {
            return None;
        }
        match self.next {
            None => self.make(n.to_string().as_bytes())?,
            Some(_) => self.advance()?,
        }
        Some(n)
    }

    /// A name that is none of those before it.
    fn name(&mut self, before: &[Vec<u8>]) -> Option<Vec<u8>> {
        let is_new = |name: &[u8]| before.iter().all(|b| b != name);
        match self.next {
            None => {
                let name = (1..).map(|n| vec![b'a'; n]).find(|name| is_new(name))?;
                self.make(&[b"\"", &name[..], b"\""].concat())?;
                Some(name)
            }
            Some(Token::Name(name)) if is_new(name) => {
                self.advance()?;
                Some(name.to_vec())
            }
            Some(_) => None,
        }
    }

    fn document(&mut self) -> Option<Document> {
        self.word("HOA:")?;
        self.word("v1")?;
        self.word("States:")?;
        let states = self.number(1..1 << 31)?;
        self.word("Start:")?;
        let start = self.number(0..states)?;
        self.word("AP:")?;
        let mut names = Vec::new();
        for _ in 0..self.number(0..4)? {
            names.push(self.name(&names)?);
        }
        self.word("Acceptance:")?;
        let sets = self.number(0..33)?;
        let formula = self.disjunction(sets)?;
        self.word("--BODY--")?;
        let mut edges = Vec::new();
        for v in 0..states {
            if self.next.is_none() && states - v > MANY {
                self.long = true;
                break;
            }
            self.word("State:")?;
            self.number(v..v + 1)?;
            for _ in 0..1 << names.len() {
                edges.push(self.edge(states, sets)?);
            }
        }
        self.word("--END--")?;
        self.next.is_none().then_some(Document {
            states,
            start,
            names,
            sets,
            formula,
            edges,
        })
    }

    fn disjunction(&mut self, sets: usize) -> Option<Formula> {
        let first = self.conjunction(sets)?;
        if !self.at(b"|") {
            return Some(first);
        }
        let mut parts = vec![first];
        while self.at(b"|") {
            self.advance()?;
            parts.push(self.conjunction(sets)?);
        }
        Some(Formula::Any(parts))
    }

    fn conjunction(&mut self, sets: usize) -> Option<Formula> {
        let first = self.operand(sets)?;
        if !self.at(b"&") {
            return Some(first);
        }
        let mut parts = vec![first];
        while self.at(b"&") {
            self.advance()?;
            parts.push(self.operand(sets)?);
        }
        Some(Formula::All(parts))
    }

    fn operand(&mut self, sets: usize) -> Option<Formula> {
        let word = match self.next {
            None => {
                self.make(b"t")?;
                return Some(Formula::Truth(true));
            }
            Some(Token::Word(word)) => word,
            Some(_) => return None,
        };
        self.advance()?;
        match word {
            b"t" => Some(Formula::Truth(true)),
            b"f" => Some(Formula::Truth(false)),
            b"(" => {
                let inner = self.disjunction(sets)?;
                self.word(")")?;
                Some(inner)
            }
            b"Inf" | b"Fin" => {
                self.word("(")?;
                let mark = self.number(0..sets)?;
                self.word(")")?;
                Some(if word == b"Inf" {
                    Formula::Inf(mark)
                } else {
                    Formula::Fin(mark)
                })
            }
            _ => None,
        }
    }

    fn edge(&mut self, states: usize, sets: usize) -> Option<(usize, u32)> {
        let target = self.number(0..states)?;
        let mut marks = 0;
        if self.at(b"{") {
            self.advance()?;
            while matches!(self.next, Some(Token::Number(_))) {
                marks |= 1 << self.number(0..sets)?;
            }
            self.word("}")?;
        }
        Some((target, marks))
    }
}
