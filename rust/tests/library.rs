//! The known policies, texts, quiet edges, the edges of the limits, what the tables hold after each refusal, solutions, runs, judgings and comparings, through the safe
//! layer.

use wulfrenda::{
    colour_set_at, compare, judge_policy, judge_rows, solve, solve_bytes, translate,
    translate_bytes, version, Counts, HanoiError, Policy, ReadError, Refusal, Rows, Run, Solution,
    Tables, Verdict, NONE, NO_LETTER, PLANT, RECORD_LEN, STACK_BYTES, SUPERVISOR, VERSION,
};

const B: [u8; 30] = [
    1, 2, 2, 2, 0, 2, 0, 0, 0, 0, 2, 0, 1, 1, 1, 2, 1, 0, 0, 0, 2, 1, 1, 1, 1, 3, 1, 3, 2, 0,
];

/// Policy A: one state; letters 0, 1, 2 with colours 0, 1, 2; family masks 3, 5, 2.
const A: [u8; 27] = [
    1, 1, 3, 3, 0, 2, 0, 0, 0, 0, 2, 0, 1, 0, 1, 2, 0, 2, 0, 2, 3, 3, 3, 5, 3, 2, 0,
];

/// Policy C: two states, one letter, one colour, both targets 1, family mask 1.
const C: [u8; 18] = [1, 2, 1, 1, 0, 2, 0, 0, 1, 0, 2, 1, 0, 1, 0, 3, 1, 0];

/// One state; letter 0 is quiet, letter 1 has colour 0; the family is the empty set alone.
const SILENT: [u8; 17] = [1, 1, 2, 1, 0, 4, 0, 0, 0, 2, 0, 1, 0, 0, 3, 0, 0];

fn policy(bytes: &[u8]) -> Policy {
    Policy::read(bytes).unwrap().0
}

/// Tables of the caller's, each place full of nines at first.
#[derive(Clone, Debug, PartialEq, Eq)]
struct Lent {
    node_masks: Vec<u64>,
    node_parents: Vec<u16>,
    node_priorities: Vec<u8>,
    state_sources: Vec<u8>,
    state_leaves: Vec<u16>,
    row_targets: Vec<u16>,
    row_priorities: Vec<u8>,
}

impl Lent {
    fn filled(nodes: usize, states: usize, rows: usize, value: u8) -> Lent {
        Lent {
            node_masks: vec![value.into(); nodes],
            node_parents: vec![value.into(); nodes],
            node_priorities: vec![value; nodes],
            state_sources: vec![value; states],
            state_leaves: vec![value.into(); states],
            row_targets: vec![value.into(); rows],
            row_priorities: vec![value; rows],
        }
    }

    fn new(nodes: usize, states: usize, rows: usize) -> Lent {
        Lent::filled(nodes, states, rows, 9)
    }

    fn lend(&mut self) -> Tables<'_> {
        Tables {
            node_masks: &mut self.node_masks,
            node_parents: &mut self.node_parents,
            node_priorities: &mut self.node_priorities,
            state_sources: &mut self.state_sources,
            state_leaves: &mut self.state_leaves,
            row_targets: &mut self.row_targets,
            row_priorities: &mut self.row_priorities,
        }
    }

    fn translate(&mut self, policy: &Policy) -> Result<Counts, Refusal> {
        translate(policy, self.lend())
    }

    fn rows(&self, letters: u8, states: u16) -> Rows<'_> {
        let rows = usize::from(letters) * usize::from(states);
        Rows {
            letters,
            targets: &self.row_targets[..rows],
            priorities: &self.row_priorities[..rows],
        }
    }
}

/// The seven tables and the two of a solution, each place full of nines at first.
#[derive(Clone, Debug, PartialEq, Eq)]
struct Game {
    tables: Lent,
    winners: Vec<u8>,
    letters: Vec<u8>,
}

impl Game {
    fn filled(nodes: usize, states: usize, rows: usize, value: u8) -> Game {
        Game {
            tables: Lent::filled(nodes, states, rows, value),
            winners: vec![value; states],
            letters: vec![value; states],
        }
    }

    fn new(nodes: usize, states: usize, rows: usize) -> Game {
        Game::filled(nodes, states, rows, 9)
    }

    fn lend(&mut self) -> (Tables<'_>, Solution<'_>) {
        let solution = Solution {
            state_winners: &mut self.winners,
            state_letters: &mut self.letters,
        };
        (self.tables.lend(), solution)
    }

    fn solve(&mut self, policy: &Policy, owners: &[u8]) -> Result<Counts, Refusal> {
        let (tables, solution) = self.lend();
        solve(policy, owners, tables, solution)
    }

    fn solve_bytes<'a>(
        &mut self,
        bytes: &'a [u8],
        owners: &[u8],
    ) -> Result<(Counts, &'a [u8]), ReadError> {
        let (tables, solution) = self.lend();
        solve_bytes(bytes, owners, tables, solution)
    }
}

fn counts(nodes: u16, states: u16, start: u16) -> Result<Counts, Refusal> {
    Ok(Counts {
        nodes,
        states,
        start,
    })
}

// ---- version

/// What the header defines a name as.
fn in_header(name: &str) -> usize {
    let header = include_str!("../../include/wulfrenda.h");
    let defines = header.lines().filter_map(|l| l.strip_prefix("#define "));
    let mut words = defines.map(|l| l.split_whitespace());
    let value = words.find_map(|mut w| (w.next() == Some(name)).then(|| w.next()));
    value.flatten().unwrap().parse().unwrap()
}

#[test]
fn header_layer_and_archive_are_of_one_version() {
    assert_eq!(version(), VERSION);
    assert_eq!(in_header("WULFRENDA_VERSION"), VERSION as usize);
    let package = env!("CARGO_PKG_VERSION").split('.');
    let number = package.fold(0, |n, part| 1000 * n + part.parse::<u32>().unwrap());
    assert_eq!(number, VERSION);
    assert_eq!(in_header("WULFRENDA_RECORD_BYTES"), RECORD_LEN);
    assert_eq!(in_header("WULFRENDA_RECORD_QUIET") + 64, RECORD_LEN);
    assert_eq!(in_header("WULFRENDA_NONE"), usize::from(NONE));
    assert_eq!(in_header("WULFRENDA_STACK_BYTES"), STACK_BYTES);
    for (name, value) in [
        ("WULFRENDA_SUPERVISOR", SUPERVISOR),
        ("WULFRENDA_PLANT", PLANT),
        ("WULFRENDA_NO_LETTER", NO_LETTER),
        ("WULFRENDA_OWNERS_LENGTH", Refusal::OwnersLength.number()),
        ("WULFRENDA_NO_SUCH_OWNER", Refusal::NoSuchOwner.number()),
        ("WULFRENDA_NOT_HANOI", Refusal::NotHanoi.number()),
        (
            "WULFRENDA_TOO_MANY_MARK_SETS",
            Refusal::TooManyMarkSets.number(),
        ),
    ] {
        assert_eq!(in_header(name), usize::from(value), "{name}");
    }
}

// ---- reading

#[test]
fn reading_gives_the_policy_and_the_rest() {
    let mut bytes = B.to_vec();
    bytes.extend([7, 8]);
    let (b, rest) = Policy::read(&bytes).unwrap();
    assert_eq!(rest, [7, 8]);
    assert_eq!(rest.as_ptr(), bytes[B.len()..].as_ptr());
    assert_eq!(
        (b.states(), b.letters(), b.colours(), b.initial()),
        (2, 2, 2, 0)
    );
    let edges: Vec<_> = (0..64).map(|e| (b.target(e), b.colour(e))).collect();
    assert_eq!(edges[..4], [(0, 0), (1, 1), (0, 0), (1, 1)]);
    assert!(edges[4..].iter().all(|&edge| edge == (0, 0)));
    let family: Vec<u8> = (0..=255).filter(|&set| b.accepts(set)).collect();
    assert_eq!(family, [1, 2]);
    assert_eq!(Policy::read(&B).unwrap().1, []);
}

#[test]
fn reading_refuses_in_order() {
    let refused = |bytes: &[u8], refusal, offset| {
        assert_eq!(Policy::read(bytes), Err(ReadError { refusal, offset }))
    };
    refused(&[], Refusal::Truncated, 0);
    refused(&B[..29], Refusal::Truncated, 29);
    refused(&B[..7], Refusal::Truncated, 5);
    refused(&[5], Refusal::UnknownCommand, 0);
    refused(&[0], Refusal::Misplaced, 0);
    refused(&[1, 2, 2, 2, 0, 1, 2, 2, 2, 0], Refusal::Misplaced, 5);
    refused(&[1, 9, 8, 1, 0], Refusal::OutOfRange, 0);
    refused(&[1, 8, 8, 1, 0, 0], Refusal::Incomplete, 5);
    refused(&[1, 1, 1, 3, 0, 3, 7, 3, 8], Refusal::OutOfRange, 7);
    refused(&[1, 1, 1, 3, 0, 3, 7, 3, 7], Refusal::Repeated, 7);
    refused(&[1, 1, 1, 3, 0, 3, 0, 3, 0], Refusal::Repeated, 7);
    refused(
        &[1, 1, 1, 1, 0, 2, 0, 0, 0, 0, 2, 0, 0, 0, 0],
        Refusal::Repeated,
        10,
    );
    refused(&[1, 1, 1, 1, 0, 0], Refusal::Incomplete, 5);
    let error = Policy::read(&[]).unwrap_err();
    assert_eq!(error.number(), 1);
    assert_eq!(
        error.to_string(),
        "refused 1 0: the command bytes end inside the policy"
    );
}

#[test]
fn a_record_gives_its_policy_back() {
    let b = policy(&B);
    assert_eq!(Policy::from_record(*b.record()), b);
    let mut record = *b.record();
    record[132 + 1] = 200;
    assert_eq!(Policy::from_record(record), b);
    record[132 + 3] = 1;
    assert_ne!(Policy::from_record(record), b);
    assert!(format!("{b:?}").contains("family: {1, 2}"));
}

#[test]
#[should_panic]
fn there_are_64_edges() {
    policy(&B).target(64);
}

// ---- reading texts

#[test]
fn a_text_gives_its_policy() {
    let text = include_bytes!("../../examples/b.hoa");
    assert_eq!(Policy::read_hanoi(text), Ok(policy(&B)));
    let p = Policy::read_hanoi(include_bytes!("../../examples/pump.hoa")).unwrap();
    assert_eq!(
        (p.states(), p.letters(), p.colours(), p.initial()),
        (3, 2, 4, 1)
    );
    let edges: Vec<_> = (0..6).map(|e| (p.target(e), p.colour(e))).collect();
    // {} and no braces are one colour
    assert_eq!(edges, [(1, 0), (0, 1), (0, 1), (2, 2), (2, 2), (1, 3)]);
    // mark 0, and mark 2 if there is mark 1
    let family: Vec<u8> = (0..=255).filter(|&set| p.accepts(set)).collect();
    assert_eq!(family, [1, 3, 9, 11, 13, 15]);
}

#[test]
fn reading_texts_refuses_in_order() {
    let refused = |text: &str, refusal, shared| {
        let answer = Policy::read_hanoi(text.as_bytes());
        assert_eq!(answer, Err(HanoiError { refusal, shared }), "{text}");
    };
    // so many states, each with a mark of its own, and so many names
    let text = |states: usize, names: usize, end: &str| {
        let named: String = (0..names).map(|name| format!(" \"{name}\"")).collect();
        let mut text = format!("HOA: v1 States: {states} Start: 0 AP: {names}{named}");
        text += " Acceptance: 32 t --BODY--";
        for v in 0..states {
            let edges = format!(" 0 {{{v}}}").repeat(1 << names);
            text += &format!(" State: {v}{edges}");
        }
        text + end
    };
    let end = " --END--";
    for (states, names) in [(8, 0), (8, 3)] {
        let policy = Policy::read_hanoi(text(states, names, end).as_bytes()).unwrap();
        assert_eq!((policy.states(), policy.letters()), (8, 1 << names));
    }
    refused(&text(9, 0, end), Refusal::TooManyMarkSets, 0);
    refused(&text(16, 2, end), Refusal::TooManyMarkSets, 0);
    // 4 is asked before 19, and 18 before both
    refused(&text(17, 0, end), Refusal::OutOfRange, 0);
    refused(&text(9, 3, end), Refusal::OutOfRange, 0);
    let part = text(17, 0, " --E");
    refused(&part, Refusal::NotHanoi, part.len());
    refused(&text(17, 0, " --Ed"), Refusal::NotHanoi, part.len());
    refused("", Refusal::NotHanoi, 0);
    refused("HOA: v1 States: 2147483648", Refusal::NotHanoi, 25);
    refused("HOA: v1 States: 2 Start: 2", Refusal::NotHanoi, 25);
    let error = Policy::read_hanoi(b"HOA: v2").unwrap_err();
    assert_eq!((error.number(), error.shared), (18, 6));
    assert_eq!(
        error.to_string(),
        "refused 18 6: the text is not in the subset of the Hanoi format"
    );
    let error = Policy::read_hanoi(text(9, 0, end).as_bytes()).unwrap_err();
    assert_eq!(
        error.to_string(),
        "refused 19: there are more than 8 different mark sets"
    );
}

#[test]
fn a_formula_nests_as_deep_as_it_likes() {
    let text = |depth: usize| {
        let (open, close) = ("(".repeat(depth), ")".repeat(depth));
        format!("HOA: v1 States: 1 Start: 0 AP: 0 Acceptance: 1 {open}Inf(0) & f | t{close} --BODY-- State: 0 0 --END--")
    };
    let deep = text(1_000_000);
    assert_eq!(
        Policy::read_hanoi(deep.as_bytes()),
        Policy::read_hanoi(text(0).as_bytes())
    );
    let part = &deep.as_bytes()[..1_500_000];
    let error = Policy::read_hanoi(part).unwrap_err();
    assert_eq!((error.number(), error.shared), (18, part.len()));
}

// ---- translating

#[test]
fn policy_a() {
    let mut t = Lent::new(6, 3, 9);
    assert_eq!(t.translate(&policy(&A)), counts(6, 3, 0));
    assert_eq!(t.node_masks, [7, 3, 1, 5, 1, 4]);
    assert_eq!(t.node_parents, [NONE, 0, 1, 0, 3, 3]);
    assert_eq!(t.node_priorities, [1, 2, 3, 2, 3, 3]);
    assert_eq!(t.state_sources, [0, 0, 0]);
    assert_eq!(t.state_leaves, [2, 4, 5]);
    assert_eq!(t.row_targets, [0, 0, 1, 1, 0, 2, 1, 0, 2]);
    assert_eq!(t.row_priorities, [3, 2, 1, 3, 1, 2, 2, 1, 3]);
    for (period, least) in [
        (&[0u8, 1][..], 2),
        (&[1, 2], 1),
        (&[1], 2),
        (&[2], 3),
        (&[0, 2], 2),
    ] {
        assert_eq!(judge_rows(&t.rows(3, 3), 0, &[], period), Ok(least));
    }
}

#[test]
fn policy_b_and_zeros_past_it() {
    let mut t = Lent::new(5, 4, 8);
    assert_eq!(t.translate(&policy(&B)), counts(3, 2, 0));
    assert_eq!(t.node_masks, [15, 1, 8, 0, 0]);
    assert_eq!(t.node_parents, [NONE, 0, 0, 0, 0]);
    assert_eq!(t.node_priorities, [1, 2, 2, 0, 0]);
    assert_eq!(t.state_sources, [0, 1, 0, 0]);
    assert_eq!(t.state_leaves, [1, 2, 0, 0]);
    assert_eq!(t.row_targets, [0, 1, 0, 1, 0, 0, 0, 0]);
    assert_eq!(t.row_priorities, [2, 1, 1, 2, 0, 0, 0, 0]);
}

#[test]
fn policy_c() {
    let mut t = Lent::new(1, 2, 2);
    assert_eq!(t.translate(&policy(&C)), counts(1, 2, 0));
    assert_eq!(
        (t.node_masks[0], t.node_parents[0], t.node_priorities[0]),
        (2, NONE, 0)
    );
    assert_eq!(t.state_sources, [0, 1]);
    assert_eq!(t.state_leaves, [NONE, 0]);
    assert_eq!(t.row_targets, [1, 1]);
    assert_eq!(t.row_priorities, [0, 0]);
}

#[test]
fn tables_that_are_too_short_are_cleared() {
    for (nodes, states, refusal) in [
        (2, 2, Refusal::TooManyNodes),
        (0, 0, Refusal::TooManyNodes),
        (3, 1, Refusal::TooManyStates),
        (3, 0, Refusal::TooManyStates),
    ] {
        let mut t = Lent::new(nodes, states, 2 * states);
        assert_eq!(t.translate(&policy(&B)), Err(refusal));
        assert_eq!(t, Lent::filled(nodes, states, 2 * states, 0));
    }
}

#[test]
fn tables_of_other_lengths_are_unchanged() {
    let b = policy(&B);
    let full = Lent::new(3, 2, 4);
    let changes: [fn(&mut Lent); 8] = [
        |t| t.node_masks.truncate(1),
        |t| t.node_parents.truncate(1),
        |t| t.node_priorities.truncate(1),
        |t| t.state_sources.truncate(1),
        |t| t.state_leaves.truncate(1),
        |t| t.row_targets.truncate(1),
        |t| t.row_priorities.truncate(1),
        |t| t.row_targets.push(9),
    ];
    for change in changes {
        let mut t = full.clone();
        change(&mut t);
        let before = t.clone();
        assert_eq!(t.translate(&b), Err(Refusal::Lengths));
        assert_eq!(t, before);
    }
}

#[test]
fn from_command_bytes_to_tables() {
    let mut bytes = B.to_vec();
    bytes.extend([7, 8]);
    let (mut one, mut two) = (Lent::new(5, 5, 10), Lent::new(5, 5, 10));
    let (found, rest) = translate_bytes(&bytes, one.lend()).unwrap();
    assert_eq!(rest, [7, 8]);
    assert_eq!(Ok(found), two.translate(&policy(&B)));
    assert_eq!(one, two);

    let refused = |mut tables: Lent, bytes: &[u8], refusal, offset, after| {
        let answer = translate_bytes(bytes, tables.lend());
        assert_eq!(answer, Err(ReadError { refusal, offset }));
        assert_eq!(tables, after);
    };
    let (unread, whole) = (Lent::new(5, 5, 10), Lent::new(5, 5, 9));
    refused(
        unread.clone(),
        &B[..29],
        Refusal::Truncated,
        29,
        unread.clone(),
    );
    refused(unread.clone(), &[5], Refusal::UnknownCommand, 0, unread);
    refused(whole.clone(), &bytes, Refusal::Lengths, 0, whole);
    let cleared = |nodes, states| Lent::filled(nodes, states, 2 * states, 0);
    let full = |nodes, states| Lent::new(nodes, states, 2 * states);
    refused(full(2, 5), &bytes, Refusal::TooManyNodes, 0, cleared(2, 5));
    refused(full(3, 1), &bytes, Refusal::TooManyStates, 0, cleared(3, 1));
}

#[test]
fn an_illegal_policy_leaves_the_tables_unchanged() {
    let b = *policy(&B).record();
    // states 0 and 17, letters 0 and 9, colours 0 and 9, initial state 2, a target 2, a colour 2, an entry past the last edge, set 4; a quiet edge that has colour 1,
    // and one past the last edge
    for (at, value) in [
        (0, 0),
        (0, 17),
        (1, 0),
        (1, 9),
        (2, 0),
        (2, 9),
        (3, 2),
        (4, 2),
        (68, 2),
        (67, 1),
        (131, 1),
        (136, 1),
        (389, 1),
        (391, 200),
        (392, 1),
        (451, 1),
    ] {
        let mut record = b;
        record[at] = value;
        let p = Policy::from_record(record);
        let mut t = Lent::new(3, 2, 4);
        assert_eq!(t.translate(&p), Err(Refusal::IllegalPolicy), "place {at}");
        assert_eq!(t, Lent::new(3, 2, 4));
        assert_eq!(judge_policy(&p, 0, &[], &[0]), Err(Refusal::IllegalPolicy));
        assert_eq!(compare(&policy(&B), &p), Err(Refusal::IllegalPolicy));
    }
    assert_eq!(
        Lent::new(3, 2, 4).translate(&Policy::from_record([0; RECORD_LEN])),
        Err(Refusal::IllegalPolicy)
    );
}

/// 8 states, 8 letters and 8 colours; letter a leads to state a and has colour a. Of the sets with a larger number of members than `above`, every second size is accepted.
fn largest(above: u32) -> Policy {
    let mut bytes = vec![1, 8, 8, 8, 7];
    for e in 0..64u8 {
        bytes.extend([2, e / 8, e % 8, e % 8, e % 8]);
    }
    for set in 1..=255u8 {
        if set.count_ones() > above && set.count_ones() % 2 == 0 {
            bytes.extend([3, set]);
        }
    }
    bytes.push(0);
    policy(&bytes)
}

#[test]
fn the_largest_shape_is_read_and_translated() {
    let mut t = Lent::new(9, 64, 512);
    let built = t.translate(&largest(7)).unwrap();
    assert_eq!((built.nodes, built.states), (9, 56));
    assert_eq!(t.node_masks[0], u64::MAX);
    assert_eq!(t.state_sources[usize::from(built.start)], 7);
}

#[test]
fn the_stack_that_is_named_is_enough() {
    // the thread itself needs a few KiB more
    let thread = std::thread::Builder::new().stack_size(STACK_BYTES + 16 * 1024);
    let deep = || Lent::new(65_535, 65_535, 8 * 65_535).translate(&largest(3));
    let built = thread.spawn(deep).unwrap().join().unwrap().unwrap();
    assert_eq!(built.nodes, 1 + 8 * (1 + 7 * (1 + 6 * (1 + 5 * (1 + 4)))));
    let thread = std::thread::Builder::new().stack_size(STACK_BYTES + 16 * 1024);
    let owners = [0, 1, 0, 1, 0, 1, 0, 1];
    let deep = move || Game::new(65_535, 65_535, 8 * 65_535).solve(&largest(3), &owners);
    assert_eq!(thread.spawn(deep).unwrap().join().unwrap(), Ok(built));
    // nine levels
    let thread = std::thread::Builder::new().stack_size(STACK_BYTES + 16 * 1024);
    let deep = || Lent::new(9, 16, 64).translate(&ring(16, 4, 1));
    assert_eq!(
        thread.spawn(deep).unwrap().join().unwrap(),
        counts(9, 16, 0)
    );
}

// ---- quiet edges

/// The bytes of hexadecimal text with comments.
fn listed(text: &str) -> Vec<u8> {
    let words = text.lines().flat_map(|line| {
        let (bytes, _) = line.split_once('#').unwrap_or((line, ""));
        bytes.split_whitespace()
    });
    words.map(|w| u8::from_str_radix(w, 16).unwrap()).collect()
}

/// One state with this family; letter 0 is quiet, letter 1 has colour 0.
fn beside_a_heartbeat(family: &[u8]) -> Policy {
    let mut bytes = SILENT[..14].to_vec();
    for &set in family {
        bytes.extend([3, set]);
    }
    bytes.push(0);
    policy(&bytes)
}

#[test]
fn quiet_edges_are_read() {
    let (p, rest) = Policy::read(&SILENT).unwrap();
    assert_eq!(rest, []);
    let mut record = [0; RECORD_LEN];
    record[..4].copy_from_slice(&[1, 2, 1, 0]);
    (record[132], record[388]) = (1, 1);
    assert_eq!(p.record(), &record);
    assert!(p.is_quiet(0) && (1..64).all(|edge| !p.is_quiet(edge)));
    assert_eq!((p.colour(0), p.colour(1)), (0, 0));
    assert!(p.accepts(0) && (1..=255).all(|set| !p.accepts(set)));
    assert!(format!("{p:?}").contains("quiet: {0}, family: {0}"));
    // edges and sets come in any order
    let bytes = [1, 1, 2, 1, 0, 3, 0, 2, 0, 1, 0, 0, 4, 0, 0, 0, 0, 4];
    assert_eq!(Policy::read(&bytes), Ok((p, &[4][..])));
}

#[test]
fn reading_quiet_edges_refuses_in_order() {
    let refused = |bytes: &[u8], refusal, offset| {
        let answer = Policy::read(bytes);
        assert_eq!(answer, Err(ReadError { refusal, offset }), "{bytes:?}");
    };
    let after = |more: &[u8], refusal, offset: usize| {
        // two states, three letters, two colours; edge 1 is quiet, edge 2 has colour 1
        let begun = [1, 2, 3, 2, 0, 4, 0, 1, 1, 2, 0, 2, 1, 1];
        refused(&[&begun, more].concat(), refusal, begun.len() + offset);
    };
    refused(&[4], Refusal::Truncated, 0);
    refused(&[4, 0, 0], Refusal::Truncated, 0);
    refused(&[4, 0, 0, 0], Refusal::Misplaced, 0);
    after(&[4], Refusal::Truncated, 0);
    after(&[4, 0, 1], Refusal::Truncated, 0);
    after(&[5], Refusal::UnknownCommand, 0);
    after(&[255, 0, 0, 0], Refusal::UnknownCommand, 0);
    after(&[4, 1, 2, 1], Refusal::Truncated, 4);
    // state, letter and target are within their counts
    after(&[4, 2, 0, 0], Refusal::OutOfRange, 0);
    after(&[4, 0, 3, 0], Refusal::OutOfRange, 0);
    after(&[4, 0, 0, 2], Refusal::OutOfRange, 0);
    after(&[4, 0, 1, 2], Refusal::OutOfRange, 0);
    after(&[3, 0, 3, 4], Refusal::OutOfRange, 2);
    // twice quiet; with a colour after quiet, and the other way round
    after(&[4, 0, 1, 0], Refusal::Repeated, 0);
    after(&[4, 1, 1, 0, 4, 1, 1, 0], Refusal::Repeated, 4);
    after(&[2, 0, 1, 1, 0], Refusal::Repeated, 0);
    after(&[4, 0, 2, 1], Refusal::Repeated, 0);
    after(&[3, 0, 3, 1, 3, 0], Refusal::Repeated, 4);
    // a colour that is none comes before that
    after(&[2, 0, 1, 1, 2], Refusal::OutOfRange, 0);
    let quiet = [4, 0, 0, 0, 4, 1, 0, 0, 4, 1, 1, 0, 4, 1, 2, 0];
    after(&[&quiet[..12], &[0]].concat(), Refusal::Incomplete, 12);
    after(&quiet, Refusal::Truncated, 16);
}

#[test]
fn records_with_quiet_edges() {
    let p = policy(&SILENT);
    assert_eq!(Policy::from_record(*p.record()), p);
    let mut record = *p.record();
    (record[388], record[132]) = (200, 7);
    assert_eq!(Policy::from_record(record), p);
    record[388] = 0;
    let coloured = Policy::from_record(record);
    assert!(!coloured.is_quiet(0));
    assert_ne!(coloured, p);
    assert_eq!(
        judge_policy(&coloured, 0, &[], &[0]).unwrap().colours,
        1,
        "an edge that is not quiet has colour 0"
    );
    // a record of 388 bytes and 64 bytes of 0
    let mut older = [0; RECORD_LEN];
    older[..388].copy_from_slice(&policy(&B).record()[..388]);
    assert_eq!(Policy::from_record(older), policy(&B));
    // each place but the counts, made 1, 2 or 255: no quiet edge has a colour and none lies past the last edge, and no set lies outside the colour
    for at in 4..RECORD_LEN {
        for value in [1, 2, 255] {
            let mut record = *p.record();
            record[at] = value;
            let damaged = Policy::from_record(record);
            let legal = matches!(at, 132 | 133 | 388 | 389);
            let answer = judge_policy(&damaged, 0, &[], &[0, 1]);
            assert_eq!(answer.is_ok(), legal, "place {at}, {value}");
            if !legal {
                assert_eq!(answer, Err(Refusal::IllegalPolicy));
                let mut g = Game::new(2, 1, 2);
                assert_eq!(g.solve(&damaged, &[0]), Err(Refusal::IllegalPolicy));
                assert_eq!(g, Game::new(2, 1, 2));
                assert_eq!(compare(&damaged, &p), Err(Refusal::IllegalPolicy));
                assert_eq!(compare(&p, &damaged), Err(Refusal::IllegalPolicy));
            }
        }
    }
}

#[test]
#[should_panic]
fn there_are_64_edges_that_may_be_quiet() {
    policy(&SILENT).is_quiet(64);
}

#[test]
fn a_heartbeat_beside_an_event() {
    // the family; the masks of the nodes; the priorities of the nodes, and of the two rows
    let cases: [(&[u8], &[u64], &[u8], [u8; 2]); 4] = [
        (&[], &[3], &[1], [1, 1]),
        (&[0], &[3, 1], &[1, 2], [2, 1]),
        (&[1], &[3, 1], &[0, 1], [1, 0]),
        (&[0, 1], &[3], &[0], [0, 0]),
    ];
    for (family, masks, node_priorities, priorities) in cases {
        let p = beside_a_heartbeat(family);
        let nodes = masks.len();
        let mut t = Lent::new(nodes, 1, 2);
        assert_eq!(t.translate(&p), counts(nodes as u16, 1, 0));
        assert_eq!(t.node_masks, masks);
        assert_eq!(t.node_parents, [NONE, 0][..nodes]);
        assert_eq!(t.node_priorities, node_priorities);
        assert_eq!(
            (t.state_sources[0], t.state_leaves[0]),
            (0, nodes as u16 - 1)
        );
        assert_eq!(t.row_targets, [0, 0]);
        assert_eq!(t.row_priorities, priorities);
        for (period, colours) in [(&[0u8][..], 0), (&[1], 1), (&[0, 1], 1), (&[0, 0, 1, 0], 1)] {
            let accepted = family.contains(&colours);
            let verdict = judge_policy(&p, 0, &[1, 0], period);
            assert_eq!(verdict, Ok(Verdict { colours, accepted }));
            let least = judge_rows(&t.rows(2, 1), 0, &[1, 0], period).unwrap();
            assert_eq!(least % 2 == 0, accepted);
        }
    }
}

#[test]
fn all_edges_quiet() {
    for (named, priority) in [(false, 1), (true, 0)] {
        // B's graph
        let mut bytes = vec![
            1, 2, 2, 8, 1, 4, 0, 0, 0, 4, 0, 1, 1, 4, 1, 0, 0, 4, 1, 1, 1,
        ];
        bytes.extend([3, 0].repeat(named.into()));
        bytes.extend([3, 255, 3, 7, 0]);
        let p = policy(&bytes);
        let mut t = Lent::new(1, 2, 4);
        assert_eq!(t.translate(&p), counts(1, 2, 1));
        assert_eq!((t.node_masks[0], t.node_parents[0]), (15, NONE));
        assert_eq!(t.node_priorities, [priority]);
        assert_eq!(
            (&t.state_sources[..], &t.state_leaves[..]),
            (&[0, 1][..], &[0, 0][..])
        );
        assert_eq!(t.row_targets, [0, 1, 0, 1]);
        assert_eq!(t.row_priorities, [priority; 4]);
        for (stem, period) in [(&[][..], &[0u8][..]), (&[1, 0], &[1]), (&[1], &[0, 1, 1])] {
            let verdict = Verdict {
                colours: 0,
                accepted: named,
            };
            assert_eq!(judge_policy(&p, 0, stem, period), Ok(verdict));
        }
        // nothing recurs, and nothing was judged: the number tells them apart
        assert_eq!(judge_policy(&p, 2, &[], &[0]), Err(Refusal::NoSuchState));
        assert_eq!(judge_policy(&p, 0, &[], &[2]), Err(Refusal::NoSuchLetter));
    }
}

#[test]
fn a_quiet_edge_in_no_cycle_has_the_lowest_priority() {
    // C's graph; state 0 leads to state 1 by a quiet edge, and the loop of state 1 has colour 0 or none
    let cases: [(&[u8], &[u8], u8); 4] = [
        (&[2, 1, 0, 1, 0], &[0], 1),
        (&[2, 1, 0, 1, 0], &[1], 0),
        (&[4, 1, 0, 1], &[0], 0),
        (&[4, 1, 0, 1], &[1], 1),
    ];
    for (edge, family, priority) in cases {
        let mut bytes = vec![1, 2, 1, 1, 0, 4, 0, 0, 1];
        bytes.extend(edge);
        for &set in family {
            bytes.extend([3, set]);
        }
        bytes.push(0);
        let mut t = Lent::new(1, 2, 2);
        assert_eq!(t.translate(&policy(&bytes)), counts(1, 2, 0));
        assert_eq!((t.node_masks[0], t.node_priorities[0]), (2, priority));
        assert_eq!(t.state_leaves, [NONE, 0]);
        assert_eq!(t.row_targets, [1, 1]);
        assert_eq!(t.row_priorities, [priority; 2]);
    }
}

#[test]
fn priorities_begin_at_1_where_only_a_rejecting_tree_has_the_most_levels() {
    // state 0: a quiet loop, and a quiet edge to state 1; state 1: a quiet loop, and one of colour 0; the empty set is accepted
    let bytes = [
        1, 2, 2, 1, 0, 4, 0, 0, 0, 4, 0, 1, 1, 4, 1, 0, 1, 2, 1, 1, 1, 0, 3, 0, 0,
    ];
    let mut t = Lent::new(3, 2, 4);
    assert_eq!(t.translate(&policy(&bytes)), counts(3, 2, 0));
    assert_eq!(t.node_masks, [1, 12, 4]);
    assert_eq!(t.node_parents, [NONE, NONE, 1]);
    assert_eq!(t.node_priorities, [2, 1, 2]);
    assert_eq!(t.state_leaves, [0, 2]);
    assert_eq!(t.row_targets, [0, 1, 1, 1]);
    assert_eq!(t.row_priorities, [2, 1, 2, 1]);
}

/// States that quiet edges join in a ring, by letter 0. The other edges are loops: the first eight have colours 0 to 7, the rest are quiet. A set is accepted if its
/// least colour, 8 for the empty set, is even or if it is odd.
fn ring(states: u8, letters: u8, odd: u8) -> Policy {
    let mut bytes = vec![1, states, letters, 8, 0];
    let mut colours = 0..8;
    for edge in 0..states * letters {
        let (state, letter) = (edge / letters, edge % letters);
        if letter == 0 {
            bytes.extend([4, state, 0, (state + 1) % states]);
        } else if let Some(colour) = colours.next() {
            bytes.extend([2, state, letter, state, colour]);
        } else {
            bytes.extend([4, state, letter, state]);
        }
    }
    for set in (0..=255u8).filter(|set| set.trailing_zeros() as u8 % 2 == odd) {
        bytes.extend([3, set]);
    }
    bytes.push(0);
    policy(&bytes)
}

#[test]
fn nine_levels() {
    for (states, letters, odd) in [(2, 8, 0), (2, 8, 1), (16, 4, 1), (8, 8, 0)] {
        let p = ring(states, letters, odd);
        let edges = usize::from(states * letters);
        let mut t = Lent::new(9, states.into(), edges);
        assert_eq!(t.translate(&p), counts(9, states.into(), 0));
        // an edge of colour c is in the nodes 0 to c, and a quiet one in all
        let level = |edge| if p.is_quiet(edge) { 8 } else { p.colour(edge) };
        for node in 0..9u8 {
            let at = usize::from(node);
            let inside = (0..edges).filter(|&edge| level(edge) >= node);
            let mask: u64 = inside.map(|edge| 1 << edge).sum();
            assert_eq!(t.node_masks[at], mask);
            assert_eq!(
                t.node_parents[at],
                node.checked_sub(1).map_or(NONE, u16::from)
            );
            assert_eq!(t.node_priorities[at], node + odd);
        }
        assert_eq!(t.state_sources, (0..states).collect::<Vec<u8>>());
        assert!(t.state_leaves.iter().all(|&leaf| leaf == 8));
        for row in 0..edges {
            assert_eq!(t.row_targets[row], p.target(row).into());
            assert_eq!(t.row_priorities[row], level(row) + odd);
        }
    }
}

#[test]
fn the_listing_of_the_example() {
    let p = policy(&listed(include_str!("../../examples/heartbeat.hex")));
    let mut t = Lent::new(5, 4, 12);
    let built = t.translate(&p).unwrap();
    let or_dash = |n: u16| if n == NONE { "-".into() } else { n.to_string() };
    let mut listing = format!("nodes {} states {}\n", built.nodes, built.states);
    for n in 0..5 {
        let (mask, parent) = (t.node_masks[n], or_dash(t.node_parents[n]));
        listing += &format!("n {n} {mask} {parent} {}\n", t.node_priorities[n]);
    }
    for s in 0..4 {
        let leaf = or_dash(t.state_leaves[s]);
        listing += &format!("s {s} {} {leaf}\n", t.state_sources[s]);
    }
    for row in 0..12 {
        let (target, priority) = (t.row_targets[row], t.row_priorities[row]);
        listing += &format!("t {} {} {target} {priority}\n", row / 3, row % 3);
    }
    listing += &format!("start {}\n", built.start);
    assert_eq!(listing, include_str!("../../examples/heartbeat.txt"));
}

#[test]
fn comparing_quiet_edges() {
    // one state and two letters; which cycles accept: those of letter 0, of letter 1, of both
    let quiet = policy(&SILENT); // letter 0 alone
    let coloured = policy(&[1, 1, 2, 2, 0, 2, 0, 0, 0, 0, 2, 0, 1, 0, 1, 3, 1, 0]);
    let silent = policy(&[1, 1, 2, 1, 0, 4, 0, 0, 0, 4, 0, 1, 0, 3, 0, 0]); // all
    let all = policy(&[1, 1, 2, 1, 0, 2, 0, 0, 0, 0, 2, 0, 1, 0, 0, 3, 1, 0]);
    let other = policy(&[1, 1, 2, 1, 0, 2, 0, 0, 0, 0, 4, 0, 1, 0, 3, 0, 0]); // letter 1 alone
    for (first, second, same) in [
        (&quiet, &quiet, true),
        (&quiet, &coloured, true),
        (&quiet, &silent, false),
        (&quiet, &other, false),
        (&silent, &all, true),
        (&silent, &coloured, false),
        (&beside_a_heartbeat(&[0, 1]), &silent, true),
        (&beside_a_heartbeat(&[]), &quiet, false),
    ] {
        assert_eq!(compare(first, second), Ok(same), "{first:?} {second:?}");
        assert_eq!(compare(second, first), Ok(same), "{second:?} {first:?}");
    }
    let target = policy(&[1, 2, 1, 1, 0, 4, 0, 0, 0, 4, 1, 0, 0, 0]);
    assert_eq!(compare(&policy(&C), &target), Err(Refusal::DifferentGraphs));
}

#[test]
fn solving_with_quiet_edges() {
    let p = policy(&SILENT);
    // the supervisor wants heartbeats alone, the plant an event again and again
    for (owner, letter) in [(SUPERVISOR, 0), (PLANT, 1)] {
        let mut g = Game::new(2, 1, 2);
        assert_eq!(g.solve(&p, &[owner]), counts(2, 1, 0));
        assert_eq!((g.winners[0], g.letters[0]), (owner, letter));
        assert_eq!(g.tables.row_priorities, [2, 1]);
        let mut read = Game::new(2, 1, 2);
        let (built, rest) = read.solve_bytes(&SILENT, &[owner]).unwrap();
        assert_eq!((Ok(built), rest.len()), (counts(2, 1, 0), 0));
        assert_eq!(read, g);
    }
}

// ---- solving

/// B's owners, and the winner from both states. The supervisor wants to stay in a state in the end, the plant to change states for ever.
const GAMES_OF_B: [([u8; 2], u8); 4] = [
    ([SUPERVISOR, SUPERVISOR], SUPERVISOR),
    ([SUPERVISOR, PLANT], SUPERVISOR),
    ([PLANT, SUPERVISOR], SUPERVISOR),
    ([PLANT, PLANT], PLANT),
];

/// Whether these letters are right for B: the one of an owner that wins, and none for one that does not. A supervisor that owns both states has to stay in one at least.
fn letters_fit_b(owners: [u8; 2], letters: &[u8]) -> bool {
    match owners {
        [SUPERVISOR, SUPERVISOR] => [[0, 0], [0, 1], [1, 1]].iter().any(|l| l == letters),
        [SUPERVISOR, PLANT] => letters == [0, NO_LETTER],
        [PLANT, SUPERVISOR] => letters == [NO_LETTER, 1],
        _ => letters == [1, 0],
    }
}

#[test]
fn b_solved_and_zeros_past_it() {
    let b = policy(&B);
    for (owners, winner) in GAMES_OF_B {
        let mut translated = Lent::new(5, 4, 8);
        let found = translated.translate(&b);
        let mut g = Game::new(5, 4, 8);
        assert_eq!(g.solve(&b, &owners), found);
        assert_eq!(g.tables, translated);
        assert_eq!(g.winners, [winner, winner, 0, 0]);
        assert!(letters_fit_b(owners, &g.letters[..2]), "{:?}", g.letters);
        assert_eq!(g.letters[2..], [0, 0]);

        let mut g = Game::new(3, 2, 4);
        assert_eq!(g.solve(&b, &owners), counts(3, 2, 0));
        assert_eq!(g.winners, [winner, winner]);
        assert!(letters_fit_b(owners, &g.letters), "{:?}", g.letters);
    }
}

/// Whether whoever wins a built state wins every play from it by the letters, and never leaves the states that it wins: no step leads out of them, and no step whose
/// priority is the other player's is in a cycle of steps with priorities as large or larger.
fn letters_win(g: &Game, rows: &Rows<'_>, states: usize, owners: &[u8]) -> bool {
    let letters = usize::from(rows.letters);
    let steps: Vec<(usize, usize, u8)> = (0..states * letters)
        .filter(|row| {
            let (state, letter) = (row / letters, row % letters);
            let owner = owners[usize::from(g.tables.state_sources[state])];
            owner != g.winners[state] || letter == usize::from(g.letters[state])
        })
        .map(|row| {
            let target = usize::from(rows.targets[row]);
            (row / letters, target, rows.priorities[row])
        })
        .collect();
    let reaches = |from: usize, to: usize, least: u8| {
        let mut seen = vec![false; states];
        let mut open = vec![from];
        while let Some(state) = open.pop() {
            if !std::mem::replace(&mut seen[state], true) {
                let on = |&&(s, _, p): &&(usize, usize, u8)| s == state && p >= least;
                open.extend(steps.iter().filter(on).map(|&(_, t, _)| t));
            }
        }
        seen[to]
    };
    steps.iter().all(|&(state, target, priority)| {
        let winner = g.winners[state];
        winner == g.winners[target] && (priority % 2 == winner || !reaches(target, state, priority))
    })
}

/// One of many small policies: up to 5 states, 3 letters and 4 colours, and the rest by chance. In one of two an edge may be quiet and the empty set accepted.
fn small(chance: &mut u64) -> Policy {
    let mut below = |limit: u8| {
        *chance ^= *chance << 13;
        *chance ^= *chance >> 7;
        *chance ^= *chance << 17;
        (*chance >> 32) as u8 % limit
    };
    let (states, letters, colours) = (1 + below(5), 1 + below(3), 1 + below(4));
    let mut bytes = vec![1, states, letters, colours, below(states)];
    let plain = below(2);
    for e in 0..states * letters {
        let (state, letter, target) = (e / letters, e % letters, below(states));
        if plain == 0 && below(3) == 0 {
            bytes.extend([4, state, letter, target]);
        } else {
            bytes.extend([2, state, letter, target, below(colours)]);
        }
    }
    for set in plain..1 << colours {
        if below(2) == 0 {
            bytes.extend([3, set]);
        }
    }
    bytes.push(0);
    policy(&bytes)
}

#[test]
fn whoever_follows_the_letters_wins() {
    let mut chance = 1;
    let mut policies: Vec<Policy> = [&A[..], &B, &C, &SILENT].map(policy).to_vec();
    policies.extend((0..300).map(|_| small(&mut chance)));
    let mut shared = 0;
    for p in policies {
        let policy_states = usize::from(p.states());
        for choice in 0..1u8 << policy_states {
            let owners: Vec<u8> = (0..policy_states).map(|q| choice >> q & 1).collect();
            let mut g = Game::new(200, 200, 200 * usize::from(p.letters()));
            let built = g.solve(&p, &owners).unwrap();
            let states = usize::from(built.states);
            let rows = g.tables.rows(p.letters(), built.states);
            let mut winner_over = vec![None; policy_states];
            for state in 0..states {
                let source = usize::from(g.tables.state_sources[state]);
                let (winner, letter) = (g.winners[state], g.letters[state]);
                assert!(winner == SUPERVISOR || winner == PLANT);
                assert_eq!(*winner_over[source].get_or_insert(winner), winner);
                if owners[source] == winner {
                    assert!(letter < p.letters());
                } else {
                    assert_eq!(letter, NO_LETTER);
                }
            }
            assert!(letters_win(&g, &rows, states, &owners), "{p:?} {owners:?}");
            assert!(g.winners[states..].iter().all(|&winner| winner == 0));
            assert!(g.letters[states..].iter().all(|&letter| letter == 0));
            shared += usize::from(
                winner_over.contains(&Some(SUPERVISOR)) && winner_over.contains(&Some(PLANT)),
            );
        }
    }
    assert!(shared > 100, "both players win somewhere in {shared} games");
}

/// Tables for a solution of B, its owners, and what is then refused, read or not: the first question of those answered "no".
fn unsolved() -> Vec<(Game, Vec<u8>, Refusal)> {
    let full = |nodes, states| Game::new(nodes, states, 2 * states);
    let mut cases = Vec::new();
    let changes: [fn(&mut Game); 12] = [
        |g| g.tables.node_masks.truncate(1),
        |g| g.tables.node_parents.truncate(1),
        |g| g.tables.node_priorities.truncate(1),
        |g| g.tables.state_sources.truncate(1),
        |g| g.tables.state_leaves.truncate(1),
        |g| g.tables.row_targets.truncate(1),
        |g| g.tables.row_priorities.truncate(1),
        |g| g.winners.truncate(1),
        |g| g.letters.truncate(1),
        |g| g.winners.push(9),
        |g| g.letters.push(9),
        |g| (g.winners.push(9), g.letters.push(9)).0,
    ];
    for change in changes {
        for (nodes, states, owners) in [(3, 2, &[0, 1][..]), (2, 2, &[2]), (5, 4, &[])] {
            let mut g = full(nodes, states);
            change(&mut g);
            cases.push((g, owners.to_vec(), Refusal::Lengths));
        }
    }
    for (nodes, states, owners, refusal) in [
        (2, 2, &[0, 1][..], Refusal::TooManyNodes),
        (2, 1, &[2], Refusal::TooManyNodes),
        (0, 0, &[0, 1], Refusal::TooManyNodes),
        (3, 1, &[0, 1], Refusal::TooManyStates),
        (3, 0, &[0, 1], Refusal::TooManyStates),
        (5, 1, &[2, 2, 2], Refusal::TooManyStates),
        (3, 2, &[], Refusal::OwnersLength),
        (3, 2, &[0], Refusal::OwnersLength),
        (5, 4, &[0, 1, 0], Refusal::OwnersLength),
        (5, 4, &[2, 2, 2], Refusal::OwnersLength),
        (5, 4, &[0; 16], Refusal::OwnersLength),
        (3, 2, &[2, 0], Refusal::NoSuchOwner),
        (5, 4, &[1, 2], Refusal::NoSuchOwner),
        (5, 4, &[0, 255], Refusal::NoSuchOwner),
    ] {
        cases.push((full(nodes, states), owners.to_vec(), refusal));
    }
    cases
}

/// What the tables hold after a refusal of [`unsolved`]: themselves after 8, and else 0.
fn after(before: &Game, refusal: Refusal) -> Game {
    if refusal == Refusal::Lengths {
        return before.clone();
    }
    let (nodes, states) = (before.tables.node_masks.len(), before.winners.len());
    Game::filled(nodes, states, before.tables.row_targets.len(), 0)
}

#[test]
fn solving_refuses_in_order() {
    let b = policy(&B);
    let mut record = *b.record();
    record[0] = 17;
    let illegal = Policy::from_record(record);
    for (before, owners, refusal) in unsolved() {
        let mut g = before.clone();
        assert_eq!(g.solve(&b, &owners), Err(refusal));
        assert_eq!(g, after(&before, refusal));
        let mut g = before.clone();
        assert_eq!(g.solve(&illegal, &owners), Err(Refusal::IllegalPolicy));
        assert_eq!(g, before);
    }
}

#[test]
fn from_command_bytes_to_a_solution() {
    let mut bytes = B.to_vec();
    bytes.extend([7, 8]);
    for (owners, _) in GAMES_OF_B {
        let (mut one, mut two) = (Game::new(5, 5, 10), Game::new(5, 5, 10));
        let (found, rest) = one.solve_bytes(&bytes, &owners).unwrap();
        assert_eq!(rest, [7, 8]);
        assert_eq!(Ok(found), two.solve(&policy(&B), &owners));
        assert_eq!(one, two);
    }
    for (before, owners, refusal) in unsolved() {
        let mut g = before.clone();
        let answer = g.solve_bytes(&bytes, &owners);
        assert_eq!(answer, Err(ReadError { refusal, offset: 0 }));
        assert_eq!(g, after(&before, refusal));
        // command bytes that are refused come first
        for (bytes, refusal, offset) in [
            (&B[..29], Refusal::Truncated, 29),
            (&[5], Refusal::UnknownCommand, 0),
            (&[1, 1, 1, 1, 0, 0], Refusal::Incomplete, 5),
        ] {
            let mut g = before.clone();
            let answer = g.solve_bytes(bytes, &owners);
            assert_eq!(answer, Err(ReadError { refusal, offset }));
            assert_eq!(g, before);
        }
    }
}

// ---- running

#[test]
fn a_run_over_b() {
    let mut t = Lent::new(3, 2, 4);
    let Counts { states, start, .. } = t.translate(&policy(&B)).unwrap();
    let rows = t.rows(2, states);
    let mut run = Run { state: start };
    let mut met = Vec::new();
    for letter in [0, 0, 1, 1, 0] {
        let (next, priority) = run.read(letter, &rows).unwrap();
        run = next;
        met.push((run.state, priority));
    }
    assert_eq!(met, [(0, 2), (0, 2), (1, 1), (1, 2), (0, 1)]);
    assert_eq!(run.read(2, &rows), Err(Refusal::NoSuchLetter));
    assert_eq!(Run { state: 2 }.read(2, &rows), Err(Refusal::NoSuchState));
}

#[test]
fn running_refuses_in_order() {
    let read = |letters, targets: &[u16], priorities: &[u8]| {
        let rows = Rows {
            letters,
            targets,
            priorities,
        };
        Run { state: 0 }.read(0, &rows)
    };
    assert_eq!(read(0, &[0], &[0]), Err(Refusal::Lengths));
    assert_eq!(read(9, &[0; 9], &[0; 9]), Err(Refusal::Lengths));
    assert_eq!(read(1, &[0], &[]), Err(Refusal::Lengths));
    assert_eq!(read(2, &[0; 3], &[0; 3]), Err(Refusal::Lengths));
    assert_eq!(read(1, &[0; 65536], &[0; 65536]), Err(Refusal::Lengths));
    assert_eq!(read(1, &[], &[]), Err(Refusal::NoSuchState));
    assert_eq!(read(1, &[1], &[0]), Err(Refusal::NoSuchTarget));
    assert_eq!(read(1, &[0; 65535], &[5; 65535]), Ok((Run { state: 0 }, 5)));
}

// ---- judging and comparing

#[test]
fn judgings_agree() {
    let heartbeat = listed(include_str!("../../examples/heartbeat.hex"));
    for bytes in [&A[..], &B, &C, &SILENT, &heartbeat] {
        let p = policy(bytes);
        let mut t = Lent::new(6, 4, 4 * usize::from(p.letters()));
        let built = t.translate(&p).unwrap();
        let rows = t.rows(p.letters(), built.states);
        let words: Vec<Vec<u8>> = (0..81u16)
            .map(|n| {
                (0..4)
                    .map(|i| (n / 3u16.pow(i) % 3) as u8 % p.letters())
                    .collect()
            })
            .collect();
        for stem in &words[..9] {
            for period in &words {
                let policy = judge_policy(&p, p.initial(), stem, period).unwrap();
                let least = judge_rows(&rows, built.start, stem, period).unwrap();
                assert_eq!(policy.accepted, least % 2 == 0);
            }
        }
    }
}

#[test]
fn judging_a_policy() {
    let b = policy(&B);
    let verdict = |colours, accepted| Ok(Verdict { colours, accepted });
    assert_eq!(judge_policy(&b, 0, &[0], &[1]), verdict(2, true));
    assert_eq!(judge_policy(&b, 1, &[], &[0, 1]), verdict(3, false));
    assert_eq!(judge_policy(&b, 2, &[], &[]), Err(Refusal::NoSuchState));
    assert_eq!(judge_policy(&b, 0, &[2], &[]), Err(Refusal::EmptyLoop));
    assert_eq!(judge_policy(&b, 0, &[2], &[0]), Err(Refusal::NoSuchLetter));
    assert_eq!(judge_policy(&b, 0, &[], &[2]), Err(Refusal::NoSuchLetter));
}

#[test]
fn judging_rows_refuses_in_order() {
    let rows = Rows {
        letters: 1,
        targets: &[1, 2],
        priorities: &[0, 0],
    };
    assert_eq!(judge_rows(&rows, 2, &[], &[]), Err(Refusal::NoSuchState));
    assert_eq!(judge_rows(&rows, 0, &[1], &[]), Err(Refusal::EmptyLoop));
    assert_eq!(judge_rows(&rows, 0, &[], &[1]), Err(Refusal::NoSuchLetter));
    assert_eq!(judge_rows(&rows, 0, &[], &[0]), Err(Refusal::NoSuchTarget));
    let rows = Rows { letters: 0, ..rows };
    assert_eq!(judge_rows(&rows, 0, &[], &[0]), Err(Refusal::Lengths));
}

#[test]
fn comparing() {
    let b = policy(&B);
    assert_eq!(compare(&b, &b), Ok(true));
    let mut other = *b.record();
    other[3] = 1;
    assert_eq!(compare(&b, &Policy::from_record(other)), Ok(true));
    other[132 + 3] = 1;
    assert_eq!(compare(&b, &Policy::from_record(other)), Ok(false));
    assert_eq!(compare(&b, &policy(&A)), Err(Refusal::DifferentGraphs));
    other[4] = 1;
    assert_eq!(
        compare(&b, &Policy::from_record(other)),
        Err(Refusal::DifferentGraphs)
    );
}

#[test]
fn the_order_of_the_colour_sets() {
    let order: Vec<u8> = (0..=255).map(colour_set_at).collect();
    let mut expected: Vec<u8> = (0..=255).collect();
    expected.sort_by_key(|set| (8 - set.count_ones(), *set));
    assert_eq!(order, expected);
    assert_eq!((order[0], order[255]), (255, 0));
}

#[test]
fn every_refusal_says_its_number() {
    assert_eq!(
        Refusal::DifferentGraphs.to_string(),
        "refused 15: the policies have different graphs"
    );
    assert_eq!(
        Refusal::OwnersLength.to_string(),
        "refused 16: there is not one owner for each policy state"
    );
    assert_eq!(
        Refusal::NoSuchOwner.to_string(),
        "refused 17: no such owner"
    );
    assert_eq!(Refusal::Lengths.number(), 8);
    let error = ReadError {
        refusal: Refusal::Lengths,
        offset: 0,
    };
    assert_eq!(error.to_string(), Refusal::Lengths.to_string());
}
