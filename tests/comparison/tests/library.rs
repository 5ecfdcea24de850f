//! The proved library answers what the independent translator, solver and reader do, on policies and texts of every shape, with quiet edges and without, valid and
//! damaged, and in tables too short, just right and longer.
//! SEED and POLICIES change the fixed seed and the number of policies, for a longer run by hand.

use comparison::{commands, counts, damaged, hex, policies, random, root, shuffled, unhex};
use comparison::{OwnedTables, SolvedTables};
use independent::fast::{self, Search, Translator};
use independent::policy::{from_record, Policy};
use independent::random::{kind, Family, Quiet, Random, Shape};
use independent::solve::Solver;
use independent::texts::{READ, REFUSED};
use independent::{alike, brute, hanoi, judge, policy};
use std::collections::HashMap;
use std::fs;
use wulfrenda::{Counts, ReadError, Refusal, Rows, Run, PLANT, RECORD_LEN, SUPERVISOR};

type Record = [u8; RECORD_LEN];

/// Policies of every shape, every other one with quiet edges and set 0, a third in parts: those at place i of a test have at most so many edges.
fn shape(i: u64) -> Shape {
    let edges = [4, 8, 16, 32, 64][i as usize / 2 % 5];
    let shape = if i / 10 % 3 == 2 {
        Shape::parts(edges)
    } else {
        Shape::any(edges)
    };
    if i % 2 == 1 {
        shape.with_quiet()
    } else {
        shape
    }
}

/// The same policy on the proved side.
fn proved(p: &Policy) -> wulfrenda::Policy {
    wulfrenda::Policy::from_record(p.record())
}

fn refusal<T>(r: Result<T, Refusal>) -> Result<T, u8> {
    r.map_err(Refusal::number)
}

/// Reads command bytes on both sides: the number and the offset of a refusal.
fn read_alike(bytes: &[u8]) -> Option<(u8, usize)> {
    let ours = wulfrenda::Policy::read(bytes)
        .map(|(p, rest)| (*p.record(), bytes.len() - rest.len()))
        .map_err(|e| (e.number(), e.offset));
    let theirs = policy::read(bytes).map(|(p, end)| (p.record(), end));
    alike(ours, theirs, format!("bytes {}", hex(bytes)));
    ours.err()
}

/// What gives an edge or a set for the second time at an offset: the command that gave it before, this one, and whether it is set 0.
fn given_twice(bytes: &[u8], at: usize) -> (u8, u8, bool) {
    let again = &commands(&bytes[at..])[0];
    let same = |c: &Vec<u8>| match (c[..].first(), again[0]) {
        (Some(3), 3) => c[1] == again[1],
        (Some(2 | 4), 2 | 4) => c[1..3] == again[1..3],
        _ => false,
    };
    let mut before = commands(&bytes[..at]).into_iter();
    let first = before.find(same).expect("a command before it");
    (first[0], again[0], again[..] == [3, 0])
}

#[test]
fn reading() {
    let mut random = random(11);
    // refusals by the refused command and the number, and those of 5 by what was given twice
    let (mut refused, mut twice) = (HashMap::new(), HashMap::new());
    for i in 0..policies(20_000) {
        let p = random.policy(&shape(i));
        let mut bytes = match random.below(2) {
            0 => p.bytes(),
            _ => shuffled(&mut random, &p),
        };
        bytes.extend((0..random.below(6)).map(|b| b as u8));
        alike(read_alike(&bytes), None, p.hex());
        let bytes = damaged(&mut random, bytes);
        let Some((number, at)) = read_alike(&bytes) else {
            continue;
        };
        if let Some(&code) = bytes.get(at) {
            *refused.entry((code, number)).or_insert(0) += 1;
        }
        if number == 5 {
            *twice.entry(given_twice(&bytes, at)).or_insert(0) += 1;
        }
    }
    assert_eq!(read_alike(&[]), Some((1, 0)));
    let some = |n: Option<&u64>| n.is_some_and(|&n| n > policies(20_000) / 1_000);
    for (code, numbers) in [
        (0, &[6][..]),
        (1, &[1, 3, 4]),
        (2, &[1, 3, 4, 5]),
        (3, &[1, 3, 4, 5]),
        (4, &[1, 3, 4, 5]),
        (5, &[2]),
    ] {
        for &number in numbers {
            assert!(some(refused.get(&(code, number))), "{refused:?}");
        }
    }
    for edge in [(2, 2), (2, 4), (4, 2), (4, 4)] {
        assert!(some(twice.get(&(edge.0, edge.1, false))), "{twice:?}");
    }
    for set_0 in [false, true] {
        assert!(some(twice.get(&(3, 3, set_0))), "{twice:?}");
    }
}

// ---- reading texts

type TextRead = Result<Record, (u8, usize)>;

/// What the library answers to a text: the policy's record, or the number and how much of the text some text of the subset shares.
fn text_read(text: &[u8]) -> TextRead {
    let answer = wulfrenda::Policy::read_hanoi(text).map(|p| *p.record());
    answer.map_err(|e| (e.number(), e.shared))
}

/// Reads a text on both sides: the number, or 0.
fn text_read_alike(text: &[u8]) -> u8 {
    let ours = text_read(text);
    let theirs = hanoi::read(text).map(|p| p.record());
    alike(ours, theirs, text.escape_ascii());
    ours.map_or_else(|e| e.0, |_| 0)
}

/// A document of few states, of as many as may be, or of more.
fn document(random: &mut Random, i: u64) -> hanoi::Document {
    let states = 1 + random.below([3, 8, 18, 18, 130][i as usize % 5]);
    random.document(states, 3)
}

#[test]
fn reading_texts() {
    let mut random = random(31);
    let mut answers = [0; 20];
    for i in 0..policies(10_000) {
        let document = document(&mut random, i);
        let tokens = random.tokens(&document);
        let text = random.spaced(&tokens);
        let number = document.policy().map_or_else(|number| number, |_| 0);
        alike(text_read_alike(&text), number, text.escape_ascii());
        answers[usize::from(number)] += 1;
        for _ in 0..3 {
            let text = random.damaged_text(&tokens);
            answers[usize::from(text_read_alike(&text))] += 1;
        }
    }
    let all = policies(10_000);
    assert!(
        [0, 4, 18, 19].iter().all(|&n| answers[n] > all / 50),
        "{answers:?}"
    );
}

#[test]
fn known_texts() {
    for (shared, rest) in REFUSED {
        let text = format!("{shared}{rest}");
        alike(text_read(text.as_bytes()), Err((18, shared.len())), text);
    }
    for (text, ..) in READ {
        assert_eq!(text_read_alike(text.as_bytes()), 0);
    }
    // any byte in any place of a short text, and any byte put in there
    let text = READ[1].0.as_bytes();
    for at in 0..=text.len() {
        for byte in 0..=255 {
            let mut other = text.to_vec();
            other.insert(at, byte);
            text_read_alike(&other);
            if at < text.len() {
                other.remove(at + 1);
                text_read_alike(&other);
            }
        }
    }
}

#[test]
fn texts_cut_at_every_length() {
    let mut random = random(32);
    for i in 0..policies(10_000) / 20 {
        let document = document(&mut random, i % 4);
        let tokens = random.tokens(&document);
        for text in [random.spaced(&tokens), random.damaged_text(&tokens)] {
            // a part shares what the whole does, as far as it goes
            let shared = hanoi::longest(&text);
            for n in 0..=text.len() {
                let part = &text[..n];
                let theirs = match hanoi::parse(part) {
                    Some(document) => document.policy().map_err(|number| (number, 0)),
                    None => Err((18, n.min(shared))),
                };
                let theirs = theirs.map(|p| p.record());
                alike(text_read(part), theirs, part.escape_ascii());
            }
        }
    }
}

#[test]
fn texts_and_their_policies_agree() {
    let mut random = random(33);
    let mut verdicts = [0; 2];
    for i in 0..policies(6_000) {
        let document = document(&mut random, i % 4);
        let tokens = random.tokens(&document);
        let text = random.spaced(&tokens);
        let Ok(policy) = wulfrenda::Policy::read_hanoi(&text) else {
            continue;
        };
        for _ in 0..8 {
            let letters = document.letters();
            let (stem, mut period) = (random.letters(letters, 9), random.letters(letters, 12));
            period.push(random.below(letters) as u8);
            let v = random.below(document.states);
            let verdict = wulfrenda::judge_policy(&policy, v as u8, &stem, &period);
            let (_, holds) = document.judge(v, &stem, &period);
            let to = format!("{} {v} {stem:?} {period:?}", text.escape_ascii());
            alike(refusal(verdict).map(|x| x.accepted), Ok(holds), to);
            verdicts[usize::from(holds)] += 1;
        }
    }
    assert!(
        verdicts.iter().all(|&n| n > policies(6_000)),
        "{verdicts:?}"
    );
}

/// Many bytes of names and of white space.
fn long_text(states: usize, names: [&str; 2], edges: &str) -> Vec<u8> {
    let [first, second] = names.map(|name| name.repeat(200_000));
    let white = " \t\r\n".repeat(20_000);
    let head = format!("HOA: v1{white}States: {states} Start: 0");
    let names = format!("AP: 2 \"{first}\"{white}\"{second}\"");
    let text = format!("{head} {names} Acceptance: 1{white}Inf(0) --BODY--{edges}");
    format!("{text}{white}--END--{white}").into_bytes()
}

#[test]
fn long_texts() {
    let mut random = random(34);
    let mut edges = String::new();
    for v in 0..5_000 {
        let other = 4_999 - v;
        edges += &format!("State: {v} {other}{{0}}{other} {v}{{}}{v}");
    }
    let one = "State: 0 0 0 0 0";
    // the same name twice: all of it is shared but the closing quote
    assert_eq!(text_read_alike(&long_text(1, ["a"; 2], one)), 18);
    let texts = [
        (4, long_text(5_000, ["a", "b"], &edges)),
        (0, long_text(1, ["a", "b"], one)),
    ];
    for (number, text) in texts {
        assert_eq!(text_read_alike(&text), number);
        for _ in 0..5 {
            let mut other = text.clone();
            let at = random.below(other.len());
            other[at] = b'"';
            text_read_alike(&other);
            other.truncate(at);
            text_read_alike(&other);
        }
    }
}

#[test]
fn a_long_formula() {
    let part = "(Inf(0) & Fin(1) | Inf(2) & (Fin(3) | Inf(4))) & (Inf(5) | f) | ";
    let formula = part.repeat(5_000) + "Fin(7) & t";
    let edges = "State: 0 0 0{1} 0{2} 0{3} 0{4} 0{5} 0{6} 0{7}";
    let names = r#"AP: 3 "a" "b" "c""#;
    let head = format!("HOA: v1 States: 1 Start: 0 {names} Acceptance: 8");
    let text = format!("{head} {formula} --BODY-- {edges} --END--");
    assert_eq!(text_read_alike(text.as_bytes()), 0);
}

/// Translates in tables with so many places for nodes and states on both sides, from the record and from the command bytes; on the independent side by both searches.
fn translated_alike(
    [by_sets, by_nodes]: &mut [Translator; 2],
    p: &Policy,
    (nodes, states): (usize, usize),
) -> Result<(), u8> {
    let mut expected = OwnedTables::new(nodes, states, states * p.letters, 0xa5);
    let (mut by_record, mut by_bytes) = (expected.clone(), expected.clone());
    let mut other = expected.clone();
    let theirs = expected.fill(by_sets, p).map(counts);
    let text = format!("policy {} in {nodes} and {states}", p.hex());
    let by_nodes = other.fill(by_nodes, p).map(counts);
    alike(by_nodes, theirs, format!("both searches for {text}"));
    alike(other.difference(&expected), None, &text);
    let ours = refusal(by_record.translate(&proved(p)));
    alike(ours, theirs, format!("the record of {text}"));
    let bytes = p.bytes();
    let ours = by_bytes.translate_bytes(&bytes).map(|(counts, _)| counts);
    let ours = ours.map_err(ReadError::number);
    alike(ours, theirs, format!("the bytes of {text}"));
    for tables in [by_record, by_bytes] {
        alike(tables.difference(&expected), None, &text);
    }
    theirs.map(|_| ())
}

#[test]
fn translating() {
    let mut random = random(12);
    let mut translators = Search::ALL.map(Translator::new);
    let (mut fitting, mut kinds) = (0, [0; 4]);
    // nodes of quiet edges alone, rejecting and accepting, and trees with a level more than there are colours
    let (mut quiet, mut deeper) = ([0; 2], 0);
    for i in 0..policies(12_000) {
        let p = random.policy(&shape(i));
        let most = 65_535;
        let (nodes, states) = match translators[1].translate(&p, most, most) {
            Ok(a) => {
                if let Some(kind) = kind(&p, a) {
                    kinds[kind as usize] += 1;
                }
                for node in a.nodes.iter().filter(|n| p.colours_of(n.mask) == 0) {
                    quiet[usize::from(node.priority % 2 == 0)] += 1;
                }
                deeper += u64::from(a.levels() > p.colours);
                (a.nodes.len(), a.states.len())
            }
            Err(number) => {
                for places in [most, most + 1] {
                    let answer = translated_alike(&mut translators, &p, (places, places));
                    assert_eq!(answer, Err(number));
                }
                continue;
            }
        };
        fitting += 1;
        let longer = (nodes + random.below(9), states + random.below(9));
        let mut alike = |places, answer| {
            assert_eq!(translated_alike(&mut translators, &p, places), answer);
        };
        alike((nodes, states), Ok(()));
        alike(longer, Ok(()));
        alike((nodes, states - 1), Err(10));
        if nodes > 0 {
            alike((nodes - 1, states), Err(9));
            alike((nodes - 1, states - 1), Err(9));
        }
    }
    assert!(fitting > policies(12_000) / 2);
    // each kind of numbering came up
    assert!(
        kinds.iter().all(|&n| n > policies(12_000) / 50),
        "{kinds:?}"
    );
    assert!(
        quiet.iter().all(|&n| n > policies(12_000) / 50),
        "{quiet:?}"
    );
    assert!(deeper > policies(12_000) / 500, "{deeper}");
}

#[test]
fn translating_stored_policies() {
    let mut translators = Search::ALL.map(Translator::new);
    let mut refused = 0;
    let folder = root().join("tests/comparison/policies");
    for entry in fs::read_dir(folder).unwrap() {
        let path = entry.unwrap().path();
        if path.extension().is_some_and(|x| x == "hex") {
            let text = fs::read_to_string(&path).unwrap();
            let p = policy::read(&unhex(&text)).unwrap().0;
            let answer = translated_alike(&mut translators, &p, (65_535, 65_535));
            refused += usize::from(answer == Err(9));
        }
    }
    // two have more nodes than fit
    assert_eq!(refused, 2);
}

#[test]
fn trees_of_nine_levels() {
    let mut random = random(18);
    let (mut translators, mut solver) = (Search::ALL.map(Translator::new), Solver::default());
    // with priorities 0 to 8, and 1 to 9
    let mut nine = [0; 2];
    for i in 0..policies(1_000) {
        let shape = Shape {
            states: 2..=16,
            letters: 4..=8,
            colours: 8..=8,
            family: Family::Least(i as usize % 2),
            quiet: Quiet::Chance(33),
            ..Shape::any(64)
        };
        let p = random.policy(&shape);
        let Ok(a) = translators[1].translate(&p, 5_000, 5_000) else {
            continue;
        };
        if a.levels() == 9 {
            let most = a.nodes.iter().map(|n| n.priority).max();
            nine[usize::from(most == Some(9))] += 1;
        }
        let (nodes, states) = (a.nodes.len(), a.states.len());
        let answer = translated_alike(&mut translators, &p, (nodes, states));
        assert_eq!(answer, Ok(()));
        let owners = owners(&mut random, p.states);
        let tables = SolvedTables::new(nodes, states, states * p.letters, 0xa5);
        solved_alike(&mut solver, &p, &owners, &tables).unwrap();
    }
    assert!(nine.iter().all(|&n| n > policies(1_000) / 50), "{nine:?}");
}

/// What becomes of command bytes in one call: the counts, or the number, and the offset, which is 0 where the policy was read and not translated.
fn bytes_alike(translator: &mut Translator, bytes: &[u8], mut tables: OwnedTables) -> u8 {
    let mut expected = tables.clone();
    let theirs = policy::read(bytes).and_then(|(p, end)| {
        let answer = expected.fill(translator, &p);
        answer.map(|a| (counts(a), end)).map_err(|n| (n, 0))
    });
    let ours = tables.translate_bytes(bytes);
    let ours = ours
        .map(|(counts, rest)| (counts, bytes.len() - rest.len()))
        .map_err(|e| (e.number(), e.offset));
    let text = format!("bytes {}", hex(bytes));
    alike(ours, theirs, &text);
    alike(tables.difference(&expected), None, &text);
    ours.map_or_else(|e| e.0, |_| 0)
}

#[test]
fn from_command_bytes_to_tables() {
    let mut random = random(17);
    let mut translators = Search::ALL.map(Translator::new);
    let mut answers = [0; 11];
    for i in 0..policies(12_000) {
        let p = random.policy(&shape(i));
        let mut bytes = p.bytes();
        bytes.extend((0..random.below(6)).map(|b| b as u8));
        let (nodes, states) = (random.below(40), random.below(80));
        // now and then row tables that do not belong to the others
        let rows = states * p.letters + usize::from(random.chance(5));
        let tables = OwnedTables::new(nodes, states, rows, 0xa5);
        for bytes in [damaged(&mut random, bytes.clone()), bytes] {
            let translator = &mut translators[i as usize / 2 % 2];
            answers[bytes_alike(translator, &bytes, tables.clone()) as usize] += 1;
        }
    }
    // every answer came up but 7: what was read is legal
    assert_eq!(answers[7], 0);
    let others = answers.iter().enumerate().filter(|x| x.0 != 7);
    assert!(others.clone().all(|x| *x.1 > 0), "{answers:?}");
}

#[test]
fn lengths_that_do_not_belong_together() {
    let mut random = random(13);
    let mut translator = Translator::default();
    for i in 0..policies(1_000) {
        let p = random.policy(&shape(i % 6));
        let mut tables = OwnedTables::new(40, 40, 40 * p.letters, 0xa5);
        match random.below(7) {
            0 => drop(tables.node_masks.pop()),
            1 => drop(tables.node_parents.pop()),
            2 => drop(tables.node_priorities.pop()),
            3 => drop(tables.state_sources.pop()),
            4 => drop(tables.state_leaves.pop()),
            5 => drop(tables.row_targets.pop()),
            _ => drop(tables.row_priorities.pop()),
        }
        let before = tables.clone();
        let (bytes, text) = (p.bytes(), p.hex());
        let theirs = before.clone().fill(&mut translator, &p).map(counts);
        alike(theirs, Err(8), &text);
        alike(refusal(tables.translate(&proved(&p))), Err(8), &text);
        let ours = tables.translate_bytes(&bytes).map_err(ReadError::number);
        alike(ours, Err(8), &text);
        alike(tables.difference(&before), None, &text);
    }
}

/// Every call that takes a record refuses this one with 7, and leaves the tables as they are. The other policy is legal.
fn not_legal(random: &mut Random, record: &Record, p: &Policy) {
    let ours = wulfrenda::Policy::from_record(*record);
    let text = format!("record {}", hex(record));
    alike(from_record(record), None, &text);
    let mut tables = OwnedTables::new(30, 30, 30 * p.letters, 0xa5);
    let before = tables.clone();
    alike(refusal(tables.translate(&ours)), Err(7), &text);
    alike(tables.difference(&before), None, &text);
    let mut nine = SolvedTables::new(30, 30, 30 * p.letters, 0xa5);
    let before = nine.clone();
    let owners = owners(random, p.states);
    alike(refusal(nine.solve(&ours, &owners)), Err(7), &text);
    alike(nine.difference(&before), None, &text);
    let judged = wulfrenda::judge_policy(&ours, 0, &[], &[0]);
    alike(refusal(judged), Err(7), &text);
    let other = proved(p);
    for (a, b) in [(&ours, &other), (&other, &ours)] {
        alike(refusal(wulfrenda::compare(a, b)), Err(7), &text);
    }
}

/// A record that is legal is the same policy on both sides.
fn legal(translator: &mut Translator, record: &Record, p: &Policy) {
    let ours = wulfrenda::Policy::from_record(*record);
    let text = format!("record {}", hex(record));
    alike(*ours.record(), p.record(), &text);
    for e in 0..p.edges.len() {
        let colour = (!ours.is_quiet(e)).then_some(usize::from(ours.colour(e)));
        alike(colour, p.edges[e].1, &text);
    }
    let mut expected = OwnedTables::new(40, 80, 80 * p.letters, 0xa5);
    let mut tables = expected.clone();
    let theirs = expected.fill(translator, p).map(counts);
    alike(refusal(tables.translate(&ours)), theirs, &text);
    alike(tables.difference(&expected), None, &text);
}

#[test]
fn changed_records() {
    let mut random = random(14);
    let mut translator = Translator::default();
    let shapes = [Shape::any(32), Shape::any(32).with_quiet()];
    let (mut right, mut wrong) = (0, 0);
    for i in 0..policies(12_000) {
        let p = random.policy(&shapes[i as usize % 2]);
        let mut record = p.record();
        for _ in 0..=random.below(2) {
            let at = [
                random.below(4),
                random.below(132),
                random.below(RECORD_LEN),
                388 + random.below(p.edges.len()),
            ][random.below(4)];
            record[at] = [random.below(256), random.below(20)][random.below(2)] as u8;
        }
        match from_record(&record) {
            Some(q) => {
                legal(&mut translator, &record, &q);
                right += 1;
            }
            None => {
                not_legal(&mut random, &record, &p);
                wrong += 1;
            }
        }
    }
    let all = policies(12_000);
    assert!(right > all / 10 && wrong > all / 4, "{right} {wrong}");
}

#[test]
fn quiet_edges_in_records() {
    let mut random = random(19);
    let mut translator = Translator::default();
    for i in 0..policies(2_000) {
        let p = random.policy(&shape(i));
        let edges = p.edges.len();
        // any number but 0 says that an edge is quiet, and that a set is in the family
        let mut record = p.record();
        for byte in record[132..].iter_mut().filter(|b| **b == 1) {
            *byte = 1 + random.below(255) as u8;
        }
        legal(&mut translator, &record, &p);
        // the other edges with colour 0 quiet too
        let mut q = p.clone();
        for (e, edge) in q.edges.iter_mut().enumerate() {
            if edge.1 == Some(0) && random.chance(50) {
                record[388 + e] = 1 + random.below(255) as u8;
                edge.1 = None;
            }
        }
        legal(&mut translator, &record, &q);
        let mut wrong = |at: usize, bytes: [u8; 2]| {
            let mut record = record;
            record[388 + at] = bytes[0];
            record[68 + at] = bytes[1];
            not_legal(&mut random, &record, &p);
        };
        // a quiet edge with any other number as its colour
        let colours = [1, p.colours as u8 - 1, p.colours as u8, 255];
        for colour in colours.into_iter().filter(|&c| c > 0) {
            wrong(i as usize % edges, [1, colour]);
            wrong(i as usize % edges, [255, colour]);
        }
        // quiet past the last edge
        if edges < 64 {
            for at in [edges, 63, edges + i as usize % (64 - edges)] {
                wrong(at, [1, 0]);
                wrong(at, [128, 0]);
            }
        }
    }
}

/// A stem and a loop, now and then with a letter too many or an empty loop.
fn words(random: &mut Random, letters: usize) -> (Vec<u8>, Vec<u8>) {
    let wild = random.chance(10);
    let most = if wild { letters + 1 } else { letters };
    let (stem, mut period) = (random.letters(most, 9), random.letters(most, 12));
    if !random.chance(5) {
        period.push(random.below(most) as u8);
    }
    (stem, period)
}

#[test]
fn running_and_judging() {
    let mut random = random(15);
    let mut translator = Translator::default();
    // runs on quiet edges alone, rejected and accepted
    let mut quiet = [0; 2];
    for i in 0..policies(8_000) {
        let p = random.policy(&shape(i % 8));
        let Ok(a) = translator.translate(&p, 4096, 4096) else {
            continue;
        };
        let ours = proved(&p);
        let letters = p.letters;
        let states = a.states.len();
        let mut tables = OwnedTables::new(4096, states, a.rows.len(), 0);
        tables.fill(&mut translator, &p).unwrap();
        for _ in 0..8 {
            let (stem, period) = words(&mut random, letters);
            let text = format!("policy {} stem {stem:?} loop {period:?}", p.hex());
            let v = random.below(p.states + 1);
            let verdict = wulfrenda::judge_policy(&ours, v as u8, &stem, &period);
            let verdict = verdict.map(|x| (usize::from(x.colours), x.accepted));
            let theirs = judge::policy(&p, v, &stem, &period);
            alike(refusal(verdict), theirs, &text);
            if let Ok((0, accepted)) = theirs {
                quiet[usize::from(accepted)] += 1;
            }
            let s = random.below(states + 1);
            let rows = tables.rows(letters as u8);
            judged_alike(&rows, s, &stem, &period, &text);
            ran_alike(&rows, s, &stem, &text);
        }
        // rows that lead nowhere, other numbers of letters, tables of two lengths
        let at = random.below(tables.row_targets.len());
        tables.row_targets[at] = [states, 65_535][random.below(2)] as u16;
        let (stem, period) = words(&mut random, letters);
        let text = format!("policy {} row {at} stem {stem:?} loop {period:?}", p.hex());
        let s = random.below(states);
        judged_alike(&tables.rows(letters as u8), s, &stem, &period, &text);
        ran_alike(&tables.rows(letters as u8), s, &stem, &text);
        let other = tables.rows(random.below(11) as u8);
        judged_alike(&other, s, &stem, &period, &text);
        ran_alike(&other, s, &stem, &text);
        tables.row_priorities.pop();
        judged_alike(&tables.rows(letters as u8), s, &stem, &period, &text);
        ran_alike(&tables.rows(letters as u8), s, &stem, &text);
    }
    assert!(quiet.iter().all(|&n| n > policies(8_000) / 10), "{quiet:?}");
}

fn judged_alike(rows: &Rows, s: usize, stem: &[u8], period: &[u8], text: &str) {
    let letters = usize::from(rows.letters);
    let theirs = judge::rows(letters, rows.targets, rows.priorities, s, stem, period);
    let ours = wulfrenda::judge_rows(rows, s as u16, stem, period);
    alike(refusal(ours), theirs, format!("{text} state {s}"));
}

/// Reads the letters one at a time on both sides; a refused one leaves the run where it is.
fn ran_alike(rows: &Rows, s: usize, word: &[u8], text: &str) {
    let mut run = Run { state: s as u16 };
    for &letter in word {
        let ours = run.read(letter, rows).map(|(run, met)| (run.state, met));
        let letters = usize::from(rows.letters);
        let theirs = judge::step(letters, rows.targets, rows.priorities, run.state, letter);
        alike(refusal(ours), theirs, format!("{text} state {}", run.state));
        if let Ok((state, _)) = ours {
            run = Run { state };
        }
    }
}

/// The policy under other names of its colours.
fn renamed(random: &mut Random, p: &Policy) -> Policy {
    let mut names: Vec<usize> = (0..p.colours).collect();
    for i in (1..names.len()).rev() {
        names.swap(i, random.below(i + 1));
    }
    let mut q = p.clone();
    for edge in &mut q.edges {
        edge.1 = edge.1.map(|c| names[c]);
    }
    for (set, &member) in p.family.iter().enumerate() {
        let other = (0..p.colours).filter(|c| set >> c & 1 == 1);
        q.family[other.map(|c| 1 << names[c]).sum::<usize>()] = member;
    }
    q
}

/// Compares on both sides, and by the definitions where there are few edges.
fn compared_alike(p: &Policy, q: &Policy) -> Result<bool, u8> {
    let ours = refusal(wulfrenda::compare(&proved(p), &proved(q)));
    let text = format!("policies {} {}", p.hex(), q.hex());
    alike(ours, fast::compare(p, q), &text);
    if ours.is_ok() && p.edges.len() <= 6 {
        alike(ours, Ok(brute::same(p, q)), &text);
    }
    ours
}

#[test]
fn comparing() {
    let mut random = random(16);
    let mut answers = [0; 3];
    for i in 0..policies(6_000) {
        let p = random.policy(&shape(i));
        let mut q = renamed(&mut random, &p);
        let e = random.below(q.edges.len());
        match random.below(6) {
            0 => q.initial = random.below(q.states),
            1 | 2 => {
                let set = 1 + random.below(q.family.len() - 1);
                q.family[set] = !q.family[set];
            }
            3 => q.edges[e].1 = Some(random.below(q.colours)),
            4 => q.edges[e].0 = random.below(q.states),
            _ => q = random.policy(&shape(i % 4)),
        }
        let answer = compared_alike(&p, &q);
        answers[answer.map_or(2, usize::from)] += 1;
    }
    // each of the three answers came up
    assert!(
        answers.iter().all(|&n| n > policies(6_000) / 50),
        "{answers:?}"
    );
}

/// Whether some cycle is of quiet edges alone: states are taken away while they have no quiet edge to one that is left.
fn has_quiet_cycle(p: &Policy) -> bool {
    let mut left = vec![true; p.states];
    for _ in 0..p.states {
        for v in 0..p.states {
            let edges = &p.edges[v * p.letters..][..p.letters];
            left[v] &= edges.iter().any(|&(w, colour)| colour.is_none() && left[w]);
        }
    }
    left.contains(&true)
}

#[test]
fn comparing_policies_that_differ_in_quiet_edges_or_set_0() {
    let mut random = random(25);
    // of each: different, and the same
    let (mut by_set, mut by_edge) = ([0; 2], [0; 2]);
    for i in 0..policies(3_000) {
        let p = random.policy(&shape(i));
        let mut q = p.clone();
        q.family[0] = !p.family[0];
        let same = compared_alike(&p, &q);
        alike(same, Ok(!has_quiet_cycle(&p)), p.hex());
        by_set[usize::from(same == Ok(true))] += 1;
        let mut q = renamed(&mut random, &p);
        let e = random.below(q.edges.len());
        q.edges[e].1 = match q.edges[e].1 {
            None => Some(random.below(q.colours)),
            Some(_) => None,
        };
        let same = compared_alike(&p, &q);
        alike(compared_alike(&q, &p), same, p.hex());
        by_edge[usize::from(same == Ok(true))] += 1;
    }
    let some = policies(3_000) / 10;
    assert!(by_set.iter().all(|&n| n > some), "{by_set:?}");
    assert!(by_edge.iter().all(|&n| n > some), "{by_edge:?}");
}

/// Owners: the supervisor alone, the plant alone, or either at each state.
fn owners(random: &mut Random, states: usize) -> Vec<u8> {
    match random.below(6) {
        0 => vec![SUPERVISOR; states],
        1 => vec![PLANT; states],
        _ => (0..states)
            .map(|_| [SUPERVISOR, PLANT][random.below(2)])
            .collect(),
    }
}

/// What solving left in our tables and in the independent ones: the same but for the letters, and those win; after a refusal what there was, or 0.
fn left_alike(
    ours: &SolvedTables,
    theirs: &SolvedTables,
    before: &SolvedTables,
    (answer, letters, owners): (Result<Counts, u8>, usize, &[u8]),
    text: &str,
) {
    let same = match answer {
        Ok(counts) => {
            let checked = ours.check(counts.states.into(), letters as u8, owners);
            alike(checked, Ok(()), text);
            ours.decided_difference(theirs)
        }
        Err(number) => {
            let left = match number {
                9 | 10 | 16 | 17 => before.filled(0),
                _ => before.clone(),
            };
            alike(theirs.difference(&left), None, text);
            ours.difference(&left)
        }
    };
    alike(same, None, text);
}

/// Solves the policy of a record, legal or not, on both sides in tables like these: the solved ones.
fn record_solved_alike(
    solver: &mut Solver,
    record: &Record,
    owners: &[u8],
    before: &SolvedTables,
) -> Result<SolvedTables, u8> {
    let text = format!("record {} owners {owners:?}", hex(record));
    let (mut ours, mut theirs) = (before.clone(), before.clone());
    let answer = from_record(record)
        .ok_or(7)
        .and_then(|p| theirs.fill(solver, &p, owners).map(counts));
    let policy = wulfrenda::Policy::from_record(*record);
    alike(refusal(ours.solve(&policy, owners)), answer, &text);
    let letters = usize::from(record[1]);
    left_alike(&ours, &theirs, before, (answer, letters, owners), &text);
    answer.map(|_| ours)
}

fn solved_alike(
    solver: &mut Solver,
    p: &Policy,
    owners: &[u8],
    before: &SolvedTables,
) -> Result<SolvedTables, u8> {
    record_solved_alike(solver, &p.record(), owners, before)
}

/// Solves what command bytes give, on both sides in tables like these: the number, or 0.
fn bytes_solved_alike(
    solver: &mut Solver,
    bytes: &[u8],
    owners: &[u8],
    before: &SolvedTables,
) -> u8 {
    let text = format!("bytes {} owners {owners:?}", hex(bytes));
    let (mut ours, mut theirs) = (before.clone(), before.clone());
    let mut letters = 0;
    let expected = policy::read(bytes).and_then(|(p, end)| {
        letters = p.letters;
        let answer = theirs.fill(solver, &p, owners).map(counts);
        answer.map(|counts| (counts, end)).map_err(|n| (n, 0))
    });
    let answer = ours.solve_bytes(bytes, owners);
    let answer = answer
        .map(|(counts, rest)| (counts, bytes.len() - rest.len()))
        .map_err(|e| (e.number(), e.offset));
    alike(answer, expected, &text);
    let answer = answer.map(|x| x.0).map_err(|e| e.0);
    left_alike(&ours, &theirs, before, (answer, letters, owners), &text);
    answer.map_or_else(|number| number, |_| 0)
}

#[test]
fn solving() {
    let mut random = random(21);
    let (mut translator, mut solver) = (Translator::default(), Solver::default());
    let (mut games, mut won) = (0, [0; 2]);
    for i in 0..policies(12_000) {
        let p = random.policy(&shape(i));
        // larger forests have a test of their own
        let Ok(a) = translator.translate(&p, 5_000, 5_000) else {
            continue;
        };
        let (nodes, states) = (a.nodes.len(), a.states.len());
        let built = states;
        let longer = (nodes + random.below(9), states + random.below(9));
        let mut alike = |(nodes, states), number| {
            let owners = owners(&mut random, p.states);
            let tables = SolvedTables::new(nodes, states, states * p.letters, 0xa5);
            let by_bytes = bytes_solved_alike(&mut solver, &p.bytes(), &owners, &tables);
            assert_eq!(by_bytes, number);
            match solved_alike(&mut solver, &p, &owners, &tables) {
                Err(other) => assert_eq!(other, number),
                Ok(solved) => {
                    games += 1;
                    for player in [SUPERVISOR, PLANT] {
                        let wins = solved.state_winners[..built].contains(&player);
                        won[usize::from(player)] += u64::from(wins);
                    }
                }
            }
        };
        alike((nodes, states), 0);
        alike(longer, 0);
        alike((nodes, states - 1), 10);
        if nodes > 0 {
            alike((nodes - 1, states), 9);
            alike((nodes - 1, states - 1), 9);
        }
    }
    // most fitted, and each player won somewhere
    assert!(games > policies(12_000), "{games}");
    assert!(won.iter().all(|&n| n > games / 4), "{won:?} of {games}");
}

#[test]
fn solving_from_command_bytes() {
    let mut random = random(22);
    let mut solver = Solver::default();
    let mut answers = [0; 18];
    for i in 0..policies(12_000) {
        let p = random.policy(&shape(i));
        let mut bytes = p.bytes();
        bytes.extend((0..random.below(6)).map(|b| b as u8));
        let (nodes, states) = (random.below(60), random.below(120));
        // now and then row tables that do not belong to the others, and owners that are too many or none
        let rows = states * p.letters + usize::from(random.chance(5));
        let tables = SolvedTables::new(nodes, states, rows, 0xa5);
        let many = p.states + usize::from(random.chance(10));
        let mut owners = owners(&mut random, many);
        if random.chance(10) {
            let v = random.below(owners.len());
            owners[v] = 2 + random.below(254) as u8;
        }
        for bytes in [damaged(&mut random, bytes.clone()), bytes] {
            let answer = bytes_solved_alike(&mut solver, &bytes, &owners, &tables);
            answers[usize::from(answer)] += 1;
        }
    }
    // every answer of the call came up but 7: what was read is legal
    let others = [0, 1, 2, 3, 4, 5, 6, 8, 9, 10, 16, 17];
    assert!(others.iter().all(|&n| answers[n] > 0), "{answers:?}");
    let all: u64 = others.iter().map(|&n| answers[n]).sum();
    assert_eq!(all, 2 * policies(12_000), "{answers:?}");
}

/// The policy's record, no longer legal.
fn illegal(random: &mut Random, p: &Policy) -> Record {
    let mut record = p.record();
    let (edges, e) = (p.edges.len(), random.below(p.edges.len()));
    match random.below(6) {
        0 => record[3] = record[0],
        1 => record[4 + e] = record[0],
        2 => record[68 + e] = record[2],
        3 => (record[68 + e], record[388 + e]) = (1, 1),
        4 if edges < 64 => record[388 + edges + random.below(64 - edges)] = 1,
        _ if p.colours < 8 => record[132 + (1 << p.colours)] = 1,
        _ => record[2] = 9,
    }
    record
}

/// One of the nine tables a place longer or shorter.
fn spoil(random: &mut Random, tables: &mut SolvedTables) {
    fn resize<T: Clone + Default>(table: &mut Vec<T>, longer: bool) {
        let places = if longer || table.is_empty() {
            table.len() + 1
        } else {
            table.len() - 1
        };
        table.resize(places, T::default());
    }
    let longer = random.chance(50);
    match random.below(11) {
        0 => resize(&mut tables.seven.node_masks, longer),
        1 => resize(&mut tables.seven.node_parents, longer),
        2 => resize(&mut tables.seven.node_priorities, longer),
        3 => resize(&mut tables.seven.state_sources, longer),
        4 => resize(&mut tables.seven.state_leaves, longer),
        5 => resize(&mut tables.seven.row_targets, longer),
        6 => resize(&mut tables.seven.row_priorities, longer),
        7 | 8 => resize(&mut tables.state_winners, longer),
        _ => resize(&mut tables.state_letters, longer),
    }
}

#[test]
fn solving_asks_its_questions_in_order() {
    let mut random = random(23);
    let (mut translator, mut solver) = (Translator::default(), Solver::default());
    const NUMBERS: [u8; 6] = [7, 8, 9, 10, 16, 17];
    let mut answers = [0; 18];
    for i in 0..policies(12_800) {
        // every choice of questions with the answer "no", one after the other
        let no = |number| i >> NUMBERS.iter().position(|&n| n == number).unwrap() & 1 == 1;
        let p = random.policy(&shape(i / 64 % 8));
        let Ok(a) = translator.translate(&p, 500, 500) else {
            continue;
        };
        let (mut nodes, mut states) = (a.nodes.len(), a.states.len());
        if no(9) && nodes == 0 {
            continue;
        }
        if no(9) {
            nodes -= 1;
        } else {
            nodes += random.below(2);
        }
        if no(10) {
            states -= 1;
        } else {
            states += random.below(2);
        }
        let mut tables = SolvedTables::new(nodes, states, states * p.letters, 0xa5);
        if no(8) {
            spoil(&mut random, &mut tables);
        }
        let many = if no(16) {
            [0, p.states - 1, p.states + 1, p.states + 300][random.below(4)]
        } else {
            p.states
        };
        let mut owners = owners(&mut random, many);
        if no(17) && many > 0 {
            owners[random.below(many)] = 2 + random.below(254) as u8;
        }
        let first = NUMBERS.into_iter().find(|&n| no(n)).unwrap_or(0);
        let record = if no(7) {
            illegal(&mut random, &p)
        } else {
            p.record()
        };
        let text = format!("record {} owners {owners:?}", hex(&record));
        let answer = record_solved_alike(&mut solver, &record, &owners, &tables);
        alike(answer.map_or_else(|n| n, |_| 0), first, &text);
        if !no(7) {
            let answer = bytes_solved_alike(&mut solver, &p.bytes(), &owners, &tables);
            alike(answer, first, &text);
        }
        answers[usize::from(first)] += 1;
    }
    // each came up, the last ones after a yes to all before them
    let mut all = NUMBERS.into_iter().chain([0]);
    assert!(all.all(|n| answers[usize::from(n)] > 0), "{answers:?}");
}

#[test]
fn solving_with_owners_that_are_none() {
    let p = policy::read(&unhex(&text_of("examples/plant.hex")))
        .unwrap()
        .0;
    let mut solver = Solver::default();
    let tables = SolvedTables::new(113, 179, 179 * p.letters, 0xa5);
    let mut answer = |owners: &[u8]| {
        let answer = solved_alike(&mut solver, &p, owners, &tables);
        let answer = answer.map_or_else(|number| number, |_| 0);
        let by_bytes = bytes_solved_alike(&mut solver, &p.bytes(), owners, &tables);
        assert_eq!(answer, by_bytes);
        answer
    };
    for many in 0..=2 * p.states {
        for owner in [SUPERVISOR, PLANT, 2, 255] {
            let right = match owner {
                _ if many != p.states => 16,
                SUPERVISOR | PLANT => 0,
                _ => 17,
            };
            assert_eq!(answer(&vec![owner; many]), right);
        }
    }
    for v in 0..p.states {
        for owner in 0..=255 {
            let mut owners = vec![PLANT; p.states];
            owners[v] = owner;
            assert_eq!(answer(&owners), if owner <= PLANT { 0 } else { 17 });
        }
    }
}

/// A file of the repository.
fn text_of(path: &str) -> String {
    fs::read_to_string(root().join(path)).unwrap_or_else(|e| panic!("{path}: {e}"))
}

#[test]
fn solving_on_large_forests() {
    let mut random = random(24);
    let mut solver = Solver::default();
    let stored = |name: &str| {
        let text = text_of(&format!("tests/comparison/policies/{name}.hex"));
        policy::read(&unhex(&text)).unwrap().0
    };
    // as many places as can count, or one more
    let tables = |p: &Policy, places| SolvedTables::new(places, places, places * p.letters, 0xa5);
    for name in [
        "nodes_1000",
        "nodes_10000",
        "nodes_65535",
        "nodes_65535_quiet",
        "states_1000",
        "states_65535",
        "negative",
    ] {
        let p = stored(name);
        for places in [65_535, 65_536] {
            let owners = owners(&mut random, p.states);
            let tables = tables(&p, places);
            solved_alike(&mut solver, &p, &owners, &tables).unwrap();
            let answer = bytes_solved_alike(&mut solver, &p.bytes(), &owners, &tables);
            assert_eq!(answer, 0, "{name} {owners:?}");
        }
    }
    let p = stored("game_hard");
    let owners = unhex(&text_of("tests/comparison/policies/game_hard.owners"));
    let tables_of_p = tables(&p, 65_535);
    let answer = bytes_solved_alike(&mut solver, &p.bytes(), &owners, &tables_of_p);
    assert_eq!(answer, 0);
    for name in ["too_many", "too_many_quiet"] {
        let p = stored(name);
        for places in [65_535, 65_536] {
            let owners = vec![SUPERVISOR; p.states];
            let answer = solved_alike(&mut solver, &p, &owners, &tables(&p, places));
            assert_eq!(answer, Err(9), "{name}");
        }
    }
}

#[test]
fn the_order_of_the_colour_sets() {
    let mut sets: Vec<u8> = (0..=255).collect();
    sets.sort_by_key(|s| (std::cmp::Reverse(s.count_ones()), *s));
    for (position, &set) in sets.iter().enumerate() {
        assert_eq!(wulfrenda::colour_set_at(position as u8), set);
        assert_eq!(policy::set_at(position as u8), set);
    }
}
