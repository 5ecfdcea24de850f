//! The independent ways to translate agree with each other, with quiet edges and without, and all with document 01's listing of policy B. The solver agrees with what comes of trying all letters, and so
//! does the check of solutions, on right ones and on wrong ones.

use independent::fast::{Search, Translator};
use independent::policy::{from_record, Policy};
use independent::random::{kind, Family, Random, Shape};
use independent::solve::{Solver, NO_LETTER};
use independent::{alike, brute, check, fast, judge, policy, Automaton, Node, Tables, NONE};

/// A policy of at most 12 edges in every way that there is: read, as a record, translated, judged. What all translators give.
fn agreed(random: &mut Random, kept: &mut Policy, p: &Policy) -> Automaton {
    let (bytes, text) = (p.bytes(), p.hex());
    assert!(p.is_legal(), "{text}");
    alike(policy::read(&bytes), Ok((p.clone(), bytes.len())), &text);
    alike(kept.read(&bytes), Ok(bytes.len()), &text);
    alike(&*kept, p, &text);
    alike(from_record(&p.record()).as_ref(), Some(p), &text);
    let slow = brute::translate(p);
    let quick = fast::translate(p, 100_000, 100_000).unwrap();
    alike(&slow, &quick, &text);
    for search in Search::ALL {
        let mut translator = Translator::new(search);
        let quick = translator.translate(p, 100_000, 100_000);
        alike(Ok(&slow), quick, format!("{text} {search:?}"));
    }
    let targets: Vec<u16> = quick.rows.iter().map(|r| r.0).collect();
    let priorities: Vec<u8> = quick.rows.iter().map(|r| r.1).collect();
    for _ in 0..5 {
        let (stem, mut period) = (random.letters(p.letters, 5), random.letters(p.letters, 7));
        period.push(random.below(p.letters) as u8);
        let s = random.below(quick.states.len());
        let v = quick.states[s].0 as usize;
        let judged = judge::policy(p, v, &stem, &period).unwrap();
        let text = format!("{text} {v} {stem:?} {period:?}");
        let recurring = p.colours_of(recurring(p, v, &stem, &period));
        alike(judged, (recurring, p.family[recurring]), &text);
        let least = judge::rows(p.letters, &targets, &priorities, s, &stem, &period).unwrap();
        alike(judged.1, least % 2 == 0, text);
    }
    slow
}

/// The edges that recur: after as many rounds as there are states the run is in its loop, and as many more go round it.
fn recurring(p: &Policy, state: usize, stem: &[u8], period: &[u8]) -> u64 {
    let mut v = state;
    let mut edge = |letter: &u8| {
        let e = v * p.letters + usize::from(*letter);
        v = p.edges[e].0;
        1 << e
    };
    for letter in stem {
        edge(letter);
    }
    let mut rounds = || {
        let letters = (0..p.states).flat_map(|_| period);
        letters.fold(0, |mask, a| mask | edge(a))
    };
    rounds();
    rounds()
}

#[test]
fn both_ways_agree() {
    let mut random = Random::new(1);
    let mut kept = Policy::default();
    let mut kinds = [0; 4];
    for i in 0..1_000 {
        let shape = [Shape::any, Shape::parts][i % 2];
        let p = random.policy(&shape(if i % 50 < 2 { 12 } else { 8 }));
        let a = agreed(&mut random, &mut kept, &p);
        assert!(!p.family[0] && p.edges.iter().all(|e| e.1.is_some()));
        assert!(a.levels() <= p.colours, "{}", p.hex());
        if let Some(kind) = kind(&p, &a) {
            kinds[kind as usize] += 1;
        }
        let mut q = p.clone();
        for edge in &mut q.edges {
            edge.1 = Some(random.below(q.colours));
        }
        compared_alike(&p, &q);
    }
    // each kind of numbering came up
    assert!(kinds.iter().all(|&n| n > 20), "{kinds:?}");
}

#[test]
fn both_searches_agree_on_larger_policies() {
    let mut random = Random::new(14);
    let mut translators = Search::ALL.map(Translator::new);
    // policies that fit, and those that have no place
    let (mut fitting, mut nodes) = ([0; 2], 0);
    for i in 0..2_000 {
        let shape = match i % 3 {
            0 => Shape::any(64),
            1 => Shape::parts(64),
            // few sets of one verdict
            _ => Shape {
                colours: 7..=8,
                family: Family::Chance([2, 98][i % 2]),
                ..Shape::any(64)
            },
        };
        let shape = if i % 4 < 2 { shape } else { shape.with_quiet() };
        let p = random.policy(&shape);
        let [first, second] = &mut translators;
        let first = first.translate(&p, 500, 1_500);
        alike(first, second.translate(&p, 500, 1_500), p.hex());
        fitting[usize::from(first.is_ok())] += 1;
        nodes += first.map_or(0, |a| a.nodes.len());
    }
    assert!(fitting.iter().all(|&n| n > 50), "{fitting:?}");
    assert!(nodes > 20_000, "{nodes}");
}

/// Compares two policies of one graph in both ways, if they are small.
fn compared_alike(p: &Policy, q: &Policy) -> Option<bool> {
    (p.edges.len() <= 8).then(|| {
        let same = brute::same(p, q);
        let text = format!("{} and {}", p.hex(), q.hex());
        alike(Ok(same), fast::compare(p, q), &text);
        alike(fast::compare(q, p), Ok(same), text);
        same
    })
}

#[test]
fn both_ways_agree_on_quiet_edges() {
    let mut random = Random::new(12);
    let mut kept = Policy::default();
    let (mut kinds, mut verdicts) = ([0; 4], [0; 2]);
    // policies with no quiet edge, some, and no other; with a level more than colours
    let (mut shares, mut deeper) = ([0; 3], 0);
    // nodes of quiet edges alone: roots and others, rejecting and accepting
    let mut nodes = [[0; 2]; 2];
    for i in 0..2_000 {
        let shape = [Shape::any, Shape::parts][i % 2];
        let mut shape = shape(if i % 50 < 2 { 12 } else { 8 }).with_quiet();
        if i % 4 < 2 {
            shape.colours = 1..=2;
        }
        let p = random.policy(&shape);
        let a = agreed(&mut random, &mut kept, &p);
        let quiet = p.edges.iter().filter(|e| e.1.is_none()).count();
        shares[usize::from(quiet > 0) + usize::from(quiet == p.edges.len())] += 1;
        assert!(a.levels() <= p.colours + usize::from(quiet > 0));
        deeper += usize::from(a.levels() > p.colours);
        for node in a.nodes.iter().filter(|n| p.colours_of(n.mask) == 0) {
            let accepting = node.priority % 2 == 0;
            alike(accepting, p.family[0], p.hex());
            nodes[usize::from(node.parent != NONE)][usize::from(accepting)] += 1;
        }
        if let Some(kind) = kind(&p, &a) {
            kinds[kind as usize] += 1;
        }
        let mut q = p.clone();
        q.family[0] ^= random.chance(50);
        for edge in &mut q.edges {
            if random.chance(20) {
                edge.1 = random.chance(50).then(|| random.below(p.colours));
            }
        }
        if let Some(same) = compared_alike(&p, &q) {
            verdicts[usize::from(same)] += 1;
        }
    }
    assert!(kinds.iter().all(|&n| n > 20), "{kinds:?}");
    assert!(shares.iter().all(|&n| n > 200), "{shares:?}");
    assert!(deeper > 100, "{deeper}");
    assert!(nodes.iter().flatten().all(|&n| n > 100), "{nodes:?}");
    assert!(verdicts.iter().all(|&n| n > 200), "{verdicts:?}");
}

/// Two states joined by quiet edges, four loops at each with a colour of its own. A set is accepted by the parity of its least colour, and set 0 other than colour 7
/// alone: in turn the cycles with all colours, with those from 1 on, from 2 on, to that of the two quiet edges.
fn nine_levels(accepting: bool) -> Policy {
    let edge = |e: usize| match (e / 5, e % 5) {
        (v, 4) => (1 - v, None),
        (v, a) => (v, Some(4 * v + a)),
    };
    let verdict = |set: usize| (set | 1 << 8).trailing_zeros() % 2 == u32::from(!accepting);
    Policy {
        states: 2,
        letters: 5,
        colours: 8,
        initial: 0,
        edges: (0..10).map(edge).collect(),
        family: (0..256).map(verdict).collect(),
    }
}

#[test]
fn eight_colours_and_nine_levels() {
    let masks = [1023, 1022, 1020, 1016, 1008, 976, 912, 784, 528];
    for (accepting, first) in [(true, 0), (false, 1)] {
        let p = nine_levels(accepting);
        let a = agreed(&mut Random::new(13), &mut Policy::default(), &p);
        let nodes = (0..9).map(|n| Node {
            mask: masks[n],
            parent: (n as u16).checked_sub(1).unwrap_or(NONE),
            priority: first + n as u8,
        });
        alike(a.nodes, nodes.collect(), p.hex());
        assert_eq!(a.states, [(0, 8), (1, 8)]);
        // a loop meets the priority of the last node that has it, and a quiet edge that of the last of all
        let met: Vec<u8> = a.rows.iter().map(|row| row.1 - first).collect();
        assert_eq!(met, [0, 1, 2, 3, 8, 4, 5, 6, 7, 8]);
    }
}

#[test]
fn a_quiet_loop_beside_one_with_a_colour() {
    // letter 0 is quiet, letter 1 has colour 0
    let read = |family: &[u8]| {
        let mut bytes = vec![1, 1, 2, 1, 0, 4, 0, 0, 0, 2, 0, 1, 0, 0];
        bytes.extend(family.iter().flat_map(|&set| [3, set]));
        bytes.push(0);
        policy::read(&bytes).unwrap().0
    };
    let listing = |family: &[u8]| {
        let p = read(family);
        let a = agreed(&mut Random::new(14), &mut Policy::default(), &p);
        a.listing(p.letters)
    };
    let one =
        |k| format!("nodes 1 states 1\nn 0 3 - {k}\ns 0 0 0\nt 0 0 0 {k}\nt 0 1 0 {k}\nstart 0\n");
    let two = |k, l| {
        format!("nodes 2 states 1\nn 0 3 - {k}\nn 1 1 0 {l}\ns 0 0 1\nt 0 0 0 {l}\nt 0 1 0 {k}\nstart 0\n")
    };
    assert_eq!(listing(&[]), one(1));
    assert_eq!(listing(&[0]), two(1, 2));
    assert_eq!(listing(&[1]), two(0, 1));
    assert_eq!(listing(&[0, 1]), one(0));
    // stem, loop, and the colours that recur
    for (stem, period, colours) in [
        (&[][..], &[0][..], 0),
        (&[1, 1], &[0, 0], 0),
        (&[], &[0, 1], 1),
        (&[0], &[1], 1),
    ] {
        for family in [&[][..], &[0], &[1], &[0, 1]] {
            let accepted = family.contains(&(colours as u8));
            let judged = judge::policy(&read(family), 0, stem, period);
            assert_eq!(judged, Ok((colours, accepted)));
        }
    }
}

#[test]
fn questions_about_quiet_edges() {
    let shape = [1, 2, 1, 1, 0];
    let answer = |rest: &[u8]| match policy::read(&[&shape, rest].concat()) {
        Ok((p, end)) => Ok((p.edges, p.family, end)),
        Err((number, at)) => Err((number, at)),
    };
    let read = |edges: [(usize, Option<usize>); 2], family: [bool; 2], end| {
        Ok((edges.to_vec(), family.to_vec(), end))
    };
    let (quiet, colour) = ((1, None), (1, Some(0)));
    assert_eq!(
        answer(&[4, 1, 0, 1, 4, 0, 0, 1, 0, 9]),
        read([quiet, quiet], [false, false], 14)
    );
    assert_eq!(
        answer(&[3, 0, 4, 1, 0, 1, 3, 1, 2, 0, 0, 1, 0, 0]),
        read([colour, quiet], [true, true], 19)
    );
    // in the order of the questions
    assert_eq!(answer(&[5]), Err((2, 5)));
    assert_eq!(answer(&[4, 9, 9]), Err((1, 5)));
    assert_eq!(policy::read(&[4, 9, 9, 9]).map(drop), Err((3, 0)));
    assert_eq!(policy::read(&[4, 9, 9]).map(drop), Err((1, 0)));
    for (operands, number) in [
        ([2, 0, 0], 4),
        ([0, 1, 0], 4),
        ([0, 0, 2], 4),
        ([0, 0, 0], 5),
        ([0, 0, 1], 5),
    ] {
        let [state, letter, target] = operands;
        let again = [4, state, letter, target];
        for first in [&[4, 0, 0, 0][..], &[2, 0, 0, 0, 0]] {
            let answer = answer(&[first, &again].concat());
            assert_eq!(answer, Err((number, 5 + first.len())));
        }
    }
    assert_eq!(answer(&[4, 0, 0, 0, 2, 0, 0, 0, 0]), Err((5, 9)));
    assert_eq!(answer(&[4, 0, 0, 0, 2, 0, 0, 0, 1]), Err((4, 9)));
    assert_eq!(answer(&[3, 0, 3, 0]), Err((5, 7)));
    assert_eq!(answer(&[3, 2]), Err((4, 5)));
    assert_eq!(answer(&[4, 0, 0, 0, 0]), Err((6, 9)));
    assert_eq!(answer(&[4, 0, 0, 0, 3, 0]), Err((1, 11)));
}

#[test]
fn policies_that_are_not_legal() {
    let p = nine_levels(true);
    let answer = |change: fn(&mut Policy)| {
        let mut p = p.clone();
        change(&mut p);
        let tables = Tables {
            node_masks: &mut [0; 9],
            node_parents: &mut [0; 9],
            node_priorities: &mut [0; 9],
            state_sources: &mut [0; 2],
            state_leaves: &mut [0; 2],
            row_targets: &mut [0; 10],
            row_priorities: &mut [0; 10],
        };
        let mut translator = Translator::default();
        let filled = translator.fill(&p, tables).map(drop);
        let judged = judge::policy(&p, 0, &[], &[0]).map(drop);
        assert_eq!(judged, filled);
        for compared in [fast::compare(&p, &p), fast::compare(&p, &nine_levels(true))] {
            assert_eq!(compared.map(drop), filled);
        }
        filled
    };
    assert_eq!(answer(|_| {}), Ok(()));
    // an edge that is quiet or no longer so, and set 0, are no reason
    assert_eq!(answer(|p| p.edges[4].1 = Some(7)), Ok(()));
    assert_eq!(answer(|p| p.family[0] = false), Ok(()));
    for change in [
        (|p| p.initial = 2) as fn(&mut Policy),
        |p| p.edges[4].0 = 2,
        |p| p.edges[4].1 = Some(8),
        |p| p.family.push(true),
        |p| p.edges.push((0, None)),
        |p| p.colours = 9,
        |p| p.colours = 0,
    ] {
        assert_eq!(answer(change), Err(7));
    }
}

#[test]
fn legal_records_with_quiet_edges() {
    // two states with a loop each, the first of colour 1, the second quiet
    let p = Policy {
        states: 2,
        letters: 1,
        colours: 2,
        initial: 0,
        edges: vec![(0, Some(1)), (1, None)],
        family: vec![true, false, true, false],
    };
    let record = p.record();
    assert_eq!(from_record(&record).as_ref(), Some(&p));
    let with = |changes: &[(usize, u8)]| {
        let mut record = record;
        for &(at, byte) in changes {
            record[at] = byte;
        }
        from_record(&record)
    };
    // what is not 0 says that an edge is quiet, and that a set is in the family
    assert_eq!(with(&[(389, 255), (132, 7)]), Some(p.clone()));
    let mut other = p.clone();
    other.edges = vec![(0, None), (1, Some(1))];
    other.family[0] = false;
    let changes = [(68, 0), (388, 2), (69, 1), (389, 0), (132, 0)];
    assert_eq!(with(&changes), Some(other));
    // a quiet edge with a colour, and quiet ones past the last edge
    assert_eq!(with(&[(388, 1)]), None);
    assert_eq!(with(&[(69, 1)]), None);
    for e in 2..64 {
        for byte in [1, 2, 255] {
            assert_eq!(with(&[(388 + e, byte)]), None);
        }
    }
}

#[test]
fn policy_b_prints_as_document_01_shows() {
    let bytes = [
        1, 2, 2, 2, 0, 2, 0, 0, 0, 0, 2, 0, 1, 1, 1, 2, 1, 0, 0, 0, 2, 1, 1, 1, 1, 3, 1, 3, 2, 0,
    ];
    let (p, end) = policy::read(&bytes).unwrap();
    assert_eq!(end, bytes.len());
    let shown = "nodes 3 states 2\nn 0 15 - 1\nn 1 1 0 2\nn 2 8 0 2\ns 0 0 1\ns 1 1 2\nt 0 0 0 2\nt 0 1 1 1\nt 1 0 0 1\nt 1 1 1 2\nstart 0\n";
    assert_eq!(brute::translate(&p).listing(2), shown);
    for search in Search::ALL {
        let mut translator = Translator::new(search);
        assert_eq!(translator.translate(&p, 3, 2).unwrap().listing(2), shown);
        assert_eq!(translator.translate(&p, 2, 2), Err(9));
        assert_eq!(translator.translate(&p, 3, 1), Err(10));
    }
}

/// A game on rows: letters, rows, and the owner of each state.
struct Game {
    letters: usize,
    rows: Vec<(u16, u8)>,
    owners: Vec<u8>,
}

impl Game {
    /// Up to so many states, few letters, some priorities; targets anywhere, or near their sources.
    fn any(random: &mut Random, most: usize) -> Game {
        let (states, letters) = (1 + random.below(most), 1 + random.below(3));
        let (first, priorities) = (random.below(3), 1 + random.below(8));
        let reach = [states, 3][random.below(2)];
        let mut row = |row: usize| {
            let target = (row / letters + states + 1 - random.below(reach)) % states;
            (target as u16, (first + random.below(priorities)) as u8)
        };
        let rows = (0..states * letters).map(&mut row).collect();
        Game {
            letters,
            rows,
            owners: owners(random, states),
        }
    }

    /// The game of a small policy, if that has few built states.
    fn built(random: &mut Random) -> Option<Game> {
        let shape = match random.below(2) {
            0 => Shape::any(12),
            _ => Shape::any(12).with_quiet(),
        };
        let p = random.policy(&shape);
        let a = fast::translate(&p, 100, 100).ok()?;
        let of_policy = owners(random, p.states);
        let game = Game {
            letters: p.letters,
            owners: a.states.iter().map(|s| of_policy[s.0 as usize]).collect(),
            rows: a.rows,
        };
        let choices = (p.letters as u64).checked_pow(game.owners.len() as u32)?;
        (choices <= 5_000).then_some(game)
    }

    fn solved(&self, solver: &mut Solver) -> (Vec<u8>, Vec<u8>) {
        let states = self.owners.len();
        let (mut winners, mut choice) = (vec![7; states], vec![7; states]);
        solver.solve(
            self.letters,
            &self.rows,
            &self.owners,
            &mut winners,
            &mut choice,
        );
        (winners, choice)
    }

    fn check(&self, winners: &[u8], choice: &[u8]) -> Result<(), String> {
        let targets: Vec<u16> = self.rows.iter().map(|r| r.0).collect();
        let priorities: Vec<u8> = self.rows.iter().map(|r| r.1).collect();
        let game = check::Game {
            letters: self.letters,
            targets: &targets,
            priorities: &priorities,
            owners: &self.owners,
        };
        check::solution(&game, winners, choice)
    }

    fn text(&self) -> String {
        let Game {
            letters,
            rows,
            owners,
        } = self;
        format!("letters {letters} rows {rows:?} owners {owners:?}")
    }
}

/// Random owners, or one for all.
fn owners(random: &mut Random, states: usize) -> Vec<u8> {
    match random.below(8) {
        0 => vec![0; states],
        1 => vec![1; states],
        _ => (0..states).map(|_| random.below(2) as u8).collect(),
    }
}

#[test]
fn solver_and_trying_all_letters_agree() {
    let mut random = Random::new(5);
    let mut solver = Solver::default();
    let mut won = [0; 2];
    for i in 0..8_000 {
        let game = match i % 2 {
            0 => Game::any(&mut random, 6),
            _ => match Game::built(&mut random) {
                Some(game) => game,
                None => continue,
            },
        };
        let (winners, choice) = game.solved(&mut solver);
        let text = game.text();
        for player in 0..2 {
            let ours: Vec<bool> = winners.iter().map(|&x| x == player).collect();
            let all = brute::wins(game.letters, &game.rows, &game.owners, player);
            won[player as usize] += all.iter().filter(|&&x| x).count();
            alike(ours, all, format!("{text} player {player}"));
        }
        alike(game.check(&winners, &choice), Ok(()), text);
    }
    assert!(won.iter().all(|&n| n > 2_000), "{won:?}");
}

#[test]
fn solutions_of_larger_games_are_right() {
    let mut random = Random::new(7);
    let mut solver = Solver::default();
    let mut both = 0;
    for _ in 0..3_000 {
        let game = Game::any(&mut random, 300);
        let (winners, choice) = game.solved(&mut solver);
        alike(game.check(&winners, &choice), Ok(()), game.text());
        both += usize::from(winners.contains(&0) && winners.contains(&1));
    }
    // in many each player wins somewhere
    assert!(both > 500, "{both}");
}

#[test]
fn wrong_solutions_are_refused() {
    let mut random = Random::new(6);
    let mut solver = Solver::default();
    // letters that were changed: those that win too, and those that do not
    let mut changed = [0; 2];
    for _ in 0..3_000 {
        let game = Game::any(&mut random, 6);
        let (winners, choice) = game.solved(&mut solver);
        let s = random.below(winners.len());
        let text = format!("{} state {s}", game.text());
        let refused = |winners: &[u8], choice: &[u8]| {
            assert!(game.check(winners, choice).is_err(), "{text}");
        };
        // another winner, with a letter if it owns the state; a winner that is none
        let mut other = winners.clone();
        other[s] = 1 - winners[s];
        for letter in (0..game.letters as u8).chain([NO_LETTER]) {
            let mut with = choice.clone();
            with[s] = letter;
            refused(&other, &with);
        }
        other[s] = 2 + random.below(254) as u8;
        refused(&other, &choice);
        // a letter where there should be none, and none where there should be one; one that is none
        let mut other = choice.clone();
        other[s] = if choice[s] == NO_LETTER { 0 } else { NO_LETTER };
        refused(&winners, &other);
        other[s] = game.letters as u8 + random.below(255 - game.letters) as u8;
        refused(&winners, &other);
        // tables of other lengths
        refused(&winners[1..], &choice);
        refused(&winners, &choice[1..]);
        // other letters: right only if they win
        for letter in 0..game.letters as u8 {
            if choice[s] != NO_LETTER && letter != choice[s] {
                let mut other = choice.clone();
                other[s] = letter;
                let right = brute::solved(game.letters, &game.rows, &game.owners, &winners, &other);
                alike(game.check(&winners, &other).is_ok(), right, &text);
                changed[right as usize] += 1;
            }
        }
    }
    assert!(changed.iter().all(|&n| n > 300), "{changed:?}");
}

#[test]
fn one_policy_state_has_one_winner() {
    assert_eq!(check::one_winner(&[], &[]), Ok(()));
    assert_eq!(check::one_winner(&[0, 0, 1, 3], &[1, 1, 0, 1]), Ok(()));
    assert!(check::one_winner(&[0, 0, 1, 3], &[1, 0, 0, 1]).is_err());
    assert!(check::one_winner(&[0, 1, 3, 3], &[0, 0, 0, 1]).is_err());
}
