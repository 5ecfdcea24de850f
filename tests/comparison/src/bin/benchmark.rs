//! The proved library and the fast independent translator, solver and reader side by side: the same policies, the same work, the best of several rounds. Prints tables.

use comparison::times::{least_times, text as time, Independent, Times, Translation};
use comparison::{unhex, OwnedTables, SolvedTables};
use independent::policy::{self, Policy};
use independent::random::{Family, Quiet, Random, Shape, Targets};
use independent::solve::Solver;
use independent::{fast, hanoi, judge};
use std::hint::black_box;
use std::ops::RangeInclusive;
use std::time::{Duration, Instant};
use wulfrenda::Run;

/// At least seven rounds, or three where they are long.
fn another_round(rounds: usize, spent: Duration) -> bool {
    let within = |ms| spent < Duration::from_millis(ms);
    rounds < 3 || within(600) || rounds < 7 && within(3_000)
}

/// The least time of one call, in nanoseconds. The two are called in turn, so that both see the same machine.
fn best(mut ours: impl FnMut(), mut theirs: impl FnMut()) -> (f64, f64) {
    let mut least = [f64::MAX; 2];
    let begin = Instant::now();
    let mut rounds = 0;
    while another_round(rounds, begin.elapsed()) {
        let t = Instant::now();
        ours();
        least[0] = least[0].min(t.elapsed().as_nanos() as f64);
        let t = Instant::now();
        theirs();
        least[1] = least[1].min(t.elapsed().as_nanos() as f64);
        rounds += 1;
    }
    (least[0], least[1])
}

fn ignore<T>(_: T) {}

/// From command bytes to the seven tables, for a list of policies, with the same questions on both sides. Each policy has the better of the independent searches.
fn translating(name: &str, policies: &[Policy]) {
    let mut independent = Independent::default();
    let translations = policies
        .iter()
        .map(|p| Translation::new(&mut independent, p));
    let mut translations: Vec<Translation> = translations.collect();
    let times = least_times(&mut independent, &mut translations, another_round);
    let nodes: usize = translations.iter().map(|t| t.nodes).sum();
    let rows: usize = translations.iter().map(|t| t.rows).sum();
    let sum = |time: fn(&Times) -> f64| -> f64 { times.iter().map(time).sum() };
    let (ours, each) = (sum(|t| t.ours), policies.len() as f64);
    println!(
        "| {name} | {} | {} | {} | {} | {} | {:.0} | {:.1} | {:.2} | {:.2} |",
        nodes / policies.len(),
        rows / policies.len(),
        time(ours / each),
        time(sum(|t| t.by_sets) / each),
        time(sum(|t| t.by_nodes) / each),
        ours / nodes as f64,
        ours / rows as f64,
        ours / sum(Times::independent),
        times.iter().map(Times::ratio).fold(0.0, f64::max),
    );
}

/// From command bytes and owners to the nine tables, for a list of games, with the same questions on both sides; and what of that is not translating.
fn solving(name: &str, games: &[(Policy, Vec<u8>)]) {
    let mut solver = Solver::default();
    let mut kept = Policy::default();
    let games: Vec<(Vec<u8>, &Vec<u8>)> = games.iter().map(|(p, o)| (p.bytes(), o)).collect();
    let (mut states, mut rows) = (0, 0);
    let mut ours: Vec<SolvedTables> = Vec::new();
    for (bytes, _) in &games {
        kept.read(bytes).unwrap();
        let a = fast::translate(&kept, 65_535, 65_535).unwrap();
        states += a.states.len();
        rows += a.rows.len();
        ours.push(SolvedTables::new(
            a.nodes.len(),
            a.states.len(),
            a.rows.len(),
            0,
        ));
    }
    let mut theirs = ours.clone();
    let rounds = (20_000 / rows).max(1);
    let solved = best(
        || {
            for _ in 0..rounds {
                for ((bytes, owners), t) in games.iter().zip(&mut ours) {
                    black_box(t.solve_bytes(black_box(bytes), owners)).unwrap();
                }
            }
        },
        || {
            for _ in 0..rounds {
                for ((bytes, owners), t) in games.iter().zip(&mut theirs) {
                    kept.read(black_box(bytes)).unwrap();
                    black_box(t.fill(&mut solver, &kept, owners)).unwrap();
                }
            }
        },
    );
    let mut translator = fast::Translator::default();
    let translated = best(
        || {
            for _ in 0..rounds {
                for ((bytes, _), t) in games.iter().zip(&mut ours) {
                    black_box(t.seven.translate_bytes(black_box(bytes))).unwrap();
                }
            }
        },
        || {
            for _ in 0..rounds {
                for ((bytes, _), t) in games.iter().zip(&mut theirs) {
                    kept.read(black_box(bytes)).unwrap();
                    black_box(t.seven.fill(&mut translator, &kept)).unwrap();
                }
            }
        },
    );
    let all = (rounds * games.len()) as f64;
    let alone = [solved.0 - translated.0, solved.1 - translated.1].map(|x| x.max(0.0));
    println!(
        "| {name} | {} | {} | {} | {} | {:.2} | {} | {} | {:.1} |",
        states / games.len(),
        rows / games.len(),
        time(solved.0 / all),
        time(solved.1 / all),
        solved.0 / solved.1,
        time(alone[0] / all),
        time(alone[1] / all),
        alone[0] / (rounds * rows) as f64,
    );
}

/// A line of the second table: what a call costs, and one of its steps.
fn line(name: &str, steps: usize, (ours, theirs): (f64, f64)) {
    println!(
        "| {name} | {} | {} | {:.2} | {:.2} |",
        time(ours),
        time(theirs),
        ours / steps as f64,
        ours / theirs
    );
}

/// Judging a policy from state 0, with no stem.
fn judging(name: &str, p: &Policy, period: &[u8]) {
    let ours = wulfrenda::Policy::from_record(p.record());
    // how many letters are read until the runs repeat is the same on both sides only in order of size; count the loop once
    line(
        name,
        period.len(),
        best(
            || {
                black_box(ignore(wulfrenda::judge_policy(
                    &ours,
                    0,
                    &[],
                    black_box(period),
                )))
            },
            || black_box(ignore(judge::policy(p, 0, &[], black_box(period)))),
        ),
    );
}

/// Comparing a policy with the same one, its colours counted from the other end.
fn comparing(name: &str, p: &Policy) {
    let mut q = p.clone();
    for edge in &mut q.edges {
        edge.1 = edge.1.map(|colour| p.colours - 1 - colour);
    }
    for set in 0..p.family.len() {
        q.family[set] = p.family[set.reverse_bits() >> (usize::BITS as usize - p.colours)];
    }
    let (first, second) = (
        wulfrenda::Policy::from_record(p.record()),
        wulfrenda::Policy::from_record(q.record()),
    );
    assert_eq!(wulfrenda::compare(&first, &second), Ok(true));
    line(
        &format!("comparing {name} with itself renamed"),
        p.edges.len(),
        best(
            || black_box(ignore(wulfrenda::compare(black_box(&first), &second))),
            || black_box(ignore(fast::compare(black_box(p), &q))),
        ),
    );
}

/// From texts in the Hanoi format to policies, the family included. Both sides go through all of a text, and evaluate the formula for each non-empty set of the colours.
fn reading_texts(name: &str, texts: &[Vec<u8>]) {
    let colours = texts.iter().map(|t| hanoi::read(t).unwrap().colours);
    let sets: usize = colours.map(|c| (1 << c) - 1).sum();
    let bytes: usize = texts.iter().map(Vec::len).sum();
    let rounds = (100_000 / bytes).max(1);
    let (ours, theirs) = best(
        || {
            for _ in 0..rounds {
                for text in texts {
                    black_box(wulfrenda::Policy::read_hanoi(black_box(text))).unwrap();
                }
            }
        },
        || {
            for _ in 0..rounds {
                for text in texts {
                    let document = hanoi::parse(black_box(text)).unwrap();
                    black_box(document.policy()).unwrap();
                }
            }
        },
    );
    let all = (rounds * bytes) as f64;
    println!(
        "| {name} | {} | {} | {} | {} | {:.0} | {:.0} | {:.2} |",
        bytes / texts.len(),
        sets / texts.len(),
        time(ours / (rounds * texts.len()) as f64),
        time(theirs / (rounds * texts.len()) as f64),
        1e3 * all / ours,
        1e3 * all / theirs,
        ours / theirs
    );
}

/// So many random texts that give policies, of up to so many states and names.
fn texts(
    random: &mut Random,
    many: usize,
    states: RangeInclusive<usize>,
    names: usize,
) -> Vec<Vec<u8>> {
    let mut all = Vec::new();
    while all.len() < many {
        let states = random.within(&states);
        let document = random.document(states, names);
        if document.policy().is_ok() {
            let tokens = random.tokens(&document);
            all.push(random.spaced(&tokens));
        }
    }
    all
}

/// A text of 1 MB: half of it names, the other half a formula, with so many colours.
fn long_text(colours: usize) -> Vec<u8> {
    let names: String = ["a", "b", "c"]
        .map(|x| format!(" \"{}\"", x.repeat(170_000)))
        .concat();
    let part = "(Inf(0) & Fin(1) | Inf(2) & (Fin(3) | Inf(4))) & (Inf(5) | Fin(6)) & Fin(7) | ";
    let formula = part.repeat(500_000 / part.len()) + "Inf(7)";
    let edges: String = (0..8).map(|a| format!(" 0 {{{}}}", a % colours)).collect();
    let head = format!("HOA: v1 States: 1 Start: 0 AP: 3{names} Acceptance: 8 {formula}");
    format!("{head} --BODY-- State: 0{edges} --END--").into_bytes()
}

/// How much stack a call uses, in bytes: what lies below is filled with a pattern before it, and read afterwards.
fn stack(call: impl FnOnce() + Send) -> usize {
    const DEPTH: usize = 1 << 20;
    const GAP: usize = 4096;
    const PATTERN: u64 = 0x5ca1_ab1e_0ddb_a11a;
    let measure = move || {
        let here = std::ptr::from_ref(&call) as usize & !7;
        let places = (here - DEPTH..here - GAP).step_by(8);
        for place in places.clone() {
            // SAFETY: the thread's stack is larger than DEPTH, and nothing is in use this far below a live local
            unsafe { (place as *mut u64).write_volatile(PATTERN) };
        }
        call();
        let mut places = places;
        // SAFETY: as above
        let lowest =
            places.find(|&place| unsafe { (place as *const u64).read_volatile() } != PATTERN);
        lowest.map_or(GAP, |place| here - place)
    };
    std::thread::scope(|s| {
        let thread = std::thread::Builder::new().stack_size(2 * DEPTH);
        thread.spawn_scoped(s, measure).unwrap().join().unwrap()
    })
}

fn file(text: &str) -> Policy {
    policy::read(&unhex(text)).unwrap().0
}

/// The policies, each with random owners.
fn with_owners(picks: &mut Random, policies: &[Policy]) -> Vec<(Policy, Vec<u8>)> {
    let mut owned = |p: &Policy| {
        let owners = (0..p.states).map(|_| picks.below(2) as u8).collect();
        (p.clone(), owners)
    };
    policies.iter().map(&mut owned).collect()
}

fn main() {
    let mut random = Random::new(1);
    let shape = |states, letters, colours, family| Shape {
        states,
        letters,
        colours,
        edges: 64,
        targets: Targets::Any,
        family,
        quiet: Quiet::No,
        initial: false,
    };
    let mut some =
        |n: usize, shape: Shape| -> Vec<Policy> { (0..n).map(|_| random.policy(&shape)).collect() };
    let half = Family::Chance(50);
    let small = some(100, shape(1..=3, 1..=3, 1..=3, half));
    let sites = some(100, shape(4..=8, 2..=4, 3..=5, half));
    let large = some(10, shape(16..=16, 4..=4, 8..=8, half));
    let alternating = some(3, shape(16..=16, 4..=4, 8..=8, Family::Even));
    // policies of their own seed, so that the others are not moved by them
    let mut others = Random::new(5);
    let mut third = |n: usize, shape: Shape| -> Vec<Policy> {
        let quiet = Quiet::Chance(33);
        let shape = Shape { quiet, ..shape };
        (0..n).map(|_| others.policy(&shape)).collect()
    };
    let quiet_sites = third(100, shape(4..=8, 2..=4, 3..=5, half));
    let quiet_large = third(10, shape(16..=16, 4..=4, 8..=8, half));
    let mut more = Random::new(6);
    let mut thirty = |states, letters, colours| -> Vec<Policy> {
        let shape = shape(states, letters, colours, half);
        (0..30).map(|_| more.policy(&shape)).collect()
    };
    let medium = thirty(8..=12, 4..=4, 4..=6);
    let wide = thirty(16..=16, 4..=4, 8..=8);
    let square = thirty(8..=8, 8..=8, 8..=8);
    let known = [
        include_str!("../../../../examples/a.hex"),
        include_str!("../../../../examples/b.hex"),
        include_str!("../../../../examples/c.hex"),
    ];
    println!("| policies | nodes | rows | ours | by sets | by nodes | ns a node | ns a row | ratio to the better | worst |");
    println!("|---|---:|---:|---:|---:|---:|---:|---:|---:|---:|");
    translating("A, B and C", &known.map(file));
    translating("100 small: 1 to 3 states and colours", &small);
    translating("100 sites: 4 to 8 states, 3 to 5 colours", &sites);
    translating(
        "1,000 nodes",
        &[file(include_str!("../../policies/nodes_1000.hex"))],
    );
    translating("10 of 16 states, 4 letters, 8 colours", &large);
    translating("3 of the same size, even sets accepted", &alternating);
    translating(
        "10,000 nodes",
        &[file(include_str!("../../policies/nodes_10000.hex"))],
    );
    let most = file(include_str!("../../policies/nodes_65535.hex"));
    translating("65,535 nodes", std::slice::from_ref(&most));
    translating(
        "109,601 nodes: does not fit",
        &[file(include_str!("../../policies/too_many.hex"))],
    );
    translating("100 sites, a third of the edges quiet", &quiet_sites);
    translating(
        "10 of 16 states, 4 letters, 8 colours, a third quiet",
        &quiet_large,
    );
    translating("30 medium: 8 to 12 states, 4 to 6 colours", &medium);
    translating("30 of 16 states, 4 letters, 8 colours", &wide);
    translating("30 of 8 states, 8 letters, 8 colours", &square);
    let few_nodes = |found: &str, text: &str| {
        let p = file(text);
        let (states, letters, colours) = (p.states, p.letters, p.colours);
        let plural = if letters == 1 { "" } else { "s" };
        let name = format!("{found}: {states} states, {letters} letter{plural}, {colours} colours");
        translating(&name, &[p]);
    };
    for text in [
        include_str!("../../policies/few_nodes_2.hex"),
        include_str!("../../policies/few_nodes_4.hex"),
        include_str!("../../policies/few_nodes_17.hex"),
        include_str!("../../policies/few_nodes_62.hex"),
        include_str!("../../policies/few_nodes_64.hex"),
    ] {
        few_nodes("few nodes", text);
    }
    // those above were found when every colour set was searched, these since
    for text in [
        include_str!("../../policies/few_nodes_1.hex"),
        include_str!("../../policies/few_nodes_4_quiet.hex"),
        include_str!("../../policies/few_nodes_5.hex"),
        include_str!("../../policies/few_nodes_27.hex"),
        include_str!("../../policies/few_nodes_7.hex"),
        include_str!("../../policies/few_nodes_16.hex"),
        include_str!("../../policies/few_nodes_9.hex"),
        include_str!("../../policies/few_nodes_9_roots.hex"),
        include_str!("../../policies/few_nodes_7_cycles.hex"),
        include_str!("../../policies/few_nodes_4_roots.hex"),
    ] {
        few_nodes("few nodes, found since", text);
    }

    println!("\n| games | states | rows | ours | independent | ratio | ours, solving alone | independent | ns a row |");
    println!("|---|---:|---:|---:|---:|---:|---:|---:|---:|");
    // owners of their own, so that what follows is not moved by them
    let mut picks = Random::new(2);
    solving("100 sites, random owners", &with_owners(&mut picks, &sites));
    solving(
        "1,000 states, 10 times random owners",
        &with_owners(
            &mut picks,
            &vec![file(include_str!("../../policies/states_1000.hex")); 10],
        ),
    );
    solving(
        "10 of 16 states, 4 letters, 8 colours",
        &with_owners(&mut picks, &large),
    );
    solving(
        "3 of the same size, even sets accepted",
        &with_owners(&mut picks, &alternating),
    );
    let most_states = file(include_str!("../../policies/states_65535.hex"));
    solving(
        "65,535 states, 10 times random owners",
        &with_owners(&mut picks, &vec![most_states.clone(); 10]),
    );
    solving(
        "priorities from 1: 25,813 states, 10 times random owners",
        &with_owners(
            &mut Random::new(3),
            &vec![file(include_str!("../../policies/negative.hex")); 10],
        ),
    );
    let hard = (
        file(include_str!("../../policies/game_hard.hex")),
        unhex(include_str!("../../policies/game_hard.owners")),
    );
    solving("the hardest found", std::slice::from_ref(&hard));

    println!("\n| call | ours | independent | ns a letter, edge or set | ratio |");
    println!("|---|---:|---:|---:|---:|");
    let p = &alternating[0];
    let ours = wulfrenda::Policy::from_record(p.record());
    let a = fast::translate(p, 65_535, 65_535).unwrap();
    let mut t = OwnedTables::new(a.nodes.len(), a.states.len(), a.rows.len(), 0);
    t.fill(&mut fast::Translator::default(), p).unwrap();
    let rows = t.rows(p.letters as u8);
    for length in [10, 1_000] {
        let period: Vec<u8> = (0..length).map(|_| random.below(p.letters) as u8).collect();
        let state = usize::from(a.start);
        judging(
            &format!("judging the policy, a loop of {length}"),
            p,
            &period,
        );
        line(
            &format!("judging {} rows, a loop of {length}", a.rows.len()),
            length,
            best(
                || {
                    black_box(ignore(wulfrenda::judge_rows(
                        &rows,
                        state as u16,
                        &[],
                        black_box(&period),
                    )))
                },
                || {
                    black_box(ignore(judge::rows(
                        p.letters,
                        &t.row_targets,
                        &t.row_priorities,
                        state,
                        &[],
                        black_box(&period),
                    )))
                },
            ),
        );
    }
    let word: Vec<u8> = (0..10_000).map(|_| random.below(p.letters) as u8).collect();
    line(
        "running 10,000 letters, a call for each",
        word.len(),
        best(
            || {
                let mut run = Run { state: a.start };
                for &letter in &word {
                    run = black_box(run.read(letter, &rows)).unwrap().0;
                }
            },
            || {
                let mut state = a.start;
                for &letter in &word {
                    state = black_box(judge::step(
                        p.letters,
                        &t.row_targets,
                        &t.row_priorities,
                        state,
                        letter,
                    ))
                    .unwrap()
                    .0;
                }
            },
        ),
    );
    for (name, p) in [
        ("a site of 8 states", &sites[0]),
        ("16 states and 8 colours", &large[0]),
        ("the same, even sets", &alternating[0]),
    ] {
        comparing(name, p);
    }
    // neither side has a table
    line(
        "the 256 colour sets by position, a call for each",
        256,
        best(
            || {
                for position in 0..=u8::MAX {
                    black_box(wulfrenda::colour_set_at(black_box(position)));
                }
            },
            || {
                for position in 0..=u8::MAX {
                    black_box(policy::set_at(black_box(position)));
                }
            },
        ),
    );

    let site = quiet_sites.iter().find(|p| p.edges.len() == 32).unwrap();
    let name = |p: &Policy| {
        let quiet = p.edges.iter().filter(|e| e.1.is_none()).count();
        let (states, edges) = (p.states, p.edges.len());
        format!("{states} states, {quiet} of {edges} edges quiet,")
    };
    for length in [10, 1_000] {
        let letters = (0..length).map(|_| others.below(site.letters) as u8);
        let period: Vec<u8> = letters.collect();
        let name = format!("judging a site of {} a loop of {length}", name(site));
        judging(&name, site, &period);
    }
    comparing(&format!("a site of {}", name(site)), site);
    comparing(&name(&quiet_large[0]), &quiet_large[0]);

    println!("\n| texts in the Hanoi format | bytes | colour sets | ours | independent | ours, MB/s | independent, MB/s | ratio |");
    println!("|---|---:|---:|---:|---:|---:|---:|---:|");
    let mut random = Random::new(4);
    reading_texts(
        "100 small: 1 to 3 states, up to 1 name",
        &texts(&mut random, 100, 1..=3, 1),
    );
    reading_texts(
        "100 sites: 4 to 8 states, up to 2 names",
        &texts(&mut random, 100, 4..=8, 2),
    );
    let long = long_text(8);
    reading_texts("1 MB of names and formula, 2 colours", &[long_text(2)]);
    reading_texts("the same, 8 colours", std::slice::from_ref(&long));

    println!("\n| call | stack in bytes, 4,096 or more |");
    println!("|---|---:|");
    for (name, p) in [
        ("a site", &sites[0]),
        ("16 states and 8 colours", &alternating[0]),
        ("65,535 nodes", &most),
    ] {
        let policy = wulfrenda::Policy::from_record(p.record());
        let bytes = p.bytes();
        let mut tables = OwnedTables::new(65_535, 65_535, 65_535 * p.letters, 0);
        let of_record = stack(|| black_box(ignore(tables.translate(&policy))));
        let of_bytes = stack(|| black_box(ignore(tables.translate_bytes(&bytes))));
        println!("| translating {name} | {} |", of_record.max(of_bytes));
    }
    for (name, (p, owners)) in [
        ("a site", &with_owners(&mut picks, &sites[..1])[0]),
        ("65,535 states", &with_owners(&mut picks, &[most_states])[0]),
        ("the hardest found", &hard),
    ] {
        let policy = wulfrenda::Policy::from_record(p.record());
        let bytes = p.bytes();
        let mut tables = SolvedTables::new(65_535, 65_535, 65_535 * p.letters, 0);
        let of_record = stack(|| black_box(ignore(tables.solve(&policy, owners))));
        let of_bytes = stack(|| black_box(ignore(tables.solve_bytes(&bytes, owners))));
        println!("| solving {name} | {} |", of_record.max(of_bytes));
    }
    let bytes = most.bytes();
    println!(
        "| reading | {} |",
        stack(|| black_box(ignore(wulfrenda::Policy::read(&bytes))))
    );
    println!(
        "| reading a text | {} |",
        stack(|| black_box(ignore(wulfrenda::Policy::read_hanoi(&long))))
    );
    println!(
        "| judging a policy | {} |",
        stack(|| black_box(ignore(wulfrenda::judge_policy(&ours, 0, &[0], &[1]))))
    );
    println!(
        "| judging rows | {} |",
        stack(|| black_box(ignore(wulfrenda::judge_rows(&rows, 0, &[0], &[1]))))
    );
    println!(
        "| comparing | {} |",
        stack(|| black_box(ignore(wulfrenda::compare(&ours, &ours))))
    );
}
