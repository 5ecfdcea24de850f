//! Looks for the worst small forests: policies on which the library takes longest beside the better search of the independent translator. Hill climbing on the ratio of
//! the times, from random policies of many shapes, over targets, colours, quiet edges, family, states and letters. Prints the best few for each of four sizes of the
//! forest, with ratio, counts, times and command bytes. Arguments: how many seconds, and a seed. No part of the gate.

use comparison::times::{least_times, text, Independent, Times, Translation};
use independent::policy::Policy;
use independent::random::{Family, Quiet, Random, Shape, Targets};
use std::ops::RangeInclusive;
use std::time::{Duration, Instant};

/// How many nodes the forests of a climb may have.
const SIZES: [RangeInclusive<usize>; 4] = [1..=3, 4..=15, 16..=60, 61..=200];

/// A step makes an edge quiet where fewer are.
const FEW: usize = 5;

/// A climb ends after so many steps that gain nothing.
const PATIENCE: usize = 300;

/// How long a policy is measured: each, those that seem better, and those that are printed.
const ONCE: Duration = Duration::from_micros(300);
const AGAIN: Duration = Duration::from_millis(5);
const AT_LAST: Duration = Duration::from_millis(200);

/// How many policies of each size are printed.
const SHOWN: usize = 3;

struct Found {
    policy: Policy,
    nodes: usize,
    times: Times,
}

impl Found {
    fn print(&self) {
        let (p, t) = (&self.policy, &self.times);
        let quiet = p.edges.iter().filter(|e| e.1.is_none()).count();
        println!(
            "ratio {:.2}, {} nodes, {} states, {} letters, {} colours, {quiet} quiet, ours {}, by sets {}, by nodes {}",
            t.ratio(),
            self.nodes,
            p.states,
            p.letters,
            p.colours,
            text(t.ours),
            text(t.by_sets),
            text(t.by_nodes)
        );
        println!("{}", p.hex());
    }
}

/// The policy's times, unless its forest has another size: the least of five rounds, and of as many as there is time for.
fn measured(
    independent: &mut Independent,
    policy: &Policy,
    size: &RangeInclusive<usize>,
    time: Duration,
) -> Option<Found> {
    let translation = Translation::new(independent, policy);
    let nodes = translation.nodes;
    size.contains(&nodes).then(|| Found {
        policy: policy.clone(),
        nodes,
        times: least_times(independent, &mut [translation], |rounds, spent| {
            rounds < 5 || spent < time
        })[0],
    })
}

/// A policy of any shape, most with many edges and colours.
fn start(random: &mut Random) -> Policy {
    let targets = [Targets::Any, Targets::Near, Targets::Onward, Targets::Parts];
    let chances = [1, 2, 5, 20, 50, 80, 95, 98, 99];
    let mut p = loop {
        let shape = Shape {
            colours: 3..=8,
            targets: targets[random.below(4)],
            family: Family::Chance(chances[random.below(chances.len())]),
            quiet: Quiet::Chance([0, 0, 5, 10][random.below(4)]),
            ..Shape::any(64)
        };
        let p = random.policy(&shape);
        if p.edges.len() >= 12 || random.chance(10) {
            break p;
        }
    };
    // or by the number of colours, or with one set other than the rest
    let (least, turned) = (random.below(p.colours + 1), random.chance(50));
    let one = random.below(p.family.len());
    match random.below(3) {
        0 => {}
        1 => p.family = sets(&p, |set| (set.count_ones() as usize >= least) != turned),
        _ => p.family = sets(&p, |set| (set == one) != turned),
    }
    p
}

fn sets(p: &Policy, member: impl Fn(usize) -> bool) -> Vec<bool> {
    (0..p.family.len()).map(member).collect()
}

/// A policy beside this one.
fn step(random: &mut Random, p: &Policy) -> Policy {
    let mut q = p.clone();
    for _ in 0..=random.below(4) {
        let e = random.below(q.edges.len());
        match random.below(10) {
            0..=2 => q.edges[e].0 = random.below(q.states),
            3 | 4 => q.edges[e].1 = Some(random.below(q.colours)),
            5 if q.edges.iter().filter(|e| e.1.is_none()).count() < FEW => q.edges[e].1 = None,
            6 | 7 => {
                let set = random.below(q.family.len());
                q.family[set] = !q.family[set];
            }
            8 => {
                // two edges change places
                let other = random.below(q.edges.len());
                q.edges.swap(e, other);
            }
            9 => reshape(random, &mut q),
            _ => {}
        }
    }
    q
}

/// A state or a letter more or less.
fn reshape(random: &mut Random, q: &mut Policy) {
    let (states, letters) = match random.below(4) {
        0 => (q.states + 1, q.letters),
        1 => (q.states - 1, q.letters),
        2 => (q.states, q.letters + 1),
        _ => (q.states, q.letters - 1),
    };
    if (1..=16).contains(&states) && (1..=8).contains(&letters) && states * letters <= 64 {
        let mut edge = |e: usize| {
            let (v, a) = (e / letters, e % letters);
            if v < q.states && a < q.letters {
                let (target, colour) = q.edges[v * q.letters + a];
                (target.min(states - 1), colour)
            } else {
                (random.below(states), Some(random.below(q.colours)))
            }
        };
        q.edges = (0..states * letters).map(&mut edge).collect();
        (q.states, q.letters) = (states, letters);
        q.initial = q.initial.min(states - 1);
    }
}

/// Climbs from a random policy, if that has a forest of this size, until nothing is gained any more.
fn climb(
    random: &mut Random,
    independent: &mut Independent,
    size: &RangeInclusive<usize>,
    time_is_left: impl Fn() -> bool,
) -> Option<Found> {
    let mut here = measured(independent, &start(random), size, AGAIN)?;
    let mut in_vain = 0;
    while in_vain < PATIENCE && time_is_left() {
        in_vain += 1;
        let beside = step(random, &here.policy);
        let seems = measured(independent, &beside, size, ONCE);
        if seems.is_none_or(|x| x.times.ratio() < 1.01 * here.times.ratio()) {
            continue;
        }
        // both are measured again, one after the other
        here = measured(independent, &here.policy, size, AGAIN)?;
        let there = measured(independent, &beside, size, AGAIN)?;
        if there.times.ratio() > 1.01 * here.times.ratio() {
            here = there;
            in_vain = 0;
        }
    }
    Some(here)
}

fn main() {
    let mut arguments = std::env::args().skip(1);
    let mut number = |usual: u64| {
        arguments
            .next()
            .map_or(usual, |x| x.parse().expect("a number"))
    };
    let (seconds, seed) = (number(60), number(1));
    let mut random = Random::new(seed);
    let mut independent = Independent::default();
    let mut best = SIZES.map(|_| Vec::<Found>::new());
    let begin = Instant::now();
    let time_is_left = || begin.elapsed() < Duration::from_secs(seconds);
    while time_is_left() {
        for (size, list) in SIZES.iter().zip(&mut best) {
            list.extend(climb(&mut random, &mut independent, size, time_is_left));
            list.sort_by(|a, b| b.times.ratio().total_cmp(&a.times.ratio()));
            list.truncate(SHOWN);
        }
    }
    for (size, list) in SIZES.iter().zip(&best) {
        for found in list {
            let again = measured(&mut independent, &found.policy, size, AT_LAST);
            again.expect("the same size").print();
        }
    }
}
