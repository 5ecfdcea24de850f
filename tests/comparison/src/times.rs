//! What a translation takes, from command bytes to tables just as long as the result: for the library, and for the independent translator by both of its searches.

use crate::OwnedTables;
use independent::fast::{Search, Translator};
use independent::policy::Policy;
use std::hint::black_box;
use std::time::{Duration, Instant};

/// The least times of a translation, in nanoseconds.
#[derive(Clone, Copy, Debug)]
pub struct Times {
    pub ours: f64,
    pub by_sets: f64,
    pub by_nodes: f64,
}

impl Times {
    /// The independent translator by the search that is better here.
    pub fn independent(&self) -> f64 {
        self.by_sets.min(self.by_nodes)
    }

    pub fn ratio(&self) -> f64 {
        self.ours / self.independent()
    }
}

/// The independent translator by both searches, and the buffers of reading.
pub struct Independent {
    translators: [Translator; 2],
    kept: Policy,
}

impl Default for Independent {
    fn default() -> Self {
        Independent {
            translators: Search::ALL.map(Translator::new),
            kept: Policy::default(),
        }
    }
}

/// A policy to translate, with tables for each of the three.
pub struct Translation {
    pub nodes: usize,
    pub rows: usize,
    bytes: Vec<u8>,
    tables: [OwnedTables; 3],
}

impl Translation {
    pub fn new(independent: &mut Independent, p: &Policy) -> Self {
        let most = 65_535;
        let (nodes, states) = match independent.translators[1].translate(p, most, most) {
            Ok(a) => (a.nodes.len(), a.states.len()),
            Err(_) => (most, most),
        };
        let rows = states * p.letters;
        let tables = OwnedTables::new(nodes, states, rows, 0);
        Translation {
            nodes,
            rows,
            bytes: p.bytes(),
            tables: [tables.clone(), tables.clone(), tables],
        }
    }

    /// The library is the first of the three.
    fn run(&mut self, independent: &mut Independent, which: usize) {
        let bytes = black_box(&self.bytes[..]);
        let tables = &mut self.tables[which];
        if which == 0 {
            black_box(tables.translate_bytes(bytes)).ok();
        } else {
            independent.kept.read(bytes).unwrap();
            let translator = &mut independent.translators[which - 1];
            black_box(tables.fill(translator, &independent.kept)).ok();
        }
    }
}

/// What the clock takes by itself.
fn clock() -> Duration {
    let times = (0..100).map(|_| Instant::now().elapsed());
    times.min().unwrap_or_default()
}

/// The least times of each translation. In a round each of the three translates all policies, one after the other, so that they see the same machine. Rounds go on
/// while this holds of their number and of the time.
pub fn least_times(
    independent: &mut Independent,
    translations: &mut [Translation],
    go_on: impl Fn(usize, Duration) -> bool,
) -> Vec<Times> {
    let mut least = vec![[f64::MAX; 3]; translations.len()];
    let clock = clock();
    let begin = Instant::now();
    let mut rounds = 0;
    while go_on(rounds, begin.elapsed()) {
        for which in 0..3 {
            for (translation, least) in translations.iter_mut().zip(&mut least) {
                let start = Instant::now();
                translation.run(independent, which);
                let time = start.elapsed().saturating_sub(clock).as_nanos() as f64;
                least[which] = least[which].min(time);
            }
        }
        rounds += 1;
    }
    let times = least.into_iter().map(|[ours, by_sets, by_nodes]| Times {
        ours,
        by_sets,
        by_nodes,
    });
    times.collect()
}

/// Nanoseconds as text.
pub fn text(ns: f64) -> String {
    match ns {
        _ if ns < 1e4 => format!("{ns:.0} ns"),
        _ if ns < 1e7 => format!("{:.1} µs", ns / 1e3),
        _ => format!("{:.1} ms", ns / 1e6),
    }
}
