//! Once their buffers have grown, the quick translator, by either search, and the solver go from command bytes to tables and allocate nothing.

use independent::fast::{Search, Translator};
use independent::policy::Policy;
use independent::random::{Random, Shape};
use independent::solve::{Solution, Solver};
use independent::Tables;
use std::alloc::{GlobalAlloc, Layout, System};
use std::cell::Cell;

struct Counting;

thread_local! {
    static CALLS: Cell<usize> = const { Cell::new(0) };
}

// SAFETY: the system's allocator, with a count for each thread beside it
unsafe impl GlobalAlloc for Counting {
    unsafe fn alloc(&self, layout: Layout) -> *mut u8 {
        CALLS.set(CALLS.get() + 1);
        System.alloc(layout)
    }
    unsafe fn dealloc(&self, place: *mut u8, layout: Layout) {
        System.dealloc(place, layout)
    }
}

#[global_allocator]
static COUNTING: Counting = Counting;

#[test]
fn nothing_is_allocated_again() {
    const PLACES: usize = 1024;
    let mut random = Random::new(4);
    let shapes = [Shape::any(64), Shape::any(64).with_quiet()];
    let policies: Vec<Vec<u8>> = (0..400)
        .map(|i| random.policy(&shapes[i % 2]).bytes())
        .collect();
    let [mut by_sets, mut by_nodes] = Search::ALL.map(Translator::new);
    let mut solver = Solver::default();
    let mut kept = Policy::default();
    let (mut node_masks, mut node_parents) = ([0; PLACES], [0; PLACES]);
    let (mut node_priorities, mut state_sources) = ([0; PLACES], [0; PLACES]);
    let mut state_leaves = [0; PLACES];
    let (mut row_targets, mut row_priorities) = ([0; 8 * PLACES], [0; 8 * PLACES]);
    let (mut state_winners, mut state_letters) = ([0; PLACES], [0; PLACES]);
    let owners: Vec<u8> = (0..16).map(|_| random.below(2) as u8).collect();
    let mut each = |call: &str| {
        let mut fitting = 0;
        for bytes in &policies {
            kept.read(bytes).unwrap();
            let rows = PLACES * kept.letters;
            let tables = Tables {
                node_masks: &mut node_masks,
                node_parents: &mut node_parents,
                node_priorities: &mut node_priorities,
                state_sources: &mut state_sources,
                state_leaves: &mut state_leaves,
                row_targets: &mut row_targets[..rows],
                row_priorities: &mut row_priorities[..rows],
            };
            let solution = Solution {
                state_winners: &mut state_winners,
                state_letters: &mut state_letters,
            };
            let answer = match call {
                "by sets" => by_sets.fill(&kept, tables),
                "by nodes" => by_nodes.fill(&kept, tables),
                _ => solver.fill(&kept, &owners[..kept.states], tables, solution),
            };
            fitting += usize::from(answer.is_ok());
        }
        fitting
    };
    for call in ["by sets", "by nodes", "solving"] {
        assert!(each(call) > 200);
        let before = CALLS.get();
        each(call);
        assert_eq!(CALLS.get(), before, "{call}");
    }
}
