//! Reads policy B's command bytes, translates it, and prints the forest and the automaton.

use wulfrenda::{translate, Policy, Tables, NONE};

const B: [u8; 30] = [
    0x01, 2, 2, 2, 0, // shape: states, letters, colours, initial state
    0x02, 0, 0, 0, 0, // edge: state, letter, target, colour
    0x02, 0, 1, 1, 1, //
    0x02, 1, 0, 0, 0, //
    0x02, 1, 1, 1, 1, //
    0x03, 1, // accept: colour set
    0x03, 2,    //
    0x00, // end
];

fn or_dash(n: u16) -> String {
    if n == NONE {
        "-".to_string()
    } else {
        n.to_string()
    }
}

fn main() -> Result<(), Box<dyn std::error::Error>> {
    let (policy, _rest) = Policy::read(&B)?;
    let letters = usize::from(policy.letters());
    let mut masks = [0; 16];
    let (mut parents, mut node_priorities) = ([0; 16], [0; 16]);
    let (mut sources, mut leaves) = ([0; 16], [0; 16]);
    let (mut targets, mut priorities) = ([0; 16 * 8], [0; 16 * 8]);
    let counts = translate(
        &policy,
        Tables {
            node_masks: &mut masks,
            node_parents: &mut parents,
            node_priorities: &mut node_priorities,
            state_sources: &mut sources,
            state_leaves: &mut leaves,
            row_targets: &mut targets[..16 * letters],
            row_priorities: &mut priorities[..16 * letters],
        },
    )?;
    println!("nodes {} states {}", counts.nodes, counts.states);
    for n in 0..usize::from(counts.nodes) {
        let parent = or_dash(parents[n]);
        println!("n {n} {} {parent} {}", masks[n], node_priorities[n]);
    }
    for s in 0..usize::from(counts.states) {
        println!("s {s} {} {}", sources[s], or_dash(leaves[s]));
    }
    for row in 0..usize::from(counts.states) * letters {
        let (state, letter) = (row / letters, row % letters);
        println!("t {state} {letter} {} {}", targets[row], priorities[row]);
    }
    println!("start {}", counts.start);
    Ok(())
}
