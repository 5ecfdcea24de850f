//! Muller policies into parity automata by the alternating cycle decomposition: a safe layer over the proved static library.
//!
//! A [`Policy`] is read from command bytes or from a text in the Hanoi format, [`translate`]d into tables that the caller lends, and the built automaton is run letter by letter with [`Run`]. With
//! [`solve`] the tables hold, beside the automaton, who wins the supervisor's game on it and by which letters.
//! Nothing is allocated.
//!
//! ```
//! use wulfrenda::{judge_policy, Policy};
//!
//! // shape: one state, letter and colour; the edge; accept {0}; end; and a byte that is not the policy's
//! let bytes = [1, 1, 1, 1, 0, 2, 0, 0, 0, 0, 3, 1, 0, 99];
//! let (policy, rest) = Policy::read(&bytes)?;
//! assert_eq!(rest, [99]);
//! assert!(judge_policy(&policy, 0, &[], &[0])?.accepted);
//! # Ok::<(), Box<dyn std::error::Error>>(())
//! ```
//!
//! # Command bytes
//!
//! | command | operands |
//! |---|---|
//! | 1 shape | states, letters, colours, initial state |
//! | 2 edge | state, letter, target, colour |
//! | 4 quiet edge | state, letter, target |
//! | 3 accept | colour set |
//! | 0 end | none |
//!
//! Shape comes first, the others in any order. Each edge is given once, with a colour or quiet. What was read is held as a record of [`RECORD_LEN`] bytes,
//! [`Policy::record`], which can be stored and given back to [`Policy::from_record`]. A record of 388 bytes, of a version before 4.0.0, needs 64 bytes of 0 behind it.
//!
//! # Quiet edges
//!
//! A quiet edge has no colour: a heartbeat, say, that is no event of any kind. What recurs on a run is the colours of the other edges. A run on quiet edges alone has
//! the empty recurring set, and is accepted exactly if set 0 was named.
//!
//! ```
//! use wulfrenda::{judge_policy, Policy, Verdict};
//!
//! // shape: one state, two letters, one colour; an event of colour 0; a heartbeat; accept {0}; end
//! let bytes = [1, 1, 2, 1, 0, 2, 0, 0, 0, 0, 4, 0, 1, 0, 3, 1, 0];
//! let (policy, _) = Policy::read(&bytes)?;
//! assert!(policy.is_quiet(1) && !policy.is_quiet(0));
//! // events again and again, with a heartbeat between them
//! assert_eq!(judge_policy(&policy, 0, &[], &[0, 1])?, Verdict { colours: 1, accepted: true });
//! // from some time on heartbeats alone: nothing recurs, and set 0 was not named
//! assert_eq!(judge_policy(&policy, 0, &[0], &[1])?, Verdict { colours: 0, accepted: false });
//! # Ok::<(), Box<dyn std::error::Error>>(())
//! ```
#![no_std]
#![deny(missing_docs)]

mod ffi;
mod policy;
mod refusal;

pub use policy::{Policy, RECORD_LEN};
pub use refusal::{HanoiError, ReadError, Refusal};

/// What stands in the tables for no node: the parent of a root, the leaf of a state in no cycle.
pub const NONE: u16 = 65_535;

/// The supervisor, as an owner and as a winner. It wins a play whose least recurring priority is even.
pub const SUPERVISOR: u8 = 0;

/// The plant, as an owner and as a winner. It wins the other plays.
pub const PLANT: u8 = 1;

/// What stands for a letter at a built state that its owner does not win.
pub const NO_LETTER: u8 = 255;

/// The version that this layer is built for: major times 1,000,000 plus minor times 1,000 plus patch. [`version`] gives the archive's.
pub const VERSION: u32 = 4_000_000;

/// Stack enough for any call.
pub const STACK_BYTES: usize = 262_144;

/// The seven tables that [`translate`] fills in. The lengths of the three node tables are equal, those of the two state tables too, and each row table is letters
/// times as long as a state table. Row = built state times letters plus letter.
///
/// A tree has at most as many levels as there are colours, and one more where an edge is quiet. So priorities lie between 0 and the number of colours, or one more
/// where an edge is quiet: 0 to 9. If some tree with the most levels has an accepting root, accepting roots have 0 and rejecting ones 1; otherwise rejecting roots
/// have 1 and accepting ones 2, and no priority is 0. Each level adds 1. A row whose edge is in no cycle has the lowest priority that any node has. A row whose edge is
/// quiet has a priority like any other.
#[derive(Debug)]
pub struct Tables<'a> {
    /// The edges of each node, bit e for edge e.
    pub node_masks: &'a mut [u64],
    /// The parent of each node; [`NONE`] for a root.
    pub node_parents: &'a mut [u16],
    /// The priority of each node, which accepts exactly if it is even.
    pub node_priorities: &'a mut [u8],
    /// The policy state under each built state.
    pub state_sources: &'a mut [u8],
    /// The leaf of each built state; [`NONE`] where the policy state is in no cycle.
    pub state_leaves: &'a mut [u16],
    /// The built state that each row leads to.
    pub row_targets: &'a mut [u16],
    /// The priority of each row.
    pub row_priorities: &'a mut [u8],
}

/// What a translation answers beside the tables.
#[derive(Clone, Copy, Debug, PartialEq, Eq, Hash)]
pub struct Counts {
    /// How many nodes the forest has.
    pub nodes: u16,
    /// How many states the automaton has.
    pub states: u16,
    /// The built state begun in.
    pub start: u16,
}

/// The forest and the automaton of a policy, in the tables; places past the result hold 0. Refused with 7, 8, 9 or 10: the tables are unchanged after 7 and 8, and
/// all 0 after 9 and 10.
pub fn translate(policy: &Policy, tables: Tables<'_>) -> Result<Counts, Refusal> {
    let mut counts = [0; 3];
    // SAFETY: each pointer is that of a slice or an array, with its length; the mutable ones are exclusive.
    let number = unsafe {
        ffi::wulfrenda_translate(
            policy.record().as_ptr(),
            policy.record().len(),
            tables.node_masks.as_mut_ptr(),
            tables.node_masks.len(),
            tables.node_parents.as_mut_ptr(),
            tables.node_parents.len(),
            tables.node_priorities.as_mut_ptr(),
            tables.node_priorities.len(),
            tables.state_sources.as_mut_ptr(),
            tables.state_sources.len(),
            tables.state_leaves.as_mut_ptr(),
            tables.state_leaves.len(),
            tables.row_targets.as_mut_ptr(),
            tables.row_targets.len(),
            tables.row_priorities.as_mut_ptr(),
            tables.row_priorities.len(),
            counts.as_mut_ptr(),
        )
    };
    let [nodes, states, start] = counts;
    Refusal::check(number).map(|()| Counts {
        nodes,
        states,
        start,
    })
}

/// [`Policy::read`] and [`translate`] in one call: the tables of the policy that command bytes give, and the bytes that follow its end command. Refused with 1 to 6 as
/// in reading, the tables unchanged, and with 8, 9 or 10 as in translating; the offset is then 0. The number of letters is the shape command's, `bytes[2]`.
pub fn translate_bytes<'a>(
    bytes: &'a [u8],
    tables: Tables<'_>,
) -> Result<(Counts, &'a [u8]), ReadError> {
    let mut counts = [0; 3];
    let mut offset = 0;
    // SAFETY: each pointer is that of a slice or an array, with its length, or of a local; the mutable ones are exclusive.
    let number = unsafe {
        ffi::wulfrenda_translate_bytes(
            bytes.as_ptr(),
            bytes.len(),
            tables.node_masks.as_mut_ptr(),
            tables.node_masks.len(),
            tables.node_parents.as_mut_ptr(),
            tables.node_parents.len(),
            tables.node_priorities.as_mut_ptr(),
            tables.node_priorities.len(),
            tables.state_sources.as_mut_ptr(),
            tables.state_sources.len(),
            tables.state_leaves.as_mut_ptr(),
            tables.state_leaves.len(),
            tables.row_targets.as_mut_ptr(),
            tables.row_targets.len(),
            tables.row_priorities.as_mut_ptr(),
            tables.row_priorities.len(),
            counts.as_mut_ptr(),
            &mut offset,
        )
    };
    let [nodes, states, start] = counts;
    match Refusal::check(number) {
        Ok(()) => Ok((
            Counts {
                nodes,
                states,
                start,
            },
            &bytes[offset..],
        )),
        Err(refusal) => Err(ReadError { refusal, offset }),
    }
}

/// The two tables that [`solve`] fills in beside the seven, as long as the state tables.
#[derive(Debug)]
pub struct Solution<'a> {
    /// Who wins from each built state: [`SUPERVISOR`] or [`PLANT`].
    pub state_winners: &'a mut [u8],
    /// A letter at each built state that its owner wins; [`NO_LETTER`] at the others.
    pub state_letters: &'a mut [u8],
}

/// Translates a policy as [`translate`] does, and solves the supervisor's game on the rows. Each policy state belongs to [`SUPERVISOR`] or [`PLANT`], and the owner
/// of the one under the present built state picks the letter. The supervisor wins a play whose least recurring priority is even, the plant the others.
///
/// Whoever follows the letters wins every play that begins in a state that it wins, and the play never leaves the states that it wins. Built states over one policy
/// state have one winner. Which of the winning letters stands at a state is left open.
///
/// Places past the result hold 0. Refused with 7, 8, 9, 10, 16 or 17: all nine tables are unchanged after 7 and 8, and all 0 after the others.
///
/// ```
/// use wulfrenda::{solve, Policy, Solution, Tables, NO_LETTER, PLANT, SUPERVISOR};
///
/// // two states, letters and colours; letter a leads to state a and has colour a; good if in the end only one colour is met
/// let bytes = [
///     1, 2, 2, 2, 0, 2, 0, 0, 0, 0, 2, 0, 1, 1, 1, 2, 1, 0, 0, 0, 2, 1, 1, 1, 1, 3, 1, 3, 2, 0,
/// ];
/// let (policy, _) = Policy::read(&bytes)?;
/// let (mut winners, mut letters) = ([0; 2], [0; 2]);
/// let counts = solve(
///     &policy,
///     &[SUPERVISOR, PLANT],
///     Tables {
///         node_masks: &mut [0; 3],
///         node_parents: &mut [0; 3],
///         node_priorities: &mut [0; 3],
///         state_sources: &mut [0; 2],
///         state_leaves: &mut [0; 2],
///         row_targets: &mut [0; 4],
///         row_priorities: &mut [0; 4],
///     },
///     Solution {
///         state_winners: &mut winners,
///         state_letters: &mut letters,
///     },
/// )?;
/// assert_eq!(counts.states, 2);
/// // the supervisor stays in state 0 once it is there; in state 1 the plant picks, and loses
/// assert_eq!(winners, [SUPERVISOR, SUPERVISOR]);
/// assert_eq!(letters, [0, NO_LETTER]);
/// # Ok::<(), Box<dyn std::error::Error>>(())
/// ```
pub fn solve(
    policy: &Policy,
    owners: &[u8],
    tables: Tables<'_>,
    solution: Solution<'_>,
) -> Result<Counts, Refusal> {
    let mut counts = [0; 3];
    // SAFETY: each pointer is that of a slice or an array, with its length; the mutable ones are exclusive.
    let number = unsafe {
        ffi::wulfrenda_solve(
            policy.record().as_ptr(),
            policy.record().len(),
            owners.as_ptr(),
            owners.len(),
            tables.node_masks.as_mut_ptr(),
            tables.node_masks.len(),
            tables.node_parents.as_mut_ptr(),
            tables.node_parents.len(),
            tables.node_priorities.as_mut_ptr(),
            tables.node_priorities.len(),
            tables.state_sources.as_mut_ptr(),
            tables.state_sources.len(),
            tables.state_leaves.as_mut_ptr(),
            tables.state_leaves.len(),
            tables.row_targets.as_mut_ptr(),
            tables.row_targets.len(),
            tables.row_priorities.as_mut_ptr(),
            tables.row_priorities.len(),
            solution.state_winners.as_mut_ptr(),
            solution.state_winners.len(),
            solution.state_letters.as_mut_ptr(),
            solution.state_letters.len(),
            counts.as_mut_ptr(),
        )
    };
    let [nodes, states, start] = counts;
    Refusal::check(number).map(|()| Counts {
        nodes,
        states,
        start,
    })
}

/// [`Policy::read`] and [`solve`] in one call: the tables of the policy that command bytes give, and the bytes that follow its end command. Refused with 1 to 6 as
/// in reading, the tables unchanged, and with 8, 9, 10, 16 or 17 as in solving; the offset is then 0. The numbers of policy states and of
/// letters are the shape command's, `bytes[1]` and `bytes[2]`.
pub fn solve_bytes<'a>(
    bytes: &'a [u8],
    owners: &[u8],
    tables: Tables<'_>,
    solution: Solution<'_>,
) -> Result<(Counts, &'a [u8]), ReadError> {
    let mut counts = [0; 3];
    let mut offset = 0;
    // SAFETY: each pointer is that of a slice or an array, with its length, or of a local; the mutable ones are exclusive.
    let number = unsafe {
        ffi::wulfrenda_solve_bytes(
            bytes.as_ptr(),
            bytes.len(),
            owners.as_ptr(),
            owners.len(),
            tables.node_masks.as_mut_ptr(),
            tables.node_masks.len(),
            tables.node_parents.as_mut_ptr(),
            tables.node_parents.len(),
            tables.node_priorities.as_mut_ptr(),
            tables.node_priorities.len(),
            tables.state_sources.as_mut_ptr(),
            tables.state_sources.len(),
            tables.state_leaves.as_mut_ptr(),
            tables.state_leaves.len(),
            tables.row_targets.as_mut_ptr(),
            tables.row_targets.len(),
            tables.row_priorities.as_mut_ptr(),
            tables.row_priorities.len(),
            solution.state_winners.as_mut_ptr(),
            solution.state_winners.len(),
            solution.state_letters.as_mut_ptr(),
            solution.state_letters.len(),
            counts.as_mut_ptr(),
            &mut offset,
        )
    };
    let [nodes, states, start] = counts;
    match Refusal::check(number) {
        Ok(()) => Ok((
            Counts {
                nodes,
                states,
                start,
            },
            &bytes[offset..],
        )),
        Err(refusal) => Err(ReadError { refusal, offset }),
    }
}

/// The rows of a built automaton: letters times the number of states, in both tables.
#[derive(Clone, Copy, Debug)]
pub struct Rows<'a> {
    /// How many letters there are, 1 to 8.
    pub letters: u8,
    /// The state that each row leads to.
    pub targets: &'a [u16],
    /// The priority of each row.
    pub priorities: &'a [u8],
}

/// A run of a built automaton: a value that holds its present state.
#[derive(Clone, Copy, Debug, PartialEq, Eq, Hash)]
pub struct Run {
    /// The present state.
    pub state: u16,
}

impl Run {
    /// The run after a letter, and the priority that the letter meets. Refused with 8, 11, 12 or 13; the run is a value, so the caller's is unchanged.
    #[inline]
    pub fn read(self, letter: u8, rows: &Rows<'_>) -> Result<(Run, u8), Refusal> {
        let mut state = self.state;
        let mut priority = 0;
        // SAFETY: each pointer is that of a slice, with its length, or of a local.
        let number = unsafe {
            ffi::wulfrenda_run(
                rows.letters,
                rows.targets.as_ptr(),
                rows.targets.len(),
                rows.priorities.as_ptr(),
                rows.priorities.len(),
                &mut state,
                letter,
                &mut priority,
            )
        };
        Refusal::check(number).map(|()| (Run { state }, priority))
    }
}

/// What judging a policy gives.
#[derive(Clone, Copy, Debug, PartialEq, Eq, Hash)]
pub struct Verdict {
    /// The set of the colours that recur; 0, the empty set, if only quiet edges recur.
    pub colours: u8,
    /// Whether that set is in the family.
    pub accepted: bool,
}

/// Judges a policy from a state, over a stem and then a loop, the period, repeated without end. Refused with 7, 11, 14 or 12.
pub fn judge_policy(
    policy: &Policy,
    state: u8,
    stem: &[u8],
    period: &[u8],
) -> Result<Verdict, Refusal> {
    let mut colours = 0;
    let mut accepted = 0;
    // SAFETY: each pointer is that of a slice or an array, with its length, or of a local.
    let number = unsafe {
        ffi::wulfrenda_judge_policy(
            policy.record().as_ptr(),
            policy.record().len(),
            state,
            stem.as_ptr(),
            stem.len(),
            period.as_ptr(),
            period.len(),
            &mut colours,
            &mut accepted,
        )
    };
    Refusal::check(number).map(|()| Verdict {
        colours,
        accepted: accepted != 0,
    })
}

/// The least priority that recurs over rows from a state, over a stem and then a loop, the period, repeated without end. Refused with 8, 11, 14, 12 or 13.
pub fn judge_rows(rows: &Rows<'_>, state: u16, stem: &[u8], period: &[u8]) -> Result<u8, Refusal> {
    let mut least = 0;
    // SAFETY: each pointer is that of a slice, with its length, or of a local.
    let number = unsafe {
        ffi::wulfrenda_judge_rows(
            rows.letters,
            rows.targets.as_ptr(),
            rows.targets.len(),
            rows.priorities.as_ptr(),
            rows.priorities.len(),
            state,
            stem.as_ptr(),
            stem.len(),
            period.as_ptr(),
            period.len(),
            &mut least,
        )
    };
    Refusal::check(number).map(|()| least)
}

/// Whether every cycle, reached or not, has the same verdict in both policies. Colours, initial state and which edges are quiet may differ. Refused with 7 or 15.
pub fn compare(first: &Policy, second: &Policy) -> Result<bool, Refusal> {
    let mut same = 0;
    // SAFETY: the pointers are those of two arrays and a local.
    let number = unsafe {
        ffi::wulfrenda_compare(
            first.record().as_ptr(),
            first.record().len(),
            second.record().as_ptr(),
            second.record().len(),
            &mut same,
        )
    };
    Refusal::check(number).map(|()| same != 0)
}

/// The archive's version, as [`VERSION`] says it.
pub fn version() -> u32 {
    // SAFETY: the function takes nothing and returns a number.
    unsafe { ffi::wulfrenda_version() }
}

/// The colour set at a position of the fixed order: falling number of members, then ascending mask.
pub fn colour_set_at(position: u8) -> u8 {
    // SAFETY: the function takes a number and returns one.
    unsafe { ffi::wulfrenda_colour_set(position) }
}
