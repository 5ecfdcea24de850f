//! A policy, held as the record that the library takes.

use core::fmt;

use crate::ffi;
use crate::refusal::{HanoiError, ReadError, Refusal};

/// How many bytes a policy's record has: states, letters, colours, initial state; the targets of 64 edges; their colours; for each of the 256 colour sets whether
/// it is in the family; and for each of the 64 edges whether it is quiet.
pub const RECORD_LEN: usize = 452;

const TARGETS: usize = 4;
const COLOURS: usize = 68;
const FAMILY: usize = 132;
const QUIET: usize = 388;

/// A policy: a deterministic Muller automaton. Edge number = state times letters plus letter. An edge has a colour, or it is quiet and has none. A policy made by
/// [`Policy::from_record`] need not be legal; the calls that take policies refuse it then with 7.
#[derive(Clone, Copy, PartialEq, Eq)]
pub struct Policy {
    record: [u8; RECORD_LEN],
}

impl Policy {
    /// The policy that command bytes give, and the bytes that follow its end command. Refused with 1 to 6.
    pub fn read(bytes: &[u8]) -> Result<(Policy, &[u8]), ReadError> {
        let mut record = [0; RECORD_LEN];
        let mut offset = 0;
        // SAFETY: each pointer is that of a slice or an array, with its length, or of a local.
        let number = unsafe {
            ffi::wulfrenda_read(
                bytes.as_ptr(),
                bytes.len(),
                record.as_mut_ptr(),
                record.len(),
                &mut offset,
            )
        };
        match Refusal::check(number) {
            Ok(()) => Ok((Policy { record }, &bytes[offset..])),
            Err(refusal) => Err(ReadError { refusal, offset }),
        }
    }

    /// The policy of a text in the Hanoi Omega-Automata format, version 1, as far as the subset goes that `include/wulfrenda.h` describes. Letters are the valuations of
    /// the names, and each different mark set on an edge is a colour, the empty one too: no edge is quiet. Refused with 18, 4 or 19.
    ///
    /// ```
    /// use wulfrenda::{judge_policy, Policy, Refusal};
    ///
    /// // one state, on which the event is seen or not; good if it is seen again and again
    /// let text = r#"HOA: v1 States: 1 Start: 0 AP: 1 "event" Acceptance: 1 Inf(0) --BODY-- State: 0 0 0 {0} --END--"#;
    /// let policy = Policy::read_hanoi(text.as_bytes())?;
    /// assert_eq!((policy.letters(), policy.colours()), (2, 2));
    /// assert!(judge_policy(&policy, 0, &[], &[0, 1])?.accepted);
    /// assert!(!judge_policy(&policy, 0, &[1], &[0])?.accepted);
    ///
    /// let error = Policy::read_hanoi(b"HOA: v1 States: 0").unwrap_err();
    /// assert_eq!((error.refusal, error.shared), (Refusal::NotHanoi, 16));
    /// # Ok::<(), Box<dyn std::error::Error>>(())
    /// ```
    pub fn read_hanoi(text: &[u8]) -> Result<Policy, HanoiError> {
        let mut record = [0; RECORD_LEN];
        let mut shared = 0;
        // SAFETY: each pointer is that of a slice or an array, with its length, or of a local.
        let number = unsafe {
            ffi::wulfrenda_read_hanoi(
                text.as_ptr(),
                text.len(),
                record.as_mut_ptr(),
                record.len(),
                &mut shared,
            )
        };
        match Refusal::check(number) {
            Ok(()) => Ok(Policy { record }),
            Err(refusal) => Err(HanoiError { refusal, shared }),
        }
    }

    /// The policy of a record. A set whose byte is not 0 is in the family, and an edge whose byte is not 0 is quiet; the policy's own record has a 1 there. A quiet
    /// edge that has a colour other than 0, or lies past the last edge, makes the policy illegal.
    pub fn from_record(mut record: [u8; RECORD_LEN]) -> Policy {
        // the family, and the quiet edges behind it
        for byte in &mut record[FAMILY..] {
            *byte = (*byte != 0) as u8;
        }
        Policy { record }
    }

    /// The policy's record.
    pub fn record(&self) -> &[u8; RECORD_LEN] {
        &self.record
    }

    /// How many states there are.
    pub fn states(&self) -> u8 {
        self.record[0]
    }

    /// How many letters there are.
    pub fn letters(&self) -> u8 {
        self.record[1]
    }

    /// How many colours there are.
    pub fn colours(&self) -> u8 {
        self.record[2]
    }

    /// The initial state.
    pub fn initial(&self) -> u8 {
        self.record[3]
    }

    /// The state that an edge leads to; 0 past the last edge.
    ///
    /// # Panics
    /// If the number is 64 or more.
    pub fn target(&self, edge: usize) -> u8 {
        self.record[TARGETS..COLOURS][edge]
    }

    /// The colour of an edge; 0 for a quiet edge, and past the last edge. [`Policy::is_quiet`] tells an edge of colour 0 from one that has none.
    ///
    /// # Panics
    /// If the number is 64 or more.
    pub fn colour(&self, edge: usize) -> u8 {
        self.record[COLOURS..FAMILY][edge]
    }

    /// Whether an edge is quiet, that is, has no colour; past the last edge none is.
    ///
    /// # Panics
    /// If the number is 64 or more.
    pub fn is_quiet(&self, edge: usize) -> bool {
        self.record[QUIET..][edge] != 0
    }

    /// Whether a colour set is in the family. Set 0 is that of a run on quiet edges alone.
    pub fn accepts(&self, set: u8) -> bool {
        self.record[FAMILY..QUIET][usize::from(set)] != 0
    }
}

impl fmt::Debug for Policy {
    fn fmt(&self, f: &mut fmt::Formatter<'_>) -> fmt::Result {
        let edges =
            (usize::from(self.states()) * usize::from(self.letters())).min(COLOURS - TARGETS);
        f.debug_struct("Policy")
            .field("states", &self.states())
            .field("letters", &self.letters())
            .field("colours", &self.colours())
            .field("initial", &self.initial())
            .field("targets", &&self.record[TARGETS..][..edges])
            .field("edge_colours", &&self.record[COLOURS..][..edges])
            .field("quiet", &Quiet(self))
            .field("family", &Family(self))
            .finish()
    }
}

/// The quiet edges of a policy, for printing.
struct Quiet<'a>(&'a Policy);

impl fmt::Debug for Quiet<'_> {
    fn fmt(&self, f: &mut fmt::Formatter<'_>) -> fmt::Result {
        f.debug_set()
            .entries((0..RECORD_LEN - QUIET).filter(|&edge| self.0.is_quiet(edge)))
            .finish()
    }
}

/// The sets of a policy's family, for printing.
struct Family<'a>(&'a Policy);

impl fmt::Debug for Family<'_> {
    fn fmt(&self, f: &mut fmt::Formatter<'_>) -> fmt::Result {
        f.debug_set()
            .entries((0..=255).filter(|&set| self.0.accepts(set)))
            .finish()
    }
}
