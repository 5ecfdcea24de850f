//! The numbers of the questions that a call may answer with "no".

use core::error::Error;
use core::fmt;

/// Why a call was refused: the first question that was answered "no".
#[derive(Clone, Copy, Debug, PartialEq, Eq, Hash)]
#[repr(u8)]
pub enum Refusal {
    /// 1: the command bytes end inside the policy.
    Truncated = 1,
    /// 2: a command's first byte is none of 0 to 4.
    UnknownCommand = 2,
    /// 3: the first command is not shape, or a later one is.
    Misplaced = 3,
    /// 4: an operand is outside the limits or the declared counts; a text has too many states, or states times letters.
    OutOfRange = 4,
    /// 5: an edge or a set is given again; an edge with a colour and without one too.
    Repeated = 5,
    /// 6: an edge has not been given when the end command comes.
    Incomplete = 6,
    /// 7: a policy is not legal, or its record has another length.
    IllegalPolicy = 7,
    /// 8: the lengths of the tables do not belong together, or there are too many states or no proper number of letters.
    Lengths = 8,
    /// 9: the nodes do not fit their tables.
    TooManyNodes = 9,
    /// 10: the built states do not fit their tables.
    TooManyStates = 10,
    /// 11: the state is none of the policy's, or has no rows.
    NoSuchState = 11,
    /// 12: a letter is none of the policy's.
    NoSuchLetter = 12,
    /// 13: a row leads to a state that has no rows.
    NoSuchTarget = 13,
    /// 14: the loop is empty.
    EmptyLoop = 14,
    /// 15: the two policies have different states, letters or targets.
    DifferentGraphs = 15,
    /// 16: there is not one owner for each policy state.
    OwnersLength = 16,
    /// 17: an owner is neither 0, the supervisor, nor 1, the plant.
    NoSuchOwner = 17,
    /// 18: a text is not in the subset of the Hanoi format.
    NotHanoi = 18,
    /// 19: a text has more than 8 different mark sets.
    TooManyMarkSets = 19,
}

impl Refusal {
    /// The number of the question.
    pub fn number(self) -> u8 {
        self as u8
    }

    /// What a call answered: nothing was refused where it is 0.
    #[inline]
    pub(crate) fn check(number: u8) -> Result<(), Refusal> {
        use Refusal::*;
        Err(match number {
            0 => return Ok(()),
            1 => Truncated,
            2 => UnknownCommand,
            3 => Misplaced,
            4 => OutOfRange,
            5 => Repeated,
            6 => Incomplete,
            7 => IllegalPolicy,
            8 => Lengths,
            9 => TooManyNodes,
            10 => TooManyStates,
            11 => NoSuchState,
            12 => NoSuchLetter,
            13 => NoSuchTarget,
            14 => EmptyLoop,
            15 => DifferentGraphs,
            16 => OwnersLength,
            17 => NoSuchOwner,
            18 => NotHanoi,
            19 => TooManyMarkSets,
            _ => unreachable!("the library answers 0 to 19"),
        })
    }

    fn text(self) -> &'static str {
        match self {
            Refusal::Truncated => "the command bytes end inside the policy",
            Refusal::UnknownCommand => "unknown command",
            Refusal::Misplaced => "the first command is not shape, or a later one is",
            Refusal::OutOfRange => "an operand or a count is outside the limits",
            Refusal::Repeated => "an edge or a set is given again",
            Refusal::Incomplete => "an edge is missing at the end",
            Refusal::IllegalPolicy => "the policy is not legal",
            Refusal::Lengths => "the tables' lengths do not belong together",
            Refusal::TooManyNodes => "the nodes do not fit",
            Refusal::TooManyStates => "the built states do not fit",
            Refusal::NoSuchState => "no such state",
            Refusal::NoSuchLetter => "no such letter",
            Refusal::NoSuchTarget => "a row leads to no state",
            Refusal::EmptyLoop => "the loop is empty",
            Refusal::DifferentGraphs => "the policies have different graphs",
            Refusal::OwnersLength => "there is not one owner for each policy state",
            Refusal::NoSuchOwner => "no such owner",
            Refusal::NotHanoi => "the text is not in the subset of the Hanoi format",
            Refusal::TooManyMarkSets => "there are more than 8 different mark sets",
        }
    }
}

impl fmt::Display for Refusal {
    fn fmt(&self, f: &mut fmt::Formatter<'_>) -> fmt::Result {
        write!(f, "refused {}: {}", self.number(), self.text())
    }
}

impl Error for Refusal {}

/// Why command bytes were not read, not translated or not solved, and where.
#[derive(Clone, Copy, Debug, PartialEq, Eq, Hash)]
pub struct ReadError {
    /// The question that was answered "no".
    pub refusal: Refusal,
    /// Where the refused command begins; the number of bytes, if there is none; 0 where the policy was read and then refused.
    pub offset: usize,
}

impl ReadError {
    /// The number of the question.
    pub fn number(self) -> u8 {
        self.refusal.number()
    }
}

impl fmt::Display for ReadError {
    fn fmt(&self, f: &mut fmt::Formatter<'_>) -> fmt::Result {
        if self.number() > Refusal::Incomplete.number() {
            return self.refusal.fmt(f);
        }
        write!(
            f,
            "refused {} {}: {}",
            self.number(),
            self.offset,
            self.refusal.text()
        )
    }
}

impl Error for ReadError {}

/// Why a text in the Hanoi format was not read, and how far it goes.
#[derive(Clone, Copy, Debug, PartialEq, Eq, Hash)]
pub struct HanoiError {
    /// The question that was answered "no": [`Refusal::NotHanoi`], [`Refusal::OutOfRange`] or [`Refusal::TooManyMarkSets`].
    pub refusal: Refusal,
    /// After [`Refusal::NotHanoi`], the length of the longest beginning that some text of the subset shares: the byte there is the first that cannot stand where it
    /// does, or the text breaks off. 0 otherwise.
    pub shared: usize,
}

impl HanoiError {
    /// The number of the question.
    pub fn number(self) -> u8 {
        self.refusal.number()
    }
}

impl fmt::Display for HanoiError {
    fn fmt(&self, f: &mut fmt::Formatter<'_>) -> fmt::Result {
        if self.refusal != Refusal::NotHanoi {
            return self.refusal.fmt(f);
        }
        write!(
            f,
            "refused {} {}: {}",
            self.number(),
            self.shared,
            self.refusal.text()
        )
    }
}

impl Error for HanoiError {}
