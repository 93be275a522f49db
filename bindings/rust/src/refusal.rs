//! Why a call is refused.

use std::error::Error;
use std::fmt;

/// Why a call was refused: document 01's numbers 1 to 17. A refusal changes no byte. Where several
/// hold, the lowest is given.
#[derive(Clone, Copy, Debug, PartialEq, Eq, PartialOrd, Ord, Hash)]
pub enum Refusal {
    /// 1: the table is not sound; of start, it has not 13,344 bytes.
    Unsound = 1,
    /// 2: a node, N, set, kind or name is outside its range; now is above 2^40-1; a push is to
    /// oneself.
    OutOfRange = 2,
    /// 3: the output is too short for what is to be written. [`crate::Table`] lends enough.
    ShortOutput = 3,
    /// 4: the message is malformed.
    Malformed = 4,
    /// 5: the message is not addressed to this node.
    NotAddressed = 5,
    /// 6: an id named is not held.
    NotHeld = 6,
    /// 7: what an id names is dead, unlinked or removed.
    Dead = 7,
    /// 8: a directory where a file is asked for, or the other way round; or the root is to be
    /// removed.
    WrongKind = 8,
    /// 9: a live entry there has that name.
    NameTaken = 9,
    /// 10: the directory to be removed has a live entry, or a live child of it is held.
    NotEmpty = 10,
    /// 11: the directory is 16 deep, and nothing can stand in it.
    TooDeep = 11,
    /// 12: the place directory is not held. No sound table yields this.
    PlaceNotHeld = 12,
    /// 13: message and table contradict each other: kinds differ, or a directory's places or
    /// depths, or equal stamps with different state; or it tells of an id of our own making that we
    /// don't hold.
    AtOdds = 13,
    /// 14: nothing is pending there for that node, so no push is due.
    NotPending = 14,
    /// 15: the acknowledgement is of another version than the current one, or its sender is not
    /// pending: it comes too late, or twice.
    NotCurrent = 15,
    /// 16: more than 64 replicas, 256 entries, or 32 entries in a directory would be needed.
    Full = 16,
    /// 17: a clock past 2^40-1, a version past 2^32-1 or a count past 16,777,215 would be needed.
    AtEnd = 17,
}

impl Refusal {
    /// All of them, in the order of their numbers.
    pub const ALL: [Refusal; 17] = [
        Refusal::Unsound,
        Refusal::OutOfRange,
        Refusal::ShortOutput,
        Refusal::Malformed,
        Refusal::NotAddressed,
        Refusal::NotHeld,
        Refusal::Dead,
        Refusal::WrongKind,
        Refusal::NameTaken,
        Refusal::NotEmpty,
        Refusal::TooDeep,
        Refusal::PlaceNotHeld,
        Refusal::AtOdds,
        Refusal::NotPending,
        Refusal::NotCurrent,
        Refusal::Full,
        Refusal::AtEnd,
    ];

    /// Document 01's number, 1 to 17.
    pub fn number(self) -> u32 {
        self as u32
    }

    /// The refusal with this number, if there is one.
    pub fn from_number(number: u32) -> Option<Refusal> {
        let index = usize::try_from(number).ok()?.checked_sub(1)?;
        Refusal::ALL.get(index).copied()
    }
}

impl fmt::Display for Refusal {
    fn fmt(&self, f: &mut fmt::Formatter) -> fmt::Result {
        f.write_str(match self {
            Refusal::Unsound => "the table is not sound",
            Refusal::OutOfRange => {
                "a node, number of nodes, set, kind, name or time is outside its range, \
                 or a push is to oneself"
            }
            Refusal::ShortOutput => "the output is too short",
            Refusal::Malformed => "the message is malformed",
            Refusal::NotAddressed => "the message is not addressed to this node",
            Refusal::NotHeld => "an id named is not held",
            Refusal::Dead => "what an id names is dead",
            Refusal::WrongKind => "it is of the wrong kind, or the root is to be removed",
            Refusal::NameTaken => "a live entry there has that name",
            Refusal::NotEmpty => "the directory has a live entry or a live child",
            Refusal::TooDeep => "the directory is 16 deep",
            Refusal::PlaceNotHeld => "the place directory is not held",
            Refusal::AtOdds => "message and table contradict each other",
            Refusal::NotPending => "nothing is pending for that node",
            Refusal::NotCurrent => {
                "the acknowledgement is of another version, or its sender is not pending"
            }
            Refusal::Full => {
                "more than 64 replicas, 256 entries or 32 entries in a directory would be needed"
            }
            Refusal::AtEnd => "a clock, version or count past its end would be needed",
        })
    }
}

impl Error for Refusal {}
