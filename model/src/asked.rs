//! A call as data: its parameters, all but the table. What a schedule makes, what is tried on
//! hostile tables and what a request asks for are such calls.
//!
//! Beside them stands which refusals a call can give, and a tally of those that were given.

use crate::calls::{Answer, Service};
use crate::steps::Bound;
use crate::table::Table;
use std::fmt;

/// The names of the calls, by their codes 1 to 11.
pub const CALLS: [&str; 11] = [
    "start",
    "create",
    "unlink",
    "rename",
    "remove",
    "spread",
    "list",
    "push",
    "receive",
    "acknowledged",
    "pending",
];

/// A call without its table; `room` is the length of its output buffer.
#[derive(Clone, Debug, PartialEq, Eq)]
pub enum Call {
    Start {
        node: u64,
        n: u64,
    },
    Create {
        now: u64,
        directory: u64,
        kind: u64,
        name: Vec<u8>,
        set: u64,
    },
    Unlink {
        now: u64,
        id: u64,
    },
    Rename {
        now: u64,
        id: u64,
        directory: u64,
        name: Vec<u8>,
    },
    Remove {
        now: u64,
        id: u64,
    },
    Spread {
        id: u64,
        set: u64,
    },
    List {
        id: u64,
        room: usize,
    },
    Push {
        id: u64,
        node: u64,
        room: usize,
    },
    Receive {
        now: u64,
        message: Vec<u8>,
        room: usize,
    },
    Acknowledged {
        message: Vec<u8>,
    },
    Pending,
}

impl Call {
    /// The call with this code and these parameters, if the code is one. Numbers stand in the
    /// order of the call's parameters, unused ones last.
    pub fn with(code: u8, numbers: [u64; 5], bytes: Vec<u8>, room: usize) -> Option<Call> {
        let [a, b, c, d, _] = numbers;
        Some(match code {
            1 => Call::Start { node: a, n: b },
            2 => Call::Create {
                now: a,
                directory: b,
                kind: c,
                name: bytes,
                set: d,
            },
            3 => Call::Unlink { now: a, id: b },
            4 => Call::Rename {
                now: a,
                id: b,
                directory: c,
                name: bytes,
            },
            5 => Call::Remove { now: a, id: b },
            6 => Call::Spread { id: a, set: b },
            7 => Call::List { id: a, room },
            8 => Call::Push {
                id: a,
                node: b,
                room,
            },
            9 => Call::Receive {
                now: a,
                message: bytes,
                room,
            },
            10 => Call::Acknowledged { message: bytes },
            11 => Call::Pending,
            _ => return None,
        })
    }

    /// The call's code, 1 to 11.
    pub fn code(&self) -> u8 {
        match self {
            Call::Start { .. } => 1,
            Call::Create { .. } => 2,
            Call::Unlink { .. } => 3,
            Call::Rename { .. } => 4,
            Call::Remove { .. } => 5,
            Call::Spread { .. } => 6,
            Call::List { .. } => 7,
            Call::Push { .. } => 8,
            Call::Receive { .. } => 9,
            Call::Acknowledged { .. } => 10,
            Call::Pending => 11,
        }
    }

    /// The call's numbers in the order of its parameters, then zeros.
    pub fn numbers(&self) -> [u64; 5] {
        match *self {
            Call::Start { node, n } => [node, n, 0, 0, 0],
            Call::Create {
                now,
                directory,
                kind,
                set,
                ..
            } => [now, directory, kind, set, 0],
            Call::Unlink { now, id } | Call::Remove { now, id } => [now, id, 0, 0, 0],
            Call::Rename {
                now, id, directory, ..
            } => [now, id, directory, 0, 0],
            Call::Spread { id, set } => [id, set, 0, 0, 0],
            Call::List { id, .. } => [id, 0, 0, 0, 0],
            Call::Push { id, node, .. } => [id, node, 0, 0, 0],
            Call::Receive { now, .. } => [now, 0, 0, 0, 0],
            Call::Acknowledged { .. } | Call::Pending => [0; 5],
        }
    }

    /// The call's byte string other than table and output.
    pub fn bytes(&self) -> &[u8] {
        match self {
            Call::Create { name, .. } | Call::Rename { name, .. } => name,
            Call::Receive { message, .. } | Call::Acknowledged { message } => message,
            _ => &[],
        }
    }

    /// The length of the call's output buffer.
    pub fn room(&self) -> usize {
        match *self {
            Call::List { room, .. } | Call::Push { room, .. } | Call::Receive { room, .. } => room,
            _ => 0,
        }
    }

    /// Makes the call; `out` has the length that `room` says.
    pub fn make(&self, service: &Service, table: &mut [u8], out: &mut [u8]) -> Answer {
        match self {
            Call::Start { node, n } => service.start(table, *node, *n),
            Call::Create {
                now,
                directory,
                kind,
                name,
                set,
            } => service.create(table, *now, *directory, *kind, name, *set),
            Call::Unlink { now, id } => service.unlink(table, *now, *id),
            Call::Rename {
                now,
                id,
                directory,
                name,
            } => service.rename(table, *now, *id, *directory, name),
            Call::Remove { now, id } => service.remove(table, *now, *id),
            Call::Spread { id, set } => service.spread(table, *id, *set),
            Call::List { id, .. } => service.list(table, *id, out),
            Call::Push { id, node, .. } => service.push(table, *id, *node, out),
            Call::Receive { now, message, .. } => service.receive(table, *now, message, out),
            Call::Acknowledged { message } => service.acknowledged(table, message),
            Call::Pending => service.pending(table),
        }
    }

    /// The table that the call would leave if there were no bounds, if it can meet one and isn't
    /// refused for something else.
    fn unbounded(&self, service: &Service, table: &[u8]) -> Option<Table> {
        let outcome = match self {
            Call::Create {
                now,
                directory,
                kind,
                name,
                set,
            } => service.created(table, *now, *directory, *kind, name, *set),
            Call::Unlink { now, id } => service.unlinked(table, *now, *id),
            Call::Rename {
                now,
                id,
                directory,
                name,
            } => service.renamed(table, *now, *id, *directory, name),
            Call::Remove { now, id } => service.removed(table, *now, *id),
            Call::Spread { id, set } => service.widened(table, *id, *set),
            Call::Receive { now, message, room } => service
                .received(table, *now, message, *room)
                .map(|(after, _)| (after, 0)),
            _ => return None,
        };
        outcome.ok().map(|(after, _)| after)
    }

    /// The bound that the call is refused for, if it is one alone.
    pub fn bound(&self, service: &Service, table: &[u8]) -> Option<Bound> {
        let after = self.unbounded(service, table)?;
        let mut passed = Bound::ALL
            .into_iter()
            .filter(|bound| bound.is_passed(&after));
        let first = passed.next();
        first.filter(|_| passed.next().is_none())
    }
}

/// The name of the call with this code.
pub fn call_name(code: u8) -> &'static str {
    CALLS[usize::from(code) - 1]
}

/// The refusals that a call can give, by document 01's table; row by row, codes 1 to 11.
///
/// - 2 needs a node, N, set, kind, name or now among the parameters; 3 an output buffer; 4 and 5 a
///   message; 6 an id, of those in a message only an acknowledgement's.
/// - 7 to 11, 14 and 15 name their calls.
/// - 12 is not there: a sound table holds the place directory of whatever it holds.
/// - 13 is a message against a table, so receive's alone: a new stamp is above every stamp seen.
/// - 16 needs a new replica or entry. Unlink and remove change a live replica, which has an entry
///   at its place; spread, acknowledged and the calls that write nothing make neither.
/// - 17 needs a clock, version or count: every call that changes a head or an entry.
pub const REFUSALS: [&[u32]; 11] = [
    &[1, 2],
    &[1, 2, 6, 7, 8, 9, 11, 16, 17],
    &[1, 2, 6, 7, 8, 17],
    &[1, 2, 6, 7, 8, 9, 11, 16, 17],
    &[1, 2, 6, 7, 8, 10, 17],
    &[1, 2, 6, 17],
    &[1, 3, 6, 7, 8],
    &[1, 2, 3, 6, 14],
    &[1, 2, 3, 4, 5, 13, 16, 17],
    &[1, 4, 5, 6, 15],
    &[1],
];

/// The bounds that a call can meet, row by row, codes 1 to 11: create makes one of everything, rename
/// an entry, receive all but ids. A new stamp is a clock; a changed head or entry is a version.
pub const BOUNDS: [&[Bound]; 11] = [
    &[],
    &Bound::ALL,
    &[Bound::Clock, Bound::Version],
    &[
        Bound::Entries,
        Bound::Directory,
        Bound::Clock,
        Bound::Version,
    ],
    &[Bound::Clock, Bound::Version],
    &[Bound::Version],
    &[],
    &[],
    &[
        Bound::Replicas,
        Bound::Entries,
        Bound::Directory,
        Bound::Clock,
        Bound::Version,
    ],
    &[],
    &[],
];

/// Every call and bound that it can meet.
pub fn bounds() -> impl Iterator<Item = (u8, Bound)> {
    let rows = (1..=11u8).zip(BOUNDS);
    rows.flat_map(|(code, row)| row.iter().map(move |&bound| (code, bound)))
}

/// Says whether a call with this code can answer this number. 0 is done.
pub fn is_reachable(code: u8, number: u32) -> bool {
    number == 0 || REFUSALS[usize::from(code) - 1].contains(&number)
}

/// Every call and number that can be reached.
pub fn reachable() -> impl Iterator<Item = (u8, u32)> {
    let pairs = (1..=11u8).flat_map(|code| (0..=17).map(move |number| (code, number)));
    pairs.filter(|&(code, number)| is_reachable(code, number))
}

/// How often each call answered each number.
#[derive(Clone, Debug, Default, PartialEq, Eq)]
pub struct Tally {
    counts: [[u64; 18]; 11],
}

impl Tally {
    /// Counts one answer.
    pub fn add(&mut self, code: u8, number: u32) {
        self.counts[usize::from(code) - 1][number as usize] += 1;
    }

    /// How often the call with this code answered this number.
    pub fn of(&self, code: u8, number: u32) -> u64 {
        self.counts[usize::from(code) - 1][number as usize]
    }

    /// How often the call with this code was made.
    pub fn made(&self, code: u8) -> u64 {
        self.counts[usize::from(code) - 1].iter().sum()
    }

    /// How often any call answered this number.
    pub fn answered(&self, number: u32) -> u64 {
        self.counts.iter().map(|row| row[number as usize]).sum()
    }

    /// The pairs of these calls that can be reached and were not.
    pub fn missing(&self, codes: &[u8]) -> Vec<(u8, u32)> {
        let pairs = reachable().filter(|(code, _)| codes.contains(code));
        pairs
            .filter(|&(code, number)| self.of(code, number) == 0)
            .collect()
    }
}

/// A line for each call that was made; a dot stands where a number cannot be reached.
impl fmt::Display for Tally {
    fn fmt(&self, f: &mut fmt::Formatter) -> fmt::Result {
        write!(f, "{:13}{:>8}", "", "done")?;
        for number in 1..=17 {
            write!(f, "{number:>7}")?;
        }
        for code in (1..=11).filter(|&code| self.made(code) > 0) {
            write!(f, "\n{:13}{:>8}", call_name(code), self.of(code, 0))?;
            for number in 1..=17 {
                match self.of(code, number) {
                    0 if !is_reachable(code, number) => write!(f, "{:>7}", ".")?,
                    count => write!(f, "{count:>7}")?,
                }
            }
        }
        Ok(())
    }
}

/// Pairs of calls and numbers in words.
pub fn in_words(pairs: &[(u8, u32)]) -> String {
    let words = pairs.iter().map(|&(code, number)| {
        let what = match number {
            0 => "done".to_string(),
            number => number.to_string(),
        };
        format!("{} {what}", call_name(code))
    });
    words.collect::<Vec<_>>().join(", ")
}
