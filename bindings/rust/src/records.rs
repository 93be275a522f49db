//! What stands in a table, and how it is read from bytes that the library has judged.

use crate::{Clock, Id, Kind, Name, Node, Nodes, Stamp};

/// An entry of a directory.
#[derive(Clone, Copy, Debug, PartialEq, Eq)]
pub struct Entry {
    /// Whether the child stands there. A dead entry says that it did, or would have.
    pub live: bool,
    /// What it is an entry for.
    pub child: Id,
    /// The stamp of the state that it comes from.
    pub stamp: Stamp,
    /// The child's name there.
    pub name: Name,
}

/// An entry of a table: an entry, and the directory in which it is listed.
#[derive(Clone, Copy, Debug, PartialEq, Eq)]
pub struct Listed {
    /// The directory.
    pub directory: Id,
    /// Its entry.
    pub entry: Entry,
}

/// Where a file or directory stands.
#[derive(Clone, Copy, Debug, PartialEq, Eq)]
pub struct Place {
    /// The directory in which it stands.
    pub directory: Id,
    /// Its name there.
    pub name: Name,
}

/// A file or directory, as one node holds it.
#[derive(Clone, Copy, Debug, PartialEq, Eq)]
pub struct Replica {
    /// File or directory.
    pub kind: Kind,
    /// Whether it is there; a dead one was unlinked or removed, and keeps its last place.
    pub live: bool,
    /// Its id.
    pub id: Id,
    /// When its state was made, and by whom.
    pub stamp: Stamp,
    /// The nodes that hold it, or are to.
    pub holders: Nodes,
    /// How deep it stands: its place directory's depth and one.
    pub depth: u8,
    /// Where it stands; the root stands nowhere.
    pub place: Option<Place>,
    /// How often it has changed, by this node's count.
    pub version: u32,
    /// The nodes that have not acknowledged this version: to each of them a push is due.
    pub pending: Nodes,
}

/// The number in these bytes, the lowest first.
fn number(bytes: &[u8]) -> u64 {
    bytes
        .iter()
        .rev()
        .fold(0, |number, &byte| number << 8 | u64::from(byte))
}

/// Its header: "mark 4E 54, own node, N, next count u32, highest clock seen u64, sixteen zeros".
pub(crate) fn own_node(table: &[u8]) -> Node {
    Node::known(table[2])
}

pub(crate) fn node_count(table: &[u8]) -> u8 {
    table[3]
}

pub(crate) fn highest_clock(table: &[u8]) -> Clock {
    Clock::known(number(&table[8..16]))
}

/// "64 replica slots of 48", behind the header's 32. Used ones come first.
pub(crate) fn replicas(table: &[u8]) -> impl Iterator<Item = Replica> + '_ {
    let slots = table[32..32 + 64 * 48].chunks_exact(48);
    slots.take_while(|slot| slot[0] != 0).map(replica)
}

/// "256 entry slots of 40", behind those. Used ones come first.
pub(crate) fn entries(table: &[u8]) -> impl Iterator<Item = Listed> + '_ {
    let slots = table[32 + 64 * 48..].chunks_exact(40);
    slots.take_while(|slot| slot[0] != 0).map(|slot| Listed {
        directory: Id::known(number(&slot[32..36]) as u32),
        entry: entry(slot),
    })
}

/// "Entry, 32 bytes, mark 45 4E: live, one zero, child id u32, stamp u64, name 16."
pub(crate) fn entry(record: &[u8]) -> Entry {
    Entry {
        live: record[2] == 1,
        child: Id::known(number(&record[4..8]) as u32),
        stamp: Stamp::known(number(&record[8..16])),
        name: Name::known(&record[16..32]),
    }
}

/// "mark 48 44: kind (1 file, 2 directory), live (0/1), id u32, stamp u64, holders u8, depth u8,
/// two zeros, place directory u32, place name 16", and "version u32, pending set, three zeros".
fn replica(slot: &[u8]) -> Replica {
    let id = Id::known(number(&slot[4..8]) as u32);
    Replica {
        kind: if slot[2] == 1 {
            Kind::File
        } else {
            Kind::Directory
        },
        live: slot[3] == 1,
        id,
        stamp: Stamp::known(number(&slot[8..16])),
        holders: Nodes::from_bits(slot[16]),
        depth: slot[17],
        place: (id != Id::ROOT).then(|| Place {
            directory: Id::known(number(&slot[20..24]) as u32),
            name: Name::known(&slot[24..40]),
        }),
        version: number(&slot[40..44]) as u32,
        pending: Nodes::from_bits(slot[44]),
    }
}
