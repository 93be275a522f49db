//! The table of a node: its layout, and document 01's "A sound table".
//!
//! A table in memory has no limits: its lists may be longer than the slots and its numbers past
//! their end, so that a call can be done first and its outcome judged afterwards.

use crate::bytes::{all_zero, get_u32, get_u64, put_u32, put_u64};
use crate::records::{
    clock, count, has, is_id, is_node, is_set, is_version, maker, Entry, Head, Kind, Name, Place,
    Record, DEEPEST, LAST_CLOCK, LAST_COUNT, MOST_NODES, ROOT,
};
use std::collections::HashSet;

/// "64 replica slots of 48 (head, version u32, pending set, three zeros)"
pub const REPLICA_SLOTS: usize = 64;
const REPLICA_SIZE: usize = 48;
/// "256 entry slots of 40 (entry, directory id u32, four zeros)"
pub const ENTRY_SLOTS: usize = 256;
const ENTRY_SIZE: usize = 40;
/// "at most 32 entries in a directory"
pub const MOST_ENTRIES: usize = 32;

const REPLICAS_AT: usize = 32;
const ENTRIES_AT: usize = REPLICAS_AT + REPLICA_SLOTS * REPLICA_SIZE;

/// A used replica slot.
#[derive(Clone, Copy, Debug, PartialEq, Eq)]
pub struct Replica {
    pub head: Head,
    pub version: u64,
    pub pending: u8,
}

/// A used entry slot.
#[derive(Clone, Copy, Debug, PartialEq, Eq)]
pub struct Slot {
    pub entry: Entry,
    pub directory: u32,
}

/// "Table, 13,344 bytes: 32 bytes (mark 4E 54, own node, N, next count u32, highest clock seen
/// u64, sixteen zeros); 64 replica slots of 48 (..); 256 entry slots of 40 (..)."
#[derive(Clone, Debug, PartialEq, Eq)]
pub struct Table {
    pub own: u8,
    pub n: u8,
    pub next: u64,
    pub highest: u64,
    pub replicas: Vec<Replica>,
    pub entries: Vec<Slot>,
}

impl Table {
    pub const SIZE: usize = ENTRIES_AT + ENTRY_SLOTS * ENTRY_SIZE;
    pub const MARK: [u8; 2] = [0x4E, 0x54];

    /// "A fresh table has the root in slot 0 with version 1 and nothing pending, next count 1,
    /// highest clock 0."
    pub fn fresh(node: u8, n: u8) -> Table {
        let root = Replica {
            head: Head::root(n),
            version: 1,
            pending: 0,
        };
        Table {
            own: node,
            n,
            next: 1,
            highest: 0,
            replicas: vec![root],
            entries: Vec::new(),
        }
    }

    /// The slot of the replica with this id.
    pub fn find(&self, id: u32) -> Option<usize> {
        self.replicas.iter().position(|r| r.head.id == id)
    }

    /// The head of the replica with this id.
    pub fn head(&self, id: u32) -> Option<&Head> {
        self.find(id).map(|slot| &self.replicas[slot].head)
    }

    /// The entries of a directory, in slot order.
    pub fn entries_of(&self, directory: u32) -> impl Iterator<Item = &Entry> {
        let there = move |slot: &&Slot| slot.directory == directory;
        self.entries.iter().filter(there).map(|slot| &slot.entry)
    }

    /// The entry of a directory for a child and a name.
    pub fn entry_at(&self, directory: u32, child: u32, name: Name) -> Option<&Entry> {
        self.entries_of(directory)
            .find(|e| e.child == child && e.name == name)
    }

    /// The table that these bytes are, if they are its layout with everything in range.
    pub fn read(bytes: &[u8]) -> Option<Table> {
        Table::decode(bytes).ok()
    }

    /// The same, or which rule the bytes break.
    pub fn decode(bytes: &[u8]) -> Result<Table, Rule> {
        let laid_out = bytes.len() == Table::SIZE
            && bytes.starts_with(&Table::MARK)
            && all_zero(&bytes[16..REPLICAS_AT]);
        if !laid_out {
            return Err(Rule::Ranges);
        }
        let n = bytes[3];
        let replicas = used_slots(&bytes[REPLICAS_AT..ENTRIES_AT], REPLICA_SIZE, Head::MARK)?;
        let entries = used_slots(&bytes[ENTRIES_AT..], ENTRY_SIZE, Entry::MARK)?;
        let replicas = replicas.map(|slot| read_replica(slot, n));
        let entries = entries.map(|slot| read_slot(slot, n));
        let table = Table {
            own: bytes[2],
            n,
            next: get_u32(bytes, 4).into(),
            highest: get_u64(bytes, 8),
            replicas: replicas.collect::<Option<_>>().ok_or(Rule::Ranges)?,
            entries: entries.collect::<Option<_>>().ok_or(Rule::Ranges)?,
        };
        table.in_range().then_some(table).ok_or(Rule::Ranges)
    }

    /// The table's bytes; of a table past its limits, what the layout has room for.
    pub fn bytes(&self) -> Vec<u8> {
        let mut bytes = vec![0; Table::SIZE];
        bytes[..2].copy_from_slice(&Table::MARK);
        bytes[2] = self.own;
        bytes[3] = self.n;
        put_u32(&mut bytes, 4, self.next as u32);
        put_u64(&mut bytes, 8, self.highest);
        let (front, back) = bytes.split_at_mut(ENTRIES_AT);
        let slots = front[REPLICAS_AT..].chunks_mut(REPLICA_SIZE);
        for (slot, replica) in slots.zip(&self.replicas) {
            slot[..Head::SIZE].copy_from_slice(&replica.head.write());
            put_u32(slot, 40, replica.version as u32);
            slot[44] = replica.pending;
        }
        for (slot, used) in back.chunks_mut(ENTRY_SIZE).zip(&self.entries) {
            slot[..Entry::SIZE].copy_from_slice(&used.entry.write());
            put_u32(slot, 32, used.directory);
        }
        bytes
    }

    /// "Ranges as above". "Next count may reach 16777216, which means none is left." The highest
    /// clock is a clock, or 0 as in a fresh table.
    fn in_range(&self) -> bool {
        let n = self.n;
        (1..=MOST_NODES).contains(&n)
            && is_node(self.own.into(), n)
            && (1..=LAST_COUNT + 1).contains(&self.next)
            && self.highest <= LAST_CLOCK
            && self.replicas.len() <= REPLICA_SLOTS
            && self.entries.len() <= ENTRY_SLOTS
            && self
                .replicas
                .iter()
                .all(|r| r.head.in_range(n) && is_version(r.version) && is_set(r.pending.into(), n))
            && self
                .entries
                .iter()
                .all(|slot| slot.entry.in_range(n) && is_id(slot.directory, n))
    }

    /// The heads of the replicas but the root.
    fn made(&self) -> impl Iterator<Item = &Head> {
        let heads = self.replicas.iter().map(|r| &r.head);
        heads.filter(|head| head.id != ROOT)
    }

    /// Says whether each replica but the root and its place directory, if held, pass the test.
    fn places(&self, test: fn(&Head, &Head) -> bool) -> bool {
        self.made().all(|head| {
            let directory = self.head(head.place.directory);
            directory.is_none_or(|directory| test(head, directory))
        })
    }

    /// Says whether the directory of each entry, if held, passes the test.
    fn directories(&self, test: fn(&Head) -> bool) -> bool {
        let mut heads = self.entries.iter().map(|slot| self.head(slot.directory));
        heads.all(|directory| directory.is_none_or(test))
    }

    /// Says whether each live replica but the root and the entry at its place pass the test.
    fn entries_at_places(&self, test: fn(&Head, Option<&Entry>) -> bool) -> bool {
        self.made().filter(|head| head.live).all(|head| {
            let Place { directory, name } = head.place;
            test(head, self.entry_at(directory, head.id, name))
        })
    }
}

/// "Used slots first": the leading slots that start with the mark. "Free slots are zero": after
/// them, every byte of the part.
fn used_slots(part: &[u8], size: usize, mark: [u8; 2]) -> Result<std::slice::Chunks<'_, u8>, Rule> {
    let slots = part.chunks(size);
    let used = slots.take_while(|slot| slot.starts_with(&mark)).count();
    let (used, free) = part.split_at(used * size);
    if all_zero(free) {
        Ok(used.chunks(size))
    } else if all_zero(&free[..size]) {
        Err(Rule::UsedSlotsFirst)
    } else {
        Err(Rule::Ranges)
    }
}

fn read_replica(slot: &[u8], n: u8) -> Option<Replica> {
    let replica = Replica {
        head: Head::read(&slot[..Head::SIZE], n)?,
        version: get_u32(slot, 40).into(),
        pending: slot[44],
    };
    all_zero(&slot[45..]).then_some(replica)
}

fn read_slot(slot: &[u8], n: u8) -> Option<Slot> {
    let used = Slot {
        entry: Entry::read(&slot[..Entry::SIZE], n)?,
        directory: get_u32(slot, 32),
    };
    all_zero(&slot[36..]).then_some(used)
}

// ---- a sound table

/// The rules of "A sound table", one by one.
#[derive(Clone, Copy, Debug, PartialEq, Eq)]
pub enum Rule {
    /// "Ranges as above": length, marks, zeros and ranges.
    Ranges,
    /// "used slots first"
    UsedSlotsFirst,
    /// "the root in slot 0 as described"
    RootInSlotZero,
    /// "replica ids unique"
    IdsUnique,
    /// "holders include the maker"
    HoldersIncludeMaker,
    /// "and the own node"
    HoldersIncludeOwn,
    /// "pending is within holders"
    PendingWithinHolders,
    /// "without the own node"
    PendingWithoutOwn,
    /// "replica ids of own making below the next count"
    OwnIdsBelowNext,
    /// "For each replica but the root, its place directory is held"
    PlaceHeld,
    /// "is a directory"
    PlaceIsDirectory,
    /// "is one less deep"
    PlaceOneLessDeep,
    /// "a live replica's is live"
    PlaceOfLiveIsLive,
    /// "Each entry's directory is held"
    EntryDirectoryHeld,
    /// "is a directory"
    EntryDirectoryIsDirectory,
    /// "and less than 16 deep"
    EntryDirectoryNotDeepest,
    /// "its child isn't the root"
    ChildNotRoot,
    /// "directory, child and name together are unique"
    EntriesUnique,
    /// "at most 32 entries in a directory"
    AtMost32Entries,
    /// "Each live replica but the root has an entry at its place"
    EntryAtPlace,
    /// "with a stamp not below its own"
    EntryAtPlaceNotBelow,
    /// "and live if equal"
    EntryAtPlaceLiveIfEqual,
    /// "All clocks are at most the highest seen."
    ClocksSeen,
}

type Test = fn(&Table) -> bool;

/// The rules in the order of the document. Where a rule speaks of something that a rule before it
/// found missing, it says nothing. `UsedSlotsFirst` is judged over bytes: in a list no slot is
/// free.
const RULES: [(Rule, Test); 22] = [
    (Rule::Ranges, Table::in_range),
    (Rule::RootInSlotZero, |t| {
        let first = t.replicas.first();
        first.is_some_and(|r| r.head == Head::root(t.n))
    }),
    (Rule::IdsUnique, |t| {
        let mut seen = HashSet::new();
        t.replicas.iter().all(|r| seen.insert(r.head.id))
    }),
    (Rule::HoldersIncludeMaker, |t| {
        t.made().all(|head| has(head.holders, maker(head.id)))
    }),
    (Rule::HoldersIncludeOwn, |t| {
        t.replicas.iter().all(|r| has(r.head.holders, t.own))
    }),
    (Rule::PendingWithinHolders, |t| {
        t.replicas.iter().all(|r| r.pending & !r.head.holders == 0)
    }),
    (Rule::PendingWithoutOwn, |t| {
        t.replicas.iter().all(|r| !has(r.pending, t.own))
    }),
    (Rule::OwnIdsBelowNext, |t| {
        let mut own = t.made().filter(|head| maker(head.id) == t.own);
        own.all(|head| count(head.id) < t.next)
    }),
    (Rule::PlaceHeld, |t| {
        t.made().all(|head| t.find(head.place.directory).is_some())
    }),
    (Rule::PlaceIsDirectory, |t| {
        t.places(|_, directory| directory.kind == Kind::Directory)
    }),
    (Rule::PlaceOneLessDeep, |t| {
        t.places(|head, directory| directory.depth + 1 == head.depth)
    }),
    (Rule::PlaceOfLiveIsLive, |t| {
        t.places(|head, directory| !head.live || directory.live)
    }),
    (Rule::EntryDirectoryHeld, |t| {
        let mut slots = t.entries.iter();
        slots.all(|slot| t.find(slot.directory).is_some())
    }),
    (Rule::EntryDirectoryIsDirectory, |t| {
        t.directories(|directory| directory.kind == Kind::Directory)
    }),
    (Rule::EntryDirectoryNotDeepest, |t| {
        t.directories(|directory| directory.depth < DEEPEST)
    }),
    (Rule::ChildNotRoot, |t| {
        t.entries.iter().all(|slot| slot.entry.child != ROOT)
    }),
    (Rule::EntriesUnique, |t| {
        let mut seen = HashSet::new();
        let keys = t.entries.iter();
        let mut keys = keys.map(|slot| (slot.directory, slot.entry.child, slot.entry.name));
        keys.all(|key| seen.insert(key))
    }),
    (Rule::AtMost32Entries, |t| {
        let mut heads = t.replicas.iter();
        heads.all(|r| t.entries_of(r.head.id).count() <= MOST_ENTRIES)
    }),
    (Rule::EntryAtPlace, |t| {
        t.entries_at_places(|_, entry| entry.is_some())
    }),
    (Rule::EntryAtPlaceNotBelow, |t| {
        t.entries_at_places(|head, entry| entry.is_none_or(|e| e.stamp >= head.stamp))
    }),
    (Rule::EntryAtPlaceLiveIfEqual, |t| {
        t.entries_at_places(|head, entry| entry.is_none_or(|e| e.stamp != head.stamp || e.live))
    }),
    (Rule::ClocksSeen, |t| {
        let heads = t.replicas.iter().map(|r| r.head.stamp);
        let mut stamps = heads.chain(t.entries.iter().map(|slot| slot.entry.stamp));
        stamps.all(|stamp| clock(stamp) <= t.highest)
    }),
];

/// Says whether the table is sound, or else the first rule that it breaks.
pub fn sound(table: &Table) -> Result<(), Rule> {
    let broken = RULES.iter().find(|(_, test)| !test(table));
    broken.map_or(Ok(()), |&(rule, _)| Err(rule))
}

/// The sound table that these bytes are, or the first rule that they break.
pub fn verdict(bytes: &[u8]) -> Result<Table, Rule> {
    let table = Table::decode(bytes)?;
    sound(&table).map(|()| table)
}

/// The sound table that these bytes are, if they are one.
pub fn judge(bytes: &[u8]) -> Option<Table> {
    verdict(bytes).ok()
}
