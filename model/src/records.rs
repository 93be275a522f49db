//! Document 01, "Numbers and records": the numbers with their ranges, the name, and the records
//! that stand in tables and messages.
//!
//! A record is read with the N by which its ranges are judged, and comes back only if its length,
//! mark, zeros and ranges are right. Numbers in memory may be past their end; only reading judges.

use crate::bytes::{all_zero, get_u32, get_u64, put_u32, put_u64};
use std::ops::Range;

// ---- numbers

/// "N at most 8."
pub const MOST_NODES: u8 = 8;
/// "clock 1 to 2^40-1"
pub const LAST_CLOCK: u64 = (1 << 40) - 1;
/// "count 1 to 16777215"
pub const LAST_COUNT: u64 = 16_777_215;
/// "A version is 1 to 2^32-1."
pub const LAST_VERSION: u64 = (1 << 32) - 1;
/// "Depth is the place directory's plus one, 1 to 16"
pub const DEEPEST: u8 = 16;
/// "The root is 0."
pub const ROOT: u32 = 0;

/// "Node: 1 to N, N at most 8."
pub fn is_node(node: u64, n: u8) -> bool {
    (1..=u64::from(n.min(MOST_NODES))).contains(&node)
}

/// "Node set: one byte, bit i-1 for node i, no bit above N."
pub fn is_set(set: u64, n: u8) -> bool {
    set <= u64::from(all_nodes(n))
}

/// The set of the nodes 1 to N.
pub fn all_nodes(n: u8) -> u8 {
    ((1u16 << n.min(MOST_NODES)) - 1) as u8
}

/// The set of one node; of a number that is no node, the empty set.
pub fn single(node: u8) -> u8 {
    let bit = u32::from(node.wrapping_sub(1));
    1u8.checked_shl(bit).unwrap_or(0)
}

/// Says whether the node is in the set.
pub fn has(set: u8, node: u8) -> bool {
    set & single(node) != 0
}

/// The set without the node.
pub fn without(set: u8, node: u8) -> u8 {
    set & !single(node)
}

/// "Id: maker node * 16777216 + count, count 1 to 16777215."
pub fn id(maker: u8, count: u64) -> u32 {
    (u64::from(maker) * (LAST_COUNT + 1) + count) as u32
}

/// The maker of an id.
pub fn maker(id: u32) -> u8 {
    (id >> 24) as u8
}

/// The count of an id.
pub fn count(id: u32) -> u64 {
    u64::from(id) & LAST_COUNT
}

/// Says whether the number is an id other than the root's.
pub fn is_made_id(id: u32, n: u8) -> bool {
    is_node(maker(id).into(), n) && count(id) != 0
}

/// Says whether the number is an id. "The root is 0."
pub fn is_id(id: u32, n: u8) -> bool {
    id == ROOT || is_made_id(id, n)
}

/// "Stamp: clock * 256 + issuing node, clock 1 to 2^40-1, ordered as a number."
pub fn stamp(clock: u64, node: u8) -> u64 {
    clock * 256 + u64::from(node)
}

/// The clock of a stamp.
pub fn clock(stamp: u64) -> u64 {
    stamp / 256
}

/// The issuing node of a stamp.
pub fn issuer(stamp: u64) -> u8 {
    (stamp % 256) as u8
}

/// Says whether the number is a stamp. "Only the root's is 0", and that is none of these.
pub fn is_stamp(stamp: u64, n: u8) -> bool {
    (1..=LAST_CLOCK).contains(&clock(stamp)) && is_node(issuer(stamp).into(), n)
}

/// "A version is 1 to 2^32-1."
pub fn is_version(version: u64) -> bool {
    (1..=LAST_VERSION).contains(&version)
}

// ---- names and places

/// "Name: one length byte, then fifteen bytes, unused ones zero."
#[derive(Clone, Copy, Debug, PartialEq, Eq, Hash)]
pub struct Name {
    pub length: u8,
    pub bytes: [u8; 15],
}

impl Name {
    pub const SIZE: usize = 16;

    /// "Only the root's is sixteen zeros."
    pub const fn root() -> Name {
        Name {
            length: 0,
            bytes: [0; 15],
        }
    }

    /// The name with these bytes, if they are one.
    pub fn from_bytes(used: &[u8]) -> Option<Name> {
        let mut name = Name::root();
        name.bytes.get_mut(..used.len())?.copy_from_slice(used);
        name.length = used.len() as u8;
        name.is_name().then_some(name)
    }

    /// "Length 1 to 15; no byte 00 or 2F; not "." or ".."."
    pub fn is_name(&self) -> bool {
        let length = usize::from(self.length);
        if !(1..=15).contains(&length) {
            return false;
        }
        let (used, unused) = self.bytes.split_at(length);
        all_zero(unused)
            && !used.contains(&0x00)
            && !used.contains(&0x2F)
            && used != b"."
            && used != b".."
    }

    /// The sixteen bytes as they stand, judged by nobody yet.
    fn fields(bytes: &[u8]) -> Name {
        let mut name = Name::root();
        name.length = bytes[0];
        name.bytes.copy_from_slice(&bytes[1..Name::SIZE]);
        name
    }

    fn put(&self, bytes: &mut [u8], at: usize) {
        bytes[at] = self.length;
        bytes[at + 1..at + Name::SIZE].copy_from_slice(&self.bytes);
    }
}

/// "place directory u32, place name 16"
#[derive(Clone, Copy, Debug, PartialEq, Eq, Hash)]
pub struct Place {
    pub directory: u32,
    pub name: Name,
}

// ---- records

/// What is wrong with the bytes of a record.
#[derive(Clone, Copy, Debug, PartialEq, Eq)]
pub enum Fault {
    Length,
    Mark,
    Zeros,
    Range,
}

/// "Every used record starts with a two-byte mark."
pub trait Record: Sized {
    const SIZE: usize;
    const MARK: [u8; 2];
    /// Where its zeros stand.
    const ZEROS: Range<usize>;

    /// The fields of SIZE bytes; none if a flag or a kind is neither of its two values.
    fn fields(bytes: &[u8]) -> Option<Self>;

    /// Says whether each field is in its range, in a cluster of N nodes.
    fn in_range(&self, n: u8) -> bool;

    /// The record's bytes.
    fn write(&self) -> Vec<u8>;

    /// The record that these bytes are, or what is wrong with them.
    fn judge(bytes: &[u8], n: u8) -> Result<Self, Fault> {
        if bytes.len() != Self::SIZE {
            return Err(Fault::Length);
        }
        if !bytes.starts_with(&Self::MARK) {
            return Err(Fault::Mark);
        }
        if !all_zero(&bytes[Self::ZEROS]) {
            return Err(Fault::Zeros);
        }
        let fields = Self::fields(bytes).ok_or(Fault::Range)?;
        fields.in_range(n).then_some(fields).ok_or(Fault::Range)
    }

    /// The record that these bytes are, if they are one.
    fn read(bytes: &[u8], n: u8) -> Option<Self> {
        Self::judge(bytes, n).ok()
    }

    /// SIZE bytes with the mark, the rest zero.
    fn blank() -> Vec<u8> {
        let mut bytes = vec![0; Self::SIZE];
        bytes[..2].copy_from_slice(&Self::MARK);
        bytes
    }
}

/// "kind (1 file, 2 directory)"
#[derive(Clone, Copy, Debug, PartialEq, Eq, Hash)]
pub enum Kind {
    File = 1,
    Directory = 2,
}

impl Kind {
    /// The kind with this number, if there is one.
    pub fn from_number(number: u64) -> Option<Kind> {
        match number {
            1 => Some(Kind::File),
            2 => Some(Kind::Directory),
            _ => None,
        }
    }
}

/// "live (0/1)"
fn flag(byte: u8) -> Option<bool> {
    match byte {
        0 => Some(false),
        1 => Some(true),
        _ => None,
    }
}

/// "Head records have 40 bytes and mark 48 44: kind (1 file, 2 directory), live (0/1), id u32,
/// stamp u64, holders u8, depth u8, two zeros, place directory u32, place name 16."
#[derive(Clone, Copy, Debug, PartialEq, Eq)]
pub struct Head {
    pub kind: Kind,
    pub live: bool,
    pub id: u32,
    pub stamp: u64,
    pub holders: u8,
    pub depth: u8,
    pub place: Place,
}

impl Head {
    /// "The root: kind 2, live 1, place directory 0, no maker, all nodes hold it." Its stamp is 0,
    /// its depth 0 and its name sixteen zeros.
    pub fn root(n: u8) -> Head {
        Head {
            kind: Kind::Directory,
            live: true,
            id: ROOT,
            stamp: 0,
            holders: all_nodes(n),
            depth: 0,
            place: Place {
                directory: ROOT,
                name: Name::root(),
            },
        }
    }
}

impl Record for Head {
    const SIZE: usize = 40;
    const MARK: [u8; 2] = [0x48, 0x44];
    const ZEROS: Range<usize> = 18..20;

    fn fields(bytes: &[u8]) -> Option<Head> {
        Some(Head {
            kind: Kind::from_number(bytes[2].into())?,
            live: flag(bytes[3])?,
            id: get_u32(bytes, 4),
            stamp: get_u64(bytes, 8),
            holders: bytes[16],
            depth: bytes[17],
            place: Place {
                directory: get_u32(bytes, 20),
                name: Name::fields(&bytes[24..]),
            },
        })
    }

    fn in_range(&self, n: u8) -> bool {
        if self.id == ROOT {
            return *self == Head::root(n);
        }
        is_made_id(self.id, n)
            && is_stamp(self.stamp, n)
            && is_set(self.holders.into(), n)
            && (1..=DEEPEST).contains(&self.depth)
            && is_id(self.place.directory, n)
            && self.place.name.is_name()
    }

    fn write(&self) -> Vec<u8> {
        let mut bytes = Head::blank();
        bytes[2] = self.kind as u8;
        bytes[3] = self.live.into();
        put_u32(&mut bytes, 4, self.id);
        put_u64(&mut bytes, 8, self.stamp);
        bytes[16] = self.holders;
        bytes[17] = self.depth;
        put_u32(&mut bytes, 20, self.place.directory);
        self.place.name.put(&mut bytes, 24);
        bytes
    }
}

/// "Entry, 32 bytes, mark 45 4E: live, one zero, child id u32, stamp u64, name 16."
#[derive(Clone, Copy, Debug, PartialEq, Eq)]
pub struct Entry {
    pub live: bool,
    pub child: u32,
    pub stamp: u64,
    pub name: Name,
}

impl Record for Entry {
    const SIZE: usize = 32;
    const MARK: [u8; 2] = [0x45, 0x4E];
    const ZEROS: Range<usize> = 3..4;

    fn fields(bytes: &[u8]) -> Option<Entry> {
        Some(Entry {
            live: flag(bytes[2])?,
            child: get_u32(bytes, 4),
            stamp: get_u64(bytes, 8),
            name: Name::fields(&bytes[16..]),
        })
    }

    /// The root is an id, so a child that is the root is left to other rules.
    fn in_range(&self, n: u8) -> bool {
        is_id(self.child, n) && is_stamp(self.stamp, n) && self.name.is_name()
    }

    fn write(&self) -> Vec<u8> {
        let mut bytes = Entry::blank();
        bytes[2] = self.live.into();
        put_u32(&mut bytes, 4, self.child);
        put_u64(&mut bytes, 8, self.stamp);
        self.name.put(&mut bytes, 16);
        bytes
    }
}

/// "Acknowledgement, 16 bytes, mark 41 4B: from, to, version u32, id u32, four zeros."
#[derive(Clone, Copy, Debug, PartialEq, Eq)]
pub struct Acknowledgement {
    pub from: u8,
    pub to: u8,
    pub version: u64,
    pub id: u32,
}

impl Record for Acknowledgement {
    const SIZE: usize = 16;
    const MARK: [u8; 2] = [0x41, 0x4B];
    const ZEROS: Range<usize> = 12..16;

    fn fields(bytes: &[u8]) -> Option<Acknowledgement> {
        Some(Acknowledgement {
            from: bytes[2],
            to: bytes[3],
            version: get_u32(bytes, 4).into(),
            id: get_u32(bytes, 8),
        })
    }

    fn in_range(&self, n: u8) -> bool {
        is_node(self.from.into(), n)
            && is_node(self.to.into(), n)
            && is_version(self.version)
            && is_id(self.id, n)
    }

    fn write(&self) -> Vec<u8> {
        let mut bytes = Acknowledgement::blank();
        bytes[2] = self.from;
        bytes[3] = self.to;
        put_u32(&mut bytes, 4, self.version as u32);
        put_u32(&mut bytes, 8, self.id);
        bytes
    }
}

/// "Push: 16 bytes (mark 50 55, from, to, version u32, head count, entry count, six zeros)"
#[derive(Clone, Copy, Debug, PartialEq, Eq)]
pub struct PushHeader {
    pub from: u8,
    pub to: u8,
    pub version: u64,
    pub heads: u8,
    pub entries: u8,
}

impl Record for PushHeader {
    const SIZE: usize = 16;
    const MARK: [u8; 2] = [0x50, 0x55];
    const ZEROS: Range<usize> = 10..16;

    fn fields(bytes: &[u8]) -> Option<PushHeader> {
        Some(PushHeader {
            from: bytes[2],
            to: bytes[3],
            version: get_u32(bytes, 4).into(),
            heads: bytes[8],
            entries: bytes[9],
        })
    }

    /// The counts are left to the rules of the push.
    fn in_range(&self, n: u8) -> bool {
        is_node(self.from.into(), n) && is_node(self.to.into(), n) && is_version(self.version)
    }

    fn write(&self) -> Vec<u8> {
        let mut bytes = PushHeader::blank();
        bytes[2] = self.from;
        bytes[3] = self.to;
        put_u32(&mut bytes, 4, self.version as u32);
        bytes[8] = self.heads;
        bytes[9] = self.entries;
        bytes
    }
}
