//! A push: writing one, and line 4 of the table of refusals, by which one is malformed.
//!
//! "Records of a push are read in order, each checked before the next."

use crate::records::{has, maker, Entry, Fault, Head, Kind, PushHeader, Record, DEEPEST, ROOT};
use crate::table::{Table, MOST_ENTRIES};

/// "First head: the replica pushed; then its place directory and so on up, without the root, so
/// max(1, depth) heads. Entries: the pushed directory's, all of them, in slot order."
#[derive(Clone, Debug, PartialEq, Eq)]
pub struct Push {
    pub from: u8,
    pub to: u8,
    pub version: u64,
    pub heads: Vec<Head>,
    pub entries: Vec<Entry>,
}

/// "message malformed: length, marks, zeros, ranges, counts, from equal to to, chain of heads
/// (place, depth, kind; live under dead; an id twice), holders without maker or sender, first head
/// without the addressee, two entries with the same child and name, an entry for the root, entries
/// under a file or at depth 16"
#[derive(Clone, Copy, Debug, PartialEq, Eq)]
pub enum Malformed {
    Length,
    Mark,
    Zeros,
    Range,
    /// Not max(1, depth) heads, or more than 32 entries.
    Counts,
    FromEqualsTo,
    /// The next head isn't the place directory, or the last one's place directory isn't the root.
    ChainPlace,
    ChainDepth,
    /// A place directory that is a file.
    ChainKind,
    LiveUnderDead,
    IdTwice,
    HoldersWithoutMaker,
    HoldersWithoutSender,
    FirstWithoutAddressee,
    EntryTwice,
    EntryForRoot,
    EntriesUnderFile,
    EntriesAtDepth16,
}

impl From<Fault> for Malformed {
    fn from(fault: Fault) -> Malformed {
        match fault {
            Fault::Length => Malformed::Length,
            Fault::Mark => Malformed::Mark,
            Fault::Zeros => Malformed::Zeros,
            Fault::Range => Malformed::Range,
        }
    }
}

/// Reads records one after the other.
struct Reader<'a> {
    rest: &'a [u8],
    n: u8,
}

impl Reader<'_> {
    fn next<R: Record>(&mut self) -> Result<R, Malformed> {
        let (record, rest) = self
            .rest
            .split_at_checked(R::SIZE)
            .ok_or(Malformed::Length)?;
        self.rest = rest;
        Ok(R::judge(record, self.n)?)
    }
}

fn refuse_if(condition: bool, malformed: Malformed) -> Result<(), Malformed> {
    if condition {
        Err(malformed)
    } else {
        Ok(())
    }
}

impl Push {
    /// The push of the replica in this slot of a sound table to a node.
    pub fn of(table: &Table, slot: usize, to: u8) -> Push {
        let replica = &table.replicas[slot];
        let mut heads = vec![replica.head];
        let mut directory = replica.head.place.directory;
        while let Some(head) = table.head(directory).filter(|head| head.id != ROOT) {
            heads.push(*head);
            directory = head.place.directory;
        }
        Push {
            from: table.own,
            to,
            version: replica.version,
            heads,
            entries: table.entries_of(replica.head.id).copied().collect(),
        }
    }

    /// The push's bytes.
    pub fn write(&self) -> Vec<u8> {
        let header = PushHeader {
            from: self.from,
            to: self.to,
            version: self.version,
            heads: self.heads.len() as u8,
            entries: self.entries.len() as u8,
        };
        let heads = self.heads.iter().flat_map(Head::write);
        let entries = self.entries.iter().flat_map(Entry::write);
        header
            .write()
            .into_iter()
            .chain(heads)
            .chain(entries)
            .collect()
    }

    /// The push that these bytes are, in a cluster of N nodes, or the first thing wrong with them.
    pub fn read(bytes: &[u8], n: u8) -> Result<Push, Malformed> {
        let mut reader = Reader { rest: bytes, n };
        let header: PushHeader = reader.next()?;
        check_header(&header, bytes.len())?;
        let mut push = Push {
            from: header.from,
            to: header.to,
            version: header.version,
            heads: Vec::new(),
            entries: Vec::new(),
        };
        for _ in 0..header.heads {
            let head = reader.next()?;
            push.check_head(&head, &header)?;
            push.heads.push(head);
        }
        push.check_chain_end()?;
        for _ in 0..header.entries {
            let entry = reader.next()?;
            push.check_entry(&entry)?;
            push.entries.push(entry);
        }
        Ok(push)
    }

    /// A head is checked against those before it.
    fn check_head(&self, head: &Head, header: &PushHeader) -> Result<(), Malformed> {
        match self.heads.last() {
            None => check_first(head, header)?,
            Some(below) => check_link(below, head)?,
        }
        let twice = self.heads.iter().any(|before| before.id == head.id);
        refuse_if(twice, Malformed::IdTwice)?;
        let made = head.id != ROOT;
        refuse_if(
            made && !has(head.holders, maker(head.id)),
            Malformed::HoldersWithoutMaker,
        )?;
        refuse_if(
            !has(head.holders, self.from),
            Malformed::HoldersWithoutSender,
        )
    }

    /// "and so on up, without the root": above the last head is the root.
    fn check_chain_end(&self) -> Result<(), Malformed> {
        let last = self.heads.last();
        refuse_if(
            last.is_none_or(|head| head.place.directory != ROOT),
            Malformed::ChainPlace,
        )
    }

    /// An entry is checked against those before it.
    fn check_entry(&self, entry: &Entry) -> Result<(), Malformed> {
        refuse_if(entry.child == ROOT, Malformed::EntryForRoot)?;
        let same = |before: &Entry| before.child == entry.child && before.name == entry.name;
        refuse_if(self.entries.iter().any(same), Malformed::EntryTwice)
    }
}

fn check_header(header: &PushHeader, length: usize) -> Result<(), Malformed> {
    refuse_if(header.from == header.to, Malformed::FromEqualsTo)?;
    refuse_if(header.heads == 0, Malformed::Counts)?;
    refuse_if(
        usize::from(header.entries) > MOST_ENTRIES,
        Malformed::Counts,
    )?;
    let heads = Head::SIZE * usize::from(header.heads);
    let entries = Entry::SIZE * usize::from(header.entries);
    refuse_if(
        length != PushHeader::SIZE + heads + entries,
        Malformed::Length,
    )
}

/// The first head says how many there are, and whether there are entries.
fn check_first(head: &Head, header: &PushHeader) -> Result<(), Malformed> {
    refuse_if(header.heads != head.depth.max(1), Malformed::Counts)?;
    refuse_if(
        !has(head.holders, header.to),
        Malformed::FirstWithoutAddressee,
    )?;
    let entries = header.entries > 0;
    refuse_if(
        entries && head.kind == Kind::File,
        Malformed::EntriesUnderFile,
    )?;
    refuse_if(
        entries && head.depth == DEEPEST,
        Malformed::EntriesAtDepth16,
    )
}

/// A later head is the place directory of the one before.
fn check_link(below: &Head, head: &Head) -> Result<(), Malformed> {
    refuse_if(head.id != below.place.directory, Malformed::ChainPlace)?;
    refuse_if(head.depth + 1 != below.depth, Malformed::ChainDepth)?;
    refuse_if(head.kind != Kind::Directory, Malformed::ChainKind)?;
    refuse_if(below.live && !head.live, Malformed::LiveUnderDead)
}
