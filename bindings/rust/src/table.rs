//! A node's table.

use crate::records::{entries, entry, highest_clock, node_count, own_node, replicas};
use crate::{calls, Acknowledgement, Clock, Entry, Id, Kind, Listed, Name, Node, Nodes};
use crate::{Refusal, Replica};
use std::fmt;

/// A node's table: all that it remembers, in 13,344 bytes. It is sound, since [`Table::start`] and
/// [`Table::from_bytes`] yield nothing else and every call keeps it so, which is proved. So the calls
/// on it never give [`Refusal::Unsound`]. They lend outputs that are long enough, and never give
/// [`Refusal::ShortOutput`].
#[derive(Clone, PartialEq, Eq)]
pub struct Table {
    bytes: Box<[u8; Table::SIZE]>,
}

impl Table {
    /// The bytes of a table.
    pub const SIZE: usize = 13_344;
    /// The bytes of the longest push.
    pub const LONGEST_PUSH: usize = 1_640;
    /// The bytes of 32 entries, which are the most in a directory.
    const LONGEST_LIST: usize = 32 * 32;

    /// The table of a node, of the nodes 1 to N, once for a node: the root alone, which all nodes
    /// hold. Refused (2)
    /// if N is not 1 to 8, or the node is above it.
    pub fn start(node: Node, n: u8) -> Result<Table, Refusal> {
        let mut table = Table {
            bytes: Box::new([0; Table::SIZE]),
        };
        let answer = calls::start(&mut table.bytes[..], node.number().into(), n.into());
        answer.done().map(|_| table)
    }

    /// The table that was saved as these bytes. Refused (1) if they are no sound table. They must be
    /// those that the node's last call left; with earlier ones, what the service promises of all
    /// nodes together no longer holds.
    pub fn from_bytes(bytes: &[u8]) -> Result<Table, Refusal> {
        calls::pending(bytes).done()?;
        let mut table = Table {
            bytes: Box::new([0; Table::SIZE]),
        };
        table.bytes.copy_from_slice(bytes);
        Ok(table)
    }

    /// Its bytes, to save.
    pub fn as_bytes(&self) -> &[u8; Table::SIZE] {
        &self.bytes
    }

    /// Creates a file or directory in a directory, held by these nodes and this one, and answers
    /// its id. Refused: 2 (a node above N), 6, 7, 8, 9, 11, 16, 17.
    pub fn create(
        &mut self,
        now: Clock,
        directory: Id,
        kind: Kind,
        name: Name,
        holders: Nodes,
    ) -> Result<Id, Refusal> {
        let answer = calls::create(
            &mut self.bytes[..],
            now.number(),
            directory.number().into(),
            kind.number().into(),
            name.as_bytes(),
            holders.bits().into(),
        );
        answer.done().map(Id::known)
    }

    /// Unlinks a file. Refused: 6, 7, 8, 17.
    pub fn unlink(&mut self, now: Clock, file: Id) -> Result<(), Refusal> {
        let answer = calls::unlink(&mut self.bytes[..], now.number(), file.number().into());
        answer.done().map(drop)
    }

    /// Moves a file into a directory, under a name. Refused: 6, 7, 8, 9, 11, 16, 17.
    pub fn rename(
        &mut self,
        now: Clock,
        file: Id,
        directory: Id,
        name: Name,
    ) -> Result<(), Refusal> {
        let answer = calls::rename(
            &mut self.bytes[..],
            now.number(),
            file.number().into(),
            directory.number().into(),
            name.as_bytes(),
        );
        answer.done().map(drop)
    }

    /// Removes a directory in which nothing is live. Refused: 6, 7, 8, 10, 17.
    pub fn remove(&mut self, now: Clock, directory: Id) -> Result<(), Refusal> {
        let id = directory.number().into();
        let answer = calls::remove(&mut self.bytes[..], now.number(), id);
        answer.done().map(drop)
    }

    /// Has these nodes hold a file or directory, the root too, besides those that do. Refused:
    /// 2 (a node above N), 6, 17.
    pub fn spread(&mut self, id: Id, more: Nodes) -> Result<(), Refusal> {
        let (id, set) = (id.number().into(), more.bits().into());
        calls::spread(&mut self.bytes[..], id, set).done().map(drop)
    }

    /// The live entries of a live directory, in slot order. Refused: 6, 7, 8.
    pub fn list(&self, directory: Id) -> Result<Vec<Entry>, Refusal> {
        let mut out = [0; Table::LONGEST_LIST];
        let answer = calls::list(&self.bytes[..], directory.number().into(), &mut out);
        let count = answer.done()? as usize;
        Ok(out.chunks_exact(32).take(count).map(entry).collect())
    }

    /// The push of a file or directory to a node: the message that the node is to receive. It stays
    /// due until its acknowledgement comes back. Refused: 2 (a node above N, or this one), 6, 14.
    pub fn push(&self, id: Id, to: Node) -> Result<Vec<u8>, Refusal> {
        let mut out = vec![0; Table::LONGEST_PUSH];
        let (id, node) = (id.number().into(), to.number().into());
        let length = calls::push(&self.bytes[..], id, node, &mut out).done()?;
        out.truncate(length as usize);
        Ok(out)
    }

    /// Receives a push and answers the acknowledgement for its sender. Refused: 4, 5, 13, 16, 17.
    pub fn receive(&mut self, now: Clock, message: &[u8]) -> Result<Acknowledgement, Refusal> {
        let mut out = [0; 16];
        let answer = calls::receive(&mut self.bytes[..], now.number(), message, &mut out);
        answer.done().map(|_| out)
    }

    /// Receives an acknowledgement. Refused: 4, 5, 6, 15.
    pub fn acknowledged(&mut self, message: &[u8]) -> Result<(), Refusal> {
        let answer = calls::acknowledged(&mut self.bytes[..], message);
        answer.done().map(drop)
    }

    /// How many pushes are due: over all replicas, the nodes that have not acknowledged it. Never
    /// refused, since the table is sound.
    pub fn pending(&self) -> Result<u32, Refusal> {
        calls::pending(&self.bytes[..]).done()
    }

    // ---- reading the table

    /// The node whose table it is.
    pub fn node(&self) -> Node {
        own_node(&self.bytes[..])
    }

    /// How many nodes there are.
    pub fn n(&self) -> u8 {
        node_count(&self.bytes[..])
    }

    /// The highest clock that the node has seen.
    pub fn highest_clock(&self) -> Clock {
        highest_clock(&self.bytes[..])
    }

    /// All that the node holds, in slot order, the dead too. The root comes first.
    pub fn replicas(&self) -> impl Iterator<Item = Replica> + '_ {
        replicas(&self.bytes[..])
    }

    /// What the node holds under an id.
    pub fn replica(&self, id: Id) -> Option<Replica> {
        self.replicas().find(|replica| replica.id == id)
    }

    /// All entries of all directories, in slot order, the dead too.
    pub fn entries(&self) -> impl Iterator<Item = Listed> + '_ {
        entries(&self.bytes[..])
    }

    /// The pushes that are due, by id and node, as the table stands now.
    pub fn due(&self) -> Vec<(Id, Node)> {
        let each = |replica: Replica| replica.pending.iter().map(move |node| (replica.id, node));
        self.replicas().flat_map(each).collect()
    }
}

impl fmt::Debug for Table {
    fn fmt(&self, f: &mut fmt::Formatter) -> fmt::Result {
        f.debug_struct("Table")
            .field("node", &self.node())
            .field("n", &self.n())
            .field("highest_clock", &self.highest_clock())
            .field("replicas", &self.replicas().collect::<Vec<_>>())
            .field("entries", &self.entries().collect::<Vec<_>>())
            .finish_non_exhaustive()
    }
}
