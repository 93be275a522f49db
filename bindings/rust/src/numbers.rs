//! Nodes, node sets, ids, stamps, clocks and kinds. What is outside its range is
//! [`Refusal::OutOfRange`], as the library's number 2 is.

use crate::Refusal;
use std::fmt;

/// A node, 1 to 8. Which of them there are is the table's N.
#[derive(Clone, Copy, Debug, PartialEq, Eq, PartialOrd, Ord, Hash)]
pub struct Node(u8);

impl Node {
    /// The node as a number.
    pub fn number(self) -> u8 {
        self.0
    }

    /// The node with this number in bytes that are known to be in their range.
    pub(crate) fn known(number: u8) -> Node {
        Node(number)
    }
}

impl TryFrom<u8> for Node {
    type Error = Refusal;

    fn try_from(number: u8) -> Result<Node, Refusal> {
        if (1..=8).contains(&number) {
            Ok(Node(number))
        } else {
            Err(Refusal::OutOfRange)
        }
    }
}

impl fmt::Display for Node {
    fn fmt(&self, f: &mut fmt::Formatter) -> fmt::Result {
        self.0.fmt(f)
    }
}

/// A set of nodes.
#[derive(Clone, Copy, Debug, Default, PartialEq, Eq, Hash)]
pub struct Nodes(u8);

impl Nodes {
    /// No node.
    pub const NONE: Nodes = Nodes(0);

    /// The nodes 1 to this one.
    pub fn up_to(last: Node) -> Nodes {
        Nodes(u8::MAX >> (8 - last.0))
    }

    /// The set as a byte: bit i-1 for node i.
    pub fn bits(self) -> u8 {
        self.0
    }

    /// The set that a byte stands for.
    pub fn from_bits(bits: u8) -> Nodes {
        Nodes(bits)
    }

    /// Whether a node is in the set.
    pub fn contains(self, node: Node) -> bool {
        self.0 & Nodes::from(node).0 != 0
    }

    /// The set with the nodes of another.
    #[must_use]
    pub fn union(self, other: Nodes) -> Nodes {
        Nodes(self.0 | other.0)
    }

    /// The set without a node.
    #[must_use]
    pub fn without(self, node: Node) -> Nodes {
        Nodes(self.0 & !Nodes::from(node).0)
    }

    /// How many nodes are in the set.
    pub fn len(self) -> usize {
        self.0.count_ones() as usize
    }

    /// Whether there is none.
    pub fn is_empty(self) -> bool {
        self.0 == 0
    }

    /// The nodes of the set, in order.
    pub fn iter(self) -> impl Iterator<Item = Node> {
        (1..=8).map(Node).filter(move |&node| self.contains(node))
    }
}

impl From<Node> for Nodes {
    fn from(node: Node) -> Nodes {
        Nodes(1 << (node.0 - 1))
    }
}

impl<const COUNT: usize> From<[Node; COUNT]> for Nodes {
    fn from(nodes: [Node; COUNT]) -> Nodes {
        nodes.into_iter().collect()
    }
}

impl FromIterator<Node> for Nodes {
    fn from_iter<I: IntoIterator<Item = Node>>(nodes: I) -> Nodes {
        let joined = |set: Nodes, node| set.union(Nodes::from(node));
        nodes.into_iter().fold(Nodes::NONE, joined)
    }
}

impl fmt::Display for Nodes {
    fn fmt(&self, f: &mut fmt::Formatter) -> fmt::Result {
        f.debug_set()
            .entries(self.iter().map(|node| node.0))
            .finish()
    }
}

/// The id of a file or directory: its maker's number * 16777216 + a count. The root's is 0.
#[derive(Clone, Copy, Debug, PartialEq, Eq, PartialOrd, Ord, Hash)]
pub struct Id(u32);

impl Id {
    /// The root, which no node made.
    pub const ROOT: Id = Id(0);

    /// The id with this maker and count, 1 to 16777215.
    pub fn made_by(maker: Node, count: u32) -> Result<Id, Refusal> {
        if (1..1 << 24).contains(&count) {
            Ok(Id(u32::from(maker.0) << 24 | count))
        } else {
            Err(Refusal::OutOfRange)
        }
    }

    /// The node that made it; none made the root.
    pub fn maker(self) -> Option<Node> {
        Node::try_from((self.0 >> 24) as u8).ok()
    }

    /// Its maker's count; 0 for the root.
    pub fn count(self) -> u32 {
        self.0 & 0x00FF_FFFF
    }

    /// The id as a number.
    pub fn number(self) -> u32 {
        self.0
    }

    /// The id with this number in bytes that are known to be in their range.
    pub(crate) fn known(number: u32) -> Id {
        Id(number)
    }
}

impl TryFrom<u32> for Id {
    type Error = Refusal;

    fn try_from(number: u32) -> Result<Id, Refusal> {
        if number == 0 {
            return Ok(Id::ROOT);
        }
        let maker = Node::try_from((number >> 24) as u8)?;
        Id::made_by(maker, number & 0x00FF_FFFF)
    }
}

impl fmt::Display for Id {
    fn fmt(&self, f: &mut fmt::Formatter) -> fmt::Result {
        self.0.fmt(f)
    }
}

/// A time, 0 to 2^40-1, in a unit that the nodes share: seconds since 1970 fit, milliseconds do not.
/// Their clocks need not agree. A clock never goes back, and nodes learn it from each other: one call
/// with a time near 2^40-1 leaves no clock for later changes, on every node that hears of it.
#[derive(Clone, Copy, Debug, PartialEq, Eq, PartialOrd, Ord, Hash)]
pub struct Clock(u64);

impl Clock {
    /// 2^40-1.
    pub const LAST: Clock = Clock((1 << 40) - 1);

    /// The time as a number.
    pub fn number(self) -> u64 {
        self.0
    }

    /// The clock with this number in bytes that are known to be in their range.
    pub(crate) fn known(number: u64) -> Clock {
        Clock(number)
    }
}

impl From<u32> for Clock {
    fn from(number: u32) -> Clock {
        Clock(number.into())
    }
}

impl TryFrom<u64> for Clock {
    type Error = Refusal;

    fn try_from(number: u64) -> Result<Clock, Refusal> {
        if number <= Clock::LAST.0 {
            Ok(Clock(number))
        } else {
            Err(Refusal::OutOfRange)
        }
    }
}

impl fmt::Display for Clock {
    fn fmt(&self, f: &mut fmt::Formatter) -> fmt::Result {
        self.0.fmt(f)
    }
}

/// When a state was made, and by which node: clock * 256 + node. The greater stamp wins, by its
/// clock first and then by its node.
#[derive(Clone, Copy, Debug, PartialEq, Eq, PartialOrd, Ord, Hash)]
pub struct Stamp(u64);

impl Stamp {
    /// The root's, which no node issued: below all others.
    pub const ROOT: Stamp = Stamp(0);

    /// The stamp that a node issues at a clock, 1 or more.
    pub fn new(clock: Clock, node: Node) -> Result<Stamp, Refusal> {
        if clock.0 == 0 {
            return Err(Refusal::OutOfRange);
        }
        Ok(Stamp(clock.0 << 8 | u64::from(node.0)))
    }

    /// Its clock; 0 for the root's.
    pub fn clock(self) -> Clock {
        Clock(self.0 >> 8)
    }

    /// The node that issued it; none issued the root's.
    pub fn node(self) -> Option<Node> {
        Node::try_from(self.0 as u8).ok()
    }

    /// The stamp as a number.
    pub fn number(self) -> u64 {
        self.0
    }

    /// The stamp with this number in bytes that are known to be in their range.
    pub(crate) fn known(number: u64) -> Stamp {
        Stamp(number)
    }
}

impl fmt::Display for Stamp {
    fn fmt(&self, f: &mut fmt::Formatter) -> fmt::Result {
        self.0.fmt(f)
    }
}

/// What an id names.
#[derive(Clone, Copy, Debug, PartialEq, Eq, PartialOrd, Ord, Hash)]
pub enum Kind {
    /// A regular file.
    File = 1,
    /// A directory.
    Directory = 2,
}

impl Kind {
    /// Document 01's number, 1 or 2.
    pub fn number(self) -> u8 {
        self as u8
    }
}

impl TryFrom<u8> for Kind {
    type Error = Refusal;

    fn try_from(number: u8) -> Result<Kind, Refusal> {
        match number {
            1 => Ok(Kind::File),
            2 => Ok(Kind::Directory),
            _ => Err(Refusal::OutOfRange),
        }
    }
}

impl fmt::Display for Kind {
    fn fmt(&self, f: &mut fmt::Formatter) -> fmt::Result {
        f.write_str(match self {
            Kind::File => "file",
            Kind::Directory => "directory",
        })
    }
}
