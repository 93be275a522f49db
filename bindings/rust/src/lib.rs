//! The name service from Rust: safe functions and types over the proved static library.
//!
//! One to eight nodes share one tree. Each has a [`Table`], which is all that it remembers, and
//! changes its own: [`Table::create`], [`Table::unlink`], [`Table::rename`], [`Table::remove`],
//! [`Table::spread`]. What it has to tell another node it writes to a message with [`Table::push`];
//! the other takes it in with [`Table::receive`], which yields an acknowledgement, and that goes
//! back to [`Table::acknowledged`].
//!
//! Carrying the bytes is the caller's part: messages may be lost, repeated and delayed, but must
//! arrive as they were written; they carry no checksum and no signature. So is keeping the table:
//! save what each call leaves before anything that it wrote is sent, and bring a node back with the
//! bytes that its last call left, never with earlier ones. A node that goes back to an earlier table,
//! or is started a second time, may leave all nodes with nothing pending and different trees. So
//! kept, when [`Table::pending`] is 0 on every one of the nodes 1 to N, every live file has one name,
//! the same on every node that holds it, and a path from the root.
//!
//! A call either is done or is refused, for one of seventeen reasons ([`Refusal`]), and a refusal
//! changes nothing. Each call on a table is the library's call of that name. What the library
//! answers, for all tables, messages and numbers, is proved. This crate is not: it turns types into
//! the library's bytes and numbers and back. [`calls`] has the library's calls on bytes and numbers.
//!
//! ```
//! use rumbezalo::{Clock, Id, Kind, Name, Node, Nodes, Refusal, Table};
//!
//! # fn main() -> Result<(), Refusal> {
//! let (first, second) = (Node::try_from(1)?, Node::try_from(2)?);
//! let mut one = Table::start(first, 2)?;
//! let mut two = Table::start(second, 2)?;
//!
//! let both = Nodes::from([first, second]);
//! let foo = Name::try_from("foo")?;
//! let file = one.create(Clock::from(12), Id::ROOT, Kind::File, foo, both)?;
//!
//! for (id, node) in one.due() {
//!     let message = one.push(id, node)?;
//!     let back = two.receive(Clock::from(13), &message)?;
//!     one.acknowledged(&back)?;
//! }
//! assert_eq!(one.pending()?, 0);
//! assert_eq!(two.list(Id::ROOT)?[0].child, file);
//!
//! // Node 2 has heard of a live entry with that name, so it cannot give the name again.
//! let again = two.create(Clock::from(14), Id::ROOT, Kind::File, foo, both);
//! assert_eq!(again, Err(Refusal::NameTaken));
//! # Ok(())
//! # }
//! ```

#![deny(missing_docs)]
#![deny(unsafe_code)]

#[allow(unsafe_code)]
pub mod calls;
mod name;
mod numbers;
mod records;
mod refusal;
mod table;

pub use name::Name;
pub use numbers::{Clock, Id, Kind, Node, Nodes, Stamp};
pub use records::{Entry, Listed, Place, Replica};
pub use refusal::Refusal;
pub use table::Table;

/// An acknowledgement, as [`Table::receive`] writes it for the sender of the push.
pub type Acknowledgement = [u8; 16];
