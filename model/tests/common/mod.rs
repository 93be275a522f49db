//! What the tests share: short names for calls that must be done, and a cluster of tables.

#![allow(dead_code)]

use rumbezalo_model::calls::{acknowledged, create, pending, push, receive, start, Answer};
use rumbezalo_model::push::Push;
use rumbezalo_model::records::{Entry, Name};
use rumbezalo_model::table::{judge, Slot, Table};

pub const FILE: u64 = 1;
pub const DIRECTORY: u64 = 2;
/// What an output buffer is filled with, to see which bytes keep their value.
pub const FILLER: u8 = 0xA5;

pub fn done(value: u32) -> Answer {
    Answer { number: 0, value }
}

pub fn refused(number: u32) -> Answer {
    Answer { number, value: 0 }
}

pub fn name(text: &str) -> Name {
    Name::from_bytes(text.as_bytes()).expect("a name")
}

pub fn entry(live: bool, child: u32, stamp: u64, text: &str) -> Entry {
    Entry {
        live,
        child,
        stamp,
        name: name(text),
    }
}

pub fn slot(directory: u32, entry: Entry) -> Slot {
    Slot { entry, directory }
}

pub fn fresh(node: u64, n: u64) -> Vec<u8> {
    let mut table = vec![0; Table::SIZE];
    assert_eq!(start(&mut table, node, n), done(0));
    table
}

/// Creates and answers the new id.
pub fn make(table: &mut [u8], now: u64, at: u32, kind: u64, text: &str, set: u64) -> u32 {
    let answer = create(table, now, at.into(), kind, text.as_bytes(), set);
    assert_eq!(answer.number, 0, "creating {text}");
    answer.value
}

/// The bytes of a push that must be done.
pub fn pushed(table: &[u8], id: u32, to: u8) -> Vec<u8> {
    let mut out = vec![FILLER; 2000];
    let answer = push(table, id.into(), to.into(), &mut out);
    assert_eq!(answer.number, 0, "pushing {id} to {to}");
    out.truncate(answer.value as usize);
    out
}

/// The table that these bytes are, which must be sound.
pub fn read(table: &[u8]) -> Table {
    judge(table).expect("a sound table")
}

/// The bytes of a table after a change made by hand, which must leave it sound.
pub fn edited(bytes: &[u8], edit: impl FnOnce(&mut Table)) -> Vec<u8> {
    let mut table = read(bytes);
    edit(&mut table);
    let bytes = table.bytes();
    read(&bytes);
    bytes
}

/// The bytes of a push after a change made by hand.
pub fn forged(bytes: &[u8], n: u8, edit: impl FnOnce(&mut Push)) -> Vec<u8> {
    let mut push = Push::read(bytes, n).expect("a push");
    edit(&mut push);
    push.write()
}

/// The tables of the nodes 1 to N.
pub struct Cluster {
    pub tables: Vec<Vec<u8>>,
}

impl Cluster {
    pub fn fresh(n: u64) -> Cluster {
        let tables = (1..=n).map(|node| fresh(node, n)).collect();
        Cluster { tables }
    }

    /// The bytes of a node's table.
    pub fn at(&mut self, node: u8) -> &mut Vec<u8> {
        &mut self.tables[usize::from(node) - 1]
    }

    /// One push, received and acknowledged.
    pub fn deliver(&mut self, id: u32, from: u8, to: u8, now: u64) {
        let message = pushed(self.at(from), id, to);
        let mut answer = [0; 16];
        let received = receive(self.at(to), now, &message, &mut answer);
        assert_eq!(received, done(16));
        assert_eq!(acknowledged(self.at(from), &answer), done(0));
    }

    /// Delivers what is pending until nothing is.
    pub fn quiet(&mut self, now: u64) {
        while let Some((id, from, to)) = self.next_pending() {
            self.deliver(id, from, to, now);
        }
    }

    fn next_pending(&self) -> Option<(u32, u8, u8)> {
        let waiting = self.tables.iter().find(|t| pending(t).value > 0)?;
        let table = read(waiting);
        let replica = table.replicas.iter().find(|r| r.pending != 0)?;
        let to = replica.pending.trailing_zeros() as u8 + 1;
        Some((replica.head.id, table.own, to))
    }
}
