//! What the tests share: short names, and the tables of two nodes that tell each other all.

#![allow(dead_code)]

use rumbezalo::{Clock, Id, Kind, Name, Node, Nodes, Table};

pub fn node(number: u8) -> Node {
    Node::try_from(number).expect("a node")
}

pub fn name(text: &str) -> Name {
    Name::try_from(text).expect("a name")
}

/// The nodes 1 and 2.
pub fn both() -> Nodes {
    Nodes::up_to(node(2))
}

pub fn at(time: u32) -> Clock {
    Clock::from(time)
}

/// The tables of node 1 and node 2, of two.
pub fn two_tables() -> [Table; 2] {
    [1, 2].map(|number| Table::start(node(number), 2).expect("a table"))
}

/// Creates what must be created.
pub fn make(table: &mut Table, time: u32, directory: Id, kind: Kind, text: &str) -> Id {
    let made = table.create(at(time), directory, kind, name(text), both());
    made.expect("created")
}

/// One push, received and acknowledged.
pub fn deliver(tables: &mut [Table; 2], from: usize, id: Id, time: u32) {
    let to = tables[1 - from].node();
    let message = tables[from].push(id, to).expect("pushed");
    let back = tables[1 - from].receive(at(time), &message);
    let back = back.expect("received");
    tables[from].acknowledged(&back).expect("acknowledged");
}

/// Delivers what is due until nothing is.
pub fn quiet(tables: &mut [Table; 2], time: u32) {
    for from in [0, 1].into_iter().cycle() {
        if tables.iter().all(|table| table.pending() == Ok(0)) {
            break;
        }
        for (id, _) in tables[from].due() {
            deliver(tables, from, id, time);
        }
    }
}
