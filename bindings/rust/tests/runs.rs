//! Both runs of document 01.

mod common;

use common::{at, deliver, make, name, node, quiet, two_tables};
use rumbezalo::Kind::{Directory, File};
use rumbezalo::{Entry, Id, Listed, Nodes, Place, Stamp, Table};

fn stamp(clock: u32, by: u8) -> Stamp {
    Stamp::new(at(clock), node(by)).expect("a stamp")
}

fn listed(directory: Id, live: bool, child: Id, stamp: Stamp, text: &str) -> Listed {
    let entry = Entry {
        live,
        child,
        stamp,
        name: name(text),
    };
    Listed { directory, entry }
}

/// "N 2, nodes hold all. Node 1 makes /alice (now 1) and /foo (2); node 2, once quiet, /bob (3).
/// Quiet again; at 12 node 1 moves foo to /alice/foo1 and node 2 to /bob/foo2. At quiet: foo has
/// 3074 at /bob/foo2; root's "foo" and alice's "foo1" are dead at 3074."
#[test]
fn a_file_moved_on_both_nodes() {
    let mut tables = two_tables();
    let alice = make(&mut tables[0], 1, Id::ROOT, Directory, "alice");
    let foo = make(&mut tables[0], 2, Id::ROOT, File, "foo");
    quiet(&mut tables, 2);
    let bob = make(&mut tables[1], 3, Id::ROOT, Directory, "bob");
    quiet(&mut tables, 3);
    let moved = tables[0].rename(at(12), foo, alice, name("foo1"));
    moved.expect("renamed");
    let moved = tables[1].rename(at(12), foo, bob, name("foo2"));
    moved.expect("renamed");
    let stands = |table: &Table| {
        let file = table.replica(foo).expect("held");
        (file.place.expect("a place"), file.stamp)
    };
    let place = |directory, text| Place {
        directory,
        name: name(text),
    };
    assert_eq!(stands(&tables[0]), (place(alice, "foo1"), stamp(12, 1)));
    assert_eq!(stands(&tables[1]), (place(bob, "foo2"), stamp(12, 2)));

    quiet(&mut tables, 13);
    let won = stamp(12, 2);
    assert_eq!(won.number(), 3074);
    let expected = [
        listed(Id::ROOT, true, alice, stamp(1, 1), "alice"),
        listed(Id::ROOT, false, foo, won, "foo"),
        listed(Id::ROOT, true, bob, stamp(3, 2), "bob"),
        listed(alice, false, foo, won, "foo1"),
        listed(bob, true, foo, won, "foo2"),
    ];
    for table in &tables {
        assert_eq!(table.pending(), Ok(0));
        assert_eq!(stands(table), (place(bob, "foo2"), won));
        assert_eq!(table.entries().count(), expected.len());
        for listed in expected {
            assert!(table.entries().any(|there| there == listed), "{listed:?}");
        }
        assert_eq!(table.list(alice), Ok(vec![]));
        assert_eq!(table.list(bob), Ok(vec![expected[4].entry]));
    }
}

/// "/d has stamp 257 on both, N 2. At 5 node 1 makes /d/f (1281) for itself, node 2 removes /d
/// (1282). Node 1 receives that at 6: /d lives with 1537. At quiet both show it."
#[test]
fn a_directory_removed_under_a_file() {
    let mut tables = two_tables();
    let d = make(&mut tables[0], 1, Id::ROOT, Directory, "d");
    quiet(&mut tables, 1);
    let state = |table: &Table, id| {
        let replica = table.replica(id).expect("held");
        (replica.live, replica.stamp.number())
    };
    assert_eq!(state(&tables[0], d), (true, 257));
    assert_eq!(state(&tables[1], d), (true, 257));
    let made = tables[0].create(at(5), d, File, name("f"), Nodes::NONE);
    let f = made.expect("created");
    assert_eq!(state(&tables[0], f), (true, 1281));
    tables[1].remove(at(5), d).expect("removed");
    assert_eq!(state(&tables[1], d), (false, 1282));
    deliver(&mut tables, 1, d, 6);
    assert_eq!(state(&tables[0], d), (true, 1537));
    quiet(&mut tables, 7);
    for table in &tables {
        assert_eq!(state(table, d), (true, 1537));
        assert_eq!(table.list(Id::ROOT).expect("listed")[0].child, d);
        assert_eq!(table.list(d).expect("listed")[0].child, f);
    }
}
