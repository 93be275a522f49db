//! Both runs of document 01, to the byte.

mod common;

use common::*;
use rumbezalo_model::calls::{list, pending, remove, rename};
use rumbezalo_model::records::{Entry, Head, Kind, Place, Record, ROOT};
use rumbezalo_model::table::{Slot, Table};

const ALICE: u32 = 16_777_217;
const FOO: u32 = 16_777_218;
const BOB: u32 = 33_554_433;

fn head(kind: Kind, id: u32, stamp: u64, holders: u8, at: (u32, &str), depth: u8) -> Head {
    let place = Place {
        directory: at.0,
        name: name(at.1),
    };
    Head {
        kind,
        live: true,
        id,
        stamp,
        holders,
        depth,
        place,
    }
}

fn heads(table: &Table) -> Vec<Head> {
    table.replicas.iter().map(|r| r.head).collect()
}

fn listing(table: &[u8], id: u32) -> Vec<u8> {
    let mut out = vec![FILLER; 1024];
    let answer = list(table, id.into(), &mut out);
    assert_eq!(answer.number, 0);
    out.truncate(Entry::SIZE * answer.value as usize);
    out
}

/// "N 2, nodes hold all. Node 1 makes /alice (now 1) and /foo (2); node 2, once quiet, /bob (3).
/// Quiet again; at 12 node 1 moves foo to /alice/foo1 and node 2 to /bob/foo2."
fn moved_on_both() -> Cluster {
    let mut cluster = Cluster::fresh(2);
    assert_eq!(make(cluster.at(1), 1, ROOT, DIRECTORY, "alice", 3), ALICE);
    assert_eq!(make(cluster.at(1), 2, ROOT, FILE, "foo", 3), FOO);
    cluster.quiet(2);
    assert_eq!(make(cluster.at(2), 3, ROOT, DIRECTORY, "bob", 3), BOB);
    cluster.quiet(3);
    let id = u64::from(FOO);
    let first = rename(cluster.at(1), 12, id, ALICE.into(), b"foo1");
    let second = rename(cluster.at(2), 12, id, BOB.into(), b"foo2");
    assert_eq!((first, second), (done(0), done(0)));
    cluster
}

#[test]
fn the_winner_before_quiet() {
    let mut cluster = moved_on_both();
    let before = [
        entry(true, ALICE, 257, "alice"),
        entry(false, FOO, 3073, "foo"),
        entry(true, BOB, 770, "bob"),
    ];
    let mut one: Vec<Slot> = before.map(|e| slot(ROOT, e)).to_vec();
    let mut two = one.clone();
    two[1].entry.stamp = 3074;
    one.push(slot(ALICE, entry(true, FOO, 3073, "foo1")));
    two.push(slot(BOB, entry(true, FOO, 3074, "foo2")));
    assert_eq!(read(cluster.at(1)).entries, one);
    assert_eq!(read(cluster.at(2)).entries, two);
}

/// "At quiet: foo has 3074 at /bob/foo2; root's "foo" and alice's "foo1" are dead at 3074."
#[test]
fn the_winner_at_quiet() {
    let mut cluster = moved_on_both();
    cluster.quiet(13);
    let expected = vec![
        Head::root(2),
        head(Kind::Directory, ALICE, 257, 3, (ROOT, "alice"), 1),
        head(Kind::File, FOO, 3074, 3, (BOB, "foo2"), 2),
        head(Kind::Directory, BOB, 770, 3, (ROOT, "bob"), 1),
    ];
    let alice = slot(ROOT, entry(true, ALICE, 257, "alice"));
    let origin = slot(ROOT, entry(false, FOO, 3074, "foo"));
    let bob = slot(ROOT, entry(true, BOB, 770, "bob"));
    let loser = slot(ALICE, entry(false, FOO, 3074, "foo1"));
    let winner = slot(BOB, entry(true, FOO, 3074, "foo2"));
    let slots = [
        [alice, origin, bob, loser, winner],
        [alice, origin, bob, winner, loser],
    ];
    for node in [1, 2] {
        let bytes = cluster.at(node);
        let table = read(bytes);
        assert_eq!(pending(bytes), done(0));
        assert_eq!(heads(&table), expected);
        assert_eq!(table.entries, slots[usize::from(node) - 1]);
        assert_eq!(table.highest, 12);
        assert_eq!(listing(bytes, ALICE), []);
        assert_eq!(listing(bytes, BOB), winner.entry.write());
        assert_eq!(bytes[32 + 2 * 48..][..40], FOO_HEAD);
        assert_eq!(bytes[3104 + 40..][..40], FOO_STRUCK);
    }
}

const FOO_HEAD: [u8; 40] = [
    0x48, 0x44, 1, 1, 2, 0, 0, 1, 0x02, 0x0C, 0, 0, 0, 0, 0, 0, 3, 2, 0, 0, 1, 0, 0, 2, 4, b'f',
    b'o', b'o', b'2', 0, 0, 0, 0, 0, 0, 0, 0, 0, 0, 0,
];

const FOO_STRUCK: [u8; 40] = [
    0x45, 0x4E, 0, 0, 2, 0, 0, 1, 0x02, 0x0C, 0, 0, 0, 0, 0, 0, 3, b'f', b'o', b'o', 0, 0, 0, 0, 0,
    0, 0, 0, 0, 0, 0, 0, 0, 0, 0, 0, 0, 0, 0, 0,
];

/// "/d has stamp 257 on both, N 2. At 5 node 1 makes /d/f (1281) for itself, node 2 removes /d
/// (1282). Node 1 receives that at 6: /d lives with 1537. At quiet both show it."
#[test]
fn the_directory_removed_under_a_file() {
    let mut cluster = Cluster::fresh(2);
    let d = make(cluster.at(1), 1, ROOT, DIRECTORY, "d", 3);
    cluster.quiet(1);
    for node in [1, 2] {
        assert_eq!(read(cluster.at(node)).replicas[1].head.stamp, 257);
    }

    let f = make(cluster.at(1), 5, d, FILE, "f", 0);
    assert_eq!(read(cluster.at(1)).replicas[2].head.stamp, 1281);
    assert_eq!(remove(cluster.at(2), 5, d.into()), done(0));
    let removed = read(cluster.at(2)).replicas[1].head;
    assert_eq!((removed.live, removed.stamp), (false, 1282));

    cluster.deliver(d, 2, 1, 6);
    let lives = head(Kind::Directory, d, 1537, 3, (ROOT, "d"), 1);
    assert_eq!(read(cluster.at(1)).replicas[1].head, lives);

    cluster.quiet(7);
    let shown = slot(ROOT, entry(true, d, 1537, "d"));
    let within = slot(d, entry(true, f, 1281, "f"));
    let file = head(Kind::File, f, 1281, 1, (d, "f"), 2);
    let expected = [vec![Head::root(2), lives, file], vec![Head::root(2), lives]];
    for node in [1, 2] {
        let bytes = cluster.at(node);
        let table = read(bytes);
        assert_eq!(pending(bytes), done(0));
        assert_eq!(heads(&table), expected[usize::from(node) - 1]);
        assert_eq!(table.entries, [shown, within]);
        assert_eq!(table.highest, 6);
        assert_eq!(listing(bytes, ROOT), shown.entry.write());
        assert_eq!(listing(bytes, d), within.entry.write());
    }
}
