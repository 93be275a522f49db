//! Each call: what it does, and each refusal that it can give, with no byte changed.

mod common;

use common::*;
use rumbezalo_model::calls::*;
use rumbezalo_model::push::{Malformed, Push};
use rumbezalo_model::records::{
    stamp, Acknowledgement, Kind, Name, PushHeader, Record, DEEPEST, LAST_CLOCK, LAST_COUNT,
    LAST_VERSION, ROOT,
};
use rumbezalo_model::table::Table;

/// Makes a call on copies of a table and an output buffer, which must be refused with this number
/// and change no byte of either.
#[track_caller]
fn refuses(number: u32, table: &[u8], room: usize, call: impl Fn(&mut [u8], &mut [u8]) -> Answer) {
    let mut after = table.to_vec();
    let mut out = vec![FILLER; room];
    assert_eq!(call(&mut after, &mut out), refused(number));
    assert!(after == table, "a refusal changed the table");
    assert!(out.iter().all(|&byte| byte == FILLER));
}

/// The same for a table that isn't sound: cut short, empty, or with one wrong byte.
#[track_caller]
fn refuses_unsound(call: impl Fn(&mut [u8], &mut [u8]) -> Answer) {
    let mut wrong = fresh(1, 3);
    wrong[31] = 1;
    for table in [&wrong[..], &wrong[..Table::SIZE - 1], &[]] {
        refuses(1, table, 2000, &call);
    }
}

/// Node 1 of 3: /d and /f held by all, /d/x by node 1, /e and /g dead.
struct World {
    table: Vec<u8>,
    d: u64,
    f: u64,
    x: u64,
    e: u64,
    g: u64,
}

const NOBODY: u64 = 50_331_649;
const NO_ID: u64 = 1 << 32;
const LATE: u64 = LAST_CLOCK + 1;

fn world() -> World {
    let mut table = fresh(1, 3);
    let d = make(&mut table, 1, ROOT, DIRECTORY, "d", 7);
    let f = make(&mut table, 2, ROOT, FILE, "f", 7);
    let x = make(&mut table, 3, d, FILE, "x", 0);
    let e = make(&mut table, 4, ROOT, DIRECTORY, "e", 7);
    let g = make(&mut table, 5, ROOT, FILE, "g", 7);
    assert_eq!(remove(&mut table, 6, e.into()), done(0));
    assert_eq!(unlink(&mut table, 7, g.into()), done(0));
    let [d, f, x, e, g] = [d, f, x, e, g].map(u64::from);
    World {
        table,
        d,
        f,
        x,
        e,
        g,
    }
}

/// A table with a directory 16 deep, and its id.
fn deep() -> (Vec<u8>, u64) {
    let mut table = fresh(1, 2);
    let mut directory = ROOT;
    for _ in 0..16 {
        directory = make(&mut table, 1, directory, DIRECTORY, "deeper", 2);
    }
    (table, directory.into())
}

/// Fills a directory with files up to 32 entries.
fn fill(table: &mut [u8], directory: u32) {
    for file in read(table).entries_of(directory).count()..32 {
        make(table, 1, directory, FILE, &file.to_string(), 0);
    }
}

/// The table with its highest clock at the end.
fn clock_at_end(table: &[u8]) -> Vec<u8> {
    edited(table, |t| t.highest = LAST_CLOCK)
}

/// The table with a replica's version at the end.
fn version_at_end(table: &[u8], id: u64) -> Vec<u8> {
    edited(table, |t| {
        let slot = t.find(id as u32).expect("held");
        t.replicas[slot].version = LAST_VERSION;
    })
}

#[test]
fn start_writes_a_fresh_table() {
    let mut table = vec![FILLER; Table::SIZE];
    assert_eq!(start(&mut table, 8, 8), done(0));
    assert_eq!(table, Table::fresh(8, 8).bytes());
    let mut header = vec![0x4E, 0x54, 8, 8, 1];
    header.resize(32, 0);
    assert_eq!(table[..32], header);
    let mut root = vec![0x48, 0x44, 2, 1];
    root.resize(16, 0);
    root.push(0xFF);
    root.resize(40, 0);
    root.push(1);
    root.resize(Table::SIZE - 32, 0);
    assert_eq!(table[32..], root);
}

#[test]
fn start_refuses() {
    for length in [0, Table::SIZE - 1, Table::SIZE + 1] {
        refuses(1, &vec![FILLER; length], 0, |t, _| start(t, 9, 9));
    }
    let table = vec![FILLER; Table::SIZE];
    let wrong = [(0, 1), (2, 1), (1, 0), (1, 9), (257, 8), (1, 257)];
    for (node, n) in wrong {
        refuses(2, &table, 0, |t, _| start(t, node, n));
    }
}

#[test]
fn create_makes_a_replica_and_its_entry() {
    let mut table = fresh(2, 3);
    let id = make(&mut table, 9, ROOT, DIRECTORY, "a", 4);
    let after = read(&table);
    let made = after.replicas[1];
    assert_eq!((id, after.next, after.highest), (33_554_433, 2, 9));
    assert_eq!((made.head.kind, made.head.live), (Kind::Directory, true));
    assert_eq!((made.head.stamp, made.head.depth), (stamp(9, 2), 1));
    assert_eq!((made.head.holders, made.pending, made.version), (6, 4, 1));
    let root = after.replicas[0];
    assert_eq!((root.pending, root.version), (5, 2));
    assert_eq!(
        after.entries,
        [slot(ROOT, entry(true, id, stamp(9, 2), "a"))]
    );
}

#[test]
fn create_refuses() {
    refuses_unsound(|t, _| create(t, LATE, NOBODY, 0, b"", 99));
    let World { table, d, f, e, .. } = world();
    refuses(2, &table, 0, |t, _| create(t, LATE, d, 1, b"a", 0));
    refuses(2, &table, 0, |t, _| create(t, 9, d, 0, b"a", 0));
    refuses(2, &table, 0, |t, _| create(t, 9, d, 257, b"a", 0));
    refuses(2, &table, 0, |t, _| create(t, 9, d, 1, b"a/b", 0));
    refuses(2, &table, 0, |t, _| create(t, 9, d, 1, &[65; 256], 0));
    refuses(2, &table, 0, |t, _| create(t, 9, d, 1, b"a", 8));
    refuses(2, &table, 0, |t, _| create(t, 9, NOBODY, 1, b"a", 256));
    refuses(6, &table, 0, |t, _| create(t, 9, NOBODY, 1, b"a", 0));
    refuses(6, &table, 0, |t, _| create(t, 9, NO_ID, 1, b"a", 0));
    refuses(7, &table, 0, |t, _| create(t, 9, e, 1, b"a", 0));
    refuses(8, &table, 0, |t, _| create(t, 9, f, 1, b"a", 0));
    refuses(9, &table, 0, |t, _| create(t, 9, 0, 1, b"d", 0));
    let (deep_table, deepest) = deep();
    refuses(11, &deep_table, 0, |t, _| create(t, 9, deepest, 1, b"a", 0));
    for end in [clock_at_end(&table), version_at_end(&table, d)] {
        refuses(17, &end, 0, |t, _| create(t, 9, d, 1, b"a", 0));
    }
    let spent = edited(&table, |t| t.next = LAST_COUNT + 1);
    refuses(17, &spent, 0, |t, _| create(t, 9, d, 1, b"a", 0));
}

#[test]
fn create_refuses_what_has_no_room() {
    let mut table = fresh(1, 1);
    let directory = make(&mut table, 1, ROOT, DIRECTORY, "d", 0);
    fill(&mut table, ROOT);
    refuses(16, &table, 0, |t, _| create(t, 1, 0, 1, b"a", 0));
    let spent = edited(&table, |t| t.next = LAST_COUNT + 1);
    refuses(16, &spent, 0, |t, _| create(t, 1, 0, 1, b"a", 0));
    for file in 33..64 {
        make(&mut table, 1, directory, FILE, &file.to_string(), 0);
    }
    assert_eq!(read(&table).replicas.len(), 64);
    let room_in_directory = read(&table).entries_of(directory).count() < 32;
    assert!(room_in_directory);
    refuses(16, &table, 0, |t, _| {
        create(t, 1, directory.into(), 1, b"a", 0)
    });
}

#[test]
fn no_room_for_a_257th_entry() {
    let mut table = fresh(1, 1);
    let mut directories = vec![ROOT];
    for at in 0..8 {
        let text = format!("directory {at}");
        directories.push(make(&mut table, 1, ROOT, DIRECTORY, &text, 0));
    }
    let file = make(&mut table, 1, directories[8], FILE, "0", 0);
    for directory in directories {
        for at in read(&table).entries_of(directory).count()..32 {
            if read(&table).entries.len() < 256 {
                let text = at.to_string();
                let moved = rename(
                    &mut table,
                    1,
                    file.into(),
                    directory.into(),
                    text.as_bytes(),
                );
                assert_eq!(moved, done(0));
            }
        }
    }
    let at = read(&table).replicas[9].head.place.directory;
    assert!(read(&table).entries_of(at).count() < 32);
    refuses(16, &table, 0, |t, _| {
        rename(t, 1, file.into(), at.into(), b"a")
    });
    refuses(16, &table, 0, |t, _| create(t, 1, at.into(), 1, b"a", 0));
    assert_eq!(unlink(&mut table, 1, file.into()), done(0));
}

#[test]
fn unlink_leaves_a_dead_replica_at_its_place() {
    let World { mut table, f, .. } = world();
    let before = read(&table).replicas[2];
    assert_eq!(unlink(&mut table, 0, f), done(0));
    let after = read(&table);
    assert_eq!(after.replicas[2].head.place, before.head.place);
    assert!(!after.replicas[2].head.live);
    assert_eq!(after.replicas[2].head.stamp, stamp(8, 1));
    assert_eq!(after.replicas[2].version, before.version + 1);
    let struck = entry(false, f as u32, stamp(8, 1), "f");
    assert_eq!(
        after.entry_at(ROOT, f as u32, struck.name).copied(),
        Some(struck)
    );
}

#[test]
fn unlink_refuses() {
    refuses_unsound(|t, _| unlink(t, LATE, NOBODY));
    let World { table, d, f, g, .. } = world();
    refuses(2, &table, 0, |t, _| unlink(t, LATE, NOBODY));
    refuses(6, &table, 0, |t, _| unlink(t, 9, NOBODY));
    refuses(6, &table, 0, |t, _| unlink(t, 9, NO_ID + f));
    refuses(7, &table, 0, |t, _| unlink(t, 9, g));
    refuses(8, &table, 0, |t, _| unlink(t, 9, d));
    refuses(8, &table, 0, |t, _| unlink(t, 9, 0));
    let ends = [
        clock_at_end(&table),
        version_at_end(&table, f),
        version_at_end(&table, 0),
    ];
    for end in ends {
        refuses(17, &end, 0, |t, _| unlink(t, 9, f));
    }
}

#[test]
fn rename_moves_a_file_and_strikes_its_old_entry() {
    let World {
        mut table, d, f, ..
    } = world();
    assert_eq!(rename(&mut table, 20, f, d, b"y"), done(0));
    let after = read(&table);
    let head = after.replicas[2].head;
    assert_eq!((head.stamp, head.depth), (stamp(20, 1), 2));
    assert_eq!(
        (head.place.directory, head.place.name),
        (d as u32, name("y"))
    );
    let struck = after.entry_at(ROOT, f as u32, name("f"));
    assert_eq!(
        struck,
        Some(&entry(false, f as u32, stamp(20, 1), "f")),
        "the old entry"
    );
    let there = after.entry_at(d as u32, f as u32, name("y"));
    assert_eq!(there, Some(&entry(true, f as u32, stamp(20, 1), "y")));
}

#[test]
fn rename_refuses() {
    refuses_unsound(|t, _| rename(t, LATE, NOBODY, NOBODY, b""));
    let World {
        table,
        d,
        f,
        x,
        e,
        g,
    } = world();
    refuses(2, &table, 0, |t, _| rename(t, LATE, f, d, b"a"));
    refuses(2, &table, 0, |t, _| rename(t, 9, NOBODY, d, b".."));
    refuses(6, &table, 0, |t, _| rename(t, 9, NOBODY, d, b"a"));
    refuses(6, &table, 0, |t, _| rename(t, 9, f, NOBODY, b"a"));
    refuses(6, &table, 0, |t, _| rename(t, 9, f, NO_ID, b"a"));
    refuses(6, &table, 0, |t, _| rename(t, 9, g, NOBODY, b"a"));
    refuses(7, &table, 0, |t, _| rename(t, 9, g, f, b"a"));
    refuses(7, &table, 0, |t, _| rename(t, 9, d, e, b"a"));
    refuses(8, &table, 0, |t, _| rename(t, 9, d, 0, b"a"));
    refuses(8, &table, 0, |t, _| rename(t, 9, f, x, b"a"));
    refuses(9, &table, 0, |t, _| rename(t, 9, f, d, b"x"));
    refuses(9, &table, 0, |t, _| rename(t, 9, f, 0, b"f"));
    let (mut deep_table, deepest) = deep();
    let file = u64::from(make(&mut deep_table, 1, ROOT, FILE, "f", 0));
    refuses(11, &deep_table, 0, |t, _| rename(t, 9, file, deepest, b"a"));
    let mut full = table.clone();
    fill(&mut full, d as u32);
    refuses(16, &full, 0, |t, _| rename(t, 9, f, d, b"a"));
    let ends = [
        clock_at_end(&table),
        version_at_end(&table, f),
        version_at_end(&table, d),
        version_at_end(&table, 0),
    ];
    for end in ends {
        refuses(17, &end, 0, |t, _| rename(t, 9, f, d, b"a"));
    }
}

#[test]
fn remove_leaves_a_dead_directory() {
    let mut table = fresh(1, 2);
    let d = make(&mut table, 1, ROOT, DIRECTORY, "d", 2);
    let x = make(&mut table, 1, d, FILE, "x", 2);
    refuses(10, &table, 0, |t, _| remove(t, 3, d.into()));
    assert_eq!(unlink(&mut table, 2, x.into()), done(0));
    assert_eq!(remove(&mut table, 3, d.into()), done(0));
    let after = read(&table);
    assert!(!after.replicas[1].head.live);
    assert_eq!(after.replicas[1].head.stamp, stamp(4, 1));
    assert_eq!(after.entries_of(d).count(), 1);
}

#[test]
fn remove_refuses() {
    refuses_unsound(|t, _| remove(t, LATE, NOBODY));
    let World { table, d, f, e, .. } = world();
    refuses(2, &table, 0, |t, _| remove(t, LATE, NOBODY));
    refuses(6, &table, 0, |t, _| remove(t, 9, NOBODY));
    refuses(6, &table, 0, |t, _| remove(t, 9, NO_ID));
    refuses(7, &table, 0, |t, _| remove(t, 9, e));
    refuses(8, &table, 0, |t, _| remove(t, 9, f));
    refuses(8, &table, 0, |t, _| remove(t, 9, 0));
    refuses(10, &table, 0, |t, _| remove(t, 9, d));
    let mut empty = table.clone();
    let new = u64::from(make(&mut empty, 9, ROOT, DIRECTORY, "new", 0));
    let ends = [
        clock_at_end(&empty),
        version_at_end(&empty, new),
        version_at_end(&empty, 0),
    ];
    for end in ends {
        refuses(17, &end, 0, |t, _| remove(t, 9, new));
    }
}

#[test]
fn remove_refuses_a_held_live_child_whose_entry_was_struck() {
    let mut table = fresh(1, 2);
    let d = make(&mut table, 1, ROOT, DIRECTORY, "d", 2);
    make(&mut table, 1, d, FILE, "x", 0);
    let struck = edited(&table, |t| {
        t.entries[1].entry.live = false;
        t.entries[1].entry.stamp = stamp(3, 2);
        t.highest = 3;
    });
    refuses(10, &struck, 0, |t, _| remove(t, 9, d.into()));
}

#[test]
fn spread_joins_holders() {
    let World {
        mut table, x, g, ..
    } = world();
    assert_eq!(spread(&mut table, x, 2), done(0));
    let replica = read(&table).replicas[3];
    assert_eq!((replica.head.holders, replica.pending), (3, 2));
    assert_eq!(replica.version, 2);
    let same = table.clone();
    for (id, set) in [(x, 3), (x, 0), (0, 7), (g, 7)] {
        assert_eq!(spread(&mut table, id, set), done(0));
        assert!(table == same);
    }
}

#[test]
fn spread_refuses() {
    refuses_unsound(|t, _| spread(t, NOBODY, 8));
    let World { table, x, .. } = world();
    refuses(2, &table, 0, |t, _| spread(t, NOBODY, 8));
    refuses(2, &table, 0, |t, _| spread(t, x, 257));
    refuses(6, &table, 0, |t, _| spread(t, NOBODY, 1));
    refuses(6, &table, 0, |t, _| spread(t, NO_ID, 1));
    let end = version_at_end(&table, x);
    refuses(17, &end, 0, |t, _| spread(t, x, 2));
    assert_eq!(spread(&mut end.clone(), x, 1), done(0));
}

#[test]
fn list_writes_live_entries() {
    let World { table, d, f, .. } = world();
    let mut out = vec![FILLER; 100];
    assert_eq!(list(&table, 0, &mut out), done(2));
    let listed = [
        entry(true, d as u32, stamp(1, 1), "d"),
        entry(true, f as u32, stamp(2, 1), "f"),
    ];
    assert_eq!(out[..32], listed[0].write());
    assert_eq!(out[32..64], listed[1].write());
    assert_eq!(out[64..], [FILLER; 36]);
}

#[test]
fn list_refuses() {
    refuses_unsound(|t, out| list(t, NOBODY, out));
    let World {
        mut table, f, e, g, ..
    } = world();
    refuses(3, &table, 63, |t, out| list(t, 0, out));
    refuses(6, &table, 0, |t, out| list(t, NOBODY, out));
    refuses(6, &table, 0, |t, out| list(t, NO_ID, out));
    refuses(7, &table, 0, |t, out| list(t, e, out));
    refuses(7, &table, 0, |t, out| list(t, g, out));
    refuses(8, &table, 0, |t, out| list(t, f, out));
    table = edited(&table, |t| {
        t.entries
            .push(slot(e as u32, entry(true, NOBODY as u32, stamp(1, 3), "y")))
    });
    refuses(3, &table, 31, |t, out| list(t, e, out));
    refuses(7, &table, 32, |t, out| list(t, e, out));
}

#[test]
fn push_writes_heads_and_entries() {
    let World { table, d, .. } = world();
    let held = read(&table);
    let bytes = pushed(&table, d as u32, 2);
    assert_eq!(bytes.len(), 16 + 40 + 32);
    let header = [0x50, 0x55, 1, 2, 2, 0, 0, 0, 1, 1, 0, 0, 0, 0, 0, 0];
    assert_eq!(bytes[..16], header);
    let push = Push::read(&bytes, 3).expect("a push");
    assert_eq!(push.heads, [held.replicas[1].head]);
    assert_eq!(push.entries, [held.entries[2].entry]);
    let mut out = vec![FILLER; 100];
    assert_eq!(self::push(&table, d, 3, &mut out), done(88));
    assert_eq!(out[88..], [FILLER; 12]);
}

#[test]
fn push_refuses() {
    refuses_unsound(|t, out| push(t, NOBODY, 0, out));
    let World { table, d, x, .. } = world();
    for node in [0, 1, 4, 258] {
        refuses(2, &table, 0, |t, out| push(t, d, node, out));
    }
    refuses(3, &table, 87, |t, out| push(t, d, 2, out));
    refuses(3, &table, 95, |t, out| push(t, x, 2, out));
    refuses(6, &table, 0, |t, out| push(t, NOBODY, 2, out));
    refuses(6, &table, 0, |t, out| push(t, NO_ID, 2, out));
    refuses(14, &table, 96, |t, out| push(t, x, 2, out));
}

#[test]
fn receive_makes_what_is_missing() {
    let mut sender = fresh(2, 3);
    let d = make(&mut sender, 4, ROOT, DIRECTORY, "d", 0);
    let x = make(&mut sender, 5, d, FILE, "x", 1);
    let message = pushed(&sender, x, 1);
    let mut table = fresh(1, 3);
    let mut out = [FILLER; 20];
    assert_eq!(receive(&mut table, 0, &message, &mut out), done(16));
    let answer = [
        0x41, 0x4B, 1, 2, 1, 0, 0, 0, 2, 0, 0, 2, 0, 0, 0, 0, FILLER, FILLER, FILLER, FILLER,
    ];
    assert_eq!(out, answer);
    let after = read(&table);
    let made = after.replicas.iter().map(|r| (r.head.id, r.head.holders));
    assert_eq!(made.collect::<Vec<_>>(), [(ROOT, 7), (d, 3), (x, 3)]);
    let told: Vec<_> = after
        .replicas
        .iter()
        .map(|r| (r.version, r.pending))
        .collect();
    assert_eq!(told, [(2, 6), (1, 2), (1, 2)]);
    let entries = [
        slot(ROOT, entry(true, d, stamp(4, 2), "d")),
        slot(d, entry(true, x, stamp(5, 2), "x")),
    ];
    assert_eq!(after.entries, entries);
    assert_eq!((after.highest, after.next), (5, 1));
    let same = table.clone();
    assert_eq!(receive(&mut table, 9, &message, &mut out), done(16));
    assert!(table == same, "the second time");
}

/// Node 2's push of /d/x to node 1, in a cluster of 3: two heads, and of /d with its one entry.
fn messages() -> (Vec<u8>, Vec<u8>) {
    let mut sender = fresh(2, 3);
    let d = make(&mut sender, 4, ROOT, DIRECTORY, "d", 1);
    let x = make(&mut sender, 5, d, FILE, "x", 1);
    (pushed(&sender, x, 1), pushed(&sender, d, 1))
}

#[test]
fn receive_refuses() {
    let (file, directory) = messages();
    refuses_unsound(|t, out| receive(t, LATE, &[], &mut out[..15]));
    let table = fresh(1, 3);
    refuses(2, &table, 0, |t, out| receive(t, LATE, &[], out));
    refuses(3, &table, 15, |t, out| receive(t, 9, &[], out));
    refuses(4, &table, 16, |t, out| receive(t, 9, &[], out));
    let elsewhere = fresh(3, 3);
    refuses(5, &elsewhere, 16, |t, out| receive(t, 9, &file, out));
    let malformed = forged(&file, 3, |push| push.heads.truncate(1));
    refuses(4, &elsewhere, 16, |t, out| receive(t, 9, &malformed, out));

    let end = version_at_end(&table, 0);
    refuses(17, &end, 16, |t, out| receive(t, 9, &directory, out));
    let mut full = table.clone();
    fill(&mut full, ROOT);
    refuses(16, &full, 16, |t, out| receive(t, 9, &directory, out));
    let full = version_at_end(&full, 0);
    refuses(16, &full, 16, |t, out| receive(t, 9, &directory, out));
}

#[test]
fn receive_refuses_a_message_against_the_table() {
    let (file, directory) = messages();
    let mut table = fresh(1, 3);
    let mut out = [0; 16];
    assert_eq!(receive(&mut table, 9, &directory, &mut out), done(16));
    assert_eq!(receive(&mut table, 9, &file, &mut out), done(16));
    let against = |message: &[u8], edit: &dyn Fn(&mut Push)| {
        let message = forged(message, 3, edit);
        refuses(13, &table, 16, |t, out| receive(t, 9, &message, out));
    };
    against(&file, &|push| push.heads[0].kind = Kind::Directory);
    against(&file, &|push| push.heads[1].place.name = name("other"));
    against(&file, &|push| push.heads[0].place.name = name("other"));
    against(&file, &|push| push.heads[0].live = false);
    against(&directory, &|push| push.entries[0].live = false);
    against(&file, &|push| {
        push.heads[0].id = 16_777_217;
        push.heads[0].holders = 3;
    });
}

#[test]
fn receive_refuses_an_entry_set_at_odds() {
    let (file, directory) = messages();
    let struck = forged(&directory, 3, |push| push.entries[0].live = false);
    let mut table = fresh(1, 3);
    let mut out = [0; 16];
    assert_eq!(receive(&mut table, 9, &struck, &mut out), done(16));
    refuses(13, &table, 16, |t, out| receive(t, 9, &file, out));
}

#[test]
fn receive_refuses_a_clock_past_its_end() {
    let mut cluster = Cluster::fresh(2);
    let d = make(cluster.at(1), 1, ROOT, DIRECTORY, "d", 2);
    cluster.quiet(1);
    make(cluster.at(1), 5, d, FILE, "f", 0);
    assert_eq!(remove(cluster.at(2), 5, d.into()), done(0));
    let message = pushed(cluster.at(2), d, 1);
    let end = clock_at_end(cluster.at(1));
    refuses(17, &end, 16, |t, out| receive(t, 6, &message, out));
}

/// Each rule of line 4, by what is done to a right message.
#[test]
fn malformed_messages() {
    use Malformed::*;
    let (file, directory) = messages();
    let table = fresh(1, 3);
    let check = |malformed: Malformed, message: &[u8]| {
        assert_eq!(Push::read(message, 3), Err(malformed));
        refuses(4, &table, 16, |t, out| receive(t, 9, message, out));
    };
    let wrong = |malformed: Malformed, message: &[u8], edit: &dyn Fn(&mut Push)| {
        check(malformed, &forged(message, 3, edit));
    };
    let wrong_byte = |malformed: Malformed, message: &[u8], at: usize, byte: u8| {
        let mut message = message.to_vec();
        message[at] = byte;
        check(malformed, &message);
    };

    check(Length, &file[..15]);
    check(Length, &file[..file.len() - 1]);
    check(Length, &[&file[..], &[0]].concat());
    for (at, byte) in [(0, 0), (17, 0), (57, 0)] {
        wrong_byte(Mark, &directory, at, byte);
    }
    for at in [10, 15, 16 + 18, 16 + 19, 56 + 3] {
        wrong_byte(Zeros, &directory, at, 1);
    }
    let ranges = [
        (2, 0),
        (2, 4),
        (3, 0),
        (3, 4),
        (4, 0),
        (16 + 2, 0),
        (16 + 2, 3),
        (16 + 3, 2),
        (16 + 4, 0),
        (16 + 7, 4),
        (16 + 8, 4),
        (16 + 9, 0),
        (16 + 14, 1),
        (16 + 16, 8 + 3),
        (16 + 17, 0),
        (16 + 17, 17),
        (16 + 23, 1),
        (16 + 24, 0),
        (16 + 24, 16),
        (16 + 39, 1),
        (56 + 2, 2),
        (56 + 7, 9),
        (56 + 8, 0),
        (56 + 16, 2),
        (56 + 17, b'/'),
        (56 + 17, b'.'),
    ];
    for (at, byte) in ranges {
        let mut message = directory.clone();
        message[4] = 1;
        assert!(Push::read(&message, 3).is_ok());
        wrong_byte(Range, &message, at, byte);
    }

    wrong(Counts, &file, &|push| push.heads.clear());
    wrong(Counts, &file, &|push| push.heads.truncate(1));
    wrong(Counts, &file, &|push| push.heads[0].depth = 1);
    wrong(Counts, &directory, &|push| {
        let texts = (0..33).map(|at| entry(true, 1 << 24 | 1, 257, &at.to_string()));
        push.entries = texts.collect();
    });
    wrong(FromEqualsTo, &file, &|push| push.to = 2);
    wrong(ChainPlace, &file, &|push| {
        push.heads[0].place.directory = ROOT
    });
    wrong(ChainPlace, &file, &|push| {
        push.heads[1].place.directory = push.heads[0].id
    });
    wrong(ChainDepth, &file, &|push| push.heads[1].depth = 2);
    wrong(ChainKind, &file, &|push| push.heads[1].kind = Kind::File);
    wrong(LiveUnderDead, &file, &|push| push.heads[1].live = false);
    wrong(IdTwice, &file, &|push| {
        push.heads[0].place.directory = push.heads[0].id;
        push.heads[1].id = push.heads[0].id;
    });
    wrong(HoldersWithoutMaker, &file, &|push| {
        push.heads[0].id += 1 << 24;
    });
    wrong(HoldersWithoutMaker, &file, &|push| {
        push.heads[1].id += 1 << 24;
        push.heads[0].place.directory += 1 << 24;
    });
    wrong(HoldersWithoutSender, &file, &|push| {
        push.from = 3;
    });
    wrong(HoldersWithoutSender, &file, &|push| {
        push.from = 3;
        push.heads[0].holders = 7;
    });
    wrong(FirstWithoutAddressee, &file, &|push| {
        push.heads[0].holders = 2;
    });
    wrong(EntryTwice, &directory, &|push| {
        let mut again = push.entries[0];
        again.live = false;
        again.stamp += 256;
        push.entries.push(again);
    });
    wrong(EntryForRoot, &directory, &|push| {
        push.entries[0].child = ROOT
    });
    wrong(EntriesUnderFile, &file, &|push| {
        push.entries = vec![entry(true, 1 << 24 | 1, 257, "a")];
    });
}

#[test]
fn malformed_entries_at_depth_16() {
    let (mut table, deepest) = deep();
    let message = pushed(&table, deepest as u32, 2);
    let push = Push::read(&message, 2).expect("a push");
    assert_eq!((push.heads.len(), push.heads[0].depth), (16, DEEPEST));
    let full = forged(&message, 2, |push| {
        push.entries = vec![entry(true, 1 << 24 | 99, 257, "a")];
    });
    assert_eq!(Push::read(&full, 2), Err(Malformed::EntriesAtDepth16));
    let mut out = [0; 16];
    assert_eq!(start(&mut table, 2, 2), done(0));
    refuses(4, &table, 16, |t, out| receive(t, 9, &full, out));
    assert_eq!(receive(&mut table, 9, &message, &mut out), done(16));
    assert_eq!(read(&table).replicas.len(), 17);
}

#[test]
fn a_root_head_stands_as_described() {
    let mut sender = fresh(2, 3);
    make(&mut sender, 4, ROOT, FILE, "f", 0);
    let root = pushed(&sender, ROOT, 1);
    assert_eq!(root.len(), 16 + 40 + 32);
    let table = fresh(1, 3);
    for at in PushHeader::SIZE..PushHeader::SIZE + 40 {
        let mut wrong = root.clone();
        wrong[at] ^= 1;
        refuses(4, &table, 16, |t, out| receive(t, 9, &wrong, out));
    }
    let mut table = fresh(1, 4);
    refuses(4, &table, 16, |t, out| receive(t, 9, &root, out));
    table = fresh(1, 3);
    assert_eq!(receive(&mut table, 9, &root, &mut [0; 16]), done(16));
    assert_eq!(read(&table).replicas[0].pending, 6);
    assert_eq!(read(&table).entries, read(&sender).entries);
}

#[test]
fn acknowledged_clears_a_pending_bit() {
    let World { mut table, f, .. } = world();
    let told = Acknowledgement {
        from: 3,
        to: 1,
        version: 1,
        id: f as u32,
    };
    assert_eq!(acknowledged(&mut table, &told.write()), done(0));
    let replica = read(&table).replicas[2];
    assert_eq!((replica.pending, replica.version), (2, 1));
    refuses(15, &table, 0, |t, _| acknowledged(t, &told.write()));
}

#[test]
fn acknowledged_refuses() {
    refuses_unsound(|t, _| acknowledged(t, &[]));
    let World { table, f, .. } = world();
    let told = Acknowledgement {
        from: 2,
        to: 1,
        version: 1,
        id: f as u32,
    };
    let right = told.write();
    let check = |number: u32, message: &[u8]| {
        refuses(number, &table, 0, |t, _| acknowledged(t, message));
    };
    check(4, &[]);
    check(4, &right[..15]);
    check(4, &[&right[..], &[0]].concat());
    for (at, byte) in [
        (0, 0),
        (2, 0),
        (2, 4),
        (2, 1),
        (3, 4),
        (4, 0),
        (12, 1),
        (15, 1),
    ] {
        let mut wrong = right.clone();
        wrong[at] = byte;
        check(4, &wrong);
    }
    for id in [1, 16_777_216, 4 << 24 | 1] {
        check(4, &Acknowledgement { id, ..told }.write());
    }
    check(5, &Acknowledgement { to: 3, ..told }.write());
    let nobody = NOBODY as u32;
    check(6, &Acknowledgement { id: nobody, ..told }.write());
    check(15, &Acknowledgement { version: 2, ..told }.write());
    let x = read(&table).replicas[3].head.id;
    check(15, &Acknowledgement { id: x, ..told }.write());
}

#[test]
fn pending_is_a_sum() {
    refuses_unsound(|t, _| pending(t));
    assert_eq!(pending(&fresh(1, 8)), done(0));
    let World { table, .. } = world();
    assert_eq!(pending(&table), done(10));
}

#[test]
fn names_are_judged_by_bytes() {
    for text in [&b"a"[..], b"...", b".a", b"a.", &[0xFF; 15], &[1]] {
        assert!(Name::from_bytes(text).is_some());
    }
    for text in [&b"."[..], b"..", b"/", b"a\0", b"\0", &[1; 16]] {
        assert_eq!(Name::from_bytes(text), None);
    }
}
