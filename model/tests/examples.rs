//! Document 01's examples P1 to P12, one test each.

mod common;

use common::*;
use rumbezalo_model::calls::{acknowledged, receive, spread};
use rumbezalo_model::records::{stamp, Acknowledgement, Name, Record, ROOT};
use rumbezalo_model::steps::{new_clock, Join, Work};
use rumbezalo_model::table::Table;
use rumbezalo_model::variant::Variant;

#[test]
fn p1_clock_12_gives_3073_and_3074() {
    assert_eq!(stamp(12, 1), 3073);
    assert_eq!(stamp(12, 2), 3074);
}

#[test]
fn p2_13_by_node_1_beats_12_by_node_8() {
    assert_eq!(stamp(13, 1), 3329);
    assert_eq!(stamp(12, 8), 3080);
    let mut work = Work::on(&Table::fresh(1, 8), 0, Variant::Right);
    work.join(ROOT, entry(true, 16_777_217, 3080, "a"));
    let join = work.join(ROOT, entry(false, 16_777_217, 3329, "a"));
    assert_eq!(join, Join::Replaced);
}

#[test]
fn p3_first_id_of_node_2() {
    let mut table = fresh(2, 2);
    assert_eq!(make(&mut table, 1, ROOT, FILE, "a", 0), 33_554_433);
}

#[test]
fn p4_new_clocks_after_9() {
    for (now, clock) in [(5, 10), (10, 10), (20, 20)] {
        assert_eq!(new_clock(now, 9), clock);
        let mut work = Work::on(&Table::fresh(1, 1), now, Variant::Right);
        work.table.highest = 9;
        assert_eq!(work.new_stamp(), stamp(clock, 1));
        assert_eq!(work.table.highest, clock);
    }
}

#[test]
fn p5_lengths_of_pushes() {
    let mut table = fresh(1, 2);
    let mut directory = ROOT;
    for depth in 1..=16 {
        let file = make(&mut table, 1, directory, FILE, "file", 2);
        let length = pushed(&table, file, 2).len();
        assert_eq!(length, 16 + 40 * depth);
        if depth < 16 {
            directory = make(&mut table, 1, directory, DIRECTORY, "directory", 2);
        }
    }
    assert_eq!(16 + 40, 56);
    assert_eq!(16 + 40 * 16, 656);
    for file in 0..30 {
        make(&mut table, 1, ROOT, FILE, &file.to_string(), 2);
    }
    assert_eq!(read(&table).entries_of(ROOT).count(), 32);
    assert_eq!(pushed(&table, ROOT, 2).len(), 1080);
}

#[test]
fn p6_names() {
    assert!(Name::from_bytes(b"...").is_some());
    for none in [&b".."[..], b"a/b", b""] {
        assert_eq!(Name::from_bytes(none), None);
    }
}

#[test]
fn p7_fifteen_bytes_are_a_name() {
    assert!(Name::from_bytes(b"fifteen letters").is_some());
    assert_eq!(Name::from_bytes(b"sixteen letters."), None);
}

#[test]
fn p8_live_3073_with_dead_3074() {
    let live = entry(true, 16_777_217, 3073, "a");
    let dead = entry(false, 16_777_217, 3074, "a");
    for (first, second, join) in [(live, dead, Join::Replaced), (dead, live, Join::Same)] {
        let mut work = Work::on(&Table::fresh(1, 2), 0, Variant::Right);
        assert_eq!(work.join(ROOT, first), Join::Added);
        assert_eq!(work.join(ROOT, second), join);
        assert_eq!(work.table.entries, [slot(ROOT, dead)]);
    }
}

#[test]
fn p9_3074_live_against_3074_dead() {
    let mut sender = fresh(2, 2);
    make(&mut sender, 12, ROOT, FILE, "a", 0);
    let live = pushed(&sender, ROOT, 1);
    let dead = forged(&live, 2, |push| push.entries[0].live = false);
    let mut receiver = fresh(1, 2);
    let mut out = [0; 16];
    assert_eq!(receive(&mut receiver, 12, &live, &mut out), done(16));
    assert_eq!(read(&receiver).entries[0].entry.stamp, 3074);
    assert_eq!(receive(&mut receiver, 12, &dead, &mut out), refused(13));
}

#[test]
fn p10_holders_03_with_05_at_node_1() {
    let mut table = fresh(1, 3);
    let file = make(&mut table, 1, ROOT, FILE, "a", 0x03);
    assert_eq!(spread(&mut table, file.into(), 0x05), done(0));
    let replica = read(&table).replicas[1];
    assert_eq!((replica.head.holders, replica.pending), (0x07, 0x06));
}

#[test]
fn p11_acknowledged_4_current_5() {
    let mut table = fresh(1, 2);
    for file in ["a", "b", "c", "d"] {
        make(&mut table, 1, ROOT, FILE, file, 0);
    }
    assert_eq!(read(&table).replicas[0].version, 5);
    let mut told = Acknowledgement {
        from: 2,
        to: 1,
        version: 4,
        id: ROOT,
    };
    assert_eq!(acknowledged(&mut table, &told.write()), refused(15));
    told.version = 5;
    assert_eq!(acknowledged(&mut table, &told.write()), done(0));
}

#[test]
fn p12_fresh_root_of_3() {
    assert_eq!(read(&fresh(2, 3)).replicas[0].head.holders, 0x07);
}
