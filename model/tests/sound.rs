//! "A sound table": each rule broken alone, and said so.

mod common;

use common::*;
use rumbezalo_model::records::{stamp, Head, Kind, LAST_CLOCK, LAST_COUNT, ROOT};
use rumbezalo_model::table::{judge, sound, verdict, Replica, Rule, Table};

const D: u32 = 16_777_217;
const F: u32 = 16_777_218;
const X: u32 = 16_777_219;
const THEIRS: u32 = 33_554_433;

/// Node 1 of 3: /d and /f held by all, /d/x by node 1.
fn world() -> Vec<u8> {
    let mut table = fresh(1, 3);
    assert_eq!(make(&mut table, 1, ROOT, DIRECTORY, "d", 7), D);
    assert_eq!(make(&mut table, 2, ROOT, FILE, "f", 7), F);
    assert_eq!(make(&mut table, 3, D, FILE, "x", 0), X);
    table
}

/// Edits the table, which then breaks this rule first.
#[track_caller]
fn breaks(rule: Rule, edit: impl FnOnce(&mut Table)) {
    let mut table = read(&world());
    edit(&mut table);
    assert_eq!(sound(&table), Err(rule));
    if table.replicas.len() <= 64 && table.entries.len() <= 256 {
        assert_eq!(verdict(&table.bytes()), Err(rule));
        assert_eq!(judge(&table.bytes()), None);
    }
}

#[test]
fn the_world_is_sound() {
    let bytes = world();
    let table = read(&bytes);
    assert_eq!(sound(&table), Ok(()));
    assert_eq!(table.bytes(), bytes);
}

#[test]
fn ranges() {
    let edits: [fn(&mut Table); 16] = [
        |t| t.own = 0,
        |t| t.own = 4,
        |t| t.n = 0,
        |t| t.n = 9,
        |t| t.next = 0,
        |t| t.next = LAST_COUNT + 2,
        |t| t.highest = LAST_CLOCK + 1,
        |t| t.replicas[1].version = 0,
        |t| t.replicas[1].pending = 8,
        |t| t.replicas[1].head.holders = 15,
        |t| t.replicas[1].head.depth = 17,
        |t| t.replicas[0].head.stamp = 257,
        |t| t.replicas[1].head.stamp = 1,
        |t| t.entries[0].entry.stamp = 4,
        |t| t.entries[0].entry.child = 1,
        |t| t.entries[0].directory = 1,
    ];
    for edit in edits {
        breaks(Rule::Ranges, edit);
    }
    breaks(Rule::Ranges, |t| t.replicas.resize(65, t.replicas[1]));
    breaks(Rule::Ranges, |t| t.entries.resize(257, t.entries[1]));
}

#[test]
fn layout() {
    let bytes = world();
    let free_replica = 32 + 4 * 48;
    let free_entry = 3104 + 3 * 40;
    let edges = [
        0,
        1,
        16,
        31,
        32 + 45,
        32 + 47,
        3104 + 36,
        3104 + 39,
        free_replica,
        free_entry,
        free_entry + 39,
    ];
    for at in edges {
        let mut wrong = bytes.clone();
        wrong[at] ^= 0x80;
        assert_eq!(verdict(&wrong), Err(Rule::Ranges), "byte {at}");
        assert_eq!(Table::read(&wrong), None);
    }
    for at in [free_replica + 48, 3103, free_entry + 40, Table::SIZE - 1] {
        let mut wrong = bytes.clone();
        wrong[at] = 1;
        assert_eq!(verdict(&wrong), Err(Rule::UsedSlotsFirst), "byte {at}");
        assert_eq!(Table::read(&wrong), None);
    }
    for length in [0, 31, Table::SIZE - 1] {
        assert_eq!(verdict(&bytes[..length]), Err(Rule::Ranges));
    }
    let long = [&bytes[..], &[0]].concat();
    assert_eq!(verdict(&long), Err(Rule::Ranges));
}

#[test]
fn replicas() {
    breaks(Rule::RootInSlotZero, |t| t.replicas.swap(0, 1));
    breaks(Rule::RootInSlotZero, |t| t.replicas.clear());
    breaks(Rule::IdsUnique, |t| t.replicas.push(t.replicas[0]));
    breaks(Rule::IdsUnique, |t| t.replicas.push(t.replicas[2]));
    breaks(Rule::HoldersIncludeMaker, |t| {
        t.replicas[3].head.id = THEIRS;
    });
    breaks(Rule::HoldersIncludeOwn, |t| {
        t.replicas[3].head.id = THEIRS;
        t.replicas[3].head.holders = 2;
    });
    breaks(Rule::PendingWithinHolders, |t| t.replicas[3].pending = 2);
    breaks(Rule::PendingWithoutOwn, |t| t.replicas[3].pending = 1);
    breaks(Rule::OwnIdsBelowNext, |t| t.next = 3);
}

#[test]
fn places() {
    breaks(Rule::PlaceHeld, |t| {
        t.replicas[3].head.place.directory = THEIRS
    });
    breaks(Rule::PlaceIsDirectory, |t| {
        t.replicas[3].head.place.directory = F
    });
    breaks(Rule::PlaceOneLessDeep, |t| t.replicas[3].head.depth = 3);
    breaks(Rule::PlaceOfLiveIsLive, |t| t.replicas[1].head.live = false);
}

#[test]
fn entries() {
    breaks(Rule::EntryDirectoryHeld, |t| {
        t.entries[0].directory = THEIRS
    });
    breaks(Rule::EntryDirectoryIsDirectory, |t| {
        t.entries[0].directory = F
    });
    breaks(Rule::ChildNotRoot, |t| t.entries[0].entry.child = ROOT);
    breaks(Rule::EntriesUnique, |t| {
        let mut again = t.entries[1];
        again.entry.live = false;
        t.entries.push(again);
    });
    breaks(Rule::AtMost32Entries, |t| {
        for text in 0..31 {
            let struck = entry(false, THEIRS, 258, &text.to_string());
            t.entries.push(slot(ROOT, struck));
        }
    });
}

#[test]
fn an_entry_in_the_deepest_directory() {
    let mut bytes = fresh(1, 1);
    let mut directory = ROOT;
    for _ in 0..16 {
        directory = make(&mut bytes, 1, directory, DIRECTORY, "deeper", 0);
    }
    let mut table = read(&bytes);
    table
        .entries
        .push(slot(directory, entry(false, D, 257, "a")));
    assert_eq!(sound(&table), Err(Rule::EntryDirectoryNotDeepest));
}

#[test]
fn entries_at_places() {
    breaks(Rule::EntryAtPlace, |t| t.entries.truncate(2));
    breaks(Rule::EntryAtPlace, |t| t.entries[2].entry.name = name("y"));
    breaks(Rule::EntryAtPlaceNotBelow, |t| {
        t.entries[2].entry.stamp = stamp(2, 3)
    });
    breaks(Rule::EntryAtPlaceLiveIfEqual, |t| {
        t.entries[2].entry.live = false
    });
    breaks(Rule::ClocksSeen, |t| t.highest = 2);
    breaks(Rule::ClocksSeen, |t| t.entries[2].entry.stamp = stamp(4, 2));
}

#[test]
fn an_entry_struck_early_is_sound() {
    let struck = edited(&world(), |t| {
        t.entries[2].entry.stamp = stamp(3, 2);
        t.entries[2].entry.live = false;
    });
    assert!(read(&struck).replicas[3].head.live);
}

#[test]
fn a_dead_replica_needs_no_entry_and_no_live_place() {
    edited(&world(), |t| {
        t.replicas[1].head.live = false;
        t.replicas[3].head.live = false;
        t.entries.truncate(2);
        t.entries[0].entry.live = false;
    });
}

#[test]
fn a_directory_of_a_directory_of_its_own_is_no_place() {
    let mut table = read(&world());
    let mut head = Head {
        id: THEIRS,
        kind: Kind::Directory,
        holders: 3,
        ..table.replicas[1].head
    };
    head.place.directory = THEIRS;
    table.replicas.push(Replica {
        head,
        version: 1,
        pending: 0,
    });
    assert_eq!(sound(&table), Err(Rule::PlaceOneLessDeep));
}
