//! The readings A1 to A21 of document 01, each by an example in which another reading would have
//! answered otherwise, and what else is easy to miss in the document.
//!
//! A comment with "Else:" says what the reading not taken would have answered. Offsets into bytes
//! are those of document 01, "Numbers and records": in a push the first head stands at 16, the
//! second at 56; in a table replica slot s at 32 + 48 s, entry slot s at 3104 + 40 s.

mod common;

use common::*;
use rumbezalo_model::calls::*;
use rumbezalo_model::forge::messages::outcome;
use rumbezalo_model::push::{Malformed, Push};
use rumbezalo_model::records::{
    stamp, Entry, Head, Kind, Place, Record, LAST_CLOCK, LAST_COUNT, LAST_VERSION, ROOT,
};
use rumbezalo_model::steps::Odds;
use rumbezalo_model::table::{verdict, Replica, Rule, Table};

// ---- calls on copies

/// Makes a call on a copy of a table. Answers its value and the table it leaves, or the number of
/// the refusal, which must change no byte.
#[track_caller]
fn made(bytes: &[u8], call: impl FnOnce(&mut [u8]) -> Answer) -> Result<(u32, Table), u32> {
    let mut after = bytes.to_vec();
    let answer = call(&mut after);
    if answer.number == 0 {
        return Ok((answer.value, read(&after)));
    }
    assert_eq!(answer.value, 0);
    assert!(after == bytes, "a refusal changed the table");
    Err(answer.number)
}

/// The same for a receive at 9. It writes an acknowledgement or nothing.
#[track_caller]
fn received(bytes: &[u8], message: &[u8]) -> Result<Table, u32> {
    let mut out = [FILLER; 16];
    let received = made(bytes, |t| receive(t, 9, message, &mut out));
    match received {
        Ok((written, after)) => {
            assert_eq!((written, &out[..2]), (16, &b"AK"[..]));
            Ok(after)
        }
        Err(number) => {
            assert_eq!(out, [FILLER; 16]);
            Err(number)
        }
    }
}

/// What a call says to these bytes as its table: 1 if they aren't sound.
fn number(bytes: &[u8]) -> u32 {
    pending(bytes).number
}

/// The bytes with some of them written over.
fn patched(bytes: &[u8], at: usize, new: &[u8]) -> Vec<u8> {
    let mut bytes = bytes.to_vec();
    bytes[at..at + new.len()].copy_from_slice(new);
    bytes
}

/// The bytes of the used slots of a table's entries.
fn entry_bytes(bytes: &[u8]) -> &[u8] {
    &bytes[3104..3104 + 40 * read(bytes).entries.len()]
}

// ---- what the examples start from

/// Node 2's first two ids, and a third.
const D: u32 = 33_554_433;
const X: u32 = 33_554_434;
const THIRD: u32 = 33_554_435;
/// Node 1's first id.
const OURS: u32 = 16_777_217;

/// Node 2 of 3: /d (1026) and /d/x (1282), both held by the nodes 1 and 2.
fn sender() -> Vec<u8> {
    let mut table = fresh(2, 3);
    assert_eq!(make(&mut table, 4, ROOT, DIRECTORY, "d", 1), D);
    assert_eq!(make(&mut table, 5, D, FILE, "x", 1), X);
    table
}

/// Node 1 of 3, once it has received the pushes of /d and /d/x.
fn receiver() -> Vec<u8> {
    let sender = sender();
    let d = received(&fresh(1, 3), &pushed(&sender, D, 1)).expect("received");
    let x = received(&d.bytes(), &pushed(&sender, X, 1)).expect("received");
    x.bytes()
}

/// A push of the root with these entries from node 2 to node 1, in a cluster of 2.
fn root_push(entries: Vec<Entry>) -> Vec<u8> {
    let push = Push {
        from: 2,
        to: 1,
        version: 1,
        heads: vec![Head::root(2)],
        entries,
    };
    push.write()
}

/// Dead entries with the names "0", "1" and so on.
fn struck(child: u32, count: usize) -> Vec<Entry> {
    let texts = (0..count).map(|at| entry(false, child, 258, &at.to_string()));
    texts.collect()
}

/// Node 1 of 2 with no room in the root: 32 entries, all dead.
fn full_root() -> Vec<u8> {
    let full = received(&fresh(1, 2), &root_push(struck(D, 32)));
    full.expect("received").bytes()
}

/// Node 1 of 3 with no replica slot free: 63 dead files, which need no entries.
fn full_of_replicas() -> Vec<u8> {
    let place = Place {
        directory: ROOT,
        name: name("a"),
    };
    let file = |at: u32| Head {
        kind: Kind::File,
        live: false,
        id: OURS + at,
        stamp: 257,
        holders: 1,
        depth: 1,
        place,
    };
    edited(&fresh(1, 3), |t| {
        t.next = 64;
        t.highest = 9;
        t.replicas.extend((0..63).map(|at| Replica {
            head: file(at),
            version: 1,
            pending: 0,
        }));
    })
}

/// The table with the root's version at the end.
fn root_at_end(bytes: &[u8]) -> Vec<u8> {
    edited(bytes, |t| t.replicas[0].version = LAST_VERSION)
}

/// A chain of directories, each in the one before, held by the nodes 1 and 2; the ids from the
/// root side down.
fn chain(table: &mut [u8], length: usize) -> Vec<u32> {
    let mut directories = vec![ROOT];
    for at in 0..length {
        directories.push(make(table, 1, directories[at], DIRECTORY, "deeper", 3));
    }
    directories.split_off(1)
}

// ---- the readings

/// "Acknowledgement with an id out of its range": 4. Else: 6, since nobody holds it.
#[test]
fn a1_acknowledged_id_out_of_range() {
    let told = |id: [u8; 4]| {
        let [a, b, c, d] = id;
        let message = [0x41, 0x4B, 2, 1, 1, 0, 0, 0, a, b, c, d, 0, 0, 0, 0];
        made(&fresh(1, 2), |t| acknowledged(t, &message))
    };
    let count_0_of_node_1 = [0, 0, 0, 1];
    let count_1_of_node_0 = [1, 0, 0, 0];
    let count_1_of_node_3_of_2 = [1, 0, 0, 3];
    for id in [count_0_of_node_1, count_1_of_node_0, count_1_of_node_3_of_2] {
        assert_eq!(told(id), Err(4));
    }
    let in_range_and_not_held = [1, 0, 0, 2];
    assert_eq!(told(in_range_and_not_held), Err(6));
    let root_with_nothing_pending = [0, 0, 0, 0];
    assert_eq!(told(root_with_nothing_pending), Err(15));
}

/// The same number as a parameter is an id that isn't held.
#[test]
fn a1_a_parameter_that_is_no_id() {
    let unlinked = made(&fresh(1, 2), |t| unlink(t, 1, 16_777_216));
    assert_eq!(unlinked, Err(6));
}

/// "Push with more than 32 entries": 4. Else: 16, "32 in a directory".
#[test]
fn a2_push_with_33_entries() {
    let most = root_push(struck(D, 32));
    assert_eq!((most.len(), most[9]), (1080, 32));
    let after = received(&fresh(1, 2), &most).expect("received");
    assert_eq!(after.entries.len(), 32);
    let more = root_push(struck(D, 33));
    assert_eq!((more.len(), more[9]), (1112, 33));
    assert_eq!(Push::read(&more, 2), Err(Malformed::Counts));
    assert_eq!(received(&fresh(1, 2), &more), Err(4));
}

/// "List of a dead directory into a short buffer": 3, by its live entries; then 7. Else: 7 with any
/// buffer.
#[test]
fn a3_list_of_a_dead_directory() {
    let mut cluster = Cluster::fresh(3);
    let d = make(cluster.at(1), 1, ROOT, DIRECTORY, "d", 7);
    cluster.quiet(1);
    let x = make(cluster.at(1), 2, d, FILE, "x", 0);
    cluster.deliver(d, 1, 2, 2);
    assert_eq!(remove(cluster.at(3), 9, d.into()), done(0));
    cluster.deliver(d, 3, 2, 9);
    let table = cluster.at(2);
    assert!(!read(table).replicas[1].head.live);
    assert_eq!(read(table).entries[1], slot(d, entry(true, x, 513, "x")));

    let listed = |room: usize| {
        let mut out = vec![FILLER; room];
        let answer = list(table, d.into(), &mut out);
        assert_eq!(out, vec![FILLER; room]);
        answer
    };
    assert_eq!(listed(31), refused(3));
    assert_eq!(listed(32), refused(7));
}

/// "Entries set in (e) included": those that (e) really sets. Here the late push would set /a live
/// with 1026, where a dead one with 1026 stands, but its state isn't taken. Else: 13.
#[test]
fn a4_entry_of_a_state_not_taken() {
    let mut sender = fresh(2, 2);
    let f = make(&mut sender, 4, ROOT, FILE, "a", 1);
    let late = pushed(&sender, f, 1);
    assert_eq!(rename(&mut sender, 6, f.into(), 0, b"b"), done(0));
    let renamed = pushed(&sender, f, 1);

    let planted = root_push(vec![entry(false, f, 1026, "a")]);
    let odd = received(&fresh(1, 2), &planted).expect("received").bytes();
    assert_eq!(received(&odd, &late), Err(13), "made, so (e) sets it");
    let newer = received(&odd, &renamed).expect("received");
    assert_eq!(received(&newer.bytes(), &late), Ok(newer));
}

/// The same for an equal state, which isn't taken either. Else: 13.
#[test]
fn a4_entry_of_an_equal_state() {
    let mut sender = fresh(2, 2);
    let f = make(&mut sender, 4, ROOT, FILE, "a", 1);
    assert_eq!(unlink(&mut sender, 6, f.into()), done(0));
    let message = pushed(&sender, f, 1);
    let after = received(&fresh(1, 2), &message).expect("received");
    assert_eq!(after.entries, [slot(ROOT, entry(false, f, 1538, "a"))]);
    let odd = edited(&after.bytes(), |t| t.entries[0].entry.live = true);
    assert_eq!(received(&odd, &message), Ok(read(&odd)));
}

/// "Create, and an entry for the new id already stands there": it needs no new slot. Else: 16, as
/// for any other name.
#[test]
fn a5_create_where_an_entry_was_planted() {
    let mut entries = struck(D, 31);
    entries.insert(7, entry(false, OURS, 258, "a"));
    let planted = received(&fresh(1, 2), &root_push(entries));
    let planted = planted.expect("received").bytes();
    let created = made(&planted, |t| create(t, 9, 0, FILE, b"a", 0));
    let (id, after) = created.expect("created");
    assert_eq!(id, OURS);
    let mut expected = read(&planted).entries;
    expected[7] = slot(ROOT, entry(true, OURS, stamp(9, 1), "a"));
    assert_eq!(after.entries, expected);
    let other = made(&planted, |t| create(t, 9, 0, FILE, b"b", 0));
    assert_eq!(other, Err(16));
}

/// "Each of the two calls for the other": only (f) makes directories live; (e) sets entries in dead
/// ones. Else: the entry for x, though dead, would bring /d back with 2306.
#[test]
fn a6_entry_set_in_a_dead_directory() {
    let mut sender = fresh(1, 2);
    let d = make(&mut sender, 4, ROOT, DIRECTORY, "d", 2);
    let x = make(&mut sender, 5, d, FILE, "x", 2);
    assert_eq!(unlink(&mut sender, 6, x.into()), done(0));
    assert_eq!(remove(&mut sender, 7, d.into()), done(0));
    let after = received(&fresh(2, 2), &pushed(&sender, x, 2));
    let after = after.expect("received");
    let states = after.replicas.iter().map(|r| (r.head.live, r.head.stamp));
    let dead = [(true, 0), (false, stamp(7, 1)), (false, stamp(6, 1))];
    assert_eq!(states.collect::<Vec<_>>(), dead);
    let entries = [
        slot(ROOT, entry(false, d, stamp(7, 1), "d")),
        slot(d, entry(false, x, stamp(6, 1), "x")),
    ];
    assert_eq!(after.entries, entries);
    assert_eq!(after.highest, 7);
}

/// "13 and ancestors already held": compared too. Here /d is dead in the message and live with us,
/// both with 1026. Else: done, since it isn't touched.
#[test]
fn a7_held_ancestor_at_odds() {
    let table = receiver();
    let message = pushed(&sender(), X, 1);
    let unlinked = forged(&message, 3, |push| {
        push.heads[0].live = false;
        push.heads[0].stamp = stamp(6, 2);
        push.heads[1].live = false;
    });
    assert_eq!(received(&table, &unlinked), Err(13));
    let newer = forged(&unlinked, 3, |push| push.heads[1].stamp = stamp(7, 2));
    let after = received(&table, &newer).expect("received");
    assert_eq!(after.replicas[1].head, read(&table).replicas[1].head);
    let elsewhere = forged(&newer, 3, |push| push.heads[1].place.name = name("e"));
    assert_eq!(received(&table, &elsewhere), Err(13));
}

/// "Holders without maker or sender": every head. Byte 72 has the holders of the second head, a
/// directory made by node 3. Else: with 2 it would be made with 1 and 2 as its holders, which isn't
/// sound.
#[test]
fn a8_holders_of_an_ancestor() {
    let mut cluster = Cluster::fresh(3);
    let d = make(cluster.at(3), 1, ROOT, DIRECTORY, "d", 0b010);
    cluster.quiet(1);
    let x = make(cluster.at(2), 2, d, FILE, "x", 0b001);
    let message = pushed(cluster.at(2), x, 1);
    assert_eq!((message[32], message[72]), (0b011, 0b110));
    let table = cluster.at(1);
    let without_maker = patched(&message, 72, &[0b010]);
    assert_eq!(received(table, &without_maker), Err(4));
    let without_sender = patched(&message, 72, &[0b100]);
    assert_eq!(received(table, &without_sender), Err(4));
    let after = received(table, &message).expect("received");
    assert_eq!(after.head(d).map(|head| head.holders), Some(0b111));
}

/// "13, 16 and 17 in one receive": in that order, over the outcome without limits. Else: the first
/// entry of the message has no room, and 16 is given before the second is looked at.
#[test]
fn a9_order_of_13_16_17() {
    let full = root_at_end(&full_root());
    let new = entry(true, X, 258, "new");
    let at_odds = entry(true, D, 258, "0");
    let message = root_push(vec![new, at_odds]);
    assert_eq!(received(&full, &message), Err(13));
    let message = root_push(vec![new]);
    assert_eq!(received(&full, &message), Err(16));
    let with_room = root_at_end(&fresh(1, 2));
    assert_eq!(received(&with_room, &message), Err(17));
}

/// The same where (b) would need a 65th replica before (e) is at odds. Else: 16.
#[test]
fn a9_replicas_before_entries() {
    let full = full_of_replicas();
    let message = pushed(&sender(), X, 1);
    assert_eq!(received(&full, &message), Err(16));
    let at_odds = slot(ROOT, entry(false, D, 1026, "d"));
    let odd = edited(&full, |t| t.entries.push(at_odds));
    assert_eq!(received(&odd, &message), Err(13));
}

/// "now 0" is taken. Else: 2, since a clock is 1 to 2^40-1.
#[test]
fn a10_now_0() {
    let created = made(&fresh(1, 2), |t| create(t, 0, 0, FILE, b"a", 0));
    let (_, after) = created.expect("created");
    assert_eq!(after.replicas[1].head.stamp, 257);
    let message = pushed(&sender(), D, 1);
    let received = made(&fresh(1, 3), |t| receive(t, 0, &message, &mut [0; 16]));
    assert!(received.is_ok());
}

/// now above 2^40-1 is 2, "judged before the message is looked at". Else: 3 or 4.
#[test]
fn a10_now_past_the_last_clock() {
    let table = fresh(1, 2);
    for now in [LAST_CLOCK + 1, u64::MAX] {
        let created = made(&table, |t| create(t, now, 0, FILE, b"a", 0));
        assert_eq!(created, Err(2));
        let nothing = made(&table, |t| receive(t, now, &[], &mut []));
        assert_eq!(nothing, Err(2));
    }
    let nothing = made(&table, |t| receive(t, LAST_CLOCK, &[], &mut []));
    assert_eq!(nothing, Err(3));
    let created = made(&table, |t| create(t, LAST_CLOCK, 0, FILE, b"a", 0));
    let (_, after) = created.expect("created");
    let head = after.replicas[1].head.write();
    let last_clock_of_node_1 = [1, 0xFF, 0xFF, 0xFF, 0xFF, 0xFF, 0, 0];
    assert_eq!(head[8..16], last_clock_of_node_1);
}

/// "Next count in a sound table": 1 to 16777216. Else: 0 might pass, or 16777216 not.
#[test]
fn a11_next_count() {
    let next = |bytes: [u8; 4]| patched(&fresh(1, 2), 4, &bytes);
    let none = next([0, 0, 0, 0]);
    let last = next([0xFF, 0xFF, 0xFF, 0]);
    let spent = next([0, 0, 0, 1]);
    let past = next([1, 0, 0, 1]);
    let numbers = [none, last.clone(), spent.clone(), past].map(|bytes| number(&bytes));
    assert_eq!(numbers, [1, 0, 0, 1]);
    let created = made(&last, |t| create(t, 1, 0, FILE, b"a", 0));
    let (id, after) = created.expect("created");
    assert_eq!(id, 0x01FF_FFFF);
    assert_eq!(after.bytes()[4..8], spent[4..8]);
    let created = made(&spent, |t| create(t, 1, 0, FILE, b"a", 0));
    assert_eq!(created, Err(17));
}

/// "An id of our own making that we don't hold": any such head, below the next count or not. Else:
/// the second would be taken, since we never made it.
#[test]
fn a12_head_of_our_own_making() {
    let table = edited(&fresh(1, 3), |t| t.next = 5);
    let message = pushed(&sender(), X, 1);
    for ours in [OURS, OURS + 8] {
        let pushed = forged(&message, 3, |push| push.heads[0].id = ours);
        assert_eq!(received(&table, &pushed), Err(13));
        let ancestor = forged(&message, 3, |push| {
            push.heads[0].place.directory = ours;
            push.heads[1].id = ours;
        });
        assert_eq!(received(&table, &ancestor), Err(13));
    }
}

/// "Entries with such a child pass." Else: 13.
#[test]
fn a12_entry_of_our_own_making() {
    let table = edited(&fresh(1, 3), |t| t.next = 5);
    let message = pushed(&sender(), D, 1);
    for ours in [OURS, OURS + 8] {
        let planted = forged(&message, 3, |push| push.entries[0].child = ours);
        let after = received(&table, &planted).expect("received");
        assert_eq!(after.entries[0], slot(D, entry(true, ours, 1282, "x")));
    }
}

/// "Rename to its own place": 9 if the entry there is live. Else: done, as nothing is in the way
/// but the file itself.
#[test]
fn a13_rename_to_its_own_place() {
    let mut table = fresh(1, 2);
    let f = make(&mut table, 1, ROOT, FILE, "f", 0);
    let renamed = made(&table, |t| rename(t, 9, f.into(), 0, b"f"));
    assert_eq!(renamed, Err(9));
}

/// "Else done, one live entry, no strike." The entry struck early with 770 becomes live with 1025
/// (01 04). Else: struck as the old place, with 1025 too.
#[test]
fn a13_rename_to_its_own_place_struck_early() {
    let mut table = fresh(1, 2);
    let f = make(&mut table, 1, ROOT, FILE, "f", 0);
    let mut struck = edited(&table, |t| {
        t.entries[0].entry = entry(false, f, 770, "f");
        t.highest = 3;
    });
    assert_eq!(rename(&mut struck, 4, f.into(), 0, b"f"), done(0));
    let mut live = [0; 40];
    live[..16].copy_from_slice(&[0x45, 0x4E, 1, 0, 1, 0, 0, 1, 0x01, 0x04, 0, 0, 0, 0, 0, 0]);
    live[16..18].copy_from_slice(b"\x01f");
    assert_eq!(entry_bytes(&struck), live);
    assert_eq!(read(&struck).replicas[1].head.stamp, 1025);
}

/// "Spread of a dead replica": done. Else: 7.
#[test]
fn a14_spread_of_a_dead_replica() {
    let mut table = fresh(1, 3);
    let f = make(&mut table, 1, ROOT, FILE, "f", 0);
    assert_eq!(unlink(&mut table, 2, f.into()), done(0));
    let spread = made(&table, |t| spread(t, f.into(), 0b100));
    let (value, after) = spread.expect("spread");
    let replica = after.replicas[1];
    assert_eq!((value, replica.head.live), (0, false));
    assert_eq!((replica.head.holders, replica.pending), (0b101, 0b100));
    assert_eq!(replica.version, 3);
    assert_eq!(after.highest, 2);
}

/// "Spread with nothing new at version 2^32-1": done. Else: 17.
#[test]
fn a14_spread_with_nothing_new_at_the_last_version() {
    let table = root_at_end(&fresh(1, 3));
    let same = made(&table, |t| spread(t, 0, 0b111));
    assert_eq!(same, Ok((0, read(&table))));
}

/// "(a) takes in the clocks of records that lose too": /d is newer in the message, but an ancestor
/// already held is not touched. Else: the highest clock stays 5. "now counts only where a new clock
/// is drawn", else it would be 9. "A raised highest clock alone raises no version."
#[test]
fn a15_clock_of_a_record_not_taken() {
    let table = receiver();
    assert_eq!(read(&table).highest, 5);
    let message = pushed(&sender(), X, 1);
    let newer = forged(&message, 3, |push| push.heads[1].stamp = stamp(7, 2));
    let after = received(&table, &newer).expect("received");
    assert_eq!(after.bytes(), patched(&table, 8, &[7]));
}

/// "Push: the size is judged also where the node is not pending": 3 before 14. Else: 14 with any
/// buffer. "An id not held is 6 with any buffer", else 3.
#[test]
fn a16_order_of_a_push() {
    let table = sender();
    let push_to_3 = |id: u64, room: usize| push(&table, id, 3, &mut vec![0; room]);
    assert_eq!(push_to_3(X.into(), 95), refused(3));
    assert_eq!(push_to_3(X.into(), 96), refused(14));
    assert_eq!(push_to_3(OURS.into(), 0), refused(6));
    assert_eq!(push_to_3(u64::MAX, 0), refused(6));
}

/// "Several refusals: the lowest". Else: 10 for the root with its live entries, 8 for the dead
/// file, 7 for a rename with one id not held and the other dead.
#[test]
fn a17_lowest_number() {
    let mut table = fresh(1, 2);
    let f = make(&mut table, 1, ROOT, FILE, "f", 0);
    let g = make(&mut table, 2, ROOT, FILE, "g", 0);
    let e = make(&mut table, 3, ROOT, DIRECTORY, "e", 0);
    assert_eq!(unlink(&mut table, 4, f.into()), done(0));
    assert_eq!(remove(&mut table, 5, e.into()), done(0));
    assert_eq!(made(&table, |t| remove(t, 9, 0)), Err(8));
    assert_eq!(list(&table, f.into(), &mut []), refused(7));
    let [f, g, e, nobody] = [f, g, e, D].map(u64::from);
    let refusals = [(f, nobody, 6), (nobody, e, 6), (f, g, 7), (g, f, 7)];
    for (file, directory, lowest) in refusals {
        let renamed = made(&table, |t| rename(t, 9, file, directory, b"a"));
        assert_eq!(renamed, Err(lowest));
    }
}

/// "A used slot starts with its two-byte mark; after the leading used slots every byte of that part
/// is zero." Else: a slot without its mark would be free, whatever else it has, or a hole be passed
/// over.
#[test]
fn a18_used_and_free_slots() {
    let mut table = fresh(1, 2);
    make(&mut table, 1, ROOT, FILE, "f", 0);
    let replica = &table[32 + 48..][..48];
    let entry = &table[3104..][..40];
    let after_a_hole = [
        patched(&table, 32 + 48 * 3, replica),
        patched(&table, 3104 + 40 * 2, entry),
        patched(&table, 32 + 48 * 63 + 47, &[1]),
        patched(&table, 3104 + 40 * 255 + 39, &[1]),
    ];
    for bytes in after_a_hole {
        assert_eq!(verdict(&bytes), Err(Rule::UsedSlotsFirst));
        assert_eq!(number(&bytes), 1);
    }
    let without_a_mark = [
        patched(&table, 32 + 48 * 2 + 40, &[1]),
        patched(&table, 3104 + 40 + 16, &[1, b'a']),
        patched(&table, 32 + 48 * 2, &[0x48]),
        patched(&table, 3104 + 40, &[0x45]),
        patched(&table, 32 + 48, &[0, 0]),
        patched(&table, 3104, &[0, 0]),
    ];
    for bytes in without_a_mark {
        assert_eq!(verdict(&bytes), Err(Rule::Ranges));
        assert_eq!(number(&bytes), 1);
    }
    assert_eq!(number(&table), 0);
}

/// "Ranges in a message: by the N of the receiving table", since a push has none: that of a file
/// held by the nodes 1 and 2 is the same from a cluster of 2 and of 4. Held by node 4 too, it is
/// malformed to a node of 2, and so is the root of 4. Else: they would pass, by the most nodes
/// there are.
#[test]
fn a19_ranges_by_the_receivers_n() {
    let of_four = |set: u64| {
        let mut table = fresh(2, 4);
        let f = make(&mut table, 4, ROOT, FILE, "f", set);
        pushed(&table, f, 1)
    };
    let mut of_two = fresh(2, 2);
    let f = make(&mut of_two, 4, ROOT, FILE, "f", 0b01);
    assert_eq!(of_four(0b0001), pushed(&of_two, f, 1));
    let table = fresh(1, 2);
    assert!(received(&table, &of_four(0b0001)).is_ok());
    assert_eq!(received(&table, &of_four(0b1001)), Err(4));
    assert!(received(&fresh(1, 4), &of_four(0b1001)).is_ok());

    let root = patched(&root_push(Vec::new()), 32, &[0b1111]);
    assert_eq!(received(&table, &root), Err(4));
    assert!(received(&fresh(1, 4), &root).is_ok());
}

/// "The name given to create and rename: its bytes as a slice, length 0 to any". Else: sixteen
/// bytes, the first of them the length.
#[test]
fn a20_name_as_a_slice() {
    let mut table = fresh(1, 2);
    let f = u64::from(make(&mut table, 1, ROOT, FILE, "f", 0));
    let mut as_a_record = [0; 16];
    as_a_record[..2].copy_from_slice(b"\x01a");
    let no_names = [
        &as_a_record[..],
        &as_a_record[..3],
        b"",
        b"a\0",
        &[b'a'; 16],
        &[b'a'; 257],
        &[b'a'; 65_537],
    ];
    for text in no_names {
        let created = made(&table, |t| create(t, 9, 0, FILE, text, 0));
        assert_eq!(created, Err(2));
        let renamed = made(&table, |t| rename(t, 9, f, 0, text));
        assert_eq!(renamed, Err(2));
    }
    for text in [&b"a"[..], b"\x01a", &[b'a'; 15]] {
        assert!(made(&table, |t| create(t, 9, 0, FILE, text, 0)).is_ok());
        assert!(made(&table, |t| rename(t, 9, f, 0, text)).is_ok());
    }
}

/// "Raised at most once a call": a rename within the root changes two of its entries. Else: 4.
#[test]
fn a21_two_entries_in_a_rename() {
    let mut table = fresh(1, 2);
    let f = make(&mut table, 1, ROOT, FILE, "f", 0);
    assert_eq!(read(&table).replicas[0].version, 2);
    let renamed = made(&table, |t| rename(t, 9, f.into(), 0, b"g"));
    let (_, after) = renamed.expect("renamed");
    let versions = after.replicas.iter().map(|r| r.version);
    assert_eq!(versions.collect::<Vec<_>>(), [3, 2]);
}

/// The same in a receive: of /d the state is taken in (c), an entry joined in (d) and the state
/// changed again in (f), and the root's entry for it is set in (e) and (f). Else: 4 and 5.
#[test]
fn a21_state_and_entries_in_a_receive() {
    let mut cluster = Cluster::fresh(2);
    let d = make(cluster.at(1), 1, ROOT, DIRECTORY, "d", 3);
    cluster.quiet(1);
    make(cluster.at(1), 5, d, FILE, "f", 0);
    let g = make(cluster.at(2), 5, d, FILE, "g", 0);
    assert_eq!(unlink(cluster.at(2), 6, g.into()), done(0));
    assert_eq!(remove(cluster.at(2), 7, d.into()), done(0));
    let versions = |table: &Table| [0, 1].map(|slot| table.replicas[slot].version);
    assert_eq!(versions(&read(cluster.at(1))), [2, 2]);
    let message = pushed(cluster.at(2), d, 1);
    let after = received(cluster.at(1), &message).expect("received");
    assert_eq!(after.replicas[1].head.stamp, stamp(9, 1));
    assert_eq!(after.entries_of(d).count(), 2);
    assert_eq!(versions(&after), [3, 3]);
}

// ---- easy to miss

/// "Holders are no part of a state, yet (b) takes the message's holders and adds the own node".
#[test]
fn holders_of_a_made_ancestor() {
    let mut sender = fresh(2, 3);
    let d = make(&mut sender, 4, ROOT, DIRECTORY, "d", 0b100);
    let x = make(&mut sender, 5, d, FILE, "x", 0b001);
    let message = pushed(&sender, x, 1);
    assert_eq!((message[32], message[72]), (0b011, 0b110));
    let after = received(&fresh(1, 3), &message).expect("received");
    let made = after.replicas[1];
    assert_eq!((made.head.id, made.head.holders), (d, 0b111));
    assert_eq!((made.pending, made.version), (0b110, 1));
}

/// Equal stamps with different holders are no odds: they are joined.
#[test]
fn holders_of_an_equal_state() {
    let table = receiver();
    let mut sender = sender();
    assert_eq!(spread(&mut sender, X.into(), 0b100), done(0));
    let after = received(&table, &pushed(&sender, X, 1)).expect("received");
    let mut expected = read(&table);
    expected.replicas[2].head.holders = 0b111;
    expected.replicas[2].pending = 0b110;
    expected.replicas[2].version = 2;
    assert_eq!(after, expected);
}

/// "The taken state of a moved file brings its depth".
#[test]
fn depth_of_a_moved_file() {
    let table = receiver();
    let mut sender = sender();
    assert_eq!(rename(&mut sender, 7, X.into(), 0, b"y"), done(0));
    let after = received(&table, &pushed(&sender, X, 1)).expect("received");
    assert_eq!(read(&table).replicas[2].head.depth, 2);
    assert_eq!(after.replicas[2].head.depth, 1);
}

/// "4 is judged before 5".
#[test]
fn malformed_and_not_addressed_to_us() {
    let elsewhere = fresh(3, 3);
    let message = pushed(&sender(), X, 1);
    assert_eq!(received(&elsewhere, &message), Err(5));
    let malformed = patched(&message, 15, &[1]);
    assert_eq!(received(&elsewhere, &malformed), Err(4));
    let told = |zero: u8| {
        let message = [0x41, 0x4B, 2, 1, 1, 0, 0, 0, 0, 0, 0, 0, 0, 0, 0, zero];
        made(&elsewhere, |t| acknowledged(t, &message))
    };
    assert_eq!((told(0), told(1)), (Err(5), Err(4)));
}

/// "A dead directory's push still carries its entries".
#[test]
fn push_of_a_dead_directory() {
    let mut table = sender();
    assert_eq!(unlink(&mut table, 6, X.into()), done(0));
    assert_eq!(remove(&mut table, 7, D.into()), done(0));
    let message = pushed(&table, D, 1);
    assert_eq!(message.len(), 16 + 40 + 32);
    let push = Push::read(&message, 3).expect("a push");
    assert!(!push.heads[0].live);
    assert_eq!(push.entries, [entry(false, X, stamp(6, 2), "x")]);
}

/// "The sender of a push is among the pending afterwards, when the receive changed something."
#[test]
fn sender_among_the_pending() {
    let message = pushed(&sender(), D, 1);
    let mut table = received(&fresh(1, 3), &message).expect("received");
    let waiting = |table: &Table| [0, 1].map(|slot| table.replicas[slot].pending);
    assert_eq!(waiting(&table), [0b110, 0b010]);
    table.replicas[0].pending = 0;
    table.replicas[1].pending = 0;
    let again = received(&table.bytes(), &message);
    assert_eq!(again, Ok(table), "nothing changed");
}

// ---- facts that make the work smaller

/// "12 is unreachable": a table with a file whose place directory isn't held isn't sound.
#[test]
fn place_directory_not_held() {
    let table = receiver();
    assert_eq!(read(&table).replicas[2].head.id, X);
    let mut without = read(&table);
    without.replicas[2].head.place.directory = THIRD;
    let bytes = without.bytes();
    assert_eq!(verdict(&bytes), Err(Rule::PlaceHeld));
    assert_eq!(made(&bytes, |t| unlink(t, 9, X.into())), Err(1));
    let renamed = made(&bytes, |t| rename(t, 9, X.into(), 0, b"y"));
    assert_eq!(renamed, Err(1));
}

/// Node 1 of 2 with nothing free: 64 replicas, 256 entries, 32 in each of 8 directories. Answers it
/// with a file and an empty directory in the root.
fn full() -> (Vec<u8>, u64, u64) {
    let mut table = fresh(1, 2);
    let mut directories = vec![ROOT];
    for at in 0..7 {
        let text = format!("directory {at}");
        directories.push(make(&mut table, 1, ROOT, DIRECTORY, &text, 0));
    }
    let mut file = ROOT;
    for at in 0..56 {
        let directory = if at < 31 { directories[1] } else { ROOT };
        file = make(&mut table, 1, directory, FILE, &at.to_string(), 0);
    }
    let table = edited(&table, |t| {
        for &directory in &directories {
            let free = 32 - t.entries_of(directory).count();
            let entries = struck(D, free).into_iter();
            let slots = entries.map(|entry| slot(directory, entry));
            t.entries.extend(slots);
        }
    });
    (table, file.into(), directories[7].into())
}

/// "16 is unreachable for unlink, remove and spread": they need no slot.
#[test]
fn no_slot_needed() {
    let (table, file, directory) = full();
    let counts = |t: &Table| (t.replicas.len(), t.entries.len());
    assert_eq!(counts(&read(&table)), (64, 256));
    let created = made(&table, |t| create(t, 9, directory, FILE, b"a", 0));
    assert_eq!(created, Err(16));
    let outcomes = [
        made(&table, |t| unlink(t, 9, file)),
        made(&table, |t| remove(t, 9, directory)),
        made(&table, |t| spread(t, file, 0b10)),
    ];
    for outcome in outcomes {
        let (_, after) = outcome.expect("done");
        assert_eq!(counts(&after), (64, 256));
    }
}

/// "The entries of (d) lie in the pushed directory, those of (e) in its ancestors": even an entry
/// of /d for itself, which only a forger writes, meets no other.
#[test]
fn directory_that_lists_itself() {
    let message = pushed(&sender(), D, 1);
    let itself = entry(false, D, 1026, "d");
    let message = forged(&message, 3, |push| push.entries = vec![itself]);
    let after = received(&fresh(1, 3), &message).expect("received");
    let set = slot(ROOT, entry(true, D, 1026, "d"));
    assert_eq!(after.entries, [slot(D, itself), set]);
}

/// "The longest push has 1,640 bytes": a directory 15 deep with 32 entries. "One receive makes at
/// most [..] 47 entries", 32 of them in (d) and 15 in (e).
#[test]
fn longest_push() {
    let mut sender = fresh(2, 2);
    let directories = chain(&mut sender, 15);
    for at in 0..32 {
        make(&mut sender, 1, directories[14], FILE, &at.to_string(), 0);
    }
    let message = pushed(&sender, directories[14], 1);
    assert_eq!(message.len(), 1640);
    assert_eq!((message[8], message[9]), (15, 32));
    let short = &mut [0; 1639];
    assert_eq!(push(&sender, directories[14].into(), 1, short), refused(3));
    let after = received(&fresh(1, 2), &message).expect("received");
    assert_eq!((after.replicas.len(), after.entries.len()), (1 + 15, 47));
}

/// "One receive makes at most 16 replicas": those of a push from 16 deep, which has no entries.
#[test]
fn deepest_push() {
    let mut sender = fresh(2, 2);
    let directories = chain(&mut sender, 16);
    let message = pushed(&sender, directories[15], 1);
    assert_eq!(message.len(), 656);
    let after = received(&fresh(1, 2), &message).expect("received");
    assert_eq!((after.replicas.len(), after.entries.len()), (1 + 16, 16));
}

/// "And draws at most 15 clocks": a file 16 deep brings back every directory above it, the root
/// side first.
#[test]
fn fifteen_clocks() {
    let mut cluster = Cluster::fresh(2);
    let directories = chain(cluster.at(1), 15);
    cluster.quiet(1);
    for &directory in directories.iter().rev() {
        assert_eq!(remove(cluster.at(1), 1, directory.into()), done(0));
    }
    let file = make(cluster.at(2), 1, directories[14], FILE, "f", 1);
    let message = pushed(cluster.at(2), file, 1);
    assert_eq!(read(cluster.at(1)).highest, 30);
    let now_40 = made(cluster.at(1), |t| receive(t, 40, &message, &mut [0; 16]));
    let (_, after) = now_40.expect("received");
    for (clock, &directory) in (40..55).zip(&directories) {
        let head = after.head(directory).expect("held");
        assert_eq!((head.live, head.stamp), (true, stamp(clock, 1)));
    }
    assert_eq!(after.highest, 54);

    let near_end = edited(cluster.at(1), |t| t.highest = LAST_CLOCK - 15);
    let after = received(&near_end, &message).expect("received");
    assert_eq!(after.highest, LAST_CLOCK);
    let too_near = edited(cluster.at(1), |t| t.highest = LAST_CLOCK - 14);
    assert_eq!(received(&too_near, &message), Err(17));
}

/// "Before 16 is judged there are [..] at most 64 in the pushed directory."
#[test]
fn sixty_four_entries() {
    assert_eq!(received(&full_root(), &root_push(struck(X, 32))), Err(16));
}

/// "Nothing ever falls": what comes late or again changes no byte.
#[test]
fn late_and_repeated() {
    let mut sender = sender();
    let early = [pushed(&sender, D, 1), pushed(&sender, X, 1)];
    assert_eq!(rename(&mut sender, 7, X.into(), 0, b"y"), done(0));
    let late = [D, X, ROOT].map(|id| pushed(&sender, id, 1));
    let mut table = receiver();
    for message in &late {
        table = received(&table, message).expect("received").bytes();
    }
    for message in early.iter().chain(&late) {
        assert_eq!(received(&table, message), Ok(read(&table)));
    }
}

/// "Only an acknowledgement clears a pending bit": a push that shows that its sender was told does
/// not.
#[test]
fn pending_until_acknowledged() {
    let mut table = fresh(1, 2);
    let f = make(&mut table, 1, ROOT, FILE, "f", 0b10);
    let other = received(&fresh(2, 2), &pushed(&table, f, 2));
    let other = other.expect("received").bytes();
    let back = received(&table, &pushed(&other, f, 1));
    assert_eq!(back, Ok(read(&table)));
    assert_eq!(read(&table).replicas[1].pending, 0b10);
}

// ---- choices that the readings leave open

/// The highest clock of a table is 0 to 2^40-1. Else: 0 would be none, or any eight bytes be one.
#[test]
fn highest_clock() {
    let highest = |clock: u64| patched(&fresh(1, 2), 8, &clock.to_le_bytes());
    let clocks = [0, 1, LAST_CLOCK, LAST_CLOCK + 1, u64::MAX];
    let numbers = clocks.map(|clock| number(&highest(clock)));
    assert_eq!(numbers, [0, 0, 0, 1, 1]);
    assert_eq!(verdict(&highest(LAST_CLOCK + 1)), Err(Rule::Ranges));
    let created = made(&highest(LAST_CLOCK), |t| create(t, 9, 0, FILE, b"a", 0));
    assert_eq!(created, Err(17));
}

/// A head with id 0 that is not the root's head of that N is out of range: 1 in a table, in any
/// slot, 4 in a message. Else: its stamp, say, might be any.
#[test]
fn head_with_id_0() {
    let changes: [(usize, &[u8]); 6] = [
        (2, &[1]),
        (3, &[0]),
        (8, &[1, 1]),
        (16, &[0b01]),
        (17, &[1]),
        (24, b"\x01a"),
    ];
    let table = fresh(1, 2);
    let mut twice = read(&table);
    twice.replicas.push(twice.replicas[0]);
    let twice = twice.bytes();
    assert_eq!(verdict(&twice), Err(Rule::IdsUnique));
    let message = root_push(Vec::new());
    assert!(received(&table, &message).is_ok());
    for (at, new) in changes {
        for slot in [0, 1] {
            let bytes = patched(&twice, 32 + 48 * slot + at, new);
            assert_eq!(verdict(&bytes), Err(Rule::Ranges));
            assert_eq!(number(&bytes), 1);
        }
        let message = patched(&message, 16 + at, new);
        assert_eq!(Push::read(&message, 2), Err(Malformed::Range));
        assert_eq!(received(&table, &message), Err(4));
    }
}

/// An entry's child 0 is an id, and refused by a rule of its own: "its child isn't the root", "an
/// entry for the root".
#[test]
fn child_0() {
    let table = receiver();
    let bytes = patched(&table, 3104 + 4, &[0, 0, 0, 0]);
    assert_eq!(verdict(&bytes), Err(Rule::ChildNotRoot));
    assert_eq!(number(&bytes), 1);
    let message = pushed(&sender(), D, 1);
    let message = patched(&message, 56 + 4, &[0, 0, 0, 0]);
    assert_eq!(Push::read(&message, 3), Err(Malformed::EntryForRoot));
    assert_eq!(received(&table, &message), Err(4));
}

/// The last head of a chain, at depth 1, must have the root as its place directory. Else: it would
/// be made in a directory that nobody holds.
#[test]
fn last_head_of_a_chain() {
    let sender = sender();
    let third = THIRD.to_le_bytes();
    for (id, last) in [(D, 16), (X, 56)] {
        let message = pushed(&sender, id, 1);
        assert!(received(&fresh(1, 3), &message).is_ok());
        let elsewhere = patched(&message, last + 20, &third);
        assert_eq!(Push::read(&elsewhere, 3), Err(Malformed::ChainPlace));
        assert_eq!(received(&fresh(1, 3), &elsewhere), Err(4));
    }
}

/// From equal to to in an acknowledgement is 4. Else: 15 at that node, since it is not pending, and
/// 5 at another.
#[test]
fn acknowledgement_from_oneself() {
    let from_2_to_2 = [0x41, 0x4B, 2, 2, 1, 0, 0, 0, 0, 0, 0, 0, 0, 0, 0, 0];
    for node in [1, 2] {
        let told = made(&fresh(node, 2), |t| acknowledged(t, &from_2_to_2));
        assert_eq!(told, Err(4));
    }
}

/// Create with no count left and no slot left is 16. Else: 17, since the id comes first.
#[test]
fn create_with_no_count_and_no_slot() {
    let tables = [
        (full_of_replicas(), 16),
        (full_root(), 16),
        (fresh(1, 2), 17),
    ];
    for (table, number) in tables {
        let spent = edited(&table, |t| t.next = LAST_COUNT + 1);
        let created = made(&spent, |t| create(t, 9, 0, FILE, b"a", 0));
        assert_eq!(created, Err(number));
    }
}

/// Equal stamps in (c) compare live flag and place. /d/x as ours in both, one deeper: it is 13 for
/// its place directory, which is deeper too, and not for its own state. Else: for its state; the number
/// is the same.
#[test]
fn equal_stamps_with_another_depth() {
    let table = receiver();
    let deeper = forged(&pushed(&sender(), X, 1), 3, |push| {
        let above = Head {
            id: THIRD,
            ..push.heads[1]
        };
        push.heads[0].depth = 3;
        push.heads[1].depth = 2;
        push.heads[1].place.directory = THIRD;
        push.heads.push(above);
    });
    let push = Push::read(&deeper, 3).expect("a push");
    let ours = *read(&table).head(X).expect("held");
    let theirs = push.heads[0];
    assert_eq!((theirs.stamp, theirs.place), (ours.stamp, ours.place));
    assert_eq!((theirs.depth, ours.depth), (3, 2));
    assert_eq!(outcome(&read(&table), 9, &push), Err(Odds::Place));
    assert_eq!(received(&table, &deeper), Err(13));
    // With a greater or a smaller stamp it is the same: the directory is what differs.
    for clock in [1, 9] {
        let other = forged(&deeper, 3, |push| push.heads[0].stamp = stamp(clock, 2));
        assert_eq!(received(&table, &other), Err(13));
    }
    // Under the root there is no other depth: a head with the root as its place has depth 1.
    let in_root = forged(&pushed(&sender(), D, 1), 3, |push| push.heads[0].depth = 2);
    assert_eq!(received(&table, &in_root), Err(4));
}

/// (f) looks at each slot when it comes to it. /p is told dead while /p/q, /p/f and /p/q/g live: q
/// brings p back, and when f's slot comes, p lives. Else, if (f) looked before it began: p would be
/// made live for q and again for f, with two clocks, and its version would still be raised once.
#[test]
fn a_place_made_live_by_a_slot_before() {
    let mut table = fresh(1, 2);
    let p = make(&mut table, 1, ROOT, DIRECTORY, "p", 3);
    let q = make(&mut table, 2, p, DIRECTORY, "q", 3);
    let f = make(&mut table, 3, p, FILE, "f", 3);
    let g = make(&mut table, 4, q, FILE, "g", 3);
    let before = read(&table);
    let dead = forged(&pushed(&table, p, 2), 2, |push| {
        (push.from, push.to) = (2, 1);
        push.heads[0].live = false;
        push.heads[0].stamp = stamp(30, 2);
        push.entries.clear();
    });
    let after = received(&table, &dead).expect("received");
    let head = after.head(p).expect("held");
    assert_eq!((head.live, head.stamp), (true, stamp(31, 1)));
    assert_eq!(after.highest, 31);
    for id in [q, f, g] {
        assert_eq!(after.head(id), before.head(id));
    }
}

/// The same where a directory that was dead when (f) began lives when its slot comes: /p and /p/q
/// are dead, and a live file of /p/q, in a slot before both, brings back p and then q. When q's slot
/// comes, it is live, and so is p: no third clock. So it is in whatever order the slots stand.
#[test]
fn a_directory_made_live_before_its_slot() {
    let mut cluster = Cluster::fresh(2);
    let branch = chain(cluster.at(1), 2);
    let g = make(cluster.at(1), 1, branch[1], FILE, "g", 3);
    cluster.quiet(1);
    assert_eq!(unlink(cluster.at(1), 1, g.into()), done(0));
    for &directory in branch.iter().rev() {
        assert_eq!(remove(cluster.at(1), 1, directory.into()), done(0));
    }
    let elsewhere = cluster.at(2).clone();
    let lives = forged(&pushed(cluster.at(1), g, 2), 2, |push| {
        (push.from, push.to) = (2, 1);
        let tree = read(&elsewhere);
        push.heads = push
            .heads
            .iter()
            .map(|head| *tree.head(head.id).expect("held"))
            .collect();
        push.heads[0].stamp = stamp(40, 2);
    });
    let turned = edited(cluster.at(1), |t| t.replicas[1..].reverse());
    for table in [cluster.at(1).clone(), turned] {
        let after = received(&table, &lives).expect("received");
        let stamps = branch.iter().map(|&id| after.head(id).expect("held").stamp);
        let stamps: Vec<u64> = stamps.collect();
        assert_eq!(stamps, [stamp(41, 1), stamp(42, 1)]);
        assert_eq!(after.highest, 42);
    }
}
