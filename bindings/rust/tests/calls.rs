//! Each call, done and refused. A refusal leaves every byte of the table as it was.

mod common;

use common::{at, both, deliver, make, name, node, two_tables};
use rumbezalo::Kind::{Directory, File};
use rumbezalo::{calls, Clock, Id, Nodes, Refusal, Stamp, Table};

/// Makes a call that must be refused, and holds the table to what it was.
fn refused<T: std::fmt::Debug>(
    table: &mut Table,
    refusal: Refusal,
    call: impl FnOnce(&mut Table) -> Result<T, Refusal>,
) {
    let before = table.clone();
    let answer = call(table).map(drop);
    assert_eq!(answer, Err(refusal));
    assert!(*table == before, "{refusal} changed the table");
}

/// Node 1's table with /d and /d/f, and node 2's, which has heard nothing; with their ids.
fn one_file() -> ([Table; 2], Id, Id) {
    let mut tables = two_tables();
    let d = make(&mut tables[0], 1, Id::ROOT, Directory, "d");
    let f = make(&mut tables[0], 2, d, File, "f");
    (tables, d, f)
}

#[test]
fn start() {
    let table = Table::start(node(2), 3).expect("a table");
    assert_eq!((table.node(), table.n()), (node(2), 3));
    assert_eq!(table.highest_clock(), at(0));
    assert_eq!((table.pending(), table.due()), (Ok(0), vec![]));
    assert_eq!(table.entries().count(), 0);
    let root = table.replicas().next().expect("the root");
    assert_eq!((root.id, root.kind, root.live), (Id::ROOT, Directory, true));
    // P12
    assert_eq!(root.holders, Nodes::up_to(node(3)));
    assert_eq!((root.stamp, root.place), (Stamp::ROOT, None));
    assert_eq!(table.replicas().count(), 1);

    let out = Some(Refusal::OutOfRange);
    assert_eq!(Table::start(node(3), 2).err(), out);
    assert_eq!(Table::start(node(1), 0).err(), out);
    assert_eq!(Table::start(node(1), 9).err(), out);
}

#[test]
fn tables_are_saved_and_brought_back() {
    let ([one, _], _, f) = one_file();
    let saved = one.as_bytes().to_vec();
    let back = Table::from_bytes(&saved).expect("a sound table");
    assert_eq!(back, one);
    assert_eq!(back.replica(f), one.replica(f));
}

/// A mark or a zero that is damaged makes it no table, and so does another length.
#[test]
fn damaged_tables_are_refused() {
    let ([one, _], _, _) = one_file();
    let sound = one.as_bytes();
    let unsound = |bytes: &[u8]| {
        assert_eq!(Table::from_bytes(bytes).err(), Some(Refusal::Unsound));
        assert_eq!(calls::pending(bytes).done(), Err(Refusal::Unsound));
    };
    for mark in [0, 1, 32, 33, 32 + 48, 32 + 64 * 48, Table::SIZE - 1] {
        let mut damaged = sound.to_vec();
        damaged[mark] ^= 1;
        unsound(&damaged);
        let before = damaged.clone();
        assert_eq!(calls::unlink(&mut damaged, 9, 0).number, 1);
        assert_eq!(damaged, before);
    }
    unsound(&[]);
    unsound(&sound[1..]);
    unsound(&[sound.as_slice(), &[0]].concat());
}

#[test]
fn create() {
    let ([mut one, _], d, f) = one_file();
    assert_eq!(d, Id::made_by(node(1), 1).expect("an id"));
    assert_eq!(f, Id::made_by(node(1), 2).expect("an id"));
    let file = one.replica(f).expect("held");
    assert_eq!((file.kind, file.live, file.depth), (File, true, 2));
    assert_eq!(file.stamp, Stamp::new(at(2), node(1)).expect("a stamp"));
    assert_eq!((file.holders, file.pending), (both(), Nodes::from(node(2))));
    let place = file.place.expect("a place");
    assert_eq!((place.directory, place.name), (d, name("f")));

    let own = one.create(at(3), Id::ROOT, File, name("own"), Nodes::NONE);
    let own = one.replica(own.expect("created")).expect("held");
    assert_eq!(
        (own.holders, own.pending),
        (Nodes::from(node(1)), Nodes::NONE)
    );

    let third = Nodes::from(node(3));
    let none = Id::made_by(node(2), 1).expect("an id");
    let (g, now) = (name("g"), at(4));
    refused(&mut one, Refusal::OutOfRange, |t| {
        t.create(now, d, File, g, third)
    });
    refused(&mut one, Refusal::NotHeld, |t| {
        t.create(now, none, File, g, both())
    });
    refused(&mut one, Refusal::WrongKind, |t| {
        t.create(now, f, File, g, both())
    });
    refused(&mut one, Refusal::NameTaken, |t| {
        t.create(now, d, File, name("f"), both())
    });
    let e = make(&mut one, 5, d, Directory, "e");
    one.remove(at(6), e).expect("removed");
    refused(&mut one, Refusal::Dead, |t| {
        t.create(now, e, File, g, both())
    });
}

#[test]
fn create_down_to_depth_sixteen() {
    let [mut one, _] = two_tables();
    let mut deepest = Id::ROOT;
    for depth in 1..=16 {
        deepest = make(&mut one, depth, deepest, Directory, "d");
    }
    assert_eq!(one.replica(deepest).expect("held").depth, 16);
    refused(&mut one, Refusal::TooDeep, |t| {
        t.create(at(17), deepest, File, name("f"), both())
    });
}

#[test]
fn create_until_there_is_no_room() {
    let [mut one, _] = two_tables();
    for count in 0..32 {
        make(&mut one, 1, Id::ROOT, File, &format!("f{count}"));
    }
    assert_eq!(one.list(Id::ROOT).expect("listed").len(), 32);
    refused(&mut one, Refusal::Full, |t| {
        t.create(at(1), Id::ROOT, File, name("f32"), both())
    });
}

#[test]
fn no_clock_is_left() {
    let [mut one, _] = two_tables();
    let made = one.create(Clock::LAST, Id::ROOT, File, name("f"), both());
    let f = made.expect("created");
    assert_eq!(one.highest_clock(), Clock::LAST);
    refused(&mut one, Refusal::AtEnd, |t| t.unlink(at(1), f));
}

#[test]
fn unlink() {
    let ([mut one, _], d, f) = one_file();
    let none = Id::made_by(node(1), 3).expect("an id");
    refused(&mut one, Refusal::NotHeld, |t| t.unlink(at(3), none));
    refused(&mut one, Refusal::WrongKind, |t| t.unlink(at(3), d));
    one.unlink(at(3), f).expect("unlinked");
    assert!(!one.replica(f).expect("held").live);
    assert_eq!(one.list(d), Ok(vec![]));
    refused(&mut one, Refusal::Dead, |t| t.unlink(at(4), f));
}

#[test]
fn rename() {
    let ([mut one, _], d, f) = one_file();
    refused(&mut one, Refusal::NameTaken, |t| {
        t.rename(at(3), f, d, name("f"))
    });
    refused(&mut one, Refusal::WrongKind, |t| {
        t.rename(at(3), d, d, name("g"))
    });
    one.rename(at(3), f, Id::ROOT, name("g")).expect("renamed");
    let shown = one.list(Id::ROOT).expect("listed");
    let names: Vec<_> = shown.iter().map(|entry| entry.name).collect();
    assert_eq!(names, [name("d"), name("g")]);
    assert_eq!(shown[1].child, f);
    let struck = one.entries().find(|listed| listed.directory == d);
    assert!(!struck.expect("an entry").entry.live);
}

#[test]
fn remove() {
    let ([mut one, _], d, f) = one_file();
    refused(&mut one, Refusal::NotEmpty, |t| t.remove(at(3), d));
    refused(&mut one, Refusal::WrongKind, |t| t.remove(at(3), Id::ROOT));
    one.unlink(at(3), f).expect("unlinked");
    one.remove(at(4), d).expect("removed");
    refused(&mut one, Refusal::Dead, |t| t.list(d));
}

/// P10: "at node 1, holders 03 with 05: 07, pending 06"
#[test]
fn p10_spread() {
    let mut one = Table::start(node(1), 3).expect("a table");
    let f = make(&mut one, 1, Id::ROOT, File, "f");
    let one_and_three = Nodes::from([node(1), node(3)]);
    one.spread(f, one_and_three).expect("spread");
    let file = one.replica(f).expect("held");
    assert_eq!((file.holders.bits(), file.pending.bits()), (7, 6));
    let before = one.clone();
    one.spread(f, one_and_three).expect("done, and nothing new");
    assert_eq!(one, before);
    let fourth = Nodes::from(node(4));
    refused(&mut one, Refusal::OutOfRange, |t| t.spread(f, fourth));
}

#[test]
fn list() {
    let ([mut one, _], d, f) = one_file();
    let shown = one.list(d).expect("listed");
    assert_eq!(shown.len(), 1);
    let entry = shown[0];
    assert_eq!((entry.live, entry.child, entry.name), (true, f, name("f")));
    assert_eq!(entry.stamp.number(), 2 * 256 + 1);
    assert_eq!(entry.name.to_string(), "f");
    refused(&mut one, Refusal::WrongKind, |t| t.list(f));
    // The library itself, with a buffer of the caller's: too short by one.
    let mut out = [0xA5; 31];
    let answer = calls::list(one.as_bytes(), d.number().into(), &mut out);
    assert_eq!(answer.done(), Err(Refusal::ShortOutput));
    assert_eq!(out, [0xA5; 31]);
}

/// P5: "push of a file at depth 1: 56 bytes; [..] root with 32 entries: 1,080"
#[test]
fn p5_push() {
    let [mut one, _] = two_tables();
    let f = make(&mut one, 1, Id::ROOT, File, "f");
    assert_eq!(one.push(f, node(2)).expect("pushed").len(), 56);
    for count in 1..32 {
        make(&mut one, 1, Id::ROOT, File, &format!("f{count}"));
    }
    assert_eq!(one.push(Id::ROOT, node(2)).expect("pushed").len(), 1080);
    assert_eq!(one.pending(), Ok(33));
    assert_eq!(one.due().len(), 33);
    refused(&mut one, Refusal::OutOfRange, |t| t.push(f, node(1)));
    refused(&mut one, Refusal::OutOfRange, |t| t.push(f, node(3)));
    let none = Id::made_by(node(2), 1).expect("an id");
    refused(&mut one, Refusal::NotHeld, |t| t.push(none, node(2)));
}

#[test]
fn receive() {
    let ([one, mut two], d, f) = one_file();
    let message = one.push(f, node(2)).expect("pushed");
    let short = &message[..message.len() - 1];
    refused(&mut two, Refusal::Malformed, |t| t.receive(at(3), short));
    let back = two.receive(at(3), &message).expect("received");
    // "mark 41 4B: from, to, version u32, id u32, four zeros", the id 16777218
    assert_eq!(back, [0x41, 0x4B, 2, 1, 1, 0, 0, 0, 2, 0, 0, 1, 0, 0, 0, 0]);
    assert_eq!(two.list(d), one.list(d));
    // P9: equal stamps, and another state.
    let mut forged = message.clone();
    forged[16 + 3] = 0;
    refused(&mut two, Refusal::AtOdds, |t| t.receive(at(3), &forged));
    let mut sender = one.clone();
    refused(&mut sender, Refusal::NotAddressed, |t| {
        t.receive(at(3), &message)
    });
}

#[test]
fn acknowledged() {
    let ([mut one, mut two], _, f) = one_file();
    let message = one.push(f, node(2)).expect("pushed");
    let back = two.receive(at(3), &message).expect("received");
    refused(&mut one, Refusal::Malformed, |t| {
        t.acknowledged(&back[..15])
    });
    refused(&mut two, Refusal::NotAddressed, |t| t.acknowledged(&back));
    // P11: a change since the push has still to be told.
    let before = one.clone();
    one.unlink(at(4), f).expect("unlinked");
    refused(&mut one, Refusal::NotCurrent, |t| t.acknowledged(&back));
    one = before;
    assert_eq!(one.pending(), Ok(3));
    one.acknowledged(&back).expect("acknowledged");
    assert_eq!(one.pending(), Ok(2));
    refused(&mut one, Refusal::NotCurrent, |t| t.acknowledged(&back));
    refused(&mut one, Refusal::NotPending, |t| t.push(f, node(2)));
}

#[test]
fn pending() {
    let (mut tables, d, f) = one_file();
    assert_eq!(tables[0].pending(), Ok(3));
    let due = [(Id::ROOT, node(2)), (d, node(2)), (f, node(2))];
    assert_eq!(tables[0].due(), due);
    deliver(&mut tables, 0, d, 3);
    assert_eq!(tables[0].due(), [due[0], due[2]]);
}

/// Tables go from thread to thread, and calls on different ones run side by side.
#[test]
fn tables_in_threads() {
    let threads = [1, 2].map(|number| {
        std::thread::spawn(move || {
            let mut table = Table::start(node(number), 2).expect("a table");
            for count in 0..20 {
                make(&mut table, count, Id::ROOT, File, &format!("f{count}"));
            }
            table
        })
    });
    for thread in threads {
        let table = thread.join().expect("no panic");
        assert_eq!(table.list(Id::ROOT).expect("listed").len(), 20);
    }
}
