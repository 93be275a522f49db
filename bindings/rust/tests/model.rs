//! The library through this crate beside the second program (`model/`): the same requests on both,
//! answers, tables and outputs compared byte for byte.

#[path = "common/asked.rs"]
mod asked;

use asked::by_library;
use rumbezalo::{Clock, Kind, Name, Refusal, Table};
use rumbezalo_model::asked::Call;
use rumbezalo_model::bytes::get_u64;
use rumbezalo_model::calls::Service;
use rumbezalo_model::records as model;
use rumbezalo_model::requests::{generate, Options, HEADER, LOAD, POKE, SLOTS};
use rumbezalo_model::table::judge;
use rumbezalo_model::variant::Variant;

/// The request at the start of a stream: its header and its payload.
fn split(stream: &[u8]) -> (&[u8], &[u8], &[u8]) {
    let (header, rest) = stream.split_at(HEADER);
    let (payload, rest) = rest.split_at(get_u64(header, 56) as usize);
    (header, payload, rest)
}

/// A table is read here as the second program reads it, and refused where it is not sound there.
fn read(bytes: &[u8]) {
    let Some(theirs) = judge(bytes) else {
        assert_eq!(Table::from_bytes(bytes), Err(Refusal::Unsound));
        return;
    };
    let ours = Table::from_bytes(bytes).expect("a sound table");
    let header = (ours.node().number(), ours.n(), ours.highest_clock());
    let highest = Clock::try_from(theirs.highest).expect("a clock");
    assert_eq!(header, (theirs.own, theirs.n, highest));
    assert_eq!(ours.replicas().count(), theirs.replicas.len());
    for (replica, expected) in ours.replicas().zip(&theirs.replicas) {
        let head = &expected.head;
        assert_eq!(replica.kind == Kind::File, head.kind == model::Kind::File);
        assert_eq!(replica.live, head.live);
        assert_eq!(replica.id.number(), head.id);
        assert_eq!(replica.stamp.number(), head.stamp);
        assert_eq!(replica.holders.bits(), head.holders);
        assert_eq!(replica.depth, head.depth);
        match replica.place {
            None => assert_eq!(head.id, 0),
            Some(place) => {
                assert_eq!(place.directory.number(), head.place.directory);
                same_name(place.name, head.place.name);
            }
        }
        assert_eq!(u64::from(replica.version), expected.version);
        assert_eq!(replica.pending.bits(), expected.pending);
    }
    assert_eq!(ours.entries().count(), theirs.entries.len());
    for (listed, expected) in ours.entries().zip(&theirs.entries) {
        assert_eq!(listed.directory.number(), expected.directory);
        assert_eq!(listed.entry.live, expected.entry.live);
        assert_eq!(listed.entry.child.number(), expected.entry.child);
        assert_eq!(listed.entry.stamp.number(), expected.entry.stamp);
        same_name(listed.entry.name, expected.entry.name);
    }
}

fn same_name(ours: Name, theirs: model::Name) {
    let used = usize::from(theirs.length);
    assert_eq!(ours.as_bytes(), &theirs.bytes[..used]);
}

/// Requests on eight tables from a seed: honest traffic, and calls aimed at every answer that can
/// be reached. Answers how many calls were made.
fn compare(seed: u64, count: u64) -> usize {
    let stream = generate(&Options {
        seed,
        count,
        codes: (1..=11).collect(),
        malformed: None,
    });
    let stream = stream.expect("a stream");
    let second = Service {
        variant: Variant::Right,
    };
    let mut tables: [Vec<u8>; SLOTS] = Default::default();
    let mut made = 0;
    let mut rest = &stream.requests[..];
    while !rest.is_empty() {
        let (header, payload, after) = split(rest);
        rest = after;
        let table = &mut tables[usize::from(header[1])];
        let numbers = [8, 16, 24, 32, 40].map(|at| get_u64(header, at));
        match header[0] {
            LOAD => *table = payload.to_vec(),
            POKE => table[numbers[0] as usize..][..payload.len()].copy_from_slice(payload),
            code => {
                let room = get_u64(header, 48) as usize;
                let Some(call) = Call::with(code, numbers, payload.to_vec(), room) else {
                    continue;
                };
                let (mut theirs, mut their_out) = (table.clone(), vec![0xA5; room]);
                let mut out = their_out.clone();
                let expected = call.make(&second, &mut theirs, &mut their_out);
                let answer = by_library(&call, table, &mut out);
                let both = (answer.number, answer.value);
                assert_eq!(both, (expected.number, expected.value), "{call:?}");
                assert!(*table == theirs, "{call:?} leaves another table");
                assert!(out == their_out, "{call:?} leaves another output");
                read(table);
                made += 1;
            }
        }
    }
    let missing = stream.tally().missing(&(1..=11).collect::<Vec<_>>());
    assert!(missing.is_empty(), "answers not met: {missing:?}");
    made
}

#[test]
fn the_library_answers_as_the_second_program() {
    let made: usize = (1..=3).map(|seed| compare(seed, 3000)).sum();
    assert!(made > 5000, "{made} calls");
}
