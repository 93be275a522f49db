//! Requests and their answers: the format to the byte, and two ways to the same answers.

use rumbezalo_model::answer::serve;
use rumbezalo_model::asked::Call;
use rumbezalo_model::bytes::get_u64;
use rumbezalo_model::calls::Service;
use rumbezalo_model::records::{LAST_CLOCK, LAST_COUNT};
use rumbezalo_model::requests::{adler32, generate, Options, Stream, HEADER, MALFORMED};
use rumbezalo_model::steps::Bound;
use rumbezalo_model::table::Table;
use rumbezalo_model::variant::Variant;

const ALL: [u8; 11] = [1, 2, 3, 4, 5, 6, 7, 8, 9, 10, 11];

fn stream(seed: u64, count: u64, codes: &[u8], malformed: Option<&str>) -> Stream {
    let options = Options {
        seed,
        count,
        codes: codes.to_vec(),
        malformed: malformed.map(str::to_string),
    };
    generate(&options).expect("a stream")
}

/// What the model answers as the program `calls`.
fn served(mut requests: &[u8], codes: &[u8]) -> Vec<u8> {
    let mut answers = Vec::new();
    serve(&mut requests, &mut answers, codes).expect("memory");
    answers
}

/// The codes of a stream, read off its headers.
fn codes(mut requests: &[u8]) -> Vec<u8> {
    let mut codes = Vec::new();
    while !requests.is_empty() {
        codes.push(requests[0]);
        requests = &requests[HEADER + get_u64(requests, 56) as usize..];
    }
    codes
}

#[test]
fn adler_32_of_known_strings() {
    assert_eq!(adler32(b""), 1);
    assert_eq!(adler32(b"a"), 0x0062_0062);
    assert_eq!(adler32(b"Wikipedia"), 0x11E6_0398);
    assert_eq!(adler32(&[0xFF; 13_344]), 0xF834_EEDE);
}

/// A load, a start, a create, a list and a poke, written out by hand.
#[test]
fn the_format_to_the_byte() {
    let request = |code: u8, numbers: [u64; 5], room: u64, payload: &[u8]| {
        let mut bytes = vec![code, 3, 0, 0, 0, 0, 0, 0];
        for number in numbers.into_iter().chain([room, payload.len() as u64]) {
            bytes.extend(number.to_le_bytes());
        }
        bytes.extend(payload);
        bytes
    };
    let requests = [
        request(11, [0; 5], 0, b""),
        request(32, [0; 5], 0, &[7; 13_344]),
        request(1, [2, 3, 0, 0, 0], 0, b""),
        request(2, [9, 0, 1, 4, 0], 0, b"a"),
        request(7, [0; 5], 33, b""),
        request(33, [13_343, 0, 0, 0, 0], 0, &[1]),
        request(11, [0; 5], 0, b""),
        request(34, [0; 5], 0, b""),
    ];
    let answers = served(&requests.concat(), &ALL);
    let heads = [0, 16, 32, 48, 64, 64 + 49, 64 + 65, 64 + 81];
    let head = |at: usize| {
        let word = |from: usize| {
            let bytes = &answers[heads[at] + from..][..4];
            u32::from_le_bytes(bytes.try_into().expect("four bytes"))
        };
        (word(0), word(4), word(8), word(12))
    };
    assert_eq!(head(0), (1, 0, 1, 0));
    assert_eq!(head(1), (0, 0, adler32(&[7; 13_344]), 0));
    assert_eq!((head(2).0, head(2).1), (0, 0));
    assert_eq!((head(3).0, head(3).1), (0, 33_554_433));
    assert_eq!((head(4).0, head(4).1, head(4).2), (0, 1, head(3).2));
    let entry = &answers[80..113];
    assert_eq!(entry[..8], [0x45, 0x4E, 1, 0, 1, 0, 0, 2]);
    assert_eq!(entry[8..18], [2, 9, 0, 0, 0, 0, 0, 0, 1, b'a']);
    assert_eq!(entry[32], 0xA5);
    assert_eq!((head(5).0, head(5).1), (0, 0));
    assert_eq!((head(6).0, head(6).1), (1, 0));
    assert_eq!((head(7).0, head(7).1), (0, 13_344));
    let table = &answers[heads[7] + 16..];
    assert_eq!((table.len(), table[13_343]), (13_344, 1));
    assert_eq!(adler32(table), head(7).2);
}

#[test]
fn a_stream_covers_all_that_can_be_reached() {
    for seed in [1, 2, 3] {
        let stream = stream(seed, 3_000, &ALL, None);
        assert_eq!(stream.count(), 3_000);
        assert_eq!(stream.tally().missing(&ALL), []);
        assert_eq!(stream.missing_bounds(&ALL), []);
        assert!(stream.requests.len() < 1_000_000 && stream.answers.len() < 1_000_000);
        assert!(
            served(&stream.requests, &ALL) == stream.answers,
            "seed {seed}"
        );
    }
}

#[test]
fn a_stream_asks_only_for_some_calls() {
    let subsets: [&[u8]; 6] = [&[1], &[1, 6, 7], &[11], &[2, 3, 4, 5], &[9], &[8, 10]];
    for allowed in subsets {
        let stream = stream(4, 700, allowed, None);
        assert_eq!(stream.tally().missing(allowed), []);
        assert_eq!(stream.missing_bounds(allowed), []);
        let asked = codes(&stream.requests);
        assert_eq!(asked.len(), 700);
        let right = |code: &u8| allowed.contains(code) || (32..=34).contains(code);
        assert!(asked.iter().all(right), "{allowed:?}");
        assert!(served(&stream.requests, allowed) == stream.answers);
        assert!(served(&stream.requests, &ALL) == stream.answers);
    }
}

/// A call is refused for one bound alone, or for two, or for something else.
#[test]
fn the_bound_that_a_call_is_refused_for() {
    let service = Service {
        variant: Variant::Right,
    };
    let table = |highest: u64, next: u64| {
        let fresh = Table::fresh(1, 2);
        let table = Table {
            highest,
            next,
            ..fresh
        };
        table.bytes()
    };
    let create = |name: &[u8]| Call::Create {
        now: 0,
        directory: 0,
        kind: 1,
        name: name.to_vec(),
        set: 0,
    };
    let bound = |bytes: &[u8], name: &[u8]| create(name).bound(&service, bytes);
    let spent = LAST_COUNT + 1;
    assert_eq!(bound(&table(0, 1), b"a"), None);
    assert_eq!(bound(&table(LAST_CLOCK, 1), b"a"), Some(Bound::Clock));
    assert_eq!(bound(&table(0, spent), b"a"), Some(Bound::Count));
    assert_eq!(bound(&table(LAST_CLOCK, spent), b"a"), None);
    assert_eq!(bound(&table(LAST_CLOCK, 1), b".."), None);
}

#[test]
fn one_seed_gives_one_stream() {
    let (once, again) = (stream(9, 300, &ALL, None), stream(9, 300, &ALL, None));
    assert!(once.requests == again.requests && once.answers == again.answers);
    assert!(once.requests != stream(10, 300, &ALL, None).requests);
}

#[test]
fn a_malformed_request_ends_a_stream() {
    let plain = stream(6, 100, &ALL, None);
    for what in MALFORMED {
        let stream = stream(6, 100, &ALL, Some(what));
        let answers = [&plain.answers[..], &[0xFF; 16]].concat();
        assert!(stream.answers == answers, "{what}");
        assert!(served(&stream.requests, &ALL) == answers, "{what}");
        let more = [&stream.requests[..], &plain.requests].concat();
        if !["header", "cut"].contains(&what) {
            assert!(served(&more, &ALL) == answers, "{what}, and more behind it");
        }
    }
    let unknown = served(&plain.requests, &[1]);
    assert!(unknown.ends_with(&[0xFF; 16]), "a code that isn't known");
}
