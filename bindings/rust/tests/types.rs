//! The types: ranges, orders and words. The examples of document 01 have their names, P1 and so on.

mod common;

use common::{at, name, node};
use rumbezalo::{calls, Clock, Id, Kind, Name, Node, Nodes, Refusal, Stamp, Table};
use std::collections::BTreeSet;
use std::error::Error;

#[test]
fn nodes_are_one_to_eight() {
    for number in 0..=u8::MAX {
        let expected = (1..=8).contains(&number);
        let made = Node::try_from(number);
        assert_eq!(made.is_ok(), expected, "node {number}");
        if let Ok(node) = made {
            assert_eq!(node.number(), number);
            assert_eq!(node.to_string(), number.to_string());
        }
    }
    assert_eq!(Node::try_from(0), Err(Refusal::OutOfRange));
}

#[test]
fn sets_have_a_bit_for_each_node() {
    let set = Nodes::from([node(1), node(3)]);
    assert_eq!(set.bits(), 0b101);
    assert_eq!(set.len(), 2);
    assert!(set.contains(node(3)) && !set.contains(node(2)));
    assert_eq!(set.union(Nodes::from(node(2))), Nodes::up_to(node(3)));
    assert_eq!(set.without(node(1)), Nodes::from(node(3)));
    assert_eq!(set.iter().collect::<Vec<_>>(), [node(1), node(3)]);
    assert_eq!(set.to_string(), "{1, 3}");
    assert!(Nodes::NONE.is_empty() && !set.is_empty());
    assert_eq!(Nodes::up_to(node(8)).bits(), 0xFF);
    for bits in 0..=u8::MAX {
        let set = Nodes::from_bits(bits);
        assert_eq!(set.iter().collect::<Nodes>(), set);
    }
}

#[test]
fn p3_ids() {
    let first = Id::made_by(node(2), 1).expect("an id");
    assert_eq!(first.number(), 33_554_433);
    assert_eq!(Id::try_from(33_554_433), Ok(first));
    assert_eq!((first.maker(), first.count()), (Some(node(2)), 1));
    assert_eq!((Id::ROOT.maker(), Id::ROOT.count()), (None, 0));
    assert_eq!(Id::try_from(0), Ok(Id::ROOT));
    let last = Id::made_by(node(8), 16_777_215).expect("an id");
    assert_eq!(last.count(), 16_777_215);
    let out = Err(Refusal::OutOfRange);
    assert_eq!(Id::made_by(node(1), 0), out);
    assert_eq!(Id::made_by(node(1), 16_777_216), out);
    assert_eq!(Id::try_from(1), out);
    assert_eq!(Id::try_from(16_777_216), out);
    assert_eq!(Id::try_from(9 << 24 | 1), out);
}

#[test]
fn p1_p2_stamps() {
    let stamp = |clock, by| Stamp::new(at(clock), node(by)).expect("a stamp");
    assert_eq!(stamp(12, 1).number(), 3073);
    assert_eq!(stamp(12, 2).number(), 3074);
    assert!(stamp(12, 2) > stamp(12, 1));
    assert_eq!(stamp(13, 1).number(), 3329);
    assert_eq!(stamp(12, 8).number(), 3080);
    assert!(stamp(13, 1) > stamp(12, 8));
    assert!(stamp(1, 1) > Stamp::ROOT);
    assert_eq!(stamp(12, 2).clock(), at(12));
    assert_eq!(stamp(12, 2).node(), Some(node(2)));
    assert_eq!(Stamp::ROOT.node(), None);
    assert_eq!(Stamp::new(at(0), node(1)), Err(Refusal::OutOfRange));
}

#[test]
fn clocks_end_at_two_to_the_forty() {
    assert_eq!(Clock::LAST.number(), 1_099_511_627_775);
    assert_eq!(Clock::try_from(1_099_511_627_775_u64), Ok(Clock::LAST));
    let out = Err(Refusal::OutOfRange);
    assert_eq!(Clock::try_from(1_099_511_627_776_u64), out);
    assert!(at(u32::MAX) < Clock::LAST);
}

#[test]
fn p6_p7_names() {
    for text in ["...", "a", " ", "fifteen bytes !", "ä", ".a"] {
        let name = Name::try_from(text).expect("a name");
        assert_eq!(name.as_bytes(), text.as_bytes());
        assert_eq!(name.to_string(), text);
        assert_eq!(text.parse(), Ok(name));
    }
    for text in ["", ".", "..", "a/b", "a\0", "sixteen bytes !!"] {
        let none: Result<Name, Refusal> = text.parse();
        assert_eq!(none, Err(Refusal::OutOfRange), "{text:?}");
    }
    assert!(name("a") < name("aa") && name("aa") < name("b"));
    let bytes = Name::try_from(&b"\xFFx"[..]).expect("a name");
    assert_eq!(bytes.to_string(), "\u{FFFD}x");
    assert_eq!(format!("{bytes:?}"), r#""\xffx""#);
}

/// What is a name here is one to the library too.
#[test]
fn names_are_those_of_the_library() {
    let fresh = Table::start(node(1), 1).expect("a table");
    let agrees = |bytes: &[u8]| {
        let mut table = fresh.as_bytes().to_vec();
        let taken = calls::create(&mut table, 1, 0, 1, bytes, 0).done();
        let ours = Name::try_from(bytes);
        assert_eq!(ours.is_ok(), taken.is_ok(), "{bytes:?}");
        assert_eq!(ours.err(), taken.err(), "{bytes:?}");
    };
    for first in 0..=u8::MAX {
        agrees(&[first]);
        agrees(&[b'.', first]);
        agrees(&[first, b'.']);
        agrees(&[b'a', first, b'a']);
        agrees(&[[b'a'; 14].as_slice(), &[first]].concat());
    }
    for length in 0..40 {
        agrees(&vec![b'a'; length]);
        agrees(&vec![b'.'; length]);
    }
}

#[test]
fn kinds() {
    assert_eq!((Kind::File.number(), Kind::Directory.number()), (1, 2));
    assert_eq!(Kind::try_from(2), Ok(Kind::Directory));
    assert_eq!(Kind::try_from(3), Err(Refusal::OutOfRange));
    assert_eq!(Kind::File.to_string(), "file");
}

#[test]
fn each_refusal_has_its_number_and_sentence() {
    let mut sentences = BTreeSet::new();
    for (number, refusal) in (1..).zip(Refusal::ALL) {
        assert_eq!(refusal.number(), number);
        assert_eq!(Refusal::from_number(number), Some(refusal));
        let words: Box<dyn Error> = refusal.into();
        assert!(
            sentences.insert(words.to_string()),
            "{refusal} is there twice"
        );
    }
    assert_eq!(sentences.len(), 17);
    assert_eq!(Refusal::from_number(0), None);
    assert_eq!(Refusal::from_number(18), None);
}

/// The header for C says the same sentences.
#[test]
fn the_sentences_are_those_for_c() {
    let header = include_str!("../../../include/rumbezalo.h");
    for refusal in Refusal::ALL {
        let line = format!("case {}: return \"{refusal}\";", refusal.number());
        assert!(header.contains(&line), "{line}");
    }
}
