//! Tables and messages made by hand, of honest ones: tables that break one rule, or are sound at
//! the limits; pushes that are malformed in one way, or at odds with a table in one way, or
//! well-formed though no node wrote them.
//!
//! What is aimed at one rule is consistent in all else where it can be, and is handed back only if
//! that rule is the one it breaks.

pub mod messages;
pub mod tables;

use crate::random::Random;
use crate::records::{id, stamp, Name, LAST_CLOCK, LAST_COUNT};
use crate::table::Table;

/// Sixteen bytes that are no name, bad in any of the ways there are.
fn bad_name(random: &mut Random) -> [u8; 16] {
    let mut bytes = *b"\x05names\0\0\0\0\0\0\0\0\0\0";
    match random.below(7) {
        0 => bytes[0] = 0,
        1 => bytes[0] = random.within(16..=255) as u8,
        2 => bytes[1 + random.index(5)] = 0x00,
        3 => bytes[1 + random.index(5)] = 0x2F,
        4 => bytes[6 + random.index(10)] = 1,
        5 => bytes[..7].copy_from_slice(b"\x01.\0\0\0\0\0"),
        _ => bytes[..7].copy_from_slice(b"\x02..\0\0\0\0"),
    }
    bytes
}

/// One of few names.
pub fn some_name(random: &mut Random) -> Name {
    let texts = [&b"a"[..], b"...", b"fifteen letters", b"name 4", b"planted"];
    let text = random.pick(&texts);
    Name::from_bytes(text).unwrap_or(Name::root())
}

/// An id that the table doesn't hold, of any node's making.
pub fn unheld(random: &mut Random, table: &Table) -> u32 {
    loop {
        let maker = random.within(1..=table.n.into()) as u8;
        let count = match random.chance(70) {
            true => random.within(1..=99),
            false => random.within(1..=LAST_COUNT),
        };
        let id = id(maker, count);
        if table.find(id).is_none() {
            return id;
        }
    }
}

/// A number that is no id in a cluster of N nodes.
fn no_id(random: &mut Random, n: u8) -> u32 {
    let maker = random.pick(&[0, n + 1, 255]);
    match random.chance(50) {
        true => id(maker, random.within(1..=LAST_COUNT)),
        false => id(random.within(1..=n.into()) as u8, 0),
    }
}

/// A stamp whose clock the table has seen, which then has seen one at least.
fn seen_stamp(random: &mut Random, table: &mut Table) -> u64 {
    table.highest = table.highest.max(1);
    let node = random.within(1..=table.n.into()) as u8;
    stamp(random.within(1..=table.highest), node)
}

/// Eight bytes that are no stamp in a cluster of N nodes.
fn no_stamp(random: &mut Random, n: u8) -> u64 {
    let clock = random.within(1..=LAST_CLOCK);
    match random.below(4) {
        0 => stamp(clock, 0),
        1 => stamp(clock, n + 1),
        2 => stamp(0, 1),
        _ => stamp(LAST_CLOCK + 1, 1),
    }
}

/// A byte with a bit above N, if there can be one.
fn no_set(random: &mut Random, n: u8) -> Option<u8> {
    let above = (n < 8).then(|| 1 << random.within(n.into()..=7))?;
    Some(above | random.byte())
}
