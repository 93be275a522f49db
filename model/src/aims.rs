//! Calls for a table of a cluster: any call with parameters right and wrong, and calls aimed at one
//! answer, on that table or on one made of it.

use crate::asked::Call;
use crate::calls::Service;
use crate::forge::messages::{self, MALFORMED, ODDS};
use crate::forge::tables::{self, Limit, RULES};
use crate::forge::{some_name, unheld};
use crate::push::Push;
use crate::random::Random;
use crate::records::{all_nodes, Acknowledgement, Entry, Kind, Record, LAST_CLOCK, ROOT};
use crate::table::Table;
use crate::variant::Variant;

/// How often an aim is tried.
const TRIES: u64 = 60;

/// A table's bytes and a call on it.
pub type Aimed = (Vec<u8>, Call);

// ---- any call

/// Any call with this code for a table of a cluster; the other tables write honest pushes.
pub fn some_call(random: &mut Random, tables: &[Table], table: &Table, code: u8) -> Call {
    let now = some_now(random, table);
    let id = some_id(random, table);
    let numbers = match code {
        1 => [some_node(random, 8, 0), some_node(random, 8, 0), 0, 0, 0],
        2 => [now, id, some_kind(random), some_set(random, table.n), 0],
        4 => [now, id, some_id(random, table), 0, 0],
        3 | 5 => [now, id, 0, 0, 0],
        6 => [id, some_set(random, table.n), 0, 0, 0],
        8 => [id, some_node(random, table.n, table.own), 0, 0, 0],
        9 => [now, 0, 0, 0, 0],
        7 => [id, 0, 0, 0, 0],
        _ => [0; 5],
    };
    let bytes = match code {
        2 | 4 => some_text(random, table),
        9 => some_message(random, tables, table),
        10 => some_acknowledgement(random, table),
        _ => Vec::new(),
    };
    let room = some_room(random, table, code, id);
    Call::with(code, numbers, bytes, room).unwrap_or(Call::Pending)
}

fn some_now(random: &mut Random, table: &Table) -> u64 {
    match random.below(30) {
        0 => LAST_CLOCK,
        1 => LAST_CLOCK + 1,
        2 => random.number(),
        3 => 0,
        4 => table.highest.saturating_sub(1),
        5 => table.highest,
        _ => (table.highest + random.below(3)).min(LAST_CLOCK),
    }
}

fn some_id(random: &mut Random, table: &Table) -> u64 {
    let held: Vec<u32> = table.replicas.iter().map(|r| r.head.id).collect();
    match random.below(16) {
        0 => ROOT.into(),
        1 => unheld(random, table).into(),
        2 => random.number(),
        3 => (1 << 32) + u64::from(random.pick(&held)),
        _ => random.pick(&held).into(),
    }
}

fn some_kind(random: &mut Random) -> u64 {
    match random.below(30) {
        0 => random.pick(&[0, 3, 257, u64::MAX]),
        _ => random.within(1..=2),
    }
}

fn some_set(random: &mut Random, n: u8) -> u64 {
    match random.below(30) {
        0 => random.number(),
        1 => 256,
        2 => u64::from(all_nodes(n)) + 1,
        _ => u64::from(random.byte() & all_nodes(n)),
    }
}

fn some_node(random: &mut Random, n: u8, own: u8) -> u64 {
    match random.below(20) {
        0 => 0,
        1 => u64::from(n) + 1,
        2 => u64::from(own),
        3 => 256 + u64::from(n),
        4 => random.number(),
        _ => random.within(1..=n.into()),
    }
}

/// The bytes given for a name: one that stands in the table, one of few, a new one, or none.
fn some_text(random: &mut Random, table: &Table) -> Vec<u8> {
    let there: Vec<&Entry> = table.entries.iter().map(|slot| &slot.entry).collect();
    let bad: [&[u8]; 8] = [
        b"",
        b".",
        b"..",
        b"a/b",
        b"/",
        b"a\0",
        &[b'n'; 16],
        &[1; 300],
    ];
    let name = match random.below(20) {
        0..=7 => random.choose(&there).map_or(some_name(random), |e| e.name),
        8..=13 => some_name(random),
        14..=18 => return format!("new {}", random.below(10_000)).into_bytes(),
        _ => return random.pick(&bad).to_vec(),
    };
    name.bytes[..usize::from(name.length)].to_vec()
}

/// The length of an output buffer: what the call takes, or a little more or less.
fn some_room(random: &mut Random, table: &Table, code: u8, id: u64) -> usize {
    let slot = u32::try_from(id).ok().and_then(|id| table.find(id));
    let needed = match code {
        7 => {
            let live = table.entries_of(id as u32).filter(|entry| entry.live);
            Entry::SIZE * live.count()
        }
        8 => slot.map_or(0, |slot| Push::of(table, slot, 0).write().len()),
        9 => Acknowledgement::SIZE,
        _ => return 0,
    };
    match random.below(10) {
        0 => needed.saturating_sub(1),
        1 => random.index(needed + 1),
        2 => needed + random.index(40),
        _ => needed,
    }
}

fn some_message(random: &mut Random, tables: &[Table], table: &Table) -> Vec<u8> {
    let to = match random.below(10) {
        0 => random.within(1..=table.n.into()) as u8,
        _ => table.own,
    };
    let honest = messages::honest(random, tables, to);
    let forged = messages::forged(random, table);
    let (Some(honest), Some(forged)) = (&honest, &forged) else {
        let either = honest.or(forged).map(|push| push.write());
        return either.unwrap_or_else(|| some_bytes(random));
    };
    let push = if random.chance(50) { honest } else { forged };
    match random.below(10) {
        0 => messages::damaged(random, push),
        1 => {
            let why = random.pick(&MALFORMED);
            let message = messages::malformed(random, push, table.n, why);
            message.unwrap_or_else(|| push.write())
        }
        2 => some_bytes(random),
        _ => push.write(),
    }
}

fn some_bytes(random: &mut Random) -> Vec<u8> {
    let length = random.pick(&[0, 1, 15, 16, 17, 56, 88, 1640, 1641]);
    let mut bytes: Vec<u8> = (0..length).map(|_| random.byte()).collect();
    if bytes.len() > 1 && random.chance(50) {
        bytes[..2].copy_from_slice(b"PU");
    }
    bytes
}

fn some_acknowledgement(random: &mut Random, table: &Table) -> Vec<u8> {
    match random.below(5) {
        0 => messages::malformed_acknowledgement(random, table),
        _ => messages::acknowledgement(random, table).write(),
    }
}

// ---- an aimed call

/// A call with this code that gets this number, on the table of a node or on one made of it, if
/// these tables have what that takes.
pub fn aim(
    random: &mut Random,
    tables: &[Table],
    node: u8,
    code: u8,
    number: u32,
) -> Option<Aimed> {
    (0..TRIES).find_map(|_| {
        let aimed = candidate(random, tables, node, code, number)?;
        (answered(&aimed) == number).then_some(aimed)
    })
}

/// The number that a call gets.
fn answered((bytes, call): &Aimed) -> u32 {
    let service = Service {
        variant: Variant::Right,
    };
    let mut out = vec![0; call.room()];
    call.make(&service, &mut bytes.clone(), &mut out).number
}

fn candidate(
    random: &mut Random,
    tables: &[Table],
    node: u8,
    code: u8,
    number: u32,
) -> Option<Aimed> {
    let table = &tables[usize::from(node) - 1];
    if number == 1 {
        let call = some_call(random, tables, table, code);
        return Some((unsound(random, table, code)?, call));
    }
    if (code, number) == (9, 13) {
        return at_odds(random, tables, table);
    }
    let table = match number {
        11 => tables::at_limit(random, table, Limit::Depth),
        16 => tables::at_limit(random, table, Limit::Slots),
        17 => tables::at_limit(random, table, Limit::Numbers),
        _ => table.clone(),
    };
    let call = match (code, number) {
        (_, 11) => in_deepest(some_call(random, tables, &table, code), &table),
        (9, 4) => Call::Receive {
            now: 0,
            message: malformed(random, tables, &table)?,
            room: Acknowledgement::SIZE,
        },
        (10, 4) => Call::Acknowledged {
            message: messages::malformed_acknowledgement(random, &table),
        },
        _ => some_call(random, tables, &table, code),
    };
    Some((table.bytes(), call))
}

/// The call with the deepest directory for its directory.
fn in_deepest(mut call: Call, table: &Table) -> Call {
    let heads = table.replicas.iter().map(|r| &r.head);
    let live = heads.filter(|head| head.live && head.kind == Kind::Directory);
    let deepest = live.max_by_key(|head| head.depth);
    if let Call::Create { directory, .. } | Call::Rename { directory, .. } = &mut call {
        *directory = deepest.map_or(ROOT, |head| head.id).into();
    }
    call
}

/// The bytes of a table that isn't sound; for start, only its length counts.
fn unsound(random: &mut Random, table: &Table, code: u8) -> Option<Vec<u8>> {
    if code == 1 {
        let length = random.pick(&[0, 1, 32, 300, Table::SIZE - 1, Table::SIZE + 1]);
        let mut bytes = table.bytes();
        bytes.resize(length, 0);
        return Some(bytes);
    }
    let rule = random.pick(&RULES);
    match random.chance(70) {
        true => tables::breaking(random, table, rule),
        false => Some(tables::damaged(random, table)),
    }
}

fn either(random: &mut Random, tables: &[Table], table: &Table) -> Option<Push> {
    let honest = messages::honest(random, tables, table.own);
    match random.chance(60) {
        true => honest,
        false => messages::forged(random, table),
    }
}

fn malformed(random: &mut Random, tables: &[Table], table: &Table) -> Option<Vec<u8>> {
    let Some(push) = either(random, tables, table) else {
        return Some(some_bytes(random));
    };
    let why = random.pick(&MALFORMED);
    match random.chance(80) {
        true => messages::malformed(random, &push, table.n, why),
        false => Some(messages::damaged(random, &push)),
    }
}

fn at_odds(random: &mut Random, tables: &[Table], table: &Table) -> Option<Aimed> {
    let push = either(random, tables, table)?;
    let why = random.pick(&ODDS);
    let (table, push) = messages::against(random, table, &push, why)?;
    let call = Call::Receive {
        now: 0,
        message: push.write(),
        room: Acknowledgement::SIZE,
    };
    Some((table.bytes(), call))
}
