//! Tables made by hand.

use super::{bad_name, no_id, no_set, no_stamp, seen_stamp, some_name, unheld};
use crate::bytes::{put_u32, put_u64};
use crate::random::Random;
use crate::records::{
    id, maker, single, without, Entry, Head, Kind, Name, Place, DEEPEST, LAST_CLOCK, LAST_COUNT,
    LAST_VERSION, ROOT,
};
use crate::table::{
    sound, verdict, Replica, Rule, Slot, Table, ENTRY_SLOTS, MOST_ENTRIES, REPLICA_SLOTS,
};

/// Every rule of a sound table.
pub const RULES: [Rule; 23] = [
    Rule::Ranges,
    Rule::UsedSlotsFirst,
    Rule::RootInSlotZero,
    Rule::IdsUnique,
    Rule::HoldersIncludeMaker,
    Rule::HoldersIncludeOwn,
    Rule::PendingWithinHolders,
    Rule::PendingWithoutOwn,
    Rule::OwnIdsBelowNext,
    Rule::PlaceHeld,
    Rule::PlaceIsDirectory,
    Rule::PlaceOneLessDeep,
    Rule::PlaceOfLiveIsLive,
    Rule::EntryDirectoryHeld,
    Rule::EntryDirectoryIsDirectory,
    Rule::EntryDirectoryNotDeepest,
    Rule::ChildNotRoot,
    Rule::EntriesUnique,
    Rule::AtMost32Entries,
    Rule::EntryAtPlace,
    Rule::EntryAtPlaceNotBelow,
    Rule::EntryAtPlaceLiveIfEqual,
    Rule::ClocksSeen,
];

/// "Table, 13,344 bytes: 32 bytes (..); 64 replica slots of 48 (..); 256 entry slots of 40 (..)."
const REPLICAS_AT: usize = 32;
const REPLICA_SIZE: usize = 48;
const ENTRIES_AT: usize = REPLICAS_AT + REPLICA_SLOTS * REPLICA_SIZE;
const ENTRY_SIZE: usize = 40;

fn replica_at(slot: usize) -> usize {
    REPLICAS_AT + slot * REPLICA_SIZE
}

fn entry_at(slot: usize) -> usize {
    ENTRIES_AT + slot * ENTRY_SIZE
}

// ---- parts of a table

/// Adds a dead replica, which needs no entry; its slot, if there is room.
fn add_dead(random: &mut Random, t: &mut Table, kind: Kind, directory: &Head) -> Option<usize> {
    if t.replicas.len() == REPLICA_SLOTS || directory.depth == DEEPEST {
        return None;
    }
    let new = new_id(random, t);
    let node = random.within(1..=t.n.into()) as u8;
    let holders = single(t.own) | single(maker(new)) | single(node);
    let head = Head {
        kind,
        live: false,
        id: new,
        stamp: seen_stamp(random, t),
        holders,
        depth: directory.depth + 1,
        place: Place {
            directory: directory.id,
            name: some_name(random),
        },
    };
    t.replicas.push(Replica {
        head,
        version: 1,
        pending: without(holders, t.own) & random.byte(),
    });
    Some(t.replicas.len() - 1)
}

/// The id of a new replica: another node's, or one of the counts of the own.
fn new_id(random: &mut Random, t: &mut Table) -> u32 {
    let theirs = unheld(random, t);
    if maker(theirs) != t.own {
        return theirs;
    }
    t.next += 1;
    id(t.own, t.next - 1)
}

/// Adds a live replica with its entry to a live directory, if there is room.
fn add_live(random: &mut Random, t: &mut Table, kind: Kind, directory: &Head) -> Option<usize> {
    let crowded = t.entries_of(directory.id).count() == MOST_ENTRIES;
    if crowded || t.entries.len() == ENTRY_SLOTS || !directory.live {
        return None;
    }
    let slot = add_dead(random, t, kind, directory)?;
    let head = &mut t.replicas[slot].head;
    head.live = true;
    let entry = Entry {
        live: true,
        child: head.id,
        stamp: head.stamp,
        name: head.place.name,
    };
    t.entries.push(Slot {
        entry,
        directory: directory.id,
    });
    Some(slot)
}

/// An entry for a child that isn't held.
fn stray(random: &mut Random, t: &mut Table) -> Entry {
    Entry {
        live: random.chance(30),
        child: unheld(random, t),
        stamp: seen_stamp(random, t),
        name: some_name(random),
    }
}

fn has_entry(t: &Table, directory: u32, entry: &Entry) -> bool {
    t.entry_at(directory, entry.child, entry.name).is_some()
}

/// Fills a directory with stray entries up to a number, and the table up to another.
fn fill(random: &mut Random, t: &mut Table, directory: u32, most: usize, in_all: usize) {
    while t.entries_of(directory).count() < most && t.entries.len() < in_all {
        let entry = stray(random, t);
        if !has_entry(t, directory, &entry) {
            t.entries.push(Slot { entry, directory });
        }
    }
}

/// Some replica's slot whose head passes a test.
fn some_slot(random: &mut Random, t: &Table, test: impl Fn(&Head) -> bool) -> Option<usize> {
    let slots = 0..t.replicas.len();
    let slots: Vec<usize> = slots.filter(|&slot| test(&t.replicas[slot].head)).collect();
    random.choose(&slots)
}

/// Some replica's head that passes a test.
fn some_head(random: &mut Random, t: &Table, test: impl Fn(&Head) -> bool) -> Option<Head> {
    some_slot(random, t, test).map(|slot| t.replicas[slot].head)
}

fn is_open(head: &Head) -> bool {
    head.kind == Kind::Directory && head.depth < DEEPEST
}

/// The slot of the entry at the place of some live replica, and the replica's head.
fn some_place(random: &mut Random, t: &Table) -> Option<(usize, Head)> {
    let head = some_head(random, t, |head| head.live && head.id != ROOT)?;
    let at = |slot: &Slot| {
        let place = Place {
            directory: slot.directory,
            name: slot.entry.name,
        };
        slot.entry.child == head.id && place == head.place
    };
    t.entries.iter().position(at).map(|slot| (slot, head))
}

// ---- tables at the limits

/// What of a table is brought to its limit.
#[derive(Clone, Copy, Debug, PartialEq, Eq)]
pub enum Limit {
    /// A directory's entries, all entries, or replicas.
    Slots,
    /// Clocks, versions or counts.
    Numbers,
    /// Live directories down to depth 16.
    Depth,
    /// Entries for ids that this node will make later.
    Planted,
}

/// A sound table of this one, with something at its limit or next to it.
pub fn at_limit(random: &mut Random, table: &Table, limit: Limit) -> Table {
    let mut t = table.clone();
    match (limit, random.below(3)) {
        (Limit::Slots, 0) => fill_one(random, &mut t),
        (Limit::Slots, 1) => fill_entries(random, &mut t),
        (Limit::Slots, _) => fill_replicas(random, &mut t),
        (Limit::Numbers, 0) => t.highest = LAST_CLOCK - random.below(3),
        (Limit::Numbers, 1) => t.next = LAST_COUNT + 1 - random.below(2),
        (Limit::Numbers, _) => end_versions(random, &mut t),
        (Limit::Depth, _) => deepen(random, &mut t),
        (Limit::Planted, _) => plant(random, &mut t),
    }
    match sound(&t) {
        Ok(()) => t,
        Err(_) => table.clone(),
    }
}

/// The same, with one thing or two of any kind.
pub fn at_limits(random: &mut Random, table: &Table) -> Table {
    let limits = [Limit::Slots, Limit::Numbers, Limit::Depth, Limit::Planted];
    let first = random.pick(&limits);
    let second = random.pick(&limits);
    let table = at_limit(random, table, first);
    at_limit(random, &table, second)
}

fn end_versions(random: &mut Random, t: &mut Table) {
    let all = random.chance(50);
    for replica in &mut t.replicas {
        if all || random.chance(30) {
            replica.version = LAST_VERSION - random.below(2);
        }
    }
}

fn fill_one(random: &mut Random, t: &mut Table) {
    let most = MOST_ENTRIES - random.index(2);
    if let Some(directory) = some_head(random, t, is_open) {
        fill(random, t, directory.id, most, ENTRY_SLOTS);
    }
}

fn fill_entries(random: &mut Random, t: &mut Table) {
    let most = ENTRY_SLOTS - random.index(2);
    let mut heads: Vec<Head> = t.replicas.iter().map(|r| r.head).collect();
    heads.retain(is_open);
    while heads.len() < ENTRY_SLOTS / MOST_ENTRIES {
        let Some(slot) = add_dead(random, t, Kind::Directory, &Head::root(t.n)) else {
            break;
        };
        heads.push(t.replicas[slot].head);
    }
    for head in heads {
        fill(random, t, head.id, MOST_ENTRIES, most);
    }
}

fn fill_replicas(random: &mut Random, t: &mut Table) {
    let most = REPLICA_SLOTS - random.index(2);
    while t.replicas.len() < most {
        let directory = some_head(random, t, is_open).unwrap_or(Head::root(t.n));
        let kind = random.pick(&[Kind::File, Kind::Directory]);
        add_dead(random, t, kind, &directory);
    }
}

/// Adds live directories down to depth 16.
fn deepen(random: &mut Random, t: &mut Table) {
    let deepest = |t: &Table| {
        let live = t.replicas.iter().map(|r| r.head);
        let live = live.filter(|head| head.live && head.kind == Kind::Directory);
        live.max_by_key(|head| head.depth)
    };
    while let Some(directory) = deepest(t).filter(|head| head.depth < DEEPEST) {
        if add_live(random, t, Kind::Directory, &directory).is_none() {
            break;
        }
    }
}

/// Plants entries for ids that this node will make later.
fn plant(random: &mut Random, t: &mut Table) {
    for later in 0..random.within(1..=3) {
        let directory = some_head(random, t, is_open).unwrap_or(Head::root(t.n));
        let entry = Entry {
            child: id(t.own, (t.next + later).min(LAST_COUNT)),
            ..stray(random, t)
        };
        let room = t.entries_of(directory.id).count() < MOST_ENTRIES;
        if room && t.entries.len() < ENTRY_SLOTS && !has_entry(t, directory.id, &entry) {
            t.entries.push(Slot {
                entry,
                directory: directory.id,
            });
        }
    }
}

// ---- unsound tables

/// The bytes of a table that breaks this rule, before all others; of a sound one, if it has what
/// that takes.
pub fn breaking(random: &mut Random, table: &Table, rule: Rule) -> Option<Vec<u8>> {
    let mut t = table.clone();
    let bytes = match rule {
        Rule::Ranges => out_of_range(random, &t)?,
        Rule::UsedSlotsFirst => with_gap(random, &t)?,
        Rule::RootInSlotZero
        | Rule::IdsUnique
        | Rule::HoldersIncludeMaker
        | Rule::HoldersIncludeOwn
        | Rule::PendingWithinHolders
        | Rule::PendingWithoutOwn
        | Rule::OwnIdsBelowNext => {
            break_replica(random, &mut t, rule)?;
            t.bytes()
        }
        Rule::PlaceHeld
        | Rule::PlaceIsDirectory
        | Rule::PlaceOneLessDeep
        | Rule::PlaceOfLiveIsLive => {
            break_place(random, &mut t, rule)?;
            t.bytes()
        }
        _ => {
            break_entry(random, &mut t, rule)?;
            t.bytes()
        }
    };
    (verdict(&bytes).err() == Some(rule)).then_some(bytes)
}

fn break_replica(random: &mut Random, t: &mut Table, rule: Rule) -> Option<()> {
    let own = t.own;
    let theirs = |head: &Head| head.id != ROOT && maker(head.id) != own;
    match rule {
        Rule::RootInSlotZero => {
            let other = random.index(t.replicas.len());
            t.replicas.swap(0, other);
        }
        Rule::IdsUnique => {
            let again = random.pick(&t.replicas);
            t.replicas.push(again);
        }
        Rule::HoldersIncludeMaker => {
            let slot = some_slot(random, t, theirs)?;
            let maker = maker(t.replicas[slot].head.id);
            drop_holder(&mut t.replicas[slot], maker);
        }
        Rule::HoldersIncludeOwn => {
            let slot = some_slot(random, t, theirs)?;
            drop_holder(&mut t.replicas[slot], own);
        }
        Rule::PendingWithinHolders => {
            let node = random.within(1..=t.n.into()) as u8;
            let slot = some_slot(random, t, |head| head.holders & single(node) == 0)?;
            t.replicas[slot].pending |= single(node);
        }
        Rule::PendingWithoutOwn => {
            let slot = random.index(t.replicas.len());
            t.replicas[slot].pending |= single(own);
        }
        _ => {
            let slot = some_slot(random, t, |head| maker(head.id) == own)?;
            t.next = u64::from(t.replicas[slot].head.id) & LAST_COUNT;
        }
    }
    Some(())
}

fn drop_holder(replica: &mut Replica, node: u8) {
    replica.head.holders = without(replica.head.holders, node);
    replica.pending = without(replica.pending, node);
}

/// A new replica is right but for its place.
fn break_place(random: &mut Random, t: &mut Table, rule: Rule) -> Option<()> {
    let kind = random.pick(&[Kind::File, Kind::Directory]);
    let directory = some_head(random, t, is_open)?;
    match rule {
        Rule::PlaceHeld => {
            let slot = add_dead(random, t, kind, &directory)?;
            let nobody = unheld(random, t);
            t.replicas[slot].head.place.directory = nobody;
        }
        Rule::PlaceIsDirectory => {
            let file = add_dead(random, t, Kind::File, &directory)?;
            let file = t.replicas[file].head;
            add_dead(random, t, kind, &file)?;
        }
        Rule::PlaceOneLessDeep => {
            let slot = add_dead(random, t, kind, &directory)?;
            let depth = t.replicas[slot].head.depth;
            let wrong = random.within(1..=DEEPEST.into()) as u8;
            t.replicas[slot].head.depth = if wrong == depth { 17 - depth } else { wrong };
        }
        _ => {
            let dead = add_dead(random, t, Kind::Directory, &directory)?;
            let as_if = Head {
                live: true,
                ..t.replicas[dead].head
            };
            add_live(random, t, kind, &as_if)?;
        }
    }
    Some(())
}

fn break_entry(random: &mut Random, t: &mut Table, rule: Rule) -> Option<()> {
    match rule {
        Rule::EntryAtPlace | Rule::EntryAtPlaceNotBelow | Rule::EntryAtPlaceLiveIfEqual => {
            return break_entry_at_place(random, t, rule);
        }
        Rule::ClocksSeen => {
            t.highest = t.highest.checked_sub(1)?;
            return Some(());
        }
        Rule::EntriesUnique => {
            let mut again = random.choose(&t.entries)?;
            again.entry.live = random.chance(50);
            t.entries.push(again);
            return Some(());
        }
        Rule::AtMost32Entries => {
            let directory = some_head(random, t, is_open)?;
            fill(random, t, directory.id, MOST_ENTRIES + 1, ENTRY_SLOTS);
            return Some(());
        }
        _ => (),
    }
    let mut entry = stray(random, t);
    let directory = match rule {
        Rule::EntryDirectoryHeld => unheld(random, t),
        Rule::EntryDirectoryIsDirectory => some_head(random, t, |head| head.kind == Kind::File)?.id,
        Rule::EntryDirectoryNotDeepest => {
            deepen(random, t);
            let deepest = |head: &Head| head.kind == Kind::Directory && head.depth == DEEPEST;
            some_head(random, t, deepest)?.id
        }
        _ => {
            entry.child = ROOT;
            some_head(random, t, is_open)?.id
        }
    };
    t.entries.push(Slot { entry, directory });
    Some(())
}

fn break_entry_at_place(random: &mut Random, t: &mut Table, rule: Rule) -> Option<()> {
    let (slot, head) = some_place(random, t)?;
    let entry = &mut t.entries[slot].entry;
    match rule {
        Rule::EntryAtPlace if random.chance(50) => drop(t.entries.remove(slot)),
        Rule::EntryAtPlace => entry.name = Name::from_bytes(b"elsewhere")?,
        Rule::EntryAtPlaceNotBelow => {
            let below = random.pick(&[1, 256]);
            entry.stamp = head.stamp - below;
        }
        _ => {
            entry.stamp = head.stamp;
            entry.live = false;
        }
    }
    Some(())
}

/// A free slot before a used one, or a byte after the first free slot.
fn with_gap(random: &mut Random, t: &Table) -> Option<Vec<u8>> {
    let mut bytes = t.bytes();
    let replicas = random.chance(50);
    let (used, slots) = match replicas {
        true => (t.replicas.len(), REPLICA_SLOTS),
        false => (t.entries.len(), ENTRY_SLOTS),
    };
    let later = (used + 1 < slots).then(|| random.within(used as u64 + 1..=slots as u64 - 1))?;
    let at = if replicas { replica_at } else { entry_at };
    let (from, to) = (at(used.saturating_sub(1)), at(later as usize));
    let size = at(1) - at(0);
    if random.chance(50) {
        bytes[to + random.index(size)] = 1;
    } else {
        let moved = bytes[from..from + size].to_vec();
        bytes[to..to + size].copy_from_slice(&moved);
    }
    Some(bytes)
}

/// A length, mark, zero or number that is none.
fn out_of_range(random: &mut Random, t: &Table) -> Option<Vec<u8>> {
    let mut bytes = t.bytes();
    match random.below(10) {
        0 => {
            let length = random.pick(&[0, 1, 31, 32, Table::SIZE - 1, Table::SIZE + 1]);
            bytes.resize(length, 0);
        }
        1 | 2 => wrong_header(random, t, &mut bytes),
        3..=6 => {
            let at = replica_at(random.index(t.replicas.len()));
            wrong_replica(random, t.n, &mut bytes[at..at + REPLICA_SIZE])?;
        }
        _ if t.entries.is_empty() => return None,
        _ => {
            let at = entry_at(random.index(t.entries.len()));
            wrong_entry(random, t.n, &mut bytes[at..at + ENTRY_SIZE]);
        }
    }
    Some(bytes)
}

fn wrong_header(random: &mut Random, t: &Table, bytes: &mut [u8]) {
    match random.below(8) {
        0 => bytes[random.index(2)] ^= 1 << random.below(8),
        1 => bytes[2] = random.pick(&[0, t.n + 1, 255]),
        2 => bytes[3] = random.pick(&[0, t.own - 1, 9, 255]),
        3 => put_u32(bytes, 4, 0),
        4 => put_u32(bytes, 4, LAST_COUNT as u32 + 2 + random.byte() as u32),
        5 => put_u64(bytes, 8, LAST_CLOCK + 1 + random.below(9)),
        6 => put_u64(bytes, 8, random.number() | 1 << 40),
        _ => bytes[16 + random.index(16)] = random.byte() | 1,
    }
}

fn wrong_replica(random: &mut Random, n: u8, slot: &mut [u8]) -> Option<()> {
    match random.below(14) {
        0 => slot[random.index(2)] ^= 1 << random.below(8),
        1 => slot[2] = random.pick(&[0, 3, 255]),
        2 => slot[3] = random.within(2..=255) as u8,
        3 => put_u32(slot, 4, no_id(random, n)),
        4 => put_u64(slot, 8, no_stamp(random, n)),
        5 => slot[16] = no_set(random, n)?,
        6 => slot[17] = random.pick(&[0, 17, 255]),
        7 => slot[18 + random.index(2)] = 1,
        8 => put_u32(slot, 20, no_id(random, n)),
        9 | 10 => slot[24..40].copy_from_slice(&bad_name(random)),
        11 => put_u32(slot, 40, 0),
        12 => slot[44] = no_set(random, n)?,
        _ => slot[45 + random.index(3)] = 1,
    }
    Some(())
}

fn wrong_entry(random: &mut Random, n: u8, slot: &mut [u8]) {
    match random.below(9) {
        0 => slot[random.index(2)] ^= 1 << random.below(8),
        1 => slot[2] = random.within(2..=255) as u8,
        2 => slot[3] = 1,
        3 => put_u32(slot, 4, no_id(random, n)),
        4 => put_u64(slot, 8, no_stamp(random, n)),
        5 | 6 => slot[16..32].copy_from_slice(&bad_name(random)),
        7 => put_u32(slot, 32, no_id(random, n)),
        _ => slot[36 + random.index(4)] = 1,
    }
}

/// The bytes of a table, damaged without aim.
pub fn damaged(random: &mut Random, table: &Table) -> Vec<u8> {
    let mut bytes = table.bytes();
    for _ in 0..random.within(1..=3) {
        damage(random, table, &mut bytes);
    }
    if random.chance(5) {
        bytes.truncate(random.index(Table::SIZE));
    }
    bytes
}

fn damage(random: &mut Random, table: &Table, bytes: &mut [u8]) {
    let (replicas, entries) = (table.replicas.len(), table.entries.len().max(1));
    let replica = replica_at(random.index(replicas));
    let entry = entry_at(random.index(entries));
    match random.below(8) {
        0 => bytes[random.index(Table::SIZE)] = random.byte(),
        1 => bytes[random.index(REPLICAS_AT)] = random.byte(),
        2 => bytes[replica + random.index(REPLICA_SIZE)] = random.byte(),
        3 => bytes[replica + random.index(REPLICA_SIZE)] ^= 1 << random.below(8),
        4 => bytes[entry + random.index(ENTRY_SIZE)] = random.byte(),
        5 => bytes[entry + random.index(ENTRY_SIZE)] ^= 1 << random.below(8),
        6 => {
            let from = replica_at(random.index(replicas));
            let width = random.within(1..=REPLICA_SIZE as u64) as usize;
            bytes.copy_within(from..from + width, replica);
        }
        _ => {
            let from = entry_at(random.index(entries));
            let width = random.within(1..=ENTRY_SIZE as u64) as usize;
            bytes.copy_within(from..from + width, entry);
        }
    }
}
