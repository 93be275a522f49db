//! Pushes and acknowledgements made by hand.

use super::{bad_name, no_id, no_set, no_stamp, some_name, unheld};
use crate::bytes::{put_u32, put_u64};
use crate::push::{Malformed, Push};
use crate::random::Random;
use crate::records::{
    all_nodes, has, id, maker, single, stamp, without, Acknowledgement, Entry, Head, Kind, Place,
    PushHeader, Record, DEEPEST, LAST_CLOCK, LAST_COUNT, LAST_VERSION, ROOT,
};
use crate::steps::{Odds, Work};
use crate::table::{sound, Slot, Table, ENTRY_SLOTS, MOST_ENTRIES};
use crate::variant::Variant;

/// Every way in which a push can be malformed.
pub const MALFORMED: [Malformed; 18] = [
    Malformed::Length,
    Malformed::Mark,
    Malformed::Zeros,
    Malformed::Range,
    Malformed::Counts,
    Malformed::FromEqualsTo,
    Malformed::ChainPlace,
    Malformed::ChainDepth,
    Malformed::ChainKind,
    Malformed::LiveUnderDead,
    Malformed::IdTwice,
    Malformed::HoldersWithoutMaker,
    Malformed::HoldersWithoutSender,
    Malformed::FirstWithoutAddressee,
    Malformed::EntryTwice,
    Malformed::EntryForRoot,
    Malformed::EntriesUnderFile,
    Malformed::EntriesAtDepth16,
];

/// Every way in which a push can be at odds with a table. `EntryMadeLive` is not there: a directory
/// made live has a new stamp, above every stamp seen.
pub const ODDS: [Odds; 6] = [
    Odds::Kind,
    Odds::Place,
    Odds::State,
    Odds::NotHeld,
    Odds::EntryJoined,
    Odds::EntrySet,
];

/// The outcome of a push that was read, without limits.
pub fn outcome(table: &Table, now: u64, push: &Push) -> Result<Table, Odds> {
    let mut work = Work::on(table, now, Variant::Right);
    work.receive(push)?;
    Ok(work.table)
}

/// Some other node than this one, if there is one.
fn other_node(random: &mut Random, n: u8, node: u8) -> Option<u8> {
    let others: Vec<u8> = (1..=n).filter(|&other| other != node).collect();
    random.choose(&others)
}

// ---- honest pushes

/// A push that some node of the cluster can write to this one, pending or told already.
pub fn honest(random: &mut Random, tables: &[Table], to: u8) -> Option<Push> {
    let from = other_node(random, tables.len() as u8, to)?;
    let table = &tables[usize::from(from) - 1];
    let pending = random.chance(80);
    let slots = (0..table.replicas.len()).filter(|&slot| {
        let replica = &table.replicas[slot];
        has(replica.head.holders, to) && (!pending || has(replica.pending, to))
    });
    let slots: Vec<usize> = slots.collect();
    random.choose(&slots).map(|slot| Push::of(table, slot, to))
}

// ---- forged pushes

/// A well-formed push to the table's node that no node wrote: of what is held or is not, under
/// ancestors that are held or are not, with any stamps, flags, holders and entries.
pub fn forged(random: &mut Random, table: &Table) -> Option<Push> {
    let from = other_node(random, table.n, table.own)?;
    let mut heads = branch(random, table);
    for head in &mut heads {
        shake(random, table, head);
    }
    let version = random.pick(&[1, 2, 77, LAST_VERSION]);
    let mut push = Push {
        from,
        to: table.own,
        version,
        heads,
        entries: Vec::new(),
    };
    push.entries = some_entries(random, table, &push.heads[0]);
    mend(&mut push);
    Push::read(&push.write(), table.n).ok()
}

/// The heads of some replica and what is above it, the replica first.
fn branch(random: &mut Random, table: &Table) -> Vec<Head> {
    let slot = random.index(table.replicas.len());
    let mut heads = Push::of(table, slot, 0).heads;
    if random.chance(40) {
        return heads;
    }
    let new = random.pick(&[1, 1, 1, 2, 3, 14]);
    for _ in 0..new {
        let above = heads[0];
        if above.kind == Kind::File || above.depth == DEEPEST {
            break;
        }
        if above.id == ROOT {
            heads.clear();
        }
        heads.insert(0, new_head(random, table, &above));
    }
    if random.chance(50) && heads[0].id != ROOT && table.find(heads[0].id).is_none() {
        heads[0].kind = Kind::File;
    }
    heads
}

fn new_head(random: &mut Random, table: &Table, above: &Head) -> Head {
    Head {
        kind: Kind::Directory,
        live: random.chance(70),
        id: some_new(random, table),
        stamp: some_stamp(random, table),
        holders: 0,
        depth: above.depth + 1,
        place: Place {
            directory: above.id,
            name: some_name(random),
        },
    }
}

/// An id that isn't held, rarely of the own making.
fn some_new(random: &mut Random, table: &Table) -> u32 {
    let ids = [
        unheld(random, table),
        unheld(random, table),
        unheld(random, table),
    ];
    let theirs = ids.iter().find(|&&id| maker(id) != table.own);
    theirs.copied().unwrap_or(ids[0])
}

/// Any stamp, often one that the table has, or one next to it.
fn some_stamp(random: &mut Random, table: &Table) -> u64 {
    let heads = table.replicas.iter().map(|r| r.head.stamp);
    let stamps = heads.chain(table.entries.iter().map(|slot| slot.entry.stamp));
    let stamps: Vec<u64> = stamps.filter(|&stamp| stamp > 256).collect();
    let node = random.within(1..=table.n.into()) as u8;
    let seen = random.choose(&stamps).unwrap_or(stamp(1, node));
    let late = table.highest.saturating_add(random.within(1..=3));
    match random.below(8) {
        0..=2 => seen,
        3 => seen / 256 * 256 + u64::from(node),
        4 => seen.saturating_sub(256).max(stamp(1, node)),
        5 => stamp(late.min(LAST_CLOCK), node),
        6 => stamp(LAST_CLOCK - random.below(2), node),
        _ => stamp(random.within(1..=50), node),
    }
}

/// Changes a head, now and then also what a directory can't change.
fn shake(random: &mut Random, table: &Table, head: &mut Head) {
    if head.id == ROOT {
        return;
    }
    head.holders |= random.byte() & all_nodes(table.n);
    let stamped = random.chance(40);
    if stamped {
        head.stamp = some_stamp(random, table);
    }
    let changed = if stamped { 50 } else { 2 };
    if random.chance(changed) {
        head.live = !head.live;
    }
    if random.chance(changed) && (head.kind == Kind::File || random.chance(4)) {
        head.place.name = some_name(random);
    }
}

/// Entries for a directory: those that stand there, changed, and others, also for ids that the
/// table's node will make later.
fn some_entries(random: &mut Random, table: &Table, directory: &Head) -> Vec<Entry> {
    if directory.kind == Kind::File || directory.depth == DEEPEST {
        return Vec::new();
    }
    let there: Vec<Entry> = table.entries_of(directory.id).copied().collect();
    let held: Vec<u32> = table.replicas[1..].iter().map(|r| r.head.id).collect();
    let count = random.pick(&[0, 1, 2, 3, 5, MOST_ENTRIES]);
    let mut entries: Vec<Entry> = Vec::new();
    for _ in 0..count {
        let mut entry = Entry {
            live: random.chance(50),
            child: some_child(random, table, &held),
            stamp: some_stamp(random, table),
            name: some_name(random),
        };
        if let Some(old) = random.choose(&there).filter(|_| random.chance(40)) {
            let stamp = random.pick(&[old.stamp, entry.stamp]);
            let live = old.live != random.chance(30);
            entry = Entry { live, stamp, ..old };
        }
        let key = |e: &Entry| (e.child, e.name);
        if entries.iter().all(|other| key(other) != key(&entry)) {
            entries.push(entry);
        }
    }
    entries
}

fn some_child(random: &mut Random, table: &Table, held: &[u32]) -> u32 {
    let later = id(table.own, (table.next + random.below(3)).min(LAST_COUNT));
    let nobody = unheld(random, table);
    let known = random.choose(held).unwrap_or(nobody);
    random.pick(&[known, known, nobody, later])
}

/// Mends what makes the heads malformed: holders, and live under dead.
fn mend(push: &mut Push) {
    let mut live = false;
    for head in &mut push.heads {
        live |= head.live;
        head.live = live;
        head.holders |= single(push.from) | single(maker(head.id));
    }
    push.heads[0].holders |= single(push.to);
}

// ---- malformed pushes

/// The bytes of a push that is malformed in this way, before all others; of a right one, if it has
/// what that takes.
pub fn malformed(random: &mut Random, push: &Push, n: u8, why: Malformed) -> Option<Vec<u8>> {
    let mut push = push.clone();
    let bytes = match why {
        Malformed::Length => wrong_length(random, &push),
        Malformed::Mark | Malformed::Zeros | Malformed::Range => {
            wrong_field(random, &push, n, why)?
        }
        Malformed::ChainPlace
        | Malformed::ChainDepth
        | Malformed::ChainKind
        | Malformed::LiveUnderDead
        | Malformed::IdTwice => {
            break_chain(random, &mut push, n, why)?;
            push.write()
        }
        Malformed::EntryTwice
        | Malformed::EntryForRoot
        | Malformed::EntriesUnderFile
        | Malformed::EntriesAtDepth16 => {
            break_entries(random, &mut push, n, why)?;
            push.write()
        }
        _ => {
            break_heads(random, &mut push, n, why)?;
            push.write()
        }
    };
    (Push::read(&bytes, n) == Err(why)).then_some(bytes)
}

fn wrong_length(random: &mut Random, push: &Push) -> Vec<u8> {
    let mut bytes = push.write();
    let length = match random.below(4) {
        0 => random.index(bytes.len()),
        1 => bytes.len() - 1,
        2 => bytes.len() + 1,
        _ => bytes.len() + random.pick(&[Head::SIZE, Entry::SIZE, 64_000]),
    };
    bytes.resize(length, 0);
    bytes
}

/// A mark, zero or number of some record that is none.
fn wrong_field(random: &mut Random, push: &Push, n: u8, why: Malformed) -> Option<Vec<u8>> {
    let mut bytes = push.write();
    let heads_at = PushHeader::SIZE;
    let entries_at = heads_at + Head::SIZE * push.heads.len();
    match random.below(5) {
        0 => wrong_header(random, n, why, &mut bytes[..heads_at]),
        1 | 2 => {
            let at = heads_at + Head::SIZE * random.index(push.heads.len());
            wrong_head(random, n, why, &mut bytes[at..at + Head::SIZE])?;
        }
        _ if push.entries.is_empty() => return None,
        _ => {
            let at = entries_at + Entry::SIZE * random.index(push.entries.len());
            wrong_entry(random, n, why, &mut bytes[at..at + Entry::SIZE]);
        }
    }
    Some(bytes)
}

fn wrong_header(random: &mut Random, n: u8, why: Malformed, bytes: &mut [u8]) {
    match (why, random.below(2)) {
        (Malformed::Mark, _) => bytes[random.index(2)] ^= 1 << random.below(8),
        (Malformed::Zeros, _) => bytes[10 + random.index(6)] = random.byte() | 1,
        (_, 0) => bytes[2 + random.index(2)] = random.pick(&[0, n + 1, 255]),
        _ => put_u32(bytes, 4, 0),
    }
}

fn wrong_head(random: &mut Random, n: u8, why: Malformed, bytes: &mut [u8]) -> Option<()> {
    match (why, random.below(9)) {
        (Malformed::Mark, _) => bytes[random.index(2)] ^= 1 << random.below(8),
        (Malformed::Zeros, _) => bytes[18 + random.index(2)] = random.byte() | 1,
        (_, 0) => bytes[2] = random.pick(&[0, 3, 255]),
        (_, 1) => bytes[3] = random.within(2..=255) as u8,
        (_, 2) => put_u32(bytes, 4, no_id(random, n)),
        (_, 3) => put_u64(bytes, 8, no_stamp(random, n)),
        (_, 4) => bytes[16] = no_set(random, n)?,
        (_, 5) => bytes[17] = random.pick(&[0, 17, 255]),
        (_, 6) => put_u32(bytes, 20, no_id(random, n)),
        _ => bytes[24..40].copy_from_slice(&bad_name(random)),
    }
    Some(())
}

fn wrong_entry(random: &mut Random, n: u8, why: Malformed, bytes: &mut [u8]) {
    match (why, random.below(6)) {
        (Malformed::Mark, _) => bytes[random.index(2)] ^= 1 << random.below(8),
        (Malformed::Zeros, _) => bytes[3] = random.byte() | 1,
        (_, 0) => bytes[2] = random.within(2..=255) as u8,
        (_, 1) => put_u32(bytes, 4, no_id(random, n)),
        (_, 2) => put_u64(bytes, 8, no_stamp(random, n)),
        _ => bytes[16..32].copy_from_slice(&bad_name(random)),
    }
}

/// Counts, sender and addressee, and holders.
fn break_heads(random: &mut Random, push: &mut Push, n: u8, why: Malformed) -> Option<()> {
    let at = random.index(push.heads.len());
    let Push { from, to, .. } = *push;
    let head = &mut push.heads[at];
    match why {
        Malformed::Counts => return break_counts(random, push, n),
        Malformed::FromEqualsTo => push.from = to,
        Malformed::HoldersWithoutMaker => {
            head.holders = without(head.holders, maker(head.id));
        }
        Malformed::HoldersWithoutSender if random.chance(50) => {
            head.holders = without(head.holders, from);
        }
        Malformed::HoldersWithoutSender => {
            push.from = other_node(random, n, to)?;
        }
        _ => push.heads[0].holders = without(push.heads[0].holders, to),
    }
    Some(())
}

fn break_counts(random: &mut Random, push: &mut Push, n: u8) -> Option<()> {
    match random.below(4) {
        0 => push.heads.clear(),
        1 => push.heads.truncate(push.heads.len() - 1),
        2 => push.heads[0].depth = random.within(1..=DEEPEST.into()) as u8,
        _ => {
            let table = Table::fresh(1, n);
            while push.entries.len() <= MOST_ENTRIES {
                push.entries.push(Entry {
                    live: false,
                    child: unheld(random, &table),
                    stamp: stamp(1, 1),
                    name: some_name(random),
                });
            }
        }
    }
    Some(())
}

fn break_chain(random: &mut Random, push: &mut Push, n: u8, why: Malformed) -> Option<()> {
    let links = push.heads.len() - 1;
    if why == Malformed::ChainPlace && (links == 0 || random.chance(30)) {
        // Above the last head is something else than the root.
        push.heads[links].place.directory = unheld(random, &Table::fresh(1, n));
        return Some(());
    }
    let below = (links > 0).then(|| random.index(links))?;
    let above = below + 1;
    match why {
        Malformed::ChainPlace => {
            push.heads[below].place.directory = unheld(random, &Table::fresh(1, n));
        }
        Malformed::ChainDepth => {
            push.heads[above].depth = random.within(1..=DEEPEST.into()) as u8;
        }
        Malformed::ChainKind => push.heads[above].kind = Kind::File,
        Malformed::LiveUnderDead => {
            push.heads[below].live = true;
            push.heads[above].live = false;
        }
        _ => {
            let again = push.heads[random.index(above)].id;
            push.heads[below].place.directory = again;
            push.heads[above].id = again;
        }
    }
    Some(())
}

fn break_entries(random: &mut Random, push: &mut Push, n: u8, why: Malformed) -> Option<()> {
    let table = Table::fresh(1, n);
    let entry = Entry {
        live: random.chance(50),
        child: unheld(random, &table),
        stamp: stamp(1, 1),
        name: some_name(random),
    };
    match why {
        Malformed::EntryTwice => {
            let mut again = random.choose(&push.entries)?;
            again.live = random.chance(50);
            push.entries.push(again);
        }
        Malformed::EntryForRoot => {
            let at = random.index(push.entries.len() + 1);
            let child = ROOT;
            push.entries.insert(at, Entry { child, ..entry });
        }
        Malformed::EntriesUnderFile => push.entries.push(entry),
        _ => {
            deepen(random, push, n);
            push.entries = vec![entry];
        }
    }
    Some(())
}

/// Puts new directories under a pushed one, down to depth 16.
fn deepen(random: &mut Random, push: &mut Push, n: u8) {
    let table = Table::fresh(1, n);
    while push.heads[0].depth < DEEPEST {
        let above = push.heads[0];
        if above.id == ROOT {
            push.heads.clear();
        }
        let mut head = new_head(random, &table, &above);
        head.live = false;
        head.kind = Kind::Directory;
        push.heads.insert(0, head);
    }
    mend(push);
}

// ---- pushes against a table

/// A sound table and a well-formed push that are at odds in this way, before all others; of an
/// honest pair, if it has what that takes.
pub fn against(
    random: &mut Random,
    table: &Table,
    push: &Push,
    why: Odds,
) -> Option<(Table, Push)> {
    let (mut table, mut push) = (table.clone(), push.clone());
    let at = random.index(push.heads.len());
    let head = &mut push.heads[at];
    let ours = table.head(head.id).copied();
    match why {
        Odds::Kind => {
            head.kind = match head.kind {
                Kind::File => Kind::Directory,
                Kind::Directory => Kind::File,
            };
        }
        Odds::Place => head.place.name = some_name(random),
        Odds::State => {
            head.stamp = ours?.stamp;
            match head.kind {
                Kind::File if random.chance(50) => head.place.name = some_name(random),
                _ => head.live = !head.live,
            }
        }
        Odds::NotHeld => not_held(random, &table, &mut push),
        Odds::EntryJoined => flip_entry(random, &table, &mut push)?,
        _ => contradict(&mut table, push.heads[at])?,
    }
    mend(&mut push);
    sound(&table).ok()?;
    let read = Push::read(&push.write(), table.n).ok()?;
    (outcome(&table, 0, &read).err() == Some(why)).then_some((table, push))
}

/// The pushed replica gets an id of our own making that we don't hold.
fn not_held(random: &mut Random, table: &Table, push: &mut Push) {
    let count = random.pick(&[1, table.next, table.next + 5, LAST_COUNT]);
    push.heads[0].id = id(table.own, count.min(LAST_COUNT));
    push.entries.clear();
}

/// An entry of the pushed directory comes with our stamp and another flag.
fn flip_entry(random: &mut Random, table: &Table, push: &mut Push) -> Option<()> {
    let there: Vec<Entry> = table.entries_of(push.heads[0].id).copied().collect();
    let ours = random.choose(&there)?;
    let key = |e: &Entry| (e.child, e.name);
    push.entries.retain(|e| key(e) != key(&ours));
    let at = random.index(push.entries.len() + 1);
    let live = !ours.live;
    push.entries.insert(at, Entry { live, ..ours });
    Some(())
}

/// The table gets the entry that this head would set, with the other flag.
fn contradict(table: &mut Table, head: Head) -> Option<()> {
    let Place { directory, name } = head.place;
    let open = |above: &&Head| above.kind == Kind::Directory && above.depth < DEEPEST;
    table.head(directory).filter(open)?;
    let entry = Entry {
        live: !head.live,
        child: head.id,
        stamp: head.stamp,
        name,
    };
    table.highest = table.highest.max(head.stamp / 256);
    let key = |slot: &Slot| (slot.directory, slot.entry.child, slot.entry.name);
    let new = Slot { entry, directory };
    table.entries.retain(|slot| key(slot) != key(&new));
    table.entries.push(new);
    (table.entries.len() <= ENTRY_SLOTS).then_some(())
}

// ---- without aim

/// The bytes of a push, damaged without aim.
pub fn damaged(random: &mut Random, push: &Push) -> Vec<u8> {
    let mut bytes = push.write();
    for _ in 0..random.within(1..=3) {
        let at = random.index(bytes.len());
        match random.below(4) {
            0 => bytes[at] = random.byte(),
            1 => bytes[at] ^= 1 << random.below(8),
            2 => bytes[at] = random.pick(&[0, 1, 2, 255]),
            _ => {
                let from = random.index(bytes.len());
                let width = random.index(bytes.len() - at.max(from)).min(Head::SIZE);
                bytes.copy_within(from..from + width, at);
            }
        }
    }
    bytes
}

/// An acknowledgement to a table's node, right, late, or of what isn't held.
pub fn acknowledgement(random: &mut Random, table: &Table) -> Acknowledgement {
    let pending: Vec<usize> = (0..table.replicas.len())
        .filter(|&slot| table.replicas[slot].pending != 0)
        .collect();
    let slot = random.choose(&pending).unwrap_or(0);
    let replica = &table.replicas[slot];
    let from = replica.pending.trailing_zeros() as u8 + 1;
    let mut told = Acknowledgement {
        from: from.min(table.n),
        to: table.own,
        version: replica.version,
        id: replica.head.id,
    };
    match random.below(8) {
        0 => told.version = random.pick(&[1, told.version + 1, LAST_VERSION]),
        1 => told.from = random.within(1..=table.n.into()) as u8,
        2 => told.to = random.within(1..=table.n.into()) as u8,
        3 => told.id = unheld(random, table),
        4 => told.id = table.replicas[random.index(table.replicas.len())].head.id,
        _ => (),
    }
    told.version = told.version.min(LAST_VERSION);
    told
}

/// Sixteen bytes, or not quite, that are no acknowledgement.
pub fn malformed_acknowledgement(random: &mut Random, table: &Table) -> Vec<u8> {
    let told = acknowledgement(random, table);
    let mut bytes = told.write();
    let n = table.n;
    match random.below(8) {
        0 => bytes.truncate(random.index(16)),
        1 => bytes.push(0),
        2 => bytes[random.index(2)] ^= 1 << random.below(8),
        3 => bytes[2 + random.index(2)] = random.pick(&[0, n + 1, 255]),
        4 => bytes[2] = bytes[3],
        5 => put_u32(&mut bytes, 4, 0),
        6 => put_u32(&mut bytes, 8, no_id(random, n)),
        _ => bytes[12 + random.index(4)] = random.byte() | 1,
    }
    bytes
}
