//! The eleven calls.
//!
//! Every call takes any bytes and any numbers. Its refusals stand in the order of their numbers,
//! each checked before the next: "Where several hold, the lowest number is given." What a call
//! would leave is worked out on copies, and reaches the lent bytes only when nothing refuses it:
//! "Refusals return value 0 and change no byte."

use crate::push::Push;
use crate::records::{
    has, id, is_node, is_set, single, without, Acknowledgement, Entry, Head, Kind, Name, Place,
    Record, DEEPEST, LAST_CLOCK, MOST_NODES, ROOT,
};
use crate::steps::{settle, AtOdds, Bound, Work};
use crate::table::{judge, Table};
use crate::variant::Variant;

/// "0 is done. Value: the new id, the bytes written to an output buffer, for list the entries
/// written, for the pending call the sum of pending bits over all replicas; otherwise 0."
#[derive(Clone, Copy, Debug, PartialEq, Eq)]
pub struct Answer {
    pub number: u32,
    pub value: u32,
}

/// The calls, done rightly or as one of the wrong variants.
#[derive(Clone, Copy, Debug)]
pub struct Service {
    pub variant: Variant,
}

/// The number of a refusal, 1 to 17.
type Refusal = u32;

/// What a call that changes the table leaves: the table and the value. Bounds are judged last, by
/// `within`.
type Changed = Result<(Table, u32), Refusal>;

/// What a call that writes to an output buffer leaves there, and the value.
type Written = Result<(Vec<u8>, u32), Refusal>;

impl Service {
    /// Start a table.
    pub fn start(&self, table: &mut [u8], node: u64, n: u64) -> Answer {
        let outcome = started(table, node, n);
        keep(table, outcome)
    }

    /// Create a file or a directory.
    pub fn create(
        &self,
        table: &mut [u8],
        now: u64,
        directory: u64,
        kind: u64,
        name: &[u8],
        set: u64,
    ) -> Answer {
        let outcome = self.created(table, now, directory, kind, name, set);
        keep(table, within(outcome))
    }

    /// Unlink a file.
    pub fn unlink(&self, table: &mut [u8], now: u64, id: u64) -> Answer {
        let outcome = self.unlinked(table, now, id);
        keep(table, within(outcome))
    }

    /// Rename a regular file.
    pub fn rename(
        &self,
        table: &mut [u8],
        now: u64,
        id: u64,
        directory: u64,
        name: &[u8],
    ) -> Answer {
        let outcome = self.renamed(table, now, id, directory, name);
        keep(table, within(outcome))
    }

    /// Remove a directory.
    pub fn remove(&self, table: &mut [u8], now: u64, id: u64) -> Answer {
        let outcome = self.removed(table, now, id);
        keep(table, within(outcome))
    }

    /// Spread a replica to more nodes.
    pub fn spread(&self, table: &mut [u8], id: u64, set: u64) -> Answer {
        let outcome = self.widened(table, id, set);
        keep(table, within(outcome))
    }

    /// List a directory.
    pub fn list(&self, table: &[u8], id: u64, out: &mut [u8]) -> Answer {
        let outcome = listed(table, id, out.len());
        hand_out(out, outcome)
    }

    /// Write a push.
    pub fn push(&self, table: &[u8], id: u64, node: u64, out: &mut [u8]) -> Answer {
        let outcome = pushed(table, id, node, out.len());
        hand_out(out, outcome)
    }

    /// Receive a push.
    pub fn receive(&self, table: &mut [u8], now: u64, message: &[u8], out: &mut [u8]) -> Answer {
        let outcome = self.received(table, now, message, out.len());
        let (changed, written) = match within(outcome) {
            Ok((after, answer)) => (Ok((after, 0)), Ok((answer, Acknowledgement::SIZE as u32))),
            Err(number) => (Err(number), Err(number)),
        };
        keep(table, changed);
        hand_out(out, written)
    }

    /// Receive an acknowledgement.
    pub fn acknowledged(&self, table: &mut [u8], message: &[u8]) -> Answer {
        let outcome = self.told(table, message);
        keep(table, within(outcome))
    }

    /// Count what is pending.
    pub fn pending(&self, table: &[u8]) -> Answer {
        let outcome = lent(table).map(|table| pending_bits(&table));
        answer(outcome)
    }

    /// "Create: next id, new stamp, holders are the given set with the own node. The set may be
    /// empty."
    pub(crate) fn created(
        &self,
        table: &[u8],
        now: u64,
        directory: u64,
        kind: u64,
        name: &[u8],
        set: u64,
    ) -> Changed {
        let before = lent(table)?;
        let kind = Kind::from_number(kind).ok_or(2u32)?;
        let name = Name::from_bytes(name).ok_or(2u32)?;
        refuse_if(!is_set(set, before.n) || now > LAST_CLOCK, 2)?;
        let directory = before.replicas[held(&before, directory)?].head;
        refuse_if(!directory.live, 7)?;
        refuse_if(directory.kind != Kind::Directory, 8)?;
        refuse_if(name_taken(&before, &directory, name), 9)?;
        refuse_if(directory.depth == DEEPEST, 11)?;
        let mut work = Work::on(&before, now, self.variant);
        let new = id(before.own, before.next);
        work.table.next += 1;
        let stamp = work.new_stamp();
        let slot = work.add(Head {
            kind,
            live: true,
            id: new,
            stamp,
            holders: set as u8 | single(before.own),
            depth: directory.depth + 1,
            place: Place {
                directory: directory.id,
                name,
            },
        });
        work.set_entries(slot, None).map_err(at_odds)?;
        let after = settle(&before, work.table, self.variant);
        Ok((after, new))
    }

    /// "Unlink, remove: new stamp, dead."
    pub(crate) fn unlinked(&self, table: &[u8], now: u64, id: u64) -> Changed {
        let before = lent(table)?;
        refuse_if(now > LAST_CLOCK, 2)?;
        let slot = held(&before, id)?;
        let file = before.replicas[slot].head;
        refuse_if(!file.live, 7)?;
        refuse_if(file.kind != Kind::File, 8)?;
        refuse_if(before.find(file.place.directory).is_none(), 12)?;
        let mut work = Work::on(&before, now, self.variant);
        let dead = work.change(slot, |head| head.live = false);
        dead.map_err(at_odds)?;
        let after = settle(&before, work.table, self.variant);
        Ok((after, 0))
    }

    /// "Rename: new stamp, new place."
    pub(crate) fn renamed(
        &self,
        table: &[u8],
        now: u64,
        id: u64,
        directory: u64,
        name: &[u8],
    ) -> Changed {
        let before = lent(table)?;
        let name = Name::from_bytes(name).ok_or(2u32)?;
        refuse_if(now > LAST_CLOCK, 2)?;
        let slot = held(&before, id)?;
        let file = before.replicas[slot].head;
        let directory = before.replicas[held(&before, directory)?].head;
        refuse_if(!file.live || !directory.live, 7)?;
        let kinds = (file.kind, directory.kind);
        refuse_if(kinds != (Kind::File, Kind::Directory), 8)?;
        refuse_if(name_taken(&before, &directory, name), 9)?;
        refuse_if(directory.depth == DEEPEST, 11)?;
        refuse_if(before.find(file.place.directory).is_none(), 12)?;
        let mut work = Work::on(&before, now, self.variant);
        let place = Place {
            directory: directory.id,
            name,
        };
        let moved = work.change(slot, |head| {
            head.place = place;
            head.depth = directory.depth + 1;
        });
        moved.map_err(at_odds)?;
        if self.variant == Variant::OwnPlaceStruck && place == file.place {
            strike(&mut work.table, file.id, place);
        }
        let after = settle(&before, work.table, self.variant);
        Ok((after, 0))
    }

    /// "Unlink, remove: new stamp, dead."
    pub(crate) fn removed(&self, table: &[u8], now: u64, id: u64) -> Changed {
        let before = lent(table)?;
        refuse_if(now > LAST_CLOCK, 2)?;
        let slot = held(&before, id)?;
        let directory = before.replicas[slot].head;
        refuse_if(!directory.live, 7)?;
        refuse_if(directory.kind != Kind::Directory || directory.id == ROOT, 8)?;
        refuse_if(self.occupied(&before, &directory), 10)?;
        let mut work = Work::on(&before, now, self.variant);
        let dead = work.change(slot, |head| head.live = false);
        dead.map_err(at_odds)?;
        let after = settle(&before, work.table, self.variant);
        Ok((after, 0))
    }

    /// 10: "a live entry, or a held live child"
    fn occupied(&self, table: &Table, directory: &Head) -> bool {
        let child = |head: &Head| head.live && head.place.directory == directory.id;
        let has_child = table.replicas.iter().any(|r| child(&r.head));
        let looks_at_children = self.variant != Variant::EmptyListingPermitsRemoval;
        table.entries_of(directory.id).any(|entry| entry.live) || looks_at_children && has_child
    }

    /// "Spread: the set is joined to the holders; nothing new means done with no change. Root may
    /// be spread."
    pub(crate) fn widened(&self, table: &[u8], id: u64, set: u64) -> Changed {
        let before = lent(table)?;
        refuse_if(!is_set(set, before.n), 2)?;
        let slot = held(&before, id)?;
        let mut after = before.clone();
        after.replicas[slot].head.holders |= set as u8;
        let after = settle(&before, after, self.variant);
        Ok((after, 0))
    }

    /// "Receive": the steps (a) to (g), with the table and the bytes of the acknowledgement.
    pub(crate) fn received(
        &self,
        table: &[u8],
        now: u64,
        message: &[u8],
        room: usize,
    ) -> Result<(Table, Vec<u8>), Refusal> {
        let before = lent(table)?;
        refuse_if(now > LAST_CLOCK, 2)?;
        refuse_if(room < Acknowledgement::SIZE, 3)?;
        let push = Push::read(message, before.n).map_err(|_| 4u32)?;
        refuse_if(push.to != before.own, 5)?;
        let mut work = Work::on(&before, now, self.variant);
        let acknowledgement = work.receive(&push).map_err(|_| 13u32)?;
        let after = settle(&before, work.table, self.variant);
        Ok((after, acknowledgement.write()))
    }

    /// "Acknowledgement received: clears the sender's pending bit if the version is the current
    /// one."
    fn told(&self, table: &[u8], message: &[u8]) -> Changed {
        let before = lent(table)?;
        let told = Acknowledgement::read(message, before.n).ok_or(4u32)?;
        refuse_if(told.from == told.to, 4)?;
        refuse_if(told.to != before.own, 5)?;
        let slot = held(&before, told.id.into())?;
        let replica = before.replicas[slot];
        let by_id_alone = self.variant == Variant::PendingClearedById;
        let current = told.version == replica.version || by_id_alone;
        refuse_if(!current || !has(replica.pending, told.from), 15)?;
        let mut after = before.clone();
        after.replicas[slot].pending = without(replica.pending, told.from);
        let after = settle(&before, after, self.variant);
        Ok((after, 0))
    }
}

/// "start a table": a fresh one, whatever the bytes were.
fn started(table: &[u8], node: u64, n: u64) -> Changed {
    refuse_if(table.len() != Table::SIZE, 1)?;
    refuse_if(!is_node(n, MOST_NODES), 2)?;
    refuse_if(!is_node(node, n as u8), 2)?;
    Ok((Table::fresh(node as u8, n as u8), 0))
}

/// "List writes the live entries of a live directory in slot order as entry records." For 3, "an id
/// not held, or a list of a file, takes nothing": a file has no entries.
fn listed(table: &[u8], id: u64, room: usize) -> Written {
    let table = lent(table)?;
    let slot = held(&table, id);
    let mut bytes = Vec::new();
    if let Ok(slot) = slot {
        let entries = table.entries_of(table.replicas[slot].head.id);
        bytes.extend(entries.filter(|entry| entry.live).flat_map(Entry::write));
    }
    refuse_if(room < bytes.len(), 3)?;
    let directory = table.replicas[slot?].head;
    refuse_if(!directory.live, 7)?;
    refuse_if(directory.kind != Kind::Directory, 8)?;
    let entries = bytes.len() / Entry::SIZE;
    Ok((bytes, entries as u32))
}

/// A push of the replica, with its version, to that node. For 3, an id not held takes nothing.
fn pushed(table: &[u8], id: u64, node: u64, room: usize) -> Written {
    let table = lent(table)?;
    refuse_if(!is_node(node, table.n), 2)?;
    let node = node as u8;
    refuse_if(node == table.own, 2)?;
    let slot = held(&table, id);
    let push = slot.map(|slot| Push::of(&table, slot, node).write());
    let bytes = push.unwrap_or_default();
    refuse_if(room < bytes.len(), 3)?;
    let replica = table.replicas[slot?];
    refuse_if(!has(replica.pending, node), 14)?;
    let length = bytes.len() as u32;
    Ok((bytes, length))
}

/// "the sum of pending bits over all replicas"
fn pending_bits(table: &Table) -> u32 {
    table.replicas.iter().map(|r| r.pending.count_ones()).sum()
}

/// 1: "table not sound"
fn lent(table: &[u8]) -> Result<Table, Refusal> {
    judge(table).ok_or(1)
}

/// 6: "an id named isn't held"; a number that is no id is held by nobody.
fn held(table: &Table, id: u64) -> Result<usize, Refusal> {
    let id = u32::try_from(id).map_err(|_| 6u32)?;
    table.find(id).ok_or(6)
}

/// 9: "a live entry there has that name"
fn name_taken(table: &Table, directory: &Head, name: Name) -> bool {
    let mut entries = table.entries_of(directory.id);
    entries.any(|entry| entry.live && entry.name == name)
}

/// The wrong strike of `Variant::OwnPlaceStruck`.
fn strike(table: &mut Table, child: u32, place: Place) {
    for slot in &mut table.entries {
        let at = (slot.directory, slot.entry.child, slot.entry.name);
        if at == (place.directory, child, place.name) {
            slot.entry.live = false;
        }
    }
}

fn refuse_if(condition: bool, number: Refusal) -> Result<(), Refusal> {
    if condition {
        Err(number)
    } else {
        Ok(())
    }
}

/// An entry that is at odds outside of receive: no right step comes here, since a new stamp is
/// above every stamp seen.
fn at_odds(_: AtOdds) -> Refusal {
    13
}

/// 16 and 17: "the outcome needs more than [..]", "the outcome needs [..] past its end". Judged on the
/// outcome, which was worked out as if there were no bounds.
fn within<T>(outcome: Result<(Table, T), Refusal>) -> Result<(Table, T), Refusal> {
    let (after, rest) = outcome?;
    let passed = Bound::ALL.iter().find(|bound| bound.is_passed(&after));
    match passed {
        Some(bound) => Err(bound.number()),
        None => Ok((after, rest)),
    }
}

fn answer(outcome: Result<u32, Refusal>) -> Answer {
    match outcome {
        Ok(value) => Answer { number: 0, value },
        Err(number) => Answer { number, value: 0 },
    }
}

/// Writes the table that a call leaves over the lent one, which has its length: only then was it
/// judged sound, or could be started.
fn keep(table: &mut [u8], outcome: Changed) -> Answer {
    answer(outcome.map(|(after, value)| {
        table.copy_from_slice(&after.bytes());
        value
    }))
}

/// Writes to the output buffer. "Bytes past those written keep their value."
fn hand_out(out: &mut [u8], outcome: Written) -> Answer {
    answer(outcome.map(|(bytes, value)| {
        out[..bytes.len()].copy_from_slice(&bytes);
        value
    }))
}

// ---- the calls, done rightly

const RIGHT: Service = Service {
    variant: Variant::Right,
};

/// Start a table.
pub fn start(table: &mut [u8], node: u64, n: u64) -> Answer {
    RIGHT.start(table, node, n)
}

/// Create a file or a directory.
pub fn create(
    table: &mut [u8],
    now: u64,
    directory: u64,
    kind: u64,
    name: &[u8],
    set: u64,
) -> Answer {
    RIGHT.create(table, now, directory, kind, name, set)
}

/// Unlink a file.
pub fn unlink(table: &mut [u8], now: u64, id: u64) -> Answer {
    RIGHT.unlink(table, now, id)
}

/// Rename a regular file.
pub fn rename(table: &mut [u8], now: u64, id: u64, directory: u64, name: &[u8]) -> Answer {
    RIGHT.rename(table, now, id, directory, name)
}

/// Remove a directory.
pub fn remove(table: &mut [u8], now: u64, id: u64) -> Answer {
    RIGHT.remove(table, now, id)
}

/// Spread a replica to more nodes.
pub fn spread(table: &mut [u8], id: u64, set: u64) -> Answer {
    RIGHT.spread(table, id, set)
}

/// List a directory.
pub fn list(table: &[u8], id: u64, out: &mut [u8]) -> Answer {
    RIGHT.list(table, id, out)
}

/// Write a push.
pub fn push(table: &[u8], id: u64, node: u64, out: &mut [u8]) -> Answer {
    RIGHT.push(table, id, node, out)
}

/// Receive a push.
pub fn receive(table: &mut [u8], now: u64, message: &[u8], out: &mut [u8]) -> Answer {
    RIGHT.receive(table, now, message, out)
}

/// Receive an acknowledgement.
pub fn acknowledged(table: &mut [u8], message: &[u8]) -> Answer {
    RIGHT.acknowledged(table, message)
}

/// Count what is pending.
pub fn pending(table: &[u8]) -> Answer {
    RIGHT.pending(table)
}
