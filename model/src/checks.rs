//! What every call must keep, on honest and on hostile tables: a refusal changes nothing, an
//! accepted call leaves a sound table, nothing ever falls, and a receive stays within its bounds.
//!
//! What is broken comes back in words.

use crate::asked::{call_name, is_reachable, Call};
use crate::calls::{Answer, Service};
use crate::push::Push;
use crate::records::{clock, Entry, Head, Place, Record};
use crate::table::{verdict, Replica, Slot, Table};
use std::collections::HashSet;

/// What an output buffer is filled with before a call, to see which bytes keep their value.
pub const FILLER: u8 = 0xA5;

/// What a call gave back: its answer, the whole output buffer, and whether the table changed.
#[derive(Clone, Debug)]
pub struct Made {
    pub answer: Answer,
    pub out: Vec<u8>,
    pub changed: bool,
}

impl Made {
    /// Says whether the call was done.
    pub fn done(&self) -> bool {
        self.answer.number == 0
    }

    /// What was written to the output buffer, where the value is a number of bytes.
    pub fn written(&self) -> &[u8] {
        &self.out[..self.answer.value as usize]
    }
}

/// Breaks off with the words unless the condition holds.
pub fn ensure(condition: bool, words: impl FnOnce() -> String) -> Result<(), String> {
    if condition {
        Ok(())
    } else {
        Err(words())
    }
}

fn claim(condition: bool, words: &str) -> Result<(), String> {
    ensure(condition, || words.to_string())
}

/// Makes a call on a table and holds it to what is said of every call.
pub fn make(service: &Service, call: &Call, table: &mut [u8]) -> Result<Made, String> {
    let before = table.to_vec();
    let mut out = vec![FILLER; call.room()];
    let answer = call.make(service, table, &mut out);
    let changed = before != table;
    let made = Made {
        answer,
        out,
        changed,
    };
    ensure(is_reachable(call.code(), answer.number), || {
        let name = call_name(call.code());
        format!("{name} answered {}, which it can't", answer.number)
    })?;
    if made.done() {
        rest_kept(call, &made)?;
    } else {
        nothing_changed(&made)?;
    }
    Ok(made)
}

/// "Bytes past those written keep their value."
fn rest_kept(call: &Call, made: &Made) -> Result<(), String> {
    let value = made.answer.value as usize;
    let written = match call {
        Call::List { .. } => value * Entry::SIZE,
        Call::Push { .. } | Call::Receive { .. } => value,
        _ => 0,
    };
    let rest = made.out.get(written..);
    claim(
        rest.is_some_and(|rest| rest.iter().all(|&byte| byte == FILLER)),
        "bytes past those written were changed",
    )
}

/// "Refusals return value 0 and change no byte."
fn nothing_changed(made: &Made) -> Result<(), String> {
    claim(made.answer.value == 0, "a refusal has a value")?;
    claim(!made.changed, "a refusal changed the table")?;
    let filled = made.out.iter().all(|&byte| byte == FILLER);
    claim(filled, "a refusal changed the output buffer")
}

/// The table that an accepted call left, which must be sound, with nothing fallen.
pub fn kept(before: &Table, call: &Call, after: &[u8]) -> Result<Table, String> {
    let after = left_sound(after)?;
    let told = matches!(call, Call::Acknowledged { .. });
    grown(before, &after, told)?;
    Ok(after)
}

/// The table that these bytes are, which must be sound.
pub fn left_sound(bytes: &[u8]) -> Result<Table, String> {
    verdict(bytes).map_err(|rule| format!("the table left isn't sound: {rule:?}"))
}

/// "Nothing ever falls: stamps, holder sets, entry stamps, versions, the highest clock, the sets of
/// replicas and of entries only grow." Items keep their slots. `told`: the call was an
/// acknowledgement.
fn grown(before: &Table, after: &Table, told: bool) -> Result<(), String> {
    let same = (before.own, before.n) == (after.own, after.n);
    claim(same, "the own node or N changed")?;
    claim(before.next <= after.next, "the next count fell")?;
    claim(before.highest <= after.highest, "the highest clock fell")?;
    let replicas = before.replicas.len() <= after.replicas.len();
    let entries = before.entries.len() <= after.entries.len();
    claim(replicas && entries, "a slot was emptied")?;
    for (old, new) in before.replicas.iter().zip(&after.replicas) {
        let words = |what| format!("replica {}: {what}", old.head.id);
        replica_grown(old, new, told).map_err(words)?;
    }
    for (old, new) in before.entries.iter().zip(&after.entries) {
        let words = |what| format!("entry for {} in {}: {what}", old.entry.child, old.directory);
        entry_grown(old, new).map_err(words)?;
    }
    Ok(())
}

fn replica_grown(old: &Replica, new: &Replica, told: bool) -> Result<(), &'static str> {
    let (was, is) = (&old.head, &new.head);
    let state = |head: &Head| (head.live, head.place);
    let tests = [
        ((was.id, was.kind) == (is.id, is.kind), "its slot changed"),
        (was.stamp <= is.stamp, "its stamp fell"),
        (
            was.stamp < is.stamp || state(was) == state(is),
            "its state changed and its stamp didn't",
        ),
        (was.holders & !is.holders == 0, "a holder was dropped"),
        (old.version <= new.version, "its version fell"),
        (
            new.version - old.version.min(new.version) <= 1,
            "its version was raised by more than one",
        ),
        // "Only an acknowledgement clears a pending bit."
        (
            told || old.pending & !new.pending == 0,
            "a pending bit was cleared",
        ),
    ];
    first_broken(&tests)
}

fn entry_grown(old: &Slot, new: &Slot) -> Result<(), &'static str> {
    let (was, is) = (&old.entry, &new.entry);
    let key = |slot: &Slot| (slot.directory, slot.entry.child, slot.entry.name);
    let tests = [
        (key(old) == key(new), "its slot changed"),
        (was.stamp <= is.stamp, "its stamp fell"),
        (
            was.stamp < is.stamp || was.live == is.live,
            "its flag changed and its stamp didn't",
        ),
    ];
    first_broken(&tests)
}

fn first_broken(tests: &[(bool, &'static str)]) -> Result<(), &'static str> {
    let broken = tests.iter().find(|(holds, _)| !holds);
    broken.map_or(Ok(()), |(_, words)| Err(words))
}

// ---- receive

/// The entries that (d) and (e) of a receive join, in their order, told from the table before:
/// "entries are joined in message order; (e) every replica made, or whose state was taken, sets its
/// entries, root side first".
pub fn joins(before: &Table, push: &Push) -> Vec<Slot> {
    let pushed = &push.heads[0];
    let message = push.entries.iter().map(|&entry| Slot {
        entry,
        directory: pushed.id,
    });
    let mut slots: Vec<Slot> = message.collect();
    for head in push.heads[1..].iter().rev() {
        if before.find(head.id).is_none() {
            slots.push(set_by(head, head.place, head.live));
        }
    }
    let ours = before.head(pushed.id);
    if ours.is_none_or(|ours| pushed.stamp > ours.stamp) {
        slots.push(set_by(pushed, pushed.place, pushed.live));
        let old = ours.map(|ours| ours.place);
        let left = old.filter(|&old| old != pushed.place);
        slots.extend(left.map(|old| set_by(pushed, old, false)));
    }
    slots
}

fn set_by(head: &Head, place: Place, live: bool) -> Slot {
    let entry = Entry {
        live,
        child: head.id,
        stamp: head.stamp,
        name: place.name,
    };
    Slot {
        entry,
        directory: place.directory,
    }
}

/// Says whether one of these entries is at odds with the table: "equal stamps with different [..]
/// flag".
pub fn at_odds(before: &Table, joins: &[Slot]) -> bool {
    joins.iter().any(|new| {
        let old = before.entry_at(new.directory, new.entry.child, new.entry.name);
        old.is_some_and(|old| old.stamp == new.entry.stamp && old.live != new.entry.live)
    })
}

/// "In one receive no two joins of (d) and (e) meet the same directory, child and name".
pub fn joins_apart(joins: &[Slot]) -> Result<(), String> {
    let mut seen = HashSet::new();
    let mut keys = joins
        .iter()
        .map(|slot| (slot.directory, slot.entry.child, slot.entry.name));
    claim(
        keys.all(|key| seen.insert(key)),
        "two joins of one receive met the same directory, child and name",
    )
}

/// The directories that a receive made live, root side first. The outcome may be past its limits.
pub fn made_live<'a>(before: &Table, push: &Push, after: &'a Table) -> Vec<&'a Head> {
    let stamps = push.heads.iter().map(|head| head.stamp);
    let stamps = stamps.chain(push.entries.iter().map(|entry| entry.stamp));
    let seen = stamps.map(clock).fold(before.highest, u64::max);
    let heads = after.replicas.iter().map(|replica| &replica.head);
    let mut made: Vec<&Head> = heads.filter(|head| clock(head.stamp) > seen).collect();
    made.sort_by_key(|head| head.depth);
    made
}

/// "One receive makes at most 16 replicas and 47 entries and draws at most 15 clocks." "At most one
/// directory is made live at top level in a receive; the others are its ancestors." A clock is
/// drawn for each directory made live, and for nothing else.
pub fn receive_bounded(before: &Table, push: &Push, after: &Table) -> Result<(), String> {
    joins_apart(&joins(before, push))?;
    let replicas = after.replicas.len() - before.replicas.len();
    claim(replicas <= 16, "a receive made more than 16 replicas")?;
    let entries = after.entries.len() - before.entries.len();
    claim(entries <= 47, "a receive made more than 47 entries")?;
    let live = made_live(before, push, after);
    claim(live.len() <= 15, "a receive drew more than 15 clocks")?;
    let chain = live
        .windows(2)
        .all(|two| two[1].place.directory == two[0].id);
    claim(
        chain,
        "a receive made live what is no ancestor of the other",
    )
}
