//! Every state ever issued in a cluster, and which of them met.

use crate::asked::Call;
use crate::checks::ensure;
use crate::records::{clock, issuer, Head, Place, ROOT};
use crate::table::Table;
use std::collections::{BTreeMap, BTreeSet};

/// What issued a state.
#[derive(Clone, Copy, Debug, PartialEq, Eq, PartialOrd, Ord)]
pub enum Change {
    Create,
    Unlink,
    Rename,
    Remove,
    MadeLive,
}

/// "A replica's state is its live flag, place and stamp".
#[derive(Clone, Copy, Debug)]
pub struct State {
    pub live: bool,
    pub place: Place,
    /// How it came about, and the stamp of the state that it changed.
    change: Change,
    changed: u64,
}

/// How often changes met that did not know of each other.
#[derive(Clone, Copy, Debug, Default)]
pub struct Met {
    pub rename_rename: u64,
    pub unlink_rename: u64,
    pub unlink_unlink: u64,
    pub remove_remove: u64,
    /// Removed on one node, and on another one made or moved into.
    pub remove_create: u64,
    /// Two live files with one place.
    pub same_name: u64,
}

impl Met {
    /// Takes in what met in another cluster.
    pub fn join(&mut self, other: &Met) {
        self.rename_rename += other.rename_rename;
        self.unlink_rename += other.unlink_rename;
        self.unlink_unlink += other.unlink_unlink;
        self.remove_remove += other.remove_remove;
        self.remove_create += other.remove_create;
        self.same_name += other.same_name;
    }
}

/// The states of every file, by stamp.
#[derive(Clone, Debug, Default)]
pub struct Issued {
    states: BTreeMap<u32, BTreeMap<u64, State>>,
    stamps: BTreeSet<u64>,
    pub met: Met,
}

impl Issued {
    /// Takes in the states that a call of the table's node issued. Every other state that it
    /// changed to was issued before.
    pub fn take(&mut self, before: &Table, call: &Call, after: &Table) -> Result<(), String> {
        for (slot, replica) in after.replicas.iter().enumerate() {
            let head = &replica.head;
            let old = before.replicas.get(slot).map_or(0, |old| old.head.stamp);
            if head.stamp == old {
                continue;
            }
            let own = issuer(head.stamp) == after.own;
            if own && clock(head.stamp) > before.highest {
                self.issue(head, change(call), old)?;
            } else {
                self.known(head)?;
            }
        }
        Ok(())
    }

    fn issue(&mut self, head: &Head, change: Change, changed: u64) -> Result<(), String> {
        let stamp = head.stamp;
        ensure(self.stamps.insert(stamp), || {
            format!("stamp {stamp} was issued twice")
        })?;
        let state = State {
            live: head.live,
            place: head.place,
            change,
            changed,
        };
        self.count_met(head.id, &state);
        self.states.entry(head.id).or_default().insert(stamp, state);
        Ok(())
    }

    fn known(&self, head: &Head) -> Result<(), String> {
        let state = self.states.get(&head.id).and_then(|of| of.get(&head.stamp));
        let same = state.is_some_and(|s| (s.live, s.place) == (head.live, head.place));
        ensure(same, || {
            format!("{} shows a state that was never issued", head.id)
        })
    }

    /// The files with the greatest stamp ever issued for each, and its state.
    pub fn newest(&self) -> impl Iterator<Item = (u32, u64, &State)> {
        let last = self.states.iter().map(|(id, of)| (id, of.last_key_value()));
        last.filter_map(|(&id, last)| last.map(|(&stamp, state)| (id, stamp, state)))
    }

    fn count_met(&mut self, id: u32, new: &State) {
        let pairs = self.states.get(&id).into_iter().flat_map(BTreeMap::values);
        for old in pairs.filter(|old| old.changed == new.changed) {
            let mut pair = [old.change, new.change];
            pair.sort();
            match pair {
                [Change::Rename, Change::Rename] => self.met.rename_rename += 1,
                [Change::Unlink, Change::Rename] => self.met.unlink_rename += 1,
                [Change::Unlink, Change::Unlink] => self.met.unlink_unlink += 1,
                [Change::Remove, Change::Remove] => self.met.remove_remove += 1,
                _ => (),
            }
        }
        let others = || self.newest().filter(|&(other, ..)| other != id);
        let place = new.place;
        let (same_name, remove_create) = match new.change {
            Change::Create | Change::Rename => (
                others().any(|(_, _, s)| s.live && s.place == place),
                others().any(|(other, _, s)| other == place.directory && !s.live),
            ),
            Change::Remove => (
                false,
                others().any(|(_, _, s)| s.live && s.place.directory == id),
            ),
            Change::Unlink | Change::MadeLive => (false, false),
        };
        self.met.same_name += u64::from(same_name);
        self.met.remove_create += u64::from(remove_create);
    }

    /// Says whether a state was ever issued for the file. The root has none.
    pub fn has(&self, id: u32) -> bool {
        id == ROOT || self.states.contains_key(&id)
    }
}

fn change(call: &Call) -> Change {
    match call {
        Call::Create { .. } => Change::Create,
        Call::Unlink { .. } => Change::Unlink,
        Call::Rename { .. } => Change::Rename,
        Call::Remove { .. } => Change::Remove,
        _ => Change::MadeLive,
    }
}
