//! Document 01, "Steps": what calls are made of.
//!
//! A call works on a copy of the table, without limits. Its outcome is then settled (versions and
//! pending) and judged by its limits, refusals 16 and 17.

use crate::push::Push;
use crate::records::{
    clock, maker, single, stamp, without, Acknowledgement, Entry, Head, Kind, Place, LAST_CLOCK,
    LAST_COUNT, LAST_VERSION,
};
use crate::table::{Replica, Slot, Table, ENTRY_SLOTS, MOST_ENTRIES, REPLICA_SLOTS};
use crate::variant::Variant;

/// What joining an entry comes to.
#[derive(Clone, Copy, Debug, PartialEq, Eq)]
pub enum Join {
    Added,
    Replaced,
    Same,
    /// Equal stamps with different flags.
    AtOdds,
}

/// An entry to be set was at odds with the one there.
#[derive(Clone, Copy, Debug, PartialEq, Eq)]
pub struct AtOdds;

/// 13, "message against table", by what it was given for.
#[derive(Clone, Copy, Debug, PartialEq, Eq)]
pub enum Odds {
    /// "a head's kind differs from ours"
    Kind,
    /// "a directory's place or depth does"
    Place,
    /// "equal stamps with different state (any head)"
    State,
    /// "a head with an id of our own making that we don't hold"
    NotHeld,
    /// "or flag", of an entry joined in (d)
    EntryJoined,
    /// "entries set in (e) included"
    EntrySet,
    /// An entry set in (f), where the stamp is new.
    EntryMadeLive,
}

/// "new clock is the larger of now and the highest seen plus one"
pub fn new_clock(now: u64, highest: u64) -> u64 {
    now.max(highest + 1)
}

/// A call at work: the copy of a sound table, and the now it was given.
#[derive(Clone, Debug)]
pub struct Work {
    pub variant: Variant,
    pub now: u64,
    pub table: Table,
}

impl Work {
    /// Begins with a copy of the table.
    pub fn on(table: &Table, now: u64, variant: Variant) -> Work {
        Work {
            variant,
            now,
            table: table.clone(),
        }
    }

    /// A stamp with a new clock; "it becomes the highest seen."
    pub fn new_stamp(&mut self) -> u64 {
        let seen = match self.variant {
            Variant::ClockIgnoresHighest => 0,
            _ => self.table.highest,
        };
        let clock = new_clock(self.now, seen);
        self.table.highest = self.table.highest.max(clock);
        stamp(clock, self.table.own)
    }

    /// Stamps are "ordered as a number".
    fn greater(&self, a: u64, b: u64) -> bool {
        match self.variant {
            Variant::ClocksWithoutNode => clock(a) > clock(b),
            _ => a > b,
        }
    }

    /// "Join of an entry: absent, it is added; else the greater stamp wins; equal stamps with equal
    /// flags change nothing." "A new item takes the lowest free slot", which is the one after the
    /// used ones.
    pub fn join(&mut self, directory: u32, entry: Entry) -> Join {
        let key = |slot: &Slot| (slot.directory, slot.entry.child, slot.entry.name);
        let new = Slot { entry, directory };
        let there = self.table.entries.iter().position(|s| key(s) == key(&new));
        let Some(there) = there else {
            self.table.entries.push(new);
            return Join::Added;
        };
        let old = self.table.entries[there].entry;
        if self.greater(entry.stamp, old.stamp) {
            self.table.entries[there] = new;
            Join::Replaced
        } else if entry.stamp == old.stamp && entry.live != old.live {
            Join::AtOdds
        } else {
            Join::Same
        }
    }

    /// "A new or changed state of a replica joins an entry at its new place, with its stamp and
    /// live flag; then, if the old place differs, a dead one with the new stamp at the old place."
    /// A new replica has no old place.
    pub fn set_entries(&mut self, slot: usize, old: Option<Place>) -> Result<(), AtOdds> {
        let head = self.table.replicas[slot].head;
        self.set_entry(&head, head.place, head.live)?;
        match old.filter(|&old| old != head.place) {
            Some(old) => self.set_entry(&head, old, false),
            None => Ok(()),
        }
    }

    fn set_entry(&mut self, head: &Head, place: Place, live: bool) -> Result<(), AtOdds> {
        let entry = Entry {
            live,
            child: head.id,
            stamp: head.stamp,
            name: place.name,
        };
        match self.join(place.directory, entry) {
            Join::Added | Join::Replaced | Join::Same => Ok(()),
            Join::AtOdds => Err(AtOdds),
        }
    }

    /// A new replica, in the lowest free slot. It gets its version when the call is settled.
    pub fn add(&mut self, head: Head) -> usize {
        self.table.replicas.push(Replica {
            head,
            version: 0,
            pending: 0,
        });
        self.table.replicas.len() - 1
    }

    /// A held replica's state is changed and given a new stamp, and sets its entries.
    pub fn change(&mut self, slot: usize, change: impl FnOnce(&mut Head)) -> Result<(), AtOdds> {
        let stamp = self.new_stamp();
        let head = &mut self.table.replicas[slot].head;
        let old = head.place;
        change(head);
        head.stamp = stamp;
        self.set_entries(slot, Some(old))
    }

    /// "Making a directory live first makes its place directory live, if dead, then gives it a new
    /// stamp at its last place; setting its entry there belongs to the same act, so each of the two
    /// calls for the other, up to the root." The depth falls at each turn.
    pub fn make_live(&mut self, slot: usize) -> Result<(), AtOdds> {
        if self.variant != Variant::ResurrectionOneLevel {
            self.make_place_live(slot)?;
        }
        self.change(slot, |head| head.live = true)
    }

    /// Makes a replica's place directory live, if dead, so that the replica's entry has a live
    /// directory to stand in.
    pub fn make_place_live(&mut self, slot: usize) -> Result<(), AtOdds> {
        let directory = self.table.replicas[slot].head.place.directory;
        match self.table.find(directory) {
            Some(slot) if !self.table.replicas[slot].head.live => self.make_live(slot),
            _ => Ok(()),
        }
    }

    /// "Receive", (a) to (g), or why 13 is given. A push that was read has a first head.
    pub fn receive(&mut self, push: &Push) -> Result<Acknowledgement, Odds> {
        let pushed = push.heads[0];
        push.heads.iter().try_for_each(|head| self.compare(head))?;
        let joins = match self.variant {
            Variant::AcknowledgedWithoutJoin => false,
            Variant::FirstMessageOnly => self.table.find(pushed.id).is_none(),
            _ => true,
        };
        if joins {
            self.take_in(push)?;
        }
        // "(g) the acknowledgement is written with the message's version and first id, from and to
        // exchanged."
        Ok(Acknowledgement {
            from: push.to,
            to: push.from,
            version: push.version,
            id: pushed.id,
        })
    }

    /// 13: "a head's kind differs from ours; a directory's place or depth does; equal stamps with
    /// different state (any head) [..]; a head with an id of our own making that we don't hold".
    fn compare(&self, head: &Head) -> Result<(), Odds> {
        let Some(ours) = self.table.head(head.id) else {
            let own = maker(head.id) == self.table.own;
            return if own { Err(Odds::NotHeld) } else { Ok(()) };
        };
        let elsewhere = head.place != ours.place || head.depth != ours.depth;
        if head.kind != ours.kind {
            Err(Odds::Kind)
        } else if head.kind == Kind::Directory && elsewhere {
            Err(Odds::Place)
        } else if head.stamp == ours.stamp && (head.live, head.place) != (ours.live, ours.place) {
            Err(Odds::State)
        } else {
            Ok(())
        }
    }

    fn take_in(&mut self, push: &Push) -> Result<(), Odds> {
        self.take_clocks(push);
        let mut changed = self.make_ancestors(push);
        changed.extend(self.take_pushed(&push.heads[0]));
        self.join_entries(push)?;
        // "(e) every replica made, or whose state was taken, sets its entries, root side first"
        for (slot, old) in changed {
            self.set_entries(slot, old)
                .map_err(|AtOdds| Odds::EntrySet)?;
        }
        if self.variant != Variant::NoResurrection {
            self.resurrect().map_err(|AtOdds| Odds::EntryMadeLive)?;
        }
        Ok(())
    }

    /// "(a) the highest clock takes in all clocks of the message"
    fn take_clocks(&mut self, push: &Push) {
        let heads = push.heads.iter().map(|head| head.stamp);
        let stamps = heads.chain(push.entries.iter().map(|entry| entry.stamp));
        let greatest = stamps.map(clock).max().unwrap_or(0);
        self.table.highest = self.table.highest.max(greatest);
    }

    /// "(b) missing ancestors are made from the root side down, with the message's state and the
    /// own node added; ancestors already held are not touched". Answers the slots made.
    fn make_ancestors(&mut self, push: &Push) -> Vec<(usize, Option<Place>)> {
        let mut made = Vec::new();
        for ancestor in push.heads[1..].iter().rev() {
            if self.table.find(ancestor.id).is_none() {
                let mut head = *ancestor;
                head.holders |= single(self.table.own);
                made.push((self.add(head), None));
            }
        }
        made
    }

    /// "(c) the pushed replica is made, or its state taken if the stamp is greater, and holders are
    /// joined". Answers its slot, with its old place if it has one, if it was made or its state
    /// taken.
    fn take_pushed(&mut self, head: &Head) -> Option<(usize, Option<Place>)> {
        let Some(slot) = self.table.find(head.id) else {
            return Some((self.add(*head), None));
        };
        let ours = self.table.replicas[slot].head;
        let mut joined = ours;
        if self.variant != Variant::HoldersNotJoined {
            joined.holders |= head.holders;
        }
        let taken = self.greater(head.stamp, ours.stamp);
        if taken {
            let holders = joined.holders;
            joined = Head { holders, ..*head };
        }
        self.table.replicas[slot].head = joined;
        let old = match self.variant {
            Variant::LoserNotStruck => None,
            _ => Some(ours.place),
        };
        taken.then_some((slot, old))
    }

    /// "(d) entries are joined in message order"
    fn join_entries(&mut self, push: &Push) -> Result<(), Odds> {
        for entry in &push.entries {
            if self.join(push.heads[0].id, *entry) == Join::AtOdds {
                return Err(Odds::EntryJoined);
            }
        }
        Ok(())
    }

    /// "(f) in slot order, each live replica whose place directory is dead has it made live"
    fn resurrect(&mut self) -> Result<(), AtOdds> {
        for slot in 0..self.table.replicas.len() {
            if self.table.replicas[slot].head.live {
                self.make_place_live(slot)?;
            }
        }
        Ok(())
    }
}

/// "After any call, each older replica whose head or entries changed gets its version raised by
/// one; a new one has version 1. For both, pending becomes holders without the own node." A new one
/// was added with version 0.
pub fn settle(before: &Table, mut after: Table, variant: Variant) -> Table {
    let mut replicas = std::mem::take(&mut after.replicas);
    for replica in &mut replicas {
        let id = replica.head.id;
        let head_changed = before.head(id) != Some(&replica.head);
        let entries_changed = !before.entries_of(id).eq(after.entries_of(id));
        if head_changed || entries_changed {
            let kept = variant == Variant::VersionKeptForEntry && !head_changed;
            replica.version += u64::from(!kept);
            replica.pending = without(replica.head.holders, after.own);
        }
    }
    after.replicas = replicas;
    after
}

/// A bound that an outcome can be past.
#[derive(Clone, Copy, Debug, PartialEq, Eq)]
pub enum Bound {
    Replicas,
    Entries,
    Directory,
    Clock,
    Version,
    Count,
}

impl Bound {
    /// All of them, those of the lower refusal first.
    pub const ALL: [Bound; 6] = [
        Bound::Replicas,
        Bound::Entries,
        Bound::Directory,
        Bound::Clock,
        Bound::Version,
        Bound::Count,
    ];

    /// 16: "the outcome needs more than 64 replicas, 256 entries, or 32 in a directory"; 17: "the
    /// outcome needs a clock, version (2^32-1) or count past its end".
    pub fn number(self) -> u32 {
        match self {
            Bound::Replicas | Bound::Entries | Bound::Directory => 16,
            Bound::Clock | Bound::Version | Bound::Count => 17,
        }
    }

    /// Says whether the table is past the bound. "Next count may reach 16777216, which means none is
    /// left."
    pub fn is_passed(self, table: &Table) -> bool {
        let crowded = |replica: &Replica| table.entries_of(replica.head.id).count() > MOST_ENTRIES;
        match self {
            Bound::Replicas => table.replicas.len() > REPLICA_SLOTS,
            Bound::Entries => table.entries.len() > ENTRY_SLOTS,
            Bound::Directory => table.replicas.iter().any(crowded),
            Bound::Clock => table.highest > LAST_CLOCK,
            Bound::Version => table.replicas.iter().any(|r| r.version > LAST_VERSION),
            Bound::Count => table.next > LAST_COUNT + 1,
        }
    }
}
