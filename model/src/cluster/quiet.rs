//! Demand 3, clause by clause: what holds "whenever no node has anything pending (a directory
//! counts as a file here; the root has no issued stamp and stands in no entry)".

use super::issued::Issued;
use crate::checks::ensure;
use crate::records::{has, Entry, Head, Kind, Name, Place, ROOT};
use crate::table::Table;
use std::collections::{BTreeMap, BTreeSet};

/// A name in an order.
fn ordered(name: Name) -> (u8, [u8; 15]) {
    (name.length, name.bytes)
}

/// A child and a name, in an order.
type Key = (u32, (u8, [u8; 15]));

/// Holds the tables of the nodes 1 to N, with nothing pending, to each clause.
pub fn check(tables: &[&Table], issued: &Issued) -> Result<(), String> {
    holders_hold(tables)?;
    replicas_agree(tables)?;
    newest_shown(tables, issued)?;
    entries_as_places(tables, issued)?;
    paths(tables)
}

fn heads<'a>(tables: &'a [&Table]) -> impl Iterator<Item = (&'a Table, &'a Head)> {
    let of = |table: &'a Table| table.replicas.iter().map(move |r| (table, &r.head));
    tables.iter().flat_map(move |table| of(table))
}

/// "every node named as a holder of a file holds it"
fn holders_hold(tables: &[&Table]) -> Result<(), String> {
    for (table, head) in heads(tables) {
        for holder in tables.iter().filter(|t| has(head.holders, t.own)) {
            ensure(holder.find(head.id).is_some(), || {
                let (id, own, other) = (head.id, table.own, holder.own);
                format!("node {own} names node {other} as a holder of {id}, which it isn't")
            })?;
        }
    }
    Ok(())
}

/// "all its replicas agree in state, holders and entries"
fn replicas_agree(tables: &[&Table]) -> Result<(), String> {
    let mut first: BTreeMap<u32, (&Head, Vec<_>)> = BTreeMap::new();
    for (table, head) in heads(tables) {
        let entries = entries(table, head.id);
        let (other, others) = first.entry(head.id).or_insert((head, entries.clone()));
        let id = head.id;
        let state = |head: &Head| (head.live, head.place, head.stamp);
        ensure(state(head) == state(other), || {
            format!("replicas of {id} differ in state")
        })?;
        ensure(head.holders == other.holders, || {
            format!("replicas of {id} differ in holders")
        })?;
        ensure(entries == *others, || {
            format!("replicas of {id} differ in entries")
        })?;
    }
    Ok(())
}

/// The entries of a directory, in an order of their own.
fn entries(table: &Table, id: u32) -> Vec<(Key, u64, bool)> {
    let entry = |e: &Entry| ((e.child, ordered(e.name)), e.stamp, e.live);
    let mut entries: Vec<_> = table.entries_of(id).map(entry).collect();
    entries.sort();
    entries
}

/// "and show the state with the greatest stamp ever issued for it"
fn newest_shown(tables: &[&Table], issued: &Issued) -> Result<(), String> {
    let unissued = heads(tables).find(|(_, head)| !issued.has(head.id));
    ensure(unissued.is_none(), || {
        "a file is held that was never issued".to_string()
    })?;
    for (id, stamp, state) in issued.newest() {
        let replicas: Vec<&Head> = tables.iter().filter_map(|t| t.head(id)).collect();
        ensure(!replicas.is_empty(), || format!("nobody holds {id}"))?;
        for head in replicas {
            let newest = (stamp, state.live, state.place);
            ensure((head.stamp, head.live, head.place) == newest, || {
                format!("{id} doesn't show its newest state, {stamp}")
            })?;
        }
    }
    Ok(())
}

/// "each directory has a live entry for a child and name exactly when that child is live and this
/// is its place, name included"
fn entries_as_places(tables: &[&Table], issued: &Issued) -> Result<(), String> {
    let mut children: BTreeMap<u32, BTreeSet<Key>> = BTreeMap::new();
    for (id, _, state) in issued.newest().filter(|(_, _, state)| state.live) {
        let Place { directory, name } = state.place;
        let there = children.entry(directory).or_default();
        there.insert((id, ordered(name)));
    }
    let directories = heads(tables).filter(|(_, head)| head.kind == Kind::Directory);
    for (table, head) in directories {
        let live = table.entries_of(head.id).filter(|entry| entry.live);
        let shown: BTreeSet<Key> = live.map(|e| (e.child, ordered(e.name))).collect();
        let right = children.get(&head.id).cloned().unwrap_or_default();
        if let Some(key) = shown.symmetric_difference(&right).next() {
            let (own, id, child) = (table.own, head.id, key.0);
            let verb = if shown.contains(key) {
                "shows"
            } else {
                "doesn't show"
            };
            return Err(format!(
                "on node {own} directory {id} {verb} {child}, wrongly"
            ));
        }
    }
    Ok(())
}

/// "and every live file has a path of live entries from the root on each node that holds it"
fn paths(tables: &[&Table]) -> Result<(), String> {
    for (table, head) in heads(tables).filter(|(_, head)| head.live) {
        let mut at = head;
        while at.id != ROOT {
            let Place { directory, name } = at.place;
            let entry = table.entry_at(directory, at.id, name);
            let live = entry.is_some_and(|entry| entry.live);
            let above = table.head(directory).filter(|_| live);
            at = above.ok_or_else(|| {
                let (own, id) = (table.own, head.id);
                format!("on node {own} file {id} has no path from the root")
            })?;
        }
    }
    Ok(())
}
