//! Document 01's "Shortcuts that look right" and the other wrong variants, each of them caught.
//!
//! A test plays one short scenario twice. With `Variant::Right` the outcome must be right, to the
//! stamp; with the wrong variant it must be wrong in the way named: a table that breaks a rule, a
//! clause of demand 3 broken at quiet, a wrong number. So a test fails if the right calls go wrong,
//! and also if the wrong ones are no longer told from them.

mod common;

use common::*;
use rumbezalo_model::calls::{Answer, Service};
use rumbezalo_model::records::{has, Entry, Head, Kind, Place, ROOT};
use rumbezalo_model::table::{verdict, Rule, Table};
use rumbezalo_model::variant::Variant;
use std::collections::{BTreeMap, BTreeSet};

// ---- the nodes and their calls

/// The nodes 1 to N of a cluster, whose calls are all made by one variant.
struct Nodes {
    service: Service,
    tables: Vec<Vec<u8>>,
    /// What the last call came to.
    last: Answer,
    /// The greatest stamp ever issued for each id.
    greatest: BTreeMap<u32, u64>,
}

impl Nodes {
    fn fresh(variant: Variant, n: u64) -> Nodes {
        Nodes {
            service: Service { variant },
            tables: (1..=n).map(|node| fresh(node, n)).collect(),
            last: done(0),
            greatest: BTreeMap::new(),
        }
    }

    fn bytes(&self, node: u8) -> &[u8] {
        &self.tables[usize::from(node) - 1]
    }

    /// A node's table, which has its layout but need not be sound.
    fn table(&self, node: u8) -> Table {
        Table::read(self.bytes(node)).expect("the layout of a table")
    }

    fn all(&self) -> Vec<Table> {
        let nodes = 1..=self.tables.len() as u8;
        nodes.map(|node| self.table(node)).collect()
    }

    /// The rules that the tables break, one for each table that isn't sound.
    fn unsound(&self) -> Vec<Rule> {
        let verdicts = self.tables.iter().map(|bytes| verdict(bytes));
        verdicts.filter_map(Result::err).collect()
    }

    fn head(&self, node: u8, id: u32) -> Head {
        *self.table(node).head(id).expect("held")
    }

    /// "A replica's state is its live flag, place and stamp".
    fn state(&self, node: u8, id: u32) -> (bool, u64, Place) {
        let head = self.head(node, id);
        (head.live, head.stamp, head.place)
    }

    fn entries(&self, node: u8, directory: u32) -> Vec<Entry> {
        self.table(node).entries_of(directory).copied().collect()
    }

    /// Makes a call on a node's table, and notes the stamps that it issued.
    fn call(&mut self, node: u8, call: impl FnOnce(Service, &mut [u8]) -> Answer) {
        let table = &mut self.tables[usize::from(node) - 1];
        self.last = call(self.service, table);
        for replica in self.table(node).replicas {
            let greatest = self.greatest.entry(replica.head.id).or_default();
            *greatest = replica.head.stamp.max(*greatest);
        }
    }

    /// The same for a call that must be done.
    #[track_caller]
    fn does(&mut self, node: u8, call: impl FnOnce(Service, &mut [u8]) -> Answer) -> u32 {
        self.call(node, call);
        assert_eq!(self.last.number, 0);
        self.last.value
    }

    /// Creates and answers the new id.
    fn make(&mut self, node: u8, now: u64, at: u32, kind: u64, text: &str, set: u64) -> u32 {
        self.does(node, |service, table| {
            service.create(table, now, at.into(), kind, text.as_bytes(), set)
        })
    }

    fn rename(&mut self, node: u8, now: u64, id: u32, at: u32, text: &str) {
        self.does(node, |service, table| {
            service.rename(table, now, id.into(), at.into(), text.as_bytes())
        });
    }

    /// The bytes of a push.
    fn push(&mut self, from: u8, id: u32, to: u8) -> Vec<u8> {
        let mut out = vec![FILLER; 1640];
        let written = self.does(from, |service, table| {
            service.push(table, id.into(), to.into(), &mut out)
        });
        out.truncate(written as usize);
        out
    }

    /// Receives a push and answers the acknowledgement.
    fn receive(&mut self, to: u8, now: u64, message: &[u8]) -> [u8; 16] {
        let mut out = [FILLER; 16];
        self.does(to, |service, table| {
            service.receive(table, now, message, &mut out)
        });
        out
    }

    /// One push, received and acknowledged.
    fn deliver(&mut self, from: u8, id: u32, to: u8, now: u64) {
        let message = self.push(from, id, to);
        let told = self.receive(to, now, &message);
        self.does(from, |service, table| service.acknowledged(table, &told));
    }

    /// Delivers what is pending until nothing is, which no scenario puts off for long.
    fn quiet(&mut self, now: u64) {
        for _ in 0..100 {
            match self.next_pending() {
                Some((from, id, to)) => self.deliver(from, id, to, now),
                None => return,
            }
        }
        panic!("no quiet");
    }

    fn next_pending(&self) -> Option<(u8, u32, u8)> {
        self.all().iter().find_map(|table| {
            let replica = table.replicas.iter().find(|r| r.pending != 0)?;
            let to = replica.pending.trailing_zeros() as u8 + 1;
            Some((table.own, replica.head.id, to))
        })
    }
}

fn state(live: bool, stamp: u64, directory: u32, text: &str) -> (bool, u64, Place) {
    let name = name(text);
    (live, stamp, Place { directory, name })
}

// ---- demand 3

/// The clauses of demand 3, which holds "whenever no node has anything pending".
#[derive(Clone, Copy, Debug, PartialEq, Eq)]
enum Clause {
    /// "every node named as a holder of a file holds it"
    Held,
    /// "all its replicas agree in state, holders and entries"
    Agree,
    /// "and show the state with the greatest stamp ever issued for it"
    Greatest,
    /// "each directory has a live entry for a child and name exactly when that child is live and
    /// this is its place, name included"
    Listed,
    /// "and every live file has a path of live entries from the root on each node that holds it"
    Reached,
}

impl Nodes {
    /// The clauses of demand 3 that are broken. All must be quiet.
    fn broken(&self) -> Vec<Clause> {
        assert_eq!(self.next_pending(), None);
        let clauses = [
            (Clause::Held, self.held()),
            (Clause::Agree, self.agree()),
            (Clause::Greatest, self.show_greatest()),
            (Clause::Listed, self.listed()),
            (Clause::Reached, self.reached()),
        ];
        let broken = clauses.into_iter().filter(|(_, holds)| !holds);
        broken.map(|(clause, _)| clause).collect()
    }

    /// Every replica of every node, with its table.
    fn replicas(&self) -> Vec<(Table, Head)> {
        let tables = self.all().into_iter();
        let replicas = tables.flat_map(|table| {
            let heads: Vec<Head> = table.replicas.iter().map(|r| r.head).collect();
            heads.into_iter().map(move |head| (table.clone(), head))
        });
        replicas.collect()
    }

    fn held(&self) -> bool {
        let tables = self.all();
        let holds = |head: &Head, table: &Table| {
            !has(head.holders, table.own) || table.find(head.id).is_some()
        };
        let replicas = self.replicas();
        let mut heads = replicas.iter().map(|(_, head)| head);
        heads.all(|head| tables.iter().all(|table| holds(head, table)))
    }

    fn agree(&self) -> bool {
        let mut shown = BTreeMap::new();
        self.replicas().into_iter().all(|(table, head)| {
            let entries = table.entries_of(head.id);
            let keys = entries.map(|e| (e.child, e.name.bytes, e.stamp, e.live));
            let ours = (head, keys.collect::<BTreeSet<_>>());
            *shown.entry(head.id).or_insert(ours.clone()) == ours
        })
    }

    fn show_greatest(&self) -> bool {
        let replicas = self.replicas();
        let mut heads = replicas.iter().map(|(_, head)| head);
        heads.all(|head| head.stamp == self.greatest[&head.id])
    }

    /// A child's state is the newest that any node shows.
    fn listed(&self) -> bool {
        let mut newest = BTreeMap::new();
        for (_, head) in self.replicas() {
            let known = newest.entry(head.id).or_insert(head);
            if head.stamp > known.stamp {
                *known = head;
            }
        }
        newest.remove(&ROOT);
        let replicas = self.replicas();
        let mut directories = replicas.iter().filter(|(_, h)| h.kind == Kind::Directory);
        directories.all(|(table, directory)| {
            let live = table.entries_of(directory.id).filter(|entry| entry.live);
            let there = |head: &&Head| head.live && head.place.directory == directory.id;
            let children = newest.values().filter(there);
            let listed: BTreeSet<_> = live.map(|e| (e.child, e.name.bytes)).collect();
            listed == children.map(|h| (h.id, h.place.name.bytes)).collect()
        })
    }

    fn reached(&self) -> bool {
        let replicas = self.replicas();
        let mut live = replicas.iter().filter(|(_, head)| head.live);
        live.all(|(table, head)| has_path(table, head))
    }
}

/// Says whether live entries lead from the root to the replica.
fn has_path(table: &Table, head: &Head) -> bool {
    if head.id == ROOT {
        return true;
    }
    let Place { directory, name } = head.place;
    let entry = table.entry_at(directory, head.id, name);
    let directory = table.head(directory);
    entry.is_some_and(|entry| entry.live)
        && directory.is_some_and(|directory| has_path(table, directory))
}

/// What every scenario must come to when the calls are right: sound tables and, once quiet, no
/// clause broken.
fn at_quiet(mut nodes: Nodes) -> Nodes {
    assert_eq!(nodes.unsound(), []);
    nodes.quiet(20);
    assert_eq!(nodes.unsound(), []);
    assert_eq!(nodes.broken(), []);
    nodes
}

// ---- the shortcuts

const ALICE: u32 = 16_777_217;
const FOO: u32 = 16_777_218;
const BOB: u32 = 33_554_433;

/// The first run of document 01, up to the two moves: "at 12 node 1 moves foo to /alice/foo1 and
/// node 2 to /bob/foo2."
fn foo_moved_on_both(variant: Variant) -> Nodes {
    let mut nodes = Nodes::fresh(variant, 2);
    nodes.make(1, 1, ROOT, DIRECTORY, "alice", 3);
    nodes.make(1, 2, ROOT, FILE, "foo", 3);
    nodes.quiet(2);
    nodes.make(2, 3, ROOT, DIRECTORY, "bob", 3);
    nodes.quiet(3);
    nodes.rename(1, 12, FOO, ALICE, "foo1");
    nodes.rename(2, 12, FOO, BOB, "foo2");
    nodes
}

/// "At quiet: foo has 3074 at /bob/foo2; root's "foo" and alice's "foo1" are dead at 3074."
fn foo_has_one_name() {
    let nodes = at_quiet(foo_moved_on_both(Variant::Right));
    let root = [
        entry(true, ALICE, 257, "alice"),
        entry(false, FOO, 3074, "foo"),
        entry(true, BOB, 770, "bob"),
    ];
    for node in [1, 2] {
        assert_eq!(nodes.state(node, FOO), state(true, 3074, BOB, "foo2"));
        assert_eq!(nodes.entries(node, ROOT), root);
        let struck = entry(false, FOO, 3074, "foo1");
        assert_eq!(nodes.entries(node, ALICE), [struck]);
        let winner = entry(true, FOO, 3074, "foo2");
        assert_eq!(nodes.entries(node, BOB), [winner]);
    }
}

/// "Comparing clocks without the node: two changes at 12 would both win."
#[test]
fn clocks_compared_without_the_node() {
    foo_has_one_name();

    let mut wrong = foo_moved_on_both(Variant::ClocksWithoutNode);
    wrong.quiet(13);
    assert_eq!(wrong.unsound(), []);
    let broken = [Clause::Agree, Clause::Greatest, Clause::Listed];
    assert_eq!(wrong.broken(), broken);
    assert_eq!(wrong.state(1, FOO), state(true, 3073, ALICE, "foo1"));
    assert_eq!(wrong.state(2, FOO), state(true, 3074, BOB, "foo2"));
    for node in [1, 2] {
        let one = entry(true, FOO, 3073, "foo1");
        let two = entry(true, FOO, 3074, "foo2");
        assert_eq!(wrong.entries(node, ALICE), [one]);
        assert_eq!(wrong.entries(node, BOB), [two]);
    }
}

/// "Striking out only the place from which the winner came: the loser's entry stays."
#[test]
fn only_the_winners_old_place_struck() {
    foo_has_one_name();

    let mut wrong = foo_moved_on_both(Variant::LoserNotStruck);
    wrong.quiet(13);
    assert_eq!(wrong.unsound(), []);
    assert_eq!(wrong.broken(), [Clause::Listed]);
    for node in [1, 2] {
        assert_eq!(wrong.state(node, FOO), state(true, 3074, BOB, "foo2"));
        let stays = entry(true, FOO, 3073, "foo1");
        assert_eq!(wrong.entries(node, ALICE), [stays]);
    }
}

const F: u32 = 16_777_217;

/// Node 1 makes /f and pushes it, and renames it to /g before it is acknowledged.
fn renamed_since_the_push(variant: Variant) -> Nodes {
    let mut nodes = Nodes::fresh(variant, 2);
    nodes.make(1, 1, ROOT, FILE, "f", 3);
    let message = nodes.push(1, F, 2);
    let told = nodes.receive(2, 1, &message);
    nodes.rename(1, 2, F, ROOT, "g");
    nodes.call(1, |service, table| service.acknowledged(table, &told));
    nodes
}

/// "Clearing a pending bit by id alone: the change made since the push is then never told."
#[test]
fn a_pending_bit_cleared_by_id_alone() {
    let right = renamed_since_the_push(Variant::Right);
    assert_eq!(right.last, refused(15));
    let file = right.table(1).replicas[1];
    assert_eq!((file.version, file.pending), (2, 2));
    let right = at_quiet(right);
    for node in [1, 2] {
        assert_eq!(right.state(node, F), state(true, 513, ROOT, "g"));
    }

    let mut wrong = renamed_since_the_push(Variant::PendingClearedById);
    assert_eq!(wrong.last, done(0));
    let file = wrong.table(1).replicas[1];
    assert_eq!((file.version, file.pending), (2, 0));
    wrong.quiet(3);
    assert_eq!(wrong.unsound(), []);
    let broken = [Clause::Agree, Clause::Greatest, Clause::Reached];
    assert_eq!(wrong.broken(), broken);
    assert_eq!(wrong.state(1, F), state(true, 513, ROOT, "g"));
    assert_eq!(wrong.state(2, F), state(true, 257, ROOT, "f"));
}

const D: u32 = 16_777_217;
const X: u32 = 16_777_218;

/// Both hold /d and /d/x. Node 2 renames x to /y, and of that only the push of d reaches node 1,
/// where x still lives at /d/x but its entry there is dead.
fn entry_struck_early(variant: Variant) -> Nodes {
    let mut nodes = Nodes::fresh(variant, 2);
    nodes.make(1, 1, ROOT, DIRECTORY, "d", 3);
    nodes.make(1, 2, D, FILE, "x", 3);
    nodes.quiet(2);
    nodes.rename(2, 3, X, ROOT, "y");
    nodes.deliver(2, D, 1, 3);
    assert_eq!(nodes.state(1, X), state(true, 513, D, "x"));
    assert_eq!(nodes.entries(1, D), [entry(false, X, 770, "x")]);
    nodes
}

/// Then node 1 removes d, whose listing is empty.
fn removed_when_its_listing_is_empty(variant: Variant) -> Nodes {
    let mut nodes = entry_struck_early(variant);
    let listed = nodes.does(1, |service, table| service.list(table, D.into(), &mut []));
    assert_eq!(listed, 0);
    nodes.call(1, |service, table| service.remove(table, 4, D.into()));
    nodes
}

/// "Letting an empty listing permit removal: a held child may live though its entry was struck
/// early."
#[test]
fn an_empty_listing_permits_removal() {
    let right = removed_when_its_listing_is_empty(Variant::Right);
    assert_eq!(right.last, refused(10));
    let before = entry_struck_early(Variant::Right);
    assert!(right.bytes(1) == before.bytes(1), "a refusal changed bytes");
    let right = at_quiet(right);
    for node in [1, 2] {
        assert_eq!(right.state(node, D), state(true, 257, ROOT, "d"));
        assert_eq!(right.state(node, X), state(true, 770, ROOT, "y"));
    }

    let wrong = removed_when_its_listing_is_empty(Variant::EmptyListingPermitsRemoval);
    assert_eq!(wrong.last, done(0));
    assert_eq!(wrong.state(1, D), state(false, 1025, ROOT, "d"));
    assert_eq!(wrong.state(1, X), state(true, 513, D, "x"));
    assert_eq!(wrong.unsound(), [Rule::PlaceOfLiveIsLive]);
}

/// Then node 1 renames x to where it is.
fn renamed_to_its_own_place(variant: Variant) -> Nodes {
    let mut nodes = entry_struck_early(variant);
    nodes.rename(1, 4, X, D, "x");
    nodes
}

/// The entry of d for x, live with 1025 (01 04), as slot 1 of the entries has it.
const ENDS_LIVE: [u8; 40] = [
    0x45, 0x4E, 1, 0, 2, 0, 0, 1, 0x01, 0x04, 0, 0, 0, 0, 0, 0, 1, b'x', 0, 0, 0, 0, 0, 0, 0, 0, 0,
    0, 0, 0, 0, 0, 1, 0, 0, 1, 0, 0, 0, 0,
];

/// "Renaming to its own place, with the entry struck early: the one entry must end live."
#[test]
fn a_rename_to_its_own_place_strikes_the_entry() {
    let right = renamed_to_its_own_place(Variant::Right);
    assert_eq!(right.bytes(1)[3104 + 40..][..40], ENDS_LIVE);
    assert_eq!(right.table(1).entries.len(), 2);
    let right = at_quiet(right);
    for node in [1, 2] {
        assert_eq!(right.state(node, X), state(true, 1025, D, "x"));
        assert_eq!(right.entries(node, D), [entry(true, X, 1025, "x")]);
        let elsewhere = [entry(true, D, 257, "d"), entry(false, X, 1025, "y")];
        assert_eq!(right.entries(node, ROOT), elsewhere);
    }

    let wrong = renamed_to_its_own_place(Variant::OwnPlaceStruck);
    assert_eq!(wrong.entries(1, D), [entry(false, X, 1025, "x")]);
    assert_eq!(wrong.unsound(), [Rule::EntryAtPlaceLiveIfEqual]);
}

// ---- the other variants

/// Of three nodes 1 and 2 hold /f, and node 1 spreads it to node 3.
fn spread_to_a_third(variant: Variant) -> Nodes {
    let mut nodes = Nodes::fresh(variant, 3);
    nodes.make(1, 1, ROOT, FILE, "f", 0b011);
    nodes.quiet(1);
    nodes.does(1, |service, table| service.spread(table, F.into(), 0b100));
    nodes.quiet(2);
    nodes
}

/// "(c) the pushed replica is made, or its state taken if the stamp is greater, and holders are
/// joined"
#[test]
fn holders_not_joined() {
    let right = at_quiet(spread_to_a_third(Variant::Right));
    for node in [1, 2, 3] {
        assert_eq!(right.head(node, F).holders, 0b111);
    }

    let wrong = spread_to_a_third(Variant::HoldersNotJoined);
    assert_eq!(wrong.unsound(), []);
    assert_eq!(wrong.broken(), [Clause::Agree]);
    assert_eq!(wrong.head(2, F).holders, 0b011);
}

/// The second run of document 01: "At 5 node 1 makes /d/f (1281) for itself, node 2 removes /d
/// (1282). Node 1 receives that at 6".
fn removed_under_a_file(variant: Variant) -> Nodes {
    let mut nodes = Nodes::fresh(variant, 2);
    nodes.make(1, 1, ROOT, DIRECTORY, "d", 3);
    nodes.quiet(1);
    nodes.make(1, 5, D, FILE, "f", 0);
    nodes.does(2, |service, table| service.remove(table, 5, D.into()));
    nodes.deliver(2, D, 1, 6);
    nodes
}

/// "(f) in slot order, each live replica whose place directory is dead has it made live"
#[test]
fn no_resurrection() {
    let right = removed_under_a_file(Variant::Right);
    assert_eq!(right.state(1, D), state(true, 1537, ROOT, "d"));
    let right = at_quiet(right);
    for node in [1, 2] {
        assert_eq!(right.state(node, D), state(true, 1537, ROOT, "d"));
        assert_eq!(right.entries(node, ROOT), [entry(true, D, 1537, "d")]);
    }

    let wrong = removed_under_a_file(Variant::NoResurrection);
    assert_eq!(wrong.state(1, D), state(false, 1282, ROOT, "d"));
    assert_eq!(wrong.unsound(), [Rule::PlaceOfLiveIsLive]);
}

const E: u32 = 16_777_218;
const BELOW: u32 = 33_554_433;

/// Both hold /d and /d/e. Node 2 makes /d/e/f while node 1 removes e and then d; the push of f
/// reaches node 1 at 8.
fn removed_two_levels_above_a_file(variant: Variant) -> Nodes {
    let mut nodes = Nodes::fresh(variant, 2);
    nodes.make(1, 1, ROOT, DIRECTORY, "d", 3);
    nodes.make(1, 2, D, DIRECTORY, "e", 3);
    nodes.quiet(2);
    nodes.make(2, 3, E, FILE, "f", 3);
    nodes.does(1, |service, table| service.remove(table, 4, E.into()));
    nodes.does(1, |service, table| service.remove(table, 5, D.into()));
    nodes.deliver(2, BELOW, 1, 8);
    nodes
}

/// "Making a directory live first makes its place directory live, if dead, then gives it a new
/// stamp at its last place"
#[test]
fn resurrection_of_one_level() {
    let right = removed_two_levels_above_a_file(Variant::Right);
    assert_eq!(right.state(1, D), state(true, 2049, ROOT, "d"));
    assert_eq!(right.state(1, E), state(true, 2305, D, "e"));
    assert_eq!(right.table(1).highest, 9);
    let right = at_quiet(right);
    for node in [1, 2] {
        assert_eq!(right.state(node, D), state(true, 2049, ROOT, "d"));
        assert_eq!(right.state(node, E), state(true, 2305, D, "e"));
        assert_eq!(right.entries(node, ROOT), [entry(true, D, 2049, "d")]);
        assert_eq!(right.entries(node, D), [entry(true, E, 2305, "e")]);
        assert_eq!(right.entries(node, E), [entry(true, BELOW, 770, "f")]);
    }

    let wrong = removed_two_levels_above_a_file(Variant::ResurrectionOneLevel);
    assert_eq!(wrong.state(1, D), state(false, 1281, ROOT, "d"));
    assert_eq!(wrong.state(1, E), state(true, 2049, D, "e"));
    assert_eq!(wrong.unsound(), [Rule::PlaceOfLiveIsLive]);
}

/// Node 1 makes /a for itself and pushes the root, and makes /b before that is acknowledged.
fn another_entry_since_the_push(variant: Variant) -> Nodes {
    let mut nodes = Nodes::fresh(variant, 2);
    nodes.make(1, 1, ROOT, FILE, "a", 0);
    let message = nodes.push(1, ROOT, 2);
    let told = nodes.receive(2, 1, &message);
    nodes.make(1, 2, ROOT, FILE, "b", 0);
    nodes.call(1, |service, table| service.acknowledged(table, &told));
    nodes
}

/// "each older replica whose head or entries changed gets its version raised by one"
#[test]
fn version_kept_where_an_entry_changed() {
    let a = entry(true, F, 257, "a");
    let b = entry(true, F + 1, 513, "b");
    let right = another_entry_since_the_push(Variant::Right);
    assert_eq!(right.last, refused(15));
    let root = right.table(1).replicas[0];
    assert_eq!((root.version, root.pending), (3, 2));
    let right = at_quiet(right);
    for node in [1, 2] {
        assert_eq!(right.entries(node, ROOT), [a, b]);
    }

    let mut wrong = another_entry_since_the_push(Variant::VersionKeptForEntry);
    assert_eq!(wrong.last, done(0));
    let root = wrong.table(1).replicas[0];
    assert_eq!((root.version, root.pending), (1, 0));
    wrong.quiet(3);
    assert_eq!(wrong.unsound(), []);
    assert_eq!(wrong.broken(), [Clause::Agree, Clause::Listed]);
    assert_eq!(wrong.entries(2, ROOT), [a]);
}

/// Node 1 makes /f for both.
fn made_for_both(variant: Variant) -> Nodes {
    let mut nodes = Nodes::fresh(variant, 2);
    nodes.make(1, 1, ROOT, FILE, "f", 3);
    nodes.quiet(1);
    nodes
}

/// "leaving the table alone", shut out by "demand 2's bytes": receive only acknowledges.
#[test]
fn acknowledged_without_joining() {
    let right = at_quiet(made_for_both(Variant::Right));
    assert_eq!(right.state(2, F), state(true, 257, ROOT, "f"));
    assert_eq!(right.entries(2, ROOT), [entry(true, F, 257, "f")]);

    let wrong = made_for_both(Variant::AcknowledgedWithoutJoin);
    assert_eq!(wrong.unsound(), []);
    let broken = [Clause::Held, Clause::Agree, Clause::Listed];
    assert_eq!(wrong.broken(), broken);
    assert!(wrong.bytes(2) == fresh(2, 2), "node 2 joined something");
}

/// Then node 1 renames it to /g.
fn made_for_both_and_renamed(variant: Variant) -> Nodes {
    let mut nodes = made_for_both(variant);
    nodes.rename(1, 2, F, ROOT, "g");
    nodes.quiet(2);
    nodes
}

/// "joining the first message and only acknowledging later ones (step (c) to (f), and demand 3
/// over these steps)"
#[test]
fn only_the_first_message_joined() {
    let right = at_quiet(made_for_both_and_renamed(Variant::Right));
    let root = [entry(false, F, 513, "f"), entry(true, F, 513, "g")];
    for node in [1, 2] {
        assert_eq!(right.state(node, F), state(true, 513, ROOT, "g"));
        let mut entries = right.entries(node, ROOT);
        entries.sort_by_key(|entry| entry.name.bytes);
        assert_eq!(entries, root);
    }

    let wrong = made_for_both_and_renamed(Variant::FirstMessageOnly);
    assert_eq!(wrong.unsound(), []);
    let broken = [Clause::Agree, Clause::Greatest, Clause::Listed];
    assert_eq!(wrong.broken(), broken);
    assert_eq!(wrong.state(2, F), state(true, 257, ROOT, "f"));
    assert_eq!(wrong.entries(2, ROOT), [entry(true, F, 257, "f")]);
}

/// Node 1 makes /f for both at 9, and node 2, whose clock is behind, unlinks it at 5.
fn unlinked_by_a_slow_clock(variant: Variant) -> Nodes {
    let mut nodes = Nodes::fresh(variant, 2);
    nodes.make(1, 9, ROOT, FILE, "f", 3);
    nodes.quiet(9);
    nodes.does(2, |service, table| service.unlink(table, 5, F.into()));
    nodes
}

/// "a stamp never falls behind what the node has seen"
#[test]
fn clock_ignores_the_highest_seen() {
    let right = unlinked_by_a_slow_clock(Variant::Right);
    assert_eq!(right.state(2, F), state(false, 2562, ROOT, "f"));
    let right = at_quiet(right);
    for node in [1, 2] {
        assert_eq!(right.state(node, F), state(false, 2562, ROOT, "f"));
        assert_eq!(right.entries(node, ROOT), [entry(false, F, 2562, "f")]);
    }

    let mut wrong = unlinked_by_a_slow_clock(Variant::ClockIgnoresHighest);
    assert_eq!(wrong.state(2, F), state(false, 1282, ROOT, "f"));
    wrong.quiet(10);
    assert_eq!(wrong.unsound(), []);
    assert_eq!(wrong.broken(), [Clause::Agree, Clause::Greatest]);
    assert_eq!(wrong.state(1, F), state(true, 2305, ROOT, "f"));
}

// ---- all of them

type Scenario = fn(Variant) -> Nodes;

/// The scenario above that catches each variant.
const SCENARIOS: [(Variant, Scenario); 12] = [
    (Variant::ClocksWithoutNode, foo_moved_on_both),
    (Variant::PendingClearedById, renamed_since_the_push),
    (Variant::LoserNotStruck, foo_moved_on_both),
    (
        Variant::EmptyListingPermitsRemoval,
        removed_when_its_listing_is_empty,
    ),
    (Variant::OwnPlaceStruck, renamed_to_its_own_place),
    (Variant::HoldersNotJoined, spread_to_a_third),
    (Variant::NoResurrection, removed_under_a_file),
    (
        Variant::ResurrectionOneLevel,
        removed_two_levels_above_a_file,
    ),
    (Variant::VersionKeptForEntry, another_entry_since_the_push),
    (Variant::AcknowledgedWithoutJoin, made_for_both),
    (Variant::FirstMessageOnly, made_for_both_and_renamed),
    (Variant::ClockIgnoresHighest, unlinked_by_a_slow_clock),
];

/// No wrong variant is left without a scenario, and none passes its own.
#[test]
fn every_wrong_variant_is_caught() {
    assert_eq!(SCENARIOS.map(|(variant, _)| variant), Variant::WRONG);
    for (variant, scenario) in SCENARIOS {
        at_quiet(scenario(Variant::Right));
        let mut wrong = scenario(variant);
        if wrong.unsound().is_empty() {
            wrong.quiet(20);
            assert_ne!(wrong.broken(), [], "{variant:?}");
        }
    }
}
