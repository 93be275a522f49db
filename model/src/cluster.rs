//! Runs clusters through random schedules and holds them to demand 3.
//!
//! Every call is held to what is said of every call (`checks`), every honest message is accepted
//! unless it meets a limit, and whenever the cluster is quiet each clause of demand 3 is checked
//! (`quiet`) against the list of all states ever issued (`issued`).

mod issued;
mod quiet;

use crate::asked::{call_name, Call, Tally};
use crate::calls::Service;
use crate::checks::{self, ensure, Made, FILLER};
use crate::forge::messages::outcome;
use crate::push::Push;
use crate::random::Random;
use crate::records::{Acknowledgement, Entry, Head, Record, ROOT};
use crate::table::{Table, MOST_ENTRIES};
use crate::traffic::{Carried, Nodes, Plan, Quiet, Traffic};
use crate::variant::Variant;
use issued::{Issued, Met};
use std::fmt;

/// Which schedules to run: of this seed, so many from the first on.
#[derive(Clone, Copy, Debug)]
pub struct Options {
    pub schedules: u64,
    pub seed: u64,
    pub first: u64,
    /// How the calls are done; rightly, but in tests that must see the run fail.
    pub variant: Variant,
}

/// What the schedules covered.
#[derive(Clone, Debug, Default)]
pub struct Covered {
    pub schedules: u64,
    /// How many of them had 1 to 8 nodes.
    pub nodes: [u64; 8],
    pub tally: Tally,
    pub carried: Carried,
    pub met: Met,
    pub quiets: u64,
    /// Drives to quiet that ended in refusals 16 or 17.
    pub blocked: u64,
    /// Directories brought back, the most in one receive, and the deepest of all.
    pub made_live: u64,
    pub most_made_live: usize,
    pub deepest_made_live: u8,
    pub deepest: u8,
    pub most_replicas: usize,
    pub most_entries: usize,
    pub most_in_directory: usize,
}

/// Runs the schedules. What goes wrong comes back in words, with how to see it again.
pub fn run(options: &Options) -> Result<Covered, String> {
    let mut covered = Covered::default();
    for schedule in options.first..options.first.saturating_add(options.schedules) {
        run_one(options, schedule, &mut covered).map_err(|words| {
            let seed = options.seed;
            format!(
                "schedule {schedule}, {words}\n\
                 to see it again: model cluster --seed {seed} --first {schedule} --schedules 1"
            )
        })?;
    }
    Ok(covered)
}

fn run_one(options: &Options, schedule: u64, covered: &mut Covered) -> Result<(), String> {
    let mut random = Random::new(options.seed, schedule);
    let plan = Plan::draw(&mut random);
    covered.schedules += 1;
    covered.nodes[usize::from(plan.n) - 1] += 1;
    let service = Service {
        variant: options.variant,
    };
    let watched = Watched::started(service, plan.n, covered)?;
    let mut traffic = Traffic::new(watched, plan, random);
    let outcome = rounds(&mut traffic);
    let Traffic { nodes, carried, .. } = &mut traffic;
    nodes.covered.carried.join(carried);
    nodes.covered.met.join(&nodes.issued.met);
    outcome.map_err(|words| format!("step {}: {words}", traffic.steps()))
}

/// Runs a schedule: each round ends with a drive to quiet.
fn rounds(traffic: &mut Traffic<Watched>) -> Result<(), String> {
    for _ in 0..traffic.plan.rounds {
        for _ in 0..traffic.plan.steps {
            traffic.step()?;
        }
        match traffic.quiet()? {
            Quiet::Reached => traffic.nodes.check_quiet()?,
            Quiet::Blocked => traffic.nodes.covered.blocked += 1,
        }
    }
    Ok(())
}

/// A node's table, as bytes and as what they are.
struct Node {
    bytes: Vec<u8>,
    table: Table,
}

/// A cluster whose every call is checked.
struct Watched<'a> {
    service: Service,
    nodes: Vec<Node>,
    issued: Issued,
    covered: &'a mut Covered,
}

impl Watched<'_> {
    /// "each started fresh once with that N"
    fn started(service: Service, n: u8, covered: &mut Covered) -> Result<Watched<'_>, String> {
        let mut nodes = Vec::new();
        for own in 1..=n {
            let mut bytes = vec![FILLER; Table::SIZE];
            let (node, n) = (own.into(), n.into());
            let made = checks::make(&service, &Call::Start { node, n }, &mut bytes)?;
            covered.tally.add(1, made.answer.number);
            let table = checks::left_sound(&bytes)?;
            nodes.push(Node { bytes, table });
        }
        Ok(Watched {
            service,
            nodes,
            issued: Issued::default(),
            covered,
        })
    }

    fn check_quiet(&mut self) -> Result<(), String> {
        let n = self.nodes.len() as u8;
        for node in 1..=n {
            let pending = self.call(node, &Call::Pending)?;
            ensure(pending.answer.value == 0, || {
                format!("node {node} has something pending at quiet")
            })?;
        }
        let tables: Vec<&Table> = self.nodes.iter().map(|node| &node.table).collect();
        quiet::check(&tables, &self.issued).map_err(|words| format!("at quiet, {words}"))?;
        self.covered.quiets += 1;
        Ok(())
    }

    fn checked(&mut self, node: u8, call: &Call) -> Result<Made, String> {
        let Node { bytes, table } = &mut self.nodes[usize::from(node) - 1];
        let made = checks::make(&self.service, call, bytes)?;
        let number = made.answer.number;
        self.covered.tally.add(call.code(), number);
        match number {
            0 => output_right(table, call, &made)?,
            number => refusal_right(table, call, number)?,
        }
        if !made.changed {
            return Ok(made);
        }
        let after = checks::kept(table, call, bytes)?;
        self.issued.take(table, call, &after)?;
        if let Call::Receive { message, .. } = call {
            let push = read_back(message, table.n)?;
            checks::receive_bounded(table, &push, &after)?;
            self.covered
                .live_again(&checks::made_live(table, &push, &after));
        }
        self.covered.fullest(&after);
        *table = after;
        Ok(made)
    }
}

impl Nodes for Watched<'_> {
    fn table(&self, node: u8) -> &Table {
        &self.nodes[usize::from(node) - 1].table
    }

    fn call(&mut self, node: u8, call: &Call) -> Result<Made, String> {
        self.checked(node, call).map_err(|words| {
            let name = call_name(call.code());
            format!("{name} at node {node}: {words}\nthe call: {call:?}")
        })
    }
}

/// In a cluster every table is sound and every message is what a node wrote, so 1, 4 and 13 are
/// never given. A receive that meets a limit is bounded all the same.
fn refusal_right(table: &Table, call: &Call, number: u32) -> Result<(), String> {
    ensure(!matches!(number, 1 | 4 | 13), || {
        format!("refused with {number}, in an honest cluster")
    })?;
    match call {
        Call::Receive { now, message, .. } if matches!(number, 16 | 17) => {
            let push = read_back(message, table.n)?;
            let after = outcome(table, *now, &push);
            let after = after.map_err(|why| format!("at odds with the table: {why:?}"))?;
            checks::receive_bounded(table, &push, &after)
        }
        _ => Ok(()),
    }
}

fn read_back(message: &[u8], n: u8) -> Result<Push, String> {
    Push::read(message, n).map_err(|why| format!("a push can't be read back: {why:?}"))
}

// ---- what a call hands out

/// Holds what was written to the output buffer, or the value, to the table.
fn output_right(table: &Table, call: &Call, made: &Made) -> Result<(), String> {
    let right = match call {
        Call::List { id, .. } => listing_right(table, *id as u32, made),
        Call::Push { id, node, .. } => push_right(table, *id as u32, *node as u8, made)?,
        Call::Receive { message, .. } => acknowledgement_right(table, message, made)?,
        Call::Pending => made.answer.value == pending_bits(table),
        _ => true,
    };
    ensure(right, || "what it handed out isn't right".to_string())
}

/// "List writes the live entries of a live directory in slot order as entry records."
fn listing_right(table: &Table, id: u32, made: &Made) -> bool {
    let live = table.entries_of(id).filter(|entry| entry.live);
    let listed = made
        .out
        .chunks(Entry::SIZE)
        .take(made.answer.value as usize);
    live.map(Entry::write).eq(listed)
}

/// "a push read back gives the heads and entries that its writer held": "First head: the replica
/// pushed; then its place directory and so on up, without the root", "Entries: the pushed
/// directory's, all of them, in slot order."
fn push_right(table: &Table, id: u32, to: u8, made: &Made) -> Result<bool, String> {
    let push = read_back(made.written(), table.n)?;
    let mut heads = Vec::new();
    let mut next = table.head(id);
    while let Some(head) = next {
        heads.push(*head);
        let above = Some(head.place.directory).filter(|&above| above != ROOT);
        next = above.and_then(|above| table.head(above));
    }
    let version = table.find(id).map(|slot| table.replicas[slot].version);
    Ok((push.from, push.to) == (table.own, to)
        && Some(push.version) == version
        && push.heads == heads
        && push.entries.iter().eq(table.entries_of(id)))
}

/// "(g) the acknowledgement is written with the message's version and first id, from and to
/// exchanged."
fn acknowledgement_right(table: &Table, message: &[u8], made: &Made) -> Result<bool, String> {
    let push = read_back(message, table.n)?;
    let right = Acknowledgement {
        from: push.to,
        to: push.from,
        version: push.version,
        id: push.heads[0].id,
    };
    Ok(made.written() == right.write())
}

/// "the sum of pending bits over all replicas"
fn pending_bits(table: &Table) -> u32 {
    table.replicas.iter().map(|r| r.pending.count_ones()).sum()
}

// ---- what was covered

impl Covered {
    /// Says whether so many quiets were checked, at least: demand 3 speaks of nothing else, so a run
    /// with few of them says little.
    pub fn reached(&self, quiets: u64) -> Result<(), String> {
        ensure(self.quiets >= quiets, || {
            format!("{} quiets were checked, fewer than {quiets}", self.quiets)
        })
    }

    fn live_again(&mut self, made: &[&Head]) {
        self.made_live += made.len() as u64;
        self.most_made_live = self.most_made_live.max(made.len());
        let deepest = made.last().map_or(0, |head| head.depth);
        self.deepest_made_live = self.deepest_made_live.max(deepest);
    }

    fn fullest(&mut self, table: &Table) {
        let heads = table.replicas.iter().map(|r| &r.head);
        let depth = heads.map(|head| head.depth).max().unwrap_or(0);
        self.deepest = self.deepest.max(depth);
        self.most_replicas = self.most_replicas.max(table.replicas.len());
        self.most_entries = self.most_entries.max(table.entries.len());
        if self.most_in_directory < MOST_ENTRIES {
            let counts = table
                .replicas
                .iter()
                .map(|r| table.entries_of(r.head.id).count());
            self.most_in_directory = counts.fold(self.most_in_directory, usize::max);
        }
    }
}

impl fmt::Display for Covered {
    fn fmt(&self, f: &mut fmt::Formatter) -> fmt::Result {
        let Covered { carried, met, .. } = self;
        write!(f, "{} schedules, by nodes:", self.schedules)?;
        for (count, n) in self.nodes.iter().zip(1..) {
            write!(f, " {n}: {count}")?;
        }
        writeln!(f, "\n\nanswers by number\n{}\n", self.tally)?;
        writeln!(
            f,
            "quiets: {} checked, {} blocked by refusals 16 or 17",
            self.quiets, self.blocked
        )?;
        writeln!(
            f,
            "messages: {} written, {} lost, {} late, {} repeated, {} misrouted; {} partitions",
            carried.written,
            carried.lost,
            carried.late,
            carried.repeated,
            carried.misrouted,
            carried.partitions
        )?;
        writeln!(
            f,
            "met: rename against rename {}, unlink against rename {}, unlink against unlink {}, \
             remove against remove {}, remove against create or rename {}, one name twice {}",
            met.rename_rename,
            met.unlink_rename,
            met.unlink_unlink,
            met.remove_remove,
            met.remove_create,
            met.same_name
        )?;
        writeln!(
            f,
            "directories brought back: {}, at most {} in one receive, the deepest at depth {}",
            self.made_live, self.most_made_live, self.deepest_made_live
        )?;
        write!(
            f,
            "deepest path {}; fullest table {} replicas, {} entries, {} in a directory",
            self.deepest, self.most_replicas, self.most_entries, self.most_in_directory
        )
    }
}
