//! Honest traffic of a cluster: what the users of its nodes do, and what a bad network makes of
//! their messages.
//!
//! "Take all the nodes of one cluster, 1 to N, each started fresh once with that N; they make any
//! calls, never go back to an earlier table, and receive only messages and acknowledgements that
//! these nodes wrote, lost, repeated or late in any way, under any clocks."
//!
//! Ids and names are drawn from few, so that changes meet: rename against rename, unlink against
//! rename, remove against create, one name made twice, and a file made in a directory whose whole
//! branch was removed elsewhere.

use crate::asked::Call;
use crate::checks::Made;
use crate::random::Random;
use crate::records::{
    all_nodes, has, single, Acknowledgement, Entry, Head, Kind, PushHeader, Record, DEEPEST,
    LAST_CLOCK, ROOT,
};
use crate::table::{Replica, Table};
use std::collections::BTreeSet;

/// The nodes of a cluster, and whoever makes the calls on their tables.
pub trait Nodes {
    /// The table of a node.
    fn table(&self, node: u8) -> &Table;

    /// Makes a call at a node, or says what is wrong with its outcome.
    fn call(&mut self, node: u8, call: &Call) -> Result<Made, String>;
}

// ---- the plan of a schedule

/// What the trees of a schedule look like.
#[derive(Clone, Copy, Debug, PartialEq, Eq)]
pub enum Shape {
    Small,
    /// Branches up to 16 deep.
    Deep,
    /// Tables that meet their limits.
    Crowded,
}

/// What the nodes' clocks show.
#[derive(Clone, Copy, Debug, PartialEq, Eq)]
pub enum Clocks {
    /// The same everywhere, for several calls.
    Together,
    Backwards,
    /// Nothing at all.
    Still,
    /// Each node's far from the others'.
    Apart,
    Wild,
    /// One node's near the last clock, with room for the schedule.
    Far,
    /// Now and then so near the last clock that clocks run out.
    Ending,
}

/// To which nodes a new replica is given.
#[derive(Clone, Copy, Debug, PartialEq, Eq)]
pub enum Sets {
    All,
    Any,
    Few,
}

/// What a schedule is drawn from.
#[derive(Clone, Debug)]
pub struct Plan {
    pub n: u8,
    /// How often the cluster is driven to quiet, and the steps before each.
    pub rounds: u64,
    pub steps: u64,
    /// How many names are in use.
    pub names: u64,
    pub shape: Shape,
    pub clocks: Clocks,
    pub sets: Sets,
    /// How many of a hundred messages are lost.
    pub loss: u64,
}

impl Plan {
    pub fn draw(random: &mut Random) -> Plan {
        let shape = match random.below(100) {
            0..=79 => Shape::Small,
            80..=97 => Shape::Deep,
            _ => Shape::Crowded,
        };
        let n = match shape {
            Shape::Small if random.chance(12) => random.pick(&[5, 6, 7, 8]),
            Shape::Small => random.pick(&[1, 2, 2, 2, 3, 3, 3, 4]),
            Shape::Deep => random.pick(&[2, 2, 3]),
            Shape::Crowded => random.pick(&[1, 2, 2, 1, 2, 3]),
        };
        let (rounds, steps, names) = match shape {
            Shape::Small if n > 4 => (1, random.within(10..=40), 4),
            Shape::Small => (random.within(1..=5), random.within(10..=60), 6),
            Shape::Deep => (random.within(1..=3), random.within(10..=30), 4),
            Shape::Crowded => (2, 220, 50),
        };
        Plan {
            n,
            rounds,
            steps,
            names: random.within(1..=names).max(names / 2),
            shape,
            clocks: Clocks::draw(random),
            sets: random.pick(&[Sets::All, Sets::Any, Sets::Any, Sets::Few]),
            loss: random.pick(&[0, 10, 30]),
        }
    }
}

impl Clocks {
    fn draw(random: &mut Random) -> Clocks {
        match random.below(100) {
            0..=34 => Clocks::Together,
            35..=49 => Clocks::Backwards,
            50..=59 => Clocks::Still,
            60..=74 => Clocks::Apart,
            75..=84 => Clocks::Wild,
            85..=94 => Clocks::Far,
            _ => Clocks::Ending,
        }
    }

    fn show(self, node: u8, step: u64, random: &mut Random) -> u64 {
        match self {
            Clocks::Together => 1 + step / 6,
            Clocks::Backwards => 5_000u64.saturating_sub(7 * step),
            Clocks::Still => 0,
            Clocks::Apart => step + 1_000 * u64::from(node),
            Clocks::Wild => {
                let bits = random.below(16);
                random.below(1 << bits)
            }
            Clocks::Far if node == 1 => LAST_CLOCK - 100_000 + step,
            Clocks::Ending if random.chance(3) => LAST_CLOCK - 20,
            Clocks::Far | Clocks::Ending => step,
        }
    }
}

// ---- the network

/// A message that a node wrote.
#[derive(Clone, Debug)]
struct Message {
    from: u8,
    to: u8,
    bytes: Vec<u8>,
    acknowledgement: bool,
    delivered: bool,
}

/// What became of the messages.
#[derive(Clone, Copy, Debug, Default)]
pub struct Carried {
    pub written: u64,
    pub lost: u64,
    pub late: u64,
    pub repeated: u64,
    pub misrouted: u64,
    pub partitions: u64,
}

impl Carried {
    /// Takes in what another cluster carried.
    pub fn join(&mut self, other: &Carried) {
        self.written += other.written;
        self.lost += other.lost;
        self.late += other.late;
        self.repeated += other.repeated;
        self.misrouted += other.misrouted;
        self.partitions += other.partitions;
    }
}

/// Something that waits to be told: a replica of a node, to another node.
#[derive(Clone, Copy, Debug, PartialEq, Eq, PartialOrd, Ord)]
struct Waiting {
    from: u8,
    to: u8,
    id: u32,
}

/// How a drive to quiet ended.
#[derive(Clone, Copy, Debug, PartialEq, Eq)]
pub enum Quiet {
    /// No node has anything pending.
    Reached,
    /// All that is pending is refused for its limits, 16 or 17.
    Blocked,
}

/// More messages than any schedule here needs to become quiet.
const MOST_MESSAGES: u64 = 20_000;
/// How many messages the network remembers.
const REMEMBERED: usize = 256;

/// A cluster at work.
pub struct Traffic<N> {
    pub nodes: N,
    pub plan: Plan,
    pub carried: Carried,
    random: Random,
    step: u64,
    sent: Vec<Message>,
    /// The nodes on one side of a partition.
    side: u8,
}

impl<N: Nodes> Traffic<N> {
    /// The nodes are started.
    pub fn new(nodes: N, plan: Plan, random: Random) -> Traffic<N> {
        Traffic {
            nodes,
            plan,
            carried: Carried::default(),
            random,
            step: 0,
            sent: Vec::new(),
            side: 0,
        }
    }

    /// How many steps were taken.
    pub fn steps(&self) -> u64 {
        self.step
    }

    /// One thing that happens somewhere in the cluster.
    pub fn step(&mut self) -> Result<(), String> {
        self.step += 1;
        if self.random.chance(3) {
            self.side = self.random.byte() & all_nodes(self.plan.n);
            self.carried.partitions += 1;
        }
        match (self.plan.shape, self.random.below(100)) {
            (Shape::Crowded, 0..=84) | (_, 0..=34) => self.act(),
            (_, 35..=54) => self.scene(),
            (_, 55..=76) => self.tell(),
            (_, 77..=92) => self.carry(),
            (_, 93..=96) => self.look(),
            _ => self.blunder(),
        }
    }

    // ---- choices

    fn node(&mut self) -> u8 {
        self.random.within(1..=self.plan.n.into()) as u8
    }

    /// Two different nodes, if there are.
    fn two(&mut self) -> Option<(u8, u8)> {
        let a = self.node();
        let others: Vec<u8> = (1..=self.plan.n).filter(|&b| b != a).collect();
        self.random.choose(&others).map(|b| (a, b))
    }

    fn now(&mut self, node: u8) -> u64 {
        let Traffic { plan, random, .. } = self;
        plan.clocks.show(node, self.step, random)
    }

    fn name(&mut self) -> Vec<u8> {
        const ODD: [&[u8]; 4] = [b"a", b"...", b"fifteen letters", &[0xFF, 0x01]];
        let name = self.random.below(self.plan.names);
        match ODD.get(name as usize) {
            Some(odd) => odd.to_vec(),
            None => format!("name {name}").into_bytes(),
        }
    }

    fn set(&mut self) -> u8 {
        let all = all_nodes(self.plan.n);
        match self.plan.sets {
            Sets::All => all,
            Sets::Any => self.random.byte() & all,
            Sets::Few => single(self.node()) & self.random.byte(),
        }
    }

    /// The replicas of a node that pass a test.
    fn held(&self, node: u8, test: impl Fn(&Head) -> bool) -> Vec<u32> {
        let heads = self.nodes.table(node).replicas.iter().map(|r| &r.head);
        heads
            .filter(|head| test(head))
            .map(|head| head.id)
            .collect()
    }

    /// The replicas that pass a test on both nodes.
    fn shared(&self, a: u8, b: u8, test: impl Fn(&Head) -> bool) -> Vec<u32> {
        let theirs = self.nodes.table(b);
        let both = |head: &Head| test(head) && theirs.head(head.id).is_some_and(&test);
        self.held(a, both)
    }

    /// A live directory that something can be made in: one of few, in a deep schedule rather a deep
    /// one, in a crowded one any.
    fn directory(&mut self, node: u8) -> u32 {
        let directories = self.held(node, is_open);
        let one = self.random.choose_early(&directories).unwrap_or(ROOT);
        let other = self.random.choose(&directories).unwrap_or(ROOT);
        match self.plan.shape {
            Shape::Small => return one,
            Shape::Crowded => return other,
            Shape::Deep => (),
        }
        let table = self.nodes.table(node);
        let depth = |id: u32| table.head(id).map_or(0, |head| head.depth);
        if depth(other) > depth(one) {
            other
        } else {
            one
        }
    }

    // ---- what users do

    fn act(&mut self) -> Result<(), String> {
        let node = self.node();
        let roll = self.random.below(100);
        match (self.plan.shape, roll) {
            (Shape::Crowded, 29..=96) => self.rename(node),
            (Shape::Crowded, 20..=28) => self.create(node, Kind::Directory),
            (_, 0..=24) => self.create(node, Kind::File),
            (_, 25..=41) => self.create(node, Kind::Directory),
            (_, 42..=66) => self.rename(node),
            (_, 67..=78) => self.unlink(node),
            (_, 79..=91) => self.remove(node),
            _ => self.spread(node),
        }
    }

    fn create(&mut self, node: u8, kind: Kind) -> Result<(), String> {
        let directory = self.directory(node);
        let name = self.name();
        let set = self.set();
        self.make(node, directory, kind, name, set)?;
        Ok(())
    }

    /// Creates, and answers the new id if that was done.
    fn make(
        &mut self,
        node: u8,
        directory: u32,
        kind: Kind,
        name: Vec<u8>,
        set: u8,
    ) -> Result<Option<u32>, String> {
        let call = Call::Create {
            now: self.now(node),
            directory: directory.into(),
            kind: kind as u64,
            name,
            set: set.into(),
        };
        let made = self.nodes.call(node, &call)?;
        Ok(made.done().then_some(made.answer.value))
    }

    fn rename(&mut self, node: u8) -> Result<(), String> {
        let files = self.held(node, is_live_file);
        match self.random.choose_early(&files) {
            Some(id) => self.rename_file(node, id),
            None => self.create(node, Kind::File),
        }
    }

    fn rename_file(&mut self, node: u8, id: u32) -> Result<(), String> {
        let call = Call::Rename {
            now: self.now(node),
            id: id.into(),
            directory: self.directory(node).into(),
            name: self.name(),
        };
        self.nodes.call(node, &call)?;
        Ok(())
    }

    fn unlink(&mut self, node: u8) -> Result<(), String> {
        let files = self.held(node, is_live_file);
        match self.random.choose_early(&files) {
            Some(id) => self.unlink_file(node, id),
            None => self.create(node, Kind::File),
        }
    }

    fn unlink_file(&mut self, node: u8, id: u32) -> Result<(), String> {
        let call = Call::Unlink {
            now: self.now(node),
            id: id.into(),
        };
        self.nodes.call(node, &call)?;
        Ok(())
    }

    fn remove(&mut self, node: u8) -> Result<(), String> {
        let directories = self.held(node, is_made_directory);
        match self.random.choose(&directories) {
            Some(id) => self.remove_directory(node, id),
            None => self.create(node, Kind::Directory),
        }
    }

    fn remove_directory(&mut self, node: u8, id: u32) -> Result<(), String> {
        let call = Call::Remove {
            now: self.now(node),
            id: id.into(),
        };
        self.nodes.call(node, &call)?;
        Ok(())
    }

    fn spread(&mut self, node: u8) -> Result<(), String> {
        let all = self.held(node, |_| true);
        let id = self.random.pick(&all).into();
        let set = self.random.byte() & all_nodes(self.plan.n);
        let set = set.into();
        self.nodes.call(node, &Call::Spread { id, set })?;
        Ok(())
    }

    fn look(&mut self) -> Result<(), String> {
        let node = self.node();
        self.nodes.call(node, &Call::Pending)?;
        let id = self.directory(node);
        let entries = self.nodes.table(node).entries_of(id).count();
        let room = Entry::SIZE * entries;
        let id = id.into();
        self.nodes.call(node, &Call::List { id, room })?;
        Ok(())
    }

    /// A call with something wrong in it.
    fn blunder(&mut self) -> Result<(), String> {
        let node = self.node();
        let all = self.held(node, |_| true);
        let id = self.random.pick(&all).into();
        let stranger = self.random.pick(&[1, 9 << 24, (8 << 24) + 77, 1 << 32]);
        let directory = self.directory(node).into();
        let now = self.now(node);
        let name = self
            .random
            .pick(&[&b"a"[..], b"", b"..", b"a/b", b"sixteen letters."]);
        let name = name.to_vec();
        let late = LAST_CLOCK + 1;
        let call = match self.random.below(9) {
            0 => Call::Unlink { now, id },
            1 => Call::Remove { now, id },
            2 => Call::Unlink { now: late, id },
            3 => Call::Spread { id, set: 256 },
            4 => Call::Spread {
                id: stranger,
                set: 1,
            },
            5 => Call::List { id, room: 1 },
            6 => Call::Push {
                id,
                node: self.node().into(),
                room: 100,
            },
            7 => Call::Rename {
                now,
                id,
                directory,
                name,
            },
            _ => Call::Create {
                now,
                directory: id,
                kind: self.random.below(4),
                name,
                set: 0,
            },
        };
        self.nodes.call(node, &call)?;
        Ok(())
    }

    // ---- changes that meet

    fn scene(&mut self) -> Result<(), String> {
        let Some((a, b)) = self.two() else {
            return self.act();
        };
        match self.random.below(14) {
            0..=3 => self.rename_against_rename(a, b),
            4..=5 => self.unlink_against_rename(a, b),
            6..=7 => self.remove_against_create(a, b),
            8..=9 => self.same_name(a, b),
            10 => self.struck_early(a, b),
            _ if self.plan.shape == Shape::Deep => self.branch_removed(a, b),
            _ => self.remove_against_rename(a, b),
        }
    }

    fn rename_against_rename(&mut self, a: u8, b: u8) -> Result<(), String> {
        let files = self.shared(a, b, is_live_file);
        let Some(id) = self.random.choose_early(&files) else {
            return self.act();
        };
        self.rename_file(a, id)?;
        self.rename_file(b, id)
    }

    fn unlink_against_rename(&mut self, a: u8, b: u8) -> Result<(), String> {
        let files = self.shared(a, b, is_live_file);
        let Some(id) = self.random.choose_early(&files) else {
            return self.act();
        };
        self.unlink_file(a, id)?;
        self.rename_file(b, id)
    }

    fn remove_against_create(&mut self, a: u8, b: u8) -> Result<(), String> {
        let directories = self.shared(a, b, |head| is_made_directory(head) && is_open(head));
        let Some(id) = self.random.choose(&directories) else {
            return self.act();
        };
        let kind = self.random.pick(&[Kind::File, Kind::Directory]);
        let name = self.name();
        let set = self.set();
        self.make(a, id, kind, name, set)?;
        self.remove_directory(b, id)
    }

    fn remove_against_rename(&mut self, a: u8, b: u8) -> Result<(), String> {
        let directories = self.shared(a, b, |head| is_made_directory(head) && is_open(head));
        let files = self.held(a, is_live_file);
        let directory = self.random.choose(&directories);
        let file = self.random.choose_early(&files);
        let (Some(directory), Some(file)) = (directory, file) else {
            return self.act();
        };
        let call = Call::Rename {
            now: self.now(a),
            id: file.into(),
            directory: directory.into(),
            name: self.name(),
        };
        self.nodes.call(a, &call)?;
        self.remove_directory(b, directory)
    }

    fn same_name(&mut self, a: u8, b: u8) -> Result<(), String> {
        let directories = self.shared(a, b, is_open);
        let directory = self.random.choose_early(&directories).unwrap_or(ROOT);
        let name = self.name();
        for node in [a, b] {
            let set = self.set();
            self.make(node, directory, Kind::File, name.clone(), set)?;
        }
        Ok(())
    }

    /// A file that both nodes hold goes away on one of them, which tells only its directory: on the
    /// other one the file still lives though its entry is struck. There the directory is removed,
    /// or the file renamed to its own place.
    fn struck_early(&mut self, a: u8, b: u8) -> Result<(), String> {
        let name = self.name();
        let set = single(b);
        let made = self.make(a, ROOT, Kind::Directory, name.clone(), set)?;
        let Some(directory) = made else {
            return Ok(());
        };
        let made = self.make(a, directory, Kind::File, name.clone(), set)?;
        let (from, to) = (a, b);
        if let Some(id) = made {
            self.tell_one(Waiting { from, to, id })?;
            match self.random.chance(50) {
                true => self.unlink_file(a, id)?,
                false => self.rename_file(a, id)?,
            }
        }
        let id = directory;
        self.tell_one(Waiting { from, to, id })?;
        match made {
            Some(id) if self.random.chance(50) => {
                let call = Call::Rename {
                    now: self.now(b),
                    id: id.into(),
                    directory: directory.into(),
                    name,
                };
                self.nodes.call(b, &call)?;
                Ok(())
            }
            _ => self.remove_directory(b, directory),
        }
    }

    /// A branch that both nodes hold is removed on one of them, from its end on; the other makes a
    /// file at the end, and may tell it at once.
    fn branch_removed(&mut self, a: u8, b: u8) -> Result<(), String> {
        let branch = self.branch(a, b)?;
        for &id in branch.iter().rev() {
            self.remove_directory(b, id)?;
        }
        let end = branch.last().copied().unwrap_or(ROOT);
        let name = self.name();
        let file = self.make(a, end, Kind::File, name, single(b))?;
        match file {
            Some(id) if self.random.chance(60) => {
                let (from, to) = (a, b);
                self.tell_one(Waiting { from, to, id })
            }
            _ => Ok(()),
        }
    }

    /// Makes directories one in the other on one node and tells the other node.
    fn branch(&mut self, a: u8, b: u8) -> Result<Vec<u32>, String> {
        let mut branch = Vec::new();
        let directories = self.shared(a, b, is_open);
        let mut directory = self.random.choose(&directories).unwrap_or(ROOT);
        for _ in 0..self.random.within(2..=15) {
            let name = self.name();
            let made = self.make(a, directory, Kind::Directory, name, single(b))?;
            let Some(id) = made else { break };
            let (from, to) = (a, b);
            self.tell_one(Waiting { from, to, id })?;
            branch.push(id);
            directory = id;
        }
        Ok(branch)
    }

    // ---- messages

    fn waiting(&self, from: u8) -> Vec<Waiting> {
        let mut waiting = Vec::new();
        for replica in &self.nodes.table(from).replicas {
            let Replica { head, pending, .. } = replica;
            let nodes = (1..=self.plan.n).filter(|&node| has(*pending, node));
            waiting.extend(nodes.map(|to| Waiting {
                from,
                to,
                id: head.id,
            }));
        }
        waiting
    }

    /// A node tells another one of its changes, if it has any to tell.
    fn tell(&mut self) -> Result<(), String> {
        let from = self.node();
        let waiting = self.waiting(from);
        match self.random.choose(&waiting) {
            Some(one) => self.tell_one(one),
            None => self.carry(),
        }
    }

    /// A push is written, and may arrive; its acknowledgement is written, and may arrive.
    fn tell_one(&mut self, waiting: Waiting) -> Result<(), String> {
        let Some(push) = self.write(waiting)? else {
            return Ok(());
        };
        if let Some(answer) = self.pass_on(push)? {
            self.pass_on(answer)?;
        }
        Ok(())
    }

    /// Writes the push, if that is still pending. The network has it from now on.
    fn write(&mut self, waiting: Waiting) -> Result<Option<usize>, String> {
        let Waiting { from, to, id } = waiting;
        let table = self.nodes.table(from);
        let depth = table.head(id).map_or(0, |head| head.depth);
        let heads = usize::from(depth.max(1));
        let entries = table.entries_of(id).count();
        let length = PushHeader::SIZE + Head::SIZE * heads + Entry::SIZE * entries;
        let call = Call::Push {
            id: id.into(),
            node: to.into(),
            room: length + self.random.index(4),
        };
        let made = self.nodes.call(from, &call)?;
        Ok(made.done().then(|| {
            let bytes = made.written().to_vec();
            self.send(from, to, bytes, false)
        }))
    }

    fn send(&mut self, from: u8, to: u8, bytes: Vec<u8>, acknowledgement: bool) -> usize {
        if self.sent.len() == REMEMBERED {
            self.sent.drain(..REMEMBERED / 2);
        }
        self.carried.written += 1;
        self.sent.push(Message {
            from,
            to,
            bytes,
            acknowledgement,
            delivered: false,
        });
        self.sent.len() - 1
    }

    /// Delivers a message unless it is lost or cut off; answers the acknowledgement written.
    fn pass_on(&mut self, at: usize) -> Result<Option<usize>, String> {
        let Message { from, to, .. } = self.sent[at];
        let cut = has(self.side, from) != has(self.side, to);
        if cut || self.random.chance(self.plan.loss) {
            self.carried.lost += 1;
            return Ok(None);
        }
        Ok(self.deliver(at, to)?.1)
    }

    /// Delivers a message to a node; answers the number, and the acknowledgement written.
    fn deliver(&mut self, at: usize, to: u8) -> Result<(u32, Option<usize>), String> {
        let now = self.now(to);
        let Message {
            from,
            ref bytes,
            acknowledgement,
            ..
        } = self.sent[at];
        let message = bytes.clone();
        if acknowledgement {
            let made = self.nodes.call(to, &Call::Acknowledged { message })?;
            self.sent[at].delivered = true;
            return Ok((made.answer.number, None));
        }
        let room = Acknowledgement::SIZE;
        let made = self.nodes.call(to, &Call::Receive { now, message, room })?;
        self.sent[at].delivered = true;
        let answer = made.done().then(|| self.send(to, from, made.out, true));
        Ok((made.answer.number, answer))
    }

    /// Some message of earlier arrives, perhaps again, perhaps at the wrong node.
    fn carry(&mut self) -> Result<(), String> {
        if self.sent.is_empty() {
            return Ok(());
        }
        let recent = self.sent.len().min(12);
        let at = match self.random.chance(70) {
            true => self.sent.len() - 1 - self.random.index(recent),
            false => self.random.index(self.sent.len()),
        };
        let mut to = self.sent[at].to;
        if has(self.side, self.sent[at].from) != has(self.side, to) {
            return Ok(());
        }
        if self.random.chance(2) {
            to = self.node();
            self.carried.misrouted += 1;
        }
        self.carried.late += u64::from(at + 1 < self.sent.len());
        self.carried.repeated += u64::from(self.sent[at].delivered);
        self.deliver(at, to)?;
        Ok(())
    }

    /// Mends the partition and delivers what is pending, in any order, until nothing is or all of
    /// it is refused for its limits. Messages are still lost, and old ones still arrive.
    pub fn quiet(&mut self) -> Result<Quiet, String> {
        self.side = 0;
        let mut refused = BTreeSet::new();
        for _ in 0..MOST_MESSAGES {
            let mut waiting: Vec<Waiting> = (1..=self.plan.n)
                .flat_map(|node| self.waiting(node))
                .collect();
            let pending = !waiting.is_empty();
            waiting.retain(|one| !refused.contains(one));
            let Some(one) = self.random.choose(&waiting) else {
                return Ok(if pending {
                    Quiet::Blocked
                } else {
                    Quiet::Reached
                });
            };
            self.step += 1;
            match self.tell_to_quiet(one)? {
                Some(16 | 17) => drop(refused.insert(one)),
                // It may have brought what another one needed.
                Some(_) => refused.retain(|other: &Waiting| other.to != one.to),
                None => (),
            }
            if self.random.chance(4) {
                self.carry()?;
            }
        }
        Err(format!("no quiet after {MOST_MESSAGES} messages"))
    }

    /// Tells one thing; answers the number that receive gave, unless the push was lost.
    fn tell_to_quiet(&mut self, one: Waiting) -> Result<Option<u32>, String> {
        let written = self.write(one)?;
        let push = written.ok_or("a push of what is pending was refused")?;
        if self.random.chance(self.plan.loss) {
            self.carried.lost += 1;
            return Ok(None);
        }
        let (number, answer) = self.deliver(push, one.to)?;
        if let Some(answer) = answer {
            self.pass_on(answer)?;
        }
        Ok(Some(number))
    }
}

fn is_live_file(head: &Head) -> bool {
    head.live && head.kind == Kind::File
}

fn is_made_directory(head: &Head) -> bool {
    head.live && head.kind == Kind::Directory && head.id != ROOT
}

/// A live directory less than 16 deep.
fn is_open(head: &Head) -> bool {
    head.live && head.kind == Kind::Directory && head.depth < DEEPEST
}
