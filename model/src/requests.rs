//! Requests for the program `calls`, and the answers that they must get.
//!
//! A stream is made from a seed: honest traffic of clusters of up to eight nodes, one table slot
//! each, and beside it calls aimed at every answer that can be reached, on tables and with messages
//! made by hand. Tables come about by the calls themselves; what those can't do, or may not, since
//! only some calls are asked for, is poked in, a few bytes at a time.

use crate::aims::{aim, some_call, Aimed};
use crate::asked::{bounds, reachable, Call, Tally};
use crate::bytes::{put_u32, put_u64};
use crate::calls::Service;
use crate::checks::{self, Made, FILLER};
use crate::random::Random;
use crate::snapshots::{self, Snapshot};
use crate::steps::Bound;
use crate::table::Table;
use crate::traffic::{Nodes, Plan, Shape, Traffic};
use crate::variant::Variant;
use std::collections::BTreeMap;

// ---- the format

/// "It keeps eight tables of up to 20,480 bytes, slots 0 to 7, each empty at first."
pub const SLOTS: usize = 8;
pub const LONGEST_TABLE: u64 = 20_480;
/// "length of the output buffer u64, at most 16,384"
pub const LONGEST_OUTPUT: u64 = 16_384;
/// "length of the payload u64, at most 65,536"
pub const LONGEST_PAYLOAD: u64 = 65_536;
/// "A request has a header of 64 bytes, little-endian, and then its payload"
pub const HEADER: usize = 64;
/// "code 32 loads a table slot with the payload"
pub const LOAD: u8 = 32;
/// "code 33 writes the payload over the slot's bytes from the offset in the first number on"
pub const POKE: u8 = 33;
/// "code 34 asks for the table's bytes"
pub const SHOW: u8 = 34;
/// "A malformed request [..] is answered by 16 bytes FF and ends it."
pub const MALFORMED_ANSWER: [u8; 16] = [0xFF; 16];

/// The header of a request: "code u8", "table slot u8, 0 to 7", "six zeros", "five numbers u64",
/// "length of the output buffer u64", "length of the payload u64".
pub fn header(code: u8, slot: u8, numbers: [u64; 5], room: u64, payload: u64) -> [u8; HEADER] {
    let mut bytes = [0; HEADER];
    bytes[0] = code;
    bytes[1] = slot;
    for (at, number) in (8..).step_by(8).zip(numbers) {
        put_u64(&mut bytes, at, number);
    }
    put_u64(&mut bytes, 48, room);
    put_u64(&mut bytes, 56, payload);
    bytes
}

/// "number u32, value u32, the Adler-32 (RFC 1950) of the slot's table bytes after the call u32,
/// four zeros"
pub fn answer(number: u32, value: u32, table: &[u8]) -> [u8; 16] {
    let mut bytes = [0; 16];
    put_u32(&mut bytes, 0, number);
    put_u32(&mut bytes, 4, value);
    put_u32(&mut bytes, 8, adler32(table));
    bytes
}

/// RFC 1950: the sum of the bytes and one, and the sum of all these sums, modulo 65521.
pub fn adler32(bytes: &[u8]) -> u32 {
    let (mut sum, mut sums) = (1, 0);
    for &byte in bytes {
        sum = (sum + u32::from(byte)) % 65_521;
        sums = (sums + sum) % 65_521;
    }
    sums * 65_536 + sum
}

// ---- the stream

const SERVICE: Service = Service {
    variant: Variant::Right,
};

/// Where a request and its answer end in their streams, and what it came to.
#[derive(Clone, Copy, Debug)]
struct Logged {
    code: u8,
    number: u32,
    /// What it was refused for, where that was one bound alone.
    bound: Option<Bound>,
    request_end: usize,
    answer_end: usize,
}

/// Requests with their answers, and the tables as they stand after them.
#[derive(Clone, Debug, Default)]
pub struct Stream {
    pub requests: Vec<u8>,
    pub answers: Vec<u8>,
    slots: [Vec<u8>; SLOTS],
    log: Vec<Logged>,
}

/// A poke costs a header and an answer, so equal bytes between two changes are written along
/// rather than left out, if they are fewer.
const POKE_COST: usize = HEADER + 16;

impl Stream {
    fn log(&mut self, code: u8, number: u32, bound: Option<Bound>) {
        self.log.push(Logged {
            code,
            number,
            bound,
            request_end: self.requests.len(),
            answer_end: self.answers.len(),
        });
    }

    /// A call on a slot.
    fn call(&mut self, slot: usize, call: &Call) -> Result<Made, String> {
        let (room, payload) = (call.room(), call.bytes());
        let lengths = (room as u64, payload.len() as u64);
        let header = header(
            call.code(),
            slot as u8,
            call.numbers(),
            lengths.0,
            lengths.1,
        );
        self.requests.extend(header);
        self.requests.extend(payload);
        let made = checks::make(&SERVICE, call, &mut self.slots[slot])?;
        let (number, value) = (made.answer.number, made.answer.value);
        self.answers
            .extend(answer(number, value, &self.slots[slot]));
        self.answers.extend(&made.out);
        let bounded = matches!(number, 16 | 17);
        let bound = bounded.then(|| call.bound(&SERVICE, &self.slots[slot]));
        self.log(call.code(), number, bound.flatten());
        Ok(made)
    }

    fn load(&mut self, slot: usize, bytes: &[u8]) {
        let header = header(LOAD, slot as u8, [0; 5], 0, bytes.len() as u64);
        self.requests.extend(header);
        self.requests.extend(bytes);
        self.slots[slot] = bytes.to_vec();
        self.answers.extend(answer(0, 0, bytes));
        self.log(LOAD, 0, None);
    }

    fn poke(&mut self, slot: usize, at: usize, bytes: &[u8]) {
        let numbers = [at as u64, 0, 0, 0, 0];
        let header = header(POKE, slot as u8, numbers, 0, bytes.len() as u64);
        self.requests.extend(header);
        self.requests.extend(bytes);
        self.slots[slot][at..at + bytes.len()].copy_from_slice(bytes);
        self.answers.extend(answer(0, 0, &self.slots[slot]));
        self.log(POKE, 0, None);
    }

    fn show(&mut self, slot: usize) {
        self.requests.extend(header(SHOW, slot as u8, [0; 5], 0, 0));
        let table = &self.slots[slot];
        self.answers.extend(answer(0, table.len() as u32, table));
        self.answers.extend(table);
        self.log(SHOW, 0, None);
    }

    /// Brings a slot to these bytes: by pokes, or by a load if its length is another.
    fn bring(&mut self, slot: usize, bytes: &[u8]) {
        if self.slots[slot].len() != bytes.len() {
            return self.load(slot, bytes);
        }
        for (from, to) in differences(&self.slots[slot], bytes) {
            self.poke(slot, from, &bytes[from..to]);
        }
    }

    /// Keeps the first requests only.
    fn keep(&mut self, count: usize) {
        self.log.truncate(count);
        let last = self.log.last();
        let (requests, answers) = last.map_or((0, 0), |last| (last.request_end, last.answer_end));
        self.requests.truncate(requests);
        self.answers.truncate(answers);
    }

    /// How many requests there are.
    pub fn count(&self) -> usize {
        self.log.len()
    }

    /// How many requests there are of each code.
    pub fn codes(&self) -> BTreeMap<u8, u64> {
        let mut codes = BTreeMap::new();
        for logged in &self.log {
            *codes.entry(logged.code).or_default() += 1;
        }
        codes
    }

    /// What the calls were answered.
    pub fn tally(&self) -> Tally {
        let mut tally = Tally::default();
        let calls = self.log.iter().filter(|logged| logged.code < LOAD);
        calls.for_each(|logged| tally.add(logged.code, logged.number));
        tally
    }

    /// How often calls with this code were refused for this bound alone.
    pub fn refused_for(&self, code: u8, bound: Bound) -> usize {
        let log = self.log.iter();
        log.filter(|logged| logged.code == code && logged.bound == Some(bound))
            .count()
    }

    /// The bounds of these calls that none was refused for alone.
    pub fn missing_bounds(&self, codes: &[u8]) -> Vec<(u8, Bound)> {
        let pairs = bounds().filter(|(code, _)| codes.contains(code));
        pairs
            .filter(|&(code, bound)| self.refused_for(code, bound) == 0)
            .collect()
    }
}

/// Where two strings of one length differ, close differences as one.
fn differences(old: &[u8], new: &[u8]) -> Vec<(usize, usize)> {
    let mut parts: Vec<(usize, usize)> = Vec::new();
    for at in (0..old.len()).filter(|&at| old[at] != new[at]) {
        match parts.last_mut() {
            Some((_, end)) if at < *end + POKE_COST => *end = at + 1,
            _ => parts.push((at, at + 1)),
        }
    }
    parts
}

// ---- the end of a stream

/// "A malformed request (a code, slot or length out of range, non-zero padding, or cut short)":
/// what is wrong with it, by the name of an option.
pub const MALFORMED: [&str; 9] = [
    "code", "slot", "padding", "output", "payload", "load", "poke", "header", "cut",
];

/// A request that is malformed in this way, if there is such a way. It asks for no call.
fn malformed(what: &str) -> Option<Vec<u8>> {
    let show = |slot, room, payload| header(SHOW, slot, [0; 5], room, payload);
    let mut bytes = match what {
        "code" => header(99, 0, [0; 5], 0, 0),
        "slot" => show(8, 0, 0),
        "output" => show(0, LONGEST_OUTPUT + 1, 0),
        "payload" => show(0, 0, LONGEST_PAYLOAD + 1),
        "load" => header(LOAD, 0, [0; 5], 0, LONGEST_TABLE + 1),
        "poke" => header(POKE, 0, [u64::MAX, 0, 0, 0, 0], 0, 1),
        "cut" => header(LOAD, 0, [0; 5], 0, 2),
        "padding" | "header" => show(0, 0, 0),
        _ => return None,
    }
    .to_vec();
    match what {
        "padding" => bytes[7] = 1,
        "header" => bytes.truncate(HEADER - 1),
        "poke" | "cut" => bytes.push(0),
        _ => (),
    }
    Some(bytes)
}

// ---- the generator

/// What to generate.
#[derive(Clone, Debug)]
pub struct Options {
    pub seed: u64,
    pub count: u64,
    /// The codes of the calls that may be asked for, of 1 to 11.
    pub codes: Vec<u8>,
    /// What is wrong with a last request, of `MALFORMED`.
    pub malformed: Option<String>,
}

/// Generates a stream of exactly so many requests, and the malformed one if that is asked for.
pub fn generate(options: &Options) -> Result<Stream, String> {
    let mut random = Random::new(options.seed, u64::MAX);
    let generator = Generator {
        count: options.count as usize,
        codes: options.codes.clone(),
        pool: snapshots::take(options.seed, CLUSTERS)?,
    };
    let mut stream = generator.empty_slot(&mut random)?;
    while stream.count() < generator.count {
        stream = generator.episode(stream, &mut random)?;
    }
    stream.keep(generator.count);
    if let Some(what) = &options.malformed {
        let request = malformed(what);
        let request = request.ok_or_else(|| format!("no request is malformed by {what:?}"))?;
        stream.requests.extend(request);
        stream.answers.extend(MALFORMED_ANSWER);
    }
    Ok(stream)
}

/// How many clusters are at hand for what the traffic of the stream doesn't bring about.
const CLUSTERS: u64 = 24;
/// The steps of one cluster's traffic.
const EPISODE: u64 = 120;
/// How many tables are shown at most.
const MOST_SHOWN: u64 = 3;
/// How many tables of other clusters are looked at for a bound; most have what one takes.
const BOUND_TABLES: usize = 24;
/// The slot for tables with a length of their own.
const SPARE: usize = SLOTS - 1;

struct Generator {
    count: usize,
    codes: Vec<u8>,
    pool: Vec<Snapshot>,
}

impl Generator {
    /// "each empty at first": the calls on a slot that nothing was loaded to.
    fn empty_slot(&self, random: &mut Random) -> Result<Stream, String> {
        let mut stream = Stream::default();
        let snapshot = &self.pool[0];
        for &code in &self.codes {
            let call = some_call(random, snapshot, &snapshot[0], code);
            stream.call(SPARE, &call)?;
        }
        Ok(stream)
    }

    /// A cluster's traffic, from its start on, with other calls in between.
    fn episode(&self, stream: Stream, random: &mut Random) -> Result<Stream, String> {
        let mut plan = Plan::draw(random);
        if plan.shape == Shape::Small {
            plan.n = random.within(1..=SLOTS as u64) as u8;
        }
        let own = Random::new(random.number(), 0);
        let nodes = Streamed::started(stream, &self.codes, plan.n)?;
        let mut traffic = Traffic::new(nodes, plan, own);
        for _ in 0..EPISODE {
            if traffic.nodes.stream.count() >= self.count {
                return Ok(traffic.nodes.stream);
            }
            traffic.step()?;
            match random.below(10) {
                0 => self.plain(&mut traffic.nodes, random)?,
                1..=6 => self.aimed(&mut traffic.nodes, random)?,
                _ => (),
            }
        }
        if traffic.plan.shape == Shape::Small && traffic.plan.n < 4 {
            traffic.quiet()?;
        }
        let mut stream = traffic.nodes.stream;
        let shown = stream.codes().get(&SHOW).copied();
        if shown.unwrap_or(0) < MOST_SHOWN {
            stream.show(random.index(SLOTS));
        }
        Ok(stream)
    }

    /// Any call on a table as it stands.
    fn plain(&self, nodes: &mut Streamed, random: &mut Random) -> Result<(), String> {
        let node = random.within(1..=nodes.tables.len() as u64) as u8;
        let table = &nodes.tables[usize::from(node) - 1];
        let code = random.pick(&self.codes);
        let call = some_call(random, &nodes.tables, table, code);
        nodes.detour(node, &table.bytes(), &call)
    }

    /// A call aimed at an answer that wasn't given yet, or else at any; if these tables don't have
    /// what it takes, and the stream is half done, on a table of another cluster.
    fn aimed(&self, nodes: &mut Streamed, random: &mut Random) -> Result<(), String> {
        let target = self.target(&nodes.stream, random);
        let node = random.within(1..=nodes.tables.len() as u64) as u8;
        let mut found = target.aim(random, &nodes.tables, node);
        if found.is_none() && 2 * nodes.stream.count() > self.count {
            let looked_at = target.bound.map_or(self.pool.len(), |_| BOUND_TABLES);
            found = (0..looked_at).find_map(|_| {
                let snapshot = &self.pool[random.index(self.pool.len())];
                let node = random.within(1..=snapshot.len() as u64) as u8;
                target.aim(random, snapshot, node)
            });
        }
        match found {
            Some((bytes, call)) => nodes.detour(node, &bytes, &call),
            None => Ok(()),
        }
    }

    /// What to aim at: what is missing, or else any. Full tables and other lengths take many bytes,
    /// so they are rare; a message can be wrong in many ways, so that is often.
    fn target(&self, stream: &Stream, random: &mut Random) -> Target {
        let numbers = stream.tally().missing(&self.codes).into_iter();
        let bounds = stream.missing_bounds(&self.codes).into_iter();
        let numbers = numbers.map(|(code, number)| Target::of(code, number));
        let bounds = bounds.map(|(code, bound)| Target {
            bound: Some(bound),
            ..Target::of(code, bound.number())
        });
        let missing: Vec<Target> = numbers.chain(bounds).collect();
        if let Some(target) = random.choose(&missing).filter(|_| random.chance(70)) {
            return target;
        }
        let large = random.chance(3);
        let mut pairs = Vec::new();
        for pair in reachable().filter(|(code, _)| self.codes.contains(code)) {
            let weight = match pair {
                (_, 16) | (1, 1) => usize::from(large),
                (9, 4) => 7,
                (9, 13) => 4,
                (_, 1) => 2,
                _ => 1,
            };
            pairs.extend([pair].repeat(weight));
        }
        let (code, number) = random.pick(&pairs);
        Target::of(code, number)
    }
}

/// A call, the number that it is to answer, and the bound that it is to be refused for alone.
#[derive(Clone, Copy, Debug)]
struct Target {
    code: u8,
    number: u32,
    bound: Option<Bound>,
}

impl Target {
    fn of(code: u8, number: u32) -> Target {
        Target {
            code,
            number,
            bound: None,
        }
    }

    /// A call that meets it, on the table of a node or on one made of it, if these tables have what
    /// that takes.
    fn aim(&self, random: &mut Random, tables: &[Table], node: u8) -> Option<Aimed> {
        let found = aim(random, tables, node, self.code, self.number);
        found.filter(|(bytes, call)| {
            self.bound.is_none() || call.bound(&SERVICE, bytes) == self.bound
        })
    }
}

/// A cluster whose calls are requests of a stream, node i's table in slot i-1. Calls that may not
/// be asked for are made here, and what they leave is poked in when a slot is next used.
struct Streamed {
    stream: Stream,
    codes: Vec<u8>,
    tables: Snapshot,
}

impl Streamed {
    fn started(mut stream: Stream, codes: &[u8], n: u8) -> Result<Streamed, String> {
        for slot in (0..usize::from(n)).filter(|_| codes.contains(&1)) {
            if stream.slots[slot].len() != Table::SIZE {
                stream.load(slot, &[FILLER; Table::SIZE]);
            }
            let (node, n) = (slot as u64 + 1, n.into());
            stream.call(slot, &Call::Start { node, n })?;
        }
        Ok(Streamed {
            stream,
            codes: codes.to_vec(),
            tables: (1..=n).map(|node| Table::fresh(node, n)).collect(),
        })
    }

    /// A call on a table that the cluster does not go on with.
    fn detour(&mut self, node: u8, bytes: &[u8], call: &Call) -> Result<(), String> {
        let spare = bytes.len() != Table::SIZE && self.tables.len() < SLOTS;
        let slot = if spare { SPARE } else { usize::from(node) - 1 };
        self.stream.bring(slot, bytes);
        self.stream.call(slot, call)?;
        Ok(())
    }
}

impl Nodes for Streamed {
    fn table(&self, node: u8) -> &Table {
        &self.tables[usize::from(node) - 1]
    }

    fn call(&mut self, node: u8, call: &Call) -> Result<Made, String> {
        let slot = usize::from(node) - 1;
        let mut bytes = self.tables[slot].bytes();
        let made = if self.codes.contains(&call.code()) {
            self.stream.bring(slot, &bytes);
            let made = self.stream.call(slot, call)?;
            bytes.clone_from(&self.stream.slots[slot]);
            made
        } else {
            checks::make(&SERVICE, call, &mut bytes)?
        };
        if made.changed {
            self.tables[slot] = checks::left_sound(&bytes)?;
        }
        Ok(made)
    }
}
