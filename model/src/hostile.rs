//! Tries every call on hostile tables, messages and numbers.
//!
//! "Every call takes any table, message and number, ends, and judges them itself. A refusal returns
//! its number and zero and changes no byte of table or output buffer."
//!
//! Tables and messages are honest ones of random clusters, changed by hand (`forge`): to break one
//! rule, to meet a limit, or without aim. The run fails if a call panics, if a refusal changes a
//! byte, if an accepted call leaves a table that isn't sound or lets something fall, and also if a
//! refusal, rule or reason that can be reached was not.

use crate::aims::{aim, some_call};
use crate::asked::{call_name, in_words, reachable, Call, Tally};
use crate::calls::Service;
use crate::checks::{self, ensure, Made};
use crate::forge::messages::{self, MALFORMED, ODDS};
use crate::forge::tables::{self, RULES};
use crate::push::{Malformed, Push};
use crate::random::Random;
use crate::records::{Acknowledgement, Record};
use crate::snapshots::{self, Snapshot};
use crate::steps::Odds;
use crate::table::{verdict, Rule, Table};
use crate::variant::Variant;
use std::fmt;
use std::panic::{catch_unwind, AssertUnwindSafe};

/// How much to try.
#[derive(Clone, Copy, Debug)]
pub struct Options {
    pub tables: u64,
    pub messages: u64,
    pub seed: u64,
}

/// What was tried, and how it was answered.
#[derive(Clone, Debug, Default)]
pub struct Tried {
    pub tally: Tally,
    /// Calls on tables that broke each rule first.
    rules: [u64; RULES.len()],
    /// Pushes that were malformed in each way.
    malformed: [u64; MALFORMED.len()],
    /// Pushes that were at odds with the table in each way.
    odds: [u64; ODDS.len()],
}

const SERVICE: Service = Service {
    variant: Variant::Right,
};

/// How many clusters the tables and messages are taken from.
const CLUSTERS: u64 = 60;
/// How many of these are looked through for what a case takes.
const LOOKED_AT: u64 = 20;

/// Tries it all. What goes wrong comes back in words, with how to see it again.
pub fn run(options: &Options) -> Result<Tried, String> {
    let Options {
        tables,
        messages,
        seed,
    } = *options;
    let mut hostile = Hostile {
        pool: snapshots::take(seed, CLUSTERS)?,
        tried: Tried::default(),
    };
    for case in 0..tables {
        let random = Random::new(seed, CLUSTERS + 2 * case);
        let again = format!("--tables {} --messages 0", case + 1);
        guarded(|| hostile.table(case, random)).map_err(|words| {
            format!("table {case}: {words}\nto see it again: model hostile --seed {seed} {again}")
        })?;
    }
    for case in 0..messages {
        let random = Random::new(seed, CLUSTERS + 2 * case + 1);
        let again = format!("--tables 0 --messages {}", case + 1);
        guarded(|| hostile.message(case, random)).map_err(|words| {
            format!("message {case}: {words}\nto see it again: model hostile --seed {seed} {again}")
        })?;
    }
    Ok(hostile.tried)
}

/// A panic is a failure like any other.
fn guarded(case: impl FnOnce() -> Result<(), String>) -> Result<(), String> {
    let outcome = catch_unwind(AssertUnwindSafe(case));
    outcome.unwrap_or_else(|_| Err("a call panicked".to_string()))
}

/// The honest clusters, and what was tried so far.
struct Hostile {
    pool: Vec<Snapshot>,
    tried: Tried,
}

impl Hostile {
    /// The first thing that some snapshots, each seen from one node, have to give.
    fn find<T>(
        &self,
        random: &mut Random,
        take: impl Fn(&mut Random, &[Table], u8) -> Option<T>,
    ) -> Option<(T, &Snapshot)> {
        (0..LOOKED_AT).find_map(|_| {
            let snapshot = &self.pool[random.index(self.pool.len())];
            let node = random.within(1..=snapshot.len() as u64) as u8;
            take(random, snapshot, node).map(|taken| (taken, snapshot))
        })
    }

    // ---- hostile tables

    fn table(&mut self, case: u64, mut random: Random) -> Result<(), String> {
        let at = (case / 4) as usize;
        match case % 4 {
            0 => self.broken(RULES[at % RULES.len()], &mut random),
            1 => self.damaged(&mut random),
            2 => self.limits(&mut random),
            _ => self.aimed(at, &mut random),
        }
    }

    /// A table that breaks this rule is refused by every call but start.
    fn broken(&mut self, rule: Rule, random: &mut Random) -> Result<(), String> {
        let found = self.find(random, |random, snapshot, node| {
            let table = &snapshot[usize::from(node) - 1];
            let bytes = tables::breaking(random, table, rule)?;
            Some((table.clone(), bytes))
        });
        match found {
            Some(((table, bytes), snapshot)) => {
                let snapshot = snapshot.clone();
                self.every_call(random, &snapshot, &table, bytes)
            }
            None => Ok(()),
        }
    }

    fn damaged(&mut self, random: &mut Random) -> Result<(), String> {
        let (snapshot, table) = self.some_table(random);
        let bytes = match random.chance(95) {
            true => tables::damaged(random, &table),
            false => (0..random.index(20_000)).map(|_| random.byte()).collect(),
        };
        self.every_call(random, &snapshot, &table, bytes)
    }

    fn limits(&mut self, random: &mut Random) -> Result<(), String> {
        let (snapshot, table) = self.some_table(random);
        let table = tables::at_limits(random, &table);
        let bytes = table.bytes();
        self.every_call(random, &snapshot, &table, bytes)
    }

    /// A pair of call and number that can be reached, on whatever table has what that takes.
    fn aimed(&mut self, at: usize, random: &mut Random) -> Result<(), String> {
        let pairs: Vec<(u8, u32)> = reachable().collect();
        let (code, number) = pairs[at % pairs.len()];
        let found = self.find(random, |random, snapshot, node| {
            aim(random, snapshot, node, code, number)
        });
        let Some(((mut bytes, call), _)) = found else {
            return Ok(());
        };
        let made = self.try_call(&mut bytes, &call)?;
        ensure(made.answer.number == number, || {
            let name = call_name(code);
            format!("{name} answered {number}, then {}", made.answer.number)
        })
    }

    fn some_table(&self, random: &mut Random) -> (Snapshot, Table) {
        let snapshot = self.pool[random.index(self.pool.len())].clone();
        let table = snapshot[random.index(snapshot.len())].clone();
        (snapshot, table)
    }

    /// Each call once, with parameters for the table that the bytes were made of. What an accepted
    /// call leaves is what the next one takes.
    fn every_call(
        &mut self,
        random: &mut Random,
        snapshot: &Snapshot,
        table: &Table,
        mut bytes: Vec<u8>,
    ) -> Result<(), String> {
        for code in (2..=11).chain([1]) {
            let call = some_call(random, snapshot, table, code);
            self.try_call(&mut bytes, &call)?;
        }
        Ok(())
    }

    // ---- hostile messages

    fn message(&mut self, case: u64, mut random: Random) -> Result<(), String> {
        let at = (case / 4) as usize;
        match case % 4 {
            0 => self.malformed(MALFORMED[at % MALFORMED.len()], &mut random),
            1 => self.at_odds(ODDS[at % ODDS.len()], &mut random),
            2 => self.forged(&mut random),
            _ => self.without_aim(&mut random),
        }
    }

    fn malformed(&mut self, why: Malformed, random: &mut Random) -> Result<(), String> {
        let found = self.find(random, |random, snapshot, node| {
            let table = &snapshot[usize::from(node) - 1];
            let push = messages::honest(random, snapshot, node)?;
            let message = messages::malformed(random, &push, table.n, why)?;
            Some((table.bytes(), message))
        });
        match found {
            Some(((mut bytes, message), _)) => self.receive(random, &mut bytes, message),
            None => Ok(()),
        }
    }

    fn at_odds(&mut self, why: Odds, random: &mut Random) -> Result<(), String> {
        let found = self.find(random, |random, snapshot, node| {
            let table = &snapshot[usize::from(node) - 1];
            let push = messages::honest(random, snapshot, node)?;
            messages::against(random, table, &push, why)
        });
        match found {
            Some(((table, push), _)) => self.receive(random, &mut table.bytes(), push.write()),
            None => Ok(()),
        }
    }

    /// Forged pushes one after the other, on a table that may be at its limits; then calls on what
    /// they planted.
    fn forged(&mut self, random: &mut Random) -> Result<(), String> {
        let (snapshot, mut table) = self.some_table(random);
        if random.chance(40) {
            table = tables::at_limits(random, &table);
        }
        let mut bytes = table.bytes();
        for _ in 0..random.within(1..=4) {
            let Some(push) = messages::forged(random, &table) else {
                return Ok(());
            };
            self.receive(random, &mut bytes, push.write())?;
            table = checks::left_sound(&bytes)?;
        }
        for code in [2, random.within(2..=11) as u8] {
            let call = some_call(random, &snapshot, &table, code);
            self.try_call(&mut bytes, &call)?;
        }
        Ok(())
    }

    fn without_aim(&mut self, random: &mut Random) -> Result<(), String> {
        let (snapshot, table) = self.some_table(random);
        let code = random.pick(&[9, 9, 10]);
        let call = some_call(random, &snapshot, &table, code);
        self.try_call(&mut table.bytes(), &call)?;
        Ok(())
    }

    fn receive(
        &mut self,
        random: &mut Random,
        bytes: &mut [u8],
        message: Vec<u8>,
    ) -> Result<(), String> {
        let call = Call::Receive {
            now: random.below(100),
            message,
            room: Acknowledgement::SIZE + random.index(3),
        };
        self.try_call(bytes, &call)?;
        Ok(())
    }

    // ---- one call

    fn try_call(&mut self, bytes: &mut [u8], call: &Call) -> Result<Made, String> {
        let name = call_name(call.code());
        let outcome = self.checked(bytes, call);
        outcome.map_err(|words| format!("{name}: {words}\nthe call: {call:?}"))
    }

    fn checked(&mut self, bytes: &mut [u8], call: &Call) -> Result<Made, String> {
        let before = verdict(bytes);
        let made = checks::make(&SERVICE, call, bytes)?;
        let number = made.answer.number;
        self.tried.tally.add(call.code(), number);
        if matches!(call, Call::Start { .. }) {
            if made.done() {
                checks::left_sound(bytes)?;
            }
            return Ok(made);
        }
        // 1: "table not sound"
        ensure((number == 1) == before.is_err(), || {
            format!("answered {number} for a table that is {before:?}")
        })?;
        match before {
            Err(rule) => count(&mut self.tried.rules, &RULES, &rule)?,
            Ok(before) => {
                if made.changed {
                    checks::kept(&before, call, bytes)?;
                }
                if let Call::Receive { now, message, .. } = call {
                    self.received(&before, *now, message, number)?;
                }
            }
        }
        Ok(made)
    }

    /// What a receive was refused for, and what is said of every receive, whatever the message.
    fn received(
        &mut self,
        before: &Table,
        now: u64,
        message: &[u8],
        number: u32,
    ) -> Result<(), String> {
        if matches!(number, 2 | 3) {
            return Ok(());
        }
        let push = match Push::read(message, before.n) {
            Ok(push) => push,
            Err(why) => return count(&mut self.tried.malformed, &MALFORMED, &why),
        };
        if push.to != before.own {
            return Ok(());
        }
        let outcome = messages::outcome(before, now, &push);
        if let Ok(after) = &outcome {
            checks::receive_bounded(before, &push, after)?;
        }
        if let Err(why) = &outcome {
            count(&mut self.tried.odds, &ODDS, why)?;
        }
        judged_before(before, &push, outcome.err())
    }
}

/// "So 13 can be judged against the table as it stood before the call, before anything is changed."
fn judged_before(before: &Table, push: &Push, odds: Option<Odds>) -> Result<(), String> {
    let entries = match odds {
        Some(Odds::EntryJoined | Odds::EntrySet) => true,
        Some(_) => return Ok(()),
        None => false,
    };
    let joins = checks::joins(before, push);
    ensure(checks::at_odds(before, &joins) == entries, || {
        "13 isn't what the table before the call says".to_string()
    })
}

/// Counts one of the kinds that can be reached.
fn count<T: PartialEq + fmt::Debug>(
    counts: &mut [u64],
    kinds: &[T],
    kind: &T,
) -> Result<(), String> {
    let at = kinds.iter().position(|other| other == kind);
    let at = at.ok_or_else(|| format!("{kind:?}, which can't be reached"))?;
    counts[at] += 1;
    Ok(())
}

impl Tried {
    /// Says whether everything that can be reached was.
    pub fn complete(&self) -> Result<(), String> {
        let codes: Vec<u8> = (1..=11).collect();
        let mut missing = Vec::new();
        let pairs = self.tally.missing(&codes);
        if !pairs.is_empty() {
            missing.push(in_words(&pairs));
        }
        missing.extend(never(&self.rules, &RULES));
        missing.extend(never(&self.malformed, &MALFORMED));
        missing.extend(never(&self.odds, &ODDS));
        ensure(missing.is_empty(), || {
            format!("can be reached and was not: {}", missing.join(", "))
        })
    }
}

fn never<T: fmt::Debug>(counts: &[u64], kinds: &[T]) -> Vec<String> {
    let pairs = counts.iter().zip(kinds);
    let zero = pairs.filter(|(&count, _)| count == 0);
    zero.map(|(_, kind)| format!("{kind:?}")).collect()
}

impl fmt::Display for Tried {
    fn fmt(&self, f: &mut fmt::Formatter) -> fmt::Result {
        writeln!(f, "answers by number\n{}", self.tally)?;
        list(
            f,
            "calls on unsound tables, by the rule broken first",
            &self.rules,
            &RULES,
        )?;
        list(f, "malformed pushes", &self.malformed, &MALFORMED)?;
        list(f, "pushes against the table", &self.odds, &ODDS)
    }
}

fn list<T: fmt::Debug>(
    f: &mut fmt::Formatter,
    title: &str,
    counts: &[u64],
    kinds: &[T],
) -> fmt::Result {
    write!(f, "\n{title}")?;
    for (at, (count, kind)) in counts.iter().zip(kinds).enumerate() {
        let start = if at % 3 == 0 { "\n" } else { "" };
        let kind = format!("{kind:?}");
        write!(f, "{start}  {kind:26}{count:>7}")?;
    }
    writeln!(f)
}
