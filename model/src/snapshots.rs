//! Honest clusters in the midst of a schedule, as what hostile tables and messages are made of.

use crate::asked::Call;
use crate::calls::Service;
use crate::checks::{self, Made};
use crate::random::Random;
use crate::table::Table;
use crate::traffic::{Nodes, Plan, Traffic};
use crate::variant::Variant;

/// The tables of the nodes 1 to N at one moment.
pub type Snapshot = Vec<Table>;

/// Snapshots of so many random clusters, some of each.
pub fn take(seed: u64, clusters: u64) -> Result<Vec<Snapshot>, String> {
    let mut snapshots = Vec::new();
    for cluster in 0..clusters {
        let mut random = Random::new(seed, cluster);
        let plan = Plan::draw(&mut random);
        let steps = plan.steps;
        let mut traffic = Traffic::new(Plain::started(plan.n), plan, random);
        for _ in 0..4 {
            for _ in 0..steps {
                traffic.step()?;
            }
            snapshots.push(traffic.nodes.tables.clone());
        }
    }
    Ok(snapshots)
}

/// A cluster whose calls are made and no more.
struct Plain {
    tables: Snapshot,
}

impl Plain {
    fn started(n: u8) -> Plain {
        Plain {
            tables: (1..=n).map(|node| Table::fresh(node, n)).collect(),
        }
    }
}

impl Nodes for Plain {
    fn table(&self, node: u8) -> &Table {
        &self.tables[usize::from(node) - 1]
    }

    fn call(&mut self, node: u8, call: &Call) -> Result<Made, String> {
        let service = Service {
            variant: Variant::Right,
        };
        let table = &mut self.tables[usize::from(node) - 1];
        let mut bytes = table.bytes();
        let made = checks::make(&service, call, &mut bytes)?;
        if made.changed {
            *table = checks::left_sound(&bytes)?;
        }
        Ok(made)
    }
}
