//! How often each outcome came.

use crate::met::Met;
use crate::wanted;
use std::collections::BTreeMap;

/// Below this an outcome wasn't compared enough.
const ENOUGH: u64 = 100;

/// How often each was met.
#[derive(Default)]
pub struct Tally {
    /// Calls of the C interface that were compared.
    pub cases: u64,
    met: BTreeMap<Met, u64>,
}

impl Tally {
    /// One more.
    pub fn meet(&mut self, met: Met) {
        *self.met.entry(met).or_default() += 1;
    }

    /// One line for each outcome, in order.
    pub fn print(&self) {
        let count = |met| self.met.get(met).copied().unwrap_or(0);
        let mut rows = wanted::all();
        rows.sort();
        for met in &rows {
            println!("{:>9}  {met}", count(met));
        }
    }

    /// The same, of outcomes that came.
    pub fn print_met(&self) {
        for (met, count) in &self.met {
            println!("{count:>9}  {met}");
        }
    }

    /// What documents 01 and 02 have and the run hadn't often enough, and what the run had though they
    /// haven't.
    pub fn complaints(&self) -> Vec<String> {
        let rows = wanted::all();
        let few = rows.iter().filter_map(|met| {
            let count = self.met.get(met).copied().unwrap_or(0);
            (count < ENOUGH).then(|| format!("only {count} times: {met}"))
        });
        let odd = self.met.keys().filter(|met| !rows.contains(met));
        few.chain(odd.map(|met| format!("in no document: {met}")))
            .collect()
    }
}
