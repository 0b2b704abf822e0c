//! What was met on the way: a test that met too little of something didn't compare it.

use reference::Outcome;
use std::collections::BTreeMap;

/// How often each kind of answer or fault reason came.
pub type Met = BTreeMap<String, usize>;

pub fn meet(met: &mut Met, outcome: &Outcome) {
    let name = match outcome {
        Outcome::Granted(_) => "granted".into(),
        Outcome::Blocked(fault) if !fault.recordable => "silent".into(),
        Outcome::Blocked(fault) => format!("{:02X}", fault.reason),
        Outcome::Refused(number) => format!("refused {number}"),
        Outcome::Passed => "passed".into(),
        Outcome::Remapped { .. } => "remapped".into(),
        Outcome::Posted {
            notice: Some(_), ..
        } => "posted, notified".into(),
        Outcome::Posted { .. } => "posted".into(),
    };
    *met.entry(name).or_default() += 1;
}

pub fn expect_met(met: &Met, names: &[&str]) {
    for name in names {
        let count = met.get(*name).copied().unwrap_or(0);
        assert!(count >= 20, "met {name} only {count} times: {met:?}");
    }
}
