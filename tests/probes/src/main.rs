//! Makes every probe of a page of differences through the C interface, and compares every byte of
//! the answer, the image and the recorder.
//!
//!     probes PAGE    prints each probe that differs, then how many were made
//!
//! Exit status 0: each row of the page has a probe, each was understood, and none differed.

#![forbid(unsafe_code)]

mod page;
mod unit;
mod wanted;

use page::Probe;
use std::process::ExitCode;

/// Makes a probe: what was wrong with it, if anything.
fn make(probe: &Probe) -> Result<(), String> {
    let mut unit = unit::Unit::bench();
    for step in &probe.steps {
        unit.take(step)?;
    }
    wanted::compare(&unit, &probe.wanted)
}

fn main() -> ExitCode {
    let Some(path) = std::env::args().nth(1) else {
        eprintln!("usage: probes PAGE");
        return ExitCode::from(2);
    };
    let page = match std::fs::read_to_string(&path) {
        Ok(page) => page,
        Err(error) => {
            eprintln!("{path}: {error}");
            return ExitCode::from(2);
        }
    };
    let rows = page::rows(&page);
    let mut differ = 0;
    for row in rows.iter().filter(|row| row.probes.is_empty()) {
        println!("{}: no probe", row.id);
        differ += 1;
    }
    let probes: Vec<&Probe> = rows.iter().flat_map(|row| &row.probes).collect();
    for probe in &probes {
        if let Err(why) = make(probe) {
            println!("{}: {why}", probe.name);
            differ += 1;
        }
    }
    println!(
        "{} rows, {} probes, {differ} differ",
        rows.len(),
        probes.len()
    );
    if differ == 0 && !probes.is_empty() {
        ExitCode::SUCCESS
    } else {
        ExitCode::FAILURE
    }
}
