//! Instructions, counted by valgrind's callgrind over this program itself.

use crate::load::Load;
use crate::sides::{run, Prepared, Side};
use std::env;
use std::process::Command;

/// Requests of a counted run, about.
const REQUESTS: usize = 20_000;

/// The argument that makes this program go through one load and end.
pub const ARGUMENT: &str = "--load";

/// Goes through a load, some thousand requests of it: what a counted run does.
pub fn counted(load: &Load, prepared: &Prepared, side: &str) {
    let mut memory = load.run.clone();
    let side = Side::ALL.into_iter().find(|known| known.name() == side);
    if let Some(side) = side {
        let passes = passes(load);
        run(side, prepared, &mut memory, &load.requests, passes);
    }
}

fn passes(load: &Load) -> usize {
    REQUESTS.div_ceil(load.requests.len())
}

/// Instructions of a run of this program by itself.
pub fn collected(arguments: &[&str]) -> Option<u64> {
    let run = Command::new("valgrind")
        .args(["--tool=callgrind", "--callgrind-out-file=/dev/null"])
        .arg(env::current_exe().ok()?)
        .args(arguments)
        .output()
        .ok()?;
    let said = String::from_utf8_lossy(&run.stderr);
    let line = said.lines().find_map(|line| line.split_once("Collected :"));
    line?.1.trim().parse().ok()
}

/// Instructions for each request of a row, for each side: less those of a run without requests.
pub fn instructions(row: usize, load: &Load) -> Option<[f64; 3]> {
    let requests = (passes(load) * load.requests.len()) as f64;
    let row = row.to_string();
    let collected = |side| collected(&[ARGUMENT, &row, side]);
    let empty = collected("none")?;
    let mut counts = [0.0; 3];
    for (count, side) in counts.iter_mut().zip(Side::ALL) {
        let whole = collected(side.name())?;
        *count = whole.saturating_sub(empty) as f64 / requests;
    }
    Some(counts)
}
