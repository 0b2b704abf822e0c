//! Measures the proved unit beside the ordinary translator, in one process, over the same registers,
//! images and requests, and prints a table; then reads through a cache of translations, rows of meters
//! beside a plain loop, traces, page tables built, and scalable mode.
//!
//!     figures                    the tables
//!     figures --rows FROM TO     of the first table, rows from one number up to another, from 0
//!     figures --meters           the meters' table alone
//!     figures --caches           the caches' table alone
//!     figures --traces           the traces' table alone
//!     figures --builders         the builders' table alone
//!     figures --scalable         scalable mode's table alone
//!     figures --counts           instructions alone, without times
//!     figures --builders --counts
//!                                the same of the builders' table
//!     figures --load ROW SIDE    one row's requests, some thousand of them, for valgrind to count
//!     figures --meters ROW SIDE  one row's ticks, likewise
//!     figures --caches ROW SIDE  one row's reads through a cache, likewise
//!     figures --builders ROW SIDE
//!                                one row's lists of pages, likewise

#![forbid(unsafe_code)]

mod agree;
mod builders;
mod caches;
mod count;
mod load;
mod meters;
mod rows;
mod scalable;
mod sides;
mod time;
mod traces;

use load::Load;
use rows::{Row, ROWS};
use sides::{Prepared, Side};
use std::process::ExitCode;

/// The table's head, as docs/PERFORMANCE.md has it.
const HEAD: &str = "\
| load | requests timed | proved, ns | ordinary, ns | ratio | 10% to 90% of rounds | checked once, ns | ratio | \
instructions: proved | ordinary | checked once |
|---|---|---|---|---|---|---|---|---|---|---|";

/// The head of the table of instructions alone.
const COUNTS: &str = "\
| load | instructions: proved | ordinary | checked once |
|---|---|---|---|";

/// Instructions for each request of a row, or dashes where there is no valgrind.
fn counted(number: usize, load: &Load) -> String {
    let counts = count::instructions(number, load);
    let counts = counts.map_or(["-".into(), "-".into(), "-".into()], |counts| {
        counts.map(|count| format!("{count:.0}"))
    });
    counts.join(" | ")
}

fn counts(number: usize, row: &Row) {
    println!("| {} | {} |", row.name, counted(number, &(row.make)()));
}

fn print(number: usize, row: &Row) -> bool {
    let load = (row.make)();
    let prepared = Prepared::of(&load);
    if !agree::agree(&load, &prepared) {
        println!("{}: the two sides answer differently", row.name);
        return false;
    }
    let times = time::measure(&load, &prepared, row.passes);
    let (ratio, low, high) = times.ratio(Side::Ordinary);
    let (once, ..) = times.ratio(Side::CheckedOnce);
    let [proved, ordinary, checked] = Side::ALL.map(|side| times.best(side));
    println!(
        "| {} | {} | {proved:.1} | {ordinary:.1} | {ratio:.2} | {low:.2} to {high:.2} | {checked:.1} \
         | {once:.2} | {} |",
        row.name,
        time::ROUNDS * row.passes * load.requests.len(),
        counted(number, &load)
    );
    true
}

fn status(good: bool) -> ExitCode {
    if good {
        ExitCode::SUCCESS
    } else {
        ExitCode::FAILURE
    }
}

fn main() -> ExitCode {
    let arguments: Vec<String> = std::env::args().skip(1).collect();
    let arguments: Vec<&str> = arguments.iter().map(String::as_str).collect();
    match arguments[..] {
        [] => {
            println!("{HEAD}");
            let good = ROWS.iter().enumerate().all(|(n, row)| print(n, row));
            println!();
            let good = caches::print(true) && good;
            println!();
            let good = meters::print() && good;
            println!();
            let good = traces::print() && good;
            println!();
            let good = builders::print() && good;
            println!();
            status(scalable::print() && good)
        }
        ["--rows", from, to] => {
            let (Ok(from), Ok(to)) = (from.parse::<usize>(), to.parse::<usize>()) else {
                return ExitCode::from(2);
            };
            println!("{HEAD}");
            let rows = ROWS.iter().enumerate().skip(from);
            status(
                rows.take_while(|(n, _)| *n < to)
                    .all(|(n, row)| print(n, row)),
            )
        }
        ["--counts"] => {
            println!("{COUNTS}");
            ROWS.iter().enumerate().for_each(|(n, row)| counts(n, row));
            ExitCode::SUCCESS
        }
        [caches::ARGUMENT] => status(caches::print(true)),
        [caches::ARGUMENT, row, side] => {
            let read = row.parse().ok().and_then(|n| caches::count_row(n, side));
            read.map_or(ExitCode::from(2), |()| ExitCode::SUCCESS)
        }
        [meters::ARGUMENT] => status(meters::print()),
        [traces::ARGUMENT] => status(traces::print()),
        [builders::ARGUMENT] => status(builders::print()),
        [builders::ARGUMENT, "--counts"] => status(builders::print_counts()),
        [builders::ARGUMENT, row, side] => {
            let built = row.parse().ok().and_then(|n| builders::counted(n, side));
            built.map_or(ExitCode::from(2), |()| ExitCode::SUCCESS)
        }
        [scalable::ARGUMENT] => status(scalable::print()),
        [scalable::ARGUMENT, row, side] => {
            let asked = row.parse().ok().and_then(|n| scalable::counted(n, side));
            asked.map_or(ExitCode::from(2), |()| ExitCode::SUCCESS)
        }
        [meters::ARGUMENT, row, side] => {
            let ticked = row.parse().ok().and_then(|n| meters::counted(n, side));
            ticked.map_or(ExitCode::from(2), |()| ExitCode::SUCCESS)
        }
        [count::ARGUMENT, row, side] => {
            let Some(row) = row.parse().ok().and_then(|n: usize| ROWS.get(n)) else {
                return ExitCode::from(2);
            };
            let load = (row.make)();
            count::counted(&load, &Prepared::of(&load), side);
            ExitCode::SUCCESS
        }
        _ => ExitCode::from(2),
    }
}
