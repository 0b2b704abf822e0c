//! Puts the same calls to the proved unit, through its C interface, and to the reference, and
//! compares every byte they leave.
//!
//!     compare                     all of it; prints how often each outcome came
//!     compare --slips             a part of it, with known flaws put into the reference
//!     compare --part PART         one part by itself; prints how often each outcome came that did
//!     compare --case PART NUMBER  one case by itself, with all that is in it
//!
//! Exit status 0: nothing differed and every outcome came often enough, or every flaw was noticed.

#![forbid(unsafe_code)]

mod builders;
mod bytes;
mod caches;
mod classify;
mod flaw;
mod judge;
mod lent;
mod malformed;
mod met;
mod meters;
mod parts;
mod pool;
mod print;
mod recorder;
mod runs;
mod scalable;
mod takes;
mod tally;
mod traces;
mod translations;
mod wanted;
mod windows;

use std::process::ExitCode;

fn main() -> ExitCode {
    let arguments: Vec<String> = std::env::args().skip(1).collect();
    let arguments: Vec<&str> = arguments.iter().map(String::as_str).collect();
    let good = match arguments[..] {
        [] => runs::whole(),
        ["--slips"] => runs::flaws(),
        ["--part", part] => runs::part(part),
        ["--case", part, number] => runs::case(part, number),
        _ => {
            eprintln!("usage: compare [--slips | --part PART | --case PART NUMBER]");
            return ExitCode::from(2);
        }
    };
    if good {
        ExitCode::SUCCESS
    } else {
        ExitCode::FAILURE
    }
}
