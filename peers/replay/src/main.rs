//! Replays the answers recorded from QEMU 7.2's VT-d through Galitzaf, over the C interface.
//!
//! Each case agrees, or is explained by named deviations, or is printed as unexplained: exit status
//! 1 then. Arguments: recorded files, `.gz` or plain; without any, those of `peers/`.

mod answer;
mod case;
mod case_11;
mod deviation;
mod model;
mod recorded;
mod report;
mod verdict;

use std::path::PathBuf;
use std::process::ExitCode;

use report::Report;

fn main() -> ExitCode {
    let mut files: Vec<PathBuf> = std::env::args_os().skip(1).map(PathBuf::from).collect();
    if files.is_empty() {
        files = recorded::files();
    }
    match replay(&files) {
        Ok(report) => {
            let told = case_11::told();
            let failed = told.is_err() || report.unexplained() != 0;
            let case_11 = told.unwrap_or_else(|e| format!("document 01, case 11: FAILED: {e}"));
            print!("{case_11}\n\n{report}");
            ExitCode::from(u8::from(failed))
        }
        Err(message) => {
            eprintln!("peer-replay: {message}");
            ExitCode::from(2)
        }
    }
}

fn replay(files: &[PathBuf]) -> Result<Report, String> {
    let mut report = Report::default();
    for file in files {
        for (at, case) in recorded::cases(file)? {
            report.add(&at, &case);
        }
    }
    if report.cases() == 0 {
        return Err("no cases".into());
    }
    Ok(report)
}
