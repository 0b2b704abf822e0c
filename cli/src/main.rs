//! `galitzaf`, the command line over the proved unit. `src/help.txt` says what it does.

#![forbid(unsafe_code)]

mod answer;
mod build;
mod decode;
mod map;
mod memory;
mod setting;
mod text;
mod trace;

use setting::Setting;
use std::io::{Read, Write};
use std::process::ExitCode;

const HELP: &str = include_str!("help.txt");
const BENCH: &str = include_str!("../../examples/ask/bench.txt");

/// Why there is no answer.
enum Problem {
    /// No such command.
    Usage(String),
    /// A file that can't be read, or a step in it that is bad.
    Bad(String),
    /// A trace in which something is damaged or differs, or a list that is refused, with its lines.
    Named(String),
}

impl From<String> for Problem {
    fn from(message: String) -> Self {
        Self::Bad(message)
    }
}

fn main() -> ExitCode {
    let arguments: Vec<String> = std::env::args_os()
        .skip(1)
        .map(|argument| argument.to_string_lossy().into_owned())
        .collect();
    let words: Vec<&str> = arguments.iter().map(String::as_str).collect();
    match command(&words) {
        Ok(lines) => print(&lines),
        Err(Problem::Bad(message)) => {
            eprintln!("{message}");
            ExitCode::from(1)
        }
        Err(Problem::Named(lines)) => {
            print(&lines);
            ExitCode::from(3)
        }
        Err(Problem::Usage(message)) => {
            eprintln!("galitzaf: {message}; try galitzaf --help");
            ExitCode::from(2)
        }
    }
}

/// A reader that has seen enough may close the pipe.
fn print(text: &str) -> ExitCode {
    match std::io::stdout().write_all(text.as_bytes()) {
        Ok(()) => ExitCode::SUCCESS,
        Err(_) => ExitCode::from(1),
    }
}

fn command(words: &[&str]) -> Result<String, Problem> {
    match words {
        ["--help" | "-h" | "help"] => Ok(HELP.to_string()),
        ["--version"] => Ok(concat!("galitzaf ", env!("CARGO_PKG_VERSION"), "\n").to_string()),
        ["ask", files @ ..] if !files.is_empty() => ask(files),
        ["probe", steps @ ..] if !steps.is_empty() => probe(&steps.join(" ")),
        ["map", files @ ..] if !files.is_empty() => Ok(map::listing(&mut set(files)?)),
        ["picture", files @ ..] if !files.is_empty() => Ok(map::picture(&mut set(files)?)),
        ["build", files @ ..] if !files.is_empty() => build(files),
        ["decode", file] => Ok(decode::text(file, &read(file)?)?),
        ["decode", words @ ..] if words.len() > 1 => Ok(decode::words(words)?),
        ["trace", "write", file, texts @ ..] if !texts.is_empty() => trace_write(file, texts),
        ["trace", "read", file] => told(trace::read(&bytes(file)?)),
        ["trace", "replay", file, texts @ ..] if !texts.is_empty() => trace_replay(file, texts),
        ["trace", ..] => usage("trace write, read or replay which files?".to_string()),
        ["ask" | "decode" | "map" | "picture" | "build"] => usage(format!("{} what?", words[0])),
        ["probe"] => usage("probe which step?".to_string()),
        [] => usage("no command".to_string()),
        [other, ..] => usage(format!("no command `{other}`")),
    }
}

fn usage(message: String) -> Result<String, Problem> {
    Err(Problem::Usage(message))
}

/// A file's bytes, or those of standard input.
fn bytes(file: &str) -> Result<Vec<u8>, String> {
    let mut bytes = Vec::new();
    let got = if file == "-" {
        std::io::stdin().read_to_end(&mut bytes).map(|_| ())
    } else {
        std::fs::read(file).map(|read| bytes = read)
    };
    got.map_err(|error| format!("{file}: {error}"))?;
    Ok(bytes)
}

/// A file's text, or that of standard input.
fn read(file: &str) -> Result<String, String> {
    String::from_utf8(bytes(file)?).map_err(|_| format!("{file}: expected text in UTF-8"))
}

/// The lines of a trace.
fn told(told: trace::Told) -> Result<String, Problem> {
    if told.named {
        return Err(Problem::Named(told.lines));
    }
    Ok(told.lines)
}

fn trace_write(file: &str, texts: &[&str]) -> Result<String, Problem> {
    let mut setting = Setting::default();
    let mut traced = Vec::new();
    for text in texts {
        traced.extend(setting.trace_all(text, &read(text)?)?);
    }
    let trace = trace::write(&traced)?;
    std::fs::write(file, trace).map_err(|error| format!("{file}: {error}"))?;
    Ok(String::new())
}

fn trace_replay(file: &str, texts: &[&str]) -> Result<String, Problem> {
    let trace = bytes(file)?;
    let mut setting = Setting::default();
    for text in texts {
        setting.answer_all(text, &read(text)?)?;
    }
    told(trace::replay(&trace, &mut setting))
}

fn ask(files: &[&str]) -> Result<String, Problem> {
    let mut setting = Setting::default();
    let mut lines = String::new();
    for file in files {
        lines += &setting.answer_all(file, &read(file)?)?;
    }
    Ok(lines)
}

/// What the steps of files set; requests among them are not answered.
fn set(files: &[&str]) -> Result<Setting, Problem> {
    let mut setting = Setting::default();
    for file in files {
        setting.set_all(file, &read(file)?)?;
    }
    Ok(setting)
}

/// Lists of pages, built one after the other.
fn build(files: &[&str]) -> Result<String, Problem> {
    let mut building = build::Building::default();
    for file in files {
        building.take_all(file, &read(file)?)?;
    }
    let (lines, refused) = building.lines()?;
    if refused {
        return Err(Problem::Named(lines));
    }
    Ok(lines)
}

fn probe(steps: &str) -> Result<String, Problem> {
    let mut setting = Setting::default();
    setting.answer_all("bench.txt", BENCH)?;
    Ok(setting.answer_all("probe", steps)?)
}
