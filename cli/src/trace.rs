//! Traces: written from the requests of texts, read, and replayed.

use crate::answer;
use crate::setting::Setting;
use galitzaf::{Named, TraceItem, TracePlace, TraceReader, TraceWriter, Traced, Unit};
use std::collections::BTreeMap;

/// The lines of a trace, and whether something in it is damaged or differs.
pub struct Told {
    pub lines: String,
    pub named: bool,
}

/// A request and its answer in words.
fn line(traced: &Traced) -> String {
    match *traced {
        Traced::Memory(request, answer) => answer::memory(request, answer, None),
        Traced::Translation(request, answer) => answer::translation(request, answer, None),
        Traced::Interrupt(request, answer) => answer::interrupt(request, answer, None),
    }
}

fn at(place: TracePlace) -> String {
    format!("block {}, entry {}", place.block, place.index)
}

fn damaged(block: u64) -> String {
    format!("block {block}: damaged\n")
}

/// So many of them, in words.
fn count(number: usize, one: &str, many: &str) -> String {
    format!("{number} {}", if number == 1 { one } else { many })
}

/// The trace of the requests that were answered.
pub fn write(answered: &[Traced]) -> Result<Vec<u8>, String> {
    let mut writer = TraceWriter::new();
    let mut trace = Vec::new();
    for traced in answered {
        let block = writer.append(traced).map_err(|error| error.to_string())?;
        trace.extend(block.into_iter().flatten());
    }
    trace.extend(writer.close().into_iter().flatten());
    Ok(trace)
}

/// Each entry in words, damaged blocks by their places.
pub fn read(trace: &[u8]) -> Told {
    let (mut lines, mut entries, mut blocks) = (String::new(), 0, 0);
    for item in TraceReader::new(trace) {
        match item {
            TraceItem::Entry(place, traced) => {
                lines += &format!("{}: {}\n", at(place), line(&traced));
                entries += 1;
            }
            TraceItem::Damaged(block) => {
                lines += &damaged(block);
                blocks += 1;
            }
        }
    }
    let (entries, damage) = (
        count(entries, "entry", "entries"),
        count(blocks, "block", "blocks"),
    );
    lines += &format!("{entries}, {damage} damaged\n");
    Told {
        lines,
        named: blocks > 0,
    }
}

/// What a replay names: the answer now, and the traced one behind it.
pub fn replay(trace: &[u8], setting: &mut Setting) -> Told {
    let traced: BTreeMap<TracePlace, Traced> = TraceReader::new(trace)
        .filter_map(|item| match item {
            TraceItem::Entry(place, traced) => Some((place, traced)),
            TraceItem::Damaged(_) => None,
        })
        .collect();
    let (mut lines, mut differing, mut blocks) = (String::new(), 0, 0);
    let unit = Unit::new(&setting.registers);
    for named in unit.replay(&mut setting.memory.lent(), trace) {
        match named {
            Named::Differs(place, now) => {
                let then = traced.get(&place).map_or(String::new(), line);
                let (asked, then) = then.split_once(": ").unwrap_or(("", &then));
                let now = line(&now);
                let now = now
                    .strip_prefix(asked)
                    .map_or(&now[..], |now| now.trim_start_matches(": "));
                lines += &format!("{}: {asked}: {now}; traced: {then}\n", at(place));
                differing += 1;
            }
            Named::Damaged(block) => {
                lines += &damaged(block);
                blocks += 1;
            }
        }
    }
    let replayed = count(traced.len(), "entry", "entries");
    let damage = count(blocks, "block", "blocks");
    lines += &format!("{replayed} replayed, {differing} with another answer, {damage} damaged\n");
    Told {
        lines,
        named: differing + blocks > 0,
    }
}
