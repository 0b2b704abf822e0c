//! Fault records in words, a line each.

use crate::text::{self, quoted, Words};
use galitzaf::FaultRecord;

const WORD: &str = "a word of a record";

/// The records of a text: two words a line, which may stand after `slot N:`.
pub fn text(name: &str, text: &str) -> Result<String, String> {
    let mut lines = String::new();
    for (number, line) in text::lines(text) {
        let told = |message| format!("{name}:{number}: {message}");
        lines += &record(line).map_err(told)?;
    }
    Ok(lines)
}

fn record(line: &str) -> Result<String, String> {
    let mut words = Words::of(line);
    if words.take("slot") {
        let slot = words.word("a slot's number")?;
        let number = slot
            .strip_suffix(':')
            .and_then(|slot| slot.parse::<u8>().ok());
        number.ok_or_else(|| quoted("a slot's number, 0 to 255, with a colon", slot))?;
    }
    let record = [words.hex(WORD, u64::MAX)?, words.hex(WORD, u64::MAX)?];
    match words.next() {
        Some(more) => Err(quoted("two words a line", more)),
        None => Ok(line_of(FaultRecord::from_words(record))),
    }
}

/// The records of these words, two each.
pub fn words(words: &[&str]) -> Result<String, String> {
    let mut lines = String::new();
    for pair in words.chunks(2) {
        let record = record(&pair.join(" "));
        lines += &record.map_err(|message| format!("decode: {message}"))?;
    }
    Ok(lines)
}

/// A record in words, and whether somebody has cleared it.
fn line_of(record: FaultRecord) -> String {
    let cleared = if record.is_standing() {
        ""
    } else {
        " (cleared)"
    };
    format!("{record}{cleared}\n")
}
