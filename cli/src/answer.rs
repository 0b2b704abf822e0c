//! The line of a request and its answer, in the notation of `examples/c/bench.c`.

use galitzaf::{Access, DeliveryMode, DestinationMode, Fault, FirstBad, Refusal, TriggerMode};
use galitzaf::{InterruptAnswer, InterruptRequest, Posted, Remapped};
use galitzaf::{MemoryAnswer, MemoryRequest, TakeAnswer};
use galitzaf::{Page, TranslationAnswer, TranslationRequest};

/// What refusal 1 would be for.
pub type Bad = Option<FirstBad>;

pub fn memory(asked: MemoryRequest, answer: MemoryAnswer, bad: Bad) -> String {
    let kind = match asked.access {
        Access::Read => "read",
        Access::Write => "write",
    };
    let answer = match answer {
        MemoryAnswer::Granted(host) => format!("granted {host:X}"),
        MemoryAnswer::Blocked(fault) => blocked(&fault),
        MemoryAnswer::Refused(refusal) => refused(refusal, bad),
    };
    format!(
        "{:04X} {kind} {:X}: {answer}",
        u16::from(asked.source),
        asked.address
    )
}

pub fn translation(asked: TranslationRequest, answer: TranslationAnswer, bad: Bad) -> String {
    let answer = match answer {
        TranslationAnswer::Passed(_) => "passed".to_string(),
        TranslationAnswer::Page(page) => translated(page),
        TranslationAnswer::Empty => "empty".to_string(),
        TranslationAnswer::Blocked(fault) => blocked(&fault),
        TranslationAnswer::Refused(refusal) => refused(refusal, bad),
    };
    let (source, address) = (u16::from(asked.source), asked.address);
    format!("{source:04X} translate {address:X}: {answer}")
}

pub fn interrupt(asked: InterruptRequest, answer: InterruptAnswer, bad: Bad) -> String {
    let answer = match answer {
        InterruptAnswer::Passed => "passed".to_string(),
        InterruptAnswer::Remapped(to) => remapped(to),
        InterruptAnswer::Posted(post) => posted(post),
        InterruptAnswer::Blocked(fault) => blocked(&fault),
        InterruptAnswer::Refused(refusal) => refused(refusal, bad),
    };
    let (source, InterruptRequest { address, data, .. }) = (u16::from(asked.source), asked);
    format!("{source:04X} interrupt {address:X}, data {data:X}: {answer}")
}

pub fn take(descriptor: u64, answer: TakeAnswer, bad: Bad) -> String {
    let answer = match answer {
        TakeAnswer::Vector(vector) => format!("vector {vector:02X}"),
        TakeAnswer::Nothing => "nothing".to_string(),
        TakeAnswer::Refused(refusal) => refused(refusal, bad),
    };
    format!("take {descriptor:X}: {answer}")
}

pub fn word(address: u64, word: Option<u64>) -> String {
    let word = word.map_or("not in memory".to_string(), |word| format!("{word:016X}"));
    format!("word {address:X}: {word}")
}

/// By its number, and refusal 1 with what it is for.
fn refused(refusal: Refusal, bad: Bad) -> String {
    match (refusal, bad) {
        (Refusal::BadRegisters, Some(bad)) => format!("refused 1 ({bad})"),
        _ => format!("refused {}", refusal.number()),
    }
}

fn blocked(fault: &Fault) -> String {
    let [low, high] = fault.record().words();
    let silent = if fault.recordable() {
        ""
    } else {
        " (not recordable)"
    };
    let entry = fault
        .entry()
        .map_or(String::new(), |entry| format!(", entry {entry:X}"));
    let reason = fault.reason().number();
    format!("fault {reason:02X}{silent}, record {low:016X} {high:016X}{entry}")
}

fn translated(page: Page) -> String {
    let rights = match (page.read, page.write) {
        (true, true) => "read and write",
        (true, false) => "read",
        (false, true) => "write",
        (false, false) => "no right",
    };
    let (frame, size) = (page.frame, page.size.bytes());
    format!("page {frame:X}, size {size:X}, {rights}")
}

/// Vector and destination, and what isn't fixed, physical, without hint and by an edge.
fn remapped(to: Remapped) -> String {
    let mut line = format!("vector {:02X}, destination {:X}", to.vector, to.destination);
    if to.delivery_mode != DeliveryMode::FIXED {
        line += &format!(", delivery mode {}", to.delivery_mode.bits());
    }
    let logical = to.destination_mode == DestinationMode::Logical;
    let level = to.trigger_mode == TriggerMode::Level;
    for (said, name) in [
        (logical, ", logical"),
        (to.redirection_hint, ", redirection hint"),
        (level, ", level-triggered"),
    ] {
        line += if said { name } else { "" };
    }
    line
}

fn posted(post: Posted) -> String {
    let notification = post.notification.map_or(String::new(), |to| {
        format!(", notification {:02X} to {:X}", to.vector, to.destination)
    });
    format!(
        "posted {:02X} to {:X}{notification}",
        post.vector, post.descriptor
    )
}
