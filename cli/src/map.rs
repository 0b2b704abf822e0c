//! What is mapped for a source: the listing, and a picture of it.

use crate::setting::Setting;
use galitzaf::{known_numbers, Mapping, Reason, Refusal, Span, SpanKind, Unit, MOST_SPANS};

/// What the unit lists.
enum Listed {
    Refused(Refusal),
    Passed,
    Fault(Reason),
    /// And whether there are more.
    Spans(Vec<Span>, bool),
}

fn list(setting: &mut Setting) -> Listed {
    let unit = Unit::new(&setting.registers);
    let mut known = vec![0; known_numbers(setting.memory.length())];
    let mut rows = vec![[0; 4]; MOST_SPANS];
    let source = setting.source;
    match unit.mapping(&setting.memory.lent(), source, &mut known, &mut rows) {
        Mapping::Passed => Listed::Passed,
        Mapping::Fault(reason) => Listed::Fault(reason),
        Mapping::Spans(spans) => {
            let more = spans.more();
            Listed::Spans(spans.collect(), more)
        }
        Mapping::Refused(refusal) => Listed::Refused(refusal),
        _ => Listed::Refused(Refusal::Other(0)),
    }
}

/// Document 02's lines: the header, then a line for each span, or what there is in their place.
pub fn listing(setting: &mut Setting) -> String {
    let mut lines = format!("source {:04X}\n", u16::from(setting.source));
    match list(setting) {
        Listed::Refused(refusal) => lines += &format!("refused {}\n", refusal.number()),
        Listed::Passed => lines += "pass\n",
        Listed::Fault(reason) => lines += &format!("fault {:02X}\n", reason.number()),
        Listed::Spans(spans, more) => {
            for span in spans {
                lines += &format!("{span}\n");
            }
            if more {
                lines += "more\n";
            }
        }
    }
    lines
}

/// Columns of a bar.
const WIDE: u64 = 64;

/// Spans that follow each other with the same rights, pages to frames that follow each other; what else is there, one by one.
struct Run {
    start: u64,
    size: u64,
    first: Span,
    count: u64,
}

impl Run {
    fn takes(&self, span: &Span) -> bool {
        let next = match (self.first.kind, span.kind) {
            (SpanKind::Page(from), SpanKind::Page(frame)) => frame == from.wrapping_add(self.size),
            (from, kind) => from == kind,
        };
        let rights = (span.read, span.write) == (self.first.read, self.first.write);
        next && rights && span.start == self.start + self.size
    }
}

fn runs(spans: &[Span]) -> Vec<Run> {
    let mut runs: Vec<Run> = Vec::new();
    for span in spans {
        match runs.last_mut() {
            Some(run) if run.takes(span) => {
                run.size += span.size;
                run.count += 1;
            }
            _ => runs.push(Run {
                start: span.start,
                size: span.size,
                first: *span,
                count: 1,
            }),
        }
    }
    runs
}

fn mark(span: &Span) -> char {
    match (span.kind, span.read, span.write) {
        (SpanKind::Page(_), true, true) => 'W',
        (SpanKind::Page(_), true, false) => 'r',
        (SpanKind::Page(_), false, _) => 'w',
        (SpanKind::Fault(_), ..) => '!',
        _ => 'x',
    }
}

/// A bar from a block's start, a column for each 64th part of it: the mark of what stands there, the last where several do.
fn bar(from: u64, size: u64, spans: &[Span]) -> String {
    let column = size / WIDE;
    let mut marks = vec!['.'; WIDE as usize];
    for span in spans {
        let first = span.start.saturating_sub(from) / column;
        let last = (span.start + span.size - 1).saturating_sub(from) / column;
        for place in first..=last.min(WIDE - 1) {
            marks[place as usize] = mark(span);
        }
    }
    marks.into_iter().collect()
}

fn bytes(size: u64) -> String {
    let units = [(30, "GiB"), (20, "MiB"), (10, "KiB")];
    for (shift, unit) in units {
        if size >> shift > 0 && size % (1 << shift) == 0 {
            return format!("{} {unit}", size >> shift);
        }
    }
    format!("{size:X}h bytes")
}

/// A bar for each GiB in which something stands, a column for 16 MiB, then the runs with sizes, rights and frames.
pub fn picture(setting: &mut Setting) -> String {
    let Listed::Spans(spans, more) = list(setting) else {
        return listing(setting);
    };
    let mut lines = format!(
        "source {:04X}\nr read, w write, W both, ! fault, x refused, . nothing; a column is 16 MiB\n",
        u16::from(setting.source)
    );
    const BLOCK: u64 = 1 << 30;
    let mut blocks: Vec<u64> = spans.iter().map(|span| span.start / BLOCK).collect();
    blocks.dedup();
    for block in blocks {
        let from = block * BLOCK;
        let inside: Vec<Span> = spans
            .iter()
            .filter(|span| span.start / BLOCK == block)
            .copied()
            .collect();
        lines += &format!("{from:>14X} |{}|\n", bar(from, BLOCK, &inside));
    }
    for run in runs(&spans) {
        let end = run.start + (run.size - 1);
        let count = if run.count > 1 {
            format!(", {} spans", run.count)
        } else {
            String::new()
        };
        let what = match run.first.kind {
            SpanKind::Page(frame) => {
                let read = if run.first.read { 'R' } else { '-' };
                let write = if run.first.write { 'W' } else { '-' };
                format!("{read}{write} to {frame:X}")
            }
            SpanKind::Fault(reason) => format!("fault {:02X}", reason.number()),
            SpanKind::Refused(refusal) => format!("refused {}", refusal.number()),
            _ => String::new(),
        };
        lines += &format!(
            "{:X}-{end:X}: {}, {what}{count}\n",
            run.start,
            bytes(run.size)
        );
    }
    if more {
        lines += "more\n";
    }
    lines
}
