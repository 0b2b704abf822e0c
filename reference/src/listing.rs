//! Ask 4: what is mapped for a source, line by line.

use crate::bits::{bit, bits};
use crate::context::{context, Context, Stop};
use crate::image::{bad_windows, fetch, place, Image, Window};
use crate::pages::{is_leaf, reserved_in_page_entry};
use crate::registers::{meets_interrupt_range, outside_the_list, Registers};
use crate::slips::Slip;

/// Past so many spans comes a last line `more`.
const SPANS: usize = 4096;

/// The whole output for a source, header first, without line ends.
pub fn listing(registers: &Registers, windows: &[Window], run: &[u8], source: u16) -> Vec<String> {
    let image = Image { windows, run };
    let header = format!("source {source:04X}");
    // With bad registers, the header and `refused 1`;
    if outside_the_list(registers) || bad_windows(image) {
        return vec![header, "refused 1".into()];
    }
    // with TE off, (or a context that passes through,) the header and `pass`;
    if !registers.te {
        return vec![header, "pass".into()];
    }
    // with a root or context entry that faults, the header and `fault` with
    // its reason.
    let Context {
        tt, levels, x, top, ..
    } = match context(Slip::None, registers, image, source, &mut Vec::new()) {
        Ok(context) => context,
        Err(Stop { reason, .. }) => return vec![header, format!("fault {reason:02X}")],
    };
    if tt == 2 {
        return vec![header, "pass".into()];
    }
    let mut spans = Spans {
        registers,
        image,
        end: 1u128 << x,
        lines: vec![header],
        more: false,
    };
    spans.table(top, levels, 0, true, true);
    if spans.more {
        spans.lines.push("more".into());
    }
    spans.lines
}

/// The spans listed so far.
struct Spans<'a> {
    registers: &'a Registers,
    image: Image<'a>,
    /// Spans end at document 01's 2^X.
    end: u128,
    lines: Vec<String>,
    /// There is a span past the last one that is listed.
    more: bool,
}

impl Spans<'_> {
    /// Lists a span: its start, its size as far as 2^X, and what it is.
    fn span(&mut self, start: u128, size: u128, what: String) {
        // The header is no span.
        if self.lines.len() - 1 == SPANS {
            self.more = true;
            return;
        }
        let size = size.min(self.end - start);
        self.lines.push(format!("{start:X} {size:X} {what}"));
    }

    /// Lists the table of a level whose span starts at `start`, in address
    /// order. The rights are those of the entries above it, joined; they are
    /// not none.
    fn table(&mut self, table: u128, level: usize, start: u128, read: bool, write: bool) {
        let size = 1u128 << (12 + 9 * (level - 1));
        // A table wholly outside the image gives one line for all of its span.
        if self.wholly_outside(table) {
            self.span(start, 512 * size, "fault 07".into());
            return;
        }
        for index in 0..512 {
            let start = start + index * size;
            // Nothing begins at or above 2^X, and past the last line nothing
            // is listed.
            if start >= self.end || self.more {
                return;
            }
            self.entry(table + 8 * index, level, start, read, write);
        }
    }

    /// None of the table's 4096 bytes lies in a window.
    fn wholly_outside(&self, table: u128) -> bool {
        (0..4096).all(|n| place(self.image.windows, table + n, 1).is_none())
    }

    /// Lists what the entry at a host address maps from `start` on.
    fn entry(&mut self, entry: u128, level: usize, start: u128, read: bool, write: bool) {
        let size = 1u128 << (12 + 9 * (level - 1));
        // An entry that faults 07h or 0Ch gives one line for its span.
        let Some(entry) = fetch(self.image, entry, 8, &mut Vec::new()) else {
            self.span(start, size, "fault 07".into());
            return;
        };
        // Bits 1:0 both clear come before the reserved check: no page, no
        // fault of these two.
        if !bit(&entry, 1) && !bit(&entry, 0) {
            return;
        }
        // (The rights that count for a fault are those of the entries above
        // it.)
        if reserved_in_page_entry(Slip::None, self.registers, level, &entry) {
            self.span(start, size, "fault 0C".into());
            return;
        }
        // Where the joined rights are none, nothing is listed.
        let read = read && bit(&entry, 0);
        let write = write && bit(&entry, 1);
        if !read && !write {
            return;
        }
        let frame = bits(&entry, 51, 12) << 12;
        if !is_leaf(&entry, level) {
            self.table(frame, level - 1, start, read, write);
            return;
        }
        // Ask 10: listed as a fault, `refused 4` with number 4, its joined
        // rights counting the leaf's.
        if meets_interrupt_range(frame, size) {
            self.span(start, size, "refused 4".into());
            return;
        }
        // Each page: start, size, frame, joined rights.
        let read = if read { 'R' } else { '-' };
        let write = if write { 'W' } else { '-' };
        self.span(start, size, format!("{frame:X} {read}{write}"));
    }
}
