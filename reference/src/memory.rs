//! "Memory requests, step by step".

use crate::bits::{bit, bits};
use crate::context::{context, Context, Stop};
use crate::image::{bad_windows, fetch, whole, Image, Window};
use crate::pages::{index, is_leaf, low_bits, reserved_in_page_entry};
use crate::record::memory_fault;
use crate::registers::{in_interrupt_range, meets_interrupt_range, outside_the_list, Registers};
use crate::slips::{self, Slip};
use crate::Outcome;

/// Answers a memory request over the old image, one window from 0.
pub fn memory_request(
    registers: &Registers,
    image: &[u8],
    source: u16,
    address: u64,
    write: bool,
) -> Outcome {
    memory_request_with(Slip::None, registers, image, source, address, write)
}

/// The same with a known slip put in.
pub fn memory_request_with(
    slip: Slip,
    registers: &Registers,
    image: &[u8],
    source: u16,
    address: u64,
    write: bool,
) -> Outcome {
    let windows = whole(image);
    memory_request_in(slip, registers, &windows, image, source, address, write)
}

/// Answers a memory request over windows, with a known slip put in or none.
pub fn memory_request_in(
    slip: Slip,
    registers: &Registers,
    windows: &[Window],
    run: &[u8],
    source: u16,
    address: u64,
    write: bool,
) -> Outcome {
    let mut fetched = Fetched::default();
    let image = Image { windows, run };
    answer(slip, registers, image, source, address, write, &mut fetched)
}

/// The host addresses of the request's named words: the words fetched, in
/// order. A word fetched twice is named twice.
pub fn named_words_memory(
    registers: &Registers,
    image: &[u8],
    source: u16,
    address: u64,
    write: bool,
) -> Vec<u64> {
    named_words_memory_in(registers, &whole(image), image, source, address, write)
}

/// The same over windows.
pub fn named_words_memory_in(
    registers: &Registers,
    windows: &[Window],
    run: &[u8],
    source: u16,
    address: u64,
    write: bool,
) -> Vec<u64> {
    let fetched = fetched(registers, Image { windows, run }, source, address, write);
    let mut words = fetched.table_words;
    words.extend(fetched.page_words);
    words
}

/// The host addresses of the page entries the request walked: the page entries
/// among its named words, one that faults included.
pub fn walked_entries(
    registers: &Registers,
    image: &[u8],
    source: u16,
    address: u64,
    write: bool,
) -> Vec<u64> {
    walked_entries_in(registers, &whole(image), image, source, address, write)
}

/// The same over windows.
pub fn walked_entries_in(
    registers: &Registers,
    windows: &[Window],
    run: &[u8],
    source: u16,
    address: u64,
    write: bool,
) -> Vec<u64> {
    fetched(registers, Image { windows, run }, source, address, write).page_words
}

/// The words fetched on the way: those of the root and context entry, and
/// after them the page entries, which are one word each.
#[derive(Default)]
struct Fetched {
    table_words: Vec<u64>,
    page_words: Vec<u64>,
}

fn fetched(registers: &Registers, image: Image, source: u16, address: u64, write: bool) -> Fetched {
    let mut fetched = Fetched::default();
    let slip = Slip::None;
    answer(slip, registers, image, source, address, write, &mut fetched);
    fetched
}

fn answer(
    slip: Slip,
    registers: &Registers,
    image: Image,
    source: u16,
    address: u64,
    write: bool,
    fetched: &mut Fetched,
) -> Outcome {
    // 1 is checked before 2.
    if outside_the_list(registers) || bad_windows(image) {
        return Outcome::Refused(1);
    }
    if in_interrupt_range(address) {
        return Outcome::Refused(2);
    }
    // With TE off, a request past these checks is passed unchanged and no word
    // is read.
    if !registers.te {
        return Outcome::Granted(address);
    }

    // A fault answers with the host address of the entry concerned.
    let blocked = |reason: u8, fpd: bool, entry: u128| {
        Outcome::Blocked(memory_fault(reason, fpd, source, address, write, entry))
    };
    // Root entry, context entry.
    let Context {
        entry: context_entry,
        fpd,
        tt,
        levels,
        x,
        top,
        ..
    } = match context(slip, registers, image, source, &mut fetched.table_words) {
        Ok(context) => context,
        Err(Stop { reason, fpd, entry }) => return blocked(reason, fpd, entry),
    };

    // Width. Address at or above 2^X: 04h. It gives the context entry.
    if u128::from(address) >= 1u128 << x {
        return blocked(0x04, fpd, context_entry);
    }
    // Pass-through then returns the address itself.
    if tt == 2 {
        return Outcome::Granted(address);
    }

    // Page entries, level L from the top down to 1.
    let mut table = top;
    let mut level = levels;
    loop {
        // At table + 8 x address bits (12+9(L-1)) to (20+9(L-1)). Access 07h.
        let page_entry = table + 8 * index(address, level);
        let Some(entry) = fetch(image, page_entry, 8, &mut fetched.page_words) else {
            return blocked(0x07, fpd, page_entry);
        };
        // Then, in this order: bits 1:0 both clear, 05h for a write, 06h for a
        // read;
        if !bit(&entry, 1) && !bit(&entry, 0) {
            return blocked(if write { 0x05 } else { 0x06 }, fpd, page_entry);
        }
        // a reserved bit set, 0Ch;
        if reserved_in_page_entry(slip, registers, level, &entry) {
            return blocked(0x0C, fpd, page_entry);
        }
        // (A leaf is an entry at level 1, or one with bit 7 at level 2 or 3.)
        let leaf = is_leaf(&entry, level);
        // the request's own right clear (bit 0 read, bit 1 write), 05h or 06h.
        if slips::right_asked(slip, leaf) {
            if write && !bit(&entry, 1) {
                return blocked(0x05, fpd, page_entry);
            }
            if !write && !bit(&entry, 0) {
                return blocked(0x06, fpd, page_entry);
            }
        }
        // An entry's frame, or next table, is 51:12.
        let frame = bits(&entry, 51, 12) << 12;
        // Grant. The answer is the frame plus the address's low 12, 21 or 30
        // bits.
        if leaf {
            let low = low_bits(level);
            let frame = slips::leaf_frame(slip, frame, low);
            // A translated frame with any byte in FEE00000h to FEEFFFFFh is to
            // be blocked. 003 gives no reason for it, so house number 4, never
            // recorded. It is checked after rights at the leaf.
            if meets_interrupt_range(frame, 1u128 << low) {
                return Outcome::Refused(4);
            }
            let answer = frame + bits(&address.to_le_bytes(), low - 1, 0);
            return Outcome::Granted(answer as u64);
        }
        // Level 1 is always a leaf, so there is a level below this one.
        table = frame;
        level -= 1;
    }
}
