//! Ask 1: the translation requests of a device with a cache of its own.
//!
//! "House number 2, TE off and the untranslated order stay."

use crate::bits::{bit, bits};
use crate::context::{context, Context, Stop};
use crate::image::{bad_windows, fetch, whole, Image, Window};
use crate::pages::{index, is_leaf, low_bits, reserved_in_page_entry};
use crate::record::{translation_fault, Fault};
use crate::registers::{in_interrupt_range, meets_interrupt_range, outside_the_list, Registers};
use crate::slips::Slip;

/// What a translation request is answered.
#[derive(Clone, Debug, PartialEq, Eq)]
pub enum Translation {
    /// Frame, size and the read and write rights joined over all levels. With
    /// both rights off, frame and size are 0.
    Answered {
        /// The page's first byte.
        frame: u64,
        /// The page's size, 1000h, 200000h or 40000000h.
        size: u64,
        /// Whether it may be read.
        read: bool,
        /// Whether it may be written.
        write: bool,
    },
    /// A fault stopped the request.
    Blocked(Fault),
    /// The unit says no by house number: 1, 2 or 4.
    Refused(u8),
    /// With TE off it is passed unchanged: the address itself.
    Passed(u64),
}

/// Both bits off, frame and size 0, no fault and no record.
const EMPTY: Translation = Translation::Answered {
    frame: 0,
    size: 0,
    read: false,
    write: false,
};

/// Answers a translation request over the old image, one window from 0.
pub fn translation_request(
    registers: &Registers,
    image: &[u8],
    source: u16,
    address: u64,
) -> Translation {
    translation_request_in(registers, &whole(image), image, source, address)
}

/// Answers a translation request over windows.
pub fn translation_request_in(
    registers: &Registers,
    windows: &[Window],
    run: &[u8],
    source: u16,
    address: u64,
) -> Translation {
    let image = Image { windows, run };
    answer(registers, image, source, address, &mut Vec::new())
}

/// The host addresses of the request's named words: the words fetched, in
/// order.
pub fn named_words_translation_in(
    registers: &Registers,
    windows: &[Window],
    run: &[u8],
    source: u16,
    address: u64,
) -> Vec<u64> {
    let mut words = Vec::new();
    let image = Image { windows, run };
    answer(registers, image, source, address, &mut words);
    words
}

fn answer(
    registers: &Registers,
    image: Image,
    source: u16,
    address: u64,
    words: &mut Vec<u64>,
) -> Translation {
    // 1 is checked before 2.
    if outside_the_list(registers) || bad_windows(image) {
        return Translation::Refused(1);
    }
    if in_interrupt_range(address) {
        return Translation::Refused(2);
    }
    // With TE off, a request past these checks is passed unchanged and no word
    // is read.
    if !registers.te {
        return Translation::Passed(address);
    }

    let blocked = |reason: u8, fpd: bool, entry: u128| {
        Translation::Blocked(translation_fault(reason, fpd, source, address, entry))
    };
    // Root entry, context entry. Context type 3 stays 03h.
    let Context {
        entry: context_entry,
        fpd,
        tt,
        levels,
        x,
        top,
        ..
    } = match context(Slip::None, registers, image, source, words) {
        Ok(context) => context,
        Err(Stop { reason, fpd, entry }) => return blocked(reason, fpd, entry),
    };
    // Context type 0 or 2 is 0Dh, right after 03h and silenced by FPD.
    if tt == 0 || tt == 2 {
        return blocked(0x0D, fpd, context_entry);
    }

    // Width. Where an untranslated request has 04h, 003 (4.2.3, LGN.1) answers
    // success with no rights.
    if u128::from(address) >= 1u128 << x {
        return EMPTY;
    }

    // Page entries, level L from the top down to 1, with the rights joined.
    let mut read = true;
    let mut write = true;
    let mut table = top;
    let mut level = levels;
    loop {
        // Access 07h.
        let page_entry = table + 8 * index(address, level);
        let Some(entry) = fetch(image, page_entry, 8, words) else {
            return blocked(0x07, fpd, page_entry);
        };
        // If an entry's bits 1:0 are both clear,
        if !bit(&entry, 1) && !bit(&entry, 0) {
            return EMPTY;
        }
        // or after its reserved check (0Ch)
        if reserved_in_page_entry(Slip::None, registers, level, &entry) {
            return blocked(0x0C, fpd, page_entry);
        }
        // no joined right is left, the answer is both bits off, frame and size
        // 0, no fault and no record.
        read = read && bit(&entry, 0);
        write = write && bit(&entry, 1);
        if !read && !write {
            return EMPTY;
        }
        let frame = bits(&entry, 51, 12) << 12;
        if is_leaf(&entry, level) {
            let size = 1u128 << low_bits(level);
            // Ask 10's number 4.
            if meets_interrupt_range(frame, size) {
                return Translation::Refused(4);
            }
            // Otherwise the answer carries frame, size and the read and write
            // rights joined over all levels.
            return Translation::Answered {
                frame: frame as u64,
                size: size as u64,
                read,
                write,
            };
        }
        table = frame;
        level -= 1;
    }
}
