//! "... and its recorder": records in a lent buffer of 8 to 256 slots.

use crate::bits::{bit, put};

/// The recorder's small state.
#[derive(Clone, Copy, Debug, PartialEq, Eq)]
pub struct Recorder {
    /// Next slot, 0 to the last one.
    pub next: u8,
    /// Overflow flag.
    pub overflow: bool,
}

/// What a recorder call did.
#[derive(Clone, Copy, Debug, PartialEq, Eq)]
pub enum Call {
    /// The fault was not recordable; nothing changed.
    NotRecordable,
    /// Overflow was set already; the fault was dropped.
    Dropped,
    /// The next slot was taken; overflow was set and the fault dropped.
    Overflowed,
    /// The record was written and the next slot advanced.
    Written,
    /// The slot's bit 127 was found clear.
    SlotClear,
    /// The slot's bit 127 was found set, and cleared.
    SlotCleared,
    /// Overflow was found clear.
    OverflowClear,
    /// Overflow was found set, and cleared.
    OverflowCleared,
    /// Refused by number 3.
    Refused,
}

/// The number of slots: any power of two from 8 to 256, chosen by the lent
/// buffer's length, 16 bytes a slot. Other lengths are refusal 3.
fn slots(buffer: &[u8]) -> Option<usize> {
    [8, 16, 32, 64, 128, 256]
        .into_iter()
        .find(|slots| buffer.len() == 16 * slots)
}

/// Number 3, the part every recorder call checks: the record buffer has none
/// of these lengths, or the recorder's next slot is above the last one. (Slot
/// limits in document 01 follow the length.)
///
/// Otherwise the last slot's number, which is 7 where there are eight.
fn last_slot(buffer: &[u8], recorder: &Recorder) -> Option<usize> {
    let last = slots(buffer)? - 1;
    if usize::from(recorder.next) > last {
        return None;
    }
    Some(last)
}

/// Records a fault.
pub fn record(
    buffer: &mut [u8],
    recorder: &mut Recorder,
    recordable: bool,
    record: [u8; 16],
) -> Call {
    // Every recorder call checks number 3 first.
    let Some(last) = last_slot(buffer, recorder) else {
        return Call::Refused;
    };
    // A fault not recordable then changes nothing.
    if !recordable {
        return Call::NotRecordable;
    }
    // A recordable fault with overflow set is dropped.
    if recorder.overflow {
        return Call::Dropped;
    }
    // Else, if the next slot's bit 127 is set, overflow is set and it is
    // dropped.
    let start = 16 * usize::from(recorder.next);
    let slot = &mut buffer[start..start + 16];
    if bit(slot, 127) {
        recorder.overflow = true;
        return Call::Overflowed;
    }
    // Else it is written, with bit 127 set whatever was handed in, and the
    // next slot advances, the last one to 0.
    slot.copy_from_slice(&record);
    put(slot, 127, 127, 1);
    recorder.next = if usize::from(recorder.next) == last {
        0
    } else {
        recorder.next + 1
    };
    Call::Written
}

/// Clears a slot: its bit 127 only.
pub fn clear_slot(buffer: &mut [u8], recorder: &Recorder, slot: u8) -> Call {
    // Number 3, here with "a slot to clear is above" the last one.
    let Some(last) = last_slot(buffer, recorder) else {
        return Call::Refused;
    };
    if usize::from(slot) > last {
        return Call::Refused;
    }
    let start = 16 * usize::from(slot);
    let slot = &mut buffer[start..start + 16];
    let found = bit(slot, 127);
    put(slot, 127, 127, 0);
    if found {
        Call::SlotCleared
    } else {
        Call::SlotClear
    }
}

/// Clears overflow, which is separate from clearing a slot.
pub fn clear_overflow(buffer: &[u8], recorder: &mut Recorder) -> Call {
    if last_slot(buffer, recorder).is_none() {
        return Call::Refused;
    }
    let found = recorder.overflow;
    recorder.overflow = false;
    if found {
        Call::OverflowCleared
    } else {
        Call::OverflowClear
    }
}
