//! "The fault slip": a fault answers its reason, whether it may be recorded,
//! and 16 record bytes; and, by Ask 7, the host address of the entry concerned.

use crate::bits::{bits, put};

/// A fault as answered.
#[derive(Clone, Debug, PartialEq, Eq)]
pub struct Fault {
    /// Intel's reason number.
    pub reason: u8,
    /// Whether it may be recorded.
    pub recordable: bool,
    /// The 16 record bytes.
    pub record: [u8; 16],
    /// The host address of the entry concerned, or none (20h, 21h and 25h).
    /// The record bytes do not have it.
    pub entry: Option<u64>,
}

/// FPD silences 02h to 07h, 0Bh, 0Ch (context; with Ask 1 0Dh too) and 22h,
/// 24h, 26h to 28h (interrupt entry); others are always recordable.
///
/// `fpd` is bit 1 of the context or interrupt entry, and false as long as no
/// such entry was fetched.
fn recordable(reason: u8, fpd: bool) -> bool {
    let silenced_by_context = matches!(reason, 0x02..=0x07 | 0x0B..=0x0D);
    let silenced_by_interrupt_entry = matches!(reason, 0x22 | 0x24 | 0x26..=0x28);
    !(fpd && (silenced_by_context || silenced_by_interrupt_entry))
}

/// The fault of a memory request, which always concerns an entry.
pub fn memory_fault(
    reason: u8,
    fpd: bool,
    source: u16,
    address: u64,
    write: bool,
    entry: u128,
) -> Fault {
    let mut record = [0; 16];
    // Address 63:12 in place.
    put(&mut record, 63, 12, bits(&address.to_le_bytes(), 63, 12));
    // Source 79:64.
    put(&mut record, 79, 64, u128::from(source));
    // Reason 103:96.
    put(&mut record, 103, 96, u128::from(reason));
    // Bit 126 set for a read.
    if !write {
        put(&mut record, 126, 126, 1);
    }
    // Bit 127 set; the rest 0.
    put(&mut record, 127, 127, 1);
    Fault {
        reason,
        recordable: recordable(reason, fpd),
        record,
        entry: Some(entry as u64),
    }
}

/// The fault of a translation request (Ask 1): AT goes in record bits 125:124,
/// and it is 01b; bit 126 is set.
pub fn translation_fault(reason: u8, fpd: bool, source: u16, address: u64, entry: u128) -> Fault {
    let write = false;
    let mut fault = memory_fault(reason, fpd, source, address, write, entry);
    put(&mut fault.record, 125, 124, 0b01);
    fault
}

/// The fault of an interrupt, which may concern no entry.
pub fn interrupt_fault(
    reason: u8,
    fpd: bool,
    source: u16,
    index: u128,
    entry: Option<u128>,
) -> Fault {
    let mut record = [0; 16];
    // The interrupt index in 63:48 (65,535 if larger; 0 for 20h and 25h).
    let index_written = if reason == 0x20 || reason == 0x25 {
        0
    } else if index > 65_535 {
        65_535
    } else {
        index
    };
    put(&mut record, 63, 48, index_written);
    // Source 79:64.
    put(&mut record, 79, 64, u128::from(source));
    // Reason 103:96.
    put(&mut record, 103, 96, u128::from(reason));
    // Bit 126 is for a read, which an interrupt is not.
    // Bit 127 set; the rest 0.
    put(&mut record, 127, 127, 1);
    Fault {
        reason,
        recordable: recordable(reason, fpd),
        record,
        entry: entry.map(|address| address as u64),
    }
}
