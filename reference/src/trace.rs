//! Ask 12: a trace of requests and answers in blocks of 512 bytes.
//!
//! An entry has no record bytes: those of a fault follow from the request and
//! the reason. All numbers are little-endian.

use crate::bits::{bit, bits, put};
use crate::image::Window;
use crate::interrupts::interrupt_request_in;
use crate::memory::memory_request_in;
use crate::registers::Registers;
use crate::slips::Slip;
use crate::translation::{translation_request_in, Translation};
use crate::{Notice, Outcome};

/// Bytes of a block.
const BLOCK: usize = 512;

/// Bytes of an entry.
const ENTRY: usize = 32;

/// Entries of a filled block.
const FILLED: usize = 15;

/// A request as traced.
#[derive(Clone, Copy, Debug, PartialEq, Eq)]
pub enum TracedRequest {
    /// A read or a write.
    Memory {
        /// Who asks.
        source: u16,
        /// The address asked for.
        address: u64,
        /// Whether it writes.
        write: bool,
    },
    /// An interrupt.
    Interrupt {
        /// Who asks.
        source: u16,
        /// The message's address.
        address: u64,
        /// The message's data.
        data: u32,
    },
    /// A translation request (Ask 1).
    Translation {
        /// Who asks.
        source: u16,
        /// The address asked for.
        address: u64,
    },
}

/// An answer as traced.
#[derive(Clone, Debug, PartialEq, Eq)]
pub enum TracedAnswer {
    /// Refused, by number.
    Refused(u8),
    /// A fault, without its record bytes.
    Fault {
        /// Intel's reason number.
        reason: u8,
        /// Whether it may be recorded.
        recordable: bool,
        /// The host address of the entry concerned, or none.
        entry: Option<u64>,
    },
    /// A memory request's host address, or with TE off a translation request's
    /// own address.
    Granted(u64),
    /// A translation request's page; the empty answer has frame and size 0 and
    /// no rights.
    Page {
        /// The page's first byte.
        frame: u64,
        /// Its address bits: 12, 21 or 30; 0 in the empty answer.
        width: u8,
        /// Whether it may be read.
        read: bool,
        /// Whether it may be written.
        write: bool,
    },
    /// An interrupt passed unchanged.
    Passed,
    /// An interrupt remapped.
    Remapped {
        /// Destination mode.
        destination_mode: bool,
        /// Redirection hint.
        redirection_hint: bool,
        /// Trigger.
        trigger: bool,
        /// Delivery mode, 0 to 7.
        delivery: u8,
        /// Vector.
        vector: u8,
        /// Destination.
        destination: u32,
    },
    /// An interrupt posted.
    Posted {
        /// The vector posted.
        vector: u8,
        /// The descriptor's host address.
        descriptor: u64,
        /// The notice, if due.
        notice: Option<Notice>,
    },
}

/// An entry: a request and its answer.
#[derive(Clone, Debug, PartialEq, Eq)]
pub struct TraceEntry {
    /// The request.
    pub request: TracedRequest,
    /// The answer.
    pub answer: TracedAnswer,
}

/// Where an entry stands, both counted from 0.
#[derive(Clone, Copy, Debug, PartialEq, Eq, PartialOrd, Ord)]
pub struct TracePlace {
    /// The block.
    pub block: u64,
    /// The place in the block, 0 to 14.
    pub place: u8,
}

/// What the reader hands out.
#[derive(Clone, Debug, PartialEq, Eq)]
pub struct Trace {
    /// The entries of all blocks that aren't damaged, unchanged and in order.
    pub entries: Vec<(TracePlace, TraceEntry)>,
    /// The damaged blocks, by place, in order.
    pub damaged: Vec<u64>,
}

/// Lays out an entry.
pub fn encode_entry(entry: &TraceEntry) -> [u8; ENTRY] {
    let mut bytes = [0; ENTRY];
    match entry.request {
        TracedRequest::Memory {
            source,
            address,
            write,
        } => {
            bytes[0] = if write { 2 } else { 1 };
            bytes[4..6].copy_from_slice(&source.to_le_bytes());
            bytes[8..16].copy_from_slice(&address.to_le_bytes());
        }
        TracedRequest::Interrupt {
            source,
            address,
            data,
        } => {
            bytes[0] = 3;
            bytes[4..6].copy_from_slice(&source.to_le_bytes());
            bytes[8..16].copy_from_slice(&address.to_le_bytes());
            bytes[16..20].copy_from_slice(&data.to_le_bytes());
        }
        TracedRequest::Translation { source, address } => {
            bytes[0] = 4;
            bytes[4..6].copy_from_slice(&source.to_le_bytes());
            bytes[8..16].copy_from_slice(&address.to_le_bytes());
        }
    }
    match &entry.answer {
        TracedAnswer::Refused(number) => {
            bytes[1] = 1;
            bytes[2] = *number;
        }
        TracedAnswer::Fault {
            reason,
            recordable,
            entry,
        } => {
            bytes[1] = 2;
            bytes[2] = *reason;
            put(&mut bytes[3..4], 0, 0, u128::from(*recordable));
            if let Some(address) = entry {
                put(&mut bytes[3..4], 1, 1, 1);
                bytes[24..32].copy_from_slice(&address.to_le_bytes());
            }
        }
        TracedAnswer::Granted(address) => {
            bytes[1] = 3;
            bytes[24..32].copy_from_slice(&address.to_le_bytes());
        }
        TracedAnswer::Page {
            frame,
            width,
            read,
            write,
        } => {
            bytes[1] = 8;
            bytes[2] = *width;
            put(&mut bytes[3..4], 0, 0, u128::from(*read));
            put(&mut bytes[3..4], 1, 1, u128::from(*write));
            bytes[24..32].copy_from_slice(&frame.to_le_bytes());
        }
        TracedAnswer::Passed => bytes[1] = 4,
        TracedAnswer::Remapped {
            destination_mode,
            redirection_hint,
            trigger,
            delivery,
            vector,
            destination,
        } => {
            bytes[1] = 5;
            put(&mut bytes[3..4], 0, 0, u128::from(*destination_mode));
            put(&mut bytes[3..4], 1, 1, u128::from(*redirection_hint));
            put(&mut bytes[3..4], 2, 2, u128::from(*trigger));
            put(&mut bytes[3..4], 5, 3, u128::from(*delivery));
            bytes[6] = *vector;
            bytes[20..24].copy_from_slice(&destination.to_le_bytes());
        }
        TracedAnswer::Posted {
            vector,
            descriptor,
            notice,
        } => {
            bytes[1] = 6;
            bytes[7] = *vector;
            bytes[24..32].copy_from_slice(&descriptor.to_le_bytes());
            if let Some(notice) = notice {
                bytes[1] = 7;
                bytes[6] = notice.vector;
                bytes[20..24].copy_from_slice(&notice.destination.to_le_bytes());
            }
        }
    }
    bytes
}

/// Reads an entry: none if it isn't the layout of a request with an answer of
/// its kind.
pub fn decode_entry(bytes: &[u8; ENTRY]) -> Option<TraceEntry> {
    let number = |first: usize, last: usize| bits(bytes, 8 * last + 7, 8 * first);
    let source = number(4, 5) as u16;
    let address = number(8, 15) as u64;
    let request = match bytes[0] {
        1 | 2 => TracedRequest::Memory {
            source,
            address,
            write: bytes[0] == 2,
        },
        3 => TracedRequest::Interrupt {
            source,
            address,
            data: number(16, 19) as u32,
        },
        4 => TracedRequest::Translation { source, address },
        _ => return None,
    };
    // Of a translation request, too, but for its own answers.
    let memory = bytes[0] != 3;
    let translation = bytes[0] == 4;
    let flag = |n: usize| bit(&bytes[3..4], n);
    let value = number(24, 31) as u64;
    let notice = Notice {
        vector: bytes[6],
        destination: number(20, 23) as u32,
    };
    let answer = match (bytes[1], memory) {
        // Refusals 1 and 2, of a memory request also 4.
        (1, true) if matches!(bytes[2], 1 | 2 | 4) => TracedAnswer::Refused(bytes[2]),
        (1, false) if matches!(bytes[2], 1 | 2) => TracedAnswer::Refused(bytes[2]),
        // Reasons 01h to 0Ch of a memory request, also 0Dh of a translation
        // request, 20h to 28h of an interrupt.
        (2, _) => {
            let good = match (memory, translation) {
                (true, true) => 0x01..=0x0D,
                (true, false) => 0x01..=0x0C,
                _ => 0x20..=0x28,
            };
            if !good.contains(&bytes[2]) {
                return None;
            }
            TracedAnswer::Fault {
                reason: bytes[2],
                recordable: flag(0),
                entry: if flag(1) { Some(value) } else { None },
            }
        }
        (3, true) => TracedAnswer::Granted(value),
        (4, false) => TracedAnswer::Passed,
        (5, false) => TracedAnswer::Remapped {
            destination_mode: flag(0),
            redirection_hint: flag(1),
            trigger: flag(2),
            delivery: bits(&bytes[3..4], 5, 3) as u8,
            vector: bytes[6],
            destination: number(20, 23) as u32,
        },
        (6, false) => TracedAnswer::Posted {
            vector: bytes[7],
            descriptor: value,
            notice: None,
        },
        (7, false) => TracedAnswer::Posted {
            vector: bytes[7],
            descriptor: value,
            notice: Some(notice),
        },
        // A page of 4 KiB, 2 MiB or 1 GiB.
        (8, true) if translation && matches!(bytes[2], 12 | 21 | 30) => TracedAnswer::Page {
            frame: value,
            width: bytes[2],
            read: flag(0),
            write: flag(1),
        },
        // The empty answer: size, frame and rights are 0, which is looked at
        // below.
        (8, true) if translation && bytes[2] == 0 => TracedAnswer::Page {
            frame: 0,
            width: 0,
            read: false,
            write: false,
        },
        _ => return None,
    };
    let entry = TraceEntry { request, answer };
    // A byte or a flag that this kind and answer don't use is 0.
    if encode_entry(&entry) != *bytes {
        return None;
    }
    Some(entry)
}

/// The sum, over bytes 0 to 507, of byte times (place + 1).
fn sum(block: &[u8]) -> u32 {
    (0..508)
        .map(|place| u32::from(block[place]) * (place as u32 + 1))
        .sum()
}

/// Writes a trace, each block filled before the next. No entries, no blocks.
pub fn write_trace(entries: &[TraceEntry]) -> Vec<u8> {
    let mut bytes = Vec::new();
    for (number, entries) in entries.chunks(FILLED).enumerate() {
        let mut block = [0; BLOCK];
        // Byte 0 is 56h,
        block[0] = 0x56;
        // byte 1 the count of entries, 1 to 15;
        block[1] = entries.len() as u8;
        // bytes 2 to 7 are the block's number, from 0;
        put(&mut block[2..8], 47, 0, number as u128);
        // entries of 32 bytes follow from byte 8 and unused bytes up to 507
        // are zero;
        for (n, entry) in entries.iter().enumerate() {
            let at = 8 + ENTRY * n;
            block[at..at + ENTRY].copy_from_slice(&encode_entry(entry));
        }
        // bytes 508 to 511 hold the sum.
        let sum = sum(&block);
        block[508..].copy_from_slice(&sum.to_le_bytes());
        bytes.extend(block);
    }
    bytes
}

/// The entries of the block at a place: none if it isn't laid out as written
/// above, entries included, with its place as number.
fn read_block(block: &[u8], at: u64) -> Option<Vec<TraceEntry>> {
    // A short last one too.
    if block.len() != BLOCK {
        return None;
    }
    if block[0] != 0x56 {
        return None;
    }
    let count = usize::from(block[1]);
    if !(1..=FILLED).contains(&count) {
        return None;
    }
    if bits(&block[2..8], 47, 0) != u128::from(at) {
        return None;
    }
    let mut entries = Vec::new();
    for n in 0..count {
        let mut entry = [0; ENTRY];
        entry.copy_from_slice(&block[8 + ENTRY * n..8 + ENTRY * (n + 1)]);
        entries.push(decode_entry(&entry)?);
    }
    if block[8 + ENTRY * count..508].iter().any(|&byte| byte != 0) {
        return None;
    }
    if bits(&block[508..], 31, 0) != u128::from(sum(block)) {
        return None;
    }
    Some(entries)
}

/// Reads a trace. The reader names as damaged, by its place, each block not
/// laid out so, and hands out all other blocks' entries unchanged and in order.
pub fn read_trace(bytes: &[u8]) -> Trace {
    let mut trace = Trace {
        entries: Vec::new(),
        damaged: Vec::new(),
    };
    for (block, at) in bytes.chunks(BLOCK).zip(0..) {
        match read_block(block, at) {
            Some(entries) => {
                for (entry, place) in entries.into_iter().zip(0..) {
                    let block = at;
                    trace.entries.push((TracePlace { block, place }, entry));
                }
            }
            None => trace.damaged.push(at),
        }
    }
    trace
}

/// Puts a request, posts made, and gives its answer as traced.
pub fn traced_answer(
    registers: &Registers,
    windows: &[Window],
    run: &mut [u8],
    request: TracedRequest,
) -> TracedAnswer {
    let none = Slip::None;
    let outcome = match request {
        TracedRequest::Memory {
            source,
            address,
            write,
        } => memory_request_in(none, registers, windows, run, source, address, write),
        TracedRequest::Interrupt {
            source,
            address,
            data,
        } => interrupt_request_in(none, registers, windows, run, source, address, data),
        TracedRequest::Translation { source, address } => {
            return traced_translation(translation_request_in(
                registers, windows, run, source, address,
            ));
        }
    };
    match outcome {
        Outcome::Granted(address) => TracedAnswer::Granted(address),
        Outcome::Blocked(fault) => TracedAnswer::Fault {
            reason: fault.reason,
            recordable: fault.recordable,
            entry: fault.entry,
        },
        Outcome::Refused(number) => TracedAnswer::Refused(number),
        Outcome::Passed => TracedAnswer::Passed,
        Outcome::Remapped {
            destination_mode,
            redirection_hint,
            trigger,
            delivery,
            vector,
            destination,
        } => TracedAnswer::Remapped {
            destination_mode,
            redirection_hint,
            trigger,
            delivery,
            vector,
            destination,
        },
        Outcome::Posted {
            vector,
            descriptor,
            notice,
        } => TracedAnswer::Posted {
            vector,
            descriptor,
            notice,
        },
    }
}

/// A translation request's answer as traced.
fn traced_translation(answer: Translation) -> TracedAnswer {
    match answer {
        Translation::Answered {
            frame,
            size,
            read,
            write,
        } => TracedAnswer::Page {
            frame,
            width: match size {
                0x1000 => 12,
                0x20_0000 => 21,
                0x4000_0000 => 30,
                _ => 0,
            },
            read,
            write,
        },
        Translation::Blocked(fault) => TracedAnswer::Fault {
            reason: fault.reason,
            recordable: fault.recordable,
            entry: fault.entry,
        },
        Translation::Refused(number) => TracedAnswer::Refused(number),
        Translation::Passed(address) => TracedAnswer::Granted(address),
    }
}

/// Replays a trace: runs the entries that the reader hands out under given
/// registers and image, posts made, and names by block and place exactly those
/// whose answer differs.
pub fn replay_trace(
    registers: &Registers,
    windows: &[Window],
    run: &mut [u8],
    bytes: &[u8],
) -> Vec<TracePlace> {
    let mut differ = Vec::new();
    for (place, entry) in read_trace(bytes).entries {
        if traced_answer(registers, windows, run, entry.request) != entry.answer {
            differ.push(place);
        }
    }
    differ
}
