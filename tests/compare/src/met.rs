//! What was met: each outcome that document 01 has, told apart further by how it came about.

use crate::builders;
use crate::caches;
use crate::meters::Seen;
use crate::scalable;
use crate::traces;
use crate::translations;
use crate::windows;
use std::fmt;

/// A kind of answer, of a call, or of an entry that a request read.
#[derive(Clone, Copy, Debug, PartialEq, Eq, PartialOrd, Ord)]
pub enum Met {
    /// A memory request refused, by number.
    MemoryRefused(u8),
    /// Granted with TE off.
    GrantedOff,
    /// Granted by pass-through, with so many levels.
    GrantedThrough { levels: u64 },
    /// Granted by a walk that ended at this level.
    GrantedPage { leaf: u64, levels: u64 },
    /// Refused with number 4: a walk that ended at this level, on the interrupt range.
    RefusedPage { leaf: u64, levels: u64 },
    /// A memory request blocked.
    MemoryBlocked { reason: u8, recordable: bool },
    /// An interrupt refused, by number.
    InterruptRefused(u8),
    /// Passed with IRE off.
    PassedOff,
    /// Passed in the old format.
    PassedOld,
    /// Remapped, with SVT and, where that is 1, SQ.
    Remapped { svt: u64, sq: u64 },
    /// Posted, with or without a notice, by the entry's URG and the descriptor's SN and ON.
    Posted {
        notice: bool,
        urg: bool,
        sn: bool,
        on: bool,
    },
    /// An interrupt blocked.
    InterruptBlocked { reason: u8, recordable: bool },
    /// A recorder call, by the slots of its buffer, none where the length is wrong, and by what it
    /// answered.
    Recorder {
        slots: usize,
        call: Call,
        status: u32,
    },
    /// A take that handed out a vector of this word of the request bits, with ON off or on before.
    Taken { word: u8, on: bool },
    /// A take where no request bit stood, with ON off or on before.
    NoneStands { on: bool },
    /// A take refused, by number, at an aligned descriptor or another.
    TakeRefused { number: u8, aligned: bool },
    /// A malformed call, by what it answered.
    Malformed { call: Call, status: u32 },
    /// A context entry with this AW was read.
    Width(u64),
    /// A context entry with this TT was read.
    Type(u64),
    /// An interrupt entry with these SVT and SQ was read.
    Validation { svt: u64, sq: u64 },
    /// An entry for remapping or posting was read, with posting and EIME off or on.
    Format {
        posted: bool,
        posting: bool,
        eime: bool,
    },
    /// An interrupt in the old format, with EIME and CFIS off or on.
    OldFormat { eime: bool, cfis: bool },
    /// A word of the root entry was walked as a page entry.
    PageOverRoot,
    /// A word of the context entry was walked as a page entry.
    PageOverContext,
    /// A page entry was walked at two levels.
    PageTwice,
    /// A descriptor was read that holds the entry which leads to it.
    DescriptorOverEntry,
    /// The last entry read ends where the image ends.
    AtTheEnd(Kind),
    /// An entry couldn't be fetched for want of one byte.
    OneByteShort(Kind),
    /// A call on meters.
    Meters(Seen),
    /// A call over windows.
    Windows(windows::Seen),
    /// A translation request.
    Translations(translations::Seen),
    /// A step of a run through a cache.
    Caches(caches::Seen),
    /// A trace.
    Traces(traces::Seen),
    /// A list of pages to map and unmap.
    Builders(builders::Seen),
    /// A request in scalable mode.
    Scalable(scalable::Seen),
}

/// A call of the C interface.
#[derive(Clone, Copy, Debug, PartialEq, Eq, PartialOrd, Ord)]
pub enum Call {
    /// `galitzaf_memory_request`.
    Memory,
    /// `galitzaf_translation_request`.
    Translation,
    /// `galitzaf_scalable_request`.
    Scalable,
    /// `galitzaf_cached_request`.
    Cached,
    /// `galitzaf_invalidate_all`.
    InvalidateAll,
    /// `galitzaf_invalidate_domain`.
    InvalidateDomain,
    /// `galitzaf_interrupt_request`.
    Interrupt,
    /// `galitzaf_take`.
    Take,
    /// `galitzaf_build`.
    Build,
    /// `galitzaf_record`.
    Record,
    /// `galitzaf_clear_slot`.
    ClearSlot,
    /// `galitzaf_clear_overflow`.
    ClearOverflow,
}

/// A kind of entry.
#[derive(Clone, Copy, Debug, PartialEq, Eq, PartialOrd, Ord)]
pub enum Kind {
    /// A root entry.
    Root,
    /// A context entry.
    Context,
    /// A page entry.
    Page,
    /// An interrupt entry.
    Interrupt,
    /// A posted descriptor.
    Descriptor,
    /// A posted descriptor that is taken from.
    Taken,
}

impl fmt::Display for Met {
    fn fmt(&self, f: &mut fmt::Formatter<'_>) -> fmt::Result {
        match *self {
            Met::MemoryRefused(number) => write!(f, "memory: refused {number}"),
            Met::GrantedOff => write!(f, "memory: granted, TE off"),
            Met::GrantedThrough { levels } => {
                write!(f, "memory: granted, pass-through, {levels} levels")
            }
            Met::GrantedPage { leaf, levels } => {
                write!(f, "memory: granted, {} page, {levels} levels", size(leaf))
            }
            Met::RefusedPage { leaf, levels } => {
                write!(f, "memory: refused 4, {} page, {levels} levels", size(leaf))
            }
            Met::MemoryBlocked { reason, recordable } => {
                write!(f, "memory: {reason:02X}h, {}", recorded(recordable))
            }
            Met::InterruptRefused(number) => write!(f, "interrupt: refused {number}"),
            Met::PassedOff => write!(f, "interrupt: passed, IRE off"),
            Met::PassedOld => write!(f, "interrupt: passed, old format"),
            Met::Remapped { svt: 1, sq } => write!(f, "interrupt: remapped, SVT 1, SQ {sq}"),
            Met::Remapped { svt, .. } => write!(f, "interrupt: remapped, SVT {svt}"),
            Met::Posted {
                notice,
                urg,
                sn,
                on,
            } => {
                let notice = if notice {
                    "notification"
                } else {
                    "no notification"
                };
                let [urg, sn, on] = [urg, sn, on].map(u8::from);
                write!(
                    f,
                    "interrupt: posted, {notice}, URG {urg}, SN {sn}, ON {on}"
                )
            }
            Met::InterruptBlocked { reason, recordable } => {
                write!(f, "interrupt: {reason:02X}h, {}", recorded(recordable))
            }
            Met::Recorder {
                slots: 0,
                call,
                status,
            } => write!(f, "recorder, wrong length: {call}, {}", said(status)),
            Met::Recorder {
                slots,
                call,
                status,
            } => write!(f, "recorder, {slots} slots: {call}, {}", said(status)),
            Met::Taken { word, on } => {
                let (high, low) = (64 * u32::from(word) + 63, 64 * u32::from(word));
                write!(f, "take: a vector of {high}:{low}, ON {}", u8::from(on))
            }
            Met::NoneStands { on } => write!(f, "take: none stands, ON {}", u8::from(on)),
            Met::TakeRefused { number, aligned } => {
                let place = if aligned {
                    "64-aligned"
                } else {
                    "not 64-aligned"
                };
                write!(f, "take: refused {number}, {place}")
            }
            Met::Malformed { call, status } => write!(f, "malformed: {call}, {}", said(status)),
            Met::Width(aw) => write!(f, "context entry read: AW {aw}"),
            Met::Type(tt) => write!(f, "context entry read: TT {tt}"),
            Met::Validation { svt, sq } => write!(f, "interrupt entry read: SVT {svt}, SQ {sq}"),
            Met::Format {
                posted,
                posting,
                eime,
            } => {
                let format = if posted { "posted" } else { "remapped" };
                let (posting, eime) = (on(posting), on(eime));
                let switches = format_args!("posting {posting}, EIME {eime}");
                write!(f, "interrupt entry read: {format}, {switches}")
            }
            Met::OldFormat { eime, cfis } => {
                let (eime, cfis) = (on(eime), on(cfis));
                write!(f, "old format: EIME {eime}, CFIS {cfis}")
            }
            Met::PageOverRoot => write!(f, "page entry over the root entry"),
            Met::PageOverContext => write!(f, "page entry over the context entry"),
            Met::PageTwice => write!(f, "page entry at two levels"),
            Met::DescriptorOverEntry => write!(f, "descriptor over its own entry"),
            Met::AtTheEnd(kind) => write!(f, "ends with the image: {kind}"),
            Met::OneByteShort(kind) => write!(f, "one byte short: {kind}"),
            Met::Meters(seen) => write!(f, "meters: {seen}"),
            Met::Windows(seen) => write!(f, "windows: {seen}"),
            Met::Translations(seen) => write!(f, "translation: {seen}"),
            Met::Caches(seen) => write!(f, "cache: {seen}"),
            Met::Traces(seen) => write!(f, "trace: {seen}"),
            Met::Builders(seen) => write!(f, "builder: {seen}"),
            Met::Scalable(seen) => write!(f, "scalable: {seen}"),
        }
    }
}

fn on(switch: bool) -> &'static str {
    if switch {
        "on"
    } else {
        "off"
    }
}

/// The size of a page, by the level of its entry.
fn size(leaf: u64) -> &'static str {
    ["4 KiB", "2 MiB", "1 GiB"][leaf as usize - 1]
}

/// Whether a fault may be recorded, in words.
pub fn recorded(recordable: bool) -> &'static str {
    if recordable {
        "recordable"
    } else {
        "silenced"
    }
}

/// What a call answers, in the header's words.
fn said(status: u32) -> &'static str {
    match status {
        0x03 => "refused 3",
        0x10 => "no fault",
        0x11 => "not recordable",
        0x12 => "dropped",
        0x13 => "overflowed",
        0x14 => "written",
        0x20 => "slot clear",
        0x21 => "slot cleared",
        0x30 => "overflow clear",
        0x31 => "overflow cleared",
        0x101 => "bad registers",
        0x102 => "bad answer",
        0x103 => "bad kind",
        0x104 => "bad recorder",
        0x105 => "bad windows",
        0x108 => "bad cache",
        0x109 => "bad items",
        _ => "something else",
    }
}

impl fmt::Display for Call {
    fn fmt(&self, f: &mut fmt::Formatter<'_>) -> fmt::Result {
        f.write_str(match self {
            Call::Memory => "memory request",
            Call::Translation => "translation request",
            Call::Scalable => "scalable request",
            Call::Cached => "cached request",
            Call::InvalidateAll => "invalidate all",
            Call::InvalidateDomain => "invalidate a domain",
            Call::Interrupt => "interrupt request",
            Call::Take => "take",
            Call::Build => "build",
            Call::Record => "record",
            Call::ClearSlot => "clear slot",
            Call::ClearOverflow => "clear overflow",
        })
    }
}

impl fmt::Display for Kind {
    fn fmt(&self, f: &mut fmt::Formatter<'_>) -> fmt::Result {
        f.write_str(match self {
            Kind::Root => "root entry",
            Kind::Context => "context entry",
            Kind::Page => "page entry",
            Kind::Interrupt => "interrupt entry",
            Kind::Descriptor => "descriptor",
            Kind::Taken => "descriptor to take from",
        })
    }
}
