//! Intel's VT-d remapping unit in software, proved.
//!
//! A hypervisor that plays the unit for its guests hands over the unit's registers, a lent run of
//! guest memory and a device's request. Back comes where the request may go: a host address, a
//! remapped or posted interrupt, or the exact fault with its record. Legacy mode and, for reads and
//! writes, scalable mode ([`ScalableUnit`]), by the rules of Intel's specification; the code behind it is written in Rattle, and each function is proved to
//! give that one answer.
//!
//! Nothing has to be checked beforehand and nothing panics: any registers, any memory and any
//! request get an answer. The crate needs no `std`, and an allocator for [`TableBuilder`] alone, which is the
//! default feature `alloc`. It is for programs of an operating system: the archive that it links uses the red
//! zone below the stack, so the build script refuses targets without one.
//!
//! Guest memory with holes is shown in windows: [`Memory`] has an example.
//!
//! ```
//! use galitzaf::{Levels, Memory, MemoryAnswer, MemoryRequest, Reason, Registers, SourceId, Unit};
//!
//! let unit = Unit::new(&Registers {
//!     haw: 39,
//!     mgaw: 48,
//!     levels: Levels { three: true, ..Levels::NONE },
//!     root_table: 0x1000,
//!     te: true,
//!     ..Registers::default()
//! });
//!
//! // Guest memory: bus 3 has a context table at 2000h, in which 02.0 has page tables from 3000h.
//! // They map one page, 40201000h, for reads.
//! let mut image = vec![0; 0x8000];
//! for (address, word) in [
//!     (0x1030, 0x2001u64), (0x2100, 0x3001), (0x2108, 0x501),
//!     (0x3008, 0x4003), (0x4008, 0x5003), (0x5008, 0x1234_5001),
//! ] {
//!     image[address..address + 8].copy_from_slice(&word.to_le_bytes());
//! }
//!
//! let camera = SourceId::new(0x03, 0x10);
//! let memory = Memory::flat(&image);
//! let answer = unit.memory(&memory, MemoryRequest::read(camera, 0x4020_1ABC));
//! assert_eq!(answer, MemoryAnswer::Granted(0x1234_5ABC));
//!
//! let answer = unit.memory(&memory, MemoryRequest::write(camera, 0x4020_1ABC));
//! assert_eq!(answer.fault().map(|f| f.reason()), Some(Reason::WriteDenied));
//! ```

#![no_std]
#![deny(missing_docs)]
#![deny(unsafe_code, clippy::undocumented_unsafe_blocks)]
// Nothing here may panic, whatever it is given.
#![cfg_attr(
    not(test),
    deny(
        clippy::arithmetic_side_effects,
        clippy::as_conversions,
        clippy::expect_used,
        clippy::indexing_slicing,
        clippy::panic,
        clippy::unreachable,
        clippy::unwrap_used
    )
)]

#[cfg(feature = "alloc")]
extern crate alloc;

mod answer;
mod builder;
mod bytes;
mod cached;
mod declared;
mod fault;
mod ffi;
mod first_bad;
mod mapping;
mod memory;
mod meters;
mod recorder;
mod registers;
mod request;
mod scalable;
mod source;
mod trace;
mod unit;

pub use answer::{
    DeliveryMode, DestinationMode, InterruptAnswer, MemoryAnswer, Notification, Page, PageSize,
    Posted, Refusal, Remapped, TakeAnswer, TranslationAnswer, TriggerMode,
};
#[cfg(feature = "alloc")]
pub use builder::TableBuilder;
pub use builder::{BuildError, Item, ItemReason, NotReady, Region};
pub use cached::CachedUnit;
pub use fault::{Fault, FaultRecord, Reason};
pub use first_bad::FirstBad;
pub use mapping::{known_numbers, Mapping, Span, SpanKind, Spans, MOST_SPANS};
pub use memory::{Memory, Window};
pub use meters::{Gate, Meters, MetersError};
pub use recorder::{Recorded, Recorder, RecorderState};
pub use registers::{Levels, Registers};
pub use request::{Access, InterruptRequest, MemoryRequest, TranslationRequest};
pub use scalable::{Capabilities, ScalableRequest, ScalableUnit};
pub use source::SourceId;
pub use trace::{
    Block, Named, Replay, TraceError, TraceItem, TracePlace, TraceReader, TraceWriter, Traced,
};
pub use unit::Unit;
