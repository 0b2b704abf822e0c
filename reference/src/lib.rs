//! A legacy Intel VT-d remapping unit, read off the rules (document 01) and
//! the change requests (document 02) as literally as possible.
//!
//! This is a second program, written apart from the proved one, to compare
//! answers with. It follows the papers sentence by sentence, in the papers'
//! order and the papers' bit numbers; the sentences stand as comments beside
//! the lines that follow them. It is neither quick nor clever. It answers any
//! registers, any image and any request without panicking.

#![forbid(unsafe_code)]

mod bits;
mod builder;
mod cache;
mod context;
mod image;
mod interrupts;
mod listing;
mod memory;
mod meters;
mod pages;
mod record;
mod recorder;
mod registers;
mod scalable;
pub mod slips;
mod take;
mod trace;
mod translation;

pub use builder::{build, Build, Item, Region};
pub use cache::{Cache, Cached};
pub use image::Window;
pub use interrupts::{
    interrupt_request, interrupt_request_in, interrupt_request_with, named_words_interrupt,
    named_words_interrupt_in,
};
pub use listing::listing;
pub use memory::{
    memory_request, memory_request_in, memory_request_with, named_words_memory,
    named_words_memory_in, walked_entries, walked_entries_in,
};
pub use meters::{
    counts_weighted, load_times_2_31, reset_meters, tick_meters, Gate, Meter, MetersRefused,
};
pub use record::Fault;
pub use recorder::{clear_overflow, clear_slot, record, Call, Recorder};
pub use registers::Registers;
pub use scalable::{
    flags_scalable, named_words_scalable, scalable_request, Flag, ScalableRegisters,
    ScalableRequest,
};
pub use slips::Slip;
pub use take::{take, take_in, Take};
pub use trace::{
    decode_entry, encode_entry, read_trace, replay_trace, traced_answer, write_trace, Trace,
    TraceEntry, TracePlace, TracedAnswer, TracedRequest,
};
pub use translation::{
    named_words_translation_in, translation_request, translation_request_in, Translation,
};

/// What a request is answered.
#[derive(Clone, Debug, PartialEq, Eq)]
pub enum Outcome {
    /// A memory request may go to this host address.
    Granted(u64),
    /// A fault stopped the request.
    Blocked(Fault),
    /// The unit says no by house number: 1, 2, or 4 (a frame on the interrupt
    /// range).
    Refused(u8),
    /// An interrupt is passed unchanged.
    Passed,
    /// An interrupt is remapped.
    Remapped {
        /// Destination mode.
        destination_mode: bool,
        /// Redirection hint.
        redirection_hint: bool,
        /// Trigger.
        trigger: bool,
        /// Delivery mode.
        delivery: u8,
        /// Vector.
        vector: u8,
        /// Destination.
        destination: u32,
    },
    /// An interrupt is posted, with a notice where one is due.
    Posted {
        /// The vector posted.
        vector: u8,
        /// Where its descriptor is.
        descriptor: u64,
        /// The notice, if due.
        notice: Option<Notice>,
    },
}

/// The notice that goes with a post.
#[derive(Clone, Debug, PartialEq, Eq)]
pub struct Notice {
    /// Vector.
    pub vector: u8,
    /// Destination.
    pub destination: u32,
}
