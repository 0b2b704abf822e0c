//! An ordinary VT-d translator in Rust, written to be shipped: it gives the answers of document 01
//! by masks and early returns, without copying or allocating; its builder of page tables does both.
//!
//! It is what the proved unit is measured against. Nothing about it is proved;
//! `tests/against_reference.rs` compares it with the reference. Unsafe code stands in `windows.rs`
//! alone: once the windows were tested, an entry that lies in one is loaded without a second test.

#![deny(unsafe_code)]

mod builder;
mod cached;
mod fault;
mod fetch;
mod interrupt;
mod memory;
pub mod meters;
mod registers;
mod scalable;
mod translation;
mod unit;
#[allow(unsafe_code)]
mod windows;

pub use builder::{build, Built, Item};
pub use cached::{cached_request, Cache};
pub use fault::Fault;
pub use interrupt::{interrupt_request, InterruptAnswer, Notice, Remapped};
pub use memory::{memory_request, MemoryAnswer};
pub use registers::Registers;
pub use scalable::{scalable_request, Capabilities, ScalableRequest};
pub use translation::{translation_request, TranslationAnswer};
pub use unit::Unit;
pub use windows::{Memory, MemoryMut, Window};
