//! Registers, guest memory and requests to compare implementations of documents 01 and 02 with.
//!
//! They are made from document 01, sentence by sentence, and not from what an implementation does:
//! tables are laid so that a request goes deep, then a few of their bits are turned over or the
//! image is cut. Edges of registers, addresses and indexes are gone through one by one. A world is
//! named by its suite and its number, and can be built by itself.

#![forbid(unsafe_code)]

pub mod bench;
mod damage;
pub mod edges;
mod interrupts;
mod memory;
mod message;
mod random;
pub mod registers;
pub mod scalable;
mod suites;
mod windows;
mod world;

pub use damage::scratch;
pub use random::Random;
pub use suites::{Suite, SUITES};
pub use world::{place, Entry, Request, World, PAGE};
