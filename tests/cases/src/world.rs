//! A world: registers, guest memory, and the requests put to it one after the other.

use reference::{Registers, Window};

/// Bytes of a page.
pub const PAGE: u64 = 4096;

/// A request. A post changes the image that the next one sees.
#[derive(Clone, Copy, Debug, PartialEq, Eq)]
pub enum Request {
    /// A read or a write.
    Memory {
        /// Who asks.
        source: u16,
        /// The address asked for.
        address: u64,
        /// Whether it writes.
        write: bool,
    },
    /// An interrupt message.
    Interrupt {
        /// Who asks.
        source: u16,
        /// The message's address.
        address: u64,
        /// The message's data.
        data: u32,
    },
}

/// An entry or a descriptor that was laid on purpose.
#[derive(Clone, Copy, Debug, PartialEq, Eq)]
pub struct Entry {
    /// Its host address.
    pub address: u64,
    /// Its length.
    pub bytes: u64,
}

impl Entry {
    /// The address after its last byte.
    pub fn end(&self) -> u64 {
        self.address.saturating_add(self.bytes)
    }
}

/// Registers, guest memory and requests. One is built again and again, so that its memory is reused.
pub struct World {
    /// The registers, good or bad.
    pub registers: Registers,
    /// The windows, good or bad. While a world is laid their parts of the run follow each other.
    pub windows: Vec<Window>,
    /// The run; a plain image has one window onto it, from 0.
    pub image: Vec<u8>,
    /// What was laid in it, whether it fits in or not.
    pub entries: Vec<Entry>,
    /// The requests, in order.
    pub requests: Vec<Request>,
    /// Host addresses of descriptors that are taken from after the requests.
    pub takes: Vec<u64>,
}

/// Where in the run the byte of a host address is: the place that the first window gives, none where no
/// window has it.
pub fn place(windows: &[Window], address: u64) -> Option<usize> {
    let window = windows
        .iter()
        .find(|w| address.wrapping_sub(w.start) < w.length && address >= w.start)?;
    usize::try_from(window.from.checked_add(address - window.start)?).ok()
}

impl World {
    /// One to build in.
    pub fn new() -> Self {
        Self {
            registers: crate::bench::REGISTERS,
            windows: Vec::new(),
            image: Vec::new(),
            entries: Vec::new(),
            requests: Vec::new(),
            takes: Vec::new(),
        }
    }

    /// Starts over with zeros, as a plain image.
    pub fn start(&mut self, registers: Registers, length: u64) {
        self.start_over(registers, &[(0, length)]);
    }

    /// Starts over with zeros, in windows given by start and length.
    pub fn start_over(&mut self, registers: Registers, shown: &[(u64, u64)]) {
        self.registers = registers;
        self.windows.clear();
        let mut from = 0;
        for &(start, length) in shown {
            self.windows.push(Window {
                start,
                from,
                length,
            });
            from += length;
        }
        self.image.clear();
        self.image.resize(from as usize, 0);
        self.entries.clear();
        self.requests.clear();
        self.takes.clear();
    }

    /// Whether it is a plain image.
    pub fn is_flat(&self) -> bool {
        match self.windows[..] {
            [] => self.image.is_empty(),
            [Window {
                start: 0,
                from: 0,
                length,
            }] => length == self.length(),
            _ => false,
        }
    }

    /// The run's length.
    pub fn length(&self) -> u64 {
        self.image.len() as u64
    }

    /// Cuts a plain image, which has no window where no byte is left.
    pub fn truncate(&mut self, length: u64) {
        self.image.truncate(length as usize);
        self.windows.clear();
        if !self.image.is_empty() {
            self.windows.push(Window {
                start: 0,
                from: 0,
                length: self.length(),
            });
        }
    }

    /// The host address of a place in the run, while a world is laid; past the run, as many bytes past the
    /// last window.
    pub fn host(&self, place: u64) -> u64 {
        let window = self.windows.iter().rev().find(|w| w.from <= place);
        window.map_or(place, |w| w.start.wrapping_add(place - w.from))
    }

    /// Where a byte stands, if a window has it.
    fn byte(&mut self, address: u64) -> Option<&mut u8> {
        self.image.get_mut(place(&self.windows, address)?)
    }

    /// Writes a word, as far as windows have its bytes.
    pub fn set(&mut self, address: u64, word: u64) {
        for (byte, n) in word.to_le_bytes().into_iter().zip(0..) {
            if let Some(to) = address.checked_add(n).and_then(|at| self.byte(at)) {
                *to = byte;
            }
        }
    }

    /// Reads a word; bytes that no window has are 0.
    pub fn word(&self, address: u64) -> u64 {
        let byte = |n| {
            let at = place(&self.windows, address.checked_add(n)?)?;
            self.image.get(at).copied()
        };
        u64::from_le_bytes([0, 1, 2, 3, 4, 5, 6, 7].map(|n| byte(n).unwrap_or(0)))
    }

    /// Lays an entry of some words.
    pub fn lay(&mut self, address: u64, words: &[u64]) {
        for (&word, n) in words.iter().zip(0..) {
            if let Some(at) = address.checked_add(8 * n) {
                self.set(at, word);
            }
        }
        let bytes = 8 * words.len() as u64;
        self.entries.push(Entry { address, bytes });
    }

    /// Turns over a bit, counted from an address, if a window has it.
    pub fn flip(&mut self, address: u64, bit: u64) {
        if let Some(byte) = address.checked_add(bit / 8).and_then(|at| self.byte(at)) {
            *byte ^= 1 << (bit % 8);
        }
    }

    /// Adds a read or a write.
    pub fn memory(&mut self, source: u16, address: u64, write: bool) {
        self.requests.push(Request::Memory {
            source,
            address,
            write,
        });
    }

    /// Adds an interrupt.
    pub fn interrupt(&mut self, source: u16, address: u64, data: u32) {
        self.requests.push(Request::Interrupt {
            source,
            address,
            data,
        });
    }
}

impl Default for World {
    fn default() -> Self {
        Self::new()
    }
}
