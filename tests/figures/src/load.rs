//! What is measured: registers, guest memory, and requests to be gone through again and again.

use galitzaf::{Registers, Window};

/// A read or a write.
#[derive(Clone, Copy)]
pub struct Memory {
    /// Who asks.
    pub source: u16,
    /// The address asked for.
    pub address: u64,
    /// Whether it writes.
    pub write: bool,
}

/// An interrupt message.
#[derive(Clone, Copy)]
pub struct Interrupt {
    /// Who asks.
    pub source: u16,
    /// The message's address.
    pub address: u64,
    /// The message's data.
    pub data: u32,
}

/// The requests of a load.
pub enum Requests {
    /// Memory requests.
    Memory(Vec<Memory>),
    /// Requests for translations, of the same sources and addresses.
    Translations(Vec<Memory>),
    /// Interrupts. Before each, the byte at `rearm` is made 0, if there is one.
    Interrupts {
        /// The messages.
        messages: Vec<Interrupt>,
        /// The place in the run of a descriptor's byte that has ON.
        rearm: Option<usize>,
    },
}

impl Requests {
    /// How many there are.
    pub fn len(&self) -> usize {
        match self {
            Requests::Memory(requests) | Requests::Translations(requests) => requests.len(),
            Requests::Interrupts { messages, .. } => messages.len(),
        }
    }
}

/// A row of the table.
pub struct Load {
    /// The registers.
    pub registers: Registers,
    /// The windows.
    pub windows: Vec<Window>,
    /// The run.
    pub run: Vec<u8>,
    /// The requests.
    pub requests: Requests,
}

impl Load {
    /// Makes a plain image of so many bytes of it, all zero: one window from 0.
    pub fn flat(&mut self, length: u64) {
        self.windows = vec![Window {
            start: 0,
            offset: 0,
            length,
        }];
        self.run = vec![0; length as usize];
    }

    /// Writes a word into a plain image.
    pub fn set(&mut self, address: u64, word: u64) {
        let at = address as usize;
        self.run[at..at + 8].copy_from_slice(&word.to_le_bytes());
    }

    /// Cuts a plain image into windows that begin at these addresses. `order` says which comes first in
    /// the run, which next.
    pub fn cut(mut self, starts: &[u64], order: &[usize]) -> Self {
        let end = self.run.len() as u64;
        let ends = starts.iter().skip(1).copied().chain([end]);
        let mut windows: Vec<Window> = starts
            .iter()
            .zip(ends)
            .map(|(&start, end)| Window {
                start,
                offset: 0,
                length: end - start,
            })
            .collect();
        let mut run = Vec::new();
        for &n in order {
            let Window { start, length, .. } = windows[n];
            windows[n].offset = run.len() as u64;
            run.extend_from_slice(&self.run[start as usize..(start + length) as usize]);
        }
        self.windows = windows;
        self.run = run;
        self
    }
}
