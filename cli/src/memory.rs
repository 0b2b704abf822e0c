//! Guest memory: a run of bytes, and the windows through which host addresses see it.

use galitzaf::Window;
use std::ops::Range;

/// The longest run that a text may ask for.
pub const LONGEST: u64 = 0x4000_0000;

/// The run and its windows. Without a window, byte n is host address n.
#[derive(Default)]
pub struct Memory {
    run: Vec<u8>,
    windows: Vec<Window>,
    sized: bool,
}

impl Memory {
    /// Cuts the run to this size, or puts zeros behind it.
    pub fn size(&mut self, bytes: usize) {
        self.run.resize(bytes, 0);
        self.sized = true;
    }

    /// One window more, which the unit may refuse. A run without a size reaches to the end of its windows.
    pub fn window(&mut self, window: Window) -> Result<(), String> {
        if !self.sized {
            let end = window.offset.checked_add(window.length);
            let end = end.filter(|end| *end <= LONGEST);
            let end = end.ok_or(format!(
                "expected a window that ends within {LONGEST:X} bytes"
            ))?;
            self.run.resize(self.run.len().max(end as usize), 0);
        }
        self.windows.push(window);
        Ok(())
    }

    /// How many bytes the run has.
    pub fn length(&self) -> usize {
        self.run.len()
    }

    /// The memory as the unit takes it.
    pub fn lent(&mut self) -> galitzaf::Memory<'_, &mut [u8]> {
        if self.windows.is_empty() {
            return galitzaf::Memory::flat(&mut self.run);
        }
        galitzaf::Memory::new(&mut self.run, &self.windows)
    }

    /// The word at a host address, where it lies whole in a window.
    pub fn word(&self, address: u64) -> Option<u64> {
        let bytes = self.run.get(self.place(address)?)?;
        Some(u64::from_le_bytes(bytes.try_into().ok()?))
    }

    /// Stores a word; false where no window holds it.
    pub fn store(&mut self, address: u64, word: u64) -> bool {
        let place = self.place(address);
        let bytes = place.and_then(|place| self.run.get_mut(place));
        bytes
            .map(|bytes| bytes.copy_from_slice(&word.to_le_bytes()))
            .is_some()
    }

    /// Where the 8 bytes from a host address stand in the run.
    fn place(&self, address: u64) -> Option<Range<usize>> {
        let whole = [Window {
            start: 0,
            offset: 0,
            length: u64::MAX,
        }];
        let windows = if self.windows.is_empty() {
            &whole[..]
        } else {
            &self.windows
        };
        let holds = |window: &&Window| {
            let from = address.checked_sub(window.start);
            from.and_then(|from| from.checked_add(8))
                .is_some_and(|end| end <= window.length)
        };
        let window = windows.iter().find(holds)?;
        let from = (address - window.start).checked_add(window.offset)?;
        let from = usize::try_from(from).ok()?;
        Some(from..from.checked_add(8)?)
    }
}
