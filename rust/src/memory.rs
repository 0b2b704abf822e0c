//! Guest memory as it is lent.

use core::fmt;

use crate::bytes::Hex;

/// A window: a part of the lent run, and the host address at which it stands.
///
/// ```
/// use galitzaf::Window;
///
/// // The last 64 MiB of a run of 4 GiB, shown from host address 4 GiB on.
/// let high = Window { start: 1 << 32, offset: 0xFC00_0000, length: 0x400_0000 };
/// assert_eq!(high.start + high.length, 0x1_0400_0000);
/// ```
#[repr(C)]
#[derive(Clone, Copy, Default, PartialEq, Eq, Hash)]
pub struct Window {
    /// Host address of its first byte, a multiple of 4096.
    pub start: u64,
    /// Place of that byte in the run.
    pub offset: u64,
    /// How many bytes it has, at least 1.
    pub length: u64,
}

/// In hexadecimal.
impl fmt::Debug for Window {
    fn fmt(&self, f: &mut fmt::Formatter<'_>) -> fmt::Result {
        f.debug_struct("Window")
            .field("start", &Hex(self.start))
            .field("offset", &Hex(self.offset))
            .field("length", &Hex(self.length))
            .finish()
    }
}

/// Guest memory: one run of bytes, and none to four windows that say at which host addresses parts of
/// it stand.
///
/// Windows are sorted by start and overlap neither in host addresses nor in the run; touching is no
/// overlap, and their places in the run may have any order. An entry is fetched exactly if it lies
/// whole in a single window. Any windows may be given: others, and windows with an end past the run or
/// past 2^64, are refused by each request, with [`Refusal::BadRegisters`](crate::Refusal::BadRegisters).
///
/// The run is anything that lends its bytes: a slice, shared or `&mut`, an array, a `Vec`. For as long as
/// a call lasts nobody else may change it: memory that virtual processors or devices write at the same
/// time must not be made into a slice.
///
/// ```
/// use galitzaf::{Levels, Memory, MemoryRequest, Reason, Registers, SourceId, Unit, Window};
///
/// let unit = Unit::new(&Registers {
///     haw: 39,
///     mgaw: 48,
///     levels: Levels { four: true, ..Levels::NONE },
///     root_table: 0x1_0000_0000,
///     te: true,
///     ..Registers::default()
/// });
/// // Two pages below the hole at 3 GiB, and one at 4 GiB.
/// let run = [0; 0x3000];
/// let windows = [
///     Window { start: 0xBFFF_E000, offset: 0, length: 0x2000 },
///     Window { start: 0x1_0000_0000, offset: 0x2000, length: 0x1000 },
/// ];
/// let read = MemoryRequest::read(SourceId::from(0x0310), 0x1000);
/// let reason = |memory| unit.memory(&memory, read).fault().map(|fault| fault.reason());
/// // The root entry is there, and not present.
/// assert_eq!(reason(Memory::new(&run, &windows)), Some(Reason::RootNotPresent));
/// // Without the window at 4 GiB it can't be fetched.
/// assert_eq!(reason(Memory::new(&run, &windows[..1])), Some(Reason::RootAccess));
/// ```
#[derive(Clone, Copy, PartialEq, Eq, Hash)]
pub struct Memory<'a, R> {
    run: R,
    shown: Shown<'a>,
}

/// What of a run is shown.
#[derive(Clone, Copy, Debug, PartialEq, Eq, Hash)]
enum Shown<'a> {
    /// All of it, from host address 0 on.
    Flat,
    /// What windows show.
    Windows(&'a [Window]),
}

impl<'a, R> Memory<'a, R> {
    /// A run that these windows show.
    pub const fn new(run: R, windows: &'a [Window]) -> Self {
        let shown = Shown::Windows(windows);
        Self { run, shown }
    }

    /// A plain image: byte n of the run is host address n.
    ///
    /// ```
    /// use galitzaf::{Levels, Memory, Registers, TakeAnswer, Unit};
    ///
    /// let unit = Unit::new(&Registers {
    ///     haw: 39, mgaw: 48, levels: Levels { four: true, ..Levels::NONE }, ..Registers::default()
    /// });
    /// let mut memory = Memory::flat([0; 64]);
    /// assert_eq!(unit.take(&mut memory, 0), TakeAnswer::Nothing);
    /// assert_eq!(memory.into_run(), [0; 64]);
    /// ```
    pub const fn flat(run: R) -> Memory<'static, R> {
        let shown = Shown::Flat;
        Memory { run, shown }
    }

    /// The run, to be read or written between requests.
    pub const fn run(&self) -> &R {
        &self.run
    }

    /// The same, to be written.
    pub fn run_mut(&mut self) -> &mut R {
        &mut self.run
    }

    /// The run, given back.
    pub fn into_run(self) -> R {
        self.run
    }
}

impl<R: AsRef<[u8]>> Memory<'_, R> {
    /// Calls with windows and run.
    #[inline]
    pub(crate) fn lend<T>(&self, call: impl FnOnce(&[Window], &[u8]) -> T) -> T {
        let run = self.run.as_ref();
        match self.shown {
            Shown::Flat => call(Flat::of(run).windows(), run),
            Shown::Windows(windows) => call(windows, run),
        }
    }
}

impl<R: AsMut<[u8]>> Memory<'_, R> {
    /// Calls with windows and run, which may be written.
    #[inline]
    pub(crate) fn lend_mut<T>(&mut self, call: impl FnOnce(&[Window], &mut [u8]) -> T) -> T {
        let run = self.run.as_mut();
        match self.shown {
            Shown::Flat => call(Flat::of(run).windows(), run),
            Shown::Windows(windows) => call(windows, run),
        }
    }
}

/// The one window of a plain image, which has none where it is empty.
struct Flat(Option<Window>);

impl Flat {
    fn of(run: &[u8]) -> Self {
        let length = u64::try_from(run.len()).unwrap_or(u64::MAX);
        Self((length > 0).then_some(Window {
            start: 0,
            offset: 0,
            length,
        }))
    }

    fn windows(&self) -> &[Window] {
        self.0.as_slice()
    }
}

/// Without the bytes.
impl<R> fmt::Debug for Memory<'_, R> {
    fn fmt(&self, f: &mut fmt::Formatter<'_>) -> fmt::Result {
        let mut memory = f.debug_struct("Memory");
        memory.field("shown", &self.shown).finish_non_exhaustive()
    }
}

#[cfg(test)]
mod tests {
    use super::*;

    #[test]
    fn a_plain_image_is_one_window_from_0() {
        let whole = [Window {
            start: 0,
            offset: 0,
            length: 5,
        }];
        let seen =
            |windows: &[Window], run: &[u8]| assert_eq!((windows, run.len()), (&whole[..], 5));
        Memory::flat([0; 5]).lend(seen);
        Memory::flat(&mut [0; 5]).lend_mut(|windows, run| seen(windows, run));
        Memory::flat([0; 0]).lend(|windows, run| assert!(windows.is_empty() && run.is_empty()));
    }

    #[test]
    fn windows_are_three_numbers_each() {
        assert_eq!(size_of::<Window>(), 24);
        assert_eq!(core::mem::offset_of!(Window, start), 0);
        assert_eq!(core::mem::offset_of!(Window, offset), 8);
        assert_eq!(core::mem::offset_of!(Window, length), 16);
    }
}
