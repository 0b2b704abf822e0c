//! The unit.

use core::fmt;

use crate::ffi::{self, REGISTERS_SIZE};
use crate::TranslationRequest;
use crate::{Access, FirstBad, InterruptAnswer, InterruptRequest, MemoryAnswer, MemoryRequest};
use crate::{Mapping, Memory, Refusal, Registers, SourceId, TakeAnswer, TranslationAnswer};

/// A remapping unit: its registers, ready to answer requests over any guest memory.
///
/// It keeps nothing else. [`Memory`] is lent to each request, and every table is read from it anew.
/// While a request is answered nobody else changes this memory, as Rust has it for what a reference
/// lends. So posts and takes are plain writes and no atomic operations: virtual processors and devices
/// that share the memory have to be kept off it meanwhile.
#[derive(Clone, Copy, PartialEq, Eq, Hash)]
pub struct Unit {
    pub(crate) registers: [u8; REGISTERS_SIZE],
}

impl Unit {
    /// A unit with these registers, whatever their values: bad ones are refused by each request.
    pub fn new(registers: &Registers) -> Self {
        Self {
            registers: registers.to_bytes(),
        }
    }

    /// The registers that it was made with.
    ///
    /// ```
    /// use galitzaf::{Registers, Unit};
    ///
    /// let registers = Registers { haw: 39, root_table: 0x1000, ..Registers::default() };
    /// let unit = Unit::new(&registers);
    /// assert_eq!(unit.registers(), registers);
    /// // Both are shown by these, addresses in hexadecimal.
    /// assert_eq!(format!("{unit:?}"), format!("Unit({registers:?})"));
    /// assert!(format!("{unit:?}").contains("haw: 39") && format!("{unit:?}").contains("root_table: 0x1000"));
    /// ```
    pub fn registers(&self) -> Registers {
        Registers::from_bytes(&self.registers)
    }

    /// Which register or window [`Refusal::BadRegisters`] is for: the first in the list's order, registers
    /// before windows; none exactly where no request over this memory is so refused.
    ///
    /// ```
    /// use galitzaf::{FirstBad, Levels, Memory, Registers, Unit, Window};
    ///
    /// let good = Registers {
    ///     haw: 39, mgaw: 48, levels: Levels { four: true, ..Levels::NONE }, ..Registers::default()
    /// };
    /// let run = [0; 0x2000];
    /// let first = |registers, memory| Unit::new(&registers).first_bad(&memory);
    /// assert_eq!(first(good, Memory::flat(&run)), None);
    ///
    /// // A guest wrote an address that is too wide.
    /// let registers = Registers { root_table: 1 << 39, ..good };
    /// assert_eq!(first(registers, Memory::flat(&run)), Some(FirstBad::RootTable));
    ///
    /// // The second window overlaps the first.
    /// let window = |start, offset| Window { start, offset, length: 0x1000 };
    /// let windows = [window(0x1000, 0), window(0x1000, 0x1000)];
    /// assert_eq!(first(good, Memory::new(&run, &windows)), Some(FirstBad::Window(1)));
    /// ```
    pub fn first_bad<R: AsRef<[u8]>>(&self, memory: &Memory<R>) -> Option<FirstBad> {
        let status =
            memory.lend(|windows, run| ffi::first_bad(&self.registers, windows, run.len()));
        FirstBad::decode(status)
    }

    /// Where a memory request may go. Reads memory, and no more of it than the tables it walks.
    ///
    /// ```
    /// use galitzaf::{Memory, MemoryAnswer, MemoryRequest, Refusal, Registers, SourceId, Unit};
    ///
    /// // Registers of all zeros name no host width: refused.
    /// let unit = Unit::new(&Registers::default());
    /// let request = MemoryRequest::read(SourceId::from(0), 0);
    /// let answer = unit.memory(&Memory::flat([]), request);
    /// assert_eq!(answer, MemoryAnswer::Refused(Refusal::BadRegisters));
    /// ```
    pub fn memory<R: AsRef<[u8]>>(
        &self,
        memory: &Memory<R>,
        request: MemoryRequest,
    ) -> MemoryAnswer {
        let MemoryRequest {
            source,
            address,
            access,
        } = request;
        let write = access == Access::Write;
        let answer = memory.lend(|windows, run| {
            ffi::memory_request(&self.registers, windows, run, source.into(), address, write)
        });
        answer.map_or(
            MemoryAnswer::Refused(Refusal::INTERFACE),
            MemoryAnswer::decode,
        )
    }

    /// The page that a device with a translation cache of its own asks for. Where it has a right, every
    /// memory request of that kind and source in the page, outside FEE00000h to FEEFFFFFh, is granted.
    ///
    /// ```
    /// use galitzaf::{Levels, Memory, PageSize, Registers, SourceId, TranslationRequest, Unit};
    ///
    /// let unit = Unit::new(&Registers {
    ///     haw: 39,
    ///     mgaw: 48,
    ///     levels: Levels { three: true, ..Levels::NONE },
    ///     root_table: 0x1000,
    ///     te: true,
    ///     ..Registers::default()
    /// });
    /// // The context's type is 1, and one page, 40201000h, is mapped for reads.
    /// let mut image = vec![0; 0x8000];
    /// for (address, word) in [
    ///     (0x1030, 0x2001u64), (0x2100, 0x3005), (0x2108, 0x501),
    ///     (0x3008, 0x4003), (0x4008, 0x5003), (0x5008, 0x1234_5001),
    /// ] {
    ///     image[address..address + 8].copy_from_slice(&word.to_le_bytes());
    /// }
    ///
    /// let request = TranslationRequest::new(SourceId::new(0x03, 0x10), 0x4020_1ABC);
    /// let answer = unit.translation(&Memory::flat(&image), request);
    /// let page = answer.page().unwrap();
    /// assert_eq!((page.frame, page.size), (0x1234_5000, PageSize::FourKiB));
    /// assert_eq!((page.read, page.write), (true, false));
    /// ```
    pub fn translation<R: AsRef<[u8]>>(
        &self,
        memory: &Memory<R>,
        request: TranslationRequest,
    ) -> TranslationAnswer {
        let TranslationRequest { source, address } = request;
        let answer = memory.lend(|windows, run| {
            ffi::translation_request(&self.registers, windows, run, source.into(), address)
        });
        answer.map_or(
            TranslationAnswer::Refused(Refusal::INTERFACE),
            TranslationAnswer::decode,
        )
    }

    /// What is mapped for a source, in address order: its pages, and the faults in their place. The spans are
    /// written to `rows`, as many as there is room for and at most [`MOST_SPANS`](crate::MOST_SPANS).
    ///
    /// `known` is lent to remember tables in. With [`known_numbers`](crate::known_numbers) of the memory's
    /// length no table that lists nothing is gone through twice, so that no tables take long; with fewer, or
    /// none, the answer is the same. It is zero afterwards.
    ///
    /// ```
    /// use galitzaf::{known_numbers, Levels, Mapping, Memory, Registers, SourceId, Unit, MOST_SPANS};
    ///
    /// let unit = Unit::new(&Registers {
    ///     haw: 39,
    ///     mgaw: 48,
    ///     levels: Levels { three: true, ..Levels::NONE },
    ///     root_table: 0x1000,
    ///     te: true,
    ///     ..Registers::default()
    /// });
    /// let mut image = vec![0; 0x8000];
    /// for (address, word) in [
    ///     (0x1030, 0x2001u64), (0x2100, 0x3001), (0x2108, 0x501),
    ///     (0x3008, 0x4003), (0x4008, 0x5003), (0x5008, 0x1234_5001), (0x4010, 0x9003),
    /// ] {
    ///     image[address..address + 8].copy_from_slice(&word.to_le_bytes());
    /// }
    ///
    /// let mut known = vec![0; known_numbers(image.len())];
    /// let mut rows = vec![[0; 4]; MOST_SPANS];
    /// let source = SourceId::new(0x03, 0x10);
    /// let Mapping::Spans(spans) = unit.mapping(&Memory::flat(&image), source, &mut known, &mut rows) else {
    ///     panic!()
    /// };
    /// assert!(!spans.more());
    /// let lines: Vec<String> = spans.map(|span| span.to_string()).collect();
    /// assert_eq!(lines, ["40201000 1000 12345000 R-", "40400000 200000 fault 07"]);
    /// ```
    pub fn mapping<'a, R: AsRef<[u8]>>(
        &self,
        memory: &Memory<R>,
        source: SourceId,
        known: &mut [u64],
        rows: &'a mut [[u64; 4]],
    ) -> Mapping<'a> {
        let status = memory.lend(|windows, run| {
            ffi::list_spans(&self.registers, windows, run, source.into(), known, rows)
        });
        Mapping::decode(status, rows)
    }

    /// What becomes of an interrupt. Posting one sets its vector's request bit in memory and, where a
    /// notification is due, the descriptor's ON bit; any other answer leaves memory as it came.
    ///
    /// ```
    /// use galitzaf::{InterruptAnswer, InterruptRequest, Levels, Memory, Registers, SourceId, Unit};
    ///
    /// // With IRE off an interrupt passes unchanged.
    /// let unit = Unit::new(&Registers {
    ///     haw: 39, mgaw: 48, levels: Levels { four: true, ..Levels::NONE }, ..Registers::default()
    /// });
    /// let request = InterruptRequest::new(SourceId::from(0x0310), 0xFEE0_0000, 0x41);
    /// assert_eq!(unit.interrupt(&mut Memory::flat([]), request), InterruptAnswer::Passed);
    /// ```
    pub fn interrupt<R: AsMut<[u8]>>(
        &self,
        memory: &mut Memory<R>,
        request: InterruptRequest,
    ) -> InterruptAnswer {
        let InterruptRequest {
            source,
            address,
            data,
        } = request;
        let answer = memory.lend_mut(|windows, run| {
            ffi::interrupt_request(&self.registers, windows, run, source.into(), address, data)
        });
        answer.map_or(
            InterruptAnswer::Refused(Refusal::INTERFACE),
            InterruptAnswer::decode,
        )
    }

    /// Takes from the posted interrupt descriptor at a host address: its highest request bit is
    /// cleared and the vector handed out, or there is none. The descriptor's ON bit is cleared
    /// either way, so that the next post has a notification again; a refused take leaves memory as it
    /// came.
    ///
    /// ```
    /// use galitzaf::{Levels, Memory, Refusal, Registers, TakeAnswer, Unit};
    ///
    /// let unit = Unit::new(&Registers {
    ///     haw: 39, mgaw: 48, levels: Levels { four: true, ..Levels::NONE }, ..Registers::default()
    /// });
    /// // A descriptor at 40h in which vectors 31h and 80h were posted, with ON set.
    /// let mut image = [0; 0x80];
    /// image[0x46] = 0x02;
    /// image[0x50] = 0x01;
    /// image[0x60] = 0x01;
    /// let mut memory = Memory::flat(&mut image);
    /// assert_eq!(unit.take(&mut memory, 0x40), TakeAnswer::Vector(0x80));
    /// assert_eq!(unit.take(&mut memory, 0x40), TakeAnswer::Vector(0x31));
    /// assert_eq!(unit.take(&mut memory, 0x40), TakeAnswer::Nothing);
    /// assert_eq!(unit.take(&mut memory, 0x41), TakeAnswer::Refused(Refusal::BadDescriptor));
    /// assert_eq!(image, [0; 0x80]);
    /// ```
    pub fn take<R: AsMut<[u8]>>(&self, memory: &mut Memory<R>, descriptor: u64) -> TakeAnswer {
        let status =
            memory.lend_mut(|windows, run| ffi::take(&self.registers, windows, run, descriptor));
        TakeAnswer::decode(status)
    }
}

/// As its registers.
impl fmt::Debug for Unit {
    fn fmt(&self, f: &mut fmt::Formatter<'_>) -> fmt::Result {
        f.debug_tuple("Unit").field(&self.registers()).finish()
    }
}

impl From<Registers> for Unit {
    fn from(registers: Registers) -> Self {
        Self::new(&registers)
    }
}
