//! Traces: requests with their answers in blocks of 512 bytes, written, read and replayed.

use core::fmt;

use crate::bytes::{join, split};
use crate::ffi::{self, ANSWER_SIZE, TRACE_BLOCK_SIZE, TRACE_ENTRY_SIZE, TRACE_NUMBERS};
use crate::{
    Access, DestinationMode, Fault, FaultRecord, InterruptAnswer, InterruptRequest, Memory,
    MemoryAnswer, MemoryRequest, Reason, SourceId, TranslationAnswer, TranslationRequest,
    TriggerMode, Unit,
};

/// A block of a trace.
pub type Block = [u8; TRACE_BLOCK_SIZE];

/// A request with its answer, as an entry of a trace tells them.
#[derive(Clone, Copy, Debug, PartialEq, Eq, Hash)]
pub enum Traced {
    /// A memory request.
    Memory(MemoryRequest, MemoryAnswer),
    /// A translation request.
    Translation(TranslationRequest, TranslationAnswer),
    /// An interrupt.
    Interrupt(InterruptRequest, InterruptAnswer),
}

/// An answer's bytes, as the C interface has them.
fn packed(head: [u8; 4], destination: u32, low: u64, high: u64) -> [u8; ANSWER_SIZE] {
    let [kind, one, two, three] = head;
    let [a, b, c, d] = destination.to_le_bytes();
    let head = [kind, one, two, three, a, b, c, d];
    join(&[head, low.to_le_bytes(), high.to_le_bytes(), [0; 8]])
}

fn refused(number: u8) -> [u8; ANSWER_SIZE] {
    packed([ffi::REFUSED, number, 0, 0], 0, 0, 0)
}

fn memory_bytes(answer: &MemoryAnswer) -> [u8; ANSWER_SIZE] {
    match answer {
        MemoryAnswer::Granted(host) => packed([ffi::GRANTED, 0, 0, 0], 0, *host, 0),
        MemoryAnswer::Blocked(fault) => fault.to_answer(),
        MemoryAnswer::Refused(refusal) => refused(refusal.number()),
    }
}

fn translation_bytes(answer: &TranslationAnswer) -> [u8; ANSWER_SIZE] {
    match answer {
        TranslationAnswer::Passed(address) => packed([ffi::PASSED, 0, 0, 0], 0, *address, 0),
        TranslationAnswer::Page(page) => {
            let (read, write) = (u8::from(page.read), u8::from(page.write));
            let head = [ffi::TRANSLATED, read, write, 0];
            packed(head, 0, page.frame, page.size.bytes())
        }
        TranslationAnswer::Empty => packed([ffi::EMPTY, 0, 0, 0], 0, 0, 0),
        TranslationAnswer::Blocked(fault) => fault.to_answer(),
        TranslationAnswer::Refused(refusal) => refused(refusal.number()),
    }
}

fn interrupt_bytes(answer: &InterruptAnswer) -> [u8; ANSWER_SIZE] {
    match answer {
        InterruptAnswer::Passed => packed([ffi::PASSED, 0, 0, 0], 0, 0, 0),
        InterruptAnswer::Remapped(to) => {
            let modes = u8::from(to.destination_mode == DestinationMode::Logical)
                | (u8::from(to.redirection_hint) << 1)
                | (u8::from(to.trigger_mode == TriggerMode::Level) << 2);
            let head = [ffi::REMAPPED, to.vector, to.delivery_mode.bits(), modes];
            packed(head, to.destination, 0, 0)
        }
        InterruptAnswer::Posted(post) => match post.notification {
            None => packed([ffi::POSTED, 0, 0, post.vector], 0, post.descriptor, 0),
            Some(due) => {
                let head = [ffi::POSTED, 1, due.vector, post.vector];
                packed(head, due.destination, post.descriptor, 0)
            }
        },
        InterruptAnswer::Blocked(fault) => fault.to_answer(),
        InterruptAnswer::Refused(refusal) => refused(refusal.number()),
    }
}

/// An entry's fields.
struct Fields {
    kind: u8,
    answer: u8,
    number: u8,
    flags: u8,
    source: u16,
    vector: u8,
    posted: u8,
    address: u64,
    data: u32,
    destination: u32,
    value: u64,
}

impl Fields {
    fn of(entry: &[u8; TRACE_ENTRY_SIZE]) -> Self {
        let [head, address, message, value] = split(entry);
        let [kind, answer, number, flags, low, high, vector, posted] = head;
        let [a, b, c, d, destination @ ..] = message;
        Self {
            kind,
            answer,
            number,
            flags,
            source: u16::from_le_bytes([low, high]),
            vector,
            posted,
            address: u64::from_le_bytes(address),
            data: u32::from_le_bytes([a, b, c, d]),
            destination: u32::from_le_bytes(destination),
            value: u64::from_le_bytes(value),
        }
    }

    /// A fault's record follows from the request and the reason.
    fn record(&self) -> FaultRecord {
        let (read, translation) = (
            self.kind != ffi::TRACE_WRITE,
            self.kind == ffi::TRACE_TRANSLATION,
        );
        let high = u64::from(self.source) | (u64::from(self.number) << 32) | (1 << 63);
        if self.kind == ffi::TRACE_INTERRUPT {
            return FaultRecord::from_words([u64::from(self.index()) << 48, high]);
        }
        let high = high | (u64::from(read) << 62) | (u64::from(translation) << 60);
        FaultRecord::from_words([self.address & !0xFFF, high])
    }

    /// The interrupt index as a record has it: 65,535 if larger, 0 for 20h and 25h.
    fn index(&self) -> u16 {
        if matches!(self.number, 0x20 | 0x25) {
            return 0;
        }
        let handle = (self.address >> 5) & 0x7FFF | (((self.address >> 2) & 1) << 15);
        let subhandle = if self.address & 8 == 0 {
            0
        } else {
            u64::from(self.data & 0xFFFF)
        };
        u16::try_from(handle.saturating_add(subhandle)).unwrap_or(u16::MAX)
    }

    /// The answer's bytes, as the C interface has them.
    fn answer(&self) -> [u8; ANSWER_SIZE] {
        let value = self.value;
        match self.answer {
            1 => refused(self.number),
            2 => {
                let entry = (self.flags & 2 != 0).then_some(value);
                let reason = Reason::from(self.number);
                Fault::new(reason, self.flags & 1 != 0, self.record(), entry).to_answer()
            }
            3 if self.kind == ffi::TRACE_TRANSLATION => packed([ffi::PASSED, 0, 0, 0], 0, value, 0),
            3 => packed([ffi::GRANTED, 0, 0, 0], 0, value, 0),
            4 => packed([ffi::PASSED, 0, 0, 0], 0, 0, 0),
            5 => {
                let head = [ffi::REMAPPED, self.vector, self.flags >> 3, self.flags & 7];
                packed(head, self.destination, 0, 0)
            }
            6 => packed([ffi::POSTED, 0, 0, self.posted], 0, value, 0),
            7 => {
                let head = [ffi::POSTED, 1, self.vector, self.posted];
                packed(head, self.destination, value, 0)
            }
            _ => {
                let size = match self.number {
                    12 => 0x1000,
                    21 => 0x20_0000,
                    30 => 0x4000_0000,
                    _ => return packed([ffi::EMPTY, 0, 0, 0], 0, 0, 0),
                };
                let head = [ffi::TRANSLATED, self.flags & 1, (self.flags >> 1) & 1, 0];
                packed(head, 0, value, size)
            }
        }
    }
}

impl Traced {
    /// What an entry that the library handed out tells.
    fn decode(entry: &[u8; TRACE_ENTRY_SIZE]) -> Self {
        let fields = Fields::of(entry);
        let (source, address) = (SourceId::from(fields.source), fields.address);
        let answer = fields.answer();
        match fields.kind {
            ffi::TRACE_INTERRUPT => {
                let request = InterruptRequest::new(source, address, fields.data);
                Self::Interrupt(request, InterruptAnswer::decode(answer))
            }
            ffi::TRACE_TRANSLATION => {
                let request = TranslationRequest::new(source, address);
                Self::Translation(request, TranslationAnswer::decode(answer))
            }
            kind => {
                let access = if kind == ffi::TRACE_WRITE {
                    Access::Write
                } else {
                    Access::Read
                };
                let request = MemoryRequest {
                    source,
                    address,
                    access,
                };
                Self::Memory(request, MemoryAnswer::decode(answer))
            }
        }
    }

    /// As the call that appends it takes it: kind, source, address, data and the answer's bytes.
    fn call(&self) -> (u8, u16, u64, u32, [u8; ANSWER_SIZE]) {
        match self {
            Self::Memory(request, answer) => {
                let kind = match request.access {
                    Access::Read => ffi::TRACE_READ,
                    Access::Write => ffi::TRACE_WRITE,
                };
                (
                    kind,
                    request.source.into(),
                    request.address,
                    0,
                    memory_bytes(answer),
                )
            }
            Self::Translation(request, answer) => {
                let (source, address) = (request.source.into(), request.address);
                (
                    ffi::TRACE_TRANSLATION,
                    source,
                    address,
                    0,
                    translation_bytes(answer),
                )
            }
            Self::Interrupt(request, answer) => {
                let (source, address) = (request.source.into(), request.address);
                (
                    ffi::TRACE_INTERRUPT,
                    source,
                    address,
                    request.data,
                    interrupt_bytes(answer),
                )
            }
        }
    }
}

/// Why an entry isn't kept.
#[derive(Clone, Copy, Debug, PartialEq, Eq, Hash)]
pub enum TraceError {
    /// The unit never gives this answer to a request of this kind.
    Answer,
    /// A trace has at most 2^48 blocks.
    Full,
}

impl fmt::Display for TraceError {
    fn fmt(&self, f: &mut fmt::Formatter<'_>) -> fmt::Result {
        f.write_str(match self {
            Self::Answer => "no answer to a request of this kind",
            Self::Full => "the trace is full",
        })
    }
}

impl core::error::Error for TraceError {}

/// A recorder of traces, to be put beside a unit's calls. It hands out each block when it is full, and the last one when
/// it is closed; the trace is these blocks, one behind the other.
///
/// ```
/// use galitzaf::{Memory, MemoryRequest, SourceId, TraceItem, TraceReader, TraceWriter, Traced, Unit};
/// # use galitzaf::{Levels, Registers};
/// # let unit = Unit::new(&Registers {
/// #     haw: 39, mgaw: 48, levels: Levels { four: true, ..Levels::NONE }, te: true, ..Registers::default()
/// # });
/// let mut memory = Memory::flat([0; 4096]);
/// let mut writer = TraceWriter::new();
/// let mut trace = Vec::new();
/// for page in 0..20 {
///     let read = MemoryRequest::read(SourceId::from(0x0310), 0x1000 * page);
///     let answer = unit.memory(&memory, read);
///     trace.extend(writer.append(&Traced::Memory(read, answer)).unwrap().into_iter().flatten());
/// }
/// trace.extend(writer.close().into_iter().flatten());
///
/// assert_eq!(trace.len(), 2 * 512);
/// assert_eq!(TraceReader::new(&trace).count(), 20);
/// assert_eq!(unit.replay(&mut memory, &trace).count(), 0);
///
/// trace[600] ^= 1;
/// assert!(TraceReader::new(&trace).any(|item| item == TraceItem::Damaged(1)));
/// ```
#[derive(Clone, Copy, PartialEq, Eq, Hash)]
pub struct TraceWriter {
    state: [u64; TRACE_NUMBERS],
    block: Block,
}

impl TraceWriter {
    /// A recorder of a new trace.
    pub const fn new() -> Self {
        Self {
            state: [0; TRACE_NUMBERS],
            block: [0; TRACE_BLOCK_SIZE],
        }
    }

    /// Appends a request with its answer. The block is the trace's next one, where it is full now.
    ///
    /// # Errors
    ///
    /// Where the entry isn't kept; the trace goes on without it.
    pub fn append(&mut self, traced: &Traced) -> Result<Option<Block>, TraceError> {
        let (kind, source, address, data, answer) = traced.call();
        let Self { state, block } = self;
        match ffi::trace_append(state, block, kind, source, address, data, &answer) {
            ffi::OK => Ok(None),
            ffi::TRACE_BLOCK => Ok(Some(*block)),
            ffi::BAD_ANSWER => Err(TraceError::Answer),
            _ => Err(TraceError::Full),
        }
    }

    /// Ends the trace: its last block, where entries wait for one.
    pub fn close(mut self) -> Option<Block> {
        let status = ffi::trace_close(&mut self.state, &mut self.block);
        (status == ffi::TRACE_BLOCK).then_some(self.block)
    }

    /// How many blocks were handed out.
    pub const fn blocks(&self) -> u64 {
        let [_, number] = self.state;
        number
    }
}

impl Default for TraceWriter {
    fn default() -> Self {
        Self::new()
    }
}

impl fmt::Debug for TraceWriter {
    fn fmt(&self, f: &mut fmt::Formatter<'_>) -> fmt::Result {
        let [waiting, blocks] = self.state;
        f.debug_struct("TraceWriter")
            .field("blocks", &blocks)
            .field("waiting", &waiting)
            .finish_non_exhaustive()
    }
}

/// Where an entry stands: a block's place in the trace and the entry's in the block, both from 0.
#[derive(Clone, Copy, Debug, PartialEq, Eq, PartialOrd, Ord, Hash)]
pub struct TracePlace {
    /// The block's place.
    pub block: u64,
    /// The entry's place in it, 0 to 14.
    pub index: u8,
}

impl TracePlace {
    fn of([block, index]: [u64; TRACE_NUMBERS]) -> Self {
        let index = u8::try_from(index).unwrap_or(u8::MAX);
        Self { block, index }
    }
}

/// What a reader tells.
#[derive(Clone, Copy, Debug, PartialEq, Eq, Hash)]
pub enum TraceItem {
    /// An entry, and where it stands.
    Entry(TracePlace, Traced),
    /// The block at this place is damaged: nothing of it is handed out.
    Damaged(u64),
}

/// A reader of a trace: an iterator over the entries of its undamaged blocks, in order, and its damaged blocks.
#[derive(Clone, Copy, Debug, PartialEq, Eq, Hash)]
pub struct TraceReader<'a> {
    trace: &'a [u8],
    place: [u64; TRACE_NUMBERS],
}

impl<'a> TraceReader<'a> {
    /// A reader from the trace's first block on.
    pub const fn new(trace: &'a [u8]) -> Self {
        let place = [0; TRACE_NUMBERS];
        Self { trace, place }
    }

    /// Whether the block at a place is damaged, as a short last one is.
    pub fn is_damaged(&self, block: u64) -> bool {
        ffi::trace_check(self.trace, block) != ffi::OK
    }
}

impl Iterator for TraceReader<'_> {
    type Item = TraceItem;

    fn next(&mut self) -> Option<TraceItem> {
        let at = TracePlace::of(self.place);
        let mut entry = [0; TRACE_ENTRY_SIZE];
        match ffi::trace_next(self.trace, &mut self.place, &mut entry) {
            ffi::TRACE_ENTRY => Some(TraceItem::Entry(at, Traced::decode(&entry))),
            ffi::TRACE_DAMAGED => Some(TraceItem::Damaged(at.block)),
            _ => None,
        }
    }
}

/// What a replay names.
#[derive(Clone, Copy, Debug, PartialEq, Eq, Hash)]
pub enum Named {
    /// The answer of the entry there differs: the request with the answer now.
    Differs(TracePlace, Traced),
    /// The block at this place is damaged: nothing of it was asked.
    Damaged(u64),
}

/// A replay: an iterator over what it names, which asks each request as it comes to it.
#[derive(Debug)]
#[must_use = "a replay asks nothing until it is iterated over"]
pub struct Replay<'a, 'w, R> {
    unit: &'a Unit,
    memory: &'a mut Memory<'w, R>,
    trace: &'a [u8],
    place: [u64; TRACE_NUMBERS],
}

impl Unit {
    /// Asks the requests of a trace again, over memory in which each post is made before the next request, and names exactly
    /// the entries whose answer differs and the damaged blocks.
    pub fn replay<'a, 'w, R: AsMut<[u8]>>(
        &'a self,
        memory: &'a mut Memory<'w, R>,
        trace: &'a [u8],
    ) -> Replay<'a, 'w, R> {
        let place = [0; TRACE_NUMBERS];
        Replay {
            unit: self,
            memory,
            trace,
            place,
        }
    }
}

impl<R: AsMut<[u8]>> Iterator for Replay<'_, '_, R> {
    type Item = Named;

    fn next(&mut self) -> Option<Named> {
        loop {
            let at = TracePlace::of(self.place);
            let mut entry = [0; TRACE_ENTRY_SIZE];
            let (registers, trace, place) = (&self.unit.registers, self.trace, &mut self.place);
            let status = self.memory.lend_mut(|windows, run| {
                ffi::trace_replay(registers, windows, run, trace, place, &mut entry)
            });
            match status {
                ffi::TRACE_SAME => {}
                ffi::TRACE_DIFFERS => return Some(Named::Differs(at, Traced::decode(&entry))),
                ffi::TRACE_DAMAGED => return Some(Named::Damaged(at.block)),
                _ => return None,
            }
        }
    }
}
