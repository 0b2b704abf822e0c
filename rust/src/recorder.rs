//! The fault recorder.

use core::fmt;

use crate::bytes::join;
use crate::ffi::{self, ANSWER_SIZE, RECORDER_SIZE};
use crate::{Fault, FaultRecord, Refusal};

/// What became of a fault that was handed to the recorder.
#[derive(Clone, Copy, Debug, PartialEq, Eq, Hash)]
pub enum Recorded {
    /// The answer held no fault.
    NoFault,
    /// The fault may not be recorded (FPD).
    NotRecordable,
    /// Overflow was set already: dropped.
    Dropped,
    /// The next slot was taken: overflow is set now, and the fault dropped.
    Overflowed,
    /// It stands in the buffer.
    Written,
}

/// The recorder's own state, beside the records.
#[derive(Clone, Copy, Debug, Default, PartialEq, Eq, Hash)]
pub struct RecorderState {
    /// The slot that the next fault goes to.
    pub next_slot: u8,
    /// A fault was dropped since overflow was last cleared (PFO).
    pub overflow: bool,
}

/// The records of faults: slots of 16 bytes, filled in turn. The buffer's length gives their number,
/// any power of two from 8 to 256.
///
/// The buffer is its own, of eight slots, or lent: `Recorder<&mut [u8]>` keeps its records wherever
/// a hypervisor shows them to its guest.
///
/// ```
/// use galitzaf::{Memory, MemoryRequest, Reason, Recorded, Recorder, SourceId, Unit};
/// # use galitzaf::{Levels, Registers};
/// # let unit = Unit::new(&Registers {
/// #     haw: 39,
/// #     mgaw: 48,
/// #     levels: Levels { four: true, ..Levels::NONE },
/// #     te: true,
/// #     ..Registers::default()
/// # });
///
/// let mut recorder = Recorder::new();
/// let read = MemoryRequest::read(SourceId::from(0x0310), 0x1000);
/// let answer = unit.memory(&Memory::flat([]), read);
/// assert_eq!(recorder.record(&answer), Ok(Recorded::Written));
///
/// let (slot, record) = recorder.standing().next().unwrap();
/// assert_eq!((slot, record.reason()), (0, Reason::RootAccess));
///
/// assert_eq!(recorder.clear_slot(slot), Ok(true));
/// assert_eq!(recorder.standing().count(), 0);
/// ```
#[derive(Clone, Copy, PartialEq, Eq, Hash)]
pub struct Recorder<B = [u8; 128]> {
    records: B,
    state: RecorderState,
}

impl Recorder {
    /// A recorder with no records.
    pub const fn new() -> Self {
        Self {
            records: [0; 128],
            state: RecorderState {
                next_slot: 0,
                overflow: false,
            },
        }
    }
}

impl Default for Recorder {
    fn default() -> Self {
        Self::new()
    }
}

impl<B: AsRef<[u8]>> Recorder<B> {
    /// A recorder over a given buffer and state, as saved or lent.
    ///
    /// ```
    /// use galitzaf::{Recorder, RecorderState, Refusal};
    ///
    /// let mut page = [0; 4096];
    /// let lent = Recorder::with(&mut page[..], RecorderState::default())?;
    /// assert_eq!((lent.slots(), lent.standing().count()), (256, 0));
    ///
    /// let short = Recorder::with(&mut page[..127], RecorderState::default());
    /// assert_eq!(short, Err(Refusal::BadRecorder));
    /// # Ok::<(), Refusal>(())
    /// ```
    ///
    /// # Errors
    ///
    /// [`Refusal::BadRecorder`] where the buffer isn't 8, 16, 32, 64, 128 or 256 slots of 16 bytes,
    /// or the next slot is above the last. Nothing but the buffer's length is looked at.
    pub fn with(records: B, state: RecorderState) -> Result<Self, Refusal> {
        if usize::from(state.next_slot) < slots_of(records.as_ref().len()) {
            Ok(Self { records, state })
        } else {
            Err(Refusal::BadRecorder)
        }
    }

    /// The number of slots.
    pub fn slots(&self) -> usize {
        slots_of(self.records.as_ref().len())
    }
}

impl<B> Recorder<B> {
    /// The state, to be saved with the buffer.
    pub const fn state(&self) -> RecorderState {
        self.state
    }

    /// The buffer and the state.
    pub fn into_parts(self) -> (B, RecorderState) {
        (self.records, self.state)
    }
}

impl<B: AsRef<[u8]>> Recorder<B> {
    /// The buffer.
    pub fn records(&self) -> &[u8] {
        self.records.as_ref()
    }

    /// The records that stand (bit 127 set), each with its slot, by slot.
    pub fn standing(&self) -> impl Iterator<Item = (u8, FaultRecord)> + '_ {
        let slots = self.records.as_ref().chunks_exact(16).take(self.slots());
        (0..=u8::MAX).zip(slots).filter_map(|(slot, bytes)| {
            let record = FaultRecord::from_bytes(bytes.try_into().ok()?);
            record.is_standing().then_some((slot, record))
        })
    }

    /// Clears the overflow flag; true where it was set.
    ///
    /// # Errors
    ///
    /// None that a caller could meet: length and next slot were checked when it was made.
    pub fn clear_overflow(&mut self) -> Result<bool, Refusal> {
        let mut state = pack(self.state);
        let said = ffi::clear_overflow(self.records.as_ref(), &mut state);
        self.state = unpack(state);
        match said {
            ffi::OVERFLOW_CLEARED => Ok(true),
            ffi::OVERFLOW_CLEAR => Ok(false),
            _ => Err(refusal(said)),
        }
    }
}

impl<B: AsMut<[u8]>> Recorder<B> {
    /// Records the fault of an answer, or a fault by itself.
    ///
    /// # Errors
    ///
    /// None that a caller could meet: length and next slot were checked when it was made.
    pub fn record<'a>(&mut self, fault: impl Into<Option<&'a Fault>>) -> Result<Recorded, Refusal> {
        // An answer without a fault goes to the library too, which looks at the buffer and the state
        // before it looks at the answer.
        let answer = fault.into().map_or_else(no_fault, |f| f.to_answer());
        let mut state = pack(self.state);
        let said = ffi::record(&answer, self.records.as_mut(), &mut state);
        self.state = unpack(state);
        match said {
            ffi::NO_FAULT => Ok(Recorded::NoFault),
            ffi::NOT_RECORDABLE => Ok(Recorded::NotRecordable),
            ffi::DROPPED => Ok(Recorded::Dropped),
            ffi::OVERFLOWED => Ok(Recorded::Overflowed),
            ffi::WRITTEN => Ok(Recorded::Written),
            _ => Err(refusal(said)),
        }
    }

    /// Clears bit 127 of the record in a slot; true where it was set.
    ///
    /// # Errors
    ///
    /// [`Refusal::BadRecorder`] where the slot is above the last.
    pub fn clear_slot(&mut self, slot: u8) -> Result<bool, Refusal> {
        let said = ffi::clear_slot(self.records.as_mut(), &pack(self.state), slot);
        match said {
            ffi::SLOT_CLEARED => Ok(true),
            ffi::SLOT_CLEAR => Ok(false),
            _ => Err(refusal(said)),
        }
    }
}

/// The state, and the records that stand by their slots.
impl<B: AsRef<[u8]>> fmt::Debug for Recorder<B> {
    fn fmt(&self, f: &mut fmt::Formatter<'_>) -> fmt::Result {
        f.debug_struct("Recorder")
            .field("state", &self.state)
            .field("standing", &Standing(self))
            .finish()
    }
}

struct Standing<'a, B>(&'a Recorder<B>);

impl<B: AsRef<[u8]>> fmt::Debug for Standing<'_, B> {
    fn fmt(&self, f: &mut fmt::Formatter<'_>) -> fmt::Result {
        f.debug_map().entries(self.0.standing()).finish()
    }
}

/// The slots that a length gives: a power of two from 8 to 256, or none.
const fn slots_of(len: usize) -> usize {
    match len {
        128 => 8,
        256 => 16,
        512 => 32,
        1024 => 64,
        2048 => 128,
        4096 => 256,
        _ => 0,
    }
}

/// An answer without a fault.
fn no_fault() -> [u8; ANSWER_SIZE] {
    join(&[[ffi::PASSED, 0, 0, 0, 0, 0, 0, 0]])
}

fn refusal(said: u32) -> Refusal {
    match said {
        ffi::REFUSED_3 => Refusal::BadRecorder,
        _ => Refusal::INTERFACE,
    }
}

fn pack(state: RecorderState) -> [u8; RECORDER_SIZE] {
    [state.next_slot, u8::from(state.overflow)]
}

fn unpack([next_slot, overflow]: [u8; RECORDER_SIZE]) -> RecorderState {
    RecorderState {
        next_slot,
        overflow: overflow != 0,
    }
}
