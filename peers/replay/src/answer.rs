//! Answers, as far as both units can give them.

use std::fmt;

use galitzaf::{DestinationMode, InterruptAnswer, MemoryAnswer, TriggerMode};

/// A remapped interrupt, its fields as the remapping entry encodes them.
#[derive(Clone, Copy, Debug, PartialEq, Eq)]
pub struct Remapped {
    pub vector: u8,
    pub destination: u32,
    pub destination_mode: u8,
    pub redirection_hint: u8,
    pub trigger_mode: u8,
    pub delivery_mode: u8,
}

/// What a unit answered.
#[derive(Clone, Copy, Debug, PartialEq, Eq)]
pub enum Answer {
    /// Memory: the host address.
    Granted(u64),
    /// Memory: the reason, and the record's two words unless FPD silenced it.
    Fault {
        reason: u8,
        record: Option<[u64; 2]>,
    },
    /// Interrupt: unchanged.
    Passed,
    /// Interrupt: as its entry says.
    Remapped(Remapped),
    /// Interrupt: the reason. QEMU records no interrupt fault.
    Blocked(u8),
    /// Nothing that QEMU's unit can answer: a refusal by number, or a post (0).
    Foreign(u8),
}

impl From<MemoryAnswer> for Answer {
    fn from(answer: MemoryAnswer) -> Self {
        match answer {
            MemoryAnswer::Granted(address) => Self::Granted(address),
            MemoryAnswer::Blocked(fault) => Self::Fault {
                reason: fault.reason().number(),
                record: fault.recordable().then(|| fault.record().words()),
            },
            MemoryAnswer::Refused(refusal) => Self::Foreign(refusal.number()),
        }
    }
}

impl From<InterruptAnswer> for Answer {
    fn from(answer: InterruptAnswer) -> Self {
        match answer {
            InterruptAnswer::Passed => Self::Passed,
            InterruptAnswer::Remapped(to) => Self::Remapped(Remapped {
                vector: to.vector,
                destination: to.destination,
                destination_mode: u8::from(to.destination_mode == DestinationMode::Logical),
                redirection_hint: u8::from(to.redirection_hint),
                trigger_mode: u8::from(to.trigger_mode == TriggerMode::Level),
                delivery_mode: to.delivery_mode.bits(),
            }),
            InterruptAnswer::Posted(_) => Self::Foreign(0),
            InterruptAnswer::Blocked(fault) => Self::Blocked(fault.reason().number()),
            InterruptAnswer::Refused(refusal) => Self::Foreign(refusal.number()),
        }
    }
}

/// As the recorded files write it.
impl fmt::Display for Answer {
    fn fmt(&self, f: &mut fmt::Formatter<'_>) -> fmt::Result {
        match self {
            Self::Granted(address) => write!(f, "grant:{address:X}"),
            Self::Fault {
                reason,
                record: Some([low, high]),
            } => write!(f, "fault:{reason:02X}:{low:X}:{high:X}"),
            Self::Fault {
                reason,
                record: None,
            } => write!(f, "fault:{reason:02X}:silent"),
            Self::Passed => write!(f, "passed"),
            Self::Remapped(r) => write!(
                f,
                "remap:v{:02X}:d{:X}:dm{}:rh{}:tm{}:dlm{}",
                r.vector,
                r.destination,
                r.destination_mode,
                r.redirection_hint,
                r.trigger_mode,
                r.delivery_mode
            ),
            Self::Blocked(reason) => write!(f, "fault:{reason:02X}"),
            Self::Foreign(0) => write!(f, "posted"),
            Self::Foreign(number) => write!(f, "refused:{number}"),
        }
    }
}
