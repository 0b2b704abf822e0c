//! What the unit answers.

use core::fmt;

use crate::bytes::split;
use crate::fault::{Fault, FaultRecord, Reason};
use crate::ffi::{self, ANSWER_SIZE};

/// A call that was refused, by number. Nothing was changed, and nothing is to be recorded.
///
/// ```
/// use galitzaf::Refusal;
///
/// assert_eq!(Refusal::from(2), Refusal::WrongAddress);
/// assert_eq!(Refusal::BadRegisters.number(), 1);
/// ```
#[derive(Clone, Copy, Debug, PartialEq, Eq, Hash)]
#[non_exhaustive]
pub enum Refusal {
    /// 1: a register is outside VT-d's range, or the [windows](crate::Memory) aren't as they have to be.
    BadRegisters,
    /// 2: a memory or translation request in FEE00000h to FEEFFFFFh, or an interrupt outside of it.
    WrongAddress,
    /// 3: the record buffer isn't 8, 16, .. 256 slots, or the next slot or a slot to clear is above
    /// the last.
    BadRecorder,
    /// 4: the walk of a memory or translation request ended with a page that has a byte in FEE00000h to FEEFFFFFh.
    PageInInterruptRange,
    /// 5: a descriptor to take from isn't 64-aligned, or doesn't lie whole in one window.
    BadDescriptor,
    /// 6: a PASID of more than 20 bits.
    PasidTooWide,
    /// A number that this version doesn't name. Number 0 is for an archive that doesn't keep to the
    /// header this crate was written for, so that even then nothing is granted or delivered.
    Other(u8),
}

impl Refusal {
    pub(crate) const INTERFACE: Self = Self::Other(0);

    /// Its number.
    pub const fn number(self) -> u8 {
        match self {
            Self::BadRegisters => 1,
            Self::WrongAddress => 2,
            Self::BadRecorder => 3,
            Self::PageInInterruptRange => 4,
            Self::BadDescriptor => 5,
            Self::PasidTooWide => 6,
            Self::Other(number) => number,
        }
    }
}

impl From<u8> for Refusal {
    fn from(number: u8) -> Self {
        match number {
            1 => Self::BadRegisters,
            2 => Self::WrongAddress,
            3 => Self::BadRecorder,
            4 => Self::PageInInterruptRange,
            5 => Self::BadDescriptor,
            6 => Self::PasidTooWide,
            _ => Self::Other(number),
        }
    }
}

impl fmt::Display for Refusal {
    fn fmt(&self, f: &mut fmt::Formatter<'_>) -> fmt::Result {
        match self {
            Self::BadRegisters => f.write_str("refusal 1: bad registers or windows"),
            Self::WrongAddress => f.write_str("refusal 2: address of the wrong kind"),
            Self::BadRecorder => f.write_str("refusal 3: bad recorder, record buffer or slot"),
            Self::PageInInterruptRange => f.write_str("refusal 4: page in the interrupt range"),
            Self::BadDescriptor => {
                f.write_str("refusal 5: descriptor misaligned or outside memory")
            }
            Self::PasidTooWide => f.write_str("refusal 6: PASID of more than 20 bits"),
            Self::Other(number) => write!(f, "refusal {number}"),
        }
    }
}

impl core::error::Error for Refusal {}

/// What becomes of a memory request.
///
/// ```
/// use galitzaf::{MemoryAnswer, Refusal};
///
/// assert_eq!(MemoryAnswer::Granted(0x1234_5ABC).granted(), Some(0x1234_5ABC));
/// assert_eq!(MemoryAnswer::Refused(Refusal::WrongAddress).granted(), None);
/// ```
#[derive(Clone, Copy, Debug, PartialEq, Eq, Hash)]
#[must_use]
pub enum MemoryAnswer {
    /// It may go to this host address.
    Granted(u64),
    /// It is blocked by a fault.
    Blocked(Fault),
    /// It was refused.
    Refused(Refusal),
}

impl MemoryAnswer {
    /// The host address, if granted.
    pub const fn granted(&self) -> Option<u64> {
        match self {
            Self::Granted(address) => Some(*address),
            _ => None,
        }
    }

    /// The fault, if blocked.
    pub const fn fault(&self) -> Option<&Fault> {
        match self {
            Self::Blocked(fault) => Some(fault),
            _ => None,
        }
    }

    pub(crate) fn decode(bytes: [u8; ANSWER_SIZE]) -> Self {
        let raw = Raw::of(bytes);
        match raw.kind {
            ffi::GRANTED => Self::Granted(raw.low),
            ffi::BLOCKED => Self::Blocked(raw.fault()),
            ffi::REFUSED => Self::Refused(Refusal::from(raw.one)),
            _ => Self::Refused(Refusal::INTERFACE),
        }
    }
}

impl<'a> From<&'a MemoryAnswer> for Option<&'a Fault> {
    fn from(answer: &'a MemoryAnswer) -> Self {
        answer.fault()
    }
}

/// The size of a page.
#[derive(Clone, Copy, Debug, PartialEq, Eq, Hash, PartialOrd, Ord)]
pub enum PageSize {
    /// 4 KiB.
    FourKiB,
    /// 2 MiB.
    TwoMiB,
    /// 1 GiB.
    OneGiB,
}

impl PageSize {
    /// In bytes.
    pub const fn bytes(self) -> u64 {
        match self {
            Self::FourKiB => 0x1000,
            Self::TwoMiB => 0x20_0000,
            Self::OneGiB => 0x4000_0000,
        }
    }

    const fn of(bytes: u64) -> Option<Self> {
        match bytes {
            0x1000 => Some(Self::FourKiB),
            0x20_0000 => Some(Self::TwoMiB),
            0x4000_0000 => Some(Self::OneGiB),
            _ => None,
        }
    }
}

/// A page that a device may keep, with its rights joined over all levels of the page tables.
#[derive(Clone, Copy, Debug, PartialEq, Eq, Hash)]
pub struct Page {
    /// The host address of its first byte.
    pub frame: u64,
    /// Its size.
    pub size: PageSize,
    /// Whether it may be read.
    pub read: bool,
    /// Whether it may be written.
    pub write: bool,
}

/// What becomes of a translation request.
#[derive(Clone, Copy, Debug, PartialEq, Eq, Hash)]
#[must_use]
pub enum TranslationAnswer {
    /// Translation is off: the address itself.
    Passed(u64),
    /// The page.
    Page(Page),
    /// No right is left, or the address is too wide: no page, no fault and nothing to record.
    Empty,
    /// It is blocked by a fault.
    Blocked(Fault),
    /// It was refused.
    Refused(Refusal),
}

impl TranslationAnswer {
    /// The page, if there is one.
    pub const fn page(&self) -> Option<&Page> {
        match self {
            Self::Page(page) => Some(page),
            _ => None,
        }
    }

    /// The fault, if blocked.
    pub const fn fault(&self) -> Option<&Fault> {
        match self {
            Self::Blocked(fault) => Some(fault),
            _ => None,
        }
    }

    pub(crate) fn decode(bytes: [u8; ANSWER_SIZE]) -> Self {
        let raw = Raw::of(bytes);
        match (raw.kind, PageSize::of(raw.high)) {
            (ffi::PASSED, _) => Self::Passed(raw.low),
            (ffi::TRANSLATED, Some(size)) => Self::Page(Page {
                frame: raw.low,
                size,
                read: raw.one == 1,
                write: raw.two == 1,
            }),
            (ffi::EMPTY, _) => Self::Empty,
            (ffi::BLOCKED, _) => Self::Blocked(raw.fault()),
            (ffi::REFUSED, _) => Self::Refused(Refusal::from(raw.one)),
            _ => Self::Refused(Refusal::INTERFACE),
        }
    }
}

impl<'a> From<&'a TranslationAnswer> for Option<&'a Fault> {
    fn from(answer: &'a TranslationAnswer) -> Self {
        answer.fault()
    }
}

/// What a take from a posted interrupt descriptor hands out.
///
/// ```
/// use galitzaf::TakeAnswer;
///
/// assert_eq!(TakeAnswer::Vector(0x31).vector(), Some(0x31));
/// assert_eq!(TakeAnswer::Nothing.vector(), None);
/// ```
#[derive(Clone, Copy, Debug, PartialEq, Eq, Hash)]
#[must_use]
pub enum TakeAnswer {
    /// The highest vector that was posted and not yet taken. Its request bit is clear now.
    Vector(u8),
    /// No request bit stands.
    Nothing,
    /// The take was refused.
    Refused(Refusal),
}

impl TakeAnswer {
    /// The vector, if one was handed out.
    pub const fn vector(&self) -> Option<u8> {
        match self {
            Self::Vector(vector) => Some(*vector),
            _ => None,
        }
    }

    pub(crate) fn decode(status: u32) -> Self {
        if status == ffi::NONE_STANDS {
            return Self::Nothing;
        }
        if let Some(Ok(vector)) = status.checked_sub(ffi::TAKEN).map(u8::try_from) {
            return Self::Vector(vector);
        }
        Self::Refused(u8::try_from(status).map_or(Refusal::INTERFACE, Refusal::from))
    }
}

/// How a remapped interrupt is delivered, in the APIC's encoding of 3 bits.
///
/// ```
/// use galitzaf::DeliveryMode;
///
/// assert_eq!(DeliveryMode::NMI.bits(), 4);
/// ```
#[derive(Clone, Copy, Debug, PartialEq, Eq, Hash)]
pub struct DeliveryMode(u8);

impl DeliveryMode {
    /// To every processor named, by the vector.
    pub const FIXED: Self = Self(0);
    /// To the one of lowest priority among them.
    pub const LOWEST_PRIORITY: Self = Self(1);
    /// System management interrupt.
    pub const SMI: Self = Self(2);
    /// Non-maskable interrupt.
    pub const NMI: Self = Self(4);
    /// INIT.
    pub const INIT: Self = Self(5);
    /// As from an external interrupt controller.
    pub const EXT_INT: Self = Self(7);

    /// The encoding. Never 3 or 6, which are reserved and blocked with 24h.
    pub const fn bits(self) -> u8 {
        self.0
    }
}

/// How a destination is read.
#[derive(Clone, Copy, Debug, PartialEq, Eq, Hash)]
pub enum DestinationMode {
    /// An APIC id.
    Physical,
    /// A logical destination.
    Logical,
}

/// How an interrupt is triggered.
#[derive(Clone, Copy, Debug, PartialEq, Eq, Hash)]
pub enum TriggerMode {
    /// By an edge.
    Edge,
    /// By a level.
    Level,
}

/// An interrupt as its remapping entry has it delivered.
#[derive(Clone, Copy, Debug, PartialEq, Eq, Hash)]
pub struct Remapped {
    /// The vector.
    pub vector: u8,
    /// The delivery mode (DLM).
    pub delivery_mode: DeliveryMode,
    /// The destination mode (DM).
    pub destination_mode: DestinationMode,
    /// The redirection hint (RH).
    pub redirection_hint: bool,
    /// The trigger mode (TM).
    pub trigger_mode: TriggerMode,
    /// The destination (DST): an x2APIC id with EIME, else an 8-bit APIC id.
    pub destination: u32,
}

/// The notification of a posted interrupt: fixed, edge-triggered, to a physical destination.
#[derive(Clone, Copy, Debug, PartialEq, Eq, Hash)]
pub struct Notification {
    /// The notification vector (NV).
    pub vector: u8,
    /// The notification destination (NDST): an x2APIC id with EIME, else an 8-bit APIC id.
    pub destination: u32,
}

/// A post: a vector's request bit was set in a descriptor, and ON where a notification is due.
#[derive(Clone, Copy, Debug, PartialEq, Eq, Hash)]
pub struct Posted {
    /// The descriptor's host address: its 64 bytes lie in a page that is dirty now.
    pub descriptor: u64,
    /// The vector.
    pub vector: u8,
    /// What is to be sent, where a notification is due.
    pub notification: Option<Notification>,
}

/// What becomes of an interrupt message.
///
/// ```
/// use galitzaf::{InterruptAnswer, Notification, Posted};
///
/// /// The vector to raise now, and where.
/// fn raised(answer: InterruptAnswer) -> Option<(u8, u32)> {
///     match answer {
///         InterruptAnswer::Remapped(to) => Some((to.vector, to.destination)),
///         InterruptAnswer::Posted(post) => post.notification.map(|n| (n.vector, n.destination)),
///         _ => None,
///     }
/// }
///
/// let notification = Notification { vector: 0xF2, destination: 7 };
/// let mut post = Posted { descriptor: 0x6400, vector: 0x31, notification: Some(notification) };
/// assert_eq!(raised(InterruptAnswer::Posted(post)), Some((0xF2, 7)));
/// post.notification = None;
/// assert_eq!(raised(InterruptAnswer::Posted(post)), None);
/// ```
#[derive(Clone, Copy, Debug, PartialEq, Eq, Hash)]
#[must_use]
pub enum InterruptAnswer {
    /// It goes on unchanged.
    Passed,
    /// It is delivered as the entry says.
    Remapped(Remapped),
    /// It was posted to a descriptor in memory; the notification, where one is due, is to be sent.
    Posted(Posted),
    /// It is blocked by a fault.
    Blocked(Fault),
    /// It was refused.
    Refused(Refusal),
}

impl InterruptAnswer {
    /// The fault, if blocked.
    pub const fn fault(&self) -> Option<&Fault> {
        match self {
            Self::Blocked(fault) => Some(fault),
            _ => None,
        }
    }

    pub(crate) fn decode(bytes: [u8; ANSWER_SIZE]) -> Self {
        let raw = Raw::of(bytes);
        match raw.kind {
            ffi::PASSED => Self::Passed,
            ffi::REMAPPED => Self::Remapped(raw.remapped()),
            ffi::POSTED => Self::Posted(raw.posted()),
            ffi::BLOCKED => Self::Blocked(raw.fault()),
            ffi::REFUSED => Self::Refused(Refusal::from(raw.one)),
            _ => Self::Refused(Refusal::INTERFACE),
        }
    }
}

impl<'a> From<&'a InterruptAnswer> for Option<&'a Fault> {
    fn from(answer: &'a InterruptAnswer) -> Self {
        answer.fault()
    }
}

/// An answer's bytes, taken apart.
struct Raw {
    kind: u8,
    one: u8,
    two: u8,
    three: u8,
    destination: u32,
    low: u64,
    high: u64,
    last: u64,
}

impl Raw {
    fn of(bytes: [u8; ANSWER_SIZE]) -> Self {
        let [head, low, high, last] = split(&bytes);
        let [kind, one, two, three, destination @ ..] = head;
        Self {
            kind,
            one,
            two,
            three,
            destination: u32::from_le_bytes(destination),
            low: u64::from_le_bytes(low),
            high: u64::from_le_bytes(high),
            last: u64::from_le_bytes(last),
        }
    }

    fn fault(&self) -> Fault {
        let record = FaultRecord::from_words([self.low, self.high]);
        let entry = (self.three != 0).then_some(self.last);
        Fault::new(Reason::from(self.one), self.two != 0, record, entry)
    }

    fn remapped(&self) -> Remapped {
        let flag = |bit: u8| self.three & bit != 0;
        Remapped {
            vector: self.one,
            delivery_mode: DeliveryMode(self.two),
            destination_mode: if flag(1) {
                DestinationMode::Logical
            } else {
                DestinationMode::Physical
            },
            redirection_hint: flag(2),
            trigger_mode: if flag(4) {
                TriggerMode::Level
            } else {
                TriggerMode::Edge
            },
            destination: self.destination,
        }
    }

    fn posted(&self) -> Posted {
        Posted {
            descriptor: self.low,
            vector: self.three,
            notification: (self.one != 0).then_some(Notification {
                vector: self.two,
                destination: self.destination,
            }),
        }
    }
}

#[cfg(test)]
mod tests {
    use super::*;

    fn bytes(head: [u8; 8]) -> [u8; ANSWER_SIZE] {
        let mut bytes = [0; ANSWER_SIZE];
        bytes[..8].copy_from_slice(&head);
        bytes
    }

    #[test]
    fn every_field_of_a_remapped_interrupt_is_read() {
        let answer = |flags| InterruptAnswer::decode(bytes([4, 0x41, 5, flags, 1, 2, 3, 4]));
        let plain = Remapped {
            vector: 0x41,
            delivery_mode: DeliveryMode::INIT,
            destination_mode: DestinationMode::Physical,
            redirection_hint: false,
            trigger_mode: TriggerMode::Edge,
            destination: 0x0403_0201,
        };
        let (mut logical, mut hinted, mut level) = (plain, plain, plain);
        logical.destination_mode = DestinationMode::Logical;
        hinted.redirection_hint = true;
        level.trigger_mode = TriggerMode::Level;
        assert_eq!(answer(0), InterruptAnswer::Remapped(plain));
        assert_eq!(answer(1), InterruptAnswer::Remapped(logical));
        assert_eq!(answer(2), InterruptAnswer::Remapped(hinted));
        assert_eq!(answer(4), InterruptAnswer::Remapped(level));
    }

    #[test]
    fn a_notification_is_read_only_where_one_is_due() {
        let answer = |due| InterruptAnswer::decode(bytes([5, due, 0xF2, 0x31, 7, 0, 0, 1]));
        let notification = Notification {
            vector: 0xF2,
            destination: 0x0100_0007,
        };
        let post = |notification| {
            InterruptAnswer::Posted(Posted {
                descriptor: 0,
                vector: 0x31,
                notification,
            })
        };
        assert_eq!(answer(0), post(None));
        assert_eq!(answer(1), post(Some(notification)));
    }

    #[test]
    fn a_kind_that_does_not_belong_is_refused() {
        for kind in 0..=u8::MAX {
            let raw = bytes([kind, 1, 0, 0, 0, 0, 0, 0]);
            if ![ffi::BLOCKED, ffi::REFUSED, ffi::GRANTED].contains(&kind) {
                let refused = MemoryAnswer::Refused(Refusal::Other(0));
                assert_eq!(MemoryAnswer::decode(raw), refused, "{kind}");
            }
            if kind == 0 || kind > ffi::POSTED {
                let refused = InterruptAnswer::Refused(Refusal::Other(0));
                assert_eq!(InterruptAnswer::decode(raw), refused, "{kind}");
            }
        }
    }

    #[test]
    fn refusals_keep_their_numbers() {
        for number in 0..=u8::MAX {
            assert_eq!(Refusal::from(number).number(), number);
        }
        assert_eq!(Refusal::from(3), Refusal::BadRecorder);
        assert_eq!(Refusal::from(4), Refusal::PageInInterruptRange);
    }
}
