//! Faults and their records.

use core::fmt;

use crate::bytes::{join, Hex};
use crate::ffi::{ANSWER_SIZE, BLOCKED};
use crate::SourceId;

macro_rules! reasons {
    ($($(#[$doc:meta])* $name:ident = $number:literal, $text:literal;)*) => {
        /// Why a request was blocked, by Intel's fault reason numbers.
        ///
        /// ```
        /// use galitzaf::Reason;
        ///
        /// assert_eq!(Reason::from(0x21), Reason::IndexOutOfRange);
        /// assert_eq!(Reason::ReadDenied.number(), 0x06);
        /// assert_eq!(Reason::ReadDenied.to_string(), "06h ReadDenied");
        /// assert_eq!(Reason::ReadDenied.text(), "read permission missing");
        /// ```
        #[derive(Clone, Copy, Debug, PartialEq, Eq, Hash)]
        #[non_exhaustive]
        pub enum Reason {
            $($(#[$doc])* $name,)*
            /// A number that this version doesn't name.
            Other(u8),
        }

        impl Reason {
            /// Every reason that has a name, by number.
            pub const NAMED: &'static [Reason] = &[$(Reason::$name,)*];

            /// Intel's number.
            pub const fn number(self) -> u8 {
                match self {
                    $(Reason::$name => $number,)*
                    Reason::Other(number) => number,
                }
            }

            /// In words, as a fault's line has it; the C interface's `galitzaf_text.h` has the same.
            pub const fn text(self) -> &'static str {
                match self {
                    $(Reason::$name => $text,)*
                    Reason::Other(_) => "unknown reason",
                }
            }
        }

        impl From<u8> for Reason {
            fn from(number: u8) -> Self {
                match number {
                    $($number => Reason::$name,)*
                    _ => Reason::Other(number),
                }
            }
        }
    };
}

reasons! {
    /// 01h: the root entry isn't present.
    RootNotPresent = 0x01, "root entry not present";
    /// 02h: the context entry isn't present.
    ContextNotPresent = 0x02, "context entry not present";
    /// 03h: the context entry has an unsupported width (AW) or a bad type (TT).
    ContextInvalid = 0x03, "context entry invalid";
    /// 04h: the address is beyond the guest width.
    AddressOverflow = 0x04, "address beyond guest width";
    /// 05h: a page entry doesn't allow the write.
    WriteDenied = 0x05, "write permission missing";
    /// 06h: a page entry doesn't allow the read.
    ReadDenied = 0x06, "read permission missing";
    /// 07h: a page entry can't be fetched.
    PageEntryAccess = 0x07, "page entry not fetched";
    /// 08h: the root entry can't be fetched.
    RootAccess = 0x08, "root entry not fetched";
    /// 09h: the context entry can't be fetched.
    ContextAccess = 0x09, "context entry not fetched";
    /// 0Ah: a reserved bit of the root entry is set.
    RootReserved = 0x0A, "reserved bit set in root entry";
    /// 0Bh: a reserved bit of the context entry is set.
    ContextReserved = 0x0B, "reserved bit set in context entry";
    /// 0Ch: a reserved bit of a page entry is set.
    PageEntryReserved = 0x0C, "reserved bit set in page entry";
    /// 0Dh: the context entry blocks translation requests (TT 0 or 2).
    TranslationBlocked = 0x0D, "translation request blocked";
    /// 20h: a reserved bit of an interrupt request is set.
    RequestReserved = 0x20, "reserved bit set in interrupt request";
    /// 21h: the interrupt index is beyond the table.
    IndexOutOfRange = 0x21, "interrupt index out of range";
    /// 22h: the interrupt remapping table entry (IRTE) isn't present.
    IrteNotPresent = 0x22, "interrupt entry not present";
    /// 23h: the IRTE can't be fetched.
    IrteAccess = 0x23, "interrupt entry not fetched";
    /// 24h: a reserved bit of the IRTE is set.
    IrteReserved = 0x24, "reserved bit set in interrupt entry";
    /// 25h: a compatibility-format interrupt where none is allowed.
    CompatibilityBlocked = 0x25, "compatibility format interrupt blocked";
    /// 26h: the IRTE isn't for this source.
    SourceRejected = 0x26, "interrupt source rejected";
    /// 27h: the posted interrupt descriptor can't be fetched.
    DescriptorAccess = 0x27, "posted descriptor not fetched";
    /// 28h: a reserved bit of the posted interrupt descriptor is set.
    DescriptorReserved = 0x28, "reserved bit set in posted descriptor";
    /// 38h, scalable mode: the root entry can't be fetched.
    ScalableRootAccess = 0x38, "scalable root entry not fetched";
    /// 39h, scalable mode: the half of the root entry isn't present.
    ScalableRootNotPresent = 0x39, "scalable root entry not present";
    /// 3Ah, scalable mode: a reserved bit of a present half of the root entry is set.
    ScalableRootReserved = 0x3A, "reserved bit set in scalable root entry";
    /// 40h, scalable mode: the context entry can't be fetched.
    ScalableContextAccess = 0x40, "scalable context entry not fetched";
    /// 41h, scalable mode: the context entry isn't present.
    ScalableContextNotPresent = 0x41, "scalable context entry not present";
    /// 42h, scalable mode: a reserved bit of the context entry is set.
    ScalableContextReserved = 0x42, "reserved bit set in scalable context entry";
    /// 43h, scalable mode: the context entry has PRE without DTE, or its RID_PASID is beyond the directory.
    ScalableContextInvalid = 0x43, "scalable context entry invalid";
    /// 45h, scalable mode: the context entry doesn't allow requests with a PASID.
    ScalablePasidDisabled = 0x45, "request with PASID disabled";
    /// 46h, scalable mode: the PASID is beyond the directory.
    ScalablePasidOutOfRange = 0x46, "PASID beyond directory";
    /// 50h, scalable mode: the PASID directory entry can't be fetched.
    ScalableDirectoryAccess = 0x50, "PASID directory entry not fetched";
    /// 51h, scalable mode: the PASID directory entry isn't present.
    ScalableDirectoryNotPresent = 0x51, "PASID directory entry not present";
    /// 52h, scalable mode: a reserved bit of the PASID directory entry is set.
    ScalableDirectoryReserved = 0x52, "reserved bit set in PASID directory entry";
    /// 58h, scalable mode: the PASID table entry can't be fetched.
    ScalableTableAccess = 0x58, "PASID table entry not fetched";
    /// 59h, scalable mode: the PASID table entry isn't present.
    ScalableTableNotPresent = 0x59, "PASID table entry not present";
    /// 5Ah, scalable mode: a reserved bit of the PASID table entry is set.
    ScalableTableReserved = 0x5A, "reserved bit set in PASID table entry";
    /// 5Bh, scalable mode: the PASID table entry has an unsupported type (PGTT) or width (AW, FLPM).
    ScalableTableInvalid = 0x5B, "PASID table entry invalid";
    /// 5Dh, scalable mode: the PASID table entry doesn't allow privileged requests.
    ScalableSupervisorDenied = 0x5D, "supervisor request denied";
    /// 70h, scalable mode: a first-level entry below the top can't be fetched.
    ScalableFirstLevelAccess = 0x70, "first-level entry not fetched";
    /// 71h, scalable mode: a first-level entry isn't present.
    ScalableFirstLevelNotPresent = 0x71, "first-level entry not present";
    /// 72h, scalable mode: a reserved bit of a first-level entry is set.
    ScalableFirstLevelReserved = 0x72, "reserved bit set in first-level entry";
    /// 73h, scalable mode: the top first-level entry can't be fetched.
    ScalableFirstLevelTopAccess = 0x73, "top first-level entry not fetched";
    /// 74h, scalable mode: nested: an intermediate address is beyond the guest width.
    ScalableIntermediateOverflow = 0x74, "intermediate address beyond guest width";
    /// 78h, scalable mode: a second-level entry below the top can't be fetched.
    ScalableSecondLevelAccess = 0x78, "second-level entry not fetched";
    /// 79h, scalable mode: no right is left in a second-level entry.
    ScalableSecondLevelNotPresent = 0x79, "second-level entry without rights";
    /// 7Ah, scalable mode: a reserved bit of a second-level entry is set.
    ScalableSecondLevelReserved = 0x7A, "reserved bit set in second-level entry";
    /// 7Bh, scalable mode: the top second-level entry can't be fetched.
    ScalableSecondLevelTopAccess = 0x7B, "top second-level entry not fetched";
    /// 7Ch, scalable mode: an accessed or dirty flag would have to be set, and the walk isn't snooped.
    ScalableFlagsNotSnooped = 0x7C, "flag to set in a walk not snooped";
    /// 80h, scalable mode: the address of a first-level walk isn't canonical.
    ScalableNotCanonical = 0x80, "address not canonical";
    /// 81h, scalable mode: a first-level entry doesn't allow user requests.
    ScalableUserDenied = 0x81, "user access denied";
    /// 84h, scalable mode: the address of a second-level walk is beyond the guest width.
    ScalableAddressOverflow = 0x84, "address beyond second-level width";
    /// 85h, scalable mode: an entry doesn't allow the write, or the flag to be set.
    ScalableWriteDenied = 0x85, "write permission missing in scalable mode";
    /// 86h, scalable mode: an entry doesn't allow the read.
    ScalableReadDenied = 0x86, "read permission missing in scalable mode";
}

impl fmt::Display for Reason {
    fn fmt(&self, f: &mut fmt::Formatter<'_>) -> fmt::Result {
        write!(f, "{:02X}h", self.number())?;
        match self {
            Reason::Other(_) => Ok(()),
            named => write!(f, " {named:?}"),
        }
    }
}

/// The fault of a blocked request. Only requests make one.
///
/// ```
/// use galitzaf::{Memory, MemoryAnswer, MemoryRequest, Reason, SourceId, Unit};
/// # use galitzaf::{Levels, Registers};
/// # let unit = Unit::new(&Registers {
/// #     haw: 39,
/// #     mgaw: 48,
/// #     levels: Levels { four: true, ..Levels::NONE },
/// #     te: true,
/// #     ..Registers::default()
/// # });
///
/// // With no memory at all, the root entry can't be fetched.
/// let write = MemoryRequest::write(SourceId::from(0x0310), 0x1234);
/// let answer = unit.memory(&Memory::flat([]), write);
/// let MemoryAnswer::Blocked(fault) = answer else { panic!("{answer:?}") };
/// assert_eq!(fault.reason(), Reason::RootAccess);
/// assert!(fault.recordable());
/// assert_eq!(fault.record().words(), [0x1000, 0x8000_0008_0000_0310]);
/// assert_eq!(fault.entry(), Some(0x30));
/// assert_eq!(
///     fault.to_string(),
///     "[DMA Write] Request device [03:02.0] fault addr 1000 [fault reason 08h] root entry not fetched, entry 30",
/// );
/// ```
#[derive(Clone, Copy, PartialEq, Eq, Hash)]
pub struct Fault {
    reason: Reason,
    recordable: bool,
    record: FaultRecord,
    entry: Option<u64>,
}

impl Fault {
    pub(crate) const fn new(
        reason: Reason,
        recordable: bool,
        record: FaultRecord,
        entry: Option<u64>,
    ) -> Self {
        Self {
            reason,
            recordable,
            record,
            entry,
        }
    }

    /// Why the request was blocked.
    pub const fn reason(&self) -> Reason {
        self.reason
    }

    /// Whether it may be recorded: not if fault processing is disabled (FPD) in the entry
    /// concerned.
    pub const fn recordable(&self) -> bool {
        self.recordable
    }

    /// The record that belongs to it, whether it may be recorded or not.
    pub const fn record(&self) -> FaultRecord {
        self.record
    }

    /// The host address of the entry concerned: the last one that was tried, whether it could be
    /// fetched or not. None for 20h, 21h and 25h, which come before any.
    pub const fn entry(&self) -> Option<u64> {
        self.entry
    }

    /// The answer that it came from, as the C interface has it.
    pub(crate) fn to_answer(self) -> [u8; ANSWER_SIZE] {
        let (reason, recordable) = (self.reason.number(), u8::from(self.recordable));
        let named = u8::from(self.entry.is_some());
        let head = [BLOCKED, reason, recordable, named, 0, 0, 0, 0];
        let [low, high] = self.record.words().map(u64::to_le_bytes);
        join(&[head, low, high, self.entry.unwrap_or(0).to_le_bytes()])
    }
}

/// Its parts, with record and entry in hexadecimal.
impl fmt::Debug for Fault {
    fn fmt(&self, f: &mut fmt::Formatter<'_>) -> fmt::Result {
        f.debug_struct("Fault")
            .field("reason", &self.reason)
            .field("recordable", &self.recordable)
            .field("record", &self.record)
            .field("entry", &self.entry.map(Hex))
            .finish()
    }
}

/// A line in the style of Linux's log: the record's, and the entry concerned where there is one.
impl fmt::Display for Fault {
    fn fmt(&self, f: &mut fmt::Formatter<'_>) -> fmt::Result {
        self.record.fmt(f)?;
        match self.entry {
            Some(entry) => write!(f, ", entry {entry:X}"),
            None => Ok(()),
        }
    }
}

/// A fault record of 128 bits, as VT-d's fault recording registers hold it.
///
/// ```
/// use galitzaf::{FaultRecord, Reason, SourceId};
///
/// let record = FaultRecord::from_words([0x4020_2000, 0xC000_0006_0000_0310]);
/// assert!(record.is_standing() && record.is_read());
/// assert_eq!(record.reason(), Reason::ReadDenied);
/// assert_eq!(record.source(), SourceId::new(0x03, 0x10));
/// assert_eq!(record.page_address(), 0x4020_2000);
/// assert_eq!(format!("{record:?}"), "FaultRecord(0000000040202000 C000000600000310)");
/// ```
#[derive(Clone, Copy, Default, PartialEq, Eq, Hash)]
pub struct FaultRecord(u128);

impl FaultRecord {
    /// The record in these 16 bytes, little-endian.
    pub const fn from_bytes(bytes: [u8; 16]) -> Self {
        Self(u128::from_le_bytes(bytes))
    }

    /// The record in these two words, bits 63:0 first.
    pub fn from_words([low, high]: [u64; 2]) -> Self {
        Self(u128::from(high) << 64 | u128::from(low))
    }

    /// Its bytes, little-endian.
    pub const fn bytes(self) -> [u8; 16] {
        self.0.to_le_bytes()
    }

    /// Its two words, bits 63:0 first.
    pub const fn words(self) -> [u64; 2] {
        [self.word_from(0), self.word_from(64)]
    }

    /// F, bit 127: a fault stands here that nobody cleared.
    pub const fn is_standing(self) -> bool {
        self.0 >> 127 & 1 == 1
    }

    /// T, bit 126: set for a read request, and for a translation request.
    pub const fn is_read(self) -> bool {
        self.0 >> 126 & 1 == 1
    }

    /// AT, bits 125:124: 01b for a translation request.
    pub const fn is_translation(self) -> bool {
        self.0 >> 124 & 3 == 1
    }

    /// PP and PV, bits 95 and 123:104: the PASID of a request in scalable mode, if it had one.
    ///
    /// ```
    /// use galitzaf::FaultRecord;
    ///
    /// let record = FaultRecord::from_words([0x1000, 0xC123_4571_8000_0310]);
    /// assert_eq!(record.pasid(), Some(0x12345));
    /// assert_eq!(FaultRecord::default().pasid(), None);
    /// ```
    pub const fn pasid(self) -> Option<u32> {
        let [a, b, c, d, ..] = self.word_from(104).to_le_bytes();
        match self.0 >> 95 & 1 {
            1 => Some(u32::from_le_bytes([a, b, c, d]) & 0xF_FFFF),
            _ => None,
        }
    }

    /// FR, bits 103:96: the reason.
    pub fn reason(self) -> Reason {
        let [reason, ..] = self.word_from(96).to_le_bytes();
        Reason::from(reason)
    }

    /// SID, bits 79:64: who asked.
    pub const fn source(self) -> SourceId {
        let [devfn, bus, ..] = self.word_from(64).to_le_bytes();
        SourceId::new(bus, devfn)
    }

    /// FI, bits 63:12: the page of a memory request's address.
    pub const fn page_address(self) -> u64 {
        self.word_from(0) & !0xFFF
    }

    /// FI, bits 63:48: an interrupt's index, 65,535 if it was larger and 0 where the fault came
    /// before it.
    pub const fn interrupt_index(self) -> u16 {
        let [low, high, ..] = self.word_from(48).to_le_bytes();
        u16::from_le_bytes([low, high])
    }

    /// Whether an interrupt was blocked, and no memory request: reasons 20h to 2Fh.
    fn is_interrupt(self) -> bool {
        (0x20..0x30).contains(&self.reason().number())
    }

    /// The 64 bits from a place, which is below 128.
    const fn word_from(self, place: u32) -> u64 {
        let [a, b, c, d, e, f, g, h, ..] = self.0.wrapping_shr(place).to_le_bytes();
        u64::from_le_bytes([a, b, c, d, e, f, g, h])
    }
}

/// Its two words in hexadecimal, bits 63:0 first.
impl fmt::Debug for FaultRecord {
    fn fmt(&self, f: &mut fmt::Formatter<'_>) -> fmt::Result {
        let [low, high] = self.words();
        write!(f, "FaultRecord({low:016X} {high:016X})")
    }
}

/// A line in the style of Linux's log, with the address of a memory request's page or an interrupt's index.
impl fmt::Display for FaultRecord {
    fn fmt(&self, f: &mut fmt::Formatter<'_>) -> fmt::Result {
        let (source, reason) = (self.source(), self.reason());
        if self.is_interrupt() {
            let index = self.interrupt_index();
            write!(
                f,
                "[INTR-REMAP] Request device [{source}] fault index {index:X}"
            )?;
        } else {
            let kind = match (self.is_translation(), self.is_read()) {
                (true, _) => "Translation",
                (false, true) => "Read",
                (false, false) => "Write",
            };
            let page = self.page_address();
            write!(
                f,
                "[DMA {kind}] Request device [{source}] fault addr {page:X}"
            )?;
        }
        write!(
            f,
            " [fault reason {:02X}h] {}",
            reason.number(),
            reason.text()
        )
    }
}

#[cfg(test)]
mod tests {
    extern crate std;

    use super::*;
    use crate::MemoryAnswer;
    use std::string::ToString;

    /// Each line of the file is an answer in hexadecimal, a space and the fault's line. The C header is held to it too.
    #[test]
    fn a_fault_is_told_in_a_line() {
        let mut faults = 0;
        for line in include_str!("../tests/fault_lines.txt").lines() {
            let (answer, told) = line.split_once(' ').unwrap();
            let mut bytes = [0; ANSWER_SIZE];
            for (i, byte) in bytes.iter_mut().enumerate() {
                *byte = u8::from_str_radix(&answer[2 * i..2 * i + 2], 16).unwrap();
            }
            match MemoryAnswer::decode(bytes) {
                MemoryAnswer::Blocked(fault) => {
                    assert_eq!(fault.to_string(), told);
                    faults += 1;
                }
                _ => assert_eq!(told, ""),
            }
        }
        assert_eq!(faults, 121);
    }

    #[test]
    fn reasons_keep_their_numbers() {
        for number in 0..=u8::MAX {
            let reason = Reason::from(number);
            assert_eq!(reason.number(), number);
            let named = matches!(number, 0x01..=0x0D | 0x20..=0x28)
                // Of scalable mode.
                || matches!(number, 0x38..=0x3A | 0x40..=0x43 | 0x45..=0x46 | 0x50..=0x52 | 0x58..=0x5B | 0x5D)
                || matches!(number, 0x70..=0x74 | 0x78..=0x7C | 0x80..=0x81 | 0x84..=0x86);
            assert_eq!(Reason::NAMED.contains(&reason), named, "{number:02X}h");
        }
    }

    #[test]
    fn a_record_has_each_field_in_its_place() {
        let words = [0x0123_4567_89AB_C000, 0x4000_0021_0000_FF08];
        let record = FaultRecord::from_words(words);
        assert_eq!(record.words(), words);
        assert_eq!(FaultRecord::from_bytes(record.bytes()), record);
        assert_eq!(record.page_address(), 0x0123_4567_89AB_C000);
        assert_eq!(record.interrupt_index(), 0x0123);
        assert_eq!(record.source(), SourceId::new(0xFF, 0x08));
        assert_eq!(record.reason(), Reason::IndexOutOfRange);
        assert!(record.is_read() && !record.is_standing());
        let standing = FaultRecord::from_words([0, 1 << 63]);
        assert!(standing.is_standing() && !standing.is_read());
        for (top, translation) in [(0xCu64, false), (0xD, true), (0xE, false), (0xF, false)] {
            let record = FaultRecord::from_words([0, top << 60]);
            assert_eq!(record.is_translation(), translation);
        }
    }

    #[test]
    fn a_fault_goes_back_into_its_answer() {
        let record = FaultRecord::from_words([0x0706_0504_0302_0100, 0x0F0E_0D0C_0B0A_0908]);
        for recordable in [false, true] {
            for entry in [None, Some(0x5008)] {
                let answer = Fault::new(Reason::ReadDenied, recordable, record, entry).to_answer();
                let named = u8::from(entry.is_some());
                let head = [1, 0x06, u8::from(recordable), named, 0, 0, 0, 0];
                assert_eq!(answer[..8], head);
                assert_eq!(answer[8..24], record.bytes());
                assert_eq!(answer[24..], entry.unwrap_or(0).to_le_bytes());
            }
        }
    }
}
