//! Scalable mode.

use core::fmt;

use crate::ffi::{self, REGISTERS_SIZE};
use crate::{Access, Memory, MemoryAnswer, Refusal, Registers, SourceId};

/// What a unit in scalable mode supports besides what [`Registers`] say.
///
/// ```
/// use galitzaf::Capabilities;
///
/// let capabilities = Capabilities { second_level: true, ..Capabilities::NONE };
/// assert!(capabilities.second_level && !capabilities.nested);
/// ```
#[derive(Clone, Copy, Debug, Default, PartialEq, Eq, Hash)]
pub struct Capabilities {
    /// First-level translation (FLTS).
    pub first_level: bool,
    /// Second-level translation (SLTS).
    pub second_level: bool,
    /// Nested translation (NEST).
    pub nested: bool,
    /// Pass-through (PT).
    pub pass_through: bool,
    /// 5 levels in the first level (FL5LP).
    pub first_level_5: bool,
    /// 1 GiB pages in the first level (FL1GP).
    pub first_level_1g: bool,
    /// Accessed and dirty flags in the second level (SLADS).
    pub second_level_flags: bool,
    /// Extended accessed flags in the first level (EAFS).
    pub extended_accessed: bool,
    /// Supervisor requests (SRS).
    pub supervisor: bool,
    /// Coherent page walks (SMPWC).
    pub coherent_walks: bool,
}

impl Capabilities {
    /// None of them.
    pub const NONE: Self = Self {
        first_level: false,
        second_level: false,
        nested: false,
        pass_through: false,
        first_level_5: false,
        first_level_1g: false,
        second_level_flags: false,
        extended_accessed: false,
        supervisor: false,
        coherent_walks: false,
    };

    /// As the C interface has them.
    fn bits(self) -> u32 {
        let bits = [
            (self.first_level, ffi::FLTS),
            (self.second_level, ffi::SLTS),
            (self.nested, ffi::NEST),
            (self.pass_through, ffi::PT),
            (self.first_level_5, ffi::FL5LP),
            (self.first_level_1g, ffi::FL1GP),
            (self.second_level_flags, ffi::SLADS),
            (self.extended_accessed, ffi::EAFS),
            (self.supervisor, ffi::SRS),
            (self.coherent_walks, ffi::SMPWC),
        ];
        bits.iter()
            .filter(|(set, _)| *set)
            .fold(0, |all, (_, bit)| all | bit)
    }
}

/// An untranslated read or write in scalable mode, with a PASID or none.
///
/// ```
/// use galitzaf::{Access, ScalableRequest, SourceId};
///
/// let read = ScalableRequest::new(SourceId::new(3, 0x10), Access::Read, 0x4020_1ABC);
/// assert_eq!(read.pasid, None);
/// assert_eq!(read.with_pasid(0x12345).pasid, Some(0x12345));
/// ```
#[derive(Clone, Copy, Debug, PartialEq, Eq, Hash)]
pub struct ScalableRequest {
    /// Who asks.
    pub source: SourceId,
    /// The guest address asked for.
    pub address: u64,
    /// Read or write.
    pub access: Access,
    /// The PASID, below 2^20. A request with one is unprivileged; one without has the PASID and the privilege of its
    /// context entry.
    pub pasid: Option<u32>,
}

impl ScalableRequest {
    /// A request without PASID.
    pub const fn new(source: SourceId, access: Access, address: u64) -> Self {
        Self {
            source,
            address,
            access,
            pasid: None,
        }
    }

    /// The same request with a PASID.
    pub const fn with_pasid(self, pasid: u32) -> Self {
        Self {
            pasid: Some(pasid),
            ..self
        }
    }

    /// As the C interface has it: what it is, and the number of its PASID.
    fn kind(self) -> (u8, u32) {
        let write = match self.access {
            Access::Read => 0,
            Access::Write => ffi::KIND_WRITE,
        };
        match self.pasid {
            Some(pasid) => (write | ffi::KIND_PASID, pasid),
            None => (write, 0),
        }
    }
}

/// A remapping unit in scalable mode: its registers and capabilities, ready to answer requests over any guest memory.
///
/// Like [`Unit`](crate::Unit) it keeps nothing else, and nobody else changes the memory while a request is answered.
///
/// ```
/// use galitzaf::{Access, Capabilities, Levels, Memory, MemoryAnswer, Registers, ScalableRequest, ScalableUnit, SourceId};
///
/// let registers = Registers {
///     haw: 39,
///     mgaw: 48,
///     levels: Levels { three: true, ..Levels::NONE },
///     root_table: 0x1000,
///     te: true,
///     ..Registers::default()
/// };
/// let unit = ScalableUnit::new(&registers, Capabilities { second_level: true, ..Capabilities::NONE });
///
/// // Root, context, PASID directory and PASID table entry, then three levels that map one page for reads.
/// let mut image = vec![0; 0x9000];
/// for (address, word) in [
///     (0x1030, 0x2001u64), (0x2200, 0x3001), (0x3000, 0x4001), (0x4000, 0x5085),
///     (0x5008, 0x6003), (0x6008, 0x7003), (0x7008, 0x1234_5001),
/// ] {
///     image[address..address + 8].copy_from_slice(&word.to_le_bytes());
/// }
///
/// let read = ScalableRequest::new(SourceId::new(0x03, 0x10), Access::Read, 0x4020_1ABC);
/// assert_eq!(unit.request(&mut Memory::flat(&mut image), read), MemoryAnswer::Granted(0x1234_5ABC));
/// ```
#[derive(Clone, Copy, PartialEq, Eq, Hash)]
pub struct ScalableUnit {
    registers: [u8; REGISTERS_SIZE],
    capabilities: Capabilities,
}

impl ScalableUnit {
    /// A unit with these registers, whatever their values: bad ones are refused by each request.
    pub fn new(registers: &Registers, capabilities: Capabilities) -> Self {
        Self {
            registers: registers.to_bytes(),
            capabilities,
        }
    }

    /// The registers that it was made with.
    pub fn registers(&self) -> Registers {
        Registers::from_bytes(&self.registers)
    }

    /// What it supports besides.
    pub const fn capabilities(&self) -> Capabilities {
        self.capabilities
    }

    /// Where a read or a write may go. A granted one sets the accessed and dirty flags of the page table entries that it
    /// went through; any other answer leaves memory as it came.
    pub fn request<R: AsMut<[u8]>>(
        &self,
        memory: &mut Memory<R>,
        request: ScalableRequest,
    ) -> MemoryAnswer {
        let ((kind, pasid), capabilities) = (request.kind(), self.capabilities.bits());
        let (source, address) = (request.source.into(), request.address);
        let answer = memory.lend_mut(|windows, run| {
            ffi::scalable_request(
                &self.registers,
                capabilities,
                windows,
                run,
                source,
                address,
                kind,
                pasid,
            )
        });
        answer.map_or(
            MemoryAnswer::Refused(Refusal::INTERFACE),
            MemoryAnswer::decode,
        )
    }
}

impl fmt::Debug for ScalableUnit {
    fn fmt(&self, f: &mut fmt::Formatter<'_>) -> fmt::Result {
        f.debug_tuple("ScalableUnit")
            .field(&self.registers())
            .field(&self.capabilities)
            .finish()
    }
}
