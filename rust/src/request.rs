//! What a device asks.

use crate::SourceId;

/// Whether a memory request reads or writes.
#[derive(Clone, Copy, Debug, PartialEq, Eq, Hash)]
pub enum Access {
    /// A read.
    Read,
    /// A write.
    Write,
}

/// An untranslated memory request without PASID.
///
/// ```
/// use galitzaf::{Access, MemoryRequest, SourceId};
///
/// let request = MemoryRequest::read(SourceId::new(3, 0x10), 0x4020_1ABC);
/// assert_eq!(request.access, Access::Read);
/// ```
#[derive(Clone, Copy, Debug, PartialEq, Eq, Hash)]
pub struct MemoryRequest {
    /// Who asks.
    pub source: SourceId,
    /// The guest address asked for.
    pub address: u64,
    /// Read or write.
    pub access: Access,
}

impl MemoryRequest {
    /// A read of an address.
    pub const fn read(source: SourceId, address: u64) -> Self {
        Self {
            source,
            address,
            access: Access::Read,
        }
    }

    /// A write to an address.
    pub const fn write(source: SourceId, address: u64) -> Self {
        Self {
            source,
            address,
            access: Access::Write,
        }
    }
}

/// A translation request without PASID: a device with a translation cache of its own asks for a page.
///
/// ```
/// use galitzaf::{SourceId, TranslationRequest};
///
/// let request = TranslationRequest::new(SourceId::new(3, 0x10), 0x4020_1ABC);
/// assert_eq!(request.address, 0x4020_1ABC);
/// ```
#[derive(Clone, Copy, Debug, PartialEq, Eq, Hash)]
pub struct TranslationRequest {
    /// Who asks.
    pub source: SourceId,
    /// The guest address asked for.
    pub address: u64,
}

impl TranslationRequest {
    /// A request for the page of an address.
    pub const fn new(source: SourceId, address: u64) -> Self {
        Self { source, address }
    }
}

/// An interrupt message: a 32-bit write to FEE00000h to FEEFFFFFh.
///
/// ```
/// use galitzaf::{InterruptRequest, SourceId};
///
/// let request = InterruptRequest::new(SourceId::new(3, 0x10), 0xFEE0_0050, 0);
/// assert_eq!(request.data, 0);
/// ```
#[derive(Clone, Copy, Debug, PartialEq, Eq, Hash)]
pub struct InterruptRequest {
    /// Who asks.
    pub source: SourceId,
    /// The message's address.
    pub address: u64,
    /// The message's data.
    pub data: u32,
}

impl InterruptRequest {
    /// A message of this address and data.
    pub const fn new(source: SourceId, address: u64, data: u32) -> Self {
        Self {
            source,
            address,
            data,
        }
    }
}
