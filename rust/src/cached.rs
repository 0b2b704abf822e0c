//! The unit with a cache of translations.

use core::fmt;

use crate::ffi::{self, CACHE_WORDS, REGISTERS_SIZE};
use crate::{Access, Memory, MemoryAnswer, MemoryRequest, Refusal, Registers, Unit};

/// A unit whose memory requests go through a cache of 64 translations, 6208 bytes.
///
/// A page that a walk reached and that was granted is held until it is invalidated or pushed out, the
/// oldest at a 65th. It answers the requests for its page, source and kind without a look at the
/// tables. So each write to a table entry that a held translation went through, whoever makes it, has
/// to be followed by an invalidation before the next request: then every answer is that of
/// [`Unit::memory`]. A request over memory with other windows wants an invalidation too.
///
/// ```
/// use galitzaf::{CachedUnit, Levels, Memory, MemoryAnswer, MemoryRequest, Registers, SourceId};
///
/// let mut unit = CachedUnit::new(&Registers {
///     haw: 39,
///     mgaw: 48,
///     levels: Levels { three: true, ..Levels::NONE },
///     root_table: 0x1000,
///     te: true,
///     ..Registers::default()
/// });
/// let mut image = vec![0; 0x8000];
/// for (address, word) in [
///     (0x1030, 0x2001u64), (0x2100, 0x3001), (0x2108, 0x501),
///     (0x3008, 0x4003), (0x4008, 0x5003), (0x5008, 0x1234_5001),
/// ] {
///     image[address..address + 8].copy_from_slice(&word.to_le_bytes());
/// }
///
/// let request = MemoryRequest::read(SourceId::new(0x03, 0x10), 0x4020_1ABC);
/// assert_eq!(unit.memory(&Memory::flat(&image), request), MemoryAnswer::Granted(0x1234_5ABC));
///
/// // The guest maps another frame. Until the context's domain, 5, is invalidated the old one answers.
/// image[0x5008..0x5010].copy_from_slice(&0x2345_6001u64.to_le_bytes());
/// assert_eq!(unit.memory(&Memory::flat(&image), request), MemoryAnswer::Granted(0x1234_5ABC));
/// unit.invalidate_domain(5);
/// assert_eq!(unit.memory(&Memory::flat(&image), request), MemoryAnswer::Granted(0x2345_6ABC));
/// ```
#[derive(Clone, PartialEq, Eq)]
pub struct CachedUnit {
    registers: [u8; REGISTERS_SIZE],
    cache: [u64; CACHE_WORDS],
}

impl CachedUnit {
    /// A unit with these registers and an empty cache.
    pub fn new(registers: &Registers) -> Self {
        Self {
            registers: registers.to_bytes(),
            cache: [0; CACHE_WORDS],
        }
    }

    /// The registers that it was made with.
    pub fn registers(&self) -> Registers {
        Registers::from_bytes(&self.registers)
    }

    /// The plain unit with the same registers, for all other requests.
    pub fn unit(&self) -> Unit {
        Unit::new(&self.registers())
    }

    /// Where a memory request may go, from what is held or by the walk.
    pub fn memory<R: AsRef<[u8]>>(
        &mut self,
        memory: &Memory<R>,
        request: MemoryRequest,
    ) -> MemoryAnswer {
        let MemoryRequest {
            source,
            address,
            access,
        } = request;
        let write = access == Access::Write;
        let (registers, cache) = (&self.registers, &mut self.cache);
        let answer = memory.lend(|windows, run| {
            ffi::cached_request(
                registers,
                windows,
                run,
                cache,
                source.into(),
                address,
                write,
            )
        });
        answer.map_or(
            MemoryAnswer::Refused(Refusal::INTERFACE),
            MemoryAnswer::decode,
        )
    }

    /// Takes all translations out.
    pub fn invalidate_all(&mut self) {
        ffi::invalidate_all(&mut self.cache);
    }

    /// Takes those of a domain out: bits 87:72 of the context entry, as it was when they were cached.
    pub fn invalidate_domain(&mut self, domain: u16) {
        ffi::invalidate_domain(&mut self.cache, domain);
    }
}

impl fmt::Debug for CachedUnit {
    fn fmt(&self, f: &mut fmt::Formatter<'_>) -> fmt::Result {
        f.debug_tuple("CachedUnit")
            .field(&self.registers())
            .finish()
    }
}
