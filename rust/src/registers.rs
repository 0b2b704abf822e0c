//! The unit's registers.

use core::fmt;

use crate::bytes::{join, split, Hex};
use crate::ffi::REGISTERS_SIZE;

/// The numbers of page table levels that a unit supports, as SAGAW of VT-d's capability register
/// names them.
///
/// ```
/// use galitzaf::Levels;
///
/// let levels = Levels { four: true, ..Levels::NONE };
/// assert!(levels.four && !levels.three && !levels.five);
/// ```
#[derive(Clone, Copy, Debug, Default, PartialEq, Eq, Hash)]
pub struct Levels {
    /// 3 levels, guest addresses of 39 bits.
    pub three: bool,
    /// 4 levels, guest addresses of 48 bits.
    pub four: bool,
    /// 5 levels, guest addresses of 57 bits.
    pub five: bool,
}

impl Levels {
    /// None of them. Registers that support no level are refused.
    pub const NONE: Self = Self {
        three: false,
        four: false,
        five: false,
    };
}

/// What a unit is and how it is switched, as far as legacy mode reads it.
///
/// Any values may be given: those outside VT-d's ranges are refused by each request, with
/// [`Refusal::BadRegisters`](crate::Refusal::BadRegisters). The ranges stand at the fields.
///
/// ```
/// use galitzaf::{Levels, Registers};
///
/// let registers = Registers {
///     haw: 39,
///     mgaw: 48,
///     levels: Levels { three: true, four: true, five: false },
///     root_table: 0x1000,
///     te: true,
///     ..Registers::default()
/// };
/// let bytes = registers.to_bytes();
/// assert_eq!(bytes[..5], [39, 48, 0b011, 0b0001, 0]);
/// assert_eq!(bytes[8..16], 0x1000u64.to_le_bytes());
/// ```
#[derive(Clone, Copy, Default, PartialEq, Eq, Hash)]
pub struct Registers {
    /// Host address width, 36 to 52.
    pub haw: u8,
    /// Guest address width, 39 to 57.
    pub mgaw: u8,
    /// Supported page table levels, at least one.
    pub levels: Levels,
    /// Whether 2 MiB pages are supported.
    pub pages_2m: bool,
    /// Whether 1 GiB pages are supported.
    pub pages_1g: bool,
    /// Whether interrupt posting is supported.
    pub posting: bool,
    /// Host address of the root table, a multiple of 4096 below 2^HAW.
    pub root_table: u64,
    /// Host address of the interrupt remapping table, a multiple of 4096 below 2^HAW.
    pub interrupt_table: u64,
    /// The interrupt remapping table has 2^(S+1) entries; 0 to 15.
    pub s: u8,
    /// DMA remapping enabled (TE). While off, memory requests pass unchanged.
    pub te: bool,
    /// Interrupt remapping enabled (IRE). While off, interrupts pass unchanged.
    pub ire: bool,
    /// x2APIC destinations of 32 bits (EIME).
    pub eime: bool,
    /// Compatibility-format interrupts pass (CFIS).
    pub cfis: bool,
}

impl Registers {
    /// The C interface's form of them, whatever the values.
    pub fn to_bytes(&self) -> [u8; REGISTERS_SIZE] {
        let Levels { three, four, five } = self.levels;
        let supported = bits(&[
            three,
            four,
            five,
            self.pages_2m,
            self.pages_1g,
            self.posting,
        ]);
        let switches = bits(&[self.te, self.ire, self.eime, self.cfis]);
        let head = [self.haw, self.mgaw, supported, switches, self.s, 0, 0, 0];
        let tables = [self.root_table, self.interrupt_table];
        let [root, interrupt] = tables.map(u64::to_le_bytes);
        join(&[head, root, interrupt])
    }
}

impl Registers {
    /// Those of bytes that `to_bytes` made.
    pub(crate) fn from_bytes(bytes: &[u8; REGISTERS_SIZE]) -> Self {
        let [head, root, interrupt] = split(bytes);
        let [haw, mgaw, supported, switches, s, ..] = head;
        let on = |byte: u8, place: u32| byte.wrapping_shr(place) & 1 == 1;
        Self {
            haw,
            mgaw,
            levels: Levels {
                three: on(supported, 0),
                four: on(supported, 1),
                five: on(supported, 2),
            },
            pages_2m: on(supported, 3),
            pages_1g: on(supported, 4),
            posting: on(supported, 5),
            root_table: u64::from_le_bytes(root),
            interrupt_table: u64::from_le_bytes(interrupt),
            s,
            te: on(switches, 0),
            ire: on(switches, 1),
            eime: on(switches, 2),
            cfis: on(switches, 3),
        }
    }
}

/// Addresses in hexadecimal.
impl fmt::Debug for Registers {
    fn fmt(&self, f: &mut fmt::Formatter<'_>) -> fmt::Result {
        f.debug_struct("Registers")
            .field("haw", &self.haw)
            .field("mgaw", &self.mgaw)
            .field("levels", &self.levels)
            .field("pages_2m", &self.pages_2m)
            .field("pages_1g", &self.pages_1g)
            .field("posting", &self.posting)
            .field("root_table", &Hex(self.root_table))
            .field("interrupt_table", &Hex(self.interrupt_table))
            .field("s", &self.s)
            .field("te", &self.te)
            .field("ire", &self.ire)
            .field("eime", &self.eime)
            .field("cfis", &self.cfis)
            .finish()
    }
}

/// A byte of flags, the first in bit 0.
fn bits(flags: &[bool]) -> u8 {
    flags
        .iter()
        .rev()
        .fold(0, |byte, &flag| byte << 1 | u8::from(flag))
}

#[cfg(test)]
mod tests {
    use super::*;

    #[test]
    fn every_field_has_its_place() {
        type Set = fn(&mut Registers);
        let fields: [(Set, usize, u8); 17] = [
            (|r| r.haw = 0xFF, 0, 0xFF),
            (|r| r.mgaw = 0xFF, 1, 0xFF),
            (|r| r.levels.three = true, 2, 0x01),
            (|r| r.levels.four = true, 2, 0x02),
            (|r| r.levels.five = true, 2, 0x04),
            (|r| r.pages_2m = true, 2, 0x08),
            (|r| r.pages_1g = true, 2, 0x10),
            (|r| r.posting = true, 2, 0x20),
            (|r| r.te = true, 3, 0x01),
            (|r| r.ire = true, 3, 0x02),
            (|r| r.eime = true, 3, 0x04),
            (|r| r.cfis = true, 3, 0x08),
            (|r| r.s = 0xFF, 4, 0xFF),
            (|r| r.root_table = 0xAB, 8, 0xAB),
            (|r| r.root_table = 0xAB << 56, 15, 0xAB),
            (|r| r.interrupt_table = 0xAB, 16, 0xAB),
            (|r| r.interrupt_table = 0xAB << 56, 23, 0xAB),
        ];
        for (set, at, byte) in fields {
            let mut registers = Registers::default();
            set(&mut registers);
            let mut expected = [0; REGISTERS_SIZE];
            expected[at] = byte;
            assert_eq!(registers.to_bytes(), expected);
            assert_eq!(Registers::from_bytes(&expected), registers);
        }
    }
}
