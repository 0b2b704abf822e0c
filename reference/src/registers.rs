//! "What the cabinet's unit does": the registers, the two refusals that every
//! request is checked for, and the range they and number 4 are about.

/// The registers, by value.
#[derive(Clone, Copy, Debug, PartialEq, Eq)]
pub struct Registers {
    /// Host width, 36 to 52.
    pub haw: u8,
    /// Guest width, 39 to 57.
    pub mgaw: u8,
    /// Whether 3 levels are supported.
    pub levels3: bool,
    /// Whether 4 levels are supported.
    pub levels4: bool,
    /// Whether 5 levels are supported.
    pub levels5: bool,
    /// Whether 2 MiB pages are supported.
    pub pages_2m: bool,
    /// Whether 1 GiB pages are supported.
    pub pages_1g: bool,
    /// Whether posting is supported.
    pub posting: bool,
    /// Root table address.
    pub root: u64,
    /// Interrupt table address.
    pub interrupt_table: u64,
    /// S, 0 to 15.
    pub s: u8,
    /// Translation.
    pub te: bool,
    /// Interrupt remapping.
    pub ire: bool,
    /// x2APIC destinations.
    pub eime: bool,
    /// Old-format interrupts allowed.
    pub cfis: bool,
}

/// Number 1: a register is outside the list.
pub fn outside_the_list(registers: &Registers) -> bool {
    // Host width HAW 36 to 52.
    if registers.haw < 36 || registers.haw > 52 {
        return true;
    }
    // Guest width MGAW 39 to 57.
    if registers.mgaw < 39 || registers.mgaw > 57 {
        return true;
    }
    // Which of 3, 4 and 5 levels are supported (at least one).
    if !registers.levels3 && !registers.levels4 && !registers.levels5 {
        return true;
    }
    // Root and interrupt table addresses, each a multiple of 4096 below 2^HAW.
    let host_end = 1u64 << registers.haw;
    if !multiple_of_4096(registers.root) || registers.root >= host_end {
        return true;
    }
    if !multiple_of_4096(registers.interrupt_table) || registers.interrupt_table >= host_end {
        return true;
    }
    // S, 0 to 15.
    if registers.s > 15 {
        return true;
    }
    false
}

fn multiple_of_4096(address: u64) -> bool {
    address / 4096 * 4096 == address
}

/// FEE00000h to FEEFFFFFh, which number 2 is about.
pub fn in_interrupt_range(address: u64) -> bool {
    (0xFEE0_0000..=0xFEEF_FFFF).contains(&address)
}

/// Whether any of the `size` bytes from `start` on lies in FEE00000h to
/// FEEFFFFFh, which number 4 is about.
pub fn meets_interrupt_range(start: u128, size: u128) -> bool {
    let last = start + size - 1;
    start <= 0xFEEF_FFFF && last >= 0xFEE0_0000
}
