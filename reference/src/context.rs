//! The root and the context entry, up to 03h: the steps that untranslated and
//! translation requests share.

use crate::bits::{any_set, bit, bits};
use crate::image::{fetch, Image};
use crate::registers::Registers;
use crate::slips::{self, Slip};

/// What a context entry says.
pub struct Context {
    /// The entry's host address.
    pub entry: u128,
    /// FPD.
    pub fpd: bool,
    /// Type TT: 0 and 1 translate, 2 passes through.
    pub tt: u128,
    /// The number of levels.
    pub levels: usize,
    /// X, the smaller of MGAW and AW's bits.
    pub x: u8,
    /// The top page table's address.
    pub top: u128,
    /// The domain.
    pub domain: u16,
}

/// A fault on the way: its reason, FPD as read by then, and the host address
/// of the entry concerned.
pub struct Stop {
    /// Intel's reason number.
    pub reason: u8,
    /// FPD, and false as long as no context entry was fetched.
    pub fpd: bool,
    /// The entry's host address.
    pub entry: u128,
}

/// Finds a source's context entry. The words fetched are added to `words`.
pub fn context(
    slip: Slip,
    registers: &Registers,
    image: Image,
    source: u16,
    words: &mut Vec<u64>,
) -> Result<Context, Stop> {
    let haw = usize::from(registers.haw);
    let bus = bits(&source.to_le_bytes(), 15, 8);
    let device_and_function = bits(&source.to_le_bytes(), 7, 0);
    let stop = |reason: u8, fpd: bool, entry: u128| Err(Stop { reason, fpd, entry });

    // Root entry, root table + 16 x bus. Access 08h.
    let root_entry = u128::from(registers.root) + 16 * bus;
    let Some(root) = fetch(image, root_entry, 16, words) else {
        return stop(0x08, false, root_entry);
    };
    // Bit 0 clear: 01h.
    if !bit(&root, 0) {
        return stop(0x01, false, root_entry);
    }
    // Any of bits 11:1, 127:64, or address bits from HAW to 63 set: 0Ah.
    if any_set(&root, 11, 1) || any_set(&root, 127, 64) || any_set(&root, 63, haw) {
        return stop(0x0A, false, root_entry);
    }
    // Context table address is 63:12.
    let context_table = bits(&root, 63, 12) << 12;

    // Context entry, context table + 16 x (device and function). Access 09h.
    let context_entry = context_table + 16 * device_and_function;
    let Some(context) = fetch(image, context_entry, 16, words) else {
        return stop(0x09, false, context_entry);
    };
    // Bit 1 is FPD, read even when bit 0 is clear.
    let fpd = slips::fpd(slip, bit(&context, 1), bit(&context, 0));
    // Bit 0 clear: 02h.
    if !bit(&context, 0) {
        return stop(0x02, fpd, context_entry);
    }
    // Bits 11:4, 71, 127:88, or address bits from HAW to 63 set: 0Bh.
    if any_set(&context, 11, 4)
        || bit(&context, 71)
        || any_set(&context, 127, 88)
        || any_set(&context, 63, haw)
    {
        return stop(0x0B, fpd, context_entry);
    }
    // Width AW is 66:64: 1, 2, 3 mean 3, 4, 5 levels (39, 48, 57 bits).
    let aw = bits(&context, 66, 64);
    let (levels, aw_bits, supported) = match aw {
        1 => (3, 39, registers.levels3),
        2 => (4, 48, registers.levels4),
        3 => (5, 57, registers.levels5),
        _ => (0, 0, false),
    };
    // Type TT is 3:2: 0 and 1 translate, 2 passes through, 3 is bad.
    let tt = bits(&context, 3, 2);
    // Unsupported AW or bad TT: 03h.
    if !supported || tt == 3 {
        return stop(0x03, fpd, context_entry);
    }
    Ok(Context {
        entry: context_entry,
        fpd,
        tt,
        levels,
        // Width. X is the smaller of MGAW and AW's bits.
        x: if registers.mgaw < aw_bits {
            registers.mgaw
        } else {
            aw_bits
        },
        // Domain is 87:72, the top page table's address 63:12.
        top: bits(&context, 63, 12) << 12,
        domain: bits(&context, 87, 72) as u16,
    })
}
