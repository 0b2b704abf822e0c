//! Registers.

use crate::common::Random;
use crate::image::PAGES;
use galitzaf::{Levels, Registers};

/// Registers mostly within their ranges and mostly switched on.
pub fn any(random: &mut Random) -> Registers {
    let mut registers = Registers {
        haw: random.pick(&[36, 39, 46, 51, 52]),
        mgaw: random.pick(&[39, 42, 48, 52, 57]),
        levels: Levels {
            three: random.below(4) != 0,
            four: random.below(4) != 0,
            five: random.below(4) != 0,
        },
        pages_2m: random.below(4) != 0,
        pages_1g: random.below(4) != 0,
        posting: random.below(4) != 0,
        root_table: random.below(PAGES) << 12,
        interrupt_table: random.below(PAGES) << 12,
        s: random.below(16) as u8,
        te: random.below(16) != 0,
        ire: random.below(16) != 0,
        eime: random.coin(),
        cfis: random.coin(),
    };
    match random.below(60) {
        0 => registers.haw = random.word() as u8,
        1 => registers.mgaw = random.word() as u8,
        2 => registers.s = random.word() as u8,
        3 => registers.root_table = random.word(),
        4 => registers.interrupt_table = random.word(),
        5 => registers.root_table = random.below(1 << 24) << 12,
        6 => registers.interrupt_table = random.below(1 << 24) << 12,
        _ => {}
    }
    registers
}

/// The same in the reference's form.
pub fn theirs(r: &Registers) -> reference::Registers {
    reference::Registers {
        haw: r.haw,
        mgaw: r.mgaw,
        levels3: r.levels.three,
        levels4: r.levels.four,
        levels5: r.levels.five,
        pages_2m: r.pages_2m,
        pages_1g: r.pages_1g,
        posting: r.posting,
        root: r.root_table,
        interrupt_table: r.interrupt_table,
        s: r.s,
        te: r.te,
        ire: r.ire,
        eime: r.eime,
        cfis: r.cfis,
    }
}
