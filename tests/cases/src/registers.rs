//! Registers.

use crate::random::Random;
use crate::world::PAGE;
use reference::Registers;

/// Registers inside document 01's list, with tables among the first pages.
pub fn good(random: &mut Random, pages: u64) -> Registers {
    let mut registers = Registers {
        haw: 36 + random.below(17) as u8,
        mgaw: 39 + random.below(19) as u8,
        levels3: !random.one_in(4),
        levels4: !random.one_in(4),
        levels5: !random.one_in(4),
        pages_2m: !random.one_in(5),
        pages_1g: !random.one_in(5),
        posting: !random.one_in(5),
        root: PAGE * random.below(pages),
        interrupt_table: PAGE * random.below(pages),
        s: random.below(16) as u8,
        te: !random.one_in(20),
        ire: !random.one_in(20),
        eime: random.coin(),
        cfis: random.coin(),
    };
    if !(registers.levels3 || registers.levels4 || registers.levels5) {
        registers.levels4 = true;
    }
    registers
}

/// Puts one register at or past a bound, now and then.
pub fn spoil(random: &mut Random, registers: &mut Registers) {
    let table = table_edge(registers.haw, random.below(TABLE_EDGES));
    match random.below(160) {
        0 => registers.haw = random.pick(&HAW),
        1 => registers.mgaw = random.pick(&MGAW),
        2 => registers.s = random.pick(&S),
        3 => registers.root = table,
        4 => registers.interrupt_table = table,
        5 => {
            registers.levels3 = false;
            registers.levels4 = false;
            registers.levels5 = false;
        }
        _ => {}
    }
}

/// Host widths at and past the bounds, and some between.
pub const HAW: [u8; 20] = [
    0, 1, 31, 32, 35, 36, 37, 39, 44, 47, 48, 50, 51, 52, 53, 63, 64, 65, 128, 255,
];

/// Guest widths likewise.
pub const MGAW: [u8; 16] = [
    0, 12, 30, 38, 39, 40, 47, 48, 49, 56, 57, 58, 63, 64, 128, 255,
];

/// Values of S likewise.
pub const S: [u8; 8] = [0, 3, 14, 15, 16, 17, 128, 255];

/// How many edges a table address has.
pub const TABLE_EDGES: u64 = 18;

/// Table addresses at and past the bounds that a host width sets, and unaligned ones.
pub fn table_edge(haw: u8, which: u64) -> u64 {
    // 2^HAW, or 2^63 where that is too large.
    let end = 1u64 << haw.min(63);
    let edges: [u64; TABLE_EDGES as usize] = [
        0,
        PAGE,
        6 * PAGE,
        1,
        8,
        PAGE / 2,
        PAGE - 1,
        2 * PAGE - 1,
        6 * PAGE + 16,
        end.saturating_sub(PAGE),
        end - 1,
        end,
        end + 1,
        end + PAGE,
        1 << 52,
        1 << 63,
        u64::MAX - (PAGE - 1),
        u64::MAX,
    ];
    edges[which as usize]
}
