//! Document 01's bench image and the requests of its twelve cases.

use crate::world::World;
use reference::Registers;

/// Its registers.
pub const REGISTERS: Registers = Registers {
    haw: 39,
    mgaw: 48,
    levels3: true,
    levels4: true,
    levels5: false,
    pages_2m: true,
    pages_1g: true,
    posting: true,
    root: 0x1000,
    interrupt_table: 0x6000,
    s: 3,
    te: true,
    ire: true,
    eime: false,
    cfis: false,
};

/// Its length.
pub const LENGTH: u64 = 32_768;

/// The source of its requests, unless said.
pub const SOURCE: u16 = 0x0310;

const WORDS: [(u64, u64); 15] = [
    (0x1030, 0x2001),
    (0x2100, 0x3001),
    (0x2108, 0x501),
    (0x3008, 0x4003),
    (0x4008, 0x5003),
    (0x4010, 0x4060_0083),
    (0x4018, 0x9003),
    (0x4020, 0x80_0000_0003),
    (0x4028, 0x7003),
    (0x5008, 0x1234_5001),
    (0x7FF8, 0x2345_6003),
    (0x6020, 0x0000_0700_0041_0001),
    (0x6028, 0x40310),
    (0x6040, 0x0000_6400_0031_8001),
    (0x6420, 0x0000_0700_00F2_0000),
];

/// The entries that the twelve cases look at, by address and length; some are zero.
pub const ENTRIES: [(u64, u64); 17] = [
    (0x1030, 16),
    (0x1040, 16),
    (0x2100, 16),
    (0x2110, 16),
    (0x3008, 8),
    (0x3FF8, 8),
    (0x4008, 8),
    (0x4010, 8),
    (0x4018, 8),
    (0x4020, 8),
    (0x4028, 8),
    (0x5008, 8),
    (0x5010, 8),
    (0x7FF8, 8),
    (0x6020, 16),
    (0x6040, 16),
    (0x6400, 64),
];

/// The bench image under some registers, without requests.
pub fn image(world: &mut World, registers: Registers) {
    world.start(registers, LENGTH);
    for (address, word) in WORDS {
        world.set(address, word);
    }
}

/// Adds the requests of the twelve cases, the memory requests both as reads and as writes.
pub fn requests(world: &mut World) {
    let addresses = [
        0x4020_1ABC,
        0x4020_2000,
        0x4041_2345,
        0x4060_0000,
        0x4080_0000,
        0x40BF_F000,
        0x7F_FFFF_FFFF,
        0x80_0000_0000,
    ];
    for address in addresses {
        world.memory(SOURCE, address, false);
        world.memory(SOURCE, address, true);
    }
    world.memory(0x0410, 0x4020_1ABC, false);
    world.memory(0x0311, 0x4020_1ABC, false);
    world.interrupt(SOURCE, 0xFEE0_0050, 0);
    world.interrupt(0x0311, 0xFEE0_0050, 0);
    world.interrupt(SOURCE, 0xFEEF_FFFC, 3);
    world.interrupt(SOURCE, 0xFEE0_0090, 0);
    world.interrupt(SOURCE, 0xFEE0_0090, 0);
}
