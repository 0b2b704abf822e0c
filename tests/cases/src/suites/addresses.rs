//! Addresses at every power of two and around the interrupt range, under every MGAW, AW and TT.
//!
//! Two page tables whose 512 entries lead to one or the other answer every address, with a frame
//! that depends on each of its indexes.

use super::{Digits, Suite};
use crate::bench::SOURCE;
use crate::edges;
use crate::random::Random;
use crate::registers;
use crate::world::{World, PAGE};

const NAME: &str = "addresses";

/// One world for each MGAW, AW from 0 to 7 and TT, twice over with other tables.
pub const SUITE: Suite = Suite {
    name: NAME,
    worlds: 19 * 8 * 4 * 2,
    build,
};

const TABLES: [u64; 2] = [2 * PAGE, 3 * PAGE];

fn build(number: u64, world: &mut World) {
    let mut digits = Digits(number);
    let mut random = Random::of(NAME, number);
    let mut registers = registers::good(&mut random, 1);
    registers.mgaw = 39 + digits.below(19) as u8;
    registers.levels3 = true;
    registers.levels4 = true;
    registers.levels5 = true;
    registers.te = true;
    world.start(registers, 4 * PAGE);
    for table in TABLES {
        for n in 0..PAGE / 8 {
            let next = random.pick(&TABLES);
            world.set(table + 8 * n, next | 3);
        }
    }
    let width = digits.below(8);
    let translation_type = digits.below(4) << 2;
    let fpd = random.below(2) << 1;
    let [bus, devfn] = SOURCE.to_be_bytes().map(u64::from);
    let context = [TABLES[0] | translation_type | fpd | 1, width];
    world.lay(PAGE + 16 * devfn, &context);
    world.lay(16 * bus, &[PAGE | 1, 0]);
    for address in edges::addresses() {
        world.memory(SOURCE, address, random.coin());
    }
}
