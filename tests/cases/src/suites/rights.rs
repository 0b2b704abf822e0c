//! Read and write switched on and off in every entry of a walk, in every combination: each number
//! of levels, each page size.

use super::{Digits, Suite};
use crate::bench::{self, SOURCE};
use crate::random::Random;
use crate::world::{World, PAGE};

const NAME: &str = "rights";

/// One world for each combination; where the walk has fewer than five entries, some come again with
/// other addresses and frames.
pub const SUITE: Suite = Suite {
    name: NAME,
    worlds: 3 * 3 * 4u64.pow(5) * 2,
    build,
};

fn build(number: u64, world: &mut World) {
    let mut digits = Digits(number);
    let mut random = Random::of(NAME, number);
    let levels = 3 + digits.below(3);
    let leaf = 1 + digits.below(3);
    let fpd = digits.below(2) << 1;
    let mut registers = bench::REGISTERS;
    registers.levels5 = true;
    registers.mgaw = 57;
    registers.root = 0;
    world.start(registers, 7 * PAGE);
    let [bus, devfn] = SOURCE.to_be_bytes().map(u64::from);
    world.lay(16 * bus, &[PAGE | 1, 0]);
    world.lay(PAGE + 16 * devfn, &[(2 * PAGE) | fpd | 1, levels - 2]);
    let address = random.word() >> (64 - 12 - 9 * levels);
    let mut table = 2 * PAGE;
    for level in (leaf..=levels).rev() {
        let shift = 12 + 9 * (level - 1);
        let rights = digits.below(4);
        let host = random.word() & ((1 << registers.haw) - 1);
        let frame = if level == leaf {
            host >> shift << shift | u64::from(level > 1) << 7
        } else {
            table + PAGE
        };
        world.lay(table + 8 * (address >> shift & 511), &[frame | rights]);
        table += PAGE;
    }
    world.memory(SOURCE, address, false);
    world.memory(SOURCE, address, true);
}
