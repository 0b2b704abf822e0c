//! Root and interrupt tables at and past their bounds, under every HAW and every setting of the
//! switches, over the bench image.

use super::register_bounds::requests;
use super::{Digits, Suite};
use crate::bench;
use crate::random::Random;
use crate::registers::{table_edge, HAW, TABLE_EDGES};
use crate::world::World;

const NAME: &str = "table-bounds";

/// One world for each choice.
pub const SUITE: Suite = Suite {
    name: NAME,
    worlds: HAW.len() as u64 * TABLE_EDGES * 3 * 16,
    build,
};

fn build(number: u64, world: &mut World) {
    let mut digits = Digits(number);
    let mut random = Random::of(NAME, number);
    let mut registers = bench::REGISTERS;
    registers.haw = digits.pick(&HAW);
    let table = table_edge(registers.haw, digits.below(TABLE_EDGES));
    let which = digits.below(3);
    if which != 1 {
        registers.root = table;
    }
    if which != 0 {
        registers.interrupt_table = table;
    }
    registers.te = digits.flag();
    registers.ire = digits.flag();
    registers.eime = digits.flag();
    registers.cfis = digits.flag();
    registers.s = random.pick(&[0, 3, 15]);
    bench::image(world, registers);
    requests(&mut random, world);
    // The last source and the last index reach furthest past a table's address.
    world.memory(0xFFFF, 0x4020_1ABC, false);
    world.interrupt(bench::SOURCE, 0xFEEF_FFF7, 0);
}
