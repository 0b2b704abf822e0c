//! HAW, MGAW, S and the levels at and past their bounds, all together, over the bench image.

use super::{Digits, Suite};
use crate::bench;
use crate::random::Random;
use crate::registers::{HAW, MGAW, S};
use crate::world::World;

const NAME: &str = "register-bounds";

/// One world for each choice.
pub const SUITE: Suite = Suite {
    name: NAME,
    worlds: (HAW.len() * MGAW.len() * S.len() * 8) as u64,
    build,
};

/// Addresses on both sides of refusal 2, so that 1 is seen to come before it.
pub fn requests(random: &mut Random, world: &mut World) {
    for address in [0x4020_1ABC, 0xFEE0_0050, 0xFEEF_FFFF, 0xFEF0_0000] {
        world.memory(bench::SOURCE, address, random.coin());
    }
    for address in [0xFEE0_0050, 0xFEE0_0090, 0xFEE0_0000, 0xFEDF_FFFF] {
        world.interrupt(bench::SOURCE, address, 0);
    }
}

fn build(number: u64, world: &mut World) {
    let mut digits = Digits(number);
    let mut random = Random::of(NAME, number);
    let mut registers = bench::REGISTERS;
    registers.haw = digits.pick(&HAW);
    registers.mgaw = digits.pick(&MGAW);
    registers.s = digits.pick(&S);
    registers.levels3 = digits.flag();
    registers.levels4 = digits.flag();
    registers.levels5 = digits.flag();
    registers.te = !random.one_in(4);
    registers.ire = !random.one_in(4);
    bench::image(world, registers);
    requests(&mut random, world);
}
