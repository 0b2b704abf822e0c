//! Tables for one request, from the root entry to a page of each size, at each number of levels;
//! then a few bits turned over, and the image cut.

use super::Suite;
use crate::random::Random;
use crate::world::{World, PAGE};
use crate::{damage, memory, registers};

const NAME: &str = "walks";

/// As many as there is time for.
pub const SUITE: Suite = Suite {
    name: NAME,
    worlds: 550_000,
    build,
};

fn build(number: u64, world: &mut World) {
    let mut random = Random::of(NAME, number);
    let pages = 8 + random.below(3);
    let registers = registers::good(&mut random, pages);
    world.start(registers, PAGE * pages);
    let target = memory::lay(&mut random, world);
    damage::scratches(&mut random, world);
    damage::cut(&mut random, world);
    memory::requests(&mut random, world, target);
    registers::spoil(&mut random, &mut world.registers);
}
