//! Tables for a memory request and for interrupts in the same pages, with descriptors over page
//! entries: what a post writes, the next walk reads.

use super::Suite;
use crate::random::Random;
use crate::world::{World, PAGE};
use crate::{damage, interrupts, memory, registers};

const NAME: &str = "both";

/// As many as there is time for.
pub const SUITE: Suite = Suite {
    name: NAME,
    worlds: 200_000,
    build,
};

fn build(number: u64, world: &mut World) {
    let mut random = Random::of(NAME, number);
    let pages = 6 + random.below(4);
    let registers = registers::good(&mut random, pages);
    world.start(registers, PAGE * pages);
    let target = memory::lay(&mut random, world);
    let targets = interrupts::lay(&mut random, world);
    damage::scratches(&mut random, world);
    damage::cut(&mut random, world);
    for _ in 0..2 {
        world.memory(target.source, target.address, random.coin());
        interrupts::requests(&mut random, world, &targets);
    }
    memory::requests(&mut random, world, target);
}
