//! Entries and descriptors for one to three interrupts, some over each other or at the image's end;
//! then a few bits turned over, and the image cut.

use super::Suite;
use crate::random::Random;
use crate::world::{World, PAGE};
use crate::{damage, interrupts, registers};

const NAME: &str = "interrupts";

/// As many as there is time for.
pub const SUITE: Suite = Suite {
    name: NAME,
    worlds: 550_000,
    build,
};

fn build(number: u64, world: &mut World) {
    let mut random = Random::of(NAME, number);
    let pages = 1 + random.below(4);
    let registers = registers::good(&mut random, pages);
    world.start(registers, PAGE * pages);
    let targets = interrupts::lay(&mut random, world);
    damage::scratches(&mut random, world);
    damage::cut(&mut random, world);
    interrupts::requests(&mut random, world, &targets);
    registers::spoil(&mut random, &mut world.registers);
}
