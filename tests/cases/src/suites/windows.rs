//! Guest memory in windows: tables for a memory request and for interrupts in the pages of one to four
//! windows, which then are cut short, taken away, moved about in the run, and now and then made bad.

use super::Suite;
use crate::random::Random;
use crate::world::World;
use crate::{damage, interrupts, memory, registers, windows};

const NAME: &str = "windows";

/// As many as there is time for.
pub const SUITE: Suite = Suite {
    name: NAME,
    worlds: 120_000,
    build,
};

fn build(number: u64, world: &mut World) {
    let mut random = Random::of(NAME, number);
    let pages = 6 + random.below(4);
    let registers = registers::good(&mut random, pages);
    let shown = windows::layout(&mut random, &registers, pages);
    world.start_over(registers, &shown);
    let target = memory::lay(&mut random, world);
    world.registers.interrupt_table = windows::table(&mut random, world);
    let targets = interrupts::lay(&mut random, world);
    damage::scratches(&mut random, world);
    memory::requests(&mut random, world, target);
    interrupts::requests(&mut random, world, &targets);
    windows::takes(&mut random, world);
    windows::cut(&mut random, world);
    windows::scatter(&mut random, world);
    if random.one_in(3) {
        windows::spoil(&mut random, world);
    }
    registers::spoil(&mut random, &mut world.registers);
}
