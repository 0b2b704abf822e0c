//! The bench image cut: before, within and after each entry, and at other lengths, none of it among
//! them.

use super::Suite;
use crate::bench;
use crate::world::World;

/// Lengths within an entry, and two before and after it.
const NEAR: u64 = 70;

/// Lengths all over the image, with an odd step.
const STEP: u64 = 61;

/// From none to the whole.
const ALL_OVER: u64 = bench::LENGTH / STEP + 2;

/// One world for each length.
pub const SUITE: Suite = Suite {
    name: "bench-lengths",
    worlds: bench::ENTRIES.len() as u64 * NEAR + ALL_OVER,
    build,
};

fn length(number: u64) -> u64 {
    if number < ALL_OVER {
        return (STEP * number).min(bench::LENGTH);
    }
    let near = number - ALL_OVER;
    let (address, bytes) = bench::ENTRIES[(near / NEAR) as usize];
    (address + bytes + 2).saturating_sub(near % NEAR)
}

fn build(number: u64, world: &mut World) {
    bench::image(world, bench::REGISTERS);
    world.truncate(length(number));
    bench::requests(world);
}
