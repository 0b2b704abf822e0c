//! Every two bits of one entry of the bench image turned over together, for the bench requests that
//! read it: which of two faults comes first.

use super::Suite;
use crate::bench::{self, SOURCE};
use crate::world::World;

/// Adds requests.
type Requests = fn(&mut World);

/// Entries with their bits, and two requests that read them.
const ENTRIES: [(u64, u64, Requests); 9] = [
    (0x1030, 128, reads),
    (0x2100, 128, reads),
    (0x3008, 64, reads),
    (0x4008, 64, reads),
    (0x4010, 64, large_page),
    (0x5008, 64, reads),
    (0x6020, 128, remapped),
    (0x6040, 128, posted),
    (0x6400, 512, posted),
];

const fn pairs(bits: u64) -> u64 {
    bits * (bits - 1) / 2
}

const fn all_pairs() -> u64 {
    let mut sum = 0;
    let mut n = 0;
    while n < ENTRIES.len() {
        sum += pairs(ENTRIES[n].1);
        n += 1;
    }
    sum
}

/// One world for each pair.
pub const SUITE: Suite = Suite {
    name: "bench-pairs",
    worlds: all_pairs(),
    build,
};

fn reads(world: &mut World) {
    world.memory(SOURCE, 0x4020_1ABC, false);
    world.memory(SOURCE, 0x4020_1ABC, true);
}

fn large_page(world: &mut World) {
    world.memory(SOURCE, 0x4041_2345, false);
    world.memory(SOURCE, 0x4041_2345, true);
}

fn remapped(world: &mut World) {
    world.interrupt(SOURCE, 0xFEE0_0050, 0);
    world.interrupt(0x0311, 0xFEE0_0050, 0);
}

fn posted(world: &mut World) {
    world.interrupt(SOURCE, 0xFEE0_0090, 0);
    world.interrupt(SOURCE, 0xFEE0_0090, 0);
}

/// The two bits of a number below `pairs(bits)`.
fn pair(mut number: u64, bits: u64) -> (u64, u64) {
    let mut low = 0;
    while number >= bits - 1 - low {
        number -= bits - 1 - low;
        low += 1;
    }
    (low, low + 1 + number)
}

fn build(mut number: u64, world: &mut World) {
    bench::image(world, bench::REGISTERS);
    for (address, bits, requests) in ENTRIES {
        if number < pairs(bits) {
            let (one, other) = pair(number, bits);
            world.flip(address, one);
            world.flip(address, other);
            return requests(world);
        }
        number -= pairs(bits);
    }
}
