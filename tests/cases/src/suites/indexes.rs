//! Handles and subhandles whose sum is at an edge of 16 bits, over a table of every size up to
//! 65,536 entries, held whole in the image.

use super::{Digits, Suite};
use crate::message;
use crate::random::Random;
use crate::registers;
use crate::world::World;

const NAME: &str = "indexes";

/// One world for each S and choice of sources, messages and EIME.
pub const SUITE: Suite = Suite {
    name: NAME,
    worlds: 16 * 24,
    build,
};

fn build(number: u64, world: &mut World) {
    let mut digits = Digits(number);
    let mut random = Random::of(NAME, number);
    let mut registers = registers::good(&mut random, 2);
    registers.s = digits.below(16) as u8;
    registers.ire = true;
    let size = 1u64 << (registers.s + 1);
    world.start(registers, registers.interrupt_table + 16 * size);
    let edges = [
        0,
        1,
        2,
        size / 2,
        size - 2,
        size - 1,
        size,
        size + 1,
        32_767,
        32_768,
        65_534,
        65_535,
        65_536,
        65_537,
        65_536 + size / 2,
        65_536 + size - 1,
        131_069,
        message::LAST_INDEX,
    ];
    let indexes = edges.map(|index| index.min(message::LAST_INDEX));
    for index in indexes {
        // A present entry that anybody may use, at the index itself and where its low 16 bits lead.
        for index in [index, index % 65_536] {
            let vector = random.below(256) << 16;
            let at = registers.interrupt_table + 16 * index;
            world.lay(at, &[random.below(256) << 40 | vector | 1, 0]);
        }
    }
    for index in indexes {
        let (address, data) = message::plain(&mut random, index);
        world.interrupt(random.word() as u16, address, data);
    }
    // One byte short, the last entry can't be fetched.
    if digits.flag() {
        world.truncate(world.length() - 1);
    }
}
