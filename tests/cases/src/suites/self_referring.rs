//! Page tables that lead to each other, to themselves, and over the root and the context entry.
//!
//! One to four pages hold all the tables, full of entries that lead back to them. The requests are
//! steered so that a walk also comes upon the root and the context entry as page entries.

use super::Suite;
use crate::random::Random;
use crate::world::{World, PAGE};
use crate::{damage, memory, registers};

const NAME: &str = "self-referring";

/// As many as there is time for.
pub const SUITE: Suite = Suite {
    name: NAME,
    worlds: 110_000,
    build,
};

/// Requests of a world.
const REQUESTS: usize = 12;

/// The entry of a table that a walk of this world could take.
struct Places {
    contexts: u64,
    source: u16,
    levels: u32,
    top: u64,
}

/// An index into a table: any, or one that hits the root or the context entry.
fn index(random: &mut Random, world: &World, places: &Places, table: u64) -> u64 {
    let [bus, devfn] = places.source.to_be_bytes().map(u64::from);
    if table == world.registers.root && random.one_in(3) {
        return 2 * bus;
    }
    if table == places.contexts && random.one_in(3) {
        return 2 * devfn + random.below(2);
    }
    random.below(512)
}

/// An address by the way a walk takes through the tables.
fn steered(random: &mut Random, world: &World, places: &Places) -> u64 {
    let mut address = random.below(PAGE);
    let mut table = places.top;
    for level in (1..=places.levels).rev() {
        let index = index(random, world, places, table);
        address |= index << (12 + 9 * (level - 1));
        table = world.word(table + 8 * index) & 0x000F_FFFF_FFFF_F000;
    }
    address
}

fn build(number: u64, world: &mut World) {
    let mut random = Random::of(NAME, number);
    let pages = 1 + random.below(4);
    let mut registers = registers::good(&mut random, pages);
    registers.mgaw = random.pick(&[39, 48, 57, 57, 57, registers.mgaw]);
    world.start(registers, PAGE * pages);
    let all_rights = random.coin();
    for at in (0..PAGE * pages).step_by(8) {
        let large = u64::from(random.one_in(24)) << 7;
        let next = PAGE * random.below(pages);
        // A large page of frame 0 is the only one with a frame in these pages that isn't reserved.
        let next = if large != 0 && !random.one_in(3) {
            0
        } else {
            next
        };
        world.set(at, next | large | memory::flags(&mut random, all_rights));
    }
    let places = Places {
        contexts: PAGE * random.below(pages),
        source: random.word() as u16,
        levels: memory::levels(&mut random, &registers),
        top: PAGE * random.below(pages),
    };
    let [bus, devfn] = places.source.to_be_bytes().map(u64::from);
    let context = memory::context(&mut random, places.top, places.levels);
    world.lay(places.contexts + 16 * devfn, &context);
    world.lay(registers.root + 16 * bus, &[places.contexts | 1, 0]);
    if random.one_in(8) {
        damage::scratch(&mut random, world);
    }
    for _ in 0..REQUESTS {
        let address = steered(&mut random, world, &places);
        world.memory(places.source, address, random.coin());
    }
    if random.one_in(8) {
        damage::cut(&mut random, world);
    }
}
