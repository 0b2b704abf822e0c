//! Damage to what was laid: a few bits turned over, and the image cut.

use crate::random::Random;
use crate::world::World;

/// Both sides of every field that document 01 names, in entries and in descriptors.
const FIELDS: [u64; 71] = [
    0, 1, 2, 3, 4, 5, 6, 7, 8, 11, 12, 13, 14, 15, 16, 20, 21, 23, 24, 29, 30, 31, 32, 37, 38, 39,
    40, 47, 48, 51, 52, 63, 64, 66, 67, 70, 71, 72, 79, 80, 81, 82, 83, 84, 87, 88, 95, 96, 127,
    128, 191, 192, 255, 256, 257, 258, 271, 272, 279, 280, 287, 288, 295, 296, 303, 304, 319, 320,
    383, 384, 511,
];

/// Turns over a bit of an entry that was laid: any of them, or one at the edge of a field.
pub fn scratch(random: &mut Random, world: &mut World) {
    if world.entries.is_empty() {
        return;
    }
    let entry = random.pick(&world.entries);
    let haw = u64::from(world.registers.haw);
    let bit = match random.below(4) {
        0 => random.pick(&[haw - 1, haw, haw + 1, 51, 63]),
        1 => random.pick(&FIELDS),
        _ => random.word(),
    };
    world.flip(entry.address, bit % (8 * entry.bytes));
}

/// Turns over none to three bits.
pub fn scratches(random: &mut Random, world: &mut World) {
    for _ in 0..random.pick(&[0, 0, 0, 0, 1, 1, 1, 2, 3]) {
        scratch(random, world);
    }
}

/// Cuts the image, now and then: right after an entry, within one, anywhere, to nothing.
pub fn cut(random: &mut Random, world: &mut World) {
    let whole = world.length();
    if world.entries.is_empty() {
        return;
    }
    let any = random.pick(&world.entries);
    // The last entry that lies whole in the image: a cut there leaves the others.
    let ends = world.entries.iter().map(|entry| entry.end());
    let last = ends.filter(|&end| end <= whole).max().unwrap_or(whole);
    let length = match random.below(28) {
        0 | 1 => last,
        2 | 3 => last - 1,
        4 => any.end(),
        5 => any.end() - 1,
        6 => any.address.saturating_add(random.below(any.bytes)),
        7 => random.below(whole + 1),
        8 => whole - random.below(64),
        9 if random.coin() => random.below(2),
        _ => whole,
    };
    world.truncate(length.min(whole));
}
