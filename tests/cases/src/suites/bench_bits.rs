//! Every bit of every entry of the bench image turned over by itself, for the bench requests, under
//! the bench registers and others near them, with FPD off and on.

use super::{Digits, Suite};
use crate::bench;
use crate::world::World;
use reference::Registers;

/// The bits of all the entries, and one world without damage.
const BITS: u64 = bits() + 1;

const REGISTERS: [Registers; 9] = {
    let plain = bench::REGISTERS;
    [
        plain,
        Registers {
            eime: true,
            ..plain
        },
        Registers {
            eime: true,
            haw: 52,
            cfis: true,
            ..plain
        },
        Registers { haw: 36, ..plain },
        Registers { haw: 52, ..plain },
        Registers {
            posting: false,
            cfis: true,
            ..plain
        },
        Registers {
            pages_2m: false,
            pages_1g: false,
            ..plain
        },
        Registers {
            levels5: true,
            mgaw: 57,
            s: 0,
            ..plain
        },
        Registers {
            levels3: false,
            s: 15,
            ..plain
        },
    ]
};

/// One world for each bit, choice of registers and FPD.
pub const SUITE: Suite = Suite {
    name: "bench-bits",
    worlds: BITS * REGISTERS.len() as u64 * 2,
    build,
};

const fn bits() -> u64 {
    let mut sum = 0;
    let mut n = 0;
    while n < bench::ENTRIES.len() {
        sum += 8 * bench::ENTRIES[n].1;
        n += 1;
    }
    sum
}

/// The entries' bits by number, each as an address and a bit from there.
fn place(mut number: u64) -> Option<(u64, u64)> {
    for (address, bytes) in bench::ENTRIES {
        if number < 8 * bytes {
            return Some((address, number));
        }
        number -= 8 * bytes;
    }
    None
}

fn build(number: u64, world: &mut World) {
    let mut digits = Digits(number);
    let bit = digits.below(BITS);
    bench::image(world, digits.pick(&REGISTERS));
    if digits.flag() {
        // FPD in each context and interrupt entry, present or not.
        for address in [0x2100, 0x2110, 0x6020, 0x6040] {
            world.flip(address, 1);
        }
    }
    if let Some((address, bit)) = place(bit) {
        world.flip(address, bit);
    }
    bench::requests(world);
}
