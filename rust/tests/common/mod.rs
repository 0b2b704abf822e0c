//! The bench image of document 01, and pseudo-random numbers.

#![allow(dead_code)]

use galitzaf::{Levels, Registers, SourceId};

pub const SOURCE: SourceId = SourceId::new(0x03, 0x10);

pub const BENCH: Registers = Registers {
    haw: 39,
    mgaw: 48,
    levels: Levels {
        three: true,
        four: true,
        five: false,
    },
    pages_2m: true,
    pages_1g: true,
    posting: true,
    root_table: 0x1000,
    interrupt_table: 0x6000,
    s: 3,
    te: true,
    ire: true,
    eime: false,
    cfis: false,
};

pub fn bench_image() -> Vec<u8> {
    let mut image = vec![0; 32_768];
    for (address, value) in [
        (0x1030, 0x2001),
        (0x2100, 0x3001),
        (0x2108, 0x501),
        (0x3008, 0x4003),
        (0x4008, 0x5003),
        (0x4010, 0x4060_0083),
        (0x4018, 0x9003),
        (0x4020, 0x80_0000_0003),
        (0x4028, 0x7003),
        (0x5008, 0x1234_5001),
        (0x7FF8, 0x2345_6003),
        (0x6020, 0x0000_0700_0041_0001),
        (0x6028, 0x40310),
        (0x6040, 0x0000_6400_0031_8001),
        (0x6420, 0x0000_0700_00F2_0000),
    ] {
        set(&mut image, address, value);
    }
    image
}

/// Writes a word.
pub fn set(image: &mut [u8], address: usize, value: u64) {
    image[address..address + 8].copy_from_slice(&value.to_le_bytes());
}

/// SplitMix64: the same numbers on every run.
pub struct Random(pub u64);

impl Random {
    pub fn word(&mut self) -> u64 {
        self.0 = self.0.wrapping_add(0x9E37_79B9_7F4A_7C15);
        let mut z = self.0;
        z = (z ^ (z >> 30)).wrapping_mul(0xBF58_476D_1CE4_E5B9);
        z = (z ^ (z >> 27)).wrapping_mul(0x94D0_49BB_1331_11EB);
        z ^ (z >> 31)
    }

    pub fn below(&mut self, bound: u64) -> u64 {
        self.word() % bound
    }

    pub fn coin(&mut self) -> bool {
        self.below(2) == 1
    }

    pub fn pick<T: Copy>(&mut self, from: &[T]) -> T {
        from[self.below(from.len() as u64) as usize]
    }
}
