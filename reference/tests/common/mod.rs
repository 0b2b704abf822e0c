//! The bench image, and small hands for building others from it.

#![allow(dead_code)]

use reference::{Fault, Notice, Outcome, Registers};

/// "HAW 39, MGAW 48, levels 3 and 4, both large pages, posting, root 1000h,
/// interrupt table 6000h, S 3, EIME 0, CFIS 0, TE and IRE on."
pub const BENCH: Registers = Registers {
    haw: 39,
    mgaw: 48,
    levels3: true,
    levels4: true,
    levels5: false,
    pages_2m: true,
    pages_1g: true,
    posting: true,
    root: 0x1000,
    interrupt_table: 0x6000,
    s: 3,
    te: true,
    ire: true,
    eime: false,
    cfis: false,
};

/// "Source 0310h unless said."
pub const SOURCE: u16 = 0x0310;

/// "32,768 bytes, zero but for words given as address=value in hexadecimal".
pub fn bench_image() -> Vec<u8> {
    let mut image = vec![0; 32_768];
    for (address, value) in [
        (0x1030, 0x2001),
        (0x2100, 0x3001),
        (0x2108, 0x501),
        (0x3008, 0x4003),
        (0x4008, 0x5003),
        (0x4010, 0x4060_0083),
        (0x4018, 0x9003),
        (0x4020, 0x80_0000_0003),
        (0x4028, 0x7003),
        (0x5008, 0x1234_5001),
        (0x7FF8, 0x2345_6003),
        (0x6020, 0x0000_0700_0041_0001),
        (0x6028, 0x40310),
        (0x6040, 0x0000_6400_0031_8001),
        (0x6420, 0x0000_0700_00F2_0000),
    ] {
        set(&mut image, address, value);
    }
    image
}

/// Writes a word.
pub fn set(image: &mut [u8], address: usize, value: u64) {
    image[address..address + 8].copy_from_slice(&value.to_le_bytes());
}

/// Reads a word.
pub fn get(image: &[u8], address: usize) -> u64 {
    u64::from_le_bytes(image[address..address + 8].try_into().unwrap())
}

/// The bench image with some words changed.
pub fn bench_with(words: &[(usize, u64)]) -> Vec<u8> {
    let mut image = bench_image();
    for &(address, value) in words {
        set(&mut image, address, value);
    }
    image
}

/// A post's answer.
pub fn posted(vector: u8, descriptor: u64, notice: Option<Notice>) -> Outcome {
    Outcome::Posted {
        vector,
        descriptor,
        notice,
    }
}

/// The fault of a blocked request.
pub fn fault(outcome: Outcome) -> Fault {
    match outcome {
        Outcome::Blocked(fault) => fault,
        other => panic!("not blocked: {other:x?}"),
    }
}

/// The reason of a blocked request.
pub fn reason(outcome: Outcome) -> u8 {
    fault(outcome).reason
}

/// The two words of a fault's record.
pub fn record_words(fault: &Fault) -> [u64; 2] {
    [get(&fault.record, 0), get(&fault.record, 8)]
}

/// A plain pseudo-random sequence (xorshift64*), the same on every run.
pub struct Random(pub u64);

impl Random {
    pub fn word(&mut self) -> u64 {
        self.0 ^= self.0 >> 12;
        self.0 ^= self.0 << 25;
        self.0 ^= self.0 >> 27;
        self.0.wrapping_mul(0x2545_F491_4F6C_DD1D)
    }

    pub fn below(&mut self, end: u64) -> u64 {
        (self.word() >> 16) % end
    }

    pub fn coin(&mut self) -> bool {
        self.below(2) == 1
    }

    pub fn pick<T: Copy>(&mut self, from: &[T]) -> T {
        from[self.below(from.len() as u64) as usize]
    }
}
