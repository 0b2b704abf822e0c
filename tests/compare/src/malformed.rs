//! Malformed calls: one argument that the header calls malformed, everything else good; and calls
//! that number 3 refuses, whatever else is wrong with them. The call says which, and nothing changes.

use crate::bytes;
use crate::met::{Call, Met};
use crate::recorder::wrong_length;
use crate::tally::Tally;
use cases::{bench, Random, World};
use interface::{Building, ANSWER_SIZE, CACHE_WORDS, RECORDER_SIZE, RECORDS_SIZE, REGISTERS_SIZE};

/// The suite's name.
pub const NAME: &str = "malformed";

/// Calls.
pub const CALLS: u64 = KINDS * 500;

/// Calls with what is wrong with them.
const KINDS: u64 = 34;

/// The arguments of any call.
#[derive(Clone, PartialEq, Eq)]
struct Arguments {
    registers: Vec<u8>,
    windows: Vec<u64>,
    image: Vec<u8>,
    cache: Vec<u64>,
    items: Vec<u64>,
    item: Vec<u64>,
    region: [Vec<u8>; 2],
    write: u8,
    capabilities: u32,
    answer: Vec<u8>,
    records: Vec<u8>,
    recorder: Vec<u8>,
}

/// A length other than the right one.
fn resized(random: &mut Random, bytes: &mut Vec<u8>) {
    let right = bytes.len();
    let wrong = [0, 1, right - 1, right + 1, 2 * right, 4096];
    let length = random.pick(&wrong);
    bytes.resize(if length == right { right + 2 } else { length }, 0);
}

/// Sets a bit that has to be zero, or changes the length.
fn spoil_registers(random: &mut Random, registers: &mut Vec<u8>) {
    let (byte, bit) = match random.below(6) {
        0 => return resized(random, registers),
        1 => (2, 6 + random.below(2)),
        2 => (3, 4 + random.below(4)),
        _ => (5 + random.below(3), random.below(8)),
    };
    registers[byte as usize] |= 1 << bit;
}

/// Sets overflow to something other than 0 or 1.
fn spoil_overflow(random: &mut Random, recorder: &mut [u8]) {
    recorder[1] = 2 + random.below(254) as u8;
}

/// A kind that no answer has, or another length.
fn spoil_recorded(random: &mut Random, answer: &mut Vec<u8>) {
    if random.coin() {
        return resized(random, answer);
    }
    // 0, or a number above 8.
    answer[0] = 9u8.wrapping_add(random.below(248) as u8);
}

/// Records or a state of another length, or a next slot above the last; the rest may be malformed
/// too, which number 3 comes before.
fn spoil_place(random: &mut Random, arguments: &mut Arguments) {
    if random.coin() {
        spoil_overflow(random, &mut arguments.recorder);
    }
    if random.coin() {
        spoil_recorded(random, &mut arguments.answer);
    }
    match random.below(3) {
        0 => arguments.records.resize(wrong_length(random), 0),
        1 => resized(random, &mut arguments.recorder),
        _ => arguments.recorder[0] = 8 + random.below(248) as u8,
    }
}

/// A count of numbers that is no multiple of three. The answer may be malformed too, and the write, which
/// windows come before.
fn spoil_windows(random: &mut Random, arguments: &mut Arguments) {
    let count = 3 * random.below(7) + 1 + random.below(2);
    arguments
        .windows
        .resize(count as usize, random.pick(&[0, 1, 4096, u64::MAX]));
    if random.coin() {
        resized(random, &mut arguments.answer);
    }
    if random.coin() {
        arguments.write = 2;
    }
}

/// Another length of the cache. The answer may be malformed too, which the cache comes before.
fn spoil_cache(random: &mut Random, arguments: &mut Arguments) {
    let lengths = [0, 1, CACHE_WORDS - 1, CACHE_WORDS + 1, 2 * CACHE_WORDS];
    arguments
        .cache
        .resize(random.pick(&lengths), random.pick(&[0, 1, u64::MAX]));
    if random.coin() {
        resized(random, &mut arguments.answer);
    }
}

/// A count of numbers that is no multiple of four, or another count than one for the index.
fn spoil_items(random: &mut Random, arguments: &mut Arguments) {
    if random.coin() {
        arguments.item.resize(random.pick(&[0, 2, 3]), 7);
        return;
    }
    let count = 4 * random.below(7) + 1 + random.below(3);
    arguments.items.resize(count as usize, 0);
}

/// What is called, and what is wrong with it.
fn spoil(random: &mut Random, which: u64, arguments: &mut Arguments) -> (Call, u32) {
    match which {
        0 | 1 | 12 | 16 | 19 | 26 | 29 => spoil_registers(random, &mut arguments.registers),
        2 | 3 | 17 | 22 | 30 => resized(random, &mut arguments.answer),
        4 | 23 => arguments.write = 2 + random.below(254) as u8,
        31 => arguments.write = 4 + random.below(252) as u8,
        32 => arguments.capabilities |= 1 << (10 + random.below(22)),
        5 => spoil_recorded(random, &mut arguments.answer),
        6..=8 => spoil_overflow(random, &mut arguments.recorder),
        13..=15 | 18 | 20 | 27 | 33 => spoil_windows(random, arguments),
        21 | 24 | 25 => spoil_cache(random, arguments),
        28 => spoil_items(random, arguments),
        _ => spoil_place(random, arguments),
    }
    match which {
        0 => (Call::Memory, 0x101),
        1 => (Call::Interrupt, 0x101),
        2 => (Call::Memory, 0x102),
        3 => (Call::Interrupt, 0x102),
        4 => (Call::Memory, 0x103),
        5 => (Call::Record, 0x102),
        6 => (Call::Record, 0x104),
        7 => (Call::ClearSlot, 0x104),
        8 => (Call::ClearOverflow, 0x104),
        9 => (Call::Record, 0x03),
        10 => (Call::ClearSlot, 0x03),
        11 => (Call::ClearOverflow, 0x03),
        12 => (Call::Take, 0x101),
        13 => (Call::Memory, 0x105),
        14 => (Call::Interrupt, 0x105),
        15 => (Call::Take, 0x105),
        16 => (Call::Translation, 0x101),
        17 => (Call::Translation, 0x102),
        18 => (Call::Translation, 0x105),
        19 => (Call::Cached, 0x101),
        20 => (Call::Cached, 0x105),
        21 => (Call::Cached, 0x108),
        22 => (Call::Cached, 0x102),
        23 => (Call::Cached, 0x103),
        24 => (Call::InvalidateAll, 0x108),
        25 => (Call::InvalidateDomain, 0x108),
        26 => (Call::Build, 0x101),
        27 => (Call::Build, 0x105),
        28 => (Call::Build, 0x109),
        29 | 32 => (Call::Scalable, 0x101),
        30 => (Call::Scalable, 0x102),
        31 => (Call::Scalable, 0x103),
        _ => (Call::Scalable, 0x105),
    }
}

fn call(which: Call, arguments: &mut Arguments) -> u32 {
    let Arguments {
        registers,
        windows,
        image,
        cache,
        items,
        item,
        region,
        write,
        capabilities,
        answer,
        records,
        recorder,
    } = arguments;
    let (source, to) = (bench::SOURCE, 0xFEE0_0090);
    match which {
        Call::Memory => {
            let address = 0x4020_1ABC;
            interface::memory_request(registers, windows, image, source, address, *write, answer)
        }
        Call::Cached => {
            let address = 0x4020_1ABC;
            interface::cached_request(
                registers, windows, image, cache, source, address, *write, answer,
            )
        }
        Call::InvalidateAll => interface::invalidate_all(cache),
        Call::InvalidateDomain => interface::invalidate_domain(cache, 5),
        Call::Translation => {
            let address = 0x4020_1ABC;
            interface::translation_request(registers, windows, image, source, address, answer)
        }
        Call::Interrupt => {
            interface::interrupt_request(registers, windows, image, source, to, 0, answer)
        }
        Call::Scalable => interface::scalable_request(
            registers,
            *capabilities,
            windows,
            image,
            source,
            0x4020_1ABC,
            *write,
            7,
            answer,
        ),
        Call::Take => interface::take(registers, windows, image, 0x6400),
        Call::Build => {
            let [copy, marks] = region;
            let lent = Building {
                image,
                copy,
                marks,
                item,
            };
            interface::build(registers, windows, source, [0x3000, 0x3000], items, lent)
        }
        Call::Record => interface::record(answer, records, recorder),
        Call::ClearSlot => interface::clear_slot(records, recorder, 0),
        Call::ClearOverflow => interface::clear_overflow(records, recorder),
    }
}

/// Makes the call of a number.
pub fn run(number: u64, tally: Option<&mut Tally>) -> Result<(), String> {
    let mut random = Random::of(NAME, number);
    let mut world = World::new();
    bench::image(&mut world, bench::REGISTERS);
    let mut before = Arguments {
        registers: bytes::registers(&bench::REGISTERS).to_vec(),
        windows: interface::flat(world.image.len()).to_vec(),
        image: world.image,
        cache: [0; CACHE_WORDS].to_vec(),
        items: vec![3, 0x4000_0000, 0x1000, 0x1000],
        item: vec![7],
        region: [vec![1; 0x3000], vec![1; 3]],
        write: 0,
        capabilities: 0x3FF,
        answer: [3; ANSWER_SIZE].to_vec(),
        records: [0xFF; RECORDS_SIZE].to_vec(),
        recorder: [0; RECORDER_SIZE].to_vec(),
    };
    debug_assert_eq!(before.registers.len(), REGISTERS_SIZE);
    let (which, expected) = spoil(&mut random, number % KINDS, &mut before);
    let mut after = before.clone();
    let status = call(which, &mut after);
    if status != expected || after != before {
        return Err(format!(
            "{which}: expected {expected:X}, Galitzaf {status:X}; arguments unchanged: {}",
            after == before
        ));
    }
    if let Some(tally) = tally {
        tally.cases += 1;
        tally.meet(Met::Malformed {
            call: which,
            status,
        });
    }
    Ok(())
}
