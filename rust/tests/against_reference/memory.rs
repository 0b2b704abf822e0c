//! Memory requests.

use crate::common::Random;
use crate::image::{self, cut, length, page, put, PAGES};
use crate::met::{expect_met, meet, Met};
use crate::{outcome, registers, CASES};
use galitzaf::{Memory, MemoryRequest, Registers, SourceId, Unit};
use reference::{memory_request_in, Slip};

/// Lays the page entries of an address, and answers the top table.
fn pages(
    random: &mut Random,
    image: &mut [u8],
    registers: &Registers,
    address: u64,
    levels: u64,
) -> u64 {
    let top = page(random);
    let mut table = top;
    for level in (1..=levels).rev() {
        let shift = 12 + 9 * (level - 1);
        let large = (level == 2 || level == 3) && random.below(4) == 0;
        let leaf = large || level == 1;
        let host = match random.below(8) {
            0 => 0xFEE0_0000 + random.below(1 << 20),
            _ => random.word() & ((1 << registers.haw.clamp(36, 52)) - 1),
        };
        let next = page(random);
        let frame = if leaf { host >> shift << shift } else { next };
        let rights = random.pick(&[3, 3, 3, 3, 3, 3, 3, 1, 2, 0]);
        let ignored = random.word() & 0xFFF0_0000_0000_0F7C;
        let entry = frame | rights | ignored | u64::from(large) << 7;
        let at = table + 8 * (address >> shift & 511);
        put(random, image, at, &[entry]);
        if leaf {
            break;
        }
        table = frame;
    }
    top
}

/// An image with tables for this address, in a context of one of these types.
pub fn tables(
    random: &mut Random,
    registers: &Registers,
    source: SourceId,
    address: u64,
    types: &[u64],
) -> Vec<u8> {
    let mut image = vec![0; (PAGES << 12) as usize];
    let levels = 3 + random.below(3);
    let top = pages(random, &mut image, registers, address, levels);
    let contexts = page(random);
    let kind = random.pick(types) << 2;
    let fpd = u64::from(random.below(4) == 0) << 1;
    let present = u64::from(random.below(16) != 0);
    let domain = random.below(1 << 16) << 8;
    let context = [top | kind | fpd | present, domain | (levels - 2)];
    let at = contexts + 16 * u64::from(source.devfn());
    put(random, &mut image, at, &context);
    let row = 16 * u64::from(source.bus());
    let at = registers.root_table.saturating_add(row);
    put(random, &mut image, at, &[contexts | 1, 0]);
    image
}

/// Mostly one that fits some number of levels.
pub fn address(random: &mut Random) -> u64 {
    match random.below(20) {
        0 => 0xFEE0_0000 + random.below(1 << 20),
        1 => random.pick(&[0xFEDF_FFFF, 0xFEF0_0000, 0x1_FEE0_0000, u64::MAX]),
        2 => random.word(),
        _ => random.word() >> (64 - random.pick(&[39, 48, 57])),
    }
}

#[test]
fn memory_requests() {
    let mut random = Random(0x5EED);
    let mut met = Met::new();
    for _ in 0..CASES {
        let registers = registers::any(&mut random);
        let source = SourceId::from(random.word() as u16);
        let address = address(&mut random);
        let types = [0, 0, 0, 0, 1, 1, 2, 3];
        let mut image = tables(&mut random, &registers, source, address, &types);
        image.truncate(length(&mut random));
        let write = random.coin();
        let request = if write {
            MemoryRequest::write(source, address)
        } else {
            MemoryRequest::read(source, address)
        };
        let unit = Unit::new(&registers);
        let ours = outcome::of_memory(unit.memory(&Memory::flat(&image), request));
        let (theirs, id) = (registers::theirs(&registers), source.into());
        let expected = reference::memory_request(&theirs, &image, id, address, write);
        assert_eq!(ours, expected, "{registers:?} {request:?}");
        meet(&mut met, &ours);

        let (windows, run) = cut(&mut random, &image);
        let ours = outcome::of_memory(unit.memory(&Memory::new(&run, &windows), request));
        let (none, shown) = (Slip::None, image::theirs(&windows));
        let expected = memory_request_in(none, &theirs, &shown, &run, id, address, write);
        assert_eq!(ours, expected, "{registers:?} {windows:?} {request:?}");
    }
    expect_met(
        &met,
        &["granted", "silent", "refused 1", "refused 2", "refused 4"],
    );
    let reasons = [
        "01", "02", "03", "04", "05", "06", "07", "08", "09", "0A", "0B", "0C",
    ];
    expect_met(&met, &reasons);
}
