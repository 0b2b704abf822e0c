//! Interrupts.

use crate::common::Random;
use crate::image::{self, cut, length, put, PAGES};
use crate::met::{expect_met, meet, Met};
use crate::{outcome, registers, CASES};
use galitzaf::{InterruptRequest, Memory, Registers, SourceId, Unit};
use reference::{interrupt_request_in, Slip};

/// A destination in the place it has in entries and descriptors.
fn destination(random: &mut Random, registers: &Registers) -> u64 {
    if registers.eime {
        random.below(1 << 32) << 32
    } else {
        random.below(256) << 40
    }
}

/// An interrupt entry, posted to this descriptor or remapped.
fn entry(
    random: &mut Random,
    registers: &Registers,
    source: SourceId,
    descriptor: u64,
) -> [u64; 2] {
    let fpd = u64::from(random.below(4) == 0);
    let present = u64::from(random.below(16) != 0);
    let vector = random.below(256) << 16;
    let kind = if random.coin() {
        descriptor << 32 | random.below(2) << 14 | 1 << 15
    } else {
        let mode = random.pick(&[0, 1, 2, 4, 5, 7, 3]) << 5;
        destination(random, registers) | mode | random.below(8) << 2
    };
    let id = u64::from(u16::from(source));
    let bus = u64::from(source.bus());
    let sid = match random.below(4) {
        0 => random.below(1 << 16),
        1 => id ^ random.below(8),
        2 => bus << 8 | bus,
        _ => id,
    };
    let svt = random.pick(&[0, 1, 1, 2, 2, 3]) << 18;
    let sq = random.below(4) << 16;
    [kind | vector | fpd << 1 | present, svt | sq | sid]
}

/// A descriptor with some requests, and with ON and SN in each state.
fn descriptor(random: &mut Random, registers: &Registers) -> [u64; 8] {
    let [a, b, c, d] = [(); 4].map(|()| random.word() & random.word());
    let pending = random.pick(&[0, 0, 0, 1, 2, 3]);
    let vector = random.below(256) << 16;
    let notification = destination(random, registers) | vector | pending;
    [a, b, c, d, notification, 0, 0, 0]
}

/// An image with an entry for this index.
fn tables(random: &mut Random, registers: &Registers, source: SourceId, index: u64) -> Vec<u8> {
    let mut image = vec![0; (PAGES << 12) as usize];
    let at = random.below(PAGES << 6) << 6;
    let words = descriptor(random, registers);
    put(random, &mut image, at, &words);
    let words = entry(random, registers, source, at);
    let at = registers.interrupt_table.saturating_add(16 * index);
    put(random, &mut image, at, &words);
    image
}

/// An index from 0 to 131,070, and the address and data of a message for it.
fn message(random: &mut Random) -> (u64, u64, u32) {
    let bound = random.pick(&[16, 512, 1024, 131_071]);
    let index = random.below(bound);
    let least = index.saturating_sub(65_535);
    let subhandle = random.below(index.min(65_535) + 1).max(least);
    let handle = index - subhandle;
    let shv = subhandle != 0 || random.coin();
    let data = match random.below(20) {
        _ if !shv => random.word(),
        0 => subhandle | random.below(1 << 16) << 16,
        _ => subhandle,
    };
    let format = u64::from(random.below(16) != 0);
    let fields = (handle & 0x7FFF) << 5 | format << 4 | u64::from(shv) << 3 | handle >> 15 << 2;
    let base = match random.below(30) {
        0 => 0,
        1 => 0x1_FEE0_0000,
        _ => 0xFEE0_0000,
    };
    (index, base | fields | random.below(4), data as u32)
}

#[test]
fn interrupts() {
    let mut random = Random(0xBE11);
    let mut met = Met::new();
    for _ in 0..CASES {
        let registers = registers::any(&mut random);
        let source = SourceId::from(random.word() as u16);
        let (index, address, data) = message(&mut random);
        let mut image = tables(&mut random, &registers, source, index);
        image.truncate(length(&mut random));
        let (windows, mut run) = cut(&mut random, &image);
        let mut memory = Memory::flat(image.clone());
        let request = InterruptRequest::new(source, address, data);
        let unit = Unit::new(&registers);
        let ours = outcome::of_interrupt(unit.interrupt(&mut memory, request));
        let (theirs, id) = (registers::theirs(&registers), source.into());
        let expected = reference::interrupt_request(&theirs, &mut image, id, address, data);
        assert_eq!(ours, expected, "{registers:?} {request:?}");
        assert!(*memory.run() == image, "{registers:?} {request:?}");
        meet(&mut met, &ours);

        let mut memory = Memory::new(run.clone(), &windows);
        let ours = outcome::of_interrupt(unit.interrupt(&mut memory, request));
        let (none, shown) = (Slip::None, image::theirs(&windows));
        let expected = interrupt_request_in(none, &theirs, &shown, &mut run, id, address, data);
        assert_eq!(ours, expected, "{registers:?} {windows:?} {request:?}");
        assert!(
            *memory.run() == run,
            "{registers:?} {windows:?} {request:?}"
        );
    }
    expect_met(&met, &["passed", "remapped", "posted", "posted, notified"]);
    expect_met(&met, &["silent", "refused 1", "refused 2"]);
    let reasons = ["20", "21", "22", "23", "24", "25", "26", "27", "28"];
    expect_met(&met, &reasons);
}
