//! Ask 7: "In a fault, the fetch and each entry check shall answer with the
//! host address of the entry concerned, and every caller passes it up,
//! interrupts included. 04h gives the context entry, 27h and 28h the
//! descriptor; 20h, 21h and 25h give none, and the answer says so by case and
//! not by a zero. The 16 record bytes do not change."

mod common;

use common::{bench_image, bench_with, fault, record_words, BENCH, SOURCE};
use reference::{interrupt_request, memory_request, Fault, Registers};

const ADDRESS: u64 = 0x4020_1ABC;
const ENTRY_4: u64 = 0xFEE0_0090;

/// Words put into the bench image, as address and value.
type Words = &'static [(usize, u64)];

fn memory(registers: &Registers, image: &[u8], source: u16, address: u64, write: bool) -> Fault {
    fault(memory_request(registers, image, source, address, write))
}

/// Words, image length, source, address, write; reason and entry.
#[allow(clippy::type_complexity)]
const MEMORY: [(Words, usize, u16, u64, bool, u8, u64); 34] = [
    // 08h, 01h, 0Ah: the root entry, 1000h + 16 x bus.
    (&[], 0, SOURCE, ADDRESS, false, 0x08, 0x1030),
    (&[], 0x103F, SOURCE, ADDRESS, false, 0x08, 0x1030),
    (&[], 0x1040, 0xFFFF, ADDRESS, false, 0x08, 0x1FF0),
    (&[], 0x8000, 0x0410, ADDRESS, false, 0x01, 0x1040),
    (&[(0x1000, 0)], 0x8000, 0, ADDRESS, true, 0x01, 0x1000),
    (&[(0x1030, 0x2003)], 0x8000, SOURCE, 0, false, 0x0A, 0x1030),
    (&[(0x1038, 1)], 0x8000, SOURCE, 0, false, 0x0A, 0x1030),
    // 09h, 02h, 0Bh, 03h, 04h: the context entry, 2000h + 16 x function.
    (&[], 0x210F, SOURCE, ADDRESS, false, 0x09, 0x2100),
    (
        &[(0x1030, 0x7F_FFFF_F001)],
        0x8000,
        SOURCE,
        0,
        true,
        0x09,
        0x7F_FFFF_F100,
    ),
    (&[], 0x8000, 0x0311, ADDRESS, false, 0x02, 0x2110),
    (&[(0x2100, 0x3011)], 0x8000, SOURCE, 0, false, 0x0B, 0x2100),
    (&[(0x2108, 0x581)], 0x8000, SOURCE, 0, false, 0x0B, 0x2100),
    (&[(0x2100, 0x300D)], 0x8000, SOURCE, 0, false, 0x03, 0x2100),
    (&[(0x2108, 0x503)], 0x8000, SOURCE, 0, false, 0x03, 0x2100),
    (&[], 0x8000, SOURCE, 1 << 39, false, 0x04, 0x2100),
    (&[], 0x8000, SOURCE, u64::MAX, true, 0x04, 0x2100),
    // 04h of a pass-through entry as well.
    (
        &[(0x2100, 0x3009)],
        0x8000,
        SOURCE,
        1 << 39,
        true,
        0x04,
        0x2100,
    ),
    // 07h: the page entry wanted, table + 8 x index, though it lies outside.
    (&[], 0x300F, SOURCE, ADDRESS, false, 0x07, 0x3008),
    (&[], 0x4008, SOURCE, ADDRESS, false, 0x07, 0x4008),
    (&[], 0x500F, SOURCE, ADDRESS, false, 0x07, 0x5008),
    (&[], 0x8000, SOURCE, 0x4060_0000, false, 0x07, 0x9000),
    (&[], 0x8000, SOURCE, 0x407F_F000, true, 0x07, 0x9FF8),
    (&[], 0x7FFF, SOURCE, 0x40BF_F000, false, 0x07, 0x7FF8),
    (
        &[(0x2100, 0x7F_FFFF_F001)],
        0x8000,
        SOURCE,
        ADDRESS,
        false,
        0x07,
        0x7F_FFFF_F008,
    ),
    (
        &[(0x4018, 0x7F_FFFF_F003)],
        0x8000,
        SOURCE,
        0x407F_F000,
        false,
        0x07,
        0x7F_FFFF_FFF8,
    ),
    // 05h and 06h for bits 1:0 both clear: at each level.
    (&[], 0x8000, SOURCE, 0, false, 0x06, 0x3000),
    (&[], 0x8000, SOURCE, 0x7F_FFFF_FFFF, true, 0x05, 0x3FF8),
    (&[], 0x8000, SOURCE, 0x4000_0000, false, 0x06, 0x4000),
    (&[], 0x8000, SOURCE, 0x4020_2000, true, 0x05, 0x5010),
    // 05h and 06h for the request's own right: the entry that lacks it.
    (&[], 0x8000, SOURCE, ADDRESS, true, 0x05, 0x5008),
    (
        &[(0x4008, 0x5001)],
        0x8000,
        SOURCE,
        ADDRESS,
        true,
        0x05,
        0x4008,
    ),
    (
        &[(0x3008, 0x4002)],
        0x8000,
        SOURCE,
        ADDRESS,
        false,
        0x06,
        0x3008,
    ),
    // 0Ch, at levels 2 and 1.
    (&[], 0x8000, SOURCE, 0x4080_0000, true, 0x0C, 0x4020),
    (
        &[(0x5008, 1 << 39 | 1)],
        0x8000,
        SOURCE,
        ADDRESS,
        false,
        0x0C,
        0x5008,
    ),
];

#[test]
fn memory_requests() {
    for (words, length, source, address, write, reason, entry) in MEMORY {
        let image = bench_with(words);
        let found = memory(&BENCH, &image[..length], source, address, write);
        let row = format!("{words:X?} {length:X} {source:X} {address:X} {write}");
        assert_eq!(found.reason, reason, "{row}");
        assert_eq!(found.entry, Some(entry), "{row}: {found:X?}");

        // A fault that FPD silences has it as well.
        let mut silent = image.clone();
        silent[0x2100] |= 2;
        silent[0x2110] |= 2;
        let again = memory(&BENCH, &silent[..length], source, address, write);
        assert_eq!((again.reason, again.entry), (reason, Some(entry)), "{row}");
        let always = matches!(reason, 0x01 | 0x08 | 0x09 | 0x0A);
        assert_eq!(again.recordable, always, "{row}");
    }
}

/// Words, image length, source, address, data; reason and entry.
#[allow(clippy::type_complexity)]
const INTERRUPTS: [(Words, usize, u16, u64, u32, u8, Option<u64>); 19] = [
    // 25h, 20h, 21h: none.
    (&[], 0x8000, SOURCE, 0xFEE0_0000, 0, 0x25, None),
    (&[], 0x8000, SOURCE, 0xFEE0_0018, 0x1_0000, 0x20, None),
    (&[], 0x8000, SOURCE, 0xFEE0_0210, 0, 0x21, None),
    (&[], 0x8000, SOURCE, 0xFEEF_FFFC, 3, 0x21, None),
    (&[], 0, SOURCE, 0xFEE0_0210, 0, 0x21, None),
    // 23h: the entry wanted, 6000h + 16 x index, though it lies outside.
    (&[], 0, SOURCE, 0xFEE0_0050, 0, 0x23, Some(0x6020)),
    (&[], 0x602F, SOURCE, 0xFEE0_0050, 0, 0x23, Some(0x6020)),
    (&[], 0x6020, SOURCE, 0xFEE0_0058, 0, 0x23, Some(0x6020)),
    (&[], 0x6020, SOURCE, 0xFEE0_0058, 13, 0x23, Some(0x60F0)),
    // 22h, 24h, 26h: the interrupt entry; the very first one too.
    (&[], 0x8000, SOURCE, 0xFEE0_0010, 0, 0x22, Some(0x6000)),
    (&[], 0x8000, SOURCE, 0xFEE0_01F0, 0, 0x22, Some(0x60F0)),
    (
        &[(0x6020, 0x1001)],
        0x8000,
        SOURCE,
        0xFEE0_0050,
        0,
        0x24,
        Some(0x6020),
    ),
    (
        &[(0x6048, 0x80_0000_0000)],
        0x8000,
        SOURCE,
        ENTRY_4,
        0,
        0x24,
        Some(0x6040),
    ),
    (&[], 0x8000, 0x0311, 0xFEE0_0050, 0, 0x26, Some(0x6020)),
    // 27h and 28h: the descriptor, though it lies outside.
    (&[], 0x6400, SOURCE, ENTRY_4, 0, 0x27, Some(0x6400)),
    (&[], 0x643F, SOURCE, ENTRY_4, 0, 0x27, Some(0x6400)),
    (
        &[(0x6040, 0xFFFF_FFC0_0031_8001), (0x6048, 0x7F_0000_0000)],
        0x8000,
        SOURCE,
        ENTRY_4,
        0,
        0x27,
        Some(0x7F_FFFF_FFC0),
    ),
    (
        &[(0x6420, 4)],
        0x8000,
        SOURCE,
        ENTRY_4,
        0,
        0x28,
        Some(0x6400),
    ),
    (
        &[(0x6438, 1 << 63)],
        0x8000,
        SOURCE,
        ENTRY_4,
        0,
        0x28,
        Some(0x6400),
    ),
];

#[test]
fn interrupts() {
    for (words, length, source, address, data, reason, entry) in INTERRUPTS {
        let mut image = bench_with(words);
        let row = format!("{words:X?} {length:X} {source:X} {address:X} {data:X}");
        let answer = interrupt_request(&BENCH, &mut image[..length], source, address, data);
        let found = fault(answer);
        assert_eq!(found.reason, reason, "{row}");
        assert_eq!(found.entry, entry, "{row}: {found:X?}");
    }
}

/// An entry at host address 0 is one, and no case of none.
#[test]
fn entry_at_zero() {
    let registers = Registers {
        root: 0,
        interrupt_table: 0,
        ..BENCH
    };
    let mut image = vec![0; 0x1000];
    let root = memory(&registers, &image, 0, ADDRESS, false);
    assert_eq!((root.reason, root.entry), (0x01, Some(0)));
    let answer = interrupt_request(&registers, &mut image, SOURCE, 0xFEE0_0010, 0);
    let interrupt = fault(answer);
    assert_eq!((interrupt.reason, interrupt.entry), (0x22, Some(0)));
    let answer = interrupt_request(&registers, &mut image, SOURCE, 0xFEE0_0000, 0);
    assert_eq!(fault(answer).entry, None);
}

/// "The 16 record bytes do not change": cases 2, 3 and 11, and another page
/// entry for the same request and reason.
#[test]
fn record_bytes_stay() {
    let image = bench_image();
    let write = memory(&BENCH, &image, SOURCE, ADDRESS, true);
    assert_eq!(record_words(&write), [0x4020_1000, 0x8000_0005_0000_0310]);
    let read = memory(&BENCH, &image, SOURCE, 0x4020_2000, false);
    assert_eq!(record_words(&read), [0x4020_2000, 0xC000_0006_0000_0310]);
    let above = bench_with(&[(0x3008, 0x4001)]);
    let higher = memory(&BENCH, &above, SOURCE, ADDRESS, true);
    assert_eq!(higher.record, write.record);
    assert_eq!((higher.entry, write.entry), (Some(0x3008), Some(0x5008)));
    let answer = interrupt_request(&BENCH, &mut bench_image(), SOURCE, 0xFEEF_FFFC, 3);
    assert_eq!(
        record_words(&fault(answer)),
        [0xFFFF_0000_0000_0000, 0x8000_0021_0000_0310]
    );
}
