//! Sentences of the paper that are easily misread. Each test quotes its own.

mod common;

use common::{bench_image, bench_with, fault, posted, reason, record_words, BENCH, SOURCE};
use reference::{
    interrupt_request, memory_request, named_words_interrupt, named_words_memory, walked_entries,
    Notice, Outcome, Registers,
};

const ADDRESS: u64 = 0x4020_1ABC;
const ENTRY_2: u64 = 0xFEE0_0050;
const ENTRY_4: u64 = 0xFEE0_0090;

/// Words put into the bench image, as address and value.
type Words = Vec<(usize, u64)>;

fn read(registers: &Registers, image: &[u8], address: u64) -> Outcome {
    memory_request(registers, image, SOURCE, address, false)
}

fn write(registers: &Registers, image: &[u8], address: u64) -> Outcome {
    memory_request(registers, image, SOURCE, address, true)
}

/// Rings and sees to it that an answer other than a post changed nothing.
fn ring(registers: &Registers, image: &[u8], source: u16, address: u64, data: u32) -> Outcome {
    let mut after = image.to_vec();
    let answer = interrupt_request(registers, &mut after, source, address, data);
    if !matches!(answer, Outcome::Posted { .. }) {
        assert_eq!(after, image);
    }
    answer
}

/// The bench interrupt entry 2, answered.
fn entry_2() -> Outcome {
    Outcome::Remapped {
        destination_mode: false,
        redirection_hint: false,
        trigger: false,
        delivery: 0,
        vector: 0x41,
        destination: 7,
    }
}

/// "1: a register is outside the list above", with the list's ends.
#[test]
fn register_list() {
    let image = bench_image();
    let good = [
        Registers { haw: 36, ..BENCH },
        Registers { haw: 52, ..BENCH },
        Registers { mgaw: 39, ..BENCH },
        Registers { mgaw: 57, ..BENCH },
        Registers { s: 0, ..BENCH },
        Registers { s: 15, ..BENCH },
        Registers {
            root: 0x7F_FFFF_F000,
            ..BENCH
        },
        Registers {
            interrupt_table: 0x7F_FFFF_F000,
            ..BENCH
        },
        Registers {
            levels3: false,
            ..BENCH
        },
        Registers {
            levels4: false,
            ..BENCH
        },
        Registers {
            levels3: false,
            levels4: false,
            levels5: true,
            ..BENCH
        },
    ];
    for registers in good {
        assert!(
            !matches!(read(&registers, &image, ADDRESS), Outcome::Refused(_)),
            "{registers:x?}"
        );
        let answer = ring(&registers, &image, SOURCE, ENTRY_2, 0);
        assert!(!matches!(answer, Outcome::Refused(_)), "{registers:x?}");
    }
    let bad = [
        Registers { haw: 35, ..BENCH },
        Registers { haw: 53, ..BENCH },
        Registers { haw: 0, ..BENCH },
        Registers { haw: 255, ..BENCH },
        Registers { mgaw: 38, ..BENCH },
        Registers { mgaw: 58, ..BENCH },
        Registers { mgaw: 255, ..BENCH },
        Registers {
            levels3: false,
            levels4: false,
            ..BENCH
        },
        Registers {
            root: 0x1800,
            ..BENCH
        },
        Registers {
            root: 0x1001,
            ..BENCH
        },
        Registers {
            root: 1 << 39,
            ..BENCH
        },
        Registers {
            root: u64::MAX,
            ..BENCH
        },
        Registers {
            interrupt_table: 0x6010,
            ..BENCH
        },
        Registers {
            interrupt_table: 1 << 39,
            ..BENCH
        },
        Registers {
            interrupt_table: !0xFFF,
            ..BENCH
        },
        Registers { s: 16, ..BENCH },
        Registers { s: 255, ..BENCH },
    ];
    for registers in bad {
        assert_eq!(
            read(&registers, &image, ADDRESS),
            Outcome::Refused(1),
            "{registers:x?}"
        );
        assert_eq!(
            ring(&registers, &image, SOURCE, ENTRY_2, 0),
            Outcome::Refused(1),
            "{registers:x?}"
        );
        // "1 is checked before 2."
        assert_eq!(read(&registers, &image, 0xFEE0_0000), Outcome::Refused(1));
        assert_eq!(ring(&registers, &image, SOURCE, 0, 0), Outcome::Refused(1));
        // "With TE (or IRE) off, a request past these checks is passed".
        let off = Registers {
            te: false,
            ire: false,
            ..registers
        };
        assert_eq!(read(&off, &image, ADDRESS), Outcome::Refused(1));
        assert_eq!(ring(&off, &image, SOURCE, ENTRY_2, 0), Outcome::Refused(1));
    }
}

/// "2: a memory request lies in FEE00000h to FEEFFFFFh, or an interrupt lies
/// outside it", with TE and IRE on or off.
#[test]
fn interrupt_range() {
    let image = bench_image();
    let off = Registers {
        te: false,
        ire: false,
        ..BENCH
    };
    for registers in [BENCH, off] {
        for address in [0xFEE0_0000, 0xFEE1_2345, 0xFEEF_FFFF] {
            assert_eq!(read(&registers, &image, address), Outcome::Refused(2));
            assert_eq!(write(&registers, &image, address), Outcome::Refused(2));
            assert_ne!(
                ring(&registers, &image, SOURCE, address, 0),
                Outcome::Refused(2)
            );
        }
        for address in [0, 0xFEDF_FFFF, 0xFEF0_0000, 0x1_FEE0_0050, u64::MAX] {
            assert_ne!(read(&registers, &image, address), Outcome::Refused(2));
            assert_eq!(
                ring(&registers, &image, SOURCE, address, 0),
                Outcome::Refused(2)
            );
        }
    }
}

/// "With TE (or IRE) off, a request past these checks is passed unchanged and
/// no word is read." Each switch is for its own kind of request.
#[test]
fn switched_off() {
    let te_off = Registers { te: false, ..BENCH };
    let ire_off = Registers {
        ire: false,
        ..BENCH
    };
    let image = bench_image();
    for address in [0, ADDRESS, u64::MAX] {
        for image in [&image[..], &[]] {
            assert_eq!(read(&te_off, image, address), Outcome::Granted(address));
            assert_eq!(write(&te_off, image, address), Outcome::Granted(address));
            assert!(named_words_memory(&te_off, image, SOURCE, address, false).is_empty());
            assert!(walked_entries(&te_off, image, SOURCE, address, false).is_empty());
        }
    }
    // Old and new format alike, and none of 20h, 21h, 25h.
    for address in [0xFEE0_0000, ENTRY_2, 0xFEEF_FFFC] {
        for image in [&image[..], &[]] {
            assert_eq!(
                ring(&ire_off, image, SOURCE, address, u32::MAX),
                Outcome::Passed
            );
            assert!(named_words_interrupt(&ire_off, image, SOURCE, address, 0).is_empty());
        }
    }
    assert_eq!(
        read(&ire_off, &image, ADDRESS),
        Outcome::Granted(0x1234_5ABC)
    );
    assert_eq!(ring(&te_off, &image, SOURCE, ENTRY_2, 0), entry_2());
}

/// "An entry is fetched if all its bytes lie in the image; otherwise the
/// access fault named." "... none of an entry that couldn't be fetched."
#[test]
fn entries_cut_short() {
    let image = bench_image();
    let words = |length| named_words_memory(&BENCH, &image[..length], SOURCE, ADDRESS, false);
    let walked = |length| walked_entries(&BENCH, &image[..length], SOURCE, ADDRESS, false);
    for (length, expected) in [
        (0, 0x08),
        (0x1038, 0x08),
        (0x103F, 0x08),
        (0x1040, 0x09),
        (0x2108, 0x09),
        (0x210F, 0x09),
        (0x2110, 0x07),
        (0x300F, 0x07),
        (0x3010, 0x07),
        (0x400F, 0x07),
        (0x4010, 0x07),
        (0x500F, 0x07),
    ] {
        assert_eq!(
            reason(read(&BENCH, &image[..length], ADDRESS)),
            expected,
            "{length:x}"
        );
    }
    assert_eq!(
        read(&BENCH, &image[..0x5010], ADDRESS),
        Outcome::Granted(0x1234_5ABC)
    );
    assert_eq!(words(0x103F), []);
    assert_eq!(words(0x1040), [0x1030, 0x1038]);
    assert_eq!(words(0x210F), [0x1030, 0x1038]);
    assert_eq!(words(0x2110), [0x1030, 0x1038, 0x2100, 0x2108]);
    assert_eq!(walked(0x2110), []);
    assert_eq!(
        words(0x500F),
        [0x1030, 0x1038, 0x2100, 0x2108, 0x3008, 0x4008]
    );
    assert_eq!(walked(0x500F), [0x3008, 0x4008]);
    assert_eq!(walked(0x5010), [0x3008, 0x4008, 0x5008]);

    let ringing = |length| named_words_interrupt(&BENCH, &image[..length], SOURCE, ENTRY_4, 0);
    for (length, expected) in [(0, 0x23), (0x604F, 0x23), (0x6050, 0x27), (0x643F, 0x27)] {
        let answer = ring(&BENCH, &image[..length], SOURCE, ENTRY_4, 0);
        assert_eq!(reason(answer), expected, "{length:x}");
    }
    assert!(matches!(
        ring(&BENCH, &image[..0x6440], SOURCE, ENTRY_4, 0),
        Outcome::Posted { .. }
    ));
    assert_eq!(ringing(0x604F), []);
    assert_eq!(ringing(0x643F), [0x6040, 0x6048]);
    assert_eq!(
        ringing(0x6440),
        [0x6040, 0x6048, 0x6400, 0x6408, 0x6410, 0x6418, 0x6420, 0x6428, 0x6430, 0x6438]
    );
}

/// "The page entries among them are those it walked, one that faults
/// included." And: an entry found absent was still fetched.
#[test]
fn faulting_entries_are_named() {
    let image = bench_image();
    assert_eq!(
        walked_entries(&BENCH, &image, SOURCE, 0x4020_2000, false),
        [0x3008, 0x4008, 0x5010]
    );
    assert_eq!(
        named_words_memory(&BENCH, &image, 0x0410, ADDRESS, false),
        [0x1040, 0x1048]
    );
    assert_eq!(
        named_words_memory(&BENCH, &image, 0x0311, ADDRESS, false),
        [0x1030, 0x1038, 0x2110, 0x2118]
    );
    assert_eq!(
        named_words_interrupt(&BENCH, &image, SOURCE, 0xFEE0_0010, 0),
        [0x6000, 0x6008]
    );
    // 26h comes before the descriptor is fetched.
    let image = bench_with(&[(0x6048, 0x40311)]);
    assert_eq!(
        named_words_interrupt(&BENCH, &image, SOURCE, ENTRY_4, 0),
        [0x6040, 0x6048]
    );
}

/// "never more than nine words for a memory request": five levels, where the
/// table at 3000h is that of levels 5, 4 and 3. A word fetched twice is named
/// twice.
#[test]
fn nine_words() {
    let registers = Registers {
        mgaw: 57,
        levels5: true,
        ..BENCH
    };
    let image = bench_with(&[(0x2108, 0x503), (0x3000, 0x3003)]);
    assert_eq!(
        read(&registers, &image, ADDRESS),
        Outcome::Granted(0x1234_5ABC)
    );
    assert_eq!(
        named_words_memory(&registers, &image, SOURCE, ADDRESS, false),
        [0x1030, 0x1038, 0x2100, 0x2108, 0x3000, 0x3000, 0x3008, 0x4008, 0x5008]
    );
}

/// "AW is 66:64: 1, 2, 3 mean 3, 4, 5 levels"; "level L from the top down to
/// 1, at table + 8 x address bits (12+9(L-1)) to (20+9(L-1))": another index at
/// each level, with high and low bits set.
#[test]
fn indices() {
    let registers = Registers {
        mgaw: 57,
        levels5: true,
        ..BENCH
    };
    let address = 0x155 << 48 | 0x0AA << 39 | 0x1FE << 30 | 0x101 << 21 | 0x1FF << 12 | 0xFFF;
    let page_words = [
        (0x3AA8, 0x4003),
        (0x4550, 0x5003),
        (0x5FF0, 0x3003),
        (0x3808, 0x7003),
    ];
    let entries = [0x3AA8, 0x4550, 0x5FF0, 0x3808, 0x7FF8];
    for (aw, top_table, bits) in [(3, 0x3001, 57), (2, 0x4001, 48), (1, 0x5001, 39)] {
        let mut image = bench_with(&page_words);
        common::set(&mut image, 0x2100, top_table);
        common::set(&mut image, 0x2108, 0x500 | aw);
        let address = address & ((1 << bits) - 1);
        assert_eq!(
            read(&registers, &image, address),
            Outcome::Granted(0x2345_6FFF)
        );
        assert_eq!(
            walked_entries(&registers, &image, SOURCE, address, false),
            entries[3 - aw as usize..]
        );
    }
}

/// "a 16-bit source id (bus in 15:8, device and function in 7:0)"; "root table
/// + 16 x bus"; "context table + 16 x (device and function)".
#[test]
fn every_source() {
    let mut image = bench_image();
    for bus in 0..256 {
        common::set(&mut image, 0x1000 + 16 * bus, 0x2001);
    }
    for source in 0..=0xFFFF {
        let bus = u64::from(source) / 256;
        let function = u64::from(source) % 256;
        let root = 0x1000 + 16 * bus;
        let context = 0x2000 + 16 * function;
        assert_eq!(
            named_words_memory(&BENCH, &image, source, 1 << 39, false),
            [root, root + 8, context, context + 8]
        );
    }
}

/// The order within the root and context entry: absent, reserved, then 03h.
#[test]
fn order_in_tables() {
    let at_root = |word| reason(read(&BENCH, &bench_with(&[(0x1030, word)]), ADDRESS));
    assert_eq!(at_root(!1), 0x01);
    assert_eq!(at_root(!0), 0x0A);
    let at_context = |first, second| {
        let image = bench_with(&[(0x2100, first), (0x2108, second)]);
        reason(read(&BENCH, &image, ADDRESS))
    };
    assert_eq!(at_context(!1, !0), 0x02);
    assert_eq!(at_context(!0, !0), 0x0B);
    // Reserved and bad TT; reserved and unsupported AW.
    assert_eq!(at_context(0x301D, 0x501), 0x0B);
    assert_eq!(at_context(0x3011, 0x500), 0x0B);
    // Bad TT and an address too high.
    let image = bench_with(&[(0x2100, 0x300D)]);
    assert_eq!(reason(read(&BENCH, &image, u64::MAX)), 0x03);
}

/// "Unsupported AW or bad TT: 03h." AW 0 and 4 to 7 mean no number of levels,
/// and a pass-through entry's AW is asked for as well.
#[test]
fn unsupported_width() {
    let all = Registers {
        mgaw: 57,
        levels5: true,
        ..BENCH
    };
    for tt in 0..4 {
        for aw in 0..8 {
            let image = bench_with(&[(0x2100, 0x3001 | tt << 2), (0x2108, 0x500 | aw)]);
            for (levels3, levels4, levels5) in [
                (true, true, true),
                (true, false, false),
                (false, true, false),
                (false, false, true),
            ] {
                let registers = Registers {
                    levels3,
                    levels4,
                    levels5,
                    ..all
                };
                let supported = match aw {
                    1 => levels3,
                    2 => levels4,
                    3 => levels5,
                    _ => false,
                };
                let answer = read(&registers, &image, 0x1000);
                if tt == 3 || !supported {
                    assert_eq!(reason(answer), 0x03, "TT {tt}, AW {aw}");
                } else if tt == 2 {
                    assert_eq!(answer, Outcome::Granted(0x1000), "TT {tt}, AW {aw}");
                } else {
                    // 3000h holds no entry 0.
                    assert_eq!(reason(answer), 0x06, "TT {tt}, AW {aw}");
                }
            }
        }
    }
}

/// "X is the smaller of MGAW and AW's bits. Address at or above 2^X: 04h.
/// Pass-through then returns the address itself."
#[test]
fn width_before_pass_through() {
    for (mgaw, aw, x) in [
        (39, 1, 39),
        (57, 1, 39),
        (39, 2, 39),
        (45, 2, 45),
        (48, 2, 48),
        (57, 2, 48),
        (45, 3, 45),
        (56, 3, 56),
        (57, 3, 57),
    ] {
        let registers = Registers {
            mgaw,
            levels5: true,
            ..BENCH
        };
        let end = 1u64 << x;
        let passing = bench_with(&[(0x2100, 0x3009), (0x2108, 0x500 | aw)]);
        assert_eq!(
            read(&registers, &passing, end - 1),
            Outcome::Granted(end - 1)
        );
        assert_eq!(
            write(&registers, &passing, end - 1),
            Outcome::Granted(end - 1)
        );
        assert_eq!(reason(read(&registers, &passing, end)), 0x04);
        assert_eq!(reason(read(&registers, &passing, u64::MAX)), 0x04);
        let walking = bench_with(&[(0x2108, 0x500 | aw)]);
        assert_ne!(reason(read(&registers, &walking, end - 1)), 0x04);
        assert_eq!(reason(read(&registers, &walking, end)), 0x04);
        // No page entry was fetched for either.
        assert!(walked_entries(&registers, &passing, SOURCE, end - 1, false).is_empty());
        assert!(walked_entries(&registers, &walking, SOURCE, end, false).is_empty());
    }
}

/// "in this order: bits 1:0 both clear, 05h for a write, 06h for a read; a
/// reserved bit set, 0Ch; the request's own right clear".
#[test]
fn order_in_page_entries() {
    for at in [0x3008, 0x4008, 0x5008] {
        let with = |low: u64| bench_with(&[(at, 0x000F_FF80_0000_0000 | low)]);
        assert_eq!(reason(read(&BENCH, &with(0), ADDRESS)), 0x06);
        assert_eq!(reason(write(&BENCH, &with(0), ADDRESS)), 0x05);
        // The other right is there, and this one is not.
        assert_eq!(reason(read(&BENCH, &with(2), ADDRESS)), 0x0C);
        assert_eq!(reason(write(&BENCH, &with(1), ADDRESS)), 0x0C);
    }
}

/// "the request's own right clear (bit 0 read, bit 1 write), 05h or 06h", at
/// every level and not only the last.
#[test]
fn rights_at_every_level() {
    for (at, target) in [(0x3008, 0x4000), (0x4008, 0x5000), (0x5008, 0x1234_5000)] {
        let all = [(0x3008, 0x4003), (0x4008, 0x5003), (0x5008, 0x1234_5003)];
        let mut image = bench_with(&all);
        assert_eq!(
            write(&BENCH, &image, ADDRESS),
            Outcome::Granted(0x1234_5ABC)
        );
        common::set(&mut image, at, target | 1);
        assert_eq!(read(&BENCH, &image, ADDRESS), Outcome::Granted(0x1234_5ABC));
        assert_eq!(reason(write(&BENCH, &image, ADDRESS)), 0x05);
        assert_eq!(
            walked_entries(&BENCH, &image, SOURCE, ADDRESS, true).last(),
            Some(&(at as u64))
        );
        common::set(&mut image, at, target | 2);
        assert_eq!(
            write(&BENCH, &image, ADDRESS),
            Outcome::Granted(0x1234_5ABC)
        );
        assert_eq!(reason(read(&BENCH, &image, ADDRESS)), 0x06);
    }
}

/// "FPD silences 02h to 07h, 0Bh, 0Ch (context) ... others are always
/// recordable." "Bit 1 is FPD, read even when bit 0 is clear."
#[test]
fn context_fpd() {
    let rows: [(u8, Words, u64, bool); 9] = [
        (0x02, vec![(0x2100, 0x3000)], ADDRESS, false),
        (0x03, vec![(0x2108, 0x500)], ADDRESS, false),
        (0x04, vec![], 1 << 39, false),
        (0x05, vec![], ADDRESS, true),
        (0x06, vec![], 0x4020_2000, false),
        (0x07, vec![], 0x4060_0000, false),
        (0x0B, vec![(0x2100, 0x3011)], ADDRESS, false),
        (0x0C, vec![], 0x4080_0000, false),
        (0x06, vec![(0x5008, 0x1234_5002)], ADDRESS, false),
    ];
    for (expected, words, address, write) in rows {
        let mut image = bench_with(&words);
        let loud = fault(memory_request(&BENCH, &image, SOURCE, address, write));
        image[0x2100] |= 2;
        let silent = fault(memory_request(&BENCH, &image, SOURCE, address, write));
        assert_eq!((loud.reason, loud.recordable), (expected, true));
        assert_eq!((silent.reason, silent.recordable), (expected, false));
        // The record bytes are answered all the same.
        assert_eq!(loud.record, silent.record);
    }
    // 01h, 08h, 09h and 0Ah come before any context entry was read. Bit 1 of a
    // root entry is no FPD.
    let mut fpd_everywhere = bench_image();
    fpd_everywhere[0x2100] |= 2;
    fpd_everywhere[0x1030] = 0x02;
    let absent = fault(read(&BENCH, &fpd_everywhere, ADDRESS));
    assert_eq!((absent.reason, absent.recordable), (0x01, true));
    fpd_everywhere[0x1030] = 0x03;
    let reserved = fault(read(&BENCH, &fpd_everywhere, ADDRESS));
    assert_eq!((reserved.reason, reserved.recordable), (0x0A, true));
    // A context entry cut short has no FPD to read.
    fpd_everywhere[0x1030] = 0x01;
    let cut = fault(read(&BENCH, &fpd_everywhere[..0x210F], ADDRESS));
    assert_eq!((cut.reason, cut.recordable), (0x09, true));
    let cut = fault(read(&BENCH, &fpd_everywhere[..0x103F], ADDRESS));
    assert_eq!((cut.reason, cut.recordable), (0x08, true));
}

/// "FPD silences ... 22h, 24h, 26h to 28h (interrupt entry)". "Bit 1 is FPD,
/// read always."
#[test]
fn interrupt_fpd() {
    let rows: [(u8, Words, u64); 5] = [
        (0x22, vec![(0x6040, 0x0000_6400_0031_8000)], ENTRY_4),
        (0x24, vec![(0x6040, 0x0000_6400_0131_8001)], ENTRY_4),
        (0x26, vec![(0x6048, 0x40311)], ENTRY_4),
        (0x27, vec![(0x6040, 0x0001_6400_0031_8001)], ENTRY_4),
        (0x28, vec![(0x6428, 1)], ENTRY_4),
    ];
    for (expected, words, address) in rows {
        let mut image = bench_with(&words);
        let loud = fault(ring(&BENCH, &image, SOURCE, address, 0));
        image[0x6040] |= 2;
        let silent = fault(ring(&BENCH, &image, SOURCE, address, 0));
        assert_eq!((loud.reason, loud.recordable), (expected, true));
        assert_eq!((silent.reason, silent.recordable), (expected, false));
        assert_eq!(loud.record, silent.record);
        assert_eq!(
            record_words(&loud),
            [4 << 48, 1 << 63 | u64::from(expected) << 32 | 0x0310]
        );
    }
    // 20h, 21h, 23h, 25h: no entry was read.
    let image = vec![0xFF; 0x6040];
    for (expected, address, data) in [
        (0x20, 0xFEE0_0018, 0x1_0000),
        (0x21, 0xFEE0_0210, 0),
        (0x23, ENTRY_4, 0),
        (0x25, 0xFEE0_0000, 0),
    ] {
        let fault = fault(ring(&BENCH, &image, SOURCE, address, data));
        assert_eq!((fault.reason, fault.recordable), (expected, true));
    }
}

/// "Record: address 63:12 in place ...; bit 126 set for a read".
#[test]
fn memory_record() {
    let fault_of_read = fault(memory_request(&BENCH, &[], 0xFFFF, u64::MAX, false));
    assert_eq!(
        record_words(&fault_of_read),
        [0xFFFF_FFFF_FFFF_F000, 0xC000_0008_0000_FFFF]
    );
    let fault_of_write = fault(memory_request(&BENCH, &[], 0, 0xFFF, true));
    assert_eq!(record_words(&fault_of_write), [0, 0x8000_0008_0000_0000]);
}

/// "the interrupt index in 63:48 ...; source 79:64; reason 103:96; ... bit 127
/// set; the rest 0": an interrupt is no read.
#[test]
fn interrupt_record() {
    let blocked = fault(ring(&BENCH, &[], 0xFFFF, 0xFEE0_01F0, 0));
    assert_eq!(
        record_words(&blocked),
        [0x000F_0000_0000_0000, 0x8000_0023_0000_FFFF]
    );
    let blocked = fault(ring(&BENCH, &[], 0, 0xFEE0_0010, 0));
    assert_eq!(record_words(&blocked), [0, 0x8000_0023_0000_0000]);
}

/// "Bit 4 of the address clear is the old format: 25h if EIME is set or CFIS
/// is clear, else passed unchanged." It comes before all else, and 25h records
/// index 0.
#[test]
fn old_format() {
    // Handle, bit 2 and SHV are set, and no word is in the image.
    let address = 0xFEEF_FFEF;
    for (eime, cfis, passed) in [
        (false, false, false),
        (false, true, true),
        (true, false, false),
        (true, true, false),
    ] {
        let registers = Registers {
            eime,
            cfis,
            ..BENCH
        };
        let answer = ring(&registers, &[], SOURCE, address, u32::MAX);
        if passed {
            assert_eq!(answer, Outcome::Passed);
        } else {
            assert_eq!(record_words(&fault(answer)), [0, 0x8000_0025_0000_0310]);
        }
        assert!(named_words_interrupt(&registers, &bench_image(), SOURCE, address, 0).is_empty());
    }
    // Bit 4 alone tells the format: CFIS does not touch the new one.
    let allowed = Registers {
        cfis: true,
        ..BENCH
    };
    assert_eq!(
        ring(&allowed, &bench_image(), SOURCE, ENTRY_2, 0),
        entry_2()
    );
}

/// "the handle is bits 19:5 with bit 2 as its bit 15; bit 3 is SHV. With SHV,
/// data 31:16 set is 20h, and the index is handle plus data 15:0 ... Without
/// SHV the index is the handle and data is ignored."
#[test]
fn handle_and_index() {
    let image = bench_image();
    // Without SHV all data is ignored.
    assert_eq!(ring(&BENCH, &image, SOURCE, ENTRY_2, u32::MAX), entry_2());
    // Bits 1:0 of the address say nothing.
    assert_eq!(ring(&BENCH, &image, SOURCE, ENTRY_2 | 3, 0), entry_2());
    // With SHV, 0 + 2, 1 + 1 and 2 + 0.
    for (address, data) in [(0xFEE0_0018, 2), (0xFEE0_0038, 1), (0xFEE0_0058, 0)] {
        assert_eq!(ring(&BENCH, &image, SOURCE, address, data), entry_2());
        for k in 16..32 {
            let blocked = fault(ring(&BENCH, &image, SOURCE, address, data | 1 << k));
            // "0 for 20h".
            assert_eq!(record_words(&blocked), [0, 0x8000_0020_0000_0310]);
        }
    }
    // Each bit of the handle by itself, seen in the record of 21h or 22h.
    let registers = Registers { s: 15, ..BENCH };
    let long = vec![0; 0x6000 + 16 * 65_536];
    let index_of = |address, data| {
        let blocked = fault(ring(&registers, &long, SOURCE, address, data));
        (blocked.reason, record_words(&blocked)[0] >> 48)
    };
    for k in 0..15 {
        assert_eq!(index_of(0xFEE0_0010 | 1 << (5 + k), 0), (0x22, 1 << k));
    }
    assert_eq!(index_of(0xFEE0_0014, 0), (0x22, 1 << 15));
    // "65,535 if larger": 65,535 itself is an index as good as any.
    assert_eq!(index_of(0xFEEF_FFF4, 0), (0x22, 65_535));
    assert_eq!(index_of(0xFEEF_FFFC, 0), (0x22, 65_535));
    assert_eq!(index_of(0xFEEF_FFFC, 1), (0x21, 65_535));
    assert_eq!(index_of(0xFEEF_FFFC, 65_535), (0x21, 65_535));
    assert_eq!(index_of(0xFEE0_0018, 65_535), (0x22, 65_535));
    assert_eq!(index_of(0xFEE0_0038, 65_535), (0x21, 65_535));
    assert_eq!(index_of(0xFEE0_0018, 65_534), (0x22, 65_534));
}

/// "Index at or above 2^(S+1): 21h."
#[test]
fn index_limit() {
    let long = vec![0; 0x6000 + 16 * 65_536];
    for s in 0..16 {
        let registers = Registers { s, ..BENCH };
        let end = 2u32 << s;
        let shv = 0xFEE0_0018;
        assert_eq!(
            reason(ring(&registers, &long, SOURCE, shv, end - 1)),
            0x22,
            "S {s}"
        );
        // For S 15 the end is 65,536, which takes a handle of 1.
        let answer = ring(&registers, &long, SOURCE, shv | 1 << 5, end - 1);
        assert_eq!(reason(answer), 0x21, "S {s}");
        assert_eq!(
            named_words_interrupt(&registers, &long, SOURCE, shv, end - 1),
            [
                0x6000 + 16 * u64::from(end - 1),
                0x6008 + 16 * u64::from(end - 1)
            ]
        );
    }
}

/// The order within an interrupt entry: 22h, 24h, 26h, 27h, 28h.
#[test]
fn order_in_interrupt_entries() {
    let at = |first, second| {
        let image = bench_with(&[(0x6040, first), (0x6048, second)]);
        reason(ring(&BENCH, &image, SOURCE, ENTRY_4, 0))
    };
    // Absent, with every other bit set.
    assert_eq!(at(!1, !0), 0x22);
    // Reserved and of another source.
    assert_eq!(at(0x0000_6400_0031_8005, 0x40311), 0x24);
    // Of another source, its descriptor outside the image.
    assert_eq!(at(0x0001_6400_0031_8001, 0x40311), 0x26);
    // Its descriptor outside the image.
    assert_eq!(at(0x0001_6400_0031_8001, 0x40310), 0x27);
    // SVT 3 is 24h, though the source would be the right one.
    assert_eq!(at(0x0000_6400_0031_8001, 0xC0310), 0x24);
}

/// "bit 15 without posting" is reserved; posting says nothing about an entry
/// with bit 15 clear, whatever its vector.
#[test]
fn without_posting() {
    let registers = Registers {
        posting: false,
        ..BENCH
    };
    for vector in [0, 0x41, 0xFF] {
        let image = bench_with(&[
            (0x6020, 0x0000_0700_0000_0001 | vector << 16),
            (0x6040, 0x0000_6400_0000_8001 | vector << 16),
        ]);
        assert!(matches!(
            ring(&registers, &image, SOURCE, ENTRY_2, 0),
            Outcome::Remapped { .. }
        ));
        assert_eq!(reason(ring(&registers, &image, SOURCE, ENTRY_4, 0)), 0x24);
        assert!(matches!(
            ring(&BENCH, &image, SOURCE, ENTRY_4, 0),
            Outcome::Posted { .. }
        ));
    }
}

/// "delivery mode (7:5) 3 or 6": bits 4:2 and 11:8 beside it do not matter.
#[test]
fn delivery_modes() {
    for low in 0..0x1000u64 {
        let image = bench_with(&[(0x6020, 0x0000_0700_0041_0001 | low)]);
        let answer = ring(&BENCH, &image, SOURCE, ENTRY_2, 0);
        let mode = low >> 5 & 7;
        if mode == 3 || mode == 6 {
            assert_eq!(reason(answer), 0x24, "{low:x}");
        } else {
            let expected = Outcome::Remapped {
                destination_mode: low & 4 != 0,
                redirection_hint: low & 8 != 0,
                trigger: low & 16 != 0,
                delivery: mode as u8,
                vector: 0x41,
                destination: 7,
            };
            assert_eq!(answer, expected, "{low:x}");
        }
    }
}

/// "without EIME 39:32 and 63:48 ... destination (63:32, or 47:40 without
/// EIME)". "28h ... without EIME 295:288 and 319:304"; "destination 319:288
/// (or 303:296)".
#[test]
fn x2apic_destinations() {
    let image = bench_with(&[
        (0x6020, 0x89AB_CDEF_0041_0001),
        (0x6420, 0x89AB_CDEF_00F2_0000),
    ]);
    let eime = Registers {
        eime: true,
        ..BENCH
    };
    let Outcome::Remapped { destination, .. } = ring(&eime, &image, SOURCE, ENTRY_2, 0) else {
        panic!("not remapped");
    };
    assert_eq!(destination, 0x89AB_CDEF);
    let notice = Some(Notice {
        vector: 0xF2,
        destination: 0x89AB_CDEF,
    });
    assert_eq!(
        ring(&eime, &image, SOURCE, ENTRY_4, 0),
        posted(0x31, 0x6400, notice)
    );
    assert_eq!(reason(ring(&BENCH, &image, SOURCE, ENTRY_2, 0)), 0x24);
    assert_eq!(reason(ring(&BENCH, &image, SOURCE, ENTRY_4, 0)), 0x28);
    // EIME says nothing about bits 39:32 and 63:48 of a posted entry: some are
    // reserved and some are the descriptor's address, with and without.
    let posted = bench_with(&[(0x6040, 0x0000_6404_0031_8001)]);
    assert_eq!(reason(ring(&eime, &posted, SOURCE, ENTRY_4, 0)), 0x24);
}

/// "SVT (83:82) 0: none. 1: equals SID (79:64), where SQ (81:80) 0 compares
/// all bits, 1 ignores bit 2, 2 ignores bits 2:1, 3 ignores bits 2:0. 2: bus
/// from SID 15:8 to SID 7:0, ends included."
#[test]
fn source_check() {
    let accepted = |svt: u64, sq: u64, sid: u64, source: u16| {
        let image = bench_with(&[(0x6028, svt << 18 | sq << 16 | sid)]);
        match ring(&BENCH, &image, source, ENTRY_2, 0) {
            Outcome::Remapped { .. } => true,
            other => {
                assert_eq!(reason(other), 0x26);
                false
            }
        }
    };
    for source in [0, 0x0310, 0xFFFF] {
        for sq in 0..4 {
            assert!(accepted(0, sq, 0x1234, source));
        }
    }
    for sid in [0x0310, 0x0317, 0x0312] {
        for source in 0x0300..0x0320 {
            let same = |ignored: u64| sid & !ignored == u64::from(source) & !ignored;
            assert_eq!(accepted(1, 0, sid, source), same(0));
            assert_eq!(accepted(1, 1, sid, source), same(4));
            assert_eq!(accepted(1, 2, sid, source), same(6));
            assert_eq!(accepted(1, 3, sid, source), same(7));
        }
    }
    for sq in 0..4 {
        assert!(!accepted(2, sq, 0x0305, 0x02FF));
        assert!(accepted(2, sq, 0x0305, 0x0300));
        assert!(accepted(2, sq, 0x0305, 0x05FF));
        assert!(!accepted(2, sq, 0x0305, 0x0600));
        assert!(accepted(2, sq, 0x0303, 0x0312));
        // From above to: no bus at all.
        assert!(!accepted(2, sq, 0x0503, 0x0400));
    }
    for (from, to) in [
        (0x00, 0xFF),
        (0x03, 0x05),
        (0x80, 0xFF),
        (0x00, 0x7F),
        (0x7F, 0x80),
    ] {
        for bus in 0..256u16 {
            let within = from <= bus && bus <= to;
            let sid = u64::from(from << 8 | to);
            assert_eq!(
                accepted(2, 0, sid, bus << 8 | 0x10),
                within,
                "{sid:x} {bus:x}"
            );
        }
    }
}

/// "descriptor address has 63:38 as its bits 31:6 and 127:96 as its bits
/// 63:32": the last 64 bytes below 2^HAW are an access fault here, the next
/// bit up is reserved.
#[test]
fn descriptor_address() {
    let far = bench_with(&[
        (0x6040, 0xFFFF_FFC0_0031_8001),
        (0x6048, 0x0000_007F_0000_0000),
    ]);
    assert_eq!(reason(ring(&BENCH, &far, SOURCE, ENTRY_4, 0)), 0x27);
    let too_far = bench_with(&[(0x6048, 0x0000_0080_0000_0000)]);
    assert_eq!(reason(ring(&BENCH, &too_far, SOURCE, ENTRY_4, 0)), 0x24);
    // A descriptor over the interrupt entry itself: the post sets its bits
    // there, after the entry was read.
    let mut image = bench_with(&[
        (0x6040, 0x0000_6040_0002_8001),
        (0x6048, 0),
        (0x6060, 0x0000_0900_00AA_0000),
    ]);
    let notice = Some(Notice {
        vector: 0xAA,
        destination: 9,
    });
    assert_eq!(
        interrupt_request(&BENCH, &mut image, SOURCE, ENTRY_4, 0),
        posted(0x02, 0x6040, notice)
    );
    assert_eq!(common::get(&image, 0x6040), 0x0000_6040_0002_8005);
    assert_eq!(common::get(&image, 0x6060), 0x0000_0900_00AA_0001);
}
