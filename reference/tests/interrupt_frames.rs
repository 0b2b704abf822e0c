//! Ask 10: "A translated frame with any byte in FEE00000h to FEEFFFFFh is to be
//! blocked. If 003 gives a reason for it use that ...; else house number 4,
//! never recorded. It is checked after rights at the leaf."

mod common;

use common::{bench_with, reason, BENCH, SOURCE};
use reference::{memory_request, named_words_memory, Outcome, Registers};

fn read(registers: &Registers, image: &[u8], address: u64) -> Outcome {
    memory_request(registers, image, SOURCE, address, false)
}

/// The bench's 4 KiB page with a frame of its own.
fn small(frame: u64) -> Outcome {
    read(&BENCH, &bench_with(&[(0x5008, frame | 1)]), 0x4020_1ABC)
}

/// 4 KiB frames: the two on either side of the range are granted, all between
/// them are not.
#[test]
fn small_frames() {
    for frame in (0xFEDF_E000..0xFEF0_2000).step_by(0x1000) {
        let expected = if (0xFEE0_0000..0xFEF0_0000).contains(&frame) {
            Outcome::Refused(4)
        } else {
            Outcome::Granted(frame + 0xABC)
        };
        assert_eq!(small(frame), expected, "{frame:X}");
    }
    // The range is that of 64-bit values: the same 32 bits higher up are not
    // in it.
    assert_eq!(small(0x1_FEE0_0000), Outcome::Granted(0x1_FEE0_0ABC));
    assert_eq!(small(0x40_FEE0_0000), Outcome::Granted(0x40_FEE0_0ABC));
}

/// 2 MiB frames: the range is the lower half of the one at FEE00000h, which is
/// blocked at every offset, its upper half included.
#[test]
fn frames_of_2_mib() {
    for (frame, blocked) in [
        (0xFEA0_0000, false),
        (0xFEC0_0000, false),
        (0xFEE0_0000, true),
        (0xFF00_0000, false),
        (0x1_FEE0_0000, false),
    ] {
        let image = bench_with(&[(0x4010, frame | 0x83)]);
        for offset in [0, 0xF_FFFF, 0x10_0000, 0x1F_FFFF] {
            let expected = if blocked {
                Outcome::Refused(4)
            } else {
                Outcome::Granted(frame + offset)
            };
            assert_eq!(read(&BENCH, &image, 0x4040_0000 + offset), expected);
        }
    }
}

/// 1 GiB frames: the range lies in the one at C0000000h, which is blocked at
/// every offset.
#[test]
fn frames_of_1_gib() {
    for (frame, blocked) in [
        (0x8000_0000, false),
        (0xC000_0000, true),
        (0x1_0000_0000, false),
    ] {
        let image = bench_with(&[(0x3008, frame | 0x83)]);
        for offset in [0, 0x3EDF_FFFF, 0x3EE0_0000, 0x3FFF_FFFF] {
            let expected = if blocked {
                Outcome::Refused(4)
            } else {
                Outcome::Granted(frame + offset)
            };
            // 7EE00000h and on is not the interrupt range.
            assert_eq!(read(&BENCH, &image, 0x4000_0000 + offset), expected);
        }
    }
}

/// "checked after rights at the leaf": and so after everything else a leaf is
/// asked for, and after every entry above it.
#[test]
fn after_all_else() {
    let image = bench_with(&[(0x5008, 0xFEE0_0001)]);
    let write = memory_request(&BENCH, &image, SOURCE, 0x4020_1ABC, true);
    assert_eq!(reason(write), 0x05);
    assert_eq!(read(&BENCH, &image, 0x4020_1ABC), Outcome::Refused(4));
    let write_only = bench_with(&[(0x5008, 0xFEE0_0002)]);
    assert_eq!(reason(read(&BENCH, &write_only, 0x4020_1ABC)), 0x06);
    let absent = bench_with(&[(0x5008, 0xFEE0_0000)]);
    assert_eq!(reason(read(&BENCH, &absent, 0x4020_1ABC)), 0x06);
    // A large page with a low frame bit is 0Ch.
    let crooked = bench_with(&[(0x4010, 0xFEE0_1083)]);
    assert_eq!(reason(read(&BENCH, &crooked, 0x4041_2345)), 0x0C);
    let unsupported = Registers {
        pages_2m: false,
        ..BENCH
    };
    let large = bench_with(&[(0x4010, 0xFEE0_0083)]);
    assert_eq!(reason(read(&unsupported, &large, 0x4041_2345)), 0x0C);
    // A right missing above.
    let above = bench_with(&[(0x4008, 0x5002), (0x5008, 0xFEE0_0003)]);
    assert_eq!(reason(read(&BENCH, &above, 0x4020_1ABC)), 0x06);
}

/// Only leaves are asked: a table may be in the range, and is an access fault
/// here because the image doesn't reach it.
#[test]
fn tables_are_not_asked() {
    for at in [0x3008, 0x4008] {
        let image = bench_with(&[(at, 0xFEE0_0003)]);
        assert_eq!(reason(read(&BENCH, &image, 0x4020_1ABC)), 0x07);
    }
    let top = bench_with(&[(0x2100, 0xFEE0_0001)]);
    assert_eq!(reason(read(&BENCH, &top, 0x4020_1ABC)), 0x07);
}

/// FPD has nothing to silence, and the words read are those of the same walk
/// to another frame.
#[test]
fn nothing_recorded() {
    for context in [0x3001, 0x3003] {
        let image = bench_with(&[(0x2100, context), (0x5008, 0xFEEF_F003)]);
        let other = bench_with(&[(0x2100, context), (0x5008, 0xFEF0_0003)]);
        for write in [false, true] {
            let answer = memory_request(&BENCH, &image, SOURCE, 0x4020_1ABC, write);
            assert_eq!(answer, Outcome::Refused(4));
            assert_eq!(
                named_words_memory(&BENCH, &image, SOURCE, 0x4020_1ABC, write),
                named_words_memory(&BENCH, &other, SOURCE, 0x4020_1ABC, write)
            );
        }
    }
}

/// Pass-through and TE off: no frame. (An address in the range itself is
/// number 2.)
#[test]
fn without_a_frame() {
    let through = bench_with(&[(0x2100, 0x3009)]);
    for address in [0xFEDF_FFFF, 0xFEF0_0000] {
        assert_eq!(read(&BENCH, &through, address), Outcome::Granted(address));
    }
    assert_eq!(read(&BENCH, &through, 0xFEE0_0000), Outcome::Refused(2));
    let off = Registers { te: false, ..BENCH };
    assert_eq!(read(&off, &[], 0xFEF0_0000), Outcome::Granted(0xFEF0_0000));
    // Number 2 comes first where both apply.
    let image = bench_with(&[(0x3018, 0xC000_0083)]);
    assert_eq!(read(&BENCH, &image, 0xFEE0_0000), Outcome::Refused(2));
    assert_eq!(read(&BENCH, &image, 0xC000_0000), Outcome::Refused(4));
}
