//! Ask 1: translation requests.

mod common;

use common::{bench_with, get, record_words, set, Random, BENCH, SOURCE};
use reference::{
    memory_request, named_words_memory, named_words_translation_in, translation_request,
    translation_request_in, Fault, Outcome, Registers, Translation, Window,
};

/// The bench image with TT 1, and some words changed.
fn with(words: &[(usize, u64)]) -> Vec<u8> {
    let mut image = bench_with(&[(0x2100, 0x3005)]);
    for &(address, value) in words {
        set(&mut image, address, value);
    }
    image
}

fn translate(image: &[u8], address: u64) -> Translation {
    translation_request(&BENCH, image, SOURCE, address)
}

fn answered(frame: u64, size: u64, rights: &str) -> Translation {
    Translation::Answered {
        frame,
        size,
        read: rights.starts_with('R'),
        write: rights.ends_with('W'),
    }
}

/// "both bits off, frame and size 0, no fault and no record"
const EMPTY: Translation = Translation::Answered {
    frame: 0,
    size: 0,
    read: false,
    write: false,
};

fn fault(answer: Translation) -> Fault {
    match answer {
        Translation::Blocked(fault) => fault,
        other => panic!("not blocked: {other:x?}"),
    }
}

/// Reason, whether it may be recorded, and entry.
fn stopped(answer: Translation) -> (u8, bool, Option<u64>) {
    let fault = fault(answer);
    (fault.reason, fault.recordable, fault.entry)
}

/// The bench's addresses, with TT 1.
#[test]
fn bench() {
    let image = with(&[]);
    let rows = [
        (0x4020_1ABC, answered(0x1234_5000, 0x1000, "R-")),
        (0x4020_2000, EMPTY),
        (0x4041_2345, answered(0x4060_0000, 0x20_0000, "RW")),
        (0x40BF_F000, answered(0x2345_6000, 0x1000, "RW")),
        (0x7F_FFFF_FFFF, EMPTY),
        (0x80_0000_0000, EMPTY),
        (u64::MAX, EMPTY),
    ];
    for (address, expected) in rows {
        assert_eq!(translate(&image, address), expected, "{address:X}");
    }
    assert_eq!(
        stopped(translate(&image, 0x4060_0000)),
        (0x07, true, Some(0x9000))
    );
    assert_eq!(
        stopped(translate(&image, 0x4080_0000)),
        (0x0C, true, Some(0x4020))
    );
    // Case 7's image, one byte shorter; case 9's sources.
    assert_eq!(
        stopped(translate(&image[..0x7FFF], 0x40BF_F000)),
        (0x07, true, Some(0x7FF8))
    );
    for (source, reason, entry) in [(0x0410, 0x01, 0x1040), (0x0311, 0x02, 0x2110)] {
        let answer = translation_request(&BENCH, &image, source, 0x4020_1ABC);
        assert_eq!(stopped(answer), (reason, true, Some(entry)));
    }
}

/// "AT goes in record bits 125:124; bit 126 is set."
#[test]
fn records() {
    let tt0 = bench_with(&[]);
    let record = record_words(&fault(translate(&tt0, 0x4020_1ABC)));
    assert_eq!(record, [0x4020_1000, 0xD000_000D_0000_0310]);
    let image = with(&[]);
    let record = record_words(&fault(translate(&image, 0x4060_0000)));
    assert_eq!(record, [0x4060_0000, 0xD000_0007_0000_0310]);
    let record = record_words(&fault(translate(&image, 0x4080_0FFF)));
    assert_eq!(record, [0x4080_0000, 0xD000_000C_0000_0310]);
    let answer = translation_request(&BENCH, &image, 0x0410, u64::MAX);
    let record = record_words(&fault(answer));
    assert_eq!(record, [0xFFFF_FFFF_FFFF_F000, 0xD000_0001_0000_0410]);
    // An untranslated request's record is as it was: AT 0.
    let Outcome::Blocked(read) = memory_request(&BENCH, &image, SOURCE, 0x4060_0000, false) else {
        panic!();
    };
    assert_eq!(
        record_words(&read),
        [0x4060_0000, 0xC000_0007_0000_0310],
        "untranslated"
    );
}

/// "context type 0 or 2 is 0Dh, right after 03h and silenced by FPD, 3 stays
/// 03h".
#[test]
fn context_types() {
    for fpd in [0, 2] {
        let context = |tt: u64| with(&[(0x2100, 0x3001 | tt << 2 | fpd)]);
        let recordable = fpd == 0;
        for address in [0x4020_1ABC, 0x4060_0000, 1 << 39, u64::MAX] {
            for tt in [0, 2] {
                // Before the width, and no page entry is read.
                let image = context(tt);
                let answer = translate(&image, address);
                assert_eq!(stopped(answer), (0x0D, recordable, Some(0x2100)));
                let windows = [Window {
                    start: 0,
                    from: 0,
                    length: 0x8000,
                }];
                let words = named_words_translation_in(&BENCH, &windows, &image, SOURCE, address);
                assert_eq!(words, [0x1030, 0x1038, 0x2100, 0x2108]);
            }
            let answer = translate(&context(3), address);
            assert_eq!(stopped(answer), (0x03, recordable, Some(0x2100)));
        }
        assert_eq!(
            translate(&context(1), 0x4020_1ABC),
            answered(0x1234_5000, 0x1000, "R-")
        );
        // After 03h and 0Bh: an unsupported AW, a reserved bit.
        for tt in [0, 1, 2, 3] {
            let mut image = context(tt);
            set(&mut image, 0x2108, 0x503);
            let answer = translate(&image, 0x4020_1ABC);
            assert_eq!(stopped(answer), (0x03, recordable, Some(0x2100)));
            set(&mut image, 0x2108, 0x581);
            let answer = translate(&image, 0x4020_1ABC);
            assert_eq!(stopped(answer), (0x0B, recordable, Some(0x2100)));
            // Bit 0 clear.
            set(&mut image, 0x2100, 0x3000 | tt << 2 | fpd);
            let answer = translate(&image, 0x4020_1ABC);
            assert_eq!(stopped(answer), (0x02, recordable, Some(0x2100)));
        }
    }
}

/// "the read and write rights joined over all levels", with every choice of
/// rights in the three entries of the bench's first walk, and "if an entry's
/// bits 1:0 are both clear, or after its reserved check no joined right is
/// left" the empty answer.
#[test]
fn joined_rights() {
    for choice in 0..64 {
        let rights = [choice & 3, choice >> 2 & 3, choice >> 4 & 3];
        let image = with(&[
            (0x3008, 0x4000 | rights[0]),
            (0x4008, 0x5000 | rights[1]),
            (0x5008, 0x1234_5000 | rights[2]),
        ]);
        let expected = match rights[0] & rights[1] & rights[2] {
            0 => EMPTY,
            1 => answered(0x1234_5000, 0x1000, "R-"),
            2 => answered(0x1234_5000, 0x1000, "-W"),
            _ => answered(0x1234_5000, 0x1000, "RW"),
        };
        assert_eq!(translate(&image, 0x4020_1ABC), expected, "{rights:?}");
    }
}

/// The walk stops as soon as no joined right is left: what lies below is not
/// read. The same entry's 0Ch comes first, and a join that is only reduced
/// hides nothing.
#[test]
fn order_on_the_way() {
    // Read only above, write only here: empty, though the table below lies
    // outside, or its entry has a reserved bit.
    for next in [0x9000, 0x5000] {
        let image = with(&[(0x3008, 0x4001), (0x4008, next | 2), (0x5008, 1 << 39 | 3)]);
        assert_eq!(translate(&image, 0x4020_1ABC), EMPTY);
        let words = named_words_translation_in(
            &BENCH,
            &[Window {
                start: 0,
                from: 0,
                length: 0x8000,
            }],
            &image,
            SOURCE,
            0x4020_1ABC,
        );
        assert_eq!(words, [0x1030, 0x1038, 0x2100, 0x2108, 0x3008, 0x4008]);
    }
    // A reserved bit in that same entry: 0Ch.
    let image = with(&[(0x3008, 0x4001), (0x4008, 1 << 39 | 0x5002)]);
    assert_eq!(
        stopped(translate(&image, 0x4020_1ABC)),
        (0x0C, true, Some(0x4008))
    );
    // Bits 1:0 both clear come before the reserved check.
    let image = with(&[(0x4008, 1 << 39 | 0x5000)]);
    assert_eq!(translate(&image, 0x4020_1ABC), EMPTY);
    // Reduced to one right: 07h and 0Ch stay faults, with FPD silenced ones.
    for right in [1, 2] {
        let image = with(&[(0x3008, 0x4000 | right)]);
        assert_eq!(
            stopped(translate(&image, 0x4060_0000)),
            (0x07, true, Some(0x9000))
        );
        assert_eq!(
            stopped(translate(&image, 0x4080_0000)),
            (0x0C, true, Some(0x4020))
        );
        let image = with(&[(0x2100, 0x3007), (0x3008, 0x4000 | right)]);
        assert_eq!(
            stopped(translate(&image, 0x4060_0000)),
            (0x07, false, Some(0x9000))
        );
    }
    // A top table outside the image is 07h.
    let image = with(&[(0x2100, 0xF_0005)]);
    assert_eq!(
        stopped(translate(&image, 0x4020_1ABC)),
        (0x07, true, Some(0xF_0008))
    );
}

/// Size and frame of each page size; the frame is the page's first byte.
#[test]
fn sizes() {
    let image = with(&[(0x3008, 0x7F_4000_0083), (0x4010, 0x4060_0082)]);
    for offset in [0, 1, 0x1234_5678, 0x3FFF_FFFF] {
        assert_eq!(
            translate(&image, 0x4000_0000 + offset),
            answered(0x7F_4000_0000, 0x4000_0000, "RW")
        );
    }
    let image = with(&[(0x4010, 0x4060_0082)]);
    assert_eq!(
        translate(&image, 0x405F_FFFF),
        answered(0x4060_0000, 0x20_0000, "-W")
    );
}

/// "House number 2, TE off and the untranslated order stay."
#[test]
fn refusals_and_switches() {
    let image = with(&[]);
    for address in [0xFEE0_0000, 0xFEEF_FFFF] {
        assert_eq!(translate(&image, address), Translation::Refused(2));
    }
    let bad = Registers { haw: 35, ..BENCH };
    for address in [0xFEE0_0000, 0x4020_1ABC] {
        let answer = translation_request(&bad, &image, SOURCE, address);
        assert_eq!(answer, Translation::Refused(1));
    }
    let off = Registers { te: false, ..BENCH };
    for address in [0, 0x4020_1ABC, u64::MAX] {
        let answer = translation_request(&off, &[], SOURCE, address);
        assert_eq!(answer, Translation::Passed(address));
    }
    let answer = translation_request(&off, &[], SOURCE, 0xFEE0_0000);
    assert_eq!(answer, Translation::Refused(2));
    // Bad windows.
    let window = Window {
        start: 8,
        from: 0,
        length: 8,
    };
    for registers in [BENCH, off] {
        let answer = translation_request_in(&registers, &[window], &image, SOURCE, 0xFEE0_0000);
        assert_eq!(answer, Translation::Refused(1));
    }
}

/// Ask 10's number 4, after "no joined right is left".
#[test]
fn frames_on_the_interrupt_range() {
    let image = with(&[(0x5008, 0xFEE0_0001)]);
    assert_eq!(translate(&image, 0x4020_1ABC), Translation::Refused(4));
    let image = with(&[(0x4010, 0xFEE0_0083)]);
    assert_eq!(translate(&image, 0x4041_2345), Translation::Refused(4));
    let image = with(&[(0x4008, 0x5002), (0x5008, 0xFEE0_0001)]);
    assert_eq!(translate(&image, 0x4020_1ABC), EMPTY);
    let image = with(&[(0x5008, 0xFEF0_0003)]);
    assert_eq!(
        translate(&image, 0x4020_1ABC),
        answered(0xFEF0_0000, 0x1000, "RW")
    );
}

/// Over images made up at random, a translation says what reads and writes to
/// the same address are answered.
#[test]
fn beside_untranslated_requests() {
    let mut random = Random(0xA75);
    let mut met = [0; 6];
    for _ in 0..30_000 {
        let page = |random: &mut Random| 0x1000 * random.below(9);
        let mut image = with(&[]);
        let tt = random.pick(&[1, 1, 1, 1, 1, 1, 0, 2, 3]);
        set(&mut image, 0x2100, 0x3001 | tt << 2);
        for at in [0x3008, 0x4008, 0x5008] {
            let rights = random.pick(&[3, 3, 3, 3, 1, 2, 0]);
            let large = random.pick(&[0, 0, 0x80]);
            let frame = match random.below(4) {
                0 => random.word() & 0xFF_C000_0000,
                1 => 0xFEE0_0000,
                _ => page(&mut random),
            };
            set(&mut image, at, frame | large | rights);
        }
        let entry = get(&image, 0x4008);
        if random.coin() {
            set(&mut image, 0x4008, (entry & 3) | 0x5000);
        }
        if random.coin() {
            let rights = get(&image, 0x3008) & 3;
            set(&mut image, 0x3008, 0x4000 | rights);
        }
        let address = random.pick(&[0x4020_1ABC, 0x4020_1000, 0x4020_1FFF, 1 << 39]);
        let answer = translate(&image, address);
        let outcomes = [false, true].map(|w| memory_request(&BENCH, &image, SOURCE, address, w));
        let reasons = outcomes.clone().map(|outcome| match outcome {
            Outcome::Blocked(fault) => fault.reason,
            _ => 0,
        });
        match answer {
            Translation::Answered {
                frame,
                size,
                read,
                write,
            } => {
                met[usize::from(read) + 2 * usize::from(write)] += 1;
                assert_eq!(tt, 1);
                for ((outcome, reason), right) in outcomes.iter().zip(reasons).zip([read, write]) {
                    if right {
                        let low = address & (size - 1);
                        assert_eq!(*outcome, Outcome::Granted(frame + low));
                        assert_eq!(frame & (size - 1), 0);
                    } else {
                        assert!(matches!(reason, 0x04..=0x06), "{reason:X}");
                    }
                }
            }
            Translation::Blocked(fault) if fault.reason == 0x0D => assert!(tt == 0 || tt == 2),
            Translation::Blocked(fault) => {
                met[4] += 1;
                assert!(reasons.contains(&fault.reason));
                let words = named_words_translation_in(
                    &BENCH,
                    &[Window {
                        start: 0,
                        from: 0,
                        length: 0x8000,
                    }],
                    &image,
                    SOURCE,
                    address,
                );
                let alike =
                    [false, true].map(|w| named_words_memory(&BENCH, &image, SOURCE, address, w));
                assert!(alike.contains(&words));
            }
            Translation::Refused(number) => {
                met[5] += 1;
                assert_eq!(number, 4);
                assert!(outcomes.contains(&Outcome::Refused(4)));
            }
            Translation::Passed(_) => panic!(),
        }
    }
    assert!(met.iter().all(|&count| count > 300), "{met:?}");
}
