//! Ask 9: "The image becomes none to four windows, each with a host start, a
//! multiple of 4096, and a non-empty part of the one lent run, sorted by start,
//! overlapping neither in host addresses nor in the run; any others, or an end
//! past the run or 2^64, are refusal 1. An entry is fetched exactly if it lies
//! whole in a single window."

mod common;

use common::{bench_image, bench_with, fault, get, posted, BENCH, SOURCE};
use reference::{
    interrupt_request, interrupt_request_in, memory_request, memory_request_in,
    named_words_interrupt_in, named_words_memory_in, take_in, Notice, Outcome, Registers, Slip,
    Take, Window,
};

const ADDRESS: u64 = 0x4020_1ABC;

fn window(start: u64, from: u64, length: u64) -> Window {
    Window {
        start,
        from,
        length,
    }
}

fn read(registers: &Registers, windows: &[Window], run: &[u8], address: u64) -> Outcome {
    memory_request_in(Slip::None, registers, windows, run, SOURCE, address, false)
}

fn ring(registers: &Registers, windows: &[Window], run: &mut [u8], address: u64) -> Outcome {
    interrupt_request_in(Slip::None, registers, windows, run, SOURCE, address, 0)
}

/// The registers' settings under which windows are looked at.
fn switches() -> [Registers; 2] {
    let off = Registers {
        te: false,
        ire: false,
        ..BENCH
    };
    [BENCH, off]
}

/// Whether windows onto a run of 8000h bytes are refusal 1, for memory requests,
/// interrupts and takes, with TE and IRE on or off, before numbers 2 and 5.
fn refused(windows: &[Window]) -> bool {
    let mut answers = Vec::new();
    for registers in switches() {
        let mut run = vec![0; 0x8000];
        for descriptor in [0x1000, 0x1001] {
            let taken = take_in(&registers, windows, &mut run, descriptor);
            answers.push(match taken {
                Take::Refused(number) => Outcome::Refused(number),
                _ => Outcome::Passed,
            });
        }
        for address in [ADDRESS, 0xFEE0_0000] {
            answers.push(read(&registers, windows, &run, address));
            answers.push(ring(&registers, windows, &mut run, address));
        }
        assert_eq!(run, vec![0; 0x8000]);
        for address in [ADDRESS, 0xFEE0_0090] {
            if answers.contains(&Outcome::Refused(1)) {
                let words = named_words_memory_in(&registers, windows, &run, 0, address, true);
                assert!(words.is_empty());
                let words = named_words_interrupt_in(&registers, windows, &run, 0, address, 0);
                assert!(words.is_empty());
            }
        }
    }
    let refused = answers[0] == Outcome::Refused(1);
    for answer in answers {
        assert_eq!(answer == Outcome::Refused(1), refused, "{windows:X?}");
    }
    refused
}

#[test]
fn good_windows() {
    let good: [&[Window]; 15] = [
        // None to four.
        &[],
        &[window(0, 0, 0x8000)],
        &[window(0, 0, 0x1000), window(0x1000, 0x1000, 0x1000)],
        &[
            window(0, 0, 0x1000),
            window(0x1000, 0x1000, 0x1000),
            window(0x2000, 0x2000, 0x1000),
        ],
        &[
            window(0, 0, 0x1000),
            window(0x1000, 0x1000, 0x1000),
            window(0x2000, 0x2000, 0x1000),
            window(0x3000, 0x3000, 0x5000),
        ],
        // Only the host start is a multiple of 4096.
        &[window(0x1000, 1, 1)],
        &[window(0x7000, 0x7FFF, 1)],
        // In the run in any order, with gaps.
        &[window(0x1000, 0x4001, 0x1000), window(0x9000, 0x11, 0x3FF0)],
        // Touching, in host addresses and in the run.
        &[
            window(0x1000, 0x1000, 0x1000),
            window(0x2000, 0x0FFF, 1),
            window(0x3000, 0x2000, 0x6000),
        ],
        // A window that ends inside a page, and the next page.
        &[window(0, 0, 0x0FFF), window(0x1000, 0x0FFF, 0x1001)],
        // Up to 2^64, and no further.
        &[window(0xFFFF_FFFF_FFFF_F000, 0, 0x1000)],
        &[window(0xFFFF_FFFF_FFFF_8000, 0, 0x8000)],
        // At and above 2^HAW.
        &[window(1 << 39, 0, 0x1000)],
        &[window(0, 0, 0x1000), window(1 << 52, 0x1000, 0x1000)],
        // On the interrupt range.
        &[window(0xFEE0_0000, 0, 0x8000)],
    ];
    for windows in good {
        assert!(!refused(windows), "{windows:X?}");
    }
}

#[test]
fn bad_windows() {
    let bad: [&[Window]; 24] = [
        // A fifth.
        &[
            window(0, 0, 1),
            window(0x1000, 1, 1),
            window(0x2000, 2, 1),
            window(0x3000, 3, 1),
            window(0x4000, 4, 1),
        ],
        // A start that isn't a multiple of 4096.
        &[window(1, 0, 0x1000)],
        &[window(8, 0, 0x1000)],
        &[window(0x800, 0, 0x1000)],
        &[window(0, 0, 0x1000), window(0x2FFF, 0x1000, 1)],
        // Empty.
        &[window(0, 0, 0)],
        &[window(0, 0, 0x1000), window(0x1000, 0x1000, 0)],
        &[window(0x1000, 0x8000, 0)],
        // Past the run.
        &[window(0, 0, 0x8001)],
        &[window(0, 1, 0x8000)],
        &[window(0, 0x8000, 1)],
        &[window(0, u64::MAX, 1)],
        &[window(0, u64::MAX, u64::MAX)],
        // Past 2^64.
        &[window(0xFFFF_FFFF_FFFF_F000, 0, 0x1001)],
        &[
            window(0, 0, 1),
            window(0xFFFF_FFFF_FFFF_F000, 0x1000, 0x2000),
        ],
        // Not sorted.
        &[window(0x1000, 0, 0x1000), window(0, 0x1000, 0x1000)],
        &[
            window(0, 0, 0x1000),
            window(0x2000, 0x1000, 0x1000),
            window(0x1000, 0x2000, 0x1000),
        ],
        // The same start twice.
        &[window(0x1000, 0, 0x1000), window(0x1000, 0x1000, 0x1000)],
        // Overlapping in host addresses: by a byte, and wholly.
        &[window(0, 0, 0x1001), window(0x1000, 0x2000, 0x1000)],
        &[window(0, 0, 0x4000), window(0x1000, 0x4000, 0x1000)],
        // The first and the third.
        &[
            window(0, 0, 0x3000),
            window(0x3000, 0x3000, 0x2001),
            window(0x5000, 0x5001, 1),
        ],
        // Overlapping in the run: by a byte, wholly, the first and the last.
        &[window(0, 0, 0x1000), window(0x1000, 0xFFF, 0x1000)],
        &[window(0, 0, 0x1000), window(0x1000, 0, 0x1000)],
        &[
            window(0, 0x3000, 0x1000),
            window(0x1000, 0, 0x1000),
            window(0x2000, 0x1000, 0x1000),
            window(0x3000, 0x3FFF, 0x1000),
        ],
    ];
    for windows in bad {
        assert!(refused(windows), "{windows:X?}");
    }
}

/// "any others ... are refusal 1" holds for the run they are onto: a window
/// that fits a longer run.
#[test]
fn shorter_run() {
    let windows = [window(0, 0, 0x8000)];
    let image = bench_image();
    assert_eq!(
        read(&BENCH, &windows, &image, ADDRESS),
        Outcome::Granted(0x1234_5ABC)
    );
    assert_eq!(
        read(&BENCH, &windows, &image[..0x7FFF], ADDRESS),
        Outcome::Refused(1)
    );
}

/// The bench image's pages at the same host addresses, in the run in another
/// order, and without the pages that no case reads.
fn bench_in_windows() -> (Vec<Window>, Vec<u8>) {
    let image = bench_image();
    let mut run = vec![0xEE; 5];
    run.extend(&image[0x7000..0x8000]);
    run.extend(&image[0x3000..0x6000]);
    run.extend([0xEE; 3]);
    run.extend(&image[0x6000..0x6440]);
    run.extend(&image[0x1000..0x3000]);
    run.extend([0xEE; 7]);
    let windows = vec![
        window(0x1000, 0x4448, 0x2000),
        window(0x3000, 0x1005, 0x3000),
        window(0x6000, 0x4008, 0x440),
        window(0x7000, 5, 0x1000),
    ];
    (windows, run)
}

/// "The old image is one window from 0, and its cases stay." Here they are
/// through four windows, answer for answer.
#[test]
fn bench_cases() {
    let (windows, run) = bench_in_windows();
    let image = bench_image();
    for source in [SOURCE, 0x0410, 0x0311] {
        for address in [
            0x4020_1ABC,
            0x4020_2000,
            0x4041_2345,
            0x4060_0000,
            0x4080_0000,
            0x40BF_F000,
            0x7F_FFFF_FFFF,
            0x80_0000_0000,
        ] {
            for write in [false, true] {
                let none = Slip::None;
                let answer =
                    memory_request_in(none, &BENCH, &windows, &run, source, address, write);
                let expected = memory_request(&BENCH, &image, source, address, write);
                assert_eq!(answer, expected, "{source:X} {address:X}");
            }
        }
    }
    for (source, address, data) in [
        (SOURCE, 0xFEE0_0050, 0),
        (0x0311, 0xFEE0_0050, 0),
        (SOURCE, 0xFEEF_FFFC, 3),
    ] {
        let mut after = run.clone();
        let none = Slip::None;
        let answer =
            interrupt_request_in(none, &BENCH, &windows, &mut after, source, address, data);
        let mut flat = bench_image();
        let expected = interrupt_request(&BENCH, &mut flat, source, address, data);
        assert_eq!(answer, expected);
        assert!(after == run);
    }
    // Case 12: host byte 6406h is byte 440Eh of the run, 6420h is 4428h.
    let mut after = run.clone();
    let mut expected = run.clone();
    expected[0x440E] = 2;
    expected[0x4428] = 1;
    let notice = Some(Notice {
        vector: 0xF2,
        destination: 7,
    });
    assert_eq!(
        ring(&BENCH, &windows, &mut after, 0xFEE0_0090),
        posted(0x31, 0x6400, notice)
    );
    assert!(after == expected);
    assert_eq!(
        ring(&BENCH, &windows, &mut after, 0xFEE0_0090),
        posted(0x31, 0x6400, None)
    );
    assert!(after == expected);
}

/// Each window left out by itself: an access fault at the first entry in it.
#[test]
fn holes() {
    let (windows, run) = bench_in_windows();
    let without = |n: usize| {
        let mut left = windows.clone();
        left.remove(n);
        left
    };
    let stopped = |windows: &[Window], address| {
        let fault = fault(read(&BENCH, windows, &run, address));
        (fault.reason, fault.entry)
    };
    assert_eq!(stopped(&without(0), ADDRESS), (0x08, Some(0x1030)));
    assert_eq!(stopped(&without(1), ADDRESS), (0x07, Some(0x3008)));
    assert_eq!(
        read(&BENCH, &without(2), &run, ADDRESS),
        Outcome::Granted(0x1234_5ABC)
    );
    assert_eq!(
        read(&BENCH, &without(3), &run, ADDRESS),
        Outcome::Granted(0x1234_5ABC)
    );
    assert_eq!(stopped(&without(3), 0x40BF_F000), (0x07, Some(0x7FF8)));
    let mut after = run.clone();
    let answer = fault(ring(&BENCH, &without(2), &mut after, 0xFEE0_0090));
    assert_eq!((answer.reason, answer.entry), (0x23, Some(0x6040)));
    assert!(after == run);
    // No window: no entry can be fetched, whatever the run holds.
    assert_eq!(stopped(&[], ADDRESS), (0x08, Some(0x1030)));
    let answer = fault(ring(&BENCH, &[], &mut after, 0xFEE0_0090));
    assert_eq!((answer.reason, answer.entry), (0x23, Some(0x6040)));
    assert!(after == run);
    // With TE and IRE off none is needed.
    let off = Registers {
        te: false,
        ire: false,
        ..BENCH
    };
    assert_eq!(read(&off, &[], &[], ADDRESS), Outcome::Granted(ADDRESS));
    assert_eq!(ring(&off, &[], &mut [], 0xFEE0_0090), Outcome::Passed);
}

/// "exactly if it lies whole in a single window": a window that ends with the
/// entry, and one byte before.
#[test]
fn ends_of_windows() {
    let image = bench_image();
    for (address, entry, width, reason) in [
        (ADDRESS, 0x1030, 16, 0x08),
        (ADDRESS, 0x2100, 16, 0x09),
        (ADDRESS, 0x3008, 8, 0x07),
        (ADDRESS, 0x4008, 8, 0x07),
        (ADDRESS, 0x5008, 8, 0x07),
        (0x40BF_F000, 0x7FF8, 8, 0x07),
    ] {
        let page = entry / 0x1000 * 0x1000;
        let cut = |end: u64| {
            let mut windows = vec![];
            if page > 0 {
                windows.push(window(0, 0, page));
            }
            windows.push(window(page, page, end - page));
            if page + 0x1000 < 0x8000 {
                windows.push(window(page + 0x1000, page + 0x1000, 0x7000 - page));
            }
            read(&BENCH, &windows, &image, address)
        };
        assert!(matches!(cut(entry + width), Outcome::Granted(_)));
        let short = fault(cut(entry + width - 1));
        assert_eq!((short.reason, short.entry), (reason, Some(entry)));
    }
    // The descriptor at 6400h to 643Fh.
    for (end, posted) in [(0x6440, true), (0x643F, false)] {
        let mut run = bench_image();
        let windows = [window(0x6000, 0x6000, end - 0x6000)];
        let answer = ring(&BENCH, &windows, &mut run, 0xFEE0_0090);
        if posted {
            assert!(matches!(answer, Outcome::Posted { .. }));
        } else {
            assert_eq!(fault(answer).reason, 0x27);
            assert!(run == bench_image());
        }
    }
}

/// A table high up in host memory: HAW 52, root table in the last page below
/// 2^52, context table at 2^40.
#[test]
fn high_tables() {
    let registers = Registers {
        haw: 52,
        root: 0xF_FFFF_FFFF_F000,
        ..BENCH
    };
    let mut run = vec![0; 0x3000];
    common::set(&mut run, 0x2030, 1 << 40 | 1);
    common::set(&mut run, 0x0100, 0x100_0000_1000 | 1);
    common::set(&mut run, 0x0108, 1);
    common::set(&mut run, 0x1008, 0xB_CDEF_C000_0083);
    let windows = [
        window(1 << 40, 0, 0x2000),
        window(0xF_FFFF_FFFF_F000, 0x2000, 0x1000),
    ];
    assert_eq!(
        read(&registers, &windows, &run, 0x4020_1ABC),
        Outcome::Granted(0xB_CDEF_C020_1ABC)
    );
    assert_eq!(
        named_words_memory_in(&registers, &windows, &run, SOURCE, 0x4020_1ABC, false),
        [
            0xF_FFFF_FFFF_F030,
            0xF_FFFF_FFFF_F038,
            0x100_0000_0100,
            0x100_0000_0108,
            0x100_0000_1008
        ]
    );
}

/// Posts through windows change nothing but the descriptor's bits in the run,
/// where another window's bytes lie right beside them.
#[test]
fn posts_stay_in_their_window() {
    let image = bench_with(&[(0x6040, 0x0000_9000_00FF_8001)]);
    let mut run = image.clone();
    run.extend([0xFF; 64]);
    // The descriptor's 64 bytes are a window of their own at 9000h.
    let windows = [window(0, 0, 0x8000), window(0x9000, 0x8000, 64)];
    run[0x8000..].copy_from_slice(&image[0x6400..0x6440]);
    let before = run.clone();
    let answer = ring(&BENCH, &windows, &mut run, 0xFEE0_0090);
    let notice = Some(Notice {
        vector: 0xF2,
        destination: 7,
    });
    assert_eq!(answer, posted(0xFF, 0x9000, notice));
    let mut expected = before;
    expected[0x801F] |= 0x80;
    expected[0x8020] |= 1;
    assert!(run == expected);
    assert_eq!(get(&run, 0x6400), 0);
}

/// A take wants its descriptor whole in a single window, and writes there alone; it looks at no HAW, so
/// that the last descriptor below 2^64 can be taken from.
#[test]
fn takes() {
    let top = 0u64.wrapping_sub(0x1000);
    // In the run the window at the top comes first, and its last 64 bytes are the descriptor.
    let windows = [window(0x2000, 0x1000, 0x7F), window(top, 0, 0x1000)];
    let mut run = vec![0xEE; 0x1100];
    for (place, host) in [(0x0FC0, 0u64.wrapping_sub(64)), (0x1000, 0x2000)] {
        run[place..place + 64].fill(0);
        // Vector 31h, and ON with SN.
        run[place + 6] = 2;
        run[place + 32] = 3;
        let mut expected = run.clone();
        expected[place + 6] = 0;
        expected[place + 32] = 2;
        let taken = take_in(&BENCH, &windows, &mut run, host);
        assert_eq!(taken, Take::Vector(0x31));
        assert!(run == expected);
        let taken = take_in(&BENCH, &windows, &mut run, host);
        assert_eq!(taken, Take::None);
        assert!(run == expected);
    }
    // One byte short, in a hole, and not aligned.
    let before = run.clone();
    for descriptor in [0x2040, 0x2080, 0, 0x3000, 0x2001, u64::MAX] {
        let taken = take_in(&BENCH, &windows, &mut run, descriptor);
        assert_eq!(taken, Take::Refused(5), "{descriptor:X}");
    }
    assert!(run == before);
}
