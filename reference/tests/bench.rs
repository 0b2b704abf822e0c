//! The bench image and its twelve cases, in the paper's order.

mod common;

use common::{bench_image, fault, posted, record_words, BENCH, SOURCE};
use reference::{interrupt_request, memory_request, Notice, Outcome};

enum Expected {
    Granted(u64),
    Reason(u8),
    Words(u8, u64, u64),
}

use Expected::{Granted, Reason, Words};

/// Cases 1 to 9. (Case, source, write, address, image bytes, answer.)
#[test]
fn memory_cases() {
    let whole = 32_768;
    let rows = [
        (1, SOURCE, false, 0x40201ABC, whole, Granted(0x12345ABC)),
        (
            2,
            SOURCE,
            true,
            0x40201ABC,
            whole,
            Words(0x05, 0x40201000, 0x8000000500000310),
        ),
        (
            3,
            SOURCE,
            false,
            0x40202000,
            whole,
            Words(0x06, 0x40202000, 0xC000000600000310),
        ),
        (4, SOURCE, false, 0x40412345, whole, Granted(0x40612345)),
        (5, SOURCE, false, 0x40600000, whole, Reason(0x07)),
        (6, SOURCE, false, 0x40800000, whole, Reason(0x0C)),
        (7, SOURCE, false, 0x40BFF000, whole, Granted(0x23456000)),
        (7, SOURCE, false, 0x40BFF000, whole - 1, Reason(0x07)),
        (8, SOURCE, false, 0x7FFFFFFFFF, whole, Reason(0x06)),
        (8, SOURCE, false, 0x8000000000, whole, Reason(0x04)),
        (9, 0x0410, false, 0x40201ABC, whole, Reason(0x01)),
        (9, 0x0311, false, 0x40201ABC, whole, Reason(0x02)),
    ];
    for (case, source, write, address, length, expected) in rows {
        let image = bench_image();
        let answer = memory_request(&BENCH, &image[..length], source, address, write);
        match expected {
            Granted(host) => assert_eq!(answer, Outcome::Granted(host), "case {case}"),
            Reason(reason) => {
                let fault = fault(answer);
                assert_eq!(fault.reason, reason, "case {case}");
                assert!(fault.recordable, "case {case}");
            }
            Words(reason, first, second) => {
                let fault = fault(answer);
                assert_eq!(fault.reason, reason, "case {case}");
                assert!(fault.recordable, "case {case}");
                assert_eq!(record_words(&fault), [first, second], "case {case}");
            }
        }
    }
}

#[test]
fn case_10() {
    let mut image = bench_image();
    assert_eq!(
        interrupt_request(&BENCH, &mut image, SOURCE, 0xFEE00050, 0),
        Outcome::Remapped {
            destination_mode: false,
            redirection_hint: false,
            trigger: false,
            delivery: 0,
            vector: 0x41,
            destination: 7,
        }
    );
    let blocked = fault(interrupt_request(&BENCH, &mut image, 0x0311, 0xFEE00050, 0));
    assert_eq!(blocked.reason, 0x26);
    assert!(blocked.recordable);
    assert_eq!(image, bench_image());
}

#[test]
fn case_11() {
    let mut image = bench_image();
    let blocked = fault(interrupt_request(&BENCH, &mut image, SOURCE, 0xFEEFFFFC, 3));
    assert_eq!(blocked.reason, 0x21);
    assert!(blocked.recordable);
    assert_eq!(
        record_words(&blocked),
        [0xFFFF000000000000, 0x8000002100000310]
    );
    assert_eq!(image, bench_image());
}

#[test]
fn case_12() {
    let mut image = bench_image();
    let mut expected = bench_image();
    assert_eq!((expected[0x6406], expected[0x6420]), (0, 0));
    expected[0x6406] = 2;
    expected[0x6420] = 1;

    let notice = Some(Notice {
        vector: 0xF2,
        destination: 7,
    });
    assert_eq!(
        interrupt_request(&BENCH, &mut image, SOURCE, 0xFEE00090, 0),
        posted(0x31, 0x6400, notice)
    );
    assert_eq!(image, expected);

    // "Again: no change, no notice."
    assert_eq!(
        interrupt_request(&BENCH, &mut image, SOURCE, 0xFEE00090, 0),
        posted(0x31, 0x6400, None)
    );
    assert_eq!(image, expected);
}
