//! Ask 2: "In 003 that bit is URG. A notice is due when ON is clear and either
//! URG is set or SN is clear. ... Case 12 stays; add rows for URG with SN set,
//! and for ON already set."

mod common;

use common::{bench_with, get, posted, reason, BENCH, SOURCE};
use reference::{interrupt_request, Notice, Outcome};

const ENTRY_4: u64 = 0xFEE0_0090;

/// The notice of the bench's descriptor: F2 to 7.
const NOTICE: Notice = Notice {
    vector: 0xF2,
    destination: 7,
};

/// Word 6040h, word 6420h, and word 6420h after FEE00090, and whether there is
/// a notice. Byte 6406h becomes 2 in every row.
const ROWS: [(u64, u64, u64, bool); 8] = [
    // Case 12: neither URG nor SN nor ON; and again.
    (0x0000_6400_0031_8001, 0xF2_0000, 0xF2_0001, true),
    (0x0000_6400_0031_8001, 0xF2_0001, 0xF2_0001, false),
    // SN holds the notice back.
    (0x0000_6400_0031_8001, 0xF2_0002, 0xF2_0002, false),
    (0x0000_6400_0031_8001, 0xF2_0003, 0xF2_0003, false),
    // URG, without SN.
    (0x0000_6400_0031_C001, 0xF2_0000, 0xF2_0001, true),
    // URG with SN set.
    (0x0000_6400_0031_C001, 0xF2_0002, 0xF2_0003, true),
    // URG, and ON already set, without SN and with.
    (0x0000_6400_0031_C001, 0xF2_0001, 0xF2_0001, false),
    (0x0000_6400_0031_C001, 0xF2_0003, 0xF2_0003, false),
];

/// Bits 319:288 of the bench's descriptor, which stay.
const DESTINATION: u64 = 0x0000_0700_0000_0000;

#[test]
fn rows() {
    for (entry, before, after, notified) in ROWS {
        let mut image = bench_with(&[(0x6040, entry), (0x6420, DESTINATION | before)]);
        let mut expected = image.clone();
        expected[0x6406] = 2;
        common::set(&mut expected, 0x6420, DESTINATION | after);
        let notice = notified.then_some(NOTICE);
        let answer = interrupt_request(&BENCH, &mut image, SOURCE, ENTRY_4, 0);
        assert_eq!(answer, posted(0x31, 0x6400, notice), "{entry:X} {before:X}");
        assert!(image == expected, "{entry:X} {before:X}");

        // Again: a notice only from a descriptor whose ON is still clear, and
        // that is one whose notice SN holds back.
        let answer = interrupt_request(&BENCH, &mut image, SOURCE, ENTRY_4, 0);
        assert_eq!(answer, posted(0x31, 0x6400, None));
        assert!(image == expected, "{entry:X} {before:X}");
    }
}

/// The request bit is set in any case, beside others that stand already.
#[test]
fn other_request_bits_stay() {
    for (entry, before, after, _) in ROWS {
        let requests = [0x8000_0000_0000_0001, u64::MAX, 0, 0x0123_4567_89AB_CDEF];
        let mut image = bench_with(&[
            (0x6040, entry),
            (0x6420, DESTINATION | before),
            (0x6400, requests[0]),
            (0x6408, requests[1]),
            (0x6410, requests[2]),
            (0x6418, requests[3]),
        ]);
        interrupt_request(&BENCH, &mut image, SOURCE, ENTRY_4, 0);
        assert_eq!(get(&image, 0x6400), requests[0] | 1 << 0x31);
        assert_eq!(get(&image, 0x6408), requests[1]);
        assert_eq!(get(&image, 0x6410), requests[2]);
        assert_eq!(get(&image, 0x6418), requests[3]);
        assert_eq!(get(&image, 0x6420), DESTINATION | after);
    }
}

/// Document 01's list is as it was: 14:12 reserved in a remapped entry, 13:12
/// alone in a posted one. A reserved descriptor bit stops an urgent post too.
#[test]
fn reserved_as_before() {
    let ring = |image: &[u8], address| {
        let mut after = image.to_vec();
        let answer = interrupt_request(&BENCH, &mut after, SOURCE, address, 0);
        assert!(after == image);
        reason(answer)
    };
    let remapped = bench_with(&[(0x6020, 0x0000_0700_0041_4001)]);
    assert_eq!(ring(&remapped, 0xFEE0_0050), 0x24);
    let posted = bench_with(&[(0x6040, 0x0000_6400_0031_D001)]);
    assert_eq!(ring(&posted, ENTRY_4), 0x24);
    let descriptor = bench_with(&[
        (0x6040, 0x0000_6400_0031_C001),
        (0x6420, 0x0000_0700_00F2_0006),
    ]);
    assert_eq!(ring(&descriptor, ENTRY_4), 0x28);
}

/// Two posts to one descriptor with SN set, one of them urgent: either order
/// leaves the same image and one notice.
#[test]
fn urgent_first_or_last() {
    let start = bench_with(&[
        (0x6040, 0x0000_6400_0031_C001),
        (0x6050, 0x0000_6400_0032_8001),
        (0x6420, 0x0000_0700_00F2_0002),
    ]);
    let post = |image: &mut Vec<u8>, address| {
        let answer = interrupt_request(&BENCH, image, SOURCE, address, 0);
        let Outcome::Posted { notice, .. } = answer else {
            panic!("{answer:x?}");
        };
        u32::from(notice.is_some())
    };
    let (mut one, mut other) = (start.clone(), start);
    let notices = post(&mut one, ENTRY_4) + post(&mut one, 0xFEE0_00B0);
    assert_eq!(notices, 1);
    let notices = post(&mut other, 0xFEE0_00B0) + post(&mut other, ENTRY_4);
    assert_eq!(notices, 1);
    assert!(one == other);
}
