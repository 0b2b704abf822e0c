//! Each known slip, put in, gives another answer where the paper says it
//! would; and the plain functions are the ones without a slip.

mod common;

use common::{bench_image, bench_with, fault, posted, reason, BENCH, SOURCE};
use reference::{
    interrupt_request, interrupt_request_with, memory_request, memory_request_with, Notice,
    Outcome, Slip,
};

const SLIPS: [Slip; 5] = [
    Slip::Index16,
    Slip::LastEntryRights,
    Slip::MaskLargeFrame,
    Slip::FpdIgnoredWhenAbsent,
    Slip::OnDespiteSn,
];

/// Which slips make a difference to a memory request.
fn noticed_in_memory(image: &[u8], address: u64, write: bool) -> Vec<Slip> {
    let plain = memory_request(&BENCH, image, SOURCE, address, write);
    let none = memory_request_with(Slip::None, &BENCH, image, SOURCE, address, write);
    assert_eq!(plain, none);
    let differs =
        |slip: &Slip| memory_request_with(*slip, &BENCH, image, SOURCE, address, write) != plain;
    SLIPS.into_iter().filter(differs).collect()
}

/// Which slips make a difference to an interrupt's answer or image.
fn noticed_in_interrupts(image: &[u8], address: u64, data: u32) -> Vec<Slip> {
    let mut after = image.to_vec();
    let plain = interrupt_request(&BENCH, &mut after, SOURCE, address, data);
    let mut none = image.to_vec();
    let answer = interrupt_request_with(Slip::None, &BENCH, &mut none, SOURCE, address, data);
    assert_eq!((&plain, &after), (&answer, &none));
    let differs = |slip: &Slip| {
        let mut other = image.to_vec();
        let answer = interrupt_request_with(*slip, &BENCH, &mut other, SOURCE, address, data);
        answer != plain || other != after
    };
    SLIPS.into_iter().filter(differs).collect()
}

/// "The index held in 16 bits: case 11 then rings entry 2."
#[test]
fn index_16() {
    let mut image = bench_image();
    assert_eq!(
        interrupt_request_with(Slip::Index16, &BENCH, &mut image, SOURCE, 0xFEEF_FFFC, 3),
        interrupt_request(&BENCH, &mut bench_image(), SOURCE, 0xFEE0_0050, 0)
    );
    assert_eq!(
        noticed_in_interrupts(&image, 0xFEEF_FFFC, 3),
        [Slip::Index16]
    );
}

/// "Rights read from the last entry alone."
#[test]
fn last_entry_rights() {
    let image = bench_with(&[(0x4008, 0x5001), (0x5008, 0x1234_5003)]);
    let slip = Slip::LastEntryRights;
    assert_eq!(
        memory_request_with(slip, &BENCH, &image, SOURCE, 0x4020_1ABC, true),
        Outcome::Granted(0x1234_5ABC)
    );
    assert_eq!(noticed_in_memory(&image, 0x4020_1ABC, true), [slip]);
    // The last entry's own rights are still read.
    let image = bench_image();
    assert_eq!(noticed_in_memory(&image, 0x4020_1ABC, true), []);
}

/// "A large page's low frame bits masked away instead of faulted."
#[test]
fn mask_large_frame() {
    let slip = Slip::MaskLargeFrame;
    for (address, at, entry, masked) in [
        (0x4041_2345, 0x4010, 0x407F_F083, 0x4061_2345),
        (0x4020_1ABC, 0x3008, 0xBFFF_F083, 0x8020_1ABC),
    ] {
        let image = bench_with(&[(at, entry)]);
        assert_eq!(
            reason(memory_request(&BENCH, &image, SOURCE, address, false)),
            0x0C
        );
        assert_eq!(
            memory_request_with(slip, &BENCH, &image, SOURCE, address, false),
            Outcome::Granted(masked)
        );
        assert_eq!(noticed_in_memory(&image, address, false), [slip]);
    }
}

/// "FPD ignored when the present bit is clear."
#[test]
fn fpd_ignored_when_absent() {
    let slip = Slip::FpdIgnoredWhenAbsent;
    let image = bench_with(&[(0x2100, 2), (0x6040, 2)]);
    let slipped = memory_request_with(slip, &BENCH, &image, SOURCE, 0x4020_1ABC, false);
    assert!(fault(slipped).recordable);
    assert_eq!(noticed_in_memory(&image, 0x4020_1ABC, false), [slip]);
    let mut after = image.clone();
    let slipped = interrupt_request_with(slip, &BENCH, &mut after, SOURCE, 0xFEE0_0090, 0);
    assert!(fault(slipped).recordable);
    assert_eq!(noticed_in_interrupts(&image, 0xFEE0_0090, 0), [slip]);
    // With the present bit set FPD still silences.
    let image = bench_with(&[(0x2100, 0x3003), (0x6040, 0x0000_6400_0131_8003)]);
    assert_eq!(noticed_in_memory(&image, 0x4020_2000, false), []);
    assert_eq!(noticed_in_interrupts(&image, 0xFEE0_0090, 0), []);
}

/// "ON set on a post while SN holds the notice back."
#[test]
fn on_despite_sn() {
    let slip = Slip::OnDespiteSn;
    let image = bench_with(&[(0x6420, 0x0000_0700_00F2_0002)]);
    let mut after = image.clone();
    assert_eq!(
        interrupt_request_with(slip, &BENCH, &mut after, SOURCE, 0xFEE0_0090, 0),
        posted(0x31, 0x6400, None)
    );
    assert_eq!(after[0x6420], 3);
    assert_eq!(noticed_in_interrupts(&image, 0xFEE0_0090, 0), [slip]);
    // With URG nothing holds the notice back.
    let urgent = bench_with(&[
        (0x6040, 0x0000_6400_0031_C001),
        (0x6420, 0x0000_0700_00F2_0002),
    ]);
    assert_eq!(noticed_in_interrupts(&urgent, 0xFEE0_0090, 0), []);
    // Without SN the slip does what the paper says.
    let notice = Some(Notice {
        vector: 0xF2,
        destination: 7,
    });
    assert_eq!(
        interrupt_request_with(slip, &BENCH, &mut bench_image(), SOURCE, 0xFEE0_0090, 0),
        posted(0x31, 0x6400, notice)
    );
    assert_eq!(noticed_in_interrupts(&bench_image(), 0xFEE0_0090, 0), []);
}
