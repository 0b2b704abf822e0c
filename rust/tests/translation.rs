//! Translation requests over the bench image with a context of type 1.

mod common;

use common::{bench_image, set, BENCH, SOURCE};
use galitzaf::{
    Fault, Memory, MemoryAnswer, MemoryRequest, Page, PageSize, Reason, Recorded, Recorder,
    Refusal, Registers, TranslationAnswer, TranslationRequest, Unit,
};

fn image(context: u64) -> Vec<u8> {
    let mut image = bench_image();
    set(&mut image, 0x2100, context);
    set(&mut image, 0x3010, 0x8000_0083);
    image
}

fn ask(image: &[u8], address: u64) -> TranslationAnswer {
    let request = TranslationRequest::new(SOURCE, address);
    Unit::new(&BENCH).translation(&Memory::flat(image), request)
}

fn fault(answer: TranslationAnswer) -> Fault {
    *answer.fault().unwrap()
}

#[test]
fn pages_have_frame_size_and_rights() {
    let image = image(0x3005);
    for (address, frame, size, write) in [
        (0x4020_1ABC, 0x1234_5000, PageSize::FourKiB, false),
        (0x4041_2345, 0x4060_0000, PageSize::TwoMiB, true),
        (0xBFFF_FFFF, 0x8000_0000, PageSize::OneGiB, true),
    ] {
        let page = Page {
            frame,
            size,
            read: true,
            write,
        };
        assert_eq!(ask(&image, address), TranslationAnswer::Page(page));
        let read = MemoryRequest::read(SOURCE, address);
        let granted = Unit::new(&BENCH).memory(&Memory::flat(&image), read);
        let host = frame + address % size.bytes();
        assert_eq!(granted, MemoryAnswer::Granted(host));
    }
}

#[test]
fn no_right_and_a_wide_address_are_empty() {
    for address in [0x4020_2000, 0x7F_FFFF_FFFF, 0x80_0000_0000] {
        assert_eq!(ask(&image(0x3005), address), TranslationAnswer::Empty);
    }
}

#[test]
fn faults_have_at_in_their_records() {
    for (context, address, reason, recordable, words, entry) in [
        (
            0x3005,
            0x4060_0000,
            Reason::PageEntryAccess,
            true,
            [0x4060_0000, 0xD000_0007_0000_0310],
            0x9000,
        ),
        (
            0x3005,
            0x4080_0000,
            Reason::PageEntryReserved,
            true,
            [0x4080_0000, 0xD000_000C_0000_0310],
            0x4020,
        ),
        (
            0x3001,
            0x4020_1ABC,
            Reason::TranslationBlocked,
            true,
            [0x4020_1000, 0xD000_000D_0000_0310],
            0x2100,
        ),
        (
            0x3003,
            0x4020_1ABC,
            Reason::TranslationBlocked,
            false,
            [0x4020_1000, 0xD000_000D_0000_0310],
            0x2100,
        ),
        (
            0x3009,
            0x80_0000_0000,
            Reason::TranslationBlocked,
            true,
            [0x80_0000_0000, 0xD000_000D_0000_0310],
            0x2100,
        ),
    ] {
        let fault = fault(ask(&image(context), address));
        assert_eq!(fault.reason(), reason);
        assert_eq!(fault.recordable(), recordable);
        assert_eq!(fault.record().words(), words);
        assert_eq!(fault.entry(), Some(entry));
    }
}

#[test]
fn a_fault_can_be_recorded() {
    let mut recorder = Recorder::new();
    let fault = fault(ask(&image(0x3001), 0x4020_1ABC));
    assert_eq!(recorder.record(&fault), Ok(Recorded::Written));
}

#[test]
fn refusals_and_te_off() {
    let image = image(0x3005);
    let wrong = TranslationAnswer::Refused(Refusal::WrongAddress);
    assert_eq!(ask(&image, 0xFEE0_0000), wrong);
    let unit = Unit::new(&Registers { te: false, ..BENCH });
    let request = TranslationRequest::new(SOURCE, 0x1234);
    let answer = unit.translation(&Memory::flat(&image), request);
    assert_eq!(answer, TranslationAnswer::Passed(0x1234));
}
