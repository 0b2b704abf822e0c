//! Scalable mode through the crate: an answer of each kind, and what it leaves in memory.

use galitzaf::{Access, Capabilities, Levels, Memory, MemoryAnswer, Reason, Refusal, Registers};
use galitzaf::{ScalableRequest, ScalableUnit, SourceId};

const SOURCE: SourceId = SourceId::new(0x03, 0x10);
const PASID: u32 = 0x12345;
const ADDRESS: u64 = 0x4020_1ABC;

fn unit() -> ScalableUnit {
    let registers = Registers {
        haw: 39,
        mgaw: 48,
        levels: Levels {
            three: true,
            ..Levels::NONE
        },
        root_table: 0x1000,
        te: true,
        ..Registers::default()
    };
    let capabilities = Capabilities {
        first_level: true,
        second_level: true,
        coherent_walks: true,
        ..Capabilities::NONE
    };
    ScalableUnit::new(&registers, capabilities)
}

/// Four levels of first-level tables for a PASID, from 9000h on; the page is writable.
fn image() -> Vec<u8> {
    let mut image = vec![0; 0xD000];
    for (address, word) in [
        (0x1030, 0x2001u64),
        // PASIDE, PDTS 7.
        (0x2200, 0x3E09),
        (0x3000 + 8 * (0x12345 >> 6), 0x8001),
        // PGTT 1, PWSNP, FLPTPTR.
        (0x8000 + 64 * (0x12345 & 63), 1 << 6 | 1),
        (0x8008 + 64 * (0x12345 & 63), 1 << 23),
        (0x8010 + 64 * (0x12345 & 63), 0x9000),
        (0x9000, 0xA007),
        (0xA008, 0xB007),
        (0xB008, 0xC007),
        (0xC008, 0x1234_5007),
    ] {
        image[address..address + 8].copy_from_slice(&word.to_le_bytes());
    }
    image
}

fn request(access: Access) -> ScalableRequest {
    ScalableRequest::new(SOURCE, access, ADDRESS).with_pasid(PASID)
}

#[test]
fn a_granted_request_sets_its_flags_and_nothing_else() {
    let mut image = image();
    let before = image.clone();
    let answer = unit().request(&mut Memory::flat(&mut image), request(Access::Read));
    assert_eq!(answer, MemoryAnswer::Granted(0x1234_5ABC));
    let changed: Vec<(usize, u8)> = (0..image.len())
        .filter(|&n| image[n] != before[n])
        .map(|n| (n, image[n] ^ before[n]))
        .collect();
    // A of each entry; D of the page's, once it is written.
    let accessed = [0x9000, 0xA008, 0xB008, 0xC008].map(|at| (at, 0x20));
    assert_eq!(changed, accessed);
    let answer = unit().request(&mut Memory::flat(&mut image), request(Access::Write));
    assert_eq!(answer, MemoryAnswer::Granted(0x1234_5ABC));
    assert_eq!(image[0xC008], before[0xC008] | 0x60);
}

#[test]
fn a_blocked_request_changes_nothing_and_records_its_pasid() {
    let mut image = image();
    image[0xB008] &= !1;
    let before = image.clone();
    let answer = unit().request(&mut Memory::flat(&mut image), request(Access::Read));
    let fault = *answer.fault().expect("blocked");
    assert_eq!(fault.reason(), Reason::ScalableFirstLevelNotPresent);
    assert_eq!(fault.record().words(), [0x4020_1000, 0xC123_4571_8000_0310]);
    assert_eq!(fault.record().pasid(), Some(PASID));
    assert_eq!(fault.entry(), Some(0xB008));
    assert_eq!(image, before);
}

#[test]
fn a_pasid_of_more_than_20_bits_is_refused() {
    let request = request(Access::Read).with_pasid(1 << 20);
    let answer = unit().request(&mut Memory::flat(image()), request);
    assert_eq!(answer, MemoryAnswer::Refused(Refusal::PasidTooWide));
    assert_eq!(Refusal::PasidTooWide.number(), 6);
}

#[test]
fn what_the_unit_lacks_is_table_invalid() {
    let lacking = ScalableUnit::new(&unit().registers(), Capabilities::NONE);
    let answer = lacking.request(&mut Memory::flat(image()), request(Access::Read));
    let reason = answer.fault().map(|fault| fault.reason());
    assert_eq!(reason, Some(Reason::ScalableTableInvalid));
}
