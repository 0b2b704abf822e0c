//! A cache of translations.

use galitzaf::{CachedUnit, Levels, Memory, MemoryAnswer, MemoryRequest, Refusal, Registers};
use galitzaf::{SourceId, Unit};

const REGISTERS: Registers = Registers {
    haw: 39,
    mgaw: 48,
    levels: Levels {
        three: true,
        four: false,
        five: false,
    },
    pages_2m: true,
    pages_1g: true,
    posting: false,
    root_table: 0x1000,
    interrupt_table: 0,
    s: 0,
    te: true,
    ire: false,
    eime: false,
    cfis: false,
};

/// Sources 0 and 8, in domains 1 and 2, with the same tables: 512 pages of 4 KiB, then one of 2 MiB.
fn image() -> Vec<u8> {
    let mut image = vec![0; 0x6000];
    let mut set = |at: usize, word: u64| image[at..at + 8].copy_from_slice(&word.to_le_bytes());
    set(0x1000, 0x2001);
    for (at, domain) in [(0x2000, 1), (0x2080, 2)] {
        set(at, 0x3001);
        set(at + 8, domain << 8 | 1);
    }
    set(0x3000, 0x4003);
    set(0x4000, 0x5003);
    set(0x4008, 0x4060_0083);
    for n in 0..512 {
        set(0x5000 + 8 * n, 0x1000_0003 + 0x1000 * n as u64);
    }
    image
}

fn read(source: u16, address: u64) -> MemoryRequest {
    MemoryRequest::read(SourceId::from(source), address)
}

/// What the unit answers over tables of zeros: nothing but what is held is granted.
fn held(unit: &CachedUnit, request: MemoryRequest) -> bool {
    let zeros = vec![0; 0x6000];
    let answer = unit.clone().memory(&Memory::flat(&zeros), request);
    matches!(answer, MemoryAnswer::Granted(_))
}

#[test]
fn what_is_held_answers_its_page_source_and_kind() {
    let (image, zeros) = (image(), vec![0; 0x6000]);
    let mut unit = CachedUnit::new(&REGISTERS);
    for address in [0x3123, 0x20_0000] {
        let plain = Unit::new(&REGISTERS).memory(&Memory::flat(&image), read(0, address));
        assert_eq!(unit.memory(&Memory::flat(&image), read(0, address)), plain);
    }
    let over_zeros = |request| unit.clone().memory(&Memory::flat(&zeros), request);
    assert_eq!(
        over_zeros(read(0, 0x3FFF)),
        MemoryAnswer::Granted(0x1000_3FFF)
    );
    assert_eq!(
        over_zeros(read(0, 0x3F_FFFF)),
        MemoryAnswer::Granted(0x407F_FFFF)
    );
    for other in [
        read(0, 0x4000),
        read(0, 0x40_0000),
        read(8, 0x3123),
        MemoryRequest::write(SourceId::from(0), 0x3123),
    ] {
        assert!(!held(&unit, other));
    }
    let interrupts = over_zeros(read(0, 0xFEE0_0000));
    assert_eq!(interrupts, MemoryAnswer::Refused(Refusal::WrongAddress));
}

#[test]
fn invalidations_take_out_all_or_a_domain() {
    let image = image();
    let mut unit = CachedUnit::new(&REGISTERS);
    for n in 0..20 {
        let _ = unit.memory(&Memory::flat(&image), read(8 * (n % 2) as u16, 0x1000 * n));
    }
    unit.invalidate_domain(2);
    for n in 0..20 {
        let request = read(8 * (n % 2) as u16, 0x1000 * n);
        assert_eq!(held(&unit, request), n % 2 == 0);
    }
    unit.invalidate_all();
    assert!((0..20).all(|n| !held(&unit, read(8 * (n % 2) as u16, 0x1000 * n))));
    assert_eq!(unit, CachedUnit::new(&REGISTERS));
}

#[test]
fn the_oldest_goes_at_a_65th() {
    let image = image();
    let mut unit = CachedUnit::new(&REGISTERS);
    for n in 0..200 {
        let _ = unit.memory(&Memory::flat(&image), read(0, 0x1000 * n));
        for page in 0..=n {
            assert_eq!(held(&unit, read(0, 0x1000 * page)), n - page < 64);
        }
    }
}
