//! Which register or window refusal 1 is for: each is named, the first of several, and one is named exactly where a request is
//! refused so.

mod common;

use common::{Random, BENCH, SOURCE};
use galitzaf::{FirstBad, Levels, Memory, MemoryAnswer, MemoryRequest};
use galitzaf::{Refusal, Registers, Unit, Window};

static RUN: [u8; 0x6000] = [0; 0x6000];

/// What is named; it has to be there exactly where a request is refused by 1.
fn named(registers: &Registers, windows: &[Window]) -> Option<FirstBad> {
    let unit = Unit::new(registers);
    let memory = Memory::new(&RUN, windows);
    let refused = MemoryAnswer::Refused(Refusal::BadRegisters);
    let bad = unit.memory(&memory, MemoryRequest::read(SOURCE, 0)) == refused;
    let first = unit.first_bad(&memory);
    assert_eq!(first.is_some(), bad, "{unit:?} {windows:?}");
    first
}

type Set = fn(&mut Registers);

/// Each register with values outside its list, in the list's order.
fn bad_registers() -> [(Set, FirstBad); 11] {
    [
        (|r| r.haw = 35, FirstBad::Haw),
        (|r| r.haw = 53, FirstBad::Haw),
        (|r| r.mgaw = 38, FirstBad::Mgaw),
        (|r| r.mgaw = 58, FirstBad::Mgaw),
        (|r| r.levels = Levels::NONE, FirstBad::Levels),
        (|r| r.root_table = 0x800, FirstBad::RootTable),
        (|r| r.root_table = 1 << 39, FirstBad::RootTable),
        (|r| r.interrupt_table = 0x801, FirstBad::InterruptTable),
        (|r| r.interrupt_table = 1 << 63, FirstBad::InterruptTable),
        (|r| r.s = 16, FirstBad::S),
        (|r| r.s = 255, FirstBad::S),
    ]
}

const fn window(start: u64, offset: u64, length: u64) -> Window {
    Window {
        start,
        offset,
        length,
    }
}

/// Good ones: two pages between, the first part of the run last.
const GOOD: [Window; 4] = [
    window(0x1000, 0x5000, 0x1000),
    window(0x4000, 0x0000, 0x800),
    window(0x6000, 0x1000, 0x1000),
    window(0xFFFF_FFFF_FFFF_F000, 0x3000, 0x1000),
];

#[test]
fn each_register_is_named_and_the_first_of_two() {
    assert_eq!(named(&BENCH, &GOOD), None);
    let bad = bad_registers();
    for (at, (set, first)) in bad.iter().enumerate() {
        for (later, _) in &bad[at..] {
            let mut registers = BENCH;
            later(&mut registers);
            set(&mut registers);
            // Windows come after all registers.
            for windows in [&GOOD[..], &[window(1, 0, 0)]] {
                assert_eq!(named(&registers, windows), Some(*first));
            }
        }
    }
}

#[test]
fn each_window_is_named() {
    for place in 0..4 {
        let Window {
            start,
            offset,
            length,
        } = GOOD[place];
        for bad in [
            window(start + 8, offset, length),
            window(start, offset, 0),
            window(start, 0x5800, 0x801),
            window(start, offset, u64::MAX),
        ] {
            let mut windows = GOOD;
            windows[place] = bad;
            let first = Some(FirstBad::Window(place as u8));
            assert_eq!(named(&BENCH, &windows), first, "{bad:?}");
            // Those behind it have no say.
            assert_eq!(named(&BENCH, &windows[..=place]), first);
            assert_eq!(named(&BENCH, &windows[..place]), None);
        }
    }
}

#[test]
fn the_second_of_a_pair_is_named_and_a_fifth() {
    let [a, b, c, d] = GOOD;
    let second = Some(FirstBad::Window(1));
    assert_eq!(named(&BENCH, &[b, a]), second);
    assert_eq!(named(&BENCH, &[a, a]), second);
    let shares = window(0x4000, 0x5FFF, 1);
    assert_eq!(named(&BENCH, &[a, shares]), second);
    assert_eq!(named(&BENCH, &[a, b, shares]), Some(FirstBad::Window(2)));
    let fifth = Some(FirstBad::Window(4));
    assert_eq!(named(&BENCH, &[a, b, c, d, d]), fifth);
    assert_eq!(
        named(&BENCH, &[a, b, c, c, d, d]),
        Some(FirstBad::Window(3))
    );
    let more = window(0x8000, 0x2000, 0x1000);
    assert_eq!(named(&BENCH, &[a, b, c, more, d, d]), fifth);
}

#[test]
fn named_exactly_where_refused() {
    let mut random = Random(26);
    let mut met = [0; 2];
    for _ in 0..20_000 {
        let mut registers = BENCH;
        if random.below(4) == 0 {
            let bad = bad_registers();
            bad[random.below(bad.len() as u64) as usize].0(&mut registers);
        }
        let mut windows = GOOD;
        for window in &mut windows {
            match random.below(12) {
                0 => window.start = random.below(16) << 11,
                1 => window.offset = random.below(16) << 11,
                2 => window.length = random.below(16) << 10,
                _ => {}
            }
        }
        let count = random.below(5) as usize;
        met[usize::from(named(&registers, &windows[..count]).is_some())] += 1;
    }
    assert!(met.iter().all(|count| *count > 5_000), "{met:?}");
}
