//! The two sides, and the loops that are measured. Each loop does the same: it takes the next
//! request, calls, and leaves the answer where the compiler can't look.

use crate::load::{Interrupt, Load, Memory, Requests};
use interface::{ANSWER_SIZE, REGISTERS_SIZE};
use ordinary::{MemoryMut, Unit};
use std::hint::black_box;

/// Who answers.
#[derive(Clone, Copy, Debug, PartialEq, Eq)]
pub enum Side {
    /// The proved unit, through its C interface.
    Proved,
    /// The ordinary translator, which checks registers and windows in each call too.
    Ordinary,
    /// The ordinary translator with registers and windows that were checked once.
    CheckedOnce,
}

impl Side {
    /// Each of them.
    pub const ALL: [Side; 3] = [Side::Proved, Side::Ordinary, Side::CheckedOnce];

    /// Its name.
    pub fn name(self) -> &'static str {
        match self {
            Side::Proved => "proved",
            Side::Ordinary => "ordinary",
            Side::CheckedOnce => "checked-once",
        }
    }
}

/// Registers and windows in each side's form.
pub struct Prepared {
    /// For the C interface.
    pub bytes: [u8; REGISTERS_SIZE],
    /// For the ordinary translator.
    pub plain: ordinary::Registers,
    /// For the C interface.
    pub numbers: Vec<u64>,
    /// For the ordinary translator.
    pub windows: Vec<ordinary::Window>,
}

impl Prepared {
    /// Of a load.
    pub fn of(load: &Load) -> Self {
        let r = &load.registers;
        let widths = [r.levels.three, r.levels.four, r.levels.five];
        let numbered = widths.into_iter().zip(1..);
        let plain = ordinary::Registers {
            haw: r.haw,
            mgaw: r.mgaw,
            widths: numbered.fold(0, |set, (width, n)| set | u8::from(width) << n),
            pages_2m: r.pages_2m,
            pages_1g: r.pages_1g,
            posting: r.posting,
            root_table: r.root_table,
            interrupt_table: r.interrupt_table,
            s: r.s,
            te: r.te,
            ire: r.ire,
            eime: r.eime,
            cfis: r.cfis,
        };
        let numbers = load.windows.iter();
        let numbers = numbers.flat_map(|window| [window.start, window.offset, window.length]);
        let windows = load.windows.iter().map(|window| ordinary::Window {
            start: window.start,
            offset: window.offset,
            length: window.length,
        });
        Self {
            bytes: r.to_bytes(),
            plain,
            numbers: numbers.collect(),
            windows: windows.collect(),
        }
    }
}

/// Goes through the requests so many times.
pub fn run(side: Side, prepared: &Prepared, image: &mut [u8], requests: &Requests, passes: usize) {
    match requests {
        Requests::Memory(requests) => {
            for _ in 0..passes {
                memory(side, prepared, image, requests);
            }
        }
        Requests::Translations(requests) => {
            for _ in 0..passes {
                translations(side, prepared, image, requests);
            }
        }
        Requests::Interrupts { messages, rearm } => {
            for _ in 0..passes {
                interrupts(side, prepared, image, messages, *rearm);
            }
        }
    }
}

fn memory(side: Side, prepared: &Prepared, image: &[u8], requests: &[Memory]) {
    let (plain, numbers, windows) = (
        &prepared.plain,
        &prepared.numbers[..],
        &prepared.windows[..],
    );
    match side {
        Side::Proved => {
            let mut answer = [0; ANSWER_SIZE];
            for r in requests {
                let status = interface::memory_request(
                    &prepared.bytes,
                    numbers,
                    image,
                    r.source,
                    r.address,
                    r.write.into(),
                    &mut answer,
                );
                black_box((status, &answer));
            }
        }
        Side::Ordinary => {
            for r in requests {
                let answer =
                    ordinary::memory_request(plain, windows, image, r.source, r.address, r.write);
                black_box(&answer);
            }
        }
        Side::CheckedOnce => {
            let checked = Unit::new(plain).zip(ordinary::Memory::new(windows, image));
            let Some((unit, memory)) = checked else {
                return;
            };
            for r in requests {
                let answer = unit.memory_request(memory, r.source, r.address, r.write);
                black_box(&answer);
            }
        }
    }
}

fn translations(side: Side, prepared: &Prepared, image: &[u8], requests: &[Memory]) {
    let (plain, numbers, windows) = (
        &prepared.plain,
        &prepared.numbers[..],
        &prepared.windows[..],
    );
    match side {
        Side::Proved => {
            let mut answer = [0; ANSWER_SIZE];
            for r in requests {
                let status = interface::translation_request(
                    &prepared.bytes,
                    numbers,
                    image,
                    r.source,
                    r.address,
                    &mut answer,
                );
                black_box((status, &answer));
            }
        }
        Side::Ordinary => {
            for r in requests {
                let answer =
                    ordinary::translation_request(plain, windows, image, r.source, r.address);
                black_box(&answer);
            }
        }
        Side::CheckedOnce => {
            let checked = Unit::new(plain).zip(ordinary::Memory::new(windows, image));
            let Some((unit, memory)) = checked else {
                return;
            };
            for r in requests {
                let answer = unit.translation_request(memory, r.source, r.address);
                black_box(&answer);
            }
        }
    }
}

fn interrupts(
    side: Side,
    prepared: &Prepared,
    image: &mut [u8],
    messages: &[Interrupt],
    rearm: Option<usize>,
) {
    let (plain, numbers, windows) = (
        &prepared.plain,
        &prepared.numbers[..],
        &prepared.windows[..],
    );
    match side {
        Side::Proved => {
            let mut answer = [0; ANSWER_SIZE];
            for m in messages {
                clear(image, rearm);
                let status = interface::interrupt_request(
                    &prepared.bytes,
                    numbers,
                    image,
                    m.source,
                    m.address,
                    m.data,
                    &mut answer,
                );
                black_box((status, &answer));
            }
        }
        Side::Ordinary => {
            for m in messages {
                clear(image, rearm);
                let answer =
                    ordinary::interrupt_request(plain, windows, image, m.source, m.address, m.data);
                black_box(&answer);
            }
        }
        Side::CheckedOnce => {
            let checked = Unit::new(plain).zip(MemoryMut::new(windows, image));
            let Some((unit, mut memory)) = checked else {
                return;
            };
            for m in messages {
                clear(memory.run_mut(), rearm);
                let answer = unit.interrupt_request(&mut memory, m.source, m.address, m.data);
                black_box(&answer);
            }
        }
    }
}

/// Clears ON, where that is asked for.
#[inline(always)]
fn clear(run: &mut [u8], at: Option<usize>) {
    if let Some(byte) = at.and_then(|at| run.get_mut(at)) {
        *byte = 0;
    }
}
