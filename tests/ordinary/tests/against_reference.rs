//! The ordinary translator against the reference, over part of each suite.

mod common;

use cases::{Request, Suite, World, SUITES};
use common::{blocked, memory, registers};
use ordinary::{InterruptAnswer, Memory, MemoryMut, TranslationAnswer, Unit, Window};
use reference::{
    interrupt_request_in, memory_request_in, translation_request_in, Notice, Outcome, Slip,
    Translation,
};

/// Of each suite, one world in so many; of windows, which unsafe code rests on, every second.
fn part(suite: &Suite) -> usize {
    match suite.name {
        "windows" => 2,
        _ => 16,
    }
}

/// Cases at the least.
const CASES: u64 = 500_000;

fn interrupt(answer: InterruptAnswer) -> Outcome {
    match answer {
        InterruptAnswer::Passed => Outcome::Passed,
        InterruptAnswer::Remapped(to) => {
            let mode = |bit: u8| to.modes >> bit & 1 == 1;
            Outcome::Remapped {
                destination_mode: mode(0),
                redirection_hint: mode(1),
                trigger: mode(2),
                delivery: to.delivery,
                vector: to.vector,
                destination: to.destination,
            }
        }
        InterruptAnswer::Posted(notice) => Outcome::Posted {
            vector: 0,
            descriptor: 0,
            notice: notice.map(|notice| Notice {
                vector: notice.vector,
                destination: notice.destination,
            }),
        },
        InterruptAnswer::Blocked(fault) => blocked(fault),
        InterruptAnswer::Refused(number) => Outcome::Refused(number),
    }
}

fn translation(answer: TranslationAnswer) -> Translation {
    let (frame, size, read, write) = match answer {
        TranslationAnswer::Passed(address) => return Translation::Passed(address),
        TranslationAnswer::Refused(number) => return Translation::Refused(number),
        TranslationAnswer::Blocked(fault) => match blocked(fault) {
            Outcome::Blocked(fault) => return Translation::Blocked(fault),
            other => panic!("{other:X?}"),
        },
        TranslationAnswer::Empty => (0, 0, false, false),
        TranslationAnswer::Page {
            frame,
            size,
            read,
            write,
        } => (frame, size, read, write),
    };
    Translation::Answered {
        frame,
        size,
        read,
        write,
    }
}

/// Puts a memory request to both as one for a translation.
fn compare_translations(world: &World, request: &Request, run: &[u8]) {
    let Request::Memory {
        source, address, ..
    } = *request
    else {
        return;
    };
    let (r, registers) = (&world.registers, registers(&world.registers));
    let windows = windows(&world.windows);
    let answer = ordinary::translation_request(&registers, &windows, run, source, address);
    let checked = Unit::new(&registers).zip(Memory::new(&windows, run));
    let again = checked.map(|(unit, memory)| unit.translation_request(memory, source, address));
    let expected = translation_request_in(r, &world.windows, run, source, address);
    assert_eq!(translation(answer), expected, "{r:X?} {request:X?}");
    let again = again.map_or(Translation::Refused(1), translation);
    assert_eq!(again, expected, "{r:X?} {request:X?}");
}

fn windows(windows: &[reference::Window]) -> Vec<Window> {
    let ours = windows.iter().map(|window| Window {
        start: window.start,
        offset: window.from,
        length: window.length,
    });
    ours.collect()
}

/// Puts one request to both, and to the unit whose registers and windows were checked before.
fn compare(world: &World, request: &Request, ours: &mut Vec<u8>, theirs: &mut [u8]) {
    let (r, registers) = (&world.registers, registers(&world.registers));
    let (shown, windows) = (&world.windows, windows(&world.windows));
    let (unit, none) = (Unit::new(&registers), Slip::None);
    let (answer, again, expected) = match *request {
        Request::Memory {
            source,
            address,
            write,
        } => (
            memory(ordinary::memory_request(
                &registers, &windows, ours, source, address, write,
            )),
            unit.zip(Memory::new(&windows, ours))
                .map(|(unit, shown)| memory(unit.memory_request(shown, source, address, write))),
            memory_request_in(none, r, shown, theirs, source, address, write),
        ),
        Request::Interrupt {
            source,
            address,
            data,
        } => {
            let mut copy = ours.clone();
            let checked = unit.zip(MemoryMut::new(&windows, &mut copy));
            let again = checked.map(|(unit, mut memory)| {
                interrupt(unit.interrupt_request(&mut memory, source, address, data))
            });
            let answer =
                ordinary::interrupt_request(&registers, &windows, ours, source, address, data);
            let mut expected = interrupt_request_in(none, r, shown, theirs, source, address, data);
            // This translator doesn't say what it posted and where.
            if let Outcome::Posted {
                vector, descriptor, ..
            } = &mut expected
            {
                (*vector, *descriptor) = (0, 0);
            }
            if again.is_some() {
                assert!(copy == *ours, "{r:X?} {request:X?}");
            }
            (interrupt(answer), again, expected)
        }
    };
    assert_eq!(answer, expected, "{r:X?} {request:X?}");
    assert_eq!(
        again.unwrap_or(Outcome::Refused(1)),
        expected,
        "{r:X?} {request:X?}"
    );
    assert!(ours == theirs, "{r:X?} {request:X?}");
}

#[test]
fn the_same_answers() {
    let mut world = World::new();
    let mut cases = 0;
    for suite in SUITES {
        for number in (0..suite.worlds).step_by(part(suite)) {
            (suite.build)(number, &mut world);
            let mut ours = world.image.clone();
            let mut theirs = world.image.clone();
            for request in &world.requests {
                compare(&world, request, &mut ours, &mut theirs);
                compare_translations(&world, request, &ours);
                cases += 1;
            }
        }
    }
    assert!(cases >= CASES, "only {cases} cases");
}
