//! What is mapped for a source: over random, self-referring, dense, split and outside tables; and the listed spans beside the engine.

use crate::common::{bench_image, set, Random, BENCH, SOURCE};
use crate::image::{self, cut, length, page, put, PAGES};
use crate::met::{expect_met, Met};
use crate::{registers, CASES};
use galitzaf::{known_numbers, Levels, Mapping, Memory, MemoryAnswer, MemoryRequest, Registers};
use galitzaf::{SourceId, Span, SpanKind, Unit, Window, MOST_SPANS};
use std::time::Instant;

/// The lines of a listing, header first, and its spans.
fn ours(
    unit: &Unit,
    windows: &[Window],
    run: &[u8],
    source: SourceId,
    known: usize,
) -> (Vec<String>, Vec<Span>) {
    let mut known = vec![7; known];
    let mut rows = vec![[7; 4]; MOST_SPANS];
    let mut lines = vec![format!("source {:04X}", u16::from(source))];
    let mut listed = Vec::new();
    match unit.mapping(&Memory::new(run, windows), source, &mut known, &mut rows) {
        Mapping::Refused(refusal) => lines.push(format!("refused {}", refusal.number())),
        Mapping::Passed => lines.push("pass".into()),
        Mapping::Fault(reason) => lines.push(format!("fault {:02X}", reason.number())),
        Mapping::Spans(spans) => {
            let more = spans.more();
            listed = spans.collect();
            lines.extend(listed.iter().map(Span::to_string));
            if more {
                lines.push("more".into());
            }
        }
        other => panic!("{other:?}"),
    }
    assert!(known.iter().all(|number| *number == 0));
    (lines, listed)
}

fn flat(image: &[u8]) -> Vec<Window> {
    let window = Window {
        start: 0,
        offset: 0,
        length: image.len() as u64,
    };
    [window][..usize::from(!image.is_empty())].to_vec()
}

/// A page entry: a table or a page, mostly of the image, its rights and its large bit at random.
fn entry(random: &mut Random) -> u64 {
    let (inside, far, wide) = (
        page(random),
        random.below(1 << 30) << 12,
        random.below(1 << 9) << 30,
    );
    let table = random.pick(&[inside, inside, inside, PAGES << 12, far]);
    let large = random.pick(&[0, 0, 0, 0x80]);
    let frame = if large == 0 {
        table
    } else {
        random.pick(&[table, 0xFEC0_0000, wide])
    };
    let on_range = random.pick(&[frame, frame, frame, frame, frame, 0xFEE0_0000]);
    on_range | large | random.pick(&[0, 1, 2, 3, 3, 3, 3])
}

/// Root and context entries for the source, and some page entries in each page; now and then pages that are full of them.
fn world(random: &mut Random, registers: &Registers, source: SourceId) -> Vec<u8> {
    let mut image = vec![0; (PAGES << 12) as usize];
    let dense = random.pick(&[40, 100, 400]);
    for at in 0..PAGES << 12 >> 3 {
        if random.below(dense) == 0 {
            let word = entry(random);
            put(random, &mut image, 8 * at, &[word]);
        }
    }
    // Pages full of entries that lead to no table of the image, so that the reference has no 512^4 entries to go through.
    for _ in 0..random.below(3) {
        let (full, far) = (page(random), random.below(1 << 20) << 30);
        let word = random.pick(&[PAGES << 12, far, far | 0x80]) | random.pick(&[1, 2, 3]);
        for at in 0..512 {
            set(&mut image, (full + 8 * at) as usize, word);
        }
    }
    let id = u64::from(u16::from(source));
    let contexts = page(random);
    let present = u64::from(random.below(30) != 0);
    put(
        random,
        &mut image,
        registers.root_table.saturating_add(16 * (id >> 8)),
        &[contexts | present, 0],
    );
    let types = random.pick(&[0, 0, 0, 0, 4, 4, 4, 8, 0xC]);
    let here = u64::from(random.below(30) != 0);
    let inside = page(random);
    let top = random.pick(&[inside, inside, inside, PAGES << 12]);
    let width = random.pick(&[1, 1, 1, 2, 2, 3]);
    put(
        random,
        &mut image,
        contexts + 16 * (id & 0xFF),
        &[top | types | here, width],
    );
    image
}

/// A span beside the engine, at an address.
fn agrees(unit: &Unit, memory: &Memory<&[u8]>, source: SourceId, span: &Span, address: u64) {
    if (0xFEE0_0000..=0xFEEF_FFFF).contains(&address) {
        return;
    }
    for (asked, right, denied) in [
        (MemoryRequest::read(source, address), span.read, 6),
        (MemoryRequest::write(source, address), span.write, 5),
    ] {
        let answer = unit.memory(memory, asked);
        let reason = answer.fault().map(|fault| fault.reason().number());
        let agrees = match (right, span.kind, answer) {
            (false, ..) => reason == Some(denied),
            (_, SpanKind::Page(frame), MemoryAnswer::Granted(host)) => {
                host == frame + (address - span.start)
            }
            (_, SpanKind::Refused(refusal), MemoryAnswer::Refused(number)) => refusal == number,
            (_, SpanKind::Fault(fault), _) => reason == Some(fault.number()),
            _ => false,
        };
        assert!(agrees, "{span} at {address:X}: {answer:?}");
    }
}

fn meet(met: &mut Met, lines: &[String]) {
    for line in &lines[1..] {
        let words: Vec<&str> = line.split(' ').collect();
        let name = match words[..] {
            [_, _, kind @ ("fault" | "refused"), number] => format!("{kind} {number}"),
            [_, size, _, rights] => format!("{size} {rights}"),
            _ => line.clone(),
        };
        *met.entry(name).or_default() += 1;
    }
}

#[test]
fn listings() {
    let mut random = Random(0x4D41);
    let mut met = Met::new();
    for _ in 0..CASES / 20 {
        let mut registers = registers::any(&mut random);
        registers.te |= random.below(4) != 0;
        registers.levels.three |= random.below(4) != 0;
        registers.levels.four |= random.below(4) != 0;
        let source = SourceId::from(random.word() as u16);
        let mut image = world(&mut random, &registers, source);
        image.truncate(length(&mut random));
        let (unit, theirs) = (Unit::new(&registers), registers::theirs(&registers));
        for (windows, run) in [(flat(&image), image.clone()), cut(&mut random, &image)] {
            let known = random.pick(&[known_numbers(run.len()), 0, 1, 5]);
            let (lines, spans) = ours(&unit, &windows, &run, source, known);
            let expected =
                reference::listing(&theirs, &image::theirs(&windows), &run, source.into());
            assert_eq!(lines, expected, "{registers:?} {windows:?}");
            meet(&mut met, &lines);
            let memory = Memory::new(&run[..], &windows);
            for span in spans.iter().take(20) {
                let inside = span.start + random.below(span.size);
                for address in [span.start, inside, span.start + (span.size - 1)] {
                    agrees(&unit, &memory, source, span, address);
                }
            }
        }
    }
    expect_met(
        &met,
        &[
            "pass",
            "refused 1",
            "more",
            "fault 07",
            "fault 0C",
            "refused 4",
        ],
    );
    for reason in [
        "fault 01", "fault 02", "fault 03", "fault 08", "fault 09", "fault 0A", "fault 0B",
    ] {
        expect_met(&met, &[reason]);
    }
    for size in ["1000", "200000", "40000000"] {
        for rights in ["R-", "-W", "RW"] {
            expect_met(&met, &[&format!("{size} {rights}")]);
        }
    }
}

#[test]
fn bench_listing() {
    let image = bench_image();
    let (lines, _) = ours(
        &Unit::new(&BENCH),
        &flat(&image),
        &image,
        SOURCE,
        known_numbers(image.len()),
    );
    let wanted = [
        "source 0310",
        "40201000 1000 12345000 R-",
        "40400000 200000 40600000 RW",
        "40600000 200000 fault 07",
        "40800000 200000 fault 0C",
        "40BFF000 1000 23456000 RW",
    ];
    assert_eq!(lines, wanted);
}

/// Four pages with five levels that span 512^4 entries and list nothing: seconds at most, where going through them takes years.
#[test]
fn tables_that_point_to_each_other() {
    let five = Registers {
        levels: Levels {
            five: true,
            ..Levels::NONE
        },
        mgaw: 57,
        ..BENCH
    };
    let mut image = vec![0; 0x8000];
    set(&mut image, 0x1030, 0x2001);
    set(&mut image, 0x2100, 0x3001);
    set(&mut image, 0x2108, 3);
    for at in 0..512 {
        for (table, next) in [
            (0x3000, 0x4003),
            (0x4000, 0x5003),
            (0x5000, 0x6003),
            (0x6000, 0x7003u64),
        ] {
            set(&mut image, table + 8 * at, next);
        }
    }
    let unit = Unit::new(&five);
    let started = Instant::now();
    let (lines, _) = ours(
        &unit,
        &flat(&image),
        &image,
        SOURCE,
        known_numbers(image.len()),
    );
    assert_eq!(lines, ["source 0310"]);
    // One page at the end of the last table: each of the spans is at the end of its table.
    set(&mut image, 0x7FF8, 0x1234_5001);
    let (lines, spans) = ours(
        &unit,
        &flat(&image),
        &image,
        SOURCE,
        known_numbers(image.len()),
    );
    assert_eq!((lines.len(), spans.len()), (4098, 4096));
    assert_eq!(lines[1], "1FF000 1000 12345000 R-");
    assert_eq!(lines[4097], "more");
    assert!(started.elapsed().as_secs() < 5, "{:?}", started.elapsed());
}
