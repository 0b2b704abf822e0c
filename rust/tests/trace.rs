//! Traces over the bench image: written, read and replayed; and each byte of blocks changed to every other value.

mod common;

use common::{bench_image, set, BENCH, SOURCE};
use galitzaf::{
    InterruptRequest, Memory, MemoryAnswer, MemoryRequest, Named, Registers, SourceId, TraceError,
    TraceItem, TracePlace, TraceReader, TraceWriter, Traced, TranslationRequest, Unit,
};

/// Requests of every kind, posts among them, some with each kind of answer.
fn entries(unit: &Unit, memory: &mut Memory<Vec<u8>>) -> Vec<Traced> {
    let mut entries = Vec::new();
    let other = SourceId::new(0x04, 0x10);
    for address in [
        0x4020_1ABC,
        0x4020_2000,
        0x4041_2345,
        0x4060_0000,
        0x80_0000_0000,
        0xFEE0_0000,
    ] {
        for source in [SOURCE, other] {
            for ask in [MemoryRequest::read, MemoryRequest::write] {
                let request = ask(source, address);
                entries.push(Traced::Memory(request, unit.memory(memory, request)));
            }
            let request = TranslationRequest::new(source, address);
            entries.push(Traced::Translation(
                request,
                unit.translation(memory, request),
            ));
        }
    }
    for (address, data) in [
        (0xFEE0_0050, 0),
        (0xFEEF_FFFC, 3),
        (0xFEE0_0090, 0),
        (0xFEE0_0090, 0),
        (0xFEE0_0018, 0xABCD_1234),
        (0xFEE0_0000, 0),
        (0x4020_1ABC, 0),
    ] {
        let request = InterruptRequest::new(SOURCE, address, data);
        entries.push(Traced::Interrupt(request, unit.interrupt(memory, request)));
    }
    entries
}

fn trace(entries: &[Traced]) -> Vec<u8> {
    let mut writer = TraceWriter::new();
    let mut trace = Vec::new();
    for entry in entries {
        trace.extend(writer.append(entry).unwrap().into_iter().flatten());
    }
    trace.extend(writer.close().into_iter().flatten());
    trace
}

fn place(n: usize) -> TracePlace {
    let (block, index) = ((n / 15) as u64, (n % 15) as u8);
    TracePlace { block, index }
}

/// With a context of type 1, so that translation requests are answered pages.
fn image() -> Vec<u8> {
    let mut image = bench_image();
    set(&mut image, 0x2100, 0x3005);
    image
}

fn units() -> [Unit; 3] {
    let off = Registers {
        te: false,
        ire: false,
        ..BENCH
    };
    let bad = Registers { haw: 35, ..BENCH };
    [BENCH, off, bad].map(|registers| Unit::new(&registers))
}

#[test]
fn what_was_written_is_read() {
    for unit in units() {
        let entries = entries(&unit, &mut Memory::flat(image()));
        let trace = trace(&entries);
        assert_eq!(trace.len(), 512 * entries.len().div_ceil(15));
        let expected = entries.iter().enumerate();
        let expected = expected.map(|(n, entry)| TraceItem::Entry(place(n), *entry));
        assert!(TraceReader::new(&trace).eq(expected));
    }
}

#[test]
fn a_replay_names_what_differs() {
    for unit in units() {
        let entries = entries(&unit, &mut Memory::flat(image()));
        let trace = trace(&entries);
        // Over the same memory nothing: the posts are made again.
        let mut memory = Memory::flat(image());
        assert_eq!(unit.replay(&mut memory, &trace).count(), 0);
        let mut posted = Memory::flat(image());
        self::entries(&unit, &mut posted);
        assert!(memory.run() == posted.run());
    }
    let unit = Unit::new(&BENCH);
    let entries = entries(&unit, &mut Memory::flat(image()));
    let trace = trace(&entries);
    // The page of 40201ABCh has another frame, and nothing but it differs.
    let mut edited = image();
    set(&mut edited, 0x5008, 0x2234_5001);
    let named: Vec<Named> = unit
        .replay(&mut Memory::flat(edited.clone()), &trace)
        .collect();
    let again = self::entries(&unit, &mut Memory::flat(edited));
    let differing = (0..entries.len()).filter(|&n| entries[n] != again[n]);
    let expected: Vec<Named> = differing
        .map(|n| Named::Differs(place(n), again[n]))
        .collect();
    assert_eq!(expected.len(), 2);
    assert_eq!(named, expected);
    // A damaged block is named and passed over.
    let mut damaged = trace.clone();
    damaged[100] ^= 1;
    let mut memory = Memory::flat(image());
    let first = unit.replay(&mut memory, &damaged).next();
    assert_eq!(first, Some(Named::Damaged(0)));
}

#[test]
fn an_answer_of_another_kind_is_refused() {
    let unit = Unit::new(&BENCH);
    let mut memory = Memory::flat(image());
    let request = InterruptRequest::new(SOURCE, 0xFEEF_FFFC, 3);
    let answer = unit.interrupt(&mut memory, request);
    let fault = *answer.fault().unwrap();
    let read = MemoryRequest::read(SOURCE, 0);
    let mut writer = TraceWriter::new();
    let wrong = Traced::Memory(read, MemoryAnswer::Blocked(fault));
    assert_eq!(writer.append(&wrong), Err(TraceError::Answer));
    assert_eq!(writer.append(&Traced::Interrupt(request, answer)), Ok(None));
    assert_eq!(TraceReader::new(&writer.close().unwrap()).count(), 1);
}

/// Each of the 512 bytes of blocks of 1, 4, 14 and 15 entries, and of a second block, changed to every other value.
#[test]
fn every_block_changed_by_one_byte_is_named() {
    let unit = Unit::new(&BENCH);
    let entries = entries(&unit, &mut Memory::flat(image()));
    let mut changed = 0;
    for count in [1, 4, 14, 15, 20] {
        let mut trace = trace(&entries[..count]);
        let last = trace.len() / 512 - 1;
        for at in 512 * last..trace.len() {
            let byte = trace[at];
            for other in (0..=255).filter(|other| *other != byte) {
                trace[at] = other;
                let mut reader = TraceReader::new(&trace);
                assert!(
                    reader.is_damaged(last as u64),
                    "{count} entries: {at} is {other}"
                );
                assert_eq!(reader.nth(15 * last), Some(TraceItem::Damaged(last as u64)));
                changed += 1;
            }
            trace[at] = byte;
        }
        assert!(!TraceReader::new(&trace).is_damaged(last as u64));
    }
    assert_eq!(changed, 5 * 512 * 255);
}

#[test]
fn a_short_last_block_is_named() {
    let unit = Unit::new(&BENCH);
    let trace = trace(&entries(&unit, &mut Memory::flat(image())));
    for length in [1, 7, 511] {
        let items: Vec<_> = TraceReader::new(&trace[..512 + length]).collect();
        assert_eq!(items.len(), 16);
        assert_eq!(items[15], TraceItem::Damaged(1));
    }
    assert_eq!(TraceReader::new(&[]).next(), None);
}
