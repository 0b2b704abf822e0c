//! Ask 12: "Keep a trace of requests and answers in blocks of 512 bytes."

mod common;

use common::{bench_image, set, Random, BENCH, SOURCE};
use reference::{
    decode_entry, encode_entry, read_trace, replay_trace, traced_answer, write_trace, Notice,
    Registers, Trace, TraceEntry, TracePlace, TracedAnswer, TracedRequest, Window,
};

fn whole(image: &[u8]) -> Vec<Window> {
    vec![Window {
        start: 0,
        from: 0,
        length: image.len() as u64,
    }]
}

/// The twelve cases' requests.
fn bench_requests() -> Vec<TracedRequest> {
    let memory = |source, address, write| TracedRequest::Memory {
        source,
        address,
        write,
    };
    let interrupt = |source, address, data| TracedRequest::Interrupt {
        source,
        address,
        data,
    };
    vec![
        memory(SOURCE, 0x4020_1ABC, false),
        memory(SOURCE, 0x4020_1ABC, true),
        memory(SOURCE, 0x4020_2000, false),
        memory(SOURCE, 0x4041_2345, false),
        memory(SOURCE, 0x4060_0000, false),
        memory(SOURCE, 0x4080_0000, false),
        memory(SOURCE, 0x40BF_F000, false),
        memory(SOURCE, 0x7F_FFFF_FFFF, false),
        memory(SOURCE, 0x80_0000_0000, false),
        memory(0x0410, 0x4020_1ABC, false),
        memory(0x0311, 0x4020_1ABC, false),
        memory(SOURCE, 0xFEE0_0000, true),
        interrupt(SOURCE, 0xFEE0_0050, 0),
        interrupt(0x0311, 0xFEE0_0050, 0),
        interrupt(SOURCE, 0xFEEF_FFFC, 3),
        interrupt(SOURCE, 0xFEE0_0090, 0),
        interrupt(SOURCE, 0xFEE0_0090, 0),
        interrupt(SOURCE, 0xFEE0_0018, 0xABCD_1234),
        interrupt(SOURCE, 0xFEE0_0000, 0),
        interrupt(SOURCE, 0x4020_1ABC, 0),
    ]
}

/// The bench's requests with their answers, one after the other.
fn bench_entries() -> Vec<TraceEntry> {
    let mut image = bench_image();
    let windows = whole(&image);
    bench_requests()
        .into_iter()
        .map(|request| TraceEntry {
            request,
            answer: traced_answer(&BENCH, &windows, &mut image, request),
        })
        .collect()
}

/// Entries laid out by hand.
#[test]
fn entries_by_hand() {
    let entries = bench_entries();
    let hex = |text: &str| {
        let text: String = text.split_whitespace().collect();
        let byte = |n: usize| u8::from_str_radix(&text[2 * n..2 * n + 2], 16).unwrap();
        let bytes: Vec<u8> = (0..text.len() / 2).map(byte).collect();
        bytes
    };
    for (n, expected) in [
        // Case 1: granted 12345ABC.
        (
            0,
            "01 03 00 00 1003 00 00 BC1A204000000000 00000000 00000000 BC5A341200000000",
        ),
        // Case 2: write, 05h, recordable, entry 5008.
        (
            1,
            "02 02 05 03 1003 00 00 BC1A204000000000 00000000 00000000 0850000000000000",
        ),
        // Case 8: 04h, entry 2100.
        (
            8,
            "01 02 04 03 1003 00 00 0000000080000000 00000000 00000000 0021000000000000",
        ),
        // Number 2.
        (
            11,
            "02 01 02 00 1003 00 00 0000E0FE00000000 00000000 00000000 0000000000000000",
        ),
        // Case 10: vector 41, destination 7.
        (
            12,
            "03 05 00 00 1003 41 00 5000E0FE00000000 00000000 07000000 0000000000000000",
        ),
        // From 0311h: 26h, entry 6020.
        (
            13,
            "03 02 26 03 1103 00 00 5000E0FE00000000 00000000 00000000 2060000000000000",
        ),
        // Case 11: 21h, no entry.
        (
            14,
            "03 02 21 01 1003 00 00 FCFFEFFE00000000 03000000 00000000 0000000000000000",
        ),
        // Case 12: vector 31 posted at 6400, notice F2 to 7; again, none.
        (
            15,
            "03 07 00 00 1003 F2 31 9000E0FE00000000 00000000 07000000 0064000000000000",
        ),
        (
            16,
            "03 06 00 00 1003 00 31 9000E0FE00000000 00000000 00000000 0064000000000000",
        ),
        // 20h, with its data.
        (
            17,
            "03 02 20 01 1003 00 00 1800E0FE00000000 3412CDAB 00000000 0000000000000000",
        ),
    ] {
        let bytes = encode_entry(&entries[n]);
        assert_eq!(bytes.to_vec(), hex(expected), "entry {n}");
        assert_eq!(decode_entry(&bytes).as_ref(), Some(&entries[n]));
    }
    // Remapped with every flag.
    let remapped = TraceEntry {
        request: TracedRequest::Interrupt {
            source: 0xFFFF,
            address: u64::MAX,
            data: u32::MAX,
        },
        answer: TracedAnswer::Remapped {
            destination_mode: true,
            redirection_hint: true,
            trigger: true,
            delivery: 7,
            vector: 0xAB,
            destination: 0x1234_5678,
        },
    };
    let expected = "03 05 00 3F FFFF AB 00 FFFFFFFFFFFFFFFF FFFFFFFF 78563412 0000000000000000";
    assert_eq!(encode_entry(&remapped).to_vec(), hex(expected));
    assert_eq!(decode_entry(&encode_entry(&remapped)), Some(remapped));
}

/// Any entry, and what it holds.
fn any_entry(random: &mut Random) -> TraceEntry {
    let source = random.word() as u16;
    let address = random.word();
    if random.coin() {
        let write = random.coin();
        let answer = match random.below(3) {
            0 => TracedAnswer::Refused(random.pick(&[1, 2, 4])),
            1 => TracedAnswer::Granted(random.word()),
            _ => TracedAnswer::Fault {
                reason: 1 + random.below(12) as u8,
                recordable: random.coin(),
                entry: random.coin().then_some(random.word()),
            },
        };
        let request = TracedRequest::Memory {
            source,
            address,
            write,
        };
        return TraceEntry { request, answer };
    }
    let data = random.word() as u32;
    let answer = match random.below(5) {
        0 => TracedAnswer::Refused(random.pick(&[1, 2])),
        1 => TracedAnswer::Passed,
        2 => TracedAnswer::Remapped {
            destination_mode: random.coin(),
            redirection_hint: random.coin(),
            trigger: random.coin(),
            delivery: random.below(8) as u8,
            vector: random.word() as u8,
            destination: random.word() as u32,
        },
        3 => TracedAnswer::Posted {
            vector: random.word() as u8,
            descriptor: random.word(),
            notice: random.coin().then_some(Notice {
                vector: random.word() as u8,
                destination: random.word() as u32,
            }),
        },
        _ => TracedAnswer::Fault {
            reason: 0x20 + random.below(9) as u8,
            recordable: random.coin(),
            entry: random.coin().then_some(random.word()),
        },
    };
    let request = TracedRequest::Interrupt {
        source,
        address,
        data,
    };
    TraceEntry { request, answer }
}

/// An entry is laid out well exactly if it is some entry's layout: the reader
/// gives it back, and what it gives back from any bytes has that layout.
#[test]
fn layout_both_ways() {
    let mut random = Random(512);
    let (mut good, mut bad) = (0, 0);
    for _ in 0..50_000 {
        let entry = any_entry(&mut random);
        let mut bytes = encode_entry(&entry);
        assert_eq!(decode_entry(&bytes), Some(entry));
        // A byte or two changed.
        for _ in 0..=random.below(2) {
            bytes[random.below(32) as usize] =
                random.pick(&[0, 1, 2, 3, 4, 5, 6, 7, 8, 0x0D, 0xFF]);
        }
        match decode_entry(&bytes) {
            Some(other) => {
                assert_eq!(encode_entry(&other), bytes);
                good += 1;
            }
            None => bad += 1,
        }
    }
    assert!(good > 10_000 && bad > 10_000, "{good} {bad}");
}

/// Kinds, answers and numbers that no entry has; and bytes that an entry
/// doesn't use.
#[test]
fn malformed_entries() {
    let good = |n: usize| encode_entry(&bench_entries()[n]);
    let with = |mut bytes: [u8; 32], changes: &[(usize, u8)]| {
        for &(at, byte) in changes {
            bytes[at] = byte;
        }
        decode_entry(&bytes).is_some()
    };
    let (granted, fault, refused) = (good(0), good(1), good(11));
    let (remapped, early, posted) = (good(12), good(14), good(16));
    for kind in 0..=255 {
        assert_eq!(with(granted, &[(0, kind)]), matches!(kind, 1 | 2 | 4));
        assert_eq!(with(remapped, &[(0, kind)]), kind == 3);
        assert_eq!(with(refused, &[(2, kind)]), matches!(kind, 1 | 2 | 4));
        assert_eq!(
            with(refused, &[(0, 3), (2, kind)]),
            matches!(kind, 1 | 2),
            "{kind}"
        );
        assert_eq!(with(fault, &[(2, kind)]), (0x01..=0x0C).contains(&kind));
        assert_eq!(with(early, &[(2, kind)]), (0x20..=0x28).contains(&kind));
        // Of a translation request 0Dh too; a page has one of three sizes and
        // two rights, the empty answer neither.
        let translation = with(fault, &[(0, 4), (2, kind)]);
        assert_eq!(translation, (0x01..=0x0D).contains(&kind));
        let page = |number, flags, low| {
            with(
                [0; 32],
                &[(0, 4), (1, 8), (2, number), (3, flags), (24, low)],
            )
        };
        assert_eq!(page(kind, 0, 0), matches!(kind, 0 | 12 | 21 | 30));
        assert_eq!(page(kind, 3, 1), matches!(kind, 12 | 21 | 30));
        assert_eq!(page(12, kind, 0), kind < 4);
        assert_eq!(page(0, kind, 0), kind == 0);
        assert_eq!(page(0, 0, kind), kind == 0);
        // Flags: 1:0 of a fault whose value isn't 0 with flag 1 alone, of one
        // whose value is 0 with any; 5:0 remapped; else none.
        assert_eq!(with(fault, &[(3, kind)]), matches!(kind, 2 | 3));
        assert_eq!(with(early, &[(3, kind)]), kind < 4);
        assert_eq!(with(remapped, &[(3, kind)]), kind < 0x40);
        assert_eq!(with(granted, &[(3, kind)]), kind == 0);
        assert_eq!(with(posted, &[(3, kind)]), kind == 0);
    }
    // Answers of the other kind.
    for answer in 0..=255 {
        let empty = [0; 32];
        let number = [(2, 1)];
        let memory =
            with(empty, &[(0, 1), (1, answer)]) || with(empty, &[(0, 1), (1, answer), number[0]]);
        assert_eq!(memory, matches!(answer, 1..=3), "{answer}");
        let numbered = with(empty, &[(0, 3), (1, answer), (2, 0x21)]);
        let interrupt = with(empty, &[(0, 3), (1, answer)])
            || with(empty, &[(0, 3), (1, answer), number[0]])
            || numbered;
        assert_eq!(interrupt, matches!(answer, 1 | 2 | 4..=7), "{answer}");
        let translation =
            with(empty, &[(0, 4), (1, answer)]) || with(empty, &[(0, 4), (1, answer), number[0]]);
        assert_eq!(translation, matches!(answer, 1..=3 | 8), "{answer}");
    }
    // Bytes not used.
    for at in [2, 3, 6, 7, 16, 17, 18, 19, 20, 23] {
        assert!(!with(granted, &[(at, 1)]), "byte {at}");
    }
    for at in [2, 7, 24, 31] {
        assert!(!with(remapped, &[(at, 1)]), "byte {at}");
    }
    for at in [2, 6, 20, 23] {
        assert!(!with(posted, &[(at, 1)]), "byte {at}");
    }
    for at in [6, 7, 20, 24, 31] {
        assert!(!with(early, &[(at, 1)]), "byte {at}");
    }
}

/// "Byte 0 is 56h, byte 1 the count of entries, 1 to 15; bytes 2 to 7 are the
/// block's number, from 0; entries of 32 bytes follow from byte 8 and unused
/// bytes up to 507 are zero; bytes 508 to 511 hold the sum". "Write, each block
/// filled before the next".
#[test]
fn blocks() {
    let entries = bench_entries();
    let bytes = write_trace(&entries);
    assert_eq!(bytes.len(), 1024);
    assert_eq!(bytes[..8], [0x56, 15, 0, 0, 0, 0, 0, 0]);
    assert_eq!(bytes[512..520], [0x56, 5, 1, 0, 0, 0, 0, 0]);
    assert_eq!(bytes[8..40], encode_entry(&entries[0]));
    assert_eq!(bytes[8 + 14 * 32..8 + 15 * 32], encode_entry(&entries[14]));
    assert_eq!(bytes[520..552], encode_entry(&entries[15]));
    assert!(bytes[488..508].iter().all(|&byte| byte == 0));
    assert!(bytes[512 + 8 + 5 * 32..512 + 508]
        .iter()
        .all(|&byte| byte == 0));
    let mut sum = 0u64;
    for n in 0..508u64 {
        sum += u64::from(bytes[n as usize]) * (n + 1);
    }
    assert_eq!(bytes[508..512], (sum as u32).to_le_bytes());
    let read = read_trace(&bytes);
    assert_eq!(read.damaged, []);
    let places: Vec<(u64, u8)> = read
        .entries
        .iter()
        .map(|(at, _)| (at.block, at.place))
        .collect();
    let expected: Vec<(u64, u8)> = (0..20).map(|n| (n / 15, (n % 15) as u8)).collect();
    assert_eq!(places, expected);
    let back: Vec<TraceEntry> = read.entries.into_iter().map(|(_, entry)| entry).collect();
    assert_eq!(back, entries);
    // None, one, 15, 16.
    for (count, blocks) in [(0, 0), (1, 1), (14, 1), (15, 1), (16, 2)] {
        assert_eq!(write_trace(&entries[..count]).len(), 512 * blocks);
    }
    assert_eq!(
        read_trace(&[]),
        Trace {
            entries: vec![],
            damaged: vec![]
        }
    );
}

/// Something done to a block.
type Change = dyn Fn(&mut [u8]);

/// A block's sum made right again.
fn resum(block: &mut [u8]) {
    let sum: u32 = (0..508).map(|n| u32::from(block[n]) * (n as u32 + 1)).sum();
    block[508..512].copy_from_slice(&sum.to_le_bytes());
}

/// "each block not laid out so ... with its place as number, a short last one
/// too"; "It hands out all other blocks' entries unchanged and in order."
#[test]
fn damaged_blocks() {
    let mut random = Random(56);
    let entries: Vec<TraceEntry> = (0..40).map(|_| any_entry(&mut random)).collect();
    let bytes = write_trace(&entries);
    let others = |read: &Trace| {
        let kept = read.entries.iter().map(|(_, entry)| entry.clone());
        kept.collect::<Vec<_>>()
    };
    // The last block holds 10 of 15; it may have more or fewer entries, and
    // blocks in between may be part-filled.
    assert_eq!(others(&read_trace(&bytes)), entries);
    let damage = |change: &Change| {
        let mut bytes = bytes.clone();
        change(&mut bytes[512..1024]);
        resum(&mut bytes[512..1024]);
        read_trace(&bytes)
    };
    let first_and_last: Vec<TraceEntry> = [&entries[..15], &entries[30..]].concat();
    let changes: [&Change; 8] = [
        &|block| block[0] = 0x57,
        &|block| block[1] = 0,
        &|block| block[1] = 16,
        &|block| block[1] = 14,
        &|block| block[2] = 2,
        &|block| block[7] = 1,
        &|block| block[8] = 9,
        &|block| block[500] = 1,
    ];
    for change in changes {
        let read = damage(change);
        assert_eq!(read.damaged, [1]);
        assert_eq!(others(&read), first_and_last);
    }
    // The sum alone.
    let mut wrong = bytes.clone();
    wrong[1023] ^= 0x80;
    assert_eq!(read_trace(&wrong).damaged, [1]);
    // A part-filled block in between is good.
    let part = damage(&|block| {
        block[1] = 3;
        block[8 + 3 * 32..508].fill(0);
    });
    assert_eq!(part.damaged, []);
    assert_eq!(part.entries.len(), 15 + 3 + 10);
    // A short last block is named, and hands nothing out; blocks in another
    // order have another number than their place.
    for length in [1025, 1535] {
        let read = read_trace(&bytes[..length]);
        assert_eq!(read.damaged, [2]);
        assert_eq!(others(&read), entries[..30]);
    }
    let swapped = [&bytes[512..1024], &bytes[..512], &bytes[1024..]].concat();
    let read = read_trace(&swapped);
    assert_eq!(read.damaged, [0, 1]);
    assert_eq!(others(&read), entries[30..]);
}

/// "so every block changed by one byte is named": every byte of a few blocks,
/// to every other value.
#[test]
fn one_byte_changed() {
    let mut random = Random(57);
    for count in [1, 15] {
        let entries: Vec<TraceEntry> = (0..count).map(|_| any_entry(&mut random)).collect();
        let bytes = write_trace(&entries);
        for at in 0..512 {
            for change in 1..=255 {
                let mut changed = bytes.clone();
                changed[at] ^= change;
                let read = read_trace(&changed);
                assert_eq!(read.damaged, [0], "byte {at} by {change:X}");
                assert!(read.entries.is_empty());
            }
        }
    }
}

/// "Replay runs these under given registers and image, posts made, and names by
/// block and place exactly those whose answer differs."
#[test]
fn replay() {
    let entries = bench_entries();
    let bytes = write_trace(&entries);
    let windows = whole(&bench_image());
    // The same night again: nothing differs, and the post is made.
    let mut image = bench_image();
    assert_eq!(replay_trace(&BENCH, &windows, &mut image, &bytes), []);
    assert_eq!((image[0x6406], image[0x6420]), (2, 1));
    // Over that image: the first post has no notice now.
    let at = |block, place| TracePlace { block, place };
    assert_eq!(
        replay_trace(&BENCH, &windows, &mut image, &bytes),
        [at(1, 0)]
    );
    // Another page: case 1 and, for its entry address, nothing else.
    let mut image = bench_image();
    set(&mut image, 0x5008, 0x1234_6001);
    assert_eq!(
        replay_trace(&BENCH, &windows, &mut image, &bytes),
        [at(0, 0)]
    );
    // Another vector or descriptor posted, the notice being the same.
    let mut image = bench_image();
    set(&mut image, 0x6040, 0x0000_6400_0032_8001);
    assert_eq!(
        replay_trace(&BENCH, &windows, &mut image, &bytes),
        [at(1, 0), at(1, 1)]
    );
    // Bad registers: all but none that was refused 1.
    let bad = Registers { s: 16, ..BENCH };
    let mut image = bench_image();
    let all: Vec<TracePlace> = (0..20).map(|n| at(n / 15, (n % 15) as u8)).collect();
    assert_eq!(replay_trace(&bad, &windows, &mut image, &bytes), all);
    assert!(image == bench_image());
    // The first block damaged: its entries aren't run.
    let mut damaged = bytes.clone();
    damaged[100] ^= 1;
    let mut image = bench_image();
    assert_eq!(
        replay_trace(&bad, &windows, &mut image, &damaged),
        all[15..]
    );
    assert_eq!(replay_trace(&BENCH, &windows, &mut image, &damaged), []);
}

/// Translation requests: a page with its size and rights, the empty answer, a
/// fault, and with TE off their own address.
#[test]
fn translation_requests() {
    let mut image = bench_image();
    // TT 1.
    set(&mut image, 0x2100, 0x3005);
    let windows = whole(&image);
    let asked = |address| TracedRequest::Translation {
        source: SOURCE,
        address,
    };
    let addresses = [
        0x4020_1ABC,
        0x4041_2345,
        0x4020_2000,
        0x4060_0000,
        0xFEE0_0000,
    ];
    let mut entries = Vec::new();
    let off = Registers { te: false, ..BENCH };
    for registers in [&BENCH, &off] {
        for request in addresses.map(asked) {
            let answer = traced_answer(registers, &windows, &mut image, request);
            entries.push(TraceEntry { request, answer });
        }
    }
    let heads: Vec<[u8; 4]> = entries
        .iter()
        .map(|entry| {
            let bytes = encode_entry(entry);
            assert_eq!(decode_entry(&bytes).as_ref(), Some(entry));
            [bytes[0], bytes[1], bytes[2], bytes[3]]
        })
        .collect();
    let expected = [
        [4, 8, 12, 1],
        [4, 8, 21, 3],
        [4, 8, 0, 0],
        [4, 2, 7, 3],
        [4, 1, 2, 0],
        [4, 3, 0, 0],
        [4, 3, 0, 0],
        [4, 3, 0, 0],
        [4, 3, 0, 0],
        [4, 1, 2, 0],
    ];
    assert_eq!(heads, expected);
    let trace = write_trace(&entries);
    let differ = replay_trace(&BENCH, &windows, &mut image, &trace);
    let places: Vec<u8> = differ.iter().map(|at| at.place).collect();
    assert_eq!(places, [5, 6, 7, 8]);
}
