//! A pseudo-random sweep, the same on every run: that an answer always comes
//! back, that the named words are enough to settle it, and that rights switched
//! on or off act one way only. Each test counts what it met, and fails if it
//! met too little of it.

mod common;

use common::{get, set, Random};
use reference::{
    interrupt_request, interrupt_request_in, memory_request, memory_request_in,
    named_words_interrupt, named_words_interrupt_in, named_words_memory, named_words_memory_in,
    walked_entries, Outcome, Registers, Slip, Window,
};
use std::collections::BTreeSet;

const IMAGE: usize = 0x8000;

/// Registers within the list, mostly switched on.
fn listed_registers(random: &mut Random) -> Registers {
    let mut registers = Registers {
        haw: random.pick(&[36, 39, 46, 51, 52]),
        mgaw: random.pick(&[39, 42, 48, 52, 57]),
        levels3: random.coin(),
        levels4: random.coin(),
        levels5: random.coin(),
        pages_2m: random.below(4) != 0,
        pages_1g: random.below(4) != 0,
        posting: random.below(4) != 0,
        root: 0x1000 * random.below(8),
        interrupt_table: 0x1000 * random.below(8),
        s: random.below(16) as u8,
        te: random.below(16) != 0,
        ire: random.below(16) != 0,
        eime: random.coin(),
        cfis: random.coin(),
    };
    if !registers.levels3 && !registers.levels4 && !registers.levels5 {
        registers.levels4 = true;
    }
    registers
}

/// Any registers at all.
fn any_registers(random: &mut Random) -> Registers {
    let mut registers = listed_registers(random);
    match random.below(10) {
        0 => registers.haw = random.word() as u8,
        1 => registers.mgaw = random.word() as u8,
        2 => registers.s = random.word() as u8,
        3 => registers.root = random.word(),
        4 => registers.interrupt_table = random.word(),
        5 => registers.root = random.word() & ((1 << registers.haw) - 1) & !0xFFF,
        6 => registers.interrupt_table = random.word() & ((1 << registers.haw) - 1) & !0xFFF,
        7 => {
            registers.levels3 = false;
            registers.levels4 = false;
            registers.levels5 = false;
        }
        _ => {}
    }
    registers
}

/// Now and then, one random bit of a word turned over.
fn scratched(random: &mut Random, word: u64) -> u64 {
    if random.below(12) == 0 {
        word ^ 1 << random.below(64)
    } else {
        word
    }
}

/// An image in which the request's walk was laid out, with scratches.
fn image_for_memory(
    random: &mut Random,
    registers: &Registers,
    source: u16,
    address: u64,
) -> Vec<u8> {
    let mut image = vec![0; IMAGE];
    let page = |random: &mut Random| 0x1000 * random.below(8);
    let bus = usize::from(source >> 8);
    let function = usize::from(source & 0xFF);

    let context_table = page(random);
    let aw = random.below(3) + 1;
    let tt = random.pick(&[0, 0, 0, 1, 1, 2, 3]);
    let fpd = random.below(2);
    let mut table = page(random);
    let at = context_table as usize + 16 * function;
    let first = scratched(random, table | tt << 2 | fpd << 1 | 1);
    let second = scratched(random, (random.0 & 0xFF_FF00) | aw);
    set(&mut image, at, first);
    set(&mut image, at + 8, second);

    for level in (1..aw + 3).rev() {
        let at = table + 8 * (address >> (12 + 9 * (level - 1)) & 511);
        let rights = random.pick(&[3, 3, 3, 3, 3, 2, 1, 0]);
        let large = (level == 2 || level == 3) && random.below(4) == 0;
        let frame = if level == 1 && random.below(16) == 0 {
            0xFEE0_0000 + 0x1000 * random.below(256)
        } else if level == 1 {
            random.word() & ((1 << registers.haw) - 1) & !0xFFF
        } else if large {
            random.word() & ((1 << registers.haw) - 1) & !((1 << (9 * level + 3)) - 1)
        } else {
            page(random)
        };
        let other = random.word() & 0xFFF0_0000_0000_0F7C;
        let size = if large { 0x80 } else { 0 };
        let entry = scratched(random, frame | rights | other | size);
        set(&mut image, at as usize, entry);
        table = frame;
        if large {
            break;
        }
    }

    let root_entry = registers.root as usize + 16 * bus;
    if root_entry + 16 <= image.len() {
        let entry = scratched(random, context_table | 1);
        set(&mut image, root_entry, entry);
        let entry = scratched(random, 0);
        set(&mut image, root_entry + 8, entry);
    }
    if random.below(8) == 0 {
        image.truncate(random.below(IMAGE as u64 + 1) as usize);
    }
    image
}

/// A second memory alike in the named words, of a length of its own and with
/// all else made up.
fn alike(random: &mut Random, image: &[u8], words: &[u64]) -> Vec<u8> {
    let least = words.iter().map(|word| word + 8).max().unwrap_or(0);
    let length = (least + random.pick(&[0, 0, 1, 0x3FF, 0x1000])) as usize;
    let mut second = Vec::with_capacity(length + 8);
    while second.len() < length {
        second.extend(random.word().to_le_bytes());
    }
    second.truncate(length);
    for &word in words {
        set(&mut second, word as usize, get(image, word as usize));
    }
    second
}

/// The same host memory as the image, in one to four windows onto a run: cut
/// between pages, put into the run in any order, with other bytes in between.
fn split(random: &mut Random, image: &[u8]) -> (Vec<Window>, Vec<u8>) {
    let mut cuts: Vec<usize> = (0..random.below(4))
        .map(|_| 0x1000 * random.below(8) as usize)
        .chain([0, image.len()])
        .filter(|&cut| cut <= image.len())
        .collect();
    cuts.sort();
    cuts.dedup();
    let mut parts: Vec<(usize, usize)> = cuts.windows(2).map(|cut| (cut[0], cut[1])).collect();
    for n in (1..parts.len()).rev() {
        parts.swap(n, random.below(n as u64 + 1) as usize);
    }
    let mut run = Vec::new();
    let mut windows = Vec::new();
    for (start, end) in parts {
        run.extend((0..random.below(20)).map(|_| random.0 as u8));
        windows.push(Window {
            start: start as u64,
            from: run.len() as u64,
            length: (end - start) as u64,
        });
        run.extend(&image[start..end]);
    }
    run.extend((0..random.below(20)).map(|_| random.0 as u8));
    windows.sort_by_key(|window| window.start);
    (windows, run)
}

/// The windows with those left out in which no word lies.
fn with_holes(windows: &[Window], words: &[u64]) -> Vec<Window> {
    let needed = |window: &&Window| {
        let end = window.start + window.length;
        words.iter().any(|word| (window.start..end).contains(word))
    };
    windows.iter().filter(needed).copied().collect()
}

fn ends_in(answer: &Outcome, access_faults: &[u8]) -> bool {
    match answer {
        Outcome::Blocked(fault) => access_faults.contains(&fault.reason),
        _ => false,
    }
}

fn kind(answer: &Outcome) -> String {
    match answer {
        Outcome::Granted(_) => "granted".into(),
        Outcome::Blocked(fault) => format!("{:02X}h", fault.reason),
        Outcome::Refused(number) => format!("refused {number}"),
        Outcome::Passed => "passed".into(),
        Outcome::Remapped { .. } => "remapped".into(),
        Outcome::Posted {
            notice: Some(_), ..
        } => "posted, notice".into(),
        Outcome::Posted { .. } => "posted".into(),
    }
}

fn memory_address(random: &mut Random) -> u64 {
    match random.below(12) {
        0 => random.word(),
        1 => 0xFEE0_0000 + random.below(0x10_0000),
        _ => random.word() >> random.pick(&[7, 16, 25]),
    }
}

#[test]
fn memory_requests() {
    let mut random = Random(0x5EED);
    let mut met = BTreeSet::new();
    let (mut still_granted, mut still_blocked) = (0, 0);
    for _ in 0..8_000 {
        let registers = if random.below(8) == 0 {
            any_registers(&mut random)
        } else {
            listed_registers(&mut random)
        };
        let source = random.word() as u16;
        let address = memory_address(&mut random);
        let write = random.coin();
        let image = if registers.haw <= 52 && registers.haw > 30 && registers.root < 0x8000 {
            image_for_memory(&mut random, &registers, source, address)
        } else {
            vec![0xFF; random.below(0x2000) as usize]
        };
        let answer = memory_request(&registers, &image, source, address, write);
        let words = named_words_memory(&registers, &image, source, address, write);
        let walked = walked_entries(&registers, &image, source, address, write);
        met.insert(kind(&answer));

        // "never more than nine words"; each a word, whole in the image.
        assert!(words.len() <= 9);
        assert!(words.ends_with(&walked));
        for word in &words {
            assert!(word % 8 == 0 && word + 8 <= image.len() as u64);
        }

        // The entry a fault names is the last one whose fetch was tried: the
        // last one read, or one that lies outside the image.
        if let Outcome::Blocked(fault) = &answer {
            let entry = fault.entry.unwrap();
            let width = if words.len() < 4 || walked.is_empty() && fault.reason != 0x07 {
                16
            } else {
                8
            };
            if ends_in(&answer, &[0x07, 0x08, 0x09]) {
                assert!(entry + width > image.len() as u64);
            } else {
                assert_eq!(words.last(), Some(&(entry + width - 8)));
            }
        }

        // Over a second memory alike in those words, the same answer.
        if !ends_in(&answer, &[0x07, 0x08, 0x09]) {
            let second = alike(&mut random, &image, &words);
            let again = memory_request(&registers, &second, source, address, write);
            assert_eq!(again, answer);
            let words_again = named_words_memory(&registers, &second, source, address, write);
            assert_eq!(words_again, words);
        }

        // The same memory in windows: the same answer and words. And again
        // with the windows left out in which none of those words lies.
        let (windows, run) = split(&mut random, &image);
        let holes = with_holes(&windows, &words);
        let access = ends_in(&answer, &[0x07, 0x08, 0x09]);
        for windows in [&windows, &holes] {
            let none = Slip::None;
            let again = memory_request_in(none, &registers, windows, &run, source, address, write);
            let in_windows =
                named_words_memory_in(&registers, windows, &run, source, address, write);
            assert_eq!(again, answer, "access fault: {access}");
            assert_eq!(in_windows, words);
        }

        // Rights switched on or off in any choice of the walked entries, none
        // of which may share a byte with the root or context entry.
        let tables = &words[..words.len() - walked.len()];
        if walked.iter().any(|entry| tables.contains(entry)) {
            continue;
        }
        let mut more = image.clone();
        let mut less = image.clone();
        for &entry in &walked {
            let entry = entry as usize;
            let choice = random.below(4);
            let on = get(&more, entry) | choice;
            set(&mut more, entry, on);
            let off = get(&less, entry) & !choice;
            set(&mut less, entry, off);
        }
        if let Outcome::Granted(_) = answer {
            let more = memory_request(&registers, &more, source, address, write);
            assert_eq!(more, answer);
            still_granted += 1;
        } else {
            let less = memory_request(&registers, &less, source, address, write);
            assert!(!matches!(less, Outcome::Granted(_)));
            still_blocked += 1;
        }
    }
    let expected = [
        "01h",
        "02h",
        "03h",
        "04h",
        "05h",
        "06h",
        "07h",
        "08h",
        "09h",
        "0Ah",
        "0Bh",
        "0Ch",
        "granted",
        "refused 1",
        "refused 2",
        "refused 4",
    ];
    assert!(met.iter().eq(expected), "{met:?}");
    assert!(still_granted > 500, "{still_granted}");
    assert!(still_blocked > 1000, "{still_blocked}");
}

/// An image with the interrupt's entry and descriptor laid out, with scratches.
fn image_for_interrupt(random: &mut Random, registers: &Registers, source: u16) -> Vec<u8> {
    let mut image = vec![0; IMAGE];
    let table = registers.interrupt_table as usize;
    for index in 0..16 {
        let at = table + 16 * index;
        if at + 16 > image.len() {
            break;
        }
        let svt = random.pick(&[0, 1, 1, 2]);
        let sid = match random.below(3) {
            0 => random.word() & 0xFFFF,
            1 => 0x00FF,
            _ => u64::from(source) ^ random.below(8),
        };
        let check = svt << 18 | random.below(4) << 16 | sid;
        let present = u64::from(random.below(8) != 0) | random.below(2) << 1;
        let vector = random.below(256) << 16;
        let first = if random.coin() {
            let descriptor = 64 * random.below(IMAGE as u64 / 64 + 8);
            let word = (random.word() & 0x0000_00FF_00FF_0000) | random.below(4);
            let word = if registers.eime {
                random.word() << 32 | (word & 0xFFFF_FFFF)
            } else {
                (word & 0xFF_0000) | (word & 3) | random.below(256) << 40
            };
            let word = scratched(random, word);
            if descriptor as usize + 64 <= image.len() {
                for n in 0..8 {
                    let requests = if n < 4 { random.word() } else { 0 };
                    set(&mut image, descriptor as usize + 8 * n, requests);
                }
                set(&mut image, descriptor as usize + 32, word);
            }
            descriptor << 32 | vector | 0x8000 | random.below(2) << 14 | present
        } else {
            let destination = if registers.eime {
                random.word() << 32
            } else {
                random.below(256) << 40
            };
            destination | vector | (random.word() & 0xFFC) | present
        };
        let first = scratched(random, first);
        let second = scratched(random, check);
        set(&mut image, at, first);
        set(&mut image, at + 8, second);
    }
    if random.below(8) == 0 {
        image.truncate(random.below(IMAGE as u64 + 1) as usize);
    }
    image
}

#[test]
fn interrupts() {
    let mut random = Random(0xBE11);
    let mut met = BTreeSet::new();
    for _ in 0..8_000 {
        let registers = if random.below(8) == 0 {
            any_registers(&mut random)
        } else {
            listed_registers(&mut random)
        };
        let source = random.word() as u16;
        let address = match random.below(16) {
            0 => random.word(),
            1 => 0xFEE0_0000 + random.below(0x10_0000),
            _ => 0xFEE0_0010 | random.below(12) << 5 | random.below(2) << 3,
        };
        let data = match random.below(16) {
            0 => random.word() as u32,
            1 => random.word() as u32 & 0xFFFF,
            _ => random.below(4) as u32,
        };
        let image = if registers.interrupt_table < 0x8000 {
            image_for_interrupt(&mut random, &registers, source)
        } else {
            vec![0xFF; random.below(0x2000) as usize]
        };
        let mut after = image.clone();
        let answer = interrupt_request(&registers, &mut after, source, address, data);
        let words = named_words_interrupt(&registers, &image, source, address, data);
        met.insert(kind(&answer));

        assert!(matches!(words.len(), 0 | 2 | 10));
        for word in &words {
            assert!(word % 8 == 0 && word + 8 <= image.len() as u64);
        }

        // A post sets its request bit, with a notice the outstanding bit, and
        // alters nothing else. No other answer changes a byte.
        let changed = (0..image.len()).filter(|&n| image[n] != after[n]);
        let changed: Vec<usize> = if image == after {
            vec![]
        } else {
            changed.collect()
        };
        assert!(changed.iter().all(|&n| image[n] & !after[n] == 0));
        let set_bits: u32 = changed
            .iter()
            .map(|&n| (image[n] ^ after[n]).count_ones())
            .sum();
        match &answer {
            Outcome::Posted {
                vector: told,
                descriptor: at,
                notice,
            } => {
                let vector = usize::from(image[words[0] as usize + 2]);
                let descriptor = words[2] as usize;
                assert_eq!((usize::from(*told), *at), (vector, words[2]));
                assert!(after[descriptor + vector / 8] >> (vector % 8) & 1 == 1);
                assert!(after[descriptor + 32] & 1 == 1 || notice.is_none());
                let was = image[descriptor + vector / 8] >> (vector % 8) & 1 == 1;
                assert_eq!(set_bits, u32::from(!was) + u32::from(notice.is_some()));
            }
            _ => assert_eq!(set_bits, 0),
        }

        // The entry a fault names is the last one whose fetch was tried.
        if let Outcome::Blocked(fault) = &answer {
            match (fault.entry, fault.reason) {
                (None, 0x20 | 0x21 | 0x25) => assert!(words.is_empty()),
                (Some(entry), 0x23) => assert!(entry + 16 > image.len() as u64),
                (Some(entry), 0x27) => assert!(entry + 64 > image.len() as u64),
                (Some(entry), 0x22 | 0x24 | 0x26) => assert_eq!(words, [entry, entry + 8]),
                (Some(entry), 0x28) => assert_eq!(words[2], entry),
                other => panic!("{other:x?}"),
            }
        }

        // The same memory in windows: the same answer, words and bytes.
        let (windows, run) = split(&mut random, &image);
        let holes = with_holes(&windows, &words);
        for windows in [&windows, &holes] {
            let mut run = run.clone();
            let before = run.clone();
            let in_windows =
                named_words_interrupt_in(&registers, windows, &run, source, address, data);
            assert_eq!(in_windows, words);
            let none = Slip::None;
            let again =
                interrupt_request_in(none, &registers, windows, &mut run, source, address, data);
            assert_eq!(again, answer);
            for window in windows {
                let (start, from) = (window.start as usize, window.from as usize);
                let length = window.length as usize;
                assert!(run[from..from + length] == after[start..start + length]);
            }
            let changed_in_run = (0..run.len()).filter(|&n| run[n] != before[n]).count();
            assert_eq!(changed_in_run, changed.len());
        }

        if !ends_in(&answer, &[0x23, 0x27]) {
            let mut second = alike(&mut random, &image, &words);
            let words_again = named_words_interrupt(&registers, &second, source, address, data);
            assert_eq!(words_again, words);
            let again = interrupt_request(&registers, &mut second, source, address, data);
            assert_eq!(again, answer);
            for &word in &words {
                assert_eq!(get(&second, word as usize), get(&after, word as usize));
            }
        }
    }
    let expected = [
        "20h",
        "21h",
        "22h",
        "23h",
        "24h",
        "25h",
        "26h",
        "27h",
        "28h",
        "passed",
        "posted",
        "posted, notice",
        "refused 1",
        "refused 2",
        "remapped",
    ];
    assert!(met.iter().eq(expected), "{met:?}");
}
