//! Ask 14: scalable mode. The bench: root table 1000h, lower context table
//! 2000h, upper one 5000h, PASID table 4000h, first-level tables from 8000h on,
//! second-level tables from 10000h on, PASID directory 30000h.

mod common;

use common::{get, record_words, set, Random, BENCH, SOURCE};
use reference::{
    flags_scalable, named_words_scalable, scalable_request, Flag, Outcome, Registers,
    ScalableRegisters, ScalableRequest, Window,
};

const REGISTERS: ScalableRegisters = ScalableRegisters {
    base: Registers {
        levels5: true,
        ..BENCH
    },
    flts: true,
    slts: true,
    nest: true,
    pt: true,
    fl5lp: true,
    fl1gp: true,
    slads: true,
    eafs: true,
    srs: true,
    smpwc: true,
};

const LENGTH: usize = 0x5_0000;

/// The address that both levels' walks are laid for.
const ADDRESS: u64 = 0x4020_1ABC;

/// The PASID of requests that have one, and the entry for it: 30000h + 8 x
/// 48Dh, then 4000h + 64 x 5. Requests without have RID_PASID 41h: 30008h, then
/// 4040h.
const PASID: u32 = 0x1_2345;
const ENTRY: usize = 0x4140;
const RID_ENTRY: usize = 0x4040;

/// PGTT in bits 8:6 of a PASID table entry.
const FIRST: u64 = 1 << 6;
const SECOND: u64 = 2 << 6;
const NESTED: u64 = 3 << 6;
const THROUGH: u64 = 4 << 6;

/// SLADE; PWSNP in word 1; and in word 2 SRE, FLPM 1, WPE, NXE and EAFE.
const SLADE: u64 = 1 << 9;
const PWSNP: u64 = 1 << 23;
const SRE: u64 = 1;
const FLPM_5: u64 = 1 << 2;
const WPE: u64 = 1 << 4;
const NXE: u64 = 1 << 5;
const EAFE: u64 = 1 << 7;

/// AW 1, 3 levels, P, and the second level's top table at 10000h.
const LOW: u64 = 0x1_0000 | 1 << 2 | 1;

/// The first level's top table, at a host address or, nested, at an
/// intermediate one that the second level maps to it.
const FL_HOST: u64 = 0x8000;
const FL_NESTED: u64 = 0x4020_8000;

/// The image with the entry for both PASIDs made of three words.
fn bench(low: u64, word_1: u64, word_2: u64) -> Vec<u8> {
    let mut image = vec![0; LENGTH];
    // Source 0310h: bus 3, function 10h.
    set(&mut image, 0x1030, 0x2001);
    set(&mut image, 0x1038, 0x5001);
    // PASIDE, PDTS 7.
    set(&mut image, 0x2200, 0x3_0E09);
    set(&mut image, 0x2208, 0x41);
    set(&mut image, 0x3_0008, 0x4001);
    set(&mut image, 0x3_2468, 0x4001);
    for entry in [ENTRY, RID_ENTRY] {
        set(&mut image, entry, low);
        set(&mut image, entry + 8, word_1);
        set(&mut image, entry + 16, word_2);
    }
    // First level, 4 levels: indices 0, 1, 1, 1. Present, R/W, U/S.
    let base = if low & NESTED == NESTED {
        0x4020_0000
    } else {
        0
    };
    set(&mut image, 0x8000, base + 0x9007);
    set(&mut image, 0x9008, base + 0xA007);
    set(&mut image, 0xA008, base + 0xB007);
    set(&mut image, 0xB008, base + 0xC007);
    // Second level, 3 levels: 40200000h + n x 1000h is host n x 1000h, of
    // which page 201000h is 12345000h.
    set(&mut image, 0x1_0008, 0x1_1003);
    set(&mut image, 0x1_1008, 0x1_2003);
    for n in 0..16 {
        set(&mut image, 0x1_2000 + 8 * n, (n as u64) << 12 | 3);
    }
    set(&mut image, 0x1_2008, 0x1234_5003);
    image
}

/// Words put into the image, whether the request writes, and the reason and
/// the entry of its fault.
type Case = (&'static [(usize, u64)], bool, u8, u64);

fn with(mut image: Vec<u8>, words: &[(usize, u64)]) -> Vec<u8> {
    for &(address, word) in words {
        set(&mut image, address, word);
    }
    image
}

fn second() -> Vec<u8> {
    bench(LOW | SECOND, PWSNP, 0)
}

fn first() -> Vec<u8> {
    bench(LOW | FIRST, PWSNP, FL_HOST)
}

fn nested(slade: u64) -> Vec<u8> {
    bench(LOW | NESTED | slade, PWSNP, FL_NESTED)
}

fn windows() -> [Window; 1] {
    [Window {
        start: 0,
        from: 0,
        length: LENGTH as u64,
    }]
}

fn request(address: u64, write: bool, pasid: Option<u32>) -> ScalableRequest {
    ScalableRequest {
        source: SOURCE,
        address,
        write,
        pasid,
    }
}

/// The answer, and the flags that were clear and are set now.
fn answer_of(
    registers: &ScalableRegisters,
    image: &[u8],
    request: ScalableRequest,
) -> (Outcome, Vec<Flag>) {
    let mut after = image.to_vec();
    let outcome = scalable_request(registers, &windows(), &mut after, request);
    let mut flags = Vec::new();
    for at in (0..image.len()).step_by(8) {
        let (old, new) = (get(image, at), get(&after, at));
        assert_eq!(old & !new, 0, "a bit was cleared");
        for bit in (0..64).filter(|bit| (new & !old) >> bit & 1 == 1) {
            flags.push(Flag {
                entry: at as u64,
                bit,
            });
        }
    }
    if !matches!(outcome, Outcome::Granted(_)) {
        assert_eq!(flags, []);
    }
    (outcome, flags)
}

fn answer(image: &[u8], address: u64, write: bool) -> Outcome {
    answer_of(&REGISTERS, image, request(address, write, Some(PASID))).0
}

fn read(image: &[u8], address: u64) -> Outcome {
    answer(image, address, false)
}

/// Reason and entry of a blocked request.
fn stopped(outcome: Outcome) -> (u8, u64) {
    match outcome {
        Outcome::Blocked(fault) => (fault.reason, fault.entry.unwrap()),
        other => panic!("not blocked: {other:x?}"),
    }
}

fn flags(pairs: &[(u64, u8)]) -> Vec<Flag> {
    let mut flags: Vec<Flag> = pairs
        .iter()
        .map(|&(entry, bit)| Flag { entry, bit })
        .collect();
    flags.sort();
    flags
}

/// A walk of each kind, with and without a PASID: host address, words, flags.
#[test]
fn grants() {
    let page = 0x1234_5ABC;
    let fl = [(0x8000, 5), (0x9008, 5), (0xA008, 5), (0xB008, 5)];
    for pasid in [None, Some(PASID)] {
        for write in [false, true] {
            let ask = request(ADDRESS, write, pasid);
            // Second level: no flags without SLADE.
            let (outcome, set) = answer_of(&REGISTERS, &second(), ask);
            assert_eq!((outcome, set), (Outcome::Granted(page), vec![]));
            let image = bench(LOW | SECOND | SLADE, PWSNP, 0);
            let (outcome, set) = answer_of(&REGISTERS, &image, ask);
            let mut expected = vec![(0x1_0008, 8), (0x1_1008, 8), (0x1_2008, 8)];
            if write {
                expected.push((0x1_2008, 9));
            }
            assert_eq!((outcome, set), (Outcome::Granted(page), flags(&expected)));
            // First level: frame C000h.
            let (outcome, set) = answer_of(&REGISTERS, &first(), ask);
            let mut expected = fl.to_vec();
            if write {
                expected.push((0xB008, 6));
            }
            assert_eq!((outcome, set), (Outcome::Granted(0xCABC), flags(&expected)));
            // Nested: 4020C000h is host C000h.
            let (outcome, set) = answer_of(&REGISTERS, &nested(0), ask);
            assert_eq!((outcome, set), (Outcome::Granted(0xCABC), flags(&expected)));
            // With SLADE: A in all, D in the leaf of each first-level entry.
            let (outcome, set) = answer_of(&REGISTERS, &nested(SLADE), ask);
            expected.extend([(0x1_0008, 8), (0x1_1008, 8)]);
            for leaf in [0x1_2040, 0x1_2048, 0x1_2050, 0x1_2058] {
                expected.extend([(leaf, 8), (leaf, 9)]);
            }
            expected.push((0x1_2060, 8));
            if write {
                expected.push((0x1_2060, 9));
            }
            assert_eq!((outcome, set), (Outcome::Granted(0xCABC), flags(&expected)));
            // Pass-through: any address but the interrupt range, no width.
            let through = bench(LOW | THROUGH, 0, 0);
            for address in [0, ADDRESS, 1 << 57, u64::MAX] {
                let ask = request(address, write, pasid);
                let (outcome, set) = answer_of(&REGISTERS, &through, ask);
                assert_eq!((outcome, set), (Outcome::Granted(address), vec![]));
            }
        }
    }
}

/// Named words: 2 + 4 + 1 + 8, then the walk's.
#[test]
fn words() {
    let head = |pasid: Option<u32>| {
        let (directory, entry) = match pasid {
            None => (0x3_0008, RID_ENTRY as u64),
            Some(_) => (0x3_2468, ENTRY as u64),
        };
        let mut words = vec![0x1030, 0x1038, 0x2200, 0x2208, 0x2210, 0x2218, directory];
        words.extend((0..8).map(|n| entry + 8 * n));
        words
    };
    for pasid in [None, Some(PASID)] {
        let ask = request(ADDRESS, false, pasid);
        let words = |image: &[u8]| named_words_scalable(&REGISTERS, &windows(), image, ask);
        let sl = |leaf| vec![0x1_0008, 0x1_1008, leaf];
        assert_eq!(words(&second()), [head(pasid), sl(0x1_2008)].concat());
        assert_eq!(
            words(&first()),
            [head(pasid), vec![0x8000, 0x9008, 0xA008, 0xB008]].concat()
        );
        let steps = [
            head(pasid),
            sl(0x1_2040),
            vec![0x8000],
            sl(0x1_2048),
            vec![0x9008],
            sl(0x1_2050),
            vec![0xA008],
            sl(0x1_2058),
            vec![0xB008],
            sl(0x1_2060),
        ];
        assert_eq!(words(&nested(0)), steps.concat());
        assert_eq!(words(&bench(LOW | THROUGH, 0, 0)), head(pasid));
    }
}

/// Five levels of each, nested: 15 + 5 x (5 + 1) + 5 = 50 words.
#[test]
fn fifty_words() {
    let low = 0x1_5000 | 3 << 2 | 1 | NESTED;
    let mut image = bench(low, PWSNP, 0x4020_7000 | FLPM_5);
    set(&mut image, 0x7000, 0x4020_8007);
    set(&mut image, 0x1_5000, 0x1_4003);
    set(&mut image, 0x1_4000, 0x1_0003);
    let ask = request(ADDRESS, true, Some(PASID));
    let words = named_words_scalable(&REGISTERS, &windows(), &image, ask);
    assert_eq!(words.len(), 50);
    let (outcome, _) = answer_of(&REGISTERS, &image, ask);
    assert_eq!(outcome, Outcome::Granted(0xCABC));
}

/// Numbers 1, 2, 6, TE off, in this order.
#[test]
fn refusals() {
    let image = second();
    let bad = ScalableRegisters {
        base: Registers {
            haw: 35,
            ..REGISTERS.base
        },
        ..REGISTERS
    };
    let off = ScalableRegisters {
        base: Registers {
            te: false,
            ..REGISTERS.base
        },
        ..REGISTERS
    };
    let outcome = |registers, address, pasid| {
        let ask = request(address, false, pasid);
        assert!(answer_of(registers, &image, ask).1.is_empty());
        answer_of(registers, &image, ask).0
    };
    let wide = Some(1 << 20);
    assert_eq!(outcome(&bad, 0xFEE0_0000, wide), Outcome::Refused(1));
    for registers in [&REGISTERS, &off] {
        for pasid in [None, Some(PASID), wide] {
            for address in [0xFEE0_0000, 0xFEEF_FFFF] {
                assert_eq!(outcome(registers, address, pasid), Outcome::Refused(2));
            }
        }
        for pasid in [1 << 20, u32::MAX] {
            assert_eq!(
                outcome(registers, ADDRESS, Some(pasid)),
                Outcome::Refused(6)
            );
        }
    }
    for pasid in [None, Some(0), Some(0xF_FFFF)] {
        assert_eq!(outcome(&off, u64::MAX, pasid), Outcome::Granted(u64::MAX));
        let words = named_words_scalable(&off, &windows(), &image, request(ADDRESS, true, pasid));
        assert!(words.is_empty());
    }
    let crooked = [Window {
        start: 8,
        from: 0,
        length: 8,
    }];
    let mut run = image.clone();
    let ask = request(0xFEE0_0000, false, wide);
    assert_eq!(
        scalable_request(&REGISTERS, &crooked, &mut run, ask),
        Outcome::Refused(1)
    );
}

/// Each bit of the root, context, directory and table entry, switched by
/// itself: what is reserved.
#[test]
fn single_bits() {
    let image = second();
    let granted = Outcome::Granted(0x1234_5ABC);
    let switched = |at: usize, k: usize, pasid| {
        let mut image = image.clone();
        image[at + k / 8] ^= 1 << (k % 8);
        answer_of(&REGISTERS, &image, request(ADDRESS, false, pasid)).0
    };
    let reason = |outcome: Outcome| match outcome {
        Outcome::Blocked(fault) => fault.reason,
        Outcome::Granted(_) => 0,
        other => panic!("{other:x?}"),
    };
    for pasid in [None, Some(PASID)] {
        for k in 0..128 {
            let found = reason(switched(0x1030, k, pasid));
            match k {
                0 => assert_eq!(found, 0x39),
                // Without UP its half isn't looked at.
                64 => assert_eq!(found, 0),
                1..=11 | 39..=63 | 65..=75 | 103..=127 => assert_eq!(found, 0x3A, "bit {k}"),
                12..=38 => assert!(matches!(found, 0x40..=0x42), "bit {k}"),
                _ => assert_eq!(found, 0, "bit {k}"),
            }
        }
        for k in 0..256 {
            let found = reason(switched(0x2200, k, pasid));
            match k {
                0 => assert_eq!(found, 0x41),
                5..=8 | 39..=63 | 85..=255 => assert_eq!(found, 0x42, "bit {k}"),
                // PRE without DTE.
                4 => assert_eq!(found, 0x43),
                3 => assert_eq!(found, if pasid.is_some() { 0x45 } else { 0 }),
                1 | 2 => assert_eq!(found, 0),
                // PDTS 6, 5, 3: PASID 12345h is above 2^16 - 1 alone.
                11 => assert_eq!(found, if pasid.is_some() { 0x46 } else { 0 }),
                9 | 10 => assert_eq!(found, 0),
                12..=38 => assert!((0x50..=0x5D).contains(&found), "bit {k}: {found:X}"),
                // RID_PASID 45h has the entry that PASID 12345h has, and any
                // other one has none.
                66 => assert_eq!(found, 0),
                64..=83 if pasid.is_none() => {
                    assert!(matches!(found, 0x51 | 0x59), "bit {k}: {found:X}");
                }
                // RID_PRIV, and SRE is clear.
                84 if pasid.is_none() => assert_eq!(found, 0x5D),
                _ => assert_eq!(found, 0, "bit {k}"),
            }
        }
        let (directory, entry) = match pasid {
            None => (0x3_0008, RID_ENTRY),
            Some(_) => (0x3_2468, ENTRY),
        };
        for k in 0..64 {
            let found = reason(switched(directory, k, pasid));
            match k {
                0 => assert_eq!(found, 0x51),
                1 => assert_eq!(found, 0),
                2..=11 | 39..=63 => assert_eq!(found, 0x52, "bit {k}"),
                _ => assert!(matches!(found, 0x58..=0x5A), "bit {k}: {found:X}"),
            }
        }
        for k in 0..512 {
            let outcome = switched(entry, k, pasid);
            let found = reason(outcome.clone());
            match k {
                0 => assert_eq!(found, 0x59),
                10 | 11 | 39..=63 | 80..=86 | 136..=139 | 167..=191 | 192..=511 => {
                    assert_eq!(found, 0x5A, "bit {k}");
                }
                // AW 0, 3, 5; PGTT 3, 0, 6.
                2 | 4 | 7 | 8 => assert_eq!(found, 0x5B, "bit {k}"),
                // AW 3: 5 levels; PGTT 3: nested, with no first level.
                3 | 6 => assert_ne!(found, 0, "bit {k}"),
                // Another top table.
                12..=38 => assert_ne!(found, 0, "bit {k}"),
                // FPD, SLEE, SLADE, and all of the first level, which PGTT 2
                // doesn't ask for; DID, PWSNP, PGSNP, CD, EMTE, EMT, PWT, PCD,
                // PAT.
                _ => assert_eq!(outcome, granted, "bit {k}"),
            }
        }
    }
}

/// The upper half: function 90h is entry 10h of the table at 5000h.
#[test]
fn upper_half() {
    let mut image = second();
    for n in 0..4 {
        let word = get(&image, 0x2200 + 8 * n);
        set(&mut image, 0x5200 + 8 * n, word);
    }
    let ask = ScalableRequest {
        source: 0x0390,
        ..request(ADDRESS, false, None)
    };
    let outcome = |image: &[u8]| answer_of(&REGISTERS, image, ask).0;
    assert_eq!(outcome(&image), Outcome::Granted(0x1234_5ABC));
    let without = with(image.clone(), &[(0x1038, 0x5000)]);
    assert_eq!(stopped(outcome(&without)), (0x39, 0x1030));
    // The lower half's reserved bits count where LP is set, and only there.
    let lower = with(image.clone(), &[(0x1030, 0x2003)]);
    assert_eq!(stopped(outcome(&lower)), (0x3A, 0x1030));
    let absent = with(image, &[(0x1030, 0x2002)]);
    assert_eq!(outcome(&absent), Outcome::Granted(0x1234_5ABC));
}

/// What each type needs of the registers: 5Bh, and 5Ah for what isn't
/// supported.
#[test]
fn supported() {
    let images = [
        (first(), 0),
        (second(), 1),
        (nested(0), 2),
        (bench(LOW | THROUGH, 0, 0), 3),
    ];
    for (image, n) in &images {
        for off in 0..4 {
            let registers = ScalableRegisters {
                flts: off != 0,
                slts: off != 1,
                nest: off != 2,
                pt: off != 3,
                ..REGISTERS
            };
            let outcome = answer_of(&registers, image, request(ADDRESS, false, Some(PASID))).0;
            if off == *n {
                assert_eq!(stopped(outcome), (0x5B, ENTRY as u64));
            } else {
                assert!(matches!(outcome, Outcome::Granted(_)));
            }
        }
    }
    let outcome = |registers: &ScalableRegisters, image: &[u8]| {
        answer_of(registers, image, request(ADDRESS, false, Some(PASID))).0
    };
    // PGTT 0, 5, 6, 7.
    for pgtt in [0, 5, 6, 7] {
        let image = bench(LOW | pgtt << 6, PWSNP, FL_HOST);
        assert_eq!(stopped(outcome(&REGISTERS, &image)), (0x5B, ENTRY as u64));
    }
    // AW counts with a second level alone, FLPM with a first level alone.
    let no_3 = ScalableRegisters {
        base: Registers {
            levels3: false,
            ..REGISTERS.base
        },
        ..REGISTERS
    };
    for (image, n) in &images {
        let reason = match outcome(&no_3, image) {
            Outcome::Blocked(fault) => fault.reason,
            _ => 0,
        };
        assert_eq!(reason, if *n == 1 || *n == 2 { 0x5B } else { 0 });
        for flpm in [2, 3] {
            let mut image = image.clone();
            let word = get(&image, ENTRY + 16);
            set(&mut image, ENTRY + 16, word | flpm << 2);
            let reason = match outcome(&REGISTERS, &image) {
                Outcome::Blocked(fault) => fault.reason,
                _ => 0,
            };
            assert_eq!(reason, if *n == 0 || *n == 2 { 0x5B } else { 0 });
        }
    }
    let no_5 = ScalableRegisters {
        fl5lp: false,
        ..REGISTERS
    };
    let five = bench(LOW | FIRST, PWSNP, FL_HOST | FLPM_5);
    assert_eq!(stopped(outcome(&no_5, &five)), (0x5B, ENTRY as u64));
    // SLADE, SRE, EAFE.
    let none = ScalableRegisters {
        slads: false,
        srs: false,
        eafs: false,
        ..REGISTERS
    };
    for (low, word_2) in [(SLADE, 0), (0, SRE), (0, EAFE)] {
        let image = bench(LOW | SECOND | low, PWSNP, word_2);
        assert_eq!(outcome(&REGISTERS, &image), Outcome::Granted(0x1234_5ABC));
        assert_eq!(stopped(outcome(&none, &image)), (0x5A, ENTRY as u64));
    }
}

/// Access faults of the tables, each with the entry wanted; a directory entry
/// past the image.
#[test]
fn table_access() {
    for (words, reason, entry) in [
        (&[(0x1030, 0x6_0001)][..], 0x40, 0x6_0200),
        (&[(0x2200, 0x6_0E09)], 0x50, 0x6_2468),
        (&[(0x3_2468, 0x6_0001)], 0x58, 0x6_0140),
        (&[(ENTRY, 0x6_0000 | 5 | SECOND)], 0x7B, 0x6_0008),
        (&[(0x1_0008, 0x6_0003)], 0x78, 0x6_0008),
        (&[(0x1_1008, 0x6_0003)], 0x78, 0x6_0008),
    ] {
        let image = with(second(), words);
        assert_eq!(stopped(read(&image, ADDRESS)), (reason, entry));
    }
    let far = ScalableRegisters {
        base: Registers {
            root: 0x6_0000,
            ..REGISTERS.base
        },
        ..REGISTERS
    };
    let ask = request(ADDRESS, false, None);
    assert_eq!(stopped(answer_of(&far, &second(), ask).0), (0x38, 0x6_0030));
    for (words, reason, entry) in [
        (&[(ENTRY + 16, 0x6_0000)][..], 0x73, 0x6_0000),
        (&[(0x8000, 0x6_0007)], 0x70, 0x6_0008),
        (&[(0xA008, 0x6_0007)], 0x70, 0x6_0008),
    ] {
        let image = with(first(), words);
        assert_eq!(stopped(read(&image, ADDRESS)), (reason, entry));
    }
    // Nested: the second level maps a first-level table to outside.
    for (words, reason, entry) in [
        (&[(0x1_2040, 0x6_0003)][..], 0x73, 0x6_0000),
        (&[(0x1_2048, 0x6_0003)], 0x70, 0x6_0008),
        (&[(0x1_2058, 0x6_0003)], 0x70, 0x6_0008),
    ] {
        let image = with(nested(0), words);
        assert_eq!(stopped(read(&image, ADDRESS)), (reason, entry));
    }
}

/// The second level: 84h, 79h, 7Ah, 85h, 86h and their order.
#[test]
fn second_level() {
    let image = second();
    for address in [1 << 39, u64::MAX] {
        assert_eq!(stopped(read(&image, address)), (0x84, ENTRY as u64));
    }
    let cases: [Case; 11] = [
        // R and W both clear, at each level.
        (&[(0x1_0008, 0x1_1000)], false, 0x79, 0x1_0008),
        (&[(0x1_2008, 0x1234_5000)], true, 0x79, 0x1_2008),
        // Bit 2 is X, which doesn't count.
        (&[(0x1_2008, 0x1234_5004)], false, 0x79, 0x1_2008),
        // Nothing left in the join, though the entry has a right, and before
        // its reserved bits.
        (
            &[(0x1_0008, 0x1_1001), (0x1_1008, 0x1_2002)],
            false,
            0x79,
            0x1_1008,
        ),
        (
            &[(0x1_0008, 0x1_1001), (0x1_1008, 1 << 39 | 0x1_2002)],
            false,
            0x79,
            0x1_1008,
        ),
        // Reserved.
        (&[(0x1_1008, 1 << 39 | 0x1_2003)], false, 0x7A, 0x1_1008),
        (&[(0x1_1008, 0x1000_1083)], false, 0x7A, 0x1_1008),
        // Reserved before the right.
        (&[(0x1_1008, 1 << 39 | 0x1_2001)], true, 0x7A, 0x1_1008),
        // The request's own right, at the first entry that lacks it.
        (&[(0x1_0008, 0x1_1001)], true, 0x85, 0x1_0008),
        (&[(0x1_1008, 0x1_2002)], false, 0x86, 0x1_1008),
        (&[(0x1_2008, 0x1234_5001)], true, 0x85, 0x1_2008),
    ];
    for (words, write, reason, entry) in cases {
        let image = with(second(), words);
        let found = stopped(answer(&image, ADDRESS, write));
        assert_eq!(found, (reason, entry), "{words:X?}");
    }
    // A right that isn't wanted may be missing.
    let image = with(second(), &[(0x1_1008, 0x1_2001)]);
    assert_eq!(read(&image, ADDRESS), Outcome::Granted(0x1234_5ABC));
    // Large pages.
    let image = with(second(), &[(0x1_1008, 0x7F_1020_0083)]);
    assert_eq!(read(&image, ADDRESS), Outcome::Granted(0x7F_1020_1ABC));
    let image = with(second(), &[(0x1_0008, 0x7F_4000_0083)]);
    assert_eq!(read(&image, ADDRESS), Outcome::Granted(0x7F_4020_1ABC));
    // Number 4.
    let image = with(second(), &[(0x1_0008, 0xC000_0083)]);
    assert_eq!(read(&image, ADDRESS), Outcome::Refused(4));
}

/// The first level: 80h, 71h, 72h, 81h, 85h.
#[test]
fn first_level() {
    let image = first();
    let entry = ENTRY as u64;
    for address in [
        1 << 47,
        1 << 48,
        1 << 63,
        0xFFFF_7FFF_FFFF_FFFF,
        0x0001_0000_4020_1ABC,
    ] {
        assert_eq!(stopped(read(&image, address)), (0x80, entry));
    }
    // Canonical addresses, high and low: not present.
    assert_eq!(stopped(read(&image, 0xFFFF_8000_0000_0000)), (0x71, 0x8800));
    assert_eq!(stopped(read(&image, u64::MAX)), (0x71, 0x8FF8));
    // Five levels: 57 bits.
    let five = with(
        bench(LOW | FIRST, PWSNP, 0x7000 | FLPM_5),
        &[(0x7000, 0x8007)],
    );
    assert_eq!(read(&five, ADDRESS), Outcome::Granted(0xCABC));
    assert_eq!(stopped(read(&five, 1 << 47)), (0x71, 0x8800));
    assert_eq!(stopped(read(&five, 1 << 48)), (0x71, 0x7008));
    assert_eq!(stopped(read(&five, 1 << 56)), (0x80, entry));
    assert_eq!(stopped(read(&five, 0xFF << 56)), (0x71, 0x7800));
    let cases: [Case; 12] = [
        (&[(0x8000, 0x9006)], false, 0x71, 0x8000),
        (&[(0xB008, 0)], true, 0x71, 0xB008),
        // Absent before reserved; reserved before the rest.
        (&[(0xB008, 1 << 39)], true, 0x71, 0xB008),
        (&[(0x8000, 0x9087)], false, 0x72, 0x8000),
        (&[(0xB008, 1 << 39 | 0xC001)], true, 0x72, 0xB008),
        (&[(0xA008, 0x4000_2087)], false, 0x72, 0xA008),
        // XD without NXE.
        (&[(0xB008, 1 << 63 | 0xC007)], false, 0x72, 0xB008),
        // U/S clear, before R/W.
        (&[(0x9008, 0xA003)], false, 0x81, 0x9008),
        (&[(0x9008, 0xA001)], true, 0x81, 0x9008),
        // R/W clear.
        (&[(0xA008, 0xB005)], true, 0x85, 0xA008),
        (&[(0xB008, 0xC005)], true, 0x85, 0xB008),
        (&[(0x8000, 0x9005), (0x9008, 0)], true, 0x85, 0x8000),
    ];
    for (words, write, reason, entry) in cases {
        let image = with(first(), words);
        let found = stopped(answer(&image, ADDRESS, write));
        assert_eq!(found, (reason, entry), "{words:X?}");
    }
    let image = with(first(), &[(0xB008, 0xC005)]);
    assert_eq!(read(&image, ADDRESS), Outcome::Granted(0xCABC));
    // XD with NXE; bit 7 at level 1 is PAT, bit 12 of a large page too.
    let image = with(
        bench(LOW | FIRST, PWSNP, FL_HOST | NXE),
        &[(0xB008, 1 << 63 | 0xC087)],
    );
    assert_eq!(read(&image, ADDRESS), Outcome::Granted(0xCABC));
    let image = with(first(), &[(0xA008, 0x4000_1087)]);
    assert_eq!(read(&image, ADDRESS), Outcome::Granted(0x4000_1ABC));
    let image = with(first(), &[(0x9008, 0x7F_4000_1087)]);
    assert_eq!(read(&image, ADDRESS), Outcome::Granted(0x7F_4020_1ABC));
    let no_1g = ScalableRegisters {
        fl1gp: false,
        ..REGISTERS
    };
    let ask = request(ADDRESS, false, Some(PASID));
    assert_eq!(stopped(answer_of(&no_1g, &image, ask).0), (0x72, 0x9008));
    // 2 MiB pages don't depend on the second level's switch.
    let no_2m = ScalableRegisters {
        base: Registers {
            pages_2m: false,
            ..REGISTERS.base
        },
        ..REGISTERS
    };
    let image = with(first(), &[(0xA008, 0x4000_0087)]);
    assert_eq!(
        answer_of(&no_2m, &image, ask).0,
        Outcome::Granted(0x4000_1ABC)
    );
    // Number 4.
    let image = with(first(), &[(0xB008, 0xFEE0_0007)]);
    assert_eq!(read(&image, ADDRESS), Outcome::Refused(4));
}

/// Privileged requests: without a PASID, by RID_PRIV, and SRE.
#[test]
fn privileged() {
    let ask = |write| request(ADDRESS, write, None);
    let supervisor = [(0x2208, 0x41 | 1 << 20), (0x9008, 0xA001), (0xB008, 0xC001)];
    for (word_2, write, expected) in [
        (SRE, false, Outcome::Granted(0xCABC)),
        (SRE, true, Outcome::Granted(0xCABC)),
        (SRE | WPE, false, Outcome::Granted(0xCABC)),
    ] {
        let image = with(bench(LOW | FIRST, PWSNP, FL_HOST | word_2), &supervisor);
        assert_eq!(answer_of(&REGISTERS, &image, ask(write)).0, expected);
    }
    let image = with(bench(LOW | FIRST, PWSNP, FL_HOST | SRE | WPE), &supervisor);
    assert_eq!(
        stopped(answer_of(&REGISTERS, &image, ask(true)).0),
        (0x85, 0x9008)
    );
    let image = with(first(), &supervisor);
    assert_eq!(
        stopped(answer_of(&REGISTERS, &image, ask(false)).0),
        (0x5D, RID_ENTRY as u64)
    );
    // A request with a PASID is a user's, whatever RID_PRIV says.
    let image = with(bench(LOW | FIRST, PWSNP, FL_HOST | SRE), &supervisor);
    assert_eq!(stopped(read(&image, ADDRESS)), (0x81, 0x9008));
    // Without RID_PRIV one without a PASID is a user's too.
    let image = with(image, &[(0x2208, 0x41)]);
    assert_eq!(
        stopped(answer_of(&REGISTERS, &image, ask(false)).0),
        (0x81, 0x9008)
    );
}

/// RID_PASID and PASID above the directory's range, 2^(PDTS+13) - 1.
#[test]
fn directory_range() {
    for pdts in 0..8u64 {
        let context = 0x3_0009 | pdts << 9;
        let image = with(second(), &[(0x2200, context)]);
        let outside = 1u64 << (pdts + 13);
        for pasid in [outside - 1, outside] {
            if pasid >= 1 << 20 {
                continue;
            }
            let ask = request(ADDRESS, false, Some(pasid as u32));
            let (reason, _) = stopped(answer_of(&REGISTERS, &image, ask).0);
            assert_eq!(reason == 0x46, pasid >= outside, "{pasid:X} {reason:X}");
            let rid = with(image.clone(), &[(0x2208, pasid)]);
            let ask = request(ADDRESS, false, None);
            let (reason, entry) = stopped(answer_of(&REGISTERS, &rid, ask).0);
            assert_eq!(reason == 0x43, pasid >= outside);
            assert!(pasid < outside || entry == 0x2200);
            // RID_PASID says nothing to a request with a PASID.
            let ask = request(ADDRESS, false, Some(0x41));
            assert_eq!(
                answer_of(&REGISTERS, &rid, ask).0,
                Outcome::Granted(0x1234_5ABC)
            );
        }
    }
}

/// Nested: 74h, and rights of the second level for first-level entries.
#[test]
fn nested_walks() {
    let entry = ENTRY as u64;
    // Intermediate addresses at or above 2^39 (HAW 52 lets them be written).
    let wide = ScalableRegisters {
        base: Registers {
            haw: 52,
            ..REGISTERS.base
        },
        ..REGISTERS
    };
    let ask = request(ADDRESS, false, Some(PASID));
    for (words, last) in [
        (&[(ENTRY + 16, 1 << 39)][..], entry),
        (&[(0x8000, 1 << 39 | 7)], 0x8000),
        (&[(0xB008, 1 << 39 | 7)], 0xB008),
    ] {
        let image = with(nested(0), words);
        assert_eq!(
            stopped(answer_of(&wide, &image, ask).0),
            (0x74, last),
            "{words:X?}"
        );
    }
    // With HAW 39 they are reserved first.
    let image = with(nested(0), &[(0x8000, 1 << 39 | 7)]);
    assert_eq!(stopped(read(&image, ADDRESS)), (0x72, 0x8000));
    // 12040h maps the top first-level table. All flags set: R is enough.
    let set_flags = [
        (0x8000, 0x4020_9067),
        (0x9008, 0x4020_A067),
        (0xA008, 0x4020_B067),
        (0xB008, 0x4020_C067),
    ];
    let read_only = with(with(nested(0), &set_flags), &[(0x1_2040, 0x8001)]);
    assert_eq!(read(&read_only, ADDRESS), Outcome::Granted(0xCABC));
    // A flag of it is clear: W is needed.
    let clear = with(read_only.clone(), &[(0x8000, 0x4020_9047)]);
    assert_eq!(stopped(read(&clear, ADDRESS)), (0x85, 0x8000));
    // D counts in the leaf, for a write.
    let leaf = with(
        with(nested(0), &set_flags),
        &[(0x1_2058, 0xB001), (0xB008, 0x4020_C027)],
    );
    assert_eq!(read(&leaf, ADDRESS), Outcome::Granted(0xCABC));
    assert_eq!(stopped(answer(&leaf, ADDRESS, true)), (0x85, 0xB008));
    // Absent, reserved and U/S come before that.
    let absent = with(clear.clone(), &[(0x8000, 0x4020_9046)]);
    assert_eq!(stopped(read(&absent, ADDRESS)), (0x71, 0x8000));
    let user = with(clear, &[(0x8000, 0x4020_9043)]);
    assert_eq!(stopped(read(&user, ADDRESS)), (0x81, 0x8000));
    // With SLADE W is needed whether or not a flag changes.
    let slade = with(with(nested(SLADE), &set_flags), &[(0x1_2040, 0x8301)]);
    assert_eq!(stopped(read(&slade, ADDRESS)), (0x85, 0x1_2040));
    // R lacking is 86h, for a write too.
    let write_only = with(with(nested(0), &set_flags), &[(0x1_2040, 0x8002)]);
    for write in [false, true] {
        assert_eq!(
            stopped(answer(&write_only, ADDRESS, write)),
            (0x86, 0x1_2040)
        );
    }
    let none = with(nested(0), &[(0x1_2040, 0x8000)]);
    assert_eq!(stopped(read(&none, ADDRESS)), (0x79, 0x1_2040));
    // The final page: R for a read, W for a write.
    let page = with(nested(0), &[(0x1_2060, 0xC001)]);
    assert_eq!(read(&page, ADDRESS), Outcome::Granted(0xCABC));
    assert_eq!(stopped(answer(&page, ADDRESS, true)), (0x85, 0x1_2060));
    let page = with(nested(0), &[(0x1_2060, 0xC002)]);
    assert_eq!(stopped(read(&page, ADDRESS)), (0x86, 0x1_2060));
    assert_eq!(answer(&page, ADDRESS, true), Outcome::Granted(0xCABC));
    // Number 4 for the final host frame alone.
    let page = with(nested(0), &[(0x1_2060, 0xFEE0_0003)]);
    assert_eq!(read(&page, ADDRESS), Outcome::Refused(4));
    // A large first-level page over small second-level ones.
    let large = with(nested(0), &[(0xA008, 0x4020_0087)]);
    assert_eq!(read(&large, ADDRESS), Outcome::Granted(0x1234_5ABC));
    assert_eq!(read(&large, ADDRESS + 0x1000), Outcome::Granted(0x2ABC));
}

/// 7Ch: a flag would have to be set, and the walk isn't snooped.
#[test]
fn not_snooped() {
    let no_smpwc = ScalableRegisters {
        smpwc: false,
        ..REGISTERS
    };
    let low = LOW | SECOND | SLADE;
    for (registers, word_1) in [(no_smpwc, PWSNP), (REGISTERS, 0), (no_smpwc, 0)] {
        let outcome = |image: &[u8], write| {
            answer_of(&registers, image, request(ADDRESS, write, Some(PASID))).0
        };
        let image = bench(low, word_1, 0);
        assert_eq!(stopped(outcome(&image, false)), (0x7C, 0x1_0008));
        // Without SLADE nothing is to be set.
        let image = bench(LOW | SECOND, word_1, 0);
        assert_eq!(outcome(&image, false), Outcome::Granted(0x1234_5ABC));
        // A set everywhere: a read is granted, a write lacks D in the leaf.
        let accessed = [
            (0x1_0008, 0x1_1103),
            (0x1_1008, 0x1_2103),
            (0x1_2008, 0x1234_5103),
        ];
        let image = with(bench(low, word_1, 0), &accessed);
        assert_eq!(outcome(&image, false), Outcome::Granted(0x1234_5ABC));
        assert_eq!(stopped(outcome(&image, true)), (0x7C, 0x1_2008));
        let image = with(image, &[(0x1_2008, 0x1234_5303)]);
        assert_eq!(outcome(&image, true), Outcome::Granted(0x1234_5ABC));
        // After 79h and 7Ah, before the request's right.
        let image = with(bench(low, word_1, 0), &[(0x1_0008, 0x1_1001)]);
        assert_eq!(stopped(outcome(&image, true)), (0x7C, 0x1_0008));
        let image = with(bench(low, word_1, 0), &[(0x1_0008, 1 << 39 | 3)]);
        assert_eq!(stopped(outcome(&image, true)), (0x7A, 0x1_0008));
        // First level: A, D in the leaf of a write, EA with EAFE.
        let image = bench(LOW | FIRST, word_1, FL_HOST);
        assert_eq!(stopped(outcome(&image, false)), (0x7C, 0x8000));
        let accessed = [
            (0x8000, 0x9027),
            (0x9008, 0xA027),
            (0xA008, 0xB027),
            (0xB008, 0xC027),
        ];
        let image = with(image, &accessed);
        assert_eq!(outcome(&image, false), Outcome::Granted(0xCABC));
        assert_eq!(stopped(outcome(&image, true)), (0x7C, 0xB008));
        let image = with(bench(LOW | FIRST, word_1, FL_HOST | EAFE), &accessed);
        assert_eq!(stopped(outcome(&image, false)), (0x7C, 0x8000));
        // Before U/S and after reserved.
        let image = with(bench(LOW | FIRST, word_1, FL_HOST), &[(0x8000, 0x9001)]);
        assert_eq!(stopped(outcome(&image, true)), (0x7C, 0x8000));
        let image = with(image, &[(0x8000, 1 << 39 | 0x9001)]);
        assert_eq!(stopped(outcome(&image, true)), (0x72, 0x8000));
    }
}

/// EA, bit 10, with EAFE, beside A.
#[test]
fn extended_accessed() {
    let image = bench(LOW | FIRST, PWSNP, FL_HOST | EAFE);
    let (_, set) = answer_of(&REGISTERS, &image, request(ADDRESS, true, Some(PASID)));
    let mut expected = vec![(0xB008, 6)];
    for entry in [0x8000, 0x9008, 0xA008, 0xB008] {
        expected.extend([(entry, 5), (entry, 10)]);
    }
    assert_eq!(set, flags(&expected));
}

/// "records gain 003's PASID fields", and FPD.
#[test]
fn records_and_fpd() {
    let image = with(first(), &[(0xB008, 0)]);
    let fault = |image: &[u8], write, pasid| match answer_of(
        &REGISTERS,
        image,
        request(ADDRESS, write, pasid),
    )
    .0
    {
        Outcome::Blocked(fault) => fault,
        other => panic!("{other:x?}"),
    };
    let read = fault(&image, false, Some(PASID));
    assert_eq!(record_words(&read), [0x4020_1000, 0xC123_4571_8000_0310]);
    let write = fault(&image, true, Some(PASID));
    assert_eq!(record_words(&write), [0x4020_1000, 0x8123_4571_8000_0310]);
    // RID_PASID isn't recorded.
    let without = fault(&image, false, None);
    assert_eq!(record_words(&without), [0x4020_1000, 0xC000_0071_0000_0310]);
    // PASID 0 is a PASID.
    let zero = fault(&image, false, Some(0));
    assert_eq!(record_words(&zero), [0x4020_1000, 0xC000_0051_8000_0310]);
    // FPD of context, directory and table entry: any fetched so far, read even
    // where P is clear.
    let context = (0x2200, 0x3_0E0B);
    let directory = (0x3_2468, 0x4003);
    let table = (ENTRY, LOW | FIRST | 2);
    for silent in [context, directory, table] {
        let image = with(image.clone(), &[silent]);
        assert!(!fault(&image, false, Some(PASID)).recordable);
    }
    let silenced = |words: &[(usize, u64)], reason| {
        let image = with(image.clone(), words);
        let fault = fault(&image, false, Some(PASID));
        assert_eq!(fault.reason, reason);
        !fault.recordable
    };
    assert!(silenced(&[(0x2200, 0x3_0E0A)], 0x41));
    assert!(silenced(&[(0x3_2468, 2)], 0x51));
    assert!(silenced(&[context, (0x3_2468, 0)], 0x51));
    assert!(silenced(&[(ENTRY, 2)], 0x59));
    assert!(silenced(&[directory, (ENTRY, 0)], 0x59));
    assert!(!silenced(&[table, (0x3_2468, 0)], 0x51));
    // 38h to 3Ah, 40h, 50h and 58h are always recordable.
    assert!(!silenced(&[(0x2200, 0x6_0E0B)], 0x50));
    assert!(!silenced(&[context, (0x3_2468, 0x6_0003)], 0x58));
    assert!(!silenced(&[(0x1030, 0x2003)], 0x3A));
    assert!(!silenced(&[(0x1030, 0)], 0x39));
}

/// Where a word is both read and flagged, all reads come first: a first-level
/// table that is its own child, read at every level.
#[test]
fn reads_before_flags() {
    let image = with(first(), &[(0x8000, 0x8007)]);
    let (outcome, set) = answer_of(&REGISTERS, &image, request(0xABC, true, Some(PASID)));
    assert_eq!(outcome, Outcome::Granted(0x8ABC));
    assert_eq!(set, flags(&[(0x8000, 5), (0x8000, 6)]));
}

/// A sweep: demand 3's first claim for answers and the bits written; that only
/// a granted request writes, and just its flags; and that rights switched on
/// take back no grant.
#[test]
fn sweep() {
    let mut random = Random(14);
    let mut met = [0; 4];
    let mut reasons = std::collections::BTreeSet::new();
    for _ in 0..5_000 {
        let pgtt = random.pick(&[FIRST, SECOND, NESTED, NESTED, NESTED, THROUGH]);
        let low = LOW | pgtt | random.pick(&[0, SLADE]);
        let pointer = if pgtt == NESTED { FL_NESTED } else { FL_HOST };
        let word_2 = pointer | random.pick(&[0, 0, EAFE, NXE, SRE, WPE | SRE]);
        let mut image = bench(low, random.pick(&[PWSNP, PWSNP, PWSNP, 0]), word_2);
        // A few bits turned over in entries on the way.
        let entries = [
            (0x1030, 128),
            (0x2200, 256),
            (0x3_0008, 64),
            (0x3_2468, 64),
            (ENTRY, 512),
            (RID_ENTRY, 512),
        ];
        let pages = [
            0x8000, 0x9008, 0xA008, 0xB008, 0x1_0008, 0x1_1008, 0x1_2008, 0x1_2040, 0x1_2048,
            0x1_2050, 0x1_2058, 0x1_2060,
        ];
        for _ in 0..random.below(4) {
            let (at, bit) = if random.below(3) == 0 {
                let (at, bits) = random.pick(&entries);
                (at, random.below(bits) as usize)
            } else {
                let bit = random.pick(&[0, 1, 2, 5, 6, 7, 8, 9, 10, 39, 63]);
                (random.pick(&pages), bit)
            };
            image[at + bit / 8] ^= 1 << (bit % 8);
        }
        let pasid = random.pick(&[None, Some(PASID)]);
        let address = random.pick(&[ADDRESS, ADDRESS, ADDRESS, ADDRESS + 0x1000, 1 << 39]);
        let ask = request(address, random.coin(), pasid);
        let mut after = image.clone();
        let outcome = scalable_request(&REGISTERS, &windows(), &mut after, ask);
        let words = named_words_scalable(&REGISTERS, &windows(), &image, ask);
        let listed = flags_scalable(&REGISTERS, &windows(), &image, ask);
        assert!(words.len() <= 50);
        // Exactly the listed flags.
        let mut flagged = image.clone();
        for flag in &listed {
            let at = flag.entry as usize;
            let word = get(&flagged, at) | 1 << flag.bit;
            set(&mut flagged, at, word);
            assert!(words.contains(&flag.entry));
        }
        assert!(after == flagged);
        let access = match &outcome {
            Outcome::Granted(_) => {
                met[0] += 1;
                false
            }
            Outcome::Blocked(fault) => {
                assert!(listed.is_empty());
                reasons.insert(fault.reason);
                met[1] += 1;
                matches!(
                    fault.reason,
                    0x38 | 0x40 | 0x50 | 0x58 | 0x70 | 0x73 | 0x78 | 0x7B
                )
            }
            _ => false,
        };
        // A second memory alike in the named words, and nowhere else.
        if !access {
            let mut second: Vec<u8> = image.iter().map(|byte| !byte).collect();
            for &word in &words {
                set(&mut second, word as usize, get(&image, word as usize));
            }
            let again = scalable_request(&REGISTERS, &windows(), &mut second, ask);
            assert_eq!(again, outcome);
            for &word in &words {
                assert_eq!(get(&second, word as usize), get(&after, word as usize));
            }
            met[2] += 1;
        }
        // Rights on: a granted request stays granted.
        let mut more = image.clone();
        let less_or_more = words.iter().skip(15);
        for &word in less_or_more {
            let on = get(&more, word as usize) | random.below(4);
            set(&mut more, word as usize, on);
        }
        let again = scalable_request(&REGISTERS, &windows(), &mut more, ask);
        if matches!(outcome, Outcome::Granted(_)) {
            assert_eq!(again, outcome);
        }
        let mut less = image.clone();
        for &word in words.iter().skip(15) {
            let off = get(&less, word as usize) & !random.below(4);
            set(&mut less, word as usize, off);
        }
        let again = scalable_request(&REGISTERS, &windows(), &mut less, ask);
        if !matches!(outcome, Outcome::Granted(_)) {
            assert!(!matches!(again, Outcome::Granted(_)));
            met[3] += 1;
        }
    }
    assert!(met.iter().all(|&count| count > 500), "{met:?}");
    assert!(reasons.len() > 20, "{reasons:X?}");
}
