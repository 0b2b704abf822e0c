//! Every bit of every kind of entry, set by itself in an entry that was good
//! without it. What each bit does is written out here once more as ranges.

mod common;

use common::{bench_image, bench_with, get, posted, reason, set, BENCH, SOURCE};
use reference::{interrupt_request, memory_request, Notice, Outcome, Registers};

const ADDRESS: u64 = 0x4020_1ABC;

/// Sets bit `k` of the entry at `at`. False if it was set already.
fn switch_on(image: &mut [u8], at: usize, k: usize) -> bool {
    let byte = &mut image[at + k / 8];
    let before = *byte;
    *byte |= 1 << (k % 8);
    *byte != before
}

fn read(registers: &Registers, image: &[u8], address: u64) -> Outcome {
    memory_request(registers, image, SOURCE, address, false)
}

#[test]
fn root_entry() {
    for haw in [36, 39, 51, 52] {
        let registers = Registers { haw, ..BENCH };
        for k in 0..128 {
            let mut image = bench_image();
            if !switch_on(&mut image, 0x1030, k) {
                continue;
            }
            let reason = reason(read(&registers, &image, ADDRESS));
            let reserved = (1..=11).contains(&k)
                || (64..=127).contains(&k)
                || (usize::from(haw)..=63).contains(&k);
            if reserved {
                assert_eq!(reason, 0x0A, "HAW {haw}, bit {k}");
            } else {
                // Another context table: an empty one in the image, or none.
                let table = 0x2000u64 | 1 << k;
                let expected = if table < 0x8000 { 0x02 } else { 0x09 };
                assert_eq!(reason, expected, "HAW {haw}, bit {k}");
            }
        }
    }
}

#[test]
fn context_entry() {
    for haw in [36, 39, 51, 52] {
        let registers = Registers { haw, ..BENCH };
        for k in 0..128 {
            let mut image = bench_image();
            if !switch_on(&mut image, 0x2100, k) {
                continue;
            }
            let answer = read(&registers, &image, ADDRESS);
            match k {
                // FPD; TT 1 translates as TT 0 does.
                1 | 2 => assert_eq!(answer, Outcome::Granted(0x1234_5ABC), "bit {k}"),
                // TT 2.
                3 => assert_eq!(answer, Outcome::Granted(ADDRESS)),
                4..=11 => assert_eq!(reason(answer), 0x0B, "bit {k}"),
                // Another page table: the one at 7000h, or none.
                14 => assert_eq!(reason(answer), 0x06),
                15..=63 if k < usize::from(haw) => assert_eq!(reason(answer), 0x07, "bit {k}"),
                15..=63 => assert_eq!(reason(answer), 0x0B, "HAW {haw}, bit {k}"),
                // AW 3 and 5.
                65 | 66 => assert_eq!(reason(answer), 0x03, "bit {k}"),
                // Named by no sentence, and not looked at.
                67..=70 => assert_eq!(answer, Outcome::Granted(0x1234_5ABC), "bit {k}"),
                71 => assert_eq!(reason(answer), 0x0B),
                // Domain.
                72..=87 => assert_eq!(answer, Outcome::Granted(0x1234_5ABC), "bit {k}"),
                88..=127 => assert_eq!(reason(answer), 0x0B, "bit {k}"),
                _ => panic!("bit {k} should have been set already"),
            }
        }
    }
}

#[test]
fn page_entry_at_level_1() {
    for haw in [36, 39, 51, 52] {
        let registers = Registers { haw, ..BENCH };
        for k in 0..64 {
            let mut image = bench_image();
            if !switch_on(&mut image, 0x5008, k) {
                continue;
            }
            let answer = read(&registers, &image, ADDRESS);
            match k {
                // "Bit 7 at level 1 is not looked at. Other bits are not
                // looked at."
                0..=11 | 52..=63 => {
                    assert_eq!(answer, Outcome::Granted(0x1234_5ABC), "bit {k}");
                }
                _ if k < usize::from(haw) => {
                    assert_eq!(answer, Outcome::Granted(0x1234_5ABC | 1 << k), "bit {k}");
                }
                _ => assert_eq!(reason(answer), 0x0C, "HAW {haw}, bit {k}"),
            }
        }
    }
}

/// Levels 5 to 2, each with an entry that leads on to a next table.
#[test]
fn page_entry_above_a_table() {
    // Five levels: the table at 3000h is its own next table twice.
    let good = [(0x2108, 0x503), (0x3000, 0x3003)];
    let registers = Registers {
        mgaw: 57,
        levels5: true,
        ..BENCH
    };
    assert_eq!(
        read(&registers, &bench_with(&good), ADDRESS),
        Outcome::Granted(0x1234_5ABC)
    );
    // To tell level 5 from level 4, give each a table of its own: the page at
    // 0 holds level 5, that at 3000h levels 4 and 3.
    let apart = [
        (0x2100, 0x0001),
        (0x2108, 0x503),
        (0, 0x3003),
        (0x3000, 0x3003),
    ];
    for (level, at) in [(5, 0), (4, 0x3000), (3, 0x3008), (2, 0x4008)] {
        for haw in [36, 52] {
            let registers = Registers { haw, ..registers };
            for k in 0..64 {
                let mut image = bench_with(&apart);
                if !switch_on(&mut image, at, k) {
                    continue;
                }
                let answer = read(&registers, &image, ADDRESS);
                let here = format!("level {level}, HAW {haw}, bit {k}");
                match k {
                    // Reserved at 5 and 4; at 3 and 2 a large page whose low
                    // frame bits are set by the table's address.
                    7 => assert_eq!(reason(answer), 0x0C, "{here}"),
                    0..=11 | 52..=63 => {
                        assert_eq!(answer, Outcome::Granted(0x1234_5ABC), "{here}");
                    }
                    15..=51 if k < haw.into() => assert_eq!(reason(answer), 0x07, "{here}"),
                    15..=51 => assert_eq!(reason(answer), 0x0C, "{here}"),
                    // Another table of the image, where something else lies.
                    _ => assert_ne!(answer, Outcome::Granted(0x1234_5ABC), "{here}"),
                }
            }
        }
    }
}

#[test]
fn page_entry_of_2_mib() {
    let address = 0x4041_2345;
    for haw in [36, 39, 52] {
        let registers = Registers { haw, ..BENCH };
        for k in 0..64 {
            let mut image = bench_image();
            if !switch_on(&mut image, 0x4010, k) {
                continue;
            }
            let answer = read(&registers, &image, address);
            match k {
                0..=11 | 52..=63 => assert_eq!(answer, Outcome::Granted(0x4061_2345), "bit {k}"),
                12..=20 => assert_eq!(reason(answer), 0x0C, "bit {k}"),
                _ if k < usize::from(haw) => {
                    assert_eq!(answer, Outcome::Granted(0x4061_2345 | 1 << k), "bit {k}");
                }
                _ => assert_eq!(reason(answer), 0x0C, "HAW {haw}, bit {k}"),
            }
        }
    }
    let without = Registers {
        pages_2m: false,
        ..BENCH
    };
    assert_eq!(reason(read(&without, &bench_image(), address)), 0x0C);
}

#[test]
fn page_entry_of_1_gib() {
    let image = bench_with(&[(0x3008, 0x1_C000_0083)]);
    for haw in [36, 39, 52] {
        let registers = Registers { haw, ..BENCH };
        for k in 0..64 {
            let mut image = image.clone();
            if !switch_on(&mut image, 0x3008, k) {
                continue;
            }
            let answer = read(&registers, &image, ADDRESS);
            match k {
                0..=11 | 52..=63 => assert_eq!(answer, Outcome::Granted(0x1_C020_1ABC), "bit {k}"),
                12..=29 => assert_eq!(reason(answer), 0x0C, "bit {k}"),
                _ if k < usize::from(haw) => {
                    assert_eq!(answer, Outcome::Granted(0x1_C020_1ABC | 1 << k), "bit {k}");
                }
                _ => assert_eq!(reason(answer), 0x0C, "HAW {haw}, bit {k}"),
            }
        }
    }
    let without = Registers {
        pages_1g: false,
        ..BENCH
    };
    assert_eq!(reason(read(&without, &image, ADDRESS)), 0x0C);
}

#[test]
fn remapped_entry() {
    for eime in [false, true] {
        let registers = Registers { eime, ..BENCH };
        let destination_of = |word: u64| {
            if eime {
                (word >> 32) as u32
            } else {
                (word >> 40) as u32 & 0xFF
            }
        };
        for k in 0..128 {
            let mut image = bench_image();
            if !switch_on(&mut image, 0x6020, k) {
                continue;
            }
            let before = image.clone();
            let first = get(&image, 0x6020);
            let answer = interrupt_request(&registers, &mut image, SOURCE, 0xFEE0_0050, 0);
            let here = format!("EIME {eime}, bit {k}");
            let remapped = Outcome::Remapped {
                destination_mode: k == 2,
                redirection_hint: k == 3,
                trigger: k == 4,
                delivery: match k {
                    5 => 1,
                    6 => 2,
                    7 => 4,
                    _ => 0,
                },
                vector: (first >> 16) as u8,
                destination: destination_of(first),
            };
            match k {
                1..=11 | 16..=23 | 40..=47 | 80..=81 => assert_eq!(answer, remapped, "{here}"),
                32..=39 | 48..=63 if eime => assert_eq!(answer, remapped, "{here}"),
                12..=14 | 24..=39 | 48..=63 | 83..=127 => {
                    assert_eq!(reason(answer), 0x24, "{here}");
                }
                // A posted entry whose descriptor is at 700h, all zero.
                15 if !eime => {
                    let zero = Some(Notice {
                        vector: 0,
                        destination: 0,
                    });
                    assert_eq!(answer, posted(0x41, 0x700, zero));
                    continue;
                }
                15 => continue,
                64..=79 => assert_eq!(reason(answer), 0x26, "{here}"),
                _ => panic!("{here} should have been set already"),
            }
            assert_eq!(image, before, "{here}");
        }
        // "delivery mode (7:5) 3 or 6"
        for delivery in 0..8 {
            let mut image = bench_with(&[(0x6020, 0x0000_0700_0041_0001 | delivery << 5)]);
            if eime {
                set(&mut image, 0x6020, 0x8000_0007_0041_0001 | delivery << 5);
            }
            let answer = interrupt_request(&registers, &mut image, SOURCE, 0xFEE0_0050, 0);
            if delivery == 3 || delivery == 6 {
                assert_eq!(reason(answer), 0x24, "delivery {delivery}");
            } else {
                let expected = Outcome::Remapped {
                    destination_mode: false,
                    redirection_hint: false,
                    trigger: false,
                    delivery: delivery as u8,
                    vector: 0x41,
                    destination: if eime { 0x8000_0007 } else { 7 },
                };
                assert_eq!(answer, expected, "delivery {delivery}");
            }
        }
    }
}

#[test]
fn posted_entry() {
    let notice = Some(Notice {
        vector: 0xF2,
        destination: 7,
    });
    for haw in [36, 39, 52] {
        let registers = Registers { haw, ..BENCH };
        for k in 0..128 {
            let mut image = bench_image();
            if !switch_on(&mut image, 0x6040, k) {
                continue;
            }
            let before = image.clone();
            let answer = interrupt_request(&registers, &mut image, SOURCE, 0xFEE0_0090, 0);
            let here = format!("HAW {haw}, bit {k}");
            match k {
                // Bits 64 to 81 are SID and SQ, which SVT 0 does not ask for.
                1 | 8..=11 | 14 | 16..=23 | 64..=81 => {
                    let vector = image_vector(&before);
                    let good = posted(vector as u8, 0x6400, notice.clone());
                    assert_eq!(answer, good, "{here}");
                    let mut expected = before.clone();
                    expected[0x6400 + vector / 8] |= 1 << (vector % 8);
                    expected[0x6420] |= 1;
                    assert_eq!(image, expected, "{here}");
                    continue;
                }
                2..=7 | 12 | 13 | 24..=37 | 84..=95 => {
                    assert_eq!(reason(answer), 0x24, "{here}");
                }
                // Another descriptor, all zero, elsewhere in the image ...
                38..=46 => {
                    let zero = Some(Notice {
                        vector: 0,
                        destination: 0,
                    });
                    let descriptor = 0x6400 | 1 << (k - 32);
                    assert_eq!(answer, posted(0x31, descriptor as u64, zero), "{here}");
                    assert_eq!(image[descriptor + 6], 2, "{here}");
                    assert_eq!(image[descriptor + 32], 1, "{here}");
                    continue;
                }
                // ... or outside it.
                47..=63 => assert_eq!(reason(answer), 0x27, "{here}"),
                // SVT 1 and 2 with SID 0.
                82 | 83 => assert_eq!(reason(answer), 0x26, "{here}"),
                // Descriptor address bits 32 to 63.
                96..=127 if k - 96 + 32 < usize::from(haw) => {
                    assert_eq!(reason(answer), 0x27, "{here}");
                }
                96..=127 => assert_eq!(reason(answer), 0x24, "{here}"),
                _ => panic!("{here} should have been set already"),
            }
            assert_eq!(image, before, "{here}");
        }
    }
    // "bit 15 without posting"
    let without = Registers {
        posting: false,
        ..BENCH
    };
    let mut image = bench_image();
    let answer = interrupt_request(&without, &mut image, SOURCE, 0xFEE0_0090, 0);
    assert_eq!(reason(answer), 0x24);
    assert_eq!(image, bench_image());
}

/// The vector of the posted entry at 6040h.
fn image_vector(image: &[u8]) -> usize {
    image[0x6042].into()
}

#[test]
fn descriptor() {
    for eime in [false, true] {
        let registers = Registers { eime, ..BENCH };
        for k in 0..512 {
            let mut image = bench_image();
            if !switch_on(&mut image, 0x6400, k) {
                continue;
            }
            let before = image.clone();
            let word = get(&image, 0x6420);
            let answer = interrupt_request(&registers, &mut image, SOURCE, 0xFEE0_0090, 0);
            let here = format!("EIME {eime}, bit {k}");
            let reserved = match k {
                258..=271 | 280..=287 | 320..=511 => true,
                288..=295 | 304..=319 => !eime,
                _ => false,
            };
            if reserved {
                assert_eq!(reason(answer), 0x28, "{here}");
                assert_eq!(image, before, "{here}");
                continue;
            }
            let notice = Notice {
                vector: (word >> 16) as u8,
                destination: if eime {
                    (word >> 32) as u32
                } else {
                    (word >> 40) as u32 & 0xFF
                },
            };
            let held_back = k == 256 || k == 257;
            let mut expected = before.clone();
            expected[0x6406] |= 2;
            if !held_back {
                expected[0x6420] |= 1;
            }
            let notice = if held_back { None } else { Some(notice) };
            assert_eq!(answer, posted(0x31, 0x6400, notice), "{here}");
            assert_eq!(image, expected, "{here}");
        }
    }
}

/// Every vector's request bit.
#[test]
fn request_bits() {
    for vector in 0..256 {
        let mut image = bench_with(&[(0x6040, 0x0000_6400_0000_8001 | (vector as u64) << 16)]);
        let mut expected = image.clone();
        expected[0x6400 + vector / 8] = 1 << (vector % 8);
        expected[0x6420] = 1;
        interrupt_request(&BENCH, &mut image, SOURCE, 0xFEE0_0090, 0);
        assert_eq!(image, expected, "vector {vector}");
    }
}
