//! Ask 8: the builder. The image is a bench of its own: root table at 1000h,
//! context table at 2000h, interrupt table at 3000h, and a region from 8000h on
//! whose first page is the empty top table.

mod common;

use common::{get, set, Random, BENCH, SOURCE};
use reference::{
    build, interrupt_request, listing, memory_request, Build, Item, Outcome, Region, Registers,
    Window,
};
use std::collections::BTreeMap;

const REGISTERS: Registers = Registers {
    interrupt_table: 0x3000,
    ..BENCH
};

const LENGTH: usize = 0x2_0000;

fn region(pages: u64) -> Region {
    Region {
        start: 0x8000,
        length: 0x1000 * pages,
    }
}

fn whole(image: &[u8]) -> Vec<Window> {
    vec![Window {
        start: 0,
        from: 0,
        length: image.len() as u64,
    }]
}

/// An image with an empty top table at 8000h, of 3 levels; other bytes of the
/// region are not zero.
fn empty() -> Vec<u8> {
    let mut image = vec![0; LENGTH];
    set(&mut image, 0x1030, 0x2001);
    set(&mut image, 0x2100, 0x8001);
    set(&mut image, 0x2108, 0x501);
    // A posted entry with its descriptor at 6400h.
    set(&mut image, 0x3040, 0x0000_6400_0031_8001);
    set(&mut image, 0x6420, 0x0000_0700_00F2_0000);
    image[0x9000..].fill(0x5A);
    image
}

fn map(place: u64, frame: u64) -> Item {
    Item::Map {
        place,
        size: 0x1000,
        frame,
        read: true,
        write: true,
    }
}

fn map_large(place: u64, frame: u64) -> Item {
    Item::Map {
        place,
        size: 0x20_0000,
        frame,
        read: true,
        write: true,
    }
}

fn unmap(place: u64) -> Item {
    Item::Unmap {
        place,
        size: 0x1000,
    }
}

fn unmap_large(place: u64) -> Item {
    Item::Unmap {
        place,
        size: 0x20_0000,
    }
}

fn run(image: &mut [u8], pages: u64, items: &[Item]) -> Build {
    let windows = whole(image);
    build(&REGISTERS, &windows, image, SOURCE, region(pages), items)
}

/// A list that is refused changes nothing.
fn refused(image: &[u8], pages: u64, items: &[Item]) -> Build {
    let mut after = image.to_vec();
    let answer = run(&mut after, pages, items);
    assert_ne!(answer, Build::Done);
    assert!(after == image);
    answer
}

fn at(index: usize, reason: u8) -> Build {
    Build::Item { index, reason }
}

/// One page by hand: two tables, taken from the lowest page on, zeroed, and a
/// leaf. Unmapped again, all is as an empty top table, and the two pages are
/// free.
#[test]
fn by_hand() {
    let mut image = empty();
    assert_eq!(
        run(&mut image, 8, &[map(0x4020_1000, 0x1234_5000)]),
        Build::Done
    );
    let mut expected = empty();
    expected[0x9000..0xB000].fill(0);
    set(&mut expected, 0x8008, 0x9003);
    set(&mut expected, 0x9008, 0xA003);
    set(&mut expected, 0xA008, 0x1234_5003);
    assert!(image == expected);
    // A read-only one beside it, and a large one.
    let read_only = Item::Map {
        place: 0x4020_2000,
        size: 0x1000,
        frame: 0,
        read: true,
        write: false,
    };
    let write_only = Item::Map {
        place: 0x4040_0000,
        size: 0x20_0000,
        frame: 0x7F_FFE0_0000,
        read: false,
        write: true,
    };
    assert_eq!(run(&mut image, 8, &[read_only, write_only]), Build::Done);
    set(&mut expected, 0xA010, 1);
    set(&mut expected, 0x9010, 0x7F_FFE0_0082);
    assert!(image == expected);
    assert_eq!(
        listing(&REGISTERS, &whole(&image), &image, SOURCE),
        [
            "source 0310",
            "40201000 1000 12345000 RW",
            "40202000 1000 0 R-",
            "40400000 200000 7FFFE00000 -W"
        ]
    );
    // Unmapped: entries 0, emptied tables freed; a freed page keeps its zeros.
    assert_eq!(
        run(&mut image, 8, &[unmap(0x4020_1000), unmap(0x4020_2000)]),
        Build::Done
    );
    set(&mut expected, 0xA008, 0);
    set(&mut expected, 0xA010, 0);
    set(&mut expected, 0x9008, 0);
    assert!(image == expected);
    assert_eq!(run(&mut image, 8, &[unmap_large(0x4040_0000)]), Build::Done);
    set(&mut expected, 0x9010, 0);
    set(&mut expected, 0x8008, 0);
    assert!(image == expected);
}

/// "with a bad or unsupported size, a bad alignment of place or frame, a place
/// at or above 2^X or meeting FEE00000h to FEEFFFFFh, no rights, a frame not
/// below 2^HAW, an overlap with a mapping, or too few free pages", in this
/// order.
#[test]
fn reasons_of_a_map() {
    let image = empty();
    let item = |place, size, frame, rights: u8| Item::Map {
        place,
        size,
        frame,
        read: rights & 1 != 0,
        write: rights & 2 != 0,
    };
    let worst = |size| item(u64::MAX, size, u64::MAX, 0);
    for size in [0, 1, 0x800, 0x2000, 0x1F_FFFF, 0x4000_0000, u64::MAX] {
        assert_eq!(refused(&image, 8, &[worst(size)]), at(0, 1));
    }
    assert_eq!(refused(&image, 8, &[worst(0x1000)]), at(0, 2));
    // Alignment of place and frame together, before the place itself.
    for (place, frame) in [
        (u64::MAX, 0),
        (0x4020_1800, 0),
        (0x4020_1000, 8),
        (1 << 39, 8),
    ] {
        let items = [item(place, 0x1000, frame, 3)];
        assert_eq!(refused(&image, 8, &items), at(0, 2));
    }
    for (place, frame) in [(0x4020_0000, 0x1000), (0x4020_1000, 0x20_0000)] {
        let items = [item(place, 0x20_0000, frame, 3)];
        assert_eq!(refused(&image, 8, &items), at(0, 2));
    }
    // Place: 2^39 and above, the interrupt range.
    for place in [1 << 39, 1 << 48, 0xFEE0_0000, 0xFEEF_F000] {
        let items = [item(place, 0x1000, 1 << 39, 0)];
        assert_eq!(refused(&image, 8, &items), at(0, 3));
    }
    for place in [1 << 39, 0xFEE0_0000] {
        let items = [item(place, 0x20_0000, 1 << 39, 0)];
        assert_eq!(refused(&image, 8, &items), at(0, 3));
    }
    for (place, size) in [
        (0xFEDF_F000, 0x1000),
        (0xFEF0_0000, 0x1000),
        (0xFEC0_0000, 0x20_0000),
        (0xFF00_0000, 0x20_0000),
        (0x7F_FFFF_F000, 0x1000),
    ] {
        let mut image = image.clone();
        let items = [item(place, size, 0, 1)];
        assert_eq!(run(&mut image, 8, &items), Build::Done);
    }
    // Rights before the frame.
    let items = [item(0x4020_1000, 0x1000, 1 << 39, 0)];
    assert_eq!(refused(&image, 8, &items), at(0, 4));
    // Frame: 2^39 and above, and the interrupt range (Ask 10), before overlap.
    for frame in [1 << 39, 1 << 63, 0xFEE0_0000, 0xFEEF_F000] {
        let items = [map(0x4020_1000, 0), map(0x4020_1000, frame)];
        assert_eq!(refused(&image, 8, &items), at(1, 5));
    }
    let items = [map_large(0x4020_0000, 0xFEE0_0000)];
    assert_eq!(refused(&image, 8, &items), at(0, 5));
    // Overlap: the same page, a small one in a large one, a large one over a
    // small one; before too few pages.
    for pair in [
        [map(0x4020_1000, 0), map(0x4020_1000, 0)],
        [map_large(0x4020_0000, 0), map(0x4020_1000, 0)],
        [map_large(0x4020_0000, 0), map_large(0x4020_0000, 0)],
        [map(0x403F_F000, 0), map_large(0x4020_0000, 0)],
    ] {
        assert_eq!(refused(&image, 3, &pair), at(1, 6));
    }
    // Too few pages: two tables are missing, or one for a large page.
    let (small, large) = (map(0x4020_1000, 0), map_large(0x4020_0000, 0));
    assert_eq!(refused(&image, 1, &[small]), at(0, 7));
    assert_eq!(refused(&image, 2, &[small]), at(0, 7));
    assert_eq!(refused(&image, 1, &[large]), at(0, 7));
    assert_eq!(run(&mut image.clone(), 3, &[small]), Build::Done);
    assert_eq!(run(&mut image.clone(), 2, &[large]), Build::Done);
    // Unsupported.
    let registers = Registers {
        pages_2m: false,
        ..REGISTERS
    };
    for item in [large, unmap_large(0x4020_0000)] {
        let mut image = image.clone();
        let windows = whole(&image);
        let answer = build(&registers, &windows, &mut image, SOURCE, region(8), &[item]);
        assert_eq!(answer, at(0, 1));
    }
}

/// "Unmap, after its place, needs a leaf of that start and size; rights, frame
/// and overlap concern a map alone."
#[test]
fn reasons_of_an_unmap() {
    let mut image = empty();
    let list = [map(0x4020_1000, 0), map_large(0x4040_0000, 0)];
    assert_eq!(run(&mut image, 8, &list), Build::Done);
    let item = |place, size| Item::Unmap { place, size };
    assert_eq!(refused(&image, 8, &[item(1, 3)]), at(0, 1));
    assert_eq!(refused(&image, 8, &[item(1, 0x1000)]), at(0, 2));
    assert_eq!(refused(&image, 8, &[unmap(1 << 39)]), at(0, 3));
    assert_eq!(refused(&image, 8, &[unmap(0xFEE0_0000)]), at(0, 3));
    for absent in [
        unmap(0x4020_0000),
        unmap(0x4020_2000),
        unmap(0x4040_0000),
        unmap(0x4040_1000),
        unmap(0x4060_0000),
        unmap(0),
        unmap_large(0x4020_0000),
        unmap_large(0x4060_0000),
        unmap_large(0),
    ] {
        assert_eq!(refused(&image, 8, &[absent]), at(0, 8), "{absent:X?}");
    }
    // Twice.
    let twice = [unmap(0x4020_1000), unmap(0x4020_1000)];
    assert_eq!(refused(&image, 8, &twice), at(1, 8));
    // Mapped again in between, elsewhere.
    let again = [
        unmap(0x4020_1000),
        map(0x4020_1000, 0x7000),
        unmap(0x4020_1000),
    ];
    assert_eq!(run(&mut image, 8, &again), Build::Done);
}

/// "pages of emptied tables, the top one apart, are free and used again", and
/// each missing table takes the lowest free page.
#[test]
fn pages_used_again() {
    let mut image = empty();
    // Three pages: the top table and two more. A second 1 GiB has no room,
    // until the first is unmapped.
    let near = map(0x4020_1000, 0x1000);
    let far = map(0x8020_1000, 0x2000);
    assert_eq!(refused(&image, 3, &[near, far]), at(1, 7));
    let list = [near, unmap(0x4020_1000), far];
    assert_eq!(run(&mut image, 3, &list), Build::Done);
    let mut expected = empty();
    expected[0x9000..0xB000].fill(0);
    set(&mut expected, 0x8010, 0x9003);
    set(&mut expected, 0x9008, 0xA003);
    set(&mut expected, 0xA008, 0x2003);
    assert!(image == expected);
    // The lowest free page: 9000h and B000h are taken here, A000h freed.
    let mut image = empty();
    let list = [
        map(0x4020_1000, 0x1000),
        map(0x4040_1000, 0x1000),
        unmap(0x4020_1000),
        map(0x4060_1000, 0x1000),
    ];
    assert_eq!(run(&mut image, 8, &list), Build::Done);
    assert_eq!(get(&image, 0x9010), 0xB003);
    assert_eq!(get(&image, 0x9018), 0xA003);
    // The top table need not be the region's first page.
    let mut image = empty();
    set(&mut image, 0x2100, 0xA001);
    image[0x8000..0xA000].fill(0xEE);
    image[0xA000..0xB000].fill(0);
    assert_eq!(run(&mut image, 4, &[near]), Build::Done);
    assert_eq!(get(&image, 0xA008), 0x8003);
    assert_eq!(get(&image, 0x8008), 0x9003);
}

/// "Checked right after 1, else refused with no item: TE is on, the context
/// translates, and the region ...", in this order, before any item.
#[test]
fn not_ready() {
    let image = empty();
    let bad_item = unmap(1);
    let answer = |registers: &Registers, words: &[(usize, u64)], source, region| {
        let mut image = image.clone();
        for &(address, word) in words {
            set(&mut image, address, word);
        }
        let before = image.clone();
        let windows = whole(&image);
        let answer = build(registers, &windows, &mut image, source, region, &[bad_item]);
        assert!(image == before);
        answer
    };
    let off = Registers {
        te: false,
        ..REGISTERS
    };
    let bad = Registers { haw: 35, ..off };
    let crooked = Region {
        start: 0x8001,
        length: 1,
    };
    assert_eq!(answer(&bad, &[], 0x0311, crooked), Build::Refused(1));
    assert_eq!(answer(&off, &[], 0x0311, crooked), Build::NotReady(1));
    // Root or context entry faults, or passes through.
    let good = region(8);
    assert_eq!(answer(&REGISTERS, &[], 0x0311, crooked), Build::NotReady(2));
    assert_eq!(answer(&REGISTERS, &[], 0x0410, good), Build::NotReady(2));
    for words in [
        (0x1030, 0x2003),
        (0x1030, 0xF_F001),
        (0x2100, 0x8009),
        (0x2100, 0x800D),
        (0x2100, 0x8011),
        (0x2108, 0x503),
    ] {
        let answer = answer(&REGISTERS, &[words], SOURCE, good);
        assert_eq!(answer, Build::NotReady(2), "{words:X?}");
    }
    assert_eq!(answer(&REGISTERS, &[], SOURCE, good), at(0, 2));
    assert_eq!(
        answer(&REGISTERS, &[(0x2100, 0x8007)], SOURCE, good),
        at(0, 2)
    );
    // The region: whole pages of the image.
    let of = |start, length| answer(&REGISTERS, &[], SOURCE, Region { start, length });
    assert_eq!(of(0x8000, 0x1_8000), at(0, 2));
    for (start, length) in [
        (0x8001, 0x1000),
        (0x7FFF, 0x1000),
        (0x8000, 0x1001),
        (0x8000, 0x1_9000),
        (0x2_0000, 0x1000),
        (1 << 39, 0x1000),
        (u64::MAX, u64::MAX),
        (0u64.wrapping_sub(0x1000), 0x1000),
        (0x8000, 0u64.wrapping_sub(0x1000)),
        // Root, context and interrupt table, posted descriptor.
        (0x1000, 0x1000),
        (0x2000, 0x1000),
        (0x3000, 0x1000),
        (0x6000, 0x1000),
        (0, 0x9000),
        (0x3000, 0x8000),
    ] {
        assert_eq!(
            of(start, length),
            Build::NotReady(3),
            "{start:X} {length:X}"
        );
    }
    // Between them it is good, but the top table isn't in it; so is one
    // without a page.
    for (start, length) in [
        (0, 0x1000),
        (0x4000, 0x2000),
        (0x7000, 0x1000),
        (0x1000, 0),
        (0x8000, 0),
        (0x9000, 0x1000),
    ] {
        assert_eq!(
            of(start, length),
            Build::NotReady(4),
            "{start:X} {length:X}"
        );
    }
}

/// "none shared with root, context or interrupt tables or posted descriptors
/// (those of present entries)": by bit 0 alone.
#[test]
fn shared_pages() {
    let answer = |registers: &Registers, words: &[(usize, u64)]| {
        let mut image = empty();
        for &(address, word) in words {
            set(&mut image, address, word);
        }
        let windows = whole(&image);
        build(registers, &windows, &mut image, SOURCE, region(8), &[])
    };
    let good = |words: &[(usize, u64)]| answer(&REGISTERS, words) == Build::Done;
    assert!(good(&[]));
    // Another bus's context table in the region, present or not; also one that
    // faults 0Ah, with its low 64 bits, and one past HAW is elsewhere.
    assert!(!good(&[(0x1FF0, 0xF001)]));
    assert!(good(&[(0x1FF0, 0xF000)]));
    assert!(!good(&[(0x1FF0, 0xFFFF)]));
    assert!(!good(&[(0x1FF0, 0xF001), (0x1FF8, u64::MAX)]));
    assert!(good(&[(0x1FF0, 0x1_0001)]));
    assert!(good(&[(0x1FF0, 0x80_0000_F001)]));
    // A posted entry with a descriptor in the region: bits 0 and 15, also
    // without posting, and with a reserved bit.
    let posted = 0x0000_FFC0_0000_8001;
    assert!(!good(&[(0x30F0, posted)]));
    assert!(!good(&[(0x30F0, posted | 4)]));
    assert!(good(&[(0x30F0, posted & !1)]));
    assert!(good(&[(0x30F0, posted & !0x8000)]));
    assert!(good(&[(0x30F0, 0x0001_0000_0000_8001)]));
    assert!(good(&[(0x3100, posted)]));
    assert!(good(&[(0x30F0, posted), (0x30F8, 0x80_0000_0000)]));
    let without = Registers {
        posting: false,
        ..REGISTERS
    };
    assert_eq!(answer(&without, &[(0x30F0, posted)]), Build::NotReady(3));
    // The interrupt table's length is 16 x 2^(S+1).
    for (s, done) in [(9, true), (10, false), (15, false)] {
        let registers = Registers {
            s,
            interrupt_table: 0x4000,
            ..REGISTERS
        };
        let answer = answer(&registers, &[]);
        assert_eq!(answer == Build::Done, done, "S {s}: {answer:?}");
    }
}

/// Tables that weren't built here: refused with no item.
#[test]
fn not_as_built_here() {
    let mut image = empty();
    let list = [map(0x4020_1000, 0), map_large(0x4040_0000, 0)];
    assert_eq!(run(&mut image, 8, &list), Build::Done);
    let answer = |words: &[(usize, u64)]| {
        let mut image = image.clone();
        for &(address, word) in words {
            set(&mut image, address, word);
        }
        run(&mut image, 8, &[])
    };
    assert_eq!(answer(&[]), Build::Done);
    for words in [
        // One right only, another bit, a large page at level 3.
        &[(0x8008, 0x9001)][..],
        &[(0x8008, 0x9007)],
        &[(0x8008, 1 << 63 | 0x9003)],
        &[(0x8010, 0x4000_0083)],
        // Outside the region, under two entries, in a circle.
        &[(0x8010, 0x1_0003)],
        &[(0x8010, 0x9003)],
        &[(0x9018, 0x8003)],
        // Empty.
        &[(0xA008, 0)],
    ] {
        assert_eq!(answer(words), Build::NotReady(4), "{words:X?}");
    }
    // A leaf with other bits, an absent entry with some: they are good.
    assert_eq!(answer(&[(0xA008, 0xFFF0_0000_0000_0FFF)]), Build::Done);
    assert_eq!(answer(&[(0xA010, 0xFFFF_FFFF_FFFF_FFFC)]), Build::Done);
}

/// What is mapped: by first address, size, frame and rights.
type Mapped = BTreeMap<u64, (u64, u64, bool, bool)>;

fn meets(mapped: &Mapped, place: u64, size: u64) -> bool {
    mapped
        .iter()
        .any(|(&start, &(other, ..))| start < place + size && place < start + other)
}

/// How many tables the pages need: the top one, and for each level below it
/// the spans that have a page in them.
fn tables_needed(mapped: &Mapped, levels: usize) -> u64 {
    let mut tables = 1;
    for level in 1..levels {
        let low = 12 + 9 * level;
        let small_enough = |size: u64| level > 1 || size == 0x1000;
        let mut spans: Vec<u64> = mapped
            .iter()
            .filter(|(_, page)| small_enough(page.0))
            .map(|(place, _)| place >> low)
            .collect();
        spans.dedup();
        tables += spans.len() as u64;
    }
    tables
}

/// A list taken in order over the set of mapped pages alone.
fn expected(mapped: &mut Mapped, items: &[Item], levels: usize, pages: u64) -> Build {
    for (index, item) in items.iter().enumerate() {
        match *item {
            Item::Map {
                place,
                size,
                frame,
                read,
                write,
            } => {
                if meets(mapped, place, size) {
                    return at(index, 6);
                }
                let mut more = mapped.clone();
                more.insert(place, (size, frame, read, write));
                if tables_needed(&more, levels) > pages {
                    return at(index, 7);
                }
                *mapped = more;
            }
            Item::Unmap { place, size } => match mapped.get(&place) {
                Some(page) if page.0 == size => {
                    mapped.remove(&place);
                }
                _ => return at(index, 8),
            },
        }
    }
    Build::Done
}

/// "After a success the request engine answers the listed pages as the list
/// leaves them, and every other request as before, save the entry address in
/// 05h and 06h." "It writes in the region alone."
#[test]
fn lists_at_random() {
    let mut random = Random(8);
    let (mut done, mut reasons) = (0, [0; 9]);
    for _ in 0..60 {
        let levels = random.pick(&[3, 4]);
        let pages = random.pick(&[4, 6, 9, 16, 24]);
        let mut image = empty();
        set(&mut image, 0x2108, 0x500 | (levels as u64 - 2));
        // Another source's context, with tables elsewhere.
        set(&mut image, 0x2110, 0x4001);
        set(&mut image, 0x2118, 1);
        set(&mut image, 0x4008, 0x12_4000_0083);
        let mut mapped = Mapped::new();
        for _ in 0..40 {
            let place = |random: &mut Random, size: u64| {
                let gib = random.pick(&[0, 1, 2, 511]);
                let mib = random.pick(&[0, 1, 2, 511]);
                let page = random.pick(&[0, 1, 2, 511]);
                (gib << 30 | mib << 21 | page << 12) / size * size
            };
            let count = 1 + random.below(5);
            let items: Vec<Item> = (0..count)
                .map(|_| {
                    let size = random.pick(&[0x1000, 0x1000, 0x1000, 0x20_0000]);
                    let known: Vec<u64> = mapped.keys().copied().collect();
                    if random.below(5) < 2 {
                        let place = if known.is_empty() || random.below(4) == 0 {
                            place(&mut random, size)
                        } else {
                            random.pick(&known) / size * size
                        };
                        return Item::Unmap { place, size };
                    }
                    let rights = 1 + random.below(3);
                    Item::Map {
                        place: place(&mut random, size),
                        size,
                        frame: (random.word() & 0x3F_FFFF_F000) / size * size,
                        read: rights & 1 != 0,
                        write: rights & 2 != 0,
                    }
                })
                .collect();
            if items.iter().any(|item| {
                matches!(*item, Item::Map { frame, size, .. }
                    if frame < 0xFEF0_0000 && frame + size > 0xFEE0_0000)
            }) {
                continue;
            }
            let before = image.clone();
            let mut then = mapped.clone();
            let answer = run(&mut image, pages, &items);
            assert_eq!(answer, expected(&mut then, &items, levels, pages));
            if let Build::Item { reason, .. } = answer {
                assert!(image == before);
                reasons[usize::from(reason)] += 1;
                continue;
            }
            done += 1;
            mapped = then;
            let end = 0x8000 + 0x1000 * pages as usize;
            assert!(image[..0x8000] == before[..0x8000]);
            assert!(image[end..] == before[end..]);
            for probe in 0..60 {
                let address = match probe % 3 {
                    0 => place(&mut random, 0x1000) + random.below(0x1000),
                    1 => random.word() >> 25,
                    _ => match random.pick(&items) {
                        Item::Map { place, size, .. } | Item::Unmap { place, size } => {
                            place + random.pick(&[0, size - 1, size])
                        }
                    },
                };
                if (0xFEE0_0000..0xFEF0_0000).contains(&address) {
                    continue;
                }
                for write in [false, true] {
                    let answer = memory_request(&REGISTERS, &image, SOURCE, address, write);
                    let page = mapped
                        .iter()
                        .find(|(&start, page)| start <= address && address - start < page.0);
                    let lacks = if write { 0x05 } else { 0x06 };
                    match page {
                        Some((start, page)) if if write { page.3 } else { page.2 } => {
                            assert_eq!(answer, Outcome::Granted(page.1 + (address - start)));
                        }
                        _ if address >> (12 + 9 * levels) != 0 => {
                            assert!(matches!(answer, Outcome::Blocked(f) if f.reason == 0x04));
                        }
                        _ => {
                            assert!(matches!(answer, Outcome::Blocked(f) if f.reason == lacks));
                        }
                    }
                    let other = memory_request(&REGISTERS, &image, 0x0311, address, write);
                    let same = memory_request(&REGISTERS, &before, 0x0311, address, write);
                    assert_eq!(other, same);
                }
            }
            let mut one = image.clone();
            let mut other = before.clone();
            assert_eq!(
                interrupt_request(&REGISTERS, &mut one, SOURCE, 0xFEE0_0090, 0),
                interrupt_request(&REGISTERS, &mut other, SOURCE, 0xFEE0_0090, 0)
            );
        }
    }
    assert!(done > 400, "{done} {reasons:?}");
    assert!(
        reasons[6] > 20 && reasons[7] > 20 && reasons[8] > 20,
        "{reasons:?}"
    );
}

/// The same through windows: the region in a window of its own.
#[test]
fn through_windows() {
    let flat = empty();
    let mut run_bytes = flat[0x8000..0x1_0000].to_vec();
    run_bytes.extend(&flat[..0x8000]);
    let windows = [
        Window {
            start: 0,
            from: 0x8000,
            length: 0x8000,
        },
        Window {
            start: 0x8000,
            from: 0,
            length: 0x8000,
        },
    ];
    let list = [map(0x4020_1000, 0x1000), map_large(0x4040_0000, 0)];
    let mut expected = flat[..0x1_0000].to_vec();
    assert_eq!(run(&mut expected, 8, &list), Build::Done);
    let answer = build(
        &REGISTERS,
        &windows,
        &mut run_bytes,
        SOURCE,
        region(8),
        &list,
    );
    assert_eq!(answer, Build::Done);
    assert!(run_bytes[..0x8000] == expected[0x8000..]);
    assert!(run_bytes[0x8000..] == expected[..0x8000]);
    // A page of the region in no window.
    let short = [Window {
        length: 0x1_0000 - 1,
        ..whole(&flat)[0]
    }];
    let mut image = flat.clone();
    let answer = build(&REGISTERS, &short, &mut image, SOURCE, region(8), &list);
    assert_eq!(answer, Build::NotReady(3));
}
