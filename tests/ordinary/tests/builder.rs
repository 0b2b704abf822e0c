//! The ordinary builder against the reference: the same answers, and the same memory.

use cases::Random;
use ordinary::{build, Built, Item, Registers, Window};
use reference::{Build, Region};

const SOURCE: u16 = 0x0310;

/// The root table at 0, a context table, the interrupt table, then a region of so many pages.
fn image(random: &mut Random, pages: u64, levels: u64, top: u64) -> Vec<u8> {
    let mut image = vec![0; (0x3000 + 0x1000 * pages) as usize];
    image[0x3000..].fill(random.below(256) as u8);
    let top = 0x3000 + 0x1000 * top;
    image[top as usize..top as usize + 0x1000].fill(0);
    let mut set = |at: usize, word: u64| image[at..at + 8].copy_from_slice(&word.to_le_bytes());
    set(0x30, 0x1001);
    set(0x1100, top | random.pick(&[1, 1, 1, 1, 1, 5, 5, 9]));
    set(0x1108, levels - 2);
    image
}

fn item(random: &mut Random) -> Item {
    let size = match random.below(24) {
        0 => 0x2000,
        1..=8 => 0x20_0000,
        _ => 0x1000,
    };
    let near = random.below(24) << 12;
    let far = random.below(6) << 30 | random.below(3) << 21;
    let edge = random.pick(&[0xFEE0_0000, 0xFEC0_0000, 1 << 39, 0x800, (1 << 39) - 0x1000]);
    let place = random.pick(&[near, near, near, far, far, far, far, edge]);
    let mask = if random.one_in(8) { 0 } else { size - 1 };
    let frame = match random.below(24) {
        0 => random.pick(&[0xFEE0_0000, 1 << 39]),
        _ => random.pick(&[near, far, 0x1234_5000]),
    };
    Item {
        what: match random.below(24) {
            0 => 0,
            1..=6 => 4,
            _ => 1 + random.below(3),
        },
        place: place & !mask,
        size,
        frame: frame & !mask,
    }
}

fn theirs(item: &Item) -> reference::Item {
    let (place, size) = (item.place, item.size);
    if item.what & 4 != 0 {
        return reference::Item::Unmap { place, size };
    }
    reference::Item::Map {
        place,
        size,
        frame: item.frame,
        read: item.what & 1 != 0,
        write: item.what & 2 != 0,
    }
}

fn said(answer: Build) -> Built {
    match answer {
        Build::Done => Built::Done,
        Build::Refused(number) => Built::Refused(number),
        Build::NotReady(reason) => Built::NotReady(reason),
        Build::Item { index, reason } => Built::Item(index, reason),
    }
}

#[test]
fn the_same_answers_and_tables() {
    let mut met = std::collections::BTreeMap::<String, u32>::new();
    for case in 0..3_000 {
        let mut random = Random::of("ordinary builder", case);
        let levels = 3 + random.below(2);
        let pages = 1 + random.below(9);
        let top = random.below(pages);
        let mut run = image(&mut random, pages, levels, top);
        let mut other = run.clone();
        let te = !random.one_in(20);
        let registers = Registers {
            haw: 39,
            mgaw: 39,
            widths: 0b1110,
            pages_2m: !random.one_in(5),
            pages_1g: true,
            posting: true,
            root_table: 0,
            interrupt_table: 0x2000,
            s: random.pick(&[3, 3, 3, 3, 3, 3, 3, 8]),
            te,
            ire: false,
            eime: false,
            cfis: false,
        };
        let mut r = cases::bench::REGISTERS;
        (r.haw, r.mgaw, r.levels5, r.root) = (39, 39, true, 0);
        (r.interrupt_table, r.s, r.te) = (0x2000, registers.s, te);
        r.pages_2m = registers.pages_2m;
        let length = run.len() as u64;
        let start = 0x3000 + 0x1000 * random.pick(&[0, 0, 0, 0, 0, 0, 0, top + 1]);
        let region = [start, length - start];
        for _ in 0..1 + random.below(3) {
            let items: Vec<Item> = (0..random.below(10)).map(|_| item(&mut random)).collect();
            let window = [Window {
                start: 0,
                offset: 0,
                length,
            }];
            let answer = build(&registers, &window, &mut run, SOURCE, region, &items);
            let window = [reference::Window {
                start: 0,
                from: 0,
                length,
            }];
            let list: Vec<reference::Item> = items.iter().map(theirs).collect();
            let region = Region {
                start: region[0],
                length: region[1],
            };
            let expected = reference::build(&r, &window, &mut other, SOURCE, region, &list);
            assert_eq!(answer, said(expected), "case {case}: {items:X?}");
            assert!(run == other, "case {case}: {items:X?}");
            let name = match answer {
                Built::Item(_, reason) => format!("item {reason}"),
                other => format!("{other:?}"),
            };
            *met.entry(name).or_default() += 1;
        }
    }
    // Done, four with no item and all eight reasons.
    assert_eq!(met.len(), 13, "{met:?}");
    assert!(met.values().all(|&count| count > 10), "{met:?}");
}
