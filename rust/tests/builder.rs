//! Page tables built in a region: what is mapped afterwards, each reason against a list, and that a refused list changes nothing.

mod common;

use common::{bench_image, set, BENCH, SOURCE};
use galitzaf::{known_numbers, BuildError, Item, ItemReason, Mapping, Memory, MemoryRequest};
use galitzaf::{NotReady, Page, PageSize, Refusal, Region, Registers, TableBuilder, Unit, Window};

const FOUR: PageSize = PageSize::FourKiB;
const TWO: PageSize = PageSize::TwoMiB;

/// From the bench's page tables on to the interrupt table.
const REGION: Region = Region {
    start: 0x3000,
    size: 0x3000,
};

/// The bench image without its page tables.
fn empty_image() -> Vec<u8> {
    let mut image = bench_image();
    image[0x3000..0x6000].fill(0);
    image[0x7000..].fill(0);
    image
}

fn page(frame: u64, size: PageSize) -> Page {
    Page {
        frame,
        size,
        read: true,
        write: true,
    }
}

fn map(place: u64, frame: u64, size: PageSize) -> Item {
    Item::map(place, page(frame, size))
}

fn build(registers: &Registers, image: &mut [u8], items: &[Item]) -> Result<(), BuildError> {
    let mut builder = TableBuilder::new(SOURCE, REGION);
    builder.extend(items.iter().copied());
    assert_eq!(builder.items(), items);
    let said = builder.build(&Unit::new(registers), &mut Memory::flat(image));
    assert_eq!(builder.items().is_empty(), said.is_ok() || items.is_empty());
    said
}

fn lines(image: &[u8]) -> Vec<String> {
    let mut known = vec![0; known_numbers(image.len())];
    let mut rows = vec![[0; 4]; 64];
    let unit = Unit::new(&BENCH);
    match unit.mapping(&Memory::flat(image), SOURCE, &mut known, &mut rows) {
        Mapping::Spans(spans) => spans.map(|span| span.to_string()).collect(),
        other => panic!("{other:?}"),
    }
}

#[test]
fn pages_are_mapped_and_unmapped() {
    let mut image = empty_image();
    let read_only = Page {
        write: false,
        ..page(0x1234_5000, FOUR)
    };
    let items = [
        Item::map(0x4020_1000, read_only),
        map(0x4040_0000, 0x4060_0000, TWO),
    ];
    assert_eq!(build(&BENCH, &mut image, &items), Ok(()));
    let mapped = ["40201000 1000 12345000 R-", "40400000 200000 40600000 RW"];
    assert_eq!(lines(&image), mapped);
    let read = MemoryRequest::read(SOURCE, 0x4020_1ABC);
    let answer = Unit::new(&BENCH).memory(&Memory::flat(&image), read);
    assert_eq!(answer.granted(), Some(0x1234_5ABC));

    // Unmapped again the tables' entries are 0; the first page goes, then its place may be mapped anew in the same list.
    let items = [
        Item::unmap(0x4020_1000, FOUR),
        map(0x4020_0000, 0x4080_0000, TWO),
    ];
    assert_eq!(build(&BENCH, &mut image, &items), Ok(()));
    let mapped = ["40200000 200000 40800000 RW", "40400000 200000 40600000 RW"];
    assert_eq!(lines(&image), mapped);
    let items = [Item::unmap(0x4040_0000, TWO), Item::unmap(0x4020_0000, TWO)];
    assert_eq!(build(&BENCH, &mut image, &items), Ok(()));
    assert!(lines(&image).is_empty());
    assert_eq!(image, empty_image());
}

#[test]
fn each_reason_is_told_with_its_item_and_changes_nothing() {
    let good = map(0x4020_1000, 0x1234_5000, FOUR);
    let no_rights = Page {
        read: false,
        write: false,
        ..page(0, FOUR)
    };
    for (items, reason) in [
        (vec![map(0, 0, PageSize::OneGiB)], ItemReason::Size),
        (vec![map(0x4010_0000, 0, TWO)], ItemReason::Alignment),
        (vec![map(0x4000_0000, 0x1000, TWO)], ItemReason::Alignment),
        (vec![map(1 << 39, 0, FOUR)], ItemReason::Place),
        (vec![map(0xFEE0_0000, 0, FOUR)], ItemReason::Place),
        (vec![Item::unmap(0xFEE0_0000, TWO)], ItemReason::Place),
        (vec![Item::map(0, no_rights)], ItemReason::Rights),
        (vec![map(0, 1 << 39, FOUR)], ItemReason::Frame),
        (vec![map(0, 0xFEEF_F000, FOUR)], ItemReason::Frame),
        (vec![good, good], ItemReason::Overlap),
        (vec![good, map(0x4020_0000, 0, TWO)], ItemReason::Overlap),
        (vec![good, map(0x4040_0000, 0, FOUR)], ItemReason::Pages),
        (vec![Item::unmap(0x4020_1000, FOUR)], ItemReason::NotMapped),
        (
            vec![good, Item::unmap(0x4020_0000, TWO)],
            ItemReason::NotMapped,
        ),
    ] {
        let mut image = empty_image();
        // Free pages keep what they hold.
        image[0x4000..0x6000].fill(0xA5);
        let before = image.clone();
        let index = items.len() - 1;
        assert_eq!(
            build(&BENCH, &mut image, &items),
            Err(BuildError::Item { index, reason }),
            "{items:?}"
        );
        assert_eq!(image, before);
    }
    let unsupported = Registers {
        pages_2m: false,
        ..BENCH
    };
    let index = 0;
    let reason = ItemReason::Size;
    assert_eq!(
        build(&unsupported, &mut empty_image(), &[map(0, 0, TWO)]),
        Err(BuildError::Item { index, reason })
    );
}

#[test]
fn what_is_wrong_with_no_item() {
    let unit = Unit::new(&BENCH);
    let mut image = empty_image();
    let not_ready = |reason| Err(BuildError::NotReady(reason));
    let off = Registers { te: false, ..BENCH };
    assert_eq!(
        build(&off, &mut image, &[]),
        not_ready(NotReady::TranslationOff)
    );
    let bad = Registers { haw: 35, ..off };
    assert_eq!(
        build(&bad, &mut image, &[]),
        Err(BuildError::Refused(Refusal::BadRegisters))
    );
    // Pass-through, and no context.
    for word in [0x3009, 0] {
        let mut image = image.clone();
        set(&mut image, 0x2100, word);
        assert_eq!(build(&BENCH, &mut image, &[]), not_ready(NotReady::Context));
    }
    // Over the root table, over a context table, over the interrupt table, outside memory, unaligned, far too long.
    for (start, size) in [
        (0x1000, 0x1000),
        (0x2000, 0x2000),
        (0x3000, 0x4000),
        (0x7000, 0x2000),
        (0x3800, 0x1000),
        (0x3000, 0x800),
        (0x3000, u64::MAX),
        (u64::MAX, u64::MAX),
    ] {
        let mut builder = TableBuilder::new(SOURCE, Region { start, size });
        let said = builder.build(&unit, &mut Memory::flat(&mut image[..]));
        assert_eq!(said, not_ready(NotReady::Region), "{start:X} {size:X}");
    }
    // The top table is outside the region; a table that is another's too; buffers that don't fit.
    let mut builder = TableBuilder::new(
        SOURCE,
        Region {
            start: 0x4000,
            size: 0x1000,
        },
    );
    let said = builder.build(&unit, &mut Memory::flat(&mut image[..]));
    assert_eq!(said, not_ready(NotReady::Tables));
    set(&mut image, 0x3000, 0x4001);
    assert_eq!(build(&BENCH, &mut image, &[]), not_ready(NotReady::Tables));
    let (mut copy, mut marks) = ([0; 0x3000], [0; 3]);
    for (copied, marked) in [(0x2FFF, 3), (0x3000, 2)] {
        let said = unit.build(
            &mut Memory::flat(&mut image[..]),
            SOURCE,
            REGION,
            &[],
            &mut copy[..copied],
            &mut marks[..marked],
        );
        assert_eq!(said, not_ready(NotReady::Buffers));
    }
}

#[test]
fn through_windows_and_in_words() {
    // The region's last page stands apart in the run.
    let mut run = empty_image();
    let windows = [
        Window {
            start: 0,
            offset: 0,
            length: 0x5000,
        },
        Window {
            start: 0x5000,
            offset: 0x7000,
            length: 0x1000,
        },
        Window {
            start: 0x6000,
            offset: 0x6000,
            length: 0x1000,
        },
    ];
    let unit = Unit::new(&BENCH);
    let mut builder = TableBuilder::new(SOURCE, REGION);
    builder.map(0x4020_1000, page(0x1234_5000, FOUR));
    let mut memory = Memory::new(&mut run[..], &windows);
    assert_eq!(builder.build(&unit, &mut memory), Ok(()));
    let read = MemoryRequest::read(SOURCE, 0x4020_1ABC);
    let answer = unit.memory(&Memory::new(&run[..], &windows), read);
    assert_eq!(answer.granted(), Some(0x1234_5ABC));
    // Bytes that no window shows stay.
    assert!(run[0x5000..0x6000].iter().all(|&byte| byte == 0));

    builder.unmap(0, FOUR);
    let said = builder.build(&unit, &mut Memory::new(&mut run[..], &windows));
    assert_eq!(
        said.map_err(|error| error.to_string()),
        Err("item 0: no such page is mapped".to_string())
    );
    assert_eq!(format!("{:?}", builder.items()), "[Item(unmap 0 1000)]");
    builder.clear();
    assert_eq!(
        builder.build(&unit, &mut Memory::new(&mut run[..], &windows[1..])),
        Err(BuildError::NotReady(NotReady::Context))
    );
}
