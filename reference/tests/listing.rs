//! Ask 4: a source's pages, listed.

mod common;

use common::{bench_image, bench_with, get, set, Random, BENCH, SOURCE};
use reference::{listing, memory_request_in, Outcome, Registers, Slip, Window};

/// The image as one window from 0, and as none where it has no byte.
fn whole(image: &[u8]) -> Vec<Window> {
    if image.is_empty() {
        return vec![];
    }
    vec![Window {
        start: 0,
        from: 0,
        length: image.len() as u64,
    }]
}

fn listed(registers: &Registers, image: &[u8], source: u16) -> Vec<String> {
    listing(registers, &whole(image), image, source)
}

/// The bench with some words changed, listed, without the header.
fn spans_with(words: &[(usize, u64)]) -> Vec<String> {
    let mut lines = listed(&BENCH, &bench_with(words), SOURCE);
    assert_eq!(lines.remove(0), "source 0310");
    lines
}

/// "For the bench image and source 0310h the whole output, header first, is".
#[test]
fn bench() {
    let expected = [
        "source 0310",
        "40201000 1000 12345000 R-",
        "40400000 200000 40600000 RW",
        "40600000 200000 fault 07",
        "40800000 200000 fault 0C",
        "40BFF000 1000 23456000 RW",
    ];
    assert_eq!(listed(&BENCH, &bench_image(), SOURCE), expected);
}

/// "With bad registers, the header and `refused 1`; with TE off, or a context
/// that passes through, the header and `pass`; with a root or context entry
/// that faults, the header and `fault` with its reason."
#[test]
fn short_outputs() {
    let image = bench_image();
    let bad = Registers { haw: 53, ..BENCH };
    let off = Registers { te: false, ..BENCH };
    let bad_and_off = Registers { te: false, ..bad };
    assert_eq!(listed(&bad, &image, SOURCE), ["source 0310", "refused 1"]);
    assert_eq!(
        listed(&bad_and_off, &image, 0xABC),
        ["source 0ABC", "refused 1"]
    );
    assert_eq!(listed(&off, &image, 0), ["source 0000", "pass"]);
    assert_eq!(listed(&off, &[], 0xFFFF), ["source FFFF", "pass"]);
    let crooked = [Window {
        start: 0x800,
        from: 0,
        length: 0x1000,
    }];
    for registers in [BENCH, off] {
        let lines = listing(&registers, &crooked, &image, SOURCE);
        assert_eq!(lines, ["source 0310", "refused 1"]);
    }
    let fault = |words: &[(usize, u64)], length: usize, source| {
        let lines = listed(&BENCH, &bench_with(words)[..length], source);
        assert_eq!(lines.len(), 2);
        lines[1].clone()
    };
    let all = 0x8000;
    assert_eq!(fault(&[], 0, SOURCE), "fault 08");
    assert_eq!(fault(&[], all, 0x0410), "fault 01");
    assert_eq!(fault(&[(0x1030, 0x2003)], all, SOURCE), "fault 0A");
    assert_eq!(fault(&[], 0x2000, SOURCE), "fault 09");
    assert_eq!(fault(&[], all, 0x0311), "fault 02");
    assert_eq!(fault(&[(0x2108, 0x581)], all, SOURCE), "fault 0B");
    assert_eq!(fault(&[(0x2108, 0x503)], all, SOURCE), "fault 03");
    // A pass-through entry passes after these checks; FPD says nothing here.
    assert_eq!(fault(&[(0x2100, 0x3009)], all, SOURCE), "pass");
    assert_eq!(fault(&[(0x2100, 0x300B)], all, SOURCE), "pass");
    assert_eq!(fault(&[(0x2100, 0x3019)], all, SOURCE), "fault 0B");
    let unsupported = [(0x2100, 0x3009), (0x2108, 3)];
    assert_eq!(fault(&unsupported, all, SOURCE), "fault 03");
}

/// Type 1 translates as type 0 does.
#[test]
fn type_1() {
    assert_eq!(spans_with(&[(0x2100, 0x3005)]), spans_with(&[]));
}

/// "Where the joined rights (for a fault, those of the entries above it) are
/// none, nothing is listed."
#[test]
fn joined_rights() {
    // Read only above: RW pages become R-, and the R- page stays.
    assert_eq!(
        spans_with(&[(0x3008, 0x4001)]),
        [
            "40201000 1000 12345000 R-",
            "40400000 200000 40600000 R-",
            "40600000 200000 fault 07",
            "40800000 200000 fault 0C",
            "40BFF000 1000 23456000 R-",
        ]
    );
    // Write only above: the R- page has none left.
    assert_eq!(
        spans_with(&[(0x3008, 0x4002)]),
        [
            "40400000 200000 40600000 -W",
            "40600000 200000 fault 07",
            "40800000 200000 fault 0C",
            "40BFF000 1000 23456000 -W",
        ]
    );
    // Nothing below an entry after which none is left, outside tables and
    // reserved bits included.
    assert_eq!(
        spans_with(&[
            (0x3008, 0x4001),
            (0x4010, 0x4060_0082),
            (0x4018, 0x9002),
            (0x4028, 0x7002)
        ]),
        ["40201000 1000 12345000 R-", "40800000 200000 fault 0C"]
    );
    // An entry's own rights don't count for its 0Ch, other than that they
    // aren't both clear.
    assert_eq!(
        spans_with(&[
            (0x3008, 0x4001),
            (0x4010, 0),
            (0x4018, 1 << 39 | 2),
            (0x4020, 1 << 39),
            (0x4028, 0)
        ]),
        ["40201000 1000 12345000 R-", "40600000 200000 fault 0C"]
    );
    assert_eq!(spans_with(&[(0x3008, 0x4000)]), [""; 0]);
}

/// "An entry that faults 07h or 0Ch gives one line for its span, a table wholly
/// outside the image one for all of its span."
#[test]
fn outside() {
    // The top table: all of 2^X.
    assert_eq!(spans_with(&[(0x2100, 0x9001)]), ["0 8000000000 fault 07"]);
    // The level 2 table: 1 GiB.
    assert_eq!(
        spans_with(&[(0x3008, 0x8003)]),
        ["40000000 40000000 fault 07"]
    );
    // A table of which a part is in: a line for each entry that isn't.
    let image = bench_image();
    let lines = listed(&BENCH, &image[..0x7FF8], SOURCE);
    assert_eq!(lines[5], "40BFF000 1000 fault 07");
    assert_eq!(lines.len(), 6);
    let lines = listed(&BENCH, &image[..0x7FE9], SOURCE);
    assert_eq!(
        lines[5..],
        [
            "40BFD000 1000 fault 07",
            "40BFE000 1000 fault 07",
            "40BFF000 1000 fault 07"
        ]
    );
    // One byte in: 512 lines, as no entry can be fetched. None in: one line.
    let lines = listed(&BENCH, &image[..0x7001], SOURCE);
    assert_eq!(lines.len(), 5 + 512);
    assert_eq!(lines[5], "40A00000 1000 fault 07");
    assert_eq!(lines[516], "40BFF000 1000 fault 07");
    let lines = listed(&BENCH, &image[..0x7000], SOURCE);
    assert_eq!(lines[5..], ["40A00000 200000 fault 07"]);
    // In a window of its own, the table is in again.
    let windows = [
        Window {
            start: 0,
            from: 0,
            length: 0x6000,
        },
        Window {
            start: 0x7000,
            from: 0x7000,
            length: 0x1000,
        },
    ];
    assert_eq!(
        listing(&BENCH, &windows, &image, SOURCE),
        listed(&BENCH, &image, SOURCE)
    );
}

/// 0Ch at each level, and large pages.
#[test]
fn levels_and_sizes() {
    assert_eq!(
        spans_with(&[(0x3008, 1 << 39 | 0x4003)]),
        ["40000000 40000000 fault 0C"]
    );
    assert_eq!(
        spans_with(&[(0x3008, 0x4000_1083)]),
        ["40000000 40000000 fault 0C"]
    );
    assert_eq!(
        spans_with(&[(0x3008, 0x7F_C000_0081)]),
        ["40000000 40000000 7FC0000000 R-"]
    );
    assert_eq!(
        spans_with(&[(0x3008, 0x4002), (0x5008, 1 << 39 | 1)])[0],
        "40201000 1000 fault 0C"
    );
    // The first page, start and frame 0.
    assert_eq!(
        spans_with(&[(0x3000, 0x83), (0x3008, 0)]),
        ["0 40000000 0 RW"]
    );
    // The last one below 2^39.
    assert_eq!(
        spans_with(&[(0x3008, 0), (0x3FF8, 0x83)]),
        ["7FC0000000 40000000 0 RW"]
    );
}

/// Ask 10: "lists such a page as a fault (`refused 4` with number 4), its
/// joined rights counting the leaf's". Pages at FEE00000h as input are listed.
#[test]
fn interrupt_range() {
    assert_eq!(
        spans_with(&[(0x5008, 0xFEE0_0001), (0x4010, 0xFEE0_0083)])[..2],
        ["40201000 1000 refused 4", "40400000 200000 refused 4"]
    );
    let none_left = [(0x3008, 0x4002), (0x5008, 0xFEE0_0001)];
    assert_eq!(spans_with(&none_left)[0], "40400000 200000 40600000 -W");
    // Input FEE00000h: index 3 at level 3, 1F7h at level 2.
    let input = [(0x3008, 0), (0x3018, 0x4003), (0x4FB8, 0x20_0083)];
    let lines = spans_with(&input);
    assert!(lines.contains(&"FEE00000 200000 200000 RW".into()));
}

/// "Spans end at document 01's 2^X": 4 and 5 levels with a narrow MGAW.
#[test]
fn cut_by_the_width() {
    let registers = |mgaw| Registers {
        mgaw,
        levels5: true,
        ..BENCH
    };
    // Five levels: 2^48 for an entry of the top table, at 3000h.
    let five = |words: &[(usize, u64)]| {
        let mut image = bench_with(&[(0x2108, 3), (0x3008, 0)]);
        for &(address, value) in words {
            set(&mut image, address, value);
        }
        image
    };
    let lines = |mgaw, image: &[u8]| listed(&registers(mgaw), image, SOURCE)[1..].to_vec();
    // An entry with a reserved bit, a table outside, the top table outside.
    let reserved = five(&[(0x3000, 0x83)]);
    assert_eq!(lines(39, &reserved), ["0 8000000000 fault 0C"]);
    assert_eq!(lines(47, &reserved), ["0 800000000000 fault 0C"]);
    assert_eq!(lines(48, &reserved), ["0 1000000000000 fault 0C"]);
    assert_eq!(lines(57, &reserved), ["0 1000000000000 fault 0C"]);
    let outside = five(&[(0x3000, 0x9003)]);
    assert_eq!(lines(40, &outside), ["0 10000000000 fault 07"]);
    assert_eq!(lines(50, &outside), ["0 1000000000000 fault 07"]);
    let top = five(&[(0x2100, 0x9001)]);
    assert_eq!(lines(42, &top), ["0 40000000000 fault 07"]);
    assert_eq!(lines(57, &top), ["0 200000000000000 fault 07"]);
    // Entries that begin at or above 2^X list nothing.
    let second = five(&[(0x3008, 0x83)]);
    assert_eq!(lines(48, &second), [""; 0]);
    assert_eq!(lines(49, &second), ["1000000000000 1000000000000 fault 0C"]);
    // Four levels: 2^39 for an entry, so X cuts between entries.
    let four = bench_with(&[(0x2108, 2), (0x3000, 0x83), (0x3008, 0x83), (0x3010, 0x83)]);
    assert_eq!(lines(39, &four), ["0 8000000000 fault 0C"]);
    assert_eq!(
        lines(40, &four),
        ["0 8000000000 fault 0C", "8000000000 8000000000 fault 0C"]
    );
    assert_eq!(lines(41, &four).len(), 3);
}

/// "past 4,096 spans comes a last line `more`": exactly 4096 spans, and one
/// more.
#[test]
fn more() {
    // Eight level 1 tables, all at 5000h, of 512 pages each.
    let mut image = bench_with(&[(0x4010, 0), (0x4018, 0), (0x4020, 0), (0x4028, 0)]);
    for n in 0..512 {
        set(&mut image, 0x5000 + 8 * n, 0x10_0003 + ((n as u64) << 12));
    }
    for n in 1..=8 {
        set(&mut image, 0x4000 + 8 * n, 0x5003);
    }
    let lines = listed(&BENCH, &image, SOURCE);
    assert_eq!(lines.len(), 1 + 4096);
    assert_eq!(lines[1], "40200000 1000 100000 RW");
    assert_eq!(lines[4096], "411FF000 1000 2FF000 RW");
    // One fewer.
    let mut fewer = image.clone();
    set(&mut fewer, 0x5000, 0);
    assert_eq!(listed(&BENCH, &fewer, SOURCE).len(), 1 + 4096 - 8);
    // The 4097th: a page, a fault, a table outside, number 4.
    for ninth in [0x20_0083, 0x20_1083, 0x9003, 0xFEE0_0083] {
        set(&mut image, 0x4048, ninth);
        let more = listed(&BENCH, &image, SOURCE);
        assert_eq!(more.len(), 1 + 4096 + 1);
        assert_eq!(more[..4097], lines);
        assert_eq!(more[4097], "more");
    }
    // One without rights is none.
    set(&mut image, 0x4048, 0x20_0080);
    assert_eq!(listed(&BENCH, &image, SOURCE), lines);
}

/// A span as listed.
#[derive(Debug)]
struct Span {
    start: u64,
    size: u64,
    rest: Vec<String>,
}

fn parse(line: &str) -> Span {
    let mut words = line.split(' ');
    let mut number = || u64::from_str_radix(words.next().unwrap(), 16).unwrap();
    let (start, size) = (number(), number());
    let rest = words.map(String::from).collect();
    Span { start, size, rest }
}

/// What an untranslated request should be answered, by the spans.
fn agrees(spans: &[Span], address: u64, write: bool, answer: &Outcome) -> bool {
    let span = spans
        .iter()
        .find(|span| span.start <= address && address - span.start < span.size);
    let lacks =
        matches!(answer, Outcome::Blocked(fault) if fault.reason == if write { 5 } else { 6 });
    let Some(span) = span else {
        return lacks;
    };
    match (span.rest[0].as_str(), span.rest[1].as_str()) {
        // Their rights aren't printed: any kind that the joined rights allow.
        ("fault", reason) => {
            let reason = u8::from_str_radix(reason, 16).unwrap();
            lacks || matches!(answer, Outcome::Blocked(fault) if fault.reason == reason)
        }
        ("refused", _) => lacks || *answer == Outcome::Refused(4),
        (frame, rights) => {
            let allowed = rights.contains(if write { 'W' } else { 'R' });
            let frame = u64::from_str_radix(frame, 16).unwrap();
            let host = Outcome::Granted(frame + (address - span.start));
            if allowed {
                *answer == host
            } else {
                lacks
            }
        }
    }
}

/// "a listed span agrees with the request engine at every address for the
/// kinds its joined rights allow, and any other untranslated request lacks
/// rights".
#[test]
fn agrees_with_the_engine() {
    let mut random = Random(0x1157);
    let mut met = 0;
    for _ in 0..400 {
        // Tables at 3000h to 7000h, over which a few entries are laid.
        let levels = random.pick(&[3, 3, 4, 5]);
        let registers = Registers {
            levels5: true,
            mgaw: random.pick(&[39, 40, 45, 48, 57]),
            ..BENCH
        };
        let mut image = bench_with(&[(0x2108, levels - 2), (0x3008, 0)]);
        for _ in 0..60 {
            let at = 0x3000 + 0x1000 * random.below(5) + 8 * random.pick(&[0, 1, 2, 3, 255, 511]);
            let rights = random.pick(&[3, 3, 3, 1, 2, 0]);
            let frame = match random.below(8) {
                0 => random.word() & 0xFF_C000_0000,
                1 => 0xFEE0_0000,
                2 => 0x9000,
                3 => 1 << 39,
                _ => 0x1000 * (3 + random.below(5)),
            };
            let large = random.pick(&[0, 0, 0x80]);
            set(&mut image, at as usize, frame | large | rights);
        }
        let windows = match random.below(3) {
            0 => vec![
                Window {
                    start: 0,
                    from: 0,
                    length: 0x5000,
                },
                Window {
                    start: 0x6000,
                    from: 0x6000,
                    length: 0x1008,
                },
            ],
            _ => whole(&image),
        };
        let lines = listing(&registers, &windows, &image, SOURCE);
        assert_eq!(lines[0], "source 0310");
        let complete = lines.last().unwrap() != "more";
        let end = lines.len() - usize::from(!complete);
        let spans: Vec<Span> = lines[1..end].iter().map(|line| parse(line)).collect();
        // In address order, once.
        for pair in spans.windows(2) {
            assert!(pair[0].start + pair[0].size <= pair[1].start);
        }
        let x = registers.mgaw.min(12 + 9 * levels as u8);
        let last = spans.last().map_or(0, |span| span.start + (span.size - 1));
        let limit = if complete { (1 << x) - 1 } else { last };
        assert!(last <= limit);
        for _ in 0..200 {
            let address = if spans.is_empty() || random.below(3) == 0 {
                let index = |random: &mut Random| random.pick(&[0, 1, 2, 3, 4, 255, 511]);
                let any = (0..levels).fold(0, |a, _| a << 9 | index(&mut random));
                (any << 12 | random.below(4096)) & limit
            } else {
                let span = &spans[random.below(spans.len() as u64) as usize];
                let offset = random.pick(&[0, 1, span.size - 1, span.size / 2]);
                match random.below(8) {
                    0 => span.start.wrapping_sub(1),
                    1 => span.start + span.size,
                    _ => span.start + offset,
                }
            };
            if address > limit || (0xFEE0_0000..0xFEF0_0000).contains(&address) {
                continue;
            }
            for write in [false, true] {
                let none = Slip::None;
                let answer =
                    memory_request_in(none, &registers, &windows, &image, SOURCE, address, write);
                assert!(
                    agrees(&spans, address, write, &answer),
                    "{address:X} {write} {answer:X?} {lines:#?} {:X}",
                    get(&image, 0x3000)
                );
                met += 1;
            }
        }
    }
    assert!(met > 50_000, "{met}");
}
