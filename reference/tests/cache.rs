//! Ask 11: a cache of 64 translations as a second engine.

mod common;

use common::{bench_image, bench_with, get, set, Random, BENCH, SOURCE};
use reference::{
    memory_request, memory_request_in, named_words_memory, Cache, Cached, Outcome, Registers, Slip,
    Window,
};

fn whole(image: &[u8]) -> Vec<Window> {
    if image.is_empty() {
        return vec![];
    }
    vec![Window {
        start: 0,
        from: 0,
        length: image.len() as u64,
    }]
}

/// Puts a request to the second engine, over the old image.
fn ask(cache: &mut Cache, registers: &Registers, image: &[u8], ask: (u16, u64, bool)) -> Outcome {
    let (source, address, write) = ask;
    let windows = whole(image);
    cache.memory_request(registers, &windows, image, source, address, write)
}

fn read(cache: &mut Cache, image: &[u8], address: u64) -> Outcome {
    ask(cache, &BENCH, image, (SOURCE, address, false))
}

/// The bench's grants, cached, and what is cached of them.
#[test]
fn bench() {
    let image = bench_image();
    let mut cache = Cache::new();
    assert_eq!(cache.held(), []);
    assert_eq!(
        read(&mut cache, &image, 0x4020_1ABC),
        Outcome::Granted(0x1234_5ABC)
    );
    assert_eq!(
        read(&mut cache, &image, 0x4041_2345),
        Outcome::Granted(0x4061_2345)
    );
    // Faults aren't cached.
    for address in [0x4020_2000, 0x4060_0000, 0x4080_0000, 1 << 39] {
        let plain = memory_request(&BENCH, &image, SOURCE, address, false);
        assert_eq!(read(&mut cache, &image, address), plain);
    }
    let small = Cached {
        source: SOURCE,
        write: false,
        page: 0x4020_1000,
        size: 0x1000,
        frame: 0x1234_5000,
        domain: 5,
    };
    let large = Cached {
        page: 0x4040_0000,
        size: 0x20_0000,
        frame: 0x4060_0000,
        ..small
    };
    assert_eq!(cache.held(), [small, large]);
    // Over an empty image they still answer, at every address of their page,
    // with no word read; and nothing is cached twice.
    assert_eq!(
        read(&mut cache, &[], 0x4020_1FFF),
        Outcome::Granted(0x1234_5FFF)
    );
    assert_eq!(
        read(&mut cache, &[], 0x405F_FFFF),
        Outcome::Granted(0x407F_FFFF)
    );
    assert_eq!(cache.held(), [small, large]);
    // Another page, kind or source is not answered by them.
    for (source, address, write) in [
        (SOURCE, 0x4020_2000, false),
        (SOURCE, 0x4020_0FFF, false),
        (SOURCE, 0x4060_0000, false),
        (SOURCE, 0x4041_2345, true),
        (0x0311, 0x4041_2345, false),
    ] {
        let answer = ask(&mut cache, &BENCH, &[], (source, address, write));
        assert_eq!(answer, memory_request(&BENCH, &[], source, address, write));
    }
}

/// "Only untranslated grants by page walk are cached": not by pass-through, not
/// with TE off, not refusals.
#[test]
fn not_cached() {
    let mut cache = Cache::new();
    let through = bench_with(&[(0x2100, 0x3009)]);
    assert_eq!(read(&mut cache, &through, 7), Outcome::Granted(7));
    let off = Registers { te: false, ..BENCH };
    let answer = ask(&mut cache, &off, &bench_image(), (SOURCE, 7, false));
    assert_eq!(answer, Outcome::Granted(7));
    let frame = bench_with(&[(0x5008, 0xFEE0_0003)]);
    assert_eq!(read(&mut cache, &frame, 0x4020_1ABC), Outcome::Refused(4));
    assert_eq!(read(&mut cache, &frame, 0xFEE0_0000), Outcome::Refused(2));
    assert_eq!(cache.held(), []);
}

/// "past 1, 2 and TE", those of now.
#[test]
fn past_1_2_and_te() {
    // Two pages of 1 GiB, of which the second has FEE00000h in it.
    let image = bench_with(&[(0x3008, 0x4000_0083), (0x3018, 0x8000_0083)]);
    let mut cache = Cache::new();
    assert_eq!(
        read(&mut cache, &image, 0x4000_0000),
        Outcome::Granted(0x4000_0000)
    );
    assert_eq!(
        read(&mut cache, &image, 0xFEDF_FFFF),
        Outcome::Granted(0xBEDF_FFFF)
    );
    assert_eq!(read(&mut cache, &[], 0xFEE0_0000), Outcome::Refused(2));
    assert_eq!(
        read(&mut cache, &[], 0xFEF0_0000),
        Outcome::Granted(0xBEF0_0000)
    );
    let bad = Registers { haw: 35, ..BENCH };
    let answer = ask(&mut cache, &bad, &image, (SOURCE, 0x4000_0000, false));
    assert_eq!(answer, Outcome::Refused(1));
    let off = Registers { te: false, ..BENCH };
    let answer = ask(&mut cache, &off, &image, (SOURCE, 0x4000_1234, false));
    assert_eq!(answer, Outcome::Granted(0x4000_1234));
    let window = Window {
        start: 1,
        from: 0,
        length: 1,
    };
    assert_eq!(
        cache.memory_request(&BENCH, &[window], &image, SOURCE, 0x4000_0000, false),
        Outcome::Refused(1)
    );
    assert_eq!(cache.held().len(), 2);
}

/// "the newest where two could": a small page cached first, then the large one
/// that took its place in the tables.
#[test]
fn newest() {
    let mut cache = Cache::new();
    let small = bench_image();
    let large = bench_with(&[(0x4008, 0x7F00_0083)]);
    assert_eq!(
        read(&mut cache, &small, 0x4020_1ABC),
        Outcome::Granted(0x1234_5ABC)
    );
    // Another address of the large page, which the small one doesn't answer.
    assert_eq!(
        read(&mut cache, &large, 0x4020_3000),
        Outcome::Granted(0x7F00_3000)
    );
    assert_eq!(
        read(&mut cache, &[], 0x4020_1ABC),
        Outcome::Granted(0x7F00_1ABC)
    );
    // The other way round: the large one answers for all of its page, and no
    // small one is cached.
    let mut cache = Cache::new();
    read(&mut cache, &large, 0x4020_3000);
    assert_eq!(
        read(&mut cache, &small, 0x4020_1ABC),
        Outcome::Granted(0x7F00_1ABC)
    );
    assert_eq!(cache.held().len(), 1);
}

/// "for all or by domain as cached".
#[test]
fn invalidations() {
    let image = bench_image();
    let other = bench_with(&[(0x2108, 0xABCD01)]);
    let fill = |cache: &mut Cache| {
        read(cache, &image, 0x4020_1ABC);
        read(cache, &other, 0x4041_2345);
        assert_eq!(cache.held().len(), 2);
        assert_eq!(cache.held()[1].domain, 0xABCD);
    };
    let mut cache = Cache::new();
    fill(&mut cache);
    cache.invalidate_domain(0);
    assert_eq!(cache.held().len(), 2);
    // The domain as cached, whatever the context entry says now.
    cache.invalidate_domain(5);
    assert_eq!(cache.held().len(), 1);
    assert_eq!(cache.held()[0].page, 0x4040_0000);
    cache.invalidate_domain(0xABCD);
    assert_eq!(cache.held(), []);
    fill(&mut cache);
    cache.invalidate_all();
    assert_eq!(cache.held(), []);
}

/// 512 pages of 4 KiB from 40200000h on, RW, page n at frame 10000000h + n.
fn many() -> Vec<u8> {
    let mut image = bench_image();
    for n in 0..512 {
        set(&mut image, 0x5000 + 8 * n, 0x1000_0003 + ((n as u64) << 12));
    }
    image
}

/// "each held until invalidated or pushed out at a 65th", the oldest first.
#[test]
fn sixty_five() {
    let image = many();
    let mut cache = Cache::new();
    for n in 0..64 {
        read(&mut cache, &image, 0x4020_0000 + 0x1000 * n);
        assert_eq!(cache.held().len(), n as usize + 1);
    }
    // Using one doesn't make it newer.
    read(&mut cache, &[], 0x4020_0000);
    let before = cache.held().to_vec();
    read(&mut cache, &image, 0x4024_0000);
    assert_eq!(cache.held().len(), 64);
    assert_eq!(cache.held()[..63], before[1..]);
    assert_eq!(cache.held()[63].page, 0x4024_0000);
    // The first is out, the second still in.
    let plain = memory_request(&BENCH, &[], SOURCE, 0x4020_0000, false);
    assert_eq!(read(&mut cache, &[], 0x4020_0000), plain);
    assert_eq!(
        read(&mut cache, &[], 0x4020_1000),
        Outcome::Granted(0x1000_1000)
    );
}

/// "From an empty cache, the second engine's answer equals the plain engine's on
/// any sequence of requests, table edits and invalidations ..., provided ... each
/// edit of a word named by a cached translation is followed, before the next
/// request, by an invalidation that takes that translation out." And without
/// the proviso: "an answer from the cache must be the plain engine's for that
/// address, source and kind at the time it was cached."
#[test]
fn sequences() {
    let mut random = Random(64);
    let (mut from_cache, mut stale) = (0, 0);
    for round in 0..40 {
        let broken = round % 4 == 3;
        let mut image = many();
        // A second source, of domain 6, over the same tables.
        set(&mut image, 0x2110, 0x3001);
        set(&mut image, 0x2118, 0x601);
        let windows = whole(&image);
        let mut cache = Cache::new();
        // What each was cached with: the words it named, and the image then.
        let mut kept: Vec<(Cached, Vec<u64>, Vec<u8>)> = vec![];
        for _ in 0..1500 {
            if random.below(12) == 0 {
                // An edit: a page entry, a table entry or a context entry.
                let at = match random.below(6) {
                    0 => random.pick(&[0x4008, 0x4010, 0x4018, 0x3008]),
                    1 => random.pick(&[0x2108, 0x2118]),
                    _ => 0x5000 + 8 * random.below(24) as usize,
                };
                let old = get(&image, at);
                let new = match random.below(4) {
                    0 => old ^ 1,
                    1 => old ^ 2,
                    2 => old ^ 0x80,
                    _ => old ^ 0x4000_0000,
                };
                let new = if at < 0x3000 { old ^ 0x100 } else { new };
                set(&mut image, at, new);
                if broken {
                    continue;
                }
                let concerned = kept
                    .iter()
                    .filter(|(_, words, _)| words.contains(&(at as u64)));
                let domains: Vec<u16> = concerned.map(|(cached, _, _)| cached.domain).collect();
                if random.coin() {
                    cache.invalidate_all();
                } else {
                    for domain in domains {
                        cache.invalidate_domain(domain);
                    }
                }
                kept.retain(|(cached, _, _)| cache.held().contains(cached));
                continue;
            }
            let source = random.pick(&[SOURCE, SOURCE, 0x0311]);
            let page = random.pick(&[0x4020_0000, 0x4020_0000, 0x4040_0000]);
            let address = page + 0x1000 * random.below(24) + random.below(4096);
            let write = random.coin();
            let before = cache.held().to_vec();
            let answer = cache.memory_request(&BENCH, &windows, &image, source, address, write);
            let none = Slip::None;
            let plain = memory_request_in(none, &BENCH, &windows, &image, source, address, write);
            if !broken {
                assert_eq!(answer, plain);
            }
            let answers = |cached: &Cached| {
                cached.source == source
                    && cached.write == write
                    && (cached.page..cached.page + cached.size).contains(&address)
            };
            match before.iter().rev().find(|cached| answers(cached)) {
                Some(cached) => {
                    from_cache += 1;
                    // The plain engine's answer when it was cached.
                    let then = kept.iter().rev().find(|(other, _, _)| other == cached);
                    let (_, _, image_then) = then.unwrap();
                    let then = memory_request(&BENCH, image_then, source, address, write);
                    assert_eq!(answer, then);
                    assert_eq!(cache.held(), before);
                    stale += u32::from(answer != plain);
                }
                None => {
                    assert_eq!(answer, plain);
                    if matches!(plain, Outcome::Granted(_)) {
                        let words = named_words_memory(&BENCH, &image, source, address, write);
                        let newest = *cache.held().last().unwrap();
                        kept.push((newest, words, image.clone()));
                    }
                    kept.retain(|(cached, _, _)| cache.held().contains(cached));
                }
            }
        }
    }
    assert!(from_cache > 5_000, "{from_cache}");
    assert!(stale > 100, "{stale}");
}
