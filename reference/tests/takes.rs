//! Ask 13: "a take clears ON either way and hands out the highest request bit,
//! clearing it, or says there is none; a descriptor not 64-aligned or not whole
//! in the image is house number 5, checked after 1, image as it came."

mod common;

use common::{bench_image, bench_with, get, set, Random, BENCH, SOURCE};
use reference::{interrupt_request, take, take_in, Outcome, Registers, Take, Window};

/// The bench's descriptor.
const DESCRIPTOR: u64 = 0x6400;

fn taken(image: &mut [u8], descriptor: u64) -> Take {
    take(&BENCH, image, descriptor)
}

/// Case 12's post, taken; and again.
#[test]
fn bench() {
    let mut image = bench_image();
    let ring = |image: &mut Vec<u8>| match interrupt_request(&BENCH, image, SOURCE, 0xFEE0_0090, 0)
    {
        Outcome::Posted { notice, .. } => notice.is_some(),
        other => panic!("{other:x?}"),
    };
    assert!(ring(&mut image));
    assert!(!ring(&mut image));
    assert_eq!(taken(&mut image, DESCRIPTOR), Take::Vector(0x31));
    assert!(image == bench_image());
    assert_eq!(taken(&mut image, DESCRIPTOR), Take::None);
    assert!(image == bench_image());
    // ON was cleared, so the next post has a notice again.
    assert!(ring(&mut image));
}

/// "clears ON either way", and all else stays: NV, NDST, SN, and what is
/// reserved.
#[test]
fn on_and_all_else() {
    for on in [0, 1] {
        for requests in [0, 1 << 0x31] {
            let control = 0xFEDC_BA98_7654_3210u64 & !1;
            let mut image = bench_with(&[
                (0x6400, requests),
                (0x6420, control | on),
                (0x6428, u64::MAX),
                (0x6438, 0x0123_4567_89AB_CDEF),
                (0x63F8, u64::MAX),
                (0x6440, u64::MAX),
            ]);
            let mut expected = image.clone();
            set(&mut expected, 0x6400, 0);
            set(&mut expected, 0x6420, control);
            let answer = taken(&mut image, DESCRIPTOR);
            let vector = if requests == 0 {
                Take::None
            } else {
                Take::Vector(0x31)
            };
            assert_eq!(answer, vector);
            assert!(image == expected);
        }
    }
}

/// "hands out the highest request bit": each alone, and each below all lower
/// ones.
#[test]
fn highest() {
    for vector in 0..256usize {
        for lower in [false, true] {
            let mut image = bench_image();
            let mut left = bench_image();
            for bit in 0..=vector {
                if bit == vector || lower {
                    image[0x6400 + bit / 8] |= 1 << (bit % 8);
                }
                if bit != vector && lower {
                    left[0x6400 + bit / 8] |= 1 << (bit % 8);
                }
            }
            assert_eq!(taken(&mut image, DESCRIPTOR), Take::Vector(vector as u8));
            assert!(image == left, "{vector}");
        }
    }
}

/// "within 256 unrefused takes there if nothing is posted meanwhile": all 256,
/// from the highest down, and then none.
#[test]
fn all_256() {
    let mut image = bench_image();
    image[0x6400..0x6420].fill(0xFF);
    image[0x6420] = 1;
    for vector in (0..=255).rev() {
        assert_eq!(taken(&mut image, DESCRIPTOR), Take::Vector(vector));
    }
    assert_eq!(taken(&mut image, DESCRIPTOR), Take::None);
    assert!(image == bench_image());
}

/// Number 5, after 1, "image as it came".
#[test]
fn refusals() {
    let mut image = bench_with(&[(0x6400, u64::MAX), (0x6420, 1)]);
    let before = image.clone();
    // Not 64-aligned.
    for offset in [1, 2, 4, 8, 16, 32, 63] {
        let answer = taken(&mut image, DESCRIPTOR + offset);
        assert_eq!(answer, Take::Refused(5));
    }
    // Not whole in the image.
    for descriptor in [0x8000, 0x8040, 1 << 39, 1 << 63, 0u64.wrapping_sub(64)] {
        assert_eq!(taken(&mut image, descriptor), Take::Refused(5));
    }
    assert_eq!(taken(&mut image[..0x643F], DESCRIPTOR), Take::Refused(5));
    assert_eq!(taken(&mut image[..0], 0), Take::Refused(5));
    assert!(image == before);
    assert_eq!(taken(&mut image[..0x7FFF], 0x7FC0), Take::Refused(5));
    assert_eq!(taken(&mut image, 0x7FC0), Take::None);
    // 1 first: bad registers.
    let bad = Registers { s: 16, ..BENCH };
    for descriptor in [DESCRIPTOR, DESCRIPTOR + 1, 1 << 39] {
        assert_eq!(take(&bad, &mut image, descriptor), Take::Refused(1));
    }
    assert!(image == before);
}

/// A take asks neither for TE, IRE nor posting, nor for the reserved bits of a
/// descriptor.
#[test]
fn not_looked_at() {
    let registers = Registers {
        te: false,
        ire: false,
        posting: false,
        haw: 36,
        ..BENCH
    };
    let mut run = vec![0xFF; 0x1000];
    let answer = take(&registers, &mut run, 0x40);
    assert_eq!(answer, Take::Vector(255));
    let mut expected = vec![0xFF; 0x1000];
    expected[0x5F] = 0x7F;
    expected[0x60] = 0xFE;
    assert!(run == expected);
}

/// Ask 9's windows: a take is at a host address, wherever the window starts; 5
/// where its window ends within the 64 bytes; bad windows are 1, before 5.
#[test]
fn over_windows() {
    let bases = [0, 0x1000, 0xFEE0_0000, 1 << 52, 0u64.wrapping_sub(0x1000)];
    for start in bases {
        let window = |length| Window {
            start,
            from: 0x20,
            length,
        };
        let mut run = vec![0xFF; 0x1020];
        let mut expected = run.clone();
        for (length, descriptor) in [(0x7F, start + 0x40), (0x1000, start + 0x20)] {
            let answer = take_in(&BENCH, &[window(length)], &mut run, descriptor);
            assert_eq!(answer, Take::Refused(5));
        }
        for descriptor in [start + 0x40, start + 0x41] {
            let answer = take_in(&BENCH, &[window(0x1001)], &mut run, descriptor);
            assert_eq!(answer, Take::Refused(1));
        }
        assert!(run == expected);
        let answer = take_in(&BENCH, &[window(0x80)], &mut run, start + 0x40);
        assert_eq!(answer, Take::Vector(255));
        expected[0x7F] = 0x7F;
        expected[0x80] = 0xFE;
        assert!(run == expected);
    }
    assert_eq!(take_in(&BENCH, &[], &mut [0; 64], 0), Take::Refused(5));
}

/// A bench whose interrupt entries n = 0 to 15 post to one of two descriptors,
/// 6400h and 6500h, with vectors and URG as chosen.
fn with_entries(random: &mut Random) -> Vec<u8> {
    let mut image = bench_image();
    for n in 0..16 {
        let to = random.pick(&[0x6400, 0x6400, 0x6500]);
        let vector = random.pick(&[0, 1, 0x7F, 0x80, 0xFE, 0xFF, random_byte(n)]);
        let urgent = random.below(2) << 14;
        set(
            &mut image,
            0x6000 + 16 * n as usize,
            to << 32 | vector << 16 | urgent | 0x8001,
        );
        set(&mut image, 0x6008 + 16 * n as usize, 0);
    }
    for descriptor in [0x6400, 0x6500] {
        let control = 0x0000_0700_00F2_0000 | random.below(4);
        set(&mut image, descriptor + 32, control);
        for n in 0..4 {
            let requests = random.word() & random.word() & random.word();
            set(&mut image, descriptor + 8 * n, requests);
        }
    }
    image
}

/// Some byte for each n.
fn random_byte(n: u64) -> u64 {
    n * 37 % 256
}

/// Posts through entry n; the descriptor, the vector, and whether there was a
/// notice.
fn post(image: &mut [u8], n: u64) -> (u64, u64, bool) {
    let entry = get(image, 0x6000 + 16 * n as usize);
    match interrupt_request(&BENCH, image, SOURCE, 0xFEE0_0010 | n << 5, 0) {
        Outcome::Posted { notice, .. } => (entry >> 32, entry >> 16 & 0xFF, notice.is_some()),
        other => panic!("{other:x?}"),
    }
}

fn stands(image: &[u8], descriptor: u64, vector: u64) -> bool {
    let at = descriptor as usize + vector as usize / 8;
    image[at] >> (vector % 8) & 1 == 1
}

/// "with posts meanwhile, within as many such takes as there are standing or
/// newly posted bits at or above it, each post counted."
#[test]
fn bound_with_posts_meanwhile() {
    let mut random = Random(13);
    let mut longest = 0;
    for _ in 0..300 {
        let mut image = with_entries(&mut random);
        let descriptor = random.pick(&[0x6400, 0x6500]);
        let vector = random.below(256);
        if !stands(&image, descriptor, vector) {
            continue;
        }
        let above = |image: &[u8]| {
            (vector..256)
                .filter(|&v| stands(image, descriptor, v))
                .count()
        };
        let mut bound = above(&image);
        let mut takes = 0;
        loop {
            for _ in 0..random.below(2) {
                let (to, posted, _) = post(&mut image, random.below(16));
                if to == descriptor && posted >= vector {
                    bound += 1;
                }
            }
            if takes > 2000 {
                // Posted again and again; the bound grew with it.
                assert!(bound >= takes);
                break;
            }
            let answer = taken(&mut image, descriptor);
            takes += 1;
            assert!(takes <= bound, "{takes} takes, bound {bound}");
            if answer == Take::Vector(vector as u8) {
                break;
            }
        }
        longest = longest.max(takes);
    }
    assert!(longest > 20, "{longest}");
}

/// "Two posts under the same registers, no write between them, leave the same
/// image in either order and the same number of notices".
#[test]
fn two_posts_in_either_order() {
    let mut random = Random(31);
    let mut notices = [0; 3];
    for _ in 0..2000 {
        let image = with_entries(&mut random);
        let (one, other) = (random.below(16), random.below(16));
        let mut first = image.clone();
        let mut second = image.clone();
        let here = u8::from(post(&mut first, one).2) + u8::from(post(&mut first, other).2);
        let there = u8::from(post(&mut second, other).2) + u8::from(post(&mut second, one).2);
        assert_eq!(here, there);
        assert!(first == second);
        notices[usize::from(here)] += 1;
    }
    assert!(notices.iter().all(|&count| count > 100), "{notices:?}");
}
