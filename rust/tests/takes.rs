//! A posted descriptor is drained: every vector that was posted is handed out once, from the
//! highest down, and the image is then as it was.

mod common;

use common::Random;
use galitzaf::{InterruptAnswer, InterruptRequest, Levels, Memory, Refusal};
use galitzaf::{Registers, SourceId, TakeAnswer, Unit};
use std::collections::BTreeSet;

const DESCRIPTOR: usize = 0x1000;

fn unit() -> Unit {
    Unit::new(&Registers {
        haw: 39,
        mgaw: 48,
        levels: Levels {
            four: true,
            ..Levels::NONE
        },
        posting: true,
        s: 7,
        ire: true,
        ..Registers::default()
    })
}

/// 256 entries from 0 on, each of which posts the vector of its index.
fn image() -> Vec<u8> {
    let mut image = vec![0; DESCRIPTOR + 64];
    for vector in 0..256 {
        let entry = (DESCRIPTOR as u64) << 32 | (vector as u64) << 16 | 0x8001;
        image[16 * vector..16 * vector + 8].copy_from_slice(&entry.to_le_bytes());
    }
    image
}

fn post(image: &mut [u8], vector: u8) -> bool {
    let address = 0xFEE0_0010 | u64::from(vector) << 5;
    let request = InterruptRequest::new(SourceId::from(0x0310), address, 0);
    match unit().interrupt(&mut Memory::flat(image), request) {
        InterruptAnswer::Posted(post) => post.notification.is_some(),
        other => panic!("{other:?}"),
    }
}

fn take(image: &mut [u8]) -> TakeAnswer {
    unit().take(&mut Memory::flat(image), DESCRIPTOR as u64)
}

#[test]
fn drained_after_random_posts() {
    let mut random = Random(13);
    for _ in 0..200 {
        let mut image = image();
        let before = image.clone();
        let mut posted = BTreeSet::new();
        for n in 0..1 + random.below(80) {
            let vector = random.below(256) as u8;
            // Only the first post finds ON clear.
            assert_eq!(post(&mut image, vector), n == 0);
            posted.insert(vector);
        }
        for &vector in posted.iter().rev() {
            assert_eq!(take(&mut image), TakeAnswer::Vector(vector));
        }
        assert_eq!(take(&mut image), TakeAnswer::Nothing);
        assert!(image == before);
    }
}

/// With posts between the takes: what is handed out was posted, and all of it is.
#[test]
fn drained_while_posts_go_on() {
    let mut random = Random(31);
    let mut image = image();
    let before = image.clone();
    let mut standing = BTreeSet::new();
    for _ in 0..20_000 {
        if random.below(5) < 2 {
            let vector = random.below(256) as u8;
            post(&mut image, vector);
            standing.insert(vector);
        } else {
            let highest = standing.pop_last();
            assert_eq!(take(&mut image).vector(), highest);
        }
    }
    while let Some(vector) = standing.pop_last() {
        assert_eq!(take(&mut image), TakeAnswer::Vector(vector));
    }
    assert_eq!(take(&mut image), TakeAnswer::Nothing);
    assert!(image == before);
}

#[test]
fn refused() {
    let mut image = image();
    post(&mut image, 0x31);
    let before = image.clone();
    let mut memory = Memory::flat(image);
    let bad = Unit::new(&Registers::default());
    for descriptor in [0x1000, 0x1001] {
        let refused = TakeAnswer::Refused(Refusal::BadRegisters);
        assert_eq!(bad.take(&mut memory, descriptor), refused);
    }
    for descriptor in [0x1001, 0x1020, 0x1040, 1 << 63, 0u64.wrapping_sub(64)] {
        let refused = TakeAnswer::Refused(Refusal::BadDescriptor);
        assert_eq!(unit().take(&mut memory, descriptor), refused);
    }
    assert!(memory.into_run() == before);
}
