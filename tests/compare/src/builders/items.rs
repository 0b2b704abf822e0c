//! Items, mostly good ones: near each other and near what is mapped, now and then at an edge or past it.

use cases::Random;
use reference::{Item, Registers};
use std::collections::BTreeMap;

pub const KIB_4: u64 = 0x1000;
pub const MIB_2: u64 = 0x20_0000;

/// What is mapped, by place: size, frame and rights, 1 read and 2 write.
pub type Mapped = BTreeMap<u64, (u64, u64, u64)>;

/// Where items are made.
pub struct Around<'a> {
    pub registers: &'a Registers,
    /// X of the context.
    pub x: u8,
}

impl Around<'_> {
    fn size(&self, random: &mut Random) -> u64 {
        match random.below(40) {
            0 => random.pick(&[0, 1, 0x1001, 0x2000, 1 << 30, 1 << 63, u64::MAX]),
            1..=14 => MIB_2,
            _ => KIB_4,
        }
    }

    fn place(&self, random: &mut Random, size: u64) -> u64 {
        let top = 1u64 << self.x;
        let at = match random.below(48) {
            0 => random.pick(&[top, top + MIB_2, 1 << 63, 0u64.wrapping_sub(MIB_2)]),
            1 => random.pick(&[0xFEE0_0000, 0xFEE8_0000, 0xFEEF_F000]),
            2 => random.pick(&[0xFEDF_F000, 0xFEF0_0000, 0xFEC0_0000, 0xFF00_0000]),
            3 => random.pick(&[0x800, 0x1000, 0x10_0000]) | random.below(8) << 21,
            4 => top - size.clamp(KIB_4, MIB_2),
            5..=12 => random.below(1 << (self.x - 12)) << 12,
            13..=30 => 0x4020_0000 + (random.below(16) << 12),
            _ => (random.below(4) << 30) + (random.below(4) << 21),
        };
        if size == MIB_2 && !random.one_in(16) {
            return at / MIB_2 * MIB_2;
        }
        at
    }

    fn frame(&self, random: &mut Random, size: u64) -> u64 {
        let width = 1u64 << self.registers.haw;
        let frame = match random.below(40) {
            0 => random.pick(&[width, width + size.min(MIB_2), 1 << 63]),
            1 => random.pick(&[0xFEE0_0000, 0xFEE1_2000, 0xFEEF_F000]),
            2 => random.pick(&[0xFEDF_F000, 0xFEF0_0000, 0xFEC0_0000, 0xFF00_0000]),
            3 => random.pick(&[0x800, 0x1000]) | random.below(1 << 10) << 21,
            4 => width - size.clamp(KIB_4, MIB_2),
            _ => random.below(1 << (self.registers.haw - 21)) << 21 | random.below(512) << 12,
        };
        if size == MIB_2 && !random.one_in(16) {
            return frame / MIB_2 * MIB_2;
        }
        frame
    }

    /// One, given what was mapped by those before it if all were good.
    pub fn item(&self, random: &mut Random, mapped: &Mapped) -> Item {
        let known = random.below(mapped.len().max(1) as u64) as usize;
        let known = mapped.iter().nth(known);
        match (random.below(16), known) {
            (0..=4, Some((&place, &(size, ..)))) => Item::Unmap { place, size },
            (5, Some((&place, &(size, ..)))) => {
                let other = if size == KIB_4 { MIB_2 } else { KIB_4 };
                Item::Unmap {
                    place: place / other * other,
                    size: other,
                }
            }
            (6..=7, _) => {
                let sizes = [KIB_4, KIB_4, MIB_2, MIB_2, 0, 0x2000, 1 << 30, u64::MAX];
                let size = random.pick(&sizes);
                let past = [1u64 << self.x, 1 << 63, 0xFEE0_0000];
                let place = match random.below(4) {
                    0 => random.pick(&past),
                    1 => 0x4020_0800,
                    _ => self.place(random, size),
                };
                Item::Unmap { place, size }
            }
            _ => {
                let size = self.size(random);
                let rights = if random.one_in(24) {
                    0
                } else {
                    1 + random.below(3)
                };
                Item::Map {
                    place: self.place(random, size),
                    size,
                    frame: self.frame(random, size),
                    read: rights & 1 == 1,
                    write: rights & 2 == 2,
                }
            }
        }
    }
}

/// What an item leaves mapped, if it is good.
pub fn take(mapped: &mut Mapped, item: &Item) {
    match *item {
        Item::Map {
            place,
            size,
            frame,
            read,
            write,
        } => {
            let rights = u64::from(read) + 2 * u64::from(write);
            mapped.insert(place, (size, frame, rights));
        }
        Item::Unmap { place, .. } => {
            mapped.remove(&place);
        }
    }
}

/// The four numbers of an item. What isn't looked at is anything.
pub fn numbers(random: &mut Random, item: &Item) -> [u64; 4] {
    let high = if random.coin() { 0 } else { random.word() << 3 };
    match *item {
        Item::Map {
            place,
            size,
            frame,
            read,
            write,
        } => [
            high | u64::from(read) | u64::from(write) << 1,
            place,
            size,
            frame,
        ],
        Item::Unmap { place, size } => [high | 4 | random.below(4), place, size, random.word()],
    }
}
