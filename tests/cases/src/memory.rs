//! Tables for memory requests.

use crate::edges;
use crate::random::Random;
use crate::world::{World, PAGE};
use reference::Registers;

/// The memory request that tables were laid for.
#[derive(Clone, Copy)]
pub struct Target {
    /// Its source.
    pub source: u16,
    /// Its address.
    pub address: u64,
    /// X, the width that its address is held to.
    pub width: u32,
}

/// Pages to lay tables in, each once, or now and then one that is in use already.
pub struct Pages {
    free: Vec<u64>,
    all: u64,
    host: Vec<u64>,
}

impl Pages {
    /// The run's pages in any order.
    pub fn of(random: &mut Random, world: &World) -> Self {
        let all = (world.length() / PAGE).max(1);
        let host = (0..all).map(|page| world.host(PAGE * page)).collect();
        let mut free: Vec<u64> = (0..all).collect();
        for n in (1..free.len()).rev() {
            free.swap(n, random.below(n as u64 + 1) as usize);
        }
        Self { free, all, host }
    }

    /// The address of one.
    pub fn next(&mut self, random: &mut Random) -> u64 {
        let used = random.below(self.all);
        let page = match self.free.pop() {
            Some(page) if !random.one_in(12) => page,
            _ => used,
        };
        self.host[page as usize]
    }
}

/// A number of levels, mostly one that is supported.
pub fn levels(random: &mut Random, registers: &Registers) -> u32 {
    let [three, four, five] = [registers.levels3, registers.levels4, registers.levels5];
    let first = random.below(3);
    let supported = (0..3).map(|n| (first + n) % 3).find(|n| match n {
        0 => three,
        1 => four,
        _ => five,
    });
    let levels = match supported {
        Some(n) if !random.one_in(24) => n,
        _ => first,
    };
    3 + levels as u32
}

/// X of document 01 for a number of levels.
pub fn width(registers: &Registers, levels: u32) -> u32 {
    u32::from(registers.mgaw).clamp(39, 57).min(12 + 9 * levels)
}

/// The words of a context entry.
pub fn context(random: &mut Random, top: u64, levels: u32) -> [u64; 2] {
    let present = u64::from(!random.one_in(24));
    let fpd = u64::from(random.one_in(3)) << 1;
    let translation_type = random.pick(&[0, 0, 0, 0, 0, 1, 1, 1, 1, 2, 2, 3]) << 2;
    let width = if random.one_in(20) {
        random.below(8)
    } else {
        u64::from(levels) - 2
    };
    // 70:67 are in no list.
    let ignored = random.below(16) << 3;
    let domain = random.below(1 << 16) << 8;
    [
        top | translation_type | fpd | present,
        domain | ignored | width,
    ]
}

/// The bits of a page entry beside its address: rights, all of them or mostly, and bits that nobody
/// looks at.
pub fn flags(random: &mut Random, all: bool) -> u64 {
    let some = random.pick(&[3, 3, 3, 3, 3, 3, 1, 1, 2, 2, 0]);
    let rights = if all { 3 } else { some };
    let ignored = random.word() & 0xFFF0_0000_0000_0F7C;
    rights | ignored
}

/// A frame for a page of 2^`shift` bytes below 2^HAW.
fn frame(random: &mut Random, registers: &Registers, shift: u32) -> u64 {
    let last = (1u64 << registers.haw.clamp(36, 52)) - 1;
    let host = match random.below(12) {
        0 => last,
        1 => random.pick(&[0xFEDF_F000, 0xFEE0_0000, 0xFEEF_F000, 0xFEF0_0000]),
        2 => 0,
        _ => random.word() & last,
    };
    host >> shift << shift
}

/// Whether a large page is laid at this level: sometimes, and seldom where it isn't supported.
fn large(random: &mut Random, registers: &Registers, level: u32) -> bool {
    let supported = match level {
        2 => registers.pages_2m,
        3 => registers.pages_1g,
        _ => false,
    };
    random.one_in(if supported { 4 } else { 60 })
}

/// Lays page entries for an address from the top table down.
fn pages(random: &mut Random, world: &mut World, pages: &mut Pages, top: u64, to: (u64, u32)) {
    let (address, levels) = to;
    let registers = world.registers;
    let all_rights = !random.one_in(3);
    let mut table = top;
    for level in (1..=levels).rev() {
        let shift = 12 + 9 * (level - 1);
        let at = table + 8 * (address >> shift & 511);
        let bits = flags(random, all_rights);
        if level == 1 || large(random, &registers, level) {
            let size = if level == 1 {
                random.below(2) << 7
            } else {
                1 << 7
            };
            let frame = frame(random, &registers, shift);
            world.lay(at, &[frame | bits | size]);
            return;
        }
        table = match random.below(40) {
            0 => frame(random, &registers, 12),
            1 => world.host(world.length() / PAGE * PAGE),
            _ => pages.next(random),
        };
        world.lay(at, &[table | bits]);
    }
}

/// Lays root, context and page entries for a request, and moves the root table to them.
pub fn lay(random: &mut Random, world: &mut World) -> Target {
    let levels = levels(random, &world.registers);
    let width = width(&world.registers, levels);
    let source = random.word() as u16;
    let address = edges::address(random, width);
    let mut free = Pages::of(random, world);
    world.registers.root = free.next(random);
    let contexts = free.next(random);
    let top = free.next(random);
    pages(random, world, &mut free, top, (address, levels));
    let words = context(random, top, levels);
    let [bus, devfn] = source.to_be_bytes().map(u64::from);
    world.lay(contexts + 16 * devfn, &words);
    let present = u64::from(!random.one_in(40));
    let root = world.registers.root + 16 * bus;
    world.lay(root, &[contexts | present, 0]);
    Target {
        source,
        address,
        width,
    }
}

/// Adds requests for what was laid, and for what lies beside it.
pub fn requests(random: &mut Random, world: &mut World, target: Target) {
    let Target {
        source,
        address,
        width,
    } = target;
    world.memory(source, address, false);
    world.memory(source, address, true);
    // The first and the last byte of the page, whatever its size.
    let offsets = random.pick(&[0xFFF, 0x1F_FFFF, 0x3FFF_FFFF]);
    world.memory(source, address & !offsets, random.coin());
    world.memory(source, address | offsets, random.coin());
    let beside = 1 << random.below(57);
    world.memory(source, address ^ beside, random.coin());
    let other = source ^ 1 << random.below(16);
    world.memory(other, address, random.coin());
    let edge = edges::address(random, width);
    world.memory(source, edge, random.coin());
}
