//! Tables for interrupts: remapping entries and posted descriptors.

use crate::message;
use crate::random::Random;
use crate::world::World;
use reference::Registers;

/// An interrupt that an entry was laid for.
#[derive(Clone, Copy)]
pub struct Target {
    /// Its source.
    pub source: u16,
    /// Its index.
    pub index: u64,
}

/// A destination in the place it has in entries and descriptors, bits 63:32.
fn destination(random: &mut Random, registers: &Registers) -> u64 {
    if registers.eime {
        random.below(1 << 32) << 32
    } else {
        random.below(1 << 8) << 40
    }
}

/// SVT, SQ and SID, bits 83:64: mostly such that the source passes or nearly passes.
fn source_check(random: &mut Random, source: u16) -> u64 {
    let [bus, _] = source.to_be_bytes();
    let range = |from: u8, to: u8| u16::from_be_bytes([from, to]);
    let svt = random.pick(&[0, 0, 0, 0, 1, 1, 1, 1, 1, 2, 2, 2, 2, 3]);
    let sid = match (svt, random.below(8)) {
        (_, 0) => random.word() as u16,
        (1, 1) => source ^ 1 << random.below(16),
        (1, 2..=4) => source ^ random.below(8) as u16,
        (2, 1) => range(bus, 255),
        (2, 2) => range(0, bus),
        (2, 3) => range(bus.wrapping_add(1), 255),
        (2, 4) => range(0, bus.wrapping_sub(1)),
        (2, 5) => range(bus.saturating_sub(3), bus.saturating_add(2)),
        (2, _) => range(bus, bus),
        _ => source,
    };
    svt << 18 | random.below(4) << 16 | u64::from(sid)
}

/// The words of a remapped entry.
fn remapped(random: &mut Random, registers: &Registers) -> u64 {
    let delivery = random.pick(&[0, 1, 2, 4, 5, 7, 0, 1, 2, 4, 5, 7, 3, 6]);
    destination(random, registers) | delivery << 5 | random.below(8) << 2
}

/// The words of an entry, posted to a descriptor or remapped.
fn entry(random: &mut Random, registers: &Registers, source: u16, descriptor: u64) -> [u64; 2] {
    let present = u64::from(!random.one_in(20));
    let fpd = u64::from(random.one_in(3)) << 1;
    let vector = random.below(256) << 16;
    // 11:8 are in no list.
    let ignored = random.below(16) << 8;
    let low = vector | ignored | fpd | present;
    let high = source_check(random, source);
    let posted = if registers.posting {
        random.coin()
    } else {
        random.one_in(12)
    };
    if !posted {
        return [low | remapped(random, registers), high];
    }
    // URG.
    let urgent = random.below(2) << 14;
    let address = (descriptor & 0xFFFF_FFC0) << 32;
    [
        low | address | urgent | 1 << 15,
        high | descriptor >> 32 << 32,
    ]
}

/// The words of a descriptor: some requests, and ON and SN in each state.
fn descriptor(random: &mut Random, registers: &Registers) -> [u64; 8] {
    let requests = [(); 4].map(|()| random.word() & random.word());
    let on_sn = random.pick(&[0, 0, 0, 1, 2, 3]);
    let vector = random.below(256) << 16;
    let control = destination(random, registers) | vector | on_sn;
    let [a, b, c, d] = requests;
    [a, b, c, d, control, 0, 0, 0]
}

/// Where a descriptor is put, and whether its words are laid there: anywhere, at the image's end or
/// past it, over its own entry, or over something that was laid before and is left as it is.
fn descriptor_address(random: &mut Random, world: &World, entry: u64) -> (u64, bool) {
    let length = world.length();
    let end = 1u64 << world.registers.haw;
    let (address, laid) = match random.below(16) {
        0 | 1 => (entry, true),
        2..=4 if !world.entries.is_empty() => (random.pick(&world.entries).address, false),
        5 => (world.host(length.saturating_sub(64)), true),
        6 => (world.host(length), true),
        7 => (end - 64 * random.below(2), true),
        8 if random.one_in(4) => (random.word(), true),
        _ => (world.host(random.below(length)), !random.one_in(16)),
    };
    (address & !63, laid)
}

/// Lays an entry for an index, and a descriptor that it may be posted to.
fn lay_entry(random: &mut Random, world: &mut World, target: Target) {
    let registers = world.registers;
    let at = registers.interrupt_table + 16 * target.index;
    let (to, laid) = descriptor_address(random, world, at);
    if laid {
        let words = descriptor(random, &registers);
        world.lay(to, &words);
    }
    let words = entry(random, &registers, target.source, to);
    world.lay(at, &words);
}

/// Bytes from the interrupt table on to the end of its window.
fn held(world: &World) -> u64 {
    let table = world.registers.interrupt_table;
    let ends = world.windows.iter().filter(|w| w.start <= table);
    let end = ends.map(|w| w.start.saturating_add(w.length)).next_back();
    end.unwrap_or(0).saturating_sub(table)
}

/// Lays one to three entries, and where an index is past 16 bits one at its low 16 bits too.
pub fn lay(random: &mut Random, world: &mut World) -> Vec<Target> {
    let registers = world.registers;
    let held = held(world) / 16;
    let mut targets = Vec::new();
    for _ in 0..=random.below(3) {
        let source = random.word() as u16;
        let index = message::index(random, registers.s, held);
        let target = Target { source, index };
        lay_entry(random, world, target);
        if index > 65_535 {
            let index = index % 65_536;
            lay_entry(random, world, Target { source, index });
        }
        targets.push(target);
    }
    targets
}

/// Adds interrupts for what was laid, some of them again, and some from another source.
pub fn requests(random: &mut Random, world: &mut World, targets: &[Target]) {
    for _ in 0..2 {
        for target in targets {
            let (address, data) = message::any(random, target.index);
            let other = target.source ^ 1 << random.below(16);
            let source = if random.one_in(5) {
                other
            } else {
                target.source
            };
            world.interrupt(source, address, data);
        }
    }
    let beside = random.below(message::LAST_INDEX + 1);
    let (address, data) = message::any(random, beside);
    world.interrupt(random.word() as u16, address, data);
}
