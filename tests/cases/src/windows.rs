//! Windows, good and bad.

use crate::random::Random;
use crate::world::{World, PAGE};
use reference::{Registers, Window};

/// Some pages in one to four windows, by start and length: sorted, touching or with holes between them,
/// low or high.
pub fn layout(random: &mut Random, registers: &Registers, pages: u64) -> Vec<(u64, u64)> {
    let count = 1 + random.below(4);
    let mut left = pages;
    let mut start = first(random, registers, pages);
    let mut shown = Vec::new();
    for n in 0..count {
        let most = left - (count - 1 - n);
        let taken = if n + 1 == count {
            most
        } else {
            1 + random.below(most)
        };
        shown.push((start, PAGE * taken));
        left -= taken;
        start += PAGE * taken + gap(random, registers, start + PAGE * taken);
    }
    shown
}

/// Where the first window starts: mostly low.
fn first(random: &mut Random, registers: &Registers, pages: u64) -> u64 {
    let end = 1 << registers.haw;
    match random.below(12) {
        0 => end - PAGE * pages,
        1 => end - PAGE * (1 + random.below(pages)),
        2 => 0xFEE0_0000 - PAGE * random.below(pages),
        3 => PAGE * random.below(end / PAGE / 2),
        4..=7 => PAGE * random.below(16),
        _ => 0,
    }
}

/// What lies between two windows: nothing, some pages, or all up to a higher address.
fn gap(random: &mut Random, registers: &Registers, end: u64) -> u64 {
    let haw = 1 << registers.haw;
    let up_to = |to: u64| to.saturating_sub(end);
    match random.below(10) {
        0..=3 => 0,
        4..=6 => PAGE * random.below(4),
        7 => up_to(0x1_0000_0000),
        8 => up_to(haw - PAGE * (1 + random.below(4))),
        _ => up_to(PAGE * random.below(haw / PAGE)),
    }
}

/// A page for the interrupt table, mostly one that a window has.
pub fn table(random: &mut Random, world: &World) -> u64 {
    let page = world.host(PAGE * random.below(world.length() / PAGE));
    let haw = 1 << world.registers.haw;
    match random.below(24) {
        0 => PAGE * random.below(haw / PAGE),
        _ => page.min(haw - PAGE),
    }
}

/// Descriptors to take from: those that were laid, others, and the last below 2^64.
pub fn takes(random: &mut Random, world: &mut World) {
    let laid: Vec<u64> = world
        .entries
        .iter()
        .filter(|entry| entry.bytes == 64)
        .map(|entry| entry.address)
        .collect();
    for _ in 0..3 {
        let any = world.host(random.below(world.length() + PAGE));
        let near = if laid.is_empty() {
            any
        } else {
            random.pick(&laid)
        };
        let descriptor = match random.below(8) {
            0 => any & !63,
            1 => near + random.pick(&[1, 8, 32, 63]),
            2 => random.pick(&[0u64.wrapping_sub(64), 0u64.wrapping_sub(128), 1 << 63]),
            _ => near,
        };
        world.takes.push(descriptor);
    }
}

/// Takes windows away, and ends some of them early: with an entry, within one, anywhere. Adds one at the
/// top of all addresses where there is room.
pub fn cut(random: &mut Random, world: &mut World) {
    if random.one_in(4) {
        let gone = random.below(world.windows.len() as u64) as usize;
        world.windows.remove(gone);
    }
    if random.one_in(60) {
        world.windows.clear();
    }
    for n in 0..world.windows.len() {
        if random.one_in(2) {
            shorten(random, world, n);
        }
    }
    if world.windows.len() < 4 && random.one_in(8) {
        top(random, world);
    }
}

fn shorten(random: &mut Random, world: &mut World, n: usize) {
    let Window { start, length, .. } = world.windows[n];
    let within = world.entries.iter().filter(|entry| {
        let (from, to) = (u128::from(entry.address), u128::from(entry.end()));
        u128::from(start) <= from && to <= u128::from(start) + u128::from(length)
    });
    let within: Vec<_> = within.copied().collect();
    let end = match random.below(6) {
        0 => length - random.below(length.min(70)),
        1 => 1 + random.below(length),
        _ if within.is_empty() => length,
        // The last of them, or any.
        kind => {
            let last = within.iter().max_by_key(|entry| entry.end()).copied();
            let any = random.pick(&within);
            let entry = if random.one_in(3) {
                any
            } else {
                last.unwrap_or(any)
            };
            let end = entry.end() - start;
            match kind {
                2 | 3 => end,
                4 => end - 1,
                _ => end - entry.bytes + random.below(entry.bytes),
            }
        }
    };
    world.windows[n].length = end.clamp(1, length);
}

/// A window that ends with the last address, or near it. Its first bytes are a descriptor's.
fn top(random: &mut Random, world: &mut World) {
    let pages = 1 + random.below(2);
    let length = PAGE * pages - random.pick(&[0, 0, 0, 1, 64, 65]);
    let from = world.length();
    let used = world.image.len() + length as usize;
    world.image.resize(used, 0);
    for byte in &mut world.image[from as usize..] {
        *byte = if random.one_in(16) {
            random.word() as u8
        } else {
            0
        };
    }
    world.windows.push(Window {
        start: 0u64.wrapping_sub(PAGE * pages),
        from,
        length,
    });
}

/// Lays the windows' parts anew into the run: in another order, with other bytes before, between and
/// after them, or with none.
pub fn scatter(random: &mut Random, world: &mut World) {
    let old = std::mem::take(&mut world.image);
    let mut order: Vec<usize> = (0..world.windows.len()).collect();
    if random.coin() {
        for n in (1..order.len()).rev() {
            order.swap(n, random.below(n as u64 + 1) as usize);
        }
    }
    let between = random.coin();
    let mut other = |run: &mut Vec<u8>| {
        let bytes = if between { random.below(100) } else { 0 };
        run.extend((0..bytes).map(|_| random.word() as u8));
    };
    for n in order {
        other(&mut world.image);
        let window = &mut world.windows[n];
        let from = window.from as usize;
        window.from = world.image.len() as u64;
        let part = &old[from..from + window.length as usize];
        world.image.extend_from_slice(part);
    }
    other(&mut world.image);
}

/// Makes the windows bad in one way, or nearly.
pub fn spoil(random: &mut Random, world: &mut World) {
    let run = world.length();
    let windows = &mut world.windows;
    let count = windows.len();
    let one = random.below(count.max(1) as u64) as usize;
    let other = random.below(count.max(1) as u64) as usize;
    match (random.below(12), count) {
        (0, _) => five(random, windows),
        (_, 0) => windows.push(odd(random, run)),
        (1, _) => windows[one].start += random.pick(&[1, 8, 64, 2048, 4095]),
        (2, _) => windows[one].length = 0,
        (which @ 3..=5, _) => past_run(random, &mut windows[one], run, which),
        (6, _) => past_all(random, &mut windows[count - 1]),
        (7, _) => windows.swap(one, other),
        // Over another in host addresses: with the same start, or reaching into the next.
        (8, _) => windows[one].start = windows[other].start,
        (9, 2..) => {
            let n = random.below(count as u64 - 1) as usize;
            let apart = windows[n + 1].start - windows[n].start;
            let more = random.pick(&[0, 1, 2, 8, 4096]);
            windows[n].length = apart.saturating_add(more).min(run);
        }
        // Over another in the run: wholly, by some bytes, by one.
        (10, _) => windows[one].from = windows[other].from,
        _ => {
            let end = windows[other].from + windows[other].length;
            windows[one].from = end.saturating_sub(random.pick(&[0, 1, 1, 2, 8]));
        }
    }
}

/// Moves a window's end past the run: by one, by much, and so far that a sum wraps.
fn past_run(random: &mut Random, window: &mut Window, run: u64, which: u64) {
    match which {
        3 => {
            let past = random.pick(&[1, 8, 4096, 1 << 40, u64::MAX - run]);
            window.length = (run - window.from).saturating_add(past);
        }
        4 => window.from = random.pick(&[run, run - window.length + 1, u64::MAX, 1 << 63]),
        _ => window.from = random.below(run).wrapping_sub(window.length),
    }
}

/// Moves a window to the last addresses, so that it may end past 2^64.
fn past_all(random: &mut Random, window: &mut Window) {
    let pages = window.length.div_ceil(PAGE);
    let less = random.below(pages) * PAGE;
    window.start = 0u64.wrapping_sub(PAGE).saturating_sub(less);
}

/// Any window.
fn odd(random: &mut Random, run: u64) -> Window {
    Window {
        start: random.pick(&[0, 1, PAGE, u64::MAX]),
        from: random.below(run + 2),
        length: random.below(3),
    }
}

/// Makes five of them, each good by itself where there are enough bytes, or more.
fn five(random: &mut Random, windows: &mut Vec<Window>) {
    let count = 5 + random.below(3) as usize;
    while windows.len() < count {
        let long = windows.iter().position(|w| w.length > PAGE);
        if let Some(n) = long {
            let whole = windows[n];
            windows[n].length = PAGE;
            windows.insert(
                n + 1,
                Window {
                    start: whole.start + PAGE,
                    from: whole.from + PAGE,
                    length: whole.length - PAGE,
                },
            );
        } else {
            let start = windows.last().map_or(0, |w| w.start.wrapping_add(PAGE));
            windows.push(Window {
                start,
                from: 0,
                length: 1,
            });
        }
    }
}
