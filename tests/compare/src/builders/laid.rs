//! Registers, memory and a region. Host pages from a base on: the root table, a context table, the interrupt table, a page of
//! descriptors, the region, and two more.

use super::items::{take, Mapped, KIB_4, MIB_2};
use super::spoil::Spoil;
use cases::Random;
use reference::{build, Build, Item, Region, Registers, Window};

/// The region's first page.
const FIRST: u64 = 4;

/// Pages behind the region.
const BEHIND: u64 = 2;

/// What a run begins with.
pub struct Laid {
    pub registers: Registers,
    pub windows: Vec<Window>,
    pub run: Vec<u8>,
    pub source: u16,
    pub region: Region,
    /// Bytes of copy and marks.
    pub copy: usize,
    pub marks: usize,
    /// Of the context.
    pub levels: u64,
    pub x: u8,
    /// What is mapped already.
    pub mapped: Mapped,
}

/// Host memory as one piece.
struct Host {
    base: u64,
    bytes: Vec<u8>,
}

impl Host {
    fn page(&self, n: u64) -> u64 {
        self.base + KIB_4 * n
    }

    fn set(&mut self, at: u64, word: u64) {
        let at = (at - self.base) as usize;
        self.bytes[at..at + 8].copy_from_slice(&word.to_le_bytes());
    }

    fn word(&self, at: u64) -> u64 {
        let at = (at - self.base) as usize;
        let bytes = self.bytes[at..at + 8].try_into();
        u64::from_le_bytes(bytes.unwrap_or_default())
    }

    fn window(&self) -> Window {
        Window {
            start: self.base,
            from: 0,
            length: self.bytes.len() as u64,
        }
    }
}

fn registers(random: &mut Random, levels: u64) -> Registers {
    let mut registers = cases::bench::REGISTERS;
    registers.haw = random.pick(&[36, 39, 39, 46, 52]);
    registers.mgaw = random.pick(&[39, 40, 48, 48, 57]);
    registers.levels3 = levels == 3 || random.coin();
    registers.levels4 = levels == 4 || random.coin();
    registers.levels5 = levels == 5 || random.coin();
    registers.pages_2m = !random.one_in(5);
    registers.pages_1g = random.coin();
    registers.posting = random.coin();
    registers.s = random.below(8) as u8;
    registers.ire = random.coin();
    registers
}

/// Bytes of a free page.
fn free(random: &mut Random, page: &mut [u8]) {
    match random.below(3) {
        0 => page.fill(0),
        1 => page.fill(random.below(256) as u8),
        _ => {
            for word in page.chunks_exact_mut(8) {
                word.copy_from_slice(&random.word().to_le_bytes());
            }
        }
    }
}

/// An interrupt entry for posting, to a descriptor.
fn posting(descriptor: u64, low: u64) -> [u64; 2] {
    [
        (descriptor & 0xFFFF_FFC0) << 32 | 0x31_0000 | low,
        descriptor >> 32 << 32,
    ]
}

impl Laid {
    /// One with something wrong, or nothing.
    pub fn of(random: &mut Random, spoil: Option<Spoil>) -> Self {
        let levels = 3 + random.below(3);
        let mut registers = registers(random, levels);
        // Tables to spoil take as many pages as there are levels.
        let least = if spoil.is_some() { levels } else { 1 };
        let pages = least + random.below(13);
        let all = FIRST + pages + BEHIND;
        let width = 1u64 << registers.haw;
        let base = match spoil {
            Some(Spoil::PastTheWidth) => width - KIB_4 * (FIRST + pages - 1),
            None if random.one_in(4) => width - KIB_4 * (FIRST + pages),
            _ if random.coin() => random.below(1 << 20) << 12,
            _ => 0,
        };
        let mut host = Host {
            base,
            bytes: vec![0; (KIB_4 * all) as usize],
        };
        for n in (FIRST..all).map(|n| (KIB_4 * n) as usize) {
            free(random, &mut host.bytes[n..n + KIB_4 as usize]);
        }
        let below = pages - u64::from(spoil == Some(Spoil::PastTheWidth));
        let top = FIRST + random.below(below);
        let first = (KIB_4 * top) as usize;
        host.bytes[first..first + KIB_4 as usize].fill(0);
        registers.root = host.page(0);
        registers.interrupt_table = host.page(2);
        let source = random.word() as u16;
        let x = registers.mgaw.min(12 + 9 * levels as u8);
        let mut laid = Self {
            registers,
            windows: Vec::new(),
            run: Vec::new(),
            source,
            region: Region {
                start: host.page(FIRST),
                length: KIB_4 * pages,
            },
            copy: (KIB_4 * pages) as usize,
            marks: pages as usize,
            levels,
            x,
            mapped: Mapped::new(),
        };
        laid.entries(random, &mut host, top);
        if let Some(spoil) = spoil {
            // Past 2^HAW nothing can be built.
            if spoil != Spoil::PastTheWidth {
                laid.tables(&mut host);
            }
            laid.spoil(random, &mut host, spoil);
        }
        laid.cut(random, &host, spoil);
        laid
    }

    fn root_entry(&self) -> u64 {
        self.registers.root + 16 * u64::from(self.source >> 8)
    }

    fn context_entry(&self, host: &Host) -> u64 {
        host.page(1) + 16 * u64::from(self.source & 0xFF)
    }

    /// Root, context and interrupt entries.
    fn entries(&mut self, random: &mut Random, host: &mut Host, top: u64) {
        for _ in 0..random.below(6) {
            let absent = host.page(FIRST + random.below(3)) | random.below(2048) << 1;
            host.set(self.registers.root + 16 * random.below(256), absent);
        }
        host.set(self.root_entry(), host.page(1) | 1);
        let context = self.context_entry(host);
        let low = host.page(top) | random.below(2) << 2 | random.below(2) << 1 | 1;
        host.set(context, low);
        host.set(context + 8, random.below(1 << 16) << 8 | (self.levels - 2));
        for _ in 0..random.below(6) {
            let entry = host.page(2) + 16 * random.below(2 << self.registers.s);
            let [low, high] = posting(host.page(3) + 64 * random.below(63), 0x8001);
            host.set(entry, low);
            host.set(entry + 8, high);
        }
    }

    /// One page mapped, at 40201000h.
    fn tables(&mut self, host: &mut Host) {
        let item = Item::Map {
            place: 0x4020_1000,
            size: KIB_4,
            frame: 0x5000,
            read: true,
            write: true,
        };
        // Below 2^HAW in any case.
        let mut registers = self.registers;
        registers.haw = 52;
        let windows = [host.window()];
        let region = self.region;
        let built = build(
            &registers,
            &windows,
            &mut host.bytes,
            self.source,
            region,
            &[item],
        );
        assert_eq!(built, Build::Done, "a page can be mapped");
        take(&mut self.mapped, &item);
    }

    /// The entry at 40201000h with so many levels below it.
    fn entry(&self, host: &Host, below: u64) -> u64 {
        let mut table = host.word(self.context_entry(host)) >> 12 << 12;
        let mut level = self.levels - 1;
        loop {
            let at = table + 8 * (0x4020_1000 >> (12 + 9 * level) & 0x1FF);
            if level == below {
                return at;
            }
            table = host.word(at) >> 12 << 12;
            level -= 1;
        }
    }

    fn spoil(&mut self, random: &mut Random, host: &mut Host, spoil: Spoil) {
        let Region { start, length } = self.region;
        let inside = start + KIB_4 * random.below(length / KIB_4);
        let other_bus = (u64::from(self.source >> 8) + 1 + random.below(255)) % 256;
        let other_root = self.registers.root + 16 * other_bus;
        let interrupt = host.page(2) + 16 * random.below(2 << self.registers.s);
        let posted = |host: &mut Host, descriptor, low| {
            let [low, high] = posting(descriptor, low);
            host.set(interrupt, low);
            host.set(interrupt + 8, high);
        };
        let last = start + length - 64;
        match spoil {
            Spoil::Registers => {
                if random.coin() {
                    self.registers.haw = 35;
                } else {
                    self.registers.s = 16;
                }
            }
            Spoil::TeOff => self.registers.te = false,
            Spoil::RootAbsent => host.set(self.root_entry(), host.page(1)),
            Spoil::ContextAbsent => host.set(self.context_entry(host), start),
            Spoil::PassThrough => host.set(self.context_entry(host), start | 9),
            Spoil::Start => self.region.start += random.pick(&[8, 0x800, 0xFFF]),
            Spoil::Size => self.region.length -= random.pick(&[1, 8, 0x800, 0xFFF]),
            Spoil::PastTheImage => self.region.length += KIB_4 * (BEHIND + 1),
            Spoil::Huge => {
                let sizes = [0, KIB_4, MIB_2, start].map(|less| 0u64.wrapping_sub(less + KIB_4));
                self.region.length = random.pick(&sizes) / KIB_4 * KIB_4;
            }
            Spoil::OverRoot => {
                self.region.start = host.page(0);
                self.region.length = KIB_4;
            }
            // Also where the root entry has a reserved bit.
            Spoil::ContextTable => host.set(other_root, inside | random.below(2) << 4 | 1),
            Spoil::ContextTableAbsent => host.set(other_root, inside),
            Spoil::InterruptTable => {
                self.registers.interrupt_table = host.page(3);
                self.registers.s = 8;
            }
            Spoil::Descriptor => {
                let descriptor = random.pick(&[start, inside, last]);
                posted(host, descriptor, 0x8001);
            }
            Spoil::DescriptorAbsent => posted(host, inside, 0x8000),
            Spoil::DescriptorRemapped => posted(host, inside, 0x0001),
            Spoil::DescriptorBeside => {
                let descriptor = random.pick(&[start - 64, start + length]);
                posted(host, descriptor, 0x8001);
            }
            Spoil::Buffers => match random.below(4) {
                0 => self.copy -= 1,
                1 => self.copy += 1,
                2 => self.marks -= 1,
                _ => self.marks += 1,
            },
            Spoil::Empty => self.region.length = 0,
            Spoil::TopOutside => {
                let context = self.context_entry(host);
                let outside = random.pick(&[3, FIRST + length / KIB_4]);
                host.set(context, host.page(outside) | 1);
            }
            Spoil::Windows | Spoil::PastTheWidth | Spoil::Hole => {}
            _ => self.spoil_tables(random, host, spoil),
        }
        if matches!(spoil, Spoil::Huge) {
            self.copy = 0;
            self.marks = 0;
        } else if !matches!(spoil, Spoil::Buffers) {
            self.copy = self.region.length as usize;
            self.marks = self.copy / KIB_4 as usize;
        }
    }

    fn spoil_tables(&self, random: &mut Random, host: &mut Host, spoil: Spoil) {
        // A table entry, of any level, and the leaf.
        let table = self.entry(host, 1 + random.below(self.levels - 1));
        let word = host.word(table);
        let leaf = self.entry(host, 0);
        let beside = table ^ 8;
        match spoil {
            Spoil::OneRight => host.set(table, word - 1 - random.below(2)),
            Spoil::Twice => host.set(beside, word),
            Spoil::Itself => host.set(beside, table / KIB_4 * KIB_4 + 3),
            Spoil::Graph => {
                let Region { start, length } = self.region;
                let any = |random: &mut Random| start + KIB_4 * random.below(length / KIB_4);
                let top = host.word(self.context_entry(host)) >> 12 << 12;
                for _ in 0..random.below(200) {
                    let from = any(random) + 8 * random.below(512);
                    let to = any(random);
                    host.set(from, to | random.pick(&[1, 2, 3, 3, 3, 3, 0x83]));
                }
                host.set(top + 8 * random.below(512), top | 3);
            }
            Spoil::TableOutside => {
                let outside = FIRST + self.region.length / KIB_4;
                host.set(table, host.page(random.pick(&[3, outside])) | 3);
            }
            Spoil::TableEmpty => host.set(leaf, random.pick(&[0, 4, 0x5000])),
            Spoil::OneGib => host.set(self.entry(host, 2), 0x4000_0083),
            Spoil::StrayLeafBit => {
                host.set(leaf, host.word(leaf) | 1 << random.pick(&[2, 7, 11, 62]));
            }
            _ => {}
        }
    }

    /// Host memory as windows on a run, in any order, with other bytes between.
    fn cut(&mut self, random: &mut Random, host: &Host, spoil: Option<Spoil>) {
        let all = host.bytes.len() as u64 / KIB_4;
        if host.base == 0 && spoil.is_none() && random.coin() {
            self.windows = vec![host.window()];
            self.run.clone_from(&host.bytes);
            return;
        }
        let hole = FIRST + random.below(self.region.length.min(KIB_4 * 16) / KIB_4 + 1);
        let mut ends: Vec<u64> = match spoil {
            Some(Spoil::Hole) => vec![hole.min(all - BEHIND - 1), hole.min(all - BEHIND - 1) + 1],
            Some(Spoil::Windows) => vec![2],
            Some(_) => Vec::new(),
            None => (0..random.below(4))
                .map(|_| 1 + random.below(all - 1))
                .collect(),
        };
        ends.push(all);
        ends.sort();
        ends.dedup();
        let mut starts = vec![0];
        starts.extend(&ends);
        let mut parts: Vec<(u64, u64)> = starts.into_iter().zip(ends).collect();
        if spoil == Some(Spoil::Hole) {
            parts.remove(1);
        }
        // Laid down in any order.
        while !parts.is_empty() {
            let (from, to) = parts.swap_remove(random.below(parts.len() as u64) as usize);
            let between = random.pick(&[0, 0, 1, 24]);
            self.run.resize(self.run.len() + between, 0xEE);
            self.windows.push(Window {
                start: host.page(from),
                from: self.run.len() as u64,
                length: KIB_4 * (to - from),
            });
            let bytes = (KIB_4 * from) as usize..(KIB_4 * to) as usize;
            self.run.extend_from_slice(&host.bytes[bytes]);
        }
        self.windows.sort_by_key(|window| window.start);
        if spoil == Some(Spoil::Windows) {
            self.windows.reverse();
        }
    }
}
