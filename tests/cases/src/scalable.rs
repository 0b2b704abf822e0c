//! Tables of scalable mode that a request goes through to its page, then with some of their bits turned over.

use crate::{Random, PAGE};
use reference::{scalable_request, Outcome, Registers, Window};
use reference::{ScalableRegisters, ScalableRequest};

/// Pages of an image: root, context, directory, PASID table, five of the first and five of the second level, data.
const PAGES: u64 = 16;

/// Of the pages, the first level's top and the second level's top.
const FIRST: u64 = 5;
const SECOND: u64 = 10;

/// Words of a PASID table entry.
const ENTRY_WORDS: u64 = 8;

/// Registers, memory and requests, with the places of the words that were laid.
#[derive(Clone)]
pub struct Laid {
    /// The registers.
    pub registers: ScalableRegisters,
    /// Windows onto the run.
    pub windows: Vec<Window>,
    /// The run.
    pub run: Vec<u8>,
    /// What is asked, one after the other.
    pub requests: Vec<ScalableRequest>,
    /// The places of the words that were laid, here their host addresses too.
    pub words: Vec<u64>,
}

/// What the tables are laid for.
struct Plan {
    pgtt: u64,
    first_levels: u64,
    second_levels: u64,
    /// The level of the leaf, of each.
    first_leaf: u64,
    second_leaf: u64,
    pasid: u64,
    source: u16,
    address: u64,
    /// Bits of the first page's frame, of the page at the end.
    frame: u64,
    /// Intermediate addresses of the nested walk are from here on.
    base: u64,
}

impl Laid {
    fn set(&mut self, at: u64, word: u64) {
        if let Some(bytes) = self.run.get_mut(at as usize..at as usize + 8) {
            bytes.copy_from_slice(&word.to_le_bytes());
            self.words.push(at);
        }
    }

    fn word(&self, at: u64) -> u64 {
        let bytes = self.run.get(at as usize..at as usize + 8);
        bytes.map_or(0, |b| u64::from_le_bytes(b.try_into().expect("8 bytes")))
    }

    /// Turns a bit of a word over.
    pub fn flip(&mut self, at: u64, bit: u64) {
        let word = self.word(at) ^ 1 << bit;
        self.set(at, word);
    }

    /// Root, context, directory and PASID table entry.
    fn lay_lookup(&mut self, plan: &Plan, random: &mut Random) {
        let (bus, devfn) = (u64::from(plan.source >> 8), u64::from(plan.source & 0xFF));
        let half = 8 * (devfn >> 7);
        self.set(PAGE + 16 * bus + half, (2 * PAGE) | 1);
        let context = 2 * PAGE + 32 * (devfn & 0x7F);
        // FPD, DTE, PASIDE, PRE; PDTS 11:9.
        let fpd = u64::from(random.one_in(4)) << 1;
        let page_requests =
            random.pick(&[0, 0, 0, 0, 0, 0, 1 << 2, 1 << 2, 1 << 2 | 1 << 4, 1 << 4]);
        let with_pasid = if random.one_in(16) { 0 } else { 1 << 3 };
        let pdts = random.pick(&[2, 3, 7]) << 9;
        self.set(
            context,
            (3 * PAGE) | pdts | with_pasid | page_requests | fpd | 1,
        );
        self.set(context + 8, plan.pasid | u64::from(random.one_in(4)) << 20);
        self.set(context + 16, 0);
        self.set(context + 24, 0);
        let fpd = u64::from(random.one_in(6)) << 1;
        self.set(3 * PAGE + 8 * (plan.pasid >> 6), (4 * PAGE) | fpd | 1);
        let table = 4 * PAGE + 64 * (plan.pasid & 63);
        let fpd = u64::from(random.one_in(6)) << 1;
        let slade = u64::from(self.registers.slads && random.coin()) << 9;
        let aw = (plan.second_levels - 2) << 2;
        self.set(
            table,
            (SECOND * PAGE) | slade | plan.pgtt << 6 | aw | fpd | 1,
        );
        // DID, PWSNP.
        let pwsnp = u64::from(!random.one_in(5)) << 23;
        self.set(
            table + 8,
            random.below(1 << 16) | pwsnp | random.bits(8) << 24 & 0x7F00_0000,
        );
        // SRE, ERE, FLPM, WPE, NXE, SMEP, EAFE.
        let sre = u64::from(self.registers.srs && !random.one_in(4));
        let eafe = u64::from(self.registers.eafs && random.coin()) << 7;
        let nxe = u64::from(!random.one_in(3)) << 5;
        let others = random.below(2) << 1 | random.below(2) << 4 | random.below(2) << 6;
        let top = match plan.pgtt {
            3 => plan.base + FIRST * PAGE,
            _ => FIRST * PAGE,
        };
        self.set(
            table + 16,
            top | sre | others | (plan.first_levels - 4) << 2 | nxe | eafe,
        );
        for n in 3..ENTRY_WORDS {
            self.set(table + 8 * n, 0);
        }
    }

    /// The first level, whose tables are the pages from FIRST on; in nested mode they are named by intermediate
    /// addresses.
    fn lay_first(&mut self, plan: &Plan, random: &mut Random) {
        let base = if plan.pgtt == 3 { plan.base } else { 0 };
        for n in 0..=plan.first_levels - plan.first_leaf {
            let level = plan.first_levels - n;
            let at = (FIRST + n) * PAGE + 8 * index(plan.address, level);
            let us = u64::from(!random.one_in(24)) << 2;
            let rw = u64::from(!random.one_in(16)) << 1;
            let flags = if random.coin() {
                1 << 5 | 1 << 6 | 1 << 10
            } else {
                random.word() & (1 << 5 | 1 << 6 | 1 << 10)
            };
            let ignored = random.word() & (3 << 3 | 1 << 8 | 1 << 9 | 1 << 11 | 0x7FF << 52);
            let xd = u64::from(random.one_in(6)) << 63;
            let frame = if level != plan.first_leaf {
                base + (FIRST + n + 1) * PAGE
            } else if plan.pgtt == 3 {
                plan.base >> low(level) << low(level)
            } else {
                plan.frame >> low(level) << low(level)
            };
            let ps = if level == plan.first_leaf && level > 1 {
                1 << 7 | random.below(2) << 12
            } else {
                0
            };
            self.set(at, frame | ps | xd | ignored | flags | us | rw | 1);
        }
    }

    /// The entries of the second level for an address, down to a frame.
    fn lay_second(&mut self, plan: &Plan, address: u64, frame: u64, random: &mut Random) {
        for n in 0..=plan.second_levels - plan.second_leaf {
            let level = plan.second_levels - n;
            let at = (SECOND + n) * PAGE + 8 * index(address, level);
            let leaf = level == plan.second_leaf;
            let rights = if random.one_in(16) {
                random.below(4)
            } else {
                3
            };
            let flags = if random.coin() {
                3 << 8
            } else {
                random.below(4) << 8
            };
            let ignored = random.word() & (0x1F << 2 | 3 << 10 | 0x7FF << 52 | 1 << 63);
            let ignored = ignored & !(1 << 7);
            let to = if leaf { frame } else { (SECOND + n + 1) * PAGE };
            let ps = u64::from(leaf && level > 1) << 7;
            self.set(at, to | ps | ignored | flags | rights);
        }
    }

    /// In nested mode each first-level table and the page go through the second level. A page of the image is shown at
    /// the base plus its place, so that a leaf of 2 MiB serves too.
    fn lay_nested(&mut self, plan: &Plan, random: &mut Random) {
        if plan.second_leaf == 1 {
            for n in 0..plan.first_levels {
                let page = (FIRST + n) * PAGE;
                self.lay_second(plan, plan.base + page, page, random);
            }
            let span = 1 << low(plan.first_leaf);
            let intermediate = plan.base / span * span + plan.address % span;
            let frame = plan.frame >> 12 << 12;
            self.lay_second(plan, intermediate, frame, random);
        } else {
            self.lay_second(plan, plan.base, 0, random);
        }
    }
}

/// How many bits of an address are the offset in a page of a level.
fn low(level: u64) -> u64 {
    12 + 9 * (level - 1)
}

fn index(address: u64, level: u64) -> u64 {
    address >> low(level) & 0x1FF
}

fn registers(random: &mut Random) -> ScalableRegisters {
    let mut rarely = |n| !random.one_in(n);
    let (flts, slts, nest, pt) = (rarely(12), rarely(12), rarely(12), rarely(12));
    let (fl5lp, fl1gp, slads, eafs) = (rarely(4), rarely(3), rarely(4), rarely(4));
    let (srs, smpwc) = (rarely(4), rarely(6));
    let base = Registers {
        haw: random.pick(&[36, 39, 42, 46, 48, 52, 52]),
        mgaw: random.pick(&[39, 48, 57, 57]),
        levels3: !random.one_in(12),
        levels4: !random.one_in(12),
        levels5: !random.one_in(12),
        pages_2m: !random.one_in(6),
        pages_1g: !random.one_in(6),
        root: PAGE,
        te: !random.one_in(32),
        ..crate::bench::REGISTERS
    };
    ScalableRegisters {
        base,
        flts,
        slts,
        nest,
        pt,
        fl5lp,
        fl1gp,
        slads,
        eafs,
        srs,
        smpwc,
    }
}

fn plan(registers: &ScalableRegisters, random: &mut Random) -> Plan {
    let odd = random.below(8);
    let pgtt = random.pick(&[1, 1, 1, 2, 2, 3, 3, 3, 3, 4, odd]);
    let (first_levels, second_levels) = (4 + random.below(2), 3 + random.below(3));
    let first_leaf = random.pick(&[1, 1, 1, 2, 3]);
    let second_leaf = random.pick(&[1, 1, 1, 2, 3]);
    let width = if pgtt == 2 {
        (9 * second_levels + 12).min(u64::from(registers.base.mgaw))
    } else {
        9 * first_levels + 11
    };
    let mut address = random.bits(width as u32);
    if pgtt != 2 && random.one_in(4) {
        // The upper half of the canonical addresses.
        address = !address;
    }
    let frames = 1u64 << registers.base.haw;
    let frame = match random.below(6) {
        0 => 0xFEE0_0000,
        1 => frames - PAGE,
        _ => random.word() % frames,
    };
    let spare = u64::from(registers.base.haw.min(registers.base.mgaw)).min(9 * second_levels + 12);
    // Beyond 2^X it is 74h.
    let spare = if random.one_in(8) {
        registers.base.haw.into()
    } else {
        spare
    };
    let base = random.bits(spare as u32) >> 21 << 21;
    // A page of 1 GiB shows the image at its start alone.
    let base = if second_leaf == 3 {
        base >> 30 << 30
    } else {
        base
    };
    Plan {
        pgtt,
        first_levels,
        second_levels,
        first_leaf,
        second_leaf,
        pasid: random.below(1 << 15),
        source: random.word() as u16,
        address,
        frame,
        base,
    }
}

/// What is asked: mostly what the tables are laid for.
fn ask(plan: &Plan, random: &mut Random) -> ScalableRequest {
    let address = match random.below(24) {
        0 => plan.address ^ 1 << random.below(64),
        1 => random.word(),
        2 => 0xFEE0_0000 + random.below(1 << 20),
        3 => 0u64.wrapping_sub(1) << random.pick(&[47, 48, 56, 57]),
        _ => plan.address,
    };
    let source = if random.one_in(32) {
        plan.source ^ 1 << random.below(16)
    } else {
        plan.source
    };
    let pasid = match random.below(32) {
        0 => Some(1 << random.pick(&[13, 15, 16, 19, 20, 21, 31])),
        1 => Some(plan.pasid as u32 ^ 1 << random.below(20)),
        n if n < 18 => Some(plan.pasid as u32),
        _ => None,
    };
    ScalableRequest {
        source,
        address,
        write: random.coin(),
        pasid,
    }
}

fn empty(registers: ScalableRegisters) -> Laid {
    Laid {
        registers,
        windows: vec![Window {
            start: 0,
            from: 0,
            length: PAGES * PAGE,
        }],
        run: vec![0; (PAGES * PAGE) as usize],
        requests: Vec::new(),
        words: Vec::new(),
    }
}

fn lay(laid: &mut Laid, plan: &Plan, random: &mut Random) {
    laid.lay_lookup(plan, random);
    match plan.pgtt {
        1 => laid.lay_first(plan, random),
        2 => laid.lay_second(
            plan,
            plan.address,
            plan.frame >> low(plan.second_leaf) << low(plan.second_leaf),
            random,
        ),
        3 => {
            laid.lay_first(plan, random);
            laid.lay_nested(plan, random);
        }
        _ => {}
    }
}

/// A case with tables of any kind, up to three bits turned over and the run cut here and there.
pub fn any(random: &mut Random) -> Laid {
    let registers = registers(random);
    let plan = plan(&registers, random);
    let mut laid = empty(registers);
    lay(&mut laid, &plan, random);
    for _ in 0..random.pick(&[0, 0, 1, 1, 2, 3]) {
        let at = random.pick(&laid.words);
        let bit = if random.one_in(8) {
            0
        } else {
            random.below(64)
        };
        laid.flip(at, bit);
    }
    match random.below(24) {
        0 => cut(&mut laid, random),
        1 => split(&mut laid, random),
        2 => laid.registers.base.haw = random.pick(&[35, 53]),
        3 => laid.registers.base.root = random.pick(&[0x1001, 1 << 52, 0x8000_0000]),
        _ => {}
    }
    laid.requests = (0..1 + random.below(3))
        .map(|_| ask(&plan, random))
        .collect();
    laid
}

/// The run ends within one of the words that were laid, or before it.
fn cut(laid: &mut Laid, random: &mut Random) {
    let end = random.pick(&laid.words) + random.pick(&[0, 1, 7]);
    laid.run.truncate(end as usize);
    laid.windows[0].length = end;
}

/// Two windows, one page between them shown nowhere.
fn split(laid: &mut Laid, random: &mut Random) {
    let hole = (1 + random.below(PAGES - 2)) * PAGE;
    let window = |start, end| Window {
        start,
        from: start,
        length: end - start,
    };
    laid.windows = vec![window(0, hole), window(hole + PAGE, PAGES * PAGE)];
}

/// First-level, second-level and nested tables as they always are: the first of each that grant a read and a write with a
/// PASID and a read without, and in which a flag is clear.
pub fn fixed(kind: u64) -> Laid {
    let grants = |laid: &Laid| {
        let mut run = laid.run.clone();
        laid.requests.iter().all(|&request| {
            let answer = scalable_request(&laid.registers, &laid.windows, &mut run, request);
            matches!(answer, Outcome::Granted(_))
        }) && run != laid.run
    };
    (0..)
        .map(|n| at_hand(kind, &mut Random::of("scalable-fixed", 3 * n + kind)))
        .find(grants)
        .expect("one of so many")
}

fn at_hand(kind: u64, random: &mut Random) -> Laid {
    let registers = ScalableRegisters {
        base: Registers {
            haw: 39,
            mgaw: 48,
            levels3: true,
            levels4: true,
            levels5: true,
            pages_2m: true,
            pages_1g: true,
            root: PAGE,
            te: true,
            ..crate::bench::REGISTERS
        },
        flts: true,
        slts: true,
        nest: true,
        pt: true,
        fl5lp: true,
        fl1gp: true,
        slads: true,
        eafs: true,
        srs: true,
        smpwc: true,
    };
    let plan = Plan {
        pgtt: 1 + kind,
        first_levels: 4,
        second_levels: 4,
        first_leaf: 1,
        second_leaf: 1,
        pasid: 0x345,
        source: 0x0310,
        address: 0x12_3456_7ABC,
        frame: 0x4_5678_9000,
        base: 0x20_0000_0000,
    };
    let mut laid = empty(registers);
    lay(&mut laid, &plan, random);
    // The root entry's upper half, which isn't in use, for its bits.
    laid.set(PAGE + 16 * u64::from(plan.source >> 8) + 8, 0);
    laid.words.sort_unstable();
    laid.words.dedup();
    let request = |write, pasid| ScalableRequest {
        source: plan.source,
        address: plan.address,
        write,
        pasid,
    };
    let with = Some(plan.pasid as u32);
    laid.requests = vec![
        request(false, with),
        request(true, with),
        request(false, None),
    ];
    laid
}
