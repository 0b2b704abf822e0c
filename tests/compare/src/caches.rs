//! Runs of requests through a cache of translations, table edits and invalidations: every answer
//! compared with the reference's literal cache, and, where each edit is followed by an invalidation
//! before the next request, with the plain unit's too.

use crate::bytes;
use crate::flaw::Flaw;
use crate::met::Met;
use crate::tally::Tally;
use cases::Random;
use interface::{flat, ANSWER_SIZE, CACHE_WORDS};
use reference::{memory_request_in, Cache, Cached, Outcome, Registers, Slip, Window};
use std::fmt;

/// The suite's name.
pub const NAME: &str = "caches";

/// Runs.
pub const RUNS: u64 = 12_000;

/// Bytes of an image.
const LENGTH: usize = 0x8000;

/// The tables: of level 3, two of level 2, two of level 1.
const TABLES: [u64; 5] = [0x3000, 0x4000, 0x5000, 0x6000, 0x7000];

/// The registers of a request: the run's own, bad ones, or those with TE off.
#[derive(Clone, Copy)]
enum Under {
    Own,
    Bad,
    Off,
}

/// One operation.
#[derive(Clone, Copy)]
enum Step {
    Ask {
        source: u16,
        address: u64,
        write: bool,
        under: Under,
    },
    Edit {
        at: u64,
        word: u64,
    },
    DropAll,
    DropDomain(u16),
}

/// What a step met.
#[derive(Clone, Copy, Debug, PartialEq, Eq, PartialOrd, Ord)]
pub enum Seen {
    /// Answered from the cache, by the size of the page.
    Hit(u64),
    /// Answered from the cache, otherwise than the plain unit does by now.
    Stale,
    /// Two that are held could answer.
    TwoFit,
    /// Walked, granted and held.
    Held(u64),
    /// Held as a 65th: the oldest went.
    PushedOut,
    /// Passed through, or TE off: granted and not held.
    Unchanged,
    /// Blocked, and not held.
    Blocked,
    /// Refused, by number, though what is held would fit.
    Refused { number: u8, held: bool },
    /// An invalidation by domain took some out, and left some or none.
    DomainOut { left: bool },
    /// An invalidation by domain that nothing was held of.
    NoneOut,
    /// An invalidation of all.
    AllOut,
}

impl Seen {
    /// Each of them.
    pub fn all() -> Vec<Seen> {
        let mut all = vec![Seen::Stale, Seen::TwoFit, Seen::PushedOut, Seen::Unchanged];
        for size in [1 << 12, 1 << 21, 1 << 30] {
            all.extend([Seen::Hit(size), Seen::Held(size)]);
        }
        all.extend([Seen::Blocked, Seen::NoneOut, Seen::AllOut]);
        all.extend([false, true].map(|left| Seen::DomainOut { left }));
        for held in [false, true] {
            all.extend([1, 2].map(|number| Seen::Refused { number, held }));
        }
        all.push(Seen::Refused {
            number: 4,
            held: false,
        });
        all
    }
}

impl fmt::Display for Seen {
    fn fmt(&self, f: &mut fmt::Formatter<'_>) -> fmt::Result {
        let size = |bytes: u64| match bytes {
            0x1000 => "4 KiB",
            0x20_0000 => "2 MiB",
            _ => "1 GiB",
        };
        match *self {
            Seen::Hit(bytes) => write!(f, "from what is held, {} page", size(bytes)),
            Seen::Stale => write!(f, "from what is held, the tables are others by now"),
            Seen::TwoFit => write!(f, "from the newer of two that are held"),
            Seen::Held(bytes) => write!(f, "walked and held, {} page", size(bytes)),
            Seen::PushedOut => write!(f, "walked and held as a 65th"),
            Seen::Unchanged => write!(f, "granted unchanged, not held"),
            Seen::Blocked => write!(f, "blocked, not held"),
            Seen::Refused { number, held } => {
                let fits = if held {
                    "though one held fits"
                } else {
                    "none held fits"
                };
                write!(f, "refused {number}, {fits}")
            }
            Seen::DomainOut { left: false } => write!(f, "a domain out, nothing left"),
            Seen::DomainOut { left: true } => write!(f, "a domain out, others left"),
            Seen::NoneOut => write!(f, "a domain out of which nothing is held"),
            Seen::AllOut => write!(f, "all out"),
        }
    }
}

/// Registers, an image and operations. `kept`: each edit is followed by an invalidation of all.
pub struct Run {
    registers: Registers,
    image: Vec<u8>,
    steps: Vec<Step>,
    kept: bool,
}

fn registers(random: &mut Random) -> Registers {
    let mut registers = cases::bench::REGISTERS;
    registers.levels3 = true;
    registers.levels4 = false;
    registers.levels5 = random.coin();
    registers.mgaw = random.pick(&[39, 48, 57]);
    registers.pages_2m = true;
    registers.pages_1g = true;
    registers.te = !random.one_in(16);
    registers
}

/// A page entry of a level, mostly with all rights. A table's number is for entries that lead on.
fn entry(random: &mut Random, level: u32, number: u64) -> u64 {
    let rights = random.pick(&[3, 3, 3, 3, 3, 1, 2, 0]);
    let reserved = if random.one_in(24) { 1 << 50 } else { 0 };
    let host = random.below(1 << 38);
    let interrupts = random.one_in(24);
    let frame = |shift: u32| {
        let at = if interrupts { 0xFEE0_0000 } else { host };
        at >> shift << shift
    };
    let large = random.one_in(if level == 3 { 8 } else { 4 });
    rights
        | reserved
        | match level {
            1 => frame(12),
            2 if large => frame(21) | 0x80,
            2 => TABLES[3 + (number % 2) as usize],
            _ if large => frame(30) | 0x80,
            _ => TABLES[1 + (number % 2) as usize],
        }
}

/// One that an edit writes, and where: mostly a page entry, else a context entry's word.
fn edit(random: &mut Random) -> (u64, u64) {
    if random.one_in(12) {
        let devfn = 8 * random.below(3);
        let domain = random.below(3) << 8;
        return (0x2000 + 16 * devfn + 8, domain | 1);
    }
    let (table, level) = random.pick(&[(0, 3), (1, 2), (2, 2), (3, 1), (4, 1)]);
    let n = random.below(if level == 1 { 48 } else { 4 });
    let number = random.below(2);
    (TABLES[table] + 8 * n, entry(random, level, number))
}

fn image(random: &mut Random) -> Vec<u8> {
    let mut image = vec![0; LENGTH];
    let mut set = |at: u64, word: u64| {
        image[at as usize..at as usize + 8].copy_from_slice(&word.to_le_bytes());
    };
    set(0x1000, 0x2001);
    for devfn in 0..3 {
        let through = if devfn == 2 { 2 << 2 } else { 0 };
        set(0x2000 + 128 * devfn, TABLES[0] | through | 1);
        set(0x2000 + 128 * devfn + 8, (devfn % 2 + 1) << 8 | 1);
    }
    for (table, level, entries) in [(0, 3, 4), (1, 2, 4), (2, 2, 4), (3, 1, 48), (4, 1, 48)] {
        for n in 0..entries {
            set(TABLES[table] + 8 * n, entry(random, level, n));
        }
    }
    image
}

fn ask(random: &mut Random, busy: bool) -> Step {
    let few = random.pick(&[0, 0, 0, 0, 1, 2, 3]);
    let page = few << 30 | random.pick(&[0, 0, 0, 1, 1, 2, 3]) << 21 | random.below(48) << 12;
    let near = page | random.below(1 << 12);
    let address = match random.below(40) {
        0 => 0xFEE0_0000 + random.below(1 << 20),
        1 => near | 1 << random.pick(&[38, 39, 47, 48, 56, 57, 63]),
        2 => near + random.below(1 << 21),
        // Mostly few pages, so that many are asked for again.
        n if n < 30 && !busy => near & 0xC060_3FFF,
        _ => near,
    };
    Step::Ask {
        source: random.pick(&[0, 0, 0, 8, 8, 16]),
        address,
        write: random.one_in(3),
        under: match random.below(40) {
            0 => Under::Bad,
            1 => Under::Off,
            _ => Under::Own,
        },
    }
}

impl Run {
    /// The run of a number.
    pub fn build(number: u64) -> Self {
        let mut random = Random::of(NAME, number);
        let registers = registers(&mut random);
        let image = image(&mut random);
        let kept = random.coin();
        // In a busy run little is invalidated, so that a 65th comes.
        let busy = random.one_in(4);
        let most = if busy { 600 } else { 60 };
        let mut steps = Vec::new();
        for _ in 0..random.below(400) {
            match random.below(most) {
                0 => steps.push(Step::DropAll),
                1 | 2 => steps.push(Step::DropDomain(random.below(4) as u16)),
                n if n < 8 => {
                    let (at, word) = edit(&mut random);
                    steps.push(Step::Edit { at, word });
                    if kept {
                        steps.push(Step::DropAll);
                    }
                }
                _ => steps.push(ask(&mut random, busy)),
            }
        }
        Self {
            registers,
            image,
            steps,
            kept,
        }
    }

    /// Runs it on both sides.
    pub fn run(&self, flaw: Flaw, mut tally: Option<&mut Tally>) -> Result<(), String> {
        let windows = [Window {
            start: 0,
            from: 0,
            length: LENGTH as u64,
        }];
        let mut image = self.image.clone();
        let mut cache = [0; CACHE_WORDS];
        let mut theirs = Cache::new();
        for (n, step) in self.steps.iter().enumerate() {
            let held = theirs.held().to_vec();
            let (mut same, mut seen) = (true, Vec::new());
            match *step {
                Step::Edit { at, word } => {
                    let at = at as usize;
                    image[at..at + 8].copy_from_slice(&word.to_le_bytes());
                    continue;
                }
                Step::DropAll => {
                    theirs.invalidate_all();
                    same = interface::invalidate_all(&mut cache) == 0;
                    seen.push(Seen::AllOut);
                }
                Step::DropDomain(domain) => {
                    if flaw != Flaw::DomainKept {
                        theirs.invalidate_domain(domain);
                    }
                    same = interface::invalidate_domain(&mut cache, domain) == 0;
                    let left = theirs.held().len();
                    seen.push(match held.len() - left {
                        0 => Seen::NoneOut,
                        _ => Seen::DomainOut { left: left > 0 },
                    });
                }
                Step::Ask {
                    source,
                    address,
                    write,
                    under,
                } => {
                    let mut registers = self.registers;
                    match under {
                        Under::Own => {}
                        Under::Bad => registers.s = 16,
                        Under::Off => registers.te = false,
                    }
                    let (registers, packed) = (&registers, bytes::registers(&registers));
                    let plain = memory_request_in(
                        Slip::None,
                        registers,
                        &windows,
                        &image,
                        source,
                        address,
                        write,
                    );
                    let expected =
                        theirs.memory_request(registers, &windows, &image, source, address, write);
                    let expected = flaw.cached(&held, &plain, registers.te, *step, expected);
                    let mut answer = [0; ANSWER_SIZE];
                    let shown = flat(LENGTH);
                    let asked = u8::from(write);
                    let status = interface::cached_request(
                        &packed,
                        &shown,
                        &image,
                        &mut cache,
                        source,
                        address,
                        asked,
                        &mut answer,
                    );
                    same &= status == 0 && answer == bytes::answer(&expected);
                    same &= !self.kept || answer == bytes::answer(&plain);
                    seen = met(&held, theirs.held(), &plain, &expected, registers.te, *step);
                }
            }
            if let Some(tally) = tally.as_deref_mut() {
                tally.cases += 1;
                seen.into_iter()
                    .for_each(|seen| tally.meet(Met::Caches(seen)));
            }
            if !same {
                return Err(format!("step {n}, {step}"));
            }
        }
        Ok(())
    }

    /// Prints it.
    pub fn print(&self) {
        println!(
            "{:X?}, invalidated after each edit: {}",
            self.registers, self.kept
        );
        println!("{}", crate::print::hex(&self.image));
        for step in &self.steps {
            println!("{step}");
        }
    }
}

/// Whether a held translation is for the page, the source and the kind of a request.
fn fits(cached: &Cached, step: Step) -> bool {
    let Step::Ask {
        source,
        address,
        write,
        ..
    } = step
    else {
        return false;
    };
    let own = cached.source == source && cached.write == write;
    own && address / cached.size == cached.page / cached.size
}

fn met(
    before: &[Cached],
    after: &[Cached],
    plain: &Outcome,
    answered: &Outcome,
    te: bool,
    step: Step,
) -> Vec<Seen> {
    let fitting: Vec<&Cached> = before.iter().filter(|cached| fits(cached, step)).collect();
    let held = !fitting.is_empty();
    match answered {
        Outcome::Refused(number) => vec![Seen::Refused {
            number: *number,
            held,
        }],
        Outcome::Granted(_) if !te => vec![Seen::Unchanged],
        Outcome::Granted(_) if held => {
            let mut seen = vec![Seen::Hit(fitting[fitting.len() - 1].size)];
            if fitting.len() > 1 {
                seen.push(Seen::TwoFit);
            }
            if plain != answered {
                seen.push(Seen::Stale);
            }
            seen
        }
        Outcome::Granted(_) if after == before => vec![Seen::Unchanged],
        Outcome::Granted(_) => {
            let mut seen = vec![Seen::Held(after[after.len() - 1].size)];
            if before.len() == 64 {
                seen.push(Seen::PushedOut);
            }
            seen
        }
        _ => vec![Seen::Blocked],
    }
}

impl Flaw {
    /// What the reference's cache answers, with the flaw.
    fn cached(
        self,
        held: &[Cached],
        plain: &Outcome,
        te: bool,
        step: Step,
        expected: Outcome,
    ) -> Outcome {
        let Step::Ask {
            source, address, ..
        } = step
        else {
            return expected;
        };
        if !te || matches!(plain, Outcome::Refused(1 | 2)) {
            return expected;
        }
        let of_page = |cached: &&Cached| address / cached.size == cached.page / cached.size;
        let found = match self {
            Flaw::HeldForAnyKind => held
                .iter()
                .rev()
                .filter(of_page)
                .find(|cached| cached.source == source),
            Flaw::HeldForAnySource => held.iter().rev().find(of_page),
            Flaw::OldestAnswers => held.iter().find(|cached| fits(cached, step)),
            _ => None,
        };
        found.map_or(expected, |cached| {
            Outcome::Granted(cached.frame + (address - cached.page))
        })
    }
}

impl fmt::Display for Step {
    fn fmt(&self, f: &mut fmt::Formatter<'_>) -> fmt::Result {
        match self {
            Step::Ask {
                source,
                address,
                write,
                under,
            } => {
                let kind = if *write { "write" } else { "read" };
                let under = match under {
                    Under::Own => "",
                    Under::Bad => ", with bad registers",
                    Under::Off => ", with TE off",
                };
                write!(f, "{kind} of {source:04X}h at {address:X}h{under}")
            }
            Step::Edit { at, word } => write!(f, "{word:X}h written to {at:X}h"),
            Step::DropAll => write!(f, "all invalidated"),
            Step::DropDomain(domain) => write!(f, "domain {domain:X}h invalidated"),
        }
    }
}
