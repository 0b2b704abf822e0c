//! Translation requests: each memory request of a world, put as one, to both sides. Status, answer and
//! run are compared.

use crate::bytes;
use crate::flaw::Flaw;
use crate::lent::Lent;
use crate::print::{hex, print_world};
use crate::tally::Tally;
use crate::{met, met::Met};
use cases::{Random, Request, Suite, World, SUITES};
use interface::ANSWER_SIZE;
use reference::{named_words_translation_in, translation_request_in, Fault, Translation};
use std::fmt;

/// The suite's name.
pub const NAME: &str = "translations";

/// The suites whose worlds are taken.
const TAKEN: [&str; 10] = [
    "bench-bits",
    "bench-pairs",
    "bench-lengths",
    "register-bounds",
    "table-bounds",
    "addresses",
    "rights",
    "walks",
    "self-referring",
    "windows",
];

/// Worlds of each of them, where it has as many.
const EACH: u64 = 40_000;

/// What an answer buffer holds before a call. An answer overwrites all of it.
const BEFORE: [u8; ANSWER_SIZE] = [0xA5; ANSWER_SIZE];

/// How a translation request was answered.
#[derive(Clone, Copy, Debug, PartialEq, Eq, PartialOrd, Ord)]
pub enum Seen {
    /// Refused, by number.
    Refused(u8),
    /// Passed with TE off.
    Passed,
    /// A page of this size, with these rights.
    Page { size: u64, read: bool, write: bool },
    /// No page, and no fault.
    Empty(Why),
    /// A fault.
    Blocked { reason: u8, recordable: bool },
}

/// Why no page was answered.
#[derive(Clone, Copy, Debug, PartialEq, Eq, PartialOrd, Ord)]
pub enum Why {
    /// The address is too wide.
    Wide,
    /// An entry has neither right.
    Neither,
    /// Each entry has a right, and no right is every entry's.
    Joined,
}

impl Seen {
    /// All that has to be met.
    pub fn all() -> Vec<Self> {
        let mut all = [1, 2, 4].map(Seen::Refused).to_vec();
        all.push(Seen::Passed);
        for size in [1 << 12, 1 << 21, 1 << 30] {
            let rights = [(true, false), (false, true), (true, true)];
            all.extend(rights.map(|(read, write)| Seen::Page { size, read, write }));
        }
        all.extend([Why::Wide, Why::Neither, Why::Joined].map(Seen::Empty));
        let blocked = |recordable| move |reason| Seen::Blocked { reason, recordable };
        let reasons = [0x01, 0x02, 0x03, 0x07, 0x08, 0x09, 0x0A, 0x0B, 0x0C, 0x0D];
        all.extend(reasons.map(blocked(true)));
        all.extend([0x02, 0x03, 0x07, 0x0B, 0x0C, 0x0D].map(blocked(false)));
        all
    }

    /// Of an answer, with the words that were fetched for it.
    fn of(world: &World, answer: &Translation, words: &[u64]) -> Self {
        match *answer {
            Translation::Refused(number) => Seen::Refused(number),
            Translation::Passed(_) => Seen::Passed,
            Translation::Blocked(Fault {
                reason, recordable, ..
            }) => Seen::Blocked { reason, recordable },
            Translation::Answered {
                read: false,
                write: false,
                ..
            } => Seen::Empty(match words {
                // Root and context entry, of two words each.
                [_, _, _, _] => Why::Wide,
                [.., last] if world.word(*last) & 3 == 0 => Why::Neither,
                _ => Why::Joined,
            }),
            Translation::Answered {
                size, read, write, ..
            } => Seen::Page { size, read, write },
        }
    }
}

fn suites() -> impl Iterator<Item = &'static Suite> {
    SUITES.iter().filter(|suite| TAKEN.contains(&suite.name))
}

fn taken(suite: &Suite) -> u64 {
    suite.worlds.min(EACH)
}

/// Worlds.
pub fn worlds() -> u64 {
    suites().map(taken).sum()
}

/// The suite of a case, and the number of a world in it. They are taken from all over the suite.
fn world_of(number: u64) -> Option<(&'static Suite, u64)> {
    let mut left = number;
    for suite in suites() {
        let taken = taken(suite);
        if left < taken {
            return Some((suite, left * suite.worlds / taken));
        }
        left -= taken;
    }
    None
}

/// Builds the world of a case. In most of them contexts of type 0 and 2, which are 0Dh, become type 1.
pub fn build(number: u64, world: &mut World) {
    let Some((suite, n)) = world_of(number) else {
        return;
    };
    (suite.build)(n, world);
    if Random::of(NAME, number).one_in(6) {
        return;
    }
    for n in 0..world.requests.len() {
        let Request::Memory { source, .. } = world.requests[n] else {
            continue;
        };
        let [bus, devfn] = source.to_be_bytes().map(u64::from);
        let root = world.registers.root.wrapping_add(16 * bus);
        let context = (world.word(root) >> 12 << 12).wrapping_add(16 * devfn);
        let word = world.word(context);
        // TT is 3:2.
        if word & 1 << 2 == 0 {
            world.set(context, word & !(3 << 2) | 1 << 2);
        }
    }
}

/// Prints a case.
pub fn print(number: u64, world: &mut World) {
    if let Some((suite, n)) = world_of(number) {
        println!("from {} {n}", suite.name);
    }
    build(number, world);
    print_world(world);
}

/// Source and address of each memory request, once where a write comes after the same read.
fn asked(world: &World) -> Vec<(u16, u64)> {
    let asked = world.requests.iter().filter_map(|request| match *request {
        Request::Memory {
            source, address, ..
        } => Some((source, address)),
        Request::Interrupt { .. } => None,
    });
    let mut asked: Vec<_> = asked.collect();
    asked.dedup();
    asked
}

/// Puts a world's memory requests as translation requests.
pub fn run(world: &World, flaw: Flaw, mut tally: Option<&mut Tally>) -> Result<(), String> {
    let registers = bytes::registers(&world.registers);
    let numbers = |w: &reference::Window| [w.start, w.from, w.length];
    let windows: Vec<u64> = world.windows.iter().flat_map(numbers).collect();
    let (mut run, mut answer) = (Lent::default(), Lent::default());
    run.take(&world.image, world.image.len() / 8 % 8);
    for (n, (source, address)) in asked(world).into_iter().enumerate() {
        answer.take(&BEFORE, n % 8);
        let (lent, to) = (run.content(), answer.content_mut());
        let status =
            interface::translation_request(&registers, &windows, lent, source, address, to);
        let (r, w, i) = (&world.registers, &world.windows, &world.image);
        let outcome = translation_request_in(r, w, i, source, address);
        let words = named_words_translation_in(r, w, i, source, address);
        if let Some(tally) = tally.as_deref_mut() {
            tally.cases += 1;
            tally.meet(Met::Translations(Seen::of(world, &outcome, &words)));
        }
        let expected = packed(&flaw.translation(world, outcome, &words));
        let same_run = run.content() == world.image && run.kept();
        if status != 0 || answer.content() != expected || !answer.kept() || !same_run {
            return Err(format!(
                "source {source:X}h, address {address:X}h: {status:X}h, {}\nexpected {}; the same run: {same_run}",
                hex(answer.content()),
                hex(&expected)
            ));
        }
    }
    Ok(())
}

/// The header's bytes of an answer.
fn packed(answer: &Translation) -> [u8; ANSWER_SIZE] {
    let mut bytes = [0; ANSWER_SIZE];
    match answer {
        Translation::Refused(number) => bytes[..2].copy_from_slice(&[2, *number]),
        Translation::Blocked(fault) => bytes = bytes::fault(fault),
        Translation::Passed(address) => {
            bytes[0] = 3;
            bytes[8..16].copy_from_slice(&address.to_le_bytes());
        }
        Translation::Answered {
            read: false,
            write: false,
            ..
        } => bytes[0] = 8,
        Translation::Answered {
            frame,
            size,
            read,
            write,
        } => {
            bytes[..3].copy_from_slice(&[7, u8::from(*read), u8::from(*write)]);
            bytes[8..16].copy_from_slice(&frame.to_le_bytes());
            bytes[16..24].copy_from_slice(&size.to_le_bytes());
        }
    }
    bytes
}

impl Flaw {
    /// The reference's answer, with the flaw.
    fn translation(self, world: &World, mut answer: Translation, words: &[u64]) -> Translation {
        match (self, &mut answer) {
            (
                Flaw::EmptyDenied,
                Translation::Answered {
                    read: false,
                    write: false,
                    ..
                },
            ) => {
                return Translation::Blocked(Fault {
                    reason: 0x05,
                    recordable: true,
                    record: [0; 16],
                    entry: words.last().copied(),
                })
            }
            (Flaw::LeafRights, Translation::Answered { read, write, .. }) if *read || *write => {
                let leaf = words.last().map_or(0, |&last| world.word(last));
                (*read, *write) = (leaf & 1 != 0, leaf & 2 != 0);
            }
            // AT is 125:124.
            (Flaw::AddressTypeLost, Translation::Blocked(fault)) => fault.record[15] &= !0x30,
            _ => {}
        }
        answer
    }
}

impl fmt::Display for Seen {
    fn fmt(&self, f: &mut fmt::Formatter<'_>) -> fmt::Result {
        match *self {
            Seen::Refused(number) => write!(f, "refused {number}"),
            Seen::Passed => write!(f, "passed, TE off"),
            Seen::Page { size, read, write } => {
                let size = match size {
                    0x1000 => "4 KiB",
                    0x20_0000 => "2 MiB",
                    _ => "1 GiB",
                };
                let rights = match (read, write) {
                    (true, true) => "read and write",
                    (true, false) => "read only",
                    _ => "write only",
                };
                write!(f, "{size} page, {rights}")
            }
            Seen::Empty(Why::Wide) => write!(f, "empty, address too wide"),
            Seen::Empty(Why::Neither) => write!(f, "empty, an entry without rights"),
            Seen::Empty(Why::Joined) => write!(f, "empty, no right in every entry"),
            Seen::Blocked { reason, recordable } => {
                write!(f, "{reason:02X}h, {}", met::recorded(recordable))
            }
        }
    }
}
