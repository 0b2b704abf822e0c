//! Runs of posts and takes: status and image compared after each, and over the whole run that
//! nothing was lost or invented.

use crate::bytes;
use crate::flaw::Flaw;
use crate::lent::Lent;
use crate::met::Met;
use crate::tally::Tally;
use cases::Random;
use interface::{flat, ANSWER_SIZE};
use reference::{interrupt_request, take, Outcome, Registers, Take};
use std::fmt;

/// The suite's name.
pub const NAME: &str = "takes";

/// Runs.
pub const RUNS: u64 = 20_000;

/// Bytes of an image: 32 entries from 0, descriptors behind them and over them.
const LENGTH: usize = 0x400;

/// Where descriptors are: over the entries, behind them, and the image's last.
const DESCRIPTORS: [u64; 4] = [0x100, 0x200, 0x300, 0x3C0];

/// One operation.
#[derive(Clone, Copy)]
enum Step {
    Post { handle: u64 },
    Take { descriptor: u64 },
}

/// Registers, an image and operations.
pub struct Run {
    registers: Registers,
    image: Vec<u8>,
    steps: Vec<Step>,
}

fn registers(random: &mut Random) -> Registers {
    let mut registers = cases::bench::REGISTERS;
    registers.interrupt_table = 0;
    registers.s = if random.one_in(24) { 16 } else { 4 };
    registers.ire = !random.one_in(24);
    registers.te = random.coin();
    registers.posting = !random.one_in(24);
    registers
}

/// An image whose entries post, mostly to a descriptor that is taken from.
fn image(random: &mut Random) -> Vec<u8> {
    let mut image = vec![0; LENGTH];
    let mut set = |at: usize, word: u64| image[at..at + 8].copy_from_slice(&word.to_le_bytes());
    for n in 0..32 {
        let to = random.pick(&DESCRIPTORS);
        let vector = match random.below(4) {
            0 => random.pick(&[0, 1, 0x3F, 0x40, 0x7F, 0x80, 0xBF, 0xC0, 0xFE, 0xFF]),
            _ => random.below(256),
        };
        set(
            16 * n,
            to << 32 | vector << 16 | random.below(2) << 14 | 0x8001,
        );
    }
    for descriptor in &DESCRIPTORS[1..] {
        for n in 0..4 {
            let few = random.word() & random.word() & random.word() & random.word();
            let word = if random.coin() { 0 } else { few };
            set(*descriptor as usize + 8 * n, word);
        }
        set(
            *descriptor as usize + 32,
            0x0000_0700_00F2_0000 | random.below(4),
        );
    }
    let length = if random.one_in(8) {
        LENGTH - random.below(65) as usize
    } else {
        LENGTH
    };
    image.truncate(length);
    image
}

/// Mostly a descriptor that is posted to, else one that isn't aligned, outside, or at the end.
fn descriptor(random: &mut Random) -> u64 {
    let near = random.pick(&DESCRIPTORS);
    match random.below(16) {
        0 => near + random.pick(&[1, 2, 4, 8, 16, 32, 48, 63]),
        1 => random.pick(&[0x400, 0x3FF, 1 << 32, 1 << 63, 0u64.wrapping_sub(64)]),
        2 => 64 * random.below(17),
        _ => near,
    }
}

impl Run {
    /// The run of a number.
    pub fn build(number: u64) -> Self {
        let mut random = Random::of(NAME, number);
        let registers = registers(&mut random);
        let image = image(&mut random);
        let length = 1 + random.below(48);
        let steps = (0..length).map(|_| match random.below(3) {
            0 => Step::Post {
                handle: random.below(34),
            },
            _ => Step::Take {
                descriptor: descriptor(&mut random),
            },
        });
        let steps = steps.collect();
        Self {
            registers,
            image,
            steps,
        }
    }

    /// Runs it on both sides.
    pub fn run(&self, flaw: Flaw, mut tally: Option<&mut Tally>) -> Result<(), String> {
        let packed = bytes::registers(&self.registers);
        let mut theirs = self.image.clone();
        let mut ours = Lent::default();
        ours.take(&self.image, self.steps.len() % 8);
        let mut books = Books::new(&self.image);
        for (n, step) in self.steps.iter().enumerate() {
            let before = theirs.clone();
            let (expected, answered) = match *step {
                Step::Post { handle } => {
                    let address = 0xFEE0_0010 | handle << 5;
                    let outcome =
                        interrupt_request(&self.registers, &mut theirs, 0x0310, address, 0);
                    let mut answer = [0; ANSWER_SIZE];
                    interface::interrupt_request(
                        &packed,
                        &flat(self.image.len()),
                        ours.content_mut(),
                        0x0310,
                        address,
                        0,
                        &mut answer,
                    );
                    if let Outcome::Posted { .. } = outcome {
                        books.posted(&before, handle);
                    }
                    let same = answer == bytes::answer(&outcome);
                    (u32::from(same), 1)
                }
                Step::Take { descriptor } => {
                    let taken = flaw.take(&self.registers, &mut theirs, descriptor);
                    books.taken(descriptor, taken);
                    if let Some(tally) = tally.as_deref_mut() {
                        tally.meet(met(&before, descriptor, taken));
                    }
                    let windows = flat(self.image.len());
                    let status = interface::take(&packed, &windows, ours.content_mut(), descriptor);
                    (status_of(taken), status)
                }
            };
            if let Some(tally) = tally.as_deref_mut() {
                tally.cases += 1;
            }
            if expected != answered || ours.content() != theirs || !ours.kept() {
                return Err(format!(
                    "step {n}, {step}: {answered:X}h, expected {expected:X}h"
                ));
            }
        }
        books.balance(ours.content())
    }

    /// Prints it.
    pub fn print(&self) {
        println!("{:X?}", self.registers);
        println!("{}", crate::print::hex(&self.image));
        for step in &self.steps {
            println!("{step}");
        }
    }
}

/// The header's status.
pub fn status_of(taken: Take) -> u32 {
    match taken {
        Take::Vector(vector) => 0x200 + u32::from(vector),
        Take::None => 0x40,
        Take::Refused(number) => u32::from(number),
    }
}

fn met(before: &[u8], descriptor: u64, taken: Take) -> Met {
    let bit = |at: usize| before[descriptor as usize + at] & 1 == 1;
    match taken {
        Take::Vector(vector) => Met::Taken {
            word: vector / 64,
            on: bit(32),
        },
        Take::None => Met::NoneStands { on: bit(32) },
        Take::Refused(number) => Met::TakeRefused {
            number,
            aligned: descriptor % 64 == 0,
        },
    }
}

/// Of each descriptor and vector: standing at the start and posts that found it clear, less the times
/// it was handed out.
struct Books {
    sums: Vec<i64>,
}

impl Books {
    fn new(image: &[u8]) -> Self {
        let sums = (0..8 * LENGTH).map(|n| stands(image, n)).collect();
        Self { sums }
    }

    /// A post through the entry of a handle, as it was.
    fn posted(&mut self, before: &[u8], handle: u64) {
        let entry = &before[16 * handle as usize..][..8];
        let descriptor = u32::from_le_bytes([entry[4], entry[5], entry[6], entry[7]]) as usize;
        let place = 8 * descriptor + usize::from(entry[2]);
        self.sums[place] += 1 - stands(before, place);
    }

    fn taken(&mut self, descriptor: u64, taken: Take) {
        if let Take::Vector(vector) = taken {
            self.sums[8 * descriptor as usize + usize::from(vector)] -= 1;
        }
    }

    /// What is left stands, and nothing else of the request bits.
    fn balance(&self, image: &[u8]) -> Result<(), String> {
        let requests = (0..8 * LENGTH).filter(|n| n % 512 < 256);
        for place in requests {
            if self.sums[place] != stands(image, place) {
                return Err(format!("bit {place} of the image: lost or invented"));
            }
        }
        Ok(())
    }
}

fn stands(image: &[u8], place: usize) -> i64 {
    let byte = image.get(place / 8).copied().unwrap_or(0);
    i64::from(byte >> (place % 8) & 1)
}

impl Flaw {
    /// The reference's take, with the flaw.
    fn take(self, registers: &Registers, image: &mut [u8], descriptor: u64) -> Take {
        let before = image.to_vec();
        let whole = descriptor
            .checked_add(64)
            .is_some_and(|end| end <= before.len() as u64);
        if self == Flaw::AlignedTo32 && descriptor % 64 == 32 && whole {
            return Take::None;
        }
        let taken = take(registers, image, descriptor);
        let at = descriptor as usize;
        match (self, taken) {
            (Flaw::VectorKept, Take::Vector(vector)) => {
                let byte = at + usize::from(vector) / 8;
                image[byte] = before[byte];
            }
            (Flaw::LowestTaken, Take::Vector(vector)) => {
                let lowest = (0..256).find(|&n| stands(&before, 8 * at + n) == 1);
                let lowest = lowest.unwrap_or(0);
                image[at..at + 32].copy_from_slice(&before[at..at + 32]);
                image[at + lowest / 8] &= !(1 << (lowest % 8));
                let _ = vector;
                return Take::Vector(lowest as u8);
            }
            (Flaw::OnKeptAtNone, Take::None) => image[at + 32] = before[at + 32],
            (Flaw::SnCleared, Take::Vector(_) | Take::None) => image[at + 32] &= !2,
            _ => {}
        }
        taken
    }
}

impl fmt::Display for Step {
    fn fmt(&self, f: &mut fmt::Formatter<'_>) -> fmt::Result {
        match self {
            Step::Post { handle } => write!(f, "post {handle}"),
            Step::Take { descriptor } => write!(f, "take {descriptor:X}h"),
        }
    }
}
