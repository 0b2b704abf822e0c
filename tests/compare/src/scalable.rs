//! Requests in scalable mode, put to both sides. Status, answer and run are compared, and the bits that the run has
//! more than before are those that the reference lists.

use crate::bytes;
use crate::flaw::Flaw;
use crate::lent::Lent;
use crate::met;
use crate::met::Met;
use crate::print::hex;
use crate::tally::Tally;
use cases::scalable::{any, fixed, Laid};
use cases::Random;
use interface::ANSWER_SIZE;
use reference::{flags_scalable, named_words_scalable, scalable_request, Flag};
use reference::{Outcome, Window};
use reference::{ScalableRegisters, ScalableRequest};
use std::fmt;
use std::sync::OnceLock;

/// The suite's name.
pub const NAME: &str = "scalable";

/// Cases of tables of any kind.
const ANY: u64 = 200_000;

/// Of each of three fixed images, so many words are laid at most; each of their bits is turned over.
const FLIPS: u64 = 64 * 64;

/// What an answer buffer holds before a call. An answer overwrites all of it.
const BEFORE: [u8; ANSWER_SIZE] = [0xA5; ANSWER_SIZE];

/// The most words that a request reads.
const MOST_WORDS: usize = 50;

/// Cases.
pub const CASES: u64 = ANY + 3 * FLIPS;

/// How a request was answered.
#[derive(Clone, Copy, Debug, PartialEq, Eq, PartialOrd, Ord)]
pub enum Seen {
    /// Refused, by number.
    Refused(u8),
    /// Granted with TE off.
    Off,
    /// Granted by the address itself.
    Through,
    /// Granted by a walk: PGTT, whether it is a write, whether a flag was to be set that wasn't.
    Granted { pgtt: u64, write: bool, sets: bool },
    /// A fault.
    Blocked { reason: u8, recordable: bool },
}

/// All fault reasons.
const REASONS: [u8; 32] = [
    0x38, 0x39, 0x3A, 0x40, 0x41, 0x42, 0x43, 0x45, 0x46, 0x50, 0x51, 0x52, 0x58, 0x59, 0x5A, 0x5B,
    0x5D, 0x70, 0x71, 0x72, 0x73, 0x74, 0x78, 0x79, 0x7A, 0x7B, 0x7C, 0x80, 0x81, 0x84, 0x85, 0x86,
];

/// Those that no FPD silences.
const NEVER_SILENCED: [u8; 6] = [0x38, 0x39, 0x3A, 0x40, 0x50, 0x58];

impl Seen {
    /// All that has to be met.
    pub fn all() -> Vec<Self> {
        let mut all = [1, 2, 4, 6].map(Seen::Refused).to_vec();
        all.extend([Seen::Off, Seen::Through]);
        for pgtt in 1..=3 {
            for (write, sets) in [(false, false), (false, true), (true, false), (true, true)] {
                all.push(Seen::Granted { pgtt, write, sets });
            }
        }
        for reason in REASONS {
            let recordable = true;
            all.push(Seen::Blocked { reason, recordable });
            if !NEVER_SILENCED.contains(&reason) {
                let recordable = false;
                all.push(Seen::Blocked { reason, recordable });
            }
        }
        all
    }
}

/// The case of a number: three fixed images with one bit turned over each, then any.
fn build(number: u64) -> Laid {
    if number >= 3 * FLIPS {
        return any(&mut Random::of(NAME, number));
    }
    static FIXED: OnceLock<[Laid; 3]> = OnceLock::new();
    let images = FIXED.get_or_init(|| [0, 1, 2].map(fixed));
    let mut laid = images[(number / FLIPS) as usize].clone();
    let n = number % FLIPS;
    // Past the last word nothing is turned over.
    if let Some(&at) = laid.words.get(n as usize / 64) {
        laid.flip(at, n % 64);
    }
    laid
}

fn capabilities(r: &ScalableRegisters) -> u32 {
    let bits = [
        r.flts, r.slts, r.nest, r.pt, r.fl5lp, r.fl1gp, r.slads, r.eafs, r.srs, r.smpwc,
    ];
    let numbered = bits.iter().zip(0..);
    numbered.fold(0, |all, (&bit, n)| all | u32::from(bit) << n)
}

/// Whether a listed flag is clear in the run.
fn any_clear(windows: &[Window], run: &[u8], flags: &[Flag]) -> bool {
    flags.iter().any(|flag| {
        let byte = flag.entry + u64::from(flag.bit / 8);
        let place = cases::place(windows, byte).expect("a listed flag's entry was read");
        run[place] >> (flag.bit % 8) & 1 == 0
    })
}

/// PGTT, bits 8:6, of the PASID table entry, the last of eight words before the walk's.
fn pgtt(laid: &Laid, words: &[u64]) -> u64 {
    // Root entry 2, context entry 4, directory entry 1.
    let first = cases::place(&laid.windows, words[7]).expect("a named word lies in a window");
    let word = u64::from_le_bytes(laid.run[first..first + 8].try_into().expect("8 bytes"));
    word >> 6 & 7
}

fn seen(
    laid: &Laid,
    request: ScalableRequest,
    outcome: &Outcome,
    words: &[u64],
    sets: bool,
) -> Seen {
    match outcome {
        Outcome::Refused(number) => Seen::Refused(*number),
        Outcome::Blocked(fault) => Seen::Blocked {
            reason: fault.reason,
            recordable: fault.recordable,
        },
        _ if words.is_empty() => Seen::Off,
        _ => match pgtt(laid, words) {
            4 => Seen::Through,
            pgtt => Seen::Granted {
                pgtt,
                write: request.write,
                sets,
            },
        },
    }
}

/// Puts a case to both sides. Its requests follow each other on one run, so that flags of one are there for the next.
pub fn run(number: u64, flaw: Flaw, mut tally: Option<&mut Tally>) -> Result<(), String> {
    let mut laid = build(number);
    let packed = bytes::registers(&laid.registers.base);
    let numbers = |w: &Window| [w.start, w.from, w.length];
    let windows: Vec<u64> = laid.windows.iter().flat_map(numbers).collect();
    let (mut ours, mut answer) = (Lent::default(), Lent::default());
    ours.take(&laid.run, number as usize % 8);
    for (n, request) in laid.requests.clone().into_iter().enumerate() {
        answer.take(&BEFORE, n % 8);
        let kind = u8::from(request.write) | u8::from(request.pasid.is_some()) << 1;
        let status = interface::scalable_request(
            &packed,
            capabilities(&laid.registers),
            &windows,
            ours.content_mut(),
            request.source,
            request.address,
            kind,
            request.pasid.unwrap_or(0xFFFF_FFFF),
            answer.content_mut(),
        );
        let (r, w) = (&laid.registers, &laid.windows);
        let words = named_words_scalable(r, w, &laid.run, request);
        let flags = flags_scalable(r, w, &laid.run, request);
        let sets = any_clear(w, &laid.run, &flags);
        let mut after = laid.run.clone();
        let mut outcome = scalable_request(r, w, &mut after, request);
        if let Some(tally) = tally.as_deref_mut() {
            tally.cases += 1;
            tally.meet(Met::Scalable(seen(&laid, request, &outcome, &words, sets)));
        }
        flaw.scalable(&laid, request, &words, &mut outcome, &mut after);
        let (expected, kept) = (bytes::answer(&outcome), ours.kept() && answer.kept());
        let same_run = ours.content() == after;
        if status != 0
            || answer.content() != expected
            || !kept
            || !same_run
            || words.len() > MOST_WORDS
        {
            return Err(format!(
                "{request:X?}: {status:X}h, {}\nexpected {}; the same run: {same_run}; words read: {}",
                hex(answer.content()),
                hex(&expected),
                words.len()
            ));
        }
        laid.run = after;
    }
    Ok(())
}

/// Prints a case.
pub fn print(number: u64) {
    let laid = build(number);
    println!("{:X?}", laid.registers);
    println!("{:X?}", laid.windows);
    for &at in &laid.words {
        let bytes = laid.run.get(at as usize..at as usize + 8).unwrap_or(&[]);
        println!("{at:X}: {}", hex(bytes));
    }
    for request in &laid.requests {
        println!("{request:X?}");
    }
}

impl Flaw {
    /// What becomes of the reference's answer and run.
    fn scalable(
        self,
        laid: &Laid,
        request: ScalableRequest,
        words: &[u64],
        outcome: &mut Outcome,
        after: &mut Vec<u8>,
    ) {
        match (self, outcome) {
            (Flaw::DirtyOnRead, Outcome::Granted(_)) if !request.write && words.len() > 15 => {
                let write = ScalableRequest {
                    write: true,
                    ..request
                };
                after.clone_from(&laid.run);
                scalable_request(&laid.registers, &laid.windows, after, write);
            }
            (Flaw::AccessedOfABlocked, Outcome::Blocked(_)) if words.len() > 15 => {
                if let Some(place) = cases::place(&laid.windows, words[15]) {
                    after[place] |= 1 << 5;
                }
            }
            (Flaw::PasidLost, Outcome::Blocked(fault)) if request.pasid.is_some() => {
                fault.record[11] &= 0x7F
            }
            (Flaw::TopAccessAsAny, Outcome::Blocked(fault)) if fault.reason == 0x73 => {
                fault.reason = 0x70;
                fault.record[12] = 0x70;
            }
            (Flaw::DirectoryFpdIgnored, Outcome::Blocked(fault))
                if !fault.recordable && words.len() == 7 =>
            {
                fault.recordable = true;
            }
            _ => {}
        }
    }
}

impl fmt::Display for Seen {
    fn fmt(&self, f: &mut fmt::Formatter<'_>) -> fmt::Result {
        match *self {
            Seen::Refused(number) => write!(f, "refused {number}"),
            Seen::Off => write!(f, "granted, TE off"),
            Seen::Through => write!(f, "granted, pass-through"),
            Seen::Granted { pgtt, write, sets } => {
                let walk = ["first level", "second level", "nested"][pgtt as usize - 1];
                let kind = if write { "write" } else { "read" };
                let flags = if sets { "flags set" } else { "no flag to set" };
                write!(f, "granted, {walk}, {kind}, {flags}")
            }
            Seen::Blocked { reason, recordable } => {
                write!(f, "{reason:02X}h, {}", met::recorded(recordable))
            }
        }
    }
}
