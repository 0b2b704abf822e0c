//! Rows of meters: runs of ticks and resets, with status, the bits of every load and every byte
//! compared after each call.

mod build;
mod lent;
mod seen;

use crate::flaw::Flaw;
use crate::met::Met;
use crate::tally::Tally;
use interface::Gates;
use lent::Lent;
use reference::{counts_weighted, load_times_2_31, Gate, Meter};
pub use seen::Seen;
use std::fmt;

/// The suite's name.
pub const NAME: &str = "meters";

/// Rows.
pub const ROWS: u64 = 80_000;

/// One call.
enum Step {
    /// A tick, with so many bytes lent.
    Tick { counts: Vec<u32>, bytes: usize },
    /// A reset.
    Reset,
}

/// The arrays of a row, and the calls.
pub struct Row {
    kinds: Vec<u8>,
    lows: Vec<f64>,
    highs: Vec<f64>,
    loads: Vec<f64>,
    steps: Vec<Step>,
}

/// What a call left.
#[derive(PartialEq, Eq)]
struct Left {
    status: u32,
    loads: Vec<u64>,
    bytes: Vec<u8>,
}

/// The bits, so that NaN and -0.0 are told apart.
fn bits(loads: &[f64]) -> Vec<u64> {
    loads.iter().map(|load| load.to_bits()).collect()
}

/// What a byte holds before a tick.
fn byte_before(step: usize) -> u8 {
    0xA0 + (step % 16) as u8
}

impl Row {
    /// The header's "malformed".
    fn is_malformed(&self) -> bool {
        let meters = self.loads.len();
        let lengths = [self.kinds.len(), self.lows.len(), self.highs.len()];
        lengths != [meters; 3] || self.kinds.iter().any(|&kind| kind > 2)
    }

    /// The gates, by the header's kinds. A row that isn't malformed has one for each load.
    fn gates(&self) -> Vec<Gate> {
        let ends = self.lows.iter().zip(&self.highs);
        let gate = |(&kind, (&low, &high))| match kind {
            0 => Gate::Off,
            1 => Gate::Above { limit: high },
            _ => Gate::Outside { low, high },
        };
        self.kinds.iter().zip(ends).map(gate).collect()
    }

    /// Makes the calls on both sides.
    pub fn run(&self, flaw: Flaw, tally: Option<&mut Tally>) -> Result<(), String> {
        let mut tally = tally;
        let gates = self.gates();
        let mut loads = Lent::new(&self.loads);
        let mut theirs = self.loads.clone();
        let mut since = Since::default();
        for (n, step) in self.steps.iter().enumerate() {
            let before = theirs.clone();
            let ours = self.ours(step, n, &mut loads)?;
            let expected = self.theirs(flaw, step, n, &gates, &mut theirs);
            if ours != expected {
                return Err(format!(
                    "call {n} differs: {step}\n  expected: {expected}\n  Galitzaf: {ours}"
                ));
            }
            since.follow(step, ours.status, loads.content())?;
            if let Some(tally) = tally.as_deref_mut() {
                tally.cases += 1;
                let mut meet = |seen| tally.meet(Met::Meters(seen));
                match step {
                    Step::Reset => seen::reset(&before, &mut meet),
                    Step::Tick { counts, bytes } if !self.is_malformed() => {
                        let call = seen::Tick {
                            gates: &gates,
                            before: &before,
                            counts,
                            bytes: *bytes,
                            ticks: since.ticks(),
                        };
                        call.meet(ours.status, &theirs, &mut meet);
                        if ours.status == 0 && self.has_unused_bad_number() {
                            meet(Seen::UnusedBadNumber);
                        }
                    }
                    Step::Tick { .. } => self.meet_malformed(&mut meet),
                }
            }
        }
        Ok(())
    }

    /// Whether a low or a high that its kind doesn't look at would be refused by another.
    fn has_unused_bad_number(&self) -> bool {
        let bad = |end: f64| !(end.is_finite() && end >= 0.0);
        let ends = self.lows.iter().zip(&self.highs);
        let mut meters = self.kinds.iter().zip(ends);
        meters.any(|(&kind, (&low, &high))| match kind {
            0 => bad(low) || bad(high),
            1 => bad(low),
            _ => false,
        })
    }

    /// What is malformed, where it is that alone.
    fn meet_malformed(&self, meet: &mut impl FnMut(Seen)) {
        let meters = self.loads.len();
        let what = [
            (self.kinds.len() != meters, Seen::BadKindsLength),
            (self.lows.len() != meters, Seen::BadLowsLength),
            (self.highs.len() != meters, Seen::BadHighsLength),
            (self.kinds.contains(&3), Seen::BadKind3),
            (self.kinds.iter().any(|&kind| kind > 3), Seen::BadKindAbove3),
        ];
        let mut what = what.iter().filter(|(is, _)| *is);
        if let (Some(&(_, seen)), None) = (what.next(), what.next()) {
            meet(seen);
        }
    }

    fn ours(&self, step: &Step, n: usize, loads: &mut Lent<f64>) -> Result<Left, String> {
        let (status, bytes) = match step {
            Step::Reset => (interface::reset_meters(loads.content_mut()), Vec::new()),
            Step::Tick { counts, bytes } => {
                let mut bytes = Lent::new(&vec![byte_before(n); *bytes]);
                let gates = Gates {
                    kinds: &self.kinds,
                    lows: &self.lows,
                    highs: &self.highs,
                };
                let (lent, marks) = (loads.content_mut(), bytes.content_mut());
                let status = interface::tick_meters(gates, lent, counts, marks);
                if !bytes.kept() {
                    return Err(format!("call {n} wrote beside the bytes: {step}"));
                }
                (status, bytes.content().to_vec())
            }
        };
        if !loads.kept() {
            return Err(format!("call {n} wrote beside the loads: {step}"));
        }
        let loads = bits(loads.content());
        Ok(Left {
            status,
            loads,
            bytes,
        })
    }

    fn theirs(&self, flaw: Flaw, step: &Step, n: usize, gates: &[Gate], loads: &mut [f64]) -> Left {
        let mut meters: Vec<Meter> = loads.iter().zip(gates).map(with_gate).collect();
        let (status, bytes) = match step {
            Step::Reset => {
                reference::reset_meters(&mut meters);
                write(loads, &meters);
                (0, Vec::new())
            }
            Step::Tick { bytes, .. } if self.is_malformed() => {
                (0x106, vec![byte_before(n); *bytes])
            }
            Step::Tick { counts, bytes } => {
                let before = meters.clone();
                let mut bytes = vec![byte_before(n); *bytes];
                let refused = reference::tick_meters(&mut meters, counts, &mut bytes).is_err();
                flaw.after_tick(refused, &before, &mut meters, counts, &mut bytes);
                write(loads, &meters);
                (if refused { 0x60 } else { 0 }, bytes)
            }
        };
        let loads = bits(loads);
        Left {
            status,
            loads,
            bytes,
        }
    }

    /// Prints it.
    pub fn print(&self) {
        println!("kinds {:?}", self.kinds);
        println!("lows {:?}", self.lows);
        println!("highs {:?}", self.highs);
        println!("loads {:?}", self.loads);
        for (n, step) in self.steps.iter().enumerate() {
            println!("call {n}: {step}");
        }
    }
}

fn with_gate((&load, &gate): (&f64, &Gate)) -> Meter {
    Meter { load, gate }
}

fn write(loads: &mut [f64], meters: &[Meter]) {
    for (load, meter) in loads.iter_mut().zip(meters) {
        *load = meter.load;
    }
}

/// The counts of each meter since a reset, for what document 02 says of the ticks after one.
#[derive(Default)]
struct Since {
    counts: Option<Vec<Vec<u32>>>,
}

impl Since {
    /// How many ticks there were, where there was a reset.
    fn ticks(&self) -> Option<usize> {
        self.counts.as_ref().map(Vec::len)
    }

    /// One call more. A refused tick is no tick.
    fn follow(&mut self, step: &Step, status: u32, loads: &[f64]) -> Result<(), String> {
        match step {
            Step::Reset => self.counts = Some(Vec::new()),
            Step::Tick { counts, .. } if status == 0 => {
                if let Some(ticks) = &mut self.counts {
                    ticks.push(counts.clone());
                }
            }
            Step::Tick { .. } => {}
        }
        let Some(ticks) = &self.counts else {
            return Ok(());
        };
        if ticks.len() > 32 {
            return match loads.iter().find(|&&load| load > 131_070.0) {
                Some(load) => Err(format!("load {load:?} after {} ticks", ticks.len())),
                None => Ok(()),
            };
        }
        for (meter, &load) in loads.iter().enumerate() {
            let counts: Vec<u32> = ticks.iter().map(|counts| counts[meter]).collect();
            let whole = counts_weighted(&counts);
            if load_times_2_31(load) != whole {
                return Err(format!(
                    "meter {meter}: load {load:?} times 2^31 isn't {whole:?}, of {counts:?}"
                ));
            }
        }
        Ok(())
    }
}

impl Flaw {
    /// What a flawed tick leaves.
    fn after_tick(
        self,
        refused: bool,
        before: &[Meter],
        meters: &mut [Meter],
        counts: &[u32],
        bytes: &mut [u8],
    ) {
        for (meter, byte) in meters.iter_mut().zip(bytes.iter_mut()).filter(|_| !refused) {
            *byte |= match (self, meter.gate) {
                (Flaw::LimitTripsAtEquality, Gate::Above { limit }) => {
                    u8::from(meter.load == limit)
                }
                (Flaw::BandEndsOutside, Gate::Outside { low, high }) => {
                    u8::from(meter.load == low || meter.load == high)
                }
                _ => 0,
            };
        }
        if self == Flaw::AddedThenHalved && !refused {
            for ((meter, before), &count) in meters.iter_mut().zip(before).zip(counts) {
                meter.load = (before.load + f64::from(count)) / 2.0;
            }
        }
        if self == Flaw::RefusalTicks && refused {
            for ((meter, count), byte) in meters.iter_mut().zip(counts).zip(bytes) {
                let (meter, byte) = (std::slice::from_mut(meter), std::slice::from_mut(byte));
                if reference::tick_meters(meter, &[*count], byte).is_err() {
                    break;
                }
            }
        }
    }
}

impl fmt::Display for Step {
    fn fmt(&self, f: &mut fmt::Formatter<'_>) -> fmt::Result {
        match self {
            Step::Tick { counts, bytes } => write!(f, "tick {counts:?}, {bytes} bytes"),
            Step::Reset => f.write_str("reset"),
        }
    }
}

impl fmt::Display for Left {
    fn fmt(&self, f: &mut fmt::Formatter<'_>) -> fmt::Result {
        let loads: Vec<f64> = self
            .loads
            .iter()
            .map(|&bits| f64::from_bits(bits))
            .collect();
        let (status, bytes) = (self.status, &self.bytes);
        write!(
            f,
            "status {status:X}, loads {loads:?} ({:X?}), bytes {bytes:X?}",
            self.loads
        )
    }
}
