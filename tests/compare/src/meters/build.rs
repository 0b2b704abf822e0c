//! The rows and their calls, by number.

use super::{Row, Step, NAME};
use cases::Random;

/// The greatest load.
const TOP: f64 = 131_070.0;

/// The next number away from zero.
fn next(number: f64) -> f64 {
    f64::from_bits(number.to_bits() + 1)
}

/// The next number towards zero, or zero.
fn last(number: f64) -> f64 {
    f64::from_bits(number.to_bits().saturating_sub(1))
}

fn fraction(random: &mut Random) -> f64 {
    random.bits(53) as f64 / 2f64.powi(random.below(53) as i32)
}

fn good_load(random: &mut Random) -> f64 {
    match random.below(8) {
        0 => 0.0,
        1 => -0.0,
        2 => TOP,
        3 => last(TOP),
        4 => random.pick(&[next(0.0), f64::MIN_POSITIVE, 1.0, 65_535.0]),
        _ => fraction(random) % TOP,
    }
}

fn good_count(random: &mut Random) -> u32 {
    match random.below(4) {
        0 => 0,
        1 => random.pick(&[1, 65_534, 65_535]),
        _ => random.bits(16) as u32,
    }
}

fn good_end(random: &mut Random) -> f64 {
    match random.below(4) {
        0 => random.pick(&[0.0, -0.0, next(0.0), next(TOP), f64::MAX]),
        _ => fraction(random),
    }
}

/// Neither finite nor from 0 on.
fn bad_end(random: &mut Random) -> f64 {
    random.pick(&[
        f64::NAN,
        -f64::NAN,
        f64::from_bits(0x7FF0_0000_0000_0001),
        f64::INFINITY,
        f64::NEG_INFINITY,
        -1.0,
        next(-0.0),
        f64::MIN,
    ])
}

/// Any number, where no one looks at it.
fn any_end(random: &mut Random) -> f64 {
    if random.coin() {
        bad_end(random)
    } else {
        good_end(random)
    }
}

/// Often the load itself, or a number beside it.
fn end_near(random: &mut Random, load: f64) -> f64 {
    match random.below(6) {
        0 | 1 => load,
        2 => next(load),
        3 => last(load),
        _ => good_end(random),
    }
}

impl Row {
    /// The row of a number.
    pub fn build(number: u64) -> Self {
        let mut random = Random::of(NAME, number);
        match random.below(8) {
            0 | 1 => Self::good(&mut random),
            2 | 3 => Self::with_bad(&mut random, 1),
            4 => Self::with_bad(&mut random, 3),
            5 => Self::run_from_reset(&mut random),
            6 => Self::malformed(&mut random),
            _ => Self::one_count(&mut random),
        }
    }

    /// So many meters, with gates that are near to tripping on the first tick, and that tick.
    fn of(random: &mut Random, meters: usize) -> Self {
        let mut row = Self {
            kinds: Vec::new(),
            lows: Vec::new(),
            highs: Vec::new(),
            loads: Vec::new(),
            steps: Vec::new(),
        };
        let mut counts = Vec::new();
        for _ in 0..meters {
            let (load, count) = (good_load(random), good_count(random));
            let ticked = load / 2.0 + f64::from(count);
            let [one, other] = [0, 0].map(|_| end_near(random, ticked));
            let kind = random.below(3) as u8;
            let (low, high) = match kind {
                0 => (any_end(random), any_end(random)),
                1 => (any_end(random), one),
                _ => (one.min(other), one.max(other)),
            };
            row.kinds.push(kind);
            row.lows.push(low);
            row.highs.push(high);
            row.loads.push(load);
            counts.push(count);
        }
        row.steps.push(Step::Tick {
            counts,
            bytes: meters,
        });
        row
    }

    /// Good ticks more, all at random.
    fn tick_on(&mut self, random: &mut Random, ticks: u64) {
        let meters = self.loads.len();
        for _ in 0..ticks {
            let counts = (0..meters).map(|_| good_count(random)).collect();
            self.steps.push(Step::Tick {
                counts,
                bytes: meters,
            });
        }
    }

    /// Nothing bad; no meter, a few, or many.
    fn good(random: &mut Random) -> Self {
        let meters = match random.below(20) {
            0 => 0,
            1 => 200,
            _ => 1 + random.below(8) as usize,
        };
        let mut row = Self::of(random, meters);
        row.tick_on(random, 2);
        row
    }

    /// So many bad things. Then a reset, and a tick that is bad only by its gates.
    fn with_bad(random: &mut Random, bad: usize) -> Self {
        let meters = 1 + random.below(8) as usize;
        let mut row = Self::of(random, meters);
        for _ in 0..bad {
            row.spoil(random);
        }
        row.steps.push(Step::Reset);
        row.tick_on(random, 1);
        row
    }

    /// Makes one thing bad.
    fn spoil(&mut self, random: &mut Random) {
        let at = random.below(self.loads.len() as u64) as usize;
        let Some(Step::Tick { counts, bytes }) = self.steps.first_mut() else {
            return;
        };
        match random.below(9) {
            0 => drop(counts.pop()),
            1 => counts.push(0),
            2 => *bytes = bytes.saturating_sub(1),
            3 => *bytes += 1,
            4 => {
                if let Some(count) = counts.get_mut(at) {
                    *count = random.pick(&[65_536, 65_536, 65_537, 131_072, u32::MAX]);
                }
            }
            5 => {
                self.loads[at] = match random.below(3) {
                    0 => next(TOP),
                    1 => random.pick(&[131_071.0, f64::MAX]),
                    _ => bad_end(random),
                }
            }
            6 => (self.kinds[at], self.highs[at]) = (1, bad_end(random)),
            7 => {
                let (low, high) = (bad_end(random), good_end(random));
                let turned = random.coin();
                let (low, high) = if turned { (high, low) } else { (low, high) };
                (self.kinds[at], self.lows[at], self.highs[at]) = (2, low, high);
            }
            _ => {
                let high = fraction(random);
                let low = if random.coin() {
                    next(high)
                } else {
                    2.0 * high + 1.0
                };
                (self.kinds[at], self.lows[at], self.highs[at]) = (2, low, high);
            }
        }
    }

    /// A run of 70 ticks from a reset, some of them refused; sometimes a reset among them.
    fn run_from_reset(random: &mut Random) -> Self {
        let meters = 1 + random.below(3) as usize;
        let mut row = Self::of(random, meters);
        row.steps = vec![Step::Reset];
        row.tick_on(random, 70);
        let always = random.one_in(4);
        for step in &mut row.steps {
            let Step::Tick { counts, .. } = step else {
                continue;
            };
            if always {
                counts.fill(65_535);
            }
            if random.one_in(30) {
                counts[0] = 65_536;
            }
        }
        if random.one_in(3) {
            row.steps.insert(random.below(70) as usize, Step::Reset);
        }
        row
    }

    /// One count after a reset, then none: 40 ticks, or so many that the load comes to 0.
    fn one_count(random: &mut Random) -> Self {
        let mut row = Self::of(random, 2);
        let counts = (0..2).map(|_| good_count(random)).collect();
        row.steps = vec![Step::Reset, Step::Tick { counts, bytes: 2 }];
        let ticks = if random.one_in(50) { 1150 } else { 40 };
        row.steps.extend((0..ticks).map(|_| Step::Tick {
            counts: vec![0; 2],
            bytes: 2,
        }));
        row
    }

    /// Malformed, with anything else bad too, or nothing.
    fn malformed(random: &mut Random) -> Self {
        let meters = 1 + random.below(4) as usize;
        let mut row = Self::of(random, meters);
        if random.coin() {
            row.spoil(random);
        }
        let length = if random.coin() {
            meters + 1
        } else {
            meters - 1
        };
        let at = random.below(meters as u64) as usize;
        match random.below(5) {
            0 => row.kinds.resize(length, 0),
            1 => row.lows.resize(length, 0.0),
            2 => row.highs.resize(length, 0.0),
            3 => row.kinds[at] = 3,
            _ => row.kinds[at] = 4 + random.below(252) as u8,
        }
        row
    }
}
