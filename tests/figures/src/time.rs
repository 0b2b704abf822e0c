//! Times, in short rounds that take turns.

use crate::load::Load;
use crate::sides::{run, Prepared, Side};
use std::fs;
use std::time::Instant;

/// Rounds of a row. Each lasts less than a millisecond or about that, so that most of them are left
/// alone by whatever else the machine does.
pub const ROUNDS: usize = 500;

/// Times that a round is taken again where it wasn't left alone.
const AGAIN: usize = 20;

/// Nanoseconds for each request: a list of rounds for each side.
pub struct Times([Vec<f64>; 3]);

/// How often this thread was put aside for another, where the system tells.
fn put_aside() -> Option<u64> {
    let status = fs::read_to_string("/proc/thread-self/status").ok()?;
    let counts = status.lines().filter_map(|line| {
        let (name, count) = line.split_once(':')?;
        let count: u64 = count.trim().parse().ok()?;
        name.ends_with("ctxt_switches").then_some(count)
    });
    Some(counts.sum())
}

/// Seconds of one round in which the thread wasn't put aside, if there was such a one.
pub fn round(mut work: impl FnMut()) -> f64 {
    let mut seconds = 0.0;
    for _ in 0..AGAIN {
        let before = put_aside();
        let start = Instant::now();
        work();
        seconds = start.elapsed().as_secs_f64();
        if put_aside() == before {
            break;
        }
    }
    seconds
}

/// Two sides in turns: the first's seconds beside the second's, round by round.
pub struct Spread(Vec<[f64; 2]>);

impl Spread {
    /// Measures.
    pub fn measure(mut work: impl FnMut(usize)) -> Self {
        let mut rounds = Vec::new();
        // The first round warms up; the order turns from round to round.
        for number in 0..=ROUNDS {
            let mut seconds = [0.0; 2];
            for turn in 0..2 {
                let side = (number + turn) % 2;
                seconds[side] = round(|| work(side));
            }
            rounds.push(seconds);
        }
        rounds.remove(0);
        Self(rounds)
    }

    /// The best round of each side.
    pub fn best(&self) -> [f64; 2] {
        [0, 1].map(|side| {
            let rounds = self.0.iter().map(|seconds| seconds[side]);
            rounds.fold(f64::INFINITY, f64::min)
        })
    }

    /// Of the rounds' own ratios, those with a tenth below and with a tenth above.
    pub fn ratios(&self) -> (f64, f64) {
        let mut ratios: Vec<f64> = self.0.iter().map(|[one, other]| one / other).collect();
        ratios.sort_by(f64::total_cmp);
        (ratios[ratios.len() / 10], ratios[ratios.len() * 9 / 10])
    }
}

/// Measures a load.
pub fn measure(load: &Load, prepared: &Prepared, passes: usize) -> Times {
    let mut image = load.run.clone();
    let requests = (passes * load.requests.len()) as f64;
    let mut times = Times(Default::default());
    // The first round warms up; the order turns from round to round.
    for number in 0..=ROUNDS {
        for turn in 0..Side::ALL.len() {
            let which = (number + turn) % Side::ALL.len();
            let side = Side::ALL[which];
            let seconds = round(|| run(side, prepared, &mut image, &load.requests, passes));
            if number > 0 {
                times.0[which].push(seconds * 1e9 / requests);
            }
        }
    }
    times
}

impl Times {
    fn of(&self, side: Side) -> &[f64] {
        &self.0[side as usize]
    }

    /// The best round of a side.
    pub fn best(&self, side: Side) -> f64 {
        self.of(side).iter().copied().fold(f64::INFINITY, f64::min)
    }

    /// How often as long the proved unit takes: by the best rounds, and, of the rounds' own ratios,
    /// those with a tenth below and with a tenth above.
    pub fn ratio(&self, to: Side) -> (f64, f64, f64) {
        let rounds = self.of(Side::Proved).iter().zip(self.of(to));
        let mut ratios: Vec<f64> = rounds.map(|(proved, other)| proved / other).collect();
        ratios.sort_by(f64::total_cmp);
        let part = |n: usize| ratios[ratios.len() * n / 10];
        (self.best(Side::Proved) / self.best(to), part(1), part(9))
    }
}
