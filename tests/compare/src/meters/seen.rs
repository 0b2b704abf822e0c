//! What calls on meters met. A refusal is counted by what is bad where that alone is.

use reference::Gate;
use std::fmt;

/// What was met.
#[derive(Clone, Copy, Debug, PartialEq, Eq, PartialOrd, Ord)]
pub enum Seen {
    /// A reset.
    Reset,
    /// A reset of a row with a load that no tick would take.
    ResetBadLoad,
    /// A tick of no meters.
    Empty,
    /// A meter ticked at so many ticks after a reset.
    FirstTicks,
    LaterTicks,
    /// The load was rounded.
    Rounded,
    /// The load came to 0 by halving.
    HalvedToZero,
    /// The load, the count or a limit at a bound.
    LoadMinusZero,
    LoadTop,
    CountTop,
    EndMinusZero,
    /// Gates and what they said.
    Off,
    UnusedBadNumber,
    AboveUnder,
    AboveAt,
    AboveOver,
    BandUnder,
    BandAtLow,
    BandWithin,
    BandAtHigh,
    BandOver,
    BandOfOne,
    /// Refused.
    Refused(Bad),
    RefusedSeveral,
    /// Malformed.
    BadKindsLength,
    BadLowsLength,
    BadHighsLength,
    BadKind3,
    BadKindAbove3,
}

/// What is bad.
#[derive(Clone, Copy, Debug, PartialEq, Eq, PartialOrd, Ord)]
pub enum Bad {
    FewCounts,
    ManyCounts,
    FewBytes,
    ManyBytes,
    Count65536,
    CountAbove65536,
    Load(Number),
    LoadJustAbove,
    LoadFarAbove,
    Limit(Number),
    Low(Number),
    High(Number),
    LowOverHigh,
}

/// How a number is bad.
#[derive(Clone, Copy, Debug, PartialEq, Eq, PartialOrd, Ord)]
pub enum Number {
    Nan,
    Infinite,
    BelowZero,
}

const NUMBERS: [Number; 3] = [Number::Nan, Number::Infinite, Number::BelowZero];

impl Number {
    /// How a number is bad, if it is.
    fn of(number: f64) -> Option<Self> {
        if number.is_nan() {
            Some(Self::Nan)
        } else if number.is_infinite() {
            Some(Self::Infinite)
        } else {
            (number < 0.0).then_some(Self::BelowZero)
        }
    }
}

impl Bad {
    fn all() -> impl Iterator<Item = Self> {
        let numbers = NUMBERS.into_iter().flat_map(|number| {
            [Bad::Load, Bad::Limit, Bad::Low, Bad::High].map(|what| what(number))
        });
        [
            Self::FewCounts,
            Self::ManyCounts,
            Self::FewBytes,
            Self::ManyBytes,
            Self::Count65536,
            Self::CountAbove65536,
            Self::LoadJustAbove,
            Self::LoadFarAbove,
            Self::LowOverHigh,
        ]
        .into_iter()
        .chain(numbers)
    }
}

impl Seen {
    /// Each of them.
    pub fn all() -> impl Iterator<Item = Self> {
        [
            Self::Reset,
            Self::ResetBadLoad,
            Self::Empty,
            Self::FirstTicks,
            Self::LaterTicks,
            Self::Rounded,
            Self::HalvedToZero,
            Self::LoadMinusZero,
            Self::LoadTop,
            Self::CountTop,
            Self::EndMinusZero,
            Self::Off,
            Self::UnusedBadNumber,
            Self::AboveUnder,
            Self::AboveAt,
            Self::AboveOver,
            Self::BandUnder,
            Self::BandAtLow,
            Self::BandWithin,
            Self::BandAtHigh,
            Self::BandOver,
            Self::BandOfOne,
            Self::RefusedSeveral,
            Self::BadKindsLength,
            Self::BadLowsLength,
            Self::BadHighsLength,
            Self::BadKind3,
            Self::BadKindAbove3,
        ]
        .into_iter()
        .chain(Bad::all().map(Self::Refused))
    }
}

fn bad_load(load: f64) -> Option<Bad> {
    if let Some(number) = Number::of(load) {
        return Some(Bad::Load(number));
    }
    if load <= 131_070.0 {
        return None;
    }
    if load.to_bits() == 131_070f64.to_bits() + 1 {
        return Some(Bad::LoadJustAbove);
    }
    Some(Bad::LoadFarAbove)
}

/// A reset is counted by the loads that it finds.
pub fn reset(before: &[f64], meet: &mut impl FnMut(Seen)) {
    if before.iter().any(|&load| bad_load(load).is_some()) {
        meet(Seen::ResetBadLoad);
    } else {
        meet(Seen::Reset);
    }
}

/// A tick that isn't malformed.
pub struct Tick<'a> {
    /// Gates.
    pub gates: &'a [Gate],
    /// Loads before it.
    pub before: &'a [f64],
    /// Counts.
    pub counts: &'a [u32],
    /// How many bytes.
    pub bytes: usize,
    /// Ticks since a reset, with this one, where there was one.
    pub ticks: Option<usize>,
}

impl Tick<'_> {
    /// Counts it, by its status and the loads that it left.
    pub fn meet(&self, status: u32, after: &[f64], meet: &mut impl FnMut(Seen)) {
        if status != 0 {
            let bad = self.bad();
            return match bad[..] {
                [bad] => meet(Seen::Refused(bad)),
                _ => meet(Seen::RefusedSeveral),
            };
        }
        if after.is_empty() {
            meet(Seen::Empty);
        }
        for (meter, &load) in after.iter().enumerate() {
            self.meet_load(self.before[meter], self.counts[meter], load, meet);
            meet_gate(self.gates[meter], load, meet);
            match self.ticks {
                Some(1..=32) => meet(Seen::FirstTicks),
                Some(_) => meet(Seen::LaterTicks),
                None => {}
            }
        }
    }

    fn meet_load(&self, before: f64, count: u32, after: f64, meet: &mut impl FnMut(Seen)) {
        // An exact sum, less one addend, is the other.
        if after - f64::from(count) != before / 2.0 {
            meet(Seen::Rounded);
        }
        if before > 0.0 && after == 0.0 {
            meet(Seen::HalvedToZero);
        }
        if before == 0.0 && before.is_sign_negative() {
            meet(Seen::LoadMinusZero);
        }
        if before == 131_070.0 {
            meet(Seen::LoadTop);
        }
        if count == 65_535 {
            meet(Seen::CountTop);
        }
    }

    /// All that is bad.
    fn bad(&self) -> Vec<Bad> {
        let meters = self.gates.len();
        let lengths = [
            (self.counts.len() < meters, Bad::FewCounts),
            (self.counts.len() > meters, Bad::ManyCounts),
            (self.bytes < meters, Bad::FewBytes),
            (self.bytes > meters, Bad::ManyBytes),
        ];
        let lengths = lengths.iter().filter(|(is, _)| *is).map(|&(_, bad)| bad);
        let counts = self.counts.iter().filter_map(|&count| match count {
            0..=65_535 => None,
            65_536 => Some(Bad::Count65536),
            _ => Some(Bad::CountAbove65536),
        });
        let loads = self.before.iter().filter_map(|&load| bad_load(load));
        let gates = self.gates.iter().flat_map(|&gate| bad_gate(gate));
        lengths.chain(counts).chain(loads).chain(gates).collect()
    }
}

fn bad_gate(gate: Gate) -> Vec<Bad> {
    match gate {
        Gate::Off => Vec::new(),
        Gate::Above { limit } => Number::of(limit).map(Bad::Limit).into_iter().collect(),
        Gate::Outside { low, high } => {
            let low_bad = Number::of(low).map(Bad::Low);
            let high_bad = Number::of(high).map(Bad::High);
            let over =
                (low_bad.is_none() && high_bad.is_none() && low > high).then_some(Bad::LowOverHigh);
            [low_bad, high_bad, over].into_iter().flatten().collect()
        }
    }
}

fn meet_gate(gate: Gate, load: f64, meet: &mut impl FnMut(Seen)) {
    let mut end = |end: f64| {
        if end == 0.0 && end.is_sign_negative() {
            meet(Seen::EndMinusZero);
        }
    };
    match gate {
        Gate::Off => meet(Seen::Off),
        Gate::Above { limit } => {
            end(limit);
            meet(if load > limit {
                Seen::AboveOver
            } else if load == limit {
                Seen::AboveAt
            } else {
                Seen::AboveUnder
            });
        }
        Gate::Outside { low, high } => {
            end(low);
            end(high);
            meet(if load < low {
                Seen::BandUnder
            } else if load > high {
                Seen::BandOver
            } else if low == high {
                Seen::BandOfOne
            } else if load == low {
                Seen::BandAtLow
            } else if load == high {
                Seen::BandAtHigh
            } else {
                Seen::BandWithin
            });
        }
    }
}

impl fmt::Display for Seen {
    fn fmt(&self, f: &mut fmt::Formatter<'_>) -> fmt::Result {
        f.write_str(match self {
            Self::Reset => "reset, loads good",
            Self::ResetBadLoad => "reset, a load bad",
            Self::Empty => "ticked, no meter",
            Self::FirstTicks => "ticked, 1 to 32 after a reset",
            Self::LaterTicks => "ticked, 33 and more after a reset",
            Self::Rounded => "ticked, rounded",
            Self::HalvedToZero => "ticked, halved to 0",
            Self::LoadMinusZero => "ticked, load -0.0",
            Self::LoadTop => "ticked, load 131,070",
            Self::CountTop => "ticked, count 65,535",
            Self::EndMinusZero => "ticked, limit, low or high -0.0",
            Self::Off => "ticked, off",
            Self::UnusedBadNumber => "ticked, a bad number that the kind doesn't look at",
            Self::AboveUnder => "ticked, above: under the limit",
            Self::AboveAt => "ticked, above: at the limit",
            Self::AboveOver => "tripped, above: over the limit",
            Self::BandUnder => "tripped, outside: under the low",
            Self::BandAtLow => "ticked, outside: at the low",
            Self::BandWithin => "ticked, outside: within",
            Self::BandAtHigh => "ticked, outside: at the high",
            Self::BandOver => "tripped, outside: over the high",
            Self::BandOfOne => "ticked, outside: at low and high",
            Self::Refused(bad) => return write!(f, "refused, {bad}"),
            Self::RefusedSeveral => "refused, more than one thing bad",
            Self::BadKindsLength => "malformed, kinds not one per load",
            Self::BadLowsLength => "malformed, lows not one per load",
            Self::BadHighsLength => "malformed, highs not one per load",
            Self::BadKind3 => "malformed, kind 3",
            Self::BadKindAbove3 => "malformed, kind above 3",
        })
    }
}

impl fmt::Display for Bad {
    fn fmt(&self, f: &mut fmt::Formatter<'_>) -> fmt::Result {
        f.write_str(match self {
            Self::FewCounts => "counts fewer than meters",
            Self::ManyCounts => "counts more than meters",
            Self::FewBytes => "bytes fewer than meters",
            Self::ManyBytes => "bytes more than meters",
            Self::Count65536 => "count 65,536",
            Self::CountAbove65536 => "count above 65,536",
            Self::Load(number) => return write!(f, "load {number}"),
            Self::LoadJustAbove => "load next above 131,070",
            Self::LoadFarAbove => "load further above 131,070",
            Self::Limit(number) => return write!(f, "limit {number}"),
            Self::Low(number) => return write!(f, "low {number}"),
            Self::High(number) => return write!(f, "high {number}"),
            Self::LowOverHigh => "low over high",
        })
    }
}

impl fmt::Display for Number {
    fn fmt(&self, f: &mut fmt::Formatter<'_>) -> fmt::Result {
        f.write_str(match self {
            Self::Nan => "NaN",
            Self::Infinite => "infinite",
            Self::BelowZero => "below zero",
        })
    }
}
