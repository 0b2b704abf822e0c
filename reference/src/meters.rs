//! Ask 6, "A storm meter": a row of meters, one per device, lent together and
//! ticked in place.

/// "A meter is a load and a gate, both in floating point of 64 bits."
#[derive(Clone, Copy, Debug, PartialEq)]
pub struct Meter {
    /// The load.
    pub load: f64,
    /// The gate.
    pub gate: Gate,
}

/// "A gate is off, above a limit, or outside a band with a low and a high".
#[derive(Clone, Copy, Debug, PartialEq)]
pub enum Gate {
    /// Off.
    Off,
    /// Above a limit.
    Above {
        /// The limit.
        limit: f64,
    },
    /// Outside a band.
    Outside {
        /// The band's low.
        low: f64,
        /// The band's high.
        high: f64,
    },
}

/// The "one refusal, without a number".
#[derive(Clone, Copy, Debug, PartialEq, Eq)]
pub struct MetersRefused;

/// "a load not from 0 to 131,070" is refused. -0.0 equals 0; NaN is not from
/// anything to anything.
fn load_is_good(load: f64) -> bool {
    (0.0..=131_070.0).contains(&load)
}

/// "a limit, low or high not finite or below zero" is refused. -0.0 is not
/// below zero.
fn end_is_good(end: f64) -> bool {
    end.is_finite() && end >= 0.0
}

/// The same for a gate's numbers, with "or a low over its high". A low that
/// equals its high is not over it.
fn gate_is_good(gate: Gate) -> bool {
    match gate {
        Gate::Off => true,
        Gate::Above { limit } => end_is_good(limit),
        Gate::Outside { low, high } => end_is_good(low) && end_is_good(high) && low <= high,
    }
}

/// Whether "the new load trips it, strictly".
fn trips(gate: Gate, load: f64) -> bool {
    match gate {
        Gate::Off => false,
        Gate::Above { limit } => load > limit,
        Gate::Outside { low, high } => load < low || load > high,
    }
}

/// A tick of the row.
pub fn tick_meters(
    row: &mut [Meter],
    counts: &[u32],
    bytes: &mut [u8],
) -> Result<(), MetersRefused> {
    // Everything that is refused "leaves row and bytes untouched", so all of
    // it is looked at before anything is written.
    // "Counts or bytes not one per meter"
    if counts.len() != row.len() || bytes.len() != row.len() {
        return Err(MetersRefused);
    }
    // "a count above 65,535"
    if counts.iter().any(|&count| count > 65_535) {
        return Err(MetersRefused);
    }
    // "a load not from 0 to 131,070"
    if row.iter().any(|meter| !load_is_good(meter.load)) {
        return Err(MetersRefused);
    }
    // "a limit, low or high not finite or below zero, or a low over its high"
    if row.iter().any(|meter| !gate_is_good(meter.gate)) {
        return Err(MetersRefused);
    }
    for ((meter, &count), byte) in row.iter_mut().zip(counts).zip(bytes) {
        // "On each tick the load is halved and the tick's count added, in that
        // order."
        let halved = meter.load / 2.0;
        meter.load = halved + f64::from(count);
        // "a lent byte per meter becomes 1 if the new load trips it, strictly,
        // else 0."
        *byte = u8::from(trips(meter.gate, meter.load));
    }
    Ok(())
}

/// "A reset makes all loads 0 and leaves the gates."
pub fn reset_meters(row: &mut [Meter]) {
    for meter in row {
        meter.load = 0.0;
    }
}

/// "For the first 32 ticks after a reset": the counts of those ticks, the
/// first tick's first, "weighted by halving", times 2^31, in whole numbers.
///
/// The last tick's count weighs 2^31, the one before it half of that, and so
/// on; the first of 32 weighs 1. `None` after more than 32 ticks.
pub fn counts_weighted(counts: &[u32]) -> Option<u128> {
    if counts.len() > 32 {
        return None;
    }
    let mut sum = 0;
    for (ticks_since, &count) in counts.iter().rev().enumerate() {
        sum += u128::from(count) << (31 - ticks_since);
    }
    Some(sum)
}

/// "the load times 2^31 is a whole number": that number, or `None` where it
/// isn't one, or isn't below 2^128. Read off the load's 64 bits, with no
/// arithmetic in floating point.
pub fn load_times_2_31(load: f64) -> Option<u128> {
    let bits = load.to_bits();
    let negative = bits >> 63 == 1;
    let exponent = (bits >> 52) & 0x7FF;
    let fraction = u128::from(bits & 0xF_FFFF_FFFF_FFFF);
    // The load is significand × 2^(exponent - 1075), so the load times 2^31 is
    // significand × 2^(exponent - 1044).
    let (significand, exponent) = match exponent {
        0x7FF => return None,
        0 => (fraction, 1),
        _ => (fraction | 1 << 52, exponent),
    };
    if significand == 0 {
        return Some(0);
    }
    if negative {
        return None;
    }
    if exponent >= 1044 {
        let left = u32::try_from(exponent - 1044).ok()?;
        return (left <= significand.leading_zeros()).then(|| significand << left);
    }
    let right = u32::try_from(1044 - exponent).ok()?;
    (right <= significand.trailing_zeros()).then(|| significand >> right)
}
