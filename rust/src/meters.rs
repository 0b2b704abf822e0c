//! Storm meters.

use crate::ffi;
use core::fmt;

/// When a meter trips.
#[derive(Clone, Copy, Debug, Default, PartialEq)]
pub enum Gate {
    /// Never.
    #[default]
    Off,
    /// Where the load is above a limit.
    Above(f64),
    /// Where the load is below a low or above a high. Either end is inside.
    Outside {
        /// The low.
        low: f64,
        /// The high, at or over the low.
        high: f64,
    },
}

/// Why there is no such row, or why a tick wasn't made.
#[derive(Clone, Copy, Debug, PartialEq, Eq, Hash)]
pub enum MetersError {
    /// The parts of a row have different lengths, or a kind is none of 0, 1 and 2.
    Malformed,
    /// The tick was refused, and row and bytes are as they were.
    Refused,
}

impl fmt::Display for MetersError {
    fn fmt(&self, f: &mut fmt::Formatter<'_>) -> fmt::Result {
        f.write_str(match self {
            Self::Malformed => "the parts are no row of meters",
            Self::Refused => "the tick is refused",
        })
    }
}

impl core::error::Error for MetersError {}

/// A row of meters, one for each device, that tells which device storms.
///
/// Each has a load and a [`Gate`]. On a tick the load is halved and the tick's count added, and a
/// byte becomes 1 where the new load trips the gate. The row is lent, an array for each part of a
/// meter, and no call allocates.
///
/// ```
/// use galitzaf::{Gate, Meters, MetersError};
///
/// let (mut kinds, mut lows, mut highs, mut loads) = ([0; 2], [0.0; 2], [0.0; 2], [0.0; 2]);
/// let mut meters = Meters::new(&mut kinds, &mut lows, &mut highs, &mut loads)?;
/// meters.set_gate(0, Gate::Above(1000.0));
/// meters.set_gate(1, Gate::Outside { low: 10.0, high: 1000.0 });
///
/// let mut tripped = [0; 2];
/// meters.tick(&[600, 600], &mut tripped)?;
/// assert_eq!((meters.loads(), tripped), (&[600.0, 600.0][..], [0, 0]));
/// meters.tick(&[800, 0], &mut tripped)?;
/// assert_eq!((meters.loads(), tripped), (&[1100.0, 300.0][..], [1, 0]));
///
/// // A count above 65,535 refuses the whole tick.
/// assert_eq!(meters.tick(&[0, 65_536], &mut tripped), Err(MetersError::Refused));
/// assert_eq!((meters.loads(), tripped), (&[1100.0, 300.0][..], [1, 0]));
///
/// meters.reset();
/// assert_eq!(meters.loads(), [0.0, 0.0]);
/// # Ok::<(), MetersError>(())
/// ```
#[derive(Debug)]
pub struct Meters<'a> {
    kinds: &'a mut [u8],
    lows: &'a mut [f64],
    highs: &'a mut [f64],
    loads: &'a mut [f64],
}

impl<'a> Meters<'a> {
    /// A row with all gates off and all loads 0, whatever the arrays hold.
    ///
    /// # Errors
    ///
    /// [`MetersError::Malformed`] where the arrays have different lengths. Then they are as they
    /// were.
    pub fn new(
        kinds: &'a mut [u8],
        lows: &'a mut [f64],
        highs: &'a mut [f64],
        loads: &'a mut [f64],
    ) -> Result<Self, MetersError> {
        if [kinds.len(), lows.len(), highs.len()] != [loads.len(); 3] {
            return Err(MetersError::Malformed);
        }
        kinds.fill(OFF);
        lows.fill(0.0);
        highs.fill(0.0);
        loads.fill(0.0);
        Self::with(kinds, lows, highs, loads)
    }

    /// The row that stands in the arrays. Kind 0 is off, 1 trips above its high, 2 outside low and
    /// high.
    ///
    /// ```
    /// use galitzaf::{Gate, Meters, MetersError};
    ///
    /// let (mut kinds, mut lows, mut highs, mut loads) = ([1, 2], [0.0, 5.0], [7.5, 9.0], [0.5; 2]);
    /// let row = Meters::with(&mut kinds, &mut lows, &mut highs, &mut loads)?;
    /// assert_eq!(row.gate(0), Some(Gate::Above(7.5)));
    /// assert_eq!(row.gate(1), Some(Gate::Outside { low: 5.0, high: 9.0 }));
    ///
    /// kinds[1] = 3;
    /// let row = Meters::with(&mut kinds, &mut lows, &mut highs, &mut loads);
    /// assert_eq!(row.err(), Some(MetersError::Malformed));
    /// # Ok::<(), MetersError>(())
    /// ```
    ///
    /// # Errors
    ///
    /// [`MetersError::Malformed`] where the arrays have different lengths or a kind is above 2.
    /// Loads, lows and highs aren't looked at: a bad one refuses each tick.
    pub fn with(
        kinds: &'a mut [u8],
        lows: &'a mut [f64],
        highs: &'a mut [f64],
        loads: &'a mut [f64],
    ) -> Result<Self, MetersError> {
        let one_each = [kinds.len(), lows.len(), highs.len()] == [loads.len(); 3];
        if one_each && kinds.iter().all(|&kind| kind <= OUTSIDE) {
            Ok(Self {
                kinds,
                lows,
                highs,
                loads,
            })
        } else {
            Err(MetersError::Malformed)
        }
    }

    /// The number of meters.
    pub fn len(&self) -> usize {
        self.loads.len()
    }

    /// Whether there is no meter.
    pub fn is_empty(&self) -> bool {
        self.loads.is_empty()
    }

    /// The loads, in the row's order.
    pub fn loads(&self) -> &[f64] {
        self.loads
    }

    /// The gate of a meter, or none where there is no such meter.
    pub fn gate(&self, meter: usize) -> Option<Gate> {
        let [low, high] = [self.lows.get(meter)?, self.highs.get(meter)?];
        Some(match *self.kinds.get(meter)? {
            OFF => Gate::Off,
            ABOVE => Gate::Above(*high),
            _ => Gate::Outside {
                low: *low,
                high: *high,
            },
        })
    }

    /// Sets the gate of a meter; false where there is no such meter. Any numbers are taken: bad
    /// ones refuse each tick.
    pub fn set_gate(&mut self, meter: usize, gate: Gate) -> bool {
        let place = (
            self.kinds.get_mut(meter),
            self.lows.get_mut(meter),
            self.highs.get_mut(meter),
        );
        let (Some(kind), Some(low), Some(high)) = place else {
            return false;
        };
        (*kind, *low, *high) = match gate {
            Gate::Off => (OFF, 0.0, 0.0),
            Gate::Above(limit) => (ABOVE, 0.0, limit),
            Gate::Outside { low, high } => (OUTSIDE, low, high),
        };
        true
    }

    /// A tick: each load is halved, then its count added. A byte becomes 1 where the new load trips
    /// its meter's gate, else 0.
    ///
    /// For the first 32 ticks after a reset nothing is rounded, and no load is ever above 131,070.
    ///
    /// # Errors
    ///
    /// [`MetersError::Refused`], with row and bytes as they were: counts or bytes aren't one per
    /// meter; a count is above 65,535; a load isn't from 0 to 131,070; a limit, low or high of a gate
    /// isn't finite or is below zero; a low is over its high.
    pub fn tick(&mut self, counts: &[u32], bytes: &mut [u8]) -> Result<(), MetersError> {
        let ends = [&*self.lows, &*self.highs];
        match ffi::tick_meters(self.kinds, ends, self.loads, counts, bytes) {
            ffi::OK => Ok(()),
            ffi::METERS_REFUSED => Err(MetersError::Refused),
            _ => Err(MetersError::Malformed),
        }
    }

    /// Makes all loads 0, also in a row whose ticks are refused, and leaves the gates.
    pub fn reset(&mut self) {
        ffi::reset_meters(self.loads);
    }
}

/// The kinds of the C interface.
const OFF: u8 = 0;
const ABOVE: u8 = 1;
const OUTSIDE: u8 = 2;
