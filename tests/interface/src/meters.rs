//! The meters' calls.

use crate::declared::{galitzaf_reset_meters, galitzaf_tick_meters};

/// The parts of a row that a tick doesn't write.
#[derive(Clone, Copy)]
pub struct Gates<'a> {
    /// Kinds.
    pub kinds: &'a [u8],
    /// Lows.
    pub lows: &'a [f64],
    /// Highs.
    pub highs: &'a [f64],
}

/// `galitzaf_tick_meters`.
#[inline(always)]
pub fn tick_meters(gates: Gates, loads: &mut [f64], counts: &[u32], bytes: &mut [u8]) -> u32 {
    // SAFETY: each pointer and length is that of a live slice. `loads` and `bytes`, which are
    // written, are lent by `&mut`, so that neither overlaps another. None is kept after the call.
    unsafe {
        galitzaf_tick_meters(
            gates.kinds.as_ptr(),
            gates.kinds.len(),
            gates.lows.as_ptr(),
            gates.lows.len(),
            gates.highs.as_ptr(),
            gates.highs.len(),
            loads.as_mut_ptr(),
            loads.len(),
            counts.as_ptr(),
            counts.len(),
            bytes.as_mut_ptr(),
            bytes.len(),
        )
    }
}

/// `galitzaf_reset_meters`.
pub fn reset_meters(loads: &mut [f64]) -> u32 {
    // SAFETY: pointer and length are those of a live slice, lent by `&mut` for the call alone.
    unsafe { galitzaf_reset_meters(loads.as_mut_ptr(), loads.len()) }
}
