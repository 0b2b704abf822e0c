//! The calls on traces.

use crate::declared::{
    galitzaf_trace_append, galitzaf_trace_check, galitzaf_trace_close, galitzaf_trace_next,
    galitzaf_trace_replay,
};

/// A request as it is traced.
#[derive(Clone, Copy)]
pub struct Asked {
    /// Its kind.
    pub kind: u8,
    /// Who asks.
    pub source: u16,
    /// The address.
    pub address: u64,
    /// The data.
    pub data: u32,
}

/// `galitzaf_trace_append`.
pub fn trace_append(writer: &mut [u64], block: &mut [u8], asked: Asked, answer: &[u8]) -> u32 {
    // SAFETY: each pointer and length is that of a live slice. `writer` and `block`, which are written,
    // are lent by `&mut`, so that neither overlaps another. None is kept after the call.
    unsafe {
        galitzaf_trace_append(
            writer.as_mut_ptr(),
            writer.len(),
            block.as_mut_ptr(),
            block.len(),
            asked.kind,
            asked.source,
            asked.address,
            asked.data,
            answer.as_ptr(),
            answer.len(),
        )
    }
}

/// `galitzaf_trace_close`.
pub fn trace_close(writer: &mut [u64], block: &mut [u8]) -> u32 {
    // SAFETY: as for `trace_append`.
    unsafe {
        galitzaf_trace_close(
            writer.as_mut_ptr(),
            writer.len(),
            block.as_mut_ptr(),
            block.len(),
        )
    }
}

/// `galitzaf_trace_check`.
pub fn trace_check(trace: &[u8], place: u64) -> u32 {
    // SAFETY: pointer and length are those of a live slice, which is neither written nor kept.
    unsafe { galitzaf_trace_check(trace.as_ptr(), trace.len(), place) }
}

/// `galitzaf_trace_next`.
pub fn trace_next(trace: &[u8], place: &mut [u64], entry: &mut [u8]) -> u32 {
    // SAFETY: each pointer and length is that of a live slice. `place` and `entry`, which are written,
    // are lent by `&mut`, so that neither overlaps another. None is kept after the call.
    unsafe {
        galitzaf_trace_next(
            trace.as_ptr(),
            trace.len(),
            place.as_mut_ptr(),
            place.len(),
            entry.as_mut_ptr(),
            entry.len(),
        )
    }
}

/// `galitzaf_trace_replay`.
pub fn trace_replay(
    registers: &[u8],
    windows: &[u64],
    image: &mut [u8],
    trace: &[u8],
    place: &mut [u64],
    entry: &mut [u8],
) -> u32 {
    // SAFETY: each pointer and length is that of a live slice. `image`, `place` and `entry`, which are
    // written, are lent by `&mut`, so that none overlaps another. None is kept after the call.
    unsafe {
        galitzaf_trace_replay(
            registers.as_ptr(),
            registers.len(),
            windows.as_ptr(),
            windows.len(),
            image.as_mut_ptr(),
            image.len(),
            trace.as_ptr(),
            trace.len(),
            place.as_mut_ptr(),
            place.len(),
            entry.as_mut_ptr(),
            entry.len(),
        )
    }
}
