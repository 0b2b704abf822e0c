//! The C interface as `include/galitzaf.h` has it, for any bytes and lengths.
//!
//! The crate `galitzaf` hands the library only what is well formed, and reads from an answer only
//! what its kind names. These calls leave both to the caller: a malformed argument can be passed,
//! and every byte of an answer looked at.

// Links the library.
use galitzaf as _;

use std::ops::Deref;

mod builder;
#[path = "../../../rust/src/declared.rs"]
mod declared;
mod meters;
mod traces;

pub use builder::{build, Building};
pub use meters::{reset_meters, tick_meters, Gates};
pub use traces::{trace_append, trace_check, trace_close, trace_next, trace_replay, Asked};

pub use declared::{ANSWER_SIZE, CACHE_WORDS, RECORDER_SIZE, RECORDS_SIZE, REGISTERS_SIZE};

use declared::{
    galitzaf_cached_request, galitzaf_clear_overflow, galitzaf_clear_slot, galitzaf_first_bad,
    galitzaf_interrupt_request, galitzaf_invalidate_all, galitzaf_invalidate_domain,
    galitzaf_memory_request, galitzaf_record, galitzaf_scalable_request, galitzaf_take,
    galitzaf_translation_request,
};

/// The windows of a plain image of some length: one from 0, or none.
#[derive(Clone, Copy)]
pub struct Flat([u64; 3]);

/// `GALITZAF_FLAT`.
pub fn flat(length: usize) -> Flat {
    Flat([0, 0, length as u64])
}

impl Deref for Flat {
    type Target = [u64];

    fn deref(&self) -> &[u64] {
        match self.0 {
            [_, _, 0] => &[],
            _ => &self.0,
        }
    }
}

/// `galitzaf_memory_request`.
#[inline(always)]
pub fn memory_request(
    registers: &[u8],
    windows: &[u64],
    image: &[u8],
    source: u16,
    address: u64,
    write: u8,
    answer: &mut [u8],
) -> u32 {
    // SAFETY: each pointer and length is that of a live slice. `answer`, which is written, is lent
    // by `&mut`, so that it overlaps no other. None is kept after the call.
    unsafe {
        galitzaf_memory_request(
            registers.as_ptr(),
            registers.len(),
            windows.as_ptr(),
            windows.len(),
            image.as_ptr(),
            image.len(),
            source,
            address,
            write,
            answer.as_mut_ptr(),
            answer.len(),
        )
    }
}

/// `galitzaf_scalable_request`.
#[allow(clippy::too_many_arguments)]
pub fn scalable_request(
    registers: &[u8],
    capabilities: u32,
    windows: &[u64],
    image: &mut [u8],
    source: u16,
    address: u64,
    kind: u8,
    pasid: u32,
    answer: &mut [u8],
) -> u32 {
    // SAFETY: each pointer and length is that of a live slice. `image` and `answer`, which are written, are lent
    // by `&mut`, so that neither overlaps another. None is kept after the call.
    unsafe {
        galitzaf_scalable_request(
            registers.as_ptr(),
            registers.len(),
            capabilities,
            windows.as_ptr(),
            windows.len(),
            image.as_mut_ptr(),
            image.len(),
            source,
            address,
            kind,
            pasid,
            answer.as_mut_ptr(),
            answer.len(),
        )
    }
}

/// `galitzaf_translation_request`.
#[inline(always)]
pub fn translation_request(
    registers: &[u8],
    windows: &[u64],
    image: &[u8],
    source: u16,
    address: u64,
    answer: &mut [u8],
) -> u32 {
    // SAFETY: each pointer and length is that of a live slice. `answer`, which is written, is lent
    // by `&mut`, so that it overlaps no other. None is kept after the call.
    unsafe {
        galitzaf_translation_request(
            registers.as_ptr(),
            registers.len(),
            windows.as_ptr(),
            windows.len(),
            image.as_ptr(),
            image.len(),
            source,
            address,
            answer.as_mut_ptr(),
            answer.len(),
        )
    }
}

/// `galitzaf_cached_request`.
#[inline(always)]
#[allow(clippy::too_many_arguments)]
pub fn cached_request(
    registers: &[u8],
    windows: &[u64],
    image: &[u8],
    cache: &mut [u64],
    source: u16,
    address: u64,
    write: u8,
    answer: &mut [u8],
) -> u32 {
    // SAFETY: each pointer and length is that of a live slice. `cache` and `answer`, which are written,
    // are lent by `&mut`, so that neither overlaps another. None is kept after the call.
    unsafe {
        galitzaf_cached_request(
            registers.as_ptr(),
            registers.len(),
            windows.as_ptr(),
            windows.len(),
            image.as_ptr(),
            image.len(),
            cache.as_mut_ptr(),
            cache.len(),
            source,
            address,
            write,
            answer.as_mut_ptr(),
            answer.len(),
        )
    }
}

/// `galitzaf_invalidate_all`.
pub fn invalidate_all(cache: &mut [u64]) -> u32 {
    // SAFETY: the pointer and length are those of a slice lent by `&mut`. It isn't kept.
    unsafe { galitzaf_invalidate_all(cache.as_mut_ptr(), cache.len()) }
}

/// `galitzaf_invalidate_domain`.
pub fn invalidate_domain(cache: &mut [u64], domain: u16) -> u32 {
    // SAFETY: as for `invalidate_all`.
    unsafe { galitzaf_invalidate_domain(cache.as_mut_ptr(), cache.len(), domain) }
}

/// `galitzaf_interrupt_request`.
#[inline(always)]
pub fn interrupt_request(
    registers: &[u8],
    windows: &[u64],
    image: &mut [u8],
    source: u16,
    address: u64,
    data: u32,
    answer: &mut [u8],
) -> u32 {
    // SAFETY: each pointer and length is that of a live slice. `image` and `answer`, which are
    // written, are lent by `&mut`, so that neither overlaps another. None is kept after the call.
    unsafe {
        galitzaf_interrupt_request(
            registers.as_ptr(),
            registers.len(),
            windows.as_ptr(),
            windows.len(),
            image.as_mut_ptr(),
            image.len(),
            source,
            address,
            data,
            answer.as_mut_ptr(),
            answer.len(),
        )
    }
}

/// `galitzaf_take`.
pub fn take(registers: &[u8], windows: &[u64], image: &mut [u8], descriptor: u64) -> u32 {
    // SAFETY: each pointer and length is that of a live slice. `image`, which is written, is lent by
    // `&mut`, so that it overlaps no other. None is kept after the call.
    unsafe {
        galitzaf_take(
            registers.as_ptr(),
            registers.len(),
            windows.as_ptr(),
            windows.len(),
            image.as_mut_ptr(),
            image.len(),
            descriptor,
        )
    }
}

/// `galitzaf_first_bad`.
pub fn first_bad(registers: &[u8], windows: &[u64], run: usize) -> u32 {
    // SAFETY: each pointer and length is that of a live slice. None is written or kept.
    unsafe {
        galitzaf_first_bad(
            registers.as_ptr(),
            registers.len(),
            windows.as_ptr(),
            windows.len(),
            run,
        )
    }
}

/// `galitzaf_record`.
pub fn record(answer: &[u8], records: &mut [u8], recorder: &mut [u8]) -> u32 {
    // SAFETY: each pointer and length is that of a live slice. `records` and `recorder`, which are
    // written, are lent by `&mut`, so that neither overlaps another. None is kept after the call.
    unsafe {
        galitzaf_record(
            answer.as_ptr(),
            answer.len(),
            records.as_mut_ptr(),
            records.len(),
            recorder.as_mut_ptr(),
            recorder.len(),
        )
    }
}

/// `galitzaf_clear_slot`.
pub fn clear_slot(records: &mut [u8], recorder: &[u8], slot: u8) -> u32 {
    // SAFETY: each pointer and length is that of a live slice. `records`, which is written, is lent
    // by `&mut`, so that it overlaps no other. None is kept after the call.
    unsafe {
        galitzaf_clear_slot(
            records.as_mut_ptr(),
            records.len(),
            recorder.as_ptr(),
            recorder.len(),
            slot,
        )
    }
}

/// `galitzaf_clear_overflow`.
pub fn clear_overflow(records: &[u8], recorder: &mut [u8]) -> u32 {
    // SAFETY: each pointer and length is that of a live slice. `recorder`, which is written, is
    // lent by `&mut`, so that it overlaps no other. None is kept after the call.
    unsafe {
        galitzaf_clear_overflow(
            records.as_ptr(),
            records.len(),
            recorder.as_mut_ptr(),
            recorder.len(),
        )
    }
}
