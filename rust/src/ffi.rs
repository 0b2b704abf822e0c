//! The C interface of `include/galitzaf.h`, and the crate's only unsafe code.
//!
//! Each wrapper takes slices and arrays, so that every pointer it passes on is valid for its
//! length, and `&mut` keeps a written buffer apart from every other of the call. Beyond that the
//! library asks nothing: it checks every length and value itself.

#![allow(unsafe_code)]

use crate::{Item, Region, Window};

pub(crate) use crate::declared::*;

/// How many numbers windows are: a `Window` is laid out as three of them.
fn numbers(windows: &[Window]) -> usize {
    windows.len().saturating_mul(3)
}

/// The answer bytes, or none where the library called an argument malformed.
pub(crate) fn memory_request(
    registers: &[u8; REGISTERS_SIZE],
    windows: &[Window],
    image: &[u8],
    source: u16,
    address: u64,
    write: bool,
) -> Option<[u8; ANSWER_SIZE]> {
    let mut answer = [0; ANSWER_SIZE];
    // SAFETY: each pointer and length is that of a live slice or array, windows taken as numbers.
    // `answer` is the only one written, and a local, so that it overlaps no other. None is kept after
    // the call.
    let status = unsafe {
        galitzaf_memory_request(
            registers.as_ptr(),
            registers.len(),
            windows.as_ptr().cast(),
            numbers(windows),
            image.as_ptr(),
            image.len(),
            source,
            address,
            u8::from(write),
            answer.as_mut_ptr(),
            answer.len(),
        )
    };
    (status == OK).then_some(answer)
}

/// The answer bytes, or none where the library called an argument malformed.
pub(crate) fn translation_request(
    registers: &[u8; REGISTERS_SIZE],
    windows: &[Window],
    image: &[u8],
    source: u16,
    address: u64,
) -> Option<[u8; ANSWER_SIZE]> {
    let mut answer = [0; ANSWER_SIZE];
    // SAFETY: as for `memory_request`.
    let status = unsafe {
        galitzaf_translation_request(
            registers.as_ptr(),
            registers.len(),
            windows.as_ptr().cast(),
            numbers(windows),
            image.as_ptr(),
            image.len(),
            source,
            address,
            answer.as_mut_ptr(),
            answer.len(),
        )
    };
    (status == OK).then_some(answer)
}

/// The answer bytes, or none where the library called an argument malformed.
pub(crate) fn cached_request(
    registers: &[u8; REGISTERS_SIZE],
    windows: &[Window],
    image: &[u8],
    cache: &mut [u64; CACHE_WORDS],
    source: u16,
    address: u64,
    write: bool,
) -> Option<[u8; ANSWER_SIZE]> {
    let mut answer = [0; ANSWER_SIZE];
    // SAFETY: each pointer and length is that of a live slice or array, windows taken as numbers.
    // `cache` and `answer` are written: the one is lent by `&mut`, the other a local, so that neither
    // overlaps another. None is kept.
    let status = unsafe {
        galitzaf_cached_request(
            registers.as_ptr(),
            registers.len(),
            windows.as_ptr().cast(),
            numbers(windows),
            image.as_ptr(),
            image.len(),
            cache.as_mut_ptr(),
            cache.len(),
            source,
            address,
            u8::from(write),
            answer.as_mut_ptr(),
            answer.len(),
        )
    };
    (status == OK).then_some(answer)
}

/// Takes all translations out.
pub(crate) fn invalidate_all(cache: &mut [u64; CACHE_WORDS]) {
    // SAFETY: the pointer and length are those of an array that is lent by `&mut`. It isn't kept.
    unsafe { galitzaf_invalidate_all(cache.as_mut_ptr(), cache.len()) };
}

/// Takes those of a domain out.
pub(crate) fn invalidate_domain(cache: &mut [u64; CACHE_WORDS], domain: u16) {
    // SAFETY: as for `invalidate_all`.
    unsafe { galitzaf_invalidate_domain(cache.as_mut_ptr(), cache.len(), domain) };
}

/// The answer bytes, or none where the library called an argument malformed.
pub(crate) fn interrupt_request(
    registers: &[u8; REGISTERS_SIZE],
    windows: &[Window],
    image: &mut [u8],
    source: u16,
    address: u64,
    data: u32,
) -> Option<[u8; ANSWER_SIZE]> {
    let mut answer = [0; ANSWER_SIZE];
    // SAFETY: each pointer and length is that of a live slice or array, windows taken as numbers.
    // `image` and `answer` are written: the one is lent by `&mut`, the other a local, so that neither
    // overlaps another. None is kept.
    let status = unsafe {
        galitzaf_interrupt_request(
            registers.as_ptr(),
            registers.len(),
            windows.as_ptr().cast(),
            numbers(windows),
            image.as_mut_ptr(),
            image.len(),
            source,
            address,
            data,
            answer.as_mut_ptr(),
            answer.len(),
        )
    };
    (status == OK).then_some(answer)
}

/// The answer bytes, or none where the library called an argument malformed.
#[allow(clippy::too_many_arguments)]
pub(crate) fn scalable_request(
    registers: &[u8; REGISTERS_SIZE],
    capabilities: u32,
    windows: &[Window],
    image: &mut [u8],
    source: u16,
    address: u64,
    kind: u8,
    pasid: u32,
) -> Option<[u8; ANSWER_SIZE]> {
    let mut answer = [0; ANSWER_SIZE];
    // SAFETY: as for `interrupt_request`.
    let status = unsafe {
        galitzaf_scalable_request(
            registers.as_ptr(),
            registers.len(),
            capabilities,
            windows.as_ptr().cast(),
            numbers(windows),
            image.as_mut_ptr(),
            image.len(),
            source,
            address,
            kind,
            pasid,
            answer.as_mut_ptr(),
            answer.len(),
        )
    };
    (status == OK).then_some(answer)
}

/// What the library said to which register or window is bad first.
pub(crate) fn first_bad(registers: &[u8; REGISTERS_SIZE], windows: &[Window], run: usize) -> u32 {
    // SAFETY: each pointer and length is that of a live slice or array, windows taken as numbers. None
    // is written or kept.
    unsafe {
        galitzaf_first_bad(
            registers.as_ptr(),
            registers.len(),
            windows.as_ptr().cast(),
            numbers(windows),
            run,
        )
    }
}

/// What the library said to a listing. A row has the four numbers of a span.
pub(crate) fn list_spans(
    registers: &[u8; REGISTERS_SIZE],
    windows: &[Window],
    image: &[u8],
    source: u16,
    known: &mut [u64],
    rows: &mut [[u64; 4]],
) -> u32 {
    // SAFETY: each pointer and length is that of a live slice or array, windows taken as numbers and rows as
    // four numbers each. `known` and `rows`, which are written, are lent by `&mut`, so that they overlap no
    // other. None is kept after the call.
    unsafe {
        galitzaf_list_spans(
            registers.as_ptr(),
            registers.len(),
            windows.as_ptr().cast(),
            numbers(windows),
            image.as_ptr(),
            image.len(),
            source,
            known.as_mut_ptr(),
            known.len(),
            rows.as_mut_ptr().cast(),
            rows.len().saturating_mul(4),
        )
    }
}

/// What the library said to a list of pages to map and unmap, and the index of the item that it refused.
#[allow(clippy::too_many_arguments)]
pub(crate) fn build(
    registers: &[u8; REGISTERS_SIZE],
    windows: &[Window],
    image: &mut [u8],
    source: u16,
    region: Region,
    items: &[Item],
    copy: &mut [u8],
    marks: &mut [u8],
) -> (u32, u64) {
    let mut item = [0; 1];
    // SAFETY: each pointer and length is that of a live slice or array, windows taken as three numbers and
    // items as four. `image`, `copy`, `marks` and `item` are written: the first three are lent by `&mut`, the
    // last is a local, so that none overlaps another. None is kept after the call.
    let status = unsafe {
        galitzaf_build(
            registers.as_ptr(),
            registers.len(),
            windows.as_ptr().cast(),
            numbers(windows),
            image.as_mut_ptr(),
            image.len(),
            source,
            region.start,
            region.size,
            items.as_ptr().cast(),
            items.len().saturating_mul(4),
            copy.as_mut_ptr(),
            copy.len(),
            marks.as_mut_ptr(),
            marks.len(),
            item.as_mut_ptr(),
            item.len(),
        )
    };
    let [index] = item;
    (status, index)
}

/// What the library said to a take.
pub(crate) fn take(
    registers: &[u8; REGISTERS_SIZE],
    windows: &[Window],
    image: &mut [u8],
    descriptor: u64,
) -> u32 {
    // SAFETY: each pointer and length is that of a live slice or array, windows taken as numbers.
    // `image`, which is written, is lent by `&mut`, so that it overlaps no other. None is kept after
    // the call.
    unsafe {
        galitzaf_take(
            registers.as_ptr(),
            registers.len(),
            windows.as_ptr().cast(),
            numbers(windows),
            image.as_mut_ptr(),
            image.len(),
            descriptor,
        )
    }
}

/// What the library said to recording the fault of an answer.
pub(crate) fn record(
    answer: &[u8; ANSWER_SIZE],
    records: &mut [u8],
    recorder: &mut [u8; RECORDER_SIZE],
) -> u32 {
    // SAFETY: each pointer and length is that of a live slice or array. The two that are written
    // are lent by `&mut`, so that neither overlaps another. None is kept after the call.
    unsafe {
        galitzaf_record(
            answer.as_ptr(),
            answer.len(),
            records.as_mut_ptr(),
            records.len(),
            recorder.as_mut_ptr(),
            recorder.len(),
        )
    }
}

/// What the library said to clearing a slot.
pub(crate) fn clear_slot(records: &mut [u8], recorder: &[u8; RECORDER_SIZE], slot: u8) -> u32 {
    // SAFETY: each pointer and length is that of a live slice or array. `records`, which is
    // written, is lent by `&mut`, so that it overlaps no other. None is kept after the call.
    unsafe {
        galitzaf_clear_slot(
            records.as_mut_ptr(),
            records.len(),
            recorder.as_ptr(),
            recorder.len(),
            slot,
        )
    }
}

/// What the library said to clearing the overflow flag.
pub(crate) fn clear_overflow(records: &[u8], recorder: &mut [u8; RECORDER_SIZE]) -> u32 {
    // SAFETY: each pointer and length is that of a live slice or array. `recorder`, which is
    // written, is lent by `&mut`, so that it overlaps no other. None is kept after the call.
    unsafe {
        galitzaf_clear_overflow(
            records.as_ptr(),
            records.len(),
            recorder.as_mut_ptr(),
            recorder.len(),
        )
    }
}

/// What the library said to a tick of a row of meters.
pub(crate) fn tick_meters(
    kinds: &[u8],
    [lows, highs]: [&[f64]; 2],
    loads: &mut [f64],
    counts: &[u32],
    bytes: &mut [u8],
) -> u32 {
    // SAFETY: each pointer and length is that of a live slice. `loads` and `bytes`, which are
    // written, are lent by `&mut`, so that neither overlaps another. None is kept after the call.
    unsafe {
        galitzaf_tick_meters(
            kinds.as_ptr(),
            kinds.len(),
            lows.as_ptr(),
            lows.len(),
            highs.as_ptr(),
            highs.len(),
            loads.as_mut_ptr(),
            loads.len(),
            counts.as_ptr(),
            counts.len(),
            bytes.as_mut_ptr(),
            bytes.len(),
        )
    }
}

/// Makes all loads 0.
pub(crate) fn reset_meters(loads: &mut [f64]) {
    // SAFETY: pointer and length are those of a live slice, lent by `&mut` for the call alone.
    // There is nothing that it could say but OK.
    unsafe { galitzaf_reset_meters(loads.as_mut_ptr(), loads.len()) };
}

/// Appends an entry to a trace's block.
pub(crate) fn trace_append(
    writer: &mut [u64; TRACE_NUMBERS],
    block: &mut [u8; TRACE_BLOCK_SIZE],
    kind: u8,
    source: u16,
    address: u64,
    data: u32,
    answer: &[u8; ANSWER_SIZE],
) -> u32 {
    // SAFETY: each pointer and length is that of a live array. `writer` and `block`, which are written,
    // are lent by `&mut`, so that neither overlaps another. None is kept after the call.
    unsafe {
        galitzaf_trace_append(
            writer.as_mut_ptr(),
            writer.len(),
            block.as_mut_ptr(),
            block.len(),
            kind,
            source,
            address,
            data,
            answer.as_ptr(),
            answer.len(),
        )
    }
}

/// Ends a trace.
pub(crate) fn trace_close(
    writer: &mut [u64; TRACE_NUMBERS],
    block: &mut [u8; TRACE_BLOCK_SIZE],
) -> u32 {
    // SAFETY: as for `trace_append`.
    unsafe {
        galitzaf_trace_close(
            writer.as_mut_ptr(),
            writer.len(),
            block.as_mut_ptr(),
            block.len(),
        )
    }
}

/// Whether the block at a place is damaged.
pub(crate) fn trace_check(trace: &[u8], place: u64) -> u32 {
    // SAFETY: pointer and length are those of a live slice, which is neither written nor kept.
    unsafe { galitzaf_trace_check(trace.as_ptr(), trace.len(), place) }
}

/// Reads on from a place.
pub(crate) fn trace_next(
    trace: &[u8],
    place: &mut [u64; TRACE_NUMBERS],
    entry: &mut [u8; TRACE_ENTRY_SIZE],
) -> u32 {
    // SAFETY: each pointer and length is that of a live slice or array. `place` and `entry`, which are
    // written, are lent by `&mut`, so that neither overlaps another. None is kept after the call.
    unsafe {
        galitzaf_trace_next(
            trace.as_ptr(),
            trace.len(),
            place.as_mut_ptr(),
            place.len(),
            entry.as_mut_ptr(),
            entry.len(),
        )
    }
}

/// Replays on from a place.
pub(crate) fn trace_replay(
    registers: &[u8; REGISTERS_SIZE],
    windows: &[Window],
    image: &mut [u8],
    trace: &[u8],
    place: &mut [u64; TRACE_NUMBERS],
    entry: &mut [u8; TRACE_ENTRY_SIZE],
) -> u32 {
    // SAFETY: each pointer and length is that of a live slice or array, windows taken as numbers.
    // `image`, `place` and `entry`, which are written, are lent by `&mut`, so that none overlaps another.
    // None is kept after the call.
    unsafe {
        galitzaf_trace_replay(
            registers.as_ptr(),
            registers.len(),
            windows.as_ptr().cast(),
            numbers(windows),
            image.as_mut_ptr(),
            image.len(),
            trace.as_ptr(),
            trace.len(),
            place.as_mut_ptr(),
            place.len(),
            entry.as_mut_ptr(),
            entry.len(),
        )
    }
}
