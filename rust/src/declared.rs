//! What `include/galitzaf.h` declares, its names without `GALITZAF_`: the sizes, numbers and functions that are used from Rust.
//!
//! The one place for them: the crate has them here, and `tests/interface` takes this file too. `tests/run-rust` holds it to the
//! header.

// Neither of the two uses all of it.
#![allow(dead_code)]

/// Bytes of the registers.
pub const REGISTERS_SIZE: usize = 24;
/// Bytes of an answer.
pub const ANSWER_SIZE: usize = 32;
/// Numbers of a cache of translations.
pub const CACHE_WORDS: usize = 776;
/// Bytes of a buffer of 8 records.
pub const RECORDS_SIZE: usize = 128;
/// Bytes of the recorder's state.
pub const RECORDER_SIZE: usize = 2;

/// Bytes of a trace's block.
pub const TRACE_BLOCK_SIZE: usize = 512;
/// Bytes of a trace's entry.
pub const TRACE_ENTRY_SIZE: usize = 32;
/// Numbers of a trace's writer, and of a place in a trace.
pub const TRACE_NUMBERS: usize = 2;

pub const TRACE_READ: u8 = 1;
pub const TRACE_WRITE: u8 = 2;
pub const TRACE_INTERRUPT: u8 = 3;
pub const TRACE_TRANSLATION: u8 = 4;

pub const MAP_READ: u64 = 1;
pub const MAP_WRITE: u64 = 2;
pub const UNMAP: u64 = 4;

pub const BLOCKED: u8 = 1;
pub const REFUSED: u8 = 2;
pub const PASSED: u8 = 3;
pub const REMAPPED: u8 = 4;
pub const POSTED: u8 = 5;
pub const GRANTED: u8 = 6;
pub const TRANSLATED: u8 = 7;
pub const EMPTY: u8 = 8;

pub const FLTS: u32 = 0x001;
pub const SLTS: u32 = 0x002;
pub const NEST: u32 = 0x004;
pub const PT: u32 = 0x008;
pub const FL5LP: u32 = 0x010;
pub const FL1GP: u32 = 0x020;
pub const SLADS: u32 = 0x040;
pub const EAFS: u32 = 0x080;
pub const SRS: u32 = 0x100;
pub const SMPWC: u32 = 0x200;

pub const KIND_WRITE: u8 = 0x01;
pub const KIND_PASID: u8 = 0x02;

pub const OK: u32 = 0x00;
pub const REFUSED_3: u32 = 0x03;
pub const NO_FAULT: u32 = 0x10;
pub const NOT_RECORDABLE: u32 = 0x11;
pub const DROPPED: u32 = 0x12;
pub const OVERFLOWED: u32 = 0x13;
pub const WRITTEN: u32 = 0x14;
pub const SLOT_CLEAR: u32 = 0x20;
pub const SLOT_CLEARED: u32 = 0x21;
pub const OVERFLOW_CLEAR: u32 = 0x30;
pub const OVERFLOW_CLEARED: u32 = 0x31;
pub const NONE_STANDS: u32 = 0x40;
pub const TRACE_BLOCK: u32 = 0x50;
pub const TRACE_ENTRY: u32 = 0x51;
pub const TRACE_DAMAGED: u32 = 0x52;
pub const TRACE_END: u32 = 0x53;
pub const TRACE_SAME: u32 = 0x54;
pub const TRACE_DIFFERS: u32 = 0x55;
pub const METERS_REFUSED: u32 = 0x60;
pub const NONE_BAD: u32 = 0x70;
pub const FIRST_BAD_HAW: u32 = 0x71;
pub const FIRST_BAD_MGAW: u32 = 0x72;
pub const FIRST_BAD_LEVELS: u32 = 0x73;
pub const FIRST_BAD_ROOT_TABLE: u32 = 0x74;
pub const FIRST_BAD_INTERRUPT_TABLE: u32 = 0x75;
pub const FIRST_BAD_S: u32 = 0x76;
pub const FIRST_BAD_WINDOW: u32 = 0x78;
pub const BAD_ANSWER: u32 = 0x102;
pub const BAD_TRACE: u32 = 0x107;
pub const LISTING_FAULT: u32 = 0x80;
pub const LISTING_PASSED: u32 = 0x90;
pub const BUILD_TE_OFF: u32 = 0xA1;
pub const BUILD_CONTEXT: u32 = 0xA2;
pub const BUILD_REGION: u32 = 0xA3;
pub const BUILD_TABLES: u32 = 0xA4;
pub const BUILD_BUFFERS: u32 = 0xA5;
pub const ITEM_SIZE: u32 = 0xB1;
pub const ITEM_ALIGNMENT: u32 = 0xB2;
pub const ITEM_PLACE: u32 = 0xB3;
pub const ITEM_RIGHTS: u32 = 0xB4;
pub const ITEM_FRAME: u32 = 0xB5;
pub const ITEM_OVERLAP: u32 = 0xB6;
pub const ITEM_PAGES: u32 = 0xB7;
pub const ITEM_NOT_MAPPED: u32 = 0xB8;
pub const BAD_ITEMS: u32 = 0x109;
pub const TAKEN: u32 = 0x200;
pub const LISTED: u32 = 0x2000;
pub const LISTED_MORE: u32 = 0x6000;

extern "C" {
    pub fn galitzaf_memory_request(
        registers: *const u8,
        registers_len: usize,
        windows: *const u64,
        windows_len: usize,
        image: *const u8,
        image_len: usize,
        source: u16,
        address: u64,
        write: u8,
        answer: *mut u8,
        answer_len: usize,
    ) -> u32;

    pub fn galitzaf_translation_request(
        registers: *const u8,
        registers_len: usize,
        windows: *const u64,
        windows_len: usize,
        image: *const u8,
        image_len: usize,
        source: u16,
        address: u64,
        answer: *mut u8,
        answer_len: usize,
    ) -> u32;

    pub fn galitzaf_scalable_request(
        registers: *const u8,
        registers_len: usize,
        capabilities: u32,
        windows: *const u64,
        windows_len: usize,
        image: *mut u8,
        image_len: usize,
        source: u16,
        address: u64,
        kind: u8,
        pasid: u32,
        answer: *mut u8,
        answer_len: usize,
    ) -> u32;

    pub fn galitzaf_cached_request(
        registers: *const u8,
        registers_len: usize,
        windows: *const u64,
        windows_len: usize,
        image: *const u8,
        image_len: usize,
        cache: *mut u64,
        cache_len: usize,
        source: u16,
        address: u64,
        write: u8,
        answer: *mut u8,
        answer_len: usize,
    ) -> u32;

    pub fn galitzaf_invalidate_all(cache: *mut u64, cache_len: usize) -> u32;

    pub fn galitzaf_invalidate_domain(cache: *mut u64, cache_len: usize, domain: u16) -> u32;

    pub fn galitzaf_interrupt_request(
        registers: *const u8,
        registers_len: usize,
        windows: *const u64,
        windows_len: usize,
        image: *mut u8,
        image_len: usize,
        source: u16,
        address: u64,
        data: u32,
        answer: *mut u8,
        answer_len: usize,
    ) -> u32;

    pub fn galitzaf_take(
        registers: *const u8,
        registers_len: usize,
        windows: *const u64,
        windows_len: usize,
        image: *mut u8,
        image_len: usize,
        descriptor: u64,
    ) -> u32;

    pub fn galitzaf_first_bad(
        registers: *const u8,
        registers_len: usize,
        windows: *const u64,
        windows_len: usize,
        image_len: usize,
    ) -> u32;

    pub fn galitzaf_list_spans(
        registers: *const u8,
        registers_len: usize,
        windows: *const u64,
        windows_len: usize,
        image: *const u8,
        image_len: usize,
        source: u16,
        known: *mut u64,
        known_len: usize,
        spans: *mut u64,
        spans_len: usize,
    ) -> u32;

    pub fn galitzaf_build(
        registers: *const u8,
        registers_len: usize,
        windows: *const u64,
        windows_len: usize,
        image: *mut u8,
        image_len: usize,
        source: u16,
        start: u64,
        size: u64,
        items: *const u64,
        items_len: usize,
        copy: *mut u8,
        copy_len: usize,
        marks: *mut u8,
        marks_len: usize,
        item: *mut u64,
        item_len: usize,
    ) -> u32;

    pub fn galitzaf_record(
        answer: *const u8,
        answer_len: usize,
        records: *mut u8,
        records_len: usize,
        recorder: *mut u8,
        recorder_len: usize,
    ) -> u32;

    pub fn galitzaf_clear_slot(
        records: *mut u8,
        records_len: usize,
        recorder: *const u8,
        recorder_len: usize,
        slot: u8,
    ) -> u32;

    pub fn galitzaf_clear_overflow(
        records: *const u8,
        records_len: usize,
        recorder: *mut u8,
        recorder_len: usize,
    ) -> u32;

    pub fn galitzaf_tick_meters(
        kinds: *const u8,
        kinds_len: usize,
        lows: *const f64,
        lows_len: usize,
        highs: *const f64,
        highs_len: usize,
        loads: *mut f64,
        loads_len: usize,
        counts: *const u32,
        counts_len: usize,
        bytes: *mut u8,
        bytes_len: usize,
    ) -> u32;

    pub fn galitzaf_reset_meters(loads: *mut f64, loads_len: usize) -> u32;

    pub fn galitzaf_trace_append(
        writer: *mut u64,
        writer_len: usize,
        block: *mut u8,
        block_len: usize,
        kind: u8,
        source: u16,
        address: u64,
        data: u32,
        answer: *const u8,
        answer_len: usize,
    ) -> u32;

    pub fn galitzaf_trace_close(
        writer: *mut u64,
        writer_len: usize,
        block: *mut u8,
        block_len: usize,
    ) -> u32;

    pub fn galitzaf_trace_check(trace: *const u8, trace_len: usize, place: u64) -> u32;

    pub fn galitzaf_trace_next(
        trace: *const u8,
        trace_len: usize,
        place: *mut u64,
        place_len: usize,
        entry: *mut u8,
        entry_len: usize,
    ) -> u32;

    pub fn galitzaf_trace_replay(
        registers: *const u8,
        registers_len: usize,
        windows: *const u64,
        windows_len: usize,
        image: *mut u8,
        image_len: usize,
        trace: *const u8,
        trace_len: usize,
        place: *mut u64,
        place_len: usize,
        entry: *mut u8,
        entry_len: usize,
    ) -> u32;
}
