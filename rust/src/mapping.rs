//! What is mapped for a source.

use core::{fmt, slice};

use crate::ffi::{LISTED, LISTED_MORE, LISTING_FAULT, LISTING_PASSED};
use crate::{Reason, Refusal};

/// A listing has no more spans.
pub const MOST_SPANS: usize = 4096;

/// How many numbers remember every table of a memory of so many bytes.
pub const fn known_numbers(bytes: usize) -> usize {
    bytes.div_ceil(4096).saturating_mul(16)
}

/// What [`Unit::mapping`](crate::Unit::mapping) found.
#[derive(Clone, Debug)]
#[non_exhaustive]
pub enum Mapping<'a> {
    /// Bad registers or windows.
    Refused(Refusal),
    /// Translation is off, or the source's context passes through.
    Passed,
    /// Of the root or context entry.
    Fault(Reason),
    /// The spans, in address order.
    Spans(Spans<'a>),
}

impl<'a> Mapping<'a> {
    pub(crate) fn decode(status: u32, rows: &'a [[u64; 4]]) -> Self {
        let base = status & !0x1FFF;
        let count = usize::try_from(status & 0x1FFF).ok();
        let listed = count.and_then(|count| rows.get(..count));
        match (status, listed) {
            (LISTING_PASSED, _) => Self::Passed,
            (_, Some(rows)) if base == LISTED || base == LISTED_MORE => Self::Spans(Spans {
                rows: rows.iter(),
                more: base == LISTED_MORE,
            }),
            _ => {
                let reason = status.checked_sub(LISTING_FAULT).map(u8::try_from);
                match (u8::try_from(status), reason) {
                    (Ok(_), Some(Ok(reason))) => Self::Fault(Reason::from(reason)),
                    (Ok(number), _) => Self::Refused(Refusal::from(number)),
                    _ => Self::Refused(Refusal::INTERFACE),
                }
            }
        }
    }
}

/// What a span is.
#[derive(Clone, Copy, Debug, PartialEq, Eq, Hash)]
#[non_exhaustive]
pub enum SpanKind {
    /// A page, with the host address of its frame.
    Page(u64),
    /// An entry that faults, or a table wholly outside memory: 07h or 0Ch.
    Fault(Reason),
    /// A page that no request may have: refusal 4.
    Refused(Refusal),
}

/// One span of a source's address space. It displays as a line of the listing, `40201000 1000 12345000 R-`.
#[derive(Clone, Copy, Debug, PartialEq, Eq, Hash)]
pub struct Span {
    /// Its first address.
    pub start: u64,
    /// In bytes.
    pub size: u64,
    /// What it is.
    pub kind: SpanKind,
    /// The right to read, joined over all levels; of a fault, over the entries above it.
    pub read: bool,
    /// The right to write, likewise.
    pub write: bool,
}

impl Span {
    fn decode(&[start, size, value, last]: &[u64; 4]) -> Self {
        let number = || u8::try_from(value).unwrap_or(0);
        let kind = match last >> 2 {
            0 => SpanKind::Page(value),
            1 => SpanKind::Fault(Reason::from(number())),
            _ => SpanKind::Refused(Refusal::from(number())),
        };
        Self {
            start,
            size,
            kind,
            read: last & 1 != 0,
            write: last & 2 != 0,
        }
    }
}

impl fmt::Display for Span {
    fn fmt(&self, f: &mut fmt::Formatter<'_>) -> fmt::Result {
        write!(f, "{:X} {:X} ", self.start, self.size)?;
        match self.kind {
            SpanKind::Page(frame) => {
                let read = if self.read { 'R' } else { '-' };
                let write = if self.write { 'W' } else { '-' };
                write!(f, "{frame:X} {read}{write}")
            }
            SpanKind::Fault(reason) => write!(f, "fault {:02X}", reason.number()),
            SpanKind::Refused(refusal) => write!(f, "refused {}", refusal.number()),
        }
    }
}

/// The spans of a listing, in address order. None overlaps another.
#[derive(Clone, Debug)]
pub struct Spans<'a> {
    rows: slice::Iter<'a, [u64; 4]>,
    more: bool,
}

impl Spans<'_> {
    /// There are more spans than the rows had room for, or than [`MOST_SPANS`].
    pub const fn more(&self) -> bool {
        self.more
    }
}

impl Iterator for Spans<'_> {
    type Item = Span;

    fn next(&mut self) -> Option<Span> {
        self.rows.next().map(Span::decode)
    }

    fn size_hint(&self) -> (usize, Option<usize>) {
        self.rows.size_hint()
    }
}

impl ExactSizeIterator for Spans<'_> {}
