//! The table builder's call.

use crate::declared::galitzaf_build;

/// What the builder is lent to write.
pub struct Building<'a> {
    /// The run.
    pub image: &'a mut [u8],
    /// The copy of the region.
    pub copy: &'a mut [u8],
    /// The marks of its pages.
    pub marks: &'a mut [u8],
    /// The index of the item that is refused.
    pub item: &'a mut [u64],
}

/// `galitzaf_build`.
#[inline(always)]
pub fn build(
    registers: &[u8],
    windows: &[u64],
    source: u16,
    [start, size]: [u64; 2],
    items: &[u64],
    lent: Building,
) -> u32 {
    // SAFETY: each pointer and length is that of a live slice. Those of `lent`, which are written, are lent
    // by `&mut`, so that none overlaps another. None is kept after the call.
    unsafe {
        galitzaf_build(
            registers.as_ptr(),
            registers.len(),
            windows.as_ptr(),
            windows.len(),
            lent.image.as_mut_ptr(),
            lent.image.len(),
            source,
            start,
            size,
            items.as_ptr(),
            items.len(),
            lent.copy.as_mut_ptr(),
            lent.copy.len(),
            lent.marks.as_mut_ptr(),
            lent.marks.len(),
            lent.item.as_mut_ptr(),
            lent.item.len(),
        )
    }
}
