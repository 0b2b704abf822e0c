//! Page tables written: lists of pages to map and unmap.

use core::fmt;

use crate::bytes::Hex;
use crate::ffi::{self, MAP_READ, MAP_WRITE, OK, UNMAP};
use crate::{Memory, Page, PageSize, Refusal, SourceId, Unit};

#[cfg(feature = "alloc")]
use alloc::vec::Vec;

/// A region of guest memory in which the tables of a context lie: its top table, the tables below it, and
/// free pages.
#[derive(Clone, Copy, PartialEq, Eq, Hash)]
pub struct Region {
    /// Host address of its first byte, a multiple of 4096.
    pub start: u64,
    /// Its bytes, a multiple of 4096.
    pub size: u64,
}

impl Region {
    /// How many bytes of marks [`Unit::build`] is lent for it: one for each page.
    pub const fn pages(self) -> u64 {
        self.size / 4096
    }
}

/// In hexadecimal.
impl fmt::Debug for Region {
    fn fmt(&self, f: &mut fmt::Formatter<'_>) -> fmt::Result {
        f.debug_struct("Region")
            .field("start", &Hex(self.start))
            .field("size", &Hex(self.size))
            .finish()
    }
}

/// A page to map or unmap. It displays in the words of a listing, `map 40201000 1000 12345000 R-` or `unmap 40201000
/// 1000`.
#[repr(C)]
#[derive(Clone, Copy, PartialEq, Eq, Hash)]
pub struct Item {
    what: u64,
    place: u64,
    size: u64,
    frame: u64,
}

impl Item {
    /// The page whose first address is `place` is mapped, with this frame, size and these rights.
    ///
    /// ```
    /// use galitzaf::{Item, Page, PageSize};
    ///
    /// let page = Page { frame: 0x1234_5000, size: PageSize::FourKiB, read: true, write: false };
    /// assert_eq!(Item::map(0x4020_1000, page).to_string(), "map 40201000 1000 12345000 R-");
    /// assert_eq!(Item::unmap(0x4020_1000, PageSize::FourKiB).to_string(), "unmap 40201000 1000");
    /// ```
    pub const fn map(place: u64, page: Page) -> Self {
        let read = if page.read { MAP_READ } else { 0 };
        let write = if page.write { MAP_WRITE } else { 0 };
        Self {
            what: read | write,
            place,
            size: page.size.bytes(),
            frame: page.frame,
        }
    }

    /// The page of this first address and size is unmapped.
    pub const fn unmap(place: u64, size: PageSize) -> Self {
        Self {
            what: UNMAP,
            place,
            size: size.bytes(),
            frame: 0,
        }
    }
}

impl fmt::Display for Item {
    fn fmt(&self, f: &mut fmt::Formatter<'_>) -> fmt::Result {
        let Self {
            what,
            place,
            size,
            frame,
        } = *self;
        if what == UNMAP {
            return write!(f, "unmap {place:X} {size:X}");
        }
        let read = if what & MAP_READ == 0 { '-' } else { 'R' };
        let write = if what & MAP_WRITE == 0 { '-' } else { 'W' };
        write!(f, "map {place:X} {size:X} {frame:X} {read}{write}")
    }
}

/// As it displays.
impl fmt::Debug for Item {
    fn fmt(&self, f: &mut fmt::Formatter<'_>) -> fmt::Result {
        write!(f, "Item({self})")
    }
}

/// Why a list was refused with no item.
#[derive(Clone, Copy, Debug, PartialEq, Eq, Hash)]
#[non_exhaustive]
pub enum NotReady {
    /// Translation is off.
    TranslationOff,
    /// The source has no context that translates.
    Context,
    /// The region isn't whole pages of memory below 2^HAW, or shares a byte with a table or descriptor of the unit.
    Region,
    /// The context's tables aren't in the region as built here.
    Tables,
    /// The lent buffers don't fit the region.
    Buffers,
}

impl fmt::Display for NotReady {
    fn fmt(&self, f: &mut fmt::Formatter<'_>) -> fmt::Result {
        f.write_str(match self {
            Self::TranslationOff => "translation is off",
            Self::Context => "the context doesn't translate",
            Self::Region => "bad region",
            Self::Tables => "the tables aren't as built here",
            Self::Buffers => "buffers that don't fit the region",
        })
    }
}

/// The first reason against an item, in the order in which they are looked at.
#[derive(Clone, Copy, Debug, PartialEq, Eq, Hash)]
#[non_exhaustive]
pub enum ItemReason {
    /// Neither 4 KiB nor 2 MiB, or 2 MiB where it isn't supported.
    Size,
    /// The place, or the frame of a map, is no multiple of the size.
    Alignment,
    /// At or above 2^X, or a byte in FEE00000h to FEEFFFFFh.
    Place,
    /// A map without a right.
    Rights,
    /// At or above 2^HAW, or a byte in FEE00000h to FEEFFFFFh.
    Frame,
    /// A mapped page meets this one.
    Overlap,
    /// There are fewer free pages than tables that are missing.
    Pages,
    /// An unmap where no page of this start and size is mapped.
    NotMapped,
}

impl fmt::Display for ItemReason {
    fn fmt(&self, f: &mut fmt::Formatter<'_>) -> fmt::Result {
        f.write_str(match self {
            Self::Size => "bad or unsupported size",
            Self::Alignment => "bad alignment",
            Self::Place => "bad place",
            Self::Rights => "no rights",
            Self::Frame => "bad frame",
            Self::Overlap => "overlap with a mapped page",
            Self::Pages => "too few free pages",
            Self::NotMapped => "no such page is mapped",
        })
    }
}

/// Why a list of pages was refused, whole: no byte of memory was changed.
#[derive(Clone, Copy, Debug, PartialEq, Eq, Hash)]
#[non_exhaustive]
pub enum BuildError {
    /// Bad registers or windows.
    Refused(Refusal),
    /// With no item.
    NotReady(NotReady),
    /// At an item.
    Item {
        /// Its place in the list, from 0.
        index: usize,
        /// The first reason against it.
        reason: ItemReason,
    },
    /// There is no room for the builder's buffers.
    NoRoom,
}

impl BuildError {
    pub(crate) fn decode(status: u32, index: u64) -> Result<(), Self> {
        let not_ready = |reason| Err(Self::NotReady(reason));
        let reason = match status {
            OK => return Ok(()),
            ffi::BUILD_TE_OFF => return not_ready(NotReady::TranslationOff),
            ffi::BUILD_CONTEXT => return not_ready(NotReady::Context),
            ffi::BUILD_REGION => return not_ready(NotReady::Region),
            ffi::BUILD_TABLES => return not_ready(NotReady::Tables),
            ffi::BUILD_BUFFERS => return not_ready(NotReady::Buffers),
            ffi::ITEM_SIZE => ItemReason::Size,
            ffi::ITEM_ALIGNMENT => ItemReason::Alignment,
            ffi::ITEM_PLACE => ItemReason::Place,
            ffi::ITEM_RIGHTS => ItemReason::Rights,
            ffi::ITEM_FRAME => ItemReason::Frame,
            ffi::ITEM_OVERLAP => ItemReason::Overlap,
            ffi::ITEM_PAGES => ItemReason::Pages,
            ffi::ITEM_NOT_MAPPED => ItemReason::NotMapped,
            _ => {
                let refusal = u8::try_from(status).map_or(Refusal::INTERFACE, Refusal::from);
                return Err(Self::Refused(refusal));
            }
        };
        let index = usize::try_from(index).unwrap_or(usize::MAX);
        Err(Self::Item { index, reason })
    }
}

impl fmt::Display for BuildError {
    fn fmt(&self, f: &mut fmt::Formatter<'_>) -> fmt::Result {
        match self {
            Self::Refused(refusal) => write!(f, "{refusal}"),
            Self::NotReady(reason) => write!(f, "{reason}"),
            Self::Item { index, reason } => write!(f, "item {index}: {reason}"),
            Self::NoRoom => f.write_str("no room for the builder's buffers"),
        }
    }
}

impl core::error::Error for BuildError {}

impl Unit {
    /// Maps and unmaps a list of pages in the page tables of a source's context, whole or not at all: an error
    /// names the first item with a reason against it, and leaves memory as it came. Written is the region alone.
    ///
    /// `copy` is lent to work in, as long as the region, and so is `marks`, [`Region::pages`] bytes; what they hold
    /// doesn't matter. `TableBuilder`, of the feature `alloc`, brings its own.
    ///
    /// ```
    /// use galitzaf::{Item, Levels, Memory, MemoryAnswer, MemoryRequest, Page, PageSize, Region, Registers, SourceId, Unit};
    ///
    /// let unit = Unit::new(&Registers {
    ///     haw: 39,
    ///     mgaw: 48,
    ///     levels: Levels { three: true, ..Levels::NONE },
    ///     root_table: 0x1000,
    ///     interrupt_table: 0x6000,
    ///     te: true,
    ///     ..Registers::default()
    /// });
    /// // Root and context entry; the top table, at 3000h, and all else of the region is empty.
    /// let mut image = vec![0; 0x8000];
    /// for (address, word) in [(0x1030, 0x2001u64), (0x2100, 0x3001), (0x2108, 0x501)] {
    ///     image[address..address + 8].copy_from_slice(&word.to_le_bytes());
    /// }
    ///
    /// let device = SourceId::new(0x03, 0x10);
    /// let page = Page { frame: 0x1234_5000, size: PageSize::FourKiB, read: true, write: false };
    /// let region = Region { start: 0x3000, size: 0x3000 };
    /// let (mut copy, mut marks) = ([0; 0x3000], [0; 3]);
    /// let mut memory = Memory::flat(&mut image[..]);
    /// unit.build(&mut memory, device, region, &[Item::map(0x4020_1000, page)], &mut copy, &mut marks).unwrap();
    ///
    /// let answer = unit.memory(&Memory::flat(&image), MemoryRequest::read(device, 0x4020_1ABC));
    /// assert_eq!(answer, MemoryAnswer::Granted(0x1234_5ABC));
    /// ```
    pub fn build<R: AsMut<[u8]>>(
        &self,
        memory: &mut Memory<R>,
        source: SourceId,
        region: Region,
        items: &[Item],
        copy: &mut [u8],
        marks: &mut [u8],
    ) -> Result<(), BuildError> {
        let (status, index) = memory.lend_mut(|windows, run| {
            ffi::build(
                &self.registers,
                windows,
                run,
                source.into(),
                region,
                items,
                copy,
                marks,
            )
        });
        BuildError::decode(status, index)
    }
}

/// A list of pages to map and unmap in the page tables of a source's context, with the buffers that building
/// takes.
///
/// The tables lie in a region of guest memory, which begins as an empty top table, all zero, and free pages. Tables
/// are made in the lowest free pages as they are needed, and their pages are free again when nothing is mapped
/// through them.
///
/// ```
/// use galitzaf::{BuildError, ItemReason, Levels, Memory, Page, PageSize, Region, Registers, SourceId, TableBuilder, Unit};
///
/// let unit = Unit::new(&Registers {
///     haw: 39,
///     mgaw: 48,
///     levels: Levels { three: true, ..Levels::NONE },
///     root_table: 0x1000,
///     interrupt_table: 0x7000,
///     te: true,
///     ..Registers::default()
/// });
/// let mut image = vec![0; 0x8000];
/// for (address, word) in [(0x1030, 0x2001u64), (0x2100, 0x3001), (0x2108, 0x501)] {
///     image[address..address + 8].copy_from_slice(&word.to_le_bytes());
/// }
/// let mut memory = Memory::flat(&mut image[..]);
///
/// let page = |frame| Page { frame, size: PageSize::FourKiB, read: true, write: true };
/// let mut builder = TableBuilder::new(SourceId::new(0x03, 0x10), Region { start: 0x3000, size: 0x4000 });
/// builder.map(0x4020_1000, page(0x1234_5000)).map(0x4020_2000, page(0x1234_6000));
/// assert_eq!(builder.build(&unit, &mut memory), Ok(()));
///
/// // A list is refused whole, by its first bad item.
/// builder.unmap(0x4020_1000, PageSize::FourKiB).map(0x4020_2000, page(0x1234_7000));
/// let overlap = BuildError::Item { index: 1, reason: ItemReason::Overlap };
/// assert_eq!(builder.build(&unit, &mut memory), Err(overlap));
/// ```
#[cfg(feature = "alloc")]
#[derive(Clone, Debug)]
pub struct TableBuilder {
    source: SourceId,
    region: Region,
    items: Vec<Item>,
    copy: Vec<u8>,
    marks: Vec<u8>,
}

#[cfg(feature = "alloc")]
impl TableBuilder {
    /// One for the context of a source, whose tables lie in a region. Its list is empty.
    pub const fn new(source: SourceId, region: Region) -> Self {
        Self {
            source,
            region,
            items: Vec::new(),
            copy: Vec::new(),
            marks: Vec::new(),
        }
    }

    /// Puts a page to map behind the list.
    pub fn map(&mut self, place: u64, page: Page) -> &mut Self {
        self.items.push(Item::map(place, page));
        self
    }

    /// Puts a page to unmap behind the list.
    pub fn unmap(&mut self, place: u64, size: PageSize) -> &mut Self {
        self.items.push(Item::unmap(place, size));
        self
    }

    /// Puts items behind the list.
    pub fn extend(&mut self, items: impl IntoIterator<Item = Item>) -> &mut Self {
        self.items.extend(items);
        self
    }

    /// The list.
    pub fn items(&self) -> &[Item] {
        &self.items
    }

    /// Empties the list, as after one that was refused.
    pub fn clear(&mut self) {
        self.items.clear();
    }

    /// Takes the list, as [`Unit::build`] does. Where it is done the list is empty afterwards; where it is refused it
    /// stays, and memory with it.
    pub fn build<R: AsMut<[u8]>>(
        &mut self,
        unit: &Unit,
        memory: &mut Memory<R>,
    ) -> Result<(), BuildError> {
        let run = u64::try_from(memory.run_mut().as_mut().len()).unwrap_or(u64::MAX);
        // A region that is longer than all memory is refused as one, whatever the buffers are.
        let region = self.region;
        let (bytes, pages) = if region.size <= run {
            (region.size, region.pages())
        } else {
            (0, 0)
        };
        fit(&mut self.copy, bytes)?;
        fit(&mut self.marks, pages)?;
        unit.build(
            memory,
            self.source,
            region,
            &self.items,
            &mut self.copy,
            &mut self.marks,
        )?;
        self.items.clear();
        Ok(())
    }
}

/// Makes a buffer of this length.
#[cfg(feature = "alloc")]
fn fit(buffer: &mut Vec<u8>, length: u64) -> Result<(), BuildError> {
    let length = usize::try_from(length).map_err(|_| BuildError::NoRoom)?;
    let more = length.saturating_sub(buffer.len());
    buffer
        .try_reserve_exact(more)
        .map_err(|_| BuildError::NoRoom)?;
    buffer.resize(length, 0);
    Ok(())
}

#[cfg(test)]
mod tests {
    use super::*;

    #[test]
    fn items_are_four_numbers_each() {
        assert_eq!(size_of::<Item>(), 32);
        assert_eq!(core::mem::offset_of!(Item, what), 0);
        assert_eq!(core::mem::offset_of!(Item, place), 8);
        assert_eq!(core::mem::offset_of!(Item, size), 16);
        assert_eq!(core::mem::offset_of!(Item, frame), 24);
    }

    #[test]
    fn statuses_have_one_meaning_each() {
        let said = |status| BuildError::decode(status, 7);
        assert_eq!(said(0), Ok(()));
        assert_eq!(said(1), Err(BuildError::Refused(Refusal::BadRegisters)));
        assert_eq!(said(0x109), Err(BuildError::Refused(Refusal::INTERFACE)));
        let named = |error: &Result<(), BuildError>| {
            let Err(error) = error else { return false };
            matches!(
                error,
                BuildError::NotReady(_) | BuildError::Item { index: 7, .. }
            )
        };
        assert_eq!((0..0x200).map(said).filter(named).count(), 13);
        for status in (0..0x200).filter(|&status| named(&said(status))) {
            assert!((0..status).all(|before| said(before) != said(status)));
        }
    }
}
