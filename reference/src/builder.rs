//! Ask 8: the builder, which writes tables.
//!
//! It works on a copy of the image, item after item, and puts the copy in place
//! of the image where no item was refused.

use crate::bits::{bit, bits};
use crate::context::{context, Context};
use crate::image::{bad_windows, fetch, place, Image, Window};
use crate::interrupts::descriptor_address;
use crate::pages::index;
use crate::registers::{meets_interrupt_range, outside_the_list, Registers};
use crate::slips::Slip;

const KIB_4: u64 = 0x1000;
const MIB_2: u64 = 0x20_0000;

/// A region of free pages in the image.
#[derive(Clone, Copy, Debug, PartialEq, Eq)]
pub struct Region {
    /// Host address of its first byte.
    pub start: u64,
    /// How many bytes it has.
    pub length: u64,
}

/// A page to map or unmap.
#[derive(Clone, Copy, Debug, PartialEq, Eq)]
pub enum Item {
    /// To be mapped.
    Map {
        /// The page's first address.
        place: u64,
        /// Its size in bytes.
        size: u64,
        /// The frame it is mapped to.
        frame: u64,
        /// The right to read.
        read: bool,
        /// The right to write.
        write: bool,
    },
    /// To be unmapped.
    Unmap {
        /// The page's first address.
        place: u64,
        /// Its size in bytes.
        size: u64,
    },
}

/// What the builder answers.
#[derive(Clone, Copy, Debug, PartialEq, Eq)]
pub enum Build {
    /// The tables are as the list leaves them.
    Done,
    /// Refused by number 1.
    Refused(u8),
    /// Refused with no item: 1 TE is off, 2 the context doesn't translate, 3
    /// the region, 4 the tables aren't as built here.
    NotReady(u8),
    /// Refused at an item, counted from 0, by its first reason: 1 size, 2
    /// alignment, 3 place, 4 no rights, 5 frame, 6 overlap, 7 too few free
    /// pages, 8 no leaf of that start and size.
    Item {
        /// Which item.
        index: usize,
        /// Why.
        reason: u8,
    },
}

/// Maps and unmaps a list of pages in a source's context.
pub fn build(
    registers: &Registers,
    windows: &[Window],
    run: &mut [u8],
    source: u16,
    region: Region,
    items: &[Item],
) -> Build {
    let image = Image { windows, run };
    if outside_the_list(registers) || bad_windows(image) {
        return Build::Refused(1);
    }
    // Checked right after 1, else refused with no item: TE is on,
    if !registers.te {
        return Build::NotReady(1);
    }
    // the context translates,
    let context = match context(Slip::None, registers, image, source, &mut Vec::new()) {
        Ok(context) if context.tt != 2 => context,
        _ => return Build::NotReady(2),
    };
    // and the region is whole pages of the image, below 2^HAW, none shared with
    // root, context or interrupt tables or posted descriptors.
    if bad_region(registers, image, region) {
        return Build::NotReady(3);
    }
    let mut tables = Tables {
        registers,
        windows,
        run: run.to_vec(),
        region,
        context,
    };
    // All of the context's tables lie in it, built here from an empty one.
    if tables.tables().is_none() {
        return Build::NotReady(4);
    }
    // The list is taken in order and refused whole exactly at the first item
    // with a reason.
    for (index, item) in items.iter().enumerate() {
        let refused = match *item {
            Item::Map {
                place,
                size,
                frame,
                read,
                write,
            } => tables.map(place, size, frame, read, write),
            Item::Unmap { place, size } => tables.unmap(place, size),
        };
        if let Err(reason) = refused {
            return Build::Item { index, reason };
        }
    }
    run.copy_from_slice(&tables.run);
    Build::Done
}

/// Whether the region isn't good.
fn bad_region(registers: &Registers, image: Image, region: Region) -> bool {
    let start = u128::from(region.start);
    let length = u128::from(region.length);
    let end = start + length;
    // Whole pages
    if !start.is_multiple_of(4096) || !length.is_multiple_of(4096) {
        return true;
    }
    // below 2^HAW,
    if end > 1u128 << registers.haw {
        return true;
    }
    // of the image,
    for n in 0..length / 4096 {
        if place(image.windows, start + 4096 * n, 4096).is_none() {
            return true;
        }
    }
    // none shared with
    let shared = |other: u128, size: u128| length > 0 && other < end && start < other + size;
    // root
    let root_table = u128::from(registers.root);
    if shared(root_table, 4096) {
        return true;
    }
    // or context tables (those of present entries)
    for bus in 0..256 {
        let Some(root) = fetch(image, root_table + 16 * bus, 16, &mut Vec::new()) else {
            continue;
        };
        let context_table = bits(&root, 63, 12) << 12;
        if bit(&root, 0) && shared(context_table, 4096) {
            return true;
        }
    }
    // or interrupt tables
    let interrupt_table = u128::from(registers.interrupt_table);
    let entries = 1u128 << (registers.s + 1);
    if shared(interrupt_table, 16 * entries) {
        return true;
    }
    // or posted descriptors (those of present entries).
    for n in 0..entries {
        let Some(entry) = fetch(image, interrupt_table + 16 * n, 16, &mut Vec::new()) else {
            continue;
        };
        let posted = bit(&entry, 0) && bit(&entry, 15);
        if posted && shared(descriptor_address(&entry), 64) {
            return true;
        }
    }
    false
}

/// The context's tables, in a copy of the run.
struct Tables<'a> {
    registers: &'a Registers,
    windows: &'a [Window],
    run: Vec<u8>,
    region: Region,
    context: Context,
}

/// An entry on the way to a place.
struct Step {
    /// Its level.
    level: usize,
    /// The table it stands in.
    table: u64,
    /// Its host address.
    at: u64,
    /// What it holds.
    word: u64,
}

/// Bits 1:0 are not both clear.
fn present(word: u64) -> bool {
    word & 3 != 0
}

/// A leaf, in tables as built here: at level 1, or with bit 7 at level 2.
fn leaf(word: u64, level: usize) -> bool {
    present(word) && (level == 1 || level == 2 && word & 0x80 != 0)
}

/// The level of a leaf of a size.
fn leaf_level(size: u64) -> usize {
    if size == MIB_2 {
        2
    } else {
        1
    }
}

impl Tables<'_> {
    fn get(&self, at: u64) -> u64 {
        // Tables as built here lie in the region, and so in the image.
        match place(self.windows, u128::from(at), 8) {
            Some(first) => bits(&self.run[first..first + 8], 63, 0) as u64,
            None => 0,
        }
    }

    fn set(&mut self, at: u64, word: u64) {
        if let Some(first) = place(self.windows, u128::from(at), 8) {
            self.run[first..first + 8].copy_from_slice(&word.to_le_bytes());
        }
    }

    fn top(&self) -> u64 {
        self.context.top as u64
    }

    fn in_region(&self, page: u64) -> bool {
        let end = self.region.start + self.region.length;
        self.region.start <= page && page < end
    }

    /// The pages that are tables of the context, the top one among them: none
    /// if the tables aren't as built here.
    fn tables(&self) -> Option<Vec<u64>> {
        let mut tables = Vec::new();
        self.collect(self.top(), self.context.levels, &mut tables)
            .then_some(tables)
    }

    /// Adds a table and those below it: false if they aren't as built here.
    fn collect(&self, table: u64, level: usize, tables: &mut Vec<u64>) -> bool {
        // In the region, none twice.
        if !self.in_region(table) || tables.contains(&table) {
            return false;
        }
        tables.push(table);
        let mut empty = true;
        for n in 0..512 {
            let word = self.get(table + 8 * n);
            if !present(word) {
                continue;
            }
            empty = false;
            if leaf(word, level) {
                continue;
            }
            // A table entry is page + 3.
            if word % 4096 != 3 || !self.collect(word - 3, level - 1, tables) {
                return false;
            }
        }
        // None but the top one is empty.
        !empty || level == self.context.levels
    }

    /// The region's pages that are no table, the lowest first.
    fn free(&self) -> Vec<u64> {
        let tables = self.tables().unwrap_or_default();
        (0..self.region.length / 4096)
            .map(|n| self.region.start + 4096 * n)
            .filter(|page| !tables.contains(page))
            .collect()
    }

    /// The entries on the way to a place, from the top down to a leaf, an
    /// absent entry or the level asked for.
    fn way(&self, to: u64, last: usize) -> Vec<Step> {
        let mut steps = Vec::new();
        let mut table = self.top();
        let mut level = self.context.levels;
        loop {
            let at = table + 8 * index(to, level) as u64;
            let word = self.get(at);
            steps.push(Step {
                level,
                table,
                at,
                word,
            });
            if level == last || !present(word) || leaf(word, level) {
                return steps;
            }
            table = word - 3;
            level -= 1;
        }
    }

    /// The checks that map and unmap share: size, alignment of the place
    /// (a map's frame beside it), place.
    fn size_and_place(&self, to: u64, size: u64, frame: u64) -> Result<(), u8> {
        // A bad or unsupported size.
        if size != KIB_4 && size != MIB_2 {
            return Err(1);
        }
        if size == MIB_2 && !self.registers.pages_2m {
            return Err(1);
        }
        // A bad alignment of place or frame.
        if !to.is_multiple_of(size) || !frame.is_multiple_of(size) {
            return Err(2);
        }
        // A place at or above 2^X or meeting FEE00000h to FEEFFFFFh.
        if u128::from(to) >= 1u128 << self.context.x
            || meets_interrupt_range(u128::from(to), u128::from(size))
        {
            return Err(3);
        }
        Ok(())
    }

    fn map(&mut self, to: u64, size: u64, frame: u64, read: bool, write: bool) -> Result<(), u8> {
        self.size_and_place(to, size, frame)?;
        // No rights.
        if !read && !write {
            return Err(4);
        }
        // A frame not below 2^HAW; Ask 10 refuses one on the interrupt range
        // as one not below 2^HAW.
        if u128::from(frame) >= 1u128 << self.registers.haw
            || meets_interrupt_range(u128::from(frame), u128::from(size))
        {
            return Err(5);
        }
        // An overlap with a mapping: a leaf over the place, or, where a table
        // stands at the leaf's place, the leaves in it. (No table but the top
        // one is empty.)
        let last = leaf_level(size);
        let way = self.way(to, last);
        let Some(end) = way.last() else {
            return Err(6);
        };
        if present(end.word) {
            return Err(6);
        }
        // Too few free pages for the missing tables: those below an entry that
        // is absent above the leaf's level.
        let missing = end.level - last;
        let free = self.free();
        if free.len() < missing {
            return Err(7);
        }
        // Missing tables are made from the top down; each takes the lowest
        // free page, and is zeroed when taken. A table entry is page + 3.
        for (level, page) in (last + 1..=end.level).rev().zip(free) {
            for n in 0..512 {
                self.set(page + 8 * n, 0);
            }
            let way = self.way(to, level);
            self.set(way[way.len() - 1].at, page + 3);
        }
        // A leaf is frame + rights + bit 7 for 2 MiB.
        let rights = u64::from(read) + 2 * u64::from(write);
        let large = if size == MIB_2 { 0x80 } else { 0 };
        let way = self.way(to, last);
        self.set(way[way.len() - 1].at, frame + rights + large);
        Ok(())
    }

    fn unmap(&mut self, to: u64, size: u64) -> Result<(), u8> {
        self.size_and_place(to, size, 0)?;
        // Unmap, after its place, needs a leaf of that start and size.
        let last = leaf_level(size);
        let way = self.way(to, last);
        let Some(end) = way.last() else {
            return Err(8);
        };
        if end.level != last || !leaf(end.word, last) {
            return Err(8);
        }
        // An unmapped entry is 0, and so is that of an emptied table, the top
        // one apart, whose page is free then.
        self.set(end.at, 0);
        for (above, step) in way.iter().zip(&way[1..]).rev() {
            let emptied = (0..512).all(|n| !present(self.get(step.table + 8 * n)));
            if !emptied {
                break;
            }
            self.set(above.at, 0);
        }
        Ok(())
    }
}
