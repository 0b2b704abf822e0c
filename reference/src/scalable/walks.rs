//! First-level, second-level and nested walks.

use super::tables::PasidEntry;
use super::{ScalableRequest, Stop, Way};
use crate::bits::{any_set, bit, bits};
use crate::pages::{index, is_leaf, low_bits, reserved_in_page_entry};
use crate::registers::meets_interrupt_range;
use crate::slips::Slip;

impl PasidEntry {
    fn pgtt(&self) -> u128 {
        bits(&self.bytes, 8, 6)
    }

    fn nested(&self) -> bool {
        self.pgtt() == 3
    }

    /// Second-level accessed and dirty enable.
    fn slade(&self) -> bool {
        bit(&self.bytes, 9)
    }

    /// Page-walk snoop.
    fn pwsnp(&self) -> bool {
        bit(&self.bytes, 87)
    }

    /// Write protect for privileged writes.
    fn wpe(&self) -> bool {
        bit(&self.bytes, 132)
    }

    /// XD means something.
    fn nxe(&self) -> bool {
        bit(&self.bytes, 133)
    }

    /// Extended accessed flag enable.
    fn eafe(&self) -> bool {
        bit(&self.bytes, 135)
    }

    /// The second level's top table.
    fn slptptr(&self) -> u128 {
        bits(&self.bytes, 63, 12) << 12
    }

    /// The first level's top table.
    fn flptptr(&self) -> u128 {
        bits(&self.bytes, 191, 140) << 12
    }
}

/// A page that a walk ended at.
struct Page {
    frame: u128,
    size: u128,
    /// Whether every second-level entry had W.
    writable: bool,
}

impl Page {
    /// Where an address lies in it.
    fn of(&self, address: u64) -> u128 {
        self.frame + u128::from(address) % self.size
    }

    /// Ask 10's number 4, for the final host frame.
    fn not_on_interrupts(&self) -> Result<(), Stop> {
        if meets_interrupt_range(self.frame, self.size) {
            return Err(Stop::Refused(4));
        }
        Ok(())
    }
}

/// The host address, by PGTT.
pub(crate) fn translate(
    way: &mut Way,
    pasid: &PasidEntry,
    request: ScalableRequest,
) -> Result<u64, Stop> {
    let ScalableRequest { address, write, .. } = request;
    match pasid.pgtt() {
        // 1: first level. 80h; then the walk, tables at host addresses.
        1 => {
            canonical(pasid, address)?;
            let page = first_level(way, pasid, address, write)?;
            page.not_on_interrupts()?;
            Ok(page.of(address) as u64)
        }
        // 2: second level. 84h, address at or above 2^X; then the walk.
        2 => {
            if u128::from(address) >= 1u128 << pasid.x {
                return Err(Stop::Fault(0x84));
            }
            let page = second_level(way, pasid, address, !write, write, write)?;
            page.not_on_interrupts()?;
            Ok(page.of(address) as u64)
        }
        // 3: nested. 80h; then the first-level walk, every entry's address
        // through the second level; then the page through it.
        3 => {
            canonical(pasid, address)?;
            let page = first_level(way, pasid, address, write)?;
            let intermediate = page.of(address);
            let page = intermediate_address(way, pasid, intermediate, !write, write, write)?;
            page.not_on_interrupts()?;
            Ok(page.of(intermediate as u64) as u64)
        }
        // 4: pass-through. The address itself.
        _ => Ok(address),
    }
}

/// 80h: address bits 63:N are not the same as bit N-1, where N is 48 with 4
/// levels and 57 with 5.
fn canonical(pasid: &PasidEntry, address: u64) -> Result<(), Stop> {
    let n = 12 + 9 * pasid.first_levels;
    let address = address.to_le_bytes();
    if (n..64).any(|k| bit(&address, k) != bit(&address, n - 1)) {
        return Err(Stop::Fault(0x80));
    }
    Ok(())
}

/// Access to paging structures is snooped if SMPWC and PWSNP are both set.
fn snooped(way: &Way, pasid: &PasidEntry) -> bool {
    way.registers.smpwc && pasid.pwsnp()
}

/// 7Ch: a flag of the entry would have to be set, and the walk isn't snooped.
fn flags_can_be_set(
    way: &mut Way,
    pasid: &PasidEntry,
    entry: &[u8],
    flags: &[usize],
) -> Result<(), Stop> {
    let clear = flags.iter().any(|&flag| !bit(entry, flag));
    if clear && !snooped(way, pasid) {
        return Err(Stop::Fault(0x7C));
    }
    for &flag in flags {
        way.flag(flag as u8);
    }
    Ok(())
}

/// An intermediate address of the nested walk: 74h at or above 2^X, else it
/// goes through the second level.
fn intermediate_address(
    way: &mut Way,
    pasid: &PasidEntry,
    address: u128,
    read: bool,
    write: bool,
    dirty: bool,
) -> Result<Page, Stop> {
    if address >= 1u128 << pasid.x {
        return Err(Stop::Fault(0x74));
    }
    second_level(way, pasid, address as u64, read, write, dirty)
}

/// The second-level walk of an address with the rights wanted. With SLADE it
/// sets A in every entry, and D in the leaf where `dirty`.
fn second_level(
    way: &mut Way,
    pasid: &PasidEntry,
    address: u64,
    read: bool,
    write: bool,
    dirty: bool,
) -> Result<Page, Stop> {
    let top = pasid.second_levels;
    let mut table = pasid.slptptr();
    let mut level = top;
    let (mut readable, mut writable) = (true, true);
    loop {
        // Access 78h, of the top table's entry 7Bh.
        let Some(entry) = way.fetch(table + 8 * index(address, level), 8) else {
            return Err(Stop::Fault(if level == top { 0x7B } else { 0x78 }));
        };
        // R (0) and W (1) both clear, or nothing left in the join: 79h.
        let (r, w) = (bit(&entry, 0), bit(&entry, 1));
        readable = readable && r;
        writable = writable && w;
        if (!r && !w) || (!readable && !writable) {
            return Err(Stop::Fault(0x79));
        }
        // Reserved, 7Ah: document 01's list.
        if reserved_in_page_entry(Slip::None, &way.registers.base, level, &entry) {
            return Err(Stop::Fault(0x7A));
        }
        // A is bit 8, D bit 9.
        let leaf = is_leaf(&entry, level);
        if pasid.slade() {
            let flags: &[usize] = if leaf && dirty { &[8, 9] } else { &[8] };
            flags_can_be_set(way, pasid, &entry, flags)?;
        }
        // The rights wanted: 85h for write, 86h for read.
        if write && !w {
            return Err(Stop::Fault(0x85));
        }
        if read && !r {
            return Err(Stop::Fault(0x86));
        }
        let frame = bits(&entry, 51, 12) << 12;
        if leaf {
            let size = 1u128 << low_bits(level);
            return Ok(Page {
                frame,
                size,
                writable,
            });
        }
        table = frame;
        level -= 1;
    }
}

/// The first-level walk. In nested mode its tables are at intermediate
/// addresses, and so is its page.
fn first_level(way: &mut Way, pasid: &PasidEntry, address: u64, write: bool) -> Result<Page, Stop> {
    let top = pasid.first_levels;
    let user = !pasid.privileged;
    let mut table = pasid.flptptr();
    let mut level = top;
    loop {
        let mut entry_address = table + 8 * index(address, level);
        let mut may_be_flagged = true;
        if pasid.nested() {
            // With SLADE, R and W everywhere, whether or not a flag changes,
            // as a write to the entry. Without, R to read it; W too only if a
            // flag in it must be set, which is asked below.
            let slade = pasid.slade();
            let page = intermediate_address(way, pasid, entry_address, true, slade, slade)?;
            may_be_flagged = page.writable;
            entry_address = page.of(entry_address as u64);
        }
        // Access 70h, of the top table's entry 73h.
        let Some(entry) = way.fetch(entry_address, 8) else {
            return Err(Stop::Fault(if level == top { 0x73 } else { 0x70 }));
        };
        // P (0) clear: 71h.
        if !bit(&entry, 0) {
            return Err(Stop::Fault(0x71));
        }
        // Reserved, 72h.
        if reserved_in_first_level(way, pasid, level, &entry) {
            return Err(Stop::Fault(0x72));
        }
        // A is bit 5, D bit 6, EA bit 10.
        let leaf = is_leaf(&entry, level);
        let mut flags = vec![5];
        if leaf && write {
            flags.push(6);
        }
        if pasid.eafe() {
            flags.push(10);
        }
        flags_can_be_set(way, pasid, &entry, &flags)?;
        // U/S (2) clear and a user's request: 81h.
        if user && !bit(&entry, 2) {
            return Err(Stop::Fault(0x81));
        }
        // R/W (1) clear: 85h for a write, a privileged one only with WPE.
        if write && !bit(&entry, 1) && (user || pasid.wpe()) {
            return Err(Stop::Fault(0x85));
        }
        // Nested: a flag must be set, and the second level lacks W.
        if !may_be_flagged && flags.iter().any(|&flag| !bit(&entry, flag)) {
            return Err(Stop::Fault(0x85));
        }
        if leaf {
            // The frame is 51:12, 51:21 or 51:30; bit 12 of a large page is
            // PAT.
            let low = low_bits(level);
            return Ok(Page {
                frame: bits(&entry, 51, low) << low,
                size: 1u128 << low,
                writable: true,
            });
        }
        table = bits(&entry, 51, 12) << 12;
        level -= 1;
    }
}

/// Whether a reserved bit of a present first-level entry is set.
fn reserved_in_first_level(way: &Way, pasid: &PasidEntry, level: usize, entry: &[u8]) -> bool {
    let haw = usize::from(way.registers.base.haw);
    // 51:HAW;
    if any_set(entry, 51, haw) {
        return true;
    }
    // PS (7) at levels 4 and 5, and at level 3 without 1 GiB pages;
    if level >= 4 && bit(entry, 7) {
        return true;
    }
    if level == 3 && bit(entry, 7) && !way.registers.fl1gp {
        return true;
    }
    // in a large page 29:13 or 20:13;
    if level == 3 && bit(entry, 7) && any_set(entry, 29, 13) {
        return true;
    }
    if level == 2 && bit(entry, 7) && any_set(entry, 20, 13) {
        return true;
    }
    // XD (63) if NXE is clear.
    bit(entry, 63) && !pasid.nxe()
}
