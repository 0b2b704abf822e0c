//! Ask 14: scalable mode.
//!
//! Requests are untranslated reads and writes, with a PASID (unprivileged) or
//! none. The formats that 003's supplied text lacks are listed in this crate's
//! README.

mod tables;
mod walks;

use crate::bits::put;
use crate::image::{bad_windows, fetch, place, Image, Window};
use crate::record::{memory_fault, Fault};
use crate::registers::{in_interrupt_range, outside_the_list, Registers};
use crate::Outcome;

/// The registers of scalable mode: those of document 01, and ten switches. As
/// these are switches, number 1 has no more to look at.
#[derive(Clone, Copy, Debug, PartialEq, Eq)]
pub struct ScalableRegisters {
    /// The registers of document 01. Levels and page sizes are those of the
    /// second level.
    pub base: Registers,
    /// FLTS: first-level translation is supported.
    pub flts: bool,
    /// SLTS: second-level translation is supported.
    pub slts: bool,
    /// NEST: nested translation is supported.
    pub nest: bool,
    /// PT: pass-through is supported.
    pub pt: bool,
    /// FL5LP: 5 levels are supported in the first level.
    pub fl5lp: bool,
    /// FL1GP: 1 GiB pages are supported in the first level.
    pub fl1gp: bool,
    /// SLADS: accessed and dirty flags are supported in the second level.
    pub slads: bool,
    /// EAFS: the extended accessed flag is supported.
    pub eafs: bool,
    /// SRS: supervisor requests are supported.
    pub srs: bool,
    /// SMPWC: page walks are coherent.
    pub smpwc: bool,
}

/// A request in scalable mode.
#[derive(Clone, Copy, Debug, PartialEq, Eq)]
pub struct ScalableRequest {
    /// The source id.
    pub source: u16,
    /// The address asked for.
    pub address: u64,
    /// Whether it writes.
    pub write: bool,
    /// The PASID, if it has one.
    pub pasid: Option<u32>,
}

/// A bit that a granted request sets: of the entry at a host address, the bit
/// of this number.
#[derive(Clone, Copy, Debug, PartialEq, Eq, PartialOrd, Ord)]
pub struct Flag {
    /// The entry's host address.
    pub entry: u64,
    /// 5 A, 6 D or 10 EA of a first-level entry, 8 A or 9 D of a second-level
    /// one.
    pub bit: u8,
}

/// Answers a request. A granted one sets accessed and dirty flags, and no other
/// changes a byte.
pub fn scalable_request(
    registers: &ScalableRegisters,
    windows: &[Window],
    run: &mut [u8],
    request: ScalableRequest,
) -> Outcome {
    let (outcome, way) = answer(registers, Image { windows, run }, request);
    // All reads came first.
    for flag in way.flags {
        if let Some(first) = place(windows, u128::from(flag.entry), 8) {
            let bit = usize::from(flag.bit);
            put(&mut run[first..first + 8], bit, bit, 1);
        }
    }
    outcome
}

/// The host addresses of the request's named words: the words fetched, in
/// order.
pub fn named_words_scalable(
    registers: &ScalableRegisters,
    windows: &[Window],
    run: &[u8],
    request: ScalableRequest,
) -> Vec<u64> {
    answer(registers, Image { windows, run }, request).1.words
}

/// Exactly the bits the request sets, in order, those that are set already
/// among them, each once for each time that its entry was used.
pub fn flags_scalable(
    registers: &ScalableRegisters,
    windows: &[Window],
    run: &[u8],
    request: ScalableRequest,
) -> Vec<Flag> {
    answer(registers, Image { windows, run }, request).1.flags
}

/// Why a request isn't granted.
pub(crate) enum Stop {
    /// A fault, by reason.
    Fault(u8),
    /// The unit says no by house number.
    Refused(u8),
}

/// What is known on the way.
pub(crate) struct Way<'a> {
    registers: &'a ScalableRegisters,
    image: Image<'a>,
    /// The words fetched.
    words: Vec<u64>,
    /// The flags to be set once the request is granted.
    flags: Vec<Flag>,
    /// Whether an FPD fetched so far is set: of the context entry, of the PASID
    /// directory entry, of the PASID table entry.
    fpd: bool,
    /// The entry whose fetch was tried last, which is the one a fault names.
    last: u128,
}

impl Way<'_> {
    /// Fetches an entry.
    fn fetch(&mut self, address: u128, width: usize) -> Option<Vec<u8>> {
        self.last = address;
        fetch(self.image, address, width, &mut self.words)
    }

    /// Notes a flag to be set in the entry that was fetched last.
    fn flag(&mut self, bit: u8) {
        self.flags.push(Flag {
            entry: self.last as u64,
            bit,
        });
    }
}

fn answer<'a>(
    registers: &'a ScalableRegisters,
    image: Image<'a>,
    request: ScalableRequest,
) -> (Outcome, Way<'a>) {
    let mut way = Way {
        registers,
        image,
        words: Vec::new(),
        flags: Vec::new(),
        fpd: false,
        last: 0,
    };
    let outcome = match granted(&mut way, request) {
        Ok(host) => Outcome::Granted(host),
        Err(stop) => {
            // Accessed and dirty bits make a granted request, and no other,
            // write.
            way.flags.clear();
            match stop {
                Stop::Refused(number) => Outcome::Refused(number),
                Stop::Fault(reason) => Outcome::Blocked(fault(&way, request, reason)),
            }
        }
    };
    (outcome, way)
}

/// The host address, or why there is none.
fn granted(way: &mut Way, request: ScalableRequest) -> Result<u64, Stop> {
    let registers = &way.registers.base;
    // 1 before 2;
    if outside_the_list(registers) || bad_windows(way.image) {
        return Err(Stop::Refused(1));
    }
    if in_interrupt_range(request.address) {
        return Err(Stop::Refused(2));
    }
    // a PASID above 20 bits: house number 6, after 2.
    if request.pasid.is_some_and(|pasid| pasid >= 1 << 20) {
        return Err(Stop::Refused(6));
    }
    // With TE off, a request past these checks is passed unchanged and no word
    // is read.
    if !registers.te {
        return Ok(request.address);
    }
    let pasid = tables::pasid_entry(way, request)?;
    walks::translate(way, &pasid, request)
}

/// The fault: as document 01's, with 003's PASID fields.
fn fault(way: &Way, request: ScalableRequest, reason: u8) -> Fault {
    let ScalableRequest {
        source,
        address,
        write,
        pasid,
    } = request;
    let mut fault = memory_fault(reason, false, source, address, write, way.last);
    // Table 26's "Qualified": all but these are silenced by an FPD.
    let always = matches!(reason, 0x38 | 0x39 | 0x3A | 0x40 | 0x50 | 0x58);
    fault.recordable = always || !way.fpd;
    if let Some(pasid) = pasid {
        // PASID value 123:104, PASID present 95. EXE 94 and PRIV 93 are 0.
        put(&mut fault.record, 123, 104, u128::from(pasid));
        put(&mut fault.record, 95, 95, 1);
    }
    fault
}
