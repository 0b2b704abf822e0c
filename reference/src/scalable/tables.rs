//! Root, context, PASID directory and PASID table entry.

use super::{ScalableRequest, Stop, Way};
use crate::bits::{any_set, bit, bits};

/// What a request is translated by.
pub(crate) struct PasidEntry {
    /// The PASID table entry's 64 bytes.
    pub(crate) bytes: Vec<u8>,
    /// Whether the request is privileged.
    pub(crate) privileged: bool,
    /// Levels of the second level, and X; where PGTT is 2 or 3.
    pub(crate) second_levels: usize,
    /// X, the smaller of MGAW and AW's bits.
    pub(crate) x: u8,
    /// Levels of the first level; where PGTT is 1 or 3.
    pub(crate) first_levels: usize,
}

/// Finds a request's PASID table entry.
pub(crate) fn pasid_entry(way: &mut Way, request: ScalableRequest) -> Result<PasidEntry, Stop> {
    let registers = way.registers;
    let haw = usize::from(registers.base.haw);
    let source = request.source.to_le_bytes();
    let stop = |reason: u8| Err(Stop::Fault(reason));

    // Root entry, root table + 16 x bus. Access 38h.
    let root_entry = u128::from(registers.base.root) + 16 * bits(&source, 15, 8);
    let Some(root) = way.fetch(root_entry, 16) else {
        return stop(0x38);
    };
    // The half is chosen by bit 7 of device and function: LP is bit 0, UP bit
    // 64. The one in use clear: 39h.
    let upper = bit(&source, 7);
    if !bit(&root, if upper { 64 } else { 0 }) {
        return stop(0x39);
    }
    // Non-zero reserved field in the lower 64 bits with LP set, or in the
    // upper 64 bits with UP set: 3Ah.
    if bit(&root, 0) && (any_set(&root, 11, 1) || any_set(&root, 63, haw)) {
        return stop(0x3A);
    }
    if bit(&root, 64) && (any_set(&root, 75, 65) || any_set(&root, 127, 64 + haw)) {
        return stop(0x3A);
    }
    // LCTP is 63:12, UCTP 127:76.
    let context_table = if upper {
        bits(&root, 127, 76) << 12
    } else {
        bits(&root, 63, 12) << 12
    };

    // Context entry, context table + 32 x (device and function, bits 6:0).
    // Access 40h.
    let Some(context) = way.fetch(context_table + 32 * bits(&source, 6, 0), 32) else {
        return stop(0x40);
    };
    // FPD is bit 1, read even if P is clear.
    way.fpd = way.fpd || bit(&context, 1);
    // P clear: 41h.
    if !bit(&context, 0) {
        return stop(0x41);
    }
    // Reserved, 42h: 8:5, 63:HAW, 255:85.
    if any_set(&context, 8, 5) || any_set(&context, 63, haw) || any_set(&context, 255, 85) {
        return stop(0x42);
    }
    // DTE (2) clear and PRE (4) set: 43h.
    if !bit(&context, 2) && bit(&context, 4) {
        return stop(0x43);
    }
    // PDTS is 11:9, and the largest PASID is 2^(PDTS+13) - 1.
    let above = |pasid: u128| pasid >= 1 << (bits(&context, 11, 9) + 13);
    // RID_PASID is 83:64, RID_PRIV 84.
    let (pasid, privileged) = match request.pasid {
        None => {
            let rid_pasid = bits(&context, 83, 64);
            // RID_PASID above the directory's range: 43h.
            if above(rid_pasid) {
                return stop(0x43);
            }
            (rid_pasid, bit(&context, 84))
        }
        Some(pasid) => {
            let pasid = u128::from(pasid);
            // PASIDE (3) clear: 45h.
            if !bit(&context, 3) {
                return stop(0x45);
            }
            // The PASID above the directory's range: 46h.
            if above(pasid) {
                return stop(0x46);
            }
            (pasid, false)
        }
    };

    // PASID directory entry, directory + 8 x PASID bits 19:6. Access 50h.
    let directory = bits(&context, 63, 12) << 12;
    let Some(entry) = way.fetch(directory + 8 * (pasid >> 6), 8) else {
        return stop(0x50);
    };
    way.fpd = way.fpd || bit(&entry, 1);
    // P clear: 51h. Reserved, 52h: 11:2, 63:HAW.
    if !bit(&entry, 0) {
        return stop(0x51);
    }
    if any_set(&entry, 11, 2) || any_set(&entry, 63, haw) {
        return stop(0x52);
    }

    // PASID table entry, table + 64 x PASID bits 5:0. Access 58h.
    let table = bits(&entry, 63, 12) << 12;
    let Some(bytes) = way.fetch(table + 64 * (pasid % 64), 64) else {
        return stop(0x58);
    };
    way.fpd = way.fpd || bit(&bytes, 1);
    // P clear: 59h.
    if !bit(&bytes, 0) {
        return stop(0x59);
    }
    // Reserved, 5Ah: 11:10, 63:HAW, 86:80, 139:136, 191:(128+HAW), 511:192;
    // SLADE (9) without SLADS, SRE (128) without SRS, EAFE (135) without EAFS.
    if any_set(&bytes, 11, 10)
        || any_set(&bytes, 63, haw)
        || any_set(&bytes, 86, 80)
        || any_set(&bytes, 139, 136)
        || any_set(&bytes, 191, 128 + haw)
        || any_set(&bytes, 511, 192)
        || (bit(&bytes, 9) && !registers.slads)
        || (bit(&bytes, 128) && !registers.srs)
        || (bit(&bytes, 135) && !registers.eafs)
    {
        return stop(0x5A);
    }
    // 5Bh: PGTT (8:6) is 1 first, 2 second, 3 nested, 4 pass-through.
    let pgtt = bits(&bytes, 8, 6);
    let supported = match pgtt {
        1 => registers.flts,
        2 => registers.slts,
        3 => registers.nest,
        4 => registers.pt,
        _ => false,
    };
    if !supported {
        return stop(0x5B);
    }
    // AW (4:2), asked where there is a second level: 1, 2, 3 mean 3, 4, 5
    // levels.
    let (second_levels, aw_bits, supported) = match bits(&bytes, 4, 2) {
        1 => (3, 39, registers.base.levels3),
        2 => (4, 48, registers.base.levels4),
        3 => (5, 57, registers.base.levels5),
        _ => (0, 0, false),
    };
    if (pgtt == 2 || pgtt == 3) && !supported {
        return stop(0x5B);
    }
    // FLPM (131:130), asked where there is a first level: 0 means 4 levels, 1
    // means 5.
    let (first_levels, supported) = match bits(&bytes, 131, 130) {
        0 => (4, true),
        1 => (5, registers.fl5lp),
        _ => (0, false),
    };
    if (pgtt == 1 || pgtt == 3) && !supported {
        return stop(0x5B);
    }
    // SRE clear and a privileged request: 5Dh.
    if privileged && !bit(&bytes, 128) {
        return stop(0x5D);
    }
    let mgaw = registers.base.mgaw;
    Ok(PasidEntry {
        bytes,
        privileged,
        second_levels,
        x: if mgaw < aw_bits { mgaw } else { aw_bits },
        first_levels,
    })
}
