//! "Bells: interrupts".

use crate::bits::{any_set, bit, bits, put};
use crate::image::{bad_windows, fetch, place, whole, Image, Window};
use crate::record::interrupt_fault;
use crate::registers::{in_interrupt_range, outside_the_list, Registers};
use crate::slips::{self, Slip};
use crate::{Notice, Outcome};

/// Answers an interrupt over the old image, one window from 0. Only a post
/// changes it.
pub fn interrupt_request(
    registers: &Registers,
    image: &mut [u8],
    source: u16,
    address: u64,
    data: u32,
) -> Outcome {
    interrupt_request_with(Slip::None, registers, image, source, address, data)
}

/// The same with a known slip put in.
pub fn interrupt_request_with(
    slip: Slip,
    registers: &Registers,
    image: &mut [u8],
    source: u16,
    address: u64,
    data: u32,
) -> Outcome {
    let windows = whole(image);
    interrupt_request_in(slip, registers, &windows, image, source, address, data)
}

/// Answers an interrupt over windows, with a known slip put in or none.
pub fn interrupt_request_in(
    slip: Slip,
    registers: &Registers,
    windows: &[Window],
    run: &mut [u8],
    source: u16,
    address: u64,
    data: u32,
) -> Outcome {
    let message = Message {
        source,
        address,
        data,
    };
    answer(slip, registers, windows, run, message, &mut Vec::new())
}

/// The host addresses of the interrupt's named words: the entry's two, then
/// the descriptor's eight, each only where fetched.
pub fn named_words_interrupt(
    registers: &Registers,
    image: &[u8],
    source: u16,
    address: u64,
    data: u32,
) -> Vec<u64> {
    named_words_interrupt_in(registers, &whole(image), image, source, address, data)
}

/// The same over windows.
pub fn named_words_interrupt_in(
    registers: &Registers,
    windows: &[Window],
    run: &[u8],
    source: u16,
    address: u64,
    data: u32,
) -> Vec<u64> {
    let message = Message {
        source,
        address,
        data,
    };
    let mut words = Vec::new();
    let mut copy = run.to_vec();
    let slip = Slip::None;
    answer(slip, registers, windows, &mut copy, message, &mut words);
    words
}

/// An interrupt as it comes.
struct Message {
    source: u16,
    address: u64,
    data: u32,
}

fn answer(
    slip: Slip,
    registers: &Registers,
    windows: &[Window],
    run: &mut [u8],
    message: Message,
    words: &mut Vec<u64>,
) -> Outcome {
    let Message {
        source,
        address,
        data,
    } = message;
    // 1 is checked before 2.
    if outside_the_list(registers) || bad_windows(Image { windows, run }) {
        return Outcome::Refused(1);
    }
    if !in_interrupt_range(address) {
        return Outcome::Refused(2);
    }
    // With IRE off, a request past these checks is passed unchanged and no
    // word is read.
    if !registers.ire {
        return Outcome::Passed;
    }

    let address = address.to_le_bytes();
    let data = data.to_le_bytes();
    // A fault answers with the host address of the entry concerned; 20h, 21h
    // and 25h give none.
    let blocked = |reason: u8, fpd: bool, index: u128, entry: Option<u128>| {
        Outcome::Blocked(interrupt_fault(reason, fpd, source, index, entry))
    };

    // Bit 4 of the address clear is the old format: 25h if EIME is set or CFIS
    // is clear, else passed unchanged.
    if !bit(&address, 4) {
        if registers.eime || !registers.cfis {
            return blocked(0x25, false, 0, None);
        }
        return Outcome::Passed;
    }
    // Otherwise the handle is bits 19:5 with bit 2 as its bit 15; bit 3 is SHV.
    let handle = bits(&address, 19, 5) | bits(&address, 2, 2) << 15;
    let shv = bit(&address, 3);
    let index = if shv {
        // With SHV, data 31:16 set is 20h,
        if any_set(&data, 31, 16) {
            return blocked(0x20, false, 0, None);
        }
        // and the index is handle plus data 15:0, as a whole number up to
        // 131,070.
        handle + bits(&data, 15, 0)
    } else {
        // Without SHV the index is the handle and data is ignored.
        handle
    };
    let index = slips::index(slip, index);

    // Index at or above 2^(S+1): 21h.
    if index >= 1u128 << (registers.s + 1) {
        return blocked(0x21, false, index, None);
    }
    // Entry at table + 16 x index: access 23h.
    let entry_address = u128::from(registers.interrupt_table) + 16 * index;
    let Some(entry) = fetch(Image { windows, run }, entry_address, 16, words) else {
        return blocked(0x23, false, index, Some(entry_address));
    };
    // Bit 1 is FPD, read always.
    let fpd = slips::fpd(slip, bit(&entry, 1), bit(&entry, 0));
    // Bit 0 clear: 22h.
    if !bit(&entry, 0) {
        return blocked(0x22, fpd, index, Some(entry_address));
    }

    // Reserved, 24h.
    if reserved_in_interrupt_entry(registers, &entry) {
        return blocked(0x24, fpd, index, Some(entry_address));
    }

    // Source check, 26h on failure.
    if !source_accepted(&entry, source) {
        return blocked(0x26, fpd, index, Some(entry_address));
    }

    // Remapped answer: destination mode (2), redirection hint (3), trigger
    // (4), delivery (7:5), vector (23:16), destination (63:32, or 47:40
    // without EIME).
    if !bit(&entry, 15) {
        return Outcome::Remapped {
            destination_mode: bit(&entry, 2),
            redirection_hint: bit(&entry, 3),
            trigger: bit(&entry, 4),
            delivery: bits(&entry, 7, 5) as u8,
            vector: bits(&entry, 23, 16) as u8,
            destination: if registers.eime {
                bits(&entry, 63, 32) as u32
            } else {
                bits(&entry, 47, 40) as u32
            },
        };
    }

    // Posted: vector 23:16; descriptor address as below.
    let vector = bits(&entry, 23, 16) as usize;
    let descriptor_address = descriptor_address(&entry);
    // Its 64 bytes: access 27h; 27h and 28h give the descriptor.
    let Some(descriptor) = fetch(Image { windows, run }, descriptor_address, 64, words) else {
        return blocked(0x27, fpd, index, Some(descriptor_address));
    };
    // bits 271:258, 287:280, 511:320 set, or without EIME 295:288 and 319:304:
    // 28h.
    if any_set(&descriptor, 271, 258)
        || any_set(&descriptor, 287, 280)
        || any_set(&descriptor, 511, 320)
    {
        return blocked(0x28, fpd, index, Some(descriptor_address));
    }
    if !registers.eime && (any_set(&descriptor, 295, 288) || any_set(&descriptor, 319, 304)) {
        return blocked(0x28, fpd, index, Some(descriptor_address));
    }
    // All 64 bytes lie in a window, since they were fetched.
    let Some(start) = place(windows, descriptor_address, 64) else {
        return blocked(0x27, fpd, index, Some(descriptor_address));
    };
    let in_image = &mut run[start..start + 64];
    // Set request bit (0 to 255) of the vector.
    put(in_image, vector, vector, 1);
    // A notice is due when ON (256) is clear and either URG (bit 14 of the
    // entry) is set or SN (257) is clear. Then set ON and answer a notice:
    // vector 279:272, destination 319:288 (or 303:296). SN stays.
    let on = bit(&descriptor, 256);
    let sn = bit(&descriptor, 257);
    let urg = bit(&entry, 14);
    let due = !on && (urg || !sn);
    if slips::on_set(slip, on, due) {
        put(in_image, 256, 256, 1);
    }
    let notice = if due {
        Some(Notice {
            vector: bits(&descriptor, 279, 272) as u8,
            destination: if registers.eime {
                bits(&descriptor, 319, 288) as u32
            } else {
                bits(&descriptor, 303, 296) as u32
            },
        })
    } else {
        None
    };
    Outcome::Posted {
        vector: vector as u8,
        descriptor: descriptor_address as u64,
        notice,
    }
}

/// The descriptor address has 63:38 as its bits 31:6 and 127:96 as its bits
/// 63:32.
pub fn descriptor_address(entry: &[u8]) -> u128 {
    let mut address = [0; 8];
    put(&mut address, 31, 6, bits(entry, 63, 38));
    put(&mut address, 63, 32, bits(entry, 127, 96));
    u128::from(u64::from_le_bytes(address))
}

/// Whether an interrupt entry has something reserved.
fn reserved_in_interrupt_entry(registers: &Registers, entry: &[u8]) -> bool {
    // All: 83:82 equal to 3; bit 15 without posting.
    if bits(entry, 83, 82) == 3 {
        return true;
    }
    if bit(entry, 15) && !registers.posting {
        return true;
    }
    if !bit(entry, 15) {
        // Remapped (bit 15 clear): 14:12, 31:24, 127:84, delivery mode (7:5) 3
        // or 6, and without EIME 39:32 and 63:48.
        if any_set(entry, 14, 12) || any_set(entry, 31, 24) || any_set(entry, 127, 84) {
            return true;
        }
        let delivery_mode = bits(entry, 7, 5);
        if delivery_mode == 3 || delivery_mode == 6 {
            return true;
        }
        if !registers.eime && (any_set(entry, 39, 32) || any_set(entry, 63, 48)) {
            return true;
        }
    } else {
        // Posted: 7:2, 13:12, 37:24, 95:84, and descriptor address bits from
        // HAW up.
        if any_set(entry, 7, 2)
            || any_set(entry, 13, 12)
            || any_set(entry, 37, 24)
            || any_set(entry, 95, 84)
        {
            return true;
        }
        let haw = usize::from(registers.haw);
        if any_set(&descriptor_address(entry).to_le_bytes(), 63, haw) {
            return true;
        }
    }
    false
}

/// The source check. SVT is 83:82, SQ 81:80, SID 79:64.
fn source_accepted(entry: &[u8], source: u16) -> bool {
    let svt = bits(entry, 83, 82);
    let sq = bits(entry, 81, 80);
    let sid = bits(entry, 79, 64) as u16;
    match svt {
        // 0: none.
        0 => true,
        // 1: equals SID, where SQ 0 compares all bits, 1 ignores bit 2, 2
        // ignores bits 2:1, 3 ignores bits 2:0.
        1 => {
            let ignored: u16 = match sq {
                0 => 0b000,
                1 => 0b100,
                2 => 0b110,
                _ => 0b111,
            };
            source & !ignored == sid & !ignored
        }
        // 2: bus from SID 15:8 to SID 7:0, ends included.
        2 => {
            let bus = bits(&source.to_le_bytes(), 15, 8);
            let from = bits(&sid.to_le_bytes(), 15, 8);
            let to = bits(&sid.to_le_bytes(), 7, 0);
            from <= bus && bus <= to
        }
        // 3 was reserved above.
        _ => false,
    }
}
