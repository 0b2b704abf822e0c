//! What has to come of a probe: every byte of the answer and the image, or of the recorder.

use crate::unit::{hex, Request, Unit};
use interface::ANSWER_SIZE;

/// Compares what came with the parts of an answer.
pub fn compare(unit: &Unit, wanted: &[String]) -> Result<(), String> {
    if unit.status.is_some() {
        return recorder(unit, wanted);
    }
    let request = unit.request.as_ref().ok_or("no request")?;
    let (mut answer, mut image) = ([0; ANSWER_SIZE], unit.before.clone());
    for part in wanted {
        add(part, request, &mut answer, &mut image)?;
    }
    let came = without_places(unit.answer);
    if came != answer {
        return Err(format!("answer {came:02X?}, wanted {answer:02X?}"));
    }
    if unit.image != image {
        return Err("the image isn't as wanted".to_string());
    }
    Ok(())
}

/// An answer without the entry concerned and without a post's vector and descriptor, which probes
/// don't name.
fn without_places(mut answer: [u8; ANSWER_SIZE]) -> [u8; ANSWER_SIZE] {
    match answer[0] {
        1 => {
            answer[3] = 0;
            answer[24..].fill(0);
        }
        5 => {
            answer[3] = 0;
            answer[8..16].fill(0);
        }
        _ => {}
    }
    answer
}

/// Adds a part of an answer to the bytes wanted.
fn add(
    part: &str,
    request: &Request,
    answer: &mut [u8; ANSWER_SIZE],
    image: &mut [u8],
) -> Result<(), String> {
    let words: Vec<&str> = part.split(' ').collect();
    match words[..] {
        ["refusal", number] => answer[..2].copy_from_slice(&[2, hex(number)? as u8]),
        ["passed"] => passed(request, answer),
        ["page", frame, "of", size] => {
            answer[0] = 7;
            answer[8..16].copy_from_slice(&hex(frame)?.to_le_bytes());
            answer[16..24].copy_from_slice(&hex(size)?.to_le_bytes());
        }
        ["may", "read"] => answer[1] = 1,
        ["may", "write"] => answer[2] = 1,
        ["empty"] => answer[0] = 8,
        ["vector", vector, "to", destination] => {
            answer[..2].copy_from_slice(&[4, hex(vector)? as u8]);
            answer[4..8].copy_from_slice(&(hex(destination)? as u32).to_le_bytes());
        }
        ["level-triggered"] => answer[3] = 4,
        ["byte", at, "becomes", byte] => image[hex(at)? as usize] = hex(byte)? as u8,
        ["no", "notification"] => answer[0] = 5,
        ["notification", vector, "to", destination] => {
            answer[..3].copy_from_slice(&[5, 1, hex(vector)? as u8]);
            answer[4..8].copy_from_slice(&(hex(destination)? as u32).to_le_bytes());
        }
        ["image", "as", "it", "came"] => {}
        ["not", "recordable"] => answer[2] = 0,
        ["words", low, high] => {
            answer[8..16].copy_from_slice(&hex(low)?.to_le_bytes());
            answer[16..24].copy_from_slice(&hex(high)?.to_le_bytes());
        }
        [reason] if reason.ends_with('h') => blocked(hex(reason)? as u8, request, answer),
        [host] => {
            answer[0] = 6;
            answer[8..16].copy_from_slice(&hex(host)?.to_le_bytes());
        }
        _ => return Err(format!("not understood: {part}")),
    }
    Ok(())
}

/// Passed unchanged: of a translation request with its address.
fn passed(request: &Request, answer: &mut [u8; ANSWER_SIZE]) {
    answer[0] = 3;
    if let Request::Translation { address, .. } = request {
        answer[8..16].copy_from_slice(&address.to_le_bytes());
    }
}

/// A recordable fault, its record by the rules' list of bits: 126 for a read or a translation
/// request, AT in 125:124.
fn blocked(reason: u8, request: &Request, answer: &mut [u8; ANSWER_SIZE]) {
    let (source, low, read, at) = match *request {
        Request::Memory {
            source,
            address,
            write,
        } => (source, address & !0xFFF, !write, 0),
        Request::Translation { source, address } => (source, address & !0xFFF, true, 1),
        Request::Interrupt {
            source,
            address,
            data,
        } => (source, index(reason, address, data) << 48, false, 0),
    };
    let high =
        1 << 63 | u64::from(read) << 62 | at << 60 | u64::from(reason) << 32 | u64::from(source);
    answer[..3].copy_from_slice(&[1, reason, 1]);
    answer[8..16].copy_from_slice(&low.to_le_bytes());
    answer[16..24].copy_from_slice(&high.to_le_bytes());
}

/// The index in a record: at most 65,535, and none for 20h and 25h.
fn index(reason: u8, address: u64, data: u32) -> u64 {
    if reason == 0x20 || reason == 0x25 {
        return 0;
    }
    let handle = (address >> 5 & 0x7FFF) | (address >> 2 & 1) << 15;
    let subhandle = if address >> 3 & 1 == 1 {
        u64::from(data & 0xFFFF)
    } else {
        0
    };
    (handle + subhandle).min(0xFFFF)
}

/// The recorder after its last call; a slot that a part doesn't name is zero.
fn recorder(unit: &Unit, wanted: &[String]) -> Result<(), String> {
    let (mut next, mut overflow, mut standing) = (0, false, 0);
    for part in wanted {
        let words: Vec<&str> = part.split(' ').collect();
        match words[..] {
            ["refusal", "3"] if unit.status != Some(3) => return Err("no refusal 3".to_string()),
            ["refusal", "3"] => next = unit.state[0],
            ["next", "slot", slot] => next = hex(slot)? as u8,
            ["overflow"] => overflow = true,
            [count, "record" | "records"] => standing = hex(count)? as usize,
            ["image", "as", "it", "came"] if unit.image == unit.before => {}
            _ => return Err(format!("not so, or not understood: {part}")),
        }
    }
    let mut records = vec![0; unit.records.len()];
    for slot in 0..standing {
        records[16 * slot..16 * slot + 16].copy_from_slice(&unit.answer[8..24]);
    }
    if unit.state != [next, u8::from(overflow)] || unit.records != records {
        return Err(format!(
            "state {:?}, records {:02X?}",
            unit.state, unit.records
        ));
    }
    Ok(())
}
