//! Registers and answers as `include/galitzaf.h` lays them out, written apart from the crate
//! `galitzaf`.

use interface::{ANSWER_SIZE, REGISTERS_SIZE};
use reference::{Call, Fault, Outcome, Registers};

/// The packed registers.
pub fn registers(r: &Registers) -> [u8; REGISTERS_SIZE] {
    let mut bytes = [0; REGISTERS_SIZE];
    bytes[0] = r.haw;
    bytes[1] = r.mgaw;
    bytes[2] = flags(&[
        r.levels3, r.levels4, r.levels5, r.pages_2m, r.pages_1g, r.posting,
    ]);
    bytes[3] = flags(&[r.te, r.ire, r.eime, r.cfis]);
    bytes[4] = r.s;
    bytes[8..16].copy_from_slice(&r.root.to_le_bytes());
    bytes[16..24].copy_from_slice(&r.interrupt_table.to_le_bytes());
    bytes
}

fn flags(bits: &[bool]) -> u8 {
    let numbered = bits.iter().zip(0..);
    numbered.fold(0, |byte, (&bit, n)| byte | u8::from(bit) << n)
}

/// The answer of a request that a fault stopped.
pub fn fault(fault: &Fault) -> [u8; ANSWER_SIZE] {
    let mut bytes = [0; ANSWER_SIZE];
    bytes[..3].copy_from_slice(&[1, fault.reason, u8::from(fault.recordable)]);
    bytes[8..24].copy_from_slice(&fault.record);
    if let Some(entry) = fault.entry {
        bytes[3] = 1;
        bytes[24..].copy_from_slice(&entry.to_le_bytes());
    }
    bytes
}

/// An answer.
pub fn answer(outcome: &Outcome) -> [u8; ANSWER_SIZE] {
    let mut bytes = [0; ANSWER_SIZE];
    match outcome {
        Outcome::Granted(address) => {
            bytes[0] = 6;
            bytes[8..16].copy_from_slice(&address.to_le_bytes());
        }
        Outcome::Blocked(blocked) => bytes = fault(blocked),
        Outcome::Refused(number) => bytes[..2].copy_from_slice(&[2, *number]),
        Outcome::Passed => bytes[0] = 3,
        Outcome::Remapped {
            destination_mode,
            redirection_hint,
            trigger,
            delivery,
            vector,
            destination,
        } => {
            let modes = flags(&[*destination_mode, *redirection_hint, *trigger]);
            bytes[..4].copy_from_slice(&[4, *vector, *delivery, modes]);
            bytes[4..8].copy_from_slice(&destination.to_le_bytes());
        }
        Outcome::Posted {
            vector,
            descriptor,
            notice,
        } => {
            bytes[0] = 5;
            bytes[3] = *vector;
            bytes[8..16].copy_from_slice(&descriptor.to_le_bytes());
            if let Some(notice) = notice {
                bytes[1..3].copy_from_slice(&[1, notice.vector]);
                bytes[4..8].copy_from_slice(&notice.destination.to_le_bytes());
            }
        }
    }
    bytes
}

/// What a recorder call answers.
pub fn status(call: Call) -> u32 {
    match call {
        Call::Refused => 0x03,
        Call::NotRecordable => 0x11,
        Call::Dropped => 0x12,
        Call::Overflowed => 0x13,
        Call::Written => 0x14,
        Call::SlotClear => 0x20,
        Call::SlotCleared => 0x21,
        Call::OverflowClear => 0x30,
        Call::OverflowCleared => 0x31,
    }
}
