//! The reference's registers for the ordinary translator, and its answers as the reference has them.

use ordinary::{Fault, MemoryAnswer, Registers};
use reference::Outcome;

/// The registers.
pub fn registers(r: &reference::Registers) -> Registers {
    let widths = [r.levels3, r.levels4, r.levels5];
    let numbered = widths.into_iter().zip(1..);
    Registers {
        haw: r.haw,
        mgaw: r.mgaw,
        widths: numbered.fold(0, |set, (width, n)| set | u8::from(width) << n),
        pages_2m: r.pages_2m,
        pages_1g: r.pages_1g,
        posting: r.posting,
        root_table: r.root,
        interrupt_table: r.interrupt_table,
        s: r.s,
        te: r.te,
        ire: r.ire,
        eime: r.eime,
        cfis: r.cfis,
    }
}

/// A fault.
pub fn blocked(fault: Fault) -> Outcome {
    let [low, high] = fault.record.map(u64::to_le_bytes);
    let mut record = [0; 16];
    record[..8].copy_from_slice(&low);
    record[8..].copy_from_slice(&high);
    Outcome::Blocked(reference::Fault {
        reason: fault.reason,
        recordable: fault.recordable,
        record,
        entry: fault.entry,
    })
}

/// What becomes of a memory request.
pub fn memory(answer: MemoryAnswer) -> Outcome {
    match answer {
        MemoryAnswer::Granted(address) => Outcome::Granted(address),
        MemoryAnswer::Blocked(fault) => blocked(fault),
        MemoryAnswer::Refused(number) => Outcome::Refused(number),
    }
}
