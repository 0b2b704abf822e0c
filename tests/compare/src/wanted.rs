//! All that has to be met: the outcomes of documents 01 and 02, and entries in each form.

use crate::builders;
use crate::caches;
use crate::met::{Call, Kind, Met};
use crate::meters::Seen;
use crate::recorder::SLOTS;
use crate::scalable;
use crate::traces;
use crate::translations;
use crate::windows;

/// The fault reasons of memory requests that FPD silences.
const SILENCED_MEMORY: [u8; 8] = [0x02, 0x03, 0x04, 0x05, 0x06, 0x07, 0x0B, 0x0C];

/// Those of interrupts.
const SILENCED_INTERRUPT: [u8; 5] = [0x22, 0x24, 0x26, 0x27, 0x28];

fn memory(wanted: &mut Vec<Met>) {
    wanted.extend([1, 2].map(Met::MemoryRefused));
    wanted.push(Met::GrantedOff);
    for levels in 3..=5 {
        wanted.push(Met::GrantedThrough { levels });
        wanted.extend((1..=3).map(|leaf| Met::GrantedPage { leaf, levels }));
        wanted.extend((1..=3).map(|leaf| Met::RefusedPage { leaf, levels }));
    }
    for reason in 0x01..=0x0C {
        let recordable = true;
        wanted.push(Met::MemoryBlocked { reason, recordable });
    }
    wanted.extend(SILENCED_MEMORY.map(|reason| Met::MemoryBlocked {
        reason,
        recordable: false,
    }));
}

fn interrupts(wanted: &mut Vec<Met>) {
    wanted.extend([1, 2].map(Met::InterruptRefused));
    wanted.extend([Met::PassedOff, Met::PassedOld]);
    wanted.extend([0, 2].map(|svt| Met::Remapped { svt, sq: 0 }));
    wanted.extend([0, 1, 2, 3].map(|sq| Met::Remapped { svt: 1, sq }));
    for bits in 0..8 {
        let [urg, sn, on] = [4, 2, 1].map(|bit| bits & bit != 0);
        // Ask 2: due where ON is clear and either URG is set or SN is clear.
        let notice = !on && (urg || !sn);
        wanted.push(Met::Posted {
            notice,
            urg,
            sn,
            on,
        });
    }
    for reason in 0x20..=0x28 {
        let recordable = true;
        wanted.push(Met::InterruptBlocked { reason, recordable });
    }
    wanted.extend(SILENCED_INTERRUPT.map(|reason| Met::InterruptBlocked {
        reason,
        recordable: false,
    }));
}

fn recorder(wanted: &mut Vec<Met>) {
    let calls = [
        (Call::Record, [0x10, 0x11, 0x12, 0x13, 0x14].as_slice()),
        (Call::ClearSlot, &[0x20, 0x21]),
        (Call::ClearOverflow, &[0x30, 0x31]),
    ];
    for (call, statuses) in calls {
        for slots in SLOTS {
            wanted.extend(statuses.iter().map(|&status| Met::Recorder {
                slots,
                call,
                status,
            }));
        }
        // A byte names no slot above the last of 256.
        let refused = [0].into_iter().chain(SLOTS).filter(|&slots| slots < 256);
        wanted.extend(refused.map(|slots| Met::Recorder {
            slots,
            call,
            status: 0x03,
        }));
    }
}

fn takes(wanted: &mut Vec<Met>) {
    for on in [false, true] {
        wanted.extend((0..4).map(|word| Met::Taken { word, on }));
        wanted.push(Met::NoneStands { on });
    }
    for number in [1, 5] {
        wanted.extend([false, true].map(|aligned| Met::TakeRefused { number, aligned }));
    }
}

fn malformed(wanted: &mut Vec<Met>) {
    for (call, statuses) in [
        (Call::Memory, [0x101, 0x102, 0x103, 0x105].as_slice()),
        (Call::Translation, &[0x101, 0x102, 0x105]),
        (Call::Scalable, &[0x101, 0x102, 0x103, 0x105]),
        (Call::Cached, &[0x101, 0x102, 0x103, 0x105, 0x108]),
        (Call::InvalidateAll, &[0x108]),
        (Call::InvalidateDomain, &[0x108]),
        (Call::Interrupt, &[0x101, 0x102, 0x105]),
        (Call::Take, &[0x101, 0x105]),
        (Call::Build, &[0x101, 0x105, 0x109]),
        (Call::Record, &[0x03, 0x102, 0x104]),
        (Call::ClearSlot, &[0x03, 0x104]),
        (Call::ClearOverflow, &[0x03, 0x104]),
    ] {
        wanted.extend(
            statuses
                .iter()
                .map(|&status| Met::Malformed { call, status }),
        );
    }
}

fn entries(wanted: &mut Vec<Met>) {
    wanted.extend((0..8).map(Met::Width));
    wanted.extend((0..4).map(Met::Type));
    for svt in 0..4 {
        wanted.extend((0..4).map(|sq| Met::Validation { svt, sq }));
    }
    for (first, second) in [(false, false), (false, true), (true, false), (true, true)] {
        wanted.push(Met::OldFormat {
            eime: first,
            cfis: second,
        });
        wanted.extend([false, true].map(|posted| Met::Format {
            posted,
            posting: first,
            eime: second,
        }));
    }
    wanted.extend([
        Met::PageOverRoot,
        Met::PageOverContext,
        Met::PageTwice,
        Met::DescriptorOverEntry,
    ]);
    let kinds = [
        Kind::Root,
        Kind::Context,
        Kind::Page,
        Kind::Interrupt,
        Kind::Descriptor,
    ];
    wanted.extend(kinds.map(Met::AtTheEnd));
    wanted.extend(kinds.map(Met::OneByteShort));
}

/// All of them.
pub fn all() -> Vec<Met> {
    let mut wanted = Vec::new();
    memory(&mut wanted);
    interrupts(&mut wanted);
    recorder(&mut wanted);
    takes(&mut wanted);
    malformed(&mut wanted);
    entries(&mut wanted);
    wanted.extend(Seen::all().map(Met::Meters));
    wanted.extend(windows::Seen::all().into_iter().map(Met::Windows));
    let translations = translations::Seen::all().into_iter();
    wanted.extend(translations.map(Met::Translations));
    wanted.extend(caches::Seen::all().into_iter().map(Met::Caches));
    wanted.extend(traces::Seen::all().into_iter().map(Met::Traces));
    wanted.extend(builders::Seen::all().into_iter().map(Met::Builders));
    wanted.extend(scalable::Seen::all().into_iter().map(Met::Scalable));
    wanted
}
