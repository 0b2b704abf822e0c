//! Galitzaf's answers in the reference's form.

use galitzaf::{DestinationMode, Fault, InterruptAnswer, MemoryAnswer, Page, PageSize};
use galitzaf::{TranslationAnswer, TriggerMode};
use reference::{Notice, Outcome, Translation};

fn fault_of(fault: &Fault) -> reference::Fault {
    reference::Fault {
        reason: fault.reason().number(),
        recordable: fault.recordable(),
        record: fault.record().bytes(),
        entry: fault.entry(),
    }
}

fn of_fault(fault: &Fault) -> Outcome {
    Outcome::Blocked(fault_of(fault))
}

fn answered(frame: u64, size: Option<PageSize>, read: bool, write: bool) -> Translation {
    Translation::Answered {
        frame,
        size: size.map_or(0, PageSize::bytes),
        read,
        write,
    }
}

pub fn of_translation(answer: TranslationAnswer) -> Translation {
    match answer {
        TranslationAnswer::Passed(address) => Translation::Passed(address),
        TranslationAnswer::Page(Page {
            frame,
            size,
            read,
            write,
        }) => answered(frame, Some(size), read, write),
        TranslationAnswer::Empty => answered(0, None, false, false),
        TranslationAnswer::Blocked(fault) => Translation::Blocked(fault_of(&fault)),
        TranslationAnswer::Refused(refusal) => Translation::Refused(refusal.number()),
    }
}

pub fn of_memory(answer: MemoryAnswer) -> Outcome {
    match answer {
        MemoryAnswer::Granted(address) => Outcome::Granted(address),
        MemoryAnswer::Blocked(fault) => of_fault(&fault),
        MemoryAnswer::Refused(refusal) => Outcome::Refused(refusal.number()),
    }
}

pub fn of_interrupt(answer: InterruptAnswer) -> Outcome {
    match answer {
        InterruptAnswer::Passed => Outcome::Passed,
        InterruptAnswer::Remapped(to) => Outcome::Remapped {
            destination_mode: to.destination_mode == DestinationMode::Logical,
            redirection_hint: to.redirection_hint,
            trigger: to.trigger_mode == TriggerMode::Level,
            delivery: to.delivery_mode.bits(),
            vector: to.vector,
            destination: to.destination,
        },
        InterruptAnswer::Posted(post) => Outcome::Posted {
            vector: post.vector,
            descriptor: post.descriptor,
            notice: post.notification.map(|n| Notice {
                vector: n.vector,
                destination: n.destination,
            }),
        },
        InterruptAnswer::Blocked(fault) => of_fault(&fault),
        InterruptAnswer::Refused(refusal) => Outcome::Refused(refusal.number()),
    }
}
