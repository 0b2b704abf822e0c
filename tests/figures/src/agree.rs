//! Both sides have to answer a load alike before it is measured.

use crate::load::{Load, Requests};
use crate::sides::Prepared;
use interface::ANSWER_SIZE;
use ordinary::{Fault, InterruptAnswer, MemoryAnswer, TranslationAnswer};

type Answer = [u8; ANSWER_SIZE];

/// An answer of the C interface: its head of 8 bytes, and three words.
fn bytes(head: [u8; 8], words: [u64; 3]) -> Answer {
    let [low, high, last] = words.map(u64::to_le_bytes);
    let mut answer = [0; ANSWER_SIZE];
    let parts = answer.chunks_exact_mut(8).zip([head, low, high, last]);
    parts.for_each(|(to, from)| to.copy_from_slice(&from));
    answer
}

fn blocked(fault: Fault) -> Answer {
    let recordable = fault.recordable.into();
    let named = fault.entry.is_some().into();
    let [low, high] = fault.record;
    let words = [low, high, fault.entry.unwrap_or(0)];
    bytes([1, fault.reason, recordable, named, 0, 0, 0, 0], words)
}

fn memory(answer: MemoryAnswer) -> Answer {
    match answer {
        MemoryAnswer::Granted(address) => bytes([6, 0, 0, 0, 0, 0, 0, 0], [address, 0, 0]),
        MemoryAnswer::Blocked(fault) => blocked(fault),
        MemoryAnswer::Refused(number) => bytes([2, number, 0, 0, 0, 0, 0, 0], [0; 3]),
    }
}

fn translation(answer: TranslationAnswer) -> Answer {
    match answer {
        TranslationAnswer::Passed(address) => bytes([3, 0, 0, 0, 0, 0, 0, 0], [address, 0, 0]),
        TranslationAnswer::Page {
            frame,
            size,
            read,
            write,
        } => {
            let head = [7, read.into(), write.into(), 0, 0, 0, 0, 0];
            bytes(head, [frame, size, 0])
        }
        TranslationAnswer::Empty => bytes([8, 0, 0, 0, 0, 0, 0, 0], [0; 3]),
        TranslationAnswer::Blocked(fault) => blocked(fault),
        TranslationAnswer::Refused(number) => bytes([2, number, 0, 0, 0, 0, 0, 0], [0; 3]),
    }
}

fn interrupt(answer: InterruptAnswer) -> Answer {
    let head = |kind: [u8; 4], destination: u32| {
        let [a, b, c, d] = destination.to_le_bytes();
        let [k, l, m, n] = kind;
        bytes([k, l, m, n, a, b, c, d], [0; 3])
    };
    match answer {
        InterruptAnswer::Passed => head([3, 0, 0, 0], 0),
        InterruptAnswer::Remapped(to) => {
            head([4, to.vector, to.delivery, to.modes], to.destination)
        }
        InterruptAnswer::Posted(None) => head([5, 0, 0, 0], 0),
        InterruptAnswer::Posted(Some(notice)) => head([5, 1, notice.vector, 0], notice.destination),
        InterruptAnswer::Blocked(fault) => blocked(fault),
        InterruptAnswer::Refused(number) => head([2, number, 0, 0], 0),
    }
}

/// Whether they do, request by request, images too.
pub fn agree(load: &Load, prepared: &Prepared) -> bool {
    let (mut ours, mut theirs) = (load.run.clone(), load.run.clone());
    let (numbers, windows) = (&prepared.numbers, &prepared.windows);
    let mut answer = [0; ANSWER_SIZE];
    match &load.requests {
        Requests::Memory(requests) => requests.iter().all(|r| {
            let (source, address) = (r.source, r.address);
            let write = u8::from(r.write);
            let registers = &prepared.bytes;
            let status = interface::memory_request(
                registers,
                numbers,
                &ours,
                source,
                address,
                write,
                &mut answer,
            );
            let plain = &prepared.plain;
            let expected =
                ordinary::memory_request(plain, windows, &theirs, source, address, r.write);
            status == 0 && answer == memory(expected)
        }),
        Requests::Translations(requests) => requests.iter().all(|r| {
            let (source, address) = (r.source, r.address);
            let registers = &prepared.bytes;
            let status = interface::translation_request(
                registers,
                numbers,
                &ours,
                source,
                address,
                &mut answer,
            );
            let plain = &prepared.plain;
            let expected = ordinary::translation_request(plain, windows, &theirs, source, address);
            status == 0 && answer == translation(expected)
        }),
        Requests::Interrupts { messages, .. } => messages.iter().all(|m| {
            let (source, address, data) = (m.source, m.address, m.data);
            let registers = &prepared.bytes;
            let image = &mut ours;
            let status = interface::interrupt_request(
                registers,
                numbers,
                image,
                source,
                address,
                data,
                &mut answer,
            );
            let plain = &prepared.plain;
            let image = &mut theirs;
            let expected =
                ordinary::interrupt_request(plain, windows, image, source, address, data);
            // The ordinary translator doesn't name a post's vector and descriptor; the image has both.
            if answer[0] == 5 {
                answer[3] = 0;
                answer[8..16].fill(0);
            }
            status == 0 && answer == interrupt(expected) && ours == theirs
        }),
    }
}
