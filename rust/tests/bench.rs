//! The twelve cases of document 01's bench image, through the C interface.

mod common;

use common::{bench_image, BENCH, SOURCE};
use galitzaf::{
    DeliveryMode, DestinationMode, Fault, InterruptAnswer, InterruptRequest, Memory, MemoryAnswer,
    MemoryRequest, Notification, Posted, Reason, Remapped, SourceId, TakeAnswer, TriggerMode, Unit,
};

fn read(source: SourceId, address: u64) -> MemoryAnswer {
    let memory = Memory::flat(bench_image());
    Unit::new(&BENCH).memory(&memory, MemoryRequest::read(source, address))
}

fn interrupt(source: SourceId, address: u64, data: u32) -> InterruptAnswer {
    let mut memory = Memory::flat(bench_image());
    let request = InterruptRequest::new(source, address, data);
    let answer = Unit::new(&BENCH).interrupt(&mut memory, request);
    assert_eq!(memory.into_run(), bench_image());
    answer
}

/// The reason and the record's words. Nothing in the bench image has FPD set.
fn told(fault: Option<&Fault>) -> (u8, [u64; 2]) {
    let fault = fault.expect("a fault");
    assert!(fault.recordable());
    (fault.reason().number(), fault.record().words())
}

#[test]
fn case_01() {
    assert_eq!(read(SOURCE, 0x4020_1ABC).granted(), Some(0x1234_5ABC));
}

#[test]
fn case_02() {
    let request = MemoryRequest::write(SOURCE, 0x4020_1ABC);
    let answer = Unit::new(&BENCH).memory(&Memory::flat(bench_image()), request);
    let words = [0x4020_1000, 0x8000_0005_0000_0310];
    assert_eq!(told(answer.fault()), (0x05, words));
    assert_eq!(
        answer.fault().unwrap().to_string(),
        "[DMA Write] Request device [03:02.0] fault addr 40201000 [fault reason 05h] write permission missing, entry 5008"
    );
}

#[test]
fn case_03() {
    let answer = read(SOURCE, 0x4020_2000);
    let words = [0x4020_2000, 0xC000_0006_0000_0310];
    assert_eq!(told(answer.fault()), (0x06, words));
}

#[test]
fn case_04() {
    assert_eq!(read(SOURCE, 0x4041_2345).granted(), Some(0x4061_2345));
}

#[test]
fn cases_05_and_06() {
    for (address, reason) in [
        (0x4060_0000, Reason::PageEntryAccess),
        (0x4080_0000, Reason::PageEntryReserved),
    ] {
        let answer = read(SOURCE, address);
        assert_eq!(answer.fault().map(Fault::reason), Some(reason));
    }
}

#[test]
fn case_07() {
    assert_eq!(read(SOURCE, 0x40BF_F000).granted(), Some(0x2345_6000));
    let image = bench_image();
    let request = MemoryRequest::read(SOURCE, 0x40BF_F000);
    let answer = Unit::new(&BENCH).memory(&Memory::flat(&image[..32_767]), request);
    let reason = answer.fault().map(Fault::reason);
    assert_eq!(reason, Some(Reason::PageEntryAccess));
}

#[test]
fn cases_08_and_09() {
    for (source, address, reason) in [
        (0x0310, 0x7F_FFFF_FFFF, Reason::ReadDenied),
        (0x0310, 0x80_0000_0000, Reason::AddressOverflow),
        (0x0410, 0x4020_1ABC, Reason::RootNotPresent),
        (0x0311, 0x4020_1ABC, Reason::ContextNotPresent),
    ] {
        let answer = read(SourceId::from(source), address);
        assert_eq!(answer.fault().map(Fault::reason), Some(reason));
    }
}

#[test]
fn case_10() {
    let remapped = Remapped {
        vector: 0x41,
        delivery_mode: DeliveryMode::FIXED,
        destination_mode: DestinationMode::Physical,
        redirection_hint: false,
        trigger_mode: TriggerMode::Edge,
        destination: 7,
    };
    let answer = interrupt(SOURCE, 0xFEE0_0050, 0);
    assert_eq!(answer, InterruptAnswer::Remapped(remapped));
    let answer = interrupt(SourceId::from(0x0311), 0xFEE0_0050, 0);
    let reason = answer.fault().map(Fault::reason);
    assert_eq!(reason, Some(Reason::SourceRejected));
}

/// The index is 65,538. Held in 16 bits it would be 2, and case 10's entry delivered.
#[test]
fn case_11() {
    let answer = interrupt(SOURCE, 0xFEEF_FFFC, 3);
    let words = [0xFFFF_0000_0000_0000, 0x8000_0021_0000_0310];
    assert_eq!(told(answer.fault()), (0x21, words));
    let fault = answer.fault().expect("a fault");
    assert_eq!(fault.record().interrupt_index(), 65_535);
}

#[test]
fn case_12() {
    let unit = Unit::new(&BENCH);
    let request = InterruptRequest::new(SOURCE, 0xFEE0_0090, 0);
    let mut memory = Memory::flat(bench_image());
    let notification = Notification {
        vector: 0xF2,
        destination: 7,
    };
    let answer = unit.interrupt(&mut memory, request);
    let mut post = Posted {
        descriptor: 0x6400,
        vector: 0x31,
        notification: Some(notification),
    };
    assert_eq!(answer, InterruptAnswer::Posted(post));

    let mut posted = bench_image();
    posted[0x6406] = 2;
    posted[0x6420] = 1;
    assert_eq!(*memory.run(), posted);

    let answer = unit.interrupt(&mut memory, request);
    post.notification = None;
    assert_eq!(answer, InterruptAnswer::Posted(post));
    assert_eq!(*memory.run(), posted);
}

/// Guest memory may begin anywhere: the header promises that no alignment is needed.
#[test]
fn memory_of_any_alignment() {
    let unit = Unit::new(&BENCH);
    for from in 0..16 {
        let mut buffer = [vec![0xFF; from], bench_image(), vec![0xFF; 8]].concat();
        let memory = Memory::flat(&buffer[from..from + 32_768]);
        for address in (0x4020_0000..0x4100_0000).step_by(0x7_FABC) {
            let request = MemoryRequest::read(SOURCE, address);
            assert_eq!(unit.memory(&memory, request), read(SOURCE, address));
        }

        let mut memory = Memory::flat(&mut buffer[from..from + 32_768]);
        let post = InterruptRequest::new(SOURCE, 0xFEE0_0090, 0);
        let answer = unit.interrupt(&mut memory, post);
        assert!(matches!(answer, InterruptAnswer::Posted(_)), "{answer:?}");
        assert_eq!(unit.take(&mut memory, 0x6400), TakeAnswer::Vector(0x31));
        assert_eq!(*memory.into_run(), bench_image());
        let around = buffer[..from].iter().chain(&buffer[from + 32_768..]);
        assert!(around.into_iter().all(|byte| *byte == 0xFF));
    }
}
