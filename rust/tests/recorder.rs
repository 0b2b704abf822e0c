//! The fault recorder, through the C interface.

mod common;

use common::{bench_image, set, Random, BENCH, SOURCE};
use galitzaf::{
    Fault, Memory, MemoryAnswer, MemoryRequest, Recorded, Recorder, RecorderState, Refusal,
    SourceId, Unit,
};

/// A fault of the page given by its number.
fn fault(page: u64) -> Fault {
    let request = MemoryRequest::read(SourceId::from(0x0410), page << 12);
    let answer = Unit::new(&BENCH).memory(&Memory::flat(bench_image()), request);
    *answer.fault().expect("a fault")
}

/// One that FPD silences: bit 1 of a context entry that isn't present.
fn silent() -> Fault {
    let mut image = bench_image();
    set(&mut image, 0x2100, 2);
    let answer = Unit::new(&BENCH).memory(&Memory::flat(image), MemoryRequest::read(SOURCE, 0));
    *answer.fault().expect("a fault")
}

/// Every good length.
const LENGTHS: [usize; 6] = [128, 256, 512, 1024, 2048, 4096];

#[test]
fn each_slot_then_overflow() {
    for length in LENGTHS {
        let mut buffer = vec![0; length];
        let state = RecorderState::default();
        let mut recorder = Recorder::with(&mut buffer[..], state).expect("a good length");
        let slots = recorder.slots() as u64;
        assert_eq!(slots, length as u64 / 16);
        for page in 1..=slots {
            assert_eq!(recorder.record(&fault(page)), Ok(Recorded::Written));
        }
        let pages: Vec<(u8, u64)> = recorder
            .standing()
            .map(|(slot, record)| (slot, record.page_address() >> 12))
            .collect();
        assert_eq!(pages, (0..=255).zip(1..=slots).collect::<Vec<_>>());

        assert_eq!(recorder.record(&fault(9)), Ok(Recorded::Overflowed));
        assert_eq!(recorder.record(&fault(9)), Ok(Recorded::Dropped));
        assert!(recorder.state().overflow);

        assert_eq!(recorder.clear_slot(0), Ok(true));
        assert_eq!(recorder.clear_slot(0), Ok(false));
        assert_eq!(recorder.record(&fault(9)), Ok(Recorded::Dropped));
        assert_eq!(recorder.clear_overflow(), Ok(true));
        assert_eq!(recorder.clear_overflow(), Ok(false));
        assert_eq!(recorder.record(&fault(9)), Ok(Recorded::Written));
        let (slot, record) = recorder.standing().next().expect("a record");
        assert_eq!((slot, record.page_address()), (0, 0x9000));
        assert_eq!(recorder.state().next_slot, 1);
    }
}

#[test]
fn what_holds_no_fault_or_a_silent_one_changes_nothing() {
    let mut recorder = Recorder::new();
    let request = MemoryRequest::read(SOURCE, 0x4020_1ABC);
    let granted = Unit::new(&BENCH).memory(&Memory::flat(bench_image()), request);
    assert_eq!(recorder.record(&granted), Ok(Recorded::NoFault));
    assert_eq!(recorder.record(None), Ok(Recorded::NoFault));
    assert!(!silent().recordable());
    assert_eq!(recorder.record(&silent()), Ok(Recorded::NotRecordable));
    assert_eq!(recorder, Recorder::new());
    assert_eq!(
        recorder.record(&MemoryAnswer::Blocked(fault(1))),
        Ok(Recorded::Written)
    );
}

#[test]
fn a_lent_buffer_is_written_in_place() {
    let mut page = [0; 4096];
    let lent = Recorder::with(&mut page[0x200..0x280], RecorderState::default());
    let mut recorder = lent.expect("a good length");
    assert_eq!(recorder.record(&fault(5)), Ok(Recorded::Written));
    assert_eq!(page[0x200..0x210], fault(5).record().bytes());
    assert!(page[..0x200].iter().chain(&page[0x210..]).all(|&b| b == 0));
}

/// Only the good lengths are taken, and no next slot or slot above the last. What a refused buffer
/// holds isn't looked at.
#[test]
fn bad_buffers_states_and_slots_are_refused() {
    let refused = Refusal::BadRecorder;
    let mut buffer = [0xFF; 8193];
    for length in 0..=buffer.len() {
        let slots = if LENGTHS.contains(&length) {
            length / 16
        } else {
            0
        };
        for next_slot in 0..=u8::MAX {
            let state = RecorderState {
                next_slot,
                overflow: true,
            };
            let recorder = Recorder::with(&mut buffer[..length], state);
            let good = usize::from(next_slot) < slots;
            assert_eq!(recorder.as_ref().err().copied(), (!good).then_some(refused));
            assert_eq!(
                recorder.map_or(0, |r| r.standing().count()),
                if good { slots } else { 0 }
            );
        }
    }
    for length in LENGTHS {
        let mut recorder = Recorder::with(&mut buffer[..length], RecorderState::default());
        let recorder = recorder.as_mut().expect("a good length");
        for slot in (0..=u8::MAX).filter(|&slot| usize::from(slot) >= length / 16) {
            assert_eq!(recorder.clear_slot(slot), Err(refused));
        }
    }
    assert_eq!(buffer, [0xFF; 8193]);
}

/// Over any calls, written equals cleared plus standing.
#[test]
fn nothing_is_lost_or_made_up() {
    LENGTHS.into_iter().for_each(one_run);
}

fn one_run(length: usize) {
    let mut random = Random(1);
    let mut recorder =
        Recorder::with(vec![0; length], RecorderState::default()).expect("a good length");
    let slots = recorder.slots() as u64;
    let (mut written, mut cleared, mut dropped) = (0, 0, 0);
    for _ in 0..10_000 {
        match random.below(8) {
            0..=3 => match recorder.record(&fault(random.below(1 << 52))) {
                Ok(Recorded::Written) => written += 1,
                Ok(Recorded::Dropped | Recorded::Overflowed) => dropped += 1,
                other => panic!("{other:?}"),
            },
            4 => assert_eq!(recorder.record(&silent()), Ok(Recorded::NotRecordable)),
            5 | 6 => {
                let slot = random.below(slots + 1) as u8;
                cleared += usize::from(recorder.clear_slot(slot) == Ok(true));
            }
            _ => assert!(recorder.clear_overflow().is_ok()),
        }
        assert_eq!(written, cleared + recorder.standing().count());
    }
    assert!(written > 100 && cleared > 100 && dropped > 100);
}
