//! The recorder, call by call.

use reference::{clear_overflow, clear_slot, record, Call, Recorder};

const ZERO: Recorder = Recorder {
    next: 0,
    overflow: false,
};

/// A record that tells its number, with bit 127 clear.
fn numbered(n: u8) -> [u8; 16] {
    let mut bytes = [n; 16];
    bytes[15] &= 0x7F;
    bytes
}

/// "Every recorder call checks number 3 first", and leaves "buffer and
/// recorder as they came".
#[test]
fn number_3() {
    for (length, next) in [(0, 0), (127, 0), (129, 0), (384, 7), (128, 8), (128, 255)] {
        for overflow in [false, true] {
            for recordable in [false, true] {
                let mut buffer = vec![0xFF; length];
                let mut state = Recorder { next, overflow };
                assert_eq!(
                    record(&mut buffer, &mut state, recordable, numbered(1)),
                    Call::Refused
                );
                assert_eq!(clear_slot(&mut buffer, &state, 0), Call::Refused);
                assert_eq!(clear_overflow(&buffer, &mut state), Call::Refused);
                assert_eq!(buffer, vec![0xFF; length]);
                assert_eq!(state, Recorder { next, overflow });
            }
        }
    }
    let mut buffer = vec![0xFF; 128];
    for slot in [8, 9, 255] {
        assert_eq!(clear_slot(&mut buffer, &ZERO, slot), Call::Refused);
    }
    assert_eq!(buffer, vec![0xFF; 128]);
    assert_eq!(clear_slot(&mut buffer, &ZERO, 7), Call::SlotCleared);
}

/// "a fault not recordable then changes nothing", with overflow clear or set,
/// the next slot free or taken.
#[test]
fn not_recordable() {
    for overflow in [false, true] {
        for byte in [0, 0xFF] {
            let mut buffer = vec![byte; 128];
            let mut state = Recorder { next: 3, overflow };
            assert_eq!(
                record(&mut buffer, &mut state, false, numbered(1)),
                Call::NotRecordable
            );
            assert_eq!(buffer, vec![byte; 128]);
            assert_eq!(state, Recorder { next: 3, overflow });
        }
    }
}

/// "written, with bit 127 set whatever was handed in, and the next slot
/// advances, 7 to 0"; then "if the next slot's bit 127 is set, overflow is set
/// and it is dropped"; then "a recordable fault with overflow set is dropped".
#[test]
fn eight_and_over() {
    let mut buffer = vec![0; 128];
    let mut state = ZERO;
    let mut expected = vec![0; 128];
    for n in 0..8u8 {
        assert_eq!(state.next, n);
        assert_eq!(
            record(&mut buffer, &mut state, true, numbered(n + 1)),
            Call::Written
        );
        let slot = 16 * usize::from(n);
        expected[slot..slot + 16].fill(n + 1);
        expected[slot + 15] = (n + 1) | 0x80;
        assert_eq!(buffer, expected);
    }
    assert_eq!(state, ZERO);

    assert_eq!(
        record(&mut buffer, &mut state, true, numbered(9)),
        Call::Overflowed
    );
    let over = Recorder {
        next: 0,
        overflow: true,
    };
    assert_eq!((&buffer, state), (&expected, over));
    assert_eq!(
        record(&mut buffer, &mut state, true, numbered(10)),
        Call::Dropped
    );
    assert_eq!((&buffer, state), (&expected, over));

    // "Clearing a slot clears its bit 127 only; clearing overflow is
    // separate." The slot is free then, but overflow still drops.
    assert_eq!(clear_slot(&mut buffer, &state, 0), Call::SlotCleared);
    expected[15] = 1;
    assert_eq!((&buffer, state), (&expected, over));
    assert_eq!(clear_slot(&mut buffer, &state, 0), Call::SlotClear);
    assert_eq!((&buffer, state), (&expected, over));
    assert_eq!(
        record(&mut buffer, &mut state, true, numbered(11)),
        Call::Dropped
    );
    assert_eq!((&buffer, state), (&expected, over));

    assert_eq!(clear_overflow(&buffer, &mut state), Call::OverflowCleared);
    assert_eq!((&buffer, state), (&expected, ZERO));
    assert_eq!(clear_overflow(&buffer, &mut state), Call::OverflowClear);
    assert_eq!((&buffer, state), (&expected, ZERO));
    assert_eq!(
        record(&mut buffer, &mut state, true, numbered(12)),
        Call::Written
    );
    assert_eq!(state.next, 1);
    assert_eq!(buffer[..15], [12; 15]);
    assert_eq!(buffer[15], 12 | 0x80);
}

/// "Clearing a slot clears its bit 127 only", of a slot full of ones and in a
/// buffer full of ones.
#[test]
fn clearing_one_bit() {
    for slot in 0..8u8 {
        let mut buffer = vec![0xFF; 128];
        let mut expected = vec![0xFF; 128];
        expected[16 * usize::from(slot) + 15] = 0x7F;
        assert_eq!(clear_slot(&mut buffer, &ZERO, slot), Call::SlotCleared);
        assert_eq!(buffer, expected);
        assert_eq!(clear_slot(&mut buffer, &ZERO, slot), Call::SlotClear);
        assert_eq!(buffer, expected);
    }
}

/// The next slot alone is asked: a free slot elsewhere does not help, and a
/// taken one elsewhere does not hinder.
#[test]
fn next_slot_alone() {
    let mut buffer = vec![0; 128];
    buffer[16 * 5 + 15] = 0x80;
    let mut state = Recorder {
        next: 5,
        overflow: false,
    };
    assert_eq!(
        record(&mut buffer, &mut state, true, numbered(1)),
        Call::Overflowed
    );
    let mut buffer = vec![0xFF; 128];
    buffer[16 * 5 + 15] = 0x7F;
    let mut state = Recorder {
        next: 5,
        overflow: false,
    };
    assert_eq!(
        record(&mut buffer, &mut state, true, numbered(1)),
        Call::Written
    );
    assert_eq!(state.next, 6);
}

/// "From a zeroed buffer and state, over any calls, records written equals
/// records cleared plus records still standing".
#[test]
fn totals() {
    let mut random = 1u64;
    let mut buffer = vec![0; 128];
    let mut state = ZERO;
    let (mut written, mut cleared, mut overflowed) = (0, 0, 0);
    for _ in 0..20_000 {
        random ^= random << 13;
        random ^= random >> 7;
        random ^= random << 17;
        let call = match random >> 32 & 7 {
            0..=2 => record(&mut buffer, &mut state, true, [random as u8; 16]),
            3 => record(&mut buffer, &mut state, false, [random as u8; 16]),
            4..=6 => clear_slot(&mut buffer, &state, (random >> 40) as u8 & 15),
            _ => clear_overflow(&buffer, &mut state),
        };
        match call {
            Call::Written => written += 1,
            Call::SlotCleared => cleared += 1,
            Call::Overflowed => overflowed += 1,
            _ => {}
        }
        let standing = (0..8).filter(|n| buffer[16 * n + 15] & 0x80 != 0).count();
        assert_eq!(written, cleared + standing);
    }
    assert!(written > 1000 && cleared > 1000 && overflowed > 100);
}
