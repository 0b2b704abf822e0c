//! Ask 5: "Raise the recorder to any power of two from 8 to 256 slots, chosen
//! by the lent buffer's length; other lengths are refusal 3. Slot limits in
//! document 01 follow the length."

mod common;

use common::Random;
use reference::{clear_overflow, clear_slot, record, Call, Recorder};

const LENGTHS: [(usize, u16); 6] = [
    (128, 8),
    (256, 16),
    (512, 32),
    (1024, 64),
    (2048, 128),
    (4096, 256),
];

const ZERO: Recorder = Recorder {
    next: 0,
    overflow: false,
};

/// A record that tells its number, with bit 127 clear.
fn numbered(n: u16) -> [u8; 16] {
    let mut bytes = [0x11; 16];
    bytes[..2].copy_from_slice(&n.to_le_bytes());
    bytes
}

/// "other lengths are refusal 3": all of them up to 8192 bytes.
#[test]
fn lengths() {
    for length in 0..=8192 {
        let good = LENGTHS.iter().any(|&(bytes, _)| bytes == length);
        let mut buffer = vec![0; length];
        let mut state = ZERO;
        let refused = |call| call == Call::Refused;
        assert_eq!(refused(clear_slot(&mut buffer, &state, 0)), !good);
        assert_eq!(refused(clear_overflow(&buffer, &mut state)), !good);
        let silenced = record(&mut buffer, &mut state, false, numbered(1));
        assert_eq!(refused(silenced), !good, "{length}");
        assert_eq!((&buffer, state), (&vec![0; length], ZERO));
        let recorded = record(&mut buffer, &mut state, true, numbered(1));
        assert_eq!(refused(recorded), !good, "{length}");
        if !good {
            assert_eq!((&buffer, state), (&vec![0; length], ZERO));
        }
    }
}

/// "the recorder's next slot is above" the last one, "or a slot to clear is":
/// every next slot and every slot, in every length.
#[test]
fn slot_limits() {
    for (length, slots) in LENGTHS {
        for n in 0..=255u8 {
            let good = u16::from(n) < slots;
            for overflow in [false, true] {
                let before = Recorder { next: n, overflow };
                let mut state = before;
                let mut buffer = vec![0xFF; length];
                let refused = |call| call == Call::Refused;
                assert_eq!(refused(clear_slot(&mut buffer.clone(), &state, 0)), !good);
                let call = record(&mut buffer, &mut state, true, numbered(1));
                assert_eq!(refused(call), !good);
                assert_eq!(buffer, vec![0xFF; length]);
                if !good {
                    assert_eq!(state, before);
                    assert_eq!(clear_overflow(&buffer, &mut state), Call::Refused);
                    assert_eq!(state, before);
                }
            }
            let mut buffer = vec![0xFF; length];
            let mut expected = buffer.clone();
            let call = clear_slot(&mut buffer, &ZERO, n);
            if good {
                assert_eq!(call, Call::SlotCleared);
                expected[16 * usize::from(n) + 15] = 0x7F;
            } else {
                assert_eq!(call, Call::Refused);
            }
            assert_eq!(buffer, expected, "{length} {n}");
        }
    }
}

/// "the next slot advances, 7 to 0": here the last one of the length. A buffer
/// takes as many records as it has slots, and then no more.
#[test]
fn full_and_over() {
    for (length, slots) in LENGTHS {
        let mut buffer = vec![0; length];
        let mut state = ZERO;
        let mut expected = buffer.clone();
        for n in 0..slots {
            assert_eq!(u16::from(state.next), n);
            let call = record(&mut buffer, &mut state, true, numbered(n));
            assert_eq!(call, Call::Written);
            let at = 16 * usize::from(n);
            expected[at..at + 16].copy_from_slice(&numbered(n));
            expected[at + 15] |= 0x80;
            assert_eq!(buffer, expected);
        }
        assert_eq!(state, ZERO);
        let call = record(&mut buffer, &mut state, true, numbered(999));
        assert_eq!(call, Call::Overflowed);
        let call = record(&mut buffer, &mut state, true, numbered(999));
        assert_eq!(call, Call::Dropped);
        assert_eq!(buffer, expected);
        assert_eq!((state.next, state.overflow), (0, true));

        // The last slot cleared, and overflow: the next slot is still 0, and
        // taken.
        let last = (slots - 1) as u8;
        assert_eq!(clear_slot(&mut buffer, &state, last), Call::SlotCleared);
        assert_eq!(clear_overflow(&buffer, &mut state), Call::OverflowCleared);
        let call = record(&mut buffer, &mut state, true, numbered(999));
        assert_eq!(call, Call::Overflowed);
    }
}

/// "over calls of one length, its total": records written equals records
/// cleared plus records still standing.
#[test]
fn totals() {
    for (length, slots) in LENGTHS {
        let mut random = Random(u64::from(slots));
        let mut buffer = vec![0; length];
        let mut state = ZERO;
        let (mut written, mut cleared, mut overflowed) = (0, 0, 0);
        for _ in 0..10_000 {
            // Mostly the next slot, so that there is room for a record again.
            let slot = match random.below(4) {
                0 => random.below(256) as u8,
                _ => state.next,
            };
            let call = match random.below(8) {
                0..=3 => record(&mut buffer, &mut state, true, [random.word() as u8; 16]),
                4 => record(&mut buffer, &mut state, false, numbered(0)),
                5 | 6 => clear_slot(&mut buffer, &state, slot),
                _ => clear_overflow(&buffer, &mut state),
            };
            match call {
                Call::Written => written += 1,
                Call::SlotCleared => cleared += 1,
                Call::Overflowed => overflowed += 1,
                _ => {}
            }
            let last_bytes = buffer.iter().skip(15).step_by(16);
            let standing = last_bytes.filter(|&byte| byte & 0x80 != 0).count();
            assert_eq!(written, cleared + standing, "{slots} slots");
        }
        assert!(written > usize::from(slots), "{slots} slots: {written}");
        assert!(cleared > 100, "{slots} slots: {cleared}");
        assert!(overflowed > 10, "{slots} slots: {overflowed}");
    }
}
