//! Ask 6, sentence by sentence.

mod common;

use common::Random;
use reference::{
    counts_weighted, load_times_2_31, reset_meters, tick_meters, Gate, Meter, MetersRefused,
};

const OFF: Gate = Gate::Off;

fn above(limit: f64) -> Gate {
    Gate::Above { limit }
}

fn outside(low: f64, high: f64) -> Gate {
    Gate::Outside { low, high }
}

fn meter(load: f64, gate: Gate) -> Meter {
    Meter { load, gate }
}

/// The row's bits, so that NaN and -0.0 can be compared.
fn bits(row: &[Meter]) -> Vec<(u64, [u64; 3])> {
    let gate = |gate| match gate {
        Gate::Off => [0; 3],
        Gate::Above { limit } => [1, limit.to_bits(), 0],
        Gate::Outside { low, high } => [2, low.to_bits(), high.to_bits()],
    };
    row.iter()
        .map(|meter| (meter.load.to_bits(), gate(meter.gate)))
        .collect()
}

/// One meter ticked: its new load and byte, or none where it is refused; then
/// nothing may have changed. Neighbours make no difference to that.
fn ticked(before: Meter, count: u32) -> Option<(f64, u8)> {
    let good = meter(6.0, above(3.0));
    for at in 0..3 {
        let mut row = [good; 3];
        row[at] = before;
        let mut counts = [1; 3];
        counts[at] = count;
        let mut bytes = [7; 3];
        let mut alone = ([before], [7]);
        let answer = tick_meters(&mut row, &counts, &mut bytes);
        assert_eq!(
            tick_meters(&mut alone.0, &[count], &mut alone.1),
            answer,
            "{before:?} {count}"
        );
        if answer.is_err() {
            let mut untouched = [good; 3];
            untouched[at] = before;
            assert_eq!(bits(&row), bits(&untouched));
            assert_eq!(bytes, [7; 3]);
            if at == 2 {
                return None;
            }
        } else {
            for neighbour in (0..3).filter(|&n| n != at) {
                assert_eq!(row[neighbour], meter(4.0, above(3.0)));
                assert_eq!(bytes[neighbour], 1);
            }
            assert_eq!(bits(&row[at..=at]), bits(&alone.0));
            if at == 2 {
                return Some((row[at].load, bytes[at]));
            }
        }
    }
    unreachable!()
}

/// "the load is halved and the tick's count added, in that order"
#[test]
fn halved_then_added() {
    assert_eq!(ticked(meter(6.0, OFF), 4), Some((7.0, 0)));
    assert_eq!(ticked(meter(0.0, OFF), 65_535), Some((65_535.0, 0)));
    assert_eq!(ticked(meter(131_070.0, OFF), 65_535), Some((131_070.0, 0)));
}

/// "becomes 1 if the new load trips it, strictly, else 0"
#[test]
fn strictly() {
    let below_seven = f64::from_bits(7f64.to_bits() - 1);
    let over_seven = f64::from_bits(7f64.to_bits() + 1);
    for (gate, byte) in [
        (above(7.0), 0),
        (above(below_seven), 1),
        (above(over_seven), 0),
        (above(0.0), 1),
        (above(f64::MAX), 0),
        (outside(7.0, 7.0), 0),
        (outside(0.0, 7.0), 0),
        (outside(7.0, 9.0), 0),
        (outside(0.0, below_seven), 1),
        (outside(over_seven, 9.0), 1),
        (OFF, 0),
    ] {
        assert_eq!(ticked(meter(6.0, gate), 4), Some((7.0, byte)), "{gate:?}");
    }
    // The old load is not looked at.
    assert_eq!(ticked(meter(100.0, above(60.0)), 0), Some((50.0, 0)));
}

/// "Counts or bytes not one per meter"; an empty row is a success.
#[test]
fn one_per_meter() {
    for (meters, counts, bytes) in [(0, 1, 0), (0, 0, 1), (1, 0, 1), (1, 1, 0), (2, 1, 2)] {
        let mut row = vec![meter(6.0, OFF); meters];
        let mut lent = vec![7; bytes];
        let answer = tick_meters(&mut row, &vec![1; counts], &mut lent);
        assert_eq!(answer, Err(MetersRefused));
        assert_eq!(row, vec![meter(6.0, OFF); meters]);
        assert_eq!(lent, vec![7; bytes]);
    }
    assert_eq!(tick_meters(&mut [], &[], &mut []), Ok(()));
}

/// "a count above 65,535"
#[test]
fn counts() {
    assert!(ticked(meter(0.0, OFF), 65_535).is_some());
    for count in [65_536, 65_537, 131_071, 0x1_0001, u32::MAX] {
        assert_eq!(ticked(meter(0.0, OFF), count), None, "{count}");
    }
}

/// "a load not from 0 to 131,070"
#[test]
fn loads() {
    let next = |load: f64| f64::from_bits(load.to_bits() + 1);
    for load in [0.0, f64::from_bits(1), 131_070.0] {
        assert!(ticked(meter(load, OFF), 0).is_some(), "{load}");
    }
    for load in [
        next(131_070.0),
        next(-0.0),
        -1.0,
        f64::NAN,
        -f64::NAN,
        f64::INFINITY,
        f64::NEG_INFINITY,
        f64::MAX,
    ] {
        assert_eq!(ticked(meter(load, OFF), 0), None, "{load}");
    }
    // -0.0 is not below 0, and after a tick it is +0.0.
    let (load, _) = ticked(meter(-0.0, OFF), 0).unwrap();
    assert_eq!(load.to_bits(), 0);
}

/// "a limit, low or high not finite or below zero, or a low over its high"
#[test]
fn gates() {
    let next = |end: f64| f64::from_bits(end.to_bits() + 1);
    for end in [0.0, -0.0, f64::from_bits(1), 131_071.0, f64::MAX] {
        for gate in [above(end), outside(end, end), outside(end, f64::MAX)] {
            assert!(ticked(meter(0.0, gate), 0).is_some(), "{gate:?}");
        }
    }
    for end in [
        next(-0.0),
        -1.0,
        f64::NAN,
        -f64::NAN,
        f64::INFINITY,
        f64::NEG_INFINITY,
    ] {
        for gate in [above(end), outside(end, 5.0), outside(5.0, end)] {
            assert_eq!(ticked(meter(0.0, gate), 0), None, "{gate:?}");
        }
    }
    assert_eq!(ticked(meter(0.0, outside(next(5.0), 5.0)), 0), None);
    assert!(ticked(meter(0.0, outside(-0.0, 0.0)), 0).is_some());
    assert!(ticked(meter(0.0, outside(0.0, -0.0)), 0).is_some());
}

/// "A reset makes all loads 0 and leaves the gates.", whatever the row holds.
#[test]
fn reset() {
    let gates = [OFF, above(3.0), outside(9.0, 2.0), above(f64::NAN)];
    let loads = [5.0, -0.0, f64::NAN, f64::INFINITY];
    let mut row: Vec<Meter> = (0..4).map(|n| meter(loads[n], gates[n])).collect();
    reset_meters(&mut row);
    assert_eq!(bits(&row), bits(&gates.map(|gate| meter(0.0, gate))));
    reset_meters(&mut []);
}

/// The whole number of a load, by hand.
#[test]
fn whole_numbers() {
    assert_eq!(load_times_2_31(0.0), Some(0));
    assert_eq!(load_times_2_31(-0.0), Some(0));
    assert_eq!(load_times_2_31(1.0), Some(1 << 31));
    assert_eq!(load_times_2_31(1.5), Some(3 << 30));
    assert_eq!(load_times_2_31(131_070.0), Some(131_070 << 31));
    assert_eq!(load_times_2_31(0.5f64.powi(31)), Some(1));
    assert_eq!(load_times_2_31(0.5f64.powi(32)), None);
    assert_eq!(load_times_2_31(3.0 * 0.5f64.powi(32)), None);
    assert_eq!(load_times_2_31(f64::from_bits(1)), None);
    assert_eq!(load_times_2_31(-1.0), None);
    assert_eq!(load_times_2_31(f64::NAN), None);
    assert_eq!(load_times_2_31(f64::INFINITY), None);
    assert_eq!(load_times_2_31(f64::MAX), None);
    assert_eq!(load_times_2_31(2f64.powi(96)), Some(1 << 127));
    assert_eq!(load_times_2_31(2f64.powi(97)), None);
    assert_eq!(counts_weighted(&[]), Some(0));
    assert_eq!(counts_weighted(&[4, 1]), Some(3 << 31));
    assert_eq!(counts_weighted(&[1; 33]), None);
    let mut counts = [0; 32];
    counts[0] = 3;
    assert_eq!(counts_weighted(&counts), Some(3));
}

/// "For the first 32 ticks after a reset no rounding happens", and "At any
/// later tick the load is never above 131,070."
#[test]
fn exact_then_bounded() {
    let mut random = Random(6);
    for run in 0..2_000 {
        let mut row = [meter(random.below(131_071) as f64, above(40_000.0))];
        reset_meters(&mut row);
        let mut counts = Vec::new();
        for tick in 1..=100 {
            let count = match run % 4 {
                0 => 65_535,
                1 => random.below(65_536) as u32,
                2 => random.pick(&[0, 0, 0, 1, 65_535]),
                _ => random.below(65_536) as u32 | 1,
            };
            counts.push(count);
            let mut bytes = [9];
            assert_eq!(tick_meters(&mut row, &[count], &mut bytes), Ok(()));
            let load = row[0].load;
            assert_eq!(bytes, [u8::from(load > 40_000.0)]);
            if tick <= 32 {
                assert_eq!(load_times_2_31(load), counts_weighted(&counts));
                assert!(load_times_2_31(load).is_some());
            }
            assert!(load <= 131_070.0, "tick {tick}: {load}");
        }
    }
}

/// "After a reset, one count c followed by k ticks of count 0, k at most 31,
/// leaves c over 2^k."
#[test]
fn decay() {
    for c in [0, 1, 2, 3, 40_000, 65_534, 65_535] {
        let mut row = [meter(17.0, OFF)];
        reset_meters(&mut row);
        tick_meters(&mut row, &[c], &mut [0]).unwrap();
        for k in 0..=31 {
            assert_eq!(row[0].load, f64::from(c) / 2f64.powi(k));
            assert_eq!(
                load_times_2_31(row[0].load),
                Some(u128::from(c) << (31 - k))
            );
            tick_meters(&mut row, &[0], &mut [0]).unwrap();
        }
    }
}

/// Every bad thing leaves row and bytes as they came, wherever it stands.
#[test]
fn refusals_change_nothing() {
    let mut random = Random(66);
    let ends = [
        0.0,
        -0.0,
        5.0,
        131_070.0,
        1e300,
        -1.0,
        f64::NAN,
        f64::INFINITY,
    ];
    let (mut refused, mut done) = (0, 0);
    for _ in 0..20_000 {
        let length = random.below(5) as usize;
        let mut row: Vec<Meter> = (0..length)
            .map(|_| {
                let mut end = || {
                    let choices = if random.below(9) == 0 { 8 } else { 4 };
                    random.pick(&ends[..choices])
                };
                let (load, low, high) = (end(), end(), end());
                let gate = match random.below(3) {
                    0 => OFF,
                    1 => above(low),
                    _ => outside(low.min(high), low.max(high)),
                };
                meter(load, gate)
            })
            .collect();
        let count = |random: &mut Random| random.pick(&[0, 1, 9, 65_535]);
        let counts: Vec<u32> = (0..length).map(|_| count(&mut random)).collect();
        let mut bytes = vec![7; length];
        let before = bits(&row);
        if tick_meters(&mut row, &counts, &mut bytes).is_err() {
            assert_eq!((bits(&row), bytes), (before, vec![7; length]));
            refused += 1;
        } else {
            assert!(bytes.iter().all(|&byte| byte < 2));
            done += 1;
        }
    }
    assert!(refused > 1_000 && done > 1_000, "{refused} {done}");
}
