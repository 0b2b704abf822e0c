//! The meters, through the C interface.

mod common;

use common::Random;
use galitzaf::{Gate, Meters, MetersError};

/// The arrays of a row.
struct Arrays {
    kinds: Vec<u8>,
    lows: Vec<f64>,
    highs: Vec<f64>,
    loads: Vec<f64>,
}

impl Arrays {
    fn of(meters: usize) -> Self {
        Self {
            kinds: vec![9; meters],
            lows: vec![f64::NAN; meters],
            highs: vec![f64::NAN; meters],
            loads: vec![f64::NAN; meters],
        }
    }

    fn row(&mut self) -> Meters<'_> {
        let Self {
            kinds,
            lows,
            highs,
            loads,
        } = self;
        Meters::new(kinds, lows, highs, loads).expect("one length")
    }
}

/// Bits, so that NaN and -0.0 can be compared.
fn bits(loads: &[f64]) -> Vec<u64> {
    loads.iter().map(|load| load.to_bits()).collect()
}

#[test]
fn a_new_row_is_off_and_0() {
    let mut arrays = Arrays::of(3);
    let row = arrays.row();
    assert_eq!((row.len(), row.is_empty()), (3, false));
    assert_eq!(bits(row.loads()), [0; 3]);
    assert!((0..3).all(|meter| row.gate(meter) == Some(Gate::Off)));
    assert_eq!(row.gate(3), None);
    let mut none = Arrays::of(0);
    let mut row = none.row();
    assert!(row.is_empty());
    assert_eq!(row.tick(&[], &mut []), Ok(()));
    row.reset();
}

#[test]
fn arrays_of_different_lengths_are_no_row() {
    for short in 0..4 {
        let mut arrays = Arrays::of(3);
        let lengths: [usize; 4] = core::array::from_fn(|part| if part == short { 2 } else { 3 });
        let [kinds, lows, highs, loads] = lengths;
        let row = Meters::new(
            &mut arrays.kinds[..kinds],
            &mut arrays.lows[..lows],
            &mut arrays.highs[..highs],
            &mut arrays.loads[..loads],
        );
        assert_eq!(row.err(), Some(MetersError::Malformed));
        assert_eq!(arrays.kinds, [9; 3]);
        assert!(arrays.loads.iter().all(|load| load.is_nan()));
    }
}

#[test]
fn a_kind_above_2_is_no_gate() {
    for kind in 0..=255 {
        let (mut kinds, mut lows, mut highs, mut loads) = ([kind], [0.0], [0.0], [0.0]);
        let row = Meters::with(&mut kinds, &mut lows, &mut highs, &mut loads);
        assert_eq!(row.is_ok(), kind <= 2, "{kind}");
    }
}

#[test]
fn gates_are_told_as_they_were_set() {
    let mut arrays = Arrays::of(2);
    let mut row = arrays.row();
    for gate in [
        Gate::Above(7.5),
        Gate::Outside {
            low: 3.0,
            high: 4.0,
        },
        Gate::Off,
    ] {
        assert!(row.set_gate(1, gate));
        assert_eq!((row.gate(0), row.gate(1)), (Some(Gate::Off), Some(gate)));
        assert!(!row.set_gate(2, gate));
    }
}

#[test]
fn strictly() {
    for (gate, byte) in [
        (Gate::Off, 0),
        (Gate::Above(7.0), 0),
        (Gate::Above(6.5), 1),
        (
            Gate::Outside {
                low: 7.0,
                high: 7.0,
            },
            0,
        ),
        (
            Gate::Outside {
                low: 7.5,
                high: 8.0,
            },
            1,
        ),
        (
            Gate::Outside {
                low: 0.0,
                high: 6.5,
            },
            1,
        ),
    ] {
        let mut arrays = Arrays::of(1);
        let mut row = arrays.row();
        row.set_gate(0, gate);
        let mut bytes = [9];
        assert_eq!(row.tick(&[6], &mut bytes), Ok(()));
        assert_eq!(row.tick(&[4], &mut bytes), Ok(()));
        assert_eq!((row.loads(), bytes), (&[7.0][..], [byte]), "{gate:?}");
    }
}

#[test]
fn refusals_change_nothing() {
    let bad = [-1.0, f64::NAN, f64::INFINITY];
    let above = bad.map(Gate::Above);
    let lows = bad.map(|low| Gate::Outside { low, high: 5.0 });
    let highs = bad.map(|high| Gate::Outside { low: 0.0, high });
    let over = [Gate::Outside {
        low: 5.0,
        high: 4.0,
    }];
    for gate in above.into_iter().chain(lows).chain(highs).chain(over) {
        let mut arrays = Arrays::of(2);
        let mut row = arrays.row();
        let mut bytes = [9; 2];
        assert_eq!(row.tick(&[6, 6], &mut bytes), Ok(()));
        row.set_gate(1, gate);
        let before = (bits(row.loads()), bytes);
        assert_eq!(row.tick(&[1, 1], &mut bytes), Err(MetersError::Refused));
        assert_eq!((bits(row.loads()), bytes), before, "{gate:?}");
        row.set_gate(1, Gate::Off);
        for (counts, marks) in [(1, 2), (3, 2), (2, 1), (2, 3)] {
            let mut marks = vec![9; marks];
            let told = row.tick(&vec![1; counts], &mut marks);
            assert_eq!(told, Err(MetersError::Refused));
            assert!(marks.iter().all(|&mark| mark == 9));
        }
        for count in [65_536, u32::MAX] {
            let told = row.tick(&[1, count], &mut bytes);
            assert_eq!(told, Err(MetersError::Refused));
        }
        assert_eq!((bits(row.loads()), bytes), before);
        assert_eq!(row.tick(&[1, 65_535], &mut bytes), Ok(()));
    }
}

#[test]
fn a_load_out_of_range_is_refused_and_reset() {
    for load in [131_070.5, -1.0, f64::NAN, f64::INFINITY] {
        let mut loads = [load, 4.0];
        let (mut kinds, mut lows, mut highs) = ([0, 1], [f64::NAN; 2], [7.0; 2]);
        let mut row =
            Meters::with(&mut kinds, &mut lows, &mut highs, &mut loads).expect("a row of two");
        let mut bytes = [9; 2];
        assert_eq!(row.tick(&[0, 0], &mut bytes), Err(MetersError::Refused));
        assert_eq!(bits(row.loads()), bits(&[load, 4.0]));
        row.reset();
        assert_eq!(bits(row.loads()), [0; 2]);
        assert_eq!(row.gate(1), Some(Gate::Above(7.0)));
        assert_eq!(row.tick(&[0, 8], &mut bytes), Ok(()));
        assert_eq!(bytes, [0, 1]);
    }
}

/// Runs of ticks, against the reference: bits of every load, every byte.
#[test]
fn runs_of_ticks() {
    let mut random = Random(60);
    for _ in 0..200 {
        let meters = random.below(20) as usize;
        let mut arrays = Arrays::of(meters);
        let mut row = arrays.row();
        let mut theirs = Vec::new();
        for meter in 0..meters {
            let [low, high] = [0, 0].map(|_| random.below(131_072) as f64 / 2.0);
            let (gate, their_gate) = match random.below(3) {
                0 => (Gate::Off, reference::Gate::Off),
                1 => (Gate::Above(high), reference::Gate::Above { limit: high }),
                _ => {
                    let (low, high) = (low.min(high), low.max(high));
                    let gate = Gate::Outside { low, high };
                    (gate, reference::Gate::Outside { low, high })
                }
            };
            assert!(row.set_gate(meter, gate));
            theirs.push(reference::Meter {
                load: 0.0,
                gate: their_gate,
            });
        }
        for _ in 0..80 {
            let count = |random: &mut Random| random.below(65_540) as u32;
            let counts: Vec<u32> = (0..meters).map(|_| count(&mut random)).collect();
            let (mut bytes, mut expected) = (vec![9; meters], vec![9; meters]);
            let said = reference::tick_meters(&mut theirs, &counts, &mut expected);
            assert_eq!(row.tick(&counts, &mut bytes).is_ok(), said.is_ok());
            let loads: Vec<f64> = theirs.iter().map(|meter| meter.load).collect();
            assert_eq!((bits(row.loads()), bytes), (bits(&loads), expected));
        }
    }
}
