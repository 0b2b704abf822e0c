//! The plain loop over meters, against the reference.

use cases::Random;
use ordinary::meters::{tick_meters, Row, METERS_REFUSED, OK};
use reference::{Gate, Meter};

fn number(random: &mut Random) -> f64 {
    match random.below(12) {
        0 => random.pick(&[f64::NAN, f64::INFINITY, -1.0, 131_071.0]),
        1 => random.pick(&[0.0, -0.0, 131_070.0]),
        _ => random.below(131_071) as f64,
    }
}

#[test]
fn the_same_loads_and_bytes() {
    let (mut done, mut refused) = (0, 0);
    for case in 0..20_000 {
        let mut random = Random::of("ordinary meters", case);
        let meters = random.below(6) as usize;
        let kinds: Vec<u8> = (0..meters).map(|_| random.below(3) as u8).collect();
        let [lows, highs, mut loads] =
            [0; 3].map(|_| -> Vec<f64> { (0..meters).map(|_| number(&mut random)).collect() });
        let counts: Vec<u32> = (0..meters).map(|_| random.below(65_537) as u32).collect();
        let gate = |n: usize| match kinds[n] {
            0 => Gate::Off,
            1 => Gate::Above { limit: highs[n] },
            _ => Gate::Outside {
                low: lows[n],
                high: highs[n],
            },
        };
        let meter = |n: usize| Meter {
            load: loads[n],
            gate: gate(n),
        };
        let mut theirs: Vec<Meter> = (0..meters).map(meter).collect();
        let (mut bytes, mut expected) = (vec![9; meters], vec![9; meters]);
        let row = Row {
            kinds: &kinds,
            lows: &lows,
            highs: &highs,
            loads: &mut loads,
        };
        let status = tick_meters(row, &counts, &mut bytes);
        match reference::tick_meters(&mut theirs, &counts, &mut expected) {
            Ok(()) => done += u32::from(status == OK),
            Err(_) => refused += u32::from(status == METERS_REFUSED),
        }
        let bits = |load: f64| load.to_bits();
        let ours: Vec<u64> = loads.iter().map(|&load| bits(load)).collect();
        let theirs: Vec<u64> = theirs.iter().map(|meter| bits(meter.load)).collect();
        assert_eq!((ours, bytes), (theirs, expected), "case {case}");
    }
    assert_eq!(done + refused, 20_000);
    assert!(done > 2_000 && refused > 2_000, "{done} {refused}");
}
