//! Ticks of rows of meters, beside a plain loop with the same checks.

use crate::count;
use crate::time::{Spread, ROUNDS};
use interface::Gates;
use std::hint::black_box;

/// The argument that makes this program print this table alone or, with a row and a side, tick a
/// row some times and end.
pub const ARGUMENT: &str = "--meters";

/// The table's head, as docs/PERFORMANCE.md has it.
const HEAD: &str = "\
| meters | ticks timed | proved, ns a tick | plain, ns a tick | ratio | 10% to 90% of rounds | ticks a second, proved | \
instructions a meter: proved | plain |
|---|---|---|---|---|---|---|---|---|";

/// A row: its meters, whether their gates are in order of their kinds, the ticks of a round, and
/// those of a counted run.
struct Row {
    meters: usize,
    sorted: bool,
    ticks: usize,
    counted: usize,
}

const ROWS: [Row; 3] = [
    Row {
        meters: 16,
        sorted: false,
        ticks: 4000,
        counted: 20_000,
    },
    Row {
        meters: 65_536,
        sorted: false,
        ticks: 1,
        counted: 20,
    },
    Row {
        meters: 65_536,
        sorted: true,
        ticks: 1,
        counted: 20,
    },
];

const SIDES: [&str; 2] = ["proved", "plain"];

/// The arrays, all gates good and of every kind.
#[derive(Clone, PartialEq)]
struct Arrays {
    kinds: Vec<u8>,
    lows: Vec<f64>,
    highs: Vec<f64>,
    loads: Vec<f64>,
    counts: Vec<u32>,
    bytes: Vec<u8>,
}

impl Arrays {
    fn of(row: &Row) -> Self {
        let meters = row.meters;
        let mut state = 0x2545_F491_4F6C_DD1Du64;
        let mut below = |end: u64| {
            state ^= state << 13;
            state ^= state >> 7;
            state ^= state << 17;
            (state >> 16) % end
        };
        let mut arrays = Self {
            kinds: Vec::new(),
            lows: Vec::new(),
            highs: Vec::new(),
            loads: vec![0.0; meters],
            counts: Vec::new(),
            bytes: vec![9; meters],
        };
        for _ in 0..meters {
            let [one, other] = [0, 0].map(|_| below(131_071) as f64);
            arrays.kinds.push(below(3) as u8);
            arrays.lows.push(one.min(other));
            arrays.highs.push(one.max(other));
            arrays.counts.push(below(65_536) as u32);
        }
        if row.sorted {
            arrays.kinds.sort();
        }
        arrays
    }

    fn tick(&mut self, side: usize) -> u32 {
        let Self {
            kinds,
            lows,
            highs,
            loads,
            counts,
            bytes,
        } = self;
        if side == 0 {
            let gates = Gates { kinds, lows, highs };
            interface::tick_meters(gates, loads, counts, bytes)
        } else {
            let row = ordinary::meters::Row {
                kinds,
                lows,
                highs,
                loads,
            };
            ordinary::meters::tick_meters(row, counts, bytes)
        }
    }

    fn run(&mut self, side: usize, ticks: usize) {
        for _ in 0..ticks {
            let status = self.tick(side);
            black_box((status, &self.loads, &self.bytes));
        }
    }
}

/// Whether both sides leave the same, over some ticks, and with each of a few things bad.
fn agree(row: &Row) -> bool {
    let spoil: [fn(&mut Arrays); 6] = [
        |_| {},
        |arrays| arrays.counts[7] = 65_536,
        |arrays| arrays.loads[7] = 131_071.0,
        |arrays| (arrays.kinds[7], arrays.highs[7]) = (1, f64::INFINITY),
        |arrays| (arrays.kinds[7], arrays.lows[7], arrays.highs[7]) = (2, 2.0, 1.0),
        |arrays| arrays.kinds[7] = 3,
    ];
    spoil.into_iter().all(|spoil| {
        let mut ours = Arrays::of(row);
        spoil(&mut ours);
        let mut theirs = ours.clone();
        (0..40).all(|_| ours.tick(0) == theirs.tick(1) && ours == theirs)
    })
}

/// Ticks a row some times: what a counted run does. Any other side's name ticks it never.
pub fn counted(row: usize, side: &str) -> Option<()> {
    let row = ROWS.get(row)?;
    let mut arrays = Arrays::of(row);
    if let Some(side) = SIDES.iter().position(|known| *known == side) {
        arrays.run(side, row.counted);
    }
    Some(())
}

/// Instructions a meter and tick, for each side.
fn instructions(number: usize, row: &Row) -> Option<[f64; 2]> {
    let number = number.to_string();
    let collected = |side| count::collected(&[ARGUMENT, &number, side]);
    let empty = collected("none")?;
    let mut counts = [0.0; 2];
    for (count, side) in counts.iter_mut().zip(SIDES) {
        let whole = collected(side)?.saturating_sub(empty);
        *count = whole as f64 / (row.counted * row.meters) as f64;
    }
    Some(counts)
}

/// Prints the table.
pub fn print() -> bool {
    println!("{HEAD}");
    ROWS.iter().enumerate().all(|(number, row)| {
        if !agree(row) {
            println!("{} meters: the two sides differ", row.meters);
            return false;
        }
        let mut arrays = [(); 2].map(|()| Arrays::of(row));
        let spread = Spread::measure(|side| arrays[side].run(side, row.ticks));
        let [proved, plain] = spread.best().map(|seconds| seconds / row.ticks as f64);
        let (low, high) = spread.ratios();
        let counts = instructions(number, row);
        let counts = counts.map_or(["-".into(), "-".into()], |counts| {
            counts.map(|count| format!("{count:.1}"))
        });
        println!(
            "| {}{} | {} | {:.1} | {:.1} | {:.2} | {low:.2} to {high:.2} | {:.0} | {} |",
            row.meters,
            if row.sorted { ", sorted by kind" } else { "" },
            ROUNDS * row.ticks,
            proved * 1e9,
            plain * 1e9,
            proved / plain,
            1.0 / proved,
            counts.join(" | ")
        );
        true
    })
}
