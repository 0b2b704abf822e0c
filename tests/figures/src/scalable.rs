//! Reads and writes in scalable mode, beside the ordinary translator.

use crate::count;
use crate::load::{self, Requests};
use crate::sides::Prepared;
use crate::time::{Spread, ROUNDS};
use cases::scalable::{fixed, Laid};
use interface::ANSWER_SIZE;
use std::hint::black_box;

/// The argument that makes this program print this table alone or, with a row and a side, put a row's requests some
/// times and end.
pub const ARGUMENT: &str = "--scalable";

/// The table's head, as docs/PERFORMANCE.md has it.
const HEAD: &str = "\
| request | requests timed | proved, ns | ordinary, ns | ratio | 10% to 90% of rounds | instructions: proved | ordinary |
|---|---|---|---|---|---|---|---|";

/// A row: the kind of tables, and which of their requests.
struct Row {
    name: &'static str,
    tables: u64,
    request: usize,
}

const ROWS: [Row; 6] = [
    Row {
        name: "first level, read",
        tables: 0,
        request: 0,
    },
    Row {
        name: "first level, write",
        tables: 0,
        request: 1,
    },
    Row {
        name: "second level, read",
        tables: 1,
        request: 0,
    },
    Row {
        name: "second level, write",
        tables: 1,
        request: 1,
    },
    Row {
        name: "nested, read",
        tables: 2,
        request: 0,
    },
    Row {
        name: "nested, write",
        tables: 2,
        request: 1,
    },
];

const SIDES: [&str; 2] = ["proved", "ordinary"];

/// Requests of a round, and of a counted run.
const PASSES: usize = 2_000;
const COUNTED: usize = 2_000;

/// One request, for both sides.
struct Load {
    prepared: Prepared,
    capabilities: u32,
    has: ordinary::Capabilities,
    request: ordinary::ScalableRequest,
    run: Vec<u8>,
}

impl Load {
    fn of(row: &Row) -> Self {
        let laid = fixed(row.tables);
        let r = &laid.registers;
        let bits = [
            r.flts, r.slts, r.nest, r.pt, r.fl5lp, r.fl1gp, r.slads, r.eafs, r.srs, r.smpwc,
        ];
        let numbered = bits.iter().zip(0..);
        let request = laid.requests[row.request];
        Self {
            prepared: prepared(&laid),
            capabilities: numbered.fold(0, |all, (&bit, n)| all | u32::from(bit) << n),
            has: ordinary::Capabilities {
                flts: r.flts,
                slts: r.slts,
                nest: r.nest,
                pt: r.pt,
                fl5lp: r.fl5lp,
                fl1gp: r.fl1gp,
                slads: r.slads,
                eafs: r.eafs,
                srs: r.srs,
                smpwc: r.smpwc,
            },
            request: ordinary::ScalableRequest {
                source: request.source,
                address: request.address,
                write: request.write,
                pasid: request.pasid,
            },
            run: laid.run,
        }
    }

    /// The host address, 0 where it isn't granted.
    fn ask(&mut self, side: usize) -> u64 {
        let request = black_box(self.request);
        if side == 0 {
            let mut answer = [0; ANSWER_SIZE];
            let kind = u8::from(request.write) | u8::from(request.pasid.is_some()) << 1;
            let _ = interface::scalable_request(
                &self.prepared.bytes,
                self.capabilities,
                &self.prepared.numbers,
                &mut self.run,
                request.source,
                request.address,
                kind,
                request.pasid.unwrap_or(0),
                &mut answer,
            );
            let [kind, .., a, b, c, d, e, f, g, h] = answer[..16] else {
                return 0;
            };
            let granted = kind == 6;
            u64::from(granted) * u64::from_le_bytes([a, b, c, d, e, f, g, h])
        } else {
            let answer = ordinary::scalable_request(
                &self.prepared.plain,
                &self.has,
                &self.prepared.windows,
                &mut self.run,
                request,
            );
            match answer {
                ordinary::MemoryAnswer::Granted(host) => host,
                _ => 0,
            }
        }
    }

    fn run(&mut self, side: usize, times: usize) {
        for _ in 0..times {
            black_box(self.ask(side));
        }
    }
}

/// Registers and windows in each side's form.
fn prepared(laid: &Laid) -> Prepared {
    let base = &laid.registers.base;
    let registers = galitzaf::Registers {
        haw: base.haw,
        mgaw: base.mgaw,
        levels: galitzaf::Levels {
            three: base.levels3,
            four: base.levels4,
            five: base.levels5,
        },
        pages_2m: base.pages_2m,
        pages_1g: base.pages_1g,
        root_table: base.root,
        te: base.te,
        ..galitzaf::Registers::default()
    };
    let window = |w: &reference::Window| galitzaf::Window {
        start: w.start,
        offset: w.from,
        length: w.length,
    };
    Prepared::of(&load::Load {
        registers,
        windows: laid.windows.iter().map(window).collect(),
        run: Vec::new(),
        requests: Requests::Memory(Vec::new()),
    })
}

/// Whether both sides answer the same and leave the same.
fn agree(row: &Row) -> bool {
    let mut loads = [(); 2].map(|()| Load::of(row));
    let hosts = [0, 1].map(|side| loads[side].ask(side));
    let [ours, theirs] = &loads;
    hosts[0] != 0 && hosts[0] == hosts[1] && ours.run == theirs.run
}

/// Puts a row's request some times: what a counted run does. Any other side's name puts it never.
pub fn counted(row: usize, side: &str) -> Option<()> {
    let mut load = Load::of(ROWS.get(row)?);
    if let Some(side) = SIDES.iter().position(|known| *known == side) {
        load.run(side, COUNTED);
    }
    Some(())
}

/// Instructions a request, for each side.
fn instructions(number: usize) -> Option<[f64; 2]> {
    let number = number.to_string();
    let collected = |side| count::collected(&[ARGUMENT, &number, side]);
    let empty = collected("none")?;
    let mut counts = [0.0; 2];
    for (count, side) in counts.iter_mut().zip(SIDES) {
        *count = collected(side)?.saturating_sub(empty) as f64 / COUNTED as f64;
    }
    Some(counts)
}

/// Prints the table.
pub fn print() -> bool {
    println!("{HEAD}");
    ROWS.iter().enumerate().all(|(number, row)| {
        if !agree(row) {
            println!("{}: the two sides differ", row.name);
            return false;
        }
        let mut loads = [(); 2].map(|()| Load::of(row));
        let spread = Spread::measure(|side| loads[side].run(side, PASSES));
        let [proved, plain] = spread.best().map(|seconds| seconds / PASSES as f64);
        let (low, high) = spread.ratios();
        let counts = instructions(number).map_or(["-".into(), "-".into()], |counts| {
            counts.map(|count| format!("{count:.0}"))
        });
        println!(
            "| {} | {} | {:.1} | {:.1} | {:.2} | {low:.2} to {high:.2} | {} |",
            row.name,
            ROUNDS * PASSES,
            proved * 1e9,
            plain * 1e9,
            proved / plain,
            counts.join(" | ")
        );
        true
    })
}
