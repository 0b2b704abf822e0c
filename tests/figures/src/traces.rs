//! Traces: a million requests of case 1 written, read and replayed through the C interface.

use interface::{
    memory_request, trace_append, trace_close, trace_next, trace_replay, Asked, ANSWER_SIZE,
};
use std::time::Instant;

/// What asks for this table alone.
pub const ARGUMENT: &str = "--traces";

/// Requests traced.
const REQUESTS: usize = 1_000_000;

/// Each is timed so often, and the best taken.
const ROUNDS: usize = 10;

/// HAW 39, MGAW 48, 3 levels, TE on; root table at 1000h.
const REGISTERS: [u8; 24] = {
    let mut bytes = [0; 24];
    bytes[0] = 39;
    bytes[1] = 48;
    bytes[2] = 1;
    bytes[3] = 1;
    bytes[9] = 0x10;
    bytes
};

/// The tables of case 1.
fn image() -> Vec<u8> {
    let mut image = vec![0; 0x8000];
    for (address, word) in [
        (0x1030, 0x2001u64),
        (0x2100, 0x3001),
        (0x2108, 0x501),
        (0x3008, 0x4003),
        (0x4008, 0x5003),
        (0x5008, 0x1234_5001),
    ] {
        image[address..address + 8].copy_from_slice(&word.to_le_bytes());
    }
    image
}

/// Writes a million entries of an answer.
fn write(answer: &[u8], trace: &mut Vec<u8>) {
    let asked = Asked {
        kind: 1,
        source: 0x0310,
        address: 0x4020_1ABC,
        data: 0,
    };
    let (mut writer, mut block) = ([0; 2], [0; 512]);
    trace.clear();
    for _ in 0..REQUESTS {
        if trace_append(&mut writer, &mut block, asked, answer) == 0x50 {
            trace.extend_from_slice(&block);
        }
    }
    if trace_close(&mut writer, &mut block) == 0x50 {
        trace.extend_from_slice(&block);
    }
}

/// How many entries a reader hands out.
fn read(trace: &[u8]) -> usize {
    let (mut place, mut entry, mut entries) = ([0; 2], [0; 32], 0);
    while trace_next(trace, &mut place, &mut entry) == 0x51 {
        entries += 1;
    }
    entries
}

/// How many entries have the same answer again.
fn replay(image: &mut [u8], trace: &[u8]) -> usize {
    let windows = [0, 0, image.len() as u64];
    let (mut place, mut entry, mut same) = ([0; 2], [0; 32], 0);
    while trace_replay(&REGISTERS, &windows, image, trace, &mut place, &mut entry) == 0x54 {
        same += 1;
    }
    same
}

/// The best time of some rounds, in seconds, and whether each did them all.
fn best(mut round: impl FnMut() -> usize) -> (f64, bool) {
    let (mut best, mut good) = (f64::MAX, true);
    for _ in 0..ROUNDS {
        let start = Instant::now();
        good &= round() == REQUESTS;
        best = best.min(start.elapsed().as_secs_f64());
    }
    (best, good)
}

/// Prints the table.
pub fn print() -> bool {
    let mut image = image();
    let mut answer = [0; ANSWER_SIZE];
    let windows = [0, 0, image.len() as u64];
    memory_request(
        &REGISTERS,
        &windows,
        &image,
        0x0310,
        0x4020_1ABC,
        0,
        &mut answer,
    );
    let mut trace = Vec::with_capacity(512 * REQUESTS.div_ceil(15));
    let rows = [
        (
            "written",
            best(|| {
                write(&answer, &mut trace);
                REQUESTS
            }),
        ),
        ("read", best(|| read(&trace))),
        ("replayed", best(|| replay(&mut image, &trace))),
    ];
    println!("| a million entries | ns an entry | entries a second |\n|---|---|---|");
    for (name, (seconds, _)) in rows {
        let each = seconds / REQUESTS as f64;
        println!("| {name} | {:.1} | {:.0} |", each * 1e9, 1.0 / each);
    }
    println!("\n{} bytes", trace.len());
    rows.iter().all(|(_, (_, good))| *good)
}
