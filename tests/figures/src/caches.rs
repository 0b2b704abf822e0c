//! Reads through a cache of 64 translations, beside the plain unit, and beside the ordinary translator with
//! a cache of the same rule and without.

use crate::count;
use crate::load::{Memory, Requests};
use crate::rows::{for_caches, SOURCE, START};
use crate::sides::Prepared;
use crate::time::{round, ROUNDS};
use interface::{ANSWER_SIZE, CACHE_WORDS};
use ordinary::{Cache, MemoryAnswer};
use std::hint::black_box;

/// The argument that makes this program print this table alone or, with a row and a side, go through a
/// row and end.
pub const ARGUMENT: &str = "--caches";

/// The table's head, as docs/PERFORMANCE.md has it.
const HEAD: &str = "\
| load | requests timed | proved, cache, ns | proved, plain, ns | ratio | ordinary, cache, ns | ratio | ordinary, ns | \
instructions: proved, cache | proved, plain | ordinary, cache | ordinary |
|---|---|---|---|---|---|---|---|---|---|---|---|";

const SIDES: [&str; 4] = ["proved-cache", "proved", "ordinary-cache", "ordinary"];

/// Requests of a round.
const REQUESTS: u64 = 16_384;

/// Passes of a counted run.
const PASSES: usize = 4;

/// A row: its name, and the read of a number.
struct Row {
    name: &'static str,
    read: fn(u64, &mut Random) -> (u16, u64),
}

/// Numbers, the same on every run.
struct Random(u64);

impl Random {
    fn below(&mut self, end: u64) -> u64 {
        self.0 ^= self.0 << 13;
        self.0 ^= self.0 >> 7;
        self.0 ^= self.0 << 17;
        (self.0 >> 16) % end
    }
}

/// Pages of 2 MiB stand from here on.
const LARGE: u64 = START + (128 << 20);

const ROWS: [Row; 6] = [
    Row {
        name: "streaming, 64 reads in each page of 4 KiB",
        read: |n, _| (SOURCE, START + ((n / 64) << 18) + 64 * (n % 64)),
    },
    Row {
        name: "streaming, pages of 2 MiB",
        read: |n, _| (SOURCE, LARGE + 4096 * n),
    },
    Row {
        name: "eight devices in turn, streaming",
        read: |n, _| {
            (
                SOURCE + (n % 8) as u16,
                START + ((n / 512) << 18) + 64 * (n / 8 % 64),
            )
        },
    },
    Row {
        name: "random over 48 pages",
        read: |_, random| {
            (
                SOURCE,
                START + ((random.below(48) * 7) << 12) + 8 * random.below(512),
            )
        },
    },
    Row {
        name: "random over 24 pages of 4 KiB and 24 of 2 MiB",
        read: |_, random| match random.below(48) {
            n if n < 24 => (SOURCE, START + ((n * 7) << 12) + 8 * random.below(512)),
            n => (SOURCE, LARGE + ((n - 24) << 21) + 8 * random.below(1 << 18)),
        },
    },
    Row {
        name: "random over 4096 pages: nearly all misses",
        read: |_, random| {
            (
                SOURCE,
                START + (random.below(4096) << 12) + 8 * random.below(512),
            )
        },
    },
];

struct Caches {
    proved: [u64; CACHE_WORDS],
    ordinary: Cache,
}

fn run(side: usize, prepared: &Prepared, image: &[u8], caches: &mut Caches, requests: &[Memory]) {
    let (bytes, numbers) = (&prepared.bytes, &prepared.numbers[..]);
    let (plain, windows) = (&prepared.plain, &prepared.windows[..]);
    let mut answer = [0; ANSWER_SIZE];
    match side {
        0 => {
            let cache = &mut caches.proved;
            for r in requests {
                let status = interface::cached_request(
                    bytes,
                    numbers,
                    image,
                    cache,
                    r.source,
                    r.address,
                    0,
                    &mut answer,
                );
                black_box((status, &answer));
            }
        }
        1 => {
            for r in requests {
                let status = interface::memory_request(
                    bytes,
                    numbers,
                    image,
                    r.source,
                    r.address,
                    0,
                    &mut answer,
                );
                black_box((status, &answer));
            }
        }
        2 => {
            let cache = &mut caches.ordinary;
            for r in requests {
                let answer = ordinary::cached_request(
                    plain, windows, image, cache, r.source, r.address, false,
                );
                black_box(&answer);
            }
        }
        _ => {
            for r in requests {
                let answer =
                    ordinary::memory_request(plain, windows, image, r.source, r.address, false);
                black_box(&answer);
            }
        }
    }
}

/// Whether all four answer alike, with grants alone.
fn agree(prepared: &Prepared, image: &[u8], caches: &mut Caches, requests: &[Memory]) -> bool {
    let (bytes, numbers) = (&prepared.bytes, &prepared.numbers[..]);
    let (plain, windows) = (&prepared.plain, &prepared.windows[..]);
    requests.iter().all(|r| {
        let (source, address) = (r.source, r.address);
        let mut answers = [[0; ANSWER_SIZE]; 2];
        let [one, other] = &mut answers;
        let cache = &mut caches.proved;
        interface::cached_request(bytes, numbers, image, cache, source, address, 0, one);
        interface::memory_request(bytes, numbers, image, source, address, 0, other);
        let cache = &mut caches.ordinary;
        let cached = ordinary::cached_request(plain, windows, image, cache, source, address, false);
        let walked = ordinary::memory_request(plain, windows, image, source, address, false);
        let host = u64::from_le_bytes(one[8..16].try_into().unwrap_or_default());
        one == other && one[0] == 6 && cached == walked && cached == MemoryAnswer::Granted(host)
    })
}

fn made(row: &Row) -> (Prepared, Vec<u8>, Caches, Vec<Memory>) {
    let mut load = for_caches();
    load.requests = Requests::Memory(Vec::new());
    let prepared = Prepared::of(&load);
    let mut random = Random(0x2545_F491_4F6C_DD1D);
    let requests = (0..REQUESTS).map(|n| {
        let (source, address) = (row.read)(n, &mut random);
        Memory {
            source,
            address,
            write: false,
        }
    });
    let requests = requests.collect();
    let caches = Caches {
        proved: [0; CACHE_WORDS],
        ordinary: Cache::default(),
    };
    (prepared, load.run, caches, requests)
}

/// Instructions of a request, for each side.
fn counted(number: usize) -> String {
    let number = number.to_string();
    let collected = |side| count::collected(&[ARGUMENT, &number, side]);
    let count = |side| {
        let (whole, empty) = (collected(side)?, collected("none")?);
        let requests = PASSES as f64 * REQUESTS as f64;
        Some(whole.saturating_sub(empty) as f64 / requests)
    };
    let counts = SIDES.map(|side| count(side).map_or("-".into(), |count| format!("{count:.0}")));
    counts.join(" | ")
}

/// Goes through a row some times: what a counted run does.
pub fn count_row(row: usize, side: &str) -> Option<()> {
    let (prepared, image, mut caches, requests) = made(ROWS.get(row)?);
    if let Some(side) = SIDES.iter().position(|known| *known == side) {
        for _ in 0..PASSES {
            run(side, &prepared, &image, &mut caches, &requests);
        }
    }
    Some(())
}

/// Prints the table, or the instructions alone.
pub fn print(times: bool) -> bool {
    println!("{HEAD}");
    ROWS.iter().enumerate().all(|(number, row)| {
        let (prepared, image, mut caches, requests) = made(row);
        if !agree(&prepared, &image, &mut caches, &requests) {
            println!("{}: the sides answer differently", row.name);
            return false;
        }
        let mut best = [f64::INFINITY; 4];
        let rounds = if times { ROUNDS } else { 1 };
        for n in 0..=rounds {
            for turn in 0..SIDES.len() {
                let side = (n + turn) % SIDES.len();
                let seconds = round(|| run(side, &prepared, &image, &mut caches, &requests));
                if n > 0 {
                    best[side] = best[side].min(seconds * 1e9 / REQUESTS as f64);
                }
            }
        }
        let [cached, plain, ordinary_cached, ordinary] = best;
        println!(
            "| {} | {} | {cached:.1} | {plain:.1} | {:.2} | {ordinary_cached:.1} | {:.2} | {ordinary:.1} | {} |",
            row.name,
            rounds as u64 * REQUESTS,
            cached / plain,
            cached / ordinary_cached,
            counted(number)
        );
        true
    })
}
