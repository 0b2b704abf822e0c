//! The rows of the table.

use crate::load::{Interrupt, Load, Memory, Requests};
use galitzaf::{Levels, Registers};

/// A row: what it is called, how often a round goes through its requests, and how it is made.
pub struct Row {
    /// Its name.
    pub name: &'static str,
    /// Times that a round goes through its requests.
    pub passes: usize,
    /// Makes its load.
    pub make: fn() -> Load,
}

/// The rows, in the table's order.
pub const ROWS: &[Row] = &[
    Row {
        name: "case 1 reads",
        passes: 20,
        make: case_1,
    },
    Row {
        name: "streaming, 4 KiB pages",
        passes: 1,
        make: || streamed(pages_4k(&IN_ORDER)),
    },
    Row {
        name: "streaming, 2 MiB pages",
        passes: 1,
        make: || streamed(pages_2m()),
    },
    Row {
        name: "random over 64 MiB, 4 KiB pages",
        passes: 1,
        make: || shuffled(pages_4k(&IN_ORDER)),
    },
    Row {
        name: "faults 05h, 06h, 07h",
        passes: 10,
        make: faults,
    },
    Row {
        name: "remapped interrupts",
        passes: 20,
        make: remapped,
    },
    Row {
        name: "posted, notification due",
        passes: 20,
        make: posted_with_notice,
    },
    Row {
        name: "posted, ON already set",
        passes: 20,
        make: posted,
    },
    Row {
        name: "case 1 reads, two windows",
        passes: 20,
        make: || case_1().cut(&[0, 0x3000], &[0, 1]),
    },
    Row {
        name: "case 1 reads, four windows",
        passes: 20,
        make: || case_1().cut(&FOUR, &[0, 1, 2, 3]),
    },
    Row {
        name: "case 1 reads, four windows permuted",
        passes: 20,
        make: || case_1().cut(&FOUR, &PERMUTED),
    },
    Row {
        name: "random, leaf tables over four windows",
        passes: 1,
        make: random_over_four,
    },
    Row {
        name: "faults 05h, 06h, 07h, four windows",
        passes: 10,
        make: || faults().cut(&FOUR, &[0, 1, 2, 3]),
    },
    Row {
        name: "posted, notification due, four windows",
        passes: 20,
        make: || posted_with_notice().cut(&FOUR, &[0, 1, 2, 3]),
    },
    Row {
        name: "case 1 translations",
        passes: 20,
        make: case_1_translations,
    },
    Row {
        name: "case 1 translations, four windows",
        passes: 20,
        make: || case_1_translations().cut(&FOUR, &[0, 1, 2, 3]),
    },
];

/// Starts of four windows over the bench image: the root table, the context table, the tables of levels 3
/// and 2, and that of level 1 with the interrupt table.
const FOUR: [u64; 4] = [0, 0x2000, 0x3000, 0x5000];

/// Another order in the run.
const PERMUTED: [usize; 4] = [2, 0, 3, 1];

pub const SOURCE: u16 = 0x0310;

/// How often a row of one request has it, so that a round's loop is long.
const REPEATED: usize = 1000;

/// Document 01's bench image.
fn bench(requests: Requests) -> Load {
    let mut load = Load {
        registers: Registers {
            haw: 39,
            mgaw: 48,
            levels: Levels {
                three: true,
                four: true,
                five: false,
            },
            pages_2m: true,
            pages_1g: true,
            posting: true,
            root_table: 0x1000,
            interrupt_table: 0x6000,
            s: 3,
            te: true,
            ire: true,
            eime: false,
            cfis: false,
        },
        windows: Vec::new(),
        run: Vec::new(),
        requests,
    };
    load.flat(32_768);
    for (address, word) in [
        (0x1030, 0x2001),
        (0x2100, 0x3001),
        (0x2108, 0x501),
        (0x3008, 0x4003),
        (0x4008, 0x5003),
        (0x4010, 0x4060_0083),
        (0x4018, 0x9003),
        (0x4020, 0x80_0000_0003),
        (0x4028, 0x7003),
        (0x5008, 0x1234_5001),
        (0x7FF8, 0x2345_6003),
        (0x6020, 0x0000_0700_0041_0001),
        (0x6028, 0x40310),
        (0x6040, 0x0000_6400_0031_8001),
        (0x6420, 0x0000_0700_00F2_0000),
    ] {
        load.set(address, word);
    }
    load
}

fn memory(address: u64, write: bool) -> Memory {
    Memory {
        source: SOURCE,
        address,
        write,
    }
}

fn case_1() -> Load {
    bench(Requests::Memory(vec![memory(0x4020_1ABC, false); REPEATED]))
}

/// The same page asked for as a translation, in a context of type 1.
fn case_1_translations() -> Load {
    let request = memory(0x4020_1ABC, false);
    let mut load = bench(Requests::Translations(vec![request; REPEATED]));
    load.set(0x2100, 0x3005);
    load
}

/// Cases 2, 3 and 5.
fn faults() -> Load {
    let three = [
        memory(0x4020_1ABC, true),
        memory(0x4020_2000, false),
        memory(0x4060_0000, false),
    ];
    bench(Requests::Memory(three.repeat(REPEATED / 2)))
}

fn message(address: u64, rearm: Option<usize>) -> Requests {
    let message = Interrupt {
        source: SOURCE,
        address,
        data: 0,
    };
    Requests::Interrupts {
        messages: vec![message; REPEATED],
        rearm,
    }
}

/// Case 10.
fn remapped() -> Load {
    bench(message(0xFEE0_0050, None))
}

/// Case 12, again and again: but for the first, ON is found set.
fn posted() -> Load {
    bench(message(0xFEE0_0090, None))
}

/// Case 12, with ON cleared before each.
fn posted_with_notice() -> Load {
    bench(message(0xFEE0_0090, Some(0x6420)))
}

/// Guest addresses that are streamed over: 64 MiB from 1 GiB on.
pub const START: u64 = 1 << 30;
const SPAN: u64 = 64 << 20;

/// Where the tables of a source with 4 levels stand: the root table is at 1000h.
struct Places {
    context: u64,
    /// Of level 4, 3 and 2.
    upper: [u64; 3],
    /// Of level 1, by number.
    leaf: fn(u64) -> u64,
    /// The end of all.
    end: u64,
}

/// One after the other.
const IN_ORDER: Places = Places {
    context: 0x2000,
    upper: [0x3000, 0x5000, 0x4000],
    leaf: |table| 4096 * (6 + table),
    end: 4096 * (6 + (SPAN >> 21)),
};

/// Pages of each of four windows, over which tables are spread.
const QUARTER: u64 = 16;

/// The root table and that of level 2 in the first window, the context table and those of levels 4 and 3
/// in the others; tables of level 1 over all four in turn.
const OVER_FOUR: Places = Places {
    context: 4096 * QUARTER,
    upper: [4096 * 2 * QUARTER, 4096 * 3 * QUARTER, 0x2000],
    leaf: |table| 4096 * (QUARTER * (table % 4) + 4 + table / 4),
    end: 4096 * 4 * QUARTER,
};

/// Root, context and the upper tables.
fn tables(places: &Places) -> Load {
    let none = Requests::Memory(Vec::new());
    let mut load = bench(none);
    let [top, third, second] = places.upper;
    load.flat(places.end);
    load.set(0x1030, places.context | 1);
    load.set(places.context + 0x100, top | 1);
    load.set(places.context + 0x108, 2);
    load.set(top, third | 3);
    load.set(third + 8 * (START >> 30), second | 3);
    load
}

/// The same in pages of 4 KiB, of which every page of 2 MiB from 128 MiB on is one of that size; and the
/// context of seven more devices of the bus.
pub fn for_caches() -> Load {
    let mut load = pages_4k(&IN_ORDER);
    let [top, _, second] = IN_ORDER.upper;
    for n in SPAN >> 20..(SPAN >> 20) + (SPAN >> 21) {
        load.set(second + 8 * n, (0x20_0000_0000 + (n << 21)) | 0x83);
    }
    for device in 1..8 {
        load.set(IN_ORDER.context + 0x100 + 16 * device, top | 1);
        load.set(IN_ORDER.context + 0x108 + 16 * device, device << 8 | 2);
    }
    load
}

/// A read in each page of 4 KiB, one after the other.
fn reads() -> Vec<Memory> {
    (0..SPAN / 4096)
        .map(|n| memory(START + 4096 * n + 8 * (n % 512), false))
        .collect()
}

/// The span in pages of 4 KiB, each to a frame of its own.
fn pages_4k(places: &Places) -> Load {
    let mut load = tables(places);
    let [.., second] = places.upper;
    for table in 0..SPAN >> 21 {
        let at = (places.leaf)(table);
        load.set(second + 8 * table, at | 3);
        for n in 0..512 {
            let frame = 0x10_0000_0000 + (512 * table + n) * 4096;
            load.set(at + 8 * n, frame | 3);
        }
    }
    load
}

/// The span in pages of 2 MiB.
fn pages_2m() -> Load {
    let mut load = tables(&IN_ORDER);
    let [.., second] = IN_ORDER.upper;
    for n in 0..SPAN >> 21 {
        load.set(second + 8 * n, (0x10_0000_0000 + (n << 21)) | 0x83);
    }
    load
}

fn streamed(mut load: Load) -> Load {
    load.requests = Requests::Memory(reads());
    load
}

fn random_over_four() -> Load {
    let starts = [0, 1, 2, 3].map(|n| 4096 * QUARTER * n);
    shuffled(pages_4k(&OVER_FOUR)).cut(&starts, &[0, 1, 2, 3])
}

/// The same reads in another order, the same on every run.
fn shuffled(mut load: Load) -> Load {
    let mut reads = reads();
    let mut state = 0x2545_F491_4F6C_DD1Du64;
    for n in (1..reads.len()).rev() {
        state ^= state << 13;
        state ^= state >> 7;
        state ^= state << 17;
        reads.swap(n, (state % (n as u64 + 1)) as usize);
    }
    load.requests = Requests::Memory(reads);
    load
}
