//! Page tables built by lists, beside a plain builder of the same rules.

use crate::count;
use crate::time::round;
use interface::Building;
use ordinary::{Built, Item, Registers, Window};
use std::hint::black_box;

/// The argument that makes this program print this table alone or, with a row and a side, go through a row and end.
pub const ARGUMENT: &str = "--builders";

/// The table's head, as docs/PERFORMANCE.md has it.
const HEAD: &str = "\
| lists | pages | proved, us | ordinary, us | ratio | proved, ns a page | instructions a page: proved | ordinary |
|---|---|---|---|---|---|---|---|";

/// The head of the table of instructions alone.
const COUNTS: &str = "\
| lists | pages | instructions a page: proved | ordinary |
|---|---|---|---|";

const SIDES: [&str; 2] = ["proved", "ordinary"];

/// Rounds of a row.
const ROUNDS: usize = 60;

const SOURCE: u16 = 0x0310;

/// The region begins here, behind root, context and interrupt table, with the top table.
const START: u64 = 0x3000;

const REGISTERS: Registers = Registers {
    haw: 39,
    mgaw: 39,
    widths: 0b0010,
    pages_2m: true,
    pages_1g: false,
    posting: false,
    root_table: 0,
    interrupt_table: 0x2000,
    s: 3,
    te: true,
    ire: false,
    eime: false,
    cfis: false,
};

/// The same, packed: HAW 39, MGAW 39, 3 levels and 2 MiB pages, TE, S 3; the interrupt table at 2000h.
const PACKED: [u8; 24] = {
    let mut bytes = [0; 24];
    bytes[0] = 39;
    bytes[1] = 39;
    bytes[2] = 1 | 1 << 3;
    bytes[3] = 1;
    bytes[4] = 3;
    bytes[17] = 0x20;
    bytes
};

/// A row: pages of the region, those mapped before, and the lists that are timed.
struct Row {
    name: &'static str,
    pages: u64,
    mapped: fn() -> Vec<Item>,
    lists: fn() -> Vec<Vec<Item>>,
}

const ROWS: [Row; 6] = [
    Row {
        name: "1,000 pages one after the other mapped, one list",
        pages: 8,
        mapped: Vec::new,
        lists: || vec![maps(1000, 0x1000)],
    },
    Row {
        name: "unmapped, one list",
        pages: 8,
        mapped: || maps(1000, 0x1000),
        lists: || vec![unmaps(1000, 0x1000)],
    },
    Row {
        name: "mapped, a list for each",
        pages: 8,
        mapped: Vec::new,
        lists: || singles(&maps(1000, 0x1000)),
    },
    Row {
        name: "unmapped, a list for each",
        pages: 8,
        mapped: || maps(1000, 0x1000),
        lists: || singles(&unmaps(1000, 0x1000)),
    },
    Row {
        name: "500 pages, each in a table of its own, mapped, one list, in a region of 600 pages",
        pages: 600,
        mapped: Vec::new,
        lists: || vec![maps(500, 0x20_0000)],
    },
    Row {
        name: "unmapped, one list",
        pages: 600,
        mapped: || maps(500, 0x20_0000),
        lists: || vec![unmaps(500, 0x20_0000)],
    },
];

/// So many pages of 4 KiB, so far from each other.
fn maps(pages: u64, apart: u64) -> Vec<Item> {
    let item = |n| Item {
        what: 3,
        place: 0x4000_0000 + apart * n,
        size: 0x1000,
        frame: 0x1_0000_0000 + 0x1000 * n,
    };
    (0..pages).map(item).collect()
}

fn unmaps(pages: u64, apart: u64) -> Vec<Item> {
    let unmap = |item: Item| Item { what: 4, ..item };
    maps(pages, apart).into_iter().map(unmap).collect()
}

fn singles(items: &[Item]) -> Vec<Vec<Item>> {
    items.iter().map(|item| vec![*item]).collect()
}

/// Everything that a row works on.
struct Ready {
    image: Vec<u8>,
    copy: Vec<u8>,
    marks: Vec<u8>,
    windows: [Window; 1],
    size: u64,
    lists: Vec<Vec<Item>>,
    numbers: Vec<Vec<u64>>,
}

impl Ready {
    fn of(row: &Row) -> Self {
        let size = 0x1000 * row.pages;
        let length = START + size;
        let mut image = vec![0; length as usize];
        for (at, word) in [(0x30, 0x1001u64), (0x1100, START | 1), (0x1108, 1)] {
            image[at..at + 8].copy_from_slice(&word.to_le_bytes());
        }
        let lists = (row.lists)();
        let number = |item: &Item| [item.what, item.place, item.size, item.frame];
        let numbers = lists.iter();
        let numbers = numbers.map(|list| list.iter().flat_map(number).collect());
        let mut ready = Self {
            image,
            copy: vec![0; size as usize],
            marks: vec![0; row.pages as usize],
            windows: [Window {
                start: 0,
                offset: 0,
                length,
            }],
            size,
            numbers: numbers.collect(),
            lists,
        };
        ready.ordinary(&(row.mapped)());
        ready
    }

    fn pages(&self) -> usize {
        self.lists.iter().map(Vec::len).sum()
    }

    fn ordinary(&mut self, list: &[Item]) -> bool {
        let region = [START, self.size];
        let (windows, image) = (&self.windows, &mut self.image);
        ordinary::build(&REGISTERS, windows, image, SOURCE, region, list) == Built::Done
    }

    fn proved(&mut self, numbers: &[u64]) -> bool {
        let windows = [0, 0, self.image.len() as u64];
        let lent = Building {
            image: &mut self.image,
            copy: &mut self.copy,
            marks: &mut self.marks,
            item: &mut [0],
        };
        interface::build(&PACKED, &windows, SOURCE, [START, self.size], numbers, lent) == 0
    }

    /// All lists, by a side; whether each was done.
    fn run(&mut self, side: usize) -> bool {
        let (lists, numbers) = (
            std::mem::take(&mut self.lists),
            std::mem::take(&mut self.numbers),
        );
        let done = if side == 0 {
            numbers.iter().all(|list| self.proved(list))
        } else {
            lists.iter().all(|list| self.ordinary(list))
        };
        (self.lists, self.numbers) = (lists, numbers);
        black_box(done)
    }
}

/// Times that a counted run goes through its row.
const PASSES: usize = 4;

/// Goes through a row some times, over the same memory each time: what a counted run does.
pub fn counted(row: usize, side: &str) -> Option<()> {
    let mut ready = Ready::of(ROWS.get(row)?);
    let before = ready.image.clone();
    let side = SIDES.iter().position(|known| *known == side);
    for _ in 0..PASSES {
        ready.image.copy_from_slice(&before);
        if let Some(side) = side {
            ready.run(side);
        }
    }
    Some(())
}

/// Instructions of a page, for each side.
fn instructions(number: usize, pages: usize) -> String {
    let number = number.to_string();
    let collected = |side| count::collected(&[ARGUMENT, &number, side]);
    let count = |side| {
        let (whole, empty) = (collected(side)?, collected("none")?);
        Some(whole.saturating_sub(empty) as f64 / (PASSES * pages) as f64)
    };
    let counts = SIDES.map(|side| count(side).map_or("-".into(), |count| format!("{count:.0}")));
    counts.join(" | ")
}

fn print_row(number: usize, row: &Row) -> bool {
    let mut ready = Ready::of(row);
    let before = ready.image.clone();
    let mut after = [Vec::new(), Vec::new()];
    let mut done = true;
    for (side, after) in after.iter_mut().enumerate() {
        ready.image.copy_from_slice(&before);
        done &= ready.run(side);
        after.clone_from(&ready.image);
    }
    if !done || after[0] != after[1] {
        println!("{}: the two sides differ", row.name);
        return false;
    }
    // A round may be taken again, so it begins with the memory as it was; what that takes is measured too, and taken off.
    let mut best = [f64::INFINITY; 3];
    for n in 0..=ROUNDS {
        for turn in 0..best.len() {
            let side = (n + turn) % best.len();
            let seconds = round(|| {
                ready.image.copy_from_slice(&before);
                if side < SIDES.len() {
                    ready.run(side);
                }
            });
            if n > 0 {
                best[side] = best[side].min(seconds);
            }
        }
    }
    let pages = ready.pages();
    let [proved, ordinary] = [best[0] - best[2], best[1] - best[2]];
    println!(
        "| {} | {pages} | {:.1} | {:.1} | {:.2} | {:.0} | {} |",
        row.name,
        proved * 1e6,
        ordinary * 1e6,
        proved / ordinary,
        proved * 1e9 / pages as f64,
        instructions(number, pages)
    );
    true
}

/// Prints instructions alone.
pub fn print_counts() -> bool {
    println!("{COUNTS}");
    for (number, row) in ROWS.iter().enumerate() {
        let pages = Ready::of(row).pages();
        println!(
            "| {} | {pages} | {} |",
            row.name,
            instructions(number, pages)
        );
    }
    true
}

/// Prints the table.
pub fn print() -> bool {
    println!("{HEAD}");
    let rows = ROWS.iter().enumerate();
    rows.fold(true, |good, (number, row)| print_row(number, row) && good)
}
