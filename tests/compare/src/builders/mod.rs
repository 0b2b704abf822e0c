//! Lists of pages to map and unmap: status, item and run compared after each, several lists one after the other over the tables
//! that those before them left. After each success what the reference lists as mapped is also compared with what the lists say.

mod items;
mod laid;
mod seen;
mod spoil;

pub use seen::Seen;

use crate::bytes;
use crate::flaw::Flaw;
use crate::lent::Lent;
use crate::met::Met;
use crate::print::hex;
use crate::tally::Tally;
use cases::Random;
use interface::Building;
use items::{numbers, take, Around, Mapped, KIB_4, MIB_2};
use laid::Laid;
use reference::{build, listing, Build, Item, Region};
use seen::Size;
use spoil::Spoil;
use std::collections::BTreeSet;

/// The suite's name.
pub const NAME: &str = "builders";

/// Runs. Every second one has something wrong on purpose.
pub const RUNS: u64 = 2 * 150 * Spoil::ALL.len() as u64;

/// What the index of an item is before a call.
const BEFORE: u64 = 0x5A5A;

/// Registers, memory and a region; lists are made as the run goes.
pub struct Run {
    number: u64,
    laid: Laid,
    spoil: Option<Spoil>,
}

impl Run {
    /// The run of a number.
    pub fn build(number: u64) -> Self {
        let mut random = Random::of(NAME, number);
        let spoiled = number % 2 == 1;
        let spoil = Spoil::ALL[(number / 2) as usize % Spoil::ALL.len()].0;
        let spoil = spoiled.then_some(spoil);
        Self {
            number,
            laid: Laid::of(&mut random, spoil),
            spoil,
        }
    }

    /// Runs it on both sides.
    pub fn run(&self, flaw: Flaw, mut tally: Option<&mut Tally>) -> Result<(), String> {
        let mut random = Random::of("builders' items", self.number);
        let mut run = Sides::of(self);
        let lists = if self.spoil.is_some() {
            1
        } else {
            1 + random.below(4)
        };
        for _ in 0..lists {
            let (items, words) = self.list(&mut random, &run.mapped);
            let answer = run.step(self, flaw, &items, &words).map_err(|why| {
                let lines: Vec<String> = items.iter().map(|item| format!("{item:X?}")).collect();
                format!("{}\n{why}", lines.join("\n"))
            })?;
            if let Some(tally) = tally.as_deref_mut() {
                tally.cases += 1;
                run.meet(self, &items, answer, tally);
            }
            if answer == Build::Done {
                items.iter().for_each(|item| take(&mut run.mapped, item));
                run.listed(self)?;
            }
        }
        Ok(())
    }

    /// A list of items, also as numbers.
    fn list(&self, random: &mut Random, mapped: &Mapped) -> (Vec<Item>, Vec<u64>) {
        let around = Around {
            registers: &self.laid.registers,
            x: self.laid.x,
        };
        let mut likely = mapped.clone();
        let mut items = Vec::new();
        for _ in 0..random.below(13) {
            let item = around.item(random, &likely);
            take(&mut likely, &item);
            items.push(item);
        }
        // Now and then all of it is unmapped.
        if random.one_in(8) {
            items = mapped.iter().map(unmap).collect();
        }
        let words = items.iter().flat_map(|item| numbers(random, item));
        let words = words.collect();
        (items, words)
    }

    /// Buffers that don't fit are told behind the region, and the reference has none.
    fn misfits(&self, status: u32) -> bool {
        self.spoil == Some(Spoil::Buffers) && (status == 0 || status > 0xA3)
    }

    /// Prints it.
    pub fn print(&self) {
        let laid = &self.laid;
        println!("{:X?}", laid.registers);
        println!("{:X?}", laid.windows);
        println!("source {:04X}, {:X?}", laid.source, laid.region);
        if let Some(spoil) = self.spoil {
            println!("{spoil}");
        }
        println!("{}", hex(&laid.run));
    }
}

fn unmap((&place, &(size, ..)): (&u64, &(u64, u64, u64))) -> Item {
    Item::Unmap { place, size }
}

/// Both sides' memory, and what is mapped.
struct Sides {
    packed: [u8; interface::REGISTERS_SIZE],
    windows: Vec<u64>,
    theirs: Vec<u8>,
    ours: Lent,
    mapped: Mapped,
}

impl Sides {
    fn of(run: &Run) -> Self {
        let laid = &run.laid;
        let mut ours = Lent::default();
        ours.take(&laid.run, run.number as usize % 8);
        let windows = laid.windows.iter();
        Self {
            packed: bytes::registers(&laid.registers),
            windows: windows.flat_map(|w| [w.start, w.from, w.length]).collect(),
            theirs: laid.run.clone(),
            ours,
            mapped: laid.mapped.clone(),
        }
    }

    /// A list, on both sides.
    fn step(
        &mut self,
        run: &Run,
        flaw: Flaw,
        items: &[Item],
        words: &[u64],
    ) -> Result<Build, String> {
        let laid = &run.laid;
        let before = self.theirs.clone();
        let answer = flaw.build(laid, &mut self.theirs, items);
        let (mut status, mut index) = told(answer);
        if run.misfits(status) {
            (status, index) = (0xA5, BEFORE);
            self.theirs = before;
        }
        let (mut copy, mut marks) = (Lent::default(), Lent::default());
        copy.take(&vec![0xC3; laid.copy], 3);
        marks.take(&vec![0x3C; laid.marks], 1);
        let mut item = [BEFORE];
        let said = interface::build(
            &self.packed,
            &self.windows,
            laid.source,
            [laid.region.start, laid.region.length],
            words,
            Building {
                image: self.ours.content_mut(),
                copy: copy.content_mut(),
                marks: marks.content_mut(),
                item: &mut item,
            },
        );
        let kept = self.ours.kept() && copy.kept() && marks.kept();
        if said != status || item != [index] || self.ours.content() != self.theirs || !kept {
            return Err(format!(
                "{said:X}h at {:X}, expected {status:X}h at {index:X}; memory {}",
                item[0],
                if self.ours.content() == self.theirs {
                    "the same"
                } else {
                    "differs"
                }
            ));
        }
        Ok(answer)
    }

    /// What the reference lists is what the lists left.
    fn listed(&self, run: &Run) -> Result<(), String> {
        let Laid {
            registers,
            windows,
            source,
            ..
        } = &run.laid;
        // A leaf with a reserved bit is a fault of the listing.
        if run.spoil.is_some() {
            return Ok(());
        }
        let mut wanted = vec![format!("source {source:04X}")];
        for (place, (size, frame, rights)) in &self.mapped {
            let rights = ["--", "R-", "-W", "RW"][*rights as usize];
            wanted.push(format!("{place:X} {size:X} {frame:X} {rights}"));
        }
        let found = listing(registers, windows, &self.theirs, *source);
        if found == wanted {
            return Ok(());
        }
        Err(format!("mapped: {found:?}, by the lists: {wanted:?}"))
    }

    fn meet(&self, run: &Run, items: &[Item], answer: Build, tally: &mut Tally) {
        let mut meet = |seen| tally.meet(Met::Builders(seen));
        let (status, _) = told(answer);
        if let Some(spoil) = run.spoil {
            let status = match status {
                _ if run.misfits(status) => 0xA5,
                0xB1.. => 0,
                _ => status,
            };
            return meet(Seen::Spoiled { spoil, status });
        }
        match answer {
            Build::Item { index, reason } => {
                let (map, size) = match items[index] {
                    Item::Map { size, .. } => (true, size),
                    Item::Unmap { size, .. } => (false, size),
                };
                let size = match size {
                    KIB_4 => Size::Small,
                    MIB_2 => Size::Large,
                    _ => Size::Other,
                };
                meet(Seen::Item { map, size, reason });
                if index > 0 {
                    meet(Seen::BehindGood);
                }
            }
            _ => {
                let levels = run.laid.levels;
                meet(Seen::Done { levels });
                let mut mapped = self.mapped.clone();
                let mut counts = vec![tables(&mapped, levels)];
                for item in items {
                    take(&mut mapped, item);
                    counts.push(tables(&mapped, levels));
                }
                let fewer = counts.windows(2).position(|two| two[1] < two[0]);
                if fewer.is_some_and(|n| counts[n..].windows(2).any(|two| two[1] > two[0])) {
                    meet(Seen::UsedAgain);
                }
                let pages = (run.laid.region.length / KIB_4) as usize;
                if counts.last() == Some(&(pages - 1)) {
                    meet(Seen::Full);
                }
                if mapped.is_empty() && !self.mapped.is_empty() {
                    meet(Seen::NothingLeft);
                }
            }
        }
    }
}

/// How many tables below the top one these pages need.
fn tables(mapped: &Mapped, levels: u64) -> usize {
    let mut spans = BTreeSet::new();
    for (place, &(size, ..)) in mapped {
        let lowest = if size == MIB_2 { 2 } else { 1 };
        spans.extend((lowest..levels).map(|level| (level, place >> (12 + 9 * level))));
    }
    spans.len()
}

/// The header's status and index.
fn told(answer: Build) -> (u32, u64) {
    match answer {
        Build::Done => (0, BEFORE),
        Build::Refused(number) => (u32::from(number), BEFORE),
        Build::NotReady(reason) => (0xA0 + u32::from(reason), BEFORE),
        Build::Item { index, reason } => (0xB0 + u32::from(reason), index as u64),
    }
}

impl Flaw {
    /// The reference's builder, with the flaw.
    fn build(self, laid: &Laid, run: &mut [u8], items: &[Item]) -> Build {
        let region: Region = laid.region;
        let ask = |run: &mut [u8], items: &[Item]| {
            build(
                &laid.registers,
                &laid.windows,
                run,
                laid.source,
                region,
                items,
            )
        };
        let answer = ask(run, items);
        let Build::Item { index, reason } = answer else {
            return answer;
        };
        match (self, reason) {
            (Flaw::ItemNotNamed, _) => Build::Item { index: 0, reason },
            (Flaw::PagesToldAsOverlap, 7) => Build::Item { index, reason: 6 },
            (Flaw::RefusedInPart, _) => {
                ask(run, &items[..index]);
                answer
            }
            (Flaw::OverlapLetPass, 6) => {
                let others = items.iter().enumerate().filter(|(n, _)| *n != index);
                let others: Vec<Item> = others.map(|(_, item)| *item).collect();
                ask(run, &others)
            }
            _ => answer,
        }
    }
}
