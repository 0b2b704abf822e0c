//! The replay's outcome, counted.

use std::collections::BTreeMap;
use std::fmt;

use crate::answer::Answer;
use crate::case::{Ask, Case};
use crate::deviation::{Deviation, Set};
use crate::verdict::{verdict, Verdict};

#[derive(Default)]
pub struct Report {
    memory: usize,
    interrupts: usize,
    agreeing: usize,
    explained: BTreeMap<Set, usize>,
    /// Interrupts to be remapped whose index doesn't fit 16 bits, and those of them that QEMU
    /// delivered.
    past_16_bits: usize,
    delivered: usize,
    unexplained: Vec<String>,
}

impl Report {
    /// Judges a case and counts it.
    pub fn add(&mut self, at: &str, case: &Case) {
        match case.ask {
            Ask::Interrupt(_) => self.interrupts += 1,
            _ => self.memory += 1,
        }
        if case.registers.ire && case.index().is_some_and(|index| index > 0xFFFF) {
            self.past_16_bits += 1;
            self.delivered += usize::from(matches!(case.recorded, Answer::Remapped(_)));
        }
        match verdict(case) {
            Verdict::Agrees => self.agreeing += 1,
            Verdict::Explained(set) => *self.explained.entry(set).or_default() += 1,
            Verdict::Unexplained(told) => self.unexplained.push(format!("{at}: {told}")),
        }
    }

    pub fn cases(&self) -> usize {
        self.memory + self.interrupts
    }

    pub fn unexplained(&self) -> usize {
        self.unexplained.len()
    }

    /// In how many cases a deviation is part of the explanation.
    fn occurred(&self, deviation: Deviation) -> usize {
        let with = self.explained.iter().filter(|(set, _)| set.has(deviation));
        with.map(|(_, count)| count).sum()
    }

    fn totals(&self, f: &mut fmt::Formatter<'_>) -> fmt::Result {
        let (cases, memory, interrupts) = (self.cases(), self.memory, self.interrupts);
        let explained: usize = self.explained.values().sum();
        let (past, delivered) = (self.past_16_bits, self.delivered);
        writeln!(
            f,
            "cases: {cases} ({memory} memory requests, {interrupts} interrupts)"
        )?;
        writeln!(f, "agreeing: {}", self.agreeing)?;
        writeln!(f, "explained by deviations of QEMU 7.2: {explained}")?;
        writeln!(
            f,
            "interrupt indexes past 65,535: {past}, of which QEMU delivered {delivered}"
        )
    }
}

impl fmt::Display for Report {
    fn fmt(&self, f: &mut fmt::Formatter<'_>) -> fmt::Result {
        self.totals(f)?;
        writeln!(f, "\ndeviation  cases  what QEMU does")?;
        for &d in Deviation::MEMORY.iter().chain(Deviation::INTERRUPTS) {
            writeln!(f, "{:<9}{:>7}  {}", d.tag(), self.occurred(d), d.what())?;
        }
        writeln!(f, "\nseveral together")?;
        for (set, count) in self.explained.iter().filter(|(set, _)| set.len() > 1) {
            writeln!(f, "{count:>16}  {set}")?;
        }
        writeln!(f)?;
        for told in &self.unexplained {
            writeln!(f, "unexplained: {told}")?;
        }
        writeln!(f, "unexplained differences: {}", self.unexplained())
    }
}
