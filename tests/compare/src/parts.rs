//! The parts of a run: the suites of worlds, the recorder's sequences, runs of posts and takes, the
//! malformed calls, the rows of meters, the translation requests, the runs through a cache, the traces, the
//! lists of pages to map, the requests in scalable mode.

use crate::builders;
use crate::caches;
use crate::flaw::Flaw;
use crate::judge::Judge;
use crate::malformed;
use crate::meters::{self, Row};
use crate::pool::Pool;
use crate::print::print_world;
use crate::recorder::{self, Sequence};
use crate::scalable;
use crate::takes::{self, Run};
use crate::tally::Tally;
use crate::traces;
use crate::translations;
use cases::{Suite, World, SUITES};

/// A part, whose cases have numbers.
#[derive(Clone, Copy)]
pub enum Part {
    /// Requests.
    Worlds(&'static Suite),
    /// Recorder calls.
    Recorder,
    /// Posts and takes.
    Takes,
    /// Malformed calls.
    Malformed,
    /// Calls on meters.
    Meters,
    /// Translation requests.
    Translations,
    /// Requests through a cache.
    Caches,
    /// Traces.
    Traces,
    /// Lists of pages to map and unmap.
    Builders,
    /// Requests in scalable mode.
    Scalable,
}

impl Part {
    /// Each of them.
    pub fn all() -> impl Iterator<Item = Part> {
        let others = [
            Part::Recorder,
            Part::Takes,
            Part::Malformed,
            Part::Meters,
            Part::Translations,
            Part::Caches,
            Part::Traces,
            Part::Builders,
            Part::Scalable,
        ];
        SUITES.iter().map(Part::Worlds).chain(others)
    }

    /// Its name.
    pub fn name(self) -> &'static str {
        match self {
            Part::Worlds(suite) => suite.name,
            Part::Recorder => recorder::NAME,
            Part::Takes => takes::NAME,
            Part::Malformed => malformed::NAME,
            Part::Meters => meters::NAME,
            Part::Translations => translations::NAME,
            Part::Caches => caches::NAME,
            Part::Traces => traces::NAME,
            Part::Builders => builders::NAME,
            Part::Scalable => scalable::NAME,
        }
    }

    /// How many cases it has.
    pub fn cases(self) -> u64 {
        match self {
            Part::Worlds(suite) => suite.worlds,
            Part::Recorder => recorder::SEQUENCES,
            Part::Takes => takes::RUNS,
            Part::Malformed => malformed::CALLS,
            Part::Meters => meters::ROWS,
            Part::Translations => translations::worlds(),
            Part::Caches => caches::RUNS,
            Part::Traces => traces::traces(),
            Part::Builders => builders::RUNS,
            Part::Scalable => scalable::CASES,
        }
    }
}

/// Runs cases of any part.
pub struct Runner {
    flaw: Flaw,
    judge: Judge,
    world: World,
    pool: Pool,
}

impl Runner {
    /// One whose reference has a flaw, or none.
    pub fn new(flaw: Flaw) -> Self {
        Self {
            flaw,
            judge: Judge::new(flaw),
            world: World::new(),
            pool: Pool::new(),
        }
    }

    /// Runs a case; the error says where the two sides differ.
    pub fn run(
        &mut self,
        part: Part,
        number: u64,
        tally: Option<&mut Tally>,
    ) -> Result<(), String> {
        match part {
            Part::Worlds(suite) => {
                (suite.build)(number, &mut self.world);
                self.judge.world(&self.world, tally)
            }
            Part::Recorder => Sequence::build(number, &self.pool).run(self.flaw, tally),
            Part::Takes => Run::build(number).run(self.flaw, tally),
            Part::Malformed => malformed::run(number, tally),
            Part::Meters => Row::build(number).run(self.flaw, tally),
            Part::Translations => {
                translations::build(number, &mut self.world);
                translations::run(&self.world, self.flaw, tally)
            }
            Part::Caches => caches::Run::build(number).run(self.flaw, tally),
            Part::Traces => {
                traces::build(number, &mut self.world);
                traces::run(number, &mut self.world, self.flaw, tally)
            }
            Part::Builders => builders::Run::build(number).run(self.flaw, tally),
            Part::Scalable => scalable::run(number, self.flaw, tally),
        }
    }

    /// Prints a case.
    pub fn print(&mut self, part: Part, number: u64) {
        match part {
            Part::Worlds(suite) => {
                (suite.build)(number, &mut self.world);
                print_world(&self.world);
            }
            Part::Recorder => Sequence::build(number, &self.pool).print(),
            Part::Takes => Run::build(number).print(),
            Part::Malformed => {}
            Part::Meters => Row::build(number).print(),
            Part::Translations => translations::print(number, &mut self.world),
            Part::Caches => caches::Run::build(number).print(),
            Part::Traces => traces::print(number, &mut self.world),
            Part::Builders => builders::Run::build(number).print(),
            Part::Scalable => scalable::print(number),
        }
    }
}
