//! The runs.

use crate::flaw::Flaw;
use crate::parts::{Part, Runner};
use crate::tally::Tally;

/// Differences after which a run gives up.
const TOO_MANY: usize = 10;

/// Of each part, a run with a flaw takes one case in so many.
const TAKEN: usize = 16;

/// Cases in which a flaw has to be noticed.
const NOTICED: usize = 10;

/// Goes through parts, without a flaw, and counts differences, up to too many.
fn compared(parts: impl Iterator<Item = Part>, tally: &mut Tally) -> usize {
    let mut runner = Runner::new(Flaw::None);
    let mut differences = 0;
    for part in parts {
        for number in 0..part.cases() {
            let Err(difference) = runner.run(part, number, Some(tally)) else {
                continue;
            };
            let name = part.name();
            println!("difference in {name} {number}; again: compare --case {name} {number}");
            runner.print(part, number);
            println!("{difference}");
            differences += 1;
            if differences == TOO_MANY {
                return differences;
            }
        }
    }
    differences
}

fn print_sums(tally: &Tally, differences: usize) {
    println!("{:>9}  calls compared", tally.cases);
    println!("{differences:>9}  differences");
}

/// Everything: each outcome has to come often enough, too.
pub fn whole() -> bool {
    let mut tally = Tally::default();
    let differences = compared(Part::all(), &mut tally);
    tally.print();
    let complaints = tally.complaints();
    for complaint in &complaints {
        println!("{complaint}");
    }
    print_sums(&tally, differences);
    differences == 0 && complaints.is_empty()
}

/// One part by itself.
pub fn part(name: &str) -> bool {
    let mut tally = Tally::default();
    let parts = Part::all().filter(|part| part.name() == name);
    let differences = compared(parts, &mut tally);
    tally.print_met();
    print_sums(&tally, differences);
    differences == 0 && tally.cases > 0
}

/// How many cases show a flaw.
fn noticed(flaw: Flaw) -> usize {
    let mut runner = Runner::new(flaw);
    let parts = Part::all().filter(|part| flaw.may_show_in(part));
    parts
        .flat_map(|part| {
            let taken = (0..part.cases()).step_by(TAKEN);
            taken.map(move |number| (part, number))
        })
        .filter(|&(part, number)| runner.run(part, number, None).is_err())
        .count()
}

/// Each flaw has to be noticed, and without one nothing.
pub fn flaws() -> bool {
    let mut good = true;
    for flaw in [Flaw::None].into_iter().chain(Flaw::ALL) {
        let count = noticed(flaw);
        println!("{count:>9}  {flaw}");
        good &= match flaw {
            Flaw::None => count == 0,
            _ => count >= NOTICED,
        };
    }
    good
}

/// One case by itself.
pub fn case(part: &str, number: &str) -> bool {
    let part = Part::all().find(|known| known.name() == part);
    let (Some(part), Ok(number)) = (part, number.parse()) else {
        println!("there is no such case");
        return false;
    };
    let mut runner = Runner::new(Flaw::None);
    runner.print(part, number);
    let result = runner.run(part, number, None);
    match &result {
        Ok(()) => println!("no difference"),
        Err(difference) => println!("{difference}"),
    }
    result.is_ok()
}
