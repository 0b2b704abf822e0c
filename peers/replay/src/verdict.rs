//! Whether a case agrees, and if not, which deviations explain it.

use crate::answer::Answer;
use crate::case::{Ask, Case};
use crate::deviation::{Deviation, Set};
use crate::model;

/// What is to be said of a case.
#[derive(Clone, Debug, PartialEq, Eq)]
pub enum Verdict {
    /// QEMU answered what Galitzaf answers.
    Agrees,
    /// QEMU answered what document 01 with these deviations says. No smaller set of them does.
    Explained(Set),
    /// Anything else, in words.
    Unexplained(String),
}

/// The deviations that concern a kind of request.
pub fn concerning(ask: Ask) -> Set {
    match ask {
        Ask::Read | Ask::Write => Set::of(Deviation::MEMORY),
        Ask::Interrupt(_) => Set::of(Deviation::INTERRUPTS),
    }
}

/// Judges a case.
///
/// The second model has to give Galitzaf's answer without any deviation and the recorded one with
/// all of them, so that a deviation can't be called in for one case and left out of the next.
pub fn verdict(case: &Case) -> Verdict {
    match case.ours() {
        Some(ours) => judge(case, ours),
        None => Verdict::Unexplained("Galitzaf changed the image".into()),
    }
}

fn judge(case: &Case, ours: Answer) -> Verdict {
    let recorded = case.recorded;
    let rules = model::answer(case, Set::NONE);
    if rules != ours {
        return Verdict::Unexplained(format!("Galitzaf {ours}, the second model {rules}"));
    }
    let all = concerning(case.ask);
    let qemu = model::answer(case, all);
    if qemu != recorded {
        return Verdict::Unexplained(format!(
            "Galitzaf {ours}, QEMU {recorded}, all deviations together {qemu}"
        ));
    }
    if ours == recorded {
        return Verdict::Agrees;
    }
    let gives = |&set: &Set| model::answer(case, set) == recorded;
    let smallest = all.subsets().into_iter().find(gives);
    Verdict::Explained(smallest.unwrap_or(all))
}

#[cfg(test)]
mod tests {
    use super::*;
    use crate::recorded;

    /// The model isn't wider than QEMU: without any one of its deviations some recorded answer
    /// isn't had. Source FFFFh was asked only once, with an index past the table.
    #[test]
    fn every_deviation_was_seen() {
        for file in recorded::files() {
            let cases = recorded::cases(&file).unwrap();
            let all = concerning(cases[0].1.ask);
            for deviation in all.members() {
                let had = |(_, case): &(String, Case)| {
                    model::answer(case, all.without(deviation)) == case.recorded
                };
                let unseen = deviation == Deviation::SidFfff;
                assert_eq!(cases.iter().all(had), unseen, "{}", deviation.tag());
            }
        }
    }
}
