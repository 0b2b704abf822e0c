//! The reference over windows as a flawed reader has them.

use super::defects::{defects, shapes, Defect, Shape};
use crate::flaw::Flaw;
use cases::PAGE;
use reference::Window;

/// Calls the reference, which gives `refused` for refusal 1, over windows with a flaw or without.
pub fn over<T>(
    flaw: Flaw,
    windows: &[Window],
    run: &mut Vec<u8>,
    refused: T,
    call: impl FnOnce(&[Window], &mut Vec<u8>) -> T,
) -> T {
    let has = |shape| shapes(windows, run.len(), 63).contains(&shape);
    let only = |defect| defects(windows, run.len()) == [defect];
    let good = || defects(windows, run.len()).is_empty();
    // Where bad windows aren't refused, none of them is looked at.
    match flaw {
        Flaw::TouchingRefused if good() && has(Shape::Touching) => refused,
        Flaw::TopRefused if good() && has(Shape::ToTheTop) => refused,
        Flaw::FiveAccepted if only(Defect::TooMany) => call(&[], run),
        Flaw::UnsortedAccepted if only(Defect::Unsorted) => call(&[], run),
        Flaw::RunOverlapAccepted if only(Defect::RunOverlap) => call(&[], run),
        Flaw::AcrossTheEnd if good() => across_the_end(windows, run, call),
        Flaw::FirstsPlace if good() => firsts_place(windows, run, call),
        Flaw::StoredByAddress if good() => stored_by_address(windows, run, call),
        _ => call(windows, run),
    }
}

/// Calls over a copy of memory, in which each window shows so many bytes of the run from a place on; what
/// is written there is written back.
fn over_copy<T>(
    shown: &[Window],
    run: &mut [u8],
    call: impl FnOnce(&[Window], &mut Vec<u8>) -> T,
) -> T {
    let mut copy = Vec::new();
    let mut windows = Vec::new();
    for window in shown {
        let from = copy.len();
        let part = run.get(window.from as usize..).unwrap_or(&[]);
        copy.extend_from_slice(&part[..part.len().min(window.length as usize)]);
        copy.resize(from + window.length as usize, 0);
        let from = from as u64;
        windows.push(Window { from, ..*window });
    }
    let before = copy.clone();
    let answer = call(&windows, &mut copy);
    if copy == before {
        return answer;
    }
    for at in (0..copy.len()).filter(|&n| copy[n] != before[n]) {
        let mut both = windows.iter().zip(shown).rev();
        let found = both.find(|(window, _)| window.from <= at as u64);
        let to = found.map(|(window, to)| to.from + (at as u64 - window.from));
        let to = to.and_then(|to| run.get_mut(to as usize));
        to.into_iter().for_each(|to| *to = copy[at]);
    }
    answer
}

/// An entry is fetched where its first byte is in a window, the rest as the run goes on.
fn across_the_end<T>(
    windows: &[Window],
    run: &mut [u8],
    call: impl FnOnce(&[Window], &mut Vec<u8>) -> T,
) -> T {
    let longer = windows.iter().map(|window| Window {
        length: window.length.next_multiple_of(PAGE),
        ..*window
    });
    over_copy(&longer.collect::<Vec<_>>(), run, call)
}

/// Every window shows the run from the first one's place on.
fn firsts_place<T>(
    windows: &[Window],
    run: &mut [u8],
    call: impl FnOnce(&[Window], &mut Vec<u8>) -> T,
) -> T {
    let from = windows.first().map_or(0, |window| window.from);
    let alike = windows.iter().map(|window| Window { from, ..*window });
    over_copy(&alike.collect::<Vec<_>>(), run, call)
}

/// What is written goes to the host address, taken for a place in the run.
fn stored_by_address<T>(
    windows: &[Window],
    run: &mut Vec<u8>,
    call: impl FnOnce(&[Window], &mut Vec<u8>) -> T,
) -> T {
    let before = run.clone();
    let answer = call(windows, run);
    let after = std::mem::replace(run, before);
    let changed: Vec<usize> = (0..after.len()).filter(|&n| after[n] != run[n]).collect();
    for at in changed {
        let mut shown = windows.iter();
        let window = shown.find(|w| (w.from..w.from + w.length).contains(&(at as u64)));
        let host = window.map(|w| w.start + (at as u64 - w.from));
        let to = host.and_then(|host| run.get_mut(usize::try_from(host).ok()?));
        to.into_iter().for_each(|to| *to = after[at]);
    }
    answer
}
