//! Guest memory in windows: what is met there, and flaws in reading it.

mod defects;
mod flawed;

pub use defects::{defects, shapes, Defect, Shape};
pub use flawed::over;

use crate::met::{Call, Kind};
use cases::place;
use reference::Window;
use std::fmt;

/// What was met in a call over windows that are no plain image.
#[derive(Clone, Copy, Debug, PartialEq, Eq, PartialOrd, Ord)]
pub enum Seen {
    /// So many windows, and they are good.
    Good(usize),
    /// Good ones of a shape.
    Shaped(Shape),
    /// Refused 1 for one thing that is wrong with windows.
    Bad(Defect, Call),
    /// Refused 1 for windows, with TE or IRE off.
    BadWhileOff(Call),
    /// Refused 1 for windows, where the address is 2's.
    BadBeforeTwo(Call),
    /// An entry fetched from a window, by its number.
    Found(Kind, usize),
    /// The last entry fetched ends with its window.
    EndsWith(Kind),
    /// An entry that begins in a window and doesn't end in it.
    Across(Kind),
    /// An entry in no window.
    Hole(Kind),
    /// A post into a window, by its number.
    Posted(usize),
    /// A take from the last descriptor below 2^64.
    TakenAtTheTop,
}

/// The kinds of entries that are looked for in windows.
const KINDS: [Kind; 6] = [
    Kind::Root,
    Kind::Context,
    Kind::Page,
    Kind::Interrupt,
    Kind::Descriptor,
    Kind::Taken,
];

/// The calls that take windows.
const CALLS: [Call; 3] = [Call::Memory, Call::Interrupt, Call::Take];

impl Seen {
    /// All that has to be met.
    pub fn all() -> Vec<Self> {
        let mut all: Vec<Seen> = (0..=4).map(Seen::Good).collect();
        all.extend(Shape::ALL.map(Seen::Shaped));
        for call in CALLS {
            all.extend(Defect::ALL.map(|defect| Seen::Bad(defect, call)));
        }
        for call in [Call::Memory, Call::Interrupt] {
            all.extend([Seen::BadWhileOff(call), Seen::BadBeforeTwo(call)]);
        }
        for kind in KINDS {
            all.extend((1..=4).map(|window| Seen::Found(kind, window)));
            all.extend([Seen::EndsWith(kind), Seen::Across(kind), Seen::Hole(kind)]);
        }
        all.extend((1..=4).map(Seen::Posted));
        all.push(Seen::TakenAtTheTop);
        all
    }

    /// Of an entry of so many bytes that was fetched, the last one or not.
    pub fn found(windows: &[Window], kind: Kind, at: u64, bytes: u64, last: bool) -> Vec<Self> {
        let Some(n) = holder(windows, at) else {
            return Vec::new();
        };
        let mut met = vec![Seen::Found(kind, n + 1)];
        let left = windows[n].length - (at - windows[n].start);
        if last && left == bytes {
            met.push(Seen::EndsWith(kind));
        }
        met
    }

    /// Of an entry that wasn't fetched.
    pub fn missing(windows: &[Window], kind: Kind, at: u64) -> Self {
        match place(windows, at) {
            Some(_) => Seen::Across(kind),
            None => Seen::Hole(kind),
        }
    }
}

/// Which window has a byte.
pub fn holder(windows: &[Window], at: u64) -> Option<usize> {
    let mut windows = windows.iter();
    windows.position(|w| at >= w.start && at - w.start < w.length)
}

impl fmt::Display for Seen {
    fn fmt(&self, f: &mut fmt::Formatter<'_>) -> fmt::Result {
        match self {
            Seen::Good(count) => write!(f, "good: {count}"),
            Seen::Shaped(shape) => write!(f, "good: {}", shape.words()),
            Seen::Bad(defect, call) => write!(f, "refused 1, {}: {call}", defect.words()),
            Seen::BadWhileOff(call) => write!(f, "refused 1, switched off: {call}"),
            Seen::BadBeforeTwo(call) => write!(f, "refused 1, address of the wrong kind: {call}"),
            Seen::Found(kind, window) => write!(f, "{kind} in window {window}"),
            Seen::EndsWith(kind) => write!(f, "{kind} ends with its window"),
            Seen::Across(kind) => write!(f, "{kind} across the end of a window"),
            Seen::Hole(kind) => write!(f, "{kind} in no window"),
            Seen::Posted(window) => write!(f, "posted into window {window}"),
            Seen::TakenAtTheTop => write!(f, "taken from the last descriptor below 2^64"),
        }
    }
}
