//! What can be wrong with windows, item by item, and what windows that are good can look like.

use reference::Window;

/// Something wrong.
#[derive(Clone, Copy, Debug, PartialEq, Eq, PartialOrd, Ord)]
pub enum Defect {
    /// More than four.
    TooMany,
    /// A start that is no multiple of 4096.
    Misaligned,
    /// An empty one.
    Empty,
    /// An end past the run.
    PastRun,
    /// An end past 2^64.
    PastAll,
    /// Not sorted by start.
    Unsorted,
    /// An overlap in host addresses.
    HostOverlap,
    /// An overlap in the run.
    RunOverlap,
}

impl Defect {
    /// Each of them.
    pub const ALL: [Defect; 8] = [
        Defect::TooMany,
        Defect::Misaligned,
        Defect::Empty,
        Defect::PastRun,
        Defect::PastAll,
        Defect::Unsorted,
        Defect::HostOverlap,
        Defect::RunOverlap,
    ];

    /// In words.
    pub fn words(self) -> &'static str {
        match self {
            Defect::TooMany => "more than four",
            Defect::Misaligned => "start no multiple of 4096",
            Defect::Empty => "empty",
            Defect::PastRun => "end past the run",
            Defect::PastAll => "end past 2^64",
            Defect::Unsorted => "not sorted",
            Defect::HostOverlap => "overlap in host addresses",
            Defect::RunOverlap => "overlap in the run",
        }
    }
}

/// First and end, in host addresses or in the run.
type Span = (u128, u128);

fn host(window: &Window) -> Span {
    let start = u128::from(window.start);
    (start, start + u128::from(window.length))
}

fn part(window: &Window) -> Span {
    let from = u128::from(window.from);
    (from, from + u128::from(window.length))
}

fn meet(a: Span, b: Span) -> bool {
    a.0.max(b.0) < a.1.min(b.1)
}

fn any(windows: &[Window], wrong: impl Fn(&Window) -> bool) -> bool {
    windows.iter().any(wrong)
}

/// Whether something holds of any two, the earlier first.
fn any_two(windows: &[Window], wrong: impl Fn(&Window, &Window) -> bool) -> bool {
    let pairs = windows.iter().enumerate();
    pairs
        .into_iter()
        .any(|(n, later)| any(&windows[..n], |earlier| wrong(earlier, later)))
}

/// All that is wrong with windows onto a run of so many bytes. Bytes that aren't there meet no others.
pub fn defects(windows: &[Window], run: usize) -> Vec<Defect> {
    let has = |defect: &Defect| match defect {
        Defect::TooMany => windows.len() > 4,
        Defect::Misaligned => any(windows, |w| w.start % 4096 != 0),
        Defect::Empty => any(windows, |w| w.length == 0),
        Defect::PastRun => any(windows, |w| part(w).1 > run as u128),
        Defect::PastAll => any(windows, |w| host(w).1 > 1 << 64),
        Defect::Unsorted => any_two(windows, |a, b| a.start > b.start),
        Defect::HostOverlap => any_two(windows, |a, b| meet(host(a), host(b))),
        Defect::RunOverlap => any_two(windows, |a, b| meet(part(a), part(b))),
    };
    Defect::ALL.into_iter().filter(has).collect()
}

/// A shape of good windows.
#[derive(Clone, Copy, Debug, PartialEq, Eq, PartialOrd, Ord)]
pub enum Shape {
    /// Two that touch in host addresses.
    Touching,
    /// Two that touch in the run, though not in host addresses.
    TouchingInTheRun,
    /// Parts of the run in another order than host addresses.
    Permuted,
    /// A length that is no multiple of 8.
    OddLength,
    /// A place in the run that is no multiple of 8.
    OddPlace,
    /// An end at 2^64.
    ToTheTop,
    /// A start at or above 2^HAW.
    AboveHaw,
    /// A byte of FEE00000h to FEEFFFFFh.
    OverInterrupts,
    /// Bytes of the run that no window shows.
    Hidden,
}

impl Shape {
    /// Each of them.
    pub const ALL: [Shape; 9] = [
        Shape::Touching,
        Shape::TouchingInTheRun,
        Shape::Permuted,
        Shape::OddLength,
        Shape::OddPlace,
        Shape::ToTheTop,
        Shape::AboveHaw,
        Shape::OverInterrupts,
        Shape::Hidden,
    ];

    /// In words.
    pub fn words(self) -> &'static str {
        match self {
            Shape::Touching => "touching",
            Shape::TouchingInTheRun => "touching in the run alone",
            Shape::Permuted => "in another order in the run",
            Shape::OddLength => "length no multiple of 8",
            Shape::OddPlace => "place in the run no multiple of 8",
            Shape::ToTheTop => "end at 2^64",
            Shape::AboveHaw => "start at or above 2^HAW",
            Shape::OverInterrupts => "over FEE00000h to FEEFFFFFh",
            Shape::Hidden => "bytes of the run in no window",
        }
    }
}

/// The shapes that good windows have.
pub fn shapes(windows: &[Window], run: usize, haw: u8) -> Vec<Shape> {
    let touch = |a: &Window, b: &Window| host(a).1 == host(b).0;
    let touch_in_run = |a: &Window, b: &Window| part(a).1 == part(b).0 || part(b).1 == part(a).0;
    let shown: u64 = windows.iter().map(|w| w.length).sum();
    let has = |shape: &Shape| match shape {
        Shape::Touching => any_two(windows, touch),
        Shape::TouchingInTheRun => any_two(windows, |a, b| touch_in_run(a, b) && !touch(a, b)),
        Shape::Permuted => any_two(windows, |a, b| a.from > b.from),
        Shape::OddLength => any(windows, |w| w.length % 8 != 0),
        Shape::OddPlace => any(windows, |w| w.from % 8 != 0),
        Shape::ToTheTop => any(windows, |w| host(w).1 == 1 << 64),
        Shape::AboveHaw => any(windows, |w| host(w).0 >> haw.min(64) != 0),
        Shape::OverInterrupts => any(windows, |w| meet(host(w), (0xFEE0_0000, 0xFEF0_0000))),
        Shape::Hidden => shown < run as u64,
    };
    Shape::ALL.into_iter().filter(has).collect()
}
