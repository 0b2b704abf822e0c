//! What the builder answered, told apart by how it came about.

use super::spoil::Spoil;
use std::fmt;

/// The size of an item's page.
#[derive(Clone, Copy, Debug, PartialEq, Eq, PartialOrd, Ord)]
pub enum Size {
    /// 4 KiB.
    Small,
    /// 2 MiB.
    Large,
    /// Another.
    Other,
}

/// One call, or something that it had in it.
#[derive(Clone, Copy, Debug, PartialEq, Eq, PartialOrd, Ord)]
pub enum Seen {
    /// Something on purpose, with the status that came of it, 0 where items were taken.
    Spoiled { spoil: Spoil, status: u32 },
    /// Done, with so many levels.
    Done { levels: u64 },
    /// Done, and in one list a table was emptied and its page used again.
    UsedAgain,
    /// Done, and no page of the region is free any more.
    Full,
    /// Done, and nothing is mapped any more.
    NothingLeft,
    /// Refused at an item.
    Item { map: bool, size: Size, reason: u8 },
    /// Refused at an item that stands behind good ones.
    BehindGood,
}

impl Seen {
    /// All that has to be met.
    pub fn all() -> Vec<Self> {
        let spoiled = Spoil::ALL.map(|(spoil, status)| Seen::Spoiled { spoil, status });
        let mut all = spoiled.to_vec();
        all.extend((3..=5).map(|levels| Seen::Done { levels }));
        all.extend([
            Seen::UsedAgain,
            Seen::Full,
            Seen::NothingLeft,
            Seen::BehindGood,
        ]);
        for (map, reasons) in [(true, [2, 3, 4, 5, 6, 7].as_slice()), (false, &[2, 3, 8])] {
            let bad = [Size::Large, Size::Other];
            let reason = 1;
            all.extend(bad.map(|size| Seen::Item { map, size, reason }));
            for &reason in reasons {
                let good = [Size::Small, Size::Large];
                all.extend(good.map(|size| Seen::Item { map, size, reason }));
            }
        }
        all
    }
}

impl fmt::Display for Seen {
    fn fmt(&self, f: &mut fmt::Formatter<'_>) -> fmt::Result {
        match *self {
            Seen::Spoiled { spoil, status: 0 } => write!(f, "{spoil}: items taken"),
            Seen::Spoiled { spoil, status: 1 } => write!(f, "{spoil}: refused 1"),
            Seen::Spoiled { spoil, status } => {
                let reason = match status {
                    0xA1 => "TE",
                    0xA2 => "context",
                    0xA3 => "region",
                    0xA4 => "tables",
                    0xA5 => "buffers",
                    _ => "something else",
                };
                write!(f, "{spoil}: not ready, {reason}")
            }
            Seen::Done { levels } => write!(f, "done, {levels} levels"),
            Seen::UsedAgain => write!(f, "done, a freed page used again in one list"),
            Seen::Full => write!(f, "done, no page left"),
            Seen::NothingLeft => write!(f, "done, nothing mapped any more"),
            Seen::BehindGood => write!(f, "refused at an item behind good ones"),
            Seen::Item { map, size, reason } => {
                let what = if map { "map" } else { "unmap" };
                let size = match size {
                    Size::Small => "4 KiB",
                    Size::Large => "2 MiB",
                    Size::Other => "another size",
                };
                let reason = match reason {
                    1 => "size",
                    2 => "alignment",
                    3 => "place",
                    4 => "no rights",
                    5 => "frame",
                    6 => "overlap",
                    7 => "too few pages",
                    8 => "not mapped",
                    _ => "something else",
                };
                write!(f, "{what} of {size} refused: {reason}")
            }
        }
    }
}
