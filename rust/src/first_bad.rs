//! Which register or window a refusal is for.

use core::fmt;

use crate::declared as header;

/// The first register or window for which [`Refusal::BadRegisters`](crate::Refusal::BadRegisters) is answered, in this order;
/// [`Unit::first_bad`](crate::Unit::first_bad) names it.
///
/// ```
/// use galitzaf::FirstBad;
///
/// assert_eq!(FirstBad::RootTable.to_string(), "root table");
/// assert_eq!(FirstBad::Window(2).to_string(), "window 2");
/// ```
#[derive(Clone, Copy, Debug, PartialEq, Eq, Hash)]
#[non_exhaustive]
pub enum FirstBad {
    /// HAW isn't 36 to 52.
    Haw,
    /// MGAW isn't 39 to 57.
    Mgaw,
    /// No number of page table levels is supported.
    Levels,
    /// The root table isn't at a multiple of 4096 below 2^HAW.
    RootTable,
    /// The interrupt remapping table isn't at a multiple of 4096 below 2^HAW.
    InterruptTable,
    /// S isn't 0 to 15.
    S,
    /// The window at this place, from 0: by itself, beside one before it, or as the fifth.
    Window(u8),
    /// A number that this version doesn't name, from an archive that doesn't keep to the header this
    /// crate was written for.
    Other(u32),
}

impl FirstBad {
    pub(crate) fn decode(status: u32) -> Option<Self> {
        let place = status
            .checked_sub(header::FIRST_BAD_WINDOW)
            .filter(|place| *place <= 4);
        Some(match (status, place.map(u8::try_from)) {
            (header::NONE_BAD, _) => return None,
            (header::FIRST_BAD_HAW, _) => Self::Haw,
            (header::FIRST_BAD_MGAW, _) => Self::Mgaw,
            (header::FIRST_BAD_LEVELS, _) => Self::Levels,
            (header::FIRST_BAD_ROOT_TABLE, _) => Self::RootTable,
            (header::FIRST_BAD_INTERRUPT_TABLE, _) => Self::InterruptTable,
            (header::FIRST_BAD_S, _) => Self::S,
            (_, Some(Ok(place))) => Self::Window(place),
            (other, _) => Self::Other(other),
        })
    }
}

impl fmt::Display for FirstBad {
    fn fmt(&self, f: &mut fmt::Formatter<'_>) -> fmt::Result {
        match self {
            Self::Haw => f.write_str("HAW"),
            Self::Mgaw => f.write_str("MGAW"),
            Self::Levels => f.write_str("levels"),
            Self::RootTable => f.write_str("root table"),
            Self::InterruptTable => f.write_str("interrupt table"),
            Self::S => f.write_str("S"),
            Self::Window(place) => write!(f, "window {place}"),
            Self::Other(number) => write!(f, "{number:X}h"),
        }
    }
}

#[cfg(test)]
mod tests {
    use super::*;

    #[test]
    fn every_number_is_told() {
        let named = [
            FirstBad::Haw,
            FirstBad::Mgaw,
            FirstBad::Levels,
            FirstBad::RootTable,
            FirstBad::InterruptTable,
            FirstBad::S,
            FirstBad::Other(0x77),
            FirstBad::Window(0),
            FirstBad::Window(1),
            FirstBad::Window(2),
            FirstBad::Window(3),
            FirstBad::Window(4),
            FirstBad::Other(0x7D),
        ];
        assert_eq!(FirstBad::decode(0x70), None);
        for (status, bad) in (0x71..).zip(named) {
            assert_eq!(FirstBad::decode(status), Some(bad));
        }
        assert_eq!(FirstBad::decode(0x101), Some(FirstBad::Other(0x101)));
    }
}
