//! Flaws put into the reference's side on purpose: a comparison that doesn't see them is worth
//! nothing.

use crate::parts::Part;
use reference::{Outcome, Slip};
use std::fmt;

/// What is wrong with the reference's side.
#[derive(Clone, Copy, Debug, PartialEq, Eq)]
pub enum Flaw {
    /// Nothing.
    None,
    /// A slip that document 01 names.
    Known(Slip),
    /// A blocked interrupt leaves a bit in the image's last byte.
    StrayBit,
    /// A post's answer names no vector.
    PostedVectorLost,
    /// A post's answer names no descriptor.
    DescriptorLost,
    /// The next slot goes on after the last.
    NextAfterLast,
    /// The next slot goes from 7 to 0, however many there are.
    WrapAtEight,
    /// A silenced fault is recorded.
    SilencedRecorded,
    /// Clearing a slot clears the whole record.
    RecordWiped,
    /// Clearing a slot clears overflow too.
    OverflowWithSlot,
    /// A refused call forgets overflow.
    RefusalForgets,
    /// A meter's count is added before its load is halved.
    AddedThenHalved,
    /// A meter trips at its limit.
    LimitTripsAtEquality,
    /// A meter trips at either end of its band.
    BandEndsOutside,
    /// A refused tick ticks the meters before the bad one.
    RefusalTicks,
    /// A take hands out the lowest request bit.
    LowestTaken,
    /// A take leaves the bit that it hands out.
    VectorKept,
    /// A take leaves ON where no request bit stands.
    OnKeptAtNone,
    /// A take clears SN too.
    SnCleared,
    /// A take answers at a 32-aligned descriptor.
    AlignedTo32,
    /// An entry is fetched where its first byte is in a window.
    AcrossTheEnd,
    /// Every window shows the run from the first one's place on.
    FirstsPlace,
    /// A post or take writes at the host address, taken for a place in the run.
    StoredByAddress,
    /// Windows that touch are refused.
    TouchingRefused,
    /// A window that ends at 2^64 is refused.
    TopRefused,
    /// More than four windows aren't refused.
    FiveAccepted,
    /// Windows that aren't sorted aren't refused.
    UnsortedAccepted,
    /// Windows that overlap in the run aren't refused.
    RunOverlapAccepted,
    /// A translation request is answered the rights of the leaf alone.
    LeafRights,
    /// A translation request without a right left is blocked with 05h.
    EmptyDenied,
    /// The record of a translation request has AT 0.
    AddressTypeLost,
    /// A held translation answers requests of the other kind too.
    HeldForAnyKind,
    /// A held translation answers requests of other sources too.
    HeldForAnySource,
    /// Where two that are held could answer, the older does.
    OldestAnswers,
    /// An invalidation by domain takes nothing out.
    DomainKept,
    /// A block's sum weighs a byte by its place.
    WeightByPlace,
    /// A block's sum isn't looked at.
    SumNotLookedAt,
    /// A block's number isn't compared with its place.
    NumberNotCompared,
    /// A replay makes no posts.
    ReplayWithoutPosts,
    /// A refused list is taken up to its bad item.
    RefusedInPart,
    /// A refused list names its first item.
    ItemNotNamed,
    /// An item over a mapped page is passed over.
    OverlapLetPass,
    /// Too few pages are told as an overlap.
    PagesToldAsOverlap,
    /// A read in scalable mode sets D.
    DirtyOnRead,
    /// A blocked request in scalable mode sets A.
    AccessedOfABlocked,
    /// A record in scalable mode has no PASID.
    PasidLost,
    /// 73h is told as 70h.
    TopAccessAsAny,
    /// FPD of a PASID directory entry is ignored.
    DirectoryFpdIgnored,
}

impl Flaw {
    /// Each of them.
    pub const ALL: [Flaw; 51] = [
        Flaw::Known(Slip::Index16),
        Flaw::Known(Slip::LastEntryRights),
        Flaw::Known(Slip::MaskLargeFrame),
        Flaw::Known(Slip::FpdIgnoredWhenAbsent),
        Flaw::Known(Slip::OnDespiteSn),
        Flaw::StrayBit,
        Flaw::PostedVectorLost,
        Flaw::DescriptorLost,
        Flaw::NextAfterLast,
        Flaw::WrapAtEight,
        Flaw::SilencedRecorded,
        Flaw::RecordWiped,
        Flaw::OverflowWithSlot,
        Flaw::RefusalForgets,
        Flaw::AddedThenHalved,
        Flaw::LimitTripsAtEquality,
        Flaw::BandEndsOutside,
        Flaw::RefusalTicks,
        Flaw::LowestTaken,
        Flaw::VectorKept,
        Flaw::OnKeptAtNone,
        Flaw::SnCleared,
        Flaw::AlignedTo32,
        Flaw::AcrossTheEnd,
        Flaw::FirstsPlace,
        Flaw::StoredByAddress,
        Flaw::TouchingRefused,
        Flaw::TopRefused,
        Flaw::FiveAccepted,
        Flaw::UnsortedAccepted,
        Flaw::RunOverlapAccepted,
        Flaw::LeafRights,
        Flaw::EmptyDenied,
        Flaw::AddressTypeLost,
        Flaw::HeldForAnyKind,
        Flaw::HeldForAnySource,
        Flaw::OldestAnswers,
        Flaw::DomainKept,
        Flaw::WeightByPlace,
        Flaw::SumNotLookedAt,
        Flaw::NumberNotCompared,
        Flaw::ReplayWithoutPosts,
        Flaw::RefusedInPart,
        Flaw::ItemNotNamed,
        Flaw::OverlapLetPass,
        Flaw::PagesToldAsOverlap,
        Flaw::DirtyOnRead,
        Flaw::AccessedOfABlocked,
        Flaw::PasidLost,
        Flaw::TopAccessAsAny,
        Flaw::DirectoryFpdIgnored,
    ];

    /// Whether it can make a difference in a part.
    pub fn may_show_in(self, part: &Part) -> bool {
        match (self, part) {
            (_, Part::Malformed) => false,
            (Flaw::None, _) => true,
            (
                Flaw::Known(_) | Flaw::StrayBit | Flaw::PostedVectorLost | Flaw::DescriptorLost,
                part,
            ) => matches!(part, Part::Worlds(_)),
            (
                Flaw::AddedThenHalved
                | Flaw::LimitTripsAtEquality
                | Flaw::BandEndsOutside
                | Flaw::RefusalTicks,
                part,
            ) => matches!(part, Part::Meters),
            (
                Flaw::LowestTaken
                | Flaw::VectorKept
                | Flaw::OnKeptAtNone
                | Flaw::SnCleared
                | Flaw::AlignedTo32,
                part,
            ) => matches!(part, Part::Takes),
            (
                Flaw::AcrossTheEnd
                | Flaw::FirstsPlace
                | Flaw::StoredByAddress
                | Flaw::TouchingRefused
                | Flaw::TopRefused
                | Flaw::FiveAccepted
                | Flaw::UnsortedAccepted
                | Flaw::RunOverlapAccepted,
                part,
            ) => matches!(part, Part::Worlds(suite) if suite.name == "windows"),
            (Flaw::LeafRights | Flaw::EmptyDenied | Flaw::AddressTypeLost, part) => {
                matches!(part, Part::Translations)
            }
            (
                Flaw::HeldForAnyKind
                | Flaw::HeldForAnySource
                | Flaw::OldestAnswers
                | Flaw::DomainKept,
                part,
            ) => matches!(part, Part::Caches),
            (
                Flaw::WeightByPlace
                | Flaw::SumNotLookedAt
                | Flaw::NumberNotCompared
                | Flaw::ReplayWithoutPosts,
                part,
            ) => matches!(part, Part::Traces),
            (
                Flaw::RefusedInPart
                | Flaw::ItemNotNamed
                | Flaw::OverlapLetPass
                | Flaw::PagesToldAsOverlap,
                part,
            ) => matches!(part, Part::Builders),
            (
                Flaw::DirtyOnRead
                | Flaw::AccessedOfABlocked
                | Flaw::PasidLost
                | Flaw::TopAccessAsAny
                | Flaw::DirectoryFpdIgnored,
                part,
            ) => matches!(part, Part::Scalable),
            (_, part) => matches!(part, Part::Recorder),
        }
    }

    /// What becomes of a post's answer.
    pub fn post(self, outcome: &mut Outcome) {
        if let Outcome::Posted {
            vector, descriptor, ..
        } = outcome
        {
            match self {
                Flaw::PostedVectorLost => *vector = 0,
                Flaw::DescriptorLost => *descriptor = 0,
                _ => {}
            }
        }
    }

    /// The slip among them, as the reference knows it.
    pub fn slip(self) -> Slip {
        match self {
            Flaw::Known(slip) => slip,
            _ => Slip::None,
        }
    }
}

impl fmt::Display for Flaw {
    fn fmt(&self, f: &mut fmt::Formatter<'_>) -> fmt::Result {
        match self {
            Flaw::None => f.write_str("no flaw"),
            Flaw::Known(slip) => write!(f, "{slip:?}"),
            other => write!(f, "{other:?}"),
        }
    }
}
