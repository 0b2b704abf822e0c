//! "Slips of the hand we know": each can be put in on purpose, so that a
//! comparison with this crate can itself be tested.
//!
//! Each function below stands for one place in the reading. With
//! [`Slip::None`] it gives what the paper says.

/// A known slip, or none.
#[derive(Clone, Copy, Debug, PartialEq, Eq)]
pub enum Slip {
    /// The paper as written.
    None,
    /// The index held in 16 bits.
    Index16,
    /// Rights read from the last entry alone. (An entry above it with bits 1:0
    /// both clear still faults.)
    LastEntryRights,
    /// A large page's low frame bits masked away instead of faulted.
    MaskLargeFrame,
    /// FPD ignored when the present bit is clear.
    FpdIgnoredWhenAbsent,
    /// ON set on a post while SN holds the notice back.
    OnDespiteSn,
}

/// The index as it is held.
pub(crate) fn index(slip: Slip, index: u128) -> u128 {
    if slip == Slip::Index16 {
        return index % 65_536;
    }
    index
}

/// Whether the request's own right is asked of this entry.
pub(crate) fn right_asked(slip: Slip, leaf: bool) -> bool {
    if slip == Slip::LastEntryRights {
        return leaf;
    }
    true
}

/// Whether a large page's low frame bits are faulted when set.
pub(crate) fn large_frame_faulted(slip: Slip) -> bool {
    slip != Slip::MaskLargeFrame
}

/// A leaf's frame, where the address's low `low` bits will be added.
pub(crate) fn leaf_frame(slip: Slip, frame: u128, low: usize) -> u128 {
    if slip == Slip::MaskLargeFrame {
        return (frame >> low) << low;
    }
    frame
}

/// FPD as read from an entry.
pub(crate) fn fpd(slip: Slip, fpd: bool, present: bool) -> bool {
    if slip == Slip::FpdIgnoredWhenAbsent && !present {
        return false;
    }
    fpd
}

/// Whether a post sets ON, which it does exactly where a notice is due.
pub(crate) fn on_set(slip: Slip, on: bool, due: bool) -> bool {
    if slip == Slip::OnDespiteSn {
        return !on;
    }
    due
}
