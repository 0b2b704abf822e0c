//! What is wrong with registers, memory or region before any item, or only looks so.

use std::fmt;

/// Something that a case has on purpose.
#[derive(Clone, Copy, Debug, PartialEq, Eq, PartialOrd, Ord)]
pub enum Spoil {
    /// A register outside its list.
    Registers,
    /// Windows that aren't sorted.
    Windows,
    /// TE is off.
    TeOff,
    /// The root entry isn't present.
    RootAbsent,
    /// The context entry isn't present.
    ContextAbsent,
    /// The context passes through.
    PassThrough,
    /// The region's start is no multiple of 4096.
    Start,
    /// Its size isn't.
    Size,
    /// Its last page is past the image.
    PastTheImage,
    /// One of its pages is in no window.
    Hole,
    /// Its last page is at 2^HAW.
    PastTheWidth,
    /// Its size is near 2^64.
    Huge,
    /// It begins with the root table.
    OverRoot,
    /// A present root entry has its context table in it.
    ContextTable,
    /// A root entry that isn't present has it there.
    ContextTableAbsent,
    /// The interrupt table ends in it.
    InterruptTable,
    /// A descriptor begins with its last 64 bytes.
    Descriptor,
    /// One of an entry that isn't present.
    DescriptorAbsent,
    /// One of an entry for remapping.
    DescriptorRemapped,
    /// One that ends where it begins.
    DescriptorBeside,
    /// A copy, or marks, of another length.
    Buffers,
    /// It is empty.
    Empty,
    /// The top table is outside it.
    TopOutside,
    /// A table entry has one right.
    OneRight,
    /// Two entries lead to one table.
    Twice,
    /// A table entry leads to its own table.
    Itself,
    /// Pages of the region lead to each other at random, at any level, one of them to itself.
    Graph,
    /// A table leads outside.
    TableOutside,
    /// A table below the top one is empty.
    TableEmpty,
    /// A page of 1 GiB.
    OneGib,
    /// A leaf with a bit that no leaf built here has.
    StrayLeafBit,
}

impl Spoil {
    /// Each of them, with what it leads to: the status, or 0 where items are taken.
    pub const ALL: [(Spoil, u32); 31] = [
        (Spoil::Registers, 0x01),
        (Spoil::Windows, 0x01),
        (Spoil::TeOff, 0xA1),
        (Spoil::RootAbsent, 0xA2),
        (Spoil::ContextAbsent, 0xA2),
        (Spoil::PassThrough, 0xA2),
        (Spoil::Start, 0xA3),
        (Spoil::Size, 0xA3),
        (Spoil::PastTheImage, 0xA3),
        (Spoil::Hole, 0xA3),
        (Spoil::PastTheWidth, 0xA3),
        (Spoil::Huge, 0xA3),
        (Spoil::OverRoot, 0xA3),
        (Spoil::ContextTable, 0xA3),
        (Spoil::ContextTableAbsent, 0),
        (Spoil::InterruptTable, 0xA3),
        (Spoil::Descriptor, 0xA3),
        (Spoil::DescriptorAbsent, 0),
        (Spoil::DescriptorRemapped, 0),
        (Spoil::DescriptorBeside, 0),
        (Spoil::Buffers, 0xA5),
        (Spoil::Empty, 0xA4),
        (Spoil::TopOutside, 0xA4),
        (Spoil::OneRight, 0xA4),
        (Spoil::Twice, 0xA4),
        (Spoil::Itself, 0xA4),
        (Spoil::Graph, 0xA4),
        (Spoil::TableOutside, 0xA4),
        (Spoil::TableEmpty, 0xA4),
        (Spoil::OneGib, 0xA4),
        (Spoil::StrayLeafBit, 0),
    ];
}

impl fmt::Display for Spoil {
    fn fmt(&self, f: &mut fmt::Formatter<'_>) -> fmt::Result {
        f.write_str(match self {
            Spoil::Registers => "bad registers",
            Spoil::Windows => "bad windows",
            Spoil::TeOff => "TE off",
            Spoil::RootAbsent => "root entry not present",
            Spoil::ContextAbsent => "context entry not present",
            Spoil::PassThrough => "context passes through",
            Spoil::Start => "region's start no multiple of 4096",
            Spoil::Size => "region's size no multiple of 4096",
            Spoil::PastTheImage => "region past the image",
            Spoil::Hole => "region with a hole",
            Spoil::PastTheWidth => "region past 2^HAW",
            Spoil::Huge => "region of nearly 2^64 bytes",
            Spoil::OverRoot => "region over the root table",
            Spoil::ContextTable => "region over a context table",
            Spoil::ContextTableAbsent => "region over the context table of an absent root entry",
            Spoil::InterruptTable => "region over the interrupt table's end",
            Spoil::Descriptor => "region over a descriptor",
            Spoil::DescriptorAbsent => "region over the descriptor of an absent entry",
            Spoil::DescriptorRemapped => "region over the descriptor of a remapped entry",
            Spoil::DescriptorBeside => "descriptor up to the region",
            Spoil::Buffers => "buffers that don't fit",
            Spoil::Empty => "empty region",
            Spoil::TopOutside => "top table outside the region",
            Spoil::OneRight => "table entry with one right",
            Spoil::Twice => "two entries to one table",
            Spoil::Itself => "table that leads to itself",
            Spoil::Graph => "tables that lead to each other at random",
            Spoil::TableOutside => "table outside the region",
            Spoil::TableEmpty => "empty table",
            Spoil::OneGib => "page of 1 GiB",
            Spoil::StrayLeafBit => "leaf with another bit",
        })
    }
}
