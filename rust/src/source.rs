//! Source ids.

use core::fmt;

/// The id of the function that made a request: bus in bits 15:8, device in 7:3, function in 2:0.
///
/// ```
/// use galitzaf::SourceId;
///
/// let id = SourceId::new(0x03, 0x10);
/// assert_eq!((id.bus(), id.devfn()), (0x03, 0x10));
/// assert_eq!((id.device(), id.function()), (2, 0));
/// assert_eq!(id, SourceId::from(0x0310));
/// assert_eq!(id.to_string(), "03:02.0");
/// ```
#[derive(Clone, Copy, Debug, Default, PartialEq, Eq, PartialOrd, Ord, Hash)]
pub struct SourceId(u16);

impl SourceId {
    /// The id of a bus's device and function.
    ///
    /// ```
    /// assert_eq!(u16::from(galitzaf::SourceId::new(0xFF, 0xF8)), 0xFFF8);
    /// ```
    pub const fn new(bus: u8, devfn: u8) -> Self {
        Self(u16::from_be_bytes([bus, devfn]))
    }

    /// The bus, bits 15:8.
    pub const fn bus(self) -> u8 {
        let [bus, _] = self.0.to_be_bytes();
        bus
    }

    /// Device and function, bits 7:0.
    pub const fn devfn(self) -> u8 {
        let [_, devfn] = self.0.to_be_bytes();
        devfn
    }

    /// The device, bits 7:3.
    pub const fn device(self) -> u8 {
        self.devfn() >> 3
    }

    /// The function, bits 2:0.
    pub const fn function(self) -> u8 {
        self.devfn() & 7
    }
}

impl From<u16> for SourceId {
    fn from(id: u16) -> Self {
        Self(id)
    }
}

impl From<SourceId> for u16 {
    fn from(id: SourceId) -> Self {
        id.0
    }
}

/// As PCI tools write it, `bus:device.function`.
impl fmt::Display for SourceId {
    fn fmt(&self, f: &mut fmt::Formatter<'_>) -> fmt::Result {
        let (bus, device, function) = (self.bus(), self.device(), self.function());
        write!(f, "{bus:02x}:{device:02x}.{function}")
    }
}
