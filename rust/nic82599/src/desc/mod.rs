//! Descriptors as a driver packs and reads them. docs/DESCRIPTORS.md describes what the bench does with each field.
//!
//! A descriptor is 16 bytes of packet memory: two 64-bit halves, each little-endian. The modules contain the fields of
//! each format: a driver writes [`rxd`] and [`txd`], and the device writes back [`rxwb`] and [`txwb`]. A one-bit field
//! is a number with that bit set, a wider one is a [`HalfField`](crate::HalfField), and an address field is the mask of
//! its bits.
//!
//! ```
//! use nic82599::desc::{txd, Descriptor};
//!
//! let given = Descriptor::transmit(0x800, 60, 60, txd::EOP | txd::RS);
//! assert_eq!(given.second, 0x000F_0000_2B30_003C);
//! assert!(!given.is_sent());
//! ```

mod fields;

pub use fields::{rxd, rxwb, txd, txwb, RssType};

/// Bits of the second half that a driver sets in every data descriptor: DTYP 3 (data), DEXT (advanced) and IFCS (insert
/// the frame check sequence).
pub const TX_DATA: u64 = txd::DTYP.is(3) | txd::DEXT | txd::IFCS;

/// A descriptor.
#[derive(Clone, Copy, Debug, Default, PartialEq, Eq, Hash)]
pub struct Descriptor {
    /// The half at the lower address.
    pub first: u64,
    /// The half at the higher address.
    pub second: u64,
}

/// What the device wrote back to a receive descriptor.
#[derive(Clone, Copy, Debug, PartialEq, Eq, Hash)]
#[non_exhaustive]
pub struct Received {
    /// Whether the frame ends in this buffer. If not, it continues in the next slot.
    pub end: bool,
    /// The number of the frame's bytes in this buffer.
    pub length: u16,
    /// What the hash covers.
    pub rss_type: RssType,
    /// The RSS hash; 0 unless RXCSUM.PCSD is set.
    pub rss_hash: u32,
    /// Whether the frame is IPv4.
    pub ipv4: bool,
    /// Whether the frame is IPv6.
    pub ipv6: bool,
    /// Whether the frame has TCP ports.
    pub tcp: bool,
    /// Whether the frame has UDP ports.
    pub udp: bool,
}

impl Descriptor {
    /// The size of a descriptor in bytes: slot s of a ring is at its base + `BYTES` * s.
    pub const BYTES: u64 = 16;

    /// Creates a receive descriptor as a driver writes it. `buffer` is a bus address; its bit 0 is cleared. The
    /// descriptor has no header buffer.
    pub const fn receive(buffer: u64) -> Descriptor {
        Descriptor { first: buffer & rxd::BUFFER, second: 0 }
    }

    /// Creates a transmit descriptor for `bytes` bytes of the buffer. `frame` is the length of the whole frame (18
    /// bits). Set [`txd::EOP`] for the frame's last buffer, and [`txd::RS`] if the device must report completion.
    pub const fn transmit(buffer: u64, bytes: u16, frame: u32, flags: u64) -> Descriptor {
        let lengths = txd::DTALEN.is(bytes as u64) | txd::PAYLEN.is(frame as u64);
        Descriptor { first: buffer, second: TX_DATA | lengths | flags }
    }

    /// Returns what the device wrote back to a receive descriptor, or `None` if the device isn't done with it.
    ///
    /// ```
    /// use nic82599::desc::Descriptor;
    ///
    /// assert!(Descriptor::receive(0x800).received().is_none());
    /// let written = Descriptor { first: 0x110, second: 0x003C_0000_0003 };
    /// assert_eq!(written.received().map(|it| (it.end, it.length, it.tcp)), Some((true, 60, true)));
    /// ```
    pub const fn received(self) -> Option<Received> {
        if self.second & rxwb::DD == 0 {
            return None;
        }
        Some(Received {
            end: self.second & rxwb::EOP != 0,
            length: rxwb::PKT_LEN.of(self.second) as u16,
            rss_type: RssType::of(rxwb::RSS_TYPE.of(self.first) as u8),
            rss_hash: rxwb::RSS_HASH.of(self.first) as u32,
            ipv4: self.first & rxwb::PKT_IPV4 != 0,
            ipv6: self.first & rxwb::PKT_IPV6 != 0,
            tcp: self.first & rxwb::PKT_TCP != 0,
            udp: self.first & rxwb::PKT_UDP != 0,
        })
    }

    /// Returns whether the device reported this transmit descriptor as done. The device reports descriptors with
    /// [`txd::RS`], unless it writes back the head instead.
    pub const fn is_sent(self) -> bool {
        self.second & txwb::DD != 0
    }

    /// Returns the bytes of a slot with this descriptor.
    pub fn to_bytes(self) -> [u8; 16] {
        (u128::from(self.second) << 64 | u128::from(self.first)).to_le_bytes()
    }

    /// Returns the descriptor in the bytes of a slot.
    ///
    /// ```
    /// use nic82599::desc::Descriptor;
    ///
    /// let it = Descriptor { first: 1, second: 2 };
    /// assert_eq!(Descriptor::from_bytes(it.to_bytes()), it);
    /// ```
    pub const fn from_bytes(bytes: [u8; 16]) -> Descriptor {
        let both = u128::from_le_bytes(bytes);
        Descriptor { first: both as u64, second: (both >> 64) as u64 }
    }
}
