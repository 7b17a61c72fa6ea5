//! The types of the names in [`regs`](crate::regs): registers and fields of registers.

/// A register of the physical function, from [`regs`](crate::regs).
#[derive(Clone, Copy, Debug, PartialEq, Eq, PartialOrd, Ord, Hash)]
pub struct Register {
    address: u32,
}

impl Register {
    pub(crate) const fn new(address: u32) -> Register {
        Register { address }
    }

    /// Returns the address, as [`Nic::read32`](crate::Nic::read32) takes it.
    pub const fn address(self) -> u32 {
        self.address
    }
}

/// All registers with one name: `RDT.at(3)` is the tail of queue 3.
///
/// ```
/// use nic82599::regs::RDT;
///
/// assert_eq!(RDT.at(64).address(), 0x0D018);
/// assert_eq!(RDT.count(), 128);
/// assert!(RDT.get(128).is_none());
/// ```
#[derive(Clone, Copy, Debug, PartialEq, Eq, Hash)]
pub struct Registers {
    first: u32,
    stride: u32,
    near: u16,
    further: u32,
    count: u16,
}

impl Registers {
    /// `count` registers, `stride` bytes apart.
    pub(crate) const fn array(first: u32, stride: u32, count: u16) -> Registers {
        Registers { first, stride, near: count, further: 0, count }
    }

    /// Returns an array that contains only this register.
    pub(crate) const fn one(register: Register) -> Registers {
        Registers::array(register.address, 4, 1)
    }

    /// `count` registers: the first `near` of them start at `first`, the rest at `further`.
    pub(crate) const fn parted(first: u32, stride: u32, near: u16, further: u32, count: u16) -> Registers {
        Registers { first, stride, near, further, count }
    }

    /// Returns the number of registers.
    pub const fn count(self) -> u16 {
        self.count
    }

    /// Returns the register with this index.
    ///
    /// # Panics
    ///
    /// Panics if the index is [`count`](Registers::count) or above.
    #[track_caller]
    pub const fn at(self, index: u16) -> Register {
        assert!(index < self.count, "no register has this index");
        self.place(index)
    }

    /// Returns the register with this index, or `None` if there is none.
    pub const fn get(self, index: u16) -> Option<Register> {
        if index < self.count {
            Some(self.place(index))
        } else {
            None
        }
    }

    const fn place(self, index: u16) -> Register {
        if index < self.near {
            Register::new(self.first + self.stride * index as u32)
        } else {
            Register::new(self.further + self.stride * (index - self.near) as u32)
        }
    }
}

/// A register of a virtual function, from [`regs::vf`](crate::regs::vf).
#[derive(Clone, Copy, Debug, PartialEq, Eq, PartialOrd, Ord, Hash)]
pub struct VfRegister {
    offset: u32,
}

impl VfRegister {
    pub(crate) const fn new(offset: u32) -> VfRegister {
        VfRegister { offset }
    }

    /// Returns the offset, as [`Function::read32`](crate::Function::read32) takes it.
    pub const fn offset(self) -> u32 {
        self.offset
    }
}

/// All registers of a virtual function with one name: `VFRDT.at(1)` is the tail of the function's queue 1. The number
/// of queues of a function depends on the mode (GCR_EXT); the array has as many registers as the mode with the most
/// queues.
#[derive(Clone, Copy, Debug, PartialEq, Eq, Hash)]
pub struct VfRegisters {
    first: u32,
    stride: u32,
    count: u16,
}

impl VfRegisters {
    pub(crate) const fn array(first: u32, stride: u32, count: u16) -> VfRegisters {
        VfRegisters { first, stride, count }
    }

    /// Returns the maximum number of registers.
    pub const fn count(self) -> u16 {
        self.count
    }

    /// Returns the register with this index.
    ///
    /// # Panics
    ///
    /// Panics if the index is [`count`](VfRegisters::count) or above: no function has that register.
    #[track_caller]
    pub const fn at(self, index: u16) -> VfRegister {
        assert!(index < self.count, "no function has a register with this index");
        VfRegister::new(self.first + self.stride * index as u32)
    }

    /// Returns the register with this index, or `None` if no function has it.
    pub const fn get(self, index: u16) -> Option<VfRegister> {
        if index < self.count {
            Some(VfRegister::new(self.first + self.stride * index as u32))
        } else {
            None
        }
    }
}

macro_rules! field {
    ($(#[$attribute:meta])* $name:ident, $word:ty) => {
        $(#[$attribute])*
        #[derive(Clone, Copy, Debug, PartialEq, Eq, Hash)]
        pub struct $name {
            mask: $word,
            low: u8,
        }

        impl $name {
            pub(crate) const fn new(mask: $word, low: u8) -> $name {
                $name { mask, low }
            }

            /// Returns the mask of the field's bits.
            pub const fn mask(self) -> $word {
                self.mask
            }

            /// Returns the number of the field's lowest bit.
            pub const fn shift(self) -> u8 {
                self.low
            }

            /// Returns a word with this value in the field and all other bits 0. A value that doesn't fit is truncated
            /// to its low bits.
            pub const fn is(self, value: $word) -> $word {
                (value << self.low) & self.mask
            }

            /// Returns the field's value in a word.
            pub const fn of(self, word: $word) -> $word {
                (word & self.mask) >> self.low
            }

            /// Returns the word with this value in the field and all other bits unchanged.
            pub const fn put(self, word: $word, value: $word) -> $word {
                (word & !self.mask) | self.is(value)
            }
        }
    };
}

field! {
    /// A field of several bits in a register. A one-bit field is a word with that bit set instead.
    ///
    /// ```
    /// use nic82599::regs::srrctl;
    ///
    /// let word = srrctl::DESCTYPE.is(1) | srrctl::BSIZEPACKET.is(2) | srrctl::DROP_EN;
    /// assert_eq!(word, 0x1200_0002);
    /// assert_eq!(srrctl::DESCTYPE.of(word), 1);
    /// assert_eq!(srrctl::DESCTYPE.put(word, 0), 0x1000_0002);
    /// ```
    Field, u32
}

field! {
    /// A field of several bits in a half of a descriptor. A one-bit field is a number with that bit set instead.
    ///
    /// ```
    /// use nic82599::desc::rxwb;
    ///
    /// assert_eq!(rxwb::PKT_LEN.of(0x003C_0000_0003), 60);
    /// ```
    HalfField, u64
}
