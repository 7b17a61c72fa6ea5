//! The `bitflags` crate: sets of named bits. `bitflag_items!` is Rattle's version of its macro: it adds the constants
//! and their table to a struct that is declared separately.

use core::ops::{BitAnd, BitOr, Not};

/// A name for one or several bits.
pub struct Flag<F: 'static> {
    pub name: &'static str,
    pub value: F,
}

/// A set of named bits in a number.
pub trait Flags: Sized + Copy + 'static {
    type Bits: Copy + PartialEq + BitAnd<Output = Self::Bits> + BitOr<Output = Self::Bits> + Not<Output = Self::Bits>;

    fn flags<'a>() -> &'a [Flag<Self>];
    fn bits(&self) -> Self::Bits;
    fn from_bits_retain(bits: Self::Bits) -> Self;

    #[inline(always)]
    fn contains(&self, other: Self) -> bool {
        self.bits() & other.bits() == other.bits()
    }

    #[inline(always)]
    fn union(self, other: Self) -> Self {
        Self::from_bits_retain(self.bits() | other.bits())
    }

    #[inline(always)]
    fn difference(self, other: Self) -> Self {
        Self::from_bits_retain(self.bits() & !other.bits())
    }

    #[inline(always)]
    fn intersection(self, other: Self) -> Self {
        Self::from_bits_retain(self.bits() & other.bits())
    }
}

/// Defines the constants of a set, their table, and `|`.
#[macro_export]
macro_rules! bitflag_items {
    (impl $set:ident: $bits:ty { $($(#[$about:meta])* const $name:ident = $value:expr;)* }) => {
        impl $set {
            $($(#[$about])* pub const $name: $set = $set($value);)*

            pub const FLAGS: &'static [$crate::kit::bitflags::Flag<$set>] =
                &[$($crate::kit::bitflags::Flag { name: stringify!($name), value: $set::$name }),*];
        }

        impl core::ops::BitOr for $set {
            type Output = $set;

            #[inline(always)]
            fn bitor(self, other: $set) -> $set {
                $set(self.0 | other.0)
            }
        }
    };
}

pub use crate::bitflag_items;
