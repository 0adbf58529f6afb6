//! A stand-in for `macro_bits`: words with named bits and numbers with names, in our own words.
//! A line that can decide an answer is marked `assumed`, with the reason.
#![no_std]
#![forbid(unsafe_code)]

/// What can stand at some bits of a word, as the number that these bits say.
pub trait Field {
    fn from_field(number: u32) -> Self;
    fn into_field(self) -> u32;
}
impl Field for bool {
    fn from_field(number: u32) -> Self {
        number != 0 // assumed: a bit that is set is `true`
    }
    fn into_field(self) -> u32 {
        self as u32 // assumed: `true` sets the bit
    }
}
impl Field for u8 {
    fn from_field(number: u32) -> Self {
        number as u8 // assumed: the number that the bits say
    }
    fn into_field(self) -> u32 {
        self as u32 // assumed: as in reading
    }
}

/// The mask of the bits that are listed.
#[macro_export]
macro_rules! bit {
    ($($bit:expr),+) => {
        0 $(| 1 << $bit)+ // assumed: bit 0 is the lowest
    };
}

#[macro_export]
macro_rules! check_bit {
    ($word:expr, $mask:expr) => {
        $word & $mask != 0 // assumed: whether a bit of the mask is set
    };
}

/// A word as a record of its named bits.
#[macro_export]
macro_rules! bitfield {
    ($(#[$meta:meta])* $vis:vis struct $name:ident : $word:ty {
        $($(#[$field_meta:meta])* $field_vis:vis $field:ident : $type:ty => $mask:expr),+ $(,)?
    }) => {
        $(#[$meta])*
        $vis struct $name {
            $($(#[$field_meta])* $field_vis $field: $type),+
        }
        impl $name {
            pub fn from_bits(bits: $word) -> Self {
                Self {
                    $($field: {
                        const MASK: $word = $mask;
                        $crate::Field::from_field(((bits & MASK) >> MASK.trailing_zeros()) as u32) // assumed: its bits, from the lowest of them on
                    }),+
                }
            }
            pub fn into_bits(self) -> $word {
                let mut bits = 0; // assumed: bits without a name are not kept, as the masks in 01 have it
                $({
                    const MASK: $word = $mask;
                    bits |= ($crate::Field::into_field(self.$field) as $word) << MASK.trailing_zeros() & MASK; // assumed: as in reading
                })+
                bits // assumed: as in reading
            }
        }
    };
}

/// An enum whose variants stand for numbers, and `Unknown` for each of the others.
#[macro_export]
macro_rules! serializable_enum {
    ($(#[$meta:meta])* $vis:vis enum $name:ident : $number:ty {
        $($(#[$variant_meta:meta])* $variant:ident => $value:expr),+ $(,)?
    }) => {
        $(#[$meta])*
        $vis enum $name {
            $($(#[$variant_meta])* $variant,)+
            Unknown($number),
        }
        impl $name {
            pub const fn from_bits(bits: $number) -> Self {
                match bits {
                    $($value => Self::$variant,)+ // assumed: a number that is listed is its variant
                    unknown => Self::Unknown(unknown), // assumed: and every other is kept
                }
            }
            pub const fn into_bits(self) -> $number {
                match self {
                    $(Self::$variant => $value,)+ // assumed: as in reading
                    Self::Unknown(unknown) => unknown, // assumed: as in reading
                }
            }
        }
        impl From<$name> for $number {
            fn from(named: $name) -> Self {
                named.into_bits() // assumed: an item's type is written as its number
            }
        }
        impl $crate::Field for $name {
            fn from_field(number: u32) -> Self {
                Self::from_bits(number as $number) // assumed: a name stands for the number that the bits say
            }
            fn into_field(self) -> u32 {
                self.into_bits() as u32 // assumed: as in reading
            }
        }
    };
}
