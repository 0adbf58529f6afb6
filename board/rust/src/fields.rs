//! How a record is laid down as the numbers of `awdl.h`, one for each field, and taken up from them again.
use crate::Refusal;

pub type Take<'a> = core::slice::Iter<'a, u32>;
pub type Put<'a> = core::slice::IterMut<'a, u32>;

/// A field of a record, or a record. Numbers that stand for none of its values are refused, which no answer of the library comes to.
pub trait Field: Sized {
    /// Takes its numbers from the front of those that are left.
    fn take(numbers: &mut Take) -> Result<Self, Refusal>;
    /// Lays its numbers down in the first of the places that are left.
    fn put(&self, numbers: &mut Put);

    /// The record of an array.
    fn from_raw(numbers: &[u32]) -> Result<Self, Refusal> {
        Self::take(&mut numbers.iter())
    }

    /// The array of a record.
    fn to_raw<const N: usize>(&self) -> [u32; N] {
        let mut numbers = [0; N];
        self.put(&mut numbers.iter_mut());
        numbers
    }
}

// How one field is taken up from the numbers of another, and laid down as these.
macro_rules! field {
    ($name:ty: $like:ty, $take:expr, $put:expr) => {
        impl $crate::fields::Field for $name {
            fn take(numbers: &mut $crate::fields::Take) -> Result<Self, $crate::Refusal> {
                <$like as $crate::fields::Field>::take(numbers).and_then($take)
            }

            fn put(&self, numbers: &mut $crate::fields::Put) {
                let laid_down: fn(&Self) -> $like = $put;
                $crate::fields::Field::put(&laid_down(self), numbers);
            }
        }
    };
}

impl Field for u32 {
    fn take(numbers: &mut Take) -> Result<Self, Refusal> {
        numbers.next().copied().ok_or(Refusal::Inconsistent)
    }

    fn put(&self, numbers: &mut Put) {
        if let Some(place) = numbers.next() {
            *place = *self;
        }
    }
}
field!(u16: u32, |number| u16::try_from(number).map_err(|_| Refusal::Inconsistent), |word| u32::from(*word));
field!(u8: u32, |number| u8::try_from(number).map_err(|_| Refusal::Inconsistent), |byte| u32::from(*byte));
field!(bool: u32, |number| if number < 2 { Ok(number == 1) } else { Err(Refusal::Inconsistent) }, |flag| u32::from(*flag));

impl<T: Field + Copy + Default, const N: usize> Field for [T; N] {
    fn take(numbers: &mut Take) -> Result<Self, Refusal> {
        let mut fields = [T::default(); N];
        fields.iter_mut().try_for_each(|field| T::take(numbers).map(|taken| *field = taken))?;
        Ok(fields)
    }

    fn put(&self, numbers: &mut Put) {
        self.iter().for_each(|field| field.put(numbers));
    }
}

impl<A: Field, B: Field> Field for (A, B) {
    fn take(numbers: &mut Take) -> Result<Self, Refusal> {
        Ok((A::take(numbers)?, B::take(numbers)?))
    }

    fn put(&self, numbers: &mut Put) {
        self.0.put(numbers);
        self.1.put(numbers);
    }
}

// The flag stands in front of the value, and the value of a field that is absent is zero.
impl<T: Field + Copy + Default + PartialEq> Field for Option<T> {
    fn take(numbers: &mut Take) -> Result<Self, Refusal> {
        match <(bool, T)>::take(numbers)? {
            (true, value) => Ok(Some(value)),
            (false, value) if value == T::default() => Ok(None),
            _ => Err(Refusal::Inconsistent),
        }
    }

    fn put(&self, numbers: &mut Put) {
        (self.is_some(), self.unwrap_or_default()).put(numbers);
    }
}

// A struct whose fields stand in the order of their numbers.
macro_rules! record {
    ($(#[$about:meta])* $name:ident { $($field:ident: $kind:ty = $what:literal;)* }) => {
        $(#[$about])*
        #[derive(Clone, Copy, Debug, Default, PartialEq, Eq)]
        pub struct $name {
            $(#[doc = $what] pub $field: $kind,)*
        }

        impl $crate::fields::Field for $name {
            fn take(numbers: &mut $crate::fields::Take) -> Result<Self, $crate::Refusal> {
                Ok(Self { $($field: <$kind as $crate::fields::Field>::take(numbers)?,)* })
            }

            fn put(&self, numbers: &mut $crate::fields::Put) {
                $($crate::fields::Field::put(&self.$field, numbers);)*
            }
        }
    };
}

// A word of named bits, which is one number.
macro_rules! word {
    ($(#[$about:meta])* $name:ident: $word:ty, keeps $keep:expr; $($bit:ident $value:expr,)*) => {
        $(#[$about])*
        #[derive(Clone, Copy, Debug, Default, PartialEq, Eq, Hash)]
        pub struct $name(pub $word);
        field!($name: $word, |word| Ok(Self(word)), |word| word.0);

        impl $name {
            $(#[doc = concat!("The named bits `", stringify!($value), "`.")] pub const $bit: $word = $value;)*
            #[doc(hidden)]
            pub const NAMED: &'static [(&'static str, $word)] = &[$((stringify!($bit), $value)),*];
            /// The bits that are kept in reading.
            pub const KEEP: $word = $keep;

            /// The word with those bits alone.
            pub const fn from_bits(bits: $word) -> Self {
                Self(bits & Self::KEEP)
            }

            /// Whether it has one of the bits of a mask.
            pub const fn has(self, mask: $word) -> bool {
                self.0 & mask != 0
            }
        }
    };
}

// An enum of the numbers that have a name. Every other byte is one of its values too.
macro_rules! named_numbers {
    ($(#[$about:meta])* $name:ident { $($value:ident = $number:literal, $what:literal;)* }) => {
        $(#[$about])*
        #[derive(Clone, Copy, Debug, PartialEq, Eq, Hash)]
        pub enum $name {
            $(#[doc = $what] $value,)*
            /// A number without a name.
            Unknown(u8),
        }

        impl $name {
            /// The value that a number stands for.
            pub const fn from_bits(bits: u8) -> Self {
                match bits {
                    $($number => Self::$value,)*
                    other => Self::Unknown(other),
                }
            }

            /// The number that stands for the value.
            pub const fn into_bits(self) -> u8 {
                match self {
                    $(Self::$value => $number,)*
                    Self::Unknown(other) => other,
                }
            }
        }
    };
}

// What is asked of every record that is written.
macro_rules! written {
    ($name:ident: $consistent:ident, $size:ident, $write:ident) => {
        impl $name {
            /// Whether it is consistent: what it says of itself is so.
            pub fn consistent(&self) -> Result<bool, $crate::Refusal> {
                let (number, consistent) = $crate::raw::$consistent(&$crate::Field::to_raw(self));
                $crate::Refusal::check(number, 0, 0).map(|()| consistent == 1)
            }

            /// How many bytes it takes.
            pub fn size(&self) -> Result<usize, $crate::Refusal> {
                let (number, size) = $crate::raw::$size(&$crate::Field::to_raw(self));
                $crate::Refusal::check(number, 0, 0).map(|()| size)
            }

            /// Writes it to the start of a buffer, and answers how many bytes it filled. The bytes behind these stay as they are.
            pub fn write(&self, buffer: &mut [u8]) -> Result<usize, $crate::Refusal> {
                let (number, size) = $crate::raw::$write(&$crate::Field::to_raw(self), buffer);
                $crate::Refusal::check(number, 0, 0).map(|()| size)
            }
        }
    };
}
