use core::fmt;

// The refusals that carry nothing: a name, its number, and what is wrong.
macro_rules! refusals {
    ($($name:ident = $number:literal, $wrong:literal;)*) => {
        /// Why a call refuses. A call that refuses has written nothing.
        #[derive(Clone, Copy, Debug, PartialEq, Eq, Hash)]
        pub enum Refusal {
            /// Bytes that are needed are not there. It carries the offset of the first byte of the field that did not fit, counted from the start
            /// of the bytes that were lent. Of sequences that are lent to be judged, the last one is cut and starts there.
            Short(usize),
            $(#[doc = concat!("It says: ", $wrong, ".")] $name,)*
            /// A permitted channel has a smaller load than the proposal. It carries the channel that the library proposes itself.
            SmallerLoad(u8),
        }

        impl Refusal {
            /// The number by which the documents call it.
            pub const fn number(self) -> u8 {
                match self {
                    Self::Short(_) => 1,
                    $(Self::$name => $number,)*
                    Self::SmallerLoad(_) => 30,
                }
            }

            // A number that the library does not have is a fault of the archive, which is another one then, and not of the bytes.
            pub(crate) fn check(number: u32, offset: usize, channel: u32) -> Result<(), Self> {
                match number {
                    0 => Ok(()),
                    1 => Err(Self::Short(offset)),
                    $($number => Err(Self::$name),)*
                    30 => Err(Self::SmallerLoad(channel as u8)),
                    other => panic!("libawdl.a refused with {other}, which awdl.h does not list"),
                }
            }
        }

        impl fmt::Display for Refusal {
            fn fmt(&self, f: &mut fmt::Formatter<'_>) -> fmt::Result {
                match self {
                    Self::Short(offset) => write!(f, "cut in the field that starts at byte {offset}"),
                    $(Self::$name => f.write_str($wrong),)*
                    Self::SmallerLoad(channel) => write!(f, "the proposal has a larger load than {channel}"),
                }
            }
        }
    };
}
refusals! {
    NotAction = 2, "the first byte of the frame is not 08";
    NotVersion = 3, "the second byte of the frame is not 10";
    UnicastLength = 4, "a unicast length is neither 4 nor 8";
    Encoding = 5, "an encoding is not listed, or is not the one that is converted";
    NoRoom = 6, "the buffer is shorter than what is to be written";
    Inconsistent = 7, "the record is not consistent";
    TooLong = 8, "the value of an item has more than 65535 bytes";
    ChannelCount = 10, "the count of a channel sequence is not 15";
    LegacySequence = 18, "a sequence that is to be written is a legacy one";
    CorrectedChannel = 19, "a corrected channel would lie below 0 or above 255";
    TooMany = 27, "more than 64 sequences are lent, or more than 16 channels are permitted";
    NonePermitted = 28, "no channel is permitted";
    NotPermitted = 29, "the proposal is not permitted";
}

impl Refusal {
    /// The offset that [`Refusal::Short`] carries, and 0 for every other refusal.
    pub const fn offset(self) -> usize {
        match self {
            Self::Short(offset) => offset,
            _ => 0,
        }
    }

    /// The channel that [`Refusal::SmallerLoad`] carries, and 0 for every other refusal.
    pub const fn channel(self) -> u8 {
        match self {
            Self::SmallerLoad(channel) => channel,
            _ => 0,
        }
    }
}

impl core::error::Error for Refusal {}
