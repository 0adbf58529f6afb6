use super::{Channel, ChannelEncoding, LegacyFlags};
use crate::fields::{Field, Put, Take};
use crate::{raw, Refusal};

/// A sequence of sixteen entries. One of legacy entries has a size, and is not written until it is converted.
///
/// ```
/// use awdl::tlvs::sync_elect::{ChannelSequence, LegacyFlags};
/// use awdl::Refusal;
///
/// let legacy = ChannelSequence::Legacy([(LegacyFlags(1), 46); 16]);
/// assert_eq!(legacy.write(&mut [0; 32]), Err(Refusal::LegacySequence));
/// assert_eq!(legacy.to_simple(), Ok(ChannelSequence::Simple([44; 16])));
/// ```
#[derive(Clone, Copy, Debug, PartialEq, Eq)]
pub enum ChannelSequence {
    /// Channels alone.
    Simple([u8; 16]),
    /// Flags and channels.
    Legacy([(LegacyFlags, u8); 16]),
    /// Channels and operating classes.
    OpClass([(u8, u8); 16]),
}
written!(ChannelSequence: sequence_consistent, sequence_size, sequence_write);

impl ChannelSequence {
    /// The encoding of its entries.
    pub const fn channel_encoding(&self) -> ChannelEncoding {
        match self {
            Self::Simple(_) => ChannelEncoding::Simple,
            Self::Legacy(_) => ChannelEncoding::Legacy,
            Self::OpClass(_) => ChannelEncoding::OpClass,
        }
    }

    /// Reads a sequence from a place of the bytes on, and answers it with its size.
    pub fn read(bytes: &[u8], at: usize, encoding: ChannelEncoding) -> Result<(Self, usize), Refusal> {
        let (number, offset, size, sequence) = raw::sequence_read(bytes, at, encoding.into_bits().into());
        Refusal::check(number, offset, 0)?;
        Ok((Self::from_raw(&sequence)?, size))
    }

    /// The hop with a number, from 0 to 15. From 16 on there is none.
    pub fn entry(&self, entry: usize) -> Result<Option<Channel>, Refusal> {
        let (number, found, channel) = raw::sequence_entry(&self.to_raw(), entry);
        Refusal::check(number, 0, 0)?;
        (found == 1).then(|| Channel::from_raw(&channel)).transpose()
    }

    /// A legacy sequence as the simple one of its corrected channels. Any other is refused.
    pub fn to_simple(&self) -> Result<Self, Refusal> {
        let (number, simple) = raw::sequence_to_simple(&self.to_raw());
        Refusal::check(number, 0, 0)?;
        Self::from_raw(&simple)
    }

    /// The 33 bytes as which a sequence is lent to be judged: its encoding, and its entries with zeros behind them.
    pub fn lent(&self) -> [u8; 33] {
        self.to_raw::<33>().map(|number| number as u8)
    }
}

impl Default for ChannelSequence {
    fn default() -> Self {
        Self::Simple([0; 16])
    }
}

impl Field for ChannelSequence {
    fn take(numbers: &mut Take) -> Result<Self, Refusal> {
        match ChannelEncoding::take(numbers)? {
            ChannelEncoding::Simple => match <([u8; 16], [u8; 16])>::take(numbers)? {
                (channels, unused) if unused == [0; 16] => Ok(Self::Simple(channels)),
                _ => Err(Refusal::Inconsistent),
            },
            ChannelEncoding::Legacy => Field::take(numbers).map(Self::Legacy),
            ChannelEncoding::OpClass => Field::take(numbers).map(Self::OpClass),
        }
    }

    fn put(&self, numbers: &mut Put) {
        self.channel_encoding().put(numbers);
        match self {
            Self::Simple(channels) => (*channels, [0u8; 16]).put(numbers),
            Self::Legacy(entries) => entries.put(numbers),
            Self::OpClass(entries) => entries.put(numbers),
        }
    }
}
