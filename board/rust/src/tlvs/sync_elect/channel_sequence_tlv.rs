use super::ChannelSequence;
use crate::{raw, Field, Refusal};

record! {
    /// A channel sequence, as an item of type 0x12 and a synchronization record hold it: a sequence, and the numbers in front of it. These are kept
    /// as they stand, so that the step count is one less than the Rust shows.
    ChannelSequenceTLV {
        duplicate_count: u8 = "How often entries are repeated.";
        step_count: u8 = "The step count.";
        fill_channel: u16 = "The fill channel.";
        channel_sequence: ChannelSequence = "The sequence.";
    }
}
written!(ChannelSequenceTLV: channel_sequence_consistent, channel_sequence_size, channel_sequence_write);
searched!(ChannelSequenceTLV: ChannelSequence, first_channel_sequence, next_channel_sequence);

impl ChannelSequenceTLV {
    /// The size of the smallest record.
    pub const MIN_SIZE: usize = 22;
    /// The size of the largest one.
    pub const MAX_SIZE: usize = 38;

    /// Reads a channel sequence from a place of the bytes on, and answers it with its size.
    pub fn read(bytes: &[u8], at: usize) -> Result<(Self, usize), Refusal> {
        let (number, offset, size, record) = raw::channel_sequence_read(bytes, at);
        Refusal::check(number, offset, 0)?;
        Ok((Self::from_raw(&record)?, size))
    }
}
