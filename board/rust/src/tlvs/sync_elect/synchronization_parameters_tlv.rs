use super::ChannelSequenceTLV;
use crate::common::MACAddress;
use crate::{raw, Field, Refusal};

record! {
    /// A synchronization record: 33 fixed bytes and a channel sequence. One with a legacy sequence has a size, and is not written.
    SynchronizationParametersTLV {
        next_channel: u8 = "The next channel.";
        tx_counter: u16 = "A counter down to the next window.";
        master_channel: u8 = "The master's channel.";
        guard_time: u8 = "The guard time.";
        aw_period: u16 = "The period of availability windows.";
        af_period: u16 = "The period of action frames.";
        awdl_flags: u16 = "Flags whose meaning is not known.";
        aw_ext_length: u16 = "The length of an extension.";
        aw_common_length: u16 = "The common length of windows.";
        remaining_aw_length: u16 = "What remains of the window.";
        min_ext_count: u8 = "The least number of extensions.";
        max_multicast_ext_count: u8 = "The largest number of extensions for multicast.";
        max_unicast_ext_count: u8 = "The largest number of extensions for unicast.";
        max_af_ext_count: u8 = "The largest number of extensions for action frames.";
        master_address: MACAddress = "The master's address.";
        presence_mode: u8 = "The presence mode.";
        reserved: u8 = "A byte whose meaning is not known. It is written again as it was read.";
        aw_seq_number: u16 = "The number of the window.";
        ap_beacon_alignment_delta: u16 = "How far windows lie from the beacons of the access point.";
        channel_sequence: ChannelSequenceTLV = "The channel sequence, which is no item of its own here.";
    }
}
written!(SynchronizationParametersTLV: synchronization_consistent, synchronization_size, synchronization_write);
searched!(SynchronizationParametersTLV: SynchronizationParameters, first_synchronization, next_synchronization);

impl SynchronizationParametersTLV {
    /// The size of the smallest record.
    pub const MIN_SIZE: usize = 55;
    /// The size of the largest one.
    pub const MAX_SIZE: usize = 71;

    /// Reads the record at the start of a value, and answers it with its size. What stands behind it is ignored.
    pub fn read(bytes: &[u8]) -> Result<(Self, usize), Refusal> {
        let (number, offset, size, record) = raw::synchronization_read(bytes);
        Refusal::check(number, offset, 0)?;
        Ok((Self::from_raw(&record)?, size))
    }
}
