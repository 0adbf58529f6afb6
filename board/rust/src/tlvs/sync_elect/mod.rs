mod channel;
mod channel_sequence;
mod channel_sequence_tlv;
mod synchronization_parameters_tlv;

pub use channel::{Band, Channel, ChannelBandwidth, ChannelEncoding, LegacyFlags, SupportChannel};
pub use channel_sequence::ChannelSequence;
pub use channel_sequence_tlv::ChannelSequenceTLV;
pub use synchronization_parameters_tlv::SynchronizationParametersTLV;
