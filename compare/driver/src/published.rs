//! The published text over our stand-ins: its records as the numbers of `board/awdl.h`, and what it answers.
use awdl_frame_parser::action_frame::{AWDLActionFrame, AWDLActionFrameSubType};
use awdl_frame_parser::tlvs::data_path::*;
use awdl_frame_parser::tlvs::sync_elect::channel::{Channel, ChannelEncoding, LegacyFlags};
use awdl_frame_parser::tlvs::sync_elect::channel_sequence::ChannelSequence;
use awdl_frame_parser::tlvs::sync_elect::{ChannelSequenceTLV, SynchronizationParametersTLV};
use mac_parser::MACAddress;
use scroll::ctx::TryIntoCtx;
use scroll::{Error, Pwrite};
use std::num::NonZeroU8;
use std::time::Duration;

use crate::ours::{self, CHANNEL, CHANNEL_SEQUENCE, DATA_PATH, FRAME, SEQUENCE, SYNCHRONIZATION};

/// The number that we give where the text gives this error. The last message is that of our stand-in for the wrapper.
pub fn refusal(error: Error) -> u32 {
    match error {
        Error::BadOffset(_) | Error::TooBig { .. } => ours::SHORT,
        Error::BadInput { msg, .. } => match msg {
            "AF didn't start with 0x8." => ours::NOT_ACTION,
            "AF header version wasn't 1.0." => ours::NOT_VERSION,
            "Invalid unicast options length." => ours::UNICAST_LENGTH,
            "Unknown encoding." => ours::ENCODING,
            "The sequence has not sixteen entries." => ours::CHANNEL_COUNT,
            _ => u32::MAX,
        },
    }
}

/// What the text writes into a zeroed buffer: the size that it answers, and the buffer.
pub fn written<T: TryIntoCtx<Error = Error>>(value: T, room: usize) -> Result<(usize, Vec<u8>), Error> {
    let mut buffer = vec![0; room];
    buffer.pwrite(value, 0).map(|size| (size, buffer))
}

fn put_bytes(numbers: &mut [u32], bytes: &[u8]) {
    for (number, byte) in numbers.iter_mut().zip(bytes) {
        *number = u32::from(*byte);
    }
}
fn address(numbers: &[u32]) -> MACAddress {
    MACAddress::new(std::array::from_fn(|byte| numbers[byte] as u8))
}

pub fn frame<I>(numbers: &[u32; FRAME], tagged_data: I) -> AWDLActionFrame<I> {
    AWDLActionFrame {
        subtype: AWDLActionFrameSubType::from_bits(numbers[0] as u8),
        phy_tx_time: Duration::from_micros(numbers[2].into()),
        target_tx_time: Duration::from_micros(numbers[3].into()),
        tagged_data,
    }
}
/// The reserved byte is no field of the text's record, and is told beside it.
pub fn frame_numbers<I>(frame: &AWDLActionFrame<I>, reserved: u8) -> [u32; FRAME] {
    let micros = |stamp: Duration| stamp.as_micros() as u32;
    [frame.subtype.into_bits().into(), reserved.into(), micros(frame.phy_tx_time), micros(frame.target_tx_time)]
}

/// Whatever stands in an absent field, and a bit that no name has, are left behind: the text's record has no place for them.
pub fn data_path(n: &[u32]) -> DataPathStateTLV {
    let there = |at: usize| n[at] == 1;
    let channel = if n[6] == 0 {
        DataPathChannel::SingleChannel { channel: n[7] as u8 }
    } else {
        DataPathChannel::ChannelMap(ChannelMap::from_bits(n[7] as u16))
    };
    DataPathStateTLV {
        flags: DataPathFlags::from_bits(n[0] as u16),
        country_code: there(1).then(|| [n[2] as u8 as char, n[3] as u8 as char]),
        channel_map: there(5).then_some(channel),
        infra_bssid_channel: there(8).then(|| (address(&n[9..]), n[15] as u16)),
        infra_address: there(16).then(|| address(&n[17..])),
        awdl_address: there(23).then(|| address(&n[24..])),
        unicast_options: there(30).then(|| UnicastOptions::from_bits(n[31])),
        unicast_options_ext: there(32).then(|| n[33]),
        extended_flags: there(34).then(|| DataPathExtendedFlags::from_bits(n[35] as u16)),
        rlfc: there(36).then(|| n[37]),
        log_trigger_id: there(38).then(|| n[39] as u16),
        stats: there(40).then(|| DataPathStats { msec_since_activation: n[41], aw_seq_counter: n[42], pay_update_coutner: n[43] }),
    }
}
/// The pad is no field of the text's record, and is told beside it.
pub fn data_path_numbers(record: &DataPathStateTLV, pad: u32) -> [u32; DATA_PATH] {
    let mut n = [0; DATA_PATH];
    n[0] = record.flags.into_bits().into();
    if let Some([first, second]) = record.country_code {
        n[1..5].copy_from_slice(&[1, first.into(), second.into(), pad]);
    }
    match record.channel_map {
        Some(DataPathChannel::SingleChannel { channel }) => n[5..8].copy_from_slice(&[1, 0, channel.into()]),
        Some(DataPathChannel::ChannelMap(map)) => n[5..8].copy_from_slice(&[1, 1, map.into_bits().into()]),
        None => {}
    }
    if let Some((address, channel)) = record.infra_bssid_channel {
        n[8] = 1;
        put_bytes(&mut n[9..], address.as_slice());
        n[15] = channel.into();
    }
    if let Some(address) = record.infra_address {
        n[16] = 1;
        put_bytes(&mut n[17..], address.as_slice());
    }
    if let Some(address) = record.awdl_address {
        n[23] = 1;
        put_bytes(&mut n[24..], address.as_slice());
    }
    let mut put = |at: usize, number: Option<u32>| {
        if let Some(number) = number {
            n[at..at + 2].copy_from_slice(&[1, number]);
        }
    };
    put(30, record.unicast_options.map(|options| options.into_bits()));
    put(32, record.unicast_options_ext);
    put(34, record.extended_flags.map(|flags| flags.into_bits().into()));
    put(36, record.rlfc);
    put(38, record.log_trigger_id.map(u32::from));
    if let Some(stats) = record.stats {
        n[40..].copy_from_slice(&[1, stats.msec_since_activation, stats.aw_seq_counter, stats.pay_update_coutner]);
    }
    n
}

/// None where the encoding is not listed: the text has no such channel, and no such sequence.
pub fn channel(n: &[u32; CHANNEL]) -> Option<Channel> {
    let [first, second] = [n[1] as u8, n[2] as u8];
    match ChannelEncoding::from_bits(n[0] as u8) {
        ChannelEncoding::Simple => Some(Channel::Simple { channel: first }),
        ChannelEncoding::Legacy => Some(Channel::Legacy { flags: LegacyFlags::from_bits(first), channel: second }),
        ChannelEncoding::OpClass => Some(Channel::OpClass { channel: first, opclass: second }),
        ChannelEncoding::Unknown(_) => None,
    }
}
pub fn sequence(n: &[u32]) -> Option<ChannelSequence> {
    let pair = |entry: usize| (n[1 + 2 * entry] as u8, n[2 + 2 * entry] as u8);
    match ChannelEncoding::from_bits(n[0] as u8) {
        ChannelEncoding::Simple => Some(ChannelSequence::Simple(std::array::from_fn(|entry| n[1 + entry] as u8))),
        ChannelEncoding::Legacy => Some(ChannelSequence::Legacy(std::array::from_fn(|entry| {
            let (flags, channel) = pair(entry);
            (LegacyFlags::from_bits(flags), channel)
        }))),
        ChannelEncoding::OpClass => Some(ChannelSequence::OpClass(std::array::from_fn(pair))),
        ChannelEncoding::Unknown(_) => None,
    }
}
pub fn sequence_numbers(sequence: &ChannelSequence) -> [u32; SEQUENCE] {
    let mut n = [0; SEQUENCE];
    n[0] = sequence.channel_encoding().into_bits().into();
    match sequence {
        ChannelSequence::Simple(channels) => put_bytes(&mut n[1..], channels),
        ChannelSequence::Legacy(channels) => put_bytes(&mut n[1..], channels.map(|(flags, channel)| [flags.into_bits(), channel]).as_flattened()),
        ChannelSequence::OpClass(channels) => put_bytes(&mut n[1..], channels.map(|(channel, opclass)| [channel, opclass]).as_flattened()),
    }
    n
}
/// The sixteen channels of a sequence, each corrected.
pub fn corrected(sequence: &ChannelSequence) -> [u8; 16] {
    match sequence {
        ChannelSequence::Simple(channels) => channels.map(|channel| Channel::Simple { channel }.channel()),
        ChannelSequence::Legacy(channels) => channels.map(|(flags, channel)| Channel::Legacy { flags, channel }.channel()),
        ChannelSequence::OpClass(channels) => channels.map(|(channel, opclass)| Channel::OpClass { channel, opclass }.channel()),
    }
}

/// None where the encoding is not listed, or the step count is none of its type.
pub fn channel_sequence(n: &[u32]) -> Option<ChannelSequenceTLV> {
    let step_count = NonZeroU8::new((n[1] as u8).checked_add(1)?)?;
    Some(ChannelSequenceTLV { step_count, channel_sequence: sequence(&n[3..])? })
}
/// `head` is the six bytes: the wrapper's record, as far as it is known, has no field for the duplicate count and the fill channel.
pub fn channel_sequence_numbers(record: &ChannelSequenceTLV, head: &[u8]) -> [u32; CHANNEL_SEQUENCE] {
    let mut n = [0; CHANNEL_SEQUENCE];
    n[..3].copy_from_slice(&[head[2].into(), u32::from(record.step_count.get()) - 1, u16::from_le_bytes([head[4], head[5]]).into()]);
    n[3..].copy_from_slice(&sequence_numbers(&record.channel_sequence));
    n
}

pub fn synchronization(n: &[u32]) -> Option<SynchronizationParametersTLV> {
    Some(SynchronizationParametersTLV {
        next_channel: n[0] as u8,
        tx_counter: n[1] as u16,
        master_channel: n[2] as u8,
        guard_time: n[3] as u8,
        aw_period: n[4] as u16,
        af_period: n[5] as u16,
        awdl_flags: n[6] as u16,
        aw_ext_length: n[7] as u16,
        aw_common_length: n[8] as u16,
        remaining_aw_length: n[9] as u16,
        min_ext_count: n[10] as u8,
        max_multicast_ext_count: n[11] as u8,
        max_unicast_ext_count: n[12] as u8,
        max_af_ext_count: n[13] as u8,
        master_address: address(&n[14..]),
        presence_mode: n[20] as u8,
        aw_seq_number: n[22] as u16,
        ap_beacon_alignment_delta: n[23] as u16,
        channel_sequence: channel_sequence(&n[24..])?,
    })
}
/// The reserved byte is no field of the text's record, and is told beside it, with the six bytes in front of the entries.
pub fn synchronization_numbers(record: &SynchronizationParametersTLV, reserved: u8, head: &[u8]) -> [u32; SYNCHRONIZATION] {
    let r = record;
    let mut n = [0; SYNCHRONIZATION];
    n[..4].copy_from_slice(&[r.next_channel.into(), r.tx_counter.into(), r.master_channel.into(), r.guard_time.into()]);
    n[4..7].copy_from_slice(&[r.aw_period, r.af_period, r.awdl_flags].map(u32::from));
    n[7..10].copy_from_slice(&[r.aw_ext_length, r.aw_common_length, r.remaining_aw_length].map(u32::from));
    put_bytes(&mut n[10..], &[r.min_ext_count, r.max_multicast_ext_count, r.max_unicast_ext_count, r.max_af_ext_count]);
    put_bytes(&mut n[14..], r.master_address.as_slice());
    put_bytes(&mut n[20..], &[r.presence_mode, reserved]);
    n[22..24].copy_from_slice(&[r.aw_seq_number, r.ap_beacon_alignment_delta].map(u32::from));
    n[24..].copy_from_slice(&channel_sequence_numbers(&r.channel_sequence, head));
    n
}
