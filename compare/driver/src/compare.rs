//! The comparisons. A case is one input that both sides read, or one record that both write.
use awdl_frame_parser::action_frame::DefaultAWDLActionFrame;
use awdl_frame_parser::tlvs::data_path::{DataPathExtendedFlags, DataPathStateTLV};
use awdl_frame_parser::tlvs::sync_elect::channel::ChannelEncoding;
use awdl_frame_parser::tlvs::sync_elect::channel_sequence::ChannelSequence;
use awdl_frame_parser::tlvs::sync_elect::{ChannelSequenceTLV, SynchronizationParametersTLV};
use awdl_frame_parser::tlvs::{AwdlTlv, DefaultAWDLTLV, RawAWDLTLV, ReadTLVs, AWDLTLV};
use scroll::ctx::{MeasureWith, TryFromCtx, TryIntoCtx};
use scroll::{Error, Pread};
use std::marker::PhantomData;
use std::panic::catch_unwind;

use crate::departures::{refused, same, same_bytes, same_record, Departure, Outcome, Seen};
use crate::ours::{self, CHANNEL_SEQUENCE, DATA_PATH, SEQUENCE, SYNCHRONIZATION};
use crate::published::{self, written};
use crate::readers::{self, Expected};

#[derive(Clone, Copy, Debug, PartialEq, Eq)]
#[allow(non_camel_case_types)]
pub enum Kind {
    /// Bytes: a frame. Its header, its items, the searches in its tail, the gap, and the frame written again.
    frame_read,
    /// Numbers: the header and a room. Bytes: the tail.
    frame_write,
    /// Numbers: the two stamps.
    tx_delta,
    /// Numbers: the type and a room. Bytes: the value.
    write_item,
    /// Number: the place. Bytes: a tail.
    walk,
    /// Bytes: a value. It is read, and written again.
    data_path_read,
    /// Numbers: the record and a room.
    data_path_write,
    synchronization_read,
    synchronization_write,
    /// Number: the place. Bytes: what the sequence stands in.
    channel_sequence_read,
    channel_sequence_write,
    /// Numbers: the place and the encoding. Bytes: what the sequence stands in.
    sequence_read,
    /// Numbers: the sequence and a room. Its entries are asked too, and its conversion.
    sequence_write,
    /// Numbers: the channel.
    channel,
    /// Numbers: the proposal and how many channels are permitted. Bytes: the sequences, then these channels.
    judge,
    /// Numbers: which sort of record, the place of a number that is put too high, by how many bits it is moved up, and the record.
    too_wide,
}

#[derive(Clone, Debug)]
pub struct Case {
    pub kind: Kind,
    pub numbers: Vec<u32>,
    pub bytes: Vec<u8>,
}

pub fn compare(case: &Case) -> Outcome<Seen> {
    let (n, bytes) = (&case.numbers[..], &case.bytes[..]);
    let mut seen = Seen::default();
    match case.kind {
        Kind::frame_read => frame_read(bytes, &mut seen),
        Kind::frame_write => frame_write(&[n[0], n[1], n[2], n[3]], bytes, n[4], &mut seen),
        Kind::tx_delta => tx_delta(n[0], n[1], &mut seen),
        Kind::write_item => write_item(n[0], bytes, n[1], &mut seen),
        Kind::walk => walk(ReadTLVs::new(&bytes[place(n[0]).min(bytes.len())..]), bytes, place(n[0]), &mut seen),
        Kind::data_path_read => data_path_read(bytes, &mut seen),
        Kind::data_path_write => data_path_write(&n[..DATA_PATH], n[DATA_PATH], &mut seen),
        Kind::synchronization_read => synchronization_read(bytes, &mut seen),
        Kind::synchronization_write => synchronization_write(&n[..SYNCHRONIZATION], n[SYNCHRONIZATION], &mut seen),
        Kind::channel_sequence_read => channel_sequence_read(bytes, place(n[0]), &mut seen),
        Kind::channel_sequence_write => channel_sequence_write(&n[..CHANNEL_SEQUENCE], n[CHANNEL_SEQUENCE], &mut seen),
        Kind::sequence_read => sequence_read(bytes, place(n[0]), n[1], &mut seen),
        Kind::sequence_write => sequence_write(&n[..SEQUENCE], n[SEQUENCE], &mut seen),
        Kind::channel => channel(&[n[0], n[1], n[2]], &mut seen),
        Kind::judge => judge(bytes, n[0], n[1] as usize),
        Kind::too_wide => too_wide(n[0], n[1] as usize, n[2], &n[3..]),
    }?;
    Ok(seen)
}

/// The highest number stands for the highest place.
fn place(number: u32) -> usize {
    if number == u32::MAX {
        usize::MAX
    } else {
        number as usize
    }
}

/// A room is told by how much it differs from the size: 0 is the size itself, below 128 as many bytes more, and from 128 on one byte less and so on.
fn room(size: usize, code: u32) -> usize {
    let code = code as usize;
    if code < 128 {
        size + code
    } else {
        size.saturating_sub(code - 127)
    }
}

/// What the text writes, where there is room for it. Where there is not, departure (b): it fails as short, and we refuse with 6.
fn written_there<T: TryIntoCtx<Error = Error>>(
    value: T,
    size: usize,
    room: usize,
    ours: &ours::Written,
    seen: &mut Seen,
) -> Outcome<Option<(usize, Vec<u8>)>> {
    match written(value, room) {
        Ok((answered, mut buffer)) if room >= size => {
            same("bytes behind what the text wrote", buffer[size..].iter().any(|byte| *byte != 0), false)?;
            buffer.truncate(size);
            Ok(Some((answered, buffer)))
        }
        Err(error) if room < size => {
            same("refusal of a short buffer there", published::refusal(error), ours::SHORT)?;
            refused(ours, ours::NO_ROOM)?;
            seen.add(Departure::B);
            Ok(None)
        }
        other => Err(format!("a room of {room} bytes for {size}: the text answers {:?}", other.map(|(answered, _)| answered))),
    }
}

fn data_path_read(bytes: &[u8], seen: &mut Seen) -> Outcome {
    let expected = readers::data_path(bytes)?;
    *seen = seen.with(expected.seen);
    let ours = ours::data_path_read(bytes)?;
    expected.is(&ours)?;
    if ours.refusal == 0 {
        data_path_write(&ours.record, 0, seen)?;
        same("what was read is consistent", ours::DATA_PATH_CALLS.consistent(&ours.record), (0, 1))?;
        same_record(&ours::data_path_mend(&ours.record).1, &ours.record)?;
    }
    Ok(())
}

fn channel_is_consistent(n: &[u32]) -> bool {
    n[5] == 0 || if n[6] == 0 { n[7] % 2 == 0 } else { n[7] % 2 == 1 && n[7] <= 7 }
}

fn data_path_write(n: &[u32], code: u32, seen: &mut Seen) -> Outcome {
    let calls = &ours::DATA_PATH_CALLS;
    // With a channel that is not consistent, all but the channel is compared, and then departure (c) looked at.
    let channel_fits = channel_is_consistent(n);
    let mut rest: [u32; DATA_PATH] = std::array::from_fn(|at| n[at]);
    if !channel_fits {
        rest[6..8].fill(0);
    }
    let there = published::data_path(&rest);
    let (answered, mut bytes) = written(there, 64).map_err(|error| format!("the text does not write: {error:?}"))?;
    bytes.truncate(answered);
    let read_back = bytes.pread::<DataPathStateTLV>(0);

    // A record is consistent where it says nothing that the text's record cannot say, and comes back as itself from the text.
    let pad = if n[1] == 1 { n[4] } else { 0 };
    let sayable = published::data_path_numbers(&there, pad) == rest;
    let consistent = channel_fits && sayable && read_back == Ok(there);
    same("consistent", calls.consistent(n), (0, consistent as u32))?;

    // Departure (g), its sizes: the text counts neither the length and options of a lone second word nor the extended word that its writer adds.
    let lone = there.unicast_options.is_none() && there.unicast_options_ext.is_some();
    let fields = there.log_trigger_id.is_some() || there.rlfc.is_some() || there.stats.is_some();
    let added = there.extended_flags.is_none() && fields;
    same("size that the text counts", there.size_in_bytes() + 6 * lone as usize + 2 * added as usize, answered)?;
    // Departure (g), its bytes: flag bit 12 under a lone second word, and the extended bits where none of their fields is there.
    let idle = if fields { None } else { there.extended_flags };
    let idle = idle.map(DataPathExtendedFlags::into_bits).filter(|bits| bits & 0x25 != 0);
    let mut expected = bytes.clone();
    if lone {
        same("flag bit 12 of the text", bytes[1] & 0x10, 0)?;
        expected[1] |= 0x10;
    }
    if let Some(bits) = idle {
        same("extended flags of the text", &bytes[answered - 2..], &bits.to_le_bytes())?;
        expected[answered - 2] &= !0x25;
    }
    if lone || added || idle.is_some() {
        seen.add(Departure::G);
    }
    if pad != 0 {
        same("pad of the text", bytes[4], 0)?;
        expected[4] = pad as u8;
        seen.add(Departure::Kept);
    }

    let (refusal, mended) = ours::data_path_mend(n);
    let reads_as = expected.pread::<DataPathStateTLV>(0).map_err(|error| format!("what must be written does not read back: {error:?}"))?;
    let mut must = published::data_path_numbers(&reads_as, pad);
    must[5..8].copy_from_slice(if n[5] == 1 { &n[5..8] } else { &[0; 3] });
    same("refusal of mending", refusal, 0)?;
    same_record(&mended, &must)?;
    if consistent {
        same("size of a consistent record", calls.size(n), (0, answered))?;
    } else {
        same("size of an inconsistent record", calls.size(n), (ours::INCONSISTENT, 0))?;
        refused(&calls.write(n, room(answered, code)), ours::INCONSISTENT)?;
    }

    // Departure (c): the text writes the channel as it is, and we refuse with 7.
    if !channel_fits {
        let (size, mut whole) = written(published::data_path(n), 64).map_err(|error| format!("the text does not write: {error:?}"))?;
        let at = if n[1] == 1 { 5 } else { 2 };
        same("channel that the text writes", u16::from_le_bytes([whole[at], whole[at + 1]]).into(), n[7] & if n[6] == 0 { 0xFF } else { 7 })?;
        whole[at..at + 2].copy_from_slice(&bytes[at..at + 2]);
        same("what the text writes with another channel", (size, &whole[..size]), (answered, &bytes[..]))?;
        same("consistent", calls.consistent(&mended), (0, 0))?;
        seen.add(Departure::C);
        return refused(&calls.write(&mended, room(answered, code)), ours::INCONSISTENT);
    }
    same("mended is consistent", calls.consistent(&mended), (0, 1))?;
    same("size of a mended record", calls.size(&mended), (0, answered))?;
    let room = room(answered, code);
    let ours = calls.write(&mended, room);
    if let Some((size, buffer)) = written_there(there, answered, room, &ours, seen)? {
        same("what the text writes into another room", (size, &buffer), (answered, &bytes))?;
        same_bytes(&ours, &expected)?;
        // The text's record as an item, against our item with the same value.
        let item: AWDLTLV<ReadMac, ReadLabels> = AWDLTLV::DataPathState(there);
        let (size, bytes) = written(item, answered + 3).map_err(|error| format!("the text does not write an item: {error:?}"))?;
        same_bytes(&ours::write_item(12, &buffer, size), &bytes)?;
    }
    Ok(())
}

fn synchronization_read(bytes: &[u8], seen: &mut Seen) -> Outcome {
    let expected = readers::synchronization(bytes)?;
    *seen = seen.with(expected.seen);
    let ours = ours::synchronization_read(bytes)?;
    expected.is(&ours)?;
    if ours.refusal == 0 {
        synchronization_write(&ours.record, 0, seen)?;
    }
    Ok(())
}
fn channel_sequence_read(bytes: &[u8], at: usize, seen: &mut Seen) -> Outcome {
    let expected = readers::channel_sequence(bytes, at)?;
    *seen = seen.with(expected.seen);
    let ours = ours::channel_sequence_read(bytes, at)?;
    expected.is(&ours)?;
    if ours.refusal == 0 {
        channel_sequence_write(&ours.record, 0, seen)?;
    }
    Ok(())
}
fn sequence_read(bytes: &[u8], at: usize, encoding: u32, seen: &mut Seen) -> Outcome {
    let ours = ours::sequence_read(bytes, at, encoding)?;
    readers::sequence(bytes, at, encoding).is(&ours)?;
    if ours.refusal == 0 {
        sequence_write(&ours.record, 0, seen)?;
    }
    Ok(())
}

/// The three kinds of record that end in a sequence. `before` is how many bytes stand before the entries, `lower` by how much the size that the
/// text's writer answers is too low, and `put` puts right what the text has no field for.
fn sequence_record<T: TryIntoCtx<Error = Error>>(
    calls: &ours::Record,
    (n, code): (&[u32], u32),
    (before, lower): (usize, usize),
    there: Option<T>,
    put: impl FnOnce(&mut [u8], &mut Seen) -> Outcome,
    seen: &mut Seen,
) -> Outcome {
    let own = &n[n.len() - SEQUENCE..];
    let Some(sequence) = published::sequence(own) else {
        // Departure (i): the text counts 2 bytes for an entry whose encoding is not listed.
        same("size of an unlisted encoding there", ChannelEncoding::from_bits(own[0] as u8).size(), 2)?;
        same("consistent, unlisted", calls.consistent(n), (ours::ENCODING, 0))?;
        same("size, unlisted", calls.size(n), (ours::ENCODING, 0))?;
        seen.add(Departure::I);
        return refused(&calls.write(n, room(before + 32, code)), ours::ENCODING);
    };
    let there = there.ok_or("the text has no such record")?;
    let size = before + 16 * usize::from(ChannelEncoding::from_bits(own[0] as u8).size());
    let kept = published::sequence_numbers(&sequence);
    let consistent = kept == own;
    same("consistent", calls.consistent(n), (0, consistent as u32))?;
    same("size", calls.size(n), if consistent { (0, size) } else { (ours::INCONSISTENT, 0) })?;
    if own[0] == 1 {
        // Departure (k): the text writes a legacy sequence.
        let (answered, bytes) = written(there, size).map_err(|error| format!("the text does not write a legacy sequence: {error:?}"))?;
        same("size that the text answers", answered + lower, size)?;
        same("legacy flags and channels that the text writes", bytes[before..].iter().copied().map(u32::from).eq(kept[1..].iter().copied()), true)?;
        seen.add(Departure::K);
        return refused(&calls.write(n, room(size, code)), ours::LEGACY_SEQUENCE);
    }
    if !consistent {
        // The text has no record with something in the bytes that are not used.
        return refused(&calls.write(n, room(size, code)), ours::INCONSISTENT);
    }
    let room = room(size, code);
    let ours = calls.write(n, room);
    if let Some((answered, mut bytes)) = written_there(there, size, room, &ours, seen)? {
        same("size that the text answers", answered + lower, size)?;
        put(&mut bytes, seen)?;
        same_bytes(&ours, &bytes)?;
    }
    Ok(())
}

fn sequence_write(n: &[u32], code: u32, seen: &mut Seen) -> Outcome {
    let own: &[u32; SEQUENCE] = n.try_into().unwrap();
    let there = published::sequence(n);
    sequence_record(&ours::SEQUENCE_CALLS, (n, code), (0, 0), there.clone(), |_, _| Ok(()), seen)?;
    let Some(there) = there else {
        same("entry, unlisted", ours::sequence_entry(own, 0), (ours::ENCODING, 0, [0; 3]))?;
        return same("conversion, unlisted", ours::sequence_to_simple(own), (ours::ENCODING, [0; SEQUENCE]));
    };
    same("size there", there.measure_with(&()), 16 * usize::from(there.channel_encoding().size()))?;
    // Each entry. Legacy flags are answered as they stand, also those above 0x3F, which the text drops.
    let corrected = published::corrected(&there);
    for (entry, corrected) in corrected.into_iter().enumerate() {
        let pair = if n[0] == 0 { [n[0], n[1 + entry], 0] } else { [n[0], n[1 + 2 * entry], n[2 + 2 * entry]] };
        same("entry", ours::sequence_entry(own, entry), (0, 1, pair))?;
        same("corrected channel of an entry", ours::channel(&pair), (0, corrected.into()))?;
    }
    same("entry 16", ours::sequence_entry(own, 16), (0, 0, [0; 3]))?;
    // The conversion has no counterpart; the channels that it gives are those of the text, where none wrapped.
    let wraps = (0..16).any(|entry| {
        let [flags, channel] = [n[1 + 2 * entry], n[2 + 2 * entry]];
        channel.abs_diff(corrected[entry].into()) != if matches!(flags & 3, 1 | 2) { 2 } else { 0 }
    });
    let must = if n[0] != 1 {
        (ours::ENCODING, [0; SEQUENCE])
    } else if published::sequence_numbers(&there) != n {
        (ours::INCONSISTENT, [0; SEQUENCE])
    } else if wraps {
        (ours::CORRECTED_CHANNEL, [0; SEQUENCE])
    } else {
        (0, published::sequence_numbers(&ChannelSequence::Simple(corrected)))
    };
    same("conversion", ours::sequence_to_simple(own), must)
}

/// What the wrapper has no field for, departure (j): the duplicate count and the fill channel, which are written as 0 there, and a step count of 255.
fn put_head(n: &[u32], head: &mut [u8], seen: &mut Seen) -> Outcome {
    let [low, high] = (n[2] as u16).to_le_bytes();
    same("bytes of the six that the wrapper has no field for", [head[2], head[4], head[5]], [0; 3])?;
    if n[1] == 255 {
        same("step count byte of the wrapper", head[3], 254)?;
    }
    if [n[0], n[2]] != [0; 2] || n[1] == 255 {
        seen.add(Departure::J);
    }
    (head[2], head[3], head[4], head[5]) = (n[0] as u8, n[1] as u8, low, high);
    Ok(())
}
/// The step count that is nearest to a record's, of those that the wrapper can hold.
fn with_step(n: &[u32], at: usize) -> Vec<u32> {
    let mut lower = n.to_vec();
    lower[at] = lower[at].min(254);
    lower
}

fn channel_sequence_write(n: &[u32], code: u32, seen: &mut Seen) -> Outcome {
    let there = published::channel_sequence(&with_step(n, 1));
    sequence_record(&ours::CHANNEL_SEQUENCE_CALLS, (n, code), (6, 0), there, |bytes, seen| put_head(n, bytes, seen), seen)
}

fn synchronization_write(n: &[u32], code: u32, seen: &mut Seen) -> Outcome {
    let there = published::synchronization(&with_step(n, 25));
    if let Some(there) = &there {
        let entries = there.channel_sequence.channel_sequence.measure_with(&());
        same("size there", there.measure_with(&()), 39 + entries)?;
    }
    let put = |bytes: &mut [u8], seen: &mut Seen| {
        // Departure (d): the size that the text answers is one too low, which `sequence_record` has looked at.
        seen.add(Departure::D);
        same("reserved byte of the text", bytes[28], 0)?;
        if n[21] != 0 {
            seen.add(Departure::Kept);
        }
        bytes[28] = n[21] as u8;
        put_head(&n[24..], &mut bytes[33..], seen)
    };
    sequence_record(&ours::SYNCHRONIZATION_CALLS, (n, code), (39, 1), there, put, seen)
}

fn channel(n: &[u32; 3], seen: &mut Seen) -> Outcome {
    let Some(channel) = published::channel(n) else {
        same("size of an unlisted encoding there", ChannelEncoding::from_bits(n[0] as u8).size(), 2)?;
        seen.add(Departure::I);
        return same("channel, unlisted", ours::channel(n), (ours::ENCODING, 0));
    };
    same("corrected channel", ours::channel(n), (0, channel.channel().into()))?;
    same("encoding there", channel.channel_encoding().into_bits().into(), n[0])?;
    // The text's fixed sequence has this channel sixteen times; what it writes is read by us as that.
    let fixed = ChannelSequence::fixed_channel_sequence(channel);
    let (size, bytes) = written(fixed.clone(), 32).map_err(|error| format!("the text does not write: {error:?}"))?;
    let ours = ours::sequence_read(&bytes[..size], 0, n[0])?;
    same_record(&ours.record, &published::sequence_numbers(&fixed))
}

fn tx_delta(phy: u32, target: u32, seen: &mut Seen) -> Outcome {
    let frame = published::frame(&[0, 0, phy, target], ());
    // Departure (e): across the roll-over the text panics, and we answer the gap modulo 2 to the 32nd.
    if phy < target {
        same("whether the text panics", catch_unwind(|| frame.tx_delta()).is_err(), true)?;
        seen.add(Departure::E);
        return same("gap", ours::tx_delta(phy, target), phy.wrapping_sub(target));
    }
    same("gap", u128::from(ours::tx_delta(phy, target)), frame.tx_delta().as_micros())
}

fn write_item(tlv_type: u32, value: &[u8], code: u32, seen: &mut Seen) -> Outcome {
    // Departure (h): what the text does here is not looked at.
    if value.len() > 65535 {
        seen.add(Departure::H);
        return refused(&ours::write_item(tlv_type, value, room(value.len() + 3, code)), ours::TOO_LONG);
    }
    let size = value.len() + 3;
    let room = room(size, code);
    let ours = ours::write_item(tlv_type, value, room);
    let item: AWDLTLV<ReadMac, ReadLabels> = AWDLTLV::Unknown(RawAWDLTLV { tlv_type: tlv_type as u8, slice: value, _phantom: PhantomData });
    same("size there", item.measure_with(&()), size)?;
    if let Some((answered, bytes)) = written_there(item, size, room, &ours, seen)? {
        same("size that the text answers", answered, size)?;
        same_bytes(&ours, &bytes)?;
    }
    Ok(())
}
type ReadMac<'a> = awdl_frame_parser::tlvs::sync_elect::ReadMACIterator<'a>;
type ReadLabels<'a> = awdl_frame_parser::common::ReadLabelIterator<'a>;

fn frame_read(bytes: &[u8], seen: &mut Seen) -> Outcome {
    let ours = ours::frame_read(bytes)?;
    let mut end = 0;
    let frame = match bytes.gread::<DefaultAWDLActionFrame>(&mut end) {
        Ok(frame) => frame,
        Err(error) => return same("refusal", ours.refusal, published::refusal(error)),
    };
    same("refusal", ours.refusal, 0)?;
    same("size", ours.size, end)?;
    same_record(&ours.record, &published::frame_numbers(&frame, bytes[3]))?;
    tx_delta(ours.record[2], ours.record[3], seen)?;
    frame_write(&ours.record, &bytes[end..], 0, seen)?;
    walk(frame.tagged_data, &bytes[end..], 0, seen)
}

fn frame_write(n: &[u32; 4], tail: &[u8], code: u32, seen: &mut Seen) -> Outcome {
    let frame = published::frame(n, ReadTLVs::new(tail));
    let size = frame.measure_with(&());
    let room = room(size, code);
    let ours = ours::frame_write(n, tail, room);
    if let Some((answered, mut bytes)) = written_there(frame, size, room, &ours, seen)? {
        same("size that the text answers", answered, size)?;
        same("reserved byte of the text", bytes[3], 0)?;
        if n[1] != 0 {
            seen.add(Departure::Kept);
        }
        bytes[3] = n[1] as u8;
        same_bytes(&ours, &bytes)?;
    }
    Ok(())
}

/// The items of a tail from a place on, how it ends, and the records of the three types that are read.
fn walk(there: ReadTLVs, tail: &[u8], from: usize, seen: &mut Seen) -> Outcome {
    if from > tail.len() {
        // The text has no such place. A step there is cut, and a search finds nothing.
        same("search past the end", ours::DATA_PATHS.next(tail, from), (0, [0; 4], [0; DATA_PATH]))?;
        same("search past the end", ours::SYNCHRONIZATIONS.next(tail, from), (0, [0; 4], [0; SYNCHRONIZATION]))?;
        same("search past the end", ours::CHANNEL_SEQUENCES.next(tail, from), (0, [0; 4], [0; CHANNEL_SEQUENCE]))?;
        return same("step past the end", ours::step(tail, from), (ours::CUT, [from, 0, 0, 0, 0]));
    }
    same("length of the tail there", there.measure_with(&()), tail.len() - from)?;
    let (mut items, mut at) = (vec![], from);
    for item in there.raw_tlv_iter() {
        let (length, value) = (item.slice.len(), at + 3);
        same("step", ours::step(tail, at), (ours::ITEM, [at, item.tlv_type.into(), length, value, value + length]))?;
        same("value", tail.get(value..value + length), Some(item.slice))?;
        items.push((at, item));
        at = value + length;
    }
    let end = if at == tail.len() { (ours::WHOLE, [0; 5]) } else { (ours::CUT, [at, 0, 0, 0, 0]) };
    same("end of the tail", ours::step(tail, at), end)?;

    let place = Tail { there, bytes: tail, from, items: &items };
    place.search::<DataPathStateTLV, DATA_PATH>(&ours::DATA_PATHS, readers::data_path, seen)?;
    place.search::<SynchronizationParametersTLV, SYNCHRONIZATION>(&ours::SYNCHRONIZATIONS, readers::synchronization, seen)?;
    place.search::<ChannelSequenceTLV, CHANNEL_SEQUENCE>(&ours::CHANNEL_SEQUENCES, |value| readers::channel_sequence(value, 0), seen)
}

struct Tail<'a, 'b> {
    there: ReadTLVs<'a>,
    bytes: &'a [u8],
    from: usize,
    items: &'b [(usize, RawAWDLTLV<'a>)],
}
impl<'a> Tail<'a, '_> {
    fn search<T: AwdlTlv + TryFromCtx<'a, Error = Error> + PartialEq, const N: usize>(
        &self,
        calls: &ours::Search,
        reader: impl Fn(&[u8]) -> Outcome<Expected<N>>,
        seen: &mut Seen,
    ) -> Outcome {
        let own_type = T::TLV_TYPE.into_bits();
        let mut theirs = self.there.get_tlvs::<T>();
        let (mut from, mut first) = (self.from, None);
        for (at, item) in self.items.iter().filter(|(_, item)| item.tlv_type == own_type) {
            let expected = reader(item.slice)?;
            // A departure of the reader reaches the search, which passes over what is refused; so it is one of the search.
            *seen = seen.with(expected.seen);
            if expected.accepted_there {
                let record = item.slice.pread::<T>(0).ok();
                same("record that the text's search gives", theirs.next() == record && record.is_some(), true)?;
            }
            let typed = DefaultAWDLTLV::try_from_ctx(&self.bytes[*at..], ());
            same(
                "typed item there",
                typed.as_ref().map(|(tlv, size)| (tlv.get_type().into_bits(), *size)).ok(),
                expected.accepted_there.then_some((own_type, item.slice.len() + 3)),
            )?;
            if expected.refusal == 0 {
                let must = (1, [*at, own_type.into(), item.slice.len(), at + 3 + item.slice.len()], expected.record);
                let (found, place, record) = calls.next::<N>(self.bytes, from);
                same("record found from a place on", (found, place), (must.0, must.1))?;
                same_record(&record, &must.2)?;
                from = place[3];
                first.get_or_insert(must);
            }
        }
        let none = (0, [0; 4], [0; N]);
        same("record behind the last", calls.next::<N>(self.bytes, from), none)?;
        same("whether the text's search gives more", theirs.next().is_some(), false)?;
        same("first record there", self.there.get_first_tlv::<T>() == self.there.get_tlvs::<T>().next(), true)?;
        if self.from == 0 {
            same("first record", calls.first::<N>(self.bytes), first.unwrap_or(none))?;
        }
        Ok(())
    }
}

/// Which channel to move to has no counterpart in the text, but for the corrected channels that are counted. `docs/ASK.md` has the order of refusals.
fn judge(bytes: &[u8], proposal: u32, permitted: usize) -> Outcome {
    let (sequences, permitted) = bytes.split_at(bytes.len() - permitted.min(bytes.len()));
    let lent: Vec<_> =
        sequences.chunks_exact(33).map(|lent| published::sequence(&lent.iter().map(|byte| u32::from(*byte)).collect::<Vec<_>>())).collect();
    let channels: Vec<u8> = lent.iter().flatten().flat_map(published::corrected).collect();
    let load = |channel: u8| channels.iter().filter(|corrected| **corrected == channel).count() as u32;
    let least = permitted.iter().map(|channel| load(*channel)).min();
    let own = permitted.iter().find(|channel| Some(load(**channel)) == least).copied().unwrap_or(0).into();

    let cut = sequences.len() % 33 != 0;
    let short = if cut { sequences.len() / 33 * 33 } else { 0 };
    let unlisted = lent.iter().any(Option::is_none);
    let refusal = |checks: &[(bool, u32)]| checks.iter().find(|(refused, _)| *refused).map_or(0, |(_, number)| *number);
    let of_load = [(cut, ours::SHORT), (lent.len() > 64, ours::TOO_MANY), (unlisted, ours::ENCODING)];
    let of_own = [of_load[0], (lent.len() > 64 || permitted.len() > 16, ours::TOO_MANY), of_load[2], (permitted.is_empty(), ours::NONE_PERMITTED)];
    let listed = permitted.iter().any(|channel| u32::from(*channel) == proposal);
    let of_judge = [(!listed, ours::NOT_PERMITTED), (Some(load(proposal as u8)) != least, ours::SMALLER_LOAD)];

    let number = refusal(&of_load);
    same("load", ours::channel_load(sequences, proposal), (number, short, if number == 0 { load(proposal as u8) } else { 0 }))?;
    let number = refusal(&of_own);
    same("own proposal", ours::own_proposal(sequences, permitted), (number, short, if number == 0 { own } else { 0 }))?;
    let number = refusal(&[&of_own[..], &of_judge].concat());
    same("judgement", ours::judge(sequences, permitted, proposal), (number, short, if number == ours::SMALLER_LOAD { own } else { 0 }))
}

/// A number that its field cannot hold: the text has no such record, and we refuse it with 7 before anything else is looked at.
fn too_wide(sort: u32, at: usize, up: u32, record: &[u32]) -> Outcome {
    let mut n = record.to_vec();
    n[at] = n[at].max(1) << up;
    let no = ours::INCONSISTENT;
    let calls = match sort {
        0 => &ours::DATA_PATH_CALLS,
        1 => &ours::SYNCHRONIZATION_CALLS,
        2 => &ours::CHANNEL_SEQUENCE_CALLS,
        3 => &ours::SEQUENCE_CALLS,
        4 => {
            let channel = [n[0], n[1], n[2]];
            return same("channel, too wide", ours::channel(&channel), (no, 0));
        }
        5 => return refused(&ours::frame_write(&[n[0], n[1], n[2], n[3]], &[], 64), no),
        _ => {
            same("load, too wide", ours::channel_load(&[], n[0]), (no, 0, 0))?;
            same("judgement, too wide", ours::judge(&[], &[1], n[0]), (no, 0, 0))?;
            same("sequence, too wide", ours::sequence_read(&[0; 32], 0, n[0])?.refusal, no)?;
            return refused(&ours::write_item(n[0], &[], 64), no);
        }
    };
    if sort == 0 {
        same("mended, too wide", ours::data_path_mend(&n), (no, [0; DATA_PATH]))?;
    }
    if let (3, Ok(sequence)) = (sort, n[..].try_into()) {
        same("entry, too wide", ours::sequence_entry(sequence, 0), (no, 0, [0; 3]))?;
        same("conversion, too wide", ours::sequence_to_simple(sequence), (no, [0; SEQUENCE]))?;
    }
    same("consistent, too wide", calls.consistent(&n), (no, 0))?;
    same("size, too wide", calls.size(&n), (no, 0))?;
    refused(&calls.write(&n, 128), no)
}
