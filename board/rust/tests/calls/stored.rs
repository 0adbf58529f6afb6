//! Asks the stored questions of `crates/ask` by these calls and compares with the stored answers, which were made by a second reading of the scope.
//! Each is asked over arrays of numbers, as `awdl.h` has it, and again by the types of this package, where these can express what is asked.
use crate::parse::{hex, show, stored, Fields, Words, CHANNEL, CHANNEL_SEQUENCE, DATA_PATH, FRAME, LONGEST, SEQUENCE, SYNCHRONIZATION};
use awdl::action_frame::{tx_delta, AWDLActionFrame, AWDLActionFrameSubType, PhyTxTime, TargetTxTime};
use awdl::tlvs::data_path::{ChannelMap, DataPathExtendedFlags, DataPathFlags, DataPathStateTLV, UnicastOptions};
use awdl::tlvs::sync_elect::{Channel, ChannelEncoding, ChannelSequence, ChannelSequenceTLV, LegacyFlags, SynchronizationParametersTLV};
use awdl::tlvs::{write_item, AWDLTLVType, AwdlTlv, Found, ReadTLVs, Step};
use awdl::{channel_judge, raw, Field, Refusal};
use std::collections::BTreeMap;
use std::fmt::Display;

/// The calls of `awdl.h` by the names of the questions. Every one of them has to be asked both ways.
#[rustfmt::skip]
const CALLS: &[&str] = &[
    "frame_read", "frame_write", "tx_delta", "write_item", "step", "first_data_path", "next_data_path", "first_synchronization",
    "next_synchronization", "first_channel_sequence", "next_channel_sequence", "data_path_read", "data_path_consistent", "data_path_mend",
    "data_path_size", "data_path_write", "synchronization_read", "synchronization_consistent", "synchronization_size", "synchronization_write",
    "channel_sequence_read", "channel_sequence_consistent", "channel_sequence_size", "channel_sequence_write", "sequence_read",
    "sequence_consistent", "sequence_size", "sequence_write", "sequence_entry", "sequence_to_simple", "channel", "judge", "own_proposal",
    "channel_load",
];

/// What the types of this package have besides, out of these calls or of their own.
#[rustfmt::skip]
const TYPED: &[&str] = &[
    "frame_tail", "step_with_value", "reader_next", "walk", "end", "all_data_paths", "all_synchronizations", "all_channel_sequences",
    "reader_first_data_path", "reader_first_synchronization", "reader_first_channel_sequence", "refusal", "encoding", "encoding_size",
    "entry_size", "legacy_flags", "support_channel", "channel_bandwidth", "band", "unicast_options", "extended_flags", "has", "constants",
];

/// The answers over numbers and by the types, where there are such.
type Said = (Option<String>, Option<String>);

fn both(numbers: String, typed: String) -> Said {
    (Some(numbers), Some(typed))
}

fn typed(line: String) -> Said {
    (None, Some(line))
}

/// The line of an answer that may be a refusal, whose numbers are those of `zero` then.
fn answer<T>(result: Result<T, Refusal>, zero: T, rest: impl FnOnce(T) -> String) -> String {
    let (number, offset) = result.as_ref().map_or_else(|why| (why.number(), why.offset()), |_| (0, 0));
    format!("{number} offset={offset}{}", rest(result.unwrap_or(zero)))
}

fn named(name: &str, value: impl Display) -> String {
    format!(" {name}={value}")
}

/// Of a reader that is told a place, an answer shows the place behind what was read; both kinds of calls answer the size.
fn reads<T: Field, const N: usize>(at: Option<usize>, fields: Fields, numbers: raw::Read<N>, record: Result<(T, usize), Refusal>) -> Said {
    let (number, offset, size, read) = numbers;
    let rest = |(record, size): ([u32; N], usize)| match at {
        Some(at) if size > 0 => named("next", at + size),
        Some(_) => named("next", 0),
        None => named("size", size),
    } + &show(fields, &record);
    both(format!("{number} offset={offset}{}", rest((read, size))), answer(record.map(|(record, size)| (record.to_raw(), size)), ([0; N], 0), rest))
}

fn found_line<T: Field, const N: usize>(fields: Fields, found: &Found<T>) -> String {
    let item = [found.at, found.tlv_type.into(), found.length, found.next];
    searched(fields, (1, item, found.record.to_raw::<N>()))
}

fn searched<const N: usize>(fields: Fields, (found, item, record): raw::Found<N>) -> String {
    let [at, tlv_type, length, next] = item;
    if found == 1 {
        return format!(" found at={at} type={tlv_type} length={length} next={next}{}", show(fields, &record));
    }
    assert_eq!((found, item, record), (0, [0; 4], [0; N]), "where nothing is found, everything is 0");
    let rest = if fields == DATA_PATH { String::new() } else { show(fields, &record) };
    format!(" nothing{rest}")
}

fn finds<T: Field, const N: usize>(fields: Fields, numbers: raw::Found<N>, record: Option<Found<T>>) -> Said {
    let typed = record.map_or_else(|| searched(fields, (0, [0; 4], [0; N])), |found| found_line::<T, N>(fields, &found));
    both(format!("0 offset=0{}", searched(fields, numbers)), format!("0 offset=0{typed}"))
}

fn finds_all<T: Field + AwdlTlv, const N: usize>(fields: Fields, tail: &[u8]) -> Said {
    let (mut line, mut records, mut next) = ("0 offset=0".to_string(), Vec::new(), T::first(tail));
    while let Some(found) = next {
        line += &found_line::<T, N>(fields, &found);
        next = T::next(tail, found.next);
        records.push(found.record.to_raw::<N>());
    }
    let iterated: Vec<[u32; N]> = ReadTLVs::new(tail).get_tlvs::<T>().map(|record| record.to_raw()).collect();
    assert_eq!(iterated, records, "the iterator gives the records of the search");
    typed(line + &named("records", records.len()))
}

fn asks<T, A: Clone, B: Display>(
    label: &str,
    (number, value): (u32, A),
    record: Option<T>,
    ask: impl Fn(&T) -> Result<B, Refusal>,
    rest: impl Fn(&A) -> String,
    zero: B,
) -> Said {
    let line = format!("{number} offset=0 {label}={}", rest(&value));
    (Some(line), record.map(|record| answer(ask(&record), zero, |value| named(label, value))))
}

fn consistent<T>(numbers: (u32, u32), record: Option<T>, ask: impl Fn(&T) -> Result<bool, Refusal>) -> Said {
    asks("consistent", numbers, record, |record| ask(record).map(u32::from), u32::to_string, 0)
}

fn size<T>(numbers: (u32, usize), record: Option<T>, ask: impl Fn(&T) -> Result<usize, Refusal>) -> Said {
    asks("size", numbers, record, ask, usize::to_string, 0)
}

fn writes<T>(
    buffer: &[u8],
    numbers: impl FnOnce(&mut [u8]) -> (u32, usize),
    record: Option<T>,
    write: impl FnOnce(&T, &mut [u8]) -> Result<usize, Refusal>,
) -> Said {
    let (mut first, mut second) = (buffer.to_vec(), buffer.to_vec());
    let (number, size) = numbers(&mut first);
    let line = format!("{number} offset=0 size={size} buffer={}", hex(&first));
    let typed = record.map(|record| {
        let written = write(&record, &mut second);
        answer(written, 0, |size| named("size", size) + &named("buffer", hex(&second)))
    });
    (Some(line), typed)
}

fn makes<T: Field, const N: usize>(fields: Fields, (number, made): (u32, [u32; N]), record: Option<Result<T, Refusal>>) -> Said {
    let typed = record.map(|record| answer(record.map(|record| record.to_raw()), [0; N], |record| show(fields, &record)));
    (Some(format!("{number} offset=0{}", show(fields, &made))), typed)
}

fn step_line(step: Step) -> (String, String) {
    match step {
        Step::Whole => (" whole".to_string(), hex(&[])),
        Step::Cut(at) => (format!(" cut at={at}"), hex(&[])),
        Step::Item(item) => {
            let line = format!(" item at={} type={} length={} next={}", item.at, item.tlv_type, item.slice.len(), item.next);
            (line, hex(item.slice))
        }
    }
}

fn walks(tail: &[u8], shown: bool) -> Said {
    let tail = ReadTLVs::new(tail);
    let (mut line, mut items, mut at) = ("0 offset=0".to_string(), 0, 0);
    for item in tail.raw_tlv_iter() {
        let (step, value) = step_line(Step::Item(item));
        line += &if shown { step + &named("value", value) } else { String::new() };
        (items, at) = (items + 1, item.next);
    }
    typed(line + &step_line(tail.step(at)).0 + &named("items", items))
}

fn refusal(name: &str, offset: usize, channel: u8) -> Option<Refusal> {
    Some(match name {
        "Short" => Refusal::Short(offset),
        "NotAction" => Refusal::NotAction,
        "NotVersion" => Refusal::NotVersion,
        "UnicastLength" => Refusal::UnicastLength,
        "Encoding" => Refusal::Encoding,
        "NoRoom" => Refusal::NoRoom,
        "Inconsistent" => Refusal::Inconsistent,
        "TooLong" => Refusal::TooLong,
        "ChannelCount" => Refusal::ChannelCount,
        "LegacySequence" => Refusal::LegacySequence,
        "CorrectedChannel" => Refusal::CorrectedChannel,
        "TooMany" => Refusal::TooMany,
        "NonePermitted" => Refusal::NonePermitted,
        "NotPermitted" => Refusal::NotPermitted,
        "SmallerLoad" => Refusal::SmallerLoad(channel),
        _ => return None,
    })
}

fn constants(group: &str) -> Option<String> {
    fn listed<T: Display>(named: &[(&str, T)]) -> String {
        named.iter().map(|(name, value)| format!(" {name}={value}")).collect()
    }
    use AWDLTLVType::*;
    #[rustfmt::skip]
    let types = [
        ("NULL", Null), ("SERVICE_RESPONSE", ServiceResponse), ("SYNCHRONIZATION_PARAMETERS", SynchronizationParameters),
        ("ELECTION_PARAMETERS", ElectionParameters), ("HT_CAPABILITIES", HTCapabilities), ("DATA_PATH_STATE", DataPathState), ("ARPA", Arpa),
        ("IEEE80211_CONTAINER", IEEE80211Container), ("CHANNEL_SEQUENCE", ChannelSequence), ("SYNCHRONIZATION_TREE", SynchronizationTree),
        ("VERSION", Version), ("ELECTION_PARAMETERS_V2", ElectionParametersV2), ("DATA_PATH_TLV_TYPE", DataPathStateTLV::TLV_TYPE),
        ("SYNCHRONIZATION_TLV_TYPE", SynchronizationParametersTLV::TLV_TYPE), ("CHANNEL_SEQUENCE_TLV_TYPE", ChannelSequenceTLV::TLV_TYPE),
    ];
    #[rustfmt::skip]
    let sizes = [
        ("HEADER_SIZE", AWDLActionFrame::HEADER_SIZE), ("DATA_PATH_MIN_SIZE", DataPathStateTLV::MIN_SIZE),
        ("DATA_PATH_MAX_SIZE", DataPathStateTLV::MAX_SIZE), ("SYNCHRONIZATION_MIN_SIZE", SynchronizationParametersTLV::MIN_SIZE),
        ("SYNCHRONIZATION_MAX_SIZE", SynchronizationParametersTLV::MAX_SIZE), ("CHANNEL_SEQUENCE_MIN_SIZE", ChannelSequenceTLV::MIN_SIZE),
        ("CHANNEL_SEQUENCE_MAX_SIZE", ChannelSequenceTLV::MAX_SIZE),
    ];
    Some(match group {
        "types" => {
            assert!(types.iter().all(|(_, value)| AWDLTLVType::from_bits(value.into_bits()) == *value));
            listed(&types.map(|(name, value)| (name, value.into_bits())))
        }
        "sizes" => listed(&sizes),
        "subtypes" => listed(&[("PSF", AWDLActionFrameSubType::PSF.into_bits()), ("MIF", AWDLActionFrameSubType::MIF.into_bits())]),
        "data_path_flags" => listed(DataPathFlags::NAMED),
        "extended_flags" => listed(DataPathExtendedFlags::NAMED) + &named("KEEP", DataPathExtendedFlags::KEEP),
        "unicast_options" => listed(UnicastOptions::NAMED) + &named("KEEP", UnicastOptions::KEEP),
        "channel_map" => listed(ChannelMap::NAMED) + &named("KEEP", ChannelMap::KEEP),
        "legacy_flags" => listed(LegacyFlags::NAMED) + &named("KEEP", LegacyFlags::KEEP),
        _ => return None,
    })
}

/// The answers to a question, or nothing where it is a bad one.
fn ask(name: &str, words: &mut Words) -> Option<Said> {
    let bits = |bits: u64| typed(format!("0 offset=0 bits={bits}"));
    let said = match name {
        "frame_read" => {
            let bytes = words.bytes()?;
            let header =
                |frame: &AWDLActionFrame| [frame.subtype.into_bits().into(), frame.reserved.into(), frame.phy_tx_time.0, frame.target_tx_time.0];
            let read = AWDLActionFrame::read(&bytes);
            if let Ok((frame, size)) = &read {
                assert_eq!(frame.tagged_data.bytes(), &bytes[*size..]);
            }
            let rest = |(frame, size): ([u32; 4], usize)| named("size", size) + &show(FRAME, &frame);
            let (number, offset, size, frame) = raw::frame_read(&bytes);
            let typed = answer(read.map(|(frame, size)| (header(&frame), size)), ([0; 4], 0), rest);
            both(format!("{number} offset={offset}{}", rest((frame, size))), typed)
        }
        "frame_write" => {
            let (frame, tail, buffer) = (words.record(FRAME)?, words.bytes()?, words.bytes()?);
            let made = AWDLActionFrame {
                subtype: AWDLActionFrameSubType::from_bits(frame[0] as u8),
                reserved: frame[1] as u8,
                phy_tx_time: PhyTxTime(frame[2]),
                target_tx_time: TargetTxTime(frame[3]),
                tagged_data: ReadTLVs::new(&tail),
            };
            writes(&buffer, |buffer| raw::frame_write(&frame, &tail, buffer), Some(made), |made, buffer| made.write(buffer))
        }
        "frame_tail" => {
            let bytes = words.bytes()?;
            (None, AWDLActionFrame::read(&bytes).ok().map(|(frame, _)| format!("0 offset=0 tail={}", hex(frame.tagged_data.bytes()))))
        }
        "tx_delta" => {
            let (phy, target) = (words.number(0xFFFF_FFFF)? as u32, words.number(0xFFFF_FFFF)? as u32);
            let line = |micros: u32| format!("0 offset=0 micros={micros}");
            both(line(raw::tx_delta(phy, target)), line(tx_delta(PhyTxTime(phy), TargetTxTime(target))))
        }
        "write_item" => {
            let (tlv_type, value, buffer) = (words.u8()?, words.bytes()?, words.bytes()?);
            let numbers = |buffer: &mut [u8]| raw::write_item(tlv_type.into(), &value, buffer);
            writes(&buffer, numbers, Some(()), |_, buffer| write_item(tlv_type, &value, buffer))
        }
        "step" => {
            let (tail, at) = (words.bytes()?, words.usize()?);
            let numbers = match raw::step(&tail, at) {
                (0, step) => {
                    assert_eq!(step, [0; 5], "at the end every number is 0");
                    " whole".to_string()
                }
                (1, [at, tlv_type, length, value, next]) => {
                    assert_eq!((value, next), (at + 3, at + 3 + length));
                    format!(" item at={at} type={tlv_type} length={length} next={next}")
                }
                (answer, step) => {
                    assert_eq!((answer, &step[1..]), (2, &[0; 4][..]), "beside a cut the other numbers are 0");
                    format!(" cut at={}", step[0])
                }
            };
            both(format!("0 offset=0{numbers}"), format!("0 offset=0{}", step_line(ReadTLVs::new(&tail).step(at)).0))
        }
        "step_with_value" | "reader_next" => {
            let (tail, at) = (words.bytes()?, words.usize()?);
            let (step, value) = step_line(ReadTLVs::new(&tail).step(at));
            typed(format!("0 offset=0{step} value={value}"))
        }
        "walk" => walks(&words.bytes()?, true),
        "end" => walks(&words.bytes()?, false),
        "first_data_path" => {
            let tail = words.bytes()?;
            finds(DATA_PATH, raw::first_data_path(&tail), DataPathStateTLV::first(&tail))
        }
        "next_data_path" | "reader_first_data_path" => {
            let (tail, at) = (words.bytes()?, words.usize()?);
            finds(DATA_PATH, raw::next_data_path(&tail, at), DataPathStateTLV::next(&tail, at))
        }
        "first_synchronization" => {
            let tail = words.bytes()?;
            finds(SYNCHRONIZATION, raw::first_synchronization(&tail), SynchronizationParametersTLV::first(&tail))
        }
        "next_synchronization" | "reader_first_synchronization" => {
            let (tail, at) = (words.bytes()?, words.usize()?);
            finds(SYNCHRONIZATION, raw::next_synchronization(&tail, at), SynchronizationParametersTLV::next(&tail, at))
        }
        "first_channel_sequence" => {
            let tail = words.bytes()?;
            finds(CHANNEL_SEQUENCE, raw::first_channel_sequence(&tail), ChannelSequenceTLV::first(&tail))
        }
        "next_channel_sequence" | "reader_first_channel_sequence" => {
            let (tail, at) = (words.bytes()?, words.usize()?);
            finds(CHANNEL_SEQUENCE, raw::next_channel_sequence(&tail, at), ChannelSequenceTLV::next(&tail, at))
        }
        "all_data_paths" => finds_all::<DataPathStateTLV, { raw::DATA_PATH }>(DATA_PATH, &words.bytes()?),
        "all_synchronizations" => finds_all::<SynchronizationParametersTLV, { raw::SYNCHRONIZATION }>(SYNCHRONIZATION, &words.bytes()?),
        "all_channel_sequences" => finds_all::<ChannelSequenceTLV, { raw::CHANNEL_SEQUENCE }>(CHANNEL_SEQUENCE, &words.bytes()?),
        "data_path_read" => {
            let bytes = words.bytes()?;
            reads(None, DATA_PATH, raw::data_path_read(&bytes), DataPathStateTLV::read(&bytes))
        }
        "data_path_consistent" => {
            let record = words.record(DATA_PATH)?;
            consistent(raw::data_path_consistent(&record), DataPathStateTLV::from_raw(&record).ok(), DataPathStateTLV::consistent)
        }
        "data_path_mend" => {
            let record = words.record(DATA_PATH)?;
            makes(DATA_PATH, raw::data_path_mend(&record), DataPathStateTLV::from_raw(&record).ok().map(|record| record.mend()))
        }
        "data_path_size" => {
            let record = words.record(DATA_PATH)?;
            size(raw::data_path_size(&record), DataPathStateTLV::from_raw(&record).ok(), DataPathStateTLV::size)
        }
        "data_path_write" => {
            let (record, buffer) = (words.record(DATA_PATH)?, words.bytes()?);
            let made = DataPathStateTLV::from_raw(&record).ok();
            writes(&buffer, |buffer| raw::data_path_write(&record, buffer), made, |made, buffer| made.write(buffer))
        }
        "synchronization_read" => {
            let bytes = words.bytes()?;
            reads(None, SYNCHRONIZATION, raw::synchronization_read(&bytes), SynchronizationParametersTLV::read(&bytes))
        }
        "synchronization_consistent" => {
            let record = words.record(SYNCHRONIZATION)?;
            let made = SynchronizationParametersTLV::from_raw(&record).ok();
            consistent(raw::synchronization_consistent(&record), made, SynchronizationParametersTLV::consistent)
        }
        "synchronization_size" => {
            let record = words.record(SYNCHRONIZATION)?;
            size(raw::synchronization_size(&record), SynchronizationParametersTLV::from_raw(&record).ok(), SynchronizationParametersTLV::size)
        }
        "synchronization_write" => {
            let (record, buffer) = (words.record(SYNCHRONIZATION)?, words.bytes()?);
            let made = SynchronizationParametersTLV::from_raw(&record).ok();
            writes(&buffer, |buffer| raw::synchronization_write(&record, buffer), made, |made, buffer| made.write(buffer))
        }
        "channel_sequence_read" => {
            let (bytes, at) = (words.bytes()?, words.usize()?);
            reads(Some(at), CHANNEL_SEQUENCE, raw::channel_sequence_read(&bytes, at), ChannelSequenceTLV::read(&bytes, at))
        }
        "channel_sequence_consistent" => {
            let record = words.record(CHANNEL_SEQUENCE)?;
            consistent(raw::channel_sequence_consistent(&record), ChannelSequenceTLV::from_raw(&record).ok(), ChannelSequenceTLV::consistent)
        }
        "channel_sequence_size" => {
            let record = words.record(CHANNEL_SEQUENCE)?;
            size(raw::channel_sequence_size(&record), ChannelSequenceTLV::from_raw(&record).ok(), ChannelSequenceTLV::size)
        }
        "channel_sequence_write" => {
            let (record, buffer) = (words.record(CHANNEL_SEQUENCE)?, words.bytes()?);
            let made = ChannelSequenceTLV::from_raw(&record).ok();
            writes(&buffer, |buffer| raw::channel_sequence_write(&record, buffer), made, |made, buffer| made.write(buffer))
        }
        "sequence_read" => {
            let (bytes, at, encoding) = (words.bytes()?, words.usize()?, words.u8()?);
            let read = ChannelEncoding::from_bits(encoding).and_then(|encoding| ChannelSequence::read(&bytes, at, encoding));
            reads(Some(at), SEQUENCE, raw::sequence_read(&bytes, at, encoding.into()), read)
        }
        "sequence_consistent" => {
            let record = words.record(SEQUENCE)?;
            consistent(raw::sequence_consistent(&record), ChannelSequence::from_raw(&record).ok(), ChannelSequence::consistent)
        }
        "sequence_size" => {
            let record = words.record(SEQUENCE)?;
            size(raw::sequence_size(&record), ChannelSequence::from_raw(&record).ok(), ChannelSequence::size)
        }
        "sequence_write" => {
            let (record, buffer) = (words.record(SEQUENCE)?, words.bytes()?);
            let made = ChannelSequence::from_raw(&record).ok();
            writes(&buffer, |buffer| raw::sequence_write(&record, buffer), made, |made, buffer| made.write(buffer))
        }
        "sequence_entry" => {
            let (record, entry) = (words.record(SEQUENCE)?, words.usize()?);
            let rest = |channel: Option<[u32; 3]>| channel.map_or(" nothing".to_string(), |channel| show(CHANNEL, &channel));
            let (number, found, channel) = raw::sequence_entry(&record, entry);
            let shown = if number == 0 && found == 0 {
                assert_eq!(channel, [0; 3]);
                rest(None)
            } else {
                assert_eq!(found, u32::from(number == 0));
                rest(Some(channel))
            };
            let made = ChannelSequence::from_raw(&record).ok();
            let typed = made.map(|made| answer(made.entry(entry).map(|channel| channel.map(|channel| channel.to_raw())), Some([0; 3]), rest));
            (Some(format!("{number} offset=0{shown}")), typed)
        }
        "sequence_to_simple" => {
            let record = words.record(SEQUENCE)?;
            makes(SEQUENCE, raw::sequence_to_simple(&record), ChannelSequence::from_raw(&record).ok().map(|made| made.to_simple()))
        }
        "channel" => {
            let record = words.record(CHANNEL)?;
            asks("channel", raw::channel(&record), Channel::from_raw(&record).ok(), Channel::channel, u32::to_string, 0)
        }
        "judge" => {
            let (sequences, permitted, proposal) = (words.bytes()?, words.bytes()?, words.u8()?);
            let (number, offset, own) = raw::judge(&sequences, &permitted, proposal.into());
            let judged = channel_judge::judge(&sequences, &permitted, proposal);
            let typed = judged.err().map_or((0, 0, 0), |why| (why.number(), why.offset(), why.channel()));
            both(format!("{number} offset={offset} own={own}"), format!("{} offset={} own={}", typed.0, typed.1, typed.2))
        }
        "own_proposal" => {
            let (sequences, permitted) = (words.bytes()?, words.bytes()?);
            let (number, offset, channel) = raw::own_proposal(&sequences, &permitted);
            let typed = answer(channel_judge::own_proposal(&sequences, &permitted), 0, |channel| named("channel", channel));
            both(format!("{number} offset={offset} channel={channel}"), typed)
        }
        "channel_load" => {
            let (sequences, channel) = (words.bytes()?, words.u8()?);
            let (number, offset, load) = raw::channel_load(&sequences, channel.into());
            let typed = answer(channel_judge::channel_load(&sequences, channel), 0, |load| named("load", load));
            both(format!("{number} offset={offset} load={load}"), typed)
        }
        "refusal" => {
            let why = (words.text()?, words.usize()?, words.u8()?);
            let why = refusal(why.0, why.1, why.2)?;
            typed(format!("{} offset={} channel={}", why.number(), why.offset(), why.channel()))
        }
        "encoding" => typed(answer(ChannelEncoding::from_bits(words.u8()?).map(ChannelEncoding::into_bits), 0, |bits| named("encoding", bits))),
        "encoding_size" => typed(answer(ChannelEncoding::from_bits(words.u8()?).map(ChannelEncoding::size), 0, |size| named("size", size))),
        "entry_size" => {
            let kinds = [("simple", ChannelEncoding::Simple), ("legacy", ChannelEncoding::Legacy), ("opclass", ChannelEncoding::OpClass)];
            let kind = words.text()?;
            let (_, encoding) = kinds.into_iter().find(|(name, _)| *name == kind)?;
            typed(format!("0 offset=0 size={}", encoding.size()))
        }
        "legacy_flags" => bits(LegacyFlags::from_bits(words.u8()?).0.into()),
        "support_channel" => bits(LegacyFlags(words.u8()?).support_channel().into_bits().into()),
        "channel_bandwidth" => bits(LegacyFlags(words.u8()?).channel_bandwidth().into_bits().into()),
        "band" => bits(LegacyFlags(words.u8()?).band().into_bits().into()),
        "unicast_options" => bits(UnicastOptions::from_bits(words.number(0xFFFF_FFFF)? as u32).0.into()),
        "extended_flags" => bits(DataPathExtendedFlags::from_bits(words.number(0xFFFF)? as u16).0.into()),
        "has" => {
            let (word, mask) = (words.number(0xFFFF)? as u16, words.number(0xFFFF)? as u16);
            typed(format!("0 offset=0 has={}", u32::from(DataPathFlags(word).has(mask))))
        }
        "constants" => typed(format!("0 offset=0{}", constants(words.text()?)?)),
        _ => unreachable!("{name} is not one of those that are asked"),
    };
    words.end().map(|()| said)
}

#[test]
fn stored_answers() {
    let (mut numbers, mut types, mut bad) = (BTreeMap::new(), BTreeMap::new(), 0);
    let mut differ = Vec::new();
    for (question, expected) in stored() {
        let mut words = Words::of(&question);
        let Some(name) = words.text().and_then(|word| CALLS.iter().chain(TYPED).find(|name| **name == word)) else { continue };
        let said = if question.len() > LONGEST { None } else { ask(name, &mut words) };
        let mut compare = |how: &str, line: &str| {
            if line != expected {
                differ.push(format!("{how}: {}\n  stored   {expected}\n  answered {line}", String::from_utf8_lossy(&question)));
            }
        };
        match said {
            None => {
                bad += 1;
                compare("bad", "bad question");
            }
            Some((over_numbers, by_types)) => {
                for (how, line, counts) in [("numbers", over_numbers, &mut numbers), ("types", by_types, &mut types)] {
                    if let Some(line) = line {
                        *counts.entry(*name).or_insert(0) += 1;
                        compare(how, &line);
                    }
                }
            }
        }
    }
    for name in CALLS.iter().chain(TYPED) {
        println!("{name}: {} over numbers, {} by types", numbers.get(name).unwrap_or(&0), types.get(name).unwrap_or(&0));
    }
    let sum = |counts: &BTreeMap<&str, usize>| counts.values().sum::<usize>();
    println!("{} over numbers, {} by types, {bad} bad questions, {} differ", sum(&numbers), sum(&types), differ.len());
    assert!(differ.is_empty(), "{} differ, the first of them\n{}", differ.len(), differ[..differ.len().min(5)].join("\n"));
    assert!(CALLS.iter().all(|name| numbers.contains_key(name) && types.contains_key(name)), "every call is asked");
    assert!(TYPED.iter().all(|name| types.contains_key(name)), "everything else is asked by types");
}
