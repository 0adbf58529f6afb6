//! The declarations of this package held against those of `awdl.h`: the calls, what they are given, and the numbers of each record.
use crate::parse::{Fields, CHANNEL, CHANNEL_SEQUENCE, DATA_PATH, FRAME, SEQUENCE, SYNCHRONIZATION};
use awdl::common::MACAddress;
use awdl::tlvs::data_path::{
    ChannelMap, CountryCode, DataPathChannel, DataPathExtendedFlags, DataPathFlags, DataPathStateTLV, DataPathStats, UnicastOptions,
};
use awdl::tlvs::sync_elect::{Channel, ChannelSequence, ChannelSequenceTLV, LegacyFlags, SynchronizationParametersTLV};
use awdl::Refusal::*;
use awdl::{raw, Field};
use std::collections::BTreeMap;

const HEADER: &str = include_str!("../../../awdl.h");
const DECLARED: &str = include_str!("../../src/raw.rs");

/// The text without what stands between two marks.
fn without(text: &str, open: &str, close: &str) -> String {
    let mut parts = text.split(open);
    let first = parts.next().unwrap_or("").to_string();
    first + &parts.map(|part| part.split_once(close).map_or("", |(_, rest)| rest)).collect::<String>()
}

/// The calls by name, each with the text between its parentheses, its words a space apart.
fn calls(text: &str, before: &str) -> BTreeMap<String, Vec<String>> {
    let rest = text.split(before).skip(1).filter(|rest| rest.starts_with("awdl_"));
    rest.map(|rest| {
        let (name, rest) = rest.split_once('(').unwrap();
        let given = rest.split_once(')').unwrap().0.trim().trim_end_matches(',');
        (name.to_string(), given.split(',').map(|one| one.split_whitespace().collect::<Vec<_>>().join(" ")).collect())
    })
    .collect()
}

/// The type of a parameter for C, as this package writes it.
fn in_rust(parameter: &str) -> String {
    let (constant, kind) = match parameter.strip_prefix("const ") {
        Some(rest) => ("&", rest),
        None => ("&mut ", parameter),
    };
    if let Some((_, length)) = kind.split_once('[') {
        let record = match length.trim_end_matches("_NUMBERS]") {
            "AWDL_FRAME" => "Frame",
            "AWDL_CHANNEL" => "Channel",
            "AWDL_SEQUENCE" => "Sequence",
            "AWDL_CHANNEL_SEQUENCE" => "ChannelSequence",
            "AWDL_SYNCHRONIZATION" => "Synchronization",
            "AWDL_DATA_PATH" => "DataPath",
            "AWDL_FOUND" => "Item",
            "AWDL_STEP" => "[usize; STEP]",
            other => panic!("{other} is no length of a record"),
        };
        let numbers = if ["Item", "[usize; STEP]"].contains(&record) { "size_t " } else { "uint32_t " };
        assert!(kind.starts_with(numbers), "{parameter}");
        return format!("{constant}{record}");
    }
    let kind = match kind.rsplit_once(' ').unwrap() {
        ("uint8_t", name) if name.starts_with('*') => return if constant == "&" { "Bytes" } else { "Buffer" }.to_string(),
        ("size_t", _) => "usize",
        ("uint32_t", _) => "u32",
        _ => panic!("{parameter}"),
    };
    if parameter.contains('*') {
        format!("{constant}{kind}")
    } else {
        kind.to_string()
    }
}

#[test]
fn declarations() {
    let header = calls(&without(HEADER, "/*", "*/"), "\nuint32_t ");
    let declared = calls(DECLARED, "pub fn ");
    assert_eq!(header.keys().collect::<Vec<_>>(), declared.keys().collect::<Vec<_>>());
    assert_eq!(header.len(), 34);
    for (name, given) in &header {
        let ours: Vec<_> = declared[name].iter().map(|one| one.split_once(": ").unwrap().1.to_string()).collect();
        assert_eq!(given.iter().map(|one| in_rust(one)).collect::<Vec<_>>(), ours, "{name}");
    }
}

/// The names of the header's enums with their numbers.
fn enumerators() -> BTreeMap<String, usize> {
    let mut all = BTreeMap::new();
    for body in without(HEADER, "/*", "*/").split("enum {").skip(1) {
        let mut next = 0;
        for one in body.split_once('}').unwrap().0.split(',').map(str::trim).filter(|one| !one.is_empty()) {
            let (name, value) = one.split_once(" = ").unwrap_or((one, ""));
            let part = |part: &str| part.parse().unwrap_or_else(|_| all[part]);
            next = if value.is_empty() { next } else { value.split(" + ").map(part).sum() };
            all.insert(name.to_string(), next);
            next += 1;
        }
    }
    all
}

#[test]
fn places_of_fields() {
    let names = enumerators();
    let records: [(&str, Fields, usize); 6] = [
        ("FRAME", FRAME, raw::FRAME),
        ("CHANNEL", CHANNEL, raw::CHANNEL),
        ("SEQUENCE", SEQUENCE, raw::SEQUENCE),
        ("CHANNEL_SEQUENCE", CHANNEL_SEQUENCE, raw::CHANNEL_SEQUENCE),
        ("SYNCHRONIZATION", SYNCHRONIZATION, raw::SYNCHRONIZATION),
        ("DATA_PATH", DATA_PATH, raw::DATA_PATH),
    ];
    for (record, fields, numbers) in records {
        let mut place = 0;
        for (field, kind) in fields {
            let name = format!("AWDL_{record}_{}", field.to_uppercase());
            assert_eq!(names.get(&name), Some(&place), "{name}");
            place += kind.numbers();
        }
        assert_eq!((place, names[&format!("AWDL_{record}_NUMBERS")]), (numbers, numbers), "{record}");
    }
    assert_eq!((names["AWDL_STEP_NUMBERS"], names["AWDL_FOUND_NUMBERS"]), (raw::STEP, raw::FOUND));
    #[rustfmt::skip]
    let refusals = [
        ("SHORT", Short(0)), ("NOT_ACTION", NotAction), ("NOT_VERSION", NotVersion), ("UNICAST_LENGTH", UnicastLength), ("ENCODING", Encoding),
        ("NO_ROOM", NoRoom), ("INCONSISTENT", Inconsistent), ("TOO_LONG", TooLong), ("CHANNEL_COUNT", ChannelCount),
        ("LEGACY_SEQUENCE", LegacySequence), ("CORRECTED_CHANNEL", CorrectedChannel), ("TOO_MANY", TooMany), ("NONE_PERMITTED", NonePermitted),
        ("NOT_PERMITTED", NotPermitted), ("SMALLER_LOAD", SmallerLoad(0)),
    ];
    refusals.iter().for_each(|(name, why)| assert_eq!(names[&format!("AWDL_{name}")], why.number().into(), "{name}"));
}

// Reading and writing go through the same list of fields, so that two of them changed round would not show there. Here each has a value of its own.
#[test]
fn fields_by_name() {
    let names = enumerators();
    let check = |record: &str, array: &[u32], expected: &[(&str, &[u32])]| {
        for (field, numbers) in expected {
            let place = names[&format!("AWDL_{record}_{}", field.to_uppercase())];
            assert_eq!(&&array[place..place + numbers.len()], numbers, "{record} {field}");
        }
        let told: usize = expected.iter().map(|(_, numbers)| numbers.len()).sum();
        assert_eq!(told, array.len(), "every number of {record} is told");
    };
    let entries: [(u8, u8); 16] = std::array::from_fn(|n| (100 + n as u8, 200 + n as u8));
    let bytes: Vec<u32> = entries.iter().flat_map(|(first, second)| [u32::from(*first), u32::from(*second)]).collect();
    let legacy = ChannelSequence::Legacy(entries.map(|(flags, channel)| (LegacyFlags(flags), channel)));
    let simple: Vec<u32> = (1..=16).chain([0; 16]).collect();
    let sequences = [
        (ChannelSequence::Simple(std::array::from_fn(|n| n as u8 + 1)), 0, &simple),
        (legacy, 1, &bytes),
        (ChannelSequence::OpClass(entries), 3, &bytes),
    ];
    for (sequence, encoding, bytes) in sequences {
        check("SEQUENCE", &sequence.to_raw::<{ raw::SEQUENCE }>(), &[("encoding", &[encoding]), ("bytes", bytes)]);
        assert_eq!(sequence.lent().map(u32::from), sequence.to_raw());
    }
    let channels = [
        (Channel::Simple { channel: 7 }, [0, 7, 0]),
        (Channel::Legacy { flags: LegacyFlags(8), channel: 9 }, [1, 8, 9]),
        (Channel::OpClass { channel: 10, opclass: 11 }, [3, 10, 11]),
    ];
    for (channel, [encoding, first, second]) in channels {
        check("CHANNEL", &channel.to_raw::<{ raw::CHANNEL }>(), &[("encoding", &[encoding]), ("first", &[first]), ("second", &[second])]);
    }
    let channels = ChannelSequenceTLV { duplicate_count: 51, step_count: 52, fill_channel: 1053, channel_sequence: legacy };
    #[rustfmt::skip]
    let behind: [(&str, &[u32]); 5] =
        [("duplicate_count", &[51]), ("step_count", &[52]), ("fill_channel", &[1053]), ("encoding", &[1]), ("bytes", &bytes)];
    check("CHANNEL_SEQUENCE", &channels.to_raw::<{ raw::CHANNEL_SEQUENCE }>(), &behind);
    #[rustfmt::skip]
    let synchronization = SynchronizationParametersTLV {
        next_channel: 1, tx_counter: 1002, master_channel: 3, guard_time: 4, aw_period: 1005, af_period: 1006, awdl_flags: 1007,
        aw_ext_length: 1008, aw_common_length: 1009, remaining_aw_length: 1010, min_ext_count: 11, max_multicast_ext_count: 12,
        max_unicast_ext_count: 13, max_af_ext_count: 14, master_address: MACAddress([15, 16, 17, 18, 19, 20]), presence_mode: 21, reserved: 22,
        aw_seq_number: 1023, ap_beacon_alignment_delta: 1024, channel_sequence: channels,
    };
    #[rustfmt::skip]
    let mut expected: Vec<(&str, &[u32])> = vec![
        ("next_channel", &[1]), ("tx_counter", &[1002]), ("master_channel", &[3]), ("guard_time", &[4]), ("aw_period", &[1005]),
        ("af_period", &[1006]), ("awdl_flags", &[1007]), ("aw_ext_length", &[1008]), ("aw_common_length", &[1009]),
        ("remaining_aw_length", &[1010]), ("min_ext_count", &[11]), ("max_multicast_ext_count", &[12]), ("max_unicast_ext_count", &[13]),
        ("max_af_ext_count", &[14]), ("master_address", &[15, 16, 17, 18, 19, 20]), ("presence_mode", &[21]), ("reserved", &[22]),
        ("aw_seq_number", &[1023]), ("ap_beacon_alignment_delta", &[1024]),
    ];
    expected.extend(behind);
    check("SYNCHRONIZATION", &synchronization.to_raw::<{ raw::SYNCHRONIZATION }>(), &expected);
    for (kind, number, channel) in [(0, 7, DataPathChannel::SingleChannel { channel: 7 }), (1, 1007, DataPathChannel::ChannelMap(ChannelMap(1007)))] {
        let record = DataPathStateTLV {
            flags: DataPathFlags(1001),
            country_code: Some(CountryCode { first: 2, second: 3, pad: 4 }),
            channel_map: Some(channel),
            infra_bssid_channel: Some((MACAddress([8, 9, 10, 11, 12, 13]), 1014)),
            infra_address: Some(MACAddress([15, 16, 17, 18, 19, 20])),
            awdl_address: Some(MACAddress([21, 22, 23, 24, 25, 26])),
            unicast_options: Some(UnicastOptions(100_027)),
            unicast_options_ext: Some(100_028),
            extended_flags: Some(DataPathExtendedFlags(1029)),
            rlfc: Some(100_030),
            log_trigger_id: Some(1031),
            stats: Some(DataPathStats { msec_since_activation: 100_032, aw_seq_counter: 100_033, pay_update_coutner: 100_034 }),
        };
        #[rustfmt::skip]
        let expected: [(&str, &[u32]); 29] = [
            ("flags", &[1001]), ("country_code", &[1]), ("country_first", &[2]), ("country_second", &[3]), ("country_pad", &[4]),
            ("channel_map", &[1]), ("channel_kind", &[kind]), ("channel", &[number]), ("infra_bssid_channel", &[1]),
            ("infra_bssid", &[8, 9, 10, 11, 12, 13]), ("infra_channel", &[1014]), ("infra_address", &[1]), ("infra", &[15, 16, 17, 18, 19, 20]),
            ("awdl_address", &[1]), ("awdl", &[21, 22, 23, 24, 25, 26]), ("unicast_options", &[1]), ("options", &[100_027]),
            ("unicast_options_ext", &[1]), ("ext", &[100_028]), ("extended_flags", &[1]), ("extended", &[1029]), ("rlfc", &[1]),
            ("rlfc_word", &[100_030]), ("log_trigger_id", &[1]), ("trigger_id", &[1031]), ("stats", &[1]), ("msec_since_activation", &[100_032]),
            ("aw_seq_counter", &[100_033]), ("pay_update_coutner", &[100_034]),
        ];
        let array = record.to_raw::<{ raw::DATA_PATH }>();
        check("DATA_PATH", &array, &expected);
        assert_eq!(DataPathStateTLV::from_raw(&array), Ok(record));
    }
    assert_eq!(SynchronizationParametersTLV::from_raw(&synchronization.to_raw::<{ raw::SYNCHRONIZATION }>()), Ok(synchronization));
}
