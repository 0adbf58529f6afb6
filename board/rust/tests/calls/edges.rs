//! Numbers that their fields cannot hold, and buffers behind a refusal.
use crate::parse::{most, Fields, CHANNEL, CHANNEL_SEQUENCE, DATA_PATH, FRAME, SEQUENCE, SYNCHRONIZATION};
use awdl::common::MACAddress;
use awdl::tlvs::data_path::{ChannelMap, CountryCode, DataPathChannel, DataPathStateTLV};
use awdl::tlvs::sync_elect::{ChannelSequence, ChannelSequenceTLV, LegacyFlags, SynchronizationParametersTLV};
use awdl::tlvs::{write_item, ReadTLVs};
use awdl::{raw, Field, Refusal};

const INCONSISTENT: u32 = 7;

/// Every array that is the given one but for one number, which its field cannot hold.
fn spoilt<const N: usize>(fields: Fields, record: [u32; N]) -> Vec<[u32; N]> {
    let mut all = Vec::new();
    let mut at = 0;
    for (_, kind) in fields {
        for place in at..at + kind.numbers() {
            let most = most(*kind, &record[..at]);
            for number in [most.wrapping_add(1), 1 << 31, u32::MAX].into_iter().filter(|number| *number > most) {
                let mut other = record;
                other[place] = number;
                all.push(other);
            }
        }
        at += kind.numbers();
    }
    assert_eq!(at, N);
    all
}

/// A writer that refuses has to answer size 0 and to leave the buffer alone.
fn refuses(number: u32, buffer_length: usize, write: impl FnOnce(&mut [u8]) -> (u32, usize)) {
    let before: Vec<u8> = (0..buffer_length).map(|n| n as u8 ^ 0xA5).collect();
    let mut buffer = before.clone();
    assert_eq!(write(&mut buffer), (number, 0));
    assert_eq!(buffer, before);
}

fn with<const N: usize>(record: [u32; N], place: usize, number: u32) -> [u32; N] {
    let mut other = record;
    other[place] = number;
    other
}

#[test]
fn numbers_that_a_field_cannot_hold() {
    let mut tried = 0;
    let data_paths = [[0; raw::DATA_PATH], with([0; raw::DATA_PATH], 6, 1), DataPathStateTLV::read(&[0, 2, 0x24, 0]).unwrap().0.to_raw()];
    for record in data_paths.into_iter().flat_map(|record| spoilt(DATA_PATH, record)) {
        assert_eq!(raw::data_path_consistent(&record), (INCONSISTENT, 0), "{record:?}");
        assert_eq!(raw::data_path_mend(&record), (INCONSISTENT, [0; raw::DATA_PATH]), "{record:?}");
        assert_eq!(raw::data_path_size(&record), (INCONSISTENT, 0), "{record:?}");
        [0, 1, 64].into_iter().for_each(|room| refuses(INCONSISTENT, room, |buffer| raw::data_path_write(&record, buffer)));
        assert_eq!(DataPathStateTLV::from_raw(&record), Err(Refusal::Inconsistent));
        tried += 1;
    }
    // An encoding that is not listed, or a legacy one, is not looked at before such a number.
    for encoding in [0, 1, 2, 3] {
        for record in spoilt(SYNCHRONIZATION, with([0; raw::SYNCHRONIZATION], 27, encoding)) {
            assert_eq!(raw::synchronization_consistent(&record), (INCONSISTENT, 0), "{record:?}");
            assert_eq!(raw::synchronization_size(&record), (INCONSISTENT, 0), "{record:?}");
            [0, 80].into_iter().for_each(|room| refuses(INCONSISTENT, room, |buffer| raw::synchronization_write(&record, buffer)));
            tried += 1;
        }
        for record in spoilt(CHANNEL_SEQUENCE, with([0; raw::CHANNEL_SEQUENCE], 3, encoding)) {
            assert_eq!(raw::channel_sequence_consistent(&record), (INCONSISTENT, 0), "{record:?}");
            assert_eq!(raw::channel_sequence_size(&record), (INCONSISTENT, 0), "{record:?}");
            [0, 80].into_iter().for_each(|room| refuses(INCONSISTENT, room, |buffer| raw::channel_sequence_write(&record, buffer)));
            tried += 1;
        }
        for record in spoilt(SEQUENCE, with([0; raw::SEQUENCE], 0, encoding)) {
            assert_eq!(raw::sequence_consistent(&record), (INCONSISTENT, 0), "{record:?}");
            assert_eq!(raw::sequence_size(&record), (INCONSISTENT, 0), "{record:?}");
            assert_eq!(raw::sequence_to_simple(&record), (INCONSISTENT, [0; raw::SEQUENCE]), "{record:?}");
            [0, 15, 16, usize::MAX].into_iter().for_each(|entry| assert_eq!(raw::sequence_entry(&record, entry), (INCONSISTENT, 0, [0; 3])));
            [0, 80].into_iter().for_each(|room| refuses(INCONSISTENT, room, |buffer| raw::sequence_write(&record, buffer)));
            tried += 1;
        }
        for record in spoilt(CHANNEL, [encoding, 0, 0]) {
            assert_eq!(raw::channel(&record), (INCONSISTENT, 0), "{record:?}");
            tried += 1;
        }
    }
    for record in spoilt(FRAME, [0; raw::FRAME]) {
        [0, 80].into_iter().for_each(|room| refuses(INCONSISTENT, room, |buffer| raw::frame_write(&record, &[1, 2], buffer)));
        tried += 1;
    }
    println!("{tried} arrays with one number that its field cannot hold");
    assert!(tried > 1000);
}

#[test]
fn numbers_that_stand_alone() {
    let long = vec![0; 65_536];
    for number in [256, 511, 1 << 31, u32::MAX] {
        // Each of these calls has another reason to refuse as well, which is not looked at.
        [0, 80].into_iter().for_each(|room| refuses(INCONSISTENT, room, |buffer| raw::write_item(number, &long, buffer)));
        for (bytes, at) in [(&[][..], 0), (&[0; 40][..], 0), (&[0; 40][..], usize::MAX)] {
            assert_eq!(raw::sequence_read(bytes, at, number), (INCONSISTENT, 0, 0, [0; raw::SEQUENCE]));
        }
        for (sequences, permitted) in [(&[][..], &[36][..]), (&[0; 34][..], &[][..]), (&[2; 33][..], &[0; 17][..])] {
            assert_eq!(raw::judge(sequences, permitted, number), (INCONSISTENT, 0, 0));
            assert_eq!(raw::channel_load(sequences, number), (INCONSISTENT, 0, 0));
        }
    }
}

#[test]
fn a_refusal_leaves_the_buffer_alone() {
    let some = CountryCode { first: b'D', second: b'E', pad: 0 };
    let data_path = DataPathStateTLV { country_code: Some(some), ..Default::default() }.mend().unwrap();
    let record = SynchronizationParametersTLV::default();
    let sequence = ChannelSequence::OpClass([(36, 81); 16]);
    let channels = ChannelSequenceTLV { channel_sequence: sequence, ..Default::default() };
    type Write = Box<dyn Fn(&mut [u8]) -> Result<usize, Refusal>>;
    let writers: [(usize, Write); 5] = [
        (5, Box::new(move |buffer| data_path.write(buffer))),
        (55, Box::new(move |buffer| record.write(buffer))),
        (32, Box::new(move |buffer| sequence.write(buffer))),
        (38, Box::new(move |buffer| channels.write(buffer))),
        (6, Box::new(|buffer| write_item(7, &[1, 2, 3], buffer))),
    ];
    for (size, write) in writers {
        for room in 0..size + 3 {
            let mut buffer = vec![0xEE; room];
            let written = write(&mut buffer);
            assert_eq!(written, if room < size { Err(Refusal::NoRoom) } else { Ok(size) });
            assert!(buffer[written.unwrap_or(0)..].iter().all(|byte| *byte == 0xEE));
        }
    }
    let legacy = ChannelSequence::Legacy([(LegacyFlags(0x40), 36); 16]);
    let odd = DataPathStateTLV { channel_map: Some(DataPathChannel::SingleChannel { channel: 37 }), ..Default::default() }.mend().unwrap();
    let mut buffer = [0xEE; 80];
    assert_eq!(legacy.write(&mut buffer), Err(Refusal::LegacySequence));
    assert_eq!(odd.write(&mut buffer), Err(Refusal::Inconsistent));
    assert_eq!(write_item(7, &[0; 65_536], &mut buffer), Err(Refusal::TooLong));
    assert_eq!(buffer, [0xEE; 80]);
}

#[test]
fn what_an_option_cannot_express() {
    let absent = with([0; raw::DATA_PATH], 4, 1);
    assert_eq!(raw::data_path_consistent(&absent), (0, 0));
    assert_eq!(DataPathStateTLV::from_raw(&absent), Err(Refusal::Inconsistent));
    // A map of nothing, beside a flag that says that there is no channel.
    assert_eq!(DataPathStateTLV::from_raw(&with([0; raw::DATA_PATH], 6, 1)), Err(Refusal::Inconsistent));
    assert_eq!(ChannelSequence::from_raw(&with([0; raw::SEQUENCE], 17, 1)), Err(Refusal::Inconsistent));
    assert_eq!(ChannelSequence::from_raw(&with([0; raw::SEQUENCE], 0, 2)), Err(Refusal::Encoding));
}

#[test]
fn values_are_parts_of_the_tail() {
    let tail = [5, 1, 0, 0xAA, 7, 0, 0, 9];
    let items: Vec<_> = ReadTLVs::new(&tail).raw_tlv_iter().collect();
    assert_eq!(items.len(), 2);
    assert!(std::ptr::eq(items[0].slice, &tail[3..4]) && std::ptr::eq(items[1].slice, &tail[7..7]));
}

#[test]
fn what_is_shown() {
    for (bits, channels) in [(0, vec![]), (1, vec![6]), (3, vec![6, 44]), (5, vec![6, 149]), (7, vec![6, 44, 149]), (0xFFF8, vec![])] {
        assert_eq!(ChannelMap(bits).channels().collect::<Vec<_>>(), channels);
    }
    assert_eq!(MACAddress::new([0xCE, 0x21, 0x1F, 0x62, 0x21, 0x02]).to_string(), "ce:21:1f:62:21:02");
    assert_eq!(Refusal::Short(17).to_string(), "cut in the field that starts at byte 17");
    assert_eq!(Refusal::SmallerLoad(40).to_string(), "the proposal has a larger load than 40");
}
