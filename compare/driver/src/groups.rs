//! The cases. A group has parts, each with random numbers of its own, and any thread may take the next part.
use crate::compare::Kind;
use crate::ours::{CHANNEL_SEQUENCE, DATA_PATH, SEQUENCE, SYNCHRONIZATION};
use crate::run::Part;

pub struct Group {
    pub name: &'static str,
    pub parts: u32,
    pub make: fn(&mut Part),
}
const fn group(name: &'static str, parts: u32, make: fn(&mut Part)) -> Group {
    Group { name, parts, make }
}
pub const EXHAUSTIVE: &[Group] = &[
    group("channels: all pairs", 64, all_channels),
    group("data path values: presence, every cut", COMBINATIONS / 16, presence_at_every_cut),
    group("data path values: all words of flags", 32, all_flags),
    group("data path values: all channel words", 32, all_channel_words),
    group("data path values: all extended flags", 32, all_extended_flags),
    group("data path values: all unicast lengths", 32, all_unicast_lengths),
    group("data path records: presence", 64, records_of_any_presence),
    group("data path records: all words", 32, records_of_all_words),
    group("synchronization and channel sequences: every byte of the six, cuts", 64, six_bytes),
    group("synchronization and channel sequences: records", 32, sequence_records),
    group("stamps, items, headers, judgements", 32, edges),
    group("numbers that no field holds", 16, too_wide),
    group("frames: items put together, cut, damaged, grown", 64, frames),
];
/// From this many cases on, the groups are run whole, and the rest is random. Below, they are thinned out: every second part, every third and so on.
pub const WHOLE: u64 = 2_600_000;
/// How many cases a part of the random ones has.
pub const RANDOM_PART: u64 = 20_000;
pub const RANDOM: fn(&mut Part) = random;

/// The flags that select a field, the lowest bits last: country, channel, BSSID, infra address, AWDL address.
const SELECT: [u16; 5] = [0x0100, 0x0200, 0x0001, 0x0002, 0x0004];
/// Five fields, no unicast options or one of two lengths, no extended flags or one of eight presences.
const COMBINATIONS: u32 = 32 * 3 * 9;

/// A data path value with these flags, whose unicast length is good and whose extended flags are these; other bytes are random.
fn value(part: &mut Part, flags: u16, unicast: u16, extended: u16) -> Vec<u8> {
    let mut bytes = flags.to_le_bytes().to_vec();
    let many = |bits: u16, sizes: &[(u16, usize)]| sizes.iter().filter(|(bit, _)| bits & bit != 0).map(|(_, size)| size).sum::<usize>();
    bytes.extend(part.random.bytes(many(flags, &[(0x0100, 3), (0x0200, 2), (0x0001, 8), (0x0002, 6), (0x0004, 6)])));
    if flags & 0x0100 != 0 && part.random.one_in(2) {
        bytes[4] = 0;
    }
    if flags & 0x1000 != 0 {
        bytes.extend(unicast.to_le_bytes());
        bytes.extend(part.random.bytes(if unicast == 8 { 8 } else { 4 }));
    }
    if flags & 0x8000 != 0 {
        bytes.extend(extended.to_le_bytes());
        bytes.extend(part.random.bytes(many(extended, &[(0x0001, 2), (0x0004, 4), (0x0020, 12)])));
    }
    bytes
}

fn presence_at_every_cut(part: &mut Part) {
    for combination in part.number * 16..part.number * 16 + 16 {
        for round in 0..6 {
            let other = if round == 0 { 0 } else { part.random.next() as u16 };
            let mut flags = other & 0x6CF8;
            flags |= (0..5).filter(|bit| combination >> bit & 1 == 1).map(|bit| SELECT[bit]).sum::<u16>();
            let unicast = [0, 4, 8][(combination / 32 % 3) as usize];
            flags |= if unicast > 0 { 0x1000 } else { 0 };
            let mut extended = part.random.next() as u16 & 0xFFDA;
            match combination / 96 {
                0 => {}
                fields => {
                    let fields = fields as u16 - 1;
                    flags |= 0x8000;
                    extended |= fields & 1 | (fields & 2) << 1 | (fields & 4) << 3;
                }
            }
            let mut bytes = value(part, flags, unicast, extended);
            let size = bytes.len();
            bytes.extend(part.random.bytes(2));
            for cut in 0..size + 2 {
                part.read(Kind::data_path_read, &bytes[..cut]);
            }
        }
    }
}

/// The words of a part, of all 65,536.
fn words(part: &Part) -> std::ops::Range<u32> {
    part.number * 2048..part.number * 2048 + 2048
}
/// A value whole, cut, and grown.
fn read_thrice(part: &mut Part, mut bytes: Vec<u8>) {
    part.read(Kind::data_path_read, &bytes);
    let cut = part.random.below(bytes.len());
    part.read(Kind::data_path_read, &bytes[..cut]);
    let many = 1 + part.random.below(12);
    bytes.extend(part.random.bytes(many));
    part.read(Kind::data_path_read, &bytes);
}
fn all_flags(part: &mut Part) {
    for word in words(part) {
        let (unicast, extended) = (part.random.pick(&[4, 8]), part.random.word());
        let bytes = value(part, word as u16, unicast, extended);
        read_thrice(part, bytes);
    }
}
fn all_channel_words(part: &mut Part) {
    for word in words(part) {
        let [low, high] = (word as u16).to_le_bytes();
        part.read(Kind::data_path_read, &[0, 2, low, high]);
        let flags = part.random.word() & !0x0100 | 0x0200;
        let extended = part.random.word();
        let mut bytes = value(part, flags, 4, extended);
        bytes[2..4].copy_from_slice(&[low, high]);
        read_thrice(part, bytes);
    }
}
fn all_extended_flags(part: &mut Part) {
    for word in words(part) {
        let bytes = value(part, 0x8000, 0, word as u16);
        read_thrice(part, bytes);
        let flags = part.random.word() | 0x8000;
        let unicast = part.random.pick(&[4, 8]);
        let bytes = value(part, flags, unicast, word as u16);
        read_thrice(part, bytes);
    }
}
fn all_unicast_lengths(part: &mut Part) {
    for word in words(part) {
        let [low, high] = (word as u16).to_le_bytes();
        let mut bytes = vec![0, 0x10, low, high];
        bytes.extend(part.random.bytes(8));
        part.read(Kind::data_path_read, &bytes);
        part.read(Kind::data_path_read, &bytes[..4]);
        let flags = part.random.word() & 0x6FF8 | 0x1000;
        let bytes = value(part, flags, word as u16, 0);
        read_thrice(part, bytes);
    }
}

/// Where each optional field of a record starts, with its flag, and how wide its numbers are in bits.
const FIELDS: [(usize, &[u32]); 11] = [
    (1, &[8, 8, 8]),
    (5, &[]),
    (8, &[8, 8, 8, 8, 8, 8, 16]),
    (16, &[8, 8, 8, 8, 8, 8]),
    (23, &[8, 8, 8, 8, 8, 8]),
    (30, &[32]),
    (32, &[32]),
    (34, &[16]),
    (36, &[32]),
    (38, &[16]),
    (40, &[32, 32, 32]),
];
fn narrow(part: &mut Part, width: u32) -> u32 {
    part.random.long() >> (32 - width)
}
/// A record with these fields, the lowest bit for the country. Where `junk` is set, absent fields are not zero.
fn record(part: &mut Part, presence: u32, channel: (u32, u32), junk: bool) -> Vec<u32> {
    let mut n = vec![0; DATA_PATH];
    n[0] = part.random.word().into();
    for (field, (at, widths)) in FIELDS.iter().enumerate() {
        let there = presence >> field & 1;
        n[*at] = there;
        if there == 1 || junk {
            for (number, width) in widths.iter().enumerate() {
                n[at + 1 + number] = narrow(part, *width);
            }
            if *at == 5 {
                (n[6], n[7]) = channel;
            }
        }
    }
    // Without this, a record would hardly ever be consistent.
    if part.random.one_in(2) {
        let bits = |pairs: &[(usize, u32)]| pairs.iter().map(|(at, bit)| n[*at] * bit).sum::<u32>();
        let flags = bits(&[(1, 0x0100), (5, 0x0200), (8, 1), (16, 2), (23, 4), (30, 0x1000), (34, 0x8000)]);
        let extended = bits(&[(38, 1), (36, 4), (40, 0x20)]);
        n[0] = n[0] & !0x9307 | flags;
        n[31] &= 0xFFFF_FE6A;
        n[35] = if n[34] == 1 { n[35] & 0xFF5A | extended } else { n[35] };
        n[4] = if part.random.one_in(2) { 0 } else { n[4] };
    }
    n
}
/// A channel of each sort: single even and odd, a map that can be and one that cannot.
fn some_channel(part: &mut Part, sort: u32) -> (u32, u32) {
    match sort {
        0 => (0, narrow(part, 8) & 0xFE),
        1 => (0, narrow(part, 8) | 1),
        2 => (1, narrow(part, 3) | 1),
        3 => (1, narrow(part, 3) & 6),
        _ => (1, narrow(part, 16)),
    }
}
/// The size itself, or more, or less.
fn some_room(part: &mut Part) -> u32 {
    match part.random.below(4) {
        0 => part.random.below(8) as u32,
        1 => 128 + part.random.below(72) as u32,
        _ => 0,
    }
}
fn records_of_any_presence(part: &mut Part) {
    for presence in part.number * 32..part.number * 32 + 32 {
        for round in 0..40 {
            let channel = some_channel(part, round % 5);
            let mut n = record(part, presence, channel, round % 3 == 0);
            n.push(some_room(part));
            part.write(Kind::data_path_write, n);
        }
    }
}
fn records_of_all_words(part: &mut Part) {
    for word in words(part) {
        for round in 0..3 {
            let (presence, sort) = (part.random.next() as u32, part.random.below(5) as u32);
            let channel = if round == 1 { [(0, word & 0xFF), (1, word)][(word >> 8 & 1) as usize] } else { some_channel(part, sort) };
            let mut n = record(part, presence | [0, 2, 0x80][round], channel, false);
            match round {
                0 => n[0] = word,
                1 => {}
                _ => n[35] = word,
            }
            n.push(some_room(part));
            part.write(Kind::data_path_write, n);
        }
        let mut n = vec![0; DATA_PATH + 1];
        n[5..8].copy_from_slice(&[1, 1, word]);
        part.write(Kind::data_path_write, n);
    }
}

/// A channel sequence: the six bytes and the entries. The count and the encoding are good ones where `good` is set.
fn sequence_value(part: &mut Part, good: bool) -> Vec<u8> {
    let mut bytes = part.random.bytes(38);
    if good {
        (bytes[0], bytes[1]) = (15, part.random.pick(&[0, 1, 3]));
    }
    if part.random.one_in(2) {
        (bytes[2], bytes[4], bytes[5]) = (0, 0, 0);
    }
    bytes
}
fn synchronization_value(part: &mut Part, good: bool) -> Vec<u8> {
    let mut bytes = part.random.bytes(33);
    bytes[28] *= part.random.below(2) as u8;
    bytes.extend(sequence_value(part, good));
    bytes
}
fn six_bytes(part: &mut Part) {
    for byte in part.number * 4..part.number * 4 + 4 {
        for at in 0..6 {
            for _ in 0..4 {
                let mut bytes = synchronization_value(part, true);
                bytes[33 + at] = byte as u8;
                part.read(Kind::synchronization_read, &bytes);
                part.read_at(Kind::channel_sequence_read, vec![33], &bytes);
                part.read_at(Kind::channel_sequence_read, vec![0], &bytes[33..]);
            }
        }
        // Each encoding, listed or not, with any number of bytes.
        for many in 0..=33 {
            let bytes = part.random.bytes(many);
            let at = part.random.below(many + 3) as u32;
            part.read_at(Kind::sequence_read, vec![0, byte], &bytes);
            part.read_at(Kind::sequence_read, vec![at, byte], &bytes);
        }
    }
    for encoding in [0, 1, 3, 2] {
        let mut bytes = synchronization_value(part, true);
        bytes[34] = encoding;
        bytes.extend(part.random.bytes(5));
        for cut in 0..=bytes.len() {
            part.read(Kind::synchronization_read, &bytes[..cut]);
            let at = part.random.below(cut + 3) as u32;
            part.read_at(Kind::channel_sequence_read, vec![at], &bytes[..cut]);
            part.read_at(Kind::channel_sequence_read, vec![33], &bytes[..cut]);
            part.read_at(Kind::sequence_read, vec![39, encoding.into()], &bytes[..cut]);
        }
    }
}
/// A sequence of a record: mostly consistent, in any encoding.
fn some_sequence(part: &mut Part) -> Vec<u32> {
    let encoding = part.random.pick(&[0, 0, 0, 3, 3, 3, 1, 1, 2, 255]);
    let mut n: Vec<u32> = part.random.bytes(SEQUENCE).into_iter().map(u32::from).collect();
    n[0] = encoding;
    if !part.random.one_in(4) {
        match encoding {
            0 => n[17..].fill(0),
            1 => (1..SEQUENCE).step_by(2).for_each(|at| n[at] &= 0x3F),
            _ => {}
        }
    }
    // Few sequences have only channels that a correction leaves within a byte.
    if encoding == 1 && part.random.one_in(2) {
        (2..SEQUENCE).step_by(2).for_each(|at| n[at] = n[at].clamp(2, 253));
    }
    n
}
const SYNCHRONIZATION_WIDTHS: [u32; 24] = [8, 16, 8, 8, 16, 16, 16, 16, 16, 16, 8, 8, 8, 8, 8, 8, 8, 8, 8, 8, 8, 8, 16, 16];

fn sequence_record(part: &mut Part, kind: Kind) -> Vec<u32> {
    let mut n = vec![];
    if kind == Kind::synchronization_write {
        n.extend(SYNCHRONIZATION_WIDTHS.map(|width| narrow(part, width)));
    }
    if kind != Kind::sequence_write {
        n.extend([8, 8, 16].map(|width| narrow(part, width)));
    }
    n.extend(some_sequence(part));
    debug_assert!([SEQUENCE, CHANNEL_SEQUENCE, SYNCHRONIZATION].contains(&n.len()));
    // The bytes that the text has no field for are often 0, so that all bytes are compared as they are.
    if part.random.one_in(2) {
        let zero: &[usize] = if kind == Kind::synchronization_write { &[21, 24, 26] } else { &[0, 2] };
        if kind != Kind::sequence_write {
            zero.iter().for_each(|at| n[*at] = 0);
        }
    }
    n.push(some_room(part));
    n
}
const SEQUENCE_KINDS: [Kind; 3] = [Kind::sequence_write, Kind::channel_sequence_write, Kind::synchronization_write];

fn sequence_records(part: &mut Part) {
    for kind in SEQUENCE_KINDS {
        for _ in 0..1500 {
            let n = sequence_record(part, kind);
            part.write(kind, n);
        }
        // Every room up to a little above the size, for each encoding.
        for encoding in [0, 1, 3] {
            for code in (0..3).chain(128..200) {
                let mut n = sequence_record(part, kind);
                let at = n.len() - 1 - SEQUENCE;
                n[at] = encoding;
                if encoding == 0 {
                    n[at + 17..].fill(0);
                }
                *n.last_mut().unwrap() = code;
                part.write(kind, n);
            }
        }
    }
}

fn all_channels(part: &mut Part) {
    for word in part.number * 1024..part.number * 1024 + 1024 {
        let (first, second) = (word >> 8, word & 0xFF);
        for encoding in [0, 1, 3, 2] {
            part.write(Kind::channel, vec![encoding, first, second]);
        }
        let encoding = u32::from(part.random.byte());
        part.write(Kind::channel, vec![encoding, first, second]);
    }
}

/// The items of a tail: of types that are read with good values and others, and of types that are not.
fn some_item(part: &mut Part, tail: &mut Vec<u8>) {
    let mut value = match part.random.below(8) {
        0..=2 => {
            let (flags, unicast, extended) = (part.random.word(), part.random.pick(&[4, 8, 4, 8, 5]), part.random.word());
            value(part, flags, unicast, extended)
        }
        3 => vec![0, 1, 0x44, 0x45],
        4 => synchronization_value(part, true),
        5 => sequence_value(part, true),
        _ => {
            let many = part.random.below(20);
            part.random.bytes(many)
        }
    };
    match part.random.below(6) {
        0 => value.truncate(part.random.below(value.len() + 1)),
        1 => {
            let many = part.random.below(6);
            value.extend(part.random.bytes(many));
        }
        _ => {}
    }
    let own_type = if value.len() >= 55 {
        4
    } else if value.len() >= 22 && value[0] == 15 {
        18
    } else {
        12
    };
    let tlv_type = match part.random.below(5) {
        0 => part.random.byte(),
        1 => part.random.pick(&[0, 2, 4, 5, 7, 12, 16, 17, 18, 20, 21, 24]),
        _ => own_type,
    };
    tail.push(tlv_type);
    tail.extend((value.len() as u16).to_le_bytes());
    tail.extend(value);
}
fn some_tail(part: &mut Part) -> Vec<u8> {
    let mut tail = vec![];
    for _ in 0..part.random.below(6) {
        some_item(part, &mut tail);
    }
    match part.random.below(6) {
        0 => tail.truncate(part.random.below(tail.len() + 1)),
        1 if !tail.is_empty() => {
            let at = part.random.below(tail.len());
            tail[at] = part.random.byte();
        }
        2 => {
            let many = part.random.below(8);
            tail.extend(part.random.bytes(many));
        }
        _ => {}
    }
    tail
}
fn some_header(part: &mut Part) -> Vec<u8> {
    let mut bytes = part.random.bytes(12);
    (bytes[0], bytes[1]) = (8, 0x10);
    bytes[3] *= part.random.below(2) as u8;
    // Most frames are sent after they were handed over; a panic of the text takes long.
    if !part.random.one_in(16) {
        (bytes[7], bytes[11]) = (bytes[7] | 0x80, bytes[11] & 0x7F);
    }
    bytes
}
fn frames(part: &mut Part) {
    for _ in 0..400 {
        let mut bytes = some_header(part);
        bytes.extend(some_tail(part));
        part.read(Kind::frame_read, &bytes);
        let cut = part.random.below(bytes.len());
        part.read(Kind::frame_read, &bytes[..cut]);
        let at = part.random.below(bytes.len());
        bytes[at] = part.random.byte();
        part.read(Kind::frame_read, &bytes);
        let at = part.random.below(bytes.len() - 9) as u32;
        part.read_at(Kind::walk, vec![at], &bytes[12..]);
    }
    // A frame at every cut.
    let mut bytes = some_header(part);
    bytes.extend(some_tail(part));
    for cut in 0..bytes.len() {
        part.read(Kind::frame_read, &bytes[..cut]);
    }
}

fn edges(part: &mut Part) {
    const STAMPS: [u32; 8] = [0, 1, 2, 0x7FFF_FFFF, 0x8000_0000, 0x8000_0001, 0xFFFF_FFFE, 0xFFFF_FFFF];
    if part.number == 0 {
        for phy in STAMPS {
            for target in STAMPS {
                part.write(Kind::tx_delta, vec![phy, target]);
            }
        }
        for many in [65_534, 65_535, 65_536, 65_537, 70_000] {
            for code in [0, 1, 128] {
                let bytes = part.random.bytes(many);
                part.read_at(Kind::write_item, vec![5, code], &bytes);
            }
        }
        for first in 0..=255 {
            for second in 0..=255 {
                part.read(Kind::frame_read, &[first, second]);
            }
        }
        // The longest item, with another behind it, and cut by a byte.
        let mut bytes = [&[8, 0x10, 0, 0, 0, 0, 0, 0, 0, 0, 0, 0, 12, 0xFF, 0xFF][..], &vec![0; 65_535], &[12, 2, 0, 0, 0]].concat();
        part.read(Kind::frame_read, &bytes);
        bytes.truncate(15 + 65_534);
        part.read(Kind::frame_read, &bytes);
    }
    for at in [0, 1, 22, 23, 24, u32::MAX >> 1, u32::MAX - 1, u32::MAX] {
        let bytes = sequence_value(part, true);
        part.read_at(Kind::walk, vec![at], &[&[18, 22, 0][..], &bytes].concat());
        part.read_at(Kind::channel_sequence_read, vec![at], &bytes);
        part.read_at(Kind::sequence_read, vec![at, bytes[1].into()], &bytes[6..]);
    }
    for _ in 0..200 {
        let stamps = [part.random.long(), part.random.long()];
        part.write(Kind::tx_delta, stamps.to_vec());
        header_and_item(part);
        judgement(part);
    }
    for tlv_type in 0..=255 {
        let many = part.random.below(5);
        let value = part.random.bytes(many);
        let code = some_room(part);
        part.read_at(Kind::write_item, vec![tlv_type, code], &value);
    }
}
fn header_and_item(part: &mut Part) {
    let [subtype, reserved] = [part.random.byte(), part.random.byte()].map(u32::from);
    let reserved = if part.random.one_in(2) { 0 } else { reserved };
    let stamps = [part.random.long(), part.random.long()];
    let code = some_room(part);
    let many = part.random.below(40);
    let tail = if part.random.one_in(2) { some_tail(part) } else { part.random.bytes(many) };
    part.read_at(Kind::frame_write, vec![subtype, reserved, stamps[0], stamps[1], code], &tail);
    let tlv_type = part.random.byte().into();
    let code = some_room(part);
    part.read_at(Kind::write_item, vec![tlv_type, code], &tail);
}
fn judgement(part: &mut Part) {
    let many = match part.random.below(12) {
        0 => part.random.pick(&[63, 64, 65]),
        _ => part.random.below(5),
    };
    let few = 30 + part.random.below(20) as u8;
    let mut bytes = vec![];
    for _ in 0..many {
        let encoding = if part.random.one_in(40) { part.random.byte() } else { part.random.pick(&[0, 1, 3]) };
        bytes.push(encoding);
        bytes.extend((0..32).map(|_| part.random.pick(&[few, few + 2, few + 4, few + 6, 1, 2])));
    }
    if part.random.one_in(10) {
        let more = part.random.below(33);
        bytes.extend(part.random.bytes(more));
    }
    let permitted = if part.random.one_in(10) { part.random.below(19) } else { 1 + part.random.below(5) };
    bytes.extend((0..permitted).map(|_| part.random.pick(&[few, few + 2, few + 4, few + 6])));
    let proposal = part.random.pick(&[few, few + 2, few + 4, few + 6]).into();
    part.read_at(Kind::judge, vec![proposal, permitted as u32], &bytes);
}

/// Each number of each sort of record, just above what its field holds and far above.
fn too_wide(part: &mut Part) {
    let mut data_path = [1; DATA_PATH];
    data_path[0] = 16;
    for (at, widths) in FIELDS {
        data_path[at + 1..at + 1 + widths.len()].copy_from_slice(widths);
    }
    (data_path[6], data_path[7]) = (1, 16);
    let sequence: Vec<u32> = vec![8; SEQUENCE];
    let channel_sequence = [&[8, 8, 16][..], &sequence].concat();
    let synchronization = [&SYNCHRONIZATION_WIDTHS[..], &channel_sequence].concat();
    let sorts = [&data_path[..], &synchronization, &channel_sequence, &sequence, &[8, 8, 8], &[8, 8, 32, 32], &[8]];
    for (sort, widths) in sorts.into_iter().enumerate() {
        for at in (0..widths.len()).filter(|at| widths[*at] < 32) {
            for up in widths[at]..32 {
                let record = widths.iter().map(|width| narrow(part, *width)).collect::<Vec<_>>();
                let low = if part.random.one_in(2) { 1 } else { record[at] | 1 };
                let mut n = [&[sort as u32, at as u32, up][..], &record].concat();
                n[3 + at] = low;
                part.write(Kind::too_wide, n);
            }
        }
    }
}

fn random(part: &mut Part) {
    while part.goes_on() {
        match part.random.below(16) {
            0..=3 => {
                let (flags, unicast, extended) = (part.random.word(), part.random.pick(&[4, 8, 4, 8, 4, 8, 0, 5]), part.random.word());
                let mut bytes = value(part, flags, unicast, extended);
                if part.random.one_in(4) {
                    let at = part.random.below(bytes.len());
                    bytes[at] = part.random.byte();
                }
                read_thrice(part, bytes);
            }
            4..=6 => {
                let (presence, sort) = (part.random.next() as u32, part.random.below(5) as u32);
                let (channel, junk) = (some_channel(part, sort), part.random.one_in(4));
                let mut n = record(part, presence, channel, junk);
                n.push(some_room(part));
                part.write(Kind::data_path_write, n);
            }
            7 => {
                let good = !part.random.one_in(8);
                let mut bytes = synchronization_value(part, good);
                if part.random.one_in(3) {
                    bytes.truncate(part.random.below(72));
                }
                part.read(Kind::synchronization_read, &bytes);
                let at = part.random.below(bytes.len() + 2).min(33) as u32;
                part.read_at(Kind::channel_sequence_read, vec![at], &bytes);
            }
            8 => {
                let kind = part.random.pick(&SEQUENCE_KINDS);
                let n = sequence_record(part, kind);
                part.write(kind, n);
            }
            9..=12 => {
                let mut bytes = some_header(part);
                bytes.extend(some_tail(part));
                part.read(Kind::frame_read, &bytes);
                let at = part.random.below(bytes.len() - 9) as u32;
                part.read_at(Kind::walk, vec![at], &bytes[12..]);
            }
            13 => header_and_item(part),
            14 => judgement(part),
            _ => {
                let (phy, target) = (part.random.long(), part.random.long());
                let ordered = if part.random.one_in(8) { [phy, target] } else { [phy.max(target), phy.min(target)] };
                part.write(Kind::tx_delta, ordered.to_vec());
            }
        }
    }
}
