//! Plain Rust that does what awdl.h's calls do, over the same interface. It proves nothing: it is what ours is measured against.
//! All of it is safe but for the functions at the end, which make slices of what C lends.
use std::slice::{from_raw_parts, from_raw_parts_mut};

/// A number and, beside `SHORT`, the place of the field that did not fit.
struct Refusal(u32, usize);
type Answer<T> = Result<T, Refusal>;

const INCONSISTENT: u32 = 7;
const fn refusal(number: u32) -> Refusal {
    Refusal(number, 0)
}
fn short(at: usize) -> Refusal {
    Refusal(1, at)
}

struct Reader<'a> {
    bytes: &'a [u8],
    at: usize,
}

impl<'a> Reader<'a> {
    /// The next field, as a whole.
    fn take<const N: usize>(&mut self) -> Answer<&'a [u8; N]> {
        let field = self.bytes.get(self.at..).and_then(|rest| rest.first_chunk()).ok_or(short(self.at))?;
        self.at += N;
        Ok(field)
    }
    fn u8(&mut self) -> Answer<u32> {
        Ok(self.take::<1>()?[0].into())
    }
    fn u16(&mut self) -> Answer<u32> {
        Ok(u16::from_le_bytes(*self.take()?).into())
    }
    fn u32(&mut self) -> Answer<u32> {
        Ok(u32::from_le_bytes(*self.take()?))
    }
    fn bytes<const N: usize>(&mut self, numbers: &mut [u32]) -> Answer<()> {
        widen(numbers, self.take::<N>()?);
        Ok(())
    }
}

fn widen(numbers: &mut [u32], bytes: &[u8]) {
    for (number, byte) in numbers.iter_mut().zip(bytes) {
        *number = (*byte).into();
    }
}

/// A buffer that has room for all that is put.
struct Writer<'a>(&'a mut [u8]);

impl<'a> Writer<'a> {
    /// The next bytes of the buffer.
    fn next(&mut self, n: usize) -> &'a mut [u8] {
        let (here, behind) = std::mem::take(&mut self.0).split_at_mut(n);
        self.0 = behind;
        here
    }
    fn put(&mut self, bytes: &[u8]) {
        self.next(bytes.len()).copy_from_slice(bytes);
    }
    fn u8(&mut self, number: u32) {
        self.put(&[number as u8]);
    }
    fn u16(&mut self, number: u32) {
        self.put(&(number as u16).to_le_bytes());
    }
    fn u32(&mut self, number: u32) {
        self.put(&number.to_le_bytes());
    }
    fn bytes(&mut self, numbers: &[u32]) {
        for (byte, number) in self.next(numbers.len()).iter_mut().zip(numbers) {
            *byte = *number as u8;
        }
    }
}

/// All bits of some numbers: they are bytes where this is one, and 0 where this is.
fn all_bits(numbers: &[u32]) -> u32 {
    numbers.iter().fold(0, |bits, number| bits | number)
}

fn read_frame(bytes: &[u8], frame: &mut [u32; 4]) -> Answer<usize> {
    let mut r = Reader { bytes, at: 0 };
    if r.u8()? != 0x08 {
        return Err(refusal(2));
    }
    if r.u8()? != 0x10 {
        return Err(refusal(3));
    }
    r.bytes::<2>(&mut frame[..2])?;
    frame[2] = r.u32()?;
    frame[3] = r.u32()?;
    Ok(r.at)
}

struct Item<'a> {
    at: usize,
    tlv_type: u8,
    value: &'a [u8],
    next: usize,
}

/// The item at a place of a tail, if it is whole.
fn item_at(tail: &[u8], at: usize) -> Option<Item<'_>> {
    let (&[tlv_type, low, high], rest) = tail.get(at..)?.split_first_chunk()?;
    let value = rest.get(..u16::from_le_bytes([low, high]).into())?;
    Some(Item { at, tlv_type, value, next: at + 3 + value.len() })
}

/// The next item of a type whose value is accepted.
fn search<'a, const N: usize>(
    tail: &'a [u8],
    mut at: usize,
    tlv_type: u8,
    record: &mut [u32; N],
    read: impl Fn(&[u8], &mut [u32; N]) -> Answer<usize>,
) -> Option<Item<'a>> {
    while let Some(item) = item_at(tail, at) {
        if item.tlv_type == tlv_type && read(item.value, record).is_ok() {
            return Some(item);
        }
        at = item.next;
    }
    None
}

mod data_path {
    use super::*;

    const BSSID: u32 = 1;
    const INFRA: u32 = 2;
    const AWDL: u32 = 4;
    const COUNTRY: u32 = 0x100;
    const CHANNEL: u32 = 0x200;
    const UNICAST: u32 = 0x1000;
    const EXTENDED: u32 = 0x8000;
    const PRESENCE: u32 = BSSID | INFRA | AWDL | COUNTRY | CHANNEL | UNICAST | EXTENDED;
    const TRIGGER: u32 = 1;
    const RLFC: u32 = 4;
    const STATS: u32 = 0x20;
    const EXTENDED_KEEP: u32 = 0xFF7F;
    const OPTIONS_KEEP: u32 = 0xFFFF_FE6A;
    const SINGLE: u32 = 0;
    const MAP: u32 = 1;

    pub type Record = [u32; 44];

    pub fn read(bytes: &[u8], record: &mut Record) -> Answer<usize> {
        let mut r = Reader { bytes, at: 0 };
        record.fill(0);
        let flags = r.u16()?;
        record[0] = flags;
        if flags & COUNTRY != 0 {
            record[1] = 1;
            r.bytes::<3>(&mut record[2..5])?;
        }
        if flags & CHANNEL != 0 {
            let word = r.u16()?;
            record[5] = 1;
            (record[6], record[7]) = if word & 1 == 0 { (SINGLE, word & 0xFF) } else { (MAP, word & 7) };
        }
        if flags & BSSID != 0 {
            record[8] = 1;
            r.bytes::<6>(&mut record[9..15])?;
            record[15] = r.u16()?;
        }
        if flags & INFRA != 0 {
            record[16] = 1;
            r.bytes::<6>(&mut record[17..23])?;
        }
        if flags & AWDL != 0 {
            record[23] = 1;
            r.bytes::<6>(&mut record[24..30])?;
        }
        if flags & UNICAST != 0 {
            let length = r.u16()?;
            if length != 4 && length != 8 {
                return Err(refusal(4));
            }
            record[30] = 1;
            record[31] = r.u32()? & OPTIONS_KEEP;
            if length == 8 {
                record[32] = 1;
                record[33] = r.u32()?;
            }
        }
        if flags & EXTENDED != 0 {
            let extended = r.u16()?;
            record[34] = 1;
            record[35] = extended & EXTENDED_KEEP;
            if extended & TRIGGER != 0 {
                record[38] = 1;
                record[39] = r.u16()?;
            }
            if extended & RLFC != 0 {
                record[36] = 1;
                record[37] = r.u32()?;
            }
            if extended & STATS != 0 {
                record[40] = 1;
                for number in &mut record[41..] {
                    *number = r.u32()?;
                }
            }
        }
        Ok(r.at)
    }

    /// Whether numbers have no bit but those that are kept, and none at all where they are not there.
    fn kept(present: u32, bits: u32, keep: u32) -> bool {
        bits & !(if present == 1 { keep } else { 0 }) == 0
    }

    /// Numbers that do not fit and records that are not consistent have the same refusal, so that one test tells both.
    fn consistent(r: &Record) -> bool {
        let [country, channel, bssid, infra, awdl] = [r[1], r[5], r[8], r[16], r[23]];
        let [options, ext, extended, rlfc, trigger, stats] = [r[30], r[32], r[34], r[36], r[38], r[40]];
        if all_bits(&[country, channel, bssid, infra, awdl, options, ext, extended, rlfc, trigger, stats]) > 1 || ext > options {
            return false;
        }
        let presence = country << 8 | channel << 9 | bssid | infra << 1 | awdl << 2 | options << 12 | extended << 15;
        let channel_is_right = match r[6] {
            SINGLE => kept(channel, r[7], 0xFE),
            MAP => channel == 1 && r[7] & 1 == 1 && r[7] <= 7,
            _ => false,
        };
        // Where there is no extended word it is 0, and so the fields that it tells of are not there either.
        r[0] <= 0xFFFF
            && r[0] & PRESENCE == presence
            && r[35] & (TRIGGER | RLFC | STATS) == trigger | rlfc << 2 | stats << 5
            && kept(country, all_bits(&r[2..5]), 0xFF)
            && channel_is_right
            && kept(bssid, all_bits(&r[9..15]), 0xFF)
            && kept(bssid, r[15], 0xFFFF)
            && kept(infra, all_bits(&r[17..23]), 0xFF)
            && kept(awdl, all_bits(&r[24..30]), 0xFF)
            && kept(options, r[31], OPTIONS_KEEP)
            && kept(ext, r[33], !0)
            && kept(extended, r[35], EXTENDED_KEEP)
            && kept(rlfc, r[37], !0)
            && kept(trigger, r[39], 0xFFFF)
            && kept(stats, all_bits(&r[41..]), !0)
    }

    fn size(r: &Record) -> usize {
        let fields = [(1, 3), (5, 2), (8, 8), (16, 6), (23, 6), (30, 6), (32, 4), (34, 2), (36, 4), (38, 2), (40, 12)];
        2 + fields.iter().map(|&(flag, size)| if r[flag] == 1 { size } else { 0 }).sum::<usize>()
    }

    pub fn write(r: &Record, buffer: &mut [u8]) -> Answer<usize> {
        if !consistent(r) {
            return Err(refusal(INCONSISTENT));
        }
        let size = size(r);
        let mut w = Writer(buffer.get_mut(..size).ok_or(refusal(6))?);
        w.u16(r[0]);
        if r[1] == 1 {
            w.bytes(&r[2..5]);
        }
        if r[5] == 1 {
            w.u16(r[7]);
        }
        if r[8] == 1 {
            w.bytes(&r[9..15]);
            w.u16(r[15]);
        }
        if r[16] == 1 {
            w.bytes(&r[17..23]);
        }
        if r[23] == 1 {
            w.bytes(&r[24..30]);
        }
        if r[30] == 1 {
            w.u16(if r[32] == 1 { 8 } else { 4 });
            w.u32(r[31]);
        }
        if r[32] == 1 {
            w.u32(r[33]);
        }
        if r[34] == 1 {
            w.u16(r[35]);
        }
        if r[38] == 1 {
            w.u16(r[39]);
        }
        if r[36] == 1 {
            w.u32(r[37]);
        }
        if r[40] == 1 {
            r[41..].iter().for_each(|&number| w.u32(number));
        }
        Ok(size)
    }
}

mod sequence {
    use super::*;

    pub type Record = [u32; 33];

    fn entries_size(encoding: u32) -> Answer<usize> {
        match encoding {
            0 => Ok(16),
            1 | 3 => Ok(32),
            _ => Err(refusal(5)),
        }
    }

    pub fn read(bytes: &[u8], at: usize, encoding: u32, record: &mut Record) -> Answer<usize> {
        let size = entries_size(encoding)?;
        let entries = bytes.get(at..).and_then(|rest| rest.get(..size)).ok_or(short(at))?;
        record[0] = encoding;
        let (used, unused) = record[1..].split_at_mut(size);
        widen(used, entries);
        unused.fill(0);
        if encoding == 1 {
            used.iter_mut().step_by(2).for_each(|flags| *flags &= 0x3F);
        }
        Ok(at + size)
    }

    /// The bytes that a writer puts, or why it puts none.
    pub fn written_size(record: &Record) -> Answer<usize> {
        if all_bits(record) > 0xFF {
            return Err(refusal(INCONSISTENT));
        }
        let size = entries_size(record[0])?;
        if record[0] == 1 {
            return Err(refusal(18));
        }
        if all_bits(&record[1 + size..]) != 0 {
            return Err(refusal(INCONSISTENT));
        }
        Ok(size)
    }

    pub fn put(w: &mut Writer, record: &Record) {
        if record[0] == 0 {
            w.bytes(&record[1..17]);
        } else {
            w.bytes(&record[1..]);
        }
    }

    pub fn write(record: &Record, buffer: &mut [u8]) -> Answer<usize> {
        let size = written_size(record)?;
        put(&mut Writer(buffer.get_mut(..size).ok_or(refusal(6))?), record);
        Ok(size)
    }
}

mod channel_sequence {
    use super::*;

    pub type Record = [u32; 36];

    pub fn read(bytes: &[u8], at: usize, record: &mut Record) -> Answer<usize> {
        let mut r = Reader { bytes, at };
        let (count, encoding) = (r.u8()?, r.u8()?);
        record[0] = r.u8()?;
        record[1] = r.u8()?;
        record[2] = r.u16()?;
        if count != 15 {
            return Err(refusal(10));
        }
        sequence::read(bytes, r.at, encoding, sequence_mut(record))
    }

    fn sequence_mut(record: &mut Record) -> &mut sequence::Record {
        record.last_chunk_mut().expect("a channel sequence ends with a sequence")
    }

    fn sequence(record: &Record) -> &sequence::Record {
        record.last_chunk().expect("a channel sequence ends with a sequence")
    }

    pub fn written_size(record: &Record) -> Answer<usize> {
        if record[0] | record[1] > 0xFF || record[2] > 0xFFFF {
            return Err(refusal(INCONSISTENT));
        }
        Ok(6 + sequence::written_size(sequence(record))?)
    }

    pub fn put(w: &mut Writer, record: &Record) {
        w.u8(15);
        w.u8(record[3]);
        w.u8(record[0]);
        w.u8(record[1]);
        w.u16(record[2]);
        sequence::put(w, sequence(record));
    }

    pub fn write(record: &Record, buffer: &mut [u8]) -> Answer<usize> {
        let size = written_size(record)?;
        put(&mut Writer(buffer.get_mut(..size).ok_or(refusal(6))?), record);
        Ok(size)
    }
}

mod synchronization {
    use super::*;

    pub type Record = [u32; 60];

    pub fn read(bytes: &[u8], record: &mut Record) -> Answer<usize> {
        let mut r = Reader { bytes, at: 0 };
        record[0] = r.u8()?;
        record[1] = r.u16()?;
        record[2] = r.u8()?;
        record[3] = r.u8()?;
        for number in &mut record[4..10] {
            *number = r.u16()?;
        }
        for number in &mut record[10..14] {
            *number = r.u8()?;
        }
        r.bytes::<6>(&mut record[14..20])?;
        r.bytes::<2>(&mut record[20..22])?;
        record[22] = r.u16()?;
        record[23] = r.u16()?;
        let channels = record.last_chunk_mut().expect("a synchronization record ends with a channel sequence");
        channel_sequence::read(bytes, r.at, channels)
    }

    pub fn write(record: &Record, buffer: &mut [u8]) -> Answer<usize> {
        let channels: &channel_sequence::Record = record.last_chunk().expect("it ends with a channel sequence");
        let bytes = record[0] | record[2] | record[3] | all_bits(&record[10..22]);
        let words = record[1] | all_bits(&record[4..10]) | record[22] | record[23];
        if bytes > 0xFF || words > 0xFFFF {
            return Err(refusal(INCONSISTENT));
        }
        let size = 33 + channel_sequence::written_size(channels)?;
        let mut w = Writer(buffer.get_mut(..size).ok_or(refusal(6))?);
        w.u8(record[0]);
        w.u16(record[1]);
        w.u8(record[2]);
        w.u8(record[3]);
        record[4..10].iter().for_each(|&number| w.u16(number));
        w.bytes(&record[10..22]);
        w.u16(record[22]);
        w.u16(record[23]);
        channel_sequence::put(&mut w, channels);
        Ok(size)
    }
}

/// Accepted, or refused; beside 30 the second number is our own proposal.
fn judge(sequences: &[u8], permitted: &[u8], proposal: u32) -> Answer<()> {
    let proposal = u8::try_from(proposal).map_err(|_| refusal(INCONSISTENT))?;
    let lent = sequences.chunks_exact(33);
    if !lent.remainder().is_empty() {
        return Err(short(sequences.len() - lent.remainder().len()));
    }
    if lent.len() > 64 || permitted.len() > 16 {
        return Err(refusal(27));
    }
    let mut counts = [0u16; 256];
    for sequence in lent {
        let entries = &sequence[1..];
        match sequence[0] {
            0 => entries[..16].iter().for_each(|&channel| counts[channel as usize] += 1),
            1 => entries.chunks_exact(2).for_each(|entry| counts[corrected(entry[0], entry[1]) as usize] += 1),
            3 => entries.chunks_exact(2).for_each(|entry| counts[entry[0] as usize] += 1),
            _ => return Err(refusal(5)),
        }
    }
    // Of equal ones `min_by_key` gives the first.
    let own = *permitted.iter().min_by_key(|&&channel| counts[channel as usize]).ok_or(refusal(28))?;
    if !permitted.contains(&proposal) {
        return Err(refusal(29));
    }
    if counts[own as usize] < counts[proposal as usize] {
        return Err(Refusal(30, own.into()));
    }
    Ok(())
}

fn corrected(flags: u8, channel: u8) -> u8 {
    match flags & 3 {
        1 => channel.wrapping_sub(2),
        2 => channel.wrapping_add(2),
        _ => channel,
    }
}

// The interface.

unsafe fn lent<'a>(bytes: *const u8, length: usize) -> &'a [u8] {
    unsafe { from_raw_parts(bytes, length) }
}

/// What a reader answers that began at a place: the zero record beside a refusal.
fn read_answer(answer: Answer<usize>, from: usize, offset: &mut usize, size: &mut usize, record: &mut [u32]) -> u32 {
    (*offset, *size) = (0, 0);
    match answer {
        Ok(next) => {
            *size = next - from;
            0
        }
        Err(Refusal(number, at)) => {
            *offset = at;
            record.fill(0);
            number
        }
    }
}

fn write_answer(answer: Answer<usize>, size: &mut usize) -> u32 {
    match answer {
        Ok(filled) => {
            *size = filled;
            0
        }
        Err(Refusal(number, _)) => {
            *size = 0;
            number
        }
    }
}

fn search_answer(found: Option<Item>, item: &mut [usize; 4], record: &mut [u32]) -> u32 {
    match found {
        Some(Item { at, tlv_type, value, next }) => {
            *item = [at, tlv_type.into(), value.len(), next];
            1
        }
        None => {
            *item = [0; 4];
            record.fill(0);
            0
        }
    }
}

#[no_mangle]
unsafe extern "C" fn rust_frame_read(bytes: *const u8, length: usize, offset: &mut usize, size: &mut usize, frame: &mut [u32; 4]) -> u32 {
    read_answer(read_frame(unsafe { lent(bytes, length) }, frame), 0, offset, size, frame)
}

#[no_mangle]
unsafe extern "C" fn rust_step(tail: *const u8, length: usize, at: usize, step: &mut [usize; 5]) -> u32 {
    if at == length {
        *step = [0; 5];
        return 0;
    }
    match item_at(unsafe { lent(tail, length) }, at) {
        Some(Item { at, tlv_type, value, next }) => {
            *step = [at, tlv_type.into(), value.len(), at + 3, next];
            1
        }
        None => {
            *step = [at, 0, 0, 0, 0];
            2
        }
    }
}

macro_rules! searches {
    ($first:ident, $next:ident, $record:ty, $type:expr, $read:expr) => {
        #[no_mangle]
        unsafe extern "C" fn $first(tail: *const u8, length: usize, item: &mut [usize; 4], record: &mut $record) -> u32 {
            search_answer(search(unsafe { lent(tail, length) }, 0, $type, record, $read), item, record)
        }
        #[no_mangle]
        unsafe extern "C" fn $next(tail: *const u8, length: usize, at: usize, item: &mut [usize; 4], record: &mut $record) -> u32 {
            search_answer(search(unsafe { lent(tail, length) }, at, $type, record, $read), item, record)
        }
    };
}

searches!(rust_first_data_path, rust_next_data_path, data_path::Record, 12, data_path::read);
searches!(rust_first_synchronization, rust_next_synchronization, synchronization::Record, 4, synchronization::read);
searches!(rust_first_channel_sequence, rust_next_channel_sequence, channel_sequence::Record, 18, |value, record| {
    channel_sequence::read(value, 0, record)
});

macro_rules! reader {
    ($name:ident, $record:ty, $read:expr, $from:expr $(, $at:ident: $type:ty)*) => {
        #[no_mangle]
        unsafe extern "C" fn $name(
            bytes: *const u8, length: usize $(, $at: $type)*, offset: &mut usize, size: &mut usize, record: &mut $record,
        ) -> u32 {
            read_answer($read(unsafe { lent(bytes, length) } $(, $at)*, record), $from, offset, size, record)
        }
    };
}

reader!(rust_data_path_read, data_path::Record, data_path::read, 0);
reader!(rust_synchronization_read, synchronization::Record, synchronization::read, 0);
reader!(rust_channel_sequence_read, channel_sequence::Record, channel_sequence::read, at, at: usize);
reader!(rust_sequence_read, sequence::Record, told_sequence, at, at: usize, encoding: u32);

fn told_sequence(bytes: &[u8], at: usize, encoding: u32, record: &mut sequence::Record) -> Answer<usize> {
    if encoding > 0xFF {
        return Err(refusal(INCONSISTENT));
    }
    sequence::read(bytes, at, encoding, record)
}

macro_rules! writer {
    ($name:ident, $record:ty, $write:expr) => {
        #[no_mangle]
        unsafe extern "C" fn $name(record: &$record, buffer: *mut u8, length: usize, size: &mut usize) -> u32 {
            write_answer($write(record, unsafe { from_raw_parts_mut(buffer, length) }), size)
        }
    };
}

writer!(rust_data_path_write, data_path::Record, data_path::write);
writer!(rust_synchronization_write, synchronization::Record, synchronization::write);
writer!(rust_channel_sequence_write, channel_sequence::Record, channel_sequence::write);
writer!(rust_sequence_write, sequence::Record, sequence::write);

#[no_mangle]
unsafe extern "C" fn rust_judge(
    sequences: *const u8,
    sequences_length: usize,
    permitted: *const u8,
    permitted_length: usize,
    proposal: u32,
    offset: &mut usize,
    own: &mut u32,
) -> u32 {
    (*offset, *own) = (0, 0);
    let Err(Refusal(number, told)) = judge(unsafe { lent(sequences, sequences_length) }, unsafe { lent(permitted, permitted_length) }, proposal)
    else {
        return 0;
    };
    if number == 30 {
        *own = told as u32;
    } else {
        *offset = told;
    }
    number
}
