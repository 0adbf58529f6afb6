//! Our archive, as `board/awdl.h` declares it. Every place that is lent for an answer is filled with something else first, and after each call
//! it is looked at whether the answer has the shape that the header promises.
#![cfg_attr(not(feature = "faults"), allow(unused_mut))]
use crate::faults::fault;

pub const SHORT: u32 = 1;
pub const NOT_ACTION: u32 = 2;
pub const NOT_VERSION: u32 = 3;
pub const UNICAST_LENGTH: u32 = 4;
pub const ENCODING: u32 = 5;
pub const NO_ROOM: u32 = 6;
pub const INCONSISTENT: u32 = 7;
pub const TOO_LONG: u32 = 8;
pub const CHANNEL_COUNT: u32 = 10;
pub const LEGACY_SEQUENCE: u32 = 18;
pub const CORRECTED_CHANNEL: u32 = 19;
pub const TOO_MANY: u32 = 27;
pub const NONE_PERMITTED: u32 = 28;
pub const NOT_PERMITTED: u32 = 29;
pub const SMALLER_LOAD: u32 = 30;

pub const WHOLE: u32 = 0;
pub const ITEM: u32 = 1;
pub const CUT: u32 = 2;

pub const FRAME: usize = 4;
pub const CHANNEL: usize = 3;
pub const SEQUENCE: usize = 33;
pub const CHANNEL_SEQUENCE: usize = 36;
pub const SYNCHRONIZATION: usize = 60;
pub const DATA_PATH: usize = 44;

type ReadCall = unsafe extern "C" fn(*const u8, usize, *mut usize, *mut usize, *mut u32) -> u32;
type SearchCall = unsafe extern "C" fn(*const u8, usize, usize, *mut usize, *mut u32) -> u32;
type FirstCall = unsafe extern "C" fn(*const u8, usize, *mut usize, *mut u32) -> u32;
type AskCall = unsafe extern "C" fn(*const u32, *mut u32) -> u32;
type SizeCall = unsafe extern "C" fn(*const u32, *mut usize) -> u32;
type WriteCall = unsafe extern "C" fn(*const u32, *mut u8, usize, *mut usize) -> u32;

extern "C" {
    fn awdl_frame_read(bytes: *const u8, length: usize, offset: *mut usize, size: *mut usize, frame: *mut u32) -> u32;
    fn awdl_frame_write(frame: *const u32, tail: *const u8, tail_length: usize, buffer: *mut u8, length: usize, size: *mut usize) -> u32;
    fn awdl_tx_delta(phy_tx_time: u32, target_tx_time: u32) -> u32;
    fn awdl_write_item(tlv_type: u32, value: *const u8, value_length: usize, buffer: *mut u8, length: usize, size: *mut usize) -> u32;
    fn awdl_step(tail: *const u8, length: usize, at: usize, step: *mut usize) -> u32;
    fn awdl_first_data_path(tail: *const u8, length: usize, item: *mut usize, record: *mut u32) -> u32;
    fn awdl_next_data_path(tail: *const u8, length: usize, at: usize, item: *mut usize, record: *mut u32) -> u32;
    fn awdl_first_synchronization(tail: *const u8, length: usize, item: *mut usize, record: *mut u32) -> u32;
    fn awdl_next_synchronization(tail: *const u8, length: usize, at: usize, item: *mut usize, record: *mut u32) -> u32;
    fn awdl_first_channel_sequence(tail: *const u8, length: usize, item: *mut usize, record: *mut u32) -> u32;
    fn awdl_next_channel_sequence(tail: *const u8, length: usize, at: usize, item: *mut usize, record: *mut u32) -> u32;
    fn awdl_data_path_read(bytes: *const u8, length: usize, offset: *mut usize, size: *mut usize, record: *mut u32) -> u32;
    fn awdl_data_path_consistent(record: *const u32, consistent: *mut u32) -> u32;
    fn awdl_data_path_mend(record: *const u32, mended: *mut u32) -> u32;
    fn awdl_data_path_size(record: *const u32, size: *mut usize) -> u32;
    fn awdl_data_path_write(record: *const u32, buffer: *mut u8, length: usize, size: *mut usize) -> u32;
    fn awdl_synchronization_read(bytes: *const u8, length: usize, offset: *mut usize, size: *mut usize, record: *mut u32) -> u32;
    fn awdl_synchronization_consistent(record: *const u32, consistent: *mut u32) -> u32;
    fn awdl_synchronization_size(record: *const u32, size: *mut usize) -> u32;
    fn awdl_synchronization_write(record: *const u32, buffer: *mut u8, length: usize, size: *mut usize) -> u32;
    fn awdl_channel_sequence_read(bytes: *const u8, length: usize, at: usize, offset: *mut usize, size: *mut usize, record: *mut u32) -> u32;
    fn awdl_channel_sequence_consistent(record: *const u32, consistent: *mut u32) -> u32;
    fn awdl_channel_sequence_size(record: *const u32, size: *mut usize) -> u32;
    fn awdl_channel_sequence_write(record: *const u32, buffer: *mut u8, length: usize, size: *mut usize) -> u32;
    fn awdl_sequence_read(b: *const u8, length: usize, at: usize, encoding: u32, offset: *mut usize, size: *mut usize, sequence: *mut u32) -> u32;
    fn awdl_sequence_consistent(sequence: *const u32, consistent: *mut u32) -> u32;
    fn awdl_sequence_size(sequence: *const u32, size: *mut usize) -> u32;
    fn awdl_sequence_write(sequence: *const u32, buffer: *mut u8, length: usize, size: *mut usize) -> u32;
    fn awdl_sequence_entry(sequence: *const u32, entry: usize, found: *mut u32, channel: *mut u32) -> u32;
    fn awdl_sequence_to_simple(sequence: *const u32, simple: *mut u32) -> u32;
    fn awdl_channel(channel: *const u32, corrected: *mut u32) -> u32;
    fn awdl_judge(seqs: *const u8, length: usize, permitted: *const u8, many: usize, proposal: u32, offset: *mut usize, own: *mut u32) -> u32;
    fn awdl_own_proposal(seqs: *const u8, length: usize, permitted: *const u8, many: usize, offset: *mut usize, channel: *mut u32) -> u32;
    fn awdl_channel_load(seqs: *const u8, length: usize, channel: u32, offset: *mut usize, load: *mut u32) -> u32;
}

/// What the places hold before a call.
const JUNK: u32 = 0xA5A5_A5A5;
const JUNK_SIZE: usize = 0xA5A5_A5A5;
pub const JUNK_BYTE: u8 = 0xEE;

/// What a reader answers.
#[derive(Debug)]
pub struct Read<const N: usize> {
    pub refusal: u32,
    pub offset: usize,
    pub size: usize,
    pub record: [u32; N],
}
impl<const N: usize> Read<N> {
    fn junk() -> Self {
        Read { refusal: 0, offset: JUNK_SIZE, size: JUNK_SIZE, record: [JUNK; N] }
    }
    /// `at` is the place that the reader was told, which may lie past the end.
    fn shaped(self, length: usize, at: usize) -> Result<Self, String> {
        let zero = self.size == 0 && self.record == [0; N];
        let offset = if self.refusal == SHORT { self.offset >= at && self.offset <= length.max(at) } else { self.offset == 0 };
        if offset && (self.refusal == 0 || zero) {
            Ok(self)
        } else {
            Err(format!("our answer has no proper shape: {self:?}"))
        }
    }
}

fn read<const N: usize>(call: ReadCall, bytes: &[u8]) -> Read<N> {
    let mut read = Read::junk();
    // SAFETY: the places are those that the header asks for, and none overlaps with another; this holds for every call below.
    read.refusal = unsafe { call(bytes.as_ptr(), bytes.len(), &mut read.offset, &mut read.size, read.record.as_mut_ptr()) };
    read
}

pub fn frame_read(bytes: &[u8]) -> Result<Read<FRAME>, String> {
    let mut read = read(awdl_frame_read, bytes);
    fault!(1, read.record.swap(2, 3));
    read.shaped(bytes.len(), 0)
}
pub fn data_path_read(bytes: &[u8]) -> Result<Read<DATA_PATH>, String> {
    let mut read: Read<DATA_PATH> = read(awdl_data_path_read, bytes);
    fault!(2, (0..6).for_each(|byte| read.record.swap(17 + byte, 24 + byte)));
    fault!(3, read.size += (read.record[40] == 1) as usize);
    fault!(4, read.refusal -= 3 * (read.refusal == UNICAST_LENGTH) as u32);
    read.shaped(bytes.len(), 0)
}
pub fn synchronization_read(bytes: &[u8]) -> Result<Read<SYNCHRONIZATION>, String> {
    let mut read: Read<SYNCHRONIZATION> = read(awdl_synchronization_read, bytes);
    fault!(5, read.record[1] = (read.record[1] as u16).swap_bytes() as u32);
    read.shaped(bytes.len(), 0)
}
pub fn channel_sequence_read(bytes: &[u8], at: usize) -> Result<Read<CHANNEL_SEQUENCE>, String> {
    let mut read = Read::junk();
    let record = read.record.as_mut_ptr();
    read.refusal = unsafe { awdl_channel_sequence_read(bytes.as_ptr(), bytes.len(), at, &mut read.offset, &mut read.size, record) };
    read.shaped(bytes.len(), at)
}
pub fn sequence_read(bytes: &[u8], at: usize, encoding: u32) -> Result<Read<SEQUENCE>, String> {
    let mut read = Read::junk();
    let record = read.record.as_mut_ptr();
    read.refusal = unsafe { awdl_sequence_read(bytes.as_ptr(), bytes.len(), at, encoding, &mut read.offset, &mut read.size, record) };
    fault!(6, read.record[32] &= 0x7F);
    read.shaped(bytes.len(), at)
}

/// What a writer answers, with the buffer as it is afterwards.
#[derive(Debug)]
pub struct Written {
    pub refusal: u32,
    pub size: usize,
    pub buffer: Vec<u8>,
}
impl Written {
    fn with(room: usize, call: impl FnOnce(*mut u8, &mut usize) -> u32) -> Self {
        // Some bytes stand behind the room, so that one written there is seen.
        let (mut size, mut buffer) = (JUNK_SIZE, vec![JUNK_BYTE; room + 8]);
        let refusal = call(buffer.as_mut_ptr(), &mut size);
        assert_eq!(buffer[room..], [JUNK_BYTE; 8], "we wrote past the end of the buffer");
        buffer.truncate(room);
        fault!(7, (refusal == NO_ROOM && room > 0).then(|| buffer[0] = 0));
        Written { refusal, size, buffer }
    }
    /// It must have written these bytes at the start of its buffer and nothing behind them.
    pub fn is(&self, bytes: &[u8]) -> bool {
        let put = self.buffer.get(..bytes.len()) == Some(bytes);
        self.refusal == 0 && self.size == bytes.len() && put && self.buffer[bytes.len()..].iter().all(|byte| *byte == JUNK_BYTE)
    }
    /// It must have been refused and have left its buffer as it was.
    pub fn is_refused(&self, refusal: u32) -> bool {
        self.refusal == refusal && self.size == 0 && self.buffer.iter().all(|byte| *byte == JUNK_BYTE)
    }
}

/// The calls that a kind of record has.
pub struct Record {
    pub numbers: usize,
    consistent: AskCall,
    size: SizeCall,
    write: WriteCall,
}
pub const DATA_PATH_CALLS: Record =
    Record { numbers: DATA_PATH, consistent: awdl_data_path_consistent, size: awdl_data_path_size, write: awdl_data_path_write };
pub const SYNCHRONIZATION_CALLS: Record = Record {
    numbers: SYNCHRONIZATION,
    consistent: awdl_synchronization_consistent,
    size: awdl_synchronization_size,
    write: awdl_synchronization_write,
};
pub const CHANNEL_SEQUENCE_CALLS: Record = Record {
    numbers: CHANNEL_SEQUENCE,
    consistent: awdl_channel_sequence_consistent,
    size: awdl_channel_sequence_size,
    write: awdl_channel_sequence_write,
};
pub const SEQUENCE_CALLS: Record =
    Record { numbers: SEQUENCE, consistent: awdl_sequence_consistent, size: awdl_sequence_size, write: awdl_sequence_write };

impl Record {
    pub fn consistent(&self, record: &[u32]) -> (u32, u32) {
        assert_eq!(record.len(), self.numbers);
        let mut consistent = JUNK;
        let refusal = unsafe { (self.consistent)(record.as_ptr(), &mut consistent) };
        (refusal, consistent)
    }
    pub fn size(&self, record: &[u32]) -> (u32, usize) {
        assert_eq!(record.len(), self.numbers);
        let mut size = JUNK_SIZE;
        let refusal = unsafe { (self.size)(record.as_ptr(), &mut size) };
        (refusal, size)
    }
    pub fn write(&self, record: &[u32], room: usize) -> Written {
        assert_eq!(record.len(), self.numbers);
        let mut written = Written::with(room, |buffer, size| unsafe { (self.write)(record.as_ptr(), buffer, room, size) });
        fault!(8, (written.refusal == 0 && self.numbers == DATA_PATH).then(|| written.buffer[written.size - 1] ^= 1));
        fault!(9, (written.refusal == 0 && self.numbers == SYNCHRONIZATION).then(|| written.buffer.swap(29, 30)));
        written
    }
}
pub fn data_path_mend(record: &[u32]) -> (u32, [u32; DATA_PATH]) {
    assert_eq!(record.len(), DATA_PATH);
    let mut mended = [JUNK; DATA_PATH];
    let refusal = unsafe { awdl_data_path_mend(record.as_ptr(), mended.as_mut_ptr()) };
    fault!(10, mended[0] &= !(u32::from(mended[32] == 1 && record[30] == 0) << 12));
    (refusal, mended)
}

pub fn frame_write(frame: &[u32; FRAME], tail: &[u8], room: usize) -> Written {
    Written::with(room, |buffer, size| unsafe { awdl_frame_write(frame.as_ptr(), tail.as_ptr(), tail.len(), buffer, room, size) })
}
pub fn write_item(tlv_type: u32, value: &[u8], room: usize) -> Written {
    Written::with(room, |buffer, size| unsafe { awdl_write_item(tlv_type, value.as_ptr(), value.len(), buffer, room, size) })
}
pub fn tx_delta(phy_tx_time: u32, target_tx_time: u32) -> u32 {
    fault!(11, return phy_tx_time.saturating_sub(target_tx_time));
    unsafe { awdl_tx_delta(phy_tx_time, target_tx_time) }
}
pub fn step(tail: &[u8], at: usize) -> (u32, [usize; 5]) {
    let mut step = [JUNK_SIZE; 5];
    let answer = unsafe { awdl_step(tail.as_ptr(), tail.len(), at, step.as_mut_ptr()) };
    fault!(12, step[4] += (answer == ITEM && step[2] == 0) as usize);
    (answer, step)
}

/// The two searches for a type of record, and what one tells: the item and the record.
pub struct Search {
    first: FirstCall,
    next: SearchCall,
}
pub const DATA_PATHS: Search = Search { first: awdl_first_data_path, next: awdl_next_data_path };
pub const SYNCHRONIZATIONS: Search = Search { first: awdl_first_synchronization, next: awdl_next_synchronization };
pub const CHANNEL_SEQUENCES: Search = Search { first: awdl_first_channel_sequence, next: awdl_next_channel_sequence };

pub type Found<const N: usize> = (u32, [usize; 4], [u32; N]);

impl Search {
    pub fn first<const N: usize>(&self, tail: &[u8]) -> Found<N> {
        let (mut item, mut record) = ([JUNK_SIZE; 4], [JUNK; N]);
        let found = unsafe { (self.first)(tail.as_ptr(), tail.len(), item.as_mut_ptr(), record.as_mut_ptr()) };
        // This one ends at the first item of the type that is refused: it finds nothing that stands behind another item.
        fault!(
            13,
            if found == 1 && item[0] > 0 {
                return (0, [0; 4], [0; N]);
            }
        );
        (found, item, record)
    }
    pub fn next<const N: usize>(&self, tail: &[u8], at: usize) -> Found<N> {
        let (mut item, mut record) = ([JUNK_SIZE; 4], [JUNK; N]);
        let found = unsafe { (self.next)(tail.as_ptr(), tail.len(), at, item.as_mut_ptr(), record.as_mut_ptr()) };
        (found, item, record)
    }
}

pub fn sequence_entry(sequence: &[u32; SEQUENCE], entry: usize) -> (u32, u32, [u32; CHANNEL]) {
    let (mut found, mut channel) = (JUNK, [JUNK; CHANNEL]);
    let refusal = unsafe { awdl_sequence_entry(sequence.as_ptr(), entry, &mut found, channel.as_mut_ptr()) };
    (refusal, found, channel)
}
pub fn sequence_to_simple(sequence: &[u32; SEQUENCE]) -> (u32, [u32; SEQUENCE]) {
    let mut simple = [JUNK; SEQUENCE];
    let refusal = unsafe { awdl_sequence_to_simple(sequence.as_ptr(), simple.as_mut_ptr()) };
    (refusal, simple)
}
pub fn channel(channel: &[u32; CHANNEL]) -> (u32, u32) {
    let mut corrected = JUNK;
    let refusal = unsafe { awdl_channel(channel.as_ptr(), &mut corrected) };
    fault!(14, corrected = if channel[0] == 1 && channel[1] & 3 == 2 { (channel[2] + 2).min(255) } else { corrected });
    (refusal, corrected)
}

/// A refusal, the offset beside it, and the number that is answered.
pub type Judged = (u32, usize, u32);

pub fn judge(sequences: &[u8], permitted: &[u8], proposal: u32) -> Judged {
    let (mut offset, mut own, [s, p]) = (JUNK_SIZE, JUNK, [sequences, permitted]);
    let refusal = unsafe { awdl_judge(s.as_ptr(), s.len(), p.as_ptr(), p.len(), proposal, &mut offset, &mut own) };
    (refusal, offset, own)
}
pub fn own_proposal(sequences: &[u8], permitted: &[u8]) -> Judged {
    let (mut offset, mut own, [s, p]) = (JUNK_SIZE, JUNK, [sequences, permitted]);
    let refusal = unsafe { awdl_own_proposal(s.as_ptr(), s.len(), p.as_ptr(), p.len(), &mut offset, &mut own) };
    (refusal, offset, own)
}
pub fn channel_load(sequences: &[u8], channel: u32) -> Judged {
    let (mut offset, mut load) = (JUNK_SIZE, JUNK);
    let refusal = unsafe { awdl_channel_load(sequences.as_ptr(), sequences.len(), channel, &mut offset, &mut load) };
    (refusal, offset, load)
}
