//! The calls of `awdl.h` over arrays of numbers, as they are there. They are public for the tests alone, which lend records that the types of this
//! package cannot express.
#![allow(missing_docs, unsafe_code)]

pub const FRAME: usize = 4;
pub const CHANNEL: usize = 3;
pub const SEQUENCE: usize = 33;
pub const CHANNEL_SEQUENCE: usize = 36;
pub const SYNCHRONIZATION: usize = 60;
pub const DATA_PATH: usize = 44;
pub const STEP: usize = 5;
pub const FOUND: usize = 4;

/// A refusal's number, the offset, the size and the record.
pub type Read<const N: usize> = (u32, usize, usize, [u32; N]);

/// 1 or 0, what is told of the item, and the record.
pub type Found<const N: usize> = (u32, [usize; FOUND], [u32; N]);

// Every place for an answer starts like this and not with 0, so that an answer that was not given would show.
const UNSET: u32 = u32::MAX;
const UNSET_SIZE: usize = usize::MAX;

// The declarations of `awdl.h`, in its order, so that they can be held against it. What C lends as one address is a reference here, and a slice is
// lent as a pointer and a length.
#[rustfmt::skip]
mod external {
    use super::*;

    type Bytes = *const u8;
    type Buffer = *mut u8;
    type Item = [usize; FOUND];
    type Frame = [u32; FRAME];
    type Channel = [u32; CHANNEL];
    type Sequence = [u32; SEQUENCE];
    type ChannelSequence = [u32; CHANNEL_SEQUENCE];
    type Synchronization = [u32; SYNCHRONIZATION];
    type DataPath = [u32; DATA_PATH];

    extern "C" {
        pub fn awdl_frame_read(bytes: Bytes, length: usize, offset: &mut usize, size: &mut usize, frame: &mut Frame) -> u32;
        pub fn awdl_frame_write(frame: &Frame, tail: Bytes, tail_length: usize, buffer: Buffer, length: usize, size: &mut usize) -> u32;
        pub fn awdl_tx_delta(phy_tx_time: u32, target_tx_time: u32) -> u32;
        pub fn awdl_write_item(tlv_type: u32, value: Bytes, value_length: usize, buffer: Buffer, length: usize, size: &mut usize) -> u32;
        pub fn awdl_step(tail: Bytes, length: usize, at: usize, step: &mut [usize; STEP]) -> u32;
        pub fn awdl_first_data_path(tail: Bytes, length: usize, item: &mut Item, record: &mut DataPath) -> u32;
        pub fn awdl_next_data_path(tail: Bytes, length: usize, at: usize, item: &mut Item, record: &mut DataPath) -> u32;
        pub fn awdl_first_synchronization(tail: Bytes, length: usize, item: &mut Item, record: &mut Synchronization) -> u32;
        pub fn awdl_next_synchronization(tail: Bytes, length: usize, at: usize, item: &mut Item, record: &mut Synchronization) -> u32;
        pub fn awdl_first_channel_sequence(tail: Bytes, length: usize, item: &mut Item, record: &mut ChannelSequence) -> u32;
        pub fn awdl_next_channel_sequence(tail: Bytes, length: usize, at: usize, item: &mut Item, record: &mut ChannelSequence) -> u32;
        pub fn awdl_data_path_read(bytes: Bytes, length: usize, offset: &mut usize, size: &mut usize, record: &mut DataPath) -> u32;
        pub fn awdl_data_path_consistent(record: &DataPath, consistent: &mut u32) -> u32;
        pub fn awdl_data_path_mend(record: &DataPath, mended: &mut DataPath) -> u32;
        pub fn awdl_data_path_size(record: &DataPath, size: &mut usize) -> u32;
        pub fn awdl_data_path_write(record: &DataPath, buffer: Buffer, length: usize, size: &mut usize) -> u32;
        pub fn awdl_synchronization_read(bytes: Bytes, length: usize, offset: &mut usize, size: &mut usize, record: &mut Synchronization) -> u32;
        pub fn awdl_synchronization_consistent(record: &Synchronization, consistent: &mut u32) -> u32;
        pub fn awdl_synchronization_size(record: &Synchronization, size: &mut usize) -> u32;
        pub fn awdl_synchronization_write(record: &Synchronization, buffer: Buffer, length: usize, size: &mut usize) -> u32;
        pub fn awdl_channel_sequence_read(
            bytes: Bytes, length: usize, at: usize, offset: &mut usize, size: &mut usize, record: &mut ChannelSequence,
        ) -> u32;
        pub fn awdl_channel_sequence_consistent(record: &ChannelSequence, consistent: &mut u32) -> u32;
        pub fn awdl_channel_sequence_size(record: &ChannelSequence, size: &mut usize) -> u32;
        pub fn awdl_channel_sequence_write(record: &ChannelSequence, buffer: Buffer, length: usize, size: &mut usize) -> u32;
        pub fn awdl_sequence_read(
            bytes: Bytes, length: usize, at: usize, encoding: u32, offset: &mut usize, size: &mut usize, sequence: &mut Sequence,
        ) -> u32;
        pub fn awdl_sequence_consistent(sequence: &Sequence, consistent: &mut u32) -> u32;
        pub fn awdl_sequence_size(sequence: &Sequence, size: &mut usize) -> u32;
        pub fn awdl_sequence_write(sequence: &Sequence, buffer: Buffer, length: usize, size: &mut usize) -> u32;
        pub fn awdl_sequence_entry(sequence: &Sequence, entry: usize, found: &mut u32, channel: &mut Channel) -> u32;
        pub fn awdl_sequence_to_simple(sequence: &Sequence, simple: &mut Sequence) -> u32;
        pub fn awdl_channel(channel: &Channel, corrected: &mut u32) -> u32;
        pub fn awdl_judge(
            sequences: Bytes, length: usize, permitted: Bytes, permitted_length: usize, proposal: u32, offset: &mut usize, own: &mut u32,
        ) -> u32;
        pub fn awdl_own_proposal(
            sequences: Bytes, length: usize, permitted: Bytes, permitted_length: usize, offset: &mut usize, channel: &mut u32,
        ) -> u32;
        pub fn awdl_channel_load(sequences: Bytes, length: usize, channel: u32, offset: &mut usize, load: &mut u32) -> u32;
    }
}

macro_rules! readers {
    ($($name:ident = $call:ident($($given:ident: $kind:ty),*): $n:expr;)*) => {$(
        pub fn $name(bytes: &[u8] $(, $given: $kind)*) -> Read<$n> {
            let (mut offset, mut size, mut record) = (UNSET_SIZE, UNSET_SIZE, [UNSET; $n]);
            // SAFETY: the slice is lent whole and is only read; what is lent for the answer is our own, each place apart from the others.
            let number = unsafe { external::$call(bytes.as_ptr(), bytes.len() $(, $given)*, &mut offset, &mut size, &mut record) };
            (number, offset, size, record)
        }
    )*};
}
readers! {
    frame_read = awdl_frame_read(): FRAME;
    data_path_read = awdl_data_path_read(): DATA_PATH;
    synchronization_read = awdl_synchronization_read(): SYNCHRONIZATION;
    channel_sequence_read = awdl_channel_sequence_read(at: usize): CHANNEL_SEQUENCE;
    sequence_read = awdl_sequence_read(at: usize, encoding: u32): SEQUENCE;
}

macro_rules! searches {
    ($($name:ident = $call:ident($($at:ident)?): $n:expr;)*) => {$(
        pub fn $name(tail: &[u8] $(, $at: usize)?) -> Found<$n> {
            let (mut item, mut record) = ([UNSET_SIZE; FOUND], [UNSET; $n]);
            // SAFETY: the slice is lent whole and is only read; the item and the record are our own.
            let found = unsafe { external::$call(tail.as_ptr(), tail.len() $(, $at)?, &mut item, &mut record) };
            (found, item, record)
        }
    )*};
}
searches! {
    first_data_path = awdl_first_data_path(): DATA_PATH;
    next_data_path = awdl_next_data_path(at): DATA_PATH;
    first_synchronization = awdl_first_synchronization(): SYNCHRONIZATION;
    next_synchronization = awdl_next_synchronization(at): SYNCHRONIZATION;
    first_channel_sequence = awdl_first_channel_sequence(): CHANNEL_SEQUENCE;
    next_channel_sequence = awdl_next_channel_sequence(at): CHANNEL_SEQUENCE;
}

// Calls that are given a record, and answer a number, or a record, beside the refusal's.
macro_rules! of_records {
    ($($name:ident = $call:ident(&$n:expr) -> $answer:ty = $unset:expr;)*) => {$(
        pub fn $name(record: &[u32; $n]) -> (u32, $answer) {
            let mut answer: $answer = $unset;
            // SAFETY: the record is only read, and the answer is our own.
            let number = unsafe { external::$call(record, &mut answer) };
            (number, answer)
        }
    )*};
}
of_records! {
    data_path_consistent = awdl_data_path_consistent(&DATA_PATH) -> u32 = UNSET;
    data_path_mend = awdl_data_path_mend(&DATA_PATH) -> [u32; DATA_PATH] = [UNSET; DATA_PATH];
    data_path_size = awdl_data_path_size(&DATA_PATH) -> usize = UNSET_SIZE;
    synchronization_consistent = awdl_synchronization_consistent(&SYNCHRONIZATION) -> u32 = UNSET;
    synchronization_size = awdl_synchronization_size(&SYNCHRONIZATION) -> usize = UNSET_SIZE;
    channel_sequence_consistent = awdl_channel_sequence_consistent(&CHANNEL_SEQUENCE) -> u32 = UNSET;
    channel_sequence_size = awdl_channel_sequence_size(&CHANNEL_SEQUENCE) -> usize = UNSET_SIZE;
    sequence_consistent = awdl_sequence_consistent(&SEQUENCE) -> u32 = UNSET;
    sequence_size = awdl_sequence_size(&SEQUENCE) -> usize = UNSET_SIZE;
    sequence_to_simple = awdl_sequence_to_simple(&SEQUENCE) -> [u32; SEQUENCE] = [UNSET; SEQUENCE];
    channel = awdl_channel(&CHANNEL) -> u32 = UNSET;
}

macro_rules! writers {
    ($($name:ident = $call:ident: $n:expr;)*) => {$(
        pub fn $name(record: &[u32; $n], buffer: &mut [u8]) -> (u32, usize) {
            let mut size = UNSET_SIZE;
            // SAFETY: the record is only read; the buffer is lent whole, to this call alone, and the size is our own.
            let number = unsafe { external::$call(record, buffer.as_mut_ptr(), buffer.len(), &mut size) };
            (number, size)
        }
    )*};
}
writers! {
    data_path_write = awdl_data_path_write: DATA_PATH;
    synchronization_write = awdl_synchronization_write: SYNCHRONIZATION;
    channel_sequence_write = awdl_channel_sequence_write: CHANNEL_SEQUENCE;
    sequence_write = awdl_sequence_write: SEQUENCE;
}

pub fn frame_write(frame: &[u32; FRAME], tail: &[u8], buffer: &mut [u8]) -> (u32, usize) {
    let mut size = UNSET_SIZE;
    // SAFETY: the frame and the tail are only read; the buffer is lent whole, to this call alone, and the size is our own.
    let number = unsafe { external::awdl_frame_write(frame, tail.as_ptr(), tail.len(), buffer.as_mut_ptr(), buffer.len(), &mut size) };
    (number, size)
}

pub fn write_item(tlv_type: u32, value: &[u8], buffer: &mut [u8]) -> (u32, usize) {
    let mut size = UNSET_SIZE;
    // SAFETY: the value is only read; the buffer is lent whole, to this call alone, and the size is our own.
    let number = unsafe { external::awdl_write_item(tlv_type, value.as_ptr(), value.len(), buffer.as_mut_ptr(), buffer.len(), &mut size) };
    (number, size)
}

pub fn tx_delta(phy_tx_time: u32, target_tx_time: u32) -> u32 {
    // SAFETY: two numbers are given and nothing is lent.
    unsafe { external::awdl_tx_delta(phy_tx_time, target_tx_time) }
}

pub fn step(tail: &[u8], at: usize) -> (u32, [usize; STEP]) {
    let mut step = [UNSET_SIZE; STEP];
    // SAFETY: the tail is lent whole and is only read, and the step is our own.
    let answer = unsafe { external::awdl_step(tail.as_ptr(), tail.len(), at, &mut step) };
    (answer, step)
}

pub fn sequence_entry(sequence: &[u32; SEQUENCE], entry: usize) -> (u32, u32, [u32; CHANNEL]) {
    let (mut found, mut channel) = (UNSET, [UNSET; CHANNEL]);
    // SAFETY: the sequence is only read; the two places for the answer are our own.
    let number = unsafe { external::awdl_sequence_entry(sequence, entry, &mut found, &mut channel) };
    (number, found, channel)
}

pub fn judge(sequences: &[u8], permitted: &[u8], proposal: u32) -> (u32, usize, u32) {
    let (mut offset, mut own) = (UNSET_SIZE, UNSET);
    let (first, second) = ((sequences.as_ptr(), sequences.len()), (permitted.as_ptr(), permitted.len()));
    // SAFETY: both slices are lent whole and are only read; the two places for the answer are our own.
    let number = unsafe { external::awdl_judge(first.0, first.1, second.0, second.1, proposal, &mut offset, &mut own) };
    (number, offset, own)
}

pub fn own_proposal(sequences: &[u8], permitted: &[u8]) -> (u32, usize, u32) {
    let (mut offset, mut channel) = (UNSET_SIZE, UNSET);
    let (first, second) = ((sequences.as_ptr(), sequences.len()), (permitted.as_ptr(), permitted.len()));
    // SAFETY: both slices are lent whole and are only read; the two places for the answer are our own.
    let number = unsafe { external::awdl_own_proposal(first.0, first.1, second.0, second.1, &mut offset, &mut channel) };
    (number, offset, channel)
}

pub fn channel_load(sequences: &[u8], channel: u32) -> (u32, usize, u32) {
    let (mut offset, mut load) = (UNSET_SIZE, UNSET);
    // SAFETY: the slice is lent whole and is only read; the two places for the answer are our own.
    let number = unsafe { external::awdl_channel_load(sequences.as_ptr(), sequences.len(), channel, &mut offset, &mut load) };
    (number, offset, load)
}
