//! What our readers must answer: the answer of the published text, put right where a departure says so.
use awdl_frame_parser::tlvs::data_path::{DataPathFlags, DataPathStateTLV};
use awdl_frame_parser::tlvs::sync_elect::channel::ChannelEncoding;
use awdl_frame_parser::tlvs::sync_elect::channel_sequence::ChannelSequence;
use awdl_frame_parser::tlvs::sync_elect::{ChannelSequenceTLV, SynchronizationParametersTLV};
use scroll::ctx::TryFromCtx;
use scroll::{Error, Pread};

use crate::departures::{same, same_record, Departure, Outcome, Seen};
use crate::ours::{self, Read, CHANNEL_SEQUENCE, DATA_PATH, SEQUENCE, SYNCHRONIZATION};
use crate::published;

pub struct Expected<const N: usize> {
    pub refusal: u32,
    pub size: usize,
    pub record: [u32; N],
    /// Whether the published text accepts the value, which a search needs to know.
    pub accepted_there: bool,
    pub seen: Seen,
}
impl<const N: usize> Expected<N> {
    fn accepted(size: usize, record: [u32; N]) -> Self {
        Expected { refusal: 0, size, record, accepted_there: true, seen: Seen::default() }
    }
    fn refused(refusal: u32) -> Self {
        Expected { refusal, size: 0, record: [0; N], accepted_there: false, seen: Seen::default() }
    }
    pub fn is(&self, ours: &Read<N>) -> Outcome {
        same("refusal", ours.refusal, self.refusal)?;
        same("size", ours.size, self.size)?;
        same_record(&ours.record, &self.record)
    }
}

/// The flags that select a field, and the one of the country.
pub const PRESENCE: u16 = 0x9307;
pub const COUNTRY: u16 = 0x0100;

pub fn data_path(bytes: &[u8]) -> Outcome<Expected<DATA_PATH>> {
    let mut end = 0;
    let record = match bytes.gread::<DataPathStateTLV>(&mut end) {
        Ok(record) => record,
        Err(error) => return Ok(Expected::refused(published::refusal(error))),
    };
    if end <= bytes.len() {
        let pad = if record.country_code.is_some() { bytes[4] } else { 0 };
        return Ok(Expected::accepted(end, published::data_path_numbers(&record, pad.into())));
    }
    // Departure (a): the text may go past the end only for the pad of a country that is the last field, and only by that byte.
    let flags = u16::from_le_bytes([bytes[0], bytes[1]]);
    same("flags that select the country alone", flags & PRESENCE, COUNTRY)?;
    same("length and size of a cut country", (bytes.len(), end), (4, 5))?;
    let country_code = Some([bytes[2] as char, bytes[3] as char]);
    same("record of a cut country", record, DataPathStateTLV { flags: DataPathFlags::from_bits(flags), country_code, ..Default::default() })?;
    let mut expected = Expected::refused(ours::SHORT);
    expected.accepted_there = true;
    expected.seen.add(Departure::A);
    Ok(expected)
}

/// Departure (j): a step count byte of 255 is refused by our stand-in for the wrapper, whose type has no 256, and kept by us. What else must
/// be answered is what is answered for 254. `step_at` is the place of the byte in the value, and `number` that of the field in the record.
fn with_any_step<const N: usize>(
    bytes: &[u8],
    step_at: usize,
    number: usize,
    read: impl Fn(&[u8]) -> Result<Expected<N>, Error>,
) -> Outcome<Expected<N>> {
    match read(bytes) {
        Ok(expected) => Ok(expected),
        Err(Error::BadInput { msg: "The step count is too large.", .. }) => {
            same("step count byte", bytes[step_at], 255)?;
            let mut lower = bytes.to_vec();
            lower[step_at] = 254;
            let mut expected = read(&lower).map_err(|error| format!("refused with a lower step count too: {error:?}"))?;
            expected.record[number] = 255;
            expected.accepted_there = false;
            expected.seen.add(Departure::J);
            Ok(expected)
        }
        Err(error) => Ok(Expected::refused(published::refusal(error))),
    }
}

pub fn channel_sequence(bytes: &[u8], at: usize) -> Outcome<Expected<CHANNEL_SEQUENCE>> {
    with_any_step(bytes, at + 3, 1, |bytes| {
        let mut end = at;
        let record = bytes.gread::<ChannelSequenceTLV>(&mut end)?;
        Ok(Expected::accepted(end - at, published::channel_sequence_numbers(&record, &bytes[at..])))
    })
}
pub fn synchronization(bytes: &[u8]) -> Outcome<Expected<SYNCHRONIZATION>> {
    with_any_step(bytes, 36, 25, |bytes| {
        let mut end = 0;
        let record = bytes.gread::<SynchronizationParametersTLV>(&mut end)?;
        Ok(Expected::accepted(end, published::synchronization_numbers(&record, bytes[28], &bytes[33..])))
    })
}
/// The reader of the entries is called itself, and not at an offset: it looks at the encoding before it looks at the bytes.
pub fn sequence(bytes: &[u8], at: usize, encoding: u32) -> Expected<SEQUENCE> {
    let rest = &bytes[at.min(bytes.len())..];
    match ChannelSequence::try_from_ctx(rest, ChannelEncoding::from_bits(encoding as u8)) {
        Ok((record, size)) => Expected::accepted(size, published::sequence_numbers(&record)),
        Err(error) => Expected::refused(published::refusal(error)),
    }
}
