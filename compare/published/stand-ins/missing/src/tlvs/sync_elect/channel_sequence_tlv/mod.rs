//! A stand-in for the channel sequence wrapper. Its record has the two fields that the test of the synchronization parameters shows;
//! its layout is that of request No. 2. A line that can decide an answer is marked `assumed`, with the reason. See departure (j).
pub mod channel;
pub mod channel_sequence;

use core::num::NonZeroU8;

use scroll::ctx::{MeasureWith, TryFromCtx, TryIntoCtx};
use scroll::{Error, Pread, Pwrite};

use self::channel::ChannelEncoding;
use self::channel_sequence::ChannelSequence;
use crate::tlvs::{AWDLTLVType, AwdlTlv};

#[derive(Clone, Debug, PartialEq, Eq)]
pub struct ChannelSequenceTLV {
    pub step_count: NonZeroU8,
    pub channel_sequence: ChannelSequence,
}
impl Default for ChannelSequenceTLV {
    fn default() -> Self {
        Self { step_count: NonZeroU8::MIN, channel_sequence: ChannelSequence::default() }
    }
}
impl AwdlTlv for ChannelSequenceTLV {
    const TLV_TYPE: AWDLTLVType = AWDLTLVType::ChannelSequence; // assumed: by the name of the type
}
impl MeasureWith<()> for ChannelSequenceTLV {
    fn measure_with(&self, ctx: &()) -> usize {
        7 + self.channel_sequence.measure_with(ctx) // assumed: one more than is read, since the synchronization record adds 32 to it and not 33
    }
}
fn bad(msg: &'static str) -> Error {
    Error::BadInput { size: 6, msg }
}
impl<'a> TryFromCtx<'a> for ChannelSequenceTLV {
    type Error = Error;
    fn try_from_ctx(from: &'a [u8], _: ()) -> Result<(Self, usize), Error> {
        let mut offset = 0;
        let [count, encoding, _, step_count, _, _] = from.gread::<[u8; 6]>(&mut offset)?; // assumed: the six bytes, by request No. 2
        let sixteen = count == 15; // assumed: the byte is one less than the count, by request No. 2
        if !sixteen {
            return Err(bad("The sequence has not sixteen entries.")); // assumed: by request No. 2
        }
        let encoding = ChannelEncoding::from_bits(encoding); // assumed: the byte is the encoding's number
        let (channel_sequence, size) = ChannelSequence::try_from_ctx(&from[offset..], encoding)?; // assumed: the entries follow at once
        let step_count = step_count.checked_add(1).and_then(NonZeroU8::new); // assumed: one more than the byte, as dissectors and the test have it
        let step_count = step_count.ok_or(bad("The step count is too large."))?; // assumed: 256 is no number of its type
        Ok((Self { step_count, channel_sequence }, offset + size)) // assumed: what stands behind the entries is not read
    }
}
impl TryIntoCtx for ChannelSequenceTLV {
    type Error = Error;
    fn try_into_ctx(self, buf: &mut [u8], _: ()) -> Result<usize, Error> {
        let encoding = self.channel_sequence.channel_encoding().into_bits(); // assumed: as in reading
        let mut offset = 0;
        buf.gwrite([15, encoding, 0, self.step_count.get() - 1, 0, 0u8], &mut offset)?; // assumed: as in reading, with 0 for what it has no field for
        buf.gwrite(self.channel_sequence, &mut offset)?; // assumed: as in reading
        Ok(offset) // assumed: what was written, so that the synchronization writer answers one less, as 01 tells
    }
}
