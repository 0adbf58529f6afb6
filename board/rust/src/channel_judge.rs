use crate::{raw, Refusal};

/// Judges whether a channel is one to move to: it is permitted, and the sequences hop to no permitted channel less often. The sequences are lent one
/// behind the other, each as [`ChannelSequence::lent`](crate::tlvs::sync_elect::ChannelSequence::lent) gives it.
///
/// ```
/// use awdl::channel_judge::{channel_load, judge, own_proposal};
/// use awdl::{tlvs::sync_elect::ChannelSequence, Refusal};
///
/// let sequences = ChannelSequence::Simple([36; 16]).lent();
/// assert_eq!(channel_load(&sequences, 36), Ok(16));
/// assert_eq!(judge(&sequences, &[36, 40], 36), Err(Refusal::SmallerLoad(40)));
/// assert_eq!(own_proposal(&sequences, &[36, 40]), Ok(40));
/// ```
pub fn judge(sequences: &[u8], permitted: &[u8], proposal: u8) -> Result<(), Refusal> {
    let (number, offset, own) = raw::judge(sequences, permitted, proposal.into());
    Refusal::check(number, offset, own)
}

/// The first of the permitted channels that [`judge`] accepts.
pub fn own_proposal(sequences: &[u8], permitted: &[u8]) -> Result<u8, Refusal> {
    let (number, offset, channel) = raw::own_proposal(sequences, permitted);
    Refusal::check(number, offset, 0).map(|()| channel as u8)
}

/// How many entries of the sequences have a channel, permitted or not, as their corrected one.
pub fn channel_load(sequences: &[u8], channel: u8) -> Result<u16, Refusal> {
    let (number, offset, load) = raw::channel_load(sequences, channel.into());
    Refusal::check(number, offset, 0).map(|()| load as u16)
}
