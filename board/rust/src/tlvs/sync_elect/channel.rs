use crate::{raw, Field, Refusal};

/// How the entries of a sequence are written.
#[derive(Clone, Copy, Debug, PartialEq, Eq, Hash)]
pub enum ChannelEncoding {
    /// The channel alone.
    Simple = 0,
    /// Flags, then the channel. Such a sequence is read and not written.
    Legacy = 1,
    /// The channel, then its operating class.
    OpClass = 3,
}
field!(ChannelEncoding: u8, Self::from_bits, |encoding| encoding.into_bits());

impl ChannelEncoding {
    /// The encoding that a byte names; any other byte is refused.
    pub const fn from_bits(bits: u8) -> Result<Self, Refusal> {
        match bits {
            0 => Ok(Self::Simple),
            1 => Ok(Self::Legacy),
            3 => Ok(Self::OpClass),
            _ => Err(Refusal::Encoding),
        }
    }

    /// The byte that names it.
    pub const fn into_bits(self) -> u8 {
        self as u8
    }

    /// The bytes of one entry.
    pub const fn size(self) -> u8 {
        match self {
            Self::Simple => 1,
            Self::Legacy | Self::OpClass => 2,
        }
    }
}

named_numbers! {
    /// Where the primary channel lies beside the one that is named.
    SupportChannel {
        Lower = 1, "Two below it.";
        Upper = 2, "Two above it.";
        Primary = 3, "It is the one that is named.";
    }
}

named_numbers! {
    /// How wide the channel is.
    ChannelBandwidth {
        TwentyMHz = 1, "20 MHz.";
        FourtyMHz = 2, "40 MHz.";
        EightyMHz = 3, "80 MHz.";
    }
}

named_numbers! {
    /// The band in which the channel lies.
    Band {
        FiveGHz = 1, "5 GHz.";
        TwoPointFourGHz = 2, "2.4 GHz.";
    }
}

word! {
    /// The flags of a legacy channel.
    LegacyFlags: u8, keeps 0x3F;
}

impl LegacyFlags {
    /// What bits 0 and 1 say.
    pub const fn support_channel(self) -> SupportChannel {
        SupportChannel::from_bits(self.0 & 3)
    }

    /// What bits 2 and 3 say.
    pub const fn channel_bandwidth(self) -> ChannelBandwidth {
        ChannelBandwidth::from_bits(self.0 >> 2 & 3)
    }

    /// What bits 4 and 5 say.
    pub const fn band(self) -> Band {
        Band::from_bits(self.0 >> 4 & 3)
    }
}

/// An entry of a sequence.
#[derive(Clone, Copy, Debug, PartialEq, Eq, Hash)]
pub enum Channel {
    /// A channel alone.
    Simple {
        /// The channel.
        channel: u8,
    },
    /// A channel that flags correct.
    Legacy {
        /// The flags.
        flags: LegacyFlags,
        /// The channel as it was sent.
        channel: u8,
    },
    /// A channel with its operating class.
    OpClass {
        /// The channel.
        channel: u8,
        /// The operating class.
        opclass: u8,
    },
}
field!(Channel: (ChannelEncoding, (u8, u8)), |(encoding, (first, second))| match (encoding, second) {
    (ChannelEncoding::Simple, 0) => Ok(Self::Simple { channel: first }),
    (ChannelEncoding::Simple, _) => Err(Refusal::Inconsistent),
    (ChannelEncoding::Legacy, channel) => Ok(Self::Legacy { flags: LegacyFlags(first), channel }),
    (ChannelEncoding::OpClass, opclass) => Ok(Self::OpClass { channel: first, opclass }),
}, |entry| match *entry {
    Self::Simple { channel } => (ChannelEncoding::Simple, (channel, 0)),
    Self::Legacy { flags, channel } => (ChannelEncoding::Legacy, (flags.0, channel)),
    Self::OpClass { channel, opclass } => (ChannelEncoding::OpClass, (channel, opclass)),
});

impl Channel {
    /// The encoding of a sequence of such entries.
    pub const fn channel_encoding(&self) -> ChannelEncoding {
        match self {
            Self::Simple { .. } => ChannelEncoding::Simple,
            Self::Legacy { .. } => ChannelEncoding::Legacy,
            Self::OpClass { .. } => ChannelEncoding::OpClass,
        }
    }

    /// The channel that it stands for. A legacy one is moved by two where its flags say that the primary channel lies beside it, modulo 256.
    ///
    /// ```
    /// use awdl::tlvs::sync_elect::{Channel, LegacyFlags};
    /// assert_eq!(Channel::Legacy { flags: LegacyFlags(0x1D), channel: 46 }.channel(), Ok(44));
    /// ```
    pub fn channel(&self) -> Result<u8, Refusal> {
        let (number, corrected) = raw::channel(&self.to_raw());
        Refusal::check(number, 0, 0).map(|()| corrected as u8)
    }
}
