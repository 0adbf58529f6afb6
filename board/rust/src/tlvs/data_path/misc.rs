use crate::fields::{Field, Put, Take};
use crate::Refusal;

record! {
    /// The country.
    CountryCode {
        first: u8 = "Its first letter.";
        second: u8 = "Its second letter.";
        pad: u8 = "The byte behind the letters. It is written again as it was read.";
    }
}

record! {
    /// What was counted.
    DataPathStats {
        msec_since_activation: u32 = "The time since activation, in milliseconds.";
        aw_seq_counter: u32 = "A counter of availability windows.";
        pay_update_coutner: u32 = "A counter of updates, under the name that the Rust gives it.";
    }
}

word! {
    /// Which of three channels a map names. A map is odd and at most 7 where its record is consistent.
    ChannelMap: u16, keeps 0x7;
    CHANNEL_6 1 << 0, CHANNEL_44 1 << 1, CHANNEL_149 1 << 2,
}

impl ChannelMap {
    /// The channels that the map names, from the lowest to the highest.
    pub fn channels(self) -> impl Iterator<Item = u8> {
        let named = [(Self::CHANNEL_6, 6), (Self::CHANNEL_44, 44), (Self::CHANNEL_149, 149)];
        named.into_iter().filter(move |(bit, _)| self.has(*bit)).map(|(_, channel)| channel)
    }
}

/// The channel of a record: one, or a map of some.
#[derive(Clone, Copy, Debug, PartialEq, Eq)]
pub enum DataPathChannel {
    /// One channel. It is even where the record is consistent, since an odd word is a map.
    SingleChannel {
        /// Its number.
        channel: u8,
    },
    /// A map.
    ChannelMap(ChannelMap),
}

impl Default for DataPathChannel {
    fn default() -> Self {
        Self::SingleChannel { channel: 0 }
    }
}

impl Field for DataPathChannel {
    fn take(numbers: &mut Take) -> Result<Self, Refusal> {
        Ok(match bool::take(numbers)? {
            false => Self::SingleChannel { channel: u8::take(numbers)? },
            true => Self::ChannelMap(ChannelMap::take(numbers)?),
        })
    }

    fn put(&self, numbers: &mut Put) {
        match *self {
            Self::SingleChannel { channel } => (false, channel).put(numbers),
            Self::ChannelMap(map) => (true, map).put(numbers),
        }
    }
}

word! {
    /// Options of unicast.
    UnicastOptions: u32, keeps 0xFFFF_FE6A;
    START_AIRPLAY 1 << 1, CACHE_REQUEST 1 << 3, JUMPSTART_DFS_PROXY 1 << 5, AIRPLAY_ON_DFS_CHANNEL 1 << 6, START_SIDECAR 1 << 9,
    SIDECAR_BG_REQUEST 1 << 10, SIDECAR_FG_REQUEST 1 << 11, STOP_SIDECAR 1 << 12, START_MULTI_PEER_STEERING 1 << 13,
    START_REAL_TIME_MODE 1 << 14, STOP_REAL_TIME_MODE 1 << 15, START_AIRPLAY_RECOVERY 1 << 16, START_HT_MODE 1 << 17, STOP_HT_MODE 1 << 18,
    STOP_AIRPLAY 1 << 19, FAILED_MULTI_PEER_STEERING 1 << 20, UNKNOWN 7 << 21, START_RTG_ENSEMBLE 1 << 24, STOP_RTG_ENSEMBLE 1 << 25,
    START_AIRPLAY_IN_RTG_MODE 1 << 26, STOP_AIRPLAY_IN_RTG_MODE 1 << 27, START_SIDECAR_IN_RTG_MODE 1 << 28,
    STOP_SIDECAR_IN_RTG_MODE 1 << 29, START_REMOTE_CAMERA 1 << 30, STOP_REMOTE_CAMERA 1 << 31,
}
