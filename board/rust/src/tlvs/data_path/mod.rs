mod data_path_state_tlv;
mod misc;

pub use data_path_state_tlv::{DataPathExtendedFlags, DataPathFlags, DataPathStateTLV};
pub use misc::{ChannelMap, CountryCode, DataPathChannel, DataPathStats, UnicastOptions};
