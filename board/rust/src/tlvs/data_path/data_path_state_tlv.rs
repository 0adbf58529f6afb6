use super::{CountryCode, DataPathChannel, DataPathStats, UnicastOptions};
use crate::common::MACAddress;
use crate::{raw, Field, Refusal};

word! {
    /// The flags of a record. Some of its bits say which fields are present.
    DataPathFlags: u16, keeps 0xFFFF;
    INFRA_BSSID_CHANNEL_PRESENT 1 << 0, INFRA_ADDRESS_PRESENT 1 << 1, AWDL_ADDRESS_PRESENT 1 << 2, RSDB_SUPPORT 1 << 3, IS_UMI 1 << 4,
    DUALBAND_SUPPORT 1 << 5, AIRPLAY_SINK 1 << 6, FOLLOW_CHANNEL_SEQUENCE 1 << 7, COUNTRY_CODE_PRESENT 1 << 8, CHANNEL_MAP_PRESENT 1 << 9,
    AIRPLAY_SOLO_MODE_SUPPORT 1 << 10, UMI_SUPPORT 1 << 11, UNICAST_OPTIONS_PRESENT 1 << 12, IS_REALTIME 1 << 13, RANGEABLE 1 << 14,
    EXTENDED_FLAGS 1 << 15,
}

word! {
    /// The extended flags of a record. Three of its bits say which fields are present.
    DataPathExtendedFlags: u16, keeps 0xFF7F;
    LOG_TRIGGER_ID_PRESENT 1 << 0, RANGING_DISCOVERY_SUPPORTED 1 << 1, RLFC_PRESENT 1 << 2, IS_SOCIAL_CHANNEL_MAP_SUPPORTED 1 << 3,
    DYNAMIC_SDB_ACTIVE 1 << 4, STATS_PRESENT 1 << 5, DFS_PROXY_SUPPORT 1 << 6, HIGH_EFFICIENCY_SUPPORT 1 << 8, IS_SIDEKICK_HUB 1 << 9,
    FAST_DISCOVERY_ACTIVE 1 << 10, WIFI_SIX_E_SUPPORT 1 << 11, ULTRA_LOW_LATENCY_INFRA_SUPPORT 1 << 12, PRO_MODE_ACTIVE 1 << 13,
    UNKNOWN 3 << 14,
}

record! {
    /// A data path record. [`DataPathStateTLV::mend`] sets the flags by the fields, so that a caller who makes a record need not.
    ///
    /// ```
    /// use awdl::tlvs::data_path::{DataPathChannel, DataPathStateTLV};
    /// use awdl::Refusal;
    ///
    /// let made = DataPathStateTLV { channel_map: Some(DataPathChannel::SingleChannel { channel: 36 }), ..Default::default() };
    /// let mut buffer = [0xEE; 5];
    /// assert_eq!(made.write(&mut buffer), Err(Refusal::Inconsistent));
    /// assert_eq!(made.mend()?.write(&mut buffer), Ok(4));
    /// assert_eq!(buffer, [0x00, 0x02, 0x24, 0x00, 0xEE]);
    /// # Ok::<(), Refusal>(())
    /// ```
    DataPathStateTLV {
        flags: DataPathFlags = "The flags.";
        country_code: Option<CountryCode> = "The country.";
        channel_map: Option<DataPathChannel> = "The channel.";
        infra_bssid_channel: Option<(MACAddress, u16)> = "The BSSID and the channel of the infrastructure.";
        infra_address: Option<MACAddress> = "The address in the infrastructure.";
        awdl_address: Option<MACAddress> = "The address in AWDL.";
        unicast_options: Option<UnicastOptions> = "The options of unicast.";
        unicast_options_ext: Option<u32> = "A second word of options, which stands only behind the first.";
        extended_flags: Option<DataPathExtendedFlags> = "The extended flags. The fields below stand only where these do.";
        rlfc: Option<u32> = "A word whose meaning is not known.";
        log_trigger_id: Option<u16> = "The id of a log trigger.";
        stats: Option<DataPathStats> = "What was counted.";
    }
}
written!(DataPathStateTLV: data_path_consistent, data_path_size, data_path_write);
searched!(DataPathStateTLV: DataPathState, first_data_path, next_data_path);

impl DataPathStateTLV {
    /// The size of the smallest record.
    pub const MIN_SIZE: usize = 2;
    /// The size of the largest one.
    pub const MAX_SIZE: usize = 57;

    /// Reads the record at the start of a value, and answers it with its size. What stands behind it is ignored.
    pub fn read(bytes: &[u8]) -> Result<(Self, usize), Refusal> {
        let (number, offset, size, record) = raw::data_path_read(bytes);
        Refusal::check(number, offset, 0)?;
        Ok((Self::from_raw(&record)?, size))
    }

    /// The record put right: its flags say which fields are present, and words keep the bits that they may have. The channel is left as it is.
    pub fn mend(&self) -> Result<Self, Refusal> {
        let (number, mended) = raw::data_path_mend(&self.to_raw());
        Refusal::check(number, 0, 0)?;
        Self::from_raw(&mended)
    }
}
