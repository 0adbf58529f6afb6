//! The file that names the published data path record, and two bodies that 01 leaves out.
mod data_path_state_tlv;

pub use data_path_state_tlv::*;

use super::{AWDLTLVType, AwdlTlv};
use crate::data_frame::LeftOut;

pub type HTCapabilitiesTLV = LeftOut<u8>;
pub type IEEE80211ContainerTLV<'a> = LeftOut<&'a [u8]>;

impl AwdlTlv for DataPathStateTLV {
    const TLV_TYPE: AWDLTLVType = AWDLTLVType::DataPathState; // assumed: the text does not give this record its type, and 01 does
}
