/// Left out by 01; the name alone is needed.
pub type VersionTLV = crate::data_frame::LeftOut<u8>;
