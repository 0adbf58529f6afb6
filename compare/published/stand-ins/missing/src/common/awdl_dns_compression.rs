/// Left out by 01; the name alone is needed.
pub type AWDLDnsCompression = crate::data_frame::LeftOut<u16>;
