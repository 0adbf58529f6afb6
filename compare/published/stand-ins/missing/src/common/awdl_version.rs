/// Left out by 01; the name alone is needed.
pub type AWDLVersion = crate::data_frame::LeftOut<u8>;
