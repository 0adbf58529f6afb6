//! Left out by 01; the names alone are needed.
use crate::data_frame::LeftOut;

pub type ArpaTLV<LabelIterator> = LeftOut<LabelIterator>;
pub type ServiceResponseTLV<'a, LabelIterator> = LeftOut<(&'a [u8], LabelIterator)>;
