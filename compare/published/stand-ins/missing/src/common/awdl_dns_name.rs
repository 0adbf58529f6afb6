//! Left out by 01; the names alone are needed.
use super::AWDLStr;

pub type AWDLDnsName<I> = crate::data_frame::LeftOut<I>;
pub type DefaultAWDLDnsName<'a> = AWDLDnsName<ReadLabelIterator<'a>>;

/// It has no label.
#[derive(Clone, Debug)]
pub struct ReadLabelIterator<'a>(core::iter::Empty<AWDLStr<'a>>);
impl<'a> Iterator for ReadLabelIterator<'a> {
    type Item = AWDLStr<'a>;
    fn next(&mut self) -> Option<Self::Item> {
        self.0.next()
    }
}
