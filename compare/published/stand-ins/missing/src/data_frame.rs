//! In the original this module is about data frames, which we do not read. Here it holds what the other modules of ours share.
use core::{fmt, marker::PhantomData};
use scroll::ctx::{MeasureWith, TryFromCtx, TryIntoCtx};
use scroll::Error;

/// The body of an item that 01 leaves out: it is in no case that is compared, and is neither read nor written.
pub struct LeftOut<P>(PhantomData<P>);

const REFUSED: Error = Error::BadInput { size: 0, msg: "This body is left out." };

impl<P> Clone for LeftOut<P> {
    fn clone(&self) -> Self {
        Self(PhantomData)
    }
}
impl<P> fmt::Debug for LeftOut<P> {
    fn fmt(&self, f: &mut fmt::Formatter<'_>) -> fmt::Result {
        f.write_str("LeftOut")
    }
}
impl<P, Q> PartialEq<LeftOut<Q>> for LeftOut<P> {
    fn eq(&self, _: &LeftOut<Q>) -> bool {
        true
    }
}
impl<P> MeasureWith<()> for LeftOut<P> {
    fn measure_with(&self, _: &()) -> usize {
        0
    }
}
impl<'a, P> TryFromCtx<'a> for LeftOut<P> {
    type Error = Error;
    fn try_from_ctx(_: &'a [u8], _: ()) -> Result<(Self, usize), Error> {
        Err(REFUSED)
    }
}
impl<P> TryIntoCtx for LeftOut<P> {
    type Error = Error;
    fn try_into_ctx(self, _: &mut [u8], _: ()) -> Result<usize, Error> {
        Err(REFUSED)
    }
}
