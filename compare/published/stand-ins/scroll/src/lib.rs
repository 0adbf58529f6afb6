//! A stand-in for `scroll`: no more of it than the published text uses, in our own words.
//! A line that can decide an answer is marked `assumed`, with the reason.
#![no_std]
#![forbid(unsafe_code)]

/// Why a value was not read or written. The first two are a shortage of bytes.
#[derive(Clone, Copy, Debug, PartialEq, Eq)]
pub enum Error {
    BadOffset(usize),
    TooBig { size: usize, len: usize },
    BadInput { size: usize, msg: &'static str },
}

#[derive(Clone, Copy, Debug, PartialEq, Eq)]
pub enum Endian {
    Little,
    Big,
}
impl Default for Endian {
    fn default() -> Self {
        if cfg!(target_endian = "little") {
            Endian::Little // assumed: a number read without an order has the board's own, which 01 takes to be this one
        } else {
            Endian::Big
        }
    }
}

pub mod ctx {
    use super::{Endian, Error};

    pub trait TryFromCtx<'a, Ctx: Copy = ()>: Sized {
        type Error;
        fn try_from_ctx(from: &'a [u8], ctx: Ctx) -> Result<(Self, usize), Self::Error>;
    }
    pub trait TryIntoCtx<Ctx: Copy = ()>: Sized {
        type Error;
        fn try_into_ctx(self, buf: &mut [u8], ctx: Ctx) -> Result<usize, Self::Error>;
    }
    pub trait MeasureWith<Ctx> {
        fn measure_with(&self, ctx: &Ctx) -> usize;
    }
    pub trait SizeWith<Ctx = ()> {
        fn size_with(ctx: &Ctx) -> usize;
    }

    macro_rules! numbers {
        ($($number:ty),*) => {$(
            impl<'a> TryFromCtx<'a, Endian> for $number {
                type Error = Error;
                fn try_from_ctx(from: &'a [u8], ctx: Endian) -> Result<(Self, usize), Error> {
                    let size = core::mem::size_of::<$number>(); // assumed: a number has as many bytes as its type
                    let Some((bytes, _)) = from.split_first_chunk() else { // assumed: the first bytes of what is left
                        return Err(Error::TooBig { size, len: from.len() }); // assumed: a number of which a byte is missing is refused as short
                    };
                    let number = match ctx {
                        Endian::Little => <$number>::from_le_bytes(*bytes), // assumed: `Little` is the lowest byte first
                        Endian::Big => <$number>::from_be_bytes(*bytes),
                    };
                    Ok((number, size)) // assumed: the offset moves by the width of the number
                }
            }
            impl TryIntoCtx<Endian> for $number {
                type Error = Error;
                fn try_into_ctx(self, buf: &mut [u8], ctx: Endian) -> Result<usize, Error> {
                    let bytes = match ctx {
                        Endian::Little => self.to_le_bytes(), // assumed: as in reading
                        Endian::Big => self.to_be_bytes(),
                    };
                    bytes.as_slice().try_into_ctx(buf, ()) // assumed: these bytes alone are put
                }
            }
            impl TryIntoCtx<Endian> for &$number {
                type Error = Error;
                fn try_into_ctx(self, buf: &mut [u8], ctx: Endian) -> Result<usize, Error> {
                    (*self).try_into_ctx(buf, ctx) // assumed: a number that is borrowed is written as itself
                }
            }
        )*};
    }
    numbers!(u8, u16, u32);

    impl<'a, Ctx: Copy, T: TryFromCtx<'a, Ctx, Error = Error> + Copy + Default, const N: usize> TryFromCtx<'a, Ctx> for [T; N] {
        type Error = Error;
        fn try_from_ctx(from: &'a [u8], ctx: Ctx) -> Result<(Self, usize), Error> {
            let (mut array, mut offset) = ([T::default(); N], 0);
            for element in &mut array {
                *element = super::Pread::gread_with(from, &mut offset, ctx)?; // assumed: element for element, in order, nothing between them
            }
            Ok((array, offset)) // assumed: the size is that of its elements
        }
    }
    impl<Ctx: Copy, T: TryIntoCtx<Ctx, Error = Error>, const N: usize> TryIntoCtx<Ctx> for [T; N] {
        type Error = Error;
        fn try_into_ctx(self, buf: &mut [u8], ctx: Ctx) -> Result<usize, Error> {
            let mut offset = 0;
            for element in self {
                super::Pwrite::gwrite_with(buf, element, &mut offset, ctx)?; // assumed: as in reading
            }
            Ok(offset) // assumed: as in reading
        }
    }
    impl TryIntoCtx for &[u8] {
        type Error = Error;
        fn try_into_ctx(self, buf: &mut [u8], _: ()) -> Result<usize, Error> {
            let error = Error::TooBig { size: self.len(), len: buf.len() }; // assumed: what has no room is refused as short
            let room = buf.get_mut(..self.len()).ok_or(error)?; // assumed: it is put at the start of the room, all of it or nothing
            room.copy_from_slice(self); // assumed: the bytes alone, with no length in front of them
            Ok(self.len()) // assumed: the offset moves by as many bytes
        }
    }
}

use ctx::{TryFromCtx, TryIntoCtx};

/// Reads at an offset; `gread` moves it behind what was read.
pub trait Pread<Ctx: Copy> {
    fn gread_with<'a, N: TryFromCtx<'a, Ctx, Error = Error>>(&'a self, offset: &mut usize, ctx: Ctx) -> Result<N, Error>;

    fn gread<'a, N: TryFromCtx<'a, Ctx, Error = Error>>(&'a self, offset: &mut usize) -> Result<N, Error>
    where
        Ctx: Default,
    {
        self.gread_with(offset, Ctx::default()) // assumed: where no order is told, the default is meant
    }
    fn pread_with<'a, N: TryFromCtx<'a, Ctx, Error = Error>>(&'a self, offset: usize, ctx: Ctx) -> Result<N, Error> {
        self.gread_with(&mut { offset }, ctx) // assumed: the same, and no offset is moved
    }
    fn pread<'a, N: TryFromCtx<'a, Ctx, Error = Error>>(&'a self, offset: usize) -> Result<N, Error>
    where
        Ctx: Default,
    {
        self.pread_with(offset, Ctx::default()) // assumed: the same with the default
    }
}
impl<Ctx: Copy> Pread<Ctx> for [u8] {
    fn gread_with<'a, N: TryFromCtx<'a, Ctx, Error = Error>>(&'a self, offset: &mut usize, ctx: Ctx) -> Result<N, Error> {
        let outside = *offset >= self.len(); // assumed: nothing that is read starts at the end of the bytes, or past it
        if outside {
            return Err(Error::BadOffset(*offset)); // assumed: it is refused as short, and nothing panics
        }
        let (value, size) = N::try_from_ctx(&self[*offset..], ctx)?; // assumed: a reader is given all that is left, and its refusal is passed on
        *offset += size; // assumed: by the size that the reader answers, even where that is past the end
        Ok(value)
    }
}

/// Writes at an offset; `gwrite` moves it behind what was written.
pub trait Pwrite<Ctx: Copy> {
    fn pwrite_with<N: TryIntoCtx<Ctx, Error = Error>>(&mut self, value: N, offset: usize, ctx: Ctx) -> Result<usize, Error>;

    fn pwrite<N: TryIntoCtx<Ctx, Error = Error>>(&mut self, value: N, offset: usize) -> Result<usize, Error>
    where
        Ctx: Default,
    {
        self.pwrite_with(value, offset, Ctx::default()) // assumed: as in reading
    }
    fn gwrite_with<N: TryIntoCtx<Ctx, Error = Error>>(&mut self, value: N, offset: &mut usize, ctx: Ctx) -> Result<usize, Error> {
        let size = self.pwrite_with(value, *offset, ctx)?; // assumed: a refusal is passed on
        *offset += size; // assumed: by the size that the writer answers
        Ok(size)
    }
    fn gwrite<N: TryIntoCtx<Ctx, Error = Error>>(&mut self, value: N, offset: &mut usize) -> Result<usize, Error>
    where
        Ctx: Default,
    {
        self.gwrite_with(value, offset, Ctx::default()) // assumed: as in reading
    }
}
impl<Ctx: Copy> Pwrite<Ctx> for [u8] {
    fn pwrite_with<N: TryIntoCtx<Ctx, Error = Error>>(&mut self, value: N, offset: usize, ctx: Ctx) -> Result<usize, Error> {
        let outside = offset > self.len(); // assumed: an empty tail can be written at the end, which departure (f) is about
        if outside {
            return Err(Error::BadOffset(offset)); // assumed: as in reading
        }
        value.try_into_ctx(&mut self[offset..], ctx) // assumed: a writer is given all the room that is left
    }
}
