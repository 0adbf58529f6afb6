//! A stand-in for `tlv_rs`: an item of a type, a length and a value, in our own words. Only the widths that the published text
//! asks for are there, a type of one byte and a length of two. A line that can decide an answer is marked `assumed`.
#![no_std]
#![forbid(unsafe_code)]

use core::marker::PhantomData;
use scroll::ctx::{TryFromCtx, TryIntoCtx};
use scroll::{Endian, Error, Pread, Pwrite};

fn put_head(buf: &mut [u8], tlv_type: u8, length: usize, ctx: Endian) -> Result<usize, Error> {
    let error = Error::BadInput { size: 0, msg: "The value is too long." };
    let length = u16::try_from(length).map_err(|_| error)?; // assumed: what has no length of two bytes is refused; departure (h) leaves it open
    let mut offset = 0;
    buf.gwrite(tlv_type, &mut offset)?; // assumed: the type stands first
    buf.gwrite_with(length, &mut offset, ctx)?; // assumed: then the length of the value alone, in the order that is told
    Ok(offset) // assumed: then the value
}

pub mod raw_tlv {
    use super::*;

    /// An item whose value is a part of the bytes.
    #[derive(Clone, Copy, Debug, PartialEq, Eq)]
    pub struct RawTLV<'a, Type, Length> {
        pub tlv_type: Type,
        pub slice: &'a [u8],
        pub _phantom: PhantomData<Length>,
    }
    impl<'a> TryFromCtx<'a, Endian> for RawTLV<'a, u8, u16> {
        type Error = Error;
        fn try_from_ctx(from: &'a [u8], ctx: Endian) -> Result<(Self, usize), Error> {
            let mut offset = 0;
            let tlv_type = from.gread(&mut offset)?; // assumed: the type stands first
            let size = from.gread_with::<u16>(&mut offset, ctx)? as usize; // assumed: then the length of the value alone
            let left = &from[offset..]; // assumed: then the value
            let error = Error::TooBig { size, len: left.len() }; // assumed: a value that is cut is no item
            let slice = left.get(..size).ok_or(error)?; // assumed: and an empty value at the very end is one, which departure (f) is about
            let item = RawTLV { tlv_type, slice, _phantom: PhantomData };
            Ok((item, offset + size)) // assumed: the next item starts behind the value
        }
    }
    impl TryIntoCtx<Endian> for RawTLV<'_, u8, u16> {
        type Error = Error;
        fn try_into_ctx(self, buf: &mut [u8], ctx: Endian) -> Result<usize, Error> {
            let mut offset = put_head(buf, self.tlv_type, self.slice.len(), ctx)?; // assumed: as in reading
            buf.gwrite(self.slice, &mut offset)?; // assumed: the value as it is
            Ok(offset) // assumed: the size counts all three
        }
    }
}

/// An item whose value is a record.
#[derive(Clone, Copy, Debug, PartialEq, Eq)]
pub struct TLV<Type, Length, TypeName, Payload> {
    pub tlv_type: TypeName,
    pub payload: Payload,
    pub _phantom: PhantomData<(Type, Length)>,
}
impl<TypeName: Into<u8>, Payload: TryIntoCtx<Error = Error>> TryIntoCtx<Endian> for TLV<u8, u16, TypeName, Payload> {
    type Error = Error;
    fn try_into_ctx(self, buf: &mut [u8], ctx: Endian) -> Result<usize, Error> {
        let tlv_type = self.tlv_type.into(); // assumed: a named type is written as its number
        let mut offset = put_head(buf, tlv_type, 0, ctx)?; // assumed: as in an item with a slice
        let length = buf.gwrite(self.payload, &mut offset)?; // assumed: the length is the size that the record's writer answers
        put_head(buf, tlv_type, length, ctx)?; // assumed: as in an item with a slice
        Ok(offset) // assumed: the size counts all three
    }
}
