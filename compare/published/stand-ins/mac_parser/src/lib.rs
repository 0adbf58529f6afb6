//! A stand-in for `mac_parser`: the address alone, in our own words. A line that can decide an answer is marked `assumed`.
#![no_std]
#![forbid(unsafe_code)]

use scroll::ctx::{TryFromCtx, TryIntoCtx};
use scroll::{Error, Pread, Pwrite};

#[derive(Clone, Copy, Debug, Default, PartialEq, Eq, Hash)]
pub struct MACAddress([u8; 6]);

pub const ZERO: MACAddress = MACAddress([0; 6]);

impl MACAddress {
    pub const fn new(bytes: [u8; 6]) -> Self {
        Self(bytes)
    }
    pub const fn as_slice(&self) -> &[u8] {
        &self.0 // assumed: the six bytes, in their order
    }
}
impl From<[u8; 6]> for MACAddress {
    fn from(bytes: [u8; 6]) -> Self {
        Self(bytes)
    }
}
impl<'a> TryFromCtx<'a> for MACAddress {
    type Error = Error;
    fn try_from_ctx(from: &'a [u8], _: ()) -> Result<(Self, usize), Error> {
        Ok((Self(from.pread(0)?), 6)) // assumed: an address is six bytes, in the order in which they stand
    }
}
impl TryIntoCtx for MACAddress {
    type Error = Error;
    fn try_into_ctx(self, buf: &mut [u8], _: ()) -> Result<usize, Error> {
        buf.pwrite(self.as_slice(), 0) // assumed: as in reading
    }
}
