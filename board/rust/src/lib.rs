//! Safe calls of Tystiebro's archive `libawdl.a`, which reads and writes Apple's AWDL action frames.
//!
//! The names and the modules are those of the Rust crate `awdl-frame-parser`, from which the library was carried over. Its calls are proved in
//! Rattle; this package is not. What it adds is to lay down a record as the numbers of `awdl.h`, to call, and to take the answer apart. It needs no
//! standard library and no allocator, and nothing is kept behind a call.
//!
//! A field that a record may lack is an [`Option`]. The library itself keeps a presence flag beside a value, so that a record of its own may have a
//! value beside a flag that says that the field is absent. Such a record is never read, and is refused where it is to be written. It cannot be made
//! here, and neither can a number that its field cannot hold, an encoding that is not listed, or a simple sequence with more than 16 bytes. The other
//! records that are not consistent can be made: their flags may say something else than their fields.
//!
//! ```
//! use awdl::tlvs::data_path::{DataPathChannel, DataPathStateTLV};
//! use awdl::Refusal;
//!
//! let (record, size) = DataPathStateTLV::read(&[0x00, 0x02, 0x24, 0x00])?;
//! assert_eq!(size, 4);
//! assert_eq!(record.channel_map, Some(DataPathChannel::SingleChannel { channel: 36 }));
//!
//! // A value that ends within its country is short there, at byte 2.
//! assert_eq!(DataPathStateTLV::read(&[0x00, 0x01, 0x44, 0x45]), Err(Refusal::Short(2)));
//! # Ok::<(), Refusal>(())
//! ```
#![no_std]
#![deny(missing_docs, unsafe_code)]

#[cfg(not(target_pointer_width = "64"))]
compile_error!("libawdl.a is for boards whose usize has 64 bits");

#[macro_use]
mod fields;
/// The action frame: its header, its two stamps, and the gap between them.
pub mod action_frame;
/// Which channel to move to, judged by how often sequences hop to each.
pub mod channel_judge;
/// What several records have.
pub mod common;
#[doc(hidden)]
pub mod raw;
mod refusal;
/// The items of a frame, and the records that are read from their values.
pub mod tlvs;

#[doc(hidden)]
pub use fields::Field;
pub use refusal::Refusal;
