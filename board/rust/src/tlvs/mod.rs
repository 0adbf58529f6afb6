use crate::{raw, Refusal};

// What a search answers, as a `Found`.
macro_rules! searched {
    ($name:ident: $tlv_type:ident, $first:ident, $next:ident) => {
        impl $crate::tlvs::AwdlTlv for $name {
            const TLV_TYPE: $crate::tlvs::AWDLTLVType = $crate::tlvs::AWDLTLVType::$tlv_type;

            fn first(tail: &[u8]) -> Option<$crate::tlvs::Found<Self>> {
                $crate::tlvs::found($crate::raw::$first(tail))
            }

            fn next(tail: &[u8], at: usize) -> Option<$crate::tlvs::Found<Self>> {
                $crate::tlvs::found($crate::raw::$next(tail, at))
            }
        }
    };
}

/// The data path record.
pub mod data_path;
/// The records that tell of hops: the synchronization record and the channel sequence.
pub mod sync_elect;

named_numbers! {
    /// The types of items that have a name. The records of three of them are read.
    AWDLTLVType {
        Null = 0x00, "No type.";
        ServiceResponse = 0x02, "A service response.";
        SynchronizationParameters = 0x04, "A synchronization record, which is read.";
        ElectionParameters = 0x05, "Election parameters.";
        HTCapabilities = 0x07, "HT capabilities.";
        DataPathState = 0x0C, "A data path record, which is read.";
        Arpa = 0x10, "The host's name.";
        IEEE80211Container = 0x11, "A container of IEEE 802.11.";
        ChannelSequence = 0x12, "A channel sequence, which is read.";
        SynchronizationTree = 0x14, "The synchronization tree.";
        Version = 0x15, "The version.";
        ElectionParametersV2 = 0x18, "Election parameters of the second version.";
    }
}

/// An item of a tail, with its value as that part of the tail.
#[derive(Clone, Copy, Debug, PartialEq, Eq, Hash)]
pub struct RawAWDLTLV<'a> {
    /// The place of the item, counted from the start of the tail.
    pub at: usize,
    /// Its type.
    pub tlv_type: u8,
    /// Its value.
    pub slice: &'a [u8],
    /// The place behind it.
    pub next: usize,
}

/// What stands at a place of a tail.
#[derive(Clone, Copy, Debug, PartialEq, Eq, Hash)]
pub enum Step<'a> {
    /// Nothing: the tail ends here.
    Whole,
    /// An item.
    Item(RawAWDLTLV<'a>),
    /// Less than an item: the tail is cut at this place.
    Cut(usize),
}

/// A record that was found in a tail, and the item that holds it.
#[derive(Clone, Copy, Debug, PartialEq, Eq)]
pub struct Found<Tlv> {
    /// The place of the item, counted from the start of the tail.
    pub at: usize,
    /// The type of the item.
    pub tlv_type: u8,
    /// The length of its value.
    pub length: usize,
    /// The place behind the item, from which the search goes on.
    pub next: usize,
    /// The record.
    pub record: Tlv,
}

/// A record that items of one type hold. Values that are refused are passed over in a search.
pub trait AwdlTlv: Sized {
    /// The type of the items.
    const TLV_TYPE: AWDLTLVType;

    /// The first record of this type in a tail.
    fn first(tail: &[u8]) -> Option<Found<Self>>;

    /// The next one from a place of the tail on.
    fn next(tail: &[u8], at: usize) -> Option<Found<Self>>;
}

// A record that cannot be taken up is a fault of the archive, which is another one then. To pass over it would hide a hop.
fn found<Tlv: crate::Field, const N: usize>((found, [at, tlv_type, length, next], record): raw::Found<N>) -> Option<Found<Tlv>> {
    (found == 1).then(|| match Tlv::from_raw(&record) {
        Ok(record) => Found { at, tlv_type: tlv_type as u8, length, next, record },
        Err(_) => panic!("libawdl.a found a record that awdl.h does not allow"),
    })
}

/// The items of a tail, the bytes behind a frame's header.
#[derive(Clone, Copy, Debug, Default, PartialEq, Eq, Hash)]
pub struct ReadTLVs<'a> {
    bytes: &'a [u8],
}

impl<'a> ReadTLVs<'a> {
    /// The items of these bytes.
    pub const fn new(bytes: &'a [u8]) -> Self {
        Self { bytes }
    }

    /// The bytes themselves.
    pub const fn bytes(&self) -> &'a [u8] {
        self.bytes
    }

    /// What stands at a place, counted from the start of the tail.
    pub fn step(&self, at: usize) -> Step<'a> {
        match raw::step(self.bytes, at) {
            (0, _) => Step::Whole,
            (1, [at, tlv_type, _, value, next]) => Step::Item(RawAWDLTLV { at, tlv_type: tlv_type as u8, slice: &self.bytes[value..next], next }),
            (_, [at, ..]) => Step::Cut(at),
        }
    }

    /// The items one after the other. It ends where the tail ends or is cut, which [`ReadTLVs::step`] tells apart at the place behind the last item.
    pub fn raw_tlv_iter(&self) -> impl Iterator<Item = RawAWDLTLV<'a>> + 'a {
        let tail = *self;
        let mut at = 0;
        core::iter::from_fn(move || match tail.step(at) {
            Step::Item(item) => {
                at = item.next;
                Some(item)
            }
            _ => None,
        })
    }

    /// Every record of a type, one after the other.
    ///
    /// ```
    /// use awdl::tlvs::{data_path::DataPathStateTLV, ReadTLVs};
    /// let tail = ReadTLVs::new(&[0x0C, 4, 0, 0, 0x10, 5, 0, 0x0C, 4, 0, 0, 2, 0x24, 0]);
    /// assert_eq!(tail.get_tlvs::<DataPathStateTLV>().count(), 1);
    /// ```
    pub fn get_tlvs<Tlv: AwdlTlv + 'a>(&self) -> impl Iterator<Item = Tlv> + 'a {
        let tail = self.bytes;
        let mut at = 0;
        core::iter::from_fn(move || {
            let found = Tlv::next(tail, at)?;
            at = found.next;
            Some(found.record)
        })
    }

    /// The first record of a type.
    pub fn get_first_tlv<Tlv: AwdlTlv>(&self) -> Option<Tlv> {
        Tlv::first(self.bytes).map(|found| found.record)
    }
}

/// Writes an item, its type, the length of its value and the value, to the start of a buffer, and answers how many bytes it filled.
///
/// ```
/// let mut buffer = [0xEE; 5];
/// assert_eq!(awdl::tlvs::write_item(5, &[0xAA], &mut buffer), Ok(4));
/// assert_eq!(buffer, [5, 1, 0, 0xAA, 0xEE]);
/// ```
pub fn write_item(tlv_type: u8, value: &[u8], buffer: &mut [u8]) -> Result<usize, Refusal> {
    let (number, size) = raw::write_item(tlv_type.into(), value, buffer);
    Refusal::check(number, 0, 0).map(|()| size)
}
