use crate::tlvs::ReadTLVs;
use crate::{raw, Refusal};

named_numbers! {
    /// The subtype of a frame.
    AWDLActionFrameSubType {
        PSF = 0x00, "A periodic synchronization frame.";
        MIF = 0x03, "A master indication frame.";
    }
}

/// When the radio began to send the frame, in microseconds.
#[derive(Clone, Copy, Debug, Default, PartialEq, Eq, Hash)]
pub struct PhyTxTime(pub u32);

/// When the driver handed the frame to the radio, in microseconds.
#[derive(Clone, Copy, Debug, Default, PartialEq, Eq, Hash)]
pub struct TargetTxTime(pub u32);

/// How long a frame waited between the driver and the air, in microseconds, on a clock that rolls over.
///
/// ```
/// use awdl::action_frame::{tx_delta, PhyTxTime, TargetTxTime};
/// assert_eq!(tx_delta(PhyTxTime(5), TargetTxTime(u32::MAX - 5)), 11);
/// ```
pub fn tx_delta(phy: PhyTxTime, target: TargetTxTime) -> u32 {
    raw::tx_delta(phy.0, target.0)
}

/// A frame: its header and its items.
///
/// ```
/// use awdl::action_frame::{AWDLActionFrame, AWDLActionFrameSubType};
///
/// let bytes = [8, 16, 3, 0, 0, 1, 0, 0, 16, 0, 0, 0, 5, 1, 0, 0xAA];
/// let (frame, size) = AWDLActionFrame::read(&bytes)?;
/// assert_eq!((frame.subtype, frame.tx_delta(), size), (AWDLActionFrameSubType::MIF, 240, 12));
/// let item = frame.tagged_data.raw_tlv_iter().next().unwrap();
/// assert_eq!((item.tlv_type, item.slice), (5, &[0xAA][..]));
/// # Ok::<(), awdl::Refusal>(())
/// ```
#[derive(Clone, Copy, Debug, PartialEq, Eq)]
pub struct AWDLActionFrame<'a> {
    /// Which kind of frame it is.
    pub subtype: AWDLActionFrameSubType,
    /// A byte whose meaning is not known. It is written again as it was read.
    pub reserved: u8,
    /// When the radio began to send the frame.
    pub phy_tx_time: PhyTxTime,
    /// When the driver handed the frame to the radio.
    pub target_tx_time: TargetTxTime,
    /// The items behind the header.
    pub tagged_data: ReadTLVs<'a>,
}

impl<'a> AWDLActionFrame<'a> {
    /// The bytes of a header.
    pub const HEADER_SIZE: usize = 12;

    /// Reads the header, and answers the frame with the header's size. The items are not looked into.
    pub fn read(frame: &'a [u8]) -> Result<(Self, usize), Refusal> {
        let (number, offset, size, [subtype, reserved, phy, target]) = raw::frame_read(frame);
        Refusal::check(number, offset, 0)?;
        let read = Self {
            subtype: AWDLActionFrameSubType::from_bits(subtype as u8),
            reserved: reserved as u8,
            phy_tx_time: PhyTxTime(phy),
            target_tx_time: TargetTxTime(target),
            tagged_data: ReadTLVs::new(&frame[size..]),
        };
        Ok((read, size))
    }

    /// How long the frame waited between the driver and the air, in microseconds.
    pub fn tx_delta(&self) -> u32 {
        tx_delta(self.phy_tx_time, self.target_tx_time)
    }

    /// Writes the header and the items to the start of a buffer, and answers how many bytes it filled.
    pub fn write(&self, buffer: &mut [u8]) -> Result<usize, Refusal> {
        let header = [self.subtype.into_bits().into(), self.reserved.into(), self.phy_tx_time.0, self.target_tx_time.0];
        let (number, size) = raw::frame_write(&header, self.tagged_data.bytes(), buffer);
        Refusal::check(number, 0, 0).map(|()| size)
    }
}
