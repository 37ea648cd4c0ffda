//! The refusals of document 01 and of requests L1 and L3, and their numbers.

#[derive(Clone, Copy, Debug, PartialEq, Eq)]
#[repr(u8)]
pub enum Refusal {
    PortAboveThree = 1,
    AddressOutOfRange = 2,
    FormatUnknown = 3,
    FrameOutOfTurn = 4,
    WidthNotAllowed = 5,
    PixelTooLarge = 6,
    TypeIsShort = 7,
    BufferTooSmall = 8,
    UnclearRead = 9,
    HeaderBeyondRepair = 10,
    ChecksumWrong = 11,
    TooFewBytes = 12,
    RecordMalformed = 13,
    LineShape = 14,
    LineTooLong = 15,
    NoTextForm = 16,
    PayloadNotAllowed = 17,
}

impl Refusal {
    pub fn number(self) -> u8 {
        self as u8
    }
}
