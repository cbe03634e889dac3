//! The numbered refusals of document 01, and those that document 02 adds.

/// Why something was refused. The number of each is the papers'.
///
/// Number 20 is not here: it is about the octets that a C program lends.
#[derive(Clone, Copy, Debug, PartialEq, Eq, Hash)]
#[repr(u8)]
pub enum Refusal {
    PacketTooShort = 1,
    PacketTooLong = 2,
    WrongVersion = 3,
    PaddingBitSet = 4,
    NotApplicationPacket = 5,
    WrongLengthWord = 6,
    WrongName = 7,
    TypeNotListed = 8,
    FieldPastTheEnd = 9,
    FieldAtFault = 10,
    FieldMissing = 11,
    NoReaderWouldAccept = 12,
    RoomTooShort = 13,
    /// A second field with an ID of document 01's field table (document 02, #107).
    FieldTwice = 14,
    CallNotRunning = 21,
    NobodyThere = 22,
    NotExpectedNow = 23,
    NoFreeSeat = 24,
    IdentityOutOfSize = 25,
    IdentityInUse = 26,
    SsrcInUse = 27,
    SettingOutOfRange = 28,
    SheetEnding = 41,
    SheetForm = 42,
    SheetOffsets = 43,
    SheetSettings = 44,
    SheetSeats = 45,
    /// A desk with something that no sheet has a place for (document 02, #101).
    NoSheetHoldsIt = 48,
}

impl Refusal {
    pub fn number(self) -> u8 {
        self as u8
    }
}
