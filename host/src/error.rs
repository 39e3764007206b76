//! What is given back instead of a command.
use core::error::Error;
use core::fmt;

use crate::boundary;

/// A refusal, with its number. The first three are uf-crsf's; the others are added.
///
/// A refused call leaves every byte that it was lent as it was.
///
/// ```
/// use crsf::packets::{CrsfPacket, DirectCommands};
/// use crsf::CrsfParsingError;
///
/// let bluetooth = [0xC8, 0xEA, 0x03, 0xEC];
/// let refused = DirectCommands::from_bytes(&bluetooth).unwrap_err();
/// assert_eq!(refused, CrsfParsingError::FamilyLeftBehind);
/// assert_eq!(refused.number(), 4);
/// assert_eq!(refused.to_string(), "family left behind (4)");
/// assert_eq!(CrsfParsingError::from_number(4), Some(refused));
/// assert_eq!(CrsfParsingError::from_number(0), None);
/// ```
#[derive(Debug, Clone, Copy, PartialEq, Eq)]
#[repr(u8)]
pub enum CrsfParsingError {
    /// A payload, text or information that is too short or too long; a block of the log that is not 512 bytes.
    InvalidPayloadLength = 1,
    /// A wrong check, an unknown id or sub-command, a value out of range; of a call on a question, a command that is neither a popup nor a
    /// returned value.
    InvalidPayload = 2,
    /// The buffer has too little room.
    BufferOverflow = 3,
    /// Command id 0x03 (Bluetooth) or 0x13 (RC over WiFi).
    FamilyLeftBehind = 4,
    /// Bytes that are the image of no record, replay or question. The types here hold none, so that only [`boundary`] can be given one, and
    /// [`Question::from_bytes`](crate::Question::from_bytes).
    RecordNotMade = 5,
    /// An edit of a payload that can be read, though writing what it says gives other bytes.
    NotAsWritten = 6,
    /// An edit of a field that the command does not have.
    NoSuchField = 7,
    /// An edit to a number that the field cannot hold.
    NumberOutsideRange = 8,
    /// A block of the log whose check is another.
    BlockCheck = 9,
    /// A block of the log with a wrong used count or length of a record, or with a byte behind its records that is not 0.
    BlockLayout = 10,
    /// A call on a question at a second below the last accepted one.
    ClockBack = 27,
    /// A popup while another one is open and its time is not over.
    QuestionOpen = 28,
    /// A returned value while no popup is open: none was sent, or it was answered before.
    NoQuestion = 29,
    /// A returned value, to be processed, that is below min or above max of the popup's selection.
    ValueOutsideSelection = 30,
}

impl CrsfParsingError {
    /// The number by which the C functions, answers to a list of edits and events of a log know it.
    pub const fn number(self) -> u8 {
        self as u8
    }

    /// The refusal of that number; `None` where there is none, as of 0, which means accepted.
    pub const fn from_number(number: u8) -> Option<Self> {
        Some(match number {
            1 => Self::InvalidPayloadLength,
            2 => Self::InvalidPayload,
            3 => Self::BufferOverflow,
            4 => Self::FamilyLeftBehind,
            5 => Self::RecordNotMade,
            6 => Self::NotAsWritten,
            7 => Self::NoSuchField,
            8 => Self::NumberOutsideRange,
            9 => Self::BlockCheck,
            10 => Self::BlockLayout,
            27 => Self::ClockBack,
            28 => Self::QuestionOpen,
            29 => Self::NoQuestion,
            30 => Self::ValueOutsideSelection,
            _ => return None,
        })
    }

    const fn words(self) -> &'static str {
        match self {
            Self::InvalidPayloadLength => "InvalidPayloadLength",
            Self::InvalidPayload => "InvalidPayload",
            Self::BufferOverflow => "BufferOverflow",
            Self::FamilyLeftBehind => "family left behind",
            Self::RecordNotMade => "record not made",
            Self::NotAsWritten => "not as written",
            Self::NoSuchField => "no such field",
            Self::NumberOutsideRange => "number outside range",
            Self::BlockCheck => "block check",
            Self::BlockLayout => "block layout",
            Self::ClockBack => "clock: the second is below the last accepted one",
            Self::QuestionOpen => "question open: the last popup can still be answered",
            Self::NoQuestion => "no question: no popup was sent, or it was answered before",
            Self::ValueOutsideSelection => "value: not from min to max of the popup's selection",
        }
    }
}

impl fmt::Display for CrsfParsingError {
    fn fmt(&self, f: &mut fmt::Formatter<'_>) -> fmt::Result {
        write!(f, "{} ({})", self.words(), self.number())
    }
}

impl Error for CrsfParsingError {}

/// What a C function's word says: the count, or the refusal.
pub(crate) fn answer(word: u32) -> Result<usize, CrsfParsingError> {
    match boundary::number(word) {
        0 => Ok(boundary::count(word)),
        number => Err(refusal(number)),
    }
}

/// The refusal of a number that C gave for one.
pub(crate) fn refusal(number: u8) -> CrsfParsingError {
    match CrsfParsingError::from_number(number) {
        Some(refusal) => refusal,
        None => unreachable!("the C functions refuse with 1 to 10 and 27 to 30, not {number}"),
    }
}
