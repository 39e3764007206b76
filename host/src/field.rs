//! The fields that can be edited.

/// A field of a command, by the number that C knows it by. It takes 0 to 255 where no range is given.
///
/// ```
/// use crsf::Field;
///
/// assert_eq!(Field::Frequency.number(), 20);
/// assert_eq!(Field::from_number(20), Some(Field::Frequency));
/// assert_eq!(Field::from_number(25), None);
/// ```
#[derive(Clone, Copy, Debug, PartialEq, Eq, Hash)]
#[repr(u32)]
pub enum Field {
    /// Destination, of every command.
    Destination = 1,
    /// Source, of every command.
    Source = 2,

    /// The OSD's buttons.
    Buttons = 10,

    /// Frequency in MHz, 5000 to 6000.
    Frequency = 20,
    /// Pit mode, 0 or 1.
    PitMode = 21,
    /// Control of the pit mode, 0 to 3.
    PitControl = 22,
    /// Switch of the pit mode, 0 to 15.
    PitSwitch = 23,
    /// Power in dBm, of both commands that set it.
    Power = 24,

    /// Duration or interval of a LED command in milliseconds, 0 to 65535.
    Time = 30,
    /// Hue of the only or the start colour, 0 to 359.
    Hue = 31,
    /// Saturation of the only or the start colour, 0 to 100.
    Saturation = 32,
    /// Value of the only or the start colour, 0 to 100.
    Value = 33,
    /// Hue of the stop colour, 0 to 359.
    StopHue = 34,
    /// Saturation of the stop colour, 0 to 100.
    StopSaturation = 35,
    /// Value of the stop colour, 0 to 100.
    StopValue = 36,

    /// Port, of the speed proposal and of its response.
    Port = 40,
    /// Proposed baud rate, any number.
    Baud = 41,
    /// Whether the proposal is accepted, 0 or 1.
    Accepted = 42,

    /// Model, of the selection and of its reply.
    Model = 50,

    /// Frame type, of both flow control commands.
    FrameType = 60,
    /// Greatest interval in milliseconds, 0 to 65535.
    Interval = 61,

    /// Timeout in seconds, of every popup.
    Timeout = 70,
    /// Whether the popup has a close button, 0 or 1.
    Close = 71,
    /// Value of a popup's selection.
    SelectionValue = 72,
    /// Least value of a popup's selection.
    SelectionMin = 73,
    /// Greatest value of a popup's selection.
    SelectionMax = 74,
    /// Default value of a popup's selection.
    SelectionDefault = 75,
    /// Value that a selection returns.
    ReturnedValue = 76,
    /// Response that a selection returns, 0 or 1.
    Response = 77,

    /// Id of the command that an ACK answers; the payload's own id is no field.
    AckCommandId = 80,
    /// Sub-command id that an ACK answers.
    AckSubCommandId = 81,
    /// Action of an ACK, 0 or 1.
    AckAction = 82,
}

impl Field {
    /// Every field, by rising numbers.
    #[rustfmt::skip]
    pub const ALL: [Self; 32] = [
        Self::Destination, Self::Source,
        Self::Buttons,
        Self::Frequency, Self::PitMode, Self::PitControl, Self::PitSwitch, Self::Power,
        Self::Time, Self::Hue, Self::Saturation, Self::Value, Self::StopHue, Self::StopSaturation, Self::StopValue,
        Self::Port, Self::Baud, Self::Accepted,
        Self::Model,
        Self::FrameType, Self::Interval,
        Self::Timeout, Self::Close, Self::SelectionValue, Self::SelectionMin, Self::SelectionMax, Self::SelectionDefault,
        Self::ReturnedValue, Self::Response,
        Self::AckCommandId, Self::AckSubCommandId, Self::AckAction,
    ];

    /// The number by which the C functions know it.
    pub const fn number(self) -> u32 {
        self as u32
    }

    /// The field of that number; `None` where no command has one.
    pub fn from_number(number: u32) -> Option<Self> {
        Self::ALL.into_iter().find(|field| field.number() == number)
    }
}

impl From<Field> for u32 {
    fn from(field: Field) -> Self {
        field.number()
    }
}
