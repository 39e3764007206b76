//! After uf-crsf's src/packets/commands/screen.rs (Apache-2.0, see NOTICE).
use crate::boundary::{self, POPUP_FIELDS_SIZE, POPUP_SIZE, TEXT_SIZE};
use crate::error::{answer, CrsfParsingError};
use crate::image::{self, Stored};

/// Screen string bytes, stored without a null terminator. UTF-8 is not required.
///
/// At most 51 bytes can fit in a screen string within a 64-byte frame.
/// The combined pop-up fields may impose a smaller limit when serialized.
#[derive(Clone, Debug, PartialEq)]
pub struct CommandString(pub(crate) Stored<TEXT_SIZE>);

impl CommandString {
    /// Rejects embedded null bytes and strings longer than 51 bytes.
    ///
    /// ```
    /// use crsf::packets::CommandString;
    /// use crsf::CrsfParsingError;
    ///
    /// assert_eq!(CommandString::new(b"Confirm")?.as_bytes(), b"Confirm");
    /// assert_eq!(CommandString::new(b"two\0texts"), Err(CrsfParsingError::InvalidPayload));
    /// assert_eq!(CommandString::new(&[b't'; 52]), Err(CrsfParsingError::InvalidPayloadLength));
    /// # Ok::<(), CrsfParsingError>(())
    /// ```
    pub fn new(bytes: &[u8]) -> Result<Self, CrsfParsingError> {
        let mut text = [0; TEXT_SIZE];
        answer(boundary::text(bytes, &mut text))?;
        Ok(Self(Stored::at(&text, 0)))
    }

    /// The bytes, without the terminator.
    pub fn as_bytes(&self) -> &[u8] {
        self.0.bytes()
    }
}

/// Optional pop-up selection controls. A nonempty label is required on the wire.
#[derive(Clone, Debug, PartialEq)]
pub struct ScreenSelection {
    /// The label.
    pub selection_text: CommandString,
    /// The value.
    pub value: u8,
    /// The least value.
    pub min_value: u8,
    /// The greatest value.
    pub max_value: u8,
    /// The default value.
    pub default_value: u8,
    /// The value's unit.
    pub unit: CommandString,
}

/// Additional-data field: an empty field occupies one null byte, while a
/// selection includes its label, values, and unit.
#[derive(Clone, Debug, PartialEq)]
pub enum ScreenAdditionalData {
    /// Nothing, in the place of a selection.
    Empty,
    /// A selection.
    Selection(ScreenSelection),
}

/// Typed fields used to construct or inspect an LCD pop-up.
#[derive(Clone, Debug, PartialEq)]
pub struct ScreenPopupFields {
    /// The header.
    pub header: CommandString,
    /// The text below it.
    pub info: CommandString,
    /// Maximum timeout in seconds.
    pub max_timeout_interval: u8,
    /// Whether there is a close button.
    pub close_button_option: bool,
    /// `None` omits the field entirely; `Some(Empty)` writes a null placeholder.
    pub additional_data: Option<ScreenAdditionalData>,
    /// Semicolon-separated response labels, without their null terminator.
    /// Requires an additional-data field (use `Some(Empty)` for no selection).
    pub possible_values: Option<CommandString>,
}

/// Validated pop-up stored in at most 55 inline wire bytes.
///
/// Use `ScreenPopupFields` to construct or inspect its typed fields. Compact
/// storage keeps commands small without requiring a heap allocator.
///
/// ```
/// use crsf::packets::{
///     CommandPayload, CommandString, DirectCommands, ScreenAdditionalData,
///     ScreenCommand, ScreenPopup, ScreenPopupFields,
/// };
///
/// let fields = ScreenPopupFields {
///     header: CommandString::new(b"Confirm")?,
///     info: CommandString::new(b"Reset settings?")?,
///     max_timeout_interval: 10,
///     close_button_option: true,
///     additional_data: Some(ScreenAdditionalData::Empty),
///     possible_values: Some(CommandString::new(b"Yes;No")?),
/// };
/// let command = DirectCommands {
///     dst_addr: 0xEA,
///     src_addr: 0xEE,
///     payload: CommandPayload::Screen(ScreenCommand::PopupMessageStart(
///         ScreenPopup::new(&fields)?,
///     )),
/// };
/// # Ok::<(), crsf::CrsfParsingError>(())
/// ```
#[derive(Clone, Debug, PartialEq)]
pub struct ScreenPopup(pub(crate) Stored<POPUP_SIZE>);

impl ScreenPopup {
    /// Validates field combinations and the combined 64-byte frame limit.
    ///
    /// ```
    /// use crsf::packets::{CommandString, ScreenPopup, ScreenPopupFields};
    /// use crsf::CrsfParsingError;
    ///
    /// let mut fields = ScreenPopupFields {
    ///     header: CommandString::new(b"Confirm")?,
    ///     info: CommandString::new(b"Reset settings?")?,
    ///     max_timeout_interval: 10,
    ///     close_button_option: true,
    ///     additional_data: None,
    ///     possible_values: None,
    /// };
    /// ScreenPopup::new(&fields)?;
    ///
    /// // possible values without additional data
    /// fields.possible_values = Some(CommandString::new(b"Yes;No")?);
    /// assert_eq!(ScreenPopup::new(&fields), Err(CrsfParsingError::InvalidPayload));
    /// # Ok::<(), CrsfParsingError>(())
    /// ```
    pub fn new(fields: &ScreenPopupFields) -> Result<Self, CrsfParsingError> {
        let mut popup = [0; POPUP_SIZE];
        answer(boundary::popup(&image::of_fields(fields), &mut popup))?;
        Ok(Self(Stored::at(&popup, 0)))
    }

    /// Decodes the stored bytes into owned, editable fields.
    ///
    /// ```
    /// use crsf::packets::{CommandString, ScreenAdditionalData, ScreenPopup, ScreenPopupFields};
    ///
    /// let fields = ScreenPopupFields {
    ///     header: CommandString::new(b"Confirm")?,
    ///     info: CommandString::new(b"Reset settings?")?,
    ///     max_timeout_interval: 10,
    ///     close_button_option: true,
    ///     additional_data: Some(ScreenAdditionalData::Empty),
    ///     possible_values: Some(CommandString::new(b"Yes;No")?),
    /// };
    /// assert_eq!(ScreenPopup::new(&fields)?.fields()?, fields);
    /// # Ok::<(), crsf::CrsfParsingError>(())
    /// ```
    pub fn fields(&self) -> Result<ScreenPopupFields, CrsfParsingError> {
        let mut fields = [0; POPUP_FIELDS_SIZE];
        answer(boundary::popup_fields(self.0.image(), &mut fields))?;
        Ok(image::fields(&fields))
    }
}

/// Screen commands (command ID 0x22).
#[derive(Clone, Debug, PartialEq)]
pub enum ScreenCommand {
    /// Show a pop-up.
    PopupMessageStart(ScreenPopup),
    /// What was selected.
    SelectionReturnValue {
        /// The value.
        value: u8,
        /// True to process, false to cancel.
        response: bool,
    },
}
