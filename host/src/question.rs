//! Popup questions and their answers.
use core::fmt;

use crate::boundary::{self, QUESTION_SIZE};
use crate::error::{answer, CrsfParsingError};
use crate::image;
use crate::packets::{DirectCommands, ScreenPopup};

/// The popup that was sent last, until it is answered. At most one is open. Its time is over when more seconds than its timeout have gone
/// by since it was sent: then another one may be sent, and what comes back comes too late.
///
/// Seconds are the caller's own count. The first call may carry any, each later one none below the last that was accepted. Where the count
/// starts again, as behind a restart, so does the question: [`Question::new`].
///
/// A refused call changes nothing, and does not move the last accepted second.
///
/// ```
/// use crsf::packets::{CommandString, ScreenAdditionalData, ScreenPopup, ScreenPopupFields, ScreenSelection};
/// use crsf::{Closed, CrsfParsingError, Question};
///
/// let level = ScreenSelection {
///     selection_text: CommandString::new(b"Level")?,
///     value: 20,
///     min_value: 0,
///     max_value: 30,
///     default_value: 10,
///     unit: CommandString::new(b"dBm")?,
/// };
/// let popup = ScreenPopup::new(&ScreenPopupFields {
///     header: CommandString::new(b"Bridge 12")?,
///     info: CommandString::new(b"Span open")?,
///     max_timeout_interval: 30,
///     close_button_option: true,
///     additional_data: Some(ScreenAdditionalData::Selection(level)),
///     possible_values: None,
/// })?;
///
/// let mut question = Question::new();
/// question.ask(100, &popup)?;
/// // 30 seconds later it may still be answered, though not by 31
/// assert_eq!(question.ask(130, &popup), Err(CrsfParsingError::QuestionOpen));
/// assert_eq!(question.returned(130, 31, true), Err(CrsfParsingError::ValueOutsideSelection));
/// assert_eq!(question.returned(130, 25, true), Ok(Closed::Processed));
/// // once
/// assert_eq!(question.returned(131, 25, true), Err(CrsfParsingError::NoQuestion));
///
/// // an answer that comes late
/// question.ask(200, &popup)?;
/// assert_eq!(question.returned(231, 25, true), Ok(Closed::Expired));
/// // a clock that was set back
/// assert_eq!(question.ask(230, &popup), Err(CrsfParsingError::ClockBack));
/// # Ok::<(), CrsfParsingError>(())
/// ```
#[derive(Clone, PartialEq, Eq)]
pub struct Question([u8; QUESTION_SIZE]);

/// How a question closed.
#[derive(Clone, Copy, Debug, PartialEq, Eq)]
#[repr(u8)]
pub enum Closed {
    /// A value came in time, to be processed.
    Processed = 1,
    /// It was cancelled in time.
    Cancelled = 2,
    /// What came back came when the popup's time was over.
    Expired = 3,
}

/// A response that there is none of.
const NO_RESPONSE: u8 = 2;

impl Question {
    /// Before the first popup.
    pub const fn new() -> Self {
        Self([0; QUESTION_SIZE])
    }

    /// A question as it was kept. `RecordNotMade` where the bytes are none: of another length, or beyond its limits.
    ///
    /// ```
    /// use crsf::{CrsfParsingError, Question};
    ///
    /// let kept = *Question::new().as_bytes();
    /// assert_eq!(Question::from_bytes(&kept), Ok(Question::new()));
    /// assert_eq!(Question::from_bytes(&kept[1..]), Err(CrsfParsingError::RecordNotMade));
    /// assert_eq!(Question::from_bytes(&[1; 66]), Err(CrsfParsingError::RecordNotMade));
    /// ```
    pub fn from_bytes(kept: &[u8]) -> Result<Self, CrsfParsingError> {
        let Ok(mut question) = kept.try_into().map(Self) else {
            return Err(CrsfParsingError::RecordNotMade);
        };
        // this response is refused, but only where the question is one
        let word = boundary::question_return(&mut question.0, 0, 0, NO_RESPONSE);
        match answer(word) {
            Err(CrsfParsingError::InvalidPayload) => Ok(question),
            Err(refusal) => Err(refusal),
            Ok(_) => unreachable!("a response is 0 or 1"),
        }
    }

    /// The bytes to keep it by, which are its image in C.
    pub const fn as_bytes(&self) -> &[u8; QUESTION_SIZE] {
        &self.0
    }

    /// The popup that is open, be its time over or not.
    pub fn popup(&self) -> Option<ScreenPopup> {
        image::asked(&self.0).map(|(_, popup)| popup)
    }

    /// The last accepted second: no later call may carry a lower one.
    pub fn last_second(&self) -> Option<u32> {
        image::last_second(&self.0)
    }

    /// A popup was sent: it is open from now on. One that was open before makes way where its time is over.
    ///
    /// Refused in this order: `ClockBack`; `QuestionOpen`.
    pub fn ask(&mut self, second: u32, popup: &ScreenPopup) -> Result<(), CrsfParsingError> {
        answer(boundary::question_ask(&mut self.0, second, popup.0.image())).map(|_| ())
    }

    /// A value came back, with the response to process it (true) or to cancel (false). It closes the popup that is open: as expired where
    /// its time is over, whatever value and response.
    ///
    /// Refused in this order: `ClockBack`; `NoQuestion`; `ValueOutsideSelection`, and the popup stays open. Only a value that comes in
    /// time, to be processed, to a popup with a selection, is judged.
    pub fn returned(
        &mut self,
        second: u32,
        value: u8,
        response: bool,
    ) -> Result<Closed, CrsfParsingError> {
        let word = boundary::question_return(&mut self.0, second, value, response.into());
        match closed(word)? {
            Some(closed) => Ok(closed),
            None => unreachable!("a returned value opens no question"),
        }
    }

    /// A command was sent, or has come: a popup asks, and a returned value is what came back. Gives how the question closed, and `None`
    /// where it opened. The command's addresses are not looked at.
    ///
    /// Refused in this order: `InvalidPayload`, any other command; then as [`ask`](Question::ask) or [`returned`](Question::returned)
    /// refuses.
    ///
    /// ```
    /// use crsf::packets::{CrsfPacket, DirectCommands};
    /// use crsf::{Closed, CrsfParsingError, Question};
    ///
    /// // "Hi", 30 seconds, a close button; the value 5, processed; disarm
    /// let popup = [0xC8, 0xEA, 0x22, 0x01, b'H', b'i', 0, 0, 30, 1, 0xF2];
    /// let value = [0xEA, 0xC8, 0x22, 0x02, 5, 1, 0xF8];
    /// let disarm = [0xC8, 0xEA, 0x01, 0x01, 0xFE];
    ///
    /// let mut question = Question::new();
    /// let mut command = |second, payload| question.command(second, &DirectCommands::from_bytes(payload)?);
    /// assert_eq!(command(7, &popup), Ok(None));
    /// assert_eq!(command(8, &disarm), Err(CrsfParsingError::InvalidPayload));
    /// assert_eq!(command(9, &value), Ok(Some(Closed::Processed)));
    /// ```
    pub fn command(
        &mut self,
        second: u32,
        command: &DirectCommands,
    ) -> Result<Option<Closed>, CrsfParsingError> {
        let record = image::of_command(command);
        closed(boundary::question_command(&mut self.0, second, &record))
    }
}

/// How a question closed, as a word says; `None` where it opened.
fn closed(word: u32) -> Result<Option<Closed>, CrsfParsingError> {
    Ok(match answer(word)? {
        0 => None,
        1 => Some(Closed::Processed),
        2 => Some(Closed::Cancelled),
        3 => Some(Closed::Expired),
        count => unreachable!("a question closes as 1, 2 or 3, not {count}"),
    })
}

impl Default for Question {
    fn default() -> Self {
        Self::new()
    }
}

impl fmt::Debug for Question {
    fn fmt(&self, f: &mut fmt::Formatter<'_>) -> fmt::Result {
        f.debug_struct("Question")
            .field("last_second", &self.last_second())
            .field("asked", &image::asked(&self.0))
            .finish()
    }
}
