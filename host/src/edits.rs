//! Numbers changed in a payload, in place.
use core::fmt;

use crate::boundary::{self, EDIT_SIZE};
use crate::error::{answer, CrsfParsingError};

/// An edit of a list: a [`Field`](crate::Field), or its number, and the number that it is set to. It lies as C takes it, big-endian.
///
/// ```
/// use crsf::{Edit, Field};
///
/// let edit = Edit::new(Field::Baud, 400_000);
/// assert_eq!((edit.field(), edit.number()), (41, 400_000));
/// assert_eq!(edit, Edit::new(41u32, 400_000));
///
/// // where the list is a constant
/// const EDITS: [Edit; 1] = [Edit::numbered(Field::Baud.number(), 400_000)];
/// assert_eq!(EDITS, [edit]);
/// ```
#[derive(Clone, Copy, PartialEq, Eq)]
#[repr(transparent)]
pub struct Edit([u8; EDIT_SIZE]);

impl Edit {
    /// Any field and any number: whether a command has the field and the field the number is judged when the edit is carried out.
    pub fn new(field: impl Into<u32>, number: u32) -> Self {
        Self::numbered(field.into(), number)
    }

    /// The same of a field's number, in constants too.
    pub const fn numbered(field: u32, number: u32) -> Self {
        let (f, n) = (field.to_be_bytes(), number.to_be_bytes());
        Self([f[0], f[1], f[2], f[3], n[0], n[1], n[2], n[3]])
    }

    /// The number of the field.
    pub const fn field(self) -> u32 {
        let [a, b, c, d, ..] = self.0;
        u32::from_be_bytes([a, b, c, d])
    }

    /// The number that it is set to.
    pub const fn number(self) -> u32 {
        let [.., a, b, c, d] = self.0;
        u32::from_be_bytes([a, b, c, d])
    }
}

impl fmt::Debug for Edit {
    fn fmt(&self, f: &mut fmt::Formatter<'_>) -> fmt::Result {
        f.debug_struct("Edit")
            .field("field", &self.field())
            .field("number", &self.number())
            .finish()
    }
}

/// Sets one field of the command that a payload holds: all else that it says stays, and the check is renewed. The field is a
/// [`Field`](crate::Field), or the number of one; any number has an answer.
///
/// Refused in this order: as reading refuses; `NotAsWritten`; `NoSuchField`; `NumberOutsideRange`.
///
/// ```
/// use crsf::{edit, CrsfParsingError, Field};
///
/// let mut payload = [0xC8, 0xEA, 0x08, 0x02, 0x16, 0xA8, 0x0E];
/// assert_eq!(edit(&mut payload, Field::Frequency, 4999), Err(CrsfParsingError::NumberOutsideRange));
/// assert_eq!(edit(&mut payload, Field::Power, 20), Err(CrsfParsingError::NoSuchField));
/// assert_eq!(edit(&mut payload, 25u32, 20), Err(CrsfParsingError::NoSuchField));
/// assert_eq!(payload, [0xC8, 0xEA, 0x08, 0x02, 0x16, 0xA8, 0x0E]);
///
/// edit(&mut payload, Field::Frequency, 5000)?;
/// assert_eq!(payload, [0xC8, 0xEA, 0x08, 0x02, 0x13, 0x88, 0x90]);
/// # Ok::<(), CrsfParsingError>(())
/// ```
pub fn edit(
    payload: &mut [u8],
    field: impl Into<u32>,
    number: u32,
) -> Result<(), CrsfParsingError> {
    answer(boundary::edit(payload, field.into(), number)).map(|_| ())
}

/// Carries out edits one after the other. Each one's answer byte is 0 or the number of its refusal, and a refused edit stops none
/// behind it; answer bytes beyond the edits keep theirs.
///
/// `BufferOverflow`, with nothing done, where there are fewer answer bytes than edits.
///
/// ```
/// use crsf::{edit_list, CrsfParsingError, Edit, Field};
///
/// let mut payload = [0xC8, 0xEA, 0x08, 0x02, 0x16, 0xA8, 0x0E];
/// let edits = [Edit::new(Field::Frequency, 4999), Edit::new(Field::Frequency, 5000)];
/// let mut answers = [0; 2];
/// edit_list(&mut payload, &edits, &mut answers)?;
/// assert_eq!(CrsfParsingError::from_number(answers[0]), Some(CrsfParsingError::NumberOutsideRange));
/// assert_eq!(answers[1], 0);
/// assert_eq!(payload, [0xC8, 0xEA, 0x08, 0x02, 0x13, 0x88, 0x90]);
/// # Ok::<(), CrsfParsingError>(())
/// ```
pub fn edit_list(
    payload: &mut [u8],
    edits: &[Edit],
    answers: &mut [u8],
) -> Result<(), CrsfParsingError> {
    answer(boundary::edit_list(
        payload,
        boundary::list_bytes(edits),
        answers,
    ))
    .map(|_| ())
}
