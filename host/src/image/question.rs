//! What the image of a question says.
use super::numbers::*;
use super::{flag, long, Stored};
use crate::boundary::QUESTION_SIZE;
use crate::packets::ScreenPopup;

type Kept = [u8; QUESTION_SIZE];

/// The last accepted second.
pub(crate) fn last_second(image: &Kept) -> Option<u32> {
    flag(image[QUESTION_STARTED]).then(|| long(image, QUESTION_LAST))
}

/// The popup that is open, and the second when it was sent.
pub(crate) fn asked(image: &Kept) -> Option<(u32, ScreenPopup)> {
    let popup = || ScreenPopup(Stored::at(image, QUESTION_POPUP));
    flag(image[QUESTION_OPEN]).then(|| (long(image, QUESTION_SENT), popup()))
}
