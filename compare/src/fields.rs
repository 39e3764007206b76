//! The images of a text, a popup and a popup's fields, and what the Rust holds of them.
use uf_crsf::packets::{
    CommandString, ScreenAdditionalData, ScreenPopup, ScreenPopupFields, ScreenSelection,
};

use crate::image;

pub const TEXT_SIZE: usize = 52;
pub const POPUP_SIZE: usize = 56;
pub const SIZE: usize = 268;

// Places in the image of a popup's fields, by the names of include/crsf.h.
pub const HEADER: usize = 0;
pub const INFO: usize = 52;
pub const TIMEOUT: usize = 104;
pub const CLOSE: usize = 105;
pub const ADDITIONAL: usize = 106;
pub const LABEL: usize = 107;
pub const VALUE: usize = 159;
pub const MIN: usize = 160;
pub const MAX: usize = 161;
pub const DEFAULT: usize = 162;
pub const UNIT: usize = 163;
pub const HAS_POSSIBLE_VALUES: usize = 215;
pub const POSSIBLE_VALUES: usize = 216;

pub type Image = [u8; SIZE];

/// A length, the bytes, zeros.
pub fn put_stored(place: &mut [u8], bytes: &[u8]) {
    place.fill(0);
    place[0] = bytes.len() as u8;
    place[1..=bytes.len()].copy_from_slice(bytes);
}

/// The bytes of a text's, an ACK's or a popup's place, where their length fits and zeros are behind them.
fn stored(place: &[u8]) -> Option<&[u8]> {
    let (bytes, unused) = place[1..].split_at_checked(place[0].into())?;
    unused.iter().all(|byte| *byte == 0).then_some(bytes)
}

/// None where the Rust can hold no such text.
fn text(image: &[u8], at: usize) -> Option<CommandString> {
    CommandString::new(stored(&image[at..at + TEXT_SIZE])?).ok()
}

fn flag(byte: u8) -> Option<bool> {
    (byte < 2).then_some(byte == 1)
}

/// None where the Rust can hold no such popup.
pub fn popup(popup: &[u8]) -> Option<ScreenPopup> {
    if popup.len() != POPUP_SIZE {
        return None;
    }
    image::popup(stored(popup)?)
}

pub fn of(fields: &ScreenPopupFields) -> Image {
    let mut image = [0; SIZE];
    let mut put = |at: usize, text: &CommandString| {
        put_stored(&mut image[at..at + TEXT_SIZE], text.as_bytes());
    };
    put(HEADER, &fields.header);
    put(INFO, &fields.info);
    if let Some(ScreenAdditionalData::Selection(selection)) = &fields.additional_data {
        put(LABEL, &selection.selection_text);
        put(UNIT, &selection.unit);
    }
    if let Some(values) = &fields.possible_values {
        put(POSSIBLE_VALUES, values);
    }
    image[TIMEOUT] = fields.max_timeout_interval;
    image[CLOSE] = fields.close_button_option.into();
    image[HAS_POSSIBLE_VALUES] = fields.possible_values.is_some().into();
    image[ADDITIONAL] = match &fields.additional_data {
        None => 0,
        Some(ScreenAdditionalData::Empty) => 1,
        Some(ScreenAdditionalData::Selection(selection)) => {
            image[VALUE] = selection.value;
            image[MIN] = selection.min_value;
            image[MAX] = selection.max_value;
            image[DEFAULT] = selection.default_value;
            2
        }
    };
    image
}

/// None where the image is one of no fields, or the Rust can hold no such texts. Absent items are not looked at.
pub fn fields(image: &[u8]) -> Option<ScreenPopupFields> {
    if image.len() != SIZE {
        return None;
    }
    let additional_data = match image[ADDITIONAL] {
        0 => None,
        1 => Some(ScreenAdditionalData::Empty),
        2 => Some(ScreenAdditionalData::Selection(ScreenSelection {
            selection_text: text(image, LABEL)?,
            value: image[VALUE],
            min_value: image[MIN],
            max_value: image[MAX],
            default_value: image[DEFAULT],
            unit: text(image, UNIT)?,
        })),
        _ => return None,
    };
    let possible_values = match flag(image[HAS_POSSIBLE_VALUES])? {
        true => Some(text(image, POSSIBLE_VALUES)?),
        false => None,
    };
    Some(ScreenPopupFields {
        header: text(image, HEADER)?,
        info: text(image, INFO)?,
        max_timeout_interval: image[TIMEOUT],
        close_button_option: flag(image[CLOSE])?,
        additional_data,
        possible_values,
    })
}

/// The places of items that are absent.
pub fn absent(image: &Image) -> impl Iterator<Item = usize> {
    let selection = if image[ADDITIONAL] == 2 {
        0..0
    } else {
        LABEL..HAS_POSSIBLE_VALUES
    };
    let values = if image[HAS_POSSIBLE_VALUES] == 1 {
        0..0
    } else {
        POSSIBLE_VALUES..SIZE
    };
    selection.chain(values)
}
