//! A popup's fields as their image, and back.
use super::numbers::*;
use super::{flag, Stored, HANDED_OUT};
use crate::boundary::POPUP_FIELDS_SIZE;
use crate::packets::{CommandString, ScreenAdditionalData, ScreenPopupFields, ScreenSelection};

type Fields = [u8; POPUP_FIELDS_SIZE];

/// The image of fields; where an item is absent, zeros.
pub(crate) fn of_fields(fields: &ScreenPopupFields) -> Fields {
    let mut image = [0; POPUP_FIELDS_SIZE];
    fields.header.0.put(&mut image, POPUP_FIELDS_HEADER);
    fields.info.0.put(&mut image, POPUP_FIELDS_INFO);
    image[POPUP_FIELDS_TIMEOUT] = fields.max_timeout_interval;
    image[POPUP_FIELDS_CLOSE] = fields.close_button_option.into();
    image[POPUP_FIELDS_ADDITIONAL] = match &fields.additional_data {
        None => ADDITIONAL_ABSENT,
        Some(ScreenAdditionalData::Empty) => ADDITIONAL_EMPTY,
        Some(ScreenAdditionalData::Selection(selection)) => {
            put_selection(selection, &mut image);
            ADDITIONAL_SELECTION
        }
    };
    if let Some(values) = &fields.possible_values {
        image[POPUP_FIELDS_HAS_POSSIBLE_VALUES] = 1;
        values.0.put(&mut image, POPUP_FIELDS_POSSIBLE_VALUES);
    }
    image
}

fn put_selection(selection: &ScreenSelection, image: &mut Fields) {
    selection.selection_text.0.put(image, POPUP_FIELDS_LABEL);
    image[POPUP_FIELDS_VALUE] = selection.value;
    image[POPUP_FIELDS_MIN] = selection.min_value;
    image[POPUP_FIELDS_MAX] = selection.max_value;
    image[POPUP_FIELDS_DEFAULT] = selection.default_value;
    selection.unit.0.put(image, POPUP_FIELDS_UNIT);
}

/// The fields of an image that C handed out.
pub(crate) fn fields(image: &Fields) -> ScreenPopupFields {
    let additional = image[POPUP_FIELDS_ADDITIONAL];
    ScreenPopupFields {
        header: text(image, POPUP_FIELDS_HEADER),
        info: text(image, POPUP_FIELDS_INFO),
        max_timeout_interval: image[POPUP_FIELDS_TIMEOUT],
        close_button_option: flag(image[POPUP_FIELDS_CLOSE]),
        additional_data: match additional {
            ADDITIONAL_ABSENT => None,
            ADDITIONAL_EMPTY => Some(ScreenAdditionalData::Empty),
            ADDITIONAL_SELECTION => Some(ScreenAdditionalData::Selection(selection(image))),
            _ => unreachable!("{HANDED_OUT}: there is no kind {additional} of additional data"),
        },
        possible_values: flag(image[POPUP_FIELDS_HAS_POSSIBLE_VALUES])
            .then(|| text(image, POPUP_FIELDS_POSSIBLE_VALUES)),
    }
}

fn selection(image: &Fields) -> ScreenSelection {
    ScreenSelection {
        selection_text: text(image, POPUP_FIELDS_LABEL),
        value: image[POPUP_FIELDS_VALUE],
        min_value: image[POPUP_FIELDS_MIN],
        max_value: image[POPUP_FIELDS_MAX],
        default_value: image[POPUP_FIELDS_DEFAULT],
        unit: text(image, POPUP_FIELDS_UNIT),
    }
}

fn text(image: &Fields, place: usize) -> CommandString {
    CommandString(Stored::at(image, place))
}
