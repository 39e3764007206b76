//! Questions and calls on them, near every limit of document 02: set out in full, or at random.
use uf_crsf::packets::{ScreenAdditionalData, ScreenPopupFields};

use crate::cases;
use crate::every::ADDRESSES;
use crate::fields::{self, POPUP_SIZE};
use crate::image::{self, FC, KINDS, SCREEN, STORED, STORED_LEN};
use crate::popups::{Additional, Popup};
use crate::question_image::{self, with, Image, OPEN, SENT, SIZE, STARTED};
use crate::random::Random;
use crate::side::Side;

#[derive(Clone, Copy, Debug, PartialEq, Eq, PartialOrd, Ord)]
pub enum Function {
    Ask,
    Return,
    Command,
}

/// A call, with a popup's image, with value and response, or with a record's image.
#[derive(Clone, Debug, PartialEq)]
pub struct Call {
    pub function: Function,
    pub given: Vec<u8>,
}

impl Call {
    pub fn ask(popup: &[u8]) -> Call {
        Call {
            function: Function::Ask,
            given: popup.to_vec(),
        }
    }

    pub fn answer(value: u8, response: u8) -> Call {
        Call {
            function: Function::Return,
            given: vec![value, response],
        }
    }

    pub fn command(record: &[u8]) -> Call {
        Call {
            function: Function::Command,
            given: record.to_vec(),
        }
    }

    pub fn on(&self, side: &Side, question: &mut [u8], second: u32) -> u32 {
        let given = &self.given[..];
        match self.function {
            Function::Ask => (side.questions.ask)(question, second, given),
            Function::Return => (side.questions.returned)(question, second, given[0], given[1]),
            Function::Command => (side.questions.command)(question, second, given),
        }
    }
}

pub type PopupImage = [u8; POPUP_SIZE];

fn popup_image(popup: &Popup) -> PopupImage {
    let mut image = [0; POPUP_SIZE];
    fields::put_stored(&mut image, &popup.data());
    image
}

/// A popup with a timeout, of a header alone.
fn plain(timeout: u8) -> Popup {
    Popup {
        header: b"Land".to_vec(),
        info: vec![],
        timeout,
        close: 0,
        additional: Additional::Absent,
        values: None,
    }
}

/// With a selection from min to max, its own value and default in the middle: a return is not judged by them.
fn selection(timeout: u8, min: u8, max: u8) -> Popup {
    let middle = ((u16::from(min) + u16::from(max)) / 2) as u8;
    Popup {
        additional: Additional::Selection {
            label: b"Speed".to_vec(),
            numbers: [middle, min, max, middle],
            unit: b"m/s".to_vec(),
        },
        ..plain(timeout)
    }
}

pub fn without_selection(timeout: u8) -> PopupImage {
    popup_image(&plain(timeout))
}

pub fn with_selection(timeout: u8, min: u8, max: u8) -> PopupImage {
    popup_image(&selection(timeout, min, max))
}

/// Every form that a popup has, with a timeout: no additional data, in the most bytes too; `Empty`; a selection; the last two with
/// possible values.
pub fn forms(timeout: u8, min: u8, max: u8) -> [PopupImage; 6] {
    let values = Some(b"Yes;No".to_vec());
    let plain = plain(timeout);
    let longest = Popup {
        header: vec![b'x'; 51],
        ..plain.clone()
    };
    let empty = Popup {
        additional: Additional::Empty,
        ..plain.clone()
    };
    let empty_with_values = Popup {
        values: values.clone(),
        ..empty.clone()
    };
    let selected = selection(timeout, min, max);
    let selected_with_values = Popup {
        values,
        ..selected.clone()
    };
    [
        plain,
        longest,
        empty,
        empty_with_values,
        selected,
        selected_with_values,
    ]
    .map(|popup| popup_image(&popup))
}

/// Images of a popup's size that are no popup's; the blank one first.
pub fn not_made() -> Vec<PopupImage> {
    let made = forms(10, 1, 9);
    let mut wrong = vec![[0; POPUP_SIZE], [0xFF; POPUP_SIZE]];
    for popup in made {
        let len = usize::from(popup[0]);
        let mut change = |work: fn(&mut PopupImage, usize)| {
            let mut other = popup;
            work(&mut other, len);
            wrong.push(other);
        };
        // a 00 more is `Empty`, and a second one empty values; a third one is too many, as are two bytes fewer too few
        change(|popup, _| popup[0] += 3);
        change(|popup, _| popup[0] -= 2);
        // more than there is room for
        change(|popup, _| popup[0] = 56);
        change(|popup, _| popup[0] = 255);
        // a byte where none is used; in the longest, where its end was
        change(|popup, len| popup[len.min(54) + 1] ^= 2);
        // a close flag that is none
        change(|popup, _| {
            let close = popup[1..].iter().position(|byte| *byte == 0).unwrap() + 4;
            popup[close] = 2;
        });
    }
    wrong
}

fn addressed(mut record: image::Image) -> image::Image {
    record[..2].copy_from_slice(&ADDRESSES);
    record
}

pub fn popup_record(popup: &PopupImage) -> image::Image {
    let mut record = addressed(image::with(SCREEN, 0x01, &[], &[]));
    record[STORED_LEN..].copy_from_slice(popup);
    record
}

pub fn value_record(value: u8, response: u8) -> image::Image {
    addressed(image::with(SCREEN, 0x02, &[&[value, response]], &[]))
}

/// A record whose stored bytes are any: no question looks at them, but in a popup.
fn littered(mut record: image::Image) -> image::Image {
    record[STORED_LEN] = 0xA7;
    record[STORED..].fill(0x5C);
    record
}

/// Images of a record's size that are no record's: an unknown id, an unknown sub-command, a flag out of range, bytes behind the values.
fn no_records() -> [image::Image; 6] {
    let mut popup = popup_record(&without_selection(10));
    popup[STORED_LEN - 1] = 1;
    let mut value = value_record(5, 1);
    value[6] = 1;
    [
        image::with(0x02, 0x01, &[], &[]),
        image::with(SCREEN, 0x03, &[], &[]),
        value_record(5, 2),
        [0; image::SIZE],
        popup,
        value,
    ]
}

/// Values around the edges of a selection.
fn values(min: u8, max: u8) -> [u8; 6] {
    [
        min.wrapping_sub(1),
        min,
        max,
        max.wrapping_add(1),
        0,
        u8::MAX,
    ]
}

/// Every kind of call, where the open question may have a selection from min to max.
pub fn calls(min: u8, max: u8) -> Vec<Call> {
    let plain = without_selection(30);
    let mut no_flag = plain;
    no_flag[7] = 2;
    let mut calls = vec![
        Call::ask(&plain),
        Call::ask(&with_selection(0, max, min)),
        Call::ask(&no_flag),
        Call::ask(&plain[1..]),
        Call::command(&popup_record(&plain)),
        Call::command(&popup_record(&no_flag)),
        Call::command(&popup_record(&[0; POPUP_SIZE])),
        Call::command(&image::with(FC, 0x01, &[], &[])),
        Call::command(&littered(image::with(FC, 0x02, &[], &[]))),
        Call::command(&plain),
    ];
    calls.extend(no_records().map(|record| Call::command(&record)));
    for value in values(min, max) {
        calls.extend([0, 1].map(|response| Call::answer(value, response)));
        calls.push(Call::command(&littered(value_record(value, 1))));
    }
    calls.extend([2, 255].map(|response| Call::answer(min, response)));
    calls.push(Call::command(&littered(value_record(max, 0))));
    calls
}

/// Timeouts at the edges of a byte, and some between.
pub const TIMEOUTS: [u8; 6] = [0, 1, 2, 60, 254, 255];

/// Seconds at the edges of their width, and those from which the longest timeouts just reach its end.
pub const SECONDS: [u32; 12] = [
    0,
    1,
    255,
    256,
    1000,
    0x7FFF_FFFF,
    0x8000_0000,
    u32::MAX - 256,
    u32::MAX - 255,
    u32::MAX - 254,
    u32::MAX - 1,
    u32::MAX,
];

/// Seconds around each edge that a question's own have, and around the ends of their width.
pub fn around(sent: u32, last: u32, timeout: u8) -> [u32; 14] {
    let end = sent.wrapping_add(timeout.into());
    let before = |second: u32| second.wrapping_sub(1);
    let behind = |second: u32| second.wrapping_add(1);
    [
        before(last),
        last,
        behind(last),
        before(sent),
        sent,
        behind(sent),
        before(end),
        end,
        behind(end),
        behind(behind(end)),
        0,
        1,
        u32::MAX - 1,
        u32::MAX,
    ]
}

pub fn closed(last: u32) -> Image {
    with(1, 0, 0, last, &[0; POPUP_SIZE])
}

pub fn open(sent: u32, last: u32, popup: &PopupImage) -> Image {
    with(1, 1, sent, last, popup)
}

/// An open question within its limits.
pub struct Kept {
    pub sent: u32,
    pub last: u32,
    pub fields: ScreenPopupFields,
}

impl Kept {
    pub fn of(image: &[u8]) -> Option<Kept> {
        let question = question_image::question(image)?;
        let (sent, last) = (question.open()?, question.last()?);
        Some(Kept {
            sent: sent.second,
            last,
            fields: sent.popup.fields().expect("a popup that was constructed"),
        })
    }

    pub fn timeout(&self) -> u32 {
        self.fields.max_timeout_interval.into()
    }

    /// Which values a processed return may have, where there is a selection.
    pub fn range(&self) -> Option<(u8, u8)> {
        match &self.fields.additional_data {
            Some(ScreenAdditionalData::Selection(selection)) => {
                Some((selection.min_value, selection.max_value))
            }
            _ => None,
        }
    }
}

/// Mostly one of these; now and then with another byte, so that it may be none.
fn random_popup(random: &mut Random, popups: &[PopupImage]) -> PopupImage {
    let mut image = random.chosen(popups);
    match random.below(16) {
        0 => image[random.below(POPUP_SIZE)] ^= 1 << random.below(8),
        1 => image[0] = random.byte(),
        _ => {}
    }
    image
}

/// Every form, with every timeout at an edge and these selections.
pub fn all_forms(selections: &[(u8, u8)]) -> Vec<PopupImage> {
    let mut popups = Vec::new();
    for timeout in TIMEOUTS {
        for (min, max) in selections {
            popups.extend(forms(timeout, *min, *max));
        }
    }
    popups
}

/// Popups for calls at random: those, min above max too, and any others that are made.
pub fn popups(random: &mut Random) -> Vec<PopupImage> {
    let mut popups = all_forms(&[(10, 20), (0, 255), (5, 5), (9, 2)]);
    popups.extend((0..100).map(|_| {
        let record = cases::record(random, (SCREEN, 0x01, 0));
        std::array::from_fn(|i| record[STORED_LEN + i])
    }));
    popups
}

/// A call, and its second, on a question as it stands.
pub fn call(random: &mut Random, question: &[u8], popups: &[PopupImage]) -> (u32, Call) {
    let kept = Kept::of(question);
    let closed = question_image::question(question).and_then(|question| question.last());
    let (sent, last, timeout) = match &kept {
        Some(kept) => (kept.sent, kept.last, kept.fields.max_timeout_interval),
        None => (0, closed.unwrap_or(0), 0),
    };
    let second = match random.below(8) {
        0 => random.number() as u32,
        1..=4 => random.chosen(&around(sent, last, timeout)),
        _ => last.wrapping_add(random.below(300) as u32),
    };
    let range = kept.and_then(|kept| kept.range());
    let (min, max) = range.unwrap_or((random.byte(), random.byte()));
    let any = random.byte();
    let inside = min.saturating_add(random.below(usize::from(max.saturating_sub(min)) + 1) as u8);
    let mut near = values(min, max).to_vec();
    near.extend([any, inside, inside, inside]);
    let value = random.chosen(&near);
    let response = random.chosen(&[0, 1, 1, 1, 0, 1, 1, 2, any]);
    let call = match random.below(8) {
        0..=2 => Call::ask(&random_popup(random, popups)),
        3..=5 => Call::answer(value, response),
        6 => Call::command(&popup_record(&random_popup(random, popups))),
        _ => Call::command(&random_record(random, value, response)),
    };
    (second, call)
}

/// A returned value's record, or one of any kind; now and then with other bytes.
fn random_record(random: &mut Random, value: u8, response: u8) -> image::Image {
    let mut record = match random.below(3) {
        0 => {
            let kind = random.chosen(&KINDS);
            cases::record(random, kind)
        }
        1 => littered(value_record(value, response)),
        _ => value_record(value, response),
    };
    match random.below(8) {
        0 => record[random.below(image::SIZE)] ^= 1 << random.below(8),
        1 => record[STORED_LEN + random.below(POPUP_SIZE)] = random.byte(),
        _ => {}
    }
    record
}

/// A question that was kept, within its limits or near them, now and then of another length or any bytes.
pub fn question(random: &mut Random, popups: &[PopupImage]) -> Vec<u8> {
    let any = [random.number() as u32, random.number() as u32];
    let [sent, other] = any.map(|any| match random.below(3) {
        0 => any,
        _ => random.chosen(&SECONDS),
    });
    let last = match random.below(3) {
        0 => other,
        1 => sent,
        _ => sent.wrapping_add(random.below(300) as u32),
    };
    let popup = random_popup(random, popups);
    let mut image = match random.below(8) {
        0 => [0; SIZE],
        1 | 2 => closed(last),
        _ => open(sent, last, &popup),
    };
    match random.below(16) {
        0 => image[random.below(SIZE)] ^= 1 << random.below(8),
        1 => image[STARTED] = random.below(3) as u8,
        2 => image[OPEN] ^= 1,
        3 => {
            let (started, open) = (random.below(2) as u8, random.below(2) as u8);
            image.fill_with(|| random.byte());
            image[STARTED..SENT].copy_from_slice(&[started, open]);
        }
        4 => image.fill_with(|| random.byte()),
        _ => {}
    }
    let mut question = image.to_vec();
    if random.once_in(32) {
        question.resize(random.below(71), 0);
    }
    question
}
