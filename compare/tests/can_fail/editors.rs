//! Wrong in editing.
use compare::edits;
use compare::image::{ACK, LED, SCREEN, VTX};
use compare::runs::{self, Run};
use compare::theirs::{each_edit, payload_check, RUST};

pub type Edit = fn(&mut [u8], u32, u32) -> u32;
pub type EditList = fn(&mut [u8], &[u8], &mut [u8]) -> u32;

/// The last byte of a payload that was changed by hand.
fn close(payload: &mut [u8]) {
    if let Some((last, rest)) = payload.split_last_mut() {
        *last = payload_check(rest);
    }
}

/// The right edit, then, where it was accepted, a change of the payload, which gets its right check again.
fn then(payload: &mut [u8], field: u32, number: u32, change: impl FnOnce(&mut [u8], &[u8])) -> u32 {
    let before = payload.to_vec();
    let word = (RUST.edit)(payload, field, number);
    if word == 0 {
        change(payload, &before);
        close(payload);
    }
    word
}

/// The right edit, but another answer, and then no change.
fn edit_but(
    payload: &mut [u8],
    field: u32,
    number: u32,
    wrong: impl FnOnce(u32, &[u8]) -> u32,
) -> u32 {
    let before = payload.to_vec();
    let right = (RUST.edit)(payload, field, number);
    let word = wrong(right, payload);
    if word != right {
        payload.copy_from_slice(&before);
    }
    word
}

/// A field's number that another is taken for.
fn taken_for(from: u32, to: u32, field: u32) -> u32 {
    if field == from {
        to
    } else {
        field
    }
}

fn outside(field: u32, number: u32) -> bool {
    edits::range(field).is_some_and(|(least, greatest)| !(least..=greatest).contains(&number))
}

fn readable(payload: &[u8]) -> bool {
    (RUST.read)(payload, &mut [0; 70]) == 0
}

pub const EDITORS: &[(&str, Run, Edit)] = &[
    (
        "7 and 8 exchanged",
        runs::random_edits,
        |payload, field, number| match (RUST.edit)(payload, field, number) {
            7 => 8,
            8 => 7,
            word => word,
        },
    ),
    (
        "the range before the field",
        runs::random_edits,
        |payload, field, number| {
            edit_but(payload, field, number, |word, _| {
                if word == 7 && outside(field, number) {
                    8
                } else {
                    word
                }
            })
        },
    ),
    (
        "the field before what is written",
        runs::random_edits,
        |payload, field, number| {
            edit_but(payload, field, number, |word, _| {
                if word == 6 && edits::range(field).is_none() {
                    7
                } else {
                    word
                }
            })
        },
    ),
    (
        "the range before what is written",
        runs::random_edits,
        |payload, field, number| {
            edit_but(payload, field, number, |word, _| {
                if word == 6 && outside(field, number) {
                    8
                } else {
                    word
                }
            })
        },
    ),
    (
        "the field before reading",
        runs::random_edits,
        |payload, field, number| {
            edit_but(payload, field, number, |word, _| {
                if matches!(word, 1 | 2) && edits::range(field).is_none() {
                    7
                } else {
                    word
                }
            })
        },
    ),
    (
        "what cannot be read is 6",
        runs::random_edits,
        |payload, field, number| match (RUST.edit)(payload, field, number) {
            2 => 6,
            word => word,
        },
    ),
    (
        "a family left behind is 2",
        runs::set_edits,
        |payload, field, number| match (RUST.edit)(payload, field, number) {
            4 => 2,
            word => word,
        },
    ),
    (
        "6 by the length alone",
        runs::random_edits,
        |payload, field, number| {
            if payload.len() == 6 && payload[2..4] == [VTX, 0x04] && readable(payload) {
                payload[4] &= 0x7F;
                close(payload);
            }
            (RUST.edit)(payload, field, number)
        },
    ),
    (
        "6 by the pit byte alone",
        runs::random_edits,
        |payload, field, number| {
            edit_but(payload, field, number, |word, payload| {
                if word == 6 && payload[2..4] != [VTX, 0x04] {
                    0
                } else {
                    word
                }
            })
        },
    ),
    (
        "bytes behind a popup not seen",
        runs::random_edits,
        |payload, field, number| {
            edit_but(payload, field, number, |word, payload| {
                if word == 6 && payload[2] == SCREEN {
                    7
                } else {
                    word
                }
            })
        },
    ),
    (
        "nothing is changed",
        runs::random_edits,
        |payload, field, number| {
            let before = payload.to_vec();
            let word = (RUST.edit)(payload, field, number);
            payload.copy_from_slice(&before);
            word
        },
    ),
    (
        "the check not renewed",
        runs::random_edits,
        |payload, field, number| {
            let check = payload.last().copied();
            let word = (RUST.edit)(payload, field, number);
            if let (Some(last), Some(check)) = (payload.last_mut(), check) {
                *last = check;
            }
            word
        },
    ),
    (
        "the check renewed wrongly at one distance",
        runs::every_length,
        |payload, field, number| {
            let before = payload.to_vec();
            let word = (RUST.edit)(payload, field, number);
            let changed = payload.iter().zip(&before).position(|(a, b)| a != b);
            if changed.is_some_and(|place| payload.len() - place == 53) {
                *payload.last_mut().unwrap() ^= 1;
            }
            word
        },
    ),
    (
        "a refused number is put in its place",
        runs::random_edits,
        |payload, field, number| {
            let word = (RUST.edit)(payload, field, number);
            if word == 8 && field == 20 {
                payload[5] = number as u8;
            }
            word
        },
    ),
    (
        "the number already there refused",
        runs::random_edits,
        |payload, field, number| {
            let before = payload.to_vec();
            edit_but(payload, field, number, |word, payload| {
                if word == 0 && payload == before {
                    8
                } else {
                    word
                }
            })
        },
    ),
    (
        "a count beside the number",
        runs::random_edits,
        |payload, field, number| match (RUST.edit)(payload, field, number) {
            0 => 1 << 8,
            word => word,
        },
    ),
    (
        "a place beside the number",
        runs::random_edits,
        |payload, field, number| match (RUST.edit)(payload, field, number) {
            8 => 8 | 4 << 16,
            word => word,
        },
    ),
    (
        "the source changed, too",
        runs::random_edits,
        |payload, field, number| {
            then(payload, field, number, |payload, _| {
                if field == 1 {
                    payload[1] = payload[0];
                }
            })
        },
    ),
    (
        "the mode cleared by the control",
        runs::random_edits,
        |payload, field, number| {
            then(payload, field, number, |payload, _| {
                if field == 22 {
                    payload[4] &= 0xFE;
                }
            })
        },
    ),
    (
        "the switch beside the control touched",
        runs::whole_ranges,
        |payload, field, number| {
            then(payload, field, number, |payload, before| {
                if field == 22 && before[4] == 0x5A && number == 3 {
                    payload[4] ^= 0x08;
                }
            })
        },
    ),
    (
        "the hue's last bit left",
        runs::random_edits,
        |payload, field, number| {
            then(payload, field, number, |payload, before| {
                if field == 34 {
                    payload[10] = payload[10] & 0x7F | before[10] & 0x80;
                }
            })
        },
    ),
    (
        "the saturation cleared by the hue",
        runs::random_edits,
        |payload, field, number| {
            then(payload, field, number, |payload, _| {
                if field == 31 && payload[3] == 0x02 {
                    payload[5] &= 0x80;
                }
            })
        },
    ),
    (
        "6000 MHz outside the range",
        runs::set_edits,
        |payload, field, number| {
            edit_but(payload, field, number, |word, _| match (field, number) {
                (20, 6000) if word == 0 => 8,
                _ => word,
            })
        },
    ),
    (
        "4999 MHz in the range",
        runs::set_edits,
        |payload, field, number| {
            edit_but(payload, field, number, |word, _| match (field, number) {
                (20, 4999) if word == 8 => 0,
                _ => word,
            })
        },
    ),
    (
        "hue 360 in the range",
        runs::set_edits,
        |payload, field, number| {
            edit_but(payload, field, number, |word, _| match (field, number) {
                (34, 360) if word == 8 => 0,
                _ => word,
            })
        },
    ),
    (
        "value 100 outside the range",
        runs::set_edits,
        |payload, field, number| {
            edit_but(payload, field, number, |word, _| match (field, number) {
                (36, 100) if word == 0 => 8,
                _ => word,
            })
        },
    ),
    (
        "switch 15 outside the range",
        runs::set_edits,
        |payload, field, number| {
            edit_but(payload, field, number, |word, _| match (field, number) {
                (23, 15) if word == 0 => 8,
                _ => word,
            })
        },
    ),
    (
        "a baud rate of 2^31 outside the range",
        runs::set_edits,
        |payload, field, number| {
            edit_but(payload, field, number, |word, _| {
                if field == 41 && number >= 1 << 31 && word == 0 {
                    8
                } else {
                    word
                }
            })
        },
    ),
    (
        "an interval of 65536 is 0",
        runs::set_edits,
        |payload, field, number| {
            let number = if field == 61 { number % 65536 } else { number };
            (RUST.edit)(payload, field, number)
        },
    ),
    (
        "a flag of 2 is 1",
        runs::set_edits,
        |payload, field, number| {
            let number = if field == 77 { number.min(1) } else { number };
            (RUST.edit)(payload, field, number)
        },
    ),
    (
        "a number modulo 256",
        runs::set_edits,
        |payload, field, number| match field {
            70 | 72..=76 => (RUST.edit)(payload, field, number % 256),
            _ => (RUST.edit)(payload, field, number),
        },
    ),
    (
        "a field modulo 256",
        runs::set_edits,
        |payload, field, number| (RUST.edit)(payload, field % 256, number),
    ),
    (
        "a field modulo 65536",
        runs::set_edits,
        |payload, field, number| (RUST.edit)(payload, field % 65536, number),
    ),
    (
        "a field that is none",
        runs::set_edits,
        |payload, field, number| (RUST.edit)(payload, taken_for(25, 24, field), number),
    ),
    (
        "dynamic power is no field",
        runs::random_edits,
        |payload, field, number| {
            edit_but(payload, field, number, |word, payload| {
                if word == 0 && field == 24 && payload[3] == 0x06 {
                    7
                } else {
                    word
                }
            })
        },
    ),
    (
        "the reply's model is no field",
        runs::random_edits,
        |payload, field, number| {
            edit_but(payload, field, number, |word, payload| {
                if word == 0 && field == 50 && payload[3] == 0x07 {
                    7
                } else {
                    word
                }
            })
        },
    ),
    (
        "an only colour is a stop colour",
        runs::random_edits,
        |payload, field, number| {
            let only = payload.len() == 8 && payload[2..4] == [LED, 0x02];
            let field = match field {
                34..=36 if only => field - 3,
                _ => field,
            };
            (RUST.edit)(payload, field, number)
        },
    ),
    (
        "the stop colour's value set in the start colour",
        runs::random_edits,
        |payload, field, number| (RUST.edit)(payload, taken_for(36, 33, field), number),
    ),
    (
        "max and default exchanged",
        runs::every_length,
        |payload, field, number| match field {
            74 => (RUST.edit)(payload, 75, number),
            75 => (RUST.edit)(payload, 74, number),
            _ => (RUST.edit)(payload, field, number),
        },
    ),
    (
        "a popup without a selection has its value",
        runs::set_edits,
        |payload, field, number| match (RUST.edit)(payload, field, number) {
            7 if field == 72 && payload[2..4] == [SCREEN, 0x01] => 0,
            word => word,
        },
    ),
    (
        "the popup's timeout set as a returned value",
        runs::random_edits,
        |payload, field, number| (RUST.edit)(payload, taken_for(76, 70, field), number),
    ),
    (
        "the payload's own id set",
        runs::random_edits,
        |payload, field, number| {
            then(payload, field, number, |payload, before| {
                if field == 80 {
                    payload[3] = before[3];
                    payload[2] = number as u8;
                }
            })
        },
    ),
    (
        "the action of an ACK with 52 bytes is no field",
        runs::every_length,
        |payload, field, number| match (RUST.edit)(payload, field, number) {
            0 if field == 82 && payload[2] == ACK && payload.len() == 60 => 7,
            word => word,
        },
    ),
];

pub const LISTS: &[(&str, EditList)] = &[
    ("only the first edit", |payload, list, answers| {
        let mut first = true;
        each_edit(list, answers, |field, number| {
            match std::mem::take(&mut first) {
                true => (RUST.edit)(payload, field, number),
                false => 0,
            }
        })
    }),
    ("only the last edit", |payload, list, answers| {
        let mut left = list.len() / 8;
        each_edit(list, answers, |field, number| {
            left -= 1;
            let mut copy = payload.to_vec();
            let word = (RUST.edit)(&mut copy, field, number);
            if left == 0 {
                payload.copy_from_slice(&copy);
            }
            word
        })
    }),
    ("none behind a refused edit", |payload, list, answers| {
        let mut refused = 0;
        each_edit(list, answers, |field, number| {
            if refused == 0 {
                refused = (RUST.edit)(payload, field, number);
            }
            refused
        })
    }),
    ("all or none", |payload, list, answers| {
        let before = payload.to_vec();
        let word = (RUST.edit_list)(payload, list, answers);
        if word == 0 && answers[..list.len() / 8].iter().any(|number| *number != 0) {
            payload.copy_from_slice(&before);
        }
        word
    }),
    (
        "each from the payload as it was",
        |payload, list, answers| {
            let before = payload.to_vec();
            each_edit(list, answers, |field, number| {
                let mut copy = before.clone();
                let word = (RUST.edit)(&mut copy, field, number);
                if word == 0 {
                    payload.copy_from_slice(&copy);
                }
                word
            })
        },
    ),
    (
        "the check of the first edit left",
        |payload, list, answers| {
            let mut check = None;
            each_edit(list, answers, |field, number| {
                if let Some(check) = check {
                    close(payload);
                    let word = (RUST.edit)(payload, field, number);
                    *payload.last_mut().unwrap() = check;
                    return word;
                }
                let word = (RUST.edit)(payload, field, number);
                if word == 0 {
                    check = payload.last().copied();
                }
                word
            })
        },
    ),
    ("17 edits are too many", |payload, list, answers| {
        if list.len() / 8 > 16 {
            return 1;
        }
        (RUST.edit_list)(payload, list, answers)
    }),
    (
        "bytes behind the last whole edit ignored",
        |payload, list, answers| (RUST.edit_list)(payload, &list[..list.len() / 8 * 8], answers),
    ),
    (
        "too few answers before the list's length",
        |payload, list, answers| match (RUST.edit_list)(payload, list, answers) {
            1 if answers.len() < list.len() / 8 => 3,
            word => word,
        },
    ),
    (
        "as many edits as there are answers",
        |payload, list, answers| {
            let most = if list.len() % 8 == 0 {
                list.len().min(answers.len() * 8)
            } else {
                list.len()
            };
            (RUST.edit_list)(payload, &list[..most], answers)
        },
    ),
    (
        "more answers than edits refused",
        |payload, list, answers| {
            if list.len() % 8 == 0 && answers.len() > list.len() / 8 {
                return 3;
            }
            (RUST.edit_list)(payload, list, answers)
        },
    ),
    (
        "answers behind the edits cleared",
        |payload, list, answers| {
            let word = (RUST.edit_list)(payload, list, answers);
            if word == 0 {
                answers[list.len() / 8..].fill(0);
            }
            word
        },
    ),
    (
        "answers of a refused list cleared",
        |payload, list, answers| {
            let word = (RUST.edit_list)(payload, list, answers);
            if word != 0 {
                answers.fill(0);
            }
            word
        },
    ),
    (
        "the last answer is the word",
        |payload, list, answers| match (RUST.edit_list)(payload, list, answers) {
            0 if !list.is_empty() => answers[list.len() / 8 - 1].into(),
            word => word,
        },
    ),
    (
        "the count of edits beside the number",
        |payload, list, answers| match (RUST.edit_list)(payload, list, answers) {
            0 => (list.len() as u32 / 8) << 8,
            word => word,
        },
    ),
    (
        "a payload that cannot be read is the word",
        |payload, list, answers| match (RUST.read)(payload, &mut [0; 70]) {
            0 => (RUST.edit_list)(payload, list, answers),
            word => word,
        },
    ),
    ("6 is the word", |payload, list, answers| {
        let before = answers.to_vec();
        match (RUST.edit_list)(payload, list, answers) {
            0 if answers[..list.len() / 8].contains(&6) => {
                answers.copy_from_slice(&before);
                6
            }
            word => word,
        }
    }),
    ("6 once, then 7", |payload, list, answers| {
        let word = (RUST.edit_list)(payload, list, answers);
        if word == 0 && list.len() > 8 && answers[1] == 6 {
            answers[1] = 7;
        }
        word
    }),
    ("numbers from their low byte", |payload, list, answers| {
        each_edit(list, answers, |field, number| {
            (RUST.edit)(payload, field, number.swap_bytes())
        })
    }),
    ("number, then field", |payload, list, answers| {
        each_edit(list, answers, |field, number| {
            (RUST.edit)(payload, number, field)
        })
    }),
];
