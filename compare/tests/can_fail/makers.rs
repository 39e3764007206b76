//! Wrong in constructing, inspecting, or writing again.
use compare::fields::{ADDITIONAL, DEFAULT, LABEL, MAX};
use compare::runs::{self, Run};
use compare::side::Side;
use compare::theirs::RUST;

pub const MAKERS: &[(&str, Run, Side)] = &[
    (
        "read, not written again",
        runs::again,
        Side {
            again: |payload, buffer| {
                if payload.len() == 60 {
                    3
                } else {
                    (RUST.again)(payload, buffer)
                }
            },
            ..RUST
        },
    ),
    (
        "a text of 51 bytes refused",
        runs::texts,
        Side {
            text: |bytes, text| {
                if bytes.len() == 51 {
                    1
                } else {
                    (RUST.text)(bytes, text)
                }
            },
            ..RUST
        },
    ),
    (
        "a long text with a zero is 1",
        runs::texts,
        Side {
            text: |bytes, text| {
                if bytes.len() > 51 {
                    1
                } else {
                    (RUST.text)(bytes, text)
                }
            },
            ..RUST
        },
    ),
    (
        "53 bytes of information with a zero are 2",
        runs::acks,
        Side {
            ack: |ids, information, ack| match (RUST.ack)(ids, information, ack) {
                1 if information.contains(&0) => 2,
                word => word,
            },
            ..RUST
        },
    ),
    (
        "an action of 2 made",
        runs::acks,
        Side {
            ack: |ids, information, ack| {
                (RUST.ack)([ids[0], ids[1], ids[2].min(1)], information, ack)
            },
            ..RUST
        },
    ),
    (
        "a byte of the ACK's image not cleared",
        runs::acks,
        Side {
            ack: |ids, information, ack| {
                let word = (RUST.ack)(ids, information, ack);
                if word == 0 && ack[3] < 52 {
                    ack[55] = 1;
                }
                word
            },
            ..RUST
        },
    ),
    (
        "a popup of 55 bytes refused",
        runs::popups,
        Side {
            popup: |fields, popup| {
                let mut made = [0; 56];
                let word = (RUST.popup)(fields, &mut made);
                if word == 0 && made[0] == 55 {
                    return 1;
                }
                (RUST.popup)(fields, popup)
            },
            ..RUST
        },
    ),
    (
        "values alone are 1",
        runs::popups,
        Side {
            popup: |fields, popup| match (RUST.popup)(fields, popup) {
                2 if fields[ADDITIONAL] == 0 => 1,
                word => word,
            },
            ..RUST
        },
    ),
    (
        "an empty label is 1",
        runs::popups,
        Side {
            popup: |fields, popup| match (RUST.popup)(fields, popup) {
                2 if fields[ADDITIONAL] == 2 => 1,
                word => word,
            },
            ..RUST
        },
    ),
    (
        "an absent item looked at",
        runs::random_popups,
        Side {
            popup: |fields, popup| {
                if fields[ADDITIONAL] < 2 && fields[LABEL] > 51 {
                    5
                } else {
                    (RUST.popup)(fields, popup)
                }
            },
            ..RUST
        },
    ),
    (
        "Empty inspected as absent",
        runs::popups,
        Side {
            popup_fields: |popup, fields| {
                let word = (RUST.popup_fields)(popup, fields);
                if fields[ADDITIONAL] == 1 {
                    fields[ADDITIONAL] = 0;
                }
                word
            },
            ..RUST
        },
    ),
    (
        "max and default exchanged",
        runs::popups,
        Side {
            popup_fields: |popup, fields| {
                let word = (RUST.popup_fields)(popup, fields);
                fields.swap(MAX, DEFAULT);
                word
            },
            ..RUST
        },
    ),
];
