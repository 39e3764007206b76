//! Wrong in the types over the boundary.
use compare::runs::{self, Run};
use compare::theirs::RUST;
use compare::types::{Told, Types};

const RIGHT: Types = RUST.types;

/// The numbers behind two names exchanged, wherever the second comes right behind the first.
fn exchanged(text: &str, first: &str, second: &str) -> String {
    let mut told = String::new();
    let mut rest = text;
    let (first, second) = (format!("{first}: "), format!(", {second}: "));
    while let Some((before, behind)) = rest.split_once(&first) {
        let (one, behind) = behind.split_once(&second).expect("both names");
        let end = behind.find(|c: char| !c.is_ascii_digit());
        let (other, behind) = behind.split_at(end.unwrap_or(behind.len()));
        told += &[before, &first, other, &second, one].concat();
        rest = behind;
    }
    told + rest
}

fn told(payload: &[u8], other: impl Fn(&str) -> String) -> Told {
    (RIGHT.read)(payload).map(|text| other(&text))
}

pub const TYPES: &[(&str, Run, Types)] = &[
    (
        "saturation and value of a colour exchanged",
        runs::types_commands,
        Types {
            read: |payload| told(payload, |text| exchanged(text, "saturation", "value")),
            ..RIGHT
        },
    ),
    (
        "addresses exchanged",
        runs::types_commands,
        Types {
            read: |payload| told(payload, |text| exchanged(text, "dst_addr", "src_addr")),
            ..RIGHT
        },
    ),
    (
        "a pulse told as a blink",
        runs::types_commands,
        Types {
            read: |payload| {
                told(payload, |text| {
                    let text = text.replace("OverridePulse", "OverrideBlink");
                    text.replace("duration_ms", "interval_ms")
                })
            },
            ..RIGHT
        },
    ),
    (
        "an ACK's information told with its end",
        runs::types_commands,
        Types {
            read: |payload| {
                told(payload, |text| match text.strip_suffix("] }) }") {
                    Some(front) if text.contains("information") => format!("{front}, 0] }}) }}"),
                    _ => text.into(),
                })
            },
            ..RIGHT
        },
    ),
    (
        "a flag told as a number",
        runs::types_commands,
        Types {
            read: |payload| {
                told(payload, |text| {
                    text.replace("response: true", "response: 1")
                })
            },
            ..RIGHT
        },
    ),
    (
        "a family left behind is unknown",
        runs::types_sub_commands,
        Types {
            read: |payload| match (RIGHT.read)(payload) {
                Err(4) => Err(2),
                answer => answer,
            },
            ..RIGHT
        },
    ),
    (
        "above 60 bytes is 2",
        runs::types_commands,
        Types {
            read: |payload| match (RIGHT.read)(payload) {
                Err(1) if payload.len() > 60 => Err(2),
                answer => answer,
            },
            ..RIGHT
        },
    ),
    (
        "a count of 60 as 59",
        runs::types_commands,
        Types {
            write: |payload, judged, buffer| {
                (RIGHT.write)(payload, judged, buffer).map(|count| count.min(59))
            },
            ..RIGHT
        },
    ),
    (
        "the last byte not written",
        runs::types_commands,
        Types {
            write: |payload, judged, buffer| {
                let written = (RIGHT.write)(payload, judged, buffer);
                if let Ok(count) = written {
                    buffer[count - 1] = 0;
                }
                written
            },
            ..RIGHT
        },
    ),
    (
        "a refused write leaves the destination",
        runs::types_commands,
        Types {
            write: |payload, judged, buffer| {
                let written = (RIGHT.write)(payload, judged, buffer);
                if written.is_err() && buffer.len() > 3 && payload.len() > 3 {
                    buffer[0] = payload[0];
                }
                written
            },
            ..RIGHT
        },
    ),
    (
        "a family left behind has no room",
        runs::types_sub_commands,
        Types {
            write: |payload, judged, buffer| match (RIGHT.write)(payload, judged, buffer) {
                Err(4) => Err(3),
                answer => answer,
            },
            ..RIGHT
        },
    ),
    (
        "6001 MHz written",
        runs::types_commands,
        Types {
            write: |payload, judged, buffer| {
                let above = judged.is_some_and(|judged| judged.frequency == 6001);
                match (RIGHT.write)(payload, judged, buffer) {
                    Err(2) if above && payload.get(2..4) == Some(&[0x08, 0x02]) => Ok(7),
                    answer => answer,
                }
            },
            ..RIGHT
        },
    ),
    (
        "room before values",
        runs::types_commands,
        Types {
            write: |payload, judged, buffer| match (RIGHT.write)(payload, judged, buffer) {
                Err(2) if buffer.len() < 7 && payload.get(2) == Some(&0x08) => Err(3),
                answer => answer,
            },
            ..RIGHT
        },
    ),
    (
        "a text of 51 bytes refused",
        runs::types_made,
        Types {
            text: |bytes| match bytes.len() {
                51 => Err(1),
                _ => (RIGHT.text)(bytes),
            },
            ..RIGHT
        },
    ),
    (
        "a text told as letters",
        runs::types_made,
        Types {
            text: |bytes| (RIGHT.text)(bytes).map(|_| format!("{:?}", bytes.escape_ascii())),
            ..RIGHT
        },
    ),
    (
        "53 bytes of information with a zero are 2",
        runs::types_made,
        Types {
            ack: |ids, information| match (RIGHT.ack)(ids, information) {
                Err(1) if information.contains(&0) => Err(2),
                answer => answer,
            },
            ..RIGHT
        },
    ),
    (
        "an action of 2 made",
        runs::types_made,
        Types {
            ack: |ids, information| (RIGHT.ack)([ids[0], ids[1], ids[2].min(1)], information),
            ..RIGHT
        },
    ),
    (
        "an empty label is 1",
        runs::types_popups,
        Types {
            popup: |given| match (RIGHT.popup)(given) {
                Err(2) if given.values.is_none() => Err(1),
                answer => answer,
            },
            ..RIGHT
        },
    ),
    (
        "Empty inspected as absent",
        runs::types_popups,
        Types {
            popup: |given| (RIGHT.popup)(given).map(|text| text.replace("Some(Empty)", "None")),
            ..RIGHT
        },
    ),
    (
        "max and default exchanged",
        runs::types_popups,
        Types {
            popup: |given| {
                let told = (RIGHT.popup)(given)?;
                Ok(exchanged(&told, "max_value", "default_value"))
            },
            ..RIGHT
        },
    ),
];
