//! Wrong in reading.
use compare::image::{ACK, LED, SCREEN, STORED, STORED_LEN, VTX};
use compare::runs::{self, Run};
use compare::side::{count, Lending};
use compare::theirs::{payload_check, RUST};

/// The right reader's answer, but another word and no image where `wrong` says so.
fn read_but(
    payload: &[u8],
    record: &mut [u8],
    wrong: impl FnOnce(u32, &[u8]) -> Option<u32>,
) -> u32 {
    let lent = record.to_vec();
    let word = (RUST.read)(payload, record);
    match wrong(word, record) {
        Some(other) => {
            record.copy_from_slice(&lent);
            other
        }
        None => word,
    }
}

pub const READERS: &[(&str, Run, Lending)] = &[
    (
        "an unknown id is 1",
        runs::short_payloads,
        |payload, record| {
            read_but(payload, record, |word, _| {
                (word == 2 && payload[2] == 0x7C).then_some(1)
            })
        },
    ),
    (
        "a family left behind is unknown",
        runs::short_payloads,
        |payload, record| {
            read_but(payload, record, |word, _| {
                (word == 4 && payload[2] == 0x13).then_some(2)
            })
        },
    ),
    (
        "bit 7 of the pit byte is read",
        runs::random_payloads,
        |payload, record| {
            let word = (RUST.read)(payload, record);
            if word == 0 && record[2..4] == [VTX, 0x04] && payload[4] > 127 {
                record[6] |= 0x10;
            }
            word
        },
    ),
    (
        "addresses exchanged",
        runs::random_payloads,
        |payload, record| {
            let word = (RUST.read)(payload, record);
            if word == 0 {
                record.swap(0, 1);
            }
            word
        },
    ),
    (
        "one frequency read as another",
        runs::set_payloads,
        |payload, record| {
            let word = (RUST.read)(payload, record);
            if word == 0 && record[2..6] == [VTX, 0x02, 0x16, 0xA9] {
                record[5] = 0xA8;
            }
            word
        },
    ),
    ("6000 MHz refused", runs::set_payloads, |payload, record| {
        read_but(payload, record, |_, record| {
            (record[2..6] == [VTX, 0x02, 0x17, 0x70]).then_some(2)
        })
    }),
    ("hue 360 is 1", runs::set_payloads, |payload, record| {
        read_but(payload, record, |word, _| {
            (word == 2 && payload[2..5] == [LED, 0x02, 0xB4]).then_some(1)
        })
    }),
    (
        "value 100 refused",
        runs::set_payloads,
        |payload, record| {
            read_but(payload, record, |_, record| {
                (record[2..4] == [LED, 0x02] && record[7] == 100).then_some(2)
            })
        },
    ),
    (
        "stop colour read where the start stands",
        runs::set_payloads,
        |payload, record| {
            let word = (RUST.read)(payload, record);
            if word == 0 && record[2..4] == [LED, 0x04] {
                record.copy_within(10..14, 6);
            }
            word
        },
    ),
    (
        "a bad start with no stop is 1",
        runs::set_payloads,
        |payload, record| {
            read_but(payload, record, |word, _| {
                (word == 2 && payload[2..4] == [LED, 0x03] && payload.len() < 13).then_some(1)
            })
        },
    ),
    (
        "an ACK with action 2 and no end is 2",
        runs::set_payloads,
        |payload, record| {
            read_but(payload, record, |word, _| {
                (word == 1 && payload[2] == ACK && payload.len() > 6 && payload[5] > 1).then_some(2)
            })
        },
    ),
    (
        "52 bytes of information refused",
        runs::set_payloads,
        |payload, record| {
            read_but(payload, record, |_, record| {
                (record[2] == ACK && record[STORED_LEN] == 52).then_some(1)
            })
        },
    ),
    (
        "a header of 51 bytes refused",
        runs::popup_payloads,
        |payload, record| {
            read_but(payload, record, |_, record| {
                (record[2..4] == [SCREEN, 0x01]
                    && record[STORED..].iter().position(|b| *b == 0) == Some(51))
                .then_some(1)
            })
        },
    ),
    (
        "55 bytes of popup refused",
        runs::popup_payloads,
        |payload, record| {
            read_but(payload, record, |_, record| {
                (record[2..4] == [SCREEN, 0x01] && record[STORED_LEN] == 55).then_some(1)
            })
        },
    ),
    (
        "60 bytes refused",
        runs::random_payloads,
        |payload, record| read_but(payload, record, |_, _| (payload.len() == 60).then_some(1)),
    ),
    (
        "61 bytes are 2",
        runs::random_payloads,
        |payload, record| {
            read_but(payload, record, |word, _| {
                (word == 1 && payload.len() == 61).then_some(2)
            })
        },
    ),
    (
        "a wrong check not seen",
        runs::random_payloads,
        |payload, record| {
            let mut payload = payload.to_vec();
            if let Some((last, rest)) = payload.split_last_mut() {
                let right = payload_check(rest);
                if *last ^ right == 0x80 {
                    *last = right;
                }
            }
            (RUST.read)(&payload, record)
        },
    ),
    (
        "bytes behind the last item refused",
        runs::random_payloads,
        |payload, record| {
            let written = count((RUST.again)(payload, &mut [0; 60]));
            read_but(payload, record, |word, _| {
                (word == 0 && written < payload.len()).then_some(1)
            })
        },
    ),
    (
        "a refusal leaves a byte",
        runs::random_payloads,
        |payload, record| {
            let word = (RUST.read)(payload, record);
            if word == 2 {
                record[69] = 0;
            }
            word
        },
    ),
    (
        "a place beside the number",
        runs::random_payloads,
        |payload, record| {
            let word = (RUST.read)(payload, record);
            if word == 1 {
                word | 3 << 16
            } else {
                word
            }
        },
    ),
];
