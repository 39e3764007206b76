//! Wrong in writing.
use compare::image::{ACK, LED, SCREEN, STORED, STORED_LEN, VTX};
use compare::runs::{self, Run};
use compare::side::{count, number, Lending};
use compare::theirs::{payload_check, RUST};

pub const WRITERS: &[(&str, Run, Lending)] = &[
    (
        "one frequency written as another",
        runs::set_records,
        |record, buffer| {
            let mut record = record.to_vec();
            if record[2..6] == [VTX, 0x02, 0x16, 0xA9] {
                record[5] = 0xA8;
            }
            (RUST.write)(&record, buffer)
        },
    ),
    ("room before values", runs::set_records, |record, buffer| {
        let word = (RUST.write)(record, buffer);
        if word == 2 && record[2..4] == [VTX, 0x02] && (4..7).contains(&buffer.len()) {
            3
        } else {
            word
        }
    }),
    (
        "all colours before room",
        runs::set_records,
        |record, buffer| {
            let word = (RUST.write)(record, buffer);
            let bad_stop = record[2..4] == [LED, 0x03] && record[13] > 100;
            if word == 3 && bad_stop && buffer.len() > 8 {
                2
            } else {
                word
            }
        },
    ),
    ("switch 16 is 3", runs::set_records, |record, buffer| {
        let word = (RUST.write)(record, buffer);
        if word == 2 && record[2..4] == [VTX, 0x04] && record[6] == 16 {
            3
        } else {
            word
        }
    }),
    (
        "an exact buffer refused",
        runs::buffers,
        |record, buffer| {
            let lent = buffer.to_vec();
            let word = (RUST.write)(record, buffer);
            if number(word) == 0 && count(word) == buffer.len() && record[2] == ACK {
                buffer.copy_from_slice(&lent);
                return 3;
            }
            word
        },
    ),
    ("a count of one more", runs::buffers, |record, buffer| {
        let word = (RUST.write)(record, buffer);
        if number(word) == 0 && record[2] == SCREEN {
            word + 256
        } else {
            word
        }
    }),
    (
        "the check of what is lent",
        runs::buffers,
        |record, buffer| {
            let word = (RUST.write)(record, buffer);
            if number(word) == 0 && count(word) < buffer.len() {
                buffer[count(word) - 1] = payload_check(&buffer[..count(word)]);
            }
            word
        },
    ),
    (
        "a byte behind the payload",
        runs::buffers,
        |record, buffer| {
            let word = (RUST.write)(record, buffer);
            if number(word) == 0 && buffer.len() == 70 {
                buffer[count(word)] = 0;
            }
            word
        },
    ),
    (
        "a refusal leaves the destination",
        runs::buffers,
        |record, buffer| {
            let word = (RUST.write)(record, buffer);
            if number(word) != 0 && buffer.len() > 3 {
                buffer[0] = record[0];
            }
            word
        },
    ),
    (
        "the last stored byte left out",
        runs::random_records,
        |record, buffer| {
            let mut record = record.to_vec();
            if record[2] == ACK && record[STORED_LEN] == 52 {
                record[STORED_LEN] = 51;
                record[STORED + 51] = 0;
            }
            (RUST.write)(&record, buffer)
        },
    ),
    (
        "action 2 written as 1",
        runs::random_records,
        |record, buffer| {
            let mut record = record.to_vec();
            if record[2] == ACK && record[6] == 2 {
                record[6] = 1;
            }
            (RUST.write)(&record, buffer)
        },
    ),
];
