//! The edits that document 01 marks, by either side; and those that the benchmark counts.
use compare::cases::payload;
use compare::changes::ROWS;
use compare::edits::{self, FIELDS};
use compare::every::ADDRESSES;
use compare::ours::OURS;
use compare::theirs::{plain_edit, RUST};

const M2: [u8; 6] = [0xC8, 0xEA, 0x01, 0x01, 0x00, 0xFE];
const M3: [u8; 7] = [0xC8, 0xEA, 0x08, 0x02, 0x16, 0xA8, 0x0E];
const M3_EDITED: [u8; 7] = [0xC8, 0xEA, 0x08, 0x02, 0x13, 0x88, 0x90];

#[test]
fn m2_is_6() {
    for side in [OURS, RUST] {
        let mut payload = M2;
        for (field, number) in [(1, 0), (20, 5000), (99, 0), (1, 256)] {
            assert_eq!((side.edit)(&mut payload, field, number), 6);
        }
        assert_eq!(payload, M2);
    }
}

#[test]
fn m3_is_edited() {
    for side in [OURS, RUST] {
        let mut payload = M3;
        assert_eq!((side.edit)(&mut payload, 20, 5000), 0);
        assert_eq!(payload, M3_EDITED);
        assert_eq!((side.edit)(&mut payload, 20, 5800), 0);
        assert_eq!(payload, M3);
    }
}

#[test]
fn m4_is_8_and_7() {
    for side in [OURS, RUST] {
        let mut payload = M3;
        assert_eq!((side.edit)(&mut payload, 20, 4999), 8);
        assert_eq!((side.edit)(&mut payload, 24, 1), 7);
        assert_eq!((side.edit)(&mut payload, 24, 256), 7);
        assert_eq!(payload, M3);
    }
}

#[test]
fn m2_to_m4_in_lists() {
    let list = edits::list(&[(20, 4999), (24, 1), (20, 5000)]);
    for side in [OURS, RUST] {
        let (mut payload, mut answers) = (M3, [0xA5; 4]);
        assert_eq!((side.edit_list)(&mut payload, &list, &mut answers), 0);
        assert_eq!((payload, answers), (M3_EDITED, [8, 7, 0, 0xA5]));
        let (mut payload, mut answers) = (M2, [0xA5; 3]);
        assert_eq!((side.edit_list)(&mut payload, &list, &mut answers), 0);
        assert_eq!((payload, answers), (M2, [6; 3]));
    }
}

/// What the benchmark counts on the Rust's side are these edits, of every field once.
#[test]
fn changes_are_edits() {
    assert!(ROWS
        .iter()
        .map(|row| row.0)
        .eq(FIELDS.iter().map(|row| row.0)));
    for (field, id, body, numbers, change) in ROWS {
        for number in numbers {
            let mut edited = payload(ADDRESSES, id, body);
            let mut out = [0xA5; 60];
            let word = plain_edit(&edited, change, number, &mut out);
            assert_eq!((RUST.edit)(&mut edited, field, number), 0, "field {field}");
            assert_eq!(word, (edited.len() as u32) << 8, "field {field}");
            assert_eq!(out[..edited.len()], edited, "field {field}");
        }
    }
}
