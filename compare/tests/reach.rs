//! The random input reaches what it is meant to: every length, and of every kind each answer that there is.
use std::collections::BTreeSet;

use compare::block_cases::{self, Payloads};
use compare::image::KINDS;
use compare::random::Random;
use compare::replay_image::{COMMAND, DAMAGED, GAP, NOTHING, REFUSED, STEP_BACK};
use compare::side::number;
use compare::theirs::RUST;
use compare::{cases, edit_cases, edits, fields, image};

const ROUNDS: usize = 3000;

#[test]
fn payloads_of_every_length_and_answer() {
    let mut random = Random(1);
    let mut lengths = BTreeSet::new();
    for kind in KINDS {
        let mut answers = BTreeSet::new();
        for _ in 0..ROUNDS {
            let payload = cases::near_payload(&mut random, kind);
            lengths.insert(payload.len());
            answers.insert((RUST.read)(&payload, &mut [0; 70]));
        }
        assert!(
            answers.is_superset(&BTreeSet::from([0, 1, 2])),
            "{kind:02X?}"
        );
    }
    assert_eq!(lengths, (0..=64).collect());
}

#[test]
fn records_are_made_and_have_every_answer() {
    let mut random = Random(1);
    for (id, sub, len) in KINDS {
        let mut answers = BTreeSet::new();
        for _ in 0..ROUNDS {
            let record = cases::record(&mut random, (id, sub, len));
            let word = (RUST.write)(&record, &mut vec![0; random.below(71)]);
            answers.insert(number(word));
        }
        let judged = matches!(
            (id, sub),
            (0x08, 0x02 | 0x04) | (0x09, 0x02..=0x05) | (0xFF, _)
        );
        let expected: &[u8] = if judged { &[0, 2, 3] } else { &[0, 3] };
        assert_eq!(
            answers,
            expected.iter().copied().collect(),
            "{id:02X} {sub:02X}"
        );
    }
}

#[test]
fn constructors_accept_and_refuse() {
    let mut random = Random(1);
    let (mut texts, mut acks, mut popups) = (BTreeSet::new(), BTreeSet::new(), BTreeSet::new());
    for _ in 0..ROUNDS {
        let bytes = cases::text_bytes(&mut random);
        texts.insert((bytes.len().clamp(50, 53), (RUST.text)(&bytes, &mut [0; 52])));
        let (ids, information) = cases::ack(&mut random);
        let word = (RUST.ack)(ids, &information, &mut [0; 56]);
        acks.insert((information.len().clamp(51, 54), word));
        let mut popup = [0; 56];
        let word = (RUST.popup)(&cases::fields(&mut random), &mut popup);
        popups.insert((popup[0].max(53), word));
    }
    assert!(texts.is_superset(&BTreeSet::from([(51, 0), (51, 2), (52, 1), (52, 2)])));
    assert!(acks.is_superset(&BTreeSet::from([(52, 0), (52, 2), (53, 1)])));
    let lengths = [(53, 0), (54, 0), (55, 0), (53, 1), (53, 2)];
    assert!(popups.is_superset(&BTreeSet::from(lengths)), "{popups:?}");
}

/// With other numbers a command that was read is written, refused for its values and refused for its room.
#[test]
fn changed_commands_have_every_answer() {
    let mut random = Random(1);
    let mut reached = BTreeSet::new();
    for _ in 0..30 * ROUNDS {
        let (id, sub, len) = random.chosen(&KINDS);
        let payload = cases::near_payload(&mut random, (id, sub, len));
        if (RUST.types.read)(&payload).is_ok() && payload[2] == id {
            let mut buffer = vec![0; random.below(71)];
            let judged = cases::judged(&mut random);
            let word = (RUST.types.write)(&payload, Some(&judged), &mut buffer);
            reached.insert((id, word.err()));
        }
    }
    for id in image::FAMILIES {
        assert!(reached.contains(&(id, None)), "{id:02X}");
        assert!(reached.contains(&(id, Some(3))), "{id:02X}");
        let judged = matches!(id, 0x08 | 0x09 | 0xFF);
        assert_eq!(reached.contains(&(id, Some(2))), judged, "{id:02X}");
    }
}

/// Of every field: accepted at both ends of its range, and refused by each number that comes after reading.
#[test]
fn every_field_is_edited_and_refused() {
    let mut reached = BTreeSet::new();
    edit_cases::payloads(&mut Random(1), |payload| {
        for (field, least, greatest) in edits::FIELDS {
            for number in edit_cases::edges(field) {
                let mut edited = payload.to_vec();
                let word = (RUST.edit)(&mut edited, field, number);
                let end = number == least || number == greatest;
                reached.insert((field, word, word == 0 && end && edited != payload));
            }
        }
    });
    for (field, _, _) in edits::FIELDS {
        for word in [1, 2, 4, 6, 7, 8] {
            let there = reached.contains(&(field, word, false));
            // every command has an address, and no number is too large for a baud rate
            let never = matches!((field, word), (1 | 2, 7) | (41, 8));
            assert_eq!(there, !never, "field {field}, {word}");
        }
        assert!(reached.contains(&(field, 0, true)), "field {field}");
    }
}

/// Every field is accepted, and no other.
#[test]
fn edits_at_random_have_every_answer() {
    let mut random = Random(1);
    let (mut accepted, mut answers) = (BTreeSet::new(), BTreeSet::new());
    for _ in 0..20 * ROUNDS {
        let mut payload = edit_cases::payload(&mut random);
        let (field, number) = edit_cases::edit(&mut random, edit_cases::id_of(&payload));
        let word = (RUST.edit)(&mut payload, field, number);
        answers.insert(word);
        if word == 0 {
            accepted.insert(field);
        }
    }
    assert_eq!(answers, BTreeSet::from([0, 1, 2, 4, 6, 7, 8]));
    assert_eq!(accepted, edits::FIELDS.iter().map(|row| row.0).collect());
}

#[test]
fn lists_have_every_length_and_answer() {
    let mut random = Random(1);
    let (mut lengths, mut words, mut numbers) = (BTreeSet::new(), BTreeSet::new(), BTreeSet::new());
    let (mut both, mut beyond) = (0, 0);
    for _ in 0..ROUNDS {
        let mut payload = edit_cases::payload(&mut random);
        let (list, room) = edit_cases::list(&mut random, edit_cases::id_of(&payload));
        let mut answers = vec![0xA5; room];
        let word = (RUST.edit_list)(&mut payload, &list, &mut answers);
        words.insert(word);
        if word == 0 {
            let given = &answers[..list.len() / 8];
            lengths.insert(given.len());
            numbers.extend(given.iter().copied());
            both += u32::from(given.contains(&0) && given.contains(&8));
            beyond += u32::from(given.len() < room);
        }
    }
    assert_eq!(lengths, (0..=20).collect());
    assert_eq!(words, BTreeSet::from([0, 1, 3]));
    assert!(numbers.is_superset(&BTreeSet::from([0, 1, 2, 6, 7, 8])));
    assert!(both > 100 && beyond > 100);
}

/// The image of what an image holds is the image: no value is left out or stands for another.
#[test]
fn images_go_there_and_back() {
    let mut random = Random(1);
    for kind in KINDS {
        for _ in 0..ROUNDS {
            let record = cases::record(&mut random, kind);
            let command = image::command(&record).expect("a record that the Rust can hold");
            assert_eq!(image::of(&command), Some(record));
        }
        let given = cases::fields(&mut random);
        let read = fields::fields(&given).expect("fields that the Rust can hold");
        assert_eq!(fields::fields(&fields::of(&read)), Some(read));
    }
}

/// The events of a block by the Rust, from a state on, until it has no more or is refused; the last answer.
fn replayed(state: &mut [u8], block: &[u8], mut visit: impl FnMut(&[u8; 80])) -> u32 {
    loop {
        let mut event = [0; 80];
        let word = (RUST.replay)(state, 1, block, &mut event);
        if word == 0 {
            visit(&event);
        }
        if word != 0 || event[1] == 0 {
            return word;
        }
    }
}

#[test]
fn blocks_at_random_have_every_event() {
    let mut random = Random(1);
    let payloads = Payloads::new(&mut random, 40);
    let (mut events, mut families) = (BTreeSet::new(), BTreeSet::new());
    let (mut number, mut state) = (7, [0; 7]);
    for _ in 0..2 * ROUNDS {
        number = block_cases::number_after(&mut random, number);
        let mut block = payloads.block(&mut random, number);
        if random.once_in(4) {
            block_cases::damage(&mut random, &mut block);
        }
        let word = replayed(&mut state, &block, |event| {
            events.insert((event[0], event[8]));
            if event[0] == COMMAND {
                families.insert(event[12]);
            }
        });
        assert_eq!(word, 0);
    }
    let every = [
        (NOTHING, 0),
        (COMMAND, 0),
        (REFUSED, 1),
        (REFUSED, 2),
        (REFUSED, 4),
        (DAMAGED, 1),
        (DAMAGED, 9),
        (DAMAGED, 10),
        (GAP, 0),
        (STEP_BACK, 0),
    ];
    assert_eq!(events, BTreeSet::from(every));
    assert_eq!(families, BTreeSet::from(image::FAMILIES));
}

#[test]
fn blocks_have_every_fill_and_up_to_101_records() {
    let mut random = Random(1);
    let payloads = Payloads::new(&mut random, 40);
    let mut counts = BTreeSet::new();
    for fill in (0..=505).filter(|fill| !(1..5).contains(fill)) {
        for longest in [5, 12, 30, 61] {
            let records = payloads.records(&mut random, fill, longest);
            assert_eq!(records.len(), fill);
            let block = block_cases::sound(1, &records);
            let mut count = 0;
            let word = replayed(&mut [0; 7], &block, |event| {
                assert!(
                    [COMMAND, REFUSED].contains(&event[0]) || fill == 0,
                    "{fill} bytes"
                );
                count += usize::from(event[0] != NOTHING);
            });
            assert_eq!((word, count), (0, block_cases::places(&block).len()));
            counts.insert(count);
        }
    }
    assert_eq!(counts, (0..=101).collect());
}

/// A state at random is taken at the start of a block and within one, and refused.
#[test]
fn states_at_random_are_taken_and_refused() {
    let mut random = Random(1);
    let payloads = Payloads::new(&mut random, 40);
    let mut reached = BTreeSet::new();
    for _ in 0..2 * ROUNDS {
        let mut state = block_cases::state(&mut random);
        let begins = state.ends_with(&[0, 0]);
        let before = state.clone();
        let block = payloads.block(&mut random, 1);
        let word = (RUST.replay)(&mut state, 1, &block, &mut [0; 80]);
        assert!(word == 0 || state == before);
        reached.insert((before.len() == 7, begins, word));
    }
    let every = [
        (true, true, 0),
        (true, true, 5),
        (true, false, 0),
        (true, false, 5),
        (false, true, 5),
        (false, false, 5),
    ];
    assert_eq!(reached, BTreeSet::from(every));
}
