//! make_vectors [--check]: writes the Rust's answers to crates/vectors/stdin, or says whether they are what stands there.
use std::collections::BTreeSet;
use std::process::ExitCode;

use compare::cases::{self, payload};
use compare::every::ADDRESSES;
use compare::image::{self, FAMILIES, KINDS};
use compare::question_cases::{
    self, closed, open, popup_record, value_record, with_selection, without_selection, Call,
};
use compare::question_image;
use compare::random::Random;
use compare::records::{self, Records};
use compare::theirs::RUST;
use compare::{edit_cases, edits, fields, stored};

const SEED: u64 = 0x0132;

/// Of each length 0 to 60: zeros, ones, a count, a last 1 alone, and four at random.
fn checks(list: &mut Records, random: &mut Random) {
    for len in 0..=60 {
        let mut last_one = vec![0; len];
        if let Some(last) = last_one.last_mut() {
            *last = 1;
        }
        let mut messages = vec![
            vec![0; len],
            vec![0xFF; len],
            (0..len as u8).collect(),
            last_one,
        ];
        messages.extend((0..4).map(|_| random.bytes(len)));
        for message in messages {
            list.check(&message);
        }
    }
}

/// Of each length 1 to 60 two payloads at random, with any last byte: the check that the Rust's reader would want there.
fn payload_checks(list: &mut Records, random: &mut Random) {
    for len in 1..=60 {
        for _ in 0..2 {
            list.payload_check(&random.bytes(len));
        }
    }
}

/// Every id with an empty body, each family with every body of one byte, the payloads that document 01 marks, every start of some
/// payloads with the check that belongs there, others at random.
fn reading(list: &mut Records, random: &mut Random) {
    for id in 0..=255 {
        list.read(&payload(ADDRESSES, id, &[]));
    }
    for family in FAMILIES {
        for sub in 0..=255 {
            list.read(&payload(ADDRESSES, family, &[sub]));
        }
    }
    let marked: [(u8, &[u8]); 5] = [
        (0x01, &[0x01, 0x00]),
        (0x08, &[0x02, 0x16, 0xA8]),
        (0x08, &[0x04, 0xFF]),
        (0x09, &[0x02, 0xB3, 0xE4, 0x64]),
        (0x09, &[0x02, 0xB4, 0x00, 0x00]),
    ];
    for (id, body) in marked {
        list.read(&payload(ADDRESSES, id, body));
    }
    for kind in KINDS {
        for _ in 0..2 {
            let whole = cases::near_payload(random, kind);
            for len in 0..whole.len() {
                let start = &whole[..len];
                match start {
                    [destination, source, id, body @ ..] => {
                        list.read(&payload([*destination, *source], *id, body))
                    }
                    _ => list.read(start),
                }
            }
        }
        for _ in 0..20 {
            list.read(&cases::near_payload(random, kind));
        }
    }
}

/// Of every kind a record into 0 to 20 bytes, and others into any length.
fn writing(list: &mut Records, random: &mut Random) {
    for kind in KINDS {
        let record = cases::record(random, kind);
        for room in 0..=20 {
            list.write(&record, room);
        }
        for _ in 0..20 {
            list.write(&cases::record(random, kind), random.below(71));
        }
    }
}

fn making(list: &mut Records, random: &mut Random) {
    for _ in 0..100 {
        list.text(&cases::text_bytes(random));
        let (ids, information) = cases::ack(random);
        list.ack(ids, &information);
        list.popup(&cases::fields(random));
    }
}

/// A payload of a kind, as written, whose command has this field; none where the kind does not have it.
fn having(random: &mut Random, kind: (u8, u8, usize), field: u32) -> Option<Vec<u8>> {
    let (least, _) = edits::range(field)?;
    let mut some = (0..20).map(|_| edit_cases::as_written(random, kind));
    some.find(|payload| (RUST.edit)(&mut payload.clone(), field, least) == 0)
}

/// Every field on a command that has none but the addresses. Every field of every kind at the edges of its range and beyond them, and of
/// the family's others one number; near a payload of every kind some edit; a list for every kind, and lists whose length or number of
/// answers is not right.
fn editing(list: &mut Records, random: &mut Random) {
    for (field, least, _) in edits::FIELDS {
        list.edit(&payload(ADDRESSES, 0x01, &[0x01]), field, least);
    }
    for kind in KINDS {
        for field in edit_cases::of_family(kind.0) {
            let (least, greatest) = edits::range(*field).expect("a field");
            let Some(payload) = having(random, kind, *field) else {
                let other = edit_cases::as_written(random, kind);
                list.edit(&other, *field, least);
                continue;
            };
            let beyond = [least.wrapping_sub(1), greatest.wrapping_add(1)];
            for number in [least, greatest, beyond[0], beyond[1]] {
                list.edit(&payload, *field, number);
            }
        }
        for payload in edit_cases::near(&edit_cases::as_written(random, kind)) {
            let (field, number) = edit_cases::edit(random, kind.0);
            if payload.len() <= 64 {
                list.edit(&payload, field, number);
            }
        }
        let payload = edit_cases::as_written(random, kind);
        let (edits, room) = edit_cases::list(random, kind.0);
        list.edit_list(&payload, &edits, room);
    }
    edit_cases::short_lists(|payload, edits, room| {
        if edits.len() % 8 < 2 && room.abs_diff(edits.len() / 8) < 2 {
            list.edit_list(payload, edits, room);
        }
    });
}

/// Every answer, worked out call after call.
fn conversations(list: &mut Records) {
    const END: u32 = u32::MAX;
    let new = [0; question_image::SIZE];
    let (plain, selection) = (without_selection(5), with_selection(5, 10, 20));
    let kept = open(100, 100, &selection);
    let asks = || Call::ask(&plain);
    let selects = || Call::ask(&selection);
    let answer = Call::answer;
    let sends = |popup| Call::command(&popup_record(popup));
    let value = |value, response| Call::command(&value_record(value, response));
    let disarm = || Call::command(&image::with(image::FC, 0x01, &[], &[]));
    let mut words = BTreeSet::new();
    let mut on = |question: &[u8], calls: &[(u32, Call)]| {
        words.extend(list.questions(question, calls));
    };

    // in time and once, at its own second, at the timeout and one later
    let calls = [
        (100, asks()),
        (103, answer(7, 1)),
        (103, answer(7, 1)),
        (102, answer(7, 1)),
        (102, asks()),
    ];
    on(&new, &calls);
    on(
        &new,
        &[(0, answer(9, 0)), (0, selects()), (0, answer(9, 0))],
    );
    on(&new, &[(100, asks()), (105, asks()), (105, answer(255, 1))]);
    on(
        &new,
        &[
            (100, asks()),
            (106, answer(0, 1)),
            (106, answer(0, 1)),
            (105, asks()),
        ],
    );
    on(
        &new,
        &[(100, asks()), (106, selects()), (111, answer(20, 1))],
    );

    // both edges of a selection, in time and late
    on(
        &kept,
        &[
            (101, answer(9, 1)),
            (101, answer(21, 1)),
            (99, answer(9, 1)),
            (105, answer(10, 1)),
        ],
    );
    on(&kept, &[(100, answer(20, 1))]);
    on(&kept, &[(106, answer(21, 1)), (106, selects())]);

    // at the largest second, where a sum would be 253
    let waits = Call::ask(&without_selection(255));
    on(
        &new,
        &[
            (END - 1, waits),
            (END, asks()),
            (253, answer(0, 1)),
            (END, answer(0, 1)),
        ],
    );
    on(
        &closed(END),
        &[(END - 1, asks()), (END, asks()), (0, answer(0, 1))],
    );

    // what comes before the clock, and what behind it
    let calls = [
        (99, answer(0, 2)),
        (99, Call::ask(&[0; fields::POPUP_SIZE])),
        (99, disarm()),
        (99, asks()),
        (101, asks()),
    ];
    on(&kept, &calls);

    // by commands
    let calls = [
        (7, sends(&selection)),
        (8, value(21, 1)),
        (8, value(21, 0)),
        (8, value(21, 0)),
        (8, disarm()),
    ];
    on(&new, &calls);
    let calls = [
        (7, sends(&plain)),
        (8, sends(&plain)),
        (6, value(0, 1)),
        (13, value(0, 2)),
        (13, value(0, 1)),
    ];
    on(&new, &calls);
    on(
        &kept,
        &[(105, value(20, 1)), (105, sends(&[0; fields::POPUP_SIZE]))],
    );

    // beyond their limits, and of another length
    let later = open(101, 100, &plain);
    on(
        &later,
        &[(101, asks()), (101, answer(0, 2)), (101, disarm())],
    );
    on(&new[1..], &[(0, asks()), (0, answer(0, 0))]);
    on(&[&kept[..], &[0]].concat(), &[(100, answer(10, 1))]);
    on(&[], &[(0, asks())]);

    let every = [0, 0x100, 0x200, 0x300, 2, 5, 27, 28, 29, 30];
    assert_eq!(words, BTreeSet::from(every));
}

/// Those that are set out, then call after call at random, on new questions and on kept ones.
fn asking(list: &mut Records, random: &mut Random) {
    conversations(list);
    let popups = question_cases::all_forms(&[(10, 20), (0, 255), (5, 5)]);
    for turn in 0..24 {
        let question = match turn % 2 {
            0 => vec![0; question_image::SIZE],
            _ => question_cases::question(random, &popups),
        };
        let mut kept = question.clone();
        // as many as a record has room for
        let calls: [(u32, Call); 5] = std::array::from_fn(|_| {
            let (second, call) = question_cases::call(random, &kept, &popups);
            call.on(&RUST, &mut kept, second);
            (second, call)
        });
        list.questions(&question, &calls);
    }
}

fn main() -> ExitCode {
    let mut list = Records::default();
    let mut random = Random(SEED);
    checks(&mut list, &mut random);
    payload_checks(&mut list, &mut random);
    reading(&mut list, &mut random);
    writing(&mut list, &mut random);
    making(&mut list, &mut random);
    editing(&mut list, &mut random);
    asking(&mut list, &mut random);
    let counts: Vec<String> = (1..records::KINDS.len())
        .map(|kind| format!("{} of {}", list.count[kind], records::KINDS[kind]))
        .collect();
    println!("stored answers: {}", counts.join(", "));
    stored::keep(&[("crates/vectors/stdin", &list.bytes)])
}
