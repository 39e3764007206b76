//! The comparison: each run gives one kind of input to both sides, in full, or at random for so many rounds from a seed.
use crate::both::Both;
use crate::image::{KINDS, SCREEN};
use crate::popups::{self, Popup};
use crate::random::Random;
use crate::side::Side;
use crate::{cases, edit_cases, every, fields, image, question_runs, replay_runs};

/// No payload is longer than 60 bytes, no buffer here than this.
const LONGEST: usize = 70;

pub type Run = for<'a> fn(&'a Side, u64, u64) -> Both<'a>;

pub const ALL: [(&str, Run); 38] = [
    ("check, up to 2 bytes in full", short_checks),
    ("check, at random", random_checks),
    ("read, every id with up to 2 bytes of body", short_payloads),
    ("read, words, colours, flags, ACKs in full", set_payloads),
    ("read, popups of every length", popup_payloads),
    ("read, near every kind", random_payloads),
    ("write, words, colours, pit bytes in full", set_records),
    ("write, every kind into 0 to 70 bytes", buffers),
    ("write, every kind at random", random_records),
    ("read and written again, near every kind", again),
    ("edit, every field at its edges, every kind", set_edits),
    ("edit, every number of every range", whole_ranges),
    ("edit, popups and ACKs of every length", every_length),
    ("edit, near every kind, at random", random_edits),
    ("edits in a list, up to 20", edit_lists),
    ("text, at random", texts),
    ("ACK, at random", acks),
    ("popups of every length, fields, written", popups),
    ("popups, fields, at random", random_popups),
    ("types, every sub-command alone", types_sub_commands),
    ("types, read and written, near every kind", types_commands),
    ("types, texts and ACKs, at random", types_made),
    ("types, popups of every length, fields", types_popups),
    ("replay, blocks of every fill", replay_runs::fills),
    ("replay, block numbers at their edges", replay_runs::numbers),
    (
        "replay, one byte damaged at every place",
        replay_runs::damaged,
    ),
    ("replay, used counts, lengths, filler", replay_runs::layouts),
    ("replay, slices of every length", replay_runs::slices),
    ("replay, states of every kind", replay_runs::states),
    ("replay, logs at random", replay_runs::logs),
    (
        "questions, every state around its seconds",
        question_runs::states,
    ),
    ("questions, every timeout", question_runs::timeouts),
    (
        "questions, selections and every value",
        question_runs::selections,
    ),
    (
        "questions, one byte at every place",
        question_runs::one_byte,
    ),
    ("questions, slices of every length", question_runs::slices),
    ("questions, commands of every kind", question_runs::commands),
    ("questions, of any bytes", question_runs::any_questions),
    (
        "questions, call after call at random",
        question_runs::sequences,
    ),
];

pub(crate) fn run<'a>(side: &'a Side, work: impl FnOnce(&mut Both<'a>)) -> Both<'a> {
    let mut both = Both::new(side);
    work(&mut both);
    both
}

pub(crate) fn at_random<'a>(
    side: &'a Side,
    rounds: u64,
    seed: u64,
    mut work: impl FnMut(&mut Both<'a>, &mut Random),
) -> Both<'a> {
    run(side, |both| {
        let mut random = Random(seed);
        for _ in 0..rounds {
            work(both, &mut random);
        }
    })
}

/// Every message of up to two bytes, and every byte from every start.
pub fn short_checks(side: &Side, _: u64, _: u64) -> Both<'_> {
    run(side, |both| {
        both.check(&[], 0);
        for a in 0..=255 {
            for b in 0..=255 {
                both.check(&[a, b], 0);
                both.check(&[a], b);
            }
        }
    })
}

/// Messages of up to 64 bytes, whole and in two parts.
pub fn random_checks(side: &Side, rounds: u64, seed: u64) -> Both<'_> {
    at_random(side, rounds, seed, |both, random| {
        let len = random.below(65);
        let message = random.bytes(len);
        both.check(&message, 0);
        let (first, second) = message.split_at(random.below(len + 1));
        both.check_in_two(first, second);
    })
}

pub fn short_payloads(side: &Side, _: u64, _: u64) -> Both<'_> {
    run(side, |both| {
        every::short_payloads(|payload| both.read(payload))
    })
}

pub fn set_payloads(side: &Side, _: u64, _: u64) -> Both<'_> {
    run(side, |both| every::payloads(|payload| both.read(payload)))
}

/// Popups of every length, as payloads.
pub fn popup_payloads(side: &Side, _: u64, seed: u64) -> Both<'_> {
    run(side, |both| {
        popups::every(&mut Random(seed), |popup| {
            let body = [&[0x01], &popup.data()[..]].concat();
            both.read(&cases::payload(every::ADDRESSES, SCREEN, &body));
        })
    })
}

/// Of every kind, near it.
pub fn random_payloads(side: &Side, rounds: u64, seed: u64) -> Both<'_> {
    at_random(side, rounds, seed, |both, random| {
        let kind = random.chosen(&KINDS);
        both.read(&cases::near_payload(random, kind));
    })
}

pub fn set_records(side: &Side, _: u64, _: u64) -> Both<'_> {
    run(side, |both| {
        let mut room = 0;
        every::records(|record| {
            both.write(record, LONGEST);
            room = (room + 1) % 24;
            both.write(record, room);
        })
    })
}

/// Records of every kind, each into every length of buffer.
pub fn buffers(side: &Side, rounds: u64, seed: u64) -> Both<'_> {
    at_random(side, rounds / 2000, seed, |both, random| {
        for kind in KINDS {
            let record = cases::record(random, kind);
            for room in 0..=LONGEST {
                both.write(&record, room);
            }
        }
    })
}

pub fn random_records(side: &Side, rounds: u64, seed: u64) -> Both<'_> {
    at_random(side, rounds, seed, |both, random| {
        let kind = random.chosen(&KINDS);
        let record = cases::record(random, kind);
        both.write(&record, random.below(LONGEST + 1));
    })
}

/// Near every kind, into any length.
pub fn again(side: &Side, rounds: u64, seed: u64) -> Both<'_> {
    at_random(side, rounds, seed, |both, random| {
        let kind = random.chosen(&KINDS);
        let payload = cases::near_payload(random, kind);
        both.again(&payload, random.below(LONGEST + 1));
    })
}

/// Every field with every number around its range, and with any, on each payload.
pub fn set_edits(side: &Side, _: u64, seed: u64) -> Both<'_> {
    run(side, |both| {
        let mut any = Random(!seed);
        edit_cases::payloads(&mut Random(seed), |payload| {
            for field in edit_cases::fields() {
                for number in edit_cases::edges(field) {
                    both.edit(payload, field, number);
                }
                both.edit(payload, field, any.number() as u32);
            }
        })
    })
}

pub fn whole_ranges(side: &Side, _: u64, seed: u64) -> Both<'_> {
    run(side, |both| {
        edit_cases::whole_ranges(&mut Random(seed), |payload, field, number| {
            both.edit(payload, field, number)
        })
    })
}

pub fn every_length(side: &Side, _: u64, seed: u64) -> Both<'_> {
    run(side, |both| {
        edit_cases::every_length(&mut Random(seed), |payload, field, number| {
            both.edit(payload, field, number)
        })
    })
}

pub fn random_edits(side: &Side, rounds: u64, seed: u64) -> Both<'_> {
    at_random(side, rounds, seed, |both, random| {
        let payload = edit_cases::payload(random);
        let (field, number) = edit_cases::edit(random, edit_cases::id_of(&payload));
        both.edit(&payload, field, number);
    })
}

/// Short lists in full, then others at random.
pub fn edit_lists(side: &Side, rounds: u64, seed: u64) -> Both<'_> {
    run(side, |both| {
        edit_cases::short_lists(|payload, list, room| both.edit_list(payload, list, room));
        let mut random = Random(seed);
        for _ in 0..rounds / 4 {
            let payload = edit_cases::payload(&mut random);
            let (list, room) = edit_cases::list(&mut random, edit_cases::id_of(&payload));
            both.edit_list(&payload, &list, room);
        }
    })
}

pub fn texts(side: &Side, rounds: u64, seed: u64) -> Both<'_> {
    at_random(side, rounds / 4, seed, |both, random| {
        both.text(&cases::text_bytes(random))
    })
}

pub fn acks(side: &Side, rounds: u64, seed: u64) -> Both<'_> {
    at_random(side, rounds / 4, seed, |both, random| {
        let (ids, information) = cases::ack(random);
        both.ack(ids, &information);
    })
}

pub fn random_popups(side: &Side, rounds: u64, seed: u64) -> Both<'_> {
    at_random(side, rounds / 4, seed, |both, random| {
        both.popup(&cases::fields(random))
    })
}

/// Popups of every length whose texts can be made: constructed, inspected and, where they are made, written.
pub fn popups(side: &Side, _: u64, seed: u64) -> Both<'_> {
    run(side, |both| {
        popups::every(&mut Random(seed), |popup| {
            let Some(fields) = popup.fields() else {
                return;
            };
            both.popup(&fields::of(&fields));
            let data = popup.data();
            if image::popup(&data).is_some() {
                let record = image::with(SCREEN, 0x01, &[], &data);
                for room in data.len() + 4..data.len() + 7 {
                    both.write(&record, room);
                }
            }
        })
    })
}

pub fn types_sub_commands(side: &Side, _: u64, _: u64) -> Both<'_> {
    run(side, |both| {
        every::sub_commands(|payload| {
            both.types_read(payload);
            both.types_write(payload, None, LONGEST);
        })
    })
}

/// Near every kind: read, and written as it was read and with other numbers where writing judges them, into any length.
pub fn types_commands(side: &Side, rounds: u64, seed: u64) -> Both<'_> {
    at_random(side, rounds / 10, seed, |both, random| {
        let kind = random.chosen(&KINDS);
        let payload = cases::near_payload(random, kind);
        let judged = cases::judged(random);
        both.types_read(&payload);
        both.types_write(&payload, None, random.below(LONGEST + 1));
        both.types_write(&payload, Some(&judged), random.below(LONGEST + 1));
    })
}

pub fn types_made(side: &Side, rounds: u64, seed: u64) -> Both<'_> {
    at_random(side, rounds / 20, seed, |both, random| {
        both.types_text(&cases::text_bytes(random));
        let (ids, information) = cases::ack(random);
        both.types_ack(ids, &information);
    })
}

/// Those that are set out, then others at random.
pub fn types_popups(side: &Side, rounds: u64, seed: u64) -> Both<'_> {
    run(side, |both| {
        let mut random = Random(seed);
        popups::every(&mut random, |popup| both.types_popup(popup));
        for _ in 0..rounds / 20 {
            both.types_popup(&Popup::random(&mut random));
        }
    })
}
