//! The comparison tells a wrong side from a right one: each of these is the Rust itself but for one answer, and the run named with it
//! sees that.
mod checks;
mod editors;
mod makers;
mod questions;
mod readers;
mod replays;
mod types;
mod writers;

use std::hint::black_box;
use std::panic::catch_unwind;

use compare::both::Differs;
use compare::question_runs;
use compare::runs::{self, Run};
use compare::side::{Questions, Side};
use compare::theirs::RUST;

const ROUNDS: u64 = 50_000;
const SEED: u64 = 1;

/// Changes what is only given, as a function of C might, which has the address alone.
fn spoil(given: &[u8]) {
    if let Some(last) = given.last() {
        let address = black_box(last as *const u8 as usize);
        unsafe { (address as *mut u8).write_volatile(!*last) };
    }
}

fn passes(run: Run, right: &Side) {
    let both = run(right, ROUNDS, SEED);
    assert_eq!(both.first, None);
    assert!(both.cases > both.left_behind);
}

fn is_seen(what: &str, run: Run, wrong: &Side) {
    let wrong = Side {
        until_first: true,
        ..*wrong
    };
    let seen = catch_unwind(|| run(&wrong, ROUNDS, SEED).cases);
    assert!(seen.is_err_and(|why| why.is::<Differs>()), "{what}");
}

#[test]
fn the_right_side_passes() {
    for (_, run) in runs::ALL {
        passes(run, &RUST);
    }
}

#[test]
fn the_right_check_by_bit_passes() {
    let check = |bytes: &[u8], start| checks::by_bit(0xBA, start, bytes);
    let side = Side { check, ..RUST };
    passes(runs::short_checks, &side);
    passes(runs::random_checks, &side);
}

#[test]
fn a_wrong_check_is_seen() {
    for &(what, check) in checks::CHECKS {
        is_seen(what, runs::random_checks, &Side { check, ..RUST });
    }
}

#[test]
fn a_wrong_reader_is_seen() {
    for &(what, run, read) in readers::READERS {
        is_seen(what, run, &Side { read, ..RUST });
    }
}

#[test]
fn a_wrong_writer_is_seen() {
    for &(what, run, write) in writers::WRITERS {
        is_seen(what, run, &Side { write, ..RUST });
    }
}

#[test]
fn a_wrong_constructor_or_inspection_is_seen() {
    for (what, run, wrong) in makers::MAKERS {
        is_seen(what, *run, wrong);
    }
}

#[test]
fn a_wrong_edit_is_seen() {
    for &(what, run, edit) in editors::EDITORS {
        is_seen(what, run, &Side { edit, ..RUST });
    }
}

#[test]
fn a_wrong_list_of_edits_is_seen() {
    for &(what, edit_list) in editors::LISTS {
        is_seen(what, runs::edit_lists, &Side { edit_list, ..RUST });
    }
}

#[test]
fn a_wrong_type_is_seen() {
    for &(what, run, types) in types::TYPES {
        is_seen(what, run, &Side { types, ..RUST });
    }
}

#[test]
fn a_wrong_replay_is_seen() {
    for &(what, run, replay) in replays::REPLAYS {
        is_seen(what, run, &Side { replay, ..RUST });
    }
}

#[test]
fn a_wrong_question_is_seen() {
    let side = Side {
        questions: questions::QUESTIONS,
        ..RUST
    };
    for &(what, run, wrong) in questions::WRONG {
        questions::stand(wrong);
        is_seen(what, run, &side);
    }
}

#[test]
fn a_changed_popup_or_record_is_seen() {
    let right = RUST.questions;
    let ask = |question: &mut [u8], second, popup: &[u8]| {
        let word = (RUST.questions.ask)(question, second, popup);
        spoil(popup);
        word
    };
    let command = |question: &mut [u8], second, record: &[u8]| {
        let word = (RUST.questions.command)(question, second, record);
        spoil(record);
        word
    };
    for questions in [Questions { ask, ..right }, Questions { command, ..right }] {
        is_seen("spoilt", question_runs::states, &Side { questions, ..RUST });
    }
}
