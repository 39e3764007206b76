//! The runs of the questions reach what they are meant to: every answer there is, of every function, however a question stands.
use std::cell::RefCell;
use std::collections::BTreeSet;

use compare::question_cases::{forms, not_made, Call, Function, Kept};
use compare::question_image;
use compare::question_runs as runs;
use compare::runs::{Run, ALL};
use compare::side::{Questions, Side};
use compare::theirs::RUST;
use uf_crsf::packets::ScreenAdditionalData;

use Function::{Ask, Command, Return};
use Standing::{AtTimeout, Before, Beyond, Closed, InTime, Late, New};

const ROUNDS: u64 = 100_000;
const SEED: u64 = 1;

const OPENED: u32 = 0;
const PROCESSED: u32 = 1 << 8;
const CANCELLED: u32 = 2 << 8;
const EXPIRED: u32 = 3 << 8;

/// How a question stands at a second.
#[derive(Clone, Copy, Debug, PartialEq, Eq, PartialOrd, Ord)]
enum Standing {
    Beyond,
    New,
    Closed,
    /// Open, at a second before it was sent.
    Before,
    InTime,
    /// At exactly sent + timeout.
    AtTimeout,
    Late,
}

fn standing(question: &[u8], second: u32) -> Standing {
    let Some(of) = question_image::question(question) else {
        return Beyond;
    };
    let Some(kept) = Kept::of(question) else {
        return if of.last().is_some() { Closed } else { New };
    };
    match second.checked_sub(kept.sent) {
        None => Before,
        Some(ago) if ago < kept.timeout() => InTime,
        Some(ago) if ago == kept.timeout() => AtTimeout,
        Some(_) => Late,
    }
}

/// What a run reaches, by the Rust's answers.
#[derive(Default)]
struct Reached {
    answers: BTreeSet<(Function, Standing, u32)>,
    /// Timeouts, how the question stands, and whether the largest second is nearer than the timeout.
    timeouts: BTreeSet<(u32, Standing, bool)>,
    /// How max compares with min, how the value stands to both, the answer to a processed one.
    selections: BTreeSet<(std::cmp::Ordering, &'static str, u32)>,
    /// The form of the additional data, whether there are possible values, the answer to a processed one.
    forms: BTreeSet<(u8, bool, u32)>,
    /// Seconds 0 and the largest, with their answers.
    ends: BTreeSet<(u32, u32)>,
    /// Bytes of a question.
    lengths: BTreeSet<usize>,
}

thread_local! {
    static REACHED: RefCell<Reached> = RefCell::default();
}

fn form(data: &Option<ScreenAdditionalData>) -> u8 {
    match data {
        None => 0,
        Some(ScreenAdditionalData::Empty) => 1,
        Some(ScreenAdditionalData::Selection(_)) => 2,
    }
}

fn processed(reached: &mut Reached, kept: &Kept, value: u8, word: u32) {
    let fields = &kept.fields;
    let values = fields.possible_values.is_some();
    reached
        .forms
        .insert((form(&fields.additional_data), values, word));
    let Some((min, max)) = kept.range() else {
        return;
    };
    let places = [
        (min.checked_sub(1), "below min"),
        (Some(min), "min"),
        (Some(max), "max"),
        (max.checked_add(1), "above max"),
    ];
    for (place, name) in places {
        if place == Some(value) {
            reached.selections.insert((max.cmp(&min), name, word));
        }
    }
}

fn noted(question: &mut [u8], second: u32, call: &Call) -> u32 {
    let (stands, kept) = (standing(question, second), Kept::of(question));
    let len = question.len();
    let word = call.on(&RUST, question, second);
    REACHED.with_borrow_mut(|reached| {
        reached.answers.insert((call.function, stands, word));
        reached.lengths.insert(len);
        if [0, u32::MAX].contains(&second) {
            reached.ends.insert((second, word));
        }
        let Some(kept) = kept else {
            return;
        };
        let wraps = kept.sent.checked_add(kept.timeout()).is_none();
        reached.timeouts.insert((kept.timeout(), stands, wraps));
        if let (Return, [value, 1], PROCESSED | 30) = (call.function, &call.given[..], word) {
            processed(reached, &kept, *value, word);
        }
    });
    word
}

const NOTING: Side = Side {
    questions: Questions {
        ask: |question, second, popup| noted(question, second, &Call::ask(popup)),
        returned: |question, second, value, response| {
            noted(question, second, &Call::answer(value, response))
        },
        command: |question, second, record| noted(question, second, &Call::command(record)),
    },
    ..RUST
};

fn reached(run: Run) -> Reached {
    let both = run(&NOTING, ROUNDS, SEED);
    assert_eq!(both.first, None);
    REACHED.take()
}

/// Every answer that there is: a popup asks, a value is returned, a command does either.
fn every_answer() -> BTreeSet<(Function, Standing, u32)> {
    let asked: [(Standing, &[u32]); 7] = [
        (Beyond, &[5]),
        (New, &[5, OPENED]),
        (Closed, &[5, 27, OPENED]),
        (Before, &[5, 27]),
        (InTime, &[5, 27, 28]),
        (AtTimeout, &[5, 27, 28]),
        (Late, &[5, 27, OPENED]),
    ];
    let returned: [(Standing, &[u32]); 7] = [
        (Beyond, &[5]),
        (New, &[2, 29]),
        (Closed, &[2, 27, 29]),
        (Before, &[2, 27]),
        (InTime, &[2, 27, 30, PROCESSED, CANCELLED]),
        (AtTimeout, &[2, 27, 30, PROCESSED, CANCELLED]),
        (Late, &[2, 27, EXPIRED]),
    ];
    let mut every = BTreeSet::new();
    for (function, table) in [(Ask, asked), (Return, returned)] {
        for (standing, words) in table {
            for word in words {
                every.extend([(function, standing, *word), (Command, standing, *word)]);
            }
        }
    }
    every
}

#[test]
fn every_answer_is_given_however_a_question_stands() {
    for run in [runs::states, runs::sequences] {
        assert_eq!(reached(run).answers, every_answer());
    }
}

/// Questions of any bytes too; there none is left out, and none is added.
#[test]
fn no_run_gives_another_answer() {
    let mut every = BTreeSet::new();
    for (kind, run) in ALL {
        if kind.starts_with("questions") {
            every.append(&mut reached(run).answers);
        }
    }
    assert_eq!(every, every_answer());
}

#[test]
fn every_timeout_is_kept_and_ends_also_near_the_largest_second() {
    let reached = reached(runs::timeouts).timeouts;
    for timeout in 0..=255 {
        for standing in [Before, InTime, AtTimeout, Late] {
            // with no timeout a question is in time at its own second alone
            let ever = timeout > 0 || standing != InTime;
            assert_eq!(reached.contains(&(timeout, standing, false)), ever);
            // no second comes behind one that would be too large
            let wraps = timeout > 0 && [Before, InTime].contains(&standing);
            assert_eq!(reached.contains(&(timeout, standing, true)), wraps);
        }
    }
}

#[test]
fn values_stand_at_both_edges_of_every_selection() {
    use std::cmp::Ordering::{Equal, Greater, Less};
    let every = [
        (Greater, "below min", 30),
        (Greater, "min", PROCESSED),
        (Greater, "max", PROCESSED),
        (Greater, "above max", 30),
        (Equal, "below min", 30),
        (Equal, "min", PROCESSED),
        (Equal, "max", PROCESSED),
        (Equal, "above max", 30),
        // none lies between a higher min and a lower max
        (Less, "below min", 30),
        (Less, "min", 30),
        (Less, "max", 30),
        (Less, "above max", 30),
    ];
    for run in [runs::selections, runs::sequences] {
        assert_eq!(reached(run).selections, BTreeSet::from(every));
    }
}

#[test]
fn popups_of_every_form_are_answered() {
    let every = [
        (0, false, PROCESSED),
        (1, false, PROCESSED),
        (1, true, PROCESSED),
        (2, false, PROCESSED),
        (2, false, 30),
        (2, true, PROCESSED),
        (2, true, 30),
    ];
    for run in [runs::states, runs::sequences] {
        assert_eq!(reached(run).forms, BTreeSet::from(every));
    }
}

#[test]
fn the_first_and_the_last_second_have_their_answers() {
    let reached = reached(runs::states).ends;
    for word in [OPENED, PROCESSED, CANCELLED, 2, 5, 27, 28, 29, 30] {
        assert!(reached.contains(&(0, word)), "{word}");
    }
    // nothing is late at 0, and nothing too early at the end
    assert!(!reached.contains(&(0, EXPIRED)));
    for word in [OPENED, PROCESSED, CANCELLED, EXPIRED, 2, 5, 28, 29, 30] {
        assert!(reached.contains(&(u32::MAX, word)), "{word}");
    }
    assert!(!reached.contains(&(u32::MAX, 27)));
}

#[test]
fn questions_have_every_length() {
    assert_eq!(reached(runs::slices).lengths, (0..=80).collect());
    assert!(reached(runs::any_questions)
        .lengths
        .is_superset(&(0..=70).collect()));
}

#[test]
fn popups_are_made_or_not_as_they_say() {
    let inspected = |popup: &[u8]| (RUST.popup_fields)(popup, &mut [0; 268]);
    for (min, max) in [(10, 20), (0, 255), (9, 2)] {
        assert_eq!(forms(30, min, max).map(|popup| inspected(&popup)), [0; 6]);
    }
    let unmade: Vec<u32> = not_made().iter().map(|popup| inspected(popup)).collect();
    assert_eq!(unmade, [5; 38]);
}

#[test]
fn a_round_is_a_call() {
    assert_eq!(runs::sequences(&RUST, 1000, SEED).cases, 1000);
}
