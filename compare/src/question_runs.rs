//! The runs of the questions: questions, seconds and calls given to both sides.
use crate::both::Both;
use crate::cases;
use crate::image::{self, KINDS};
use crate::question_cases::{
    around, call, calls, closed, forms, not_made, open, popup_record, popups, question,
    value_record, with_selection, without_selection, Call, SECONDS, TIMEOUTS,
};
use crate::question_image::{Image, SIZE};
use crate::random::Random;
use crate::runs::run;
use crate::side::Side;

/// More bytes than a question, a popup and a record have.
const LONGEST: usize = 80;

/// The same question for every call.
fn each(both: &mut Both, question: &[u8], second: u32, calls: &[Call]) {
    for call in calls {
        both.question(&mut question.to_vec(), second, call);
    }
}

/// A new question, a closed one and an open one of each form, their seconds at every edge; calls of every kind at seconds around each
/// of theirs.
pub fn states(side: &Side, _: u64, _: u64) -> Both<'_> {
    run(side, |both| {
        let all = calls(10, 20);
        for last in SECONDS {
            for second in around(last, last, 0) {
                each(both, &[0; SIZE], second, &all);
                each(both, &closed(last), second, &all);
            }
        }
        // the forms by turns
        for (turn, timeout) in TIMEOUTS.into_iter().enumerate() {
            let popups = forms(timeout, 10, 20);
            for sent in SECONDS {
                // the last is a second before it was sent: beyond the limits
                for (more, later) in [0, 1, u32::from(timeout), 300, u32::MAX]
                    .into_iter()
                    .enumerate()
                {
                    let last = sent.wrapping_add(later);
                    let kept = open(sent, last, &popups[(turn + more) % popups.len()]);
                    for second in around(sent, last, timeout) {
                        each(both, &kept, second, &all);
                    }
                }
            }
        }
    })
}

/// Every timeout, from seconds that are far from the largest one, just reach it and are beyond it with the timeout added.
pub fn timeouts(side: &Side, _: u64, _: u64) -> Both<'_> {
    run(side, |both| {
        let popup = Call::ask(&without_selection(1));
        let all = [popup, Call::answer(0, 0), Call::answer(0, 1)];
        for timeout in 0..=255 {
            let reaches = u32::MAX - u32::from(timeout);
            for sent in [0, 1, 1000, reaches - 1, reaches, reaches.wrapping_add(1)] {
                // the forms by turns
                let popups = forms(timeout, 0, 0);
                let popup = popups[usize::from(timeout) % popups.len()];
                for second in around(sent, sent, timeout) {
                    let mut kept = [0; SIZE];
                    both.question(&mut kept, sent, &Call::ask(&popup));
                    each(both, &kept, second, &all);
                }
            }
        }
    })
}

/// Selections at the edges of a byte, min above max too: every value, processed and cancelled, in time and late.
pub fn selections(side: &Side, _: u64, _: u64) -> Both<'_> {
    const EDGES: [u8; 10] = [0, 1, 2, 9, 10, 11, 127, 128, 254, 255];
    run(side, |both| {
        for min in EDGES {
            for max in EDGES {
                let kept = open(100, 100, &with_selection(5, min, max));
                for value in 0..=255 {
                    let answers = [Call::answer(value, 1), Call::answer(value, 0)];
                    each(both, &kept, 105, &answers);
                    both.question(&mut kept.clone(), 106, &answers[0]);
                }
            }
        }
    })
}

/// Questions that are within their limits, of every standing and form.
fn kept() -> Vec<Image> {
    let mut kept = vec![[0; SIZE], closed(7), closed(u32::MAX)];
    kept.extend(forms(3, 10, 20).map(|popup| open(7, 7, &popup)));
    kept.push(open(6, 7, &without_selection(255)));
    kept
}

/// Questions, popups and records of which one byte is another one, at each place.
pub fn one_byte(side: &Side, _: u64, seed: u64) -> Both<'_> {
    run(side, |both| {
        let mut random = Random(seed);
        let all = calls(10, 20);
        for kept in kept() {
            for place in 0..SIZE {
                for byte in 0..=255 {
                    let mut other = kept;
                    other[place] = byte;
                    let one = random.below(all.len());
                    both.question(&mut other, 10, &all[one]);
                }
            }
        }
        let popups = forms(9, 10, 20);
        let records = popups.map(|popup| popup_record(&popup));
        let values = [value_record(10, 1), value_record(9, 0)];
        let given = popups.into_iter().map(|popup| Call::ask(&popup));
        let commands = records.into_iter().chain(values);
        for whole in given.chain(commands.map(|record| Call::command(&record))) {
            for place in 0..whole.given.len() {
                for byte in 0..=255 {
                    let mut other = whole.clone();
                    other.given[place] = byte;
                    let mut kept = random.chosen(&[closed(7), open(7, 7, &popups[4])]);
                    both.question(&mut kept, random.below(20) as u32, &other);
                }
            }
        }
    })
}

/// Slices of every length: questions, popups and records, cut or with zeros behind them.
pub fn slices(side: &Side, _: u64, _: u64) -> Both<'_> {
    run(side, |both| {
        let all = calls(10, 20);
        for len in 0..=LONGEST {
            for kept in kept() {
                let mut other = kept.to_vec();
                other.resize(len, 0);
                each(both, &other, 10, &all);
                for mut call in all.iter().filter(|call| call.given.len() > 2).cloned() {
                    call.given.resize(len, 0);
                    both.question(&mut kept.clone(), 10, &call);
                }
            }
        }
    })
}

/// Commands of every kind and popups that are not made, on questions of every standing.
pub fn commands(side: &Side, _: u64, seed: u64) -> Both<'_> {
    run(side, |both| {
        let mut random = Random(seed);
        let mut all: Vec<Call> = Vec::new();
        for kind in KINDS {
            let record = cases::record(&mut random, kind);
            let mut littered = record;
            littered[image::STORED_LEN..].fill_with(|| random.byte());
            all.extend([record, littered].map(|record| Call::command(&record)));
        }
        for popup in not_made() {
            all.push(Call::ask(&popup));
            all.push(Call::command(&popup_record(&popup)));
        }
        for kept in kept() {
            for second in around(7, 7, 3) {
                each(both, &kept, second, &all);
            }
        }
    })
}

/// Call after call on a question, now and then on a new one or on one that was kept by someone else.
pub fn sequences(side: &Side, rounds: u64, seed: u64) -> Both<'_> {
    run(side, |both| {
        let mut random = Random(seed);
        let popups = popups(&mut random);
        let mut kept = vec![0; SIZE];
        for _ in 0..rounds {
            match random.below(24) {
                0 => kept = vec![0; SIZE],
                1..=3 => kept = question(&mut random, &popups),
                _ => {}
            }
            let (second, call) = call(&mut random, &kept, &popups);
            both.question(&mut kept, second, &call);
        }
    })
}

/// Questions of any bytes, or near those that are kept, each with one call.
pub fn any_questions(side: &Side, rounds: u64, seed: u64) -> Both<'_> {
    run(side, |both| {
        let mut random = Random(seed);
        let popups = popups(&mut random);
        for _ in 0..rounds / 4 {
            let mut kept = question(&mut random, &popups);
            let (second, call) = call(&mut random, &kept, &popups);
            both.question(&mut kept, second, &call);
        }
    })
}
