//! Wrong in the questions. Each stands behind all three functions.
use std::cell::Cell;

use compare::image::{SCREEN, STORED, STORED_LEN};
use compare::question_cases::{without_selection, Call, Function, Kept};
use compare::question_image::{self, LAST, OPEN, POPUP, SENT, SIZE, STARTED};
use compare::question_runs as runs;
use compare::runs::Run;
use compare::side::{number, Questions};
use compare::theirs::RUST;
use uf_crsf::packets::ScreenAdditionalData;

/// Question, second, call.
pub type Wrong = fn(&mut [u8], u32, &Call) -> u32;

const PROCESSED: u32 = 1 << 8;
const CANCELLED: u32 = 2 << 8;
const EXPIRED: u32 = 3 << 8;

thread_local! {
    static STANDING: Cell<Wrong> = const { Cell::new(right) };
}

/// What a call does that is given to the side below: this, from now on.
pub fn stand(wrong: Wrong) {
    STANDING.set(wrong);
}

pub const QUESTIONS: Questions = Questions {
    ask: |question, second, popup| STANDING.get()(question, second, &Call::ask(popup)),
    returned: |question, second, value, response| {
        STANDING.get()(question, second, &Call::answer(value, response))
    },
    command: |question, second, record| STANDING.get()(question, second, &Call::command(record)),
};

fn right(question: &mut [u8], second: u32, call: &Call) -> u32 {
    call.on(&RUST, question, second)
}

/// Within its limits.
fn sound(question: &[u8]) -> bool {
    question_image::question(question).is_some()
}

fn number_at(question: &[u8], place: usize) -> u32 {
    let bytes = std::array::from_fn(|i| question[place + i]);
    u32::from_be_bytes(bytes)
}

fn put(question: &mut [u8], place: usize, second: u32) {
    question[place..place + 4].copy_from_slice(&second.to_be_bytes());
}

/// One that is open, and a second that its clock takes.
fn clocked(question: &[u8], second: u32) -> Option<Kept> {
    Kept::of(question).filter(|kept| kept.last <= second)
}

/// Value and response of a call that returns one.
fn answer(call: &Call) -> Option<(u8, u8)> {
    match call.function {
        Function::Ask => None,
        Function::Return => Some((call.given[0], call.given[1])),
        Function::Command => match call.given[..] {
            [_, _, SCREEN, 0x02, value, response, ..] => Some((value, response)),
            _ => None,
        },
    }
}

/// A call with a popup, whatever its image is worth.
fn asks(call: &Call) -> bool {
    call.function == Function::Ask || call.given.get(2..4) == Some(&[SCREEN, 0x01])
}

/// The Rust's answer to another question; where that is a refusal, this one stays.
fn from(question: &mut [u8], second: u32, call: &Call, change: impl FnOnce(&mut Vec<u8>)) -> u32 {
    let mut other = question.to_vec();
    change(&mut other);
    let word = right(&mut other, second, call);
    if number(word) == 0 {
        let len = other.len().min(question.len());
        question[..len].copy_from_slice(&other[..len]);
    }
    word
}

/// The Rust's answer if it had expired.
fn expired(question: &mut [u8], second: u32, call: &Call) -> u32 {
    from(question, second, call, |question| put(question, SENT, 0))
}

/// The Rust's answer if it were in time.
fn in_time(question: &mut [u8], second: u32, call: &Call) -> u32 {
    from(question, second, call, |question| {
        put(question, SENT, second);
        put(question, LAST, second);
    })
}

/// The Rust's answer where this says so, else another one, and then no change.
fn but(
    question: &mut [u8],
    second: u32,
    call: &Call,
    wrong: impl FnOnce(u32, &[u8]) -> Option<u32>,
) -> u32 {
    let before = question.to_vec();
    let word = right(question, second, call);
    match wrong(word, &before) {
        Some(other) => {
            question.copy_from_slice(&before);
            other
        }
        None => word,
    }
}

/// The Rust's answer, and where it is one of these, a change of the question; what it was before is given.
fn then(
    question: &mut [u8],
    second: u32,
    call: &Call,
    words: &[u32],
    change: impl FnOnce(&mut [u8], &[u8]),
) -> u32 {
    let before = question.to_vec();
    let word = right(question, second, call);
    if words.contains(&word) && sound(&before) {
        change(question, &before);
    }
    word
}

/// The clock is moved by a call that is answered so.
fn moved(question: &mut [u8], second: u32, call: &Call, refusal: u32) -> u32 {
    then(question, second, call, &[refusal], |question, _| {
        question[STARTED] = 1;
        put(question, LAST, second);
    })
}

/// One number in place of another, where the question is within its limits and what is asked of it and of the call holds.
fn before(
    question: &mut [u8],
    second: u32,
    call: &Call,
    [right, wrong]: [u32; 2],
    holds: impl FnOnce(&[u8]) -> bool,
) -> u32 {
    but(question, second, call, |word, question| {
        (word == right && sound(question) && holds(question)).then_some(wrong)
    })
}

fn late(question: &[u8], second: u32) -> bool {
    clocked(question, second).is_some_and(|kept| second - kept.sent > kept.timeout())
}

/// A value outside the selection of an open question, processed.
fn outside(question: &[u8], call: &Call) -> bool {
    match (Kept::of(question), answer(call)) {
        (Some(kept), Some((value, 1))) => kept
            .range()
            .is_some_and(|(min, max)| value < min || max < value),
        _ => false,
    }
}

/// A processed value in time that this holds of, by the question and the value, is refused.
fn refuses(
    question: &mut [u8],
    second: u32,
    call: &Call,
    holds: impl FnOnce(Kept, u8) -> bool,
) -> u32 {
    but(question, second, call, |word, question| {
        let (value, _) = answer(call)?;
        (word == PROCESSED && holds(Kept::of(question)?, value)).then_some(30)
    })
}

/// A value that is refused is taken where this holds of min, max and the value.
fn takes(
    question: &mut [u8],
    second: u32,
    call: &Call,
    holds: impl FnOnce(u8, u8, u8) -> bool,
) -> u32 {
    let range = Kept::of(question).and_then(|kept| kept.range());
    let taken = match (range, answer(call)) {
        (Some((min, max)), Some((value, _))) => holds(min, max, value),
        _ => false,
    };
    match right(question, second, call) {
        30 if taken => from(question, second, call, |question| {
            question[POPUP..].copy_from_slice(&without_selection(255))
        }),
        word => word,
    }
}

/// The Rust's answer to a question that is changed where it is as long as one.
fn taken_for(
    question: &mut [u8],
    second: u32,
    call: &Call,
    change: impl FnOnce(&mut Vec<u8>),
) -> u32 {
    from(question, second, call, |question| {
        if question.len() == SIZE {
            change(question);
        }
    })
}

pub const WRONG: &[(&str, Run, Wrong)] = &[
    (
        "expired at sent + timeout already",
        runs::timeouts,
        |question, second, call| match clocked(question, second) {
            Some(kept) if second - kept.sent == kept.timeout() && second > 255 => {
                expired(question, second, call)
            }
            _ => right(question, second, call),
        },
    ),
    (
        "in time a second longer",
        runs::timeouts,
        |question, second, call| match clocked(question, second) {
            Some(kept) if second - kept.sent == kept.timeout() + 1 => {
                in_time(question, second, call)
            }
            _ => right(question, second, call),
        },
    ),
    (
        "sent + timeout wrapped around",
        runs::timeouts,
        |question, second, call| match clocked(question, second) {
            Some(kept) if second > kept.sent.wrapping_add(kept.timeout()) => {
                expired(question, second, call)
            }
            _ => right(question, second, call),
        },
    ),
    (
        "sent + timeout wrapped around, of the longest timeout alone",
        runs::sequences,
        |question, second, call| match clocked(question, second) {
            Some(kept) if kept.timeout() == 255 && second > kept.sent.wrapping_add(255) => {
                expired(question, second, call)
            }
            _ => right(question, second, call),
        },
    ),
    (
        "a signed timeout",
        runs::states,
        |question, second, call| match clocked(question, second) {
            Some(kept) if kept.timeout() > 127 && second > 255 => expired(question, second, call),
            _ => right(question, second, call),
        },
    ),
    (
        "how long ago in one byte",
        runs::states,
        |question, second, call| match clocked(question, second) {
            Some(kept) if (second - kept.sent) % 256 <= kept.timeout() => {
                in_time(question, second, call)
            }
            _ => right(question, second, call),
        },
    ),
    (
        "how long after the last accepted second",
        runs::states,
        |question, second, call| match clocked(question, second) {
            Some(kept) if second - kept.last <= kept.timeout() => in_time(question, second, call),
            _ => right(question, second, call),
        },
    ),
    (
        "seconds of three bytes",
        runs::states,
        |question, second, call| right(question, second & 0x00FF_FFFF, call),
    ),
    (
        "a cancelled value judged",
        runs::selections,
        |question, second, call| {
            but(question, second, call, |word, question| {
                let (value, _) = answer(call)?;
                let processed = Call::answer(value, 1);
                (word == CANCELLED && outside(question, &processed)).then_some(30)
            })
        },
    ),
    (
        "a late value judged",
        runs::selections,
        |question, second, call| {
            but(question, second, call, |word, question| {
                (word == EXPIRED && outside(question, call)).then_some(30)
            })
        },
    ),
    (
        "the clock moved by 28",
        runs::states,
        |question, second, call| moved(question, second, call, 28),
    ),
    (
        "the clock moved by 29",
        runs::sequences,
        |question, second, call| moved(question, second, call, 29),
    ),
    (
        "the clock moved by 30",
        runs::selections,
        |question, second, call| moved(question, second, call, 30),
    ),
    (
        "the clock moved by a popup not made",
        runs::commands,
        |question, second, call| moved(question, second, call, 5),
    ),
    (
        "the clock moved by another command or response",
        runs::commands,
        |question, second, call| moved(question, second, call, 2),
    ),
    (
        "the clock set back by 27",
        runs::sequences,
        |question, second, call| {
            then(question, second, call, &[27], |question, _| {
                put(question, LAST, second);
            })
        },
    ),
    ("28 before 27", runs::states, |question, second, call| {
        before(question, second, call, [27, 28], |question| {
            question[OPEN] == 1 && asks(call)
        })
    }),
    ("29 before 27", runs::states, |question, second, call| {
        before(question, second, call, [27, 29], |question| {
            question[OPEN] == 0 && answer(call).is_some()
        })
    }),
    ("30 before 27", runs::states, |question, second, call| {
        before(question, second, call, [27, 30], |question| {
            outside(question, call)
        })
    }),
    (
        "27 before a popup not made",
        runs::commands,
        |question, second, call| {
            before(question, second, call, [5, 27], |question| {
                second < number_at(question, LAST)
            })
        },
    ),
    (
        "28 before a popup not made",
        runs::commands,
        |question, second, call| {
            before(question, second, call, [5, 28], |question| {
                question[OPEN] == 1 && !late(question, second) && asks(call)
            })
        },
    ),
    ("27 before 2", runs::commands, |question, second, call| {
        before(question, second, call, [2, 27], |question| {
            second < number_at(question, LAST)
        })
    }),
    ("29 before 2", runs::states, |question, second, call| {
        before(question, second, call, [2, 29], |question| {
            question[OPEN] == 0 && call.function == Function::Return
        })
    }),
    (
        "2 before the question's limits",
        runs::any_questions,
        |question, second, call| match (right(question, second, call), answer(call)) {
            (5, Some((_, 2..=255))) if call.function == Function::Return => 2,
            (word, _) => word,
        },
    ),
    (
        "another command before the question's limits",
        runs::any_questions,
        |question, second, call| {
            let on_new = right(&mut [0; SIZE], second, call);
            match right(question, second, call) {
                5 if on_new == 2 => 2,
                word => word,
            }
        },
    ),
    (
        "an image of no record is another command",
        runs::states,
        |question, second, call| {
            before(question, second, call, [5, 2], |_| {
                call.function == Function::Command && !asks(call)
            })
        },
    ),
    (
        "a popup command not made is another command",
        runs::commands,
        |question, second, call| {
            before(question, second, call, [5, 2], |_| {
                call.function == Function::Command && asks(call)
            })
        },
    ),
    (
        "a late return refused",
        runs::timeouts,
        |question, second, call| {
            but(question, second, call, |word, _| {
                (word == EXPIRED).then_some(29)
            })
        },
    ),
    (
        "a late return closes as cancelled",
        runs::timeouts,
        |question, second, call| match right(question, second, call) {
            EXPIRED => CANCELLED,
            word => word,
        },
    ),
    (
        "a late return closes as what it says",
        runs::selections,
        |question, second, call| match (right(question, second, call), answer(call)) {
            (EXPIRED, Some((_, 1))) => PROCESSED,
            (word, _) => word,
        },
    ),
    (
        "left open after a late return",
        runs::sequences,
        |question, second, call| {
            then(question, second, call, &[EXPIRED], |question, before| {
                question.copy_from_slice(before);
                put(question, LAST, second);
            })
        },
    ),
    (
        "left open after a return",
        runs::sequences,
        |question, second, call| {
            let closed = [PROCESSED, CANCELLED];
            then(question, second, call, &closed, |question, before| {
                question.copy_from_slice(before);
                put(question, LAST, second);
            })
        },
    ),
    (
        "left open after a cancelled one",
        runs::selections,
        |question, second, call| {
            then(question, second, call, &[CANCELLED], |question, _| {
                question[OPEN] = 1;
            })
        },
    ),
    (
        "a second return is expired",
        runs::sequences,
        |question, second, call| match right(question, second, call) {
            29 => EXPIRED,
            word => word,
        },
    ),
    (
        "a return without a question processed",
        runs::states,
        |question, second, call| match right(question, second, call) {
            29 => {
                question[STARTED] = 1;
                put(question, LAST, second);
                PROCESSED
            }
            word => word,
        },
    ),
    (
        "min not taken",
        runs::selections,
        |question, second, call| {
            refuses(question, second, call, |kept, value| {
                kept.range().is_some_and(|(min, _)| value == min)
            })
        },
    ),
    (
        "max not taken",
        runs::selections,
        |question, second, call| {
            refuses(question, second, call, |kept, value| {
                kept.range().is_some_and(|(_, max)| value == max)
            })
        },
    ),
    (
        "min not looked at",
        runs::selections,
        |question, second, call| takes(question, second, call, |_, max, value| value <= max),
    ),
    (
        "max not looked at",
        runs::selections,
        |question, second, call| takes(question, second, call, |min, _, value| value >= min),
    ),
    (
        "min and max exchanged where min is above max",
        runs::selections,
        |question, second, call| {
            takes(question, second, call, |min, max, value| {
                (max..=min).contains(&value)
            })
        },
    ),
    (
        "a selection up to 255 takes every value",
        runs::selections,
        |question, second, call| takes(question, second, call, |_, max, _| max == 255),
    ),
    (
        "a value judged without additional data",
        runs::states,
        |question, second, call| {
            refuses(question, second, call, |kept, value| {
                kept.fields.additional_data.is_none() && value > 0
            })
        },
    ),
    (
        "a value judged where it is Empty",
        runs::states,
        |question, second, call| {
            refuses(question, second, call, |kept, value| {
                kept.fields.additional_data == Some(ScreenAdditionalData::Empty) && value > 0
            })
        },
    ),
    (
        "a response above 1 taken",
        runs::states,
        |question, second, call| match (call.function, &call.given[..]) {
            (Function::Return, [value, 2..=255]) => {
                right(question, second, &Call::answer(*value, 1))
            }
            _ => right(question, second, call),
        },
    ),
    (
        "a response above 1 is 5",
        runs::states,
        |question, second, call| match (right(question, second, call), call.function) {
            (2, Function::Return) => 5,
            (word, _) => word,
        },
    ),
    (
        "processed and cancelled exchanged",
        runs::timeouts,
        |question, second, call| match right(question, second, call) {
            PROCESSED => CANCELLED,
            CANCELLED => PROCESSED,
            word => word,
        },
    ),
    (
        "another command taken",
        runs::commands,
        |question, second, call| match (right(question, second, call), call.function) {
            (2, Function::Command) => 0,
            (word, _) => word,
        },
    ),
    (
        "another command closes the question",
        runs::commands,
        |question, second, call| match (clocked(question, second), call.function) {
            (Some(_), Function::Command) if answer(call).is_none() && !asks(call) => {
                right(question, second, &Call::answer(0, 0))
            }
            _ => right(question, second, call),
        },
    ),
    (
        "the stored bytes of a returned value looked at",
        runs::states,
        |question, second, call| match (call.function, answer(call)) {
            (Function::Command, Some(_)) if call.given[STORED_LEN] > 0 => 5,
            _ => right(question, second, call),
        },
    ),
    (
        "the stored bytes of another command looked at",
        runs::commands,
        |question, second, call| match right(question, second, call) {
            2 if call.given.get(STORED).is_some_and(|byte| *byte > 0) => 5,
            word => word,
        },
    ),
    (
        "the addresses of a popup looked at",
        runs::states,
        |question, second, call| match call.function {
            Function::Command if asks(call) && call.given[..2] != [0, 0] => 5,
            _ => right(question, second, call),
        },
    ),
    (
        "a popup's values not looked at",
        runs::states,
        |question, second, call| {
            let mut other = call.clone();
            if call.function == Function::Command && asks(call) {
                let len = other.given.len();
                other.given[4.min(len)..STORED_LEN.min(len)].fill(0);
            }
            right(question, second, &other)
        },
    ),
    (
        "a popup asked by command is not kept",
        runs::states,
        |question, second, call| match call.function {
            Function::Command => then(question, second, call, &[0], |question, _| {
                question[OPEN] = 0;
                question[SENT..LAST].fill(0);
                question[POPUP..].fill(0);
            }),
            _ => right(question, second, call),
        },
    ),
    (
        "0 is no first second",
        runs::states,
        |question, second, call| {
            but(question, second, call, |word, question| {
                (word == 0 && second == 0 && question[STARTED] == 0).then_some(27)
            })
        },
    ),
    (
        "the last accepted second refused",
        runs::states,
        |question, second, call| {
            but(question, second, call, |word, question| {
                let again = question.len() == SIZE
                    && question[STARTED] == 1
                    && second == number_at(question, LAST);
                (number(word) == 0 && again).then_some(27)
            })
        },
    ),
    (
        "the clock not looked at by popups",
        runs::sequences,
        |question, second, call| match right(question, second, call) {
            27 if asks(call) => from(question, second, call, |question| question.fill(0)),
            word => word,
        },
    ),
    (
        "the clock not looked at by returns",
        runs::sequences,
        |question, second, call| match right(question, second, call) {
            27 if question[OPEN] == 1 && answer(call).is_some() => in_time(question, second, call),
            word => word,
        },
    ),
    (
        "the clock not looked at while none is open",
        runs::sequences,
        |question, second, call| match right(question, second, call) {
            27 if question[OPEN] == 0 => from(question, second, call, |question| {
                put(question, LAST, second);
            }),
            word => word,
        },
    ),
    (
        "the clock compared with sent",
        runs::states,
        |question, second, call| match Kept::of(question) {
            Some(kept) if kept.sent <= second => from(question, second, call, |question| {
                put(question, LAST, kept.sent);
            }),
            _ => right(question, second, call),
        },
    ),
    (
        "the last second not moved when it closes",
        runs::selections,
        |question, second, call| {
            let closed = [PROCESSED, CANCELLED, EXPIRED];
            then(question, second, call, &closed, |question, before| {
                put(question, LAST, number_at(before, LAST));
            })
        },
    ),
    (
        "the last second not moved by a late return",
        runs::timeouts,
        |question, second, call| {
            then(question, second, call, &[EXPIRED], |question, before| {
                put(question, LAST, number_at(before, LAST));
            })
        },
    ),
    (
        "the last second not moved when it opens",
        runs::timeouts,
        |question, second, call| {
            then(question, second, call, &[0], |question, before| {
                put(question, LAST, number_at(before, LAST));
            })
        },
    ),
    (
        "sent when the last call was accepted",
        runs::timeouts,
        |question, second, call| {
            then(question, second, call, &[0], |question, before| {
                put(question, SENT, number_at(before, LAST));
            })
        },
    ),
    (
        "sent not cleared",
        runs::states,
        |question, second, call| {
            let closed = [PROCESSED, CANCELLED, EXPIRED];
            then(question, second, call, &closed, |question, before| {
                put(question, SENT, number_at(before, SENT));
            })
        },
    ),
    (
        "the popup not cleared",
        runs::states,
        |question, second, call| {
            let closed = [PROCESSED, CANCELLED, EXPIRED];
            then(question, second, call, &closed, |question, before| {
                question[POPUP..].copy_from_slice(&before[POPUP..]);
            })
        },
    ),
    (
        "the popup's length alone cleared",
        runs::states,
        |question, second, call| {
            let closed = [PROCESSED, CANCELLED, EXPIRED];
            then(question, second, call, &closed, |question, before| {
                question[POPUP + 1..].copy_from_slice(&before[POPUP + 1..]);
            })
        },
    ),
    (
        "a start not noted",
        runs::states,
        |question, second, call| {
            then(question, second, call, &[0], |question, before| {
                question[STARTED] = before[STARTED];
            })
        },
    ),
    (
        "seconds with their low byte first",
        runs::timeouts,
        |question, second, call| {
            then(question, second, call, &[0], |question, _| {
                put(question, SENT, second.swap_bytes());
            })
        },
    ),
    (
        "no question opens",
        runs::states,
        |question, second, call| match right(question, second, call) {
            0 => 28,
            word => word,
        },
    ),
    (
        "an expired one does not make way",
        runs::timeouts,
        |question, second, call| {
            but(question, second, call, |word, question| {
                (word == 0 && question[OPEN] == 1).then_some(28)
            })
        },
    ),
    (
        "a popup that makes its way answers expired",
        runs::timeouts,
        |question, second, call| {
            let open = question.get(OPEN) == Some(&1);
            match right(question, second, call) {
                0 if open => EXPIRED,
                word => word,
            }
        },
    ),
    (
        "the expired popup kept",
        runs::timeouts,
        |question, second, call| {
            then(question, second, call, &[0], |question, before| {
                if before[OPEN] == 1 {
                    question[POPUP..].copy_from_slice(&before[POPUP..]);
                }
            })
        },
    ),
    (
        "a popup opens over an open one",
        runs::timeouts,
        |question, second, call| match right(question, second, call) {
            28 if second > 255 => expired(question, second, call),
            word => word,
        },
    ),
    (
        "a popup not made opens",
        runs::commands,
        |question, second, call| {
            let plain = without_selection(9);
            let on_new = right(&mut [0; SIZE], second, call);
            match (call.function, on_new) {
                (Function::Ask, 5) => right(question, second, &Call::ask(&plain)),
                _ => right(question, second, call),
            }
        },
    ),
    (
        "bytes behind a popup not looked at",
        runs::one_byte,
        |question, second, call| {
            let mut other = call.clone();
            if call.function == Function::Ask && call.given.len() == 56 {
                let len = usize::from(other.given[0]).min(55);
                other.given[len + 1..].fill(0);
            }
            right(question, second, &other)
        },
    ),
    (
        "a popup sent later than the last accepted second",
        runs::states,
        |question, second, call| {
            taken_for(question, second, call, |question| {
                let sent = number_at(question, SENT);
                if question[..SENT] == [1, 1] && number_at(question, LAST) < sent {
                    put(question, LAST, sent);
                }
            })
        },
    ),
    (
        "a kept popup not judged",
        runs::one_byte,
        |question, second, call| {
            taken_for(question, second, call, |question| {
                if question[..SENT] == [1, 1] && !sound(question) {
                    question[POPUP..].copy_from_slice(&without_selection(9));
                }
            })
        },
    ),
    (
        "a second in a closed one",
        runs::one_byte,
        |question, second, call| {
            taken_for(question, second, call, |question| {
                if question[..SENT] == [1, 0] {
                    question[SENT..LAST].fill(0);
                }
            })
        },
    ),
    (
        "a popup in a closed one",
        runs::one_byte,
        |question, second, call| {
            taken_for(question, second, call, |question| {
                if question[..SENT] == [1, 0] {
                    question[POPUP..].fill(0);
                }
            })
        },
    ),
    (
        "a popup's last byte in a closed one",
        runs::one_byte,
        |question, second, call| {
            taken_for(question, second, call, |question| {
                if question[OPEN] == 0 {
                    question[SIZE - 1] = 0;
                }
            })
        },
    ),
    (
        "a last second without a start",
        runs::one_byte,
        |question, second, call| {
            taken_for(question, second, call, |question| {
                if question[STARTED] == 0 {
                    question[LAST..POPUP].fill(0);
                }
            })
        },
    ),
    (
        "an open one without a start",
        runs::one_byte,
        |question, second, call| {
            taken_for(question, second, call, |question| {
                if question[..SENT] == [0, 1] {
                    question[STARTED] = 1;
                }
            })
        },
    ),
    (
        "started 2 is started",
        runs::one_byte,
        |question, second, call| {
            taken_for(question, second, call, |question| {
                if question[STARTED] == 2 {
                    question[STARTED] = 1;
                }
            })
        },
    ),
    (
        "open 2 is open",
        runs::one_byte,
        |question, second, call| {
            taken_for(question, second, call, |question| {
                if question[OPEN] == 2 {
                    question[OPEN] = 1;
                }
            })
        },
    ),
    (
        "67 bytes of question taken",
        runs::slices,
        |question, second, call| {
            from(question, second, call, |question| {
                if question.len() == SIZE + 1 {
                    question.truncate(SIZE);
                }
            })
        },
    ),
    (
        "no bytes are a new question",
        runs::slices,
        |question, second, call| {
            from(question, second, call, |question| {
                if question.is_empty() {
                    question.resize(SIZE, 0);
                }
            })
        },
    ),
    (
        "57 bytes of popup taken",
        runs::slices,
        |question, second, call| {
            let mut other = call.clone();
            if call.function == Function::Ask && call.given.len() == 57 {
                other.given.truncate(56);
            }
            right(question, second, &other)
        },
    ),
    (
        "71 bytes of record taken",
        runs::slices,
        |question, second, call| {
            let mut other = call.clone();
            if call.function == Function::Command && call.given.len() == 71 {
                other.given.truncate(70);
            }
            right(question, second, &other)
        },
    ),
    (
        "a record cut to a popup's length is another command",
        runs::slices,
        |question, second, call| match right(question, second, call) {
            5 if call.function == Function::Command && call.given.len() == 69 => 2,
            word => word,
        },
    ),
    (
        "a refusal clears the question",
        runs::any_questions,
        |question, second, call| {
            let word = right(question, second, call);
            if word == 5 {
                question.fill(0);
            }
            word
        },
    ),
    (
        "a count for one that opens",
        runs::states,
        |question, second, call| match right(question, second, call) {
            0 => 4 << 8,
            word => word,
        },
    ),
    (
        "a place beside the number",
        runs::states,
        |question, second, call| match right(question, second, call) {
            30 => 30 | 4 << 16,
            word => word,
        },
    ),
];
