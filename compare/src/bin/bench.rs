//! bench WHAT SIDE COUNT: calls one side COUNT times, for compare/bench to count its instructions.
//! bench WHAT SIDE: prints the nanoseconds of one call.
//! bench fields: prints the fields that are edited.
//!
//! SIDE is ours or rust. WHAT is check, or again:FAMILY, read:FAMILY, write:FAMILY, edit:FIELD, list:FIELD (ours alone; COUNT is that of
//! the edits), or edit or list, which take all fields by turns, or replay, of which a call is a whole block, event by event,
//! or question, of which a call is a popup asked, and answered at its timeout.
use std::hint::black_box;
use std::time::Instant;

use compare::block_cases;
use compare::cases::payload;
use compare::changes::{self, Row, ROWS};
use compare::edits;
use compare::every::ADDRESSES;
use compare::fields;
use compare::image::{self, FAMILIES};
use compare::ours::OURS;
use compare::question::{Done, Question};
use compare::question_cases;
use compare::question_image;
use compare::replay::{self, Event, Replay};
use compare::replay_image::{EVENT_SIZE, MORE, STATE_SIZE};
use compare::side::Questions;
use compare::theirs::{self, RUST};
use uf_crsf::packets::{CrsfPacket, DirectCommands};

/// A family's name and a body of it, in the order of FAMILIES.
const BODIES: [(&str, &[u8]); 9] = [
    ("fc", &[0x01]),
    ("osd", changes::BUTTONS),
    ("vtx", changes::FREQUENCY),
    ("led", changes::PULSE),
    ("general", changes::PROPOSAL),
    ("crossfire", changes::MODEL),
    ("flow_control", changes::SUBSCRIBE),
    ("screen", changes::POPUP),
    ("ack", changes::ANSWER),
];

/// How many edits a list has.
const IN_LIST: usize = 8;

fn repeated(count: u64, mut call: impl FnMut()) {
    for _ in 0..count {
        call();
    }
}

/// The check of 60 bytes.
fn check(ours: bool, count: u64) {
    let message: [u8; 60] = std::array::from_fn(|i| (i * 37 + 11) as u8);
    match ours {
        true => repeated(count, || {
            black_box((OURS.check)(black_box(&message), 0));
        }),
        false => repeated(count, || {
            black_box(theirs::check_in_two(black_box(&message), &[]));
        }),
    }
}

/// A whole command read, and written again.
fn again(payload: &[u8], ours: bool, times: u64) {
    let call = if ours {
        OURS.again
    } else {
        theirs::plain_again
    };
    let mut out = [0; 60];
    repeated(times, || {
        black_box(call(black_box(payload), black_box(&mut out)));
    });
    assert_eq!(&out[..payload.len()], payload, "was not written again");
}

fn read(payload: &[u8], ours: bool, times: u64) {
    match ours {
        true => {
            let mut record = [0; image::SIZE];
            repeated(times, || {
                black_box((OURS.read)(black_box(payload), black_box(&mut record)));
            });
        }
        false => repeated(times, || {
            black_box(DirectCommands::from_bytes(black_box(payload))).unwrap();
        }),
    }
}

fn write(payload: &[u8], ours: bool, times: u64) {
    let mut out = [0; 60];
    match ours {
        true => {
            let mut record = [0; image::SIZE];
            assert_eq!((RUST.read)(payload, &mut record), 0);
            repeated(times, || {
                black_box((OURS.write)(black_box(&record), black_box(&mut out)));
            });
        }
        false => {
            let command = DirectCommands::from_bytes(payload).unwrap();
            repeated(times, || {
                black_box(black_box(&command).to_bytes(black_box(&mut out))).unwrap();
            });
        }
    }
    assert_eq!(&out[..payload.len()], payload, "was not written");
}

/// The payload in which a field is edited, and how it is left by an odd and by an even number of edits.
fn edited((field, id, body, numbers, _): Row) -> (Vec<u8>, [Vec<u8>; 2]) {
    let payload = payload(ADDRESSES, id, body);
    let left = numbers.map(|number| {
        let mut edited = payload.clone();
        assert_eq!((RUST.edit)(&mut edited, field, number), 0);
        edited
    });
    (payload, left)
}

/// A field set to its two numbers by turns; the Rust writes into a buffer.
fn edit(row: Row, ours: bool, times: u64) {
    let (field, _, _, numbers, change) = row;
    let (mut payload, left) = edited(row);
    let mut turn = 0;
    if ours {
        repeated(times, || {
            let number = black_box(numbers[turn]);
            black_box((OURS.edit)(black_box(&mut payload), field, number));
            turn ^= 1;
        });
        assert_eq!(payload, left[1], "was not edited");
    } else {
        let mut out = [0; 60];
        repeated(times, || {
            let number = black_box(numbers[turn]);
            let call = theirs::plain_edit;
            black_box(call(
                black_box(&payload),
                change,
                number,
                black_box(&mut out),
            ));
            turn ^= 1;
        });
        assert_eq!(out[..payload.len()], left[1], "was not edited");
    }
}

/// The same edits in lists, ours alone. What counts is the edits.
fn list(row: Row, times: u64) {
    let (field, _, _, numbers, _) = row;
    let (mut payload, left) = edited(row);
    let edits: [(u32, u32); IN_LIST] = std::array::from_fn(|i| (field, numbers[i % 2]));
    let edits = edits::list(&edits);
    let mut answers = [0xFF; IN_LIST];
    repeated(times / IN_LIST as u64, || {
        let edits = black_box(&edits);
        black_box((OURS.edit_list)(
            black_box(&mut payload),
            edits,
            black_box(&mut answers),
        ));
    });
    assert_eq!(
        (payload, answers),
        (left[1].clone(), [0; IN_LIST]),
        "was not edited"
    );
}

/// A record of a family, by its place in FAMILIES.
fn record_of(place: usize) -> Vec<u8> {
    block_cases::record(&payload(ADDRESSES, FAMILIES[place], BODIES[place].1))
}

/// A sound block of commands, and how many it has: each family three times, and two popups more, which leave room for no third.
fn log_block() -> (Vec<u8>, u64) {
    const POPUP: usize = 7;
    let each = (0..3).flat_map(|_| 0..FAMILIES.len());
    let records: Vec<Vec<u8>> = each.chain([POPUP, POPUP]).map(record_of).collect();
    let block = block_cases::sound(1, &records.concat());
    let mut commands = 0;
    replay::log(&block, |event| {
        assert!(matches!(event, Event::Command { .. }), "{event:?}");
        commands += 1;
    });
    assert_eq!(commands, records.len() as u64);
    (block, commands)
}

/// A whole block, event by event: into an image by ours, as a value by the Rust's.
fn replay(ours: bool, times: u64) {
    let (block, commands) = log_block();
    let mut events = 0;
    if ours {
        let mut event = [0; EVENT_SIZE];
        repeated(times, || {
            let mut state = [0; STATE_SIZE];
            loop {
                black_box((OURS.replay)(
                    black_box(&mut state),
                    0,
                    black_box(&block),
                    black_box(&mut event),
                ));
                events += 1;
                if event[MORE] == 0 {
                    break;
                }
            }
        });
    } else {
        repeated(times, || {
            let mut state = Replay::default();
            loop {
                black_box(black_box(&mut state).step(0, black_box(&block)));
                events += 1;
                if !state.more() {
                    break;
                }
            }
        });
    }
    assert_eq!(events, times * commands, "was not replayed");
}

/// The popup that is asked, and a value of its selection.
fn asked() -> ([u8; fields::POPUP_SIZE], u8) {
    let mut popup = [0; fields::POPUP_SIZE];
    fields::put_stored(&mut popup, &changes::POPUP[1..]);
    (popup, 10)
}

/// A popup asked, and answered at its timeout: images, judged at each call.
fn question(times: u64) {
    const TIMEOUT: u32 = 30;
    let Questions { ask, returned, .. } = OURS.questions;
    let (popup, value) = asked();
    let mut kept = [0; question_image::SIZE];
    let mut second = 0;
    repeated(times, || {
        black_box(ask(black_box(&mut kept), second, black_box(&popup)));
        second += TIMEOUT;
        black_box(returned(black_box(&mut kept), second, black_box(value), 1));
    });
    assert_eq!(kept, question_cases::closed(second), "was not answered");
}

/// The same by the Rust's as a value, of which the popup is one, too: nothing is left to judge.
fn question_value(times: u64) {
    let (popup, value) = asked();
    let popup = fields::popup(&popup).expect("a popup that is made");
    let mut kept = Question::default();
    let mut answered = 0;
    repeated(times, || {
        let asked = black_box(&mut kept).ask(7, black_box(&popup).clone());
        let closed = black_box(&mut kept).returned(7, black_box(value), true);
        answered += u64::from((asked, closed) == (Ok(Done::Opened), Ok(Done::Processed)));
    });
    assert_eq!(answered, times, "was not answered");
}

/// The rows of a field, or of all.
fn rows(field: &str) -> impl Iterator<Item = Row> + '_ {
    ROWS.into_iter()
        .filter(move |row| field.is_empty() || row.0.to_string() == field)
}

fn main() {
    let words: Vec<String> = std::env::args().skip(1).collect();
    if words[0] == "fields" {
        return ROWS.iter().for_each(|row| println!("{}", row.0));
    }
    let (what, which) = words[0].split_once(':').unwrap_or((&words[0], ""));
    let ours = match words[1].as_str() {
        "ours" => true,
        "rust" => false,
        _ => panic!("ours or rust"),
    };
    let of_family = || {
        let place = BODIES.iter().position(|(name, _)| *name == which);
        let place = place.expect("a family");
        payload(ADDRESSES, FAMILIES[place], BODIES[place].1)
    };
    let work = |count: u64| match what {
        "check" => check(ours, count),
        "again" => again(&of_family(), ours, count),
        "read" => read(&of_family(), ours, count),
        "write" => write(&of_family(), ours, count),
        "edit" => rows(which).for_each(|row| edit(row, ours, count)),
        "list" => rows(which).for_each(|row| list(row, count)),
        "replay" => replay(ours, count),
        "question" if ours => question(count),
        "question" => question_value(count),
        _ => panic!("check, again, read, write, edit, list, replay or question"),
    };
    match words.get(2) {
        Some(count) => work(count.parse().expect("a count")),
        None => {
            const CALLS: u64 = 1_000_000;
            // what each is given, and what that is in calls
            let (count, calls) = match words[0].as_str() {
                "edit" | "list" => (CALLS / ROWS.len() as u64 / 16 * 16, CALLS),
                "replay" => (CALLS / 50, CALLS / 50),
                _ => (CALLS, CALLS),
            };
            work(count / 10);
            let began = Instant::now();
            work(count);
            println!("{:.1}", began.elapsed().as_nanos() as f64 / calls as f64);
        }
    }
}
