//! Questions worked out by hand from document 02, by either side.
use compare::both::LENT;
use compare::ours::OURS;
use compare::question_cases::Call;
use compare::side::number;
use compare::theirs::RUST;

const OPENED: u32 = 0;
const PROCESSED: u32 = 1 << 8;
const CANCELLED: u32 = 2 << 8;
const EXPIRED: u32 = 3 << 8;

/// Header "Go", info "?", timeout 5, close flag on.
const PLAIN: &[u8] = &[b'G', b'o', 0, b'?', 0, 5, 1];
/// The same with a selection "S" from 10 to 20, of value 15 and default 12, unit "m".
const SELECTION: &[u8] = &[
    b'G', b'o', 0, b'?', 0, 5, 1, b'S', 0, 15, 10, 20, 12, b'm', 0,
];

fn popup(data: &[u8]) -> Vec<u8> {
    let mut image = [&[data.len() as u8], data].concat();
    image.resize(56, 0);
    image
}

fn ask(data: &[u8]) -> Call {
    Call::ask(&popup(data))
}

/// Destination, source, id and sub-command; ten bytes of values; the stored length and bytes.
fn record(id: u8, sub: u8, values: &[u8], stored: &[u8]) -> Call {
    let mut image = [&[0xC8, 0xEA, id, sub], values].concat();
    image.resize(14, 0);
    image.extend(stored);
    image.resize(70, 0);
    Call::command(&image)
}

fn image(started: u8, open: u8, sent: u32, last: u32, data: &[u8]) -> Vec<u8> {
    let seconds = [sent.to_be_bytes(), last.to_be_bytes()].concat();
    let stored = if open == 1 { popup(data) } else { vec![0; 56] };
    [&[started, open], &seconds[..], &stored].concat()
}

fn new() -> Vec<u8> {
    vec![0; 66]
}

fn closed(last: u32) -> Vec<u8> {
    image(1, 0, 0, last, &[])
}

fn open(sent: u32, data: &[u8]) -> Vec<u8> {
    image(1, 1, sent, sent, data)
}

/// Call after call, each at its second with its answer; the question that is left. A refusal leaves it as it was.
fn left(from: &[u8], calls: &[(u32, Call, u32)]) -> Vec<u8> {
    let [ours, theirs] = [OURS, RUST].map(|side| {
        let mut lent = [from, &[LENT; 2]].concat();
        for (turn, (second, call, answer)) in calls.iter().enumerate() {
            let before = lent.clone();
            let word = call.on(&side, &mut lent[..from.len()], *second);
            assert_eq!(word, *answer, "call {turn}: {call:02X?} at {second}");
            assert!(number(word) == 0 || lent == before, "call {turn}");
        }
        assert_eq!(lent.split_off(from.len()), [LENT; 2]);
        lent
    });
    assert_eq!(ours, theirs);
    ours
}

#[test]
fn a_popup_opens_and_is_answered_once() {
    let at_100 = open(100, SELECTION);
    assert_eq!(left(&new(), &[(100, ask(SELECTION), OPENED)]), at_100);
    // whole, as it stands in the caller's memory
    assert_eq!(at_100[..11], [1, 1, 0, 0, 0, 100, 0, 0, 0, 100, 15]);
    let answers = [
        (103, Call::answer(20, 1), PROCESSED),
        (103, Call::answer(20, 1), 29),
    ];
    assert_eq!(left(&at_100, &answers), closed(103));
    let answers = [
        (100, Call::answer(20, 0), CANCELLED),
        (101, Call::answer(20, 0), 29),
    ];
    assert_eq!(left(&at_100, &answers), closed(100));
    assert_eq!(left(&new(), &[(9, Call::answer(20, 1), 29)]), new());
}

/// "if it arrives at most the popup's timeout after it".
#[test]
fn at_sent_and_timeout_it_is_still_open_and_one_later_expired() {
    for data in [PLAIN, SELECTION] {
        let kept = open(100, data);
        left(&kept, &[(105, Call::answer(15, 1), PROCESSED)]);
        left(&kept, &[(105, Call::answer(15, 0), CANCELLED)]);
        left(&kept, &[(105, ask(PLAIN), 28)]);
        left(&kept, &[(106, Call::answer(15, 1), EXPIRED)]);
        left(&kept, &[(106, Call::answer(15, 0), EXPIRED)]);
        left(&kept, &[(106, ask(PLAIN), OPENED)]);
    }
}

/// "A later return, whatever its value, leaves it closed as expired".
#[test]
fn a_late_return_closes_and_moves_the_clock() {
    for value in [0, 9, 15, 21, 255] {
        let late = [
            (200, Call::answer(value, 1), EXPIRED),
            (200, Call::answer(value, 1), 29),
            (199, Call::answer(value, 1), 27),
            (199, ask(PLAIN), 27),
        ];
        assert_eq!(left(&open(100, SELECTION), &late), closed(200));
    }
}

#[test]
fn a_new_popup_waits_until_the_old_one_is_answered_or_expired() {
    let calls = [
        (100, ask(SELECTION), OPENED),
        (100, ask(PLAIN), 28),
        (105, ask(PLAIN), 28),
        // none of these moved the clock
        (101, Call::answer(10, 1), PROCESSED),
        (101, ask(PLAIN), OPENED),
        (107, ask(SELECTION), OPENED),
    ];
    assert_eq!(left(&new(), &calls), open(107, SELECTION));
}

/// "for a selection a processed value must lie from min to max"; what is refused leaves the question open.
#[test]
fn a_processed_value_lies_from_min_to_max() {
    let kept = open(100, SELECTION);
    for value in [0, 9, 21, 255] {
        assert_eq!(left(&kept, &[(101, Call::answer(value, 1), 30)]), kept);
        left(&kept, &[(101, Call::answer(value, 0), CANCELLED)]);
    }
    for value in [10, 11, 15, 20] {
        left(&kept, &[(101, Call::answer(value, 1), PROCESSED)]);
    }
    let calls = [
        (101, Call::answer(9, 1), 30),
        (100, Call::answer(21, 1), 30),
        (105, Call::answer(10, 1), PROCESSED),
    ];
    assert_eq!(left(&kept, &calls), closed(105));
}

/// Document 01 does not compare the four numbers with each other.
#[test]
fn no_value_lies_from_a_higher_min_to_a_lower_max() {
    let mut data = SELECTION.to_vec();
    data[10..12].copy_from_slice(&[20, 10]);
    let kept = open(100, &data);
    for value in 0..=255 {
        left(&kept, &[(101, Call::answer(value, 1), 30)]);
    }
    left(&kept, &[(101, Call::answer(15, 0), CANCELLED)]);
    data[10..12].copy_from_slice(&[15, 15]);
    let kept = open(100, &data);
    left(&kept, &[(101, Call::answer(14, 1), 30)]);
    left(&kept, &[(101, Call::answer(16, 1), 30)]);
    left(&kept, &[(101, Call::answer(15, 1), PROCESSED)]);
}

#[test]
fn without_a_selection_any_value_is_taken() {
    let empty = [PLAIN, &[0]].concat();
    let with_values = [PLAIN, &[0], b"Yes;No", &[0]].concat();
    for data in [PLAIN, &empty, &with_values] {
        for value in 0..=255 {
            let answer = (105, Call::answer(value, 1), PROCESSED);
            assert_eq!(left(&open(100, data), &[answer]), closed(105));
        }
    }
}

/// "The first call may carry any second."
#[test]
fn a_lower_second_than_the_last_accepted_one_is_27() {
    for first in [0, 1, 0x8000_0000, u32::MAX] {
        assert_eq!(
            left(&new(), &[(first, ask(PLAIN), OPENED)]),
            open(first, PLAIN)
        );
    }
    // the first call that is accepted: those refused before it do not count
    let calls = [
        (50, Call::answer(0, 1), 29),
        (60, ask(&PLAIN[1..3]), 5),
        (7, ask(PLAIN), OPENED),
        (6, Call::answer(0, 1), 27),
        (7, Call::answer(0, 1), PROCESSED),
        (6, ask(PLAIN), 27),
        (7, ask(PLAIN), OPENED),
    ];
    assert_eq!(left(&new(), &calls), open(7, PLAIN));
}

/// Compared is how long ago it was sent: a sum would be 4 here.
#[test]
fn near_the_largest_second_a_question_does_not_expire() {
    let sent = u32::MAX - 1;
    let mut data = PLAIN.to_vec();
    data[5] = 6;
    let kept = open(sent, &data);
    for second in [sent, u32::MAX] {
        left(&kept, &[(second, ask(PLAIN), 28)]);
        left(&kept, &[(second, Call::answer(1, 1), PROCESSED)]);
    }
    for second in [0, 4, 5, sent - 1] {
        left(&kept, &[(second, Call::answer(1, 1), 27)]);
    }
    // and one sent 6 before it is still open at the end
    let kept = open(u32::MAX - 6, &data);
    left(&kept, &[(u32::MAX, Call::answer(1, 1), PROCESSED)]);
    let kept = open(u32::MAX - 7, &data);
    left(&kept, &[(u32::MAX, Call::answer(1, 1), EXPIRED)]);
}

/// Timeout 0: in its own second alone.
#[test]
fn without_a_timeout_only_its_own_second_is_in_time() {
    let mut data = PLAIN.to_vec();
    data[5] = 0;
    left(&open(100, &data), &[(100, Call::answer(1, 1), PROCESSED)]);
    left(&open(100, &data), &[(101, Call::answer(1, 1), EXPIRED)]);
}

/// 5 for the question, 2 for the response or another command, 5 for a popup not made, 27, 28 or 29, 30.
#[test]
fn refusals_come_in_their_order() {
    let disarm = || record(0x01, 0x01, &[], &[]);
    let not_made = || ask(&PLAIN[..6]);
    let beyond = image(0, 0, 0, 1, &[]);
    for call in [disarm(), not_made(), Call::answer(0, 2), Call::answer(0, 1)] {
        left(&beyond, &[(0, call, 5)]);
    }
    let kept = open(100, SELECTION);
    left(
        &kept,
        &[(99, Call::answer(0, 2), 2), (101, Call::answer(0, 255), 2)],
    );
    left(&kept, &[(99, disarm(), 2), (101, disarm(), 2)]);
    left(&kept, &[(99, not_made(), 5), (101, not_made(), 5)]);
    left(&kept, &[(99, ask(PLAIN), 27), (101, ask(PLAIN), 28)]);
    left(
        &kept,
        &[(99, Call::answer(0, 1), 27), (101, Call::answer(0, 1), 30)],
    );
    let kept = closed(100);
    left(
        &kept,
        &[(99, Call::answer(0, 2), 2), (101, Call::answer(0, 2), 2)],
    );
    left(&kept, &[(99, not_made(), 5), (101, not_made(), 5)]);
    left(
        &kept,
        &[(99, Call::answer(0, 1), 27), (101, Call::answer(0, 1), 29)],
    );
    left(&kept, &[(99, ask(PLAIN), 27)]);
}

/// Of a popup's record stored length and bytes, of a returned value's value and response, and nothing else.
#[test]
fn a_command_asks_or_returns() {
    let asks = |data: &[u8]| record(0x22, 0x01, &[], &popup(data));
    let returns = |values: &[u8]| record(0x22, 0x02, values, &[0xFF; 56]);
    let calls = [
        (100, asks(SELECTION), OPENED),
        (101, asks(PLAIN), 28),
        (101, returns(&[9, 1]), 30),
        (99, returns(&[10, 1]), 27),
        (101, returns(&[10, 1]), PROCESSED),
        (101, returns(&[10, 1]), 29),
        (102, asks(PLAIN), OPENED),
        (103, returns(&[0, 0]), CANCELLED),
        (104, asks(PLAIN), OPENED),
        (110, returns(&[0, 0]), EXPIRED),
    ];
    assert_eq!(left(&new(), &calls), closed(110));
    assert_eq!(
        left(&new(), &[(100, asks(SELECTION), OPENED)]),
        open(100, SELECTION)
    );
}

#[test]
fn any_other_command_is_2_and_an_image_of_none_5() {
    let kept = open(100, PLAIN);
    // disarm, 5800 MHz, an ACK of popups, one with stored bytes that it has no use for
    let others = [
        record(0x01, 0x01, &[], &[]),
        record(0x08, 0x02, &[0x16, 0xA8], &[]),
        record(0xFF, 0x00, &[0x22, 0x01, 1], &[0; 56]),
        record(0x01, 0x02, &[], &[0xFF; 56]),
    ];
    for other in others {
        left(&kept, &[(101, other.clone(), 2), (300, other, 2)]);
    }
    // unknown id and sub-command, a response that is no flag, bytes behind the values, a popup not made
    let none = [
        record(0x02, 0x01, &[], &[]),
        record(0x22, 0x03, &[], &[]),
        record(0x22, 0x02, &[1, 2], &[]),
        record(0x22, 0x02, &[1, 1, 1], &[]),
        record(0x22, 0x01, &[1], &popup(PLAIN)),
        record(0x22, 0x01, &[], &popup(&PLAIN[..6])),
        record(0x22, 0x01, &[], &[]),
    ];
    for none in none {
        left(
            &kept,
            &[
                (101, none.clone(), 5),
                (99, none.clone(), 5),
                (300, none, 5),
            ],
        );
    }
}

#[test]
fn a_popup_not_made_is_5() {
    let mut behind = popup(PLAIN);
    behind[55] = 1;
    let texts_open = [0x41; 52].to_vec();
    let longer = [PLAIN, &[0, 0, 0]].concat();
    let no_flag = [&PLAIN[..6], &[2]].concat();
    let images = [
        behind,
        popup(&[]),
        popup(&texts_open),
        popup(&longer),
        popup(&no_flag),
        popup(&SELECTION[..14]),
        popup(PLAIN)[..55].to_vec(),
        [&popup(PLAIN)[..], &[0]].concat(),
        vec![],
        vec![56; 56],
    ];
    for image in images {
        left(&new(), &[(1, Call::ask(&image), 5)]);
        left(&closed(7), &[(8, Call::ask(&image), 5)]);
    }
}

/// "not started, all the rest is 0; not open, sent and popup are 0 throughout; open, the popup is made and sent is at most the last
/// accepted second".
#[test]
fn a_question_beyond_its_limits_is_5_and_stays() {
    let with = |mut image: Vec<u8>, place: usize, byte: u8| {
        image[place] = byte;
        image
    };
    let beyond = [
        vec![],
        new()[1..].to_vec(),
        [&new()[..], &[0]].concat(),
        with(new(), 1, 1),
        with(new(), 5, 1),
        with(new(), 9, 1),
        with(new(), 65, 1),
        with(closed(7), 0, 0),
        with(closed(7), 0, 2),
        with(closed(7), 1, 1),
        with(closed(7), 1, 2),
        with(closed(7), 2, 1),
        with(closed(7), 10, 1),
        with(closed(7), 65, 1),
        with(open(7, PLAIN), 0, 0),
        with(open(7, PLAIN), 0, 255),
        with(open(7, PLAIN), 1, 0),
        with(open(7, PLAIN), 1, 3),
        with(open(7, PLAIN), 10, 6),
        with(open(7, PLAIN), 17, 2),
        with(open(7, PLAIN), 65, 1),
        image(1, 1, 8, 7, PLAIN),
        image(1, 1, u32::MAX, 0, PLAIN),
    ];
    for image in beyond {
        let calls = [
            (7, ask(PLAIN), 5),
            (9, Call::answer(1, 1), 5),
            (9, Call::answer(1, 2), 5),
            (0, record(0x22, 0x02, &[1, 0], &[]), 5),
            (0, record(0x01, 0x01, &[], &[]), 5),
        ];
        assert_eq!(left(&image, &calls), image);
    }
    // one that someone else kept may have been sent before the last accepted second
    let earlier = image(1, 1, 5, 7, PLAIN);
    left(&earlier, &[(6, Call::answer(1, 1), 27)]);
    left(&earlier, &[(10, Call::answer(1, 1), PROCESSED)]);
    left(&earlier, &[(11, Call::answer(1, 1), EXPIRED)]);
}
