//! Any slice has an answer: none, a null pointer, too short a one for an image, and one far longer than a payload.
use compare::block_cases;
use compare::both::LENT;
use compare::edits;
use compare::ours::OURS;
use compare::side::{Questions, Side};
use compare::theirs::RUST;

// No slice of Rust's has a null pointer, so that these are called as C calls them.
extern "C" {
    fn crsf_check(bytes: *const u8, len: usize, start: u8) -> u8;
    fn crsf_read(payload: *const u8, len: usize, record: *mut u8, record_len: usize) -> u32;
    fn crsf_write(record: *const u8, record_len: usize, buffer: *mut u8, len: usize) -> u32;
    fn crsf_edit(payload: *mut u8, len: usize, field: u32, number: u32) -> u32;
    fn crsf_edit_list(
        payload: *mut u8,
        len: usize,
        edits: *const u8,
        edits_len: usize,
        answers: *mut u8,
        answers_len: usize,
    ) -> u32;
    fn crsf_replay(
        replay: *mut u8,
        replay_len: usize,
        position: u32,
        block: *const u8,
        len: usize,
        event: *mut u8,
        event_len: usize,
    ) -> u32;
    fn crsf_question_ask(
        question: *mut u8,
        question_len: usize,
        second: u32,
        popup: *const u8,
        popup_len: usize,
    ) -> u32;
    fn crsf_question_return(
        question: *mut u8,
        question_len: usize,
        second: u32,
        value: u8,
        response: u8,
    ) -> u32;
    fn crsf_question_command(
        question: *mut u8,
        question_len: usize,
        second: u32,
        record: *const u8,
        record_len: usize,
    ) -> u32;
}

#[test]
fn no_bytes_leave_the_start() {
    for start in 0..=255 {
        assert_eq!((OURS.check)(&[], start), start);
        assert_eq!(unsafe { crsf_check(std::ptr::null(), 0, start) }, start);
    }
}

#[test]
fn a_megabyte_has_the_check_that_the_rust_gives_it() {
    let message = vec![0xFF; 1 << 20];
    assert_eq!((OURS.check)(&message, 0xFF), (RUST.check)(&message, 0xFF));
}

#[test]
fn null_pointers_with_length_0_are_slices() {
    let (none, nothing) = (std::ptr::null(), std::ptr::null_mut());
    assert_eq!(unsafe { crsf_read(none, 0, nothing, 0) }, 3);
    assert_eq!(unsafe { crsf_write(none, 0, nothing, 0) }, 5);
    let mut record = [LENT; 70];
    assert_eq!(unsafe { crsf_read(none, 0, record.as_mut_ptr(), 70) }, 1);
    assert_eq!(record, [LENT; 70]);
    assert_eq!(unsafe { crsf_edit(nothing, 0, 1, 0) }, 1);
    assert_eq!(
        unsafe { crsf_edit_list(nothing, 0, none, 0, nothing, 0) },
        0
    );
    let (edit, mut answers) = ([0; 8], [LENT; 2]);
    let (from, to) = (edit.as_ptr(), answers.as_mut_ptr());
    assert_eq!(unsafe { crsf_edit_list(nothing, 0, from, 8, to, 2) }, 0);
    assert_eq!(answers, [1, LENT]);
}

#[test]
fn null_pointers_with_length_0_are_slices_of_a_replay() {
    let (none, nothing) = (std::ptr::null(), std::ptr::null_mut());
    assert_eq!(
        unsafe { crsf_replay(nothing, 0, 1, none, 0, nothing, 0) },
        3
    );
    let (mut state, mut event) = ([0; 7], [LENT; 80]);
    let (at, to) = (state.as_mut_ptr(), event.as_mut_ptr());
    assert_eq!(unsafe { crsf_replay(nothing, 0, 1, none, 0, to, 80) }, 5);
    assert_eq!(unsafe { crsf_replay(at, 7, 1, none, 0, nothing, 0) }, 3);
    assert_eq!((state, event), ([0; 7], [LENT; 80]));
    assert_eq!(unsafe { crsf_replay(at, 7, 1, none, 0, to, 80) }, 0);
    assert_eq!(state, [0; 7]);
    assert_eq!(event[..10], [3, 0, 0, 0, 0, 1, 0, 0, 1, 0]);
}

#[test]
fn null_pointers_with_length_0_are_slices_of_a_question() {
    let (none, nothing) = (std::ptr::null(), std::ptr::null_mut());
    let mut new = [0; 66];
    for (question, len) in [(nothing, 0), (new.as_mut_ptr(), 66)] {
        assert_eq!(unsafe { crsf_question_ask(question, len, 1, none, 0) }, 5);
        assert_eq!(
            unsafe { crsf_question_command(question, len, 1, none, 0) },
            5
        );
    }
    assert_eq!(unsafe { crsf_question_return(nothing, 0, 1, 2, 1) }, 5);
    assert_eq!(new, [0; 66]);
}

#[test]
fn a_megabyte_is_no_question_no_popup_and_no_record() {
    let mut large = vec![0; 1 << 20];
    let Questions {
        ask,
        returned,
        command,
    } = OURS.questions;
    assert_eq!(ask(&mut [0; 66], 1, &large), 5);
    assert_eq!(command(&mut [0; 66], 1, &large), 5);
    assert_eq!(returned(&mut large, 1, 2, 1), 5);
    assert!(large.iter().all(|byte| *byte == 0));
}

/// The block is only given. Here no reference of Rust's says that it stays as it is.
#[test]
fn a_replay_leaves_its_block() {
    let disarm = block_cases::record(&[0xC8, 0xEA, 0x01, 0x01, 0xFE]);
    let sound = block_cases::sound(5, &[&disarm[..], &disarm].concat());
    let damaged = [&sound[..511], &[!sound[511]]].concat();
    let mut state = [0; 7];
    for given in [&sound, &sound, &damaged] {
        let (mut block, mut event) = (given.clone(), [LENT; 80]);
        let (at, from, to) = (state.as_mut_ptr(), block.as_mut_ptr(), event.as_mut_ptr());
        assert_eq!(unsafe { crsf_replay(at, 7, 1, from, 512, to, 80) }, 0);
        assert_eq!(block, *given);
    }
    assert_eq!(state, [1, 0, 0, 0, 5, 0, 0]);
}

#[test]
fn a_megabyte_of_block_is_damaged_and_one_of_event_has_its_image_at_its_front() {
    let (mut state, mut event) = ([0; 7], vec![LENT; 1 << 20]);
    let block = vec![0; 1 << 20];
    assert_eq!((OURS.replay)(&mut state, 7, &block, &mut event), 0);
    assert_eq!(event[..10], [3, 0, 0, 0, 0, 7, 0, 0, 1, 0]);
    assert!(event[80..].iter().all(|byte| *byte == LENT));
    assert_eq!(
        (OURS.replay)(&mut vec![0; 1 << 20], 7, &block, &mut event),
        5
    );
}

#[test]
fn a_megabyte_of_payload_is_refused_and_one_of_buffer_is_written_at_its_front() {
    let mut record = [0; 70];
    assert_eq!((OURS.read)(&vec![0x01; 1 << 20], &mut record), 1);
    assert_eq!((OURS.text)(&vec![0x01; 1 << 20], &mut [0; 52]), 1);
    assert_eq!((OURS.ack)([0; 3], &vec![0; 1 << 20], &mut [0; 56]), 1);
    record[2..4].copy_from_slice(&[0x01, 0x01]);
    let mut buffer = vec![LENT; 1 << 20];
    assert_eq!((OURS.write)(&record, &mut buffer), 5 << 8);
    assert!(buffer[5..].iter().all(|byte| *byte == LENT));
}

/// An image handed out needs its size: a shorter slice is 3, before all else; a longer one keeps its bytes behind the image.
#[test]
fn an_image_needs_its_bytes_and_no_more() {
    type Call = fn(&Side, &mut [u8]) -> u32;
    let images: [(usize, Call, Call); 5] = [
        (
            70,
            |side, lent| (side.read)(&[0xC8, 0xEA, 0x01, 0x01, 0xFE], lent),
            |side, lent| (side.read)(&[], lent),
        ),
        (
            52,
            |side, lent| (side.text)(b"text", lent),
            |side, lent| (side.text)(&[0], lent),
        ),
        (
            56,
            |side, lent| (side.ack)([0x08, 0x02, 1], b"done", lent),
            |side, lent| (side.ack)([0x08, 0x02, 2], b"done", lent),
        ),
        (
            56,
            |side, lent| (side.popup)(&[0; 268], lent),
            |side, lent| (side.popup)(&[], lent),
        ),
        (
            268,
            |side, lent| (side.popup_fields)(&[&[4][..], &[0; 55]].concat(), lent),
            |side, lent| (side.popup_fields)(&[], lent),
        ),
    ];
    for (size, accepted, refused) in images {
        for room in 0..size {
            let mut lent = vec![LENT; room];
            assert_eq!(accepted(&OURS, &mut lent), 3, "{room} of {size}");
            assert_eq!(refused(&OURS, &mut lent), 3, "{room} of {size}");
            assert_eq!(lent, vec![LENT; room]);
        }
        for room in [size, size + 1, 1000] {
            let (mut ours, mut theirs) = (vec![LENT; room], vec![LENT; room]);
            assert_ne!(refused(&OURS, &mut ours), 0);
            assert_eq!(ours, theirs);
            assert_eq!(accepted(&OURS, &mut ours), 0);
            assert_eq!(accepted(&RUST, &mut theirs), 0);
            assert_eq!(ours, theirs);
            assert!(ours[size..].iter().all(|byte| *byte == LENT));
        }
    }
}

#[test]
fn a_megabyte_of_payload_is_not_edited_and_a_megabyte_of_edits_is_carried_out() {
    let mut payload = vec![0x01; 1 << 20];
    assert_eq!((OURS.edit)(&mut payload, 1, 0), 1);
    assert!(payload.iter().all(|byte| *byte == 0x01));

    const EDITS: u32 = 1 << 17;
    let list = edits::list(&(0..EDITS).map(|n| (20, n)).collect::<Vec<_>>());
    let mut payload = [0xC8, 0xEA, 0x08, 0x02, 0x16, 0xA8, 0x0E];
    let mut answers = vec![LENT; EDITS as usize + 1];
    assert_eq!((OURS.edit_list)(&mut payload, &list, &mut answers), 0);
    assert_eq!(payload[4..6], 6000u16.to_be_bytes());
    for (n, answer) in answers[..EDITS as usize].iter().enumerate() {
        let right = if (5000..=6000).contains(&n) { 0 } else { 8 };
        assert_eq!(*answer, right, "{n}");
    }
    assert_eq!(answers[EDITS as usize], LENT);
}
