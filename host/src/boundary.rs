//! The C functions of libcrsf.a, each as one safe function on slices that answers C's own word. `include/crsf.h` says what they do.
//!
//! Commands, texts, ACKs and popups cross as bytes, their images, and so do a replay and a question, which are kept between calls. Any
//! bytes and any length have an answer; a refusal changes no byte. The types of this crate are made of these functions; a host calls them
//! where it has images, or wants the bare numbers.
use crate::edits::Edit;

/// The largest length of a payload.
pub const MAX_PAYLOAD: usize = 60;

/// The largest length of a text.
pub const MAX_TEXT: usize = 51;

/// The largest length of an ACK's information.
pub const MAX_INFORMATION: usize = 52;

/// The largest length of a popup.
pub const MAX_POPUP: usize = 55;

/// Bytes of the image of a command.
pub const RECORD_SIZE: usize = 70;

/// Bytes of the image of a text.
pub const TEXT_SIZE: usize = 52;

/// Bytes of the image of an ACK.
pub const ACK_SIZE: usize = 56;

/// Bytes of the image of a popup.
pub const POPUP_SIZE: usize = 56;

/// Bytes of the image of a popup's fields.
pub const POPUP_FIELDS_SIZE: usize = 268;

/// Bytes of an edit in a list: field, then number, 4 each.
pub const EDIT_SIZE: usize = 8;

/// Bytes of a block of the log.
pub const BLOCK_SIZE: usize = 512;

/// The most bytes that the records of a block take.
pub const MAX_USED: usize = 505;

/// Bytes of the image of a replay, the state kept between blocks and between the events of one.
pub const REPLAY_SIZE: usize = 7;

/// Bytes of the image of an event.
pub const EVENT_SIZE: usize = 80;

/// Bytes of the image of a question, the state kept between a popup and its answer.
pub const QUESTION_SIZE: usize = 66;

/// What a word says: 0, accepted, or the number of a refusal.
#[inline]
pub const fn number(word: u32) -> u8 {
    word as u8
}

/// What an accepted word counts: the bytes that [`write()`] wrote; how [`question_return`] or [`question_command`] closed a question, as
/// [`Closed`](crate::Closed) numbers it, 0 where one opened. From every other function it is 0.
#[inline]
pub const fn count(word: u32) -> usize {
    (word >> 8 & 0xFF) as usize
}

/// The place of a refusal, as a word says: 0 so far.
#[inline]
pub const fn place(word: u32) -> usize {
    (word >> 16) as usize
}

extern "C" {
    fn crsf_read(payload: *const u8, len: usize, record: *mut u8, record_len: usize) -> u32;
    fn crsf_write(record: *const u8, record_len: usize, buffer: *mut u8, len: usize) -> u32;
    fn crsf_edit(payload: *mut u8, len: usize, field: u32, number: u32) -> u32;
    fn crsf_edit_list(
        payload: *mut u8,
        len: usize,
        edits: *const u8,
        edits_len: usize,
        answers: *mut u8,
        answers_len: usize,
    ) -> u32;
    fn crsf_text(bytes: *const u8, len: usize, text: *mut u8, text_len: usize) -> u32;
    fn crsf_ack(
        command_id: u8,
        sub_command_id: u8,
        action: u8,
        information: *const u8,
        len: usize,
        ack: *mut u8,
        ack_len: usize,
    ) -> u32;
    fn crsf_popup(fields: *const u8, fields_len: usize, popup: *mut u8, popup_len: usize) -> u32;
    fn crsf_popup_fields(
        popup: *const u8,
        popup_len: usize,
        fields: *mut u8,
        fields_len: usize,
    ) -> u32;
    fn crsf_replay(
        replay: *mut u8,
        replay_len: usize,
        position: u32,
        block: *const u8,
        len: usize,
        event: *mut u8,
        event_len: usize,
    ) -> u32;
    fn crsf_question_ask(
        question: *mut u8,
        question_len: usize,
        second: u32,
        popup: *const u8,
        popup_len: usize,
    ) -> u32;
    fn crsf_question_return(
        question: *mut u8,
        question_len: usize,
        second: u32,
        value: u8,
        response: u8,
    ) -> u32;
    fn crsf_question_command(
        question: *mut u8,
        question_len: usize,
        second: u32,
        record: *const u8,
        record_len: usize,
    ) -> u32;
    fn crsf_check(bytes: *const u8, len: usize, start: u8) -> u8;
}

// What crsf.h asks of a caller, each function below has from its slices: that they may be read, those that are not const written, and
// that one that is written overlaps no other. C keeps none of them.

/// Reads a payload into the image of a command.
#[inline]
pub fn read(payload: &[u8], record: &mut [u8]) -> u32 {
    // SAFETY: both slices are valid for the call, and `record` is ours alone.
    unsafe {
        crsf_read(
            payload.as_ptr(),
            payload.len(),
            record.as_mut_ptr(),
            record.len(),
        )
    }
}

/// Writes the command of an image into the front of a buffer; the word has the count.
#[inline]
pub fn write(record: &[u8], buffer: &mut [u8]) -> u32 {
    // SAFETY: both slices are valid for the call, and `buffer` is ours alone.
    unsafe {
        crsf_write(
            record.as_ptr(),
            record.len(),
            buffer.as_mut_ptr(),
            buffer.len(),
        )
    }
}

/// Sets one field of the command that a payload holds, in place.
#[inline]
pub fn edit(payload: &mut [u8], field: u32, number: u32) -> u32 {
    // SAFETY: the slice is valid for the call, and ours alone.
    unsafe { crsf_edit(payload.as_mut_ptr(), payload.len(), field, number) }
}

/// Carries out a list of edits, [`EDIT_SIZE`] bytes each, one after the other; each one's number goes to its answer byte.
#[inline]
pub fn edit_list(payload: &mut [u8], edits: &[u8], answers: &mut [u8]) -> u32 {
    let (at, len) = (payload.as_mut_ptr(), payload.len());
    let (from, size) = (edits.as_ptr(), edits.len());
    let (to, room) = (answers.as_mut_ptr(), answers.len());
    // SAFETY: all three slices are valid for the call, and `payload` and `answers` are ours alone.
    unsafe { crsf_edit_list(at, len, from, size, to, room) }
}

/// The image of the text of these bytes.
#[inline]
pub fn text(bytes: &[u8], text: &mut [u8]) -> u32 {
    // SAFETY: both slices are valid for the call, and `text` is ours alone.
    unsafe { crsf_text(bytes.as_ptr(), bytes.len(), text.as_mut_ptr(), text.len()) }
}

/// The image of an ACK.
#[inline]
pub fn ack(
    command_id: u8,
    sub_command_id: u8,
    action: u8,
    information: &[u8],
    ack: &mut [u8],
) -> u32 {
    let (from, len) = (information.as_ptr(), information.len());
    let (to, room) = (ack.as_mut_ptr(), ack.len());
    // SAFETY: both slices are valid for the call, and `ack` is ours alone.
    unsafe { crsf_ack(command_id, sub_command_id, action, from, len, to, room) }
}

/// The image of the popup of these fields, which are an image, too.
#[inline]
pub fn popup(fields: &[u8], popup: &mut [u8]) -> u32 {
    // SAFETY: both slices are valid for the call, and `popup` is ours alone.
    unsafe {
        crsf_popup(
            fields.as_ptr(),
            fields.len(),
            popup.as_mut_ptr(),
            popup.len(),
        )
    }
}

/// The image of the fields of a popup, which is an image, too.
#[inline]
pub fn popup_fields(popup: &[u8], fields: &mut [u8]) -> u32 {
    // SAFETY: both slices are valid for the call, and `fields` is ours alone.
    unsafe {
        crsf_popup_fields(
            popup.as_ptr(),
            popup.len(),
            fields.as_mut_ptr(),
            fields.len(),
        )
    }
}

/// Hands on the next event of a block of the log; a damaged block goes by `position`. `replay` is changed in place.
#[inline]
pub fn replay(replay: &mut [u8], position: u32, block: &[u8], event: &mut [u8]) -> u32 {
    // SAFETY: all slices are valid for the call, and `replay` and `event` are ours alone.
    unsafe {
        crsf_replay(
            replay.as_mut_ptr(),
            replay.len(),
            position,
            block.as_ptr(),
            block.len(),
            event.as_mut_ptr(),
            event.len(),
        )
    }
}

/// The popup of an image was sent. `question` is changed in place.
#[inline]
pub fn question_ask(question: &mut [u8], second: u32, popup: &[u8]) -> u32 {
    let (at, len) = (question.as_mut_ptr(), question.len());
    // SAFETY: both slices are valid for the call, and `question` is ours alone.
    unsafe { crsf_question_ask(at, len, second, popup.as_ptr(), popup.len()) }
}

/// A value came back; response 1 processes it, 0 cancels. `question` is changed in place; the word has how it closed.
#[inline]
pub fn question_return(question: &mut [u8], second: u32, value: u8, response: u8) -> u32 {
    let (at, len) = (question.as_mut_ptr(), question.len());
    // SAFETY: the slice is valid for the call, and ours alone.
    unsafe { crsf_question_return(at, len, second, value, response) }
}

/// The command of an image was sent, or has come: a popup or a returned value. `question` is changed in place; the word has how it closed.
#[inline]
pub fn question_command(question: &mut [u8], second: u32, record: &[u8]) -> u32 {
    let (at, len) = (question.as_mut_ptr(), question.len());
    // SAFETY: both slices are valid for the call, and `question` is ours alone.
    unsafe { crsf_question_command(at, len, second, record.as_ptr(), record.len()) }
}

/// The check of bytes, from 0 or from the check of what came before them.
#[inline]
pub fn check(bytes: &[u8], start: u8) -> u8 {
    // SAFETY: the slice is valid for the call.
    unsafe { crsf_check(bytes.as_ptr(), bytes.len(), start) }
}

/// A list of edits as it lies.
pub(crate) fn list_bytes(edits: &[Edit]) -> &[u8] {
    // SAFETY: an edit is EDIT_SIZE bytes and nothing else (transparent), so the list is so many bytes in a row, borrowed as long.
    unsafe { core::slice::from_raw_parts(edits.as_ptr().cast(), core::mem::size_of_val(edits)) }
}
