//! The Rust, put behind the same boundary. What it does not have is document 01's: 4 for the families that are left behind, 5 for what
//! its types cannot hold, a lent slice that keeps its bytes where the answer is a refusal, and edits, put together from its reading, its
//! types and its writing. The replay is document 02's, over its reading; so are the questions, over its popups.
use uf_crsf::packets::{
    CommandAck, CommandString, CrsfPacket, DirectCommands, ScreenPopup, COMMAND_CRC_ALGO,
};
use uf_crsf::CrsfParsingError;

use crate::changes::Change;
use crate::edits;
use crate::fields;
use crate::image;
use crate::question_image;
use crate::replay_image;
use crate::side::{Questions, Side};
use crate::types::{self, Types};

const LENGTH: u32 = 1;
const OVERFLOW: u32 = 3;
pub const LEFT_BEHIND: u32 = 4;
const NOT_MADE: u32 = 5;
const NOT_AS_WRITTEN: u32 = 6;

pub const ACK_SIZE: usize = 56;

/// Document 01's number of a refusal.
pub fn number(error: CrsfParsingError) -> u8 {
    match error {
        CrsfParsingError::InvalidPayloadLength => 1,
        CrsfParsingError::InvalidPayload => 2,
        CrsfParsingError::BufferOverflow => 3,
        other => panic!("{other:?} is no answer of the direct commands"),
    }
}

fn refused(error: CrsfParsingError) -> u32 {
    number(error).into()
}

fn word(written: Result<usize, CrsfParsingError>) -> u32 {
    match written {
        Ok(count) => (count as u32 % 256) << 8,
        Err(error) => refused(error),
    }
}

pub fn check_in_two(first: &[u8], second: &[u8]) -> u8 {
    let mut digest = COMMAND_CRC_ALGO.digest();
    digest.update(first);
    digest.update(second);
    digest.finalize()
}

/// The digest starts at 0 alone. Any other start is added to the first byte, as document 01's remainder has it.
fn check(bytes: &[u8], start: u8) -> u8 {
    match bytes {
        [] => start,
        [first, rest @ ..] => check_in_two(&[first ^ start], rest),
    }
}

/// The check that belongs at the end of a payload of which all else is given.
pub fn payload_check(all_but_last: &[u8]) -> u8 {
    check_in_two(&[DirectCommands::PACKET_TYPE as u8], all_but_last)
}

/// A payload of right length and check whose id is that of a family left behind.
pub fn left_behind(payload: &[u8]) -> bool {
    (4..=60).contains(&payload.len())
        && matches!(payload[2], 0x03 | 0x13)
        && payload[payload.len() - 1] == payload_check(&payload[..payload.len() - 1])
}

/// An image handed out at the front of a slice that has room for it.
fn hand_out<const N: usize>(lent: &mut [u8], image: Result<[u8; N], u32>) -> u32 {
    match (lent.get_mut(..N), image) {
        (None, _) => OVERFLOW,
        (Some(_), Err(number)) => number,
        (Some(place), Ok(image)) => {
            place.copy_from_slice(&image);
            0
        }
    }
}

/// The Rust's own reader, but for the families left behind.
fn from_bytes(payload: &[u8]) -> Result<DirectCommands, u32> {
    if left_behind(payload) {
        return Err(LEFT_BEHIND);
    }
    DirectCommands::from_bytes(payload).map_err(refused)
}

fn read(payload: &[u8], record: &mut [u8]) -> u32 {
    let image = from_bytes(payload)
        .map(|command| image::of(&command).expect("a command of a family that is not left behind"));
    hand_out(record, image)
}

/// Where a write is refused, the buffer is put back.
fn put_back<E>(
    buffer: &mut [u8],
    write: impl FnOnce(&mut [u8]) -> Result<usize, E>,
) -> Result<usize, E> {
    let lent = buffer.to_vec();
    let written = write(buffer);
    if written.is_err() {
        buffer.copy_from_slice(&lent);
    }
    written
}

/// What the Rust's own writer answers.
fn to_bytes(command: &DirectCommands, buffer: &mut [u8]) -> u32 {
    word(put_back(buffer, |buffer| command.to_bytes(buffer)))
}

fn write(record: &[u8], buffer: &mut [u8]) -> u32 {
    match image::command(record) {
        Some(command) => to_bytes(&command, buffer),
        None => NOT_MADE,
    }
}

fn again(payload: &[u8], buffer: &mut [u8]) -> u32 {
    match from_bytes(payload) {
        Ok(command) => to_bytes(&command, buffer),
        Err(number) => number,
    }
}

/// The same with nothing done to the buffer: what the benchmark counts.
pub fn plain_again(payload: &[u8], buffer: &mut [u8]) -> u32 {
    word(DirectCommands::from_bytes(payload).and_then(|command| command.to_bytes(buffer)))
}

fn written(command: &DirectCommands) -> Vec<u8> {
    let mut buffer = [0; 60];
    let count = command.to_bytes(&mut buffer);
    buffer[..count.expect("a command that was read")].to_vec()
}

/// The command that was read, with another number in that field, written afresh.
fn edited(payload: &[u8], field: u32, number: u32) -> Result<Vec<u8>, u32> {
    let mut command = from_bytes(payload)?;
    if written(&command) != payload {
        return Err(NOT_AS_WRITTEN);
    }
    edits::set(&mut command, field, number)?;
    Ok(written(&command))
}

/// A field changed as a caller of the Rust would, into a buffer, with no look at what is written: what the benchmark counts.
pub fn plain_edit(payload: &[u8], change: Change, number: u32, buffer: &mut [u8]) -> u32 {
    let edited = DirectCommands::from_bytes(payload).and_then(|mut command| {
        change(&mut command, number);
        command.to_bytes(buffer)
    });
    word(edited)
}

fn edit(payload: &mut [u8], field: u32, number: u32) -> u32 {
    match edited(payload, field, number) {
        Ok(edited) => {
            payload.copy_from_slice(&edited);
            0
        }
        Err(number) => number,
    }
}

/// The edits of a list one after the other, each by what is given; before that, the refusals of the list's form.
pub fn each_edit(list: &[u8], answers: &mut [u8], mut edit: impl FnMut(u32, u32) -> u32) -> u32 {
    let whole = list.chunks_exact(edits::SIZE);
    if !whole.remainder().is_empty() {
        return LENGTH;
    }
    if answers.len() < whole.len() {
        return OVERFLOW;
    }
    for (one, answer) in whole.zip(answers) {
        let (field, number) = edits::one_of_list(one);
        *answer = edit(field, number) as u8;
    }
    0
}

fn edit_list(payload: &mut [u8], list: &[u8], answers: &mut [u8]) -> u32 {
    each_edit(list, answers, |field, number| edit(payload, field, number))
}

fn text(bytes: &[u8], text: &mut [u8]) -> u32 {
    let image = CommandString::new(bytes).map(|made| {
        let mut image = [0; fields::TEXT_SIZE];
        fields::put_stored(&mut image, made.as_bytes());
        image
    });
    hand_out(text, image.map_err(refused))
}

fn ack(ids: [u8; 3], information: &[u8], ack: &mut [u8]) -> u32 {
    let image = CommandAck::new(ids[0], ids[1], ids[2], information).map(|made| {
        let mut image = [0; ACK_SIZE];
        image[..3].copy_from_slice(&[made.command_id, made.sub_command_id, made.action]);
        fields::put_stored(&mut image[3..], made.information());
        image
    });
    hand_out(ack, image.map_err(refused))
}

fn popup(given: &[u8], popup: &mut [u8]) -> u32 {
    let image = fields::fields(given).ok_or(NOT_MADE).and_then(|given| {
        let made = ScreenPopup::new(&given).map_err(refused)?;
        let mut image = [0; fields::POPUP_SIZE];
        fields::put_stored(&mut image, &image::popup_bytes(&made));
        Ok(image)
    });
    hand_out(popup, image)
}

fn popup_fields(popup: &[u8], out: &mut [u8]) -> u32 {
    let image = fields::popup(popup)
        .ok_or(NOT_MADE)
        .and_then(|popup| popup.fields().map_err(refused));
    hand_out(out, image.map(|inspected| fields::of(&inspected)))
}

/// The Rust's types as a host uses them, but for the families left behind and what a refused write leaves.
const TYPES: Types = Types {
    read: |payload| match left_behind(payload) {
        true => Err(LEFT_BEHIND as u8),
        false => (types::rust::TYPES.read)(payload),
    },
    write: |payload, judged, buffer| match left_behind(payload) {
        true => Err(LEFT_BEHIND as u8),
        false => put_back(buffer, |buffer| {
            (types::rust::TYPES.write)(payload, judged, buffer)
        }),
    },
    ..types::rust::TYPES
};

pub const RUST: Side = Side {
    read,
    write,
    again,
    edit,
    edit_list,
    text,
    ack,
    popup,
    popup_fields,
    replay: replay_image::replay,
    questions: Questions {
        ask: question_image::ask,
        returned: question_image::returned,
        command: question_image::command,
    },
    check,
    types: TYPES,
    until_first: false,
};
