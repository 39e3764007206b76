//! Ours: the exported C functions of libcrsf.a and the types over them, by way of host/; and command_again of libagain.a.
use crsf::boundary;

use crate::side::{Questions, Side};
use crate::types;

extern "C" {
    fn command_again(payload: *const u8, len: usize, buffer: *mut u8, buffer_len: usize) -> u32;
}

fn again(payload: &[u8], buffer: &mut [u8]) -> u32 {
    let (from, len) = (payload.as_ptr(), payload.len());
    // Both slices' pointers and lengths are valid while the call lasts, which is all that the function does with them.
    unsafe { command_again(from, len, buffer.as_mut_ptr(), buffer.len()) }
}

fn ack([command_id, sub_command_id, action]: [u8; 3], information: &[u8], ack: &mut [u8]) -> u32 {
    boundary::ack(command_id, sub_command_id, action, information, ack)
}

pub const OURS: Side = Side {
    read: boundary::read,
    write: boundary::write,
    again,
    edit: boundary::edit,
    edit_list: boundary::edit_list,
    text: boundary::text,
    ack,
    popup: boundary::popup,
    popup_fields: boundary::popup_fields,
    replay: boundary::replay,
    questions: Questions {
        ask: boundary::question_ask,
        returned: boundary::question_return,
        command: boundary::question_command,
    },
    check: boundary::check,
    types: types::host::TYPES,
    until_first: false,
};
