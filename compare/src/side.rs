//! The C boundary and the types over it as one value, so that either side, or a wrong one, can stand behind it.
//!
//! Each function but the check answers a word: document 01's number in bits 0-7 (0: accepted), the count in bits 8-15.
pub use crsf::boundary::{count, number};

use crate::types::Types;

/// What is given, and what is lent.
pub type Lending = fn(&[u8], &mut [u8]) -> u32;

/// Of the state and the event both are lent.
pub type Replay = fn(&mut [u8], u32, &[u8], &mut [u8]) -> u32;

/// Calls on a question, which is lent: it is changed in place.
#[derive(Clone, Copy)]
pub struct Questions {
    /// Question, second, popup image.
    pub ask: fn(&mut [u8], u32, &[u8]) -> u32,
    /// Question, second, value, response.
    pub returned: fn(&mut [u8], u32, u8, u8) -> u32,
    /// Question, second, record image.
    pub command: fn(&mut [u8], u32, &[u8]) -> u32,
}

#[derive(Clone, Copy)]
pub struct Side {
    /// Payload, record image.
    pub read: Lending,
    /// Record image, buffer.
    pub write: Lending,
    /// Payload, buffer: read, and written again.
    pub again: Lending,
    /// Payload, field, number: edited in place.
    pub edit: fn(&mut [u8], u32, u32) -> u32,
    /// Payload, edits, answers: edited in place.
    pub edit_list: fn(&mut [u8], &[u8], &mut [u8]) -> u32,
    /// Bytes, text image.
    pub text: Lending,
    /// Command id, sub id and action; information, ACK image.
    pub ack: fn([u8; 3], &[u8], &mut [u8]) -> u32,
    /// Image of fields, popup image.
    pub popup: Lending,
    /// Popup image, image of fields.
    pub popup_fields: Lending,
    /// State, position, block, event: the state is changed in place.
    pub replay: Replay,
    pub questions: Questions,
    /// Bytes, start.
    pub check: fn(&[u8], u8) -> u8,
    /// What a Rust host uses.
    pub types: Types,
    /// A side that is wrong on purpose is seen by one difference: it ends the run.
    pub until_first: bool,
}
