//! Commands, ACKs, a popup's fields, replays, events and questions as the images that cross to C, and back (`include/crsf.h`, "IMAGES").
//!
//! Every image that comes back from C is that of a record, so that taking one out needs no answer for another.
use core::fmt;

use crate::boundary::ACK_SIZE;
use crate::packets::CommandAck;

mod fields;
mod log;
mod numbers;
mod question;
mod record;

pub(crate) use fields::{fields, of_fields};
pub(crate) use log::{between_blocks, event, last_block, more};
pub(crate) use question::{asked, last_second};
pub(crate) use record::{command, of_command};

use numbers::{ACK_ACTION, ACK_COMMAND_ID, ACK_LENGTH, ACK_STORED_SIZE, ACK_SUB_COMMAND_ID};

/// Why a case is not looked for.
const HANDED_OUT: &str = "an image that C hands out is that of a record";

/// A length, so many bytes, then zeros: a text, a popup, an ACK's information, as they lie in every image.
#[derive(Clone, PartialEq)]
pub(crate) struct Stored<const SIZE: usize>([u8; SIZE]);

/// An ACK's information: all of its image from the length on.
pub(crate) type Information = Stored<ACK_STORED_SIZE>;

impl<const SIZE: usize> Stored<SIZE> {
    /// A copy of what lies at a place of an image.
    pub(crate) fn at(image: &[u8], place: usize) -> Self {
        let mut stored = [0; SIZE];
        stored.copy_from_slice(&image[place..place + SIZE]);
        Self(stored)
    }

    /// Copied to a place of an image.
    fn put(&self, image: &mut [u8], place: usize) {
        image[place..place + SIZE].copy_from_slice(&self.0);
    }

    pub(crate) fn image(&self) -> &[u8; SIZE] {
        &self.0
    }

    pub(crate) fn bytes(&self) -> &[u8] {
        &self.0[1..][..usize::from(self.0[0])]
    }
}

/// As uf-crsf shows its vectors: the bytes alone.
impl<const SIZE: usize> fmt::Debug for Stored<SIZE> {
    fn fmt(&self, f: &mut fmt::Formatter<'_>) -> fmt::Result {
        self.bytes().fmt(f)
    }
}

/// A flag of an image.
fn flag(byte: u8) -> bool {
    match byte {
        0 => false,
        1 => true,
        _ => unreachable!("{HANDED_OUT}: its flags are 0 or 1, not {byte}"),
    }
}

fn word(image: &[u8], at: usize) -> u16 {
    u16::from_be_bytes([image[at], image[at + 1]])
}

fn long(image: &[u8], at: usize) -> u32 {
    u32::from(word(image, at)) << 16 | u32::from(word(image, at + 2))
}

/// The ACK of an image that C handed out.
pub(crate) fn ack(image: &[u8; ACK_SIZE]) -> CommandAck {
    CommandAck {
        command_id: image[ACK_COMMAND_ID],
        sub_command_id: image[ACK_SUB_COMMAND_ID],
        action: image[ACK_ACTION],
        information: Stored::at(image, ACK_LENGTH),
    }
}
