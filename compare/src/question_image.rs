//! Questions behind the C boundary: a question is an image that is lent and changed in place, popups and commands are images that are
//! given.
use uf_crsf::packets::{CommandPayload, DirectCommands, ScreenCommand};

use crate::fields::{self, POPUP_SIZE};
use crate::image::{self, SCREEN, STORED_LEN, VALUES};
use crate::question::{Done, Question, Refusal, Sent};

pub const SIZE: usize = 66;

pub const STARTED: usize = 0;
pub const OPEN: usize = 1;
pub const SENT: usize = 2;
pub const LAST: usize = 6;
pub const POPUP: usize = 10;

const INVALID: u32 = 2;
const NOT_MADE: u32 = 5;

pub type Image = [u8; SIZE];

/// Whether a call was accepted, whether a question is open, when it was sent, the last accepted second, the popup's image.
pub fn with(started: u8, open: u8, sent: u32, last: u32, popup: &[u8; POPUP_SIZE]) -> Image {
    let mut image = [0; SIZE];
    image[STARTED] = started;
    image[OPEN] = open;
    image[SENT..LAST].copy_from_slice(&sent.to_be_bytes());
    image[LAST..POPUP].copy_from_slice(&last.to_be_bytes());
    image[POPUP..].copy_from_slice(popup);
    image
}

/// A number of four bytes.
fn second_at(image: &Image, place: usize) -> u32 {
    let bytes = std::array::from_fn(|i| image[place + i]);
    u32::from_be_bytes(bytes)
}

/// The question of an image, if it is one within its limits: "not started, all the rest is 0; not open, sent and popup are 0
/// throughout; open, the popup is made and sent is at most the last accepted second".
pub fn question(image: &[u8]) -> Option<Question> {
    let image: &Image = image.try_into().ok()?;
    let zeros = |bytes: &[u8]| bytes.iter().all(|byte| *byte == 0);
    let last = Some(second_at(image, LAST));
    match (image[STARTED], image[OPEN]) {
        (0, _) if zeros(image) => Some(Question::default()),
        (1, 0) if zeros(&image[SENT..LAST]) && zeros(&image[POPUP..]) => Question::kept(last, None),
        (1, 1) => {
            let second = second_at(image, SENT);
            let popup = fields::popup(&image[POPUP..])?;
            Question::kept(last, Some(Sent { second, popup }))
        }
        _ => None,
    }
}

fn image_of(question: &Question) -> Image {
    let mut popup = [0; POPUP_SIZE];
    let mut second = 0;
    if let Some(sent) = question.open() {
        fields::put_stored(&mut popup, &image::popup_bytes(&sent.popup));
        second = sent.second;
    }
    let started = question.last().is_some().into();
    let open = question.open().is_some().into();
    with(started, open, second, question.last().unwrap_or(0), &popup)
}

/// "The count of the answer word says how it closed".
fn word(done: Done) -> u32 {
    let count = match done {
        Done::Opened => 0,
        Done::Processed => 1,
        Done::Cancelled => 2,
        Done::Expired => 3,
    };
    count << 8
}

fn refused(why: Refusal) -> u32 {
    why.number().into()
}

/// A question beyond its limits comes before all else; a refusal changes no lent byte.
fn called(lent: &mut [u8], call: impl FnOnce(&mut Question) -> Result<Done, u32>) -> u32 {
    let Some(mut question) = question(lent) else {
        return NOT_MADE;
    };
    match call(&mut question) {
        Ok(done) => {
            lent.copy_from_slice(&image_of(&question));
            word(done)
        }
        Err(number) => number,
    }
}

pub fn ask(lent: &mut [u8], second: u32, popup: &[u8]) -> u32 {
    called(lent, |question| {
        let popup = fields::popup(popup).ok_or(NOT_MADE)?;
        question.ask(second, popup).map_err(refused)
    })
}

/// A response is a flag: "True to process, false to cancel", says the Rust.
pub fn returned(lent: &mut [u8], second: u32, value: u8, response: u8) -> u32 {
    called(lent, |question| {
        let processed = match response {
            0 => false,
            1 => true,
            _ => return Err(INVALID),
        };
        question.returned(second, value, processed).map_err(refused)
    })
}

/// The command of a record's image, as far as a question looks at it: stored bytes count in a popup alone.
fn command_of(record: &[u8]) -> Option<DirectCommands> {
    let mut shown: image::Image = record.try_into().ok()?;
    if shown[2..4] != [SCREEN, 0x01] {
        shown[STORED_LEN..].fill(0);
        return image::command(&shown);
    }
    let no_values = shown[VALUES..STORED_LEN].iter().all(|byte| *byte == 0);
    let popup = fields::popup(&shown[STORED_LEN..])?;
    no_values.then_some(DirectCommands {
        dst_addr: shown[0],
        src_addr: shown[1],
        payload: CommandPayload::Screen(ScreenCommand::PopupMessageStart(popup)),
    })
}

pub fn command(lent: &mut [u8], second: u32, record: &[u8]) -> u32 {
    called(lent, |question| {
        let command = command_of(record).ok_or(NOT_MADE)?;
        question.command(second, command).map_err(refused)
    })
}
