//! The replay behind the C boundary: the state and the event as the images that the boundary has.
use crate::image::{self, Image, FC};
use crate::replay::{Event, Replay};

pub const STATE_SIZE: usize = 7;
pub const EVENT_SIZE: usize = 80;

pub const KIND: usize = 0;
pub const MORE: usize = 1;
pub const BLOCK: usize = 2;
pub const PLACE: usize = 6;
pub const NUMBER: usize = 8;
/// Behind it the place in the payload, which no refusal has so far.
pub const RECORD: usize = 10;

pub const NOTHING: u8 = 0;
pub const COMMAND: u8 = 1;
pub const REFUSED: u8 = 2;
pub const DAMAGED: u8 = 3;
pub const GAP: u8 = 4;
pub const STEP_BACK: u8 = 5;

const OVERFLOW: u32 = 3;
const BEYOND_LIMITS: u32 = 5;

pub type State = [u8; STATE_SIZE];

pub fn state_image(started: u8, number: u32, place: u16) -> State {
    let mut image = [0; STATE_SIZE];
    image[0] = started;
    image[1..5].copy_from_slice(&number.to_be_bytes());
    image[5..].copy_from_slice(&place.to_be_bytes());
    image
}

/// The state of an image, if it is one within its limits.
fn state(image: &[u8]) -> Option<Replay> {
    let [started, a, b, c, d, high, low] = *<&State>::try_from(image).ok()?;
    let number = u32::from_be_bytes([a, b, c, d]);
    let next = match u16::from_be_bytes([high, low]) {
        0 => None,
        place => Some(place.into()),
    };
    match (started, number) {
        (0, 0) => Replay::kept(None, next),
        (1, _) => Replay::kept(Some(number), next),
        _ => None,
    }
}

fn image_of(replay: &Replay) -> State {
    let started = replay.last().is_some().into();
    let place = replay.next().unwrap_or(0) as u16;
    state_image(started, replay.last().unwrap_or(0), place)
}

/// The blank command is disarm with both addresses 0.
fn blank() -> Image {
    image::with(FC, 0x01, &[], &[])
}

pub fn event_image(event: &Event, more: bool) -> [u8; EVENT_SIZE] {
    let (kind, block, place, number) = match *event {
        Event::Nothing { block } => (NOTHING, block, 0, 0),
        Event::Command { block, place, .. } => (COMMAND, block, place, 0),
        Event::Refused {
            block,
            place,
            number,
        } => (REFUSED, block, place, number),
        Event::Damaged { position, damage } => (DAMAGED, position, 0, damage.number()),
        Event::Gap { block } => (GAP, block, 0, 0),
        Event::StepBack { block } => (STEP_BACK, block, 0, 0),
    };
    let record = match event {
        Event::Command { command, .. } => {
            image::of(command).expect("a command of a family that is not left behind")
        }
        _ => blank(),
    };
    let mut image = [0; EVENT_SIZE];
    image[KIND] = kind;
    image[MORE] = more.into();
    image[BLOCK..PLACE].copy_from_slice(&block.to_be_bytes());
    image[PLACE..NUMBER].copy_from_slice(&(place as u16).to_be_bytes());
    image[NUMBER] = number;
    image[RECORD..].copy_from_slice(&record);
    image
}

/// The next event of a block. Room comes before all else; a refusal changes no lent byte.
pub fn replay(lent: &mut [u8], position: u32, block: &[u8], event: &mut [u8]) -> u32 {
    let Some(place) = event.get_mut(..EVENT_SIZE) else {
        return OVERFLOW;
    };
    let Some(mut replay) = state(lent) else {
        return BEYOND_LIMITS;
    };
    let Some(next) = replay.step(position, block) else {
        return BEYOND_LIMITS;
    };
    lent.copy_from_slice(&image_of(&replay));
    place.copy_from_slice(&event_image(&next, replay.more()));
    0
}
