//! What is kept of a log as the image of a replay, and events from theirs.
use super::numbers::*;
use super::{command, flag, long, word, HANDED_OUT};
use crate::boundary::{EVENT_SIZE, RECORD_SIZE, REPLAY_SIZE};
use crate::error::refusal;
use crate::replay::Event;

type Kept = [u8; REPLAY_SIZE];
type Image = [u8; EVENT_SIZE];

/// The image of a replay that waits for a block, after the last sound one.
pub(crate) fn between_blocks(last: Option<u32>) -> Kept {
    let mut image = [0; REPLAY_SIZE];
    if let Some(number) = last {
        image[REPLAY_STARTED] = 1;
        image[REPLAY_BLOCK..REPLAY_PLACE].copy_from_slice(&number.to_be_bytes());
    }
    image
}

/// The number of the last sound block, which an image that C handed out has also in the middle of a block.
pub(crate) fn last_block(image: &Kept) -> Option<u32> {
    flag(image[REPLAY_STARTED]).then(|| long(image, REPLAY_BLOCK))
}

/// Whether the block has more events behind this one.
pub(crate) fn more(image: &Image) -> bool {
    flag(image[EVENT_MORE])
}

/// The event of an image that C handed out; `None` where nothing is to be told.
pub(crate) fn event(image: &Image) -> Option<Event> {
    let block = long(image, EVENT_BLOCK);
    let place = word(image, EVENT_PLACE).into();
    let number = image[EVENT_NUMBER];
    Some(match image[EVENT_KIND] {
        KIND_NOTHING => return None,
        KIND_COMMAND => Event::Command {
            block,
            place,
            command: command(&record(image)),
        },
        KIND_REFUSED => Event::Refused {
            block,
            place,
            error: refusal(number),
            payload_place: image[EVENT_PAYLOAD_PLACE].into(),
        },
        KIND_DAMAGED => Event::Damaged {
            position: block,
            error: refusal(number),
        },
        KIND_GAP => Event::Gap { block },
        KIND_STEP_BACK => Event::StepBack { block },
        kind => unreachable!("{HANDED_OUT}: there is no kind {kind} of events"),
    })
}

fn record(image: &Image) -> [u8; RECORD_SIZE] {
    let mut record = [0; RECORD_SIZE];
    record.copy_from_slice(&image[EVENT_RECORD..]);
    record
}
