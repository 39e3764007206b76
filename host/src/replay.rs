//! The log of blocks, replayed.
use core::iter::FusedIterator;

use crate::boundary::{self, EVENT_SIZE, REPLAY_SIZE};
use crate::error::{answer, CrsfParsingError};
use crate::image;
use crate::packets::DirectCommands;

/// A log that is replayed block by block. It keeps the number of the last sound block and nothing else, so that a log of any length takes
/// the same few bytes.
///
/// Blocks are handed in one after the other, each whole ([`block`](Replay::block)). A damaged one changes nothing: the others come out as
/// if it were absent.
///
/// ```
/// use crsf::packets::{CommandPayload, FcCommand};
/// use crsf::{boundary, CrsfParsingError, Event, Replay};
///
/// // block 7, one record of 5 bytes: length byte and payload take 6 used bytes
/// let mut block = [0; boundary::BLOCK_SIZE];
/// block[..12].copy_from_slice(&[0, 0, 0, 7, 0, 6, 5, 0xC8, 0xEA, 0x01, 0x01, 0xFE]);
/// block[511] = boundary::check(&block[..511], 0);
///
/// let mut replay = Replay::new();
/// for event in replay.block(0, &block) {
///     let Event::Command { block: 7, place: 6, command } = event else { panic!("{event:?}") };
///     assert_eq!(command.payload, CommandPayload::Fc(FcCommand::ForceDisarm));
/// }
///
/// // the same block once more is a step back, told before its commands
/// assert_eq!(replay.block(1, &block).next(), Some(Event::StepBack { block: 7 }));
///
/// // a damaged one goes by its position
/// block[20] = 1;
/// let damaged = Event::Damaged { position: 2, error: CrsfParsingError::BlockCheck };
/// assert!(replay.block(2, &block).eq([damaged]));
/// ```
#[derive(Clone, Debug, Default, PartialEq, Eq)]
pub struct Replay {
    last: Option<u32>,
}

impl Replay {
    /// Before the first block.
    pub const fn new() -> Self {
        Self { last: None }
    }

    /// The next block, and what it gives. `position` is the caller's own count or address of it, by which it goes where it is damaged.
    ///
    /// The block has been taken when this returns: [`Events`] borrows its bytes, and not the replay. So a caller may leave the events
    /// before their end, or not look at them at all. What was left is not handed on later, and the next block is judged as a new one, as
    /// if all had been looked at. In C a block that is left before its end is still at hand, and what is handed in next is taken for it:
    /// here this cannot happen.
    ///
    /// ```
    /// # let log = [0; 2 * 512 + 100];
    /// use crsf::{boundary::BLOCK_SIZE, Replay};
    ///
    /// let mut replay = Replay::new();
    /// for (block, position) in log.chunks(BLOCK_SIZE).zip(0..) {
    ///     for event in replay.block(position, block) {
    ///         println!("{event:?}");
    ///     }
    /// }
    /// ```
    pub fn block<'a>(&mut self, position: u32, block: &'a [u8]) -> Events<'a> {
        let mut events = Events {
            position,
            block,
            kept: image::between_blocks(self.last),
            first: None,
            more: false,
        };
        events.first = Some(events.advance());
        self.last = image::last_block(&events.kept);
        events
    }
}

/// What a block of the log gives, in order.
#[derive(Clone, Debug, PartialEq)]
pub enum Event {
    /// A command, of the record that stands at that place of the block.
    Command {
        /// Number of the block.
        block: u32,
        /// Place of the record's length byte in the block.
        place: usize,
        /// The command.
        command: DirectCommands,
    },
    /// A record whose payload does not read.
    Refused {
        /// Number of the block.
        block: u32,
        /// Place of the record's length byte in the block.
        place: usize,
        /// As reading refuses the payload.
        error: CrsfParsingError,
        /// Place of the refusal in the payload: 0 so far.
        payload_place: usize,
    },
    /// A block that is skipped whole.
    Damaged {
        /// The position that the caller gave; the number in the block is not to be trusted.
        position: u32,
        /// `InvalidPayloadLength`, `BlockCheck` or `BlockLayout`: the first that holds.
        error: CrsfParsingError,
    },
    /// The block's number is more than one above that of the sound block before it. Its records follow.
    Gap {
        /// Number of the block.
        block: u32,
    },
    /// The block's number is not above that of the sound block before it. Its records follow.
    StepBack {
        /// Number of the block.
        block: u32,
    },
}

/// The events of a block, from [`Replay::block`]. A sound block in order without records has none.
#[derive(Clone, Debug)]
pub struct Events<'a> {
    position: u32,
    block: &'a [u8],
    kept: [u8; REPLAY_SIZE],
    first: Option<[u8; EVENT_SIZE]>, // which told Replay::block what the replay keeps
    more: bool,
}

impl Events<'_> {
    /// The image of the next event.
    fn advance(&mut self) -> [u8; EVENT_SIZE] {
        let mut event = [0; EVENT_SIZE];
        let word = boundary::replay(&mut self.kept, self.position, self.block, &mut event);
        match answer(word) {
            Ok(_) => event,
            Err(refusal) => unreachable!("a block goes on as long as there is more, not {refusal}"),
        }
    }
}

impl Iterator for Events<'_> {
    type Item = Event;

    fn next(&mut self) -> Option<Event> {
        let event = match self.first.take() {
            Some(first) => first,
            None if self.more => self.advance(),
            None => return None,
        };
        self.more = image::more(&event);
        image::event(&event)
    }
}

/// Only a block's one event tells nothing, so that behind a `None` there is no other event.
impl FusedIterator for Events<'_> {}
