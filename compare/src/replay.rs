//! Document 02's replay of the block log, over the Rust's own reader: a step gives the next event of a block, a state stands between
//! two steps.
use uf_crsf::packets::{CrsfPacket, DirectCommands};

use crate::blocks::{Block, Damage, Record, FIRST, LAST, SIZE};
use crate::theirs;

/// What is handed on, by the number of its block and by the place of its record in it.
#[derive(Debug, PartialEq)]
pub enum Event {
    /// No record, in order.
    Nothing {
        block: u32,
    },
    Command {
        block: u32,
        place: usize,
        command: DirectCommands,
    },
    /// With document 01's number.
    Refused {
        block: u32,
        place: usize,
        number: u8,
    },
    /// By the position that its caller gives, "even if its number is legible".
    Damaged {
        position: u32,
        damage: Damage,
    },
    Gap {
        block: u32,
    },
    StepBack {
        block: u32,
    },
}

#[derive(Clone, Copy, Debug, Default, PartialEq, Eq)]
pub struct Replay {
    /// Number of the last sound block.
    last: Option<u32>,
    /// Place of the next record, while a block is handed on.
    next: Option<usize>,
}

impl Replay {
    /// A state that was kept, if it is within its limits.
    pub fn kept(last: Option<u32>, next: Option<usize>) -> Option<Self> {
        let within = match next {
            Some(place) => last.is_some() && (FIRST..=LAST).contains(&place),
            None => true,
        };
        within.then_some(Replay { last, next })
    }

    pub fn last(&self) -> Option<u32> {
        self.last
    }

    pub fn next(&self) -> Option<usize> {
        self.next
    }

    /// Whether the block has more events.
    pub fn more(&self) -> bool {
        self.next.is_some()
    }

    /// The next event; none, and nothing changes, where the block has no record at the place that the state keeps.
    #[inline]
    pub fn step(&mut self, position: u32, bytes: &[u8]) -> Option<Event> {
        let Some(place) = self.next else {
            return Some(self.begin(position, bytes));
        };
        let block = Block::of(bytes)?;
        let record = block.record(place)?;
        Some(self.hand_on(block.number(), record))
    }

    /// A damaged block is skipped whole, "and the others come out as if it were absent".
    #[inline]
    fn begin(&mut self, position: u32, bytes: &[u8]) -> Event {
        match Block::judged(bytes) {
            Ok(block) => self.begin_sound(block),
            Err(damage) => Event::Damaged { position, damage },
        }
    }

    fn begin_sound(&mut self, block: Block) -> Event {
        let number = block.number();
        let before = self.last.replace(number);
        let first = block.record(FIRST);
        if let Some(report) = before.and_then(|before| report(before, number)) {
            self.next = first.map(|record| record.place);
            return report;
        }
        match first {
            Some(record) => self.hand_on(number, record),
            None => Event::Nothing { block: number },
        }
    }

    #[inline]
    fn hand_on(&mut self, block: u32, record: Record) -> Event {
        self.next = record.next;
        let place = record.place;
        match read(record.payload) {
            Ok(command) => Event::Command {
                block,
                place,
                command,
            },
            Err(number) => Event::Refused {
                block,
                place,
                number,
            },
        }
    }
}

/// The Rust's own reader, but for the families left behind, which are document 01's 4.
#[inline]
fn read(payload: &[u8]) -> Result<DirectCommands, u8> {
    match theirs::left_behind(payload) {
        true => Err(theirs::LEFT_BEHIND as u8),
        false => DirectCommands::from_bytes(payload).map_err(theirs::number),
    }
}

/// "A sound block whose number isn't exactly one above that of the sound block before it is reported, as a gap if higher, else as a
/// step back". None is one above FFFFFFFF.
fn report(before: u32, block: u32) -> Option<Event> {
    if before.checked_add(1) == Some(block) {
        None
    } else if block > before {
        Some(Event::Gap { block })
    } else {
        Some(Event::StepBack { block })
    }
}

/// The events of a whole log; how many blocks were handed in. What is left over at its end is one more block, of fewer bytes.
pub fn log(bytes: &[u8], mut visit: impl FnMut(Event)) -> u32 {
    let mut replay = Replay::default();
    let mut position = 0;
    for block in bytes.chunks(SIZE) {
        loop {
            let event = replay.step(position, block);
            visit(event.expect("a block that was judged holds the records of the state"));
            if !replay.more() {
                break;
            }
        }
        position += 1;
    }
    position
}
