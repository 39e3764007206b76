//! Blocks of the log, near every limit of document 02, and states of a replay: set out in full, or at random.
use crate::blocks::{self, FIRST, LAST, LENGTHS, MOST_USED, SIZE, USED};
use crate::cases::{self, payload};
use crate::every::ADDRESSES;
use crate::image::{FC, KINDS};
use crate::random::Random;
use crate::replay_image::{state_image, STATE_SIZE};
use crate::theirs;

/// Bytes of the shortest and of the longest record, with its length byte.
pub const SHORTEST: usize = 5;
pub const LONGEST: usize = 61;

/// The polynomial divided by x. Added to a right check it makes a wrong one, and the residue over all 512 bytes stays 0.
pub const RESIDUE_KEPT: u8 = 0xDD;

/// Block numbers at the edges of their width, and some with neighbours.
pub const NUMBERS: [u32; 18] = [
    0,
    1,
    2,
    3,
    5,
    6,
    7,
    255,
    256,
    65535,
    65536,
    0x00FF_FFFF,
    0x7FFF_FFFF,
    0x8000_0000,
    0x8000_0001,
    u32::MAX - 2,
    u32::MAX - 1,
    u32::MAX,
];

/// Used counts around what a record, a block and two bytes hold.
pub const USED_COUNTS: [u16; 18] = [
    0, 1, 4, 5, 6, 61, 62, 255, 256, 500, 504, 505, 506, 507, 511, 512, 65534, 65535,
];

pub const RECORD_LENGTHS: [u8; 12] = [0, 1, 2, 3, 4, 5, 59, 60, 61, 62, 128, 255];

/// Places around the edges of a state's.
pub const PLACES: [u16; 16] = [
    0, 1, 5, 6, 7, 11, 12, 255, 256, 505, 510, 511, 512, 513, 768, 65535,
];

/// The check renewed.
pub fn close(block: &mut [u8]) {
    if let Some((last, rest)) = block.split_last_mut() {
        *last = blocks::check(rest);
    }
}

/// A block that says how many bytes are used, with these at its records' place, zeros behind them, and closed.
pub fn block(number: u32, used: u16, records: &[u8]) -> Vec<u8> {
    let mut block = vec![0; SIZE];
    block[..USED].copy_from_slice(&number.to_be_bytes());
    block[USED..FIRST].copy_from_slice(&used.to_be_bytes());
    block[FIRST..FIRST + records.len()].copy_from_slice(records);
    close(&mut block);
    block
}

/// A block of these records.
pub fn sound(number: u32, records: &[u8]) -> Vec<u8> {
    block(number, records.len() as u16, records)
}

pub fn numbered(mut block: Vec<u8>, number: u32) -> Vec<u8> {
    block[..USED].copy_from_slice(&number.to_be_bytes());
    close(&mut block);
    block
}

/// A length byte and the payload.
pub fn record(payload: &[u8]) -> Vec<u8> {
    let len = u8::try_from(payload.len()).expect("a payload of at most 255 bytes");
    [&[len], payload].concat()
}

/// Where the used bytes end, of a block that tells it rightly.
fn end(block: &[u8]) -> usize {
    FIRST + usize::from(block[USED]) * 256 + usize::from(block[USED + 1])
}

/// The places of a sound block's length bytes.
pub fn places(block: &[u8]) -> Vec<usize> {
    let mut places = Vec::new();
    let mut place = FIRST;
    while place < end(block) {
        places.push(place);
        place += 1 + usize::from(block[place]);
    }
    places
}

/// Payloads by their length: made once, since a block takes many.
pub struct Payloads(Vec<Vec<Vec<u8>>>);

impl Payloads {
    /// Of every length one that reads (but for 4 bytes), one of a wrong check, one of an unknown id and two of families left behind;
    /// so many of every kind at random.
    pub fn new(random: &mut Random, of_kind: usize) -> Self {
        let mut by_length = vec![Vec::new(); LONGEST];
        for len in LENGTHS {
            let body = vec![0x01; len - 4];
            for id in [FC, FC, 0x02, 0x03, 0x13] {
                by_length[len].push(payload(ADDRESSES, id, &body));
            }
            by_length[len][0][len - 1] ^= 0x40;
        }
        for kind in KINDS {
            for _ in 0..of_kind {
                let near = cases::near_payload(random, kind);
                if LENGTHS.contains(&near.len()) {
                    by_length[near.len()].push(near);
                }
            }
        }
        Payloads(by_length)
    }

    fn of_length(&self, random: &mut Random, len: usize) -> &[u8] {
        let some = &self.0[len];
        &some[random.below(some.len())]
    }

    /// Records of at most so many bytes each that fill so many bytes: 0, or 5 and more.
    pub fn records(&self, random: &mut Random, fill: usize, longest: usize) -> Vec<u8> {
        let mut records = Vec::with_capacity(fill);
        while records.len() < fill {
            let left = fill - records.len();
            let most = longest.min(left);
            let any = SHORTEST + random.below(most - SHORTEST + 1);
            // what is left has to hold a record, too
            let size = match left - any {
                1..SHORTEST if left <= LONGEST => left,
                1..SHORTEST => left - SHORTEST,
                _ => any,
            };
            records.extend(record(self.of_length(random, size - 1)));
        }
        records
    }

    /// A sound block of any fill, mostly of few records.
    pub fn block(&self, random: &mut Random, number: u32) -> Vec<u8> {
        let any = SHORTEST + random.below(MOST_USED - SHORTEST + 1);
        let few = SHORTEST + random.below(2 * LONGEST);
        let fill = random.chosen(&[0, 5, few, few, few, few, any, any, 504, 505]);
        let longest = random.chosen(&[12, 30, LONGEST, LONGEST]);
        sound(number, &self.records(random, fill, longest))
    }
}

/// Any difference but none.
pub fn difference(random: &mut Random) -> u8 {
    match random.below(4) {
        0 => 1 + random.below(255) as u8,
        _ => 1 << random.below(8),
    }
}

/// A sound block damaged, or changed and closed again so that it may be sound, or of another length.
pub fn damage(random: &mut Random, block: &mut Vec<u8>) {
    let end = end(block);
    let starts = places(block);
    let closed = match random.below(9) {
        0 => {
            block[random.below(SIZE)] ^= difference(random);
            false
        }
        1 => {
            block[LAST] ^= RESIDUE_KEPT;
            false
        }
        2 => {
            block[LAST] = theirs::payload_check(&block[..LAST]);
            false
        }
        3 => {
            block.resize(random.below(601), 0);
            random.once_in(2)
        }
        4 => {
            block[random.below(LAST)] ^= difference(random);
            true
        }
        5 => {
            let used = random.chosen(&USED_COUNTS);
            block[USED..FIRST].copy_from_slice(&used.to_be_bytes());
            true
        }
        6 if end < LAST => {
            let any = end + random.below(LAST - end);
            block[random.chosen(&[end, LAST - 1, any])] = difference(random);
            true
        }
        7 if !starts.is_empty() => {
            block[random.chosen(&starts)] = random.chosen(&RECORD_LENGTHS);
            true
        }
        _ => {
            // one used byte more or fewer
            let used = (end - FIRST) as u16;
            let other = random.chosen(&[used.wrapping_sub(1), used + 1]);
            block[USED..FIRST].copy_from_slice(&other.to_be_bytes());
            true
        }
    };
    if closed {
        close(block);
    }
}

/// A number that comes behind another one: mostly the next.
pub fn number_after(random: &mut Random, last: u32) -> u32 {
    let any = random.number() as u32;
    let next = last.wrapping_add(1);
    let near = [last, last.wrapping_sub(1), last.wrapping_add(2), any];
    match random.below(8) {
        0 => random.chosen(&NUMBERS),
        1 | 2 => random.chosen(&near),
        _ => next,
    }
}

/// A state within its limits or near them, now and then of another length.
pub fn state(random: &mut Random) -> Vec<u8> {
    let started = random.chosen(&[0, 1, 1, 1, 1, 1, 2, 255]);
    let any = random.number() as u32;
    let number = random.chosen(&[0, 0, 1, 5, u32::MAX, any]);
    let any = random.below(SIZE + 8) as u16;
    let place = match random.below(3) {
        0 => 0,
        1 => any,
        _ => random.chosen(&PLACES),
    };
    let mut state = state_image(started, number, place).to_vec();
    if random.once_in(16) {
        state.resize(random.below(17), 0);
    }
    state
}

/// The state where a block is to come: a new one, or behind a block of that number.
pub fn between_blocks(last: Option<u32>) -> [u8; STATE_SIZE] {
    state_image(last.is_some().into(), last.unwrap_or(0), 0)
}
