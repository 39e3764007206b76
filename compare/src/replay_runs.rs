//! The runs of the replay: blocks and states given to both sides, event by event.
use crate::block_cases::{
    self, between_blocks, block, close, difference, numbered, places, record, sound, Payloads,
    LONGEST, NUMBERS, RECORD_LENGTHS, RESIDUE_KEPT, SHORTEST,
};
use crate::blocks::{FIRST, LAST, MOST_USED, SIZE};
use crate::both::Both;
use crate::every::ADDRESSES;
use crate::image::FC;
use crate::random::Random;
use crate::replay_image::{state_image, EVENT_SIZE, STATE_SIZE};
use crate::runs::run;
use crate::side::Side;
use crate::{cases, theirs};

/// Payloads of a kind that a run's blocks are made of.
const OF_KIND: usize = 40;

/// More bytes than a block, an event and a state have.
const LONGEST_BLOCK: usize = 600;
const LONGEST_EVENT: usize = 100;
const LONGEST_STATE: usize = 16;

fn with_payloads<'a>(
    side: &'a Side,
    seed: u64,
    work: impl FnOnce(&mut Both<'a>, &mut Random, &Payloads),
) -> Both<'a> {
    let mut random = Random(seed);
    let payloads = Payloads::new(&mut random, OF_KIND);
    run(side, |both| work(both, &mut random, &payloads))
}

/// A disarm in a record.
fn disarm() -> Vec<u8> {
    record(&cases::payload(ADDRESSES, FC, &[0x01]))
}

/// Every number of used bytes, of long and of short records, behind no block, the one before, one further before and the same one.
/// No record has 1 to 4 bytes: these are layouts.
pub fn fills(side: &Side, _: u64, seed: u64) -> Both<'_> {
    with_payloads(side, seed, |both, random, payloads| {
        for fill in 0..=MOST_USED {
            for longest in [SHORTEST, 12, LONGEST] {
                let block = match fill {
                    1..SHORTEST => block(7, fill as u16, &[]),
                    _ => sound(7, &payloads.records(random, fill, longest)),
                };
                for last in [None, Some(6), Some(5), Some(7)] {
                    let mut state = between_blocks(last);
                    both.replay_block(&mut state, fill as u32, &block);
                }
            }
        }
    })
}

/// Every two numbers one behind the other, with nothing between them, a damaged block of either number, and a sound one of any; with
/// and without records.
pub fn numbers(side: &Side, _: u64, seed: u64) -> Both<'_> {
    run(side, |both| {
        let mut random = Random(seed);
        for records in [vec![], disarm(), [disarm(), vec![4, 1, 2, 3, 4]].concat()] {
            for first in NUMBERS {
                for second in NUMBERS {
                    let third = block_cases::number_after(&mut random, second);
                    let log = [first, second, third].map(|number| sound(number, &records));
                    for between in 0..4 {
                        let mut other = log[between % 2].clone();
                        match between {
                            0 | 1 => other[LAST] ^= difference(&mut random),
                            2 => other = sound(random.number() as u32, &records),
                            _ => other.clear(),
                        }
                        let mut state = between_blocks(None);
                        let all = [&log[0], &other, &log[1], &log[2]];
                        for (position, block) in all.into_iter().enumerate() {
                            both.replay_block(&mut state, position as u32, block);
                        }
                    }
                }
            }
        }
    })
}

/// Blocks in which one byte is another one, at each of the 512 places, with the check as it was and with it made right again.
pub fn damaged(side: &Side, rounds: u64, seed: u64) -> Both<'_> {
    with_payloads(side, seed, |both, random, payloads| {
        for _ in 0..rounds / 10_000 {
            let number = block_cases::number_after(random, 7);
            let whole = payloads.block(random, number);
            for place in 0..SIZE {
                let mut other = whole.clone();
                other[place] ^= difference(random);
                let position = random.number() as u32;
                let mut state = between_blocks(random.chosen(&[None, Some(7)]));
                both.replay_block(&mut state, position, &other);
                close(&mut other);
                both.replay_block(&mut state, position, &other);
                both.replay_block(&mut state, position, &whole);
            }
            for wrong in [
                whole[LAST] ^ RESIDUE_KEPT,
                theirs::payload_check(&whole[..LAST]),
            ] {
                let mut other = whole.clone();
                other[LAST] = wrong;
                both.replay_block(&mut between_blocks(None), u32::MAX, &other);
            }
        }
    })
}

/// Every used count over the same records; every length byte of every record; every place of the filler; all closed rightly.
pub fn layouts(side: &Side, rounds: u64, seed: u64) -> Both<'_> {
    with_payloads(side, seed, |both, random, payloads| {
        let mut hand_in = |block: &[u8]| {
            both.replay_block(&mut between_blocks(None), 3, block);
        };
        let full = payloads.records(random, MOST_USED, 30);
        // at few rounds only those around the edges
        let step = if rounds < 1_000_000 { 61 } else { 1 };
        for used in (0..=u16::MAX).filter(|used| used % step == 0 || *used < 520 || *used > 65530) {
            hand_in(&block(1, used, &full));
        }
        for records in
            [5, 10, 61, 100, 300, 500, 505].map(|fill| payloads.records(random, fill, LONGEST))
        {
            let whole = sound(1, &records);
            for place in places(&whole) {
                let lengths = RECORD_LENGTHS.into_iter().chain(0..=255);
                for length in lengths {
                    let mut other = whole.clone();
                    other[place] = length;
                    close(&mut other);
                    hand_in(&other);
                }
            }
            for place in FIRST + records.len()..LAST {
                let mut other = whole.clone();
                other[place] = difference(random);
                close(&mut other);
                hand_in(&other);
            }
            // used bytes that end inside a record and beyond the last one, and those that a narrower count takes for the right ones
            let [_, low] = (records.len() as u16).to_be_bytes();
            let narrower = (0..=255).map(|high| u16::from_be_bytes([high, low]));
            for used in (0..=MOST_USED as u16 + 2).chain(narrower) {
                hand_in(&block(1, used, &records));
            }
        }
    })
}

/// Blocks of 0 to 600 bytes, states of 0 to 16 and events of 0 to 100, where a block begins and within one.
pub fn slices(side: &Side, _: u64, seed: u64) -> Both<'_> {
    with_payloads(side, seed, |both, random, payloads| {
        let whole = sound(8, &payloads.records(random, 200, 30));
        let states = [(0, 0, 0), (1, 7, 0), (1, 7, 6), (2, 7, 0)]
            .map(|(started, number, place)| state_image(started, number, place));
        for state in states {
            for len in 0..=LONGEST_BLOCK {
                let mut block = whole.clone();
                block.resize(len, 0);
                both.replay_block(&mut state.clone(), len as u32, &block);
                close(&mut block);
                both.replay_block(&mut state.clone(), len as u32, &block);
            }
            for room in 0..=LONGEST_EVENT {
                both.replay(&mut state.clone(), 1, &whole, room);
                both.replay(&mut state.clone(), 1, &whole[1..], room);
            }
            for len in 0..=LONGEST_STATE {
                for room in [0, EVENT_SIZE - 1, EVENT_SIZE, LONGEST_EVENT] {
                    let mut state = state.to_vec();
                    state.resize(len, 0);
                    both.replay(&mut state, 1, &whole, room);
                    both.replay(&mut vec![0; len], 1, &whole, room);
                }
            }
        }
    })
}

/// Every place with blocks that have a record there, have other bytes there, are damaged or have none; started or not, with and without
/// a number.
pub fn states(side: &Side, _: u64, seed: u64) -> Both<'_> {
    with_payloads(side, seed, |both, random, payloads| {
        let short = sound(1, &payloads.records(random, MOST_USED, SHORTEST));
        let mixed = sound(u32::MAX, &payloads.records(random, 400, LONGEST));
        let mut unchecked = mixed.clone();
        unchecked[LAST] ^= 1;
        unchecked[LAST - 1] = 7;
        let lengths = block(2, MOST_USED as u16, &[4; MOST_USED]);
        let beyond = block(3, 506, &[4; MOST_USED]);
        let blocks = [short, mixed, unchecked, lengths, beyond, sound(4, &[])];
        let heads = [
            (0, 0),
            (0, 1),
            (0, 1 << 24),
            (1, 0),
            (1, u32::MAX),
            (2, 0),
            (255, 9),
        ];
        for place in (0..SIZE as u16 + 8).chain([768, 65535]) {
            for (started, number) in heads {
                for block in &blocks {
                    let mut state = state_image(started, number, place);
                    both.replay_block(&mut state, 1, block);
                }
            }
        }
    })
}

/// A log at random: blocks mostly in order, some damaged, some left before their end, other blocks handed in between two events, states
/// and rooms now and then other ones.
pub fn logs(side: &Side, rounds: u64, seed: u64) -> Both<'_> {
    with_payloads(side, seed, |both, random, payloads| {
        let mut number = random.chosen(&NUMBERS);
        let mut state = vec![0; STATE_SIZE];
        let mut whole = payloads.block(random, number);
        let mut before = whole.clone();
        for position in 0..rounds / 4 {
            number = block_cases::number_after(random, number);
            whole = match random.below(3) {
                0 => numbered(whole, number),
                _ => payloads.block(random, number),
            };
            let mut block = whole.clone();
            if random.once_in(4) {
                block_cases::damage(random, &mut block);
            }
            let position = match random.below(8) {
                0 => random.number() as u32,
                _ => position as u32,
            };
            let blocks = [&block[..], &before];
            let mut other = block_cases::state(random);
            let mut new = vec![0; STATE_SIZE];
            let state_for = match random.below(8) {
                0 => &mut other,
                1 => &mut new,
                _ => &mut state,
            };
            log_block(both, random, state_for, position, blocks);
            // left within a block, the state seldom fits the next one
            if !state.ends_with(&[0, 0]) && random.once_in(2) {
                state[5..].fill(0);
            }
            before = block;
        }
    })
}

/// A block handed in while there is more, now and then another one in its place, or left before its end.
fn log_block(
    both: &mut Both,
    random: &mut Random,
    state: &mut [u8],
    position: u32,
    [block, other]: [&[u8]; 2],
) {
    loop {
        let given = if random.once_in(20) { other } else { block };
        let room = match random.below(20) {
            0 => random.below(LONGEST_EVENT + 1),
            _ => EVENT_SIZE,
        };
        let more = both.replay(state, position, given, room);
        let goes_on = more || (room < EVENT_SIZE && !random.once_in(4));
        if !goes_on || random.once_in(60) {
            break;
        }
    }
}
