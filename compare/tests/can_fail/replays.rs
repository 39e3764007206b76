//! Wrong in the replay of the block log.
use compare::blocks;
use compare::replay_image::{
    BLOCK, COMMAND, DAMAGED, EVENT_SIZE, GAP, KIND, MORE, NOTHING, NUMBER, PLACE, RECORD, REFUSED,
    STATE_SIZE, STEP_BACK,
};
use compare::replay_runs as runs;
use compare::runs::Run;
use compare::side::Replay;
use compare::theirs::{check_in_two, payload_check, RUST};

const LAST: usize = 511;
const STATE_NUMBER: std::ops::Range<usize> = 1..5;
const STATE_PLACE: std::ops::Range<usize> = 5..7;

/// A state that has room to be one, where a block is to begin.
fn begins(state: &[u8]) -> bool {
    state.len() == STATE_SIZE && state[STATE_PLACE] == [0, 0]
}

fn used(block: &[u8]) -> usize {
    usize::from(block[4]) * 256 + usize::from(block[5])
}

/// 512 bytes whose last is their check.
fn checked(block: &[u8]) -> bool {
    block.len() == 512 && blocks::check(&block[..LAST]) == block[LAST]
}

/// The Rust's answer to the block as something else is taken for it, closed again where it was closed rightly.
fn taken_for(
    state: &mut [u8],
    position: u32,
    block: &[u8],
    event: &mut [u8],
    change: impl FnOnce(&mut [u8]),
) -> u32 {
    let mut other = block.to_vec();
    if checked(block) {
        change(&mut other);
        other[LAST] = blocks::check(&other[..LAST]);
    }
    (RUST.replay)(state, position, &other, event)
}

/// The Rust's answer to the block whose last byte is its check exactly where this says so.
fn checked_by(
    state: &mut [u8],
    position: u32,
    block: &[u8],
    event: &mut [u8],
    right: impl FnOnce(&[u8]) -> bool,
) -> u32 {
    let mut other = block.to_vec();
    if begins(state) && block.len() == 512 {
        let check = blocks::check(&block[..LAST]);
        other[LAST] = if right(block) { check } else { !check };
    }
    (RUST.replay)(state, position, &other, event)
}

/// The Rust's event, changed where it is of one of these kinds; the state as it is then, too.
fn event_but(
    state: &mut [u8],
    position: u32,
    block: &[u8],
    event: &mut [u8],
    kinds: &[u8],
    change: impl FnOnce(&mut [u8], &mut [u8]),
) -> u32 {
    let word = (RUST.replay)(state, position, block, event);
    if word == 0 && kinds.contains(&event[KIND]) {
        change(state, event);
    }
    word
}

/// The Rust's answer to another state; it is kept where the answer is a refusal.
fn from_state(
    state: &mut [u8],
    position: u32,
    block: &[u8],
    event: &mut [u8],
    change: impl FnOnce(&mut Vec<u8>),
) -> u32 {
    let mut other = state.to_vec();
    change(&mut other);
    let word = (RUST.replay)(&mut other, position, block, event);
    if word == 0 {
        let len = other.len().min(state.len());
        state[..len].copy_from_slice(&other[..len]);
    }
    word
}

/// A sound block that says nothing of its records.
fn nothing(event: &mut [u8], block: &[u8]) {
    event[KIND] = NOTHING;
    event[NUMBER] = 0;
    event[BLOCK..PLACE].copy_from_slice(&block[..4]);
}

pub const REPLAYS: &[(&str, Run, Replay)] = &[
    (
        "every block damaged",
        runs::fills,
        |state, position, block, event| match begins(state) {
            true => (RUST.replay)(state, position, &[&block[1..], &[1]].concat(), event),
            false => (RUST.replay)(state, position, block, event),
        },
    ),
    (
        "506 used bytes taken",
        runs::layouts,
        |state, position, block, event| {
            event_but(state, position, block, event, &[DAMAGED], |_, event| {
                if event[NUMBER] == 10 && used(block) == 506 {
                    nothing(event, block);
                }
            })
        },
    ),
    (
        "505 used bytes refused",
        runs::fills,
        |state, position, block, event| {
            let full = begins(state) && used(block) == 505;
            taken_for(state, position, block, event, |block| {
                if full {
                    block[5] += 1;
                }
            })
        },
    ),
    (
        "used count of its low byte alone",
        runs::layouts,
        |state, position, block, event| {
            taken_for(state, position, block, event, |block| {
                if used(block) > 511 {
                    block[4] = 0;
                }
            })
        },
    ),
    (
        "filler not looked at",
        runs::layouts,
        |state, position, block, event| {
            taken_for(state, position, block, event, |block| {
                let end = 6 + used(block);
                if end < LAST {
                    block[end..LAST].fill(0);
                }
            })
        },
    ),
    (
        "the filler's last byte not looked at",
        runs::layouts,
        |state, position, block, event| {
            taken_for(state, position, block, event, |block| {
                if used(block) < 505 {
                    block[LAST - 1] = 0;
                }
            })
        },
    ),
    (
        "a record that crosses the used bytes taken",
        runs::layouts,
        |state, position, block, event| {
            event_but(state, position, block, event, &[DAMAGED], |_, event| {
                let crosses = event[NUMBER] == 10
                    && (1..=505).contains(&used(block))
                    && (4..=60).contains(&block[6])
                    && usize::from(block[6]) >= used(block);
                if crosses {
                    nothing(event, block);
                }
            })
        },
    ),
    (
        "a length byte of 3 taken",
        runs::layouts,
        |state, position, block, event| {
            event_but(state, position, block, event, &[DAMAGED], |_, event| {
                if event[NUMBER] == 10 && used(block) > 3 && block[6] == 3 {
                    nothing(event, block);
                }
            })
        },
    ),
    (
        "a record of 60 bytes refused",
        runs::fills,
        |state, position, block, event| {
            let other = |block: &[u8]| block[6] == 60;
            if begins(state) && checked(block) && other(block) {
                return checked_by(state, position, block, event, |_| false);
            }
            (RUST.replay)(state, position, block, event)
        },
    ),
    (
        "layout before check",
        runs::damaged,
        |state, position, block, event| {
            let wrong = block.len() == 512 && !checked(block) && used(block) > 505;
            event_but(state, position, block, event, &[DAMAGED], |_, event| {
                if wrong {
                    event[NUMBER] = 10;
                }
            })
        },
    ),
    (
        "a short block is 9",
        runs::slices,
        |state, position, block, event| {
            event_but(state, position, block, event, &[DAMAGED], |_, event| {
                if block.len() == 511 {
                    event[NUMBER] = 9;
                }
            })
        },
    ),
    (
        "513 bytes taken",
        runs::slices,
        |state, position, block, event| {
            let len = if block.len() == 513 { 512 } else { block.len() };
            (RUST.replay)(state, position, &block[..len], event)
        },
    ),
    (
        "0x32 in front",
        runs::fills,
        |state, position, block, event| {
            checked_by(state, position, block, event, |block| {
                block[LAST] == payload_check(&block[..LAST])
            })
        },
    ),
    (
        "0x32 in front allowed",
        runs::damaged,
        |state, position, block, event| {
            checked_by(state, position, block, event, |block| {
                checked(block) || block[LAST] == payload_check(&block[..LAST])
            })
        },
    ),
    (
        "a residue of 0 is a right check",
        runs::damaged,
        |state, position, block, event| {
            checked_by(state, position, block, event, |block| {
                check_in_two(block, &[]) == 0
            })
        },
    ),
    (
        "a first byte left out of the check",
        runs::damaged,
        |state, position, block, event| {
            checked_by(state, position, block, event, |block| {
                checked(block)
                    || checked(&[&[0], &block[1..]].concat())
                    || checked(&[&[1], &block[1..]].concat())
            })
        },
    ),
    (
        "a damaged block's number remembered",
        runs::numbers,
        |state, position, block, event| {
            event_but(state, position, block, event, &[DAMAGED], |state, _| {
                if block.len() == 512 {
                    state[0] = 1;
                    state[STATE_NUMBER].copy_from_slice(&block[..4]);
                }
            })
        },
    ),
    (
        "a damaged block counted as the next",
        runs::numbers,
        |state, position, block, event| {
            event_but(state, position, block, event, &[DAMAGED], |state, _| {
                if state[0] == 1 {
                    state[4] = state[4].wrapping_add(1);
                }
            })
        },
    ),
    (
        "a damaged block goes by its number",
        runs::damaged,
        |state, position, block, event| {
            event_but(state, position, block, event, &[DAMAGED], |_, event| {
                event[BLOCK..PLACE].copy_from_slice(&block[..4]);
            })
        },
    ),
    (
        "a sound block goes by its position",
        runs::fills,
        |state, position, block, event| {
            event_but(state, position, block, event, &[COMMAND], |_, event| {
                event[BLOCK..PLACE].copy_from_slice(&position.to_be_bytes());
            })
        },
    ),
    (
        "an equal number in order",
        runs::numbers,
        |state, position, block, event| {
            from_state(state, position, block, event, |state| {
                if begins(state) && checked(block) && state[0] == 1 && state[1..5] == block[..4] {
                    let number = u32::from_be_bytes([block[0], block[1], block[2], block[3]]);
                    state[STATE_NUMBER].copy_from_slice(&number.wrapping_sub(1).to_be_bytes());
                }
            })
        },
    ),
    (
        "0 in order behind FFFFFFFF",
        runs::numbers,
        |state, position, block, event| {
            from_state(state, position, block, event, |state| {
                if begins(state) && state[STATE_NUMBER] == [255; 4] && block.starts_with(&[0; 4]) {
                    state.fill(0);
                }
            })
        },
    ),
    (
        "a step back told as a gap",
        runs::numbers,
        |state, position, block, event| {
            event_but(state, position, block, event, &[STEP_BACK], |_, event| {
                event[KIND] = GAP;
            })
        },
    ),
    (
        "a block in a gap not handed on",
        runs::numbers,
        |state, position, block, event| {
            event_but(state, position, block, event, &[GAP], |state, event| {
                event[MORE] = 0;
                state[STATE_PLACE].fill(0);
            })
        },
    ),
    (
        "the first block reported",
        runs::numbers,
        |state, position, block, event| {
            let first = begins(state) && state[0] == 0 && checked(block) && block[..4] != [0; 4];
            event_but(state, position, block, event, &[NOTHING], |_, event| {
                if first {
                    event[KIND] = GAP;
                }
            })
        },
    ),
    (
        "place of the payload, not of its length byte",
        runs::fills,
        |state, position, block, event| {
            let records = [COMMAND, REFUSED];
            event_but(state, position, block, event, &records, |_, event| {
                let place = u16::from_be_bytes([event[PLACE], event[PLACE + 1]]);
                event[PLACE..NUMBER].copy_from_slice(&(place + 1).to_be_bytes());
            })
        },
    ),
    (
        "places counted from the first record",
        runs::fills,
        |state, position, block, event| {
            let records = [COMMAND, REFUSED];
            event_but(state, position, block, event, &records, |_, event| {
                let place = u16::from_be_bytes([event[PLACE], event[PLACE + 1]]);
                event[PLACE..NUMBER].copy_from_slice(&(place - 6).to_be_bytes());
            })
        },
    ),
    (
        "only the first record handed on",
        runs::fills,
        |state, position, block, event| {
            let records = [COMMAND, REFUSED];
            event_but(state, position, block, event, &records, |state, event| {
                event[MORE] = 0;
                state[STATE_PLACE].fill(0);
            })
        },
    ),
    (
        "84 records at most",
        runs::fills,
        |state, position, block, event| {
            let records = [COMMAND, REFUSED];
            event_but(state, position, block, event, &records, |state, event| {
                let place = u16::from_be_bytes([event[PLACE], event[PLACE + 1]]);
                // so many of the shortest
                if place == 6 + 83 * 5 {
                    event[MORE] = 0;
                    state[STATE_PLACE].fill(0);
                }
            })
        },
    ),
    (
        "a refused record ends its block",
        runs::fills,
        |state, position, block, event| {
            event_but(state, position, block, event, &[REFUSED], |state, event| {
                event[MORE] = 0;
                state[STATE_PLACE].fill(0);
            })
        },
    ),
    (
        "a refused record damages its block",
        runs::fills,
        |state, position, block, event| {
            event_but(state, position, block, event, &[REFUSED], |_, event| {
                event[KIND] = DAMAGED;
            })
        },
    ),
    (
        "a family left behind is unknown",
        runs::fills,
        |state, position, block, event| {
            event_but(state, position, block, event, &[REFUSED], |_, event| {
                if event[NUMBER] == 4 {
                    event[NUMBER] = 2;
                }
            })
        },
    ),
    (
        "zeros for the blank record",
        runs::damaged,
        |state, position, block, event| {
            event_but(state, position, block, event, &[DAMAGED], |_, event| {
                event[RECORD..EVENT_SIZE].fill(0);
            })
        },
    ),
    (
        "the check's place in the payload given",
        runs::fills,
        |state, position, block, event| {
            event_but(state, position, block, event, &[REFUSED], |_, event| {
                event[NUMBER + 1] = u8::from(event[NUMBER] == 2);
            })
        },
    ),
    (
        "more behind the last record",
        runs::fills,
        |state, position, block, event| {
            event_but(state, position, block, event, &[COMMAND], |_, event| {
                event[MORE] = 1;
            })
        },
    ),
    (
        "an empty block in order not told",
        runs::numbers,
        |state, position, block, event| {
            event_but(state, position, block, event, &[NOTHING], |_, event| {
                event[BLOCK..PLACE].fill(0);
            })
        },
    ),
    (
        "another block judged again",
        runs::logs,
        |state, position, block, event| match begins(state) || checked(block) {
            true => (RUST.replay)(state, position, block, event),
            false => 5,
        },
    ),
    (
        "another block's number kept",
        runs::logs,
        |state, position, block, event| {
            let records = [COMMAND, REFUSED];
            event_but(state, position, block, event, &records, |state, _| {
                state[STATE_NUMBER].copy_from_slice(&block[..4]);
            })
        },
    ),
    (
        "the kept number told of another block",
        runs::logs,
        |state, position, block, event| {
            let records = [COMMAND, REFUSED];
            event_but(state, position, block, event, &records, |state, event| {
                event[BLOCK..PLACE].copy_from_slice(&state[STATE_NUMBER]);
            })
        },
    ),
    (
        "a place from 1 to 5 begins a block",
        runs::states,
        |state, position, block, event| {
            from_state(state, position, block, event, |state| {
                if state.len() == STATE_SIZE && state[5] == 0 && state[6] < 6 {
                    state[6] = 0;
                }
            })
        },
    ),
    (
        "no record there begins the block anew",
        runs::states,
        |state, position, block, event| {
            let word = (RUST.replay)(state, position, block, event);
            if word == 5 && state.len() == STATE_SIZE && state[0] == 1 {
                state[STATE_PLACE].fill(0);
                return (RUST.replay)(state, position, block, event);
            }
            word
        },
    ),
    (
        "a number without a start taken",
        runs::states,
        |state, position, block, event| {
            from_state(state, position, block, event, |state| {
                if begins(state) && state[0] == 0 {
                    state[STATE_NUMBER].fill(0);
                }
            })
        },
    ),
    (
        "started 2 is started",
        runs::slices,
        |state, position, block, event| {
            from_state(state, position, block, event, |state| {
                if begins(state) && state[0] == 2 {
                    state[0] = 1;
                }
            })
        },
    ),
    (
        "a state of 8 bytes taken",
        runs::slices,
        |state, position, block, event| {
            from_state(state, position, block, event, |state| {
                if state.len() == STATE_SIZE + 1 {
                    state.truncate(STATE_SIZE);
                }
            })
        },
    ),
    (
        "an empty state is a new one",
        runs::slices,
        |state, position, block, event| {
            from_state(state, position, block, event, |state| {
                if state.is_empty() {
                    state.resize(STATE_SIZE, 0);
                }
            })
        },
    ),
    (
        "the state before the event's room",
        runs::slices,
        |state, position, block, event| {
            let word = (RUST.replay)(state, position, block, event);
            if word == 3 && state.len() != STATE_SIZE {
                5
            } else {
                word
            }
        },
    ),
    (
        "an event of 79 bytes is 5",
        runs::slices,
        |state, position, block, event| match event.len() {
            79 => 5,
            _ => (RUST.replay)(state, position, block, event),
        },
    ),
    (
        "a byte behind the event",
        runs::slices,
        |state, position, block, event| {
            let word = (RUST.replay)(state, position, block, event);
            if let Some(byte) = event.get_mut(EVENT_SIZE) {
                *byte = 0;
            }
            word
        },
    ),
    (
        "a refusal leaves an event",
        runs::states,
        |state, position, block, event| {
            let word = (RUST.replay)(state, position, block, event);
            if word == 5 {
                event[KIND] = NOTHING;
            }
            word
        },
    ),
    (
        "a refusal changes the state",
        runs::states,
        |state, position, block, event| {
            let word = (RUST.replay)(state, position, block, event);
            if word == 5 {
                state[STATE_PLACE].fill(0);
            }
            word
        },
    ),
    (
        "a place beside the number",
        runs::states,
        |state, position, block, event| {
            let word = (RUST.replay)(state, position, block, event);
            if word == 5 {
                5 | 6 << 16
            } else {
                word
            }
        },
    ),
    (
        "the block changed",
        runs::fills,
        |state, position, block, event| {
            let word = (RUST.replay)(state, position, block, event);
            crate::spoil(block);
            word
        },
    ),
];
