//! make_replay [--check]: writes input and output of crates/replay_cases, the output by the Rust, or says whether they are what stands
//! there. The input is cases, each two bytes of length, big-endian, and one log; the output is what crsf_replay prints of each, one
//! after the other.
use std::process::ExitCode;

use compare::block_cases::{
    self, block, close, record, sound, Payloads, LONGEST, NUMBERS, RECORD_LENGTHS, RESIDUE_KEPT,
    SHORTEST, USED_COUNTS,
};
use compare::blocks::{FIRST, LAST, MOST_USED, SIZE};
use compare::cases::{near_payload, payload};
use compare::every::ADDRESSES;
use compare::image::KINDS;
use compare::random::Random;
use compare::replay_text::replay_text;
use compare::{stored, theirs};

const SEED: u64 = 0x0132;

/// The most bytes that two bytes of length hold: 127 blocks and 511 bytes more.
const LONGEST_LOG: usize = 65_535;

struct Cases {
    logs: Vec<Vec<u8>>,
    random: Random,
    payloads: Payloads,
}

fn disarm() -> Vec<u8> {
    record(&payload(ADDRESSES, 0x01, &[0x01]))
}

impl Cases {
    fn log(&mut self, blocks: &[Vec<u8>]) {
        self.logs.push(blocks.concat());
    }

    /// No block, none that is whole, zeros, and what is left over behind a block.
    fn lengths(&mut self) {
        for len in [0, 1, 2, 511, 512, 513, 1023, 1024, 1025] {
            self.logs.push(vec![0; len]);
        }
        let sound = sound(1, &disarm());
        for rest in [1, 255, 511] {
            self.logs.push([&sound[..], &sound[..rest]].concat());
        }
    }

    /// Numbers one behind the other, at the edges of their width, and with a damaged block between them.
    fn numbers(&mut self) {
        let damaged = block(6, 506, &[]);
        for [first, second, third] in [
            [5, 7, 8],
            [5, 6, 7],
            [5, 3, 4],
            [5, 5, 6],
            [u32::MAX - 1, u32::MAX, 0],
            [u32::MAX, 0, 1],
            [0, u32::MAX, u32::MAX],
            [0x7FFF_FFFF, 0x8000_0000, 0x8000_0001],
            [1, 256, 257],
        ] {
            let [first, second, third] = [first, second, third].map(|n| sound(n, &disarm()));
            self.log(&[first, damaged.clone(), second, third]);
        }
        // every edge in one log
        let each = NUMBERS.map(|number| sound(number, &[]));
        self.log(&each);
        let back: Vec<Vec<u8>> = each.into_iter().rev().collect();
        self.log(&back);
    }

    /// Of every kind records near it, in one block: commands and refusals.
    fn kinds(&mut self) {
        for (number, kind) in (0..).zip(KINDS) {
            let mut records = Vec::new();
            while records.len() < 300 {
                let near = near_payload(&mut self.random, kind);
                if near.len() < LONGEST && near.len() >= 4 {
                    records.extend(record(&near));
                }
            }
            self.log(&[sound(number, &records)]);
        }
        let refused: Vec<u8> = [0x02, 0x03, 0x13, 0xFE]
            .iter()
            .flat_map(|id| record(&payload(ADDRESSES, *id, &[0x01])))
            .collect();
        self.log(&[sound(1, &refused)]);
    }

    /// Blocks that are full of the shortest and of the longest records, and one byte short of it.
    fn fills(&mut self) {
        for fill in [0, 5, 61, 62, 500, 504, MOST_USED] {
            for longest in [SHORTEST, LONGEST] {
                let records = self.payloads.records(&mut self.random, fill, longest);
                self.log(&[sound(1, &records)]);
            }
        }
    }

    /// What damages a block: its check, its used count, a record's length, its filler; in front of a sound one.
    fn damages(&mut self) {
        let records = [disarm(), disarm()].concat();
        let whole = sound(1, &records);
        let mut damaged = Vec::new();
        for used in USED_COUNTS {
            damaged.push(block(1, used, &records));
        }
        for length in RECORD_LENGTHS {
            damaged.push(closed(&whole, FIRST, length));
            damaged.push(closed(&whole, FIRST + 6, length));
        }
        for place in [FIRST + records.len(), 300, LAST - 1] {
            damaged.push(closed(&whole, place, 1));
        }
        let wrong_checks = [
            !whole[LAST],
            whole[LAST] ^ RESIDUE_KEPT,
            theirs::payload_check(&whole[..LAST]),
        ];
        for check in wrong_checks {
            damaged.push([&whole[..LAST], &[check]].concat());
        }
        // six to a log, which closes with the sound block
        for some in damaged.chunks(6) {
            let log = [some, std::slice::from_ref(&whole)].concat();
            self.log(&log);
        }
    }

    /// Logs of up to 9 blocks, at random, some with a rest.
    fn at_random(&mut self) {
        for _ in 0..24 {
            let count = 1 + self.random.below(9);
            let mut log = self.blocks(count);
            if self.random.once_in(3) {
                log.extend(vec![0; self.random.below(SIZE)]);
            }
            self.logs.push(log);
        }
        let mut longest = self.blocks(LONGEST_LOG / SIZE);
        longest.resize(LONGEST_LOG, 0);
        self.logs.push(longest);
    }

    fn blocks(&mut self, count: usize) -> Vec<u8> {
        let random = &mut self.random;
        let mut number = random.chosen(&NUMBERS);
        let mut log = Vec::new();
        for _ in 0..count {
            number = block_cases::number_after(random, number);
            let mut block = self.payloads.block(random, number);
            if random.once_in(5) {
                block_cases::damage(random, &mut block);
                // a block of another length would move those behind it
                block.resize(SIZE, 0);
            }
            log.extend(block);
        }
        log
    }
}

/// With another byte at a place, and the check that belongs to it.
fn closed(whole: &[u8], place: usize, byte: u8) -> Vec<u8> {
    let mut other = whole.to_vec();
    other[place] = byte;
    close(&mut other);
    other
}

fn main() -> ExitCode {
    let mut random = Random(SEED);
    let payloads = Payloads::new(&mut random, 40);
    let mut cases = Cases {
        logs: Vec::new(),
        random,
        payloads,
    };
    cases.lengths();
    cases.numbers();
    cases.kinds();
    cases.fills();
    cases.damages();
    cases.at_random();
    let (mut input, mut output) = (Vec::new(), String::new());
    for log in &cases.logs {
        let len = u16::try_from(log.len()).expect("a log of at most 65535 bytes");
        input.extend(len.to_be_bytes());
        input.extend(log);
        output.push_str(&replay_text(log));
    }
    let (bytes, lines) = (input.len(), output.lines().count());
    println!("logs: {} of {bytes} bytes, {lines} lines", cases.logs.len());
    stored::keep(&[
        ("crates/replay_cases/stdin", &input),
        ("crates/replay_cases/stdout", output.as_bytes()),
    ])
}
