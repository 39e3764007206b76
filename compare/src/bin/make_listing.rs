//! make_listing [--check]: writes input and output of crates/list_cases, the output by the Rust, or says whether they are what stands
//! there. The input is cases, each two bytes of length, big-endian, and one input of the listing; the output is their listings, one
//! after the other.
use std::process::ExitCode;

use compare::cases::{self, payload};
use compare::every::ADDRESSES;
use compare::image::KINDS;
use compare::listing::listing;
use compare::random::Random;
use compare::stored;

const SEED: u64 = 0x0132;

/// A length byte and the payload.
fn record(payload: &[u8]) -> Vec<u8> {
    let len = u8::try_from(payload.len()).expect("a payload of at most 255 bytes");
    [&[len], payload].concat()
}

/// The input that document 01 shows, and all its beginnings, the empty one among them.
fn example(cases: &mut Vec<Vec<u8>>) {
    let input = b"\x05\xC8\xEA\x01\x01\xFE\x07\xC8\xEA\x08\x02\x16\xA8\x0E\x00\x04";
    cases.push(input.to_vec());
    cases.extend((0..input.len()).map(|len| input[..len].to_vec()));
}

/// A payload of every length that a length byte can hold: alone, followed by another, and cut by one byte.
fn lengths(cases: &mut Vec<Vec<u8>>) {
    let disarm = record(&payload(ADDRESSES, 0x01, &[0x01]));
    for len in 0..=255 {
        let whole = match len {
            0..=3 => vec![0x01; len],
            _ => payload(ADDRESSES, 0x01, &vec![0x01; len - 4]),
        };
        let input = record(&whole);
        if matches!(len, 0 | 1 | 3..=6 | 59..=62 | 254 | 255) {
            cases.push(input.clone());
            cases.push(input[..len].to_vec());
        }
        cases.push([input, disarm.clone()].concat());
    }
}

/// Each family, each refusal: unknown ids, a wrong check, the two families left behind.
fn answers(cases: &mut Vec<Vec<u8>>, random: &mut Random) {
    for id in 0..=255 {
        cases.push(record(&payload(ADDRESSES, id, &[0x01])));
    }
    for kind in KINDS {
        let input: Vec<Vec<u8>> = (0..6)
            .map(|_| record(&cases::near_payload(random, kind)))
            .collect();
        cases.push(input.concat());
    }
    for id in [0x03, 0x13] {
        let mut payload = payload(ADDRESSES, id, &[0x01]);
        cases.push(record(&payload));
        payload[4] ^= 1;
        cases.push(record(&payload));
    }
}

/// Records of every kind, at random, whole or cut anywhere.
fn at_random(cases: &mut Vec<Vec<u8>>, random: &mut Random) {
    for _ in 0..300 {
        let mut input = Vec::new();
        for _ in 0..random.below(12) {
            let kind = random.chosen(&KINDS);
            input.extend(record(&cases::near_payload(random, kind)));
        }
        if random.once_in(3) {
            input.truncate(random.below(input.len() + 1));
        }
        cases.push(input);
    }
    // more records than three digits count
    cases.push(vec![0; 1200]);
}

fn main() -> ExitCode {
    let mut cases = Vec::new();
    let mut random = Random(SEED);
    example(&mut cases);
    lengths(&mut cases);
    answers(&mut cases, &mut random);
    at_random(&mut cases, &mut random);
    let (mut input, mut output) = (Vec::new(), String::new());
    for case in &cases {
        let len = u16::try_from(case.len()).expect("a case of at most 65535 bytes");
        input.extend(len.to_be_bytes());
        input.extend(case);
        output.push_str(&listing(case));
    }
    let (bytes, lines) = (input.len(), output.lines().count());
    println!("listings: {} of {bytes} bytes, {lines} lines", cases.len());
    stored::keep(&[
        ("crates/list_cases/stdin", &input),
        ("crates/list_cases/stdout", output.as_bytes()),
    ])
}
