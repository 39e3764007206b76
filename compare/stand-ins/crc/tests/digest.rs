//! The stand-in against document 01's marked payloads and against a division of its own kind: bit by bit over the whole message,
//! with no register and no table.
use crc::{Algorithm, Crc};

const POLY: u8 = 0xBA;
const COMMAND: Crc<u8> = Crc::<u8>::new(&Algorithm {
    width: 8,
    poly: POLY,
    init: 0,
    refin: false,
    refout: false,
    xorout: 0,
    check: 0,
    residue: 0,
});

fn digest(parts: &[&[u8]]) -> u8 {
    let mut digest = COMMAND.digest();
    for part in parts {
        digest.update(part);
    }
    digest.finalize()
}

/// Schoolbook division: strike out the highest coefficient that is left, until only eight are.
fn remainder(message: &[u8]) -> u8 {
    let mut bits: Vec<bool> = Vec::new();
    for byte in message.iter().chain(&[0]) {
        bits.extend((0..8).rev().map(|k| byte >> k & 1 == 1));
    }
    let divisor: Vec<bool> = (0..9)
        .rev()
        .map(|k| (0x100 | u16::from(POLY)) >> k & 1 == 1)
        .collect();
    for top in 0..bits.len() - 8 {
        if bits[top] {
            for (k, coefficient) in divisor.iter().enumerate() {
                bits[top + k] ^= coefficient;
            }
        }
    }
    bits[bits.len() - 8..]
        .iter()
        .fold(0, |value, &bit| value * 2 + u8::from(bit))
}

#[test]
fn the_payloads_marked_in_document_01() {
    let marked: [&[u8]; 7] = [
        &[0xC8, 0xEA, 0x01, 0x01, 0xFE],
        &[0xC8, 0xEA, 0x01, 0x01, 0x00, 0xFE],
        &[0xC8, 0xEA, 0x08, 0x02, 0x16, 0xA8, 0x0E],
        &[0xC8, 0xEA, 0x08, 0x02, 0x13, 0x88, 0x90],
        &[0xC8, 0xEA, 0x01, 0x22],
        &[0xC8, 0xEA, 0x02, 0x56],
        &[0xC8, 0xEA, 0x03, 0xEC],
    ];
    for payload in marked {
        let (last, rest) = payload.split_last().unwrap();
        assert_eq!(digest(&[&[0x32], rest]), *last, "{payload:02X?}");
    }
}

#[test]
fn every_message_of_up_to_two_bytes_is_divided() {
    assert_eq!(digest(&[]), remainder(&[]));
    for a in 0..=255 {
        assert_eq!(digest(&[&[a]]), remainder(&[a]));
        for b in 0..=255 {
            assert_eq!(digest(&[&[a, b]]), remainder(&[a, b]));
        }
    }
}

#[test]
fn longer_messages_are_divided_in_whatever_parts_they_come() {
    let message: Vec<u8> = (0..64u32)
        .map(|i| (i * i * 37 + i * 11 + 5) as u8)
        .collect();
    for len in 0..=message.len() {
        for cut in 0..=len {
            let (first, second) = message[..len].split_at(cut);
            assert_eq!(
                digest(&[first, second]),
                remainder(&message[..len]),
                "{len} bytes cut at {cut}"
            );
        }
    }
}
