//! What the tests share: payloads that document 01 marks, others put together by hand with a check of their own, commands from EA to C8.
#![allow(dead_code)] // no test uses all of it

use crsf::packets::{CommandPayload, DirectCommands};

pub const M1: [u8; 5] = [0xC8, 0xEA, 0x01, 0x01, 0xFE];
pub const M2: [u8; 6] = [0xC8, 0xEA, 0x01, 0x01, 0x00, 0xFE];
pub const M3: [u8; 7] = [0xC8, 0xEA, 0x08, 0x02, 0x16, 0xA8, 0x0E];
pub const M3_EDITED: [u8; 7] = [0xC8, 0xEA, 0x08, 0x02, 0x13, 0x88, 0x90];

/// By division bit by bit: the remainder of the message, times x^8, divided by x^8+x^7+x^5+x^4+x^3+x.
pub fn remainder<'a>(message: impl IntoIterator<Item = &'a u8>) -> u8 {
    let mut remainder: u16 = 0;
    for byte in message {
        remainder ^= u16::from(*byte) << 8;
        for _ in 0..8 {
            remainder = match remainder & 0x8000 {
                0 => remainder << 1,
                _ => remainder << 1 ^ 0xBA00,
            };
        }
    }
    (remainder >> 8) as u8
}

/// Document 01's check of a payload: "byte 0x32, then all payload bytes but the last".
pub fn check(all_but_last: &[u8]) -> u8 {
    remainder([0x32].iter().chain(all_but_last))
}

/// The payload from EA to C8 with this id and body.
pub fn payload(id: u8, body: &[u8]) -> Vec<u8> {
    let mut payload = [&[0xC8, 0xEA, id], body].concat();
    payload.push(check(&payload));
    payload
}

/// The command from EA to C8.
pub fn command(payload: CommandPayload) -> DirectCommands {
    DirectCommands {
        dst_addr: 0xC8,
        src_addr: 0xEA,
        payload,
    }
}
