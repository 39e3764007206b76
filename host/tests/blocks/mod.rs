//! Blocks of the log, put together by document 02's words: "block number (4), used bytes (2, at most 505), records, zeros, and in the last
//! byte a check of the other 511 by the command polynomial, without the 0x32 in front. A record is a length byte, 4 to 60, and a payload".
#![allow(dead_code)] // no test uses all of it

use crate::payloads::remainder;

pub type Block = [u8; 512];

/// The sound block with these payloads.
pub fn block(number: u32, payloads: &[&[u8]]) -> Block {
    let mut records = Vec::new();
    for payload in payloads {
        records.push(payload.len() as u8);
        records.extend(*payload);
    }
    laid_out(number, records.len() as u16, &records)
}

/// Any used count, and any bytes behind it; the check is right.
pub fn laid_out(number: u32, used: u16, bytes: &[u8]) -> Block {
    let mut block = [0; 512];
    block[..4].copy_from_slice(&number.to_be_bytes());
    block[4..6].copy_from_slice(&used.to_be_bytes());
    block[6..6 + bytes.len()].copy_from_slice(bytes);
    closed(block, 0)
}

/// The same with its check, changed by so many bits.
pub fn closed(mut block: Block, wrong: u8) -> Block {
    block[511] = remainder(&block[..511]) ^ wrong;
    block
}
