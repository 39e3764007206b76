//! A block of the box's log, from document 02: "block number (4), used bytes (2, at most 505), records, zeros, and in the last byte a
//! check of the other 511 by the command polynomial, without the 0x32 in front".
use std::ops::RangeInclusive;

use uf_crsf::packets::COMMAND_CRC_ALGO;

pub const SIZE: usize = 512;
pub const MOST_USED: usize = 505;

/// Place of the used count.
pub const USED: usize = 4;
/// Place of the first record's length byte.
pub const FIRST: usize = 6;
/// Place of the check.
pub const LAST: usize = SIZE - 1;

/// "A record is a length byte, 4 to 60, and a payload".
pub const LENGTHS: RangeInclusive<usize> = 4..=60;

/// Why a block is refused.
#[derive(Clone, Copy, Debug, PartialEq, Eq)]
pub enum Damage {
    Length,
    Check,
    Layout,
}

impl Damage {
    /// "1 for a block that isn't 512 bytes, then 9 block check, then 10 block layout".
    pub fn number(self) -> u8 {
        match self {
            Damage::Length => 1,
            Damage::Check => 9,
            Damage::Layout => 10,
        }
    }
}

/// The check that belongs behind these bytes of a block.
pub fn check(all_but_last: &[u8]) -> u8 {
    let mut digest = COMMAND_CRC_ALGO.digest();
    digest.update(all_but_last);
    digest.finalize()
}

pub struct Record<'a> {
    /// Of its length byte.
    pub place: usize,
    pub payload: &'a [u8],
    /// Place of the next one, if used bytes remain behind this one.
    pub next: Option<usize>,
}

/// 512 bytes.
#[derive(Clone, Copy)]
pub struct Block<'a>(&'a [u8; SIZE]);

impl<'a> Block<'a> {
    pub fn of(bytes: &'a [u8]) -> Option<Self> {
        bytes.try_into().ok().map(Block)
    }

    /// A sound block, or what damages it.
    pub fn judged(bytes: &'a [u8]) -> Result<Self, Damage> {
        let block = Block::of(bytes).ok_or(Damage::Length)?;
        // the check byte is compared: a residue of 0 would not say that it is right
        if block.0[LAST] != check(&block.0[..LAST]) {
            return Err(Damage::Check);
        }
        match block.is_laid_out() {
            Some(true) => Ok(block),
            _ => Err(Damage::Layout),
        }
    }

    pub fn number(self) -> u32 {
        let [a, b, c, d, ..] = *self.0;
        u32::from_be_bytes([a, b, c, d])
    }

    /// The record whose length byte stands at a place, if it has 4 to 60 bytes within the used ones.
    #[inline]
    pub fn record(self, place: usize) -> Option<Record<'a>> {
        let (length, behind) = self.0.get(place..self.end()?)?.split_first()?;
        let (payload, rest) = behind.split_at_checked((*length).into())?;
        let next = place + 1 + payload.len();
        LENGTHS.contains(&payload.len()).then_some(Record {
            place,
            payload,
            next: (!rest.is_empty()).then_some(next),
        })
    }

    /// Where the used bytes end; none where they are more than 505.
    fn end(self) -> Option<usize> {
        let used = usize::from(u16::from_be_bytes([self.0[USED], self.0[USED + 1]]));
        (used <= MOST_USED).then_some(FIRST + used)
    }

    /// Whether there are zeros behind the used bytes; none where the used count or a record is wrong.
    fn is_laid_out(self) -> Option<bool> {
        let end = self.end()?;
        let mut place = (end > FIRST).then_some(FIRST);
        while let Some(at) = place {
            place = self.record(at)?.next;
        }
        Some(self.0[end..LAST].iter().all(|byte| *byte == 0))
    }
}
