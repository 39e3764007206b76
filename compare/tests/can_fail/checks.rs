//! Wrong checks.
pub fn by_bit(poly: u8, start: u8, bytes: &[u8]) -> u8 {
    bytes.iter().fold(start, |value, byte| {
        (0..8).fold(value ^ byte, |value, _| {
            if value < 128 {
                value << 1
            } else {
                value << 1 ^ poly
            }
        })
    })
}

pub type Check = fn(&[u8], u8) -> u8;

pub const CHECKS: &[(&str, Check)] = &[
    ("another polynomial", |bytes, start| {
        by_bit(0xD5, start, bytes)
    }),
    ("a polynomial with another last term", |bytes, start| {
        by_bit(0xBB, start, bytes)
    }),
    ("another start", |bytes, start| {
        by_bit(0xBA, start ^ 1, bytes)
    }),
    ("a start not used", |bytes, _| by_bit(0xBA, 0, bytes)),
    ("an end cut off", |bytes, start| {
        by_bit(0xBA, start, &bytes[..bytes.len().min(63)])
    }),
    ("a first byte left out", |bytes, start| {
        by_bit(0xBA, start, bytes.get(1..).unwrap_or(&[]))
    }),
    ("one wrong entry of 256", |bytes, start| {
        bytes.iter().fold(start, |value, byte| {
            let value = value ^ byte;
            by_bit(0xBA, value, &[0]) ^ u8::from(value == 0xC3)
        })
    }),
];
