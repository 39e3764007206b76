//! Input set out in full, not at random.
use crate::cases::{color_in_payload, payload};
use crate::image::{self, color_in_image, Image, ACK, FLOW_CONTROL, GENERAL, LED, SCREEN, VTX};

pub const ADDRESSES: [u8; 2] = [0xC8, 0xEA];

/// Edges of a colour's items, and the largest that an image can hold; saturation and value are percents.
const HUES: [u16; 9] = [0, 1, 358, 359, 360, 361, 511, 512, 65535];
const PERCENTS: [u8; 8] = [0, 1, 99, 100, 101, 127, 128, 255];

fn colors() -> impl Iterator<Item = (u16, u8, u8)> + Clone {
    HUES.into_iter().flat_map(|hue| {
        PERCENTS
            .into_iter()
            .flat_map(move |s| PERCENTS.into_iter().map(move |value| (hue, s, value)))
    })
}

/// Those that fit the 24 bits of a payload.
fn colors_in_bits() -> impl Iterator<Item = [u8; 3]> + Clone {
    colors()
        .filter(|(hue, saturation, _)| *hue < 512 && *saturation < 128)
        .map(color_in_payload)
}

fn words() -> impl Iterator<Item = [u8; 2]> {
    (0..=u16::MAX).map(u16::to_be_bytes)
}

/// Every id with every body of 0 to 2 bytes, and every pair of addresses.
pub fn short_payloads(mut visit: impl FnMut(&[u8])) {
    for id in 0..=255 {
        visit(&payload(ADDRESSES, id, &[]));
        for a in 0..=255 {
            visit(&payload(ADDRESSES, id, &[a]));
            for b in 0..=255 {
                visit(&payload(ADDRESSES, id, &[a, b]));
            }
        }
    }
    for addresses in words() {
        visit(&payload(addresses, image::FC, &[0x01]));
    }
}

/// Every id with every sub-command, and nothing behind it.
pub fn sub_commands(mut visit: impl FnMut(&[u8])) {
    for id in 0..=255 {
        for sub in 0..=255 {
            visit(&payload(ADDRESSES, id, &[sub]));
        }
    }
}

/// Every frequency, time and interval; every hue with every saturation, values at their edges; colours at all their edges, start and
/// stop; every flag and action; every length of an ACK's information, with and without its end.
pub fn payloads(mut visit: impl FnMut(&[u8])) {
    let mut body = |id: u8, parts: &[&[u8]]| visit(&payload(ADDRESSES, id, &parts.concat()));
    let color = [0xB3, 0xE4, 0x64];
    for word in words() {
        body(VTX, &[&[0x02], &word]);
        body(FLOW_CONTROL, &[&[0x01, 0x14], &word]);
        body(LED, &[&[0x03], &word, &color, &color]);
        body(LED, &[&[0x04], &word, &color, &color]);
        body(LED, &[&[0x05], &word, &color]);
        for value in PERCENTS {
            body(LED, &[&[0x02], &word, &[value]]);
        }
    }
    for start in colors_in_bits() {
        body(LED, &[&[0x05, 0x01, 0xF4], &start]);
        body(LED, &[&[0x03, 0x01, 0xF4], &start]);
        for stop in colors_in_bits() {
            body(LED, &[&[0x03, 0x01, 0xF4], &start, &stop]);
            body(LED, &[&[0x04, 0x01, 0xF4], &start, &stop]);
        }
    }
    for flag in 0..=255 {
        body(GENERAL, &[&[0x71, 0x07, flag]]);
        body(SCREEN, &[&[0x02, 0x07, flag]]);
        body(SCREEN, &[b"\x01Header\0Info\0\x1E", &[flag]]);
        body(ACK, &[&[0x08, 0x02, flag], b"done\0"]);
        body(ACK, &[&[0x08, 0x02, flag], b"done"]);
    }
    for len in 0..=57 {
        for action in 0..3 {
            let front = [&[0x08, 0x02, action], &vec![b'i'; len][..]].concat();
            body(ACK, &[&front]);
            body(ACK, &[&front, &[0]]);
            body(ACK, &[&front, b"\0more\0"]);
        }
    }
}

/// Every frequency, time and interval; every hue; colours at all their edges, start and stop; every control and switch of the pit byte.
pub fn records(mut visit: impl FnMut(&Image)) {
    let mut record = |id: u8, sub: u8, values: &[&[u8]]| {
        let mut image = image::with(id, sub, values, &[]);
        image[..2].copy_from_slice(&ADDRESSES);
        visit(&image);
    };
    let color = color_in_image((359, 100, 100));
    for word in words() {
        record(VTX, 0x02, &[&word]);
        record(FLOW_CONTROL, 0x01, &[&[0x14], &word]);
        record(LED, 0x03, &[&word, &color, &color]);
        record(LED, 0x04, &[&word, &color, &color]);
        record(LED, 0x05, &[&word, &color]);
        record(LED, 0x02, &[&word, &[100, 100]]);
        record(LED, 0x02, &[&[0x01, 0x67], &word]);
        record(VTX, 0x04, &[&[0], &word]);
        record(VTX, 0x04, &[&[1], &word]);
    }
    for start in colors().map(color_in_image) {
        record(LED, 0x02, &[&start]);
        record(LED, 0x05, &[&[0x01, 0xF4], &start]);
        for stop in colors().map(color_in_image) {
            record(LED, 0x03, &[&[0x01, 0xF4], &start, &stop]);
            record(LED, 0x04, &[&[0x01, 0xF4], &start, &stop]);
        }
    }
}
