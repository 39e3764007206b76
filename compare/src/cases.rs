//! Random input near every limit of document 01.
use crate::fields;
use crate::image::{self, color_in_image, Image, ACK, GENERAL, LED, SCREEN, VTX};
use crate::popups::{near, text, Popup};
use crate::random::Random;
use crate::theirs;
use crate::types::Judged;

/// A flag byte, mostly in range.
fn flag(random: &mut Random) -> u8 {
    random.chosen(&[0, 1, 0, 1, 0, 1, 2, 255])
}

fn frequency(random: &mut Random) -> u16 {
    let any = 4995 + random.below(1011) as u16;
    random.chosen(&[4999, 5000, 5001, 5999, 6000, 6001, any, any, any])
}

/// Hue, saturation, value.
fn color(random: &mut Random) -> (u16, u8, u8) {
    let hue = match random.below(4) {
        0 => random.chosen(&[0, 358, 359, 360, 511, 512, 65535]),
        _ => random.below(360) as u16,
    };
    let percent = |random: &mut Random| match random.below(6) {
        0 => random.chosen(&[0, 99, 100, 101, 127, 128, 255]),
        _ => random.below(101) as u8,
    };
    (hue, percent(random), percent(random))
}

/// Hue, saturation and value as a payload holds them: 9 bits, 7 bits, 8 bits.
pub fn color_in_payload((hue, saturation, value): (u16, u8, u8)) -> [u8; 3] {
    let [high, low] = (hue << 7 | u16::from(saturation & 0x7F)).to_be_bytes();
    [high, low, value]
}

/// The fields of a popup, as an image, and whatever bytes in the places of absent items.
pub fn fields(random: &mut Random) -> fields::Image {
    let mut image = loop {
        if let Some(fields) = Popup::random(random).fields() {
            break fields::of(&fields);
        }
    };
    if random.once_in(2) {
        for place in fields::absent(&image) {
            image[place] = random.byte();
        }
    }
    image
}

/// The bytes of a popup that is made.
fn popup(random: &mut Random) -> Vec<u8> {
    loop {
        let mut popup = [0; fields::POPUP_SIZE];
        if (theirs::RUST.popup)(&fields(random), &mut popup) == 0 {
            return popup[1..=usize::from(popup[0])].to_vec();
        }
    }
}

/// A record of a kind that the Rust can hold, its values in range or near their limits.
pub fn record(random: &mut Random, (id, sub, len): (u8, u8, usize)) -> Image {
    let mut values = random.bytes(len);
    let mut stored = Vec::new();
    match (id, sub) {
        (VTX, 0x02) => values.copy_from_slice(&frequency(random).to_be_bytes()),
        (VTX, 0x04) => {
            values[0] = random.below(2) as u8;
            if !random.once_in(8) {
                values[1] = random.below(5) as u8;
                values[2] = random.below(18) as u8;
            }
        }
        (LED, _) => {
            let time = len % 4;
            for place in values[time..].chunks_exact_mut(4) {
                place.copy_from_slice(&color_in_image(color(random)));
            }
        }
        (GENERAL, 0x71) | (SCREEN, 0x02) => values[1] = random.below(2) as u8,
        (SCREEN, 0x01) => stored = popup(random),
        (ACK, _) => {
            values[2] = random.chosen(&[0, 1, 0, 1, 2, 255]);
            let len = near(random, &[0, 52]).min(52);
            stored = text(random, len);
        }
        _ => {}
    }
    let mut record = image::with(id, sub, &[&values], &stored);
    record[0] = random.byte();
    record[1] = random.byte();
    record
}

/// An ACK's body: information near 52 bytes, mostly with its end.
fn ack_body(random: &mut Random) -> Vec<u8> {
    let mut body = random.bytes(2);
    body.push(flag(random));
    let len = near(random, &[0, 1, 52, 53]);
    body.extend(text(random, len));
    if !random.once_in(8) {
        body.push(0);
    }
    body
}

/// A body of a kind, item by item, its values in range or near their limits.
fn body(random: &mut Random, (id, sub, len): (u8, u8, usize)) -> Vec<u8> {
    let mut items = match (id, sub) {
        (ACK, _) => return ack_body(random),
        (VTX, 0x02) => frequency(random).to_be_bytes().to_vec(),
        (VTX, 0x04) => random.bytes(1),
        (LED, _) => {
            let mut items = random.bytes(len % 4);
            for _ in 0..len / 4 {
                items.extend(color_in_payload(color(random)));
            }
            items
        }
        (GENERAL, 0x71) | (SCREEN, 0x02) => vec![random.byte(), flag(random)],
        (SCREEN, 0x01) => Popup::random(random).data(),
        _ => random.bytes(len),
    };
    items.insert(0, sub);
    items
}

/// Whole three times in eight; else cut, longer, with another byte, or of any length.
fn damage(random: &mut Random, body: &mut Vec<u8>) {
    let place = random.below(body.len().max(1));
    match random.below(8) {
        0 => body.truncate(place),
        1 => {
            let more = 1 + random.below(5);
            body.extend((0..more).map(|_| random.chosen(&[0, 0, 1, 0x41, 0xFF])));
        }
        2 | 3 => {
            let other = random.byte();
            body[place] = random.chosen(&[0, 1, 2, other, other]);
        }
        4 => body.resize(random.below(61), random.chosen(&[0, 0x41])),
        _ => {}
    }
}

/// A payload with the check that the Rust gives it.
pub fn payload(addresses: [u8; 2], id: u8, body: &[u8]) -> Vec<u8> {
    let mut payload = Vec::with_capacity(body.len() + 4);
    payload.extend(addresses);
    payload.push(id);
    payload.extend(body);
    payload.push(theirs::payload_check(&payload));
    payload
}

/// A payload of 0 to 64 bytes, near one of a kind: mostly with the right check, now and then with another id, cut, or any bytes.
pub fn near_payload(random: &mut Random, kind: (u8, u8, usize)) -> Vec<u8> {
    let mut body = body(random, kind);
    damage(random, &mut body);
    body.truncate(60);
    let id = match random.below(32) {
        0 => random.byte(),
        1 => random.chosen(&image::FAMILIES),
        _ => kind.0,
    };
    let mut payload = payload([random.byte(), random.byte()], id, &body);
    match random.below(16) {
        0 => {
            let place = random.below(payload.len());
            payload[place] ^= 1 << random.below(8);
        }
        1 => payload.truncate(random.below(payload.len() + 1)),
        2 => {
            let len = random.below(65);
            payload = random.bytes(len);
        }
        _ => {}
    }
    payload
}

/// Numbers for what writing judges, in range or near their limits.
pub fn judged(random: &mut Random) -> Judged {
    Judged {
        frequency: frequency(random),
        control: random.below(5) as u8,
        switch: random.below(18) as u8,
        start: color(random),
        stop: color(random),
        action: flag(random),
    }
}

/// Text bytes with now and then a zero among them.
fn holed(random: &mut Random, len: usize) -> Vec<u8> {
    let mut bytes = text(random, len);
    if len > 0 && random.once_in(4) {
        let place = random.below(len);
        bytes[place] = 0;
    }
    bytes
}

/// Bytes for a text's constructor, near 51.
pub fn text_bytes(random: &mut Random) -> Vec<u8> {
    let len = near(random, &[0, 51, 70]);
    holed(random, len)
}

/// An ACK's ids and action, and information near 52.
pub fn ack(random: &mut Random) -> ([u8; 3], Vec<u8>) {
    let len = near(random, &[0, 52, 70]);
    let information = holed(random, len);
    let ids = [random.byte(), random.byte(), flag(random)];
    (ids, information)
}
