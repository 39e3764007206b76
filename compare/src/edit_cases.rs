//! Edits near every limit of document 01, and payloads for them: set out in full, or at random.
use crate::cases;
use crate::edits;
use crate::every::ADDRESSES;
use crate::image::{ACK, CROSSFIRE, FLOW_CONTROL, GENERAL, KINDS, LED, OSD, SCREEN, VTX};
use crate::popups::{self, text, Additional, Popup};
use crate::random::Random;
use crate::side::{count, number};
use crate::theirs::RUST;

/// Every field, every number around, and such as lose a field's number to a narrower type.
pub fn fields() -> impl Iterator<Item = u32> {
    let huge = [255, 256, 257, 276, 65537, 65556, 1 << 31, u32::MAX];
    (0..=100).chain(huge)
}

/// The edges of a field's range and what is beyond them, the edges of all widths, and numbers that a narrower type takes for an edge.
pub fn edges(field: u32) -> Vec<u32> {
    let Some((least, greatest)) = edits::range(field) else {
        return vec![0, 1, 5000, u32::MAX];
    };
    let mut numbers = vec![0, 1, 2, 255, 256, 65535, 65536, 1 << 31, u32::MAX];
    for edge in [least, greatest] {
        let near = [u32::MAX, 0, 1, 256, 65536];
        numbers.extend(near.map(|more| edge.wrapping_add(more)));
    }
    numbers.sort();
    numbers.dedup();
    numbers
}

/// In the field's range, or at one of its edges, or any.
fn number_for(random: &mut Random, field: u32) -> u32 {
    let any = random.number() as u32;
    match (random.below(8), edits::range(field)) {
        (0, _) => any,
        (1 | 2, _) => random.chosen(&edges(field)),
        (_, None) => any % 300,
        (_, Some((least, greatest))) => {
            (u64::from(least) + random.number() % (u64::from(greatest - least) + 1)) as u32
        }
    }
}

/// The fields that commands of a family may have.
pub fn of_family(id: u8) -> &'static [u32] {
    match id {
        OSD => &[1, 2, 10],
        VTX => &[1, 2, 20, 21, 22, 23, 24],
        LED => &[1, 2, 30, 31, 32, 33, 34, 35, 36],
        GENERAL => &[1, 2, 40, 41, 42],
        CROSSFIRE => &[1, 2, 50],
        FLOW_CONTROL => &[1, 2, 60, 61],
        SCREEN => &[1, 2, 70, 71, 72, 73, 74, 75, 76, 77],
        ACK => &[1, 2, 80, 81, 82],
        _ => &[1, 2],
    }
}

/// Field and number, mostly of the family.
pub fn edit(random: &mut Random, id: u8) -> (u32, u32) {
    let field = match random.below(16) {
        0 => random.below(101) as u32,
        1 => random.chosen(&edits::FIELDS).0,
        2 => random.number() as u32,
        _ => random.chosen(of_family(id)),
    };
    (field, number_for(random, field))
}

/// A list of up to 20 edits, now and then no whole ones, and so many bytes for their answers, mostly enough.
pub fn list(random: &mut Random, id: u8) -> (Vec<u8>, usize) {
    let edits: Vec<(u32, u32)> = (0..random.below(21)).map(|_| edit(random, id)).collect();
    let mut list = edits::list(&edits);
    if random.once_in(8) {
        list.truncate(random.below(list.len() + 1));
    }
    let room = match random.below(8) {
        0 => random.below(edits.len() + 1),
        1 => edits.len() + 1 + random.below(5),
        _ => edits.len(),
    };
    (list, room)
}

/// A payload of a kind, just as the Rust writes it.
pub fn as_written(random: &mut Random, kind: (u8, u8, usize)) -> Vec<u8> {
    loop {
        let mut payload = [0; 60];
        let word = (RUST.write)(&cases::record(random, kind), &mut payload);
        if number(word) == 0 {
            return payload[..count(word)].to_vec();
        }
    }
}

/// As written, or near it.
pub fn payload(random: &mut Random) -> Vec<u8> {
    let kind = random.chosen(&KINDS);
    match random.below(3) {
        0 => cases::near_payload(random, kind),
        _ => as_written(random, kind),
    }
}

/// The id that a payload has, or 0.
pub fn id_of(payload: &[u8]) -> u8 {
    payload.get(2).copied().unwrap_or(0)
}

/// A popup as a payload.
fn popup(popup: &Popup) -> Vec<u8> {
    let body = [&[0x01], &popup.data()[..]].concat();
    cases::payload(ADDRESSES, SCREEN, &body)
}

/// An ACK as a payload, with so many bytes of information.
fn ack(random: &mut Random, len: usize) -> Vec<u8> {
    let ids = [random.byte(), random.byte(), random.below(2) as u8];
    let body = [&ids[..], &text(random, len), &[0]].concat();
    cases::payload(ADDRESSES, ACK, &body)
}

/// Popups with each combination of what may follow: with texts as short as can be, with some, and with data of 55 bytes.
fn popups(random: &mut Random) -> Vec<Popup> {
    let selection = Additional::Selection {
        label: b"x".to_vec(),
        numbers: [5, 0, 10, 255],
        unit: b"".to_vec(),
    };
    let kinds = [
        (Additional::Absent, None),
        (Additional::Empty, None),
        (Additional::Empty, Some(b"".to_vec())),
        (Additional::Empty, Some(b"Yes;No".to_vec())),
        (selection.clone(), None),
        (selection.clone(), Some(b"".to_vec())),
        (selection, Some(b"Yes;No".to_vec())),
    ];
    let mut popups = Vec::new();
    for (additional, values) in kinds {
        let mut popup = Popup {
            header: Vec::new(),
            info: Vec::new(),
            timeout: 0x1E,
            close: 1,
            additional,
            values,
        };
        popups.push(popup.clone());
        popup.header = text(random, 9);
        popup.info = text(random, 5);
        popups.push(popup.clone());
        let room = 55 - popup.data().len();
        popup.info.extend(text(random, room));
        popups.push(popup);
    }
    popups
}

/// As it is; with bytes behind the last item; with bit 7 of the byte behind the sub-command changed, which in the pit byte is ignored;
/// cut; with a check of another bit; of another family, or of one left behind. All but those of the wrong check have the right one.
pub fn near(payload: &[u8]) -> Vec<Vec<u8>> {
    let [destination, source, id, body @ .., _] = payload else {
        return Vec::new();
    };
    let with = |id: u8, body: &[u8]| cases::payload([*destination, *source], id, body);
    let mut near = vec![payload.to_vec()];
    for more in [&[0][..], &[1], b"A\0", &[0; 5], &[0x41; 60]] {
        near.push(with(*id, &[body, more].concat()));
    }
    let mut changed = body.to_vec();
    if let Some(byte) = changed.get_mut(1) {
        *byte ^= 0x80;
        near.push(with(*id, &changed));
    }
    near.push(with(*id, &body[..body.len() - 1]));
    for other in [0x03, 0x13, 0x7C] {
        near.push(with(other, body));
    }
    for bit in [0x01, 0x80] {
        let mut damaged = payload.to_vec();
        *damaged.last_mut().unwrap() ^= bit;
        near.push(damaged);
    }
    near
}

/// Two payloads of every kind, popups with every optional part, ACKs of several lengths: each as written, and near that.
pub fn payloads(random: &mut Random, mut visit: impl FnMut(&[u8])) {
    let mut whole = Vec::new();
    for kind in KINDS {
        whole.extend([as_written(random, kind), as_written(random, kind)]);
    }
    whole.extend(popups(random).iter().map(popup));
    whole.extend([0, 1, 2, 13, 51, 52].map(|len| ack(random, len)));
    for payload in whole {
        for payload in near(&payload) {
            visit(&payload);
        }
    }
    for len in 0..=5 {
        visit(&vec![0; len]);
    }
}

/// Every number of every field's range, each on a payload of every kind and on popups with every optional part; of a baud rate some, at
/// random. Every change of a pit byte.
pub fn whole_ranges(random: &mut Random, mut visit: impl FnMut(&[u8], u32, u32)) {
    let mut payloads: Vec<Vec<u8>> = KINDS.map(|kind| as_written(random, kind)).into();
    payloads.extend(popups(random).iter().map(popup));
    for payload in payloads {
        for field in of_family(payload[2]) {
            match edits::range(*field) {
                Some((least, greatest @ ..=65535)) => {
                    (least..=greatest).for_each(|number| visit(&payload, *field, number))
                }
                _ => (0..4000).for_each(|_| visit(&payload, *field, random.number() as u32)),
            }
        }
    }
    for byte in 0..=255 {
        let payload = cases::payload(ADDRESSES, VTX, &[0x04, byte]);
        for (field, most) in [(21, 1), (22, 3), (23, 15)] {
            (0..=most).for_each(|number| visit(&payload, field, number));
        }
    }
}

/// Of popups and ACKs of every length: each field, with a number in its range, so that the check is renewed at every distance.
pub fn every_length(random: &mut Random, mut visit: impl FnMut(&[u8], u32, u32)) {
    let mut payloads = Vec::new();
    popups::every(random, |some| payloads.push(popup(some)));
    for len in 0..=52 {
        payloads.push(ack(random, len));
    }
    for payload in payloads {
        for field in of_family(payload[2]) {
            let (least, greatest) = edits::range(*field).unwrap();
            let number = least + random.below((greatest - least + 1) as usize) as u32;
            visit(&payload, *field, number);
        }
    }
}

/// Every length of a list up to five edits with every number of answer bytes up to seven.
pub fn short_lists(mut visit: impl FnMut(&[u8], &[u8], usize)) {
    let whole = edits::list(&[(20, 5000), (24, 1), (20, 4999), (1, 0xEE), (20, 6000)]);
    let payloads: [&[u8]; 4] = [
        &cases::payload(ADDRESSES, VTX, &[0x02, 0x16, 0xA8]),
        &cases::payload(ADDRESSES, VTX, &[0x02, 0x16, 0xA8, 0x00]),
        &cases::payload(ADDRESSES, 0x13, &[0x02]),
        &[],
    ];
    for payload in payloads {
        for len in 0..=whole.len() {
            for room in 0..=7 {
                visit(payload, &whole[..len], room);
            }
        }
    }
}
