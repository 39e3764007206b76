//! Popups by the lengths of their texts: as they lie in a payload, whatever the lengths, and as fields where the texts can be made.
use uf_crsf::packets::ScreenPopupFields;

use crate::random::Random;
use crate::types;

/// Text bytes may be any but 0.
pub fn text(random: &mut Random, len: usize) -> Vec<u8> {
    (0..len).map(|_| 1 + random.below(255) as u8).collect()
}

/// A length near one of these limits, or any up to the last.
pub fn near(random: &mut Random, limits: &[usize]) -> usize {
    let limit = random.chosen(limits);
    match random.below(4) {
        0 => random.below(limits[limits.len() - 1] + 1),
        1 => limit.saturating_sub(random.below(3)),
        _ => limit + random.below(2),
    }
}

#[derive(Clone, Debug)]
pub enum Additional {
    Absent,
    Empty,
    Selection {
        label: Vec<u8>,
        numbers: [u8; 4],
        unit: Vec<u8>,
    },
}

#[derive(Clone, Debug)]
pub struct Popup {
    pub header: Vec<u8>,
    pub info: Vec<u8>,
    pub timeout: u8,
    pub close: u8,
    pub additional: Additional,
    pub values: Option<Vec<u8>>,
}

impl Popup {
    /// The items one after the other.
    pub fn data(&self) -> Vec<u8> {
        let mut data = [&self.header[..], &[0], &self.info, &[0]].concat();
        data.extend([self.timeout, self.close]);
        match &self.additional {
            Additional::Absent => {}
            Additional::Empty => data.push(0),
            Additional::Selection {
                label,
                numbers,
                unit,
            } => data.extend([&label[..], &[0], numbers, unit, &[0]].concat()),
        }
        if let Some(values) = &self.values {
            data.extend([&values[..], &[0]].concat());
        }
        data
    }

    /// None where a text or the flag cannot be made.
    pub fn fields(&self) -> Option<ScreenPopupFields> {
        if self.close > 1 {
            return None;
        }
        types::rust::fields(self).ok()
    }

    /// Texts near 51 bytes, data near 55, a close flag that may be out of range.
    pub fn random(random: &mut Random) -> Popup {
        let mut left = near(random, &[20, 44, 51]);
        let mut some = |random: &mut Random| {
            let len = match random.below(3) {
                0 => left,
                _ => random.below(left + 1),
            };
            left -= len;
            text(random, len)
        };
        Popup {
            header: some(random),
            info: some(random),
            timeout: random.byte(),
            close: random.chosen(&[0, 1, 0, 1, 0, 1, 0, 1, 2, 255]),
            additional: match random.below(3) {
                0 => Additional::Absent,
                1 => Additional::Empty,
                _ => Additional::Selection {
                    label: some(random),
                    numbers: std::array::from_fn(|_| random.byte()),
                    unit: some(random),
                },
            },
            values: random.once_in(2).then(|| some(random)),
        }
    }
}

/// Every length of header and info up to 57 bytes of both, with each combination of what may follow; of that, one text at a time at
/// its least length and at those that bring the data to 54, 55 and 56 bytes.
pub fn every(random: &mut Random, mut visit: impl FnMut(&Popup)) {
    for header in 0..=57 {
        for info in 0..=57 - header {
            let bare = Popup {
                header: text(random, header),
                info: text(random, info),
                timeout: random.byte(),
                close: random.below(2) as u8,
                additional: Additional::Absent,
                values: None,
            };
            visit(&bare);
            for filling in 0..6 {
                let mut popup = bare.clone();
                let selected = |label: &[u8], unit: &[u8]| Additional::Selection {
                    label: label.to_vec(),
                    numbers: [1, 0, 255, 7],
                    unit: unit.to_vec(),
                };
                let set = |popup: &mut Popup, fill: &[u8]| {
                    (popup.additional, popup.values) = match filling {
                        0 => (Additional::Empty, None),
                        1 => (Additional::Empty, Some(fill.to_vec())),
                        2 => (selected(fill, b""), None),
                        3 => (selected(b"x", fill), None),
                        4 => (selected(b"x", b"y"), Some(fill.to_vec())),
                        _ => (Additional::Absent, Some(fill.to_vec())),
                    };
                };
                set(&mut popup, b"");
                visit(&popup);
                let least = popup.data().len();
                for size in 54..=56 {
                    if least < size {
                        set(&mut popup, &text(random, size - least));
                        visit(&popup);
                    }
                }
            }
        }
    }
}
