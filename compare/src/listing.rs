//! Document 01's listing, by the Rust.
use std::fmt::Write;

use crate::side::{count, number};
use crate::theirs::RUST;

pub fn listing(input: &[u8]) -> String {
    let mut lines = String::new();
    let mut rest = input;
    for record in 0.. {
        let Some((len, behind)) = rest.split_first() else {
            writeln!(lines, "end {record}").unwrap();
            break;
        };
        let Some((payload, behind)) = behind.split_at_checked((*len).into()) else {
            writeln!(lines, "cut {record}").unwrap();
            break;
        };
        let word = (RUST.again)(payload, &mut [0; 60]);
        match number(word) {
            0 => writeln!(lines, "{record} read {:02X} {}", payload[2], count(word)),
            refused => writeln!(lines, "{record} refused {refused}"),
        }
        .unwrap();
        rest = behind;
    }
    lines
}
