//! What the program crsf_replay prints of a log, by the Rust.
use std::fmt::Write;

use uf_crsf::packets::{CrsfPacket, DirectCommands};

use crate::replay::{self, Event};

/// Family id and written length.
fn written(command: &DirectCommands) -> (u8, usize) {
    let mut payload = [0; 60];
    let count = command.to_bytes(&mut payload);
    (payload[2], count.expect("a command that was read"))
}

/// An event's line; none of a block that has nothing to tell.
fn line(event: Event) -> Option<String> {
    Some(match event {
        Event::Nothing { .. } => return None,
        Event::Command {
            block,
            place,
            command,
        } => {
            let (id, count) = written(&command);
            format!("{block} {place} read {id:02X} {count}")
        }
        // the payload's own place is 0 so far
        Event::Refused {
            block,
            place,
            number,
        } => format!("{block} {place} refused {number} 0"),
        Event::Damaged { position, damage } => format!("damaged {position} {}", damage.number()),
        Event::Gap { block } => format!("gap {block}"),
        Event::StepBack { block } => format!("back {block}"),
    })
}

pub fn replay_text(log: &[u8]) -> String {
    let mut lines = String::new();
    let blocks = replay::log(log, |event| {
        if let Some(line) = line(event) {
            writeln!(lines, "{line}").unwrap();
        }
    });
    writeln!(lines, "end {blocks}").unwrap();
    lines
}
