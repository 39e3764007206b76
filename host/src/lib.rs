//! CRSF direct commands (frame type 0x32), read, written, constructed, edited and replayed from a log, and popups matched with what comes
//! back, by the C functions of libcrsf.a, which are proved to answer as their contracts say on any input.
//!
//! The types have the names, cases, fields and Debug texts that they have in the Rust crate uf-crsf. A program that makes direct commands,
//! reads them from a payload and writes them into one takes this crate in place of uf-crsf by its dependency line alone:
//!
//! ```toml
//! [dependencies]
//! uf-crsf = { package = "crsf-host", path = "../host" }
//! ```
//!
//! Then `use uf_crsf::packets::..` is this crate; with the line `crsf-host = { path = "../host" }` it is `crsf`, as below. What is added:
//! the errors 4 to 10 and 27 to 30 ([`CrsfParsingError`]), edits in place ([`edit`], [`edit_list`]), the replay of a block log
//! ([`Replay`]), and popup questions with their answers ([`Question`]). What is left behind:
//!
//! - Bluetooth (0x03) and RC over WiFi (0x13): `FamilyLeftBehind`.
//! - A family's body by itself (`TryFrom<&[u8]>`).
//! - The errors `UnexpectedPacketType` and `PacketNotImlemented`, which direct commands never give.
//! - The outer frame, all other packets, addresses by name, and the feature `defmt`: uf-crsf's parser goes on, and what its
//!   `RawCrsfPacket::payload()` gives is what [`from_bytes`](packets::CrsfPacket::from_bytes) takes.
//!
//! docs/DIFFERENCES.md lists them name by name.
//!
//! ```
//! use crsf::packets::{CommandPayload, CrsfPacket, DirectCommands, VtxCommand};
//!
//! let mut payload = [0xC8, 0xEA, 0x08, 0x02, 0x16, 0xA8, 0x0E];
//! let command = DirectCommands::from_bytes(&payload)?;
//! assert_eq!(command.payload, CommandPayload::Vtx(VtxCommand::SetFrequency(5800)));
//!
//! // the same payload with another frequency: the command is not built again
//! crsf::edit(&mut payload, crsf::Field::Frequency, 5000)?;
//! assert_eq!(payload, [0xC8, 0xEA, 0x08, 0x02, 0x13, 0x88, 0x90]);
//! # Ok::<(), crsf::CrsfParsingError>(())
//! ```
//!
//! Nothing here allocates. No bytes make a function panic: the `unreachable!` arms are for images and numbers that libcrsf.a is proved
//! not to hand out.
#![no_std]
#![deny(missing_docs, unsafe_code, clippy::undocumented_unsafe_blocks)]

#[cfg(test)]
extern crate std;

#[allow(unsafe_code)]
pub mod boundary;
mod edits;
pub mod error;
mod field;
#[cfg(test)]
#[path = "../tests/header/mod.rs"]
mod header;
mod image;
pub mod packets;
mod question;
mod replay;

pub use edits::{edit, edit_list, Edit};
pub use error::CrsfParsingError;
pub use field::Field;
pub use packets::PacketType;
pub use question::{Closed, Question};
pub use replay::{Event, Events, Replay};
