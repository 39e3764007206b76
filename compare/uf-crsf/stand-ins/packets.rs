// Stands in for uf-crsf's src/packets/mod.rs: the trait as it is there, and of the packet types the one that the direct commands
// have. Unlike there everything public in commands.rs can be named from outside, so that the check itself can be compared.
use crate::error::CrsfParsingError;

mod commands;
pub use commands::*;

#[derive(Clone, Copy, Debug, PartialEq, Eq)]
#[repr(u8)]
pub enum PacketType {
    Command = 0x32,
}

pub trait CrsfPacket: Sized {
    const PACKET_TYPE: PacketType;
    const MIN_PAYLOAD_SIZE: usize;

    fn from_bytes(data: &[u8]) -> Result<Self, CrsfParsingError>;
    fn to_bytes(&self, buffer: &mut [u8]) -> Result<usize, CrsfParsingError>;
}
