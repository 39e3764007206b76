//! After uf-crsf's src/packets/mod.rs (Apache-2.0, see NOTICE).
//!
//! Direct commands and what they are made of, by the names that uf-crsf has in its own `packets`.
use crate::error::CrsfParsingError;

mod commands;

pub use commands::{
    CommandAck, CommandPayload, CommandString, CrossfireCommand, DirectCommands, FcCommand,
    FlowControlCommand, GeneralCommand, LedColor, LedCommand, OsdCommand, ScreenAdditionalData,
    ScreenCommand, ScreenPopup, ScreenPopupFields, ScreenSelection, VtxCommand,
};

/// Frame types; of uf-crsf's, the one that direct commands have.
#[non_exhaustive]
#[derive(Clone, Copy, Debug, PartialEq, Eq)]
#[repr(u8)]
pub enum PacketType {
    /// Direct commands.
    Command = 0x32,
}

/// A trait representing a deserializable CRSF packet.
pub trait CrsfPacket: Sized {
    /// The CRSF frame type identifier for this packet.
    const PACKET_TYPE: PacketType;

    /// The minimum expected length of the packet's payload in bytes.
    const MIN_PAYLOAD_SIZE: usize;

    /// Creates a packet instance from a payload byte slice; bytes after the last item are ignored.
    fn from_bytes(data: &[u8]) -> Result<Self, CrsfParsingError>;

    /// Writes the packet's payload into the front of a buffer, and gives the count of its bytes.
    fn to_bytes(&self, buffer: &mut [u8]) -> Result<usize, CrsfParsingError>;

    /// Whether a buffer has the least length.
    fn validate_buffer_size(&self, buffer: &[u8]) -> Result<(), CrsfParsingError> {
        if buffer.len() < Self::MIN_PAYLOAD_SIZE {
            return Err(CrsfParsingError::BufferOverflow);
        }
        Ok(())
    }
}
