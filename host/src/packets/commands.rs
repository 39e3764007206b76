//! After uf-crsf's src/packets/commands.rs (Apache-2.0, see NOTICE).
use crate::boundary::{self, ACK_SIZE, RECORD_SIZE};
use crate::error::{answer, CrsfParsingError};
use crate::image::{self, Information};
use crate::packets::{CrsfPacket, PacketType};

mod general;
mod led;
mod screen;

pub use general::GeneralCommand;
pub use led::{LedColor, LedCommand};
pub use screen::{
    CommandString, ScreenAdditionalData, ScreenCommand, ScreenPopup, ScreenPopupFields,
    ScreenSelection,
};

/// Represents a Direct Commands packet (frame type 0x32).
///
/// Command payloads and supporting types are available through `packets`.
/// For example, constructing a baud-rate proposal does not change the local UART:
///
/// ```
/// use crsf::packets::{CommandPayload, DirectCommands, GeneralCommand};
///
/// let command = DirectCommands {
///     dst_addr: 0xEE,
///     src_addr: 0xEA,
///     payload: CommandPayload::General(GeneralCommand::SpeedProposal {
///         port_id: 0,
///         proposed_baudrate: 400_000,
///     }),
/// };
/// ```
#[derive(Clone, Debug, PartialEq)]
pub struct DirectCommands {
    /// Destination.
    pub dst_addr: u8,
    /// Source.
    pub src_addr: u8,
    /// The command.
    pub payload: CommandPayload,
}

/// Enum for the different payloads of a DirectCommands packet.
#[derive(Clone, Debug, PartialEq)]
pub enum CommandPayload {
    /// Command ID 0x01.
    Fc(FcCommand),
    /// Command ID 0x05.
    Osd(OsdCommand),
    /// Command ID 0x08.
    Vtx(VtxCommand),
    /// Command ID 0x09.
    Led(LedCommand),
    /// Command ID 0x0A.
    General(GeneralCommand),
    /// Command ID 0x10.
    Crossfire(CrossfireCommand),
    /// Command ID 0x20.
    FlowControl(FlowControlCommand),
    /// Command ID 0x22.
    Screen(ScreenCommand),
    /// Command ID 0xFF.
    Ack(CommandAck),
}

/// FC Commands (command ID 0x01)
#[derive(Clone, Debug, PartialEq)]
pub enum FcCommand {
    /// Force disarm.
    ForceDisarm,
    /// Scale channel.
    ScaleChannel,
}

/// OSD Commands (command ID 0x05)
#[derive(Clone, Debug, PartialEq)]
pub enum OsdCommand {
    /// Send buttons.
    SendButtons(u8),
}

/// VTX Commands (command ID 0x08)
///
/// Discontinued subcommands 0x01 and 0x03 are unsupported.
#[derive(Clone, Debug, PartialEq)]
pub enum VtxCommand {
    /// Frequency in MHz, from 5000 through 6000 inclusive.
    SetFrequency(u16),
    /// Enable pit mode on power up.
    EnablePitModeOnPowerUp {
        /// The mode.
        pit_mode: bool,
        /// 0 = off, 1 = on, 2 = arm, 3 = failsafe.
        pit_mode_control: u8,
        /// 0 = Ch5, 1 = Ch5 inverted, through 15 = Ch12 inverted.
        pit_mode_switch: u8,
    },
    /// Power up from pit mode.
    PowerUpFromPitMode,
    /// Power in dBm; 0 can be used for pit-mode power.
    /// Send at 1 Hz. After 3 seconds without an update, the VTX reverts
    /// to the power configured by `SetPower`.
    SetDynamicPower(u8),
    /// Power in dBm; 0 can be used for pit-mode power.
    SetPower(u8),
}

/// Crossfire Commands (command ID 0x10)
#[derive(Clone, Debug, PartialEq)]
pub enum CrossfireCommand {
    /// Set the receiver in bind mode.
    SetReceiverInBindMode,
    /// Cancel bind mode.
    CancelBindMode,
    /// Set the bind ID.
    SetBindId,
    /// Select a model.
    ModelSelection(u8),
    /// Ask for the selected model.
    CurrentModelSelection,
    /// Reply with the selected model.
    ReplyCurrentModelSelection(u8),
    /// Enable the receiver's telemetry.
    EnableRxTelemetry,
    /// Disable the receiver's telemetry.
    DisableRxTelemetry,
    /// Reset configuration/NVM. The target acknowledges before resetting.
    FactoryReset,
    /// Reset configuration/NVM and restore factory firmware.
    /// The target acknowledges before resetting.
    ResetToFactoryFirmware,
}

/// Flow Control Commands (command ID 0x20)
#[derive(Clone, Debug, PartialEq)]
pub enum FlowControlCommand {
    /// Subscribe to a frame type.
    Subscribe {
        /// The type.
        frame_type: u8,
        /// Maximum interval in milliseconds.
        max_interval_time: u16,
    },
    /// Unsubscribe from a frame type.
    Unsubscribe {
        /// The type.
        frame_type: u8,
    },
}

/// Command ACK (command ID 0xFF)
#[derive(Clone, Debug, PartialEq)]
pub struct CommandAck {
    /// ID of the command that is answered.
    pub command_id: u8,
    /// ID of the sub-command that is answered.
    pub sub_command_id: u8,
    /// 0 = rejected, 1 = accepted.
    pub action: u8,
    pub(crate) information: Information,
}

impl CommandAck {
    /// Creates an ACK with up to 52 information bytes, excluding the terminator.
    ///
    /// `information` must not contain null bytes. Serialization appends the
    /// terminator. `action` must be 0 (rejected) or 1 (accepted).
    ///
    /// ```
    /// use crsf::packets::CommandAck;
    /// use crsf::CrsfParsingError;
    ///
    /// let ack = CommandAck::new(0x08, 0x02, 1, b"5800 MHz")?;
    /// assert_eq!(ack.information(), b"5800 MHz");
    ///
    /// let refused = |action, information| CommandAck::new(0x08, 0x02, action, information).unwrap_err();
    /// assert_eq!(refused(2, b"5800 MHz"), CrsfParsingError::InvalidPayload);
    /// assert_eq!(refused(1, &[b'i'; 53]), CrsfParsingError::InvalidPayloadLength);
    /// # Ok::<(), CrsfParsingError>(())
    /// ```
    pub fn new(
        command_id: u8,
        sub_command_id: u8,
        action: u8,
        information: &[u8],
    ) -> Result<Self, CrsfParsingError> {
        let mut made = [0; ACK_SIZE];
        answer(boundary::ack(
            command_id,
            sub_command_id,
            action,
            information,
            &mut made,
        ))?;
        Ok(image::ack(&made))
    }

    /// Returns the information bytes without the null terminator.
    pub fn information(&self) -> &[u8] {
        self.information.bytes()
    }
}

impl CrsfPacket for DirectCommands {
    const PACKET_TYPE: PacketType = PacketType::Command;
    // dst, src, cmd_id, crc
    const MIN_PAYLOAD_SIZE: usize = 4;

    /// Reads a payload: destination, source, command ID, body, check.
    ///
    /// ```
    /// use crsf::packets::{CommandPayload, CrsfPacket, DirectCommands, FcCommand};
    /// use crsf::CrsfParsingError;
    ///
    /// let command = DirectCommands::from_bytes(&[0xC8, 0xEA, 0x01, 0x01, 0xFE])?;
    /// assert_eq!((command.dst_addr, command.src_addr), (0xC8, 0xEA));
    /// assert_eq!(command.payload, CommandPayload::Fc(FcCommand::ForceDisarm));
    ///
    /// // another check
    /// let refused = DirectCommands::from_bytes(&[0xC8, 0xEA, 0x01, 0x01, 0xFF]);
    /// assert_eq!(refused, Err(CrsfParsingError::InvalidPayload));
    /// # Ok::<(), CrsfParsingError>(())
    /// ```
    fn from_bytes(data: &[u8]) -> Result<Self, CrsfParsingError> {
        let mut record = [0; RECORD_SIZE];
        answer(boundary::read(data, &mut record))?;
        Ok(image::command(&record))
    }

    /// Writes the payload into the front of a buffer, of which the rest keeps its bytes. A refusal leaves all of them.
    ///
    /// ```
    /// use crsf::packets::{CommandPayload, CrsfPacket, DirectCommands, VtxCommand};
    /// use crsf::CrsfParsingError;
    ///
    /// let mut command = DirectCommands {
    ///     dst_addr: 0xC8,
    ///     src_addr: 0xEA,
    ///     payload: CommandPayload::Vtx(VtxCommand::SetFrequency(5800)),
    /// };
    /// let mut buffer = [0; 60];
    /// let count = command.to_bytes(&mut buffer)?;
    /// assert_eq!(buffer[..count], [0xC8, 0xEA, 0x08, 0x02, 0x16, 0xA8, 0x0E]);
    ///
    /// assert_eq!(command.to_bytes(&mut [0; 6]), Err(CrsfParsingError::BufferOverflow));
    /// command.payload = CommandPayload::Vtx(VtxCommand::SetFrequency(4999));
    /// assert_eq!(command.to_bytes(&mut buffer), Err(CrsfParsingError::InvalidPayload));
    /// # Ok::<(), CrsfParsingError>(())
    /// ```
    fn to_bytes(&self, buffer: &mut [u8]) -> Result<usize, CrsfParsingError> {
        answer(boundary::write(&image::of_command(self), buffer))
    }
}
