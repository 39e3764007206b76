//! What a Rust host does with commands, in the same lines for either crate: only the crate's name in the `use` lines differs.
//!
//! What a type holds is told by its Debug text, a refusal by document 01's number.
use crate::popups::Popup;

/// Numbers in the place of those that writing judges.
#[derive(Debug)]
pub struct Judged {
    pub frequency: u16,
    pub control: u8,
    pub switch: u8,
    /// Hue, saturation, value.
    pub start: (u16, u8, u8),
    pub stop: (u16, u8, u8),
    pub action: u8,
}

/// What a type holds, or the refusal.
pub type Told = Result<String, u8>;

/// A count, or the refusal.
pub type Written = Result<usize, u8>;

#[derive(Clone, Copy)]
pub struct Types {
    /// Payload: the command.
    pub read: fn(&[u8]) -> Told,
    /// Payload, buffer: the command is read and written, with these numbers where there are any.
    pub write: fn(&[u8], Option<&Judged>, &mut [u8]) -> Written,
    /// Bytes: the text, and its bytes.
    pub text: fn(&[u8]) -> Told,
    /// Command id, sub id and action; information: the ACK, and its information.
    pub ack: fn([u8; 3], &[u8]) -> Told,
    /// Texts and numbers: the popup, and the fields that inspection gives.
    pub popup: fn(&Popup) -> Told,
}

macro_rules! lines {
    ($library:ident, $number:path) => {
        use $library::packets::{
            CommandAck, CommandPayload, CommandString, CrsfPacket, DirectCommands, LedColor,
            LedCommand, ScreenAdditionalData, ScreenPopup, ScreenPopupFields, ScreenSelection,
            VtxCommand,
        };
        use $library::CrsfParsingError;

        use super::{Judged, Types};
        use crate::popups::{Additional, Popup};

        fn change(command: &mut DirectCommands, judged: &Judged) {
            let of = |(hue, saturation, value)| LedColor {
                hue,
                saturation,
                value,
            };
            match &mut command.payload {
                CommandPayload::Vtx(VtxCommand::SetFrequency(frequency)) => {
                    *frequency = judged.frequency;
                }
                CommandPayload::Vtx(VtxCommand::EnablePitModeOnPowerUp {
                    pit_mode_control,
                    pit_mode_switch,
                    ..
                }) => {
                    *pit_mode_control = judged.control;
                    *pit_mode_switch = judged.switch;
                }
                CommandPayload::Led(
                    LedCommand::OverrideColor(color) | LedCommand::OverrideShift { color, .. },
                ) => *color = of(judged.start),
                CommandPayload::Led(
                    LedCommand::OverridePulse { start, stop, .. }
                    | LedCommand::OverrideBlink { start, stop, .. },
                ) => {
                    *start = of(judged.start);
                    *stop = of(judged.stop);
                }
                CommandPayload::Ack(ack) => ack.action = judged.action,
                _ => {}
            }
        }

        fn write(
            payload: &[u8],
            judged: Option<&Judged>,
            buffer: &mut [u8],
        ) -> Result<usize, CrsfParsingError> {
            let mut command = DirectCommands::from_bytes(payload)?;
            if let Some(judged) = judged {
                change(&mut command, judged);
            }
            command.to_bytes(buffer)
        }

        fn text(bytes: &[u8]) -> Result<String, CrsfParsingError> {
            let text = CommandString::new(bytes)?;
            Ok(format!("{text:?}: {:?}", text.as_bytes()))
        }

        fn ack(ids: [u8; 3], information: &[u8]) -> Result<String, CrsfParsingError> {
            let ack = CommandAck::new(ids[0], ids[1], ids[2], information)?;
            Ok(format!("{ack:?}: {:?}", ack.information()))
        }

        fn additional(
            given: &Additional,
        ) -> Result<Option<ScreenAdditionalData>, CrsfParsingError> {
            Ok(match given {
                Additional::Absent => None,
                Additional::Empty => Some(ScreenAdditionalData::Empty),
                Additional::Selection {
                    label,
                    numbers,
                    unit,
                } => Some(ScreenAdditionalData::Selection(ScreenSelection {
                    selection_text: CommandString::new(label)?,
                    value: numbers[0],
                    min_value: numbers[1],
                    max_value: numbers[2],
                    default_value: numbers[3],
                    unit: CommandString::new(unit)?,
                })),
            })
        }

        /// The fields, or the refusal of a text. A close flag that is no flag counts as off.
        pub fn fields(given: &Popup) -> Result<ScreenPopupFields, CrsfParsingError> {
            Ok(ScreenPopupFields {
                header: CommandString::new(&given.header)?,
                info: CommandString::new(&given.info)?,
                max_timeout_interval: given.timeout,
                close_button_option: given.close == 1,
                additional_data: additional(&given.additional)?,
                possible_values: match &given.values {
                    Some(values) => Some(CommandString::new(values)?),
                    None => None,
                },
            })
        }

        fn popup(given: &Popup) -> Result<String, CrsfParsingError> {
            let popup = ScreenPopup::new(&fields(given)?)?;
            Ok(format!("{popup:?}: {:?}", popup.fields()?))
        }

        pub const TYPES: Types = Types {
            read: |payload| match DirectCommands::from_bytes(payload) {
                Ok(command) => Ok(format!("{command:?}")),
                Err(error) => Err($number(error)),
            },
            write: |payload, judged, buffer| write(payload, judged, buffer).map_err($number),
            text: |bytes| text(bytes).map_err($number),
            ack: |ids, information| ack(ids, information).map_err($number),
            popup: |given| popup(given).map_err($number),
        };
    };
}

pub mod host {
    lines!(crsf, CrsfParsingError::number);
}

pub mod rust {
    lines!(uf_crsf, crate::theirs::number);
}
