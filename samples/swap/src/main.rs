//! A program for uf-crsf: tells what payloads say, makes a command of each family, writes it and reads it back.
use uf_crsf::packets::{
    CommandAck, CommandPayload, CommandString, CrossfireCommand, CrsfPacket, DirectCommands,
    FcCommand, FlowControlCommand, GeneralCommand, LedColor, LedCommand, OsdCommand,
    ScreenAdditionalData, ScreenCommand, ScreenPopup, ScreenPopupFields, ScreenSelection,
    VtxCommand,
};
use uf_crsf::{CrsfParsingError, PacketType};

const HANDSET: u8 = 0xEA;
const FLIGHT_CONTROLLER: u8 = 0xC8;

fn hexadecimal(bytes: &[u8]) -> String {
    bytes.iter().map(|byte| format!("{byte:02X}")).collect()
}

/// What a host makes of a command.
fn told(command: &DirectCommands) -> String {
    match &command.payload {
        CommandPayload::Fc(FcCommand::ForceDisarm) => "disarm".into(),
        CommandPayload::Vtx(VtxCommand::SetFrequency(frequency)) => format!("{frequency} MHz"),
        CommandPayload::Vtx(VtxCommand::EnablePitModeOnPowerUp {
            pit_mode,
            pit_mode_control,
            pit_mode_switch,
        }) => format!("pit mode {pit_mode}, {pit_mode_control}, {pit_mode_switch}"),
        CommandPayload::Led(LedCommand::OverrideColor(color)) => {
            let LedColor {
                hue,
                saturation,
                value,
            } = color;
            format!("colour {hue}/{saturation}/{value}")
        }
        CommandPayload::Screen(ScreenCommand::PopupMessageStart(popup)) => match popup.fields() {
            Ok(fields) => shown(&fields),
            Err(error) => refused(error).into(),
        },
        CommandPayload::Ack(ack) => {
            let information = String::from_utf8_lossy(ack.information());
            format!(
                "ACK {} of {:02X}: {information}",
                ack.action, ack.command_id
            )
        }
        other => format!("{other:?}"),
    }
}

fn text(string: &CommandString) -> String {
    String::from_utf8_lossy(string.as_bytes()).into_owned()
}

fn shown(fields: &ScreenPopupFields) -> String {
    let asked = match &fields.additional_data {
        None => "nothing".into(),
        Some(ScreenAdditionalData::Empty) => "no number".into(),
        Some(ScreenAdditionalData::Selection(asked)) => {
            let (least, most) = (asked.min_value, asked.max_value);
            let unit = text(&asked.unit);
            format!("{} {least} to {most} {unit}", text(&asked.selection_text))
        }
    };
    let answers = fields.possible_values.as_ref().map(text);
    format!("{}: {asked}, {answers:?}", text(&fields.header))
}

fn refused(error: CrsfParsingError) -> &'static str {
    match error {
        CrsfParsingError::InvalidPayloadLength => "a wrong length",
        CrsfParsingError::InvalidPayload => "a wrong payload",
        CrsfParsingError::BufferOverflow => "too little room",
        _ => "another refusal",
    }
}

/// Payloads as they come from a line.
fn read(payloads: &[&[u8]]) {
    for payload in payloads {
        let told = match DirectCommands::from_bytes(payload) {
            Ok(command) => format!("from {:02X}, {}", command.src_addr, told(&command)),
            Err(error) => refused(error).into(),
        };
        println!("{}: {told}", hexadecimal(payload));
    }
}

fn popup() -> Result<ScreenPopup, CrsfParsingError> {
    let mut fields = ScreenPopupFields {
        header: CommandString::new(b"Confirm")?,
        info: CommandString::new(b"Reset?")?,
        max_timeout_interval: 10,
        close_button_option: true,
        additional_data: Some(ScreenAdditionalData::Empty),
        possible_values: Some(CommandString::new(b"Yes;No")?),
    };
    println!("{}", shown(&ScreenPopup::new(&fields)?.fields()?));
    fields.additional_data = Some(ScreenAdditionalData::Selection(ScreenSelection {
        selection_text: CommandString::new(b"Level")?,
        value: 20,
        min_value: 0,
        max_value: 30,
        default_value: 10,
        unit: CommandString::new(b"dBm")?,
    }));
    ScreenPopup::new(&fields)
}

/// A command of each family.
fn commands() -> Result<Vec<CommandPayload>, CrsfParsingError> {
    let (red, dark) = (color(0, 100, 100), color(359, 100, 0));
    Ok(vec![
        CommandPayload::Fc(FcCommand::ScaleChannel),
        CommandPayload::Osd(OsdCommand::SendButtons(0xA0)),
        CommandPayload::Vtx(VtxCommand::SetPower(20)),
        CommandPayload::Led(LedCommand::OverridePulse {
            duration_ms: 500,
            start: red,
            stop: dark,
        }),
        CommandPayload::General(GeneralCommand::SpeedProposal {
            port_id: 0,
            proposed_baudrate: 400_000,
        }),
        CommandPayload::Crossfire(CrossfireCommand::ModelSelection(3)),
        CommandPayload::FlowControl(FlowControlCommand::Subscribe {
            frame_type: 0x14,
            max_interval_time: 1000,
        }),
        CommandPayload::Screen(ScreenCommand::PopupMessageStart(popup()?)),
        CommandPayload::Ack(CommandAck::new(0x08, 0x02, 1, b"done")?),
    ])
}

fn color(hue: u16, saturation: u8, value: u8) -> LedColor {
    LedColor {
        hue,
        saturation,
        value,
    }
}

/// Written into a buffer, and read back.
fn write(payload: CommandPayload, room: usize) -> Result<String, CrsfParsingError> {
    let command = DirectCommands {
        dst_addr: FLIGHT_CONTROLLER,
        src_addr: HANDSET,
        payload,
    };
    let mut buffer = [0; 64];
    let count = command.to_bytes(&mut buffer[..room])?;
    assert_eq!(DirectCommands::from_bytes(&buffer[..count])?, command);
    Ok(format!(
        "{}: {}",
        hexadecimal(&buffer[..count]),
        told(&command)
    ))
}

fn main() -> Result<(), CrsfParsingError> {
    assert_eq!(DirectCommands::PACKET_TYPE, PacketType::Command);
    let (frame, least) = (
        DirectCommands::PACKET_TYPE as u8,
        DirectCommands::MIN_PAYLOAD_SIZE,
    );
    println!("frame {frame:02X}, at least {least}");

    read(&[
        &[0xC8, 0xEA, 0x01, 0x01, 0xFE],
        &[0xC8, 0xEA, 0x01, 0x01, 0x00, 0xFE],
        &[0xC8, 0xEA, 0x08, 0x02, 0x16, 0xA8, 0x0E],
        &[0xC8, 0xEA, 0x08, 0x02, 0x16, 0xA8, 0x0F],
        &[0xC8, 0xEA, 0x01, 0x22],
        &[0xC8, 0xEA, 0x02, 0x56],
    ]);
    for payload in commands()? {
        println!("{}", write(payload, 64)?);
    }
    let frequency = |mhz| CommandPayload::Vtx(VtxCommand::SetFrequency(mhz));
    for (mhz, room) in [(5000, 7), (5000, 6), (4999, 7)] {
        let written = write(frequency(mhz), room).unwrap_or_else(|error| refused(error).into());
        println!("{mhz} MHz into {room}: {written}");
    }
    let long = CommandString::new(&[b'x'; 52]).unwrap_err();
    println!("a text of 52: {}, {long:?}", refused(long));
    Ok(())
}
