//! Each kind of command of document 01's "Family sheets": the bytes that its sheet gives, worked out by hand, are read as the command and
//! written of it.
mod payloads;

use crsf::packets::{
    CommandAck, CommandPayload, CommandString, CrossfireCommand, CrsfPacket, DirectCommands,
    FcCommand, FlowControlCommand, GeneralCommand, LedColor, LedCommand, OsdCommand,
    ScreenAdditionalData, ScreenCommand, ScreenPopup, ScreenPopupFields, ScreenSelection,
    VtxCommand,
};
use payloads::{command, payload};

type Body = &'static [u8];

/// Id, body, command.
type Row = (u8, Body, CommandPayload);

fn fc() -> Vec<Row> {
    use FcCommand::*;
    let row = |body: Body, command| (0x01, body, CommandPayload::Fc(command));
    vec![row(&[0x01], ForceDisarm), row(&[0x02], ScaleChannel)]
}

fn osd() -> Vec<Row> {
    let buttons = OsdCommand::SendButtons(0xA0);
    vec![(0x05, &[0x01, 0xA0], CommandPayload::Osd(buttons))]
}

fn vtx() -> Vec<Row> {
    use VtxCommand::*;
    let row = |body: Body, command| (0x08, body, CommandPayload::Vtx(command));
    vec![
        // 6000 is 0x1770
        row(&[0x02, 0x17, 0x70], SetFrequency(6000)),
        // mode 0, control 2 in bits 1-2, switch 9 in bits 3-6: 0 + 4 + 72
        row(
            &[0x04, 0x4C],
            EnablePitModeOnPowerUp {
                pit_mode: false,
                pit_mode_control: 2,
                pit_mode_switch: 9,
            },
        ),
        row(&[0x05], PowerUpFromPitMode),
        row(&[0x06, 0x14], SetDynamicPower(20)),
        row(&[0x08, 0x1E], SetPower(30)),
    ]
}

fn led() -> Vec<Row> {
    use LedCommand::*;
    let row = |body: Body, command| (0x09, body, CommandPayload::Led(command));
    // hue 240 = 011110000, saturation 50 = 0110010: 78 32; value 75 = 4B
    let blue = LedColor {
        hue: 240,
        saturation: 50,
        value: 75,
    };
    // hue 1 = 000000001, saturation 2 = 0000010: 00 82; value 3
    let dark = LedColor {
        hue: 1,
        saturation: 2,
        value: 3,
    };
    vec![
        row(&[0x01], SetDefault),
        row(&[0x02, 0x78, 0x32, 0x4B], OverrideColor(blue)),
        // 500 is 0x01F4
        row(
            &[0x03, 0x01, 0xF4, 0x78, 0x32, 0x4B, 0x00, 0x82, 0x03],
            OverridePulse {
                duration_ms: 500,
                start: blue,
                stop: dark,
            },
        ),
        row(
            &[0x04, 0x01, 0xF4, 0x00, 0x82, 0x03, 0x78, 0x32, 0x4B],
            OverrideBlink {
                interval_ms: 500,
                start: dark,
                stop: blue,
            },
        ),
        row(
            &[0x05, 0xFF, 0xFE, 0x00, 0x82, 0x03],
            OverrideShift {
                interval_ms: 65534,
                color: dark,
            },
        ),
    ]
}

fn general() -> Vec<Row> {
    use GeneralCommand::*;
    let row = |body: Body, command| (0x0A, body, CommandPayload::General(command));
    vec![
        row(
            &[0x70, 0x07, 0x12, 0x34, 0x56, 0x78],
            SpeedProposal {
                port_id: 7,
                proposed_baudrate: 0x1234_5678,
            },
        ),
        row(
            &[0x71, 0x07, 0x01],
            SpeedProposalResponse {
                port_id: 7,
                accepted: true,
            },
        ),
    ]
}

fn crossfire() -> Vec<Row> {
    use CrossfireCommand::*;
    let row = |body: Body, command| (0x10, body, CommandPayload::Crossfire(command));
    vec![
        row(&[0x01], SetReceiverInBindMode),
        row(&[0x02], CancelBindMode),
        row(&[0x03], SetBindId),
        row(&[0x05, 0x2A], ModelSelection(42)),
        row(&[0x06], CurrentModelSelection),
        row(&[0x07, 0x2B], ReplyCurrentModelSelection(43)),
        row(&[0x0A], EnableRxTelemetry),
        row(&[0x0B], DisableRxTelemetry),
        row(&[0x0C], FactoryReset),
        row(&[0x0D], ResetToFactoryFirmware),
    ]
}

fn flow_control() -> Vec<Row> {
    use FlowControlCommand::*;
    let row = |body: Body, command| (0x20, body, CommandPayload::FlowControl(command));
    vec![
        row(
            &[0x01, 0x14, 0x03, 0xE8],
            Subscribe {
                frame_type: 0x14,
                max_interval_time: 1000,
            },
        ),
        row(&[0x02, 0x14], Unsubscribe { frame_type: 0x14 }),
    ]
}

fn text(bytes: &[u8]) -> CommandString {
    CommandString::new(bytes).unwrap()
}

/// "Hi", "Yo", 30 seconds and a close button, with each kind of what is optional.
fn popups() -> [(Body, ScreenPopupFields); 4] {
    let bare = ScreenPopupFields {
        header: text(b"Hi"),
        info: text(b"Yo"),
        max_timeout_interval: 30,
        close_button_option: true,
        additional_data: None,
        possible_values: None,
    };
    let empty = ScreenPopupFields {
        additional_data: Some(ScreenAdditionalData::Empty),
        ..bare.clone()
    };
    let asked = ScreenPopupFields {
        possible_values: Some(text(b"Yes;No")),
        ..empty.clone()
    };
    let selected = ScreenPopupFields {
        additional_data: Some(ScreenAdditionalData::Selection(ScreenSelection {
            selection_text: text(b"Power"),
            value: 20,
            min_value: 0,
            max_value: 30,
            default_value: 10,
            unit: text(b"dBm"),
        })),
        ..bare.clone()
    };
    [
        (b"\x01Hi\0Yo\0\x1E\x01", bare),
        (b"\x01Hi\0Yo\0\x1E\x01\0", empty),
        (b"\x01Hi\0Yo\0\x1E\x01\0Yes;No\0", asked),
        (
            b"\x01Hi\0Yo\0\x1E\x01Power\0\x14\x00\x1E\x0AdBm\0",
            selected,
        ),
    ]
}

fn screen() -> Vec<Row> {
    use ScreenCommand::*;
    let row = |body: Body, command| (0x22, body, CommandPayload::Screen(command));
    let mut rows: Vec<Row> = popups()
        .into_iter()
        .map(|(body, fields)| row(body, PopupMessageStart(ScreenPopup::new(&fields).unwrap())))
        .collect();
    rows.push(row(
        &[0x02, 0x09, 0x00],
        SelectionReturnValue {
            value: 9,
            response: false,
        },
    ));
    rows
}

fn ack() -> Vec<Row> {
    let row = |body: Body, ack| (0xFF, body, CommandPayload::Ack(ack));
    vec![
        row(
            b"\x08\x02\x01done\0",
            CommandAck::new(0x08, 0x02, 1, b"done").unwrap(),
        ),
        row(
            b"\x09\x05\x00\0",
            CommandAck::new(0x09, 0x05, 0, b"").unwrap(),
        ),
    ]
}

fn sheets() -> [Vec<Row>; 9] {
    [
        fc(),
        osd(),
        vtx(),
        led(),
        general(),
        crossfire(),
        flow_control(),
        screen(),
        ack(),
    ]
}

#[test]
fn what_is_written_is_as_the_sheets_say_and_reads_back() {
    let mut kinds = std::collections::BTreeSet::new();
    for (id, body, said) in sheets().concat() {
        let command = command(said);
        let bytes = payload(id, body);
        let mut buffer = [0xA5; 64];
        assert_eq!(
            command.to_bytes(&mut buffer),
            Ok(bytes.len()),
            "{command:?}"
        );
        assert_eq!(buffer[..bytes.len()], bytes, "{command:?}");
        assert!(buffer[bytes.len()..].iter().all(|byte| *byte == 0xA5));
        assert_eq!(DirectCommands::from_bytes(&bytes), Ok(command));
        kinds.insert((id, if id == 0xFF { 0 } else { body[0] }));
    }
    assert_eq!(kinds.len(), 30);
}

#[test]
fn what_a_popup_is_made_of_is_what_inspection_gives() {
    for (_, fields) in popups() {
        assert_eq!(ScreenPopup::new(&fields).unwrap().fields(), Ok(fields));
    }
}

/// As uf-crsf derives them: names, and the bytes of what is stored.
#[test]
fn debug_texts() {
    assert_eq!(format!("{:?}", text(b"Hi")), "CommandString([72, 105])");
    let (_, fields) = &popups()[0];
    assert_eq!(
        format!("{:?}", ScreenPopup::new(fields).unwrap()),
        "ScreenPopup([72, 105, 0, 89, 111, 0, 30, 1])"
    );
    assert_eq!(
        format!("{:?}", CommandAck::new(8, 2, 1, b"ok").unwrap()),
        "CommandAck { command_id: 8, sub_command_id: 2, action: 1, information: [111, 107] }"
    );
    assert_eq!(
        format!("{:#?}", text(b"H")),
        "CommandString(\n    [\n        72,\n    ],\n)"
    );
}

#[test]
fn the_frame_type_and_the_least_length_belong_to_the_payload_type() {
    assert_eq!(DirectCommands::PACKET_TYPE as u8, 0x32);
    assert_eq!(DirectCommands::PACKET_TYPE, crsf::PacketType::Command);
    assert_eq!(DirectCommands::MIN_PAYLOAD_SIZE, 4);
    let (_, _, disarm) = fc().remove(0);
    let command = command(disarm);
    let refused = Err(crsf::CrsfParsingError::BufferOverflow);
    assert_eq!(command.validate_buffer_size(&[0; 3]), refused);
    assert_eq!(command.validate_buffer_size(&[0; 4]), Ok(()));
}
