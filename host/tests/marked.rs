//! Document 01's "Examples marked for proof", M1 to M10, through the types.
mod payloads;

use crsf::packets::{
    CommandAck, CommandPayload, CommandString, CrsfPacket, DirectCommands, FcCommand, LedColor,
    LedCommand, ScreenAdditionalData, ScreenCommand, ScreenPopup, ScreenPopupFields, VtxCommand,
};
use crsf::CrsfParsingError::{self, *};
use crsf::{edit, edit_list, Edit, Field};
use payloads::{command, payload, M1, M2, M3, M3_EDITED};

fn disarm() -> DirectCommands {
    command(CommandPayload::Fc(FcCommand::ForceDisarm))
}

fn frequency(frequency: u16) -> DirectCommands {
    command(CommandPayload::Vtx(VtxCommand::SetFrequency(frequency)))
}

fn color(hue: u16, saturation: u8, value: u8) -> DirectCommands {
    command(CommandPayload::Led(LedCommand::OverrideColor(LedColor {
        hue,
        saturation,
        value,
    })))
}

fn written(command: &DirectCommands) -> Vec<u8> {
    let mut buffer = [0; 60];
    let count = command.to_bytes(&mut buffer).unwrap();
    buffer[..count].to_vec()
}

/// The payloads here that are not written out in document 01 get their check from `payloads`: on those that are, it is right.
#[test]
fn the_tests_own_check_is_that_of_the_marked_payloads() {
    let marked: [&[u8]; 5] = [&M1, &M2, &M3, &M3_EDITED, &[0xC8, 0xEA, 0x03, 0xEC]];
    for bytes in marked {
        assert_eq!(payload(bytes[2], &bytes[3..bytes.len() - 1]), bytes);
    }
}

#[test]
fn m1_is_disarm() {
    assert_eq!(DirectCommands::from_bytes(&M1), Ok(disarm()));
    assert_eq!(written(&disarm()), M1);
}

#[test]
fn m2_reads_and_is_written_as_m1_and_is_not_edited() {
    let read = DirectCommands::from_bytes(&M2).unwrap();
    assert_eq!(read, disarm());
    assert_eq!(written(&read), M1);

    let mut payload = M2;
    assert_eq!(
        edit(&mut payload, Field::Destination, 0xEE),
        Err(NotAsWritten)
    );
    assert_eq!(payload, M2);
    let mut answers = [0; 2];
    let edits = [
        Edit::new(Field::Destination, 0xEE),
        Edit::new(Field::Frequency, 5000),
    ];
    assert_eq!(edit_list(&mut payload, &edits, &mut answers), Ok(()));
    assert_eq!((payload, answers), (M2, [6, 6]));
}

#[test]
fn m3_is_5800_mhz_and_is_set_to_5000() {
    assert_eq!(DirectCommands::from_bytes(&M3), Ok(frequency(5800)));
    assert_eq!(written(&frequency(5800)), M3);

    let mut payload = M3;
    assert_eq!(edit(&mut payload, Field::Frequency, 5000), Ok(()));
    assert_eq!(payload, M3_EDITED);
    assert_eq!(DirectCommands::from_bytes(&payload), Ok(frequency(5000)));
}

#[test]
fn m4_on_m3_4999_is_8_and_field_24_is_7() {
    let mut payload = M3;
    assert_eq!(
        edit(&mut payload, Field::Frequency, 4999),
        Err(NumberOutsideRange)
    );
    assert_eq!(edit(&mut payload, Field::Power, 0), Err(NoSuchField));
    assert_eq!(payload, M3);
}

#[test]
fn m5_is_1_2_and_4() {
    let read = DirectCommands::from_bytes;
    assert_eq!(read(&[0xC8, 0xEA, 0x01, 0x22]), Err(InvalidPayloadLength));
    assert_eq!(read(&[0xC8, 0xEA, 0x02, 0x56]), Err(InvalidPayload));
    assert_eq!(read(&[0xC8, 0xEA, 0x03, 0xEC]), Err(FamilyLeftBehind));
}

#[test]
fn m6_a_colour_is_three_bytes() {
    let bytes = payload(0x09, &[0x02, 0xB3, 0xE4, 0x64]);
    assert_eq!(written(&color(359, 100, 100)), bytes);
    assert_eq!(DirectCommands::from_bytes(&bytes), Ok(color(359, 100, 100)));
    let bad = payload(0x09, &[0x02, 0xB4, 0x00, 0x00]);
    assert_eq!(DirectCommands::from_bytes(&bad), Err(InvalidPayload));
}

#[test]
fn m7_a_pit_byte_of_ff_is_written_7f() {
    let read = DirectCommands::from_bytes(&payload(0x08, &[0x04, 0xFF])).unwrap();
    let pit = command(CommandPayload::Vtx(VtxCommand::EnablePitModeOnPowerUp {
        pit_mode: true,
        pit_mode_control: 3,
        pit_mode_switch: 15,
    }));
    assert_eq!(read, pit);
    assert_eq!(written(&read), payload(0x08, &[0x04, 0x7F]));
}

#[test]
fn m8_a_zero_in_a_text_comes_before_its_length_in_an_ack_after() {
    let mut bytes = [b'x'; 53];
    bytes[7] = 0;
    assert_eq!(CommandString::new(&bytes[..52]), Err(InvalidPayload));
    assert_eq!(
        CommandAck::new(0x08, 0x02, 1, &bytes),
        Err(InvalidPayloadLength)
    );
}

#[test]
fn m9_a_header_of_51_bytes_fills_a_popup() {
    let mut fields = ScreenPopupFields {
        header: CommandString::new(&[b'h'; 51]).unwrap(),
        info: CommandString::new(b"").unwrap(),
        max_timeout_interval: 0,
        close_button_option: false,
        additional_data: None,
        possible_values: None,
    };
    let popup = ScreenPopup::new(&fields).unwrap();
    assert_eq!(popup.fields().as_ref(), Ok(&fields));
    // 55 bytes between the sub-command and the check: header, its end, info's end, timeout, close
    let body = [&[0x01][..], &[b'h'; 51], &[0, 0, 0, 0]].concat();
    let shown = command(CommandPayload::Screen(ScreenCommand::PopupMessageStart(
        popup,
    )));
    assert_eq!(written(&shown), payload(0x22, &body));
    assert_eq!(body.len(), 1 + 55);

    fields.additional_data = Some(ScreenAdditionalData::Empty);
    assert_eq!(ScreenPopup::new(&fields), Err(InvalidPayloadLength));
}

/// The answer, and that a refusal leaves the buffer.
fn into(command: &DirectCommands, room: usize) -> Result<usize, CrsfParsingError> {
    let mut buffer = vec![0xA5; room];
    let answer = command.to_bytes(&mut buffer);
    if answer.is_err() {
        assert_eq!(buffer, vec![0xA5; room]);
    }
    answer
}

#[test]
fn m10_room_and_values_are_judged_in_order() {
    assert_eq!(into(&disarm(), 4), Err(BufferOverflow));
    assert_eq!(into(&disarm(), 5), Ok(5));
    assert_eq!(into(&frequency(4999), 3), Err(BufferOverflow));
    assert_eq!(into(&frequency(4999), 4), Err(InvalidPayload));
    assert_eq!(into(&color(360, 0, 0), 4), Err(BufferOverflow));
}
