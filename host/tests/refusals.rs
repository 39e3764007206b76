//! Every number of document 01's table, those of the log and those of questions are had through the crate, with their names and words; and
//! what a refusal leaves as it was.
mod blocks;
mod payloads;

use blocks::{block, closed, laid_out, Block};
use crsf::boundary::{self, POPUP_FIELDS_SIZE, POPUP_SIZE, RECORD_SIZE};
use crsf::packets::{
    CommandAck, CommandPayload, CommandString, CrsfPacket, DirectCommands, FcCommand,
    ScreenAdditionalData, ScreenCommand, ScreenPopup, ScreenPopupFields, ScreenSelection,
    VtxCommand,
};
use crsf::CrsfParsingError::{self, *};
use crsf::{edit, edit_list, Edit, Event, Field, Question, Replay};
use payloads::{command, payload, M2, M3, M3_EDITED};

fn read(payload: &[u8]) -> CrsfParsingError {
    DirectCommands::from_bytes(payload).unwrap_err()
}

fn written(command: &DirectCommands, room: usize) -> CrsfParsingError {
    command.to_bytes(&mut vec![0; room]).unwrap_err()
}

fn edited(payload: &[u8], field: impl Into<u32>, number: u32) -> CrsfParsingError {
    edit(&mut payload.to_vec(), field, number).unwrap_err()
}

/// 01: "a command that stores no bytes has stored length 0 and zeros throughout": this disarm stores one, which no type here can hold.
fn record_not_made() -> CrsfParsingError {
    let mut record = [0; RECORD_SIZE];
    record[2..4].copy_from_slice(&[0x01, 0x01]);
    record[14..16].copy_from_slice(&[1, b'x']);
    let word = boundary::write(&record, &mut [0; 60]);
    CrsfParsingError::from_number(boundary::number(word)).unwrap()
}

fn damaged(block: Block) -> CrsfParsingError {
    match Replay::new().block(0, &block).next() {
        Some(Event::Damaged { position: 0, error }) => error,
        other => panic!("{other:?}"),
    }
}

/// A popup was sent at second 100: "Hi", 30 seconds, the selection "l" of 15 from 10 to 20.
fn asked() -> (Question, ScreenPopup) {
    let body = b"\x01Hi\0\0\x1E\x01l\0\x0F\x0A\x14\x0F\0";
    let read = DirectCommands::from_bytes(&payload(0x22, body)).unwrap();
    let CommandPayload::Screen(ScreenCommand::PopupMessageStart(popup)) = read.payload else {
        panic!("{read:?}");
    };
    let mut question = Question::new();
    question.ask(100, &popup).unwrap();
    (question, popup)
}

fn asked_again(second: u32) -> CrsfParsingError {
    let (mut question, popup) = asked();
    question.ask(second, &popup).unwrap_err()
}

fn returned(mut question: Question, value: u8) -> CrsfParsingError {
    question.returned(130, value, true).unwrap_err()
}

/// 1, 2 and 4 by M5, 3 by M10, 5 by "Made", 6 by M2, 7 and 8 by M4, 9 and 10 by document 02's block log, 27 to 30 by its questions.
#[test]
fn each_of_the_fourteen() {
    let disarm = command(CommandPayload::Fc(FcCommand::ForceDisarm));
    let had = [
        (
            read(&[0xC8, 0xEA, 0x01, 0x22]),
            InvalidPayloadLength,
            "InvalidPayloadLength (1)",
        ),
        (
            read(&[0xC8, 0xEA, 0x02, 0x56]),
            InvalidPayload,
            "InvalidPayload (2)",
        ),
        (written(&disarm, 4), BufferOverflow, "BufferOverflow (3)"),
        (
            read(&[0xC8, 0xEA, 0x03, 0xEC]),
            FamilyLeftBehind,
            "family left behind (4)",
        ),
        (record_not_made(), RecordNotMade, "record not made (5)"),
        (
            edited(&M2, Field::Destination, 0),
            NotAsWritten,
            "not as written (6)",
        ),
        (
            edited(&M3, Field::Power, 0),
            NoSuchField,
            "no such field (7)",
        ),
        (
            edited(&M3, Field::Frequency, 4999),
            NumberOutsideRange,
            "number outside range (8)",
        ),
        (
            damaged(closed(block(7, &[&M3]), 1)),
            BlockCheck,
            "block check (9)",
        ),
        (
            damaged(laid_out(7, 506, &[])),
            BlockLayout,
            "block layout (10)",
        ),
        (
            asked_again(99),
            ClockBack,
            "clock: the second is below the last accepted one (27)",
        ),
        (
            asked_again(130),
            QuestionOpen,
            "question open: the last popup can still be answered (28)",
        ),
        (
            returned(Question::new(), 15),
            NoQuestion,
            "no question: no popup was sent, or it was answered before (29)",
        ),
        (
            returned(asked().0, 21),
            ValueOutsideSelection,
            "value: not from min to max of the popup's selection (30)",
        ),
    ];
    let numbers = (1..=10).chain(27..=30);
    assert_eq!(had.len(), numbers.clone().count());
    for ((refusal, expected, text), number) in had.into_iter().zip(numbers) {
        assert_eq!(refusal, expected);
        assert_eq!(refusal.number(), number);
        assert_eq!(refusal.to_string(), text);
        assert_eq!(CrsfParsingError::from_number(number), Some(refusal));
        let error: &dyn std::error::Error = &refusal;
        assert_eq!(error.to_string(), text);
    }
}

/// "Reading order", a case for each of its steps.
#[test]
fn reading_refuses_in_order() {
    let long = payload(0x03, &[0x01; 57]);
    assert_eq!((long.len(), read(&long)), (61, InvalidPayloadLength));
    assert_eq!(read(&[]), InvalidPayloadLength);
    let mut wrong_check = payload(0x13, &[0x01]);
    wrong_check[4] ^= 1;
    assert_eq!(read(&wrong_check), InvalidPayload);
    assert_eq!(read(&payload(0x13, &[0x01])), FamilyLeftBehind);
    assert_eq!(read(&payload(0x04, &[0x01])), InvalidPayload);
    assert_eq!(read(&payload(0x08, &[0x03, 0x14])), InvalidPayload);
    assert_eq!(read(&payload(0x08, &[0x02, 0x14])), InvalidPayloadLength);
    // a pulse whose start colour is bad and whose stop is missing
    let pulse = payload(0x09, &[0x03, 0x01, 0xF4, 0xB4, 0x00, 0x00]);
    assert_eq!(read(&pulse), InvalidPayload);
    // an ACK with action 2, without and with its end
    assert_eq!(
        read(&payload(0xFF, &[0x08, 0x02, 2, b'x'])),
        InvalidPayloadLength
    );
    assert_eq!(
        read(&payload(0xFF, &[0x08, 0x02, 2, b'x', 0])),
        InvalidPayload
    );
}

/// An edit refuses as reading does, then by 6, 7, 8.
#[test]
fn edits_refuse_in_order() {
    assert_eq!(
        edited(&[0xC8, 0xEA, 0x01, 0x22], 0u32, 0),
        InvalidPayloadLength
    );
    assert_eq!(edited(&[0xC8, 0xEA, 0x02, 0x56], 0u32, 0), InvalidPayload);
    assert_eq!(edited(&[0xC8, 0xEA, 0x03, 0xEC], 0u32, 0), FamilyLeftBehind);
    assert_eq!(edited(&M2, Field::Power, 256), NotAsWritten);
    assert_eq!(edited(&M3, Field::Power, 256), NoSuchField);
    assert_eq!(edited(&M3, Field::Source, 256), NumberOutsideRange);
}

#[test]
fn a_list_goes_on_after_a_refused_edit() {
    let (mut payload, mut answers) = (M3, [0xA5; 4]);
    let edits = [
        Edit::new(Field::Frequency, 4999),
        Edit::new(Field::Power, 1),
        Edit::new(Field::Frequency, 5000),
    ];
    assert_eq!(edit_list(&mut payload, &edits, &mut answers), Ok(()));
    // behind the edits an answer byte keeps its own
    assert_eq!((payload, answers), (M3_EDITED, [8, 7, 0, 0xA5]));
    let refusals = answers.map(CrsfParsingError::from_number);
    assert_eq!(
        refusals,
        [Some(NumberOutsideRange), Some(NoSuchField), None, None]
    );
}

#[test]
fn a_list_with_fewer_answers_than_edits_does_nothing() {
    let (mut payload, mut answers) = (M3, [0xA5; 1]);
    let edits = [Edit::new(Field::Frequency, 5000); 2];
    assert_eq!(
        edit_list(&mut payload, &edits, &mut answers),
        Err(BufferOverflow)
    );
    assert_eq!((payload, answers), (M3, [0xA5]));
    assert_eq!(edit_list(&mut payload, &[], &mut []), Ok(()));
    assert_eq!(payload, M3);
}

/// "Constructors", each of their refusals.
#[test]
fn texts_and_acks_are_judged_as_they_are_made() {
    let ack = |action, information| CommandAck::new(0x08, 0x02, action, information);
    assert_eq!(
        CommandString::new(&[b't'; 51]).unwrap().as_bytes(),
        [b't'; 51]
    );
    assert_eq!(CommandString::new(&[b't'; 52]), Err(InvalidPayloadLength));
    assert_eq!(CommandString::new(b"\0"), Err(InvalidPayload));
    assert_eq!(ack(1, &[b'i'; 52]).unwrap().information(), [b'i'; 52]);
    assert_eq!(ack(2, &[b'i'; 53]), Err(InvalidPayloadLength));
    assert_eq!(ack(2, b"i"), Err(InvalidPayload));
    assert_eq!(ack(0, b"i\0"), Err(InvalidPayload));
}

#[test]
fn popups_are_judged_as_they_are_made() {
    let text = |bytes: &[u8]| CommandString::new(bytes).unwrap();
    let bare = ScreenPopupFields {
        header: text(&[b'h'; 50]),
        info: text(b""),
        max_timeout_interval: 0,
        close_button_option: false,
        additional_data: None,
        possible_values: None,
    };
    let selection = |label: &[u8]| {
        Some(ScreenAdditionalData::Selection(ScreenSelection {
            selection_text: text(label),
            value: 0,
            min_value: 0,
            max_value: 0,
            default_value: 0,
            unit: text(b""),
        }))
    };
    let values_alone = ScreenPopupFields {
        possible_values: Some(text(b"a")),
        ..bare.clone()
    };
    assert_eq!(ScreenPopup::new(&values_alone), Err(InvalidPayload));
    let unlabelled = ScreenPopupFields {
        additional_data: selection(b""),
        ..bare.clone()
    };
    assert_eq!(ScreenPopup::new(&unlabelled), Err(InvalidPayload));
    let labelled = ScreenPopupFields {
        additional_data: selection(b"l"),
        ..bare.clone()
    };
    assert_eq!(ScreenPopup::new(&labelled), Err(InvalidPayloadLength));
}

/// "An ACK's action is outside this and is judged on writing"; the VTX's values, too.
#[test]
fn public_values_are_judged_as_they_are_written() {
    let mut ack = CommandAck::new(0x08, 0x02, 1, b"done").unwrap();
    ack.action = 2;
    assert_eq!(
        written(&command(CommandPayload::Ack(ack)), 60),
        InvalidPayload
    );
    let pit = VtxCommand::EnablePitModeOnPowerUp {
        pit_mode: true,
        pit_mode_control: 4,
        pit_mode_switch: 0,
    };
    assert_eq!(
        written(&command(CommandPayload::Vtx(pit)), 60),
        InvalidPayload
    );
}

/// The boundary's own words for images that no constructor gives, and for slices too short for one.
#[test]
fn the_boundary_answers_any_slice() {
    let blank_popup = [0; POPUP_SIZE];
    assert_eq!(
        boundary::popup_fields(&blank_popup, &mut [0; POPUP_FIELDS_SIZE]),
        5
    );
    assert_eq!(boundary::write(&[], &mut []), 5);
    assert_eq!(boundary::read(&M3, &mut [0; RECORD_SIZE - 1]), 3);
    assert_eq!(boundary::edit_list(&mut [], &[0; 7], &mut []), 1);
    assert_eq!(boundary::check(&[], 0x5A), 0x5A);
    let front = boundary::check(&[0x32, 0xC8, 0xEA], 0);
    assert_eq!(boundary::check(&[0x01, 0x01], front), 0xFE);
}
