//! The crate's public numbers are those of include/crsf.h. What lies in images is held to it beside the code (src/image/numbers.rs).
mod blocks;
mod header;
mod laid;
mod payloads;

use blocks::block;
use crsf::boundary::{
    self, ACK_SIZE, BLOCK_SIZE, EDIT_SIZE, EVENT_SIZE, MAX_INFORMATION, MAX_PAYLOAD, MAX_POPUP,
    MAX_TEXT, MAX_USED, POPUP_FIELDS_SIZE, POPUP_SIZE, QUESTION_SIZE, RECORD_SIZE, REPLAY_SIZE,
    TEXT_SIZE,
};
use crsf::packets::{CrsfPacket, DirectCommands};
use crsf::{edit_list, Closed, CrsfParsingError, Edit, Field};
use header::Names;
use laid::{record, Laid};
use payloads::{payload, M1, M3, M3_EDITED};

const REFUSALS: [(&str, CrsfParsingError); 14] = [
    (
        "INVALID_PAYLOAD_LENGTH",
        CrsfParsingError::InvalidPayloadLength,
    ),
    ("INVALID_PAYLOAD", CrsfParsingError::InvalidPayload),
    ("BUFFER_OVERFLOW", CrsfParsingError::BufferOverflow),
    ("FAMILY_LEFT_BEHIND", CrsfParsingError::FamilyLeftBehind),
    ("RECORD_NOT_MADE", CrsfParsingError::RecordNotMade),
    ("NOT_AS_WRITTEN", CrsfParsingError::NotAsWritten),
    ("NO_SUCH_FIELD", CrsfParsingError::NoSuchField),
    ("OUTSIDE_RANGE", CrsfParsingError::NumberOutsideRange),
    ("WRONG_BLOCK_CHECK", CrsfParsingError::BlockCheck),
    ("WRONG_BLOCK_LAYOUT", CrsfParsingError::BlockLayout),
    ("CLOCK_BACK", CrsfParsingError::ClockBack),
    ("STILL_OPEN", CrsfParsingError::QuestionOpen),
    ("NO_QUESTION", CrsfParsingError::NoQuestion),
    ("OUTSIDE_SELECTION", CrsfParsingError::ValueOutsideSelection),
];

const CLOSINGS: [(&str, Closed); 3] = [
    ("PROCESSED", Closed::Processed),
    ("CANCELLED", Closed::Cancelled),
    ("EXPIRED", Closed::Expired),
];

/// The header's name of a field: `FIELD_PIT_MODE` of `PitMode`.
fn named(field: Field) -> (String, u32) {
    let mut name = String::from("FIELD");
    for letter in format!("{field:?}").chars() {
        if letter.is_ascii_uppercase() {
            name.push('_');
        }
        name.push(letter.to_ascii_uppercase());
    }
    (name, field.number())
}

const SIZES: [(&str, usize); 16] = [
    ("MIN_PAYLOAD", DirectCommands::MIN_PAYLOAD_SIZE),
    ("MAX_PAYLOAD", MAX_PAYLOAD),
    ("MAX_TEXT", MAX_TEXT),
    ("MAX_INFORMATION", MAX_INFORMATION),
    ("MAX_POPUP", MAX_POPUP),
    ("RECORD_SIZE", RECORD_SIZE),
    ("TEXT_SIZE", TEXT_SIZE),
    ("ACK_SIZE", ACK_SIZE),
    ("POPUP_SIZE", POPUP_SIZE),
    ("POPUP_FIELDS_SIZE", POPUP_FIELDS_SIZE),
    ("EDIT_SIZE", EDIT_SIZE),
    ("BLOCK_SIZE", BLOCK_SIZE),
    ("MAX_USED", MAX_USED),
    ("REPLAY_SIZE", REPLAY_SIZE),
    ("EVENT_SIZE", EVENT_SIZE),
    ("QUESTION_SIZE", QUESTION_SIZE),
];

/// Cargo.toml's.
const VERSION: [(&str, &str); 3] = [
    ("VERSION_MAJOR", env!("CARGO_PKG_VERSION_MAJOR")),
    ("VERSION_MINOR", env!("CARGO_PKG_VERSION_MINOR")),
    ("VERSION_PATCH", env!("CARGO_PKG_VERSION_PATCH")),
];

/// What the header names and the crate shows by what it does: `accepted_is_no_refusal`, `an_edit_lies_as_the_header_says`,
/// `a_block_lies_as_the_header_says`, `questions_lie_as_the_header_says`.
const SHOWN: [&str; 8] = [
    "ACCEPTED",
    "OPENED",
    "EDIT_FIELD",
    "EDIT_NUMBER",
    "BLOCK_NUMBER",
    "BLOCK_USED",
    "BLOCK_RECORDS",
    "BLOCK_CHECK",
];

/// Both ways: each is the header's, and the header has no other.
#[test]
fn numbers_are_those_of_the_header() {
    let frame_type = ("FRAME_TYPE", DirectCommands::PACKET_TYPE as u32);
    let refusals = REFUSALS.map(|(name, refusal)| (name, refusal.number().into()));
    let closings = CLOSINGS.map(|(name, closed)| (name, closed as u32));
    let sizes = SIZES.map(|(name, size)| (name, size as u32));
    let version = VERSION.map(|(name, number)| (name, number.parse().unwrap()));
    let ours = [frame_type]
        .into_iter()
        .chain(refusals)
        .chain(closings)
        .chain(sizes)
        .chain(version);
    let mut ours: Names = ours.map(|(name, number)| (name.into(), number)).collect();
    ours.extend(Field::ALL.map(named));
    let mut theirs = header::names(false);
    for name in SHOWN {
        assert!(theirs.remove(name).is_some(), "{name}");
    }
    assert_eq!(ours, theirs);
}

#[test]
fn the_version_is_the_headers() {
    assert_eq!(header::version(), env!("CARGO_PKG_VERSION"));
}

/// Document 01: "These 32 rows".
#[test]
fn every_number_has_its_field_and_no_other() {
    let mut found: Vec<u32> = Vec::new();
    for number in 0..1000 {
        if let Some(field) = Field::from_number(number) {
            assert_eq!((field.number(), u32::from(field)), (number, number));
            found.push(number);
        }
    }
    assert_eq!(found.len(), 32);
    let theirs = header::names(false);
    let fields = theirs.iter().filter(|(name, _)| name.starts_with("FIELD_"));
    let mut theirs: Vec<u32> = fields.map(|(_, number)| *number).collect();
    theirs.sort();
    assert_eq!(found, theirs);
    assert_eq!(Field::from_number(u32::MAX), None);
}

/// "0 or a refusal in bits 0-7, a count in bits 8-15, a place in bits 16-31".
#[test]
fn a_word_says_number_count_and_place() {
    let word = 0xFE01 << 16 | 60 << 8 | 7;
    assert_eq!(boundary::number(word), 7);
    assert_eq!(boundary::count(word), 60);
    assert_eq!(boundary::place(word), 0xFE01);
    assert_eq!(boundary::place(0xFFFF), 0);
    // M10: disarm into 5 bytes
    let mut record = [0; RECORD_SIZE];
    assert_eq!(boundary::read(&M1, &mut record), 0);
    let word = boundary::write(&record, &mut [0; 5]);
    assert_eq!((boundary::number(word), boundary::count(word)), (0, 5));
    assert_eq!(boundary::place(word), 0);
}

#[test]
fn every_number_has_its_refusal_and_no_other() {
    for number in 0..=255 {
        let named = REFUSALS
            .iter()
            .find(|(_, refusal)| refusal.number() == number);
        assert_eq!(
            CrsfParsingError::from_number(number),
            named.map(|(_, refusal)| *refusal)
        );
    }
}

#[test]
fn accepted_is_no_refusal() {
    let accepted = header::names(false)["ACCEPTED"];
    assert_eq!(CrsfParsingError::from_number(accepted as u8), None);
    let mut record = [0; RECORD_SIZE];
    let word = boundary::read(&M1, &mut record);
    assert_eq!(u32::from(boundary::number(word)), accepted);
}

/// A list put together by the header's places does what the same list of `Edit` does.
#[test]
fn an_edit_lies_as_the_header_says() {
    let names = header::names(false);
    let place = |name: &str| names[name] as usize;
    let (field, number) = (place("EDIT_FIELD"), place("EDIT_NUMBER"));
    let edits: [(u32, u32); 2] = [(Field::Frequency.into(), 5000), (0x0001_0203, 0x0405_0607)];
    let mut list = [[0; EDIT_SIZE]; 2];
    for (bytes, edit) in list.iter_mut().zip(edits) {
        bytes[field..field + 4].copy_from_slice(&edit.0.to_be_bytes());
        bytes[number..number + 4].copy_from_slice(&edit.1.to_be_bytes());
    }

    let (mut payload, mut answers) = (M3, [0xA5; 2]);
    assert_eq!(
        boundary::edit_list(&mut payload, list.as_flattened(), &mut answers),
        0
    );
    assert_eq!((payload, answers), (M3_EDITED, [0, 7]));

    let typed = edits.map(|(field, number)| Edit::new(field, number));
    let (mut payload, mut answers) = (M3, [0xA5; 2]);
    assert_eq!(edit_list(&mut payload, &typed, &mut answers), Ok(()));
    assert_eq!((payload, answers), (M3_EDITED, [0, 7]));
    assert_eq!(size_of_val(&typed), size_of_val(&list));
}

/// A record is written as the payload, and read of it.
fn crosses(record: &[u8; RECORD_SIZE], payload: &[u8]) {
    let (mut buffer, mut read) = ([0; MAX_PAYLOAD], [0xA5; RECORD_SIZE]);
    let word = boundary::write(record, &mut buffer);
    assert_eq!(boundary::number(word), 0);
    assert_eq!(&buffer[..boundary::count(word)], payload);
    assert_eq!(boundary::read(payload, &mut read), 0);
    assert_eq!(&read, record);
}

/// "Its image is the record's bytes from CRSF_RECORD_LENGTH on", in and out; the payload by document 01's sheet.
#[test]
fn a_popup_goes_into_a_record_as_the_header_says() {
    let fields = Laid::<POPUP_FIELDS_SIZE>::new()
        .text("POPUP_FIELDS_HEADER", b"Hi")
        .text("POPUP_FIELDS_INFO", b"Yo")
        .put("POPUP_FIELDS_TIMEOUT", &[30])
        .put("POPUP_FIELDS_CLOSE", &[1])
        .named("POPUP_FIELDS_ADDITIONAL", "ADDITIONAL_SELECTION")
        .text("POPUP_FIELDS_LABEL", b"Power")
        .put("POPUP_FIELDS_VALUE", &[20])
        .put("POPUP_FIELDS_MIN", &[2])
        .put("POPUP_FIELDS_MAX", &[31])
        .put("POPUP_FIELDS_DEFAULT", &[10])
        .text("POPUP_FIELDS_UNIT", b"dBm")
        .put("POPUP_FIELDS_HAS_POSSIBLE_VALUES", &[1])
        .text("POPUP_FIELDS_POSSIBLE_VALUES", b"Yes;No");
    let mut popup = [0; POPUP_SIZE];
    assert_eq!(boundary::popup(&fields.image, &mut popup), 0);

    let record = record("SCREEN", "SCREEN_POPUP_MESSAGE_START").put("RECORD_LENGTH", &popup);
    let body = b"\x01Hi\0Yo\0\x1E\x01Power\0\x14\x02\x1F\x0AdBm\0Yes;No\0";
    crosses(&record.image, &payload(0x22, body));

    let stored = &record.image[record.at("RECORD_LENGTH")..];
    let mut shown = [0xA5; POPUP_FIELDS_SIZE];
    assert_eq!(boundary::popup_fields(stored, &mut shown), 0);
    assert_eq!(shown, fields.image);
}

/// "Its first three bytes are the record's values, the others are the record's bytes from CRSF_RECORD_LENGTH on".
#[test]
fn an_ack_goes_into_a_record_as_the_header_says() {
    let mut ack = [0; ACK_SIZE];
    assert_eq!(boundary::ack(0x09, 0x05, 1, b"shift", &mut ack), 0);

    let record = record("ACK", "ACK_NO_SUB_COMMAND");
    let (values, stored) = ack.split_at(record.at("ACK_LENGTH"));
    assert_eq!(values.len(), record.at("ACK_VALUES_SIZE"));
    assert_eq!(stored.len(), record.at("ACK_STORED_SIZE"));
    let record = record
        .put("RECORD_VALUES", values)
        .put("RECORD_LENGTH", stored);
    crosses(&record.image, &payload(0xFF, b"\x09\x05\x01shift\0"));
}

/// A block put together by the header's places is the one that document 02's words give, and sound.
#[test]
fn a_block_lies_as_the_header_says() {
    let record = [&[5][..], &M1].concat();
    let laid = Laid::<BLOCK_SIZE>::new()
        .put("BLOCK_NUMBER", &0x0102_0304u32.to_be_bytes())
        .put("BLOCK_USED", &6u16.to_be_bytes())
        .put("BLOCK_RECORDS", &record);
    let end = laid.at("BLOCK_CHECK");
    let check = boundary::check(&laid.image[..end], 0);
    let laid = laid.put("BLOCK_CHECK", &[check]);
    assert_eq!(laid.image, block(0x0102_0304, &[&M1]));

    let mut event = [0xA5; EVENT_SIZE];
    assert_eq!(
        boundary::replay(&mut [0; REPLAY_SIZE], 0, &laid.image, &mut event),
        0
    );
    assert_eq!(event[laid.at("EVENT_KIND")], laid.at("KIND_COMMAND") as u8);
    assert_eq!(usize::from(event[7]), laid.at("BLOCK_RECORDS"));
    assert_eq!(end, BLOCK_SIZE - 1);
    assert_eq!(laid.at("BLOCK_RECORDS") + MAX_USED, end);
}

type Kept = Laid<REPLAY_SIZE>;
type Told = Laid<EVENT_SIZE>;

/// After a sound block of that number, with the next record at that place.
fn kept(number: u32, place: u16) -> Kept {
    Kept::new()
        .put("REPLAY_STARTED", &[1])
        .put("REPLAY_BLOCK", &number.to_be_bytes())
        .put("REPLAY_PLACE", &place.to_be_bytes())
}

/// An event of a block, with the blank record: disarm with both addresses 0.
fn told(kind: &str, more: u8, number: u32) -> Told {
    let blank = Laid::<RECORD_SIZE>::new()
        .named("RECORD_ID", "FC")
        .named("RECORD_SUB_COMMAND", "FC_FORCE_DISARM");
    Told::new()
        .named("EVENT_KIND", kind)
        .put("EVENT_MORE", &[more])
        .put("EVENT_BLOCK", &number.to_be_bytes())
        .put("EVENT_RECORD", &blank.image)
}

/// One call: from a replay, with a block at position 0x0A0B0C0D, to a replay and an event.
fn hands_on(before: &Kept, block: &[u8], after: &Kept, event: &Told) {
    let (mut replay, mut handed) = (before.image, [0xA5; EVENT_SIZE + 1]);
    assert_eq!(
        boundary::replay(&mut replay, 0x0A0B_0C0D, block, &mut handed),
        0
    );
    assert_eq!(replay, after.image);
    assert_eq!(handed[..EVENT_SIZE], event.image);
    assert_eq!(handed[EVENT_SIZE], 0xA5);
}

/// Every kind of event, and what is kept behind it, by the header's places.
#[test]
fn replays_and_events_lie_as_the_header_says() {
    const NUMBER: u32 = 0x8182_8384;
    let frequency = record("VTX", "VTX_SET_FREQUENCY").put("RECORD_VALUES", &5800u16.to_be_bytes());
    let left_behind = payload(0x03, &[]);
    // records at 6, 6 + 1 + 7 and 14 + 1 + 4
    let three = block(NUMBER, &[&M3, &left_behind, &M3]);
    let none = block(NUMBER, &[]);
    let new = Kept::new;

    let command = |more, place| {
        told("KIND_COMMAND", more, NUMBER)
            .put("EVENT_PLACE", &[0, place])
            .put("EVENT_RECORD", &frequency.image)
    };
    let refused = told("KIND_REFUSED", 1, NUMBER)
        .put("EVENT_PLACE", &[0, 14])
        .named("EVENT_NUMBER", "FAMILY_LEFT_BEHIND");
    hands_on(&new(), &three, &kept(NUMBER, 14), &command(1, 6));
    hands_on(&kept(NUMBER, 14), &three, &kept(NUMBER, 19), &refused);
    hands_on(&kept(NUMBER, 19), &three, &kept(NUMBER, 0), &command(0, 19));

    let nothing = told("KIND_NOTHING", 0, NUMBER);
    hands_on(&new(), &none, &kept(NUMBER, 0), &nothing);
    let damaged = told("KIND_DAMAGED", 0, 0x0A0B_0C0D).named("EVENT_NUMBER", "WRONG_BLOCK_CHECK");
    let mut wrong = three;
    wrong[511] ^= 1;
    hands_on(&new(), &wrong, &new(), &damaged);
    hands_on(&kept(5, 0), &wrong, &kept(5, 0), &damaged);

    let gap = |more| told("KIND_GAP", more, NUMBER);
    let back = |more| told("KIND_STEP_BACK", more, NUMBER);
    hands_on(&kept(5, 0), &three, &kept(NUMBER, 6), &gap(1));
    hands_on(&kept(NUMBER, 0), &three, &kept(NUMBER, 6), &back(1));
    hands_on(&kept(5, 0), &none, &kept(NUMBER, 0), &gap(0));
    hands_on(&kept(NUMBER, 0), &none, &kept(NUMBER, 0), &back(0));
}

type Asked = Laid<QUESTION_SIZE>;

/// After an accepted call at that second, closed.
fn closed(last: u32) -> Asked {
    Asked::new()
        .put("QUESTION_STARTED", &[1])
        .put("QUESTION_LAST", &last.to_be_bytes())
}

/// The same, and a popup is open that was sent at that second.
fn open(sent: u32, last: u32, popup: &[u8]) -> Asked {
    closed(last)
        .put("QUESTION_OPEN", &[1])
        .put("QUESTION_SENT", &sent.to_be_bytes())
        .put("QUESTION_POPUP", popup)
}

/// What each call leaves of a question, and the word that it answers, by the header's places and names.
#[test]
fn questions_lie_as_the_header_says() {
    const SENT: u32 = 0x8182_8384;
    // "Hi", 30 seconds
    let bytes = b"Hi\0\0\x1E\x01";
    let popup = Laid::<POPUP_SIZE>::new()
        .put("POPUP_LENGTH", &[6])
        .put("POPUP_BYTES", bytes)
        .image;
    let asks = record("SCREEN", "SCREEN_POPUP_MESSAGE_START").put("RECORD_LENGTH", &popup);
    let value = |response| {
        record("SCREEN", "SCREEN_SELECTION_RETURN_VALUE").put("RECORD_VALUES", &[5, response])
    };
    let new = Asked::new;
    let word = |name: &str| (new().at(name) as u32) << 8;

    let ask = |before: Asked, after: Asked| {
        let (mut one, mut other) = (before.image, before.image);
        assert_eq!(
            boundary::question_ask(&mut one, SENT, &popup),
            word("OPENED")
        );
        assert_eq!(
            boundary::question_command(&mut other, SENT, &asks.image),
            word("OPENED")
        );
        assert_eq!((one, other), (after.image, after.image));
    };
    ask(new(), open(SENT, SENT, &popup));
    ask(closed(SENT), open(SENT, SENT, &popup));
    // sent 31 seconds ago: it makes way
    ask(open(SENT - 31, SENT, &popup), open(SENT, SENT, &popup));

    let returns = |second: u32, response: u8, name: &str| {
        let before = open(SENT, SENT + 1, &popup).image;
        let (mut one, mut other) = (before, before);
        assert_eq!(
            boundary::question_return(&mut one, second, 5, response),
            word(name)
        );
        assert_eq!(
            boundary::question_command(&mut other, second, &value(response).image),
            word(name)
        );
        let after = closed(second).image;
        assert_eq!((one, other), (after, after));
    };
    returns(SENT + 30, 1, "PROCESSED");
    returns(SENT + 30, 0, "CANCELLED");
    returns(SENT + 31, 1, "EXPIRED");
    returns(SENT + 31, 0, "EXPIRED");
}
