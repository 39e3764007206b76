//! "What a function refuses stands at the function, in the order in which it looks: the first that holds is the answer" (include/crsf.h).
//! Each case has the refusal that it shows, and as many of those behind it as go together.
mod blocks;
mod header;
mod laid;
mod payloads;

use blocks::{block, closed, laid_out};
use crsf::boundary::{
    self, ACK_SIZE, BLOCK_SIZE, EVENT_SIZE, MAX_PAYLOAD, POPUP_FIELDS_SIZE, POPUP_SIZE,
    QUESTION_SIZE, RECORD_SIZE, REPLAY_SIZE, TEXT_SIZE,
};
use laid::{record, Laid};
use payloads::{payload, M1, M2, M3};

type Record = [u8; RECORD_SIZE];
type Fields = Laid<POPUP_FIELDS_SIZE>;

fn read(payload: &[u8], room: usize) -> u32 {
    boundary::read(payload, &mut vec![0; room])
}

#[test]
fn read_looks_at_room_length_check_id_and_the_body() {
    let damaged = |mut payload: Vec<u8>| {
        *payload.last_mut().unwrap() ^= 1;
        payload
    };
    let (least, most) = ([0; 3], vec![0; MAX_PAYLOAD + 1]);
    assert_eq!(read(&least, RECORD_SIZE - 1), 3);
    assert_eq!(read(&least, RECORD_SIZE), 1);
    assert_eq!(read(&most, RECORD_SIZE), 1);
    let bodies: [(u8, &[u8], u32); 10] = [
        // the two ids, then another one
        (0x03, &[], 4),
        (0x13, &[], 4),
        (0x02, &[], 2),
        // no sub-command; an unknown one, which would have no values
        (0x08, &[], 1),
        (0x08, &[0x03], 2),
        // half a frequency, a wrong one, a pulse with a wrong start colour and no stop colour
        (0x08, &[0x02, 0x00], 1),
        (0x08, &[0x02, 0x00, 0x00], 2),
        (0x09, &[0x03, 0, 0, 0xB4, 0x00, 0x00], 2),
        // an ACK with a wrong action: without its end, and with it
        (0xFF, &[0x08, 0x02, 2, b'x'], 1),
        (0xFF, &[0x08, 0x02, 2, b'x', 0], 2),
    ];
    for (id, body, number) in bodies {
        let payload = payload(id, body);
        assert_eq!(read(&payload, RECORD_SIZE), number, "{payload:02X?}");
        assert_eq!(read(&damaged(payload), RECORD_SIZE), 2);
    }
    // a text without its end in a popup
    assert_eq!(read(&payload(0x22, b"\x01Hi"), RECORD_SIZE), 1);
}

fn frequency(mhz: u16) -> Record {
    let record = record("VTX", "VTX_SET_FREQUENCY");
    record.put("RECORD_VALUES", &mhz.to_be_bytes()).image
}

fn pulse(hue: u16) -> Record {
    let [high, low] = hue.to_be_bytes();
    let values = [0, 0, high, low, 100, 100, 0, 0, 0, 0];
    let record = record("LED", "LED_OVERRIDE_PULSE");
    record.put("RECORD_VALUES", &values).image
}

#[test]
fn write_looks_at_the_record_then_at_four_bytes_then_as_its_family_does() {
    let write = |record: &[u8], room: usize| boundary::write(record, &mut vec![0; room]);
    let made = frequency(5000);
    let unmade = record("VTX", "VTX_SET_FREQUENCY").put("RECORD_LENGTH", &[1]);
    let unknown = record("VTX", "VTX_SET_FREQUENCY").put("RECORD_SUB_COMMAND", &[0x03]);
    let flag = record("SCREEN", "SCREEN_SELECTION_RETURN_VALUE").put("RECORD_VALUES", &[0, 2]);
    for image in [&unmade.image[..], &unknown.image, &flag.image, &made[1..]] {
        assert_eq!(write(image, 0), 5);
    }
    // VTX: numbers before room. M10
    assert_eq!(write(&frequency(4999), 3), 3);
    assert_eq!(write(&frequency(4999), 4), 2);
    assert_eq!(write(&made, 6), 3);
    assert_eq!(write(&made, 7), 7 << 8);
    // ACK, likewise
    let ack = record("ACK", "ACK_NO_SUB_COMMAND").put("RECORD_VALUES", &[0x08, 0x02, 2]);
    assert_eq!(write(&ack.image, 3), 3);
    assert_eq!(write(&ack.image, 4), 2);
    // LED: room for the sub-command (1) and the time (2), then the colour's numbers, then its room (3)
    assert_eq!(write(&pulse(360), 4 + 2), 3);
    assert_eq!(write(&pulse(360), 4 + 3), 2);
    assert_eq!(write(&pulse(359), 4 + 3), 3);
    assert_eq!(write(&pulse(359), 4 + 9), 13 << 8);
}

#[test]
fn edits_look_as_read_does_from_1_on_then_at_6_7_8() {
    let edit = |payload: &[u8], field, number| boundary::edit(&mut payload.to_vec(), field, number);
    assert_eq!(edit(&[0; 3], 0, 0), 1);
    assert_eq!(edit(&payload(0x03, &[]), 0, 0), 4);
    assert_eq!(edit(&M2, 24, 256), 6);
    assert_eq!(edit(&payload(0x08, &[0x04, 0x80]), 24, 256), 6); // bit 7 of the pit byte
    assert_eq!(edit(&M3, 24, 256), 7);
    assert_eq!(edit(&M3, 20, 4999), 8);

    let mut payload = M3;
    assert_eq!(boundary::edit_list(&mut payload, &[0; 9], &mut []), 1);
    assert_eq!(boundary::edit_list(&mut payload, &[0; 16], &mut [0]), 3);
    assert_eq!(payload, M3);
}

#[test]
fn texts_and_acks_look_at_room_first() {
    let text = |bytes: &[u8], room: usize| boundary::text(bytes, &mut vec![0; room]);
    assert_eq!(text(&[0; 52], TEXT_SIZE - 1), 3);
    assert_eq!(text(&[0; 52], TEXT_SIZE), 2);
    assert_eq!(text(&[1; 52], TEXT_SIZE), 1);
    assert_eq!(text(&[1; 51], TEXT_SIZE), 0);

    let ack = |action, bytes: &[u8], room| boundary::ack(8, 2, action, bytes, &mut vec![0; room]);
    assert_eq!(ack(2, &[0; 53], ACK_SIZE - 1), 3);
    assert_eq!(ack(2, &[0; 53], ACK_SIZE), 1);
    assert_eq!(ack(2, &[1; 52], ACK_SIZE), 2);
    assert_eq!(ack(1, &[0; 52], ACK_SIZE), 2);
    assert_eq!(ack(1, &[1; 52], ACK_SIZE), 0);
}

/// A header of so many bytes, an empty info text: 4 bytes more.
fn fields(header: usize) -> Fields {
    Fields::new().text("POPUP_FIELDS_HEADER", &vec![b'h'; header])
}

#[test]
fn popups_look_at_room_the_image_possible_values_and_each_field() {
    let popup = |fields: &[u8], room: usize| boundary::popup(fields, &mut vec![0; room]);
    let made = |fields: Fields| popup(&fields.image, POPUP_SIZE);
    let alone = |fields: Fields| fields.put("POPUP_FIELDS_HAS_POSSIBLE_VALUES", &[1]);
    let selection =
        |fields: Fields| fields.named("POPUP_FIELDS_ADDITIONAL", "ADDITIONAL_SELECTION");

    assert_eq!(popup(&[], POPUP_SIZE - 1), 3);
    assert_eq!(popup(&fields(0).image[1..], POPUP_SIZE), 5);
    assert_eq!(made(fields(0).put("POPUP_FIELDS_CLOSE", &[2])), 5);
    assert_eq!(made(fields(0).put("POPUP_FIELDS_ADDITIONAL", &[3])), 5);
    // possible values without additional data, in fields that have no room; and a text that is not made with them
    let full = || fields(51).text("POPUP_FIELDS_INFO", b"i");
    assert_eq!(made(alone(full()).put("POPUP_FIELDS_UNIT", &[1])), 2);
    assert_eq!(made(alone(full()).put("POPUP_FIELDS_INFO", &[2])), 5);
    // an empty label: behind a field without room, in front of its own
    assert_eq!(made(selection(full())), 1);
    assert_eq!(made(selection(fields(51))), 2);
    assert_eq!(
        made(selection(fields(51)).text("POPUP_FIELDS_LABEL", b"l")),
        1
    );
    assert_eq!(made(fields(51)), 0);

    let shown = |popup: &[u8], room: usize| boundary::popup_fields(popup, &mut vec![0; room]);
    assert_eq!(shown(&[], POPUP_FIELDS_SIZE - 1), 3);
    assert_eq!(shown(&[4], POPUP_FIELDS_SIZE), 5);
    assert_eq!(shown(&[0; POPUP_SIZE], POPUP_FIELDS_SIZE), 5);
}

/// A replay after a sound block 7, whose next record is at that place.
fn midway(place: u16) -> [u8; REPLAY_SIZE] {
    let [high, low] = place.to_be_bytes();
    [1, 0, 0, 0, 7, high, low]
}

/// The answer; a refusal leaves the replay and the event as they were.
fn replayed(replay: &[u8], block: &[u8], room: usize) -> u32 {
    let (mut after, mut event) = (replay.to_vec(), vec![0xA5; room]);
    let answer = boundary::replay(&mut after, 0, block, &mut event);
    if answer != 0 {
        assert_eq!((&after[..], event), (replay, vec![0xA5; room]));
    }
    answer
}

#[test]
fn replay_looks_at_room_its_length_its_limits_and_the_record_at_its_place() {
    // two records of 6 bytes, at 6 and 12
    let two = block(8, &[&M1, &M1]);
    let five = |replay: &[u8], block: &[u8]| assert_eq!(replayed(replay, block, EVENT_SIZE), 5);
    let none = |replay: &[u8], block: &[u8]| assert_eq!(replayed(replay, block, EVENT_SIZE), 0);

    assert_eq!(replayed(&[2], &[], EVENT_SIZE - 1), 3);
    five(&[], &two);
    five(&[0; REPLAY_SIZE - 1], &two);
    five(&[0; REPLAY_SIZE + 1], &two);
    none(&[0; REPLAY_SIZE], &two);

    // limits: a flag; not started, all zeros; a place of 0 or 6 to 511
    for (at, byte) in [(0, 2), (1, 1), (4, 1), (5, 1), (6, 12)] {
        let mut replay = [0; REPLAY_SIZE];
        replay[at] = byte;
        five(&replay, &two);
    }
    for place in [1, 5, 512, 0x0C00, 0xFFFF] {
        five(&midway(place), &two);
    }

    // the record there: of a block of 512 bytes, with a used count up to 505, 4 to 60 bytes long and within the used bytes
    none(&midway(6), &two);
    none(&midway(12), &two);
    five(&midway(12), &two[..511]);
    five(&midway(12), &[&two[..], &[0]].concat());
    five(&midway(18), &two); // behind the used bytes
    five(&midway(7), &two); // C8 is no length
    five(&midway(511), &two);
    let lengths = [(3, 5), (4, 0), (60, 0), (61, 5)];
    for (length, answer) in lengths {
        let mut bytes = [0; 62];
        bytes[0] = length;
        let one = laid_out(8, 62, &bytes);
        assert_eq!(replayed(&midway(6), &one, EVENT_SIZE), answer, "{length}");
    }
    five(&midway(6), &laid_out(8, 5, &[5, 0, 0, 0, 0, 0]));
    none(&midway(6), &laid_out(8, 6, &[5, 0, 0, 0, 0, 0]));
    none(&midway(6), &laid_out(8, 505, &[5]));
    five(&midway(6), &laid_out(8, 506, &[5]));
}

/// "The block is not judged a second time": neither its check nor its layout, and its number is not compared.
#[test]
fn in_the_middle_of_a_block_another_is_gone_on_with() {
    let (mut replay, mut event) = ([0; REPLAY_SIZE], [0; EVENT_SIZE]);
    let two = block(7, &[&M1, &M1]);
    assert_eq!(boundary::replay(&mut replay, 0, &two, &mut event), 0);
    assert_eq!(replay, midway(12));

    // M1, then M3 at 12, then a length that no record has, filler that is not 0, and a check that is wrong
    let bytes = [&[5][..], &M1, &[7], &M3, &[3, 0, 0, 0, 1]].concat();
    let mut other = laid_out(99, 18, &bytes);
    other[511] ^= 1;
    assert_eq!(boundary::replay(&mut replay, 0, &other, &mut event), 0);
    // a command of block 99 at 12, with more behind it at 12 + 8; the replay keeps 7
    assert_eq!(event[..8], [1, 1, 0, 0, 0, 99, 0, 12]);
    assert_eq!(event[12..14], [0x08, 0x02]);
    assert_eq!(replay, midway(20));
    // no record stands there
    assert_eq!(boundary::replay(&mut replay, 0, &other, &mut event), 5);
}

/// "Refusals: 1 for a block that isn't 512 bytes, then 9 block check, then 10 block layout".
#[test]
fn a_damaged_block_is_1_then_9_then_10() {
    let damage = |block: &[u8]| {
        let mut event = [0; EVENT_SIZE];
        assert_eq!(
            boundary::replay(&mut [0; REPLAY_SIZE], 0, block, &mut event),
            0
        );
        assert_eq!(event[0], 3);
        event[8]
    };
    let mut all = laid_out(7, 506, &[3]);
    assert_eq!(damage(&all), 10);
    all[511] ^= 1;
    assert_eq!(damage(&all), 9);
    assert_eq!(damage(&all[..BLOCK_SIZE - 1]), 1);
    assert_eq!(damage(&[&all[..], &[0]].concat()), 1);
    assert_eq!(damage(&[]), 1);
    // the residue is no check: the polynomial has the factor x
    let mut residue = block(7, &[&M1]);
    let front = boundary::check(&residue[..511], 0);
    let other = (0..=255).find(|byte| *byte != front && boundary::check(&[*byte], front) == 0);
    residue[511] = other.expect("a byte that leaves residue 0");
    assert_eq!(boundary::check(&residue, 0), 0);
    assert_eq!(damage(&residue), 9);
    assert_eq!(damage(&closed(residue, 1)), 9);
}

type Question = [u8; QUESTION_SIZE];

/// "Hi", 30 seconds, the selection "l" of 15 from 10 to 20.
const POPUP: &[u8] = b"\x0DHi\0\0\x1E\x01l\0\x0F\x0A\x14\x0F\0";

fn popup(bytes: &[u8]) -> [u8; POPUP_SIZE] {
    let mut image = [0; POPUP_SIZE];
    image[..bytes.len()].copy_from_slice(bytes);
    image
}

fn open(sent: u32, last: u32, popup: &[u8]) -> Question {
    Laid::new()
        .put("QUESTION_STARTED", &[1])
        .put("QUESTION_OPEN", &[1])
        .put("QUESTION_SENT", &sent.to_be_bytes())
        .put("QUESTION_LAST", &last.to_be_bytes())
        .put("QUESTION_POPUP", popup)
        .image
}

/// The number of a call on a question; a refusal leaves all its bytes.
fn called(question: &[u8], call: impl Fn(&mut [u8]) -> u32) -> u8 {
    let mut after = question.to_vec();
    let number = boundary::number(call(&mut after));
    assert_eq!(after == question, number != 0);
    number
}

fn asked(question: &[u8], second: u32, popup: &[u8]) -> u8 {
    called(question, |after| {
        boundary::question_ask(after, second, popup)
    })
}

fn returned(question: &[u8], second: u32, value: u8, response: u8) -> u8 {
    let call = |after: &mut [u8]| boundary::question_return(after, second, value, response);
    called(question, call)
}

fn commanded(question: &[u8], second: u32, record: &[u8]) -> u8 {
    called(question, |after| {
        boundary::question_command(after, second, record)
    })
}

/// Of another length, a flag out of range, beyond its limits.
fn no_questions() -> Vec<Vec<u8>> {
    let sound = open(100, 120, POPUP);
    let with = |at: usize, byte: u8| {
        let mut question = sound.to_vec();
        question[at] = byte;
        question
    };
    let place = |name| Laid::<QUESTION_SIZE>::new().at(name);
    vec![
        vec![],
        vec![0; QUESTION_SIZE - 1],
        vec![0; QUESTION_SIZE + 1],
        sound[1..].to_vec(),
        [&sound[..], &[0]].concat(),
        with(place("QUESTION_STARTED"), 2),
        with(place("QUESTION_STARTED"), 0),
        with(place("QUESTION_OPEN"), 2),
        with(place("QUESTION_OPEN"), 0),
        with(place("QUESTION_SENT"), 1),
        with(place("QUESTION_POPUP"), 12),
        with(QUESTION_SIZE - 1, 1),
        open(121, 120, POPUP).to_vec(),
        open(100, 120, &[]).to_vec(),
    ]
}

#[test]
fn questions_look_at_the_question_first() {
    let asks = record("SCREEN", "SCREEN_POPUP_MESSAGE_START").put("RECORD_LENGTH", POPUP);
    let disarm = record("FC", "FC_FORCE_DISARM");
    for question in no_questions() {
        assert_eq!(asked(&question, 0, &popup(POPUP)), 5);
        assert_eq!(asked(&question, 200, &popup(POPUP)), 5);
        // a response above 1, a second below the last, a value outside the selection
        assert_eq!(returned(&question, 0, 0, 2), 5);
        assert_eq!(returned(&question, 125, 15, 1), 5);
        // a command that is neither popup nor returned value, one that is
        assert_eq!(commanded(&question, 0, &disarm.image), 5);
        assert_eq!(commanded(&question, 200, &asks.image), 5);
    }
}

/// "5 for a popup not made, 27 clock, 28 question open, 29 no question, 30 value, in that order"; "`response` above 1 is 2, after 5 and
/// before 27".
#[test]
fn ask_and_return_look_at_what_they_are_given_the_clock_the_question_and_the_value() {
    let (question, sent) = (open(100, 120, POPUP), popup(POPUP));
    let closed = Laid::<QUESTION_SIZE>::new()
        .put("QUESTION_STARTED", &[1])
        .put("QUESTION_LAST", &120u32.to_be_bytes())
        .image;
    // of another length, blank, a byte behind it
    let mut behind = sent;
    behind[POPUP_SIZE - 1] = 1;
    for unmade in [
        &sent[1..],
        &[&sent[..], &[0]].concat(),
        &[],
        &popup(&[]),
        &behind,
    ] {
        assert_eq!(asked(&question, 119, unmade), 5);
        assert_eq!(asked(&[0; QUESTION_SIZE], 0, unmade), 5);
    }
    assert_eq!(asked(&question, 119, &sent), 27);
    assert_eq!(asked(&question, 130, &sent), 28);
    assert_eq!(asked(&question, 131, &sent), 0);
    assert_eq!(asked(&closed, 119, &sent), 27);
    assert_eq!(asked(&closed, 120, &sent), 0);

    for response in [2, 3, 255] {
        assert_eq!(returned(&question, 119, 9, response), 2);
        assert_eq!(returned(&question, 131, 15, response), 2);
        assert_eq!(returned(&[0; QUESTION_SIZE], 0, 0, response), 2);
    }
    assert_eq!(returned(&question, 119, 9, 1), 27);
    assert_eq!(returned(&closed, 119, 9, 1), 27);
    assert_eq!(returned(&closed, 120, 9, 1), 29);
    assert_eq!(returned(&question, 120, 9, 1), 30);
    assert_eq!(returned(&question, 120, 10, 1), 0);
}

/// "Another command is 2 there too, an image of no record 5, a popup not made 5; nothing else of the record is looked at."
#[test]
fn a_command_is_judged_before_the_clock() {
    let question = open(100, 120, POPUP);
    let asks = || record("SCREEN", "SCREEN_POPUP_MESSAGE_START").put("RECORD_LENGTH", POPUP);
    let value = |value, response| {
        record("SCREEN", "SCREEN_SELECTION_RETURN_VALUE").put("RECORD_VALUES", &[value, response])
    };
    // no image of a record: another length, an unknown id or sub-command, a flag out of range, a byte behind the values
    let longer = [&asks().image[..], &[0]].concat();
    let no_records = [
        &asks().image[1..],
        &longer,
        &[],
        &asks().put("RECORD_ID", &[0x03]).image,
        &asks().put("RECORD_SUB_COMMAND", &[0x03]).image,
        &asks().put("RECORD_VALUES", &[1]).image,
        &value(15, 2).image,
        &value(15, 1).put("RECORD_VALUES", &[15, 1, 1]).image,
    ];
    for image in no_records {
        assert_eq!(commanded(&question, 119, image), 5);
        assert_eq!(commanded(&question, 131, image), 5);
    }
    // another command: a frequency that writing would refuse, and one that stores bytes though it has none
    assert_eq!(commanded(&question, 119, &frequency(4999)), 2);
    let storing = record("FC", "FC_FORCE_DISARM").put("RECORD_LENGTH", &[200, 1]);
    assert_eq!(commanded(&question, 119, &storing.image), 2);
    assert_eq!(commanded(&[0; QUESTION_SIZE], 0, &storing.image), 2);
    // a popup that is not made
    let unmade = record("SCREEN", "SCREEN_POPUP_MESSAGE_START");
    assert_eq!(commanded(&question, 119, &unmade.image), 5);

    assert_eq!(commanded(&question, 119, &asks().image), 27);
    assert_eq!(commanded(&question, 130, &asks().image), 28);
    assert_eq!(commanded(&question, 131, &asks().image), 0);
    assert_eq!(commanded(&question, 119, &value(9, 1).image), 27);
    assert_eq!(commanded(&[0; QUESTION_SIZE], 0, &value(9, 1).image), 29);
    assert_eq!(commanded(&question, 120, &value(9, 1).image), 30);
    // what a returned value stores is not looked at
    let storing = value(15, 1).put("RECORD_LENGTH", &[255; 56]);
    assert_eq!(commanded(&question, 120, &storing.image), 0);
}
