//! Document 02, "Popup questions and their answers", through the types: every answer in every state. Expected answers are by its words.
mod payloads;

use crsf::boundary::QUESTION_SIZE;
use crsf::packets::{
    CommandAck, CommandPayload, CommandString, CrossfireCommand, CrsfPacket, DirectCommands,
    FcCommand, FlowControlCommand, GeneralCommand, LedCommand, OsdCommand, ScreenAdditionalData,
    ScreenCommand, ScreenPopup, ScreenPopupFields, ScreenSelection, VtxCommand,
};
use crsf::Closed::{self, *};
use crsf::CrsfParsingError::{self, *};
use crsf::Question;
use payloads::{command, payload};

const LAST: u32 = u32::MAX;

fn text(bytes: &[u8]) -> CommandString {
    CommandString::new(bytes).unwrap()
}

fn popup(timeout: u8, additional_data: Option<ScreenAdditionalData>) -> ScreenPopup {
    let fields = ScreenPopupFields {
        header: text(b"Level"),
        info: text(b""),
        max_timeout_interval: timeout,
        close_button_option: true,
        additional_data,
        possible_values: None,
    };
    ScreenPopup::new(&fields).unwrap()
}

/// Without a selection.
fn plain(timeout: u8) -> ScreenPopup {
    popup(timeout, None)
}

fn selection(timeout: u8, min_value: u8, max_value: u8) -> ScreenPopup {
    let selection = ScreenSelection {
        selection_text: text(b"l"),
        value: min_value,
        min_value,
        max_value,
        default_value: max_value,
        unit: text(b""),
    };
    popup(timeout, Some(ScreenAdditionalData::Selection(selection)))
}

fn sent(popup: &ScreenPopup) -> DirectCommands {
    let asks = ScreenCommand::PopupMessageStart(popup.clone());
    command(CommandPayload::Screen(asks))
}

fn came(value: u8, response: bool) -> DirectCommands {
    let returns = ScreenCommand::SelectionReturnValue { value, response };
    command(CommandPayload::Screen(returns))
}

fn opened(second: u32, popup: &ScreenPopup) -> Question {
    let mut question = Question::new();
    assert_eq!(question.ask(second, popup), Ok(()));
    question
}

/// After a popup and its answer, both at that second.
fn closed(second: u32) -> Question {
    let mut question = opened(second, &plain(0));
    assert_eq!(question.returned(second, 0, true), Ok(Processed));
    question
}

/// What a call answers, and what it leaves: a refusal nothing else than it found. The command does the same.
fn judge(
    before: &Question,
    call: impl Fn(&mut Question) -> Result<Option<Closed>, CrsfParsingError>,
    second: u32,
    same: &DirectCommands,
) -> (Result<Option<Closed>, CrsfParsingError>, Question) {
    let (mut after, mut by_command) = (before.clone(), before.clone());
    let answer = call(&mut after);
    assert_eq!(by_command.command(second, same), answer);
    assert_eq!(by_command, after);
    match answer {
        Err(_) => assert_eq!(&after, before),
        Ok(_) => assert_eq!(after.last_second(), Some(second)),
    }
    (answer, after)
}

fn ask(before: &Question, second: u32, popup: &ScreenPopup) -> Result<(), CrsfParsingError> {
    let call = |question: &mut Question| question.ask(second, popup).map(|()| None);
    let (answer, after) = judge(before, call, second, &sent(popup));
    if answer.is_ok() {
        assert_eq!(after.popup().as_ref(), Some(popup));
    }
    answer.map(|closed| assert_eq!(closed, None))
}

fn returned(
    before: &Question,
    second: u32,
    value: u8,
    response: bool,
) -> Result<Closed, CrsfParsingError> {
    let call = |question: &mut Question| question.returned(second, value, response).map(Some);
    let (answer, after) = judge(before, call, second, &came(value, response));
    if answer.is_ok() {
        assert_eq!(after.popup(), None);
        // "a second return .. is refused"
        let again = after.clone().returned(second, value, response);
        assert_eq!(again, Err(NoQuestion));
    }
    answer.map(|closed| closed.expect("a value opens nothing"))
}

/// "The first call may carry any second."
#[test]
fn a_new_question() {
    let new = Question::new();
    assert_eq!(new, Question::default());
    assert_eq!((new.popup(), new.last_second()), (None, None));
    for second in [0, 1, 100, LAST] {
        assert_eq!(ask(&new, second, &plain(0)), Ok(()));
        assert_eq!(ask(&new, second, &selection(30, 10, 20)), Ok(()));
        for (value, response) in [(0, false), (0, true), (255, true)] {
            assert_eq!(returned(&new, second, value, response), Err(NoQuestion));
        }
    }
}

#[test]
fn a_closed_question() {
    let closed = closed(100);
    for second in [0, 99] {
        assert_eq!(ask(&closed, second, &plain(0)), Err(ClockBack));
        assert_eq!(returned(&closed, second, 0, true), Err(ClockBack));
        assert_eq!(returned(&closed, second, 0, false), Err(ClockBack));
    }
    for second in [100, 101, LAST] {
        assert_eq!(ask(&closed, second, &plain(0)), Ok(()));
        assert_eq!(returned(&closed, second, 0, true), Err(NoQuestion));
        assert_eq!(returned(&closed, second, 0, false), Err(NoQuestion));
    }
}

/// "A returned value closes it as processed or cancelled if it arrives at most the popup's timeout after it; for a selection a processed
/// value must lie from min to max."
#[test]
fn an_open_question_in_time() {
    let open = opened(100, &selection(30, 10, 20));
    for second in [100, 101, 129, 130] {
        assert_eq!(ask(&open, second, &plain(0)), Err(QuestionOpen));
        for value in [10, 11, 19, 20] {
            assert_eq!(returned(&open, second, value, true), Ok(Processed));
        }
        for value in [0, 9, 21, 255] {
            assert_eq!(
                returned(&open, second, value, true),
                Err(ValueOutsideSelection)
            );
        }
        for value in [0, 9, 10, 20, 21, 255] {
            assert_eq!(returned(&open, second, value, false), Ok(Cancelled));
        }
    }
}

/// "A later return, whatever its value, leaves it closed as expired"; "refused until it is answered or expired, and then opens".
#[test]
fn an_open_question_whose_time_is_over() {
    let open = opened(100, &selection(30, 10, 20));
    for second in [131, 132, LAST] {
        assert_eq!(ask(&open, second, &plain(0)), Ok(()));
        for (value, response) in [(15, true), (9, true), (255, true), (15, false), (0, false)] {
            assert_eq!(returned(&open, second, value, response), Ok(Expired));
        }
    }
}

/// "A second count lower than the last accepted one is refused", before all that is asked of question and value.
#[test]
fn an_open_question_and_a_clock_set_back() {
    let open = opened(100, &selection(30, 10, 20));
    for second in [0, 70, 99] {
        assert_eq!(ask(&open, second, &plain(0)), Err(ClockBack));
        for (value, response) in [(15, true), (9, true), (15, false)] {
            assert_eq!(returned(&open, second, value, response), Err(ClockBack));
        }
    }
}

/// The four numbers of a selection are not compared with each other (document 01): with min above max no value lies between.
#[test]
fn selections_at_their_ends() {
    let processed = |popup: &ScreenPopup, value| returned(&opened(7, popup), 7, value, true);
    for value in [0, 1, 254, 255] {
        assert_eq!(processed(&selection(30, 0, 255), value), Ok(Processed));
        assert_eq!(
            processed(&selection(30, 20, 10), value),
            Err(ValueOutsideSelection)
        );
    }
    assert_eq!(
        processed(&selection(30, 20, 10), 15),
        Err(ValueOutsideSelection)
    );
    assert_eq!(processed(&selection(30, 15, 15), 15), Ok(Processed));
    for value in [14, 16] {
        assert_eq!(
            processed(&selection(30, 15, 15), value),
            Err(ValueOutsideSelection)
        );
    }
}

/// Only a selection has numbers to judge by.
#[test]
fn popups_without_a_selection_take_any_value() {
    let mut with_values = plain(30).fields().unwrap();
    with_values.additional_data = Some(ScreenAdditionalData::Empty);
    with_values.possible_values = Some(text(b"Yes;No"));
    let empty = popup(30, Some(ScreenAdditionalData::Empty));
    for popup in [plain(30), empty, ScreenPopup::new(&with_values).unwrap()] {
        let open = opened(100, &popup);
        for value in 0..=255 {
            assert_eq!(returned(&open, 130, value, true), Ok(Processed));
            assert_eq!(returned(&open, 130, value, false), Ok(Cancelled));
            assert_eq!(returned(&open, 131, value, true), Ok(Expired));
        }
    }
}

/// "At sent + timeout still open; one later expired", from the first second to the last, where a sum would begin again at 0.
#[test]
fn each_timeout_at_each_end_of_the_seconds() {
    for timeout in [0, 1, 30, 255] {
        let popup = selection(timeout, 1, 1);
        let wait = u32::from(timeout);
        for sent in [0, 1, 100, LAST - wait - 1] {
            let open = opened(sent, &popup);
            assert_eq!(ask(&open, sent + wait, &popup), Err(QuestionOpen));
            assert_eq!(returned(&open, sent + wait, 1, true), Ok(Processed));
            assert_eq!(
                returned(&open, sent + wait, 0, true),
                Err(ValueOutsideSelection)
            );
            assert_eq!(ask(&open, sent + wait + 1, &popup), Ok(()));
            assert_eq!(returned(&open, sent + wait + 1, 0, true), Ok(Expired));
            assert_eq!(returned(&open, LAST, 0, false), Ok(Expired));
        }
        // it may be answered up to the last second of all
        for sent in [LAST - wait, LAST - wait / 2, LAST] {
            let open = opened(sent, &popup);
            assert_eq!(ask(&open, LAST, &popup), Err(QuestionOpen));
            assert_eq!(returned(&open, LAST, 1, true), Ok(Processed));
            assert_eq!(returned(&open, LAST, 1, false), Ok(Cancelled));
            assert_eq!(returned(&open, sent - 1, 1, true), Err(ClockBack));
            assert_eq!(returned(&open, 0, 1, true), Err(ClockBack));
        }
    }
}

/// "None changes the state", nor the clock: what was refused at a later second may still be done at an earlier one.
#[test]
fn refusals_leave_the_clock() {
    let mut question = opened(100, &selection(30, 10, 20));
    assert_eq!(question.returned(130, 9, true), Err(ValueOutsideSelection));
    assert_eq!(question.ask(130, &plain(0)), Err(QuestionOpen));
    assert_eq!(question.last_second(), Some(100));
    assert_eq!(question.returned(110, 15, true), Ok(Processed));
    assert_eq!(question.returned(LAST, 15, true), Err(NoQuestion));
    assert_eq!(question.ask(109, &plain(0)), Err(ClockBack));
    assert_eq!(question.ask(110, &plain(0)), Ok(()));
}

/// An answer that comes late moves it: "a late return answers expired, closes and moves the clock".
#[test]
fn an_expired_question_moves_the_clock() {
    let mut question = opened(100, &plain(30));
    assert_eq!(question.returned(131, 0, true), Ok(Expired));
    assert_eq!(question.returned(131, 0, true), Err(NoQuestion));
    assert_eq!(question.ask(130, &plain(30)), Err(ClockBack));
    assert_eq!(question.ask(131, &plain(30)), Ok(()));
}

/// "The box keeps at most one open question, the popup last sent": a popup that makes way is not answered any more.
#[test]
fn the_popup_last_sent_is_the_one_that_is_open() {
    let (first, second) = (selection(30, 10, 20), selection(5, 40, 50));
    let mut question = opened(100, &first);
    assert_eq!(question.ask(131, &second), Ok(()));
    assert_eq!(question.popup(), Some(second));
    assert_eq!(question.returned(136, 15, true), Err(ValueOutsideSelection));
    assert_eq!(question.returned(136, 45, true), Ok(Processed));
    assert_eq!(question.returned(137, 15, true), Err(NoQuestion));
}

/// "Any other command is 2, before the clock, and changes nothing."
#[test]
fn any_other_command_is_refused_before_the_clock() {
    let others = [
        CommandPayload::Fc(FcCommand::ForceDisarm),
        CommandPayload::Osd(OsdCommand::SendButtons(1)),
        CommandPayload::Vtx(VtxCommand::SetFrequency(4999)),
        CommandPayload::Led(LedCommand::SetDefault),
        CommandPayload::General(GeneralCommand::SpeedProposalResponse {
            port_id: 1,
            accepted: true,
        }),
        CommandPayload::Crossfire(CrossfireCommand::ModelSelection(1)),
        CommandPayload::FlowControl(FlowControlCommand::Unsubscribe { frame_type: 2 }),
        CommandPayload::Ack(CommandAck::new(0x22, 0x01, 1, b"shown").unwrap()),
    ];
    for before in [Question::new(), closed(100), opened(100, &plain(30))] {
        for other in others.clone().map(command) {
            for second in [0, 99, 100, LAST] {
                let mut question = before.clone();
                assert_eq!(question.command(second, &other), Err(InvalidPayload));
                assert_eq!(question, before);
            }
        }
    }
}

/// What came and what was sent, as payloads by document 01's sheet; whom they are to and from is not looked at.
#[test]
fn payloads_as_they_come() {
    let mut question = Question::new();
    let mut call = |second, mut read: DirectCommands, source| {
        read.src_addr = source;
        question.command(second, &read)
    };
    let read = |body: &[u8]| DirectCommands::from_bytes(&payload(0x22, body)).unwrap();
    // "l" from 10 to 20, 30 seconds
    let asks = || read(b"\x01Level\0\0\x1E\x01l\0\x0A\x0A\x14\x14\0");
    let value = |value, response| read(&[0x02, value, response]);
    assert_eq!(call(100, asks(), 0xEA), Ok(None));
    assert_eq!(call(130, asks(), 0xEA), Err(QuestionOpen));
    assert_eq!(call(130, value(21, 1), 0xC8), Err(ValueOutsideSelection));
    assert_eq!(call(130, value(20, 1), 0xC8), Ok(Some(Processed)));
    assert_eq!(call(130, value(20, 1), 0xC8), Err(NoQuestion));
    assert_eq!(call(129, asks(), 0x00), Err(ClockBack));
    assert_eq!(call(130, asks(), 0x00), Ok(None));
    assert_eq!(call(131, value(0, 0), 0xFF), Ok(Some(Cancelled)));
    assert_eq!(call(200, asks(), 0xEA), Ok(None));
    assert_eq!(call(231, value(0, 0), 0xEE), Ok(Some(Expired)));
}

/// Bytes by the layout: started, open, sent (4), last (4), popup (length, 55 bytes).
fn kept(flags: [u8; 2], sent: u32, last: u32, popup: &[u8]) -> [u8; QUESTION_SIZE] {
    let mut image = [0; QUESTION_SIZE];
    image[..2].copy_from_slice(&flags);
    image[2..6].copy_from_slice(&sent.to_be_bytes());
    image[6..10].copy_from_slice(&last.to_be_bytes());
    image[10..10 + popup.len()].copy_from_slice(popup);
    image
}

/// "Level", no info text, 30 seconds, a close button.
const POPUP: &[u8] = b"\x09Level\0\0\x1E\x01";

#[test]
fn a_question_is_kept_by_its_bytes() {
    let each = [
        (Question::new(), kept([0, 0], 0, 0, &[])),
        (closed(100), kept([1, 0], 0, 100, &[])),
        (closed(0), kept([1, 0], 0, 0, &[])),
        (opened(LAST, &plain(30)), kept([1, 1], LAST, LAST, POPUP)),
    ];
    for (question, bytes) in each {
        assert_eq!(question.as_bytes(), &bytes);
        assert_eq!(Question::from_bytes(&bytes), Ok(question));
    }
    // as no call leaves it, within its limits all the same: an accepted second after the popup was sent
    let later = Question::from_bytes(&kept([1, 1], 100, 120, POPUP)).unwrap();
    assert_eq!(later.last_second(), Some(120));
    assert_eq!(returned(&later, 119, 0, true), Err(ClockBack));
    assert_eq!(returned(&later, 130, 0, true), Ok(Processed));
    assert_eq!(returned(&later, 131, 0, true), Ok(Expired));
}

/// "A state handed in beyond its own limits (.. a kept popup not made, a kept time later than the last accepted one) is 5".
#[test]
fn bytes_beyond_the_limits_are_no_question() {
    let sound = kept([1, 1], 100, 120, POPUP);
    assert!(Question::from_bytes(&sound).is_ok());
    let refused = |bytes: &[u8]| assert_eq!(Question::from_bytes(bytes), Err(RecordNotMade));
    refused(&[]);
    refused(&[0; QUESTION_SIZE - 1]);
    refused(&[0; QUESTION_SIZE + 1]);
    refused(&sound[..QUESTION_SIZE - 1]);
    refused(&[&sound[..], &[0]].concat());
    // flags
    refused(&kept([2, 0], 0, 0, &[]));
    refused(&kept([1, 2], 100, 120, POPUP));
    refused(&kept([1, 2], 0, 120, &[]));
    // not started, all the rest is 0
    refused(&kept([0, 0], 0, 1, &[]));
    refused(&kept([0, 0], 1, 0, &[]));
    refused(&kept([0, 0], 0, 0, POPUP));
    refused(&kept([0, 1], 0, 0, POPUP));
    refused(&kept([0, 1], 0, 0, &[]));
    // not open, sent and popup are 0
    refused(&kept([1, 0], 1, 120, &[]));
    refused(&kept([1, 0], 0, 120, POPUP));
    refused(&kept([1, 0], 0, 120, b"\0Level\0\0\x1E\x01"));
    // open, the popup is made and sent is at most the last accepted second
    refused(&kept([1, 1], 121, 120, POPUP));
    refused(&kept([1, 1], LAST, 0, POPUP));
    refused(&kept([1, 1], 100, 120, &[]));
    refused(&kept([1, 1], 100, 120, b"\x08Level\0\0\x1E\x01"));
    refused(&kept([1, 1], 100, 120, b"\x09Level\0\0\x1E\x02"));
    refused(&kept([1, 1], 100, 120, &[56]));
    let mut behind = sound;
    behind[QUESTION_SIZE - 1] = 1;
    refused(&behind);
}

#[test]
fn a_question_tells_what_it_keeps() {
    assert_eq!(
        format!("{:?}", Question::new()),
        "Question { last_second: None, asked: None }"
    );
    assert_eq!(
        format!("{:?}", closed(100)),
        "Question { last_second: Some(100), asked: None }"
    );
    let open = format!("{:?}", opened(7, &plain(30)));
    assert!(open.starts_with("Question { last_second: Some(7), asked: Some((7, ScreenPopup(["));
}
