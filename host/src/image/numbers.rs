//! The ids, sub-commands, places and kinds of `include/crsf.h` that images hold, by its names.

// Command ids
pub const FC: u8 = 0x01;
pub const OSD: u8 = 0x05;
pub const VTX: u8 = 0x08;
pub const LED: u8 = 0x09;
pub const GENERAL: u8 = 0x0A;
pub const CROSSFIRE: u8 = 0x10;
pub const FLOW_CONTROL: u8 = 0x20;
pub const SCREEN: u8 = 0x22;
pub const ACK: u8 = 0xFF;

// Sub-commands
pub const FC_FORCE_DISARM: u8 = 0x01;
pub const FC_SCALE_CHANNEL: u8 = 0x02;

pub const OSD_SEND_BUTTONS: u8 = 0x01;

pub const VTX_SET_FREQUENCY: u8 = 0x02;
pub const VTX_ENABLE_PIT_MODE_ON_POWER_UP: u8 = 0x04;
pub const VTX_POWER_UP_FROM_PIT_MODE: u8 = 0x05;
pub const VTX_SET_DYNAMIC_POWER: u8 = 0x06;
pub const VTX_SET_POWER: u8 = 0x08;

pub const LED_SET_DEFAULT: u8 = 0x01;
pub const LED_OVERRIDE_COLOR: u8 = 0x02;
pub const LED_OVERRIDE_PULSE: u8 = 0x03;
pub const LED_OVERRIDE_BLINK: u8 = 0x04;
pub const LED_OVERRIDE_SHIFT: u8 = 0x05;

pub const GENERAL_SPEED_PROPOSAL: u8 = 0x70;
pub const GENERAL_SPEED_PROPOSAL_RESPONSE: u8 = 0x71;

pub const CROSSFIRE_SET_RECEIVER_IN_BIND_MODE: u8 = 0x01;
pub const CROSSFIRE_CANCEL_BIND_MODE: u8 = 0x02;
pub const CROSSFIRE_SET_BIND_ID: u8 = 0x03;
pub const CROSSFIRE_MODEL_SELECTION: u8 = 0x05;
pub const CROSSFIRE_CURRENT_MODEL_SELECTION: u8 = 0x06;
pub const CROSSFIRE_REPLY_CURRENT_MODEL_SELECTION: u8 = 0x07;
pub const CROSSFIRE_ENABLE_RX_TELEMETRY: u8 = 0x0A;
pub const CROSSFIRE_DISABLE_RX_TELEMETRY: u8 = 0x0B;
pub const CROSSFIRE_FACTORY_RESET: u8 = 0x0C;
pub const CROSSFIRE_RESET_TO_FACTORY_FIRMWARE: u8 = 0x0D;

pub const FLOW_CONTROL_SUBSCRIBE: u8 = 0x01;
pub const FLOW_CONTROL_UNSUBSCRIBE: u8 = 0x02;

pub const SCREEN_POPUP_MESSAGE_START: u8 = 0x01;
pub const SCREEN_SELECTION_RETURN_VALUE: u8 = 0x02;

pub const ACK_NO_SUB_COMMAND: u8 = 0x00;

// Places in the image of a command
pub const RECORD_DESTINATION: usize = 0;
pub const RECORD_SOURCE: usize = 1;
pub const RECORD_ID: usize = 2;
pub const RECORD_SUB_COMMAND: usize = 3;
pub const RECORD_VALUES: usize = 4;
pub const RECORD_LENGTH: usize = 14;

// Places in the image of an ACK
pub const ACK_COMMAND_ID: usize = 0;
pub const ACK_SUB_COMMAND_ID: usize = 1;
pub const ACK_ACTION: usize = 2;
pub const ACK_VALUES_SIZE: usize = 3;
pub const ACK_LENGTH: usize = 3;
pub const ACK_STORED_SIZE: usize = 53;

// Places in the image of a popup's fields
pub const POPUP_FIELDS_HEADER: usize = 0;
pub const POPUP_FIELDS_INFO: usize = 52;
pub const POPUP_FIELDS_TIMEOUT: usize = 104;
pub const POPUP_FIELDS_CLOSE: usize = 105;
pub const POPUP_FIELDS_ADDITIONAL: usize = 106;
pub const POPUP_FIELDS_LABEL: usize = 107;
pub const POPUP_FIELDS_VALUE: usize = 159;
pub const POPUP_FIELDS_MIN: usize = 160;
pub const POPUP_FIELDS_MAX: usize = 161;
pub const POPUP_FIELDS_DEFAULT: usize = 162;
pub const POPUP_FIELDS_UNIT: usize = 163;
pub const POPUP_FIELDS_HAS_POSSIBLE_VALUES: usize = 215;
pub const POPUP_FIELDS_POSSIBLE_VALUES: usize = 216;

// Kinds of additional data
pub const ADDITIONAL_ABSENT: u8 = 0;
pub const ADDITIONAL_EMPTY: u8 = 1;
pub const ADDITIONAL_SELECTION: u8 = 2;

// Places in the image of a replay
pub const REPLAY_STARTED: usize = 0;
pub const REPLAY_BLOCK: usize = 1;
pub const REPLAY_PLACE: usize = 5;

// Places in the image of an event
pub const EVENT_KIND: usize = 0;
pub const EVENT_MORE: usize = 1;
pub const EVENT_BLOCK: usize = 2;
pub const EVENT_PLACE: usize = 6;
pub const EVENT_NUMBER: usize = 8;
pub const EVENT_PAYLOAD_PLACE: usize = 9;
pub const EVENT_RECORD: usize = 10;

// Places in the image of a question
pub const QUESTION_STARTED: usize = 0;
pub const QUESTION_OPEN: usize = 1;
pub const QUESTION_SENT: usize = 2;
pub const QUESTION_LAST: usize = 6;
pub const QUESTION_POPUP: usize = 10;

// Kinds of events
pub const KIND_NOTHING: u8 = 0;
pub const KIND_COMMAND: u8 = 1;
pub const KIND_REFUSED: u8 = 2;
pub const KIND_DAMAGED: u8 = 3;
pub const KIND_GAP: u8 = 4;
pub const KIND_STEP_BACK: u8 = 5;

#[cfg(test)]
mod tests {
    use super::*;
    use crate::header::{self, Names};

    macro_rules! named {
        ($($name:ident)*) => { Names::from([$((stringify!($name).into(), $name as u32)),*]) };
    }

    /// Both ways: each is the header's, and the header has no other.
    #[test]
    fn are_those_of_the_header() {
        let mut ours = named! {
            FC OSD VTX LED GENERAL CROSSFIRE FLOW_CONTROL SCREEN ACK

            FC_FORCE_DISARM FC_SCALE_CHANNEL
            OSD_SEND_BUTTONS
            VTX_SET_FREQUENCY VTX_ENABLE_PIT_MODE_ON_POWER_UP VTX_POWER_UP_FROM_PIT_MODE
            VTX_SET_DYNAMIC_POWER VTX_SET_POWER
            LED_SET_DEFAULT LED_OVERRIDE_COLOR LED_OVERRIDE_PULSE LED_OVERRIDE_BLINK
            LED_OVERRIDE_SHIFT
            GENERAL_SPEED_PROPOSAL GENERAL_SPEED_PROPOSAL_RESPONSE
            CROSSFIRE_SET_RECEIVER_IN_BIND_MODE CROSSFIRE_CANCEL_BIND_MODE CROSSFIRE_SET_BIND_ID
            CROSSFIRE_MODEL_SELECTION CROSSFIRE_CURRENT_MODEL_SELECTION
            CROSSFIRE_REPLY_CURRENT_MODEL_SELECTION CROSSFIRE_ENABLE_RX_TELEMETRY
            CROSSFIRE_DISABLE_RX_TELEMETRY CROSSFIRE_FACTORY_RESET
            CROSSFIRE_RESET_TO_FACTORY_FIRMWARE
            FLOW_CONTROL_SUBSCRIBE FLOW_CONTROL_UNSUBSCRIBE
            SCREEN_POPUP_MESSAGE_START SCREEN_SELECTION_RETURN_VALUE
            ACK_NO_SUB_COMMAND

            RECORD_DESTINATION RECORD_SOURCE RECORD_ID RECORD_SUB_COMMAND RECORD_VALUES
            RECORD_LENGTH
            ACK_COMMAND_ID ACK_SUB_COMMAND_ID ACK_ACTION ACK_VALUES_SIZE ACK_LENGTH ACK_STORED_SIZE
            POPUP_FIELDS_HEADER POPUP_FIELDS_INFO POPUP_FIELDS_TIMEOUT POPUP_FIELDS_CLOSE POPUP_FIELDS_ADDITIONAL POPUP_FIELDS_LABEL
            POPUP_FIELDS_VALUE POPUP_FIELDS_MIN POPUP_FIELDS_MAX POPUP_FIELDS_DEFAULT POPUP_FIELDS_UNIT
            POPUP_FIELDS_HAS_POSSIBLE_VALUES POPUP_FIELDS_POSSIBLE_VALUES

            ADDITIONAL_ABSENT ADDITIONAL_EMPTY ADDITIONAL_SELECTION

            REPLAY_STARTED REPLAY_BLOCK REPLAY_PLACE
            EVENT_KIND EVENT_MORE EVENT_BLOCK EVENT_PLACE EVENT_NUMBER EVENT_PAYLOAD_PLACE EVENT_RECORD
            KIND_NOTHING KIND_COMMAND KIND_REFUSED KIND_DAMAGED KIND_GAP KIND_STEP_BACK
            QUESTION_STARTED QUESTION_OPEN QUESTION_SENT QUESTION_LAST QUESTION_POPUP
        };
        // what `Stored` takes for granted: a length, and the bytes right behind it
        let stored = [
            ("RECORD_BYTES", RECORD_LENGTH + 1),
            ("TEXT_LENGTH", 0),
            ("TEXT_BYTES", 1),
            ("ACK_INFORMATION", ACK_LENGTH + 1),
            ("POPUP_LENGTH", 0),
            ("POPUP_BYTES", 1),
        ];
        ours.extend(stored.map(|(name, place)| (name.into(), place as u32)));
        assert_eq!(ours, header::names(true));
    }
}
