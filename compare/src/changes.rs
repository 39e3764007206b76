//! Edits as a caller of the Rust would write them: what the benchmark counts.
use uf_crsf::packets::CommandPayload::*;
use uf_crsf::packets::CrossfireCommand::*;
use uf_crsf::packets::FlowControlCommand::*;
use uf_crsf::packets::GeneralCommand::*;
use uf_crsf::packets::LedCommand::*;
use uf_crsf::packets::OsdCommand::*;
use uf_crsf::packets::ScreenAdditionalData::*;
use uf_crsf::packets::ScreenCommand::*;
use uf_crsf::packets::VtxCommand::*;
use uf_crsf::packets::{DirectCommands, LedColor, ScreenPopup, ScreenPopupFields, ScreenSelection};

use crate::image::{ACK, CROSSFIRE, FLOW_CONTROL, GENERAL, LED, OSD, SCREEN, VTX};

/// Sets one item of a command that has it. The number has to be in range: the Rust's writer judges VTX, LED and ACK only.
pub type Change = fn(&mut DirectCommands, u32);

/// A field, id and body of a command that has it, two numbers in its range, and its change.
pub type Row = (u32, u8, &'static [u8], [u32; 2], Change);

/// A popup with everything that it may have.
pub const POPUP: &[u8] = b"\x01Bridge 12\0Span open\0\x1E\x01Light\0\x05\x00\x0A\x05lx\0Yes;No\0";
pub const ANSWER: &[u8] = b"\x08\x02\x01frequency set\0";
pub const PULSE: &[u8] = &[0x03, 0x01, 0xF4, 0xB3, 0xE4, 0x64, 0x00, 0x32, 0x32];
pub const FREQUENCY: &[u8] = &[0x02, 0x16, 0xA8];
pub const PROPOSAL: &[u8] = &[0x70, 0x01, 0x00, 0x06, 0x1A, 0x80];
pub const SUBSCRIBE: &[u8] = &[0x01, 0x14, 0x01, 0xF4];
pub const BUTTONS: &[u8] = &[0x01, 0x81];
pub const MODEL: &[u8] = &[0x05, 0x07];
const PIT: &[u8] = &[0x04, 0x2D];
const POWER: &[u8] = &[0x08, 0x14];
const RESPONSE: &[u8] = &[0x71, 0x01, 0x01];
const RETURNED: &[u8] = &[0x02, 0x05, 0x01];

/// What a pattern of the family's command binds.
macro_rules! put {
    (flag $it:ident in $pattern:pat) => {
        |command, number| {
            if let $pattern = &mut command.payload {
                *$it = number != 0;
            }
        }
    };
    ($type:ident $it:ident in $pattern:pat) => {
        |command, number| {
            if let $pattern = &mut command.payload {
                *$it = number as $type;
            }
        }
    };
}

fn in_popup(command: &mut DirectCommands, change: impl FnOnce(&mut ScreenPopupFields)) {
    if let Screen(PopupMessageStart(popup)) = &mut command.payload {
        let mut fields = popup.fields().expect("a popup that was read");
        change(&mut fields);
        *popup = ScreenPopup::new(&fields).expect("a popup of the same length");
    }
}

fn in_selection(command: &mut DirectCommands, change: impl FnOnce(&mut ScreenSelection)) {
    in_popup(command, |fields| {
        if let Some(Selection(selection)) = &mut fields.additional_data {
            change(selection);
        }
    });
}

pub const ROWS: [Row; 32] = [
    (1, VTX, FREQUENCY, [0, 255], |command, number| {
        command.dst_addr = number as u8
    }),
    (2, VTX, FREQUENCY, [0, 255], |command, number| {
        command.src_addr = number as u8
    }),
    (
        10,
        OSD,
        BUTTONS,
        [0, 255],
        put!(u8 it in Osd(SendButtons(it))),
    ),
    (
        20,
        VTX,
        FREQUENCY,
        [5000, 6000],
        put!(u16 it in Vtx(SetFrequency(it))),
    ),
    (
        21,
        VTX,
        PIT,
        [0, 1],
        put!(flag it in Vtx(EnablePitModeOnPowerUp { pit_mode: it, .. })),
    ),
    (
        22,
        VTX,
        PIT,
        [0, 3],
        put!(u8 it in Vtx(EnablePitModeOnPowerUp { pit_mode_control: it, .. })),
    ),
    (
        23,
        VTX,
        PIT,
        [0, 15],
        put!(u8 it in Vtx(EnablePitModeOnPowerUp { pit_mode_switch: it, .. })),
    ),
    (24, VTX, POWER, [0, 255], put!(u8 it in Vtx(SetPower(it)))),
    (
        30,
        LED,
        PULSE,
        [0, 65535],
        put!(u16 it in Led(OverridePulse { duration_ms: it, .. })),
    ),
    (
        31,
        LED,
        PULSE,
        [0, 359],
        put!(u16 it in Led(OverridePulse { start: LedColor { hue: it, .. }, .. })),
    ),
    (
        32,
        LED,
        PULSE,
        [0, 100],
        put!(u8 it in Led(OverridePulse { start: LedColor { saturation: it, .. }, .. })),
    ),
    (
        33,
        LED,
        PULSE,
        [0, 100],
        put!(u8 it in Led(OverridePulse { start: LedColor { value: it, .. }, .. })),
    ),
    (
        34,
        LED,
        PULSE,
        [0, 359],
        put!(u16 it in Led(OverridePulse { stop: LedColor { hue: it, .. }, .. })),
    ),
    (
        35,
        LED,
        PULSE,
        [0, 100],
        put!(u8 it in Led(OverridePulse { stop: LedColor { saturation: it, .. }, .. })),
    ),
    (
        36,
        LED,
        PULSE,
        [0, 100],
        put!(u8 it in Led(OverridePulse { stop: LedColor { value: it, .. }, .. })),
    ),
    (
        40,
        GENERAL,
        PROPOSAL,
        [0, 255],
        put!(u8 it in General(SpeedProposal { port_id: it, .. })),
    ),
    (
        41,
        GENERAL,
        PROPOSAL,
        [115_200, 3_000_000],
        put!(u32 it in General(SpeedProposal { proposed_baudrate: it, .. })),
    ),
    (
        42,
        GENERAL,
        RESPONSE,
        [0, 1],
        put!(flag it in General(SpeedProposalResponse { accepted: it, .. })),
    ),
    (
        50,
        CROSSFIRE,
        MODEL,
        [0, 255],
        put!(u8 it in Crossfire(ModelSelection(it))),
    ),
    (
        60,
        FLOW_CONTROL,
        SUBSCRIBE,
        [0, 255],
        put!(u8 it in FlowControl(Subscribe { frame_type: it, .. })),
    ),
    (
        61,
        FLOW_CONTROL,
        SUBSCRIBE,
        [0, 65535],
        put!(u16 it in FlowControl(Subscribe { max_interval_time: it, .. })),
    ),
    (70, SCREEN, POPUP, [0, 255], |command, number| {
        in_popup(command, |fields| fields.max_timeout_interval = number as u8)
    }),
    (71, SCREEN, POPUP, [0, 1], |command, number| {
        in_popup(command, |fields| fields.close_button_option = number != 0)
    }),
    (72, SCREEN, POPUP, [0, 255], |command, number| {
        in_selection(command, |selection| selection.value = number as u8)
    }),
    (73, SCREEN, POPUP, [0, 255], |command, number| {
        in_selection(command, |selection| selection.min_value = number as u8)
    }),
    (74, SCREEN, POPUP, [0, 255], |command, number| {
        in_selection(command, |selection| selection.max_value = number as u8)
    }),
    (75, SCREEN, POPUP, [0, 255], |command, number| {
        in_selection(command, |selection| selection.default_value = number as u8)
    }),
    (
        76,
        SCREEN,
        RETURNED,
        [0, 255],
        put!(u8 it in Screen(SelectionReturnValue { value: it, .. })),
    ),
    (
        77,
        SCREEN,
        RETURNED,
        [0, 1],
        put!(flag it in Screen(SelectionReturnValue { response: it, .. })),
    ),
    (80, ACK, ANSWER, [0, 255], |command, number| {
        if let Ack(ack) = &mut command.payload {
            ack.command_id = number as u8;
        }
    }),
    (81, ACK, ANSWER, [0, 255], |command, number| {
        if let Ack(ack) = &mut command.payload {
            ack.sub_command_id = number as u8;
        }
    }),
    (82, ACK, ANSWER, [0, 1], |command, number| {
        if let Ack(ack) = &mut command.payload {
            ack.action = number as u8;
        }
    }),
];
