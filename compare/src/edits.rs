//! Edits, which the Rust does not have: document 01's fields, each found in the Rust's own types.
use uf_crsf::packets::{
    CommandAck, CommandPayload, CrossfireCommand, DirectCommands, FlowControlCommand,
    GeneralCommand, LedColor, LedCommand, OsdCommand, ScreenAdditionalData, ScreenCommand,
    ScreenPopup, ScreenPopupFields, VtxCommand,
};

const NO_SUCH_FIELD: u32 = 7;
const OUTSIDE_RANGE: u32 = 8;

/// An edit of a list: field, then number, 4 bytes each.
pub const SIZE: usize = 8;

/// Field, least and greatest number.
pub const FIELDS: [(u32, u32, u32); 32] = [
    (1, 0, 255),
    (2, 0, 255),
    (10, 0, 255),
    (20, 5000, 6000),
    (21, 0, 1),
    (22, 0, 3),
    (23, 0, 15),
    (24, 0, 255),
    (30, 0, 65535),
    (31, 0, 359),
    (32, 0, 100),
    (33, 0, 100),
    (34, 0, 359),
    (35, 0, 100),
    (36, 0, 100),
    (40, 0, 255),
    (41, 0, u32::MAX),
    (42, 0, 1),
    (50, 0, 255),
    (60, 0, 255),
    (61, 0, 65535),
    (70, 0, 255),
    (71, 0, 1),
    (72, 0, 255),
    (73, 0, 255),
    (74, 0, 255),
    (75, 0, 255),
    (76, 0, 255),
    (77, 0, 1),
    (80, 0, 255),
    (81, 0, 255),
    (82, 0, 1),
];

/// None of what is no field of any command.
pub fn range(field: u32) -> Option<(u32, u32)> {
    let row = FIELDS.iter().find(|(number, _, _)| *number == field);
    row.map(|(_, least, greatest)| (*least, *greatest))
}

/// Where a field stands.
enum Place<'a> {
    Byte(&'a mut u8),
    Word(&'a mut u16),
    Long(&'a mut u32),
    Flag(&'a mut bool),
}

impl Place<'_> {
    fn put(self, number: u32) {
        match self {
            Place::Byte(byte) => *byte = number.try_into().expect("a byte"),
            Place::Word(word) => *word = number.try_into().expect("two bytes"),
            Place::Long(long) => *long = number,
            Place::Flag(flag) => *flag = number == 1,
        }
    }
}

fn in_vtx(command: &mut VtxCommand, field: u32) -> Option<Place<'_>> {
    use VtxCommand::*;
    Some(match (field, command) {
        (20, SetFrequency(frequency)) => Place::Word(frequency),
        (21, EnablePitModeOnPowerUp { pit_mode, .. }) => Place::Flag(pit_mode),
        (
            22,
            EnablePitModeOnPowerUp {
                pit_mode_control, ..
            },
        ) => Place::Byte(pit_mode_control),
        (
            23,
            EnablePitModeOnPowerUp {
                pit_mode_switch, ..
            },
        ) => Place::Byte(pit_mode_switch),
        (24, SetDynamicPower(power) | SetPower(power)) => Place::Byte(power),
        _ => return None,
    })
}

fn in_color(color: &mut LedColor, item: u32) -> Place<'_> {
    match item {
        0 => Place::Word(&mut color.hue),
        1 => Place::Byte(&mut color.saturation),
        _ => Place::Byte(&mut color.value),
    }
}

fn in_led(command: &mut LedCommand, field: u32) -> Option<Place<'_>> {
    use LedCommand::*;
    Some(match (field, command) {
        (
            30,
            OverridePulse {
                duration_ms: time, ..
            }
            | OverrideBlink {
                interval_ms: time, ..
            }
            | OverrideShift {
                interval_ms: time, ..
            },
        ) => Place::Word(time),
        (
            31..=33,
            OverrideColor(color)
            | OverridePulse { start: color, .. }
            | OverrideBlink { start: color, .. }
            | OverrideShift { color, .. },
        ) => in_color(color, field - 31),
        (34..=36, OverridePulse { stop, .. } | OverrideBlink { stop, .. }) => {
            in_color(stop, field - 34)
        }
        _ => return None,
    })
}

fn in_general(command: &mut GeneralCommand, field: u32) -> Option<Place<'_>> {
    use GeneralCommand::*;
    Some(match (field, command) {
        (40, SpeedProposal { port_id, .. } | SpeedProposalResponse { port_id, .. }) => {
            Place::Byte(port_id)
        }
        (
            41,
            SpeedProposal {
                proposed_baudrate, ..
            },
        ) => Place::Long(proposed_baudrate),
        (42, SpeedProposalResponse { accepted, .. }) => Place::Flag(accepted),
        _ => return None,
    })
}

fn in_crossfire(command: &mut CrossfireCommand, field: u32) -> Option<Place<'_>> {
    use CrossfireCommand::*;
    match (field, command) {
        (50, ModelSelection(model) | ReplyCurrentModelSelection(model)) => Some(Place::Byte(model)),
        _ => None,
    }
}

fn in_flow_control(command: &mut FlowControlCommand, field: u32) -> Option<Place<'_>> {
    use FlowControlCommand::*;
    Some(match (field, command) {
        (60, Subscribe { frame_type, .. } | Unsubscribe { frame_type }) => Place::Byte(frame_type),
        (
            61,
            Subscribe {
                max_interval_time, ..
            },
        ) => Place::Word(max_interval_time),
        _ => return None,
    })
}

fn in_popup(fields: &mut ScreenPopupFields, field: u32) -> Option<Place<'_>> {
    use ScreenAdditionalData::Selection;
    Some(match (field, &mut fields.additional_data) {
        (70, _) => Place::Byte(&mut fields.max_timeout_interval),
        (71, _) => Place::Flag(&mut fields.close_button_option),
        (72, Some(Selection(selection))) => Place::Byte(&mut selection.value),
        (73, Some(Selection(selection))) => Place::Byte(&mut selection.min_value),
        (74, Some(Selection(selection))) => Place::Byte(&mut selection.max_value),
        (75, Some(Selection(selection))) => Place::Byte(&mut selection.default_value),
        _ => return None,
    })
}

/// A popup's items are not here: it shows them only by inspection.
fn in_screen(command: &mut ScreenCommand, field: u32) -> Option<Place<'_>> {
    use ScreenCommand::*;
    Some(match (field, command) {
        (76, SelectionReturnValue { value, .. }) => Place::Byte(value),
        (77, SelectionReturnValue { response, .. }) => Place::Flag(response),
        _ => return None,
    })
}

fn in_ack(ack: &mut CommandAck, field: u32) -> Option<Place<'_>> {
    Some(Place::Byte(match field {
        80 => &mut ack.command_id,
        81 => &mut ack.sub_command_id,
        82 => &mut ack.action,
        _ => return None,
    }))
}

fn in_command(command: &mut DirectCommands, field: u32) -> Option<Place<'_>> {
    use CommandPayload::*;
    match (field, &mut command.payload) {
        (1, _) => Some(Place::Byte(&mut command.dst_addr)),
        (2, _) => Some(Place::Byte(&mut command.src_addr)),
        (10, Osd(OsdCommand::SendButtons(buttons))) => Some(Place::Byte(buttons)),
        (_, Vtx(command)) => in_vtx(command, field),
        (_, Led(command)) => in_led(command, field),
        (_, General(command)) => in_general(command, field),
        (_, Crossfire(command)) => in_crossfire(command, field),
        (_, FlowControl(command)) => in_flow_control(command, field),
        (_, Screen(command)) => in_screen(command, field),
        (_, Ack(ack)) => in_ack(ack, field),
        (_, Fc(_) | Osd(_) | Bluetooth(_) | RcOverWifi(_)) => None,
    }
}

/// First whether there is such a field, then whether the number is in its range.
fn put(place: Option<Place>, field: u32, number: u32) -> Result<(), u32> {
    let (Some(place), Some((least, greatest))) = (place, range(field)) else {
        return Err(NO_SUCH_FIELD);
    };
    if !(least..=greatest).contains(&number) {
        return Err(OUTSIDE_RANGE);
    }
    place.put(number);
    Ok(())
}

/// Sets a field of a command that was read. A popup is inspected, and made anew of the fields.
pub fn set(command: &mut DirectCommands, field: u32, number: u32) -> Result<(), u32> {
    match &mut command.payload {
        CommandPayload::Screen(ScreenCommand::PopupMessageStart(popup)) if field > 2 => {
            let mut fields = popup.fields().expect("a popup that was read");
            put(in_popup(&mut fields, field), field, number)?;
            *popup = ScreenPopup::new(&fields).expect("a popup of the same length");
            Ok(())
        }
        _ => put(in_command(command, field), field, number),
    }
}

/// A list, of field and number each.
pub fn list(edits: &[(u32, u32)]) -> Vec<u8> {
    let halves = edits.iter().flat_map(|(field, number)| [field, number]);
    halves.flat_map(|half| half.to_be_bytes()).collect()
}

pub fn one_of_list(edit: &[u8]) -> (u32, u32) {
    let half = |from: usize| u32::from_be_bytes(edit[from..from + 4].try_into().unwrap());
    (half(0), half(4))
}
