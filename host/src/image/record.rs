//! A command as the image of a record, and back.
use super::numbers::*;
use super::{flag, Stored, HANDED_OUT};
use crate::boundary::RECORD_SIZE;
use crate::packets::{
    CommandAck, CommandPayload, CrossfireCommand, DirectCommands, FcCommand, FlowControlCommand,
    GeneralCommand, LedColor, LedCommand, OsdCommand, ScreenCommand, ScreenPopup, VtxCommand,
};

type Record = [u8; RECORD_SIZE];

/// The image of a command.
pub(crate) fn of_command(command: &DirectCommands) -> Record {
    let mut record = match &command.payload {
        CommandPayload::Fc(command) => of_fc(command),
        CommandPayload::Osd(command) => of_osd(command),
        CommandPayload::Vtx(command) => of_vtx(command),
        CommandPayload::Led(command) => of_led(command),
        CommandPayload::General(command) => of_general(command),
        CommandPayload::Crossfire(command) => of_crossfire(command),
        CommandPayload::FlowControl(command) => of_flow_control(command),
        CommandPayload::Screen(command) => of_screen(command),
        CommandPayload::Ack(ack) => of_ack(ack),
    };
    record[RECORD_DESTINATION] = command.dst_addr;
    record[RECORD_SOURCE] = command.src_addr;
    record
}

/// The command of an image that C handed out.
pub(crate) fn command(record: &Record) -> DirectCommands {
    let sub = record[RECORD_SUB_COMMAND];
    let values = Values(&record[RECORD_VALUES..RECORD_LENGTH]);
    let payload = match record[RECORD_ID] {
        FC => CommandPayload::Fc(fc(sub)),
        OSD => CommandPayload::Osd(osd(sub, values)),
        VTX => CommandPayload::Vtx(vtx(sub, values)),
        LED => CommandPayload::Led(led(sub, values)),
        GENERAL => CommandPayload::General(general(sub, values)),
        CROSSFIRE => CommandPayload::Crossfire(crossfire(sub, values)),
        FLOW_CONTROL => CommandPayload::FlowControl(flow_control(sub, values)),
        SCREEN => CommandPayload::Screen(screen(sub, values, record)),
        ACK => CommandPayload::Ack(ack(values, record)),
        id => unreachable!("{HANDED_OUT}: none has the id {id:#04X}"),
    };
    DirectCommands {
        dst_addr: record[RECORD_DESTINATION],
        src_addr: record[RECORD_SOURCE],
        payload,
    }
}

/// The image with these values one after the other, nothing stored, both addresses 0.
fn with(id: u8, sub: u8, values: &[&[u8]]) -> Record {
    let mut record = [0; RECORD_SIZE];
    record[RECORD_ID] = id;
    record[RECORD_SUB_COMMAND] = sub;
    let mut at = RECORD_VALUES;
    for value in values {
        record[at..at + value.len()].copy_from_slice(value);
        at += value.len();
    }
    record
}

/// The same with what is stored.
fn storing<const SIZE: usize>(mut record: Record, stored: &Stored<SIZE>) -> Record {
    stored.put(&mut record, RECORD_LENGTH);
    record
}

fn of_color(color: &LedColor) -> [u8; 4] {
    let [high, low] = color.hue.to_be_bytes();
    [high, low, color.saturation, color.value]
}

/// The values of an image, each by its place among them.
#[derive(Clone, Copy)]
struct Values<'a>(&'a [u8]);

impl Values<'_> {
    fn byte(self, at: usize) -> u8 {
        self.0[at]
    }

    fn flag(self, at: usize) -> bool {
        flag(self.0[at])
    }

    fn word(self, at: usize) -> u16 {
        u16::from_be_bytes([self.0[at], self.0[at + 1]])
    }

    fn long(self, at: usize) -> u32 {
        u32::from(self.word(at)) << 16 | u32::from(self.word(at + 2))
    }

    fn color(self, at: usize) -> LedColor {
        LedColor {
            hue: self.word(at),
            saturation: self.byte(at + 2),
            value: self.byte(at + 3),
        }
    }
}

fn of_fc(command: &FcCommand) -> Record {
    match command {
        FcCommand::ForceDisarm => with(FC, FC_FORCE_DISARM, &[]),
        FcCommand::ScaleChannel => with(FC, FC_SCALE_CHANNEL, &[]),
    }
}

fn fc(sub: u8) -> FcCommand {
    match sub {
        FC_FORCE_DISARM => FcCommand::ForceDisarm,
        FC_SCALE_CHANNEL => FcCommand::ScaleChannel,
        _ => unreachable!("{HANDED_OUT}: FC has no sub-command {sub:#04X}"),
    }
}

fn of_osd(command: &OsdCommand) -> Record {
    match command {
        OsdCommand::SendButtons(buttons) => with(OSD, OSD_SEND_BUTTONS, &[&[*buttons]]),
    }
}

fn osd(sub: u8, values: Values) -> OsdCommand {
    match sub {
        OSD_SEND_BUTTONS => OsdCommand::SendButtons(values.byte(0)),
        _ => unreachable!("{HANDED_OUT}: OSD has no sub-command {sub:#04X}"),
    }
}

fn of_vtx(command: &VtxCommand) -> Record {
    match command {
        VtxCommand::SetFrequency(frequency) => {
            with(VTX, VTX_SET_FREQUENCY, &[&frequency.to_be_bytes()])
        }
        VtxCommand::EnablePitModeOnPowerUp {
            pit_mode,
            pit_mode_control,
            pit_mode_switch,
        } => {
            let values = [u8::from(*pit_mode), *pit_mode_control, *pit_mode_switch];
            with(VTX, VTX_ENABLE_PIT_MODE_ON_POWER_UP, &[&values])
        }
        VtxCommand::PowerUpFromPitMode => with(VTX, VTX_POWER_UP_FROM_PIT_MODE, &[]),
        VtxCommand::SetDynamicPower(power) => with(VTX, VTX_SET_DYNAMIC_POWER, &[&[*power]]),
        VtxCommand::SetPower(power) => with(VTX, VTX_SET_POWER, &[&[*power]]),
    }
}

fn vtx(sub: u8, values: Values) -> VtxCommand {
    match sub {
        VTX_SET_FREQUENCY => VtxCommand::SetFrequency(values.word(0)),
        VTX_ENABLE_PIT_MODE_ON_POWER_UP => VtxCommand::EnablePitModeOnPowerUp {
            pit_mode: values.flag(0),
            pit_mode_control: values.byte(1),
            pit_mode_switch: values.byte(2),
        },
        VTX_POWER_UP_FROM_PIT_MODE => VtxCommand::PowerUpFromPitMode,
        VTX_SET_DYNAMIC_POWER => VtxCommand::SetDynamicPower(values.byte(0)),
        VTX_SET_POWER => VtxCommand::SetPower(values.byte(0)),
        _ => unreachable!("{HANDED_OUT}: VTX has no sub-command {sub:#04X}"),
    }
}

fn of_led(command: &LedCommand) -> Record {
    match command {
        LedCommand::SetDefault => with(LED, LED_SET_DEFAULT, &[]),
        LedCommand::OverrideColor(color) => with(LED, LED_OVERRIDE_COLOR, &[&of_color(color)]),
        LedCommand::OverridePulse {
            duration_ms,
            start,
            stop,
        } => {
            let time = duration_ms.to_be_bytes();
            let values: [&[u8]; 3] = [&time, &of_color(start), &of_color(stop)];
            with(LED, LED_OVERRIDE_PULSE, &values)
        }
        LedCommand::OverrideBlink {
            interval_ms,
            start,
            stop,
        } => {
            let time = interval_ms.to_be_bytes();
            let values: [&[u8]; 3] = [&time, &of_color(start), &of_color(stop)];
            with(LED, LED_OVERRIDE_BLINK, &values)
        }
        LedCommand::OverrideShift { interval_ms, color } => {
            let time = interval_ms.to_be_bytes();
            with(LED, LED_OVERRIDE_SHIFT, &[&time, &of_color(color)])
        }
    }
}

fn led(sub: u8, values: Values) -> LedCommand {
    match sub {
        LED_SET_DEFAULT => LedCommand::SetDefault,
        LED_OVERRIDE_COLOR => LedCommand::OverrideColor(values.color(0)),
        LED_OVERRIDE_PULSE => LedCommand::OverridePulse {
            duration_ms: values.word(0),
            start: values.color(2),
            stop: values.color(6),
        },
        LED_OVERRIDE_BLINK => LedCommand::OverrideBlink {
            interval_ms: values.word(0),
            start: values.color(2),
            stop: values.color(6),
        },
        LED_OVERRIDE_SHIFT => LedCommand::OverrideShift {
            interval_ms: values.word(0),
            color: values.color(2),
        },
        _ => unreachable!("{HANDED_OUT}: LED has no sub-command {sub:#04X}"),
    }
}

fn of_general(command: &GeneralCommand) -> Record {
    match command {
        GeneralCommand::SpeedProposal {
            port_id,
            proposed_baudrate,
        } => {
            let baud = proposed_baudrate.to_be_bytes();
            with(GENERAL, GENERAL_SPEED_PROPOSAL, &[&[*port_id], &baud])
        }
        GeneralCommand::SpeedProposalResponse { port_id, accepted } => {
            let values = [*port_id, u8::from(*accepted)];
            with(GENERAL, GENERAL_SPEED_PROPOSAL_RESPONSE, &[&values])
        }
    }
}

fn general(sub: u8, values: Values) -> GeneralCommand {
    match sub {
        GENERAL_SPEED_PROPOSAL => GeneralCommand::SpeedProposal {
            port_id: values.byte(0),
            proposed_baudrate: values.long(1),
        },
        GENERAL_SPEED_PROPOSAL_RESPONSE => GeneralCommand::SpeedProposalResponse {
            port_id: values.byte(0),
            accepted: values.flag(1),
        },
        _ => unreachable!("{HANDED_OUT}: General has no sub-command {sub:#04X}"),
    }
}

fn of_crossfire(command: &CrossfireCommand) -> Record {
    use CrossfireCommand::*;
    let alone = |sub| with(CROSSFIRE, sub, &[]);
    match command {
        SetReceiverInBindMode => alone(CROSSFIRE_SET_RECEIVER_IN_BIND_MODE),
        CancelBindMode => alone(CROSSFIRE_CANCEL_BIND_MODE),
        SetBindId => alone(CROSSFIRE_SET_BIND_ID),
        ModelSelection(model) => with(CROSSFIRE, CROSSFIRE_MODEL_SELECTION, &[&[*model]]),
        CurrentModelSelection => alone(CROSSFIRE_CURRENT_MODEL_SELECTION),
        ReplyCurrentModelSelection(model) => with(
            CROSSFIRE,
            CROSSFIRE_REPLY_CURRENT_MODEL_SELECTION,
            &[&[*model]],
        ),
        EnableRxTelemetry => alone(CROSSFIRE_ENABLE_RX_TELEMETRY),
        DisableRxTelemetry => alone(CROSSFIRE_DISABLE_RX_TELEMETRY),
        FactoryReset => alone(CROSSFIRE_FACTORY_RESET),
        ResetToFactoryFirmware => alone(CROSSFIRE_RESET_TO_FACTORY_FIRMWARE),
    }
}

fn crossfire(sub: u8, values: Values) -> CrossfireCommand {
    use CrossfireCommand::*;
    match sub {
        CROSSFIRE_SET_RECEIVER_IN_BIND_MODE => SetReceiverInBindMode,
        CROSSFIRE_CANCEL_BIND_MODE => CancelBindMode,
        CROSSFIRE_SET_BIND_ID => SetBindId,
        CROSSFIRE_MODEL_SELECTION => ModelSelection(values.byte(0)),
        CROSSFIRE_CURRENT_MODEL_SELECTION => CurrentModelSelection,
        CROSSFIRE_REPLY_CURRENT_MODEL_SELECTION => ReplyCurrentModelSelection(values.byte(0)),
        CROSSFIRE_ENABLE_RX_TELEMETRY => EnableRxTelemetry,
        CROSSFIRE_DISABLE_RX_TELEMETRY => DisableRxTelemetry,
        CROSSFIRE_FACTORY_RESET => FactoryReset,
        CROSSFIRE_RESET_TO_FACTORY_FIRMWARE => ResetToFactoryFirmware,
        _ => unreachable!("{HANDED_OUT}: Crossfire has no sub-command {sub:#04X}"),
    }
}

fn of_flow_control(command: &FlowControlCommand) -> Record {
    match command {
        FlowControlCommand::Subscribe {
            frame_type,
            max_interval_time,
        } => {
            let interval = max_interval_time.to_be_bytes();
            let values: [&[u8]; 2] = [&[*frame_type], &interval];
            with(FLOW_CONTROL, FLOW_CONTROL_SUBSCRIBE, &values)
        }
        FlowControlCommand::Unsubscribe { frame_type } => {
            with(FLOW_CONTROL, FLOW_CONTROL_UNSUBSCRIBE, &[&[*frame_type]])
        }
    }
}

fn flow_control(sub: u8, values: Values) -> FlowControlCommand {
    match sub {
        FLOW_CONTROL_SUBSCRIBE => FlowControlCommand::Subscribe {
            frame_type: values.byte(0),
            max_interval_time: values.word(1),
        },
        FLOW_CONTROL_UNSUBSCRIBE => FlowControlCommand::Unsubscribe {
            frame_type: values.byte(0),
        },
        _ => unreachable!("{HANDED_OUT}: flow control has no sub-command {sub:#04X}"),
    }
}

fn of_screen(command: &ScreenCommand) -> Record {
    match command {
        ScreenCommand::PopupMessageStart(popup) => {
            storing(with(SCREEN, SCREEN_POPUP_MESSAGE_START, &[]), &popup.0)
        }
        ScreenCommand::SelectionReturnValue { value, response } => {
            let values = [*value, u8::from(*response)];
            with(SCREEN, SCREEN_SELECTION_RETURN_VALUE, &[&values])
        }
    }
}

fn screen(sub: u8, values: Values, record: &Record) -> ScreenCommand {
    match sub {
        SCREEN_POPUP_MESSAGE_START => {
            ScreenCommand::PopupMessageStart(ScreenPopup(Stored::at(record, RECORD_LENGTH)))
        }
        SCREEN_SELECTION_RETURN_VALUE => ScreenCommand::SelectionReturnValue {
            value: values.byte(0),
            response: values.flag(1),
        },
        _ => unreachable!("{HANDED_OUT}: Screen has no sub-command {sub:#04X}"),
    }
}

fn of_ack(ack: &CommandAck) -> Record {
    let values: [u8; ACK_VALUES_SIZE] = [ack.command_id, ack.sub_command_id, ack.action];
    storing(with(ACK, ACK_NO_SUB_COMMAND, &[&values]), &ack.information)
}

fn ack(values: Values, record: &Record) -> CommandAck {
    CommandAck {
        command_id: values.byte(ACK_COMMAND_ID),
        sub_command_id: values.byte(ACK_SUB_COMMAND_ID),
        action: values.byte(ACK_ACTION),
        information: Stored::at(record, RECORD_LENGTH),
    }
}
