//! A command as the C boundary's record image, and the Rust's command of an image.
use uf_crsf::packets::{
    CommandAck, CommandPayload, CrossfireCommand, CrsfPacket, DirectCommands, FcCommand,
    FlowControlCommand, GeneralCommand, LedColor, LedCommand, OsdCommand, ScreenCommand,
    ScreenPopup, VtxCommand,
};

pub const FC: u8 = 0x01;
pub const OSD: u8 = 0x05;
pub const VTX: u8 = 0x08;
pub const LED: u8 = 0x09;
pub const GENERAL: u8 = 0x0A;
pub const CROSSFIRE: u8 = 0x10;
pub const FLOW_CONTROL: u8 = 0x20;
pub const SCREEN: u8 = 0x22;
pub const ACK: u8 = 0xFF;

/// The nine families.
pub const FAMILIES: [u8; 9] = [
    FC,
    OSD,
    VTX,
    LED,
    GENERAL,
    CROSSFIRE,
    FLOW_CONTROL,
    SCREEN,
    ACK,
];

/// Every kind of command: its id, its sub-command, and how many bytes of values its image holds.
pub const KINDS: [(u8, u8, usize); 30] = [
    (FC, 0x01, 0),
    (FC, 0x02, 0),
    (OSD, 0x01, 1),
    (VTX, 0x02, 2),
    (VTX, 0x04, 3),
    (VTX, 0x05, 0),
    (VTX, 0x06, 1),
    (VTX, 0x08, 1),
    (LED, 0x01, 0),
    (LED, 0x02, 4),
    (LED, 0x03, 10),
    (LED, 0x04, 10),
    (LED, 0x05, 6),
    (GENERAL, 0x70, 5),
    (GENERAL, 0x71, 2),
    (CROSSFIRE, 0x01, 0),
    (CROSSFIRE, 0x02, 0),
    (CROSSFIRE, 0x03, 0),
    (CROSSFIRE, 0x05, 1),
    (CROSSFIRE, 0x06, 0),
    (CROSSFIRE, 0x07, 1),
    (CROSSFIRE, 0x0A, 0),
    (CROSSFIRE, 0x0B, 0),
    (CROSSFIRE, 0x0C, 0),
    (CROSSFIRE, 0x0D, 0),
    (FLOW_CONTROL, 0x01, 3),
    (FLOW_CONTROL, 0x02, 1),
    (SCREEN, 0x01, 0),
    (SCREEN, 0x02, 2),
    (ACK, 0x00, 3),
];

pub const SIZE: usize = 70;
pub const VALUES: usize = 4;
pub const STORED_LEN: usize = 14;
pub const STORED: usize = 15;

pub type Image = [u8; SIZE];

/// The image with these values and stored bytes, both addresses 0.
pub fn with(id: u8, sub: u8, values: &[&[u8]], stored: &[u8]) -> Image {
    let mut image = [0; SIZE];
    image[2] = id;
    image[3] = sub;
    let mut at = VALUES;
    for value in values {
        image[at..at + value.len()].copy_from_slice(value);
        at += value.len();
    }
    image[STORED_LEN] = stored.len() as u8;
    image[STORED..STORED + stored.len()].copy_from_slice(stored);
    image
}

/// Hue, saturation and value as an image holds them.
pub fn color_in_image((hue, saturation, value): (u16, u8, u8)) -> [u8; 4] {
    let [high, low] = hue.to_be_bytes();
    [high, low, saturation, value]
}

fn fc(command: &FcCommand) -> Image {
    match command {
        FcCommand::ForceDisarm => with(FC, 0x01, &[], &[]),
        FcCommand::ScaleChannel => with(FC, 0x02, &[], &[]),
    }
}

fn vtx(command: &VtxCommand) -> Image {
    match command {
        VtxCommand::SetFrequency(frequency) => with(VTX, 0x02, &[&frequency.to_be_bytes()], &[]),
        VtxCommand::EnablePitModeOnPowerUp {
            pit_mode,
            pit_mode_control,
            pit_mode_switch,
        } => {
            let values = [u8::from(*pit_mode), *pit_mode_control, *pit_mode_switch];
            with(VTX, 0x04, &[&values], &[])
        }
        VtxCommand::PowerUpFromPitMode => with(VTX, 0x05, &[], &[]),
        VtxCommand::SetDynamicPower(power) => with(VTX, 0x06, &[&[*power]], &[]),
        VtxCommand::SetPower(power) => with(VTX, 0x08, &[&[*power]], &[]),
    }
}

fn led(command: &LedCommand) -> Image {
    let bytes = |color: &LedColor| color_in_image((color.hue, color.saturation, color.value));
    let timed = |sub: u8, time: &u16, colors: &[&LedColor]| {
        let mut values = [0; 10];
        values[..2].copy_from_slice(&time.to_be_bytes());
        for (place, color) in values[2..].chunks_exact_mut(4).zip(colors) {
            place.copy_from_slice(&bytes(color));
        }
        with(LED, sub, &[&values], &[])
    };
    match command {
        LedCommand::SetDefault => with(LED, 0x01, &[], &[]),
        LedCommand::OverrideColor(color) => with(LED, 0x02, &[&bytes(color)], &[]),
        LedCommand::OverridePulse {
            duration_ms,
            start,
            stop,
        } => timed(0x03, duration_ms, &[start, stop]),
        LedCommand::OverrideBlink {
            interval_ms,
            start,
            stop,
        } => timed(0x04, interval_ms, &[start, stop]),
        LedCommand::OverrideShift { interval_ms, color } => timed(0x05, interval_ms, &[color]),
    }
}

fn general(command: &GeneralCommand) -> Image {
    match command {
        GeneralCommand::SpeedProposal {
            port_id,
            proposed_baudrate,
        } => {
            let baud = proposed_baudrate.to_be_bytes();
            with(GENERAL, 0x70, &[&[*port_id], &baud], &[])
        }
        GeneralCommand::SpeedProposalResponse { port_id, accepted } => {
            with(GENERAL, 0x71, &[&[*port_id, u8::from(*accepted)]], &[])
        }
    }
}

fn crossfire(command: &CrossfireCommand) -> Image {
    use CrossfireCommand::*;
    let (sub, model) = match command {
        SetReceiverInBindMode => (0x01, None),
        CancelBindMode => (0x02, None),
        SetBindId => (0x03, None),
        ModelSelection(model) => (0x05, Some(*model)),
        CurrentModelSelection => (0x06, None),
        ReplyCurrentModelSelection(model) => (0x07, Some(*model)),
        EnableRxTelemetry => (0x0A, None),
        DisableRxTelemetry => (0x0B, None),
        FactoryReset => (0x0C, None),
        ResetToFactoryFirmware => (0x0D, None),
    };
    with(CROSSFIRE, sub, &[model.as_slice()], &[])
}

fn flow_control(command: &FlowControlCommand) -> Image {
    match command {
        FlowControlCommand::Subscribe {
            frame_type,
            max_interval_time,
        } => {
            let interval = max_interval_time.to_be_bytes();
            with(FLOW_CONTROL, 0x01, &[&[*frame_type], &interval], &[])
        }
        FlowControlCommand::Unsubscribe { frame_type } => {
            with(FLOW_CONTROL, 0x02, &[&[*frame_type]], &[])
        }
    }
}

fn screen(command: &ScreenCommand) -> Image {
    match command {
        ScreenCommand::PopupMessageStart(popup) => with(SCREEN, 0x01, &[], &popup_bytes(popup)),
        ScreenCommand::SelectionReturnValue { value, response } => {
            with(SCREEN, 0x02, &[&[*value, u8::from(*response)]], &[])
        }
    }
}

fn ack(ack: &CommandAck) -> Image {
    let values = [ack.command_id, ack.sub_command_id, ack.action];
    with(ACK, 0x00, &[&values], ack.information())
}

/// The bytes that a popup stores, which it shows only when it is written: between sub-command and check.
pub fn popup_bytes(popup: &ScreenPopup) -> Vec<u8> {
    let command = DirectCommands {
        dst_addr: 0,
        src_addr: 0,
        payload: CommandPayload::Screen(ScreenCommand::PopupMessageStart(popup.clone())),
    };
    let mut payload = [0; 60];
    let count = command.to_bytes(&mut payload).unwrap();
    payload[4..count - 1].to_vec()
}

/// The popup that stores these bytes, if they are what the constructor gives: then reading them gives it back.
pub fn popup(stored: &[u8]) -> Option<ScreenPopup> {
    match ScreenCommand::try_from([&[0x01], stored].concat().as_slice()) {
        Ok(ScreenCommand::PopupMessageStart(popup)) if popup_bytes(&popup) == stored => Some(popup),
        _ => None,
    }
}

/// The image of a command; None of the two families that are left behind.
pub fn of(command: &DirectCommands) -> Option<Image> {
    let mut image = match &command.payload {
        CommandPayload::Fc(command) => fc(command),
        CommandPayload::Osd(OsdCommand::SendButtons(buttons)) => {
            with(OSD, 0x01, &[&[*buttons]], &[])
        }
        CommandPayload::Vtx(command) => vtx(command),
        CommandPayload::Led(command) => led(command),
        CommandPayload::General(command) => general(command),
        CommandPayload::Crossfire(command) => crossfire(command),
        CommandPayload::FlowControl(command) => flow_control(command),
        CommandPayload::Screen(command) => screen(command),
        CommandPayload::Ack(command) => ack(command),
        CommandPayload::Bluetooth(_) | CommandPayload::RcOverWifi(_) => return None,
    };
    image[0] = command.dst_addr;
    image[1] = command.src_addr;
    Some(image)
}

/// What an image holds, if it is one of a kind, with zeros behind its values and behind its stored bytes.
struct Parts<'a> {
    values: &'a [u8],
    stored: &'a [u8],
}

impl<'a> Parts<'a> {
    fn of(image: &'a [u8]) -> Option<Self> {
        if image.len() != SIZE {
            return None;
        }
        let (_, _, len) = *KINDS
            .iter()
            .find(|(id, sub, _)| (*id, *sub) == (image[2], image[3]))?;
        let (values, behind) = image[VALUES..STORED_LEN].split_at(len);
        let (stored, unused) = image[STORED..].split_at_checked(image[STORED_LEN].into())?;
        let zeros = behind.iter().chain(unused).all(|byte| *byte == 0);
        zeros.then_some(Parts { values, stored })
    }

    fn flag(&self, at: usize) -> Option<bool> {
        match self.values[at] {
            0 => Some(false),
            1 => Some(true),
            _ => None,
        }
    }

    fn word(&self, at: usize) -> u16 {
        u16::from_be_bytes([self.values[at], self.values[at + 1]])
    }

    fn color(&self, at: usize) -> LedColor {
        LedColor {
            hue: self.word(at),
            saturation: self.values[at + 2],
            value: self.values[at + 3],
        }
    }
}

/// The Rust's command of an image; None where it can hold no such command.
pub fn command(image: &[u8]) -> Option<DirectCommands> {
    let parts = Parts::of(image)?;
    let Parts { values: v, stored } = parts;
    let (id, sub) = (image[2], image[3]);
    if !stored.is_empty() && (id, sub) != (SCREEN, 0x01) && id != ACK {
        return None;
    }
    let payload = match (id, sub) {
        (FC, 0x01) => CommandPayload::Fc(FcCommand::ForceDisarm),
        (FC, 0x02) => CommandPayload::Fc(FcCommand::ScaleChannel),
        (OSD, 0x01) => CommandPayload::Osd(OsdCommand::SendButtons(v[0])),
        (VTX, sub) => CommandPayload::Vtx(match sub {
            0x02 => VtxCommand::SetFrequency(parts.word(0)),
            0x04 => VtxCommand::EnablePitModeOnPowerUp {
                pit_mode: parts.flag(0)?,
                pit_mode_control: v[1],
                pit_mode_switch: v[2],
            },
            0x05 => VtxCommand::PowerUpFromPitMode,
            0x06 => VtxCommand::SetDynamicPower(v[0]),
            0x08 => VtxCommand::SetPower(v[0]),
            _ => return None,
        }),
        (LED, sub) => CommandPayload::Led(match sub {
            0x01 => LedCommand::SetDefault,
            0x02 => LedCommand::OverrideColor(parts.color(0)),
            0x03 => LedCommand::OverridePulse {
                duration_ms: parts.word(0),
                start: parts.color(2),
                stop: parts.color(6),
            },
            0x04 => LedCommand::OverrideBlink {
                interval_ms: parts.word(0),
                start: parts.color(2),
                stop: parts.color(6),
            },
            0x05 => LedCommand::OverrideShift {
                interval_ms: parts.word(0),
                color: parts.color(2),
            },
            _ => return None,
        }),
        (GENERAL, 0x70) => CommandPayload::General(GeneralCommand::SpeedProposal {
            port_id: v[0],
            proposed_baudrate: u32::from_be_bytes([v[1], v[2], v[3], v[4]]),
        }),
        (GENERAL, 0x71) => CommandPayload::General(GeneralCommand::SpeedProposalResponse {
            port_id: v[0],
            accepted: parts.flag(1)?,
        }),
        (CROSSFIRE, sub) => CommandPayload::Crossfire(match sub {
            0x01 => CrossfireCommand::SetReceiverInBindMode,
            0x02 => CrossfireCommand::CancelBindMode,
            0x03 => CrossfireCommand::SetBindId,
            0x05 => CrossfireCommand::ModelSelection(v[0]),
            0x06 => CrossfireCommand::CurrentModelSelection,
            0x07 => CrossfireCommand::ReplyCurrentModelSelection(v[0]),
            0x0A => CrossfireCommand::EnableRxTelemetry,
            0x0B => CrossfireCommand::DisableRxTelemetry,
            0x0C => CrossfireCommand::FactoryReset,
            0x0D => CrossfireCommand::ResetToFactoryFirmware,
            _ => return None,
        }),
        (FLOW_CONTROL, 0x01) => CommandPayload::FlowControl(FlowControlCommand::Subscribe {
            frame_type: v[0],
            max_interval_time: parts.word(1),
        }),
        (FLOW_CONTROL, 0x02) => {
            CommandPayload::FlowControl(FlowControlCommand::Unsubscribe { frame_type: v[0] })
        }
        (SCREEN, 0x01) => CommandPayload::Screen(ScreenCommand::PopupMessageStart(popup(stored)?)),
        (SCREEN, 0x02) => CommandPayload::Screen(ScreenCommand::SelectionReturnValue {
            value: v[0],
            response: parts.flag(1)?,
        }),
        (ACK, 0x00) => {
            // the action is outside what makes an ACK made, and its field is public
            let mut ack = CommandAck::new(v[0], v[1], 0, stored).ok()?;
            ack.action = v[2];
            CommandPayload::Ack(ack)
        }
        _ => return None,
    };
    Some(DirectCommands {
        dst_addr: image[0],
        src_addr: image[1],
        payload,
    })
}
