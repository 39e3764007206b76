//! The Rust, as it is built here, on payloads marked in document 01.
use uf_crsf::packets::{CommandPayload, CrsfPacket, DirectCommands, FcCommand, VtxCommand};
use uf_crsf::CrsfParsingError::{InvalidPayload, InvalidPayloadLength};

fn written(command: &DirectCommands) -> Vec<u8> {
    let mut buffer = [0; 64];
    let len = command.to_bytes(&mut buffer).unwrap();
    buffer[..len].to_vec()
}

#[test]
fn m1_is_disarm_and_m2_reads_as_m1() {
    let m1 = [0xC8, 0xEA, 0x01, 0x01, 0xFE];
    let command = DirectCommands::from_bytes(&m1).unwrap();
    assert_eq!((command.dst_addr, command.src_addr), (0xC8, 0xEA));
    assert_eq!(command.payload, CommandPayload::Fc(FcCommand::ForceDisarm));
    assert_eq!(written(&command), m1);
    assert_eq!(
        DirectCommands::from_bytes(&[0xC8, 0xEA, 0x01, 0x01, 0x00, 0xFE]).unwrap(),
        command
    );
}

#[test]
fn m3_is_5800_mhz() {
    let m3 = [0xC8, 0xEA, 0x08, 0x02, 0x16, 0xA8, 0x0E];
    let command = DirectCommands::from_bytes(&m3).unwrap();
    assert_eq!(
        command.payload,
        CommandPayload::Vtx(VtxCommand::SetFrequency(5800))
    );
    assert_eq!(written(&command), m3);
}

#[test]
fn m5_is_refused() {
    assert_eq!(
        DirectCommands::from_bytes(&[0xC8, 0xEA, 0x01, 0x22]),
        Err(InvalidPayloadLength)
    );
    assert_eq!(
        DirectCommands::from_bytes(&[0xC8, 0xEA, 0x02, 0x56]),
        Err(InvalidPayload)
    );
}
