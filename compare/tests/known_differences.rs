//! Where ours and the Rust differ, each shown to be that difference and no more (docs/DIFFERENCES.md, document 01).
use compare::both::LENT;
use compare::cases::{payload, record};
use compare::every::ADDRESSES;
use compare::fields::{
    self, ADDITIONAL, CLOSE, HAS_POSSIBLE_VALUES, HEADER, INFO, LABEL, POPUP_SIZE, POSSIBLE_VALUES,
    TEXT_SIZE, UNIT,
};
use compare::image::{self, KINDS, STORED, STORED_LEN};
use compare::ours::OURS;
use compare::random::Random;
use compare::theirs::{number, payload_check, RUST};
use uf_crsf::packets::{
    BluetoothCommand, CommandPayload, CrsfPacket, DirectCommands, RcOverWifiCommand,
};

const BLUETOOTH: u8 = 0x03;
const RC_OVER_WIFI: u8 = 0x13;

/// What the Rust reads of a body of the two families that are left behind.
fn left_behind(id: u8, body: &[u8]) -> Result<CommandPayload, u8> {
    let bluetooth = CommandPayload::Bluetooth;
    let rc_over_wifi = CommandPayload::RcOverWifi;
    match (id, body) {
        (_, []) => Err(1),
        (BLUETOOTH, [0x01, ..]) => Ok(bluetooth(BluetoothCommand::Reset)),
        (BLUETOOTH, [0x02]) => Err(1),
        (BLUETOOTH, [0x02, 0, ..]) => Ok(bluetooth(BluetoothCommand::Enable(false))),
        (BLUETOOTH, [0x02, 1, ..]) => Ok(bluetooth(BluetoothCommand::Enable(true))),
        (BLUETOOTH, [0x64, ..]) => Ok(bluetooth(BluetoothCommand::Echo)),
        (RC_OVER_WIFI, [0x01, ..]) => Ok(rc_over_wifi(RcOverWifiCommand::Enable)),
        (RC_OVER_WIFI, [0x02, ..]) => Ok(rc_over_wifi(RcOverWifiCommand::Disable)),
        _ => Err(2),
    }
}

fn bodies() -> impl Iterator<Item = Vec<u8>> {
    let short = (0..=255).flat_map(|a| (0..=255).map(move |b| vec![a, b]));
    let ones = (0..=255).map(|a| vec![a]);
    let long = (0..=56).map(|len| vec![0x01; len]);
    short.chain(ones).chain(long)
}

/// "Id 0x03 or 0x13: 4": the Rust has these two families, and reads or refuses their bodies.
#[test]
fn two_families_are_left_behind() {
    for id in [BLUETOOTH, RC_OVER_WIFI] {
        for body in bodies() {
            let payload = payload(ADDRESSES, id, &body);
            let theirs = DirectCommands::from_bytes(&payload);
            assert_eq!(
                theirs.map(|command| command.payload).map_err(number),
                left_behind(id, &body),
                "{payload:02X?}"
            );
            let mut lent = [LENT; 70];
            assert_eq!((OURS.read)(&payload, &mut lent), 4, "{payload:02X?}");
            assert_eq!((OURS.again)(&payload, &mut lent), 4, "{payload:02X?}");
            assert_eq!(lent, [LENT; 70]);
        }
    }
}

/// Length and check come first: there the two families make no difference.
#[test]
fn a_family_left_behind_with_another_length_or_check_is_as_in_the_rust() {
    for id in [BLUETOOTH, RC_OVER_WIFI] {
        for len in 0..=64 {
            let body = vec![0x01; len];
            let mut payload = payload(ADDRESSES, id, &body);
            let right = payload.len() - 1;
            payload[right] ^= 0x10;
            for payload in [&payload[..], &payload[..payload.len().min(3)]] {
                let theirs = DirectCommands::from_bytes(payload).map_err(number);
                let expected = if (4..=60).contains(&payload.len()) {
                    2
                } else {
                    1
                };
                assert_eq!(theirs, Err(expected));
                let ours = (OURS.read)(payload, &mut [0; 70]);
                assert_eq!(ours, u32::from(expected), "{payload:02X?}");
            }
        }
    }
}

/// No difference, though one might look for it here: "The largest length is 60" in both.
#[test]
fn above_60_bytes_both_refuse() {
    for len in [61, 62, 64, 255, 1000] {
        let mut payload = vec![0x01; len - 1];
        payload[2] = image::FC;
        payload.push(payload_check(&payload));
        let theirs = DirectCommands::from_bytes(&payload).map_err(number);
        assert_eq!(theirs, Err(1));
        assert_eq!((OURS.read)(&payload, &mut [0; 70]), 1, "{len}");
    }
}

/// "The Rust leaves a partly written buffer after a refused write": of the payload a beginning, with destination, source and id at the
/// least wherever there are four bytes. Ours leaves every byte.
#[test]
fn a_refused_write_leaves_the_buffer() {
    let mut random = Random(1);
    let mut longest = 0;
    for kind in KINDS.into_iter().cycle().take(30 * KINDS.len()) {
        let image = record(&mut random, kind);
        let command = image::command(&image).unwrap();
        let mut whole = [0; 60];
        let in_range = command.to_bytes(&mut whole).is_ok();
        for room in 0..=60 {
            let mut ours = vec![LENT; room];
            let mut theirs = ours.clone();
            let Err(error) = command.to_bytes(&mut theirs) else {
                continue;
            };
            let word = (OURS.write)(&image, &mut ours);
            assert_eq!(word, u32::from(number(error)), "{image:02X?} {room}");
            assert_eq!(ours, vec![LENT; room], "{image:02X?} {room}");
            if room < 4 {
                assert_eq!(theirs, ours);
                continue;
            }
            assert_eq!(theirs[..3], image[..3]);
            // out of range there is no payload to hold it to
            if in_range {
                let written = theirs
                    .iter()
                    .zip(whole)
                    .take_while(|(a, b)| *a == b)
                    .count();
                assert!(theirs[written..].iter().all(|byte| *byte == LENT));
                longest = longest.max(written);
            }
        }
    }
    assert!(longest > 3, "none of the Rust's bodies was begun");
}

fn stored(id: u8, sub: u8, bytes: &[u8]) -> image::Image {
    image::with(id, sub, &[], bytes)
}

/// Images of no record, and records that no constructor makes: 5 with any buffer. The Rust's types hold none of them.
#[test]
fn a_record_that_is_not_made_is_5() {
    let popup = b"Header\0Info\0\x1E\x01";
    let mut wrong = vec![
        ("an unknown id", stored(0x02, 0x01, &[])),
        ("a family left behind", stored(BLUETOOTH, 0x01, &[])),
        ("a family left behind", stored(RC_OVER_WIFI, 0x01, &[])),
        ("an unknown sub-command", stored(image::FC, 0x03, &[])),
        ("an ACK's sub-command", stored(image::ACK, 0x01, &[])),
        (
            "a flag of 2",
            image::with(image::GENERAL, 0x71, &[&[7, 2]], &[]),
        ),
        (
            "a flag of 2",
            image::with(image::SCREEN, 0x02, &[&[7, 2]], &[]),
        ),
        (
            "a pit mode of 2",
            image::with(image::VTX, 0x04, &[&[2, 0, 0]], &[]),
        ),
        ("disarm that stores a byte", stored(image::FC, 0x01, b"x")),
        (
            "a returned value that stores a popup",
            stored(image::SCREEN, 0x02, popup),
        ),
        (
            "a zero in the information",
            stored(image::ACK, 0, b"in\0fo"),
        ),
        (
            "53 bytes of information",
            stored(image::ACK, 0, &[b'i'; 53]),
        ),
        ("an empty popup", stored(image::SCREEN, 0x01, b"")),
        (
            "a popup cut short",
            stored(image::SCREEN, 0x01, &popup[..13]),
        ),
        (
            "a header of 52 bytes",
            stored(image::SCREEN, 0x01, &[&[b'h'; 52][..], &[0, 0, 1]].concat()),
        ),
        (
            "a popup's flag of 2",
            stored(image::SCREEN, 0x01, b"Header\0Info\0\x1E\x02"),
        ),
        (
            "an item behind the last",
            stored(image::SCREEN, 0x01, b"H\0I\0\x1E\x01\0V\0x"),
        ),
    ];
    let mut unused = stored(image::ACK, 0, b"info");
    unused[69] = 1;
    wrong.push(("an unused byte behind the information", unused));
    let mut unused = stored(image::SCREEN, 0x01, popup);
    unused[69] = 1;
    wrong.push(("an unused byte behind the popup", unused));
    let mut long = stored(image::ACK, 0, b"info");
    long[STORED_LEN] = 56;
    wrong.push(("a stored length beyond the image", long));
    for (id, sub, len) in KINDS {
        if len < 10 {
            let mut behind = stored(
                id,
                sub,
                if (id, sub) == (image::SCREEN, 1) {
                    popup
                } else {
                    b""
                },
            );
            behind[4 + len] = 1;
            wrong.push(("a byte behind the values", behind));
        }
        if id != image::ACK && (id, sub) != (image::SCREEN, 0x01) {
            let mut unused = stored(id, sub, b"");
            unused[STORED] = 1;
            wrong.push(("a byte stored by a command that stores none", unused));
        }
    }
    for (what, image) in wrong {
        assert_eq!(image::command(&image), None, "{what}");
        for room in [0, 3, 4, 60] {
            let mut lent = vec![LENT; room];
            assert_eq!((OURS.write)(&image, &mut lent), 5, "{what}: {image:02X?}");
            assert_eq!(lent, vec![LENT; room], "{what}");
        }
    }
    for len in (0..100).filter(|len| *len != image::SIZE) {
        let image = [&stored(image::FC, 0x01, &[])[..], &[0; 30]].concat();
        assert_eq!((OURS.write)(&image[..len], &mut [0; 60]), 5, "{len} bytes");
    }
}

/// Images of fields whose present texts, flags or kind are not made, and popups that no fields give: 5.
#[test]
fn fields_and_popups_that_are_not_made_are_5() {
    let mut blank = [0; fields::SIZE];
    assert_eq!((OURS.popup)(&blank, &mut [0; POPUP_SIZE]), 0);
    let of_kind = |kind: u8| {
        let mut fields = blank;
        fields[ADDITIONAL] = kind;
        fields[LABEL..LABEL + 2].copy_from_slice(&[1, b'l']);
        fields
    };
    let selection = of_kind(2);
    assert_eq!((OURS.popup)(&selection, &mut [0; POPUP_SIZE]), 0);
    let with = |place: usize, byte: u8| {
        let mut fields = selection;
        fields[place] = byte;
        fields
    };
    let mut wrong = vec![of_kind(3), with(CLOSE, 2), with(HAS_POSSIBLE_VALUES, 2)];
    let has_values = with(HAS_POSSIBLE_VALUES, 1);
    for text in [HEADER, INFO, LABEL, UNIT, POSSIBLE_VALUES] {
        // a length beyond the text, a length with zeros in it, a byte behind the text
        for (place, byte) in [(0, 52), (0, 3), (TEXT_SIZE - 1, b'x')] {
            let mut fields = has_values;
            fields[text + place] = byte;
            wrong.push(fields);
        }
    }
    for fields in wrong {
        let mut lent = [LENT; POPUP_SIZE];
        assert_eq!((OURS.popup)(&fields, &mut lent), 5, "{fields:02X?}");
        assert_eq!(lent, [LENT; POPUP_SIZE]);
        assert_eq!((RUST.popup)(&fields, &mut lent), 5, "{fields:02X?}");
    }
    // absent items are not looked at
    blank[LABEL..HAS_POSSIBLE_VALUES].fill(0xFF);
    blank[POSSIBLE_VALUES..].fill(0xFF);
    assert_eq!((OURS.popup)(&blank, &mut [0; POPUP_SIZE]), 0);

    let popups: [&[u8]; 5] = [
        b"",
        b"H\0I\0\x1E",
        b"H\0I\0\x1E\x02",
        b"H\0I\0\x1E\x01L\0",
        b"H\0I\0\x1E\x01\0V\0x",
    ];
    for bytes in popups {
        let mut popup = [0; POPUP_SIZE];
        fields::put_stored(&mut popup, bytes);
        let mut lent = [LENT; fields::SIZE];
        assert_eq!((OURS.popup_fields)(&popup, &mut lent), 5, "{bytes:02X?}");
        assert_eq!(lent, [LENT; fields::SIZE]);
    }
}
