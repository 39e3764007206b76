//! What crsf_replay prints of logs that are worked out by hand from document 02.
use compare::replay_text::replay_text;

/// The check by document 02's polynomial, bit for bit.
fn check(bytes: &[u8]) -> u8 {
    let step = |value: u8, _| (value << 1) ^ ((value >> 7) * 0xBA);
    let byte = |value, byte: &u8| (0..8).fold(value ^ byte, step);
    bytes.iter().fold(0, byte)
}

fn block(number: u32, records: &[u8]) -> Vec<u8> {
    let used = records.len() as u16;
    let mut block = [&number.to_be_bytes()[..], &used.to_be_bytes(), records].concat();
    block.resize(511, 0);
    block.push(check(&block));
    block
}

#[test]
fn no_block_and_no_record() {
    assert_eq!(replay_text(&[]), "end 0\n");
    assert_eq!(replay_text(&[0; 512]), "end 1\n");
    // 0 behind 0
    assert_eq!(replay_text(&[0; 1024]), "back 0\nend 2\n");
    assert_eq!(replay_text(&[0; 511]), "damaged 0 1\nend 1\n");
    assert_eq!(replay_text(&[0; 513]), "damaged 1 1\nend 2\n");
}

/// M1; M2, of which five bytes are written; M1 with a wrong check; M3. Then a damaged block, two ahead, far back, the highest number, and
/// three bytes more.
#[test]
fn every_line() {
    let m1 = b"\x05\xC8\xEA\x01\x01\xFE";
    let m2 = b"\x06\xC8\xEA\x01\x01\x00\xFE";
    let wrong_check = b"\x05\xC8\xEA\x01\x01\x23";
    let m3 = b"\x07\xC8\xEA\x08\x02\x16\xA8\x0E";
    let left_behind = b"\x04\xC8\xEA\x03\xEC";
    let first = block(10, &[&m1[..], m2, wrong_check, m3].concat());
    let mut damaged = block(11, m1);
    damaged[511] ^= 0x80;
    let log = [
        first,
        damaged,
        block(12, left_behind),
        block(3, &[]),
        block(u32::MAX, m3),
        vec![0; 3],
    ]
    .concat();
    let lines = "10 6 read 01 5\n\
                 10 12 read 01 5\n\
                 10 19 refused 2 0\n\
                 10 25 read 08 7\n\
                 damaged 1 9\n\
                 gap 12\n\
                 12 6 refused 4 0\n\
                 back 3\n\
                 gap 4294967295\n\
                 4294967295 6 read 08 7\n\
                 damaged 5 1\n\
                 end 6\n";
    assert_eq!(replay_text(&log), lines);
}

/// A length byte, the payload and its check, which has the 0x32 in front.
fn record(payload: &[u8]) -> Vec<u8> {
    let check = check(&[&[0x32], payload].concat());
    [&[payload.len() as u8 + 1], payload, &[check]].concat()
}

/// In upper case: a speed proposal's response, and an ACK without information.
#[test]
fn the_id_is_two_hexadecimal_digits() {
    let response = record(&[0xC8, 0xEA, 0x0A, 0x71, 0x01, 0x01]);
    let ack = record(&[0xC8, 0xEA, 0xFF, 0x08, 0x02, 0x01, 0x00]);
    let log = block(0, &[response, ack].concat());
    assert_eq!(replay_text(&log), "0 6 read 0A 7\n0 14 read FF 8\nend 1\n");
}
