//! Logs worked out by hand from document 02, by either side. M1, M3 and the payloads of M5 are document 01's.
use compare::both::LENT;
use compare::ours::OURS;
use compare::side::Side;
use compare::theirs::RUST;

const M1: &[u8] = &[0x05, 0xC8, 0xEA, 0x01, 0x01, 0xFE];
const M3: &[u8] = &[0x07, 0xC8, 0xEA, 0x08, 0x02, 0x16, 0xA8, 0x0E];
/// M1 with a check that is wrong, though it leaves a residue of 0.
const WRONG_CHECK: &[u8] = &[0x05, 0xC8, 0xEA, 0x01, 0x01, 0x23];
/// M5's: no body, an unknown family, a family left behind.
const NO_BODY: &[u8] = &[0x04, 0xC8, 0xEA, 0x01, 0x22];
const UNKNOWN: &[u8] = &[0x04, 0xC8, 0xEA, 0x02, 0x56];
const LEFT_BEHIND: &[u8] = &[0x04, 0xC8, 0xEA, 0x03, 0xEC];

const NOTHING: u8 = 0;
const COMMAND: u8 = 1;
const REFUSED: u8 = 2;
const DAMAGED: u8 = 3;
const GAP: u8 = 4;
const STEP_BACK: u8 = 5;

/// The remainder by x^8+x^7+x^5+x^4+x^3+x, bit for bit.
fn check(bytes: &[u8]) -> u8 {
    let step = |value: u8, _| (value << 1) ^ ((value >> 7) * 0xBA);
    let byte = |value, byte: &u8| (0..8).fold(value ^ byte, step);
    bytes.iter().fold(0, byte)
}

/// "block number (4), used bytes (2, at most 505), records, zeros, and in the last byte a check of the other 511".
fn block_of(number: u32, used: u16, records: &[u8]) -> Vec<u8> {
    let mut block = [&number.to_be_bytes()[..], &used.to_be_bytes(), records].concat();
    block.resize(511, 0);
    block.push(check(&block));
    block
}

fn block(number: u32, records: &[&[u8]]) -> Vec<u8> {
    let records = records.concat();
    block_of(number, records.len() as u16, &records)
}

fn with_wrong_check(mut block: Vec<u8>) -> Vec<u8> {
    block[511] ^= 0x01;
    block
}

/// Kind, more, block or position, place, number.
type Told = (u8, bool, u32, u16, u8);

fn told(event: &[u8; 80]) -> Told {
    assert!(event[1] < 2 && event[9] == 0, "{event:02X?}");
    let block = u32::from_be_bytes([event[2], event[3], event[4], event[5]]);
    let place = u16::from_be_bytes([event[6], event[7]]);
    (event[0], event[1] == 1, block, place, event[8])
}

/// The events of a log, its blocks at positions from 100.
fn events(side: &Side, log: &[Vec<u8>]) -> Vec<Told> {
    let mut state = [0; 7];
    let mut events = Vec::new();
    for (position, block) in (100..).zip(log) {
        loop {
            let mut event = [LENT; 80];
            assert_eq!((side.replay)(&mut state, position, block, &mut event), 0);
            events.push(told(&event));
            if event[1] == 0 {
                break;
            }
        }
    }
    events
}

fn tells(log: &[Vec<u8>], expected: &[Told]) {
    for side in [OURS, RUST] {
        assert_eq!(events(&side, log), expected);
    }
}

/// Empty blocks with these numbers; None is one of which the check is wrong, numbered as the next would be.
fn numbered(numbers: &[Option<u32>]) -> Vec<Vec<u8>> {
    let mut last = 0;
    let each = numbers.iter().map(|number| match number {
        Some(number) => {
            last = *number;
            block(*number, &[])
        }
        None => with_wrong_check(block(last + 1, &[])),
    });
    each.collect()
}

/// What is told of an empty block of which nothing is reported.
fn in_order(number: u32) -> Told {
    (NOTHING, false, number, 0, 0)
}

#[test]
fn zeros_are_a_sound_block_number_0() {
    tells(&[vec![0; 512]], &[(NOTHING, false, 0, 0, 0)]);
    for side in [OURS, RUST] {
        let (mut state, mut event) = ([0; 7], [LENT; 82]);
        assert_eq!((side.replay)(&mut state, 9, &[0; 512], &mut event), 0);
        assert_eq!(state, [1, 0, 0, 0, 0, 0, 0]);
        // the blank record: disarm with both addresses 0
        let mut expected = [0; 82];
        expected[12..14].copy_from_slice(&[0x01, 0x01]);
        expected[80..].copy_from_slice(&[LENT; 2]);
        assert_eq!(event, expected);
    }
}

#[test]
fn a_command_has_its_block_its_place_and_its_record() {
    for side in [OURS, RUST] {
        let (mut state, mut event) = ([0; 7], [LENT; 80]);
        let block = block(0x0102_0305, &[M1, M3]);
        assert_eq!((side.replay)(&mut state, 9, &block, &mut event), 0);
        assert_eq!(event[..10], [1, 1, 1, 2, 3, 5, 0, 6, 0, 0]);
        assert_eq!(event[10..14], [0xC8, 0xEA, 0x01, 0x01]);
        assert_eq!(event[14..], [0; 66]);
        assert_eq!(state, [1, 1, 2, 3, 5, 0, 12]);
        assert_eq!((side.replay)(&mut state, 9, &block, &mut event), 0);
        assert_eq!(event[..10], [1, 0, 1, 2, 3, 5, 0, 12, 0, 0]);
        assert_eq!(event[10..16], [0xC8, 0xEA, 0x08, 0x02, 0x16, 0xA8]);
        assert_eq!(event[16..], [0; 64]);
        assert_eq!(state, [1, 1, 2, 3, 5, 0, 0]);
    }
}

/// The polynomial has the factor x, so that DD alone leaves the residue 0; the right check of zeros is 0.
#[test]
fn a_residue_of_0_is_no_right_check() {
    let mut block = vec![0; 512];
    block[511] = 0xDD;
    assert_eq!(check(&block), 0);
    tells(&[block], &[(DAMAGED, false, 100, 0, 9)]);
}

/// A last 1 of the message, times x^8, leaves the polynomial's lower terms, BA. With the 0x32 in front it would be another check.
#[test]
fn the_check_is_of_the_other_511_bytes_alone() {
    let mut zeros_but_one = vec![0; 512];
    zeros_but_one[510] = 0x01;
    zeros_but_one[511] = 0xBA;
    tells(&[zeros_but_one.clone()], &[(DAMAGED, false, 100, 0, 10)]);
    zeros_but_one[511] = 0xBB;
    tells(&[zeros_but_one], &[(DAMAGED, false, 100, 0, 9)]);
    let mut with_type = block(5, &[M1]);
    with_type[511] = check(&[&[0x32], &with_type[..511]].concat());
    assert_ne!(with_type, block(5, &[M1]));
    tells(&[with_type], &[(DAMAGED, false, 100, 0, 9)]);
}

/// "5, damaged, 7: gap; 5, damaged, 6: nothing; 5, 3, 4: only 3 steps back; an equal number is a step back; FFFFFFFF then 0 is a step
/// back".
#[test]
fn gap_and_step_back_are_against_the_last_sound_block() {
    let gap = |number| (GAP, false, number, 0, 0);
    let back = |number| (STEP_BACK, false, number, 0, 0);
    let damaged = |position| (DAMAGED, false, position, 0, 9);
    let cases: [(&[Option<u32>], &[Told]); 9] = [
        (
            &[Some(5), None, Some(7)],
            &[in_order(5), damaged(101), gap(7)],
        ),
        (
            &[Some(5), None, Some(6)],
            &[in_order(5), damaged(101), in_order(6)],
        ),
        (
            &[Some(5), Some(3), Some(4)],
            &[in_order(5), back(3), in_order(4)],
        ),
        (&[Some(5), Some(5)], &[in_order(5), back(5)]),
        (&[Some(u32::MAX), Some(0)], &[in_order(u32::MAX), back(0)]),
        (
            &[Some(u32::MAX - 1), Some(u32::MAX)],
            &[in_order(u32::MAX - 1), in_order(u32::MAX)],
        ),
        (&[Some(0), Some(u32::MAX)], &[in_order(0), gap(u32::MAX)]),
        // the first sound block is not reported, whatever its number
        (&[None, Some(9)], &[damaged(100), in_order(9)]),
        // after a gap the next one is counted from there
        (
            &[Some(5), Some(7), Some(8)],
            &[in_order(5), gap(7), in_order(8)],
        ),
    ];
    for (numbers, expected) in cases {
        tells(&numbered(numbers), expected);
    }
}

#[test]
fn a_report_comes_before_the_commands() {
    tells(
        &[block(5, &[M1]), block(7, &[M1, M3]), block(6, &[NO_BODY])],
        &[
            (COMMAND, false, 5, 6, 0),
            (GAP, true, 7, 0, 0),
            (COMMAND, true, 7, 6, 0),
            (COMMAND, false, 7, 12, 0),
            (STEP_BACK, true, 6, 0, 0),
            (REFUSED, false, 6, 6, 1),
        ],
    );
}

/// Their numbers are the reader's: 2 check, 1 length, 2 family, 4 left behind. What stands behind them comes all the same.
#[test]
fn a_record_that_does_not_read_is_reported() {
    tells(
        &[block(
            5,
            &[M1, WRONG_CHECK, NO_BODY, UNKNOWN, LEFT_BEHIND, M3],
        )],
        &[
            (COMMAND, true, 5, 6, 0),
            (REFUSED, true, 5, 12, 2),
            (REFUSED, true, 5, 18, 1),
            (REFUSED, true, 5, 23, 2),
            (REFUSED, true, 5, 28, 4),
            (COMMAND, false, 5, 33, 0),
        ],
    );
    for side in [OURS, RUST] {
        let mut event = [LENT; 80];
        let block = block(5, &[UNKNOWN]);
        assert_eq!((side.replay)(&mut [0; 7], 0, &block, &mut event), 0);
        // no command: the blank one's image
        assert_eq!(event[10..14], [0, 0, 0x01, 0x01]);
        assert_eq!(event[14..], [0; 66]);
    }
}

/// 101 records of 5 bytes are 505: the last one ends right before the check.
#[test]
fn a_sound_block_may_hold_101_records() {
    let full = block(5, &[NO_BODY; 101]);
    assert_eq!(full[506..511], *NO_BODY);
    let expected: Vec<Told> = (0..101)
        .map(|n| (REFUSED, n < 100, 5, 6 + 5 * n, 1))
        .collect();
    tells(&[full], &expected);
}

#[test]
fn more_than_505_used_bytes_are_10() {
    let records = [NO_BODY; 101].concat();
    for used in [506, 507, 511, 512, 0xFFFF] {
        tells(
            &[block_of(5, used, &records)],
            &[(DAMAGED, false, 100, 0, 10)],
        );
        // without a record, too
        tells(&[block_of(5, used, &[])], &[(DAMAGED, false, 100, 0, 10)]);
    }
    // a count that its low byte would make right
    tells(&[block_of(5, 0x0206, M1)], &[(DAMAGED, false, 100, 0, 10)]);
}

/// A record's length byte says 4 to 60; "none crosses a block", nor the used bytes.
#[test]
fn a_length_byte_damages_the_whole_block() {
    let record = |length: u8| [&[length], &vec![0x01; length.into()][..]].concat();
    for length in [0, 1, 2, 3, 61, 62, 255] {
        let wrong = record(length);
        tells(
            &[block(5, &[M1, &wrong, M3])],
            &[(DAMAGED, false, 100, 0, 10)],
        );
    }
    // 01 01 01 .. 01: no check that is right, but lengths that are
    for length in [4, 60] {
        tells(
            &[block(5, &[&record(length)])],
            &[(REFUSED, false, 5, 6, 2)],
        );
    }
    for used in [1, 2, 5] {
        tells(&[block_of(5, used, M1)], &[(DAMAGED, false, 100, 0, 10)]);
    }
    // the second record's length byte alone, and one that is not used
    tells(
        &[block_of(5, 7, &[M1, M3].concat())],
        &[(DAMAGED, false, 100, 0, 10)],
    );
    tells(&[block_of(5, 6, M1)], &[(COMMAND, false, 5, 6, 0)]);
}

#[test]
fn filler_is_zero_from_the_used_bytes_to_the_check() {
    for place in [12, 13, 300, 509, 510] {
        let mut filled = block(5, &[M1]);
        filled[place] = 0x80;
        filled[511] = check(&filled[..511]);
        tells(&[filled], &[(DAMAGED, false, 100, 0, 10)]);
    }
}

/// "1 for a block that isn't 512 bytes, then 9 block check, then 10 block layout".
#[test]
fn refusals_come_in_the_order_1_9_10() {
    let layout = block_of(5, 0xFFFF, &[0xFF; 505]);
    let all = with_wrong_check(layout.clone());
    tells(&[all[..511].to_vec()], &[(DAMAGED, false, 100, 0, 1)]);
    tells(&[[&all[..], &[0]].concat()], &[(DAMAGED, false, 100, 0, 1)]);
    tells(&[vec![]], &[(DAMAGED, false, 100, 0, 1)]);
    tells(&[all], &[(DAMAGED, false, 100, 0, 9)]);
    tells(&[layout], &[(DAMAGED, false, 100, 0, 10)]);
}

/// "it is named and skipped whole, and the others come out as if it were absent".
#[test]
fn a_damaged_block_leaves_the_state() {
    for state in [[0; 7], [1, 0, 0, 0, 5, 0, 0]] {
        for side in [OURS, RUST] {
            let (mut kept, mut event) = (state, [LENT; 80]);
            let damaged = with_wrong_check(block(6, &[M1]));
            let word = (side.replay)(&mut kept, 0xFEDC_BA98, &damaged, &mut event);
            assert_eq!((word, kept), (0, state));
            assert_eq!(told(&event), (DAMAGED, false, 0xFEDC_BA98, 0, 9));
        }
    }
}

fn refuses(number: u32, state: &[u8], block: &[u8], room: usize) {
    for side in [OURS, RUST] {
        let (mut kept, mut event) = (state.to_vec(), vec![LENT; room]);
        let word = (side.replay)(&mut kept, 1, block, &mut event);
        assert_eq!(word, number, "{state:02X?}, {room} bytes");
        assert_eq!((&kept[..], event), (state, vec![LENT; room]));
    }
}

#[test]
fn a_state_beyond_its_limits_is_5_and_stays() {
    let sound = block(6, &[M1, M3]);
    let states: [&[u8]; 14] = [
        &[],
        &[0; 6],
        &[0; 8],
        &[2, 0, 0, 0, 5, 0, 0],
        &[255, 0, 0, 0, 5, 0, 0],
        // not started, the rest is 0
        &[0, 0, 0, 0, 1, 0, 0],
        &[0, 1, 0, 0, 0, 0, 0],
        &[0, 0, 0, 0, 0, 0, 6],
        // 0, or 6 to 511
        &[1, 0, 0, 0, 5, 0, 1],
        &[1, 0, 0, 0, 5, 0, 5],
        &[1, 0, 0, 0, 5, 2, 0],
        &[1, 0, 0, 0, 5, 255, 255],
        // within the limits, but no record stands there: 01 at 10, and the end of the used bytes at 20
        &[1, 0, 0, 0, 5, 0, 10],
        &[1, 0, 0, 0, 5, 0, 20],
    ];
    for state in states {
        refuses(5, state, &sound, 80);
        refuses(3, state, &sound, 79);
        refuses(3, state, &[], 0);
    }
    // before the block is judged
    refuses(5, &[2, 0, 0, 0, 5, 0, 0], &[], 80);
}

#[test]
fn with_a_place_the_block_has_to_have_a_record_there() {
    let at_6 = [1, 0, 0, 0, 5, 0, 6];
    let sound = block(6, &[M1]);
    refuses(5, &at_6, &sound[..511], 80);
    refuses(5, &at_6, &[&sound[..], &[0]].concat(), 80);
    refuses(5, &at_6, &block(6, &[]), 80);
    refuses(5, &at_6, &block_of(6, 506, M1), 80);
    refuses(5, &at_6, &block_of(6, 5, M1), 80);
    refuses(5, &at_6, &block_of(6, 4, &[3, 1, 1, 1]), 80);
    refuses(5, &at_6, &block_of(6, 62, &[61; 62]), 80);
    refuses(5, &[1, 0, 0, 0, 5, 1, 255], &sound, 80);
}

/// "The block is not judged a second time then": the records of another block come with its number, and the replay keeps its own.
#[test]
fn another_block_between_two_events_is_not_judged() {
    let first = block(5, &[M1, M1]);
    // at 12 it has M3 and then a record that nothing would judge sound; its check is wrong, its filler is not zero
    let mut other = with_wrong_check(block(0x0A0B_0C0D, &[NO_BODY, &[0x03], M3, &[0x02, 0x01]]));
    other[510] = 0x77;
    for side in [OURS, RUST] {
        let (mut state, mut event) = ([0; 7], [LENT; 80]);
        assert_eq!((side.replay)(&mut state, 1, &first, &mut event), 0);
        assert_eq!(state, [1, 0, 0, 0, 5, 0, 12]);
        assert_eq!((side.replay)(&mut state, 1, &other, &mut event), 0);
        assert_eq!(told(&event), (COMMAND, true, 0x0A0B_0C0D, 12, 0));
        assert_eq!(event[12..16], [0x08, 0x02, 0x16, 0xA8]);
        assert_eq!(state, [1, 0, 0, 0, 5, 0, 20]);
        // there the other block has no record: 02
        let before = event;
        assert_eq!((side.replay)(&mut state, 1, &other, &mut event), 5);
        assert_eq!((state, event), ([1, 0, 0, 0, 5, 0, 20], before));
    }
}
