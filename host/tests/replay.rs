//! Document 02, "Replay of the block log", through the types. Places and numbers are worked out by hand.
mod blocks;
mod payloads;

use blocks::{block, closed, laid_out, Block};
use crsf::packets::{CommandPayload, DirectCommands, FcCommand, VtxCommand};
use crsf::CrsfParsingError::{self, *};
use crsf::{boundary, Event, Replay};
use payloads::{command, M1, M2, M3};

/// M1 with another check, which leaves residue 0 (document 01 has FE).
const WRONG_CHECK: [u8; 5] = [0xC8, 0xEA, 0x01, 0x01, 0x23];
/// M5's: no sub-command, and a family left behind.
const SHORT: [u8; 4] = [0xC8, 0xEA, 0x01, 0x22];
const LEFT_BEHIND: [u8; 4] = [0xC8, 0xEA, 0x03, 0xEC];

fn disarm() -> DirectCommands {
    command(CommandPayload::Fc(FcCommand::ForceDisarm))
}

fn command_at(block: u32, place: usize, command: DirectCommands) -> Event {
    Event::Command {
        block,
        place,
        command,
    }
}

fn refused_at(block: u32, place: usize, error: CrsfParsingError) -> Event {
    Event::Refused {
        block,
        place,
        error,
        payload_place: 0,
    }
}

fn damaged(position: u32, error: CrsfParsingError) -> Event {
    Event::Damaged { position, error }
}

fn gap(block: u32) -> Event {
    Event::Gap { block }
}

fn back(block: u32) -> Event {
    Event::StepBack { block }
}

/// Of 101 records and a gap or a step back. A block that had more would go on for ever.
const MOST_EVENTS: usize = 102;

fn events(replay: &mut Replay, position: u32, block: &[u8]) -> Vec<Event> {
    let events: Vec<Event> = replay
        .block(position, block)
        .take(MOST_EVENTS + 1)
        .collect();
    assert!(events.len() <= MOST_EVENTS, "{events:?}");
    events
}

/// Of a whole log, positions from 0.
fn replayed(log: &[Block]) -> Vec<Event> {
    let mut replay = Replay::new();
    let each = log.iter().zip(0..);
    each.flat_map(|(block, position)| events(&mut replay, position, block))
        .collect()
}

/// What is told of sound blocks without records that have these numbers.
fn told(numbers: &[u32]) -> Vec<Event> {
    let log: Vec<Block> = numbers.iter().map(|number| block(*number, &[])).collect();
    replayed(&log)
}

/// "512 zeros are a sound block number 0": the check of zeros is 0.
#[test]
fn zeros_are_a_sound_block_without_records() {
    assert_eq!(block(0, &[]), [0; 512]);
    assert_eq!(replayed(&[[0; 512]]), []);
    assert_eq!(replayed(&[[0; 512], [0; 512]]), [back(0)]);
    assert_eq!(replayed(&[[0; 512], block(1, &[])]), []);
}

#[test]
fn the_tests_own_check_of_a_block_is_the_librarys() {
    let block = block(0x0102_0304, &[&M1, &M3]);
    assert_eq!(boundary::check(&block[..511], 0), block[511]);
    assert_ne!(block[511], 0);
}

/// Records of 5, 7, 5 and 6 bytes behind 6 bytes, each with its length byte: at 6, 12, 20 and 26.
#[test]
fn each_record_comes_in_order_with_block_and_place() {
    let frequency = command(CommandPayload::Vtx(VtxCommand::SetFrequency(5800)));
    let log = [block(7, &[&M1, &M3, &WRONG_CHECK, &M2])];
    let expected = [
        command_at(7, 6, disarm()),
        command_at(7, 12, frequency),
        refused_at(7, 20, InvalidPayload),
        command_at(7, 26, disarm()),
    ];
    assert_eq!(replayed(&log), expected);
}

/// "A sound block may hold 101 records (length 4, refused ones) though at most 84 commands": 101 times 5 is 505, 84 times 6 is 504.
#[test]
fn a_block_may_be_full() {
    let refused = block(1, &[&SHORT[..]; 101]);
    let expected = (0..101).map(|k| refused_at(1, 6 + 5 * k, InvalidPayloadLength));
    assert!(Replay::new().block(0, &refused).eq(expected));

    let commands = block(1, &[&M1[..]; 84]);
    let expected = (0..84).map(|k| command_at(1, 6 + 6 * k, disarm()));
    assert!(Replay::new().block(0, &commands).eq(expected));
}

/// Disarm with 55 bytes behind it that are ignored: M2 has one, and FE is the check with any number of zeros, as with M1 and M2.
#[test]
fn the_longest_record_and_one_behind_it() {
    let mut longest = [0; 60];
    longest[..4].copy_from_slice(&M1[..4]);
    longest[59] = 0xFE;
    let log = [block(3, &[&longest, &LEFT_BEHIND])];
    let expected = [
        command_at(3, 6, disarm()),
        refused_at(3, 67, FamilyLeftBehind),
    ];
    assert_eq!(replayed(&log), expected);
}

/// "Refusals: 1 for a block that isn't 512 bytes, then 9 block check, then 10 block layout (used count, record length, nonzero filler)."
#[test]
fn a_damaged_block_is_named_by_its_position() {
    let one = block(7, &[&M1]);
    let longer = [&one[..], &[0]].concat();
    let mut filler = one;
    filler[510] = 1;
    let mut behind = one;
    behind[12] = 1;
    // 100 records of 5 bytes and one of 6 are 506: all would do, but the last has the block's check in it
    let too_many = [
        &[4, 0xC8, 0xEA, 1, 0x22].repeat(100)[..],
        &[5, 0xC8, 0xEA, 1, 1],
    ]
    .concat();
    let cases: [(&[u8], CrsfParsingError); 15] = [
        (&[], InvalidPayloadLength),
        (&one[..511], InvalidPayloadLength),
        (&longer, InvalidPayloadLength),
        (&closed(one, 0x01), BlockCheck),
        (&closed(one, 0x80), BlockCheck),
        (&filler, BlockCheck), // whose check is that of another block
        (&closed(filler, 0), BlockLayout),
        (&closed(behind, 0), BlockLayout),
        // used count
        (&laid_out(7, 506, &too_many), BlockLayout),
        (&laid_out(7, 506, &[]), BlockLayout),
        (&laid_out(7, 0xFFFF, &[]), BlockLayout),
        // length of a record: 3, 61, and 5 where only 4 used bytes are behind it
        (&laid_out(7, 4, &[3, 1, 1, 1]), BlockLayout),
        (&laid_out(7, 62, &[61]), BlockLayout),
        (&laid_out(7, 5, &[5, 0xC8, 0xEA, 1, 1]), BlockLayout),
        // 0, where a second record would be
        (
            &laid_out(7, 7, &[5, 0xC8, 0xEA, 1, 1, 0xFE, 0]),
            BlockLayout,
        ),
    ];
    for (bytes, error) in cases {
        let mut replay = Replay::new();
        assert_eq!(events(&mut replay, 40, bytes), [damaged(40, error)]);
        assert_eq!(replay, Replay::new());
        assert_eq!(
            events(&mut replay, u32::MAX, bytes),
            [damaged(u32::MAX, error)]
        );
    }
}

/// "It is named and skipped whole": no record of it comes out, not even those before the fault.
#[test]
fn the_others_come_out_as_if_a_damaged_block_were_absent() {
    let (five, six, seven) = (block(5, &[&M1]), block(6, &[&M1]), block(7, &[&M1]));
    let wrong = laid_out(6, 12, &[5, 0xC8, 0xEA, 1, 1, 0xFE, 3, 0, 0, 0, 0, 0]);
    let first = command_at(5, 6, disarm());
    assert_eq!(
        replayed(&[five, wrong, six]),
        [
            first.clone(),
            damaged(1, BlockLayout),
            command_at(6, 6, disarm())
        ]
    );
    assert_eq!(
        replayed(&[five, wrong, seven]),
        [
            first.clone(),
            damaged(1, BlockLayout),
            gap(7),
            command_at(7, 6, disarm())
        ]
    );
    // before the first sound block, which is not reported
    assert_eq!(replayed(&[wrong, five]), [damaged(0, BlockLayout), first]);
}

/// "A sound block whose number isn't exactly one above that of the sound block before it is reported, as a gap if higher, else as a step
/// back, but handed on; the first sound block is not reported."
#[test]
fn numbers_out_of_order_are_told() {
    const LAST: u32 = u32::MAX;
    assert_eq!(told(&[5]), []);
    assert_eq!(told(&[LAST]), []);
    assert_eq!(told(&[5, 6, 7]), []);
    assert_eq!(told(&[LAST - 1, LAST]), []);
    assert_eq!(told(&[5, 7]), [gap(7)]);
    assert_eq!(told(&[0, LAST]), [gap(LAST)]);
    assert_eq!(told(&[5, 5]), [back(5)]);
    assert_eq!(told(&[5, 4]), [back(4)]);
    assert_eq!(told(&[5, 3, 4]), [back(3)]);
    assert_eq!(told(&[5, 9, 10, 11]), [gap(9)]);
    assert_eq!(told(&[LAST, 0, 1]), [back(0)]);
    assert_eq!(told(&[LAST, LAST]), [back(LAST)]);
    // in bytes, above the low one too
    assert_eq!(told(&[0x00FF_FFFF, 0x0100_0000]), []);
    assert_eq!(told(&[0x0100_0000, 0x0200_0000]), [gap(0x0200_0000)]);
}

#[test]
fn a_gap_or_a_step_back_comes_before_the_records() {
    let log = [
        block(5, &[]),
        block(7, &[&M1, &SHORT]),
        block(7, &[&LEFT_BEHIND]),
    ];
    let expected = [
        gap(7),
        command_at(7, 6, disarm()),
        refused_at(7, 12, InvalidPayloadLength),
        back(7),
        refused_at(7, 6, FamilyLeftBehind),
    ];
    assert_eq!(replayed(&log), expected);
}

/// Whatever is done with a block's events, the next block is judged as a new one.
#[test]
fn events_may_be_left_at_any_point() {
    let (two, next) = (block(5, &[&M1, &M1]), block(6, &[&M3]));
    let wrong = closed(two, 1);
    for looked_at in 0..=3 {
        let mut replay = Replay::new();
        let looked = replay.block(0, &two).take(looked_at).count();
        assert_eq!(looked, looked_at.min(2));
        // taken for the rest of `two`, these would be records, or no block at all
        assert_eq!(events(&mut replay, 1, &wrong), [damaged(1, BlockCheck)]);
        assert_eq!(
            events(&mut replay, 2, &[]),
            [damaged(2, InvalidPayloadLength)]
        );
        assert_eq!(events(&mut replay, 3, &block(5, &[])), [back(5)]);
        assert_eq!(events(&mut replay, 4, &next).len(), 1);
    }
}

/// They borrow the block alone.
#[test]
fn events_of_two_blocks_may_be_at_hand() {
    let (first, second) = (block(5, &[&M1, &SHORT]), block(7, &[&M1]));
    let mut replay = Replay::default();
    let mut of_first = replay.block(0, &first);
    let mut of_second = replay.block(1, &second);
    assert_eq!(of_second.next(), Some(gap(7)));
    assert_eq!(of_first.next(), Some(command_at(5, 6, disarm())));
    assert_eq!(of_second.next(), Some(command_at(7, 6, disarm())));
    let again = of_first.clone();
    assert_eq!(
        of_first.next(),
        Some(refused_at(5, 12, InvalidPayloadLength))
    );
    assert!(again.eq([refused_at(5, 12, InvalidPayloadLength)]));
    for _ in 0..3 {
        assert_eq!((of_first.next(), of_second.next()), (None, None));
    }
}

#[test]
fn a_replay_is_the_number_of_the_last_sound_block() {
    let mut replay = Replay::new();
    assert_eq!(replay, Replay::default());
    let _ = replay.block(0, &block(5, &[&M1]));
    assert_ne!(replay, Replay::new());
    let kept = replay.clone();
    let _ = replay.block(1, &[0; 511]);
    assert_eq!(replay, kept);
    assert_eq!(format!("{replay:?}"), "Replay { last: Some(5) }");
    // from a copy, the log goes on as from the replay itself
    for mut replay in [replay, kept] {
        assert_eq!(events(&mut replay, 2, &block(7, &[])), [gap(7)]);
    }
}

/// Numbers in no order, the same in each run.
struct Any(u32);

impl Any {
    fn byte(&mut self) -> u8 {
        self.0 = self.0.wrapping_mul(1_664_525).wrapping_add(1_013_904_223);
        (self.0 >> 24) as u8
    }

    fn bytes(&mut self, length: usize) -> Vec<u8> {
        (0..length).map(|_| self.byte()).collect()
    }

    /// 0 to 15 bytes used, all below 8, so that some are the length of a record; the check is right.
    fn closed(&mut self) -> Vec<u8> {
        let mut used = self.bytes(usize::from(self.0 as u8 % 16));
        used.iter_mut().for_each(|byte| *byte %= 8);
        let number = self.byte().into();
        laid_out(number, used.len() as u16, &used).to_vec()
    }
}

/// No bytes make it panic, and each block comes to an end.
#[test]
fn any_bytes_have_events() {
    let (mut any, mut replay) = (Any(1), Replay::new());
    let (mut sound, mut broken) = (0, 0);
    for position in 0..4000 {
        let bytes = match position % 2 {
            0 => any.closed(),
            _ => any.bytes(position as usize % 700),
        };
        match events(&mut replay, position, &bytes)[..] {
            [Event::Damaged { .. }] => broken += 1,
            _ => sound += 1,
        }
    }
    assert!(sound > 100 && broken > 1000, "{sound}, {broken}");
}
