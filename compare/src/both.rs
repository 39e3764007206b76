//! One input given to both sides: the answer's word and every lent byte have to be the same.
use std::fmt::Debug;
use std::hint::black_box;
use std::panic::resume_unwind;

use crate::popups::Popup;
use crate::question_cases::Call;
use crate::replay_image::{EVENT_SIZE, KIND, MORE, NUMBER, REFUSED};
use crate::side::Side;
use crate::theirs::{self, RUST};
use crate::types::Judged;
use crate::{fields, image};

/// What every lent byte holds before a call.
pub const LENT: u8 = 0xA5;

/// So many bytes behind a lent slice are looked at, too.
const BEHIND: usize = 2;

const MOST: usize = fields::SIZE + BEHIND;

/// What a run is left with at the first difference of a side that says so (`Side::until_first`).
pub struct Differs;

/// Cases of one kind, and the first in which the two sides differ.
pub struct Both<'a> {
    side: &'a Side,
    pub cases: u64,
    /// Of these, payloads of the families left behind: there document 01 answers, not the Rust.
    pub left_behind: u64,
    /// Of these, blocks of the log that were judged: the first event of each.
    pub blocks: u64,
    pub differing: u64,
    pub first: Option<String>,
}

/// What a call of the replay answers, and what it leaves of the bytes lent to it.
#[derive(Debug, PartialEq)]
struct Replayed {
    word: u32,
    state: Vec<u8>,
    event: Vec<u8>,
    /// The block is given, not lent.
    block_kept: bool,
}

impl Replayed {
    fn by(side: &Side, state: &[u8], position: u32, block: &[u8], room: usize) -> Self {
        let mut lent = [state, &[LENT; BEHIND]].concat();
        let mut event = vec![LENT; room + BEHIND];
        let given = block.to_vec();
        let word = (side.replay)(
            &mut lent[..state.len()],
            position,
            &given,
            &mut event[..room],
        );
        Replayed {
            word,
            state: lent,
            event,
            // a function of C could change it all the same
            block_kept: black_box(&given) == block,
        }
    }
}

impl<'a> Both<'a> {
    pub fn new(side: &'a Side) -> Self {
        Both {
            side,
            cases: 0,
            left_behind: 0,
            blocks: 0,
            differing: 0,
            first: None,
        }
    }

    fn note<T: PartialEq + Debug>(&mut self, ours: T, theirs: T, case: impl FnOnce() -> String) {
        self.cases += 1;
        if ours != theirs {
            self.differing += 1;
            self.first.get_or_insert_with(|| {
                format!("{}: ours {ours:02X?}, the Rust's {theirs:02X?}", case())
            });
            if self.side.until_first {
                resume_unwind(Box::new(Differs));
            }
        }
    }

    /// What the Rust leaves of the lent bytes.
    fn lending<T: PartialEq + Debug>(
        &mut self,
        room: usize,
        call: impl Fn(&Side, &mut [u8]) -> T,
        case: impl FnOnce() -> String,
    ) -> [u8; MOST] {
        let answer = |side: &Side| {
            let mut space = [LENT; MOST];
            let answer = call(side, &mut space[..room]);
            (answer, space)
        };
        let (ours, theirs) = (answer(self.side), answer(&RUST));
        let seen = room + BEHIND;
        self.note(
            (ours.0, &ours.1[..seen]),
            (theirs.0, &theirs.1[..seen]),
            case,
        );
        theirs.1
    }

    pub fn read(&mut self, payload: &[u8]) {
        self.left_behind += u64::from(theirs::left_behind(payload));
        let call = |side: &Side, lent: &mut [u8]| (side.read)(payload, lent);
        self.lending(image::SIZE, call, || format!("read {payload:02X?}"));
    }

    pub fn write(&mut self, record: &[u8], room: usize) {
        let call = |side: &Side, lent: &mut [u8]| (side.write)(record, lent);
        self.lending(room, call, || {
            format!("write {record:02X?} into {room} bytes")
        });
    }

    pub fn again(&mut self, payload: &[u8], room: usize) {
        self.left_behind += u64::from(theirs::left_behind(payload));
        let call = |side: &Side, lent: &mut [u8]| (side.again)(payload, lent);
        self.lending(room, call, || {
            format!("again {payload:02X?} into {room} bytes")
        });
    }

    /// The payload is lent: all of it has to be the same.
    pub fn edit(&mut self, payload: &[u8], field: u32, number: u32) {
        self.left_behind += u64::from(theirs::left_behind(payload));
        let len = payload.len();
        let call = |side: &Side, lent: &mut [u8]| {
            lent.copy_from_slice(payload);
            (side.edit)(lent, field, number)
        };
        self.lending(len, call, || {
            format!("edit {payload:02X?}: field {field}, {number}")
        });
    }

    /// Both the payload and so many answer bytes are lent, the answers behind the payload.
    pub fn edit_list(&mut self, payload: &[u8], list: &[u8], room: usize) {
        self.left_behind += u64::from(theirs::left_behind(payload));
        let len = payload.len();
        let call = |side: &Side, lent: &mut [u8]| {
            let (edited, answers) = lent.split_at_mut(len + BEHIND);
            edited[..len].copy_from_slice(payload);
            (side.edit_list)(&mut edited[..len], list, answers)
        };
        self.lending(len + BEHIND + room, call, || {
            format!("edit {payload:02X?}: list {list:02X?}, {room} answers")
        });
    }

    pub fn text(&mut self, bytes: &[u8]) {
        let call = |side: &Side, lent: &mut [u8]| (side.text)(bytes, lent);
        self.lending(fields::TEXT_SIZE, call, || format!("text {bytes:02X?}"));
    }

    pub fn ack(&mut self, ids: [u8; 3], information: &[u8]) {
        let call = |side: &Side, lent: &mut [u8]| (side.ack)(ids, information, lent);
        self.lending(theirs::ACK_SIZE, call, || {
            format!("ack {ids:02X?} {information:02X?}")
        });
    }

    /// The constructor, and the inspection of what the Rust makes.
    pub fn popup(&mut self, given: &[u8]) {
        let call = |side: &Side, lent: &mut [u8]| (side.popup)(given, lent);
        self.lending(fields::POPUP_SIZE, call, || format!("popup {given:02X?}"));
        let mut popup = [0; fields::POPUP_SIZE];
        if (RUST.popup)(given, &mut popup) == 0 {
            let call = |side: &Side, lent: &mut [u8]| (side.popup_fields)(&popup, lent);
            self.lending(fields::SIZE, call, || format!("inspect {popup:02X?}"));
        }
    }

    /// One event into so many bytes. The state is left as the Rust leaves it; whether it says that there is more.
    pub fn replay(&mut self, state: &mut [u8], position: u32, block: &[u8], room: usize) -> bool {
        let ours = Replayed::by(self.side, state, position, block, room);
        let theirs = Replayed::by(&RUST, state, position, block, room);
        let accepted = theirs.word == 0;
        let refused = |number: u8| theirs.event[KIND] == REFUSED && theirs.event[NUMBER] == number;
        self.left_behind += u64::from(accepted && refused(4));
        self.blocks += u64::from(accepted && state.ends_with(&[0, 0]));
        let more = accepted && theirs.event[MORE] == 1;
        let after = theirs.state[..state.len()].to_vec();
        self.note(ours, theirs, || {
            format!("replay {state:02X?}, position {position}, {block:02X?} into {room} bytes")
        });
        state.copy_from_slice(&after);
        more
    }

    /// A block handed in again while there is more.
    pub fn replay_block(&mut self, state: &mut [u8], position: u32, block: &[u8]) {
        while self.replay(state, position, block, EVENT_SIZE) {}
    }

    /// A call on a question, which is left as the Rust leaves it. What is given stays.
    pub fn question(&mut self, question: &mut [u8], second: u32, call: &Call) {
        let len = question.len();
        let made = |side: &Side, lent: &mut [u8]| {
            lent.copy_from_slice(question);
            let given = call.clone();
            let word = given.on(side, lent, second);
            // a function of C could change it all the same
            (word, black_box(&given) == call)
        };
        let left = self.lending(len, made, || {
            format!("question {question:02X?} at {second}, {call:02X?}")
        });
        question.copy_from_slice(&left[..len]);
    }

    pub fn check(&mut self, bytes: &[u8], start: u8) {
        let (ours, theirs) = ((self.side.check)(bytes, start), (RUST.check)(bytes, start));
        self.note(ours, theirs, || {
            format!("check {bytes:02X?} from {start:02X}")
        });
    }

    /// Ours of the second part from ours of the first, the Rust's of both in one digest.
    pub fn check_in_two(&mut self, first: &[u8], second: &[u8]) {
        let check = self.side.check;
        let ours = check(second, check(first, 0));
        self.note(ours, theirs::check_in_two(first, second), || {
            format!("check {first:02X?}, then {second:02X?}")
        });
    }

    /// What both crates' types hold of a payload, or refuse.
    pub fn types_read(&mut self, payload: &[u8]) {
        self.left_behind += u64::from(theirs::left_behind(payload));
        let (ours, theirs) = (self.side.types.read, RUST.types.read);
        self.note(ours(payload), theirs(payload), || {
            format!("types, read {payload:02X?}")
        });
    }

    /// What both crates write of the command read, as it is or with other numbers.
    pub fn types_write(&mut self, payload: &[u8], judged: Option<&Judged>, room: usize) {
        self.left_behind += u64::from(theirs::left_behind(payload));
        let call = |side: &Side, lent: &mut [u8]| (side.types.write)(payload, judged, lent);
        self.lending(room, call, || {
            format!("types, {payload:02X?} with {judged:?} into {room} bytes")
        });
    }

    pub fn types_text(&mut self, bytes: &[u8]) {
        let (ours, theirs) = (self.side.types.text, RUST.types.text);
        self.note(ours(bytes), theirs(bytes), || {
            format!("types, text {bytes:02X?}")
        });
    }

    pub fn types_ack(&mut self, ids: [u8; 3], information: &[u8]) {
        let (ours, theirs) = (self.side.types.ack, RUST.types.ack);
        self.note(ours(ids, information), theirs(ids, information), || {
            format!("types, ack {ids:02X?} {information:02X?}")
        });
    }

    pub fn types_popup(&mut self, popup: &Popup) {
        let (ours, theirs) = (self.side.types.popup, RUST.types.popup);
        self.note(ours(popup), theirs(popup), || {
            format!("types, {popup:02X?}")
        });
    }
}
