//! Records for crates/vectors: kind (1), length of the input (2, big-endian), input, length of the answer (2), answer.
use crate::both::LENT;
use crate::question_cases::{Call, Function};
use crate::side::{count, number};
use crate::theirs::{self, RUST};
use crate::{edits, fields, image};

/// The kinds, by their number; 0 is none.
pub const KINDS: [&str; 12] = [
    "",
    "check",
    "payload check",
    "read",
    "write",
    "text",
    "ack",
    "popup",
    "inspect",
    "edit",
    "edit list",
    "questions",
];

const CHECK: u8 = 1;
const PAYLOAD_CHECK: u8 = 2;
const READ: u8 = 3;
const WRITE: u8 = 4;
const TEXT: u8 = 5;
const ACK: u8 = 6;
const POPUP: u8 = 7;
const INSPECT: u8 = 8;
const EDIT: u8 = 9;
const EDIT_LIST: u8 = 10;
const QUESTIONS: u8 = 11;

#[derive(Default)]
pub struct Records {
    pub bytes: Vec<u8>,
    pub count: [u64; KINDS.len()],
}

impl Records {
    fn record(&mut self, kind: u8, input: &[u8], answer: &[u8]) {
        self.count[usize::from(kind)] += 1;
        self.bytes.push(kind);
        for part in [input, answer] {
            let len = u16::try_from(part.len()).expect("a part of at most 65535 bytes");
            self.bytes.extend(len.to_be_bytes());
            self.bytes.extend(part);
        }
    }

    /// The answer is the number, and where it is 0 the image.
    fn image<const N: usize>(&mut self, kind: u8, input: &[u8], call: impl Fn(&mut [u8]) -> u32) {
        let mut image = [0; N];
        match call(&mut image) {
            0 => self.record(kind, input, &[&[0], &image[..]].concat()),
            refused => self.record(kind, input, &[number(refused)]),
        }
    }

    pub fn check(&mut self, message: &[u8]) {
        self.record(CHECK, message, &[(RUST.check)(message, 0)]);
    }

    /// The check that the Rust's reader would want in a payload's last byte, whatever stands there.
    pub fn payload_check(&mut self, payload: &[u8]) {
        let check = theirs::payload_check(&payload[..payload.len() - 1]);
        self.record(PAYLOAD_CHECK, payload, &[check]);
    }

    /// A payload of a family left behind makes no record: the answer would not be the Rust's.
    pub fn read(&mut self, payload: &[u8]) {
        if !theirs::left_behind(payload) {
            self.image::<{ image::SIZE }>(READ, payload, |lent| (RUST.read)(payload, lent));
        }
    }

    pub fn write(&mut self, record: &[u8], room: usize) {
        let mut buffer = vec![0; room];
        let word = (RUST.write)(record, &mut buffer);
        let input = [&[room as u8], record].concat();
        let answer = [&[number(word)], &buffer[..count(word)]].concat();
        self.record(WRITE, &input, &answer);
    }

    pub fn text(&mut self, bytes: &[u8]) {
        self.image::<{ fields::TEXT_SIZE }>(TEXT, bytes, |lent| (RUST.text)(bytes, lent));
    }

    pub fn ack(&mut self, ids: [u8; 3], information: &[u8]) {
        let input = [&ids, information].concat();
        let call = |lent: &mut [u8]| (RUST.ack)(ids, information, lent);
        self.image::<{ theirs::ACK_SIZE }>(ACK, &input, call);
    }

    /// The constructor's answer, and the inspection of what it makes.
    pub fn popup(&mut self, given: &[u8]) {
        self.image::<{ fields::POPUP_SIZE }>(POPUP, given, |lent| (RUST.popup)(given, lent));
        let mut popup = [0; fields::POPUP_SIZE];
        if (RUST.popup)(given, &mut popup) == 0 {
            let call = |lent: &mut [u8]| (RUST.popup_fields)(&popup, lent);
            self.image::<{ fields::SIZE }>(INSPECT, &popup, call);
        }
    }

    /// As with reading there is no record of a family left behind. The answer is the number and the payload as it is then.
    pub fn edit(&mut self, payload: &[u8], field: u32, number: u32) {
        if !theirs::left_behind(payload) {
            let mut edited = payload.to_vec();
            let word = (RUST.edit)(&mut edited, field, number);
            let input = [&edits::list(&[(field, number)]), payload].concat();
            self.record(EDIT, &input, &[&[word as u8], &edited[..]].concat());
        }
    }

    /// The answer is the number, the payload as it is then, and the answer bytes; those that are not written hold A5.
    pub fn edit_list(&mut self, payload: &[u8], list: &[u8], room: usize) {
        if !theirs::left_behind(payload) {
            let (mut edited, mut answers) = (payload.to_vec(), vec![LENT; room]);
            let word = (RUST.edit_list)(&mut edited, list, &mut answers);
            let input = [&[room as u8, payload.len() as u8], payload, list].concat();
            let answer = [&[word as u8], &edited[..], &answers].concat();
            self.record(EDIT_LIST, &input, &answer);
        }
    }

    /// Call after call, each with its second, on a question. The answer has of each its number, its count and the question as it is
    /// then. The words are handed back.
    pub fn questions(&mut self, question: &[u8], calls: &[(u32, Call)]) -> Vec<u32> {
        let mut kept = question.to_vec();
        let mut input = [&[question.len() as u8], question].concat();
        let (mut answer, mut words) = (Vec::new(), Vec::new());
        for (second, call) in calls {
            let function = match call.function {
                Function::Ask => 1,
                Function::Return => 2,
                Function::Command => 3,
            };
            input.push(function);
            input.extend(second.to_be_bytes());
            input.push(call.given.len() as u8);
            input.extend(&call.given);
            let word = call.on(&RUST, &mut kept, *second);
            answer.extend([number(word), count(word) as u8]);
            answer.extend(&kept);
            words.push(word);
        }
        self.record(QUESTIONS, &input, &answer);
        words
    }
}
