//! Images put together by the places that include/crsf.h names, with its own names for ids and kinds.
#![allow(dead_code)] // no test uses all of it

use crsf::boundary::{self, RECORD_SIZE, TEXT_SIZE};

use crate::header::{self, Names};

/// An image put together by the header's places.
pub struct Laid<const SIZE: usize> {
    names: Names,
    pub image: [u8; SIZE],
}

impl<const SIZE: usize> Laid<SIZE> {
    pub fn new() -> Self {
        Self {
            names: header::all(),
            image: [0; SIZE],
        }
    }

    pub fn at(&self, name: &str) -> usize {
        self.names[name] as usize
    }

    pub fn put(mut self, name: &str, bytes: &[u8]) -> Self {
        let at = self.at(name);
        self.image[at..at + bytes.len()].copy_from_slice(bytes);
        self
    }

    /// A byte that has a name itself.
    pub fn named(self, name: &str, byte: &str) -> Self {
        let byte = self.at(byte) as u8;
        self.put(name, &[byte])
    }

    pub fn text(self, name: &str, bytes: &[u8]) -> Self {
        let mut text = [0; TEXT_SIZE];
        assert_eq!(boundary::text(bytes, &mut text), 0);
        self.put(name, &text)
    }
}

/// The record from EA to C8.
pub fn record(id: &str, sub_command: &str) -> Laid<RECORD_SIZE> {
    Laid::new()
        .put("RECORD_DESTINATION", &[0xC8])
        .put("RECORD_SOURCE", &[0xEA])
        .named("RECORD_ID", id)
        .named("RECORD_SUB_COMMAND", sub_command)
}
