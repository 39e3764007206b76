#![no_std]
include!(concat!(env!("OUT_DIR"), "/root.rs"));
