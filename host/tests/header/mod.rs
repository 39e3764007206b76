//! The numbers of include/crsf.h, from its text.
#![allow(dead_code)] // no test uses all of it

use std::collections::BTreeMap;
use std::string::{String, ToString};
use std::vec::Vec;

/// Numbers by their names, without the `CRSF_` before each.
pub type Names = BTreeMap<String, u32>;

/// Of all that the header names, what lies in images (ids, sub-commands, places, kinds), or else the rest: refusals, closings, fields, edits,
/// places in a block of the log, sizes of whole images, limits and the version. No name stands twice.
pub fn names(in_images: bool) -> Names {
    let header = code();
    let mut all = enums(&header);
    all.push(macros(&header));
    let mut names = Names::new();
    for group in all {
        let in_words = group.contains_key("ACCEPTED") || group.contains_key("OPENED");
        for (name, number) in group {
            if in_images == (!in_words && lies_in_images(&name)) {
                assert_eq!(names.insert(name.clone(), number), None, "{name}");
            }
        }
    }
    names
}

/// All that the header names.
pub fn all() -> Names {
    let mut all = names(true);
    all.extend(names(false));
    all
}

/// The version as one text.
pub fn version() -> String {
    let header = code();
    let rest = header.split_once("#define CRSF_VERSION \"");
    let version = rest.and_then(|(_, rest)| rest.split_once('"'));
    version.expect("a version").0.to_string()
}

fn lies_in_images(name: &str) -> bool {
    let parts = ["ACK_VALUES_SIZE", "ACK_STORED_SIZE"];
    let others = [
        "FRAME_TYPE",
        "MIN_",
        "MAX_",
        "VERSION_",
        "FIELD_",
        "EDIT_",
        "BLOCK_",
    ];
    let other = name.ends_with("_SIZE") || others.iter().any(|other| name.starts_with(other));
    parts.contains(&name) || !other
}

fn code() -> String {
    without_comments(include_str!("../../../include/crsf.h"))
}

fn without_comments(mut text: &str) -> String {
    let mut code = String::new();
    while let Some((before, comment)) = text.split_once("/*") {
        code.push_str(before);
        text = comment.split_once("*/").expect("the end of a comment").1;
    }
    code + text
}

/// `enum { CRSF_NAME = NUMBER, .. }`, each.
fn enums(code: &str) -> Vec<Names> {
    let bodies = code.split("enum {").skip(1);
    bodies
        .map(|rest| {
            let body = rest.split_once('}').expect("the end of an enum").0;
            let items = body.split(',').map(str::trim);
            items.filter(|item| !item.is_empty()).map(item).collect()
        })
        .collect()
}

fn item(text: &str) -> (String, u32) {
    let (name, number) = text.split_once('=').expect("a name and its number");
    let name = name.trim().strip_prefix("CRSF_").expect("CRSF_ first");
    (name.to_string(), number_of(number))
}

/// `#define CRSF_NAME NUMBER`; not those that take an argument, nor the attribute and the text of the version.
fn macros(code: &str) -> Names {
    let defines = code
        .lines()
        .filter_map(|line| line.strip_prefix("#define CRSF_"));
    defines
        .filter_map(|define| define.split_once(' '))
        .filter(|(name, _)| !name.contains('(') && !["MUST_USE", "VERSION"].contains(name))
        .map(|(name, number)| (name.to_string(), number_of(number)))
        .collect()
}

fn number_of(text: &str) -> u32 {
    let text = text.trim().trim_end_matches('u');
    let number = match text.strip_prefix("0x") {
        Some(digits) => u32::from_str_radix(digits, 16),
        None => text.parse(),
    };
    number.unwrap_or_else(|error| panic!("{text}: {error}"))
}
