// SPDX-License-Identifier: MIT
//! The numbers of `include/moq.h` are the wrapper's, and where a cause is
//! SFrame's too, those of `include/sframe.h`.

use moq::*;
use std::collections::HashMap;
use testkit::answer_texts;

/// Every name of a header that stands for a number, without its prefix.
fn constants(header: &'static str, prefix: &str) -> HashMap<String, u64> {
    let define = |line: &'static str| line.strip_prefix("#define ")?.split_once(' ');
    let enumerator = |line: &'static str| line.trim_end_matches(',').split_once(" = ");
    header
        .lines()
        .filter_map(|line| define(line).or_else(|| enumerator(line.trim())))
        .filter_map(|(name, value)| Some((name.strip_prefix(prefix)?, value.parse().ok()?)))
        .map(|(name, value)| (name.to_string(), value))
        .collect()
}

fn moq() -> HashMap<String, u64> {
    constants(include_str!("../../../include/moq.h"), "MOQ_")
}

#[test]
fn refusals() {
    let names = [
        "STORE_NOT_SOUND",
        "SUITE_UNKNOWN",
        "BASE_KEY_LENGTH",
        "TRACK_HELD",
        "STORE_FULL",
        "TRACK_UNKNOWN",
        "WRONG_ROLE",
        "TOO_LONG",
        "OBJECT_SHORT",
        "ROOM_SHORT",
        "TAG_DIFFERS",
        "SENDING_BARRED",
        "PAIR_NOT_ABOVE",
        "OBJECT_TOO_LARGE",
    ];
    let constants = moq();
    assert_eq!(constants["DONE"], 0);
    assert_eq!(names.len(), Refusal::ALL.len());
    for (name, refusal) in names.into_iter().zip(Refusal::ALL) {
        assert_eq!(constants[name], u64::from(refusal.number()), "{name}");
    }
}

#[test]
fn the_same_as_sframe() {
    let sframe = constants(include_str!("../../../include/sframe.h"), "SFRAME_");
    for (name, value) in moq() {
        // The stores differ in size, and MoQ's objects have no header.
        if let Some(&other) = sframe.get(&name) {
            assert_eq!(value, other, "{name}");
        }
    }
}

#[test]
fn sizes() {
    let constants = moq();
    for (name, size) in [
        ("MAX_TRACKS", MAX_RECORDS),
        ("MIN_BASE_KEY", MIN_BASE_KEY),
        ("MAX_BASE_KEY", MAX_BASE_KEY),
        ("MAX_NAME", MAX_NAME),
        ("MAX_PLAINTEXT", MAX_PLAINTEXT),
        ("MAX_PROPERTIES", MAX_PROPERTIES),
        (
            "MAX_TAG",
            Suite::ALL.map(Suite::nt).into_iter().max().unwrap_or(0),
        ),
    ] {
        assert_eq!(constants[name], size as u64, "{name}");
    }
}

/// The sentences of `moq_answer_text` are those that a refusal shows.
#[test]
fn texts() {
    let header = include_str!("../../../include/moq.h");
    let shown = Refusal::ALL.map(|refusal| refusal.to_string());
    assert_eq!(answer_texts(header, "moq_answer_text"), shown);
}
