// SPDX-License-Identifier: MIT
//! The numbers of `include/sframe.h` are the wrapper's.

use sframe::*;
use std::collections::HashMap;
use testkit::answer_texts;

/// Every name of the header that stands for a number.
fn constants() -> HashMap<&'static str, u64> {
    let header = include_str!("../../../include/sframe.h");
    let define = |line: &'static str| line.strip_prefix("#define ")?.split_once(' ');
    let enumerator = |line: &'static str| line.trim_end_matches(',').split_once(" = ");
    header
        .lines()
        .filter_map(|line| define(line).or_else(|| enumerator(line.trim())))
        .filter_map(|(name, value)| Some((name, value.parse().ok()?)))
        .filter(|(name, _)| name.starts_with("SFRAME_"))
        .collect()
}

#[test]
fn refusals() {
    let constants = constants();
    let names = [
        "STORE_NOT_SOUND",
        "SUITE_UNKNOWN",
        "BASE_KEY_LENGTH",
        "KID_HELD",
        "STORE_FULL",
        "KID_UNKNOWN",
        "WRONG_ROLE",
        "COUNTER_SPENT",
        "TOO_LONG",
        "HEADER_INVALID",
        "FRAME_SHORT",
        "ROOM_SHORT",
        "TAG_DIFFERS",
        "ALREADY_OPENED",
        "TOO_OLD",
        "BAD_STATE",
        "SENDING_BARRED",
        "RATCHET_KID_INVALID",
        "TOO_MANY_STEPS",
        "GROUP_PART_TOO_LARGE",
        "GROUP_KID_TOO_LONG",
    ];
    assert_eq!(constants["SFRAME_DONE"], 0);
    assert_eq!(names.len(), Refusal::ALL.len());
    for (name, refusal) in names.into_iter().zip(Refusal::ALL) {
        let number = constants[&*format!("SFRAME_{name}")];
        assert_eq!(number, u64::from(refusal.number()), "{name}");
    }
}

#[test]
fn suites() {
    let constants = constants();
    for suite in Suite::ALL {
        assert_eq!(constants[&*format!("SFRAME_{suite}")], suite.number());
    }
}

#[test]
fn sizes() {
    let constants = constants();
    let longest_tag = Suite::ALL.map(Suite::nt).into_iter().max();
    for (name, size) in [
        ("MAX_KEYS", MAX_RECORDS),
        ("MIN_BASE_KEY", MIN_BASE_KEY),
        ("MAX_BASE_KEY", MAX_BASE_KEY),
        ("MAX_PLAINTEXT", MAX_PLAINTEXT),
        ("MAX_METADATA", MAX_METADATA),
        ("MAX_HEADER", MAX_HEADER),
        ("MAX_TAG", longest_tag.unwrap_or(0)),
        ("STATE_SIZE", STATE),
        ("WINDOW", WINDOW as usize),
        ("MAX_STEPS", MAX_STEPS as usize),
        ("MAX_RATCHET_BITS", MAX_RATCHET_BITS as usize),
    ] {
        assert_eq!(constants[&*format!("SFRAME_{name}")], size as u64, "{name}");
    }
    let header = include_str!("../../../include/sframe.h");
    let store = format!("#define SFRAME_STORE_SIZE(keys) (UINT64_C({RECORD}) * (keys))\n");
    assert!(header.contains(&store));
    let lengths = format!("is not {RECORD} to {} in steps", MAX_RECORDS * RECORD);
    assert!(header.contains(&lengths));
}

/// The sentences of `sframe_answer_text` are those that a refusal shows.
#[test]
fn texts() {
    let header = include_str!("../../../include/sframe.h");
    let shown = Refusal::ALL.map(|refusal| refusal.to_string());
    assert_eq!(answer_texts(header, "sframe_answer_text"), shown);
}

/// Header, archive and package are of one version.
#[test]
fn versions() {
    let constants = constants();
    let part = |name: &str| constants[&*format!("SFRAME_VERSION_{name}")] as u32;
    assert_eq!(version(), (part("MAJOR"), part("MINOR"), part("PATCH")));
    let (major, minor, patch) = version();
    let text = format!("{major}.{minor}.{patch}");
    assert_eq!(text, env!("CARGO_PKG_VERSION"));
    let header = include_str!("../../../include/sframe.h");
    assert!(header.contains(&format!("#define SFRAME_VERSION \"{text}\"\n")));
}
