// SPDX-License-Identifier: MIT
//! The report of a log of sealings.

use reference::log::{report, LOG_RECORD, MAX_LOG};

fn log(pairs: &[(u64, u64)]) -> Vec<u8> {
    pairs
        .iter()
        .flat_map(|&(kid, ctr)| [kid.to_be_bytes(), ctr.to_be_bytes()])
        .flatten()
        .collect()
}

#[test]
fn a_repeated_pair() {
    let text = report(&log(&[(1, 0xff), (2, 0), (1, 0xff)]));
    assert_eq!(
        text,
        "records 3\nrepeated 1\n0000000000000001 00000000000000ff\n"
    );
}

#[test]
fn each_pair_once_and_rising() {
    let text = report(&log(&[
        (2, 1),
        (1, 9),
        (2, 1),
        (1, 9),
        (2, 0),
        (2, 1),
        (2, 0),
    ]));
    let lines: Vec<_> = text.lines().collect();
    assert_eq!(
        lines,
        [
            "records 7",
            "repeated 3",
            "0000000000000001 0000000000000009",
            "0000000000000002 0000000000000000",
            "0000000000000002 0000000000000001",
        ]
    );
}

#[test]
fn lengths() {
    assert_eq!(report(&[]), "records 0\nrepeated 0\n");
    assert_eq!(report(&[0; LOG_RECORD]), "records 1\nrepeated 0\n");
    assert_eq!(report(&[0; LOG_RECORD - 1]), "bad length\n");
    assert_eq!(report(&[0; MAX_LOG - 1]), "bad length\n");
    assert_eq!(report(&[0; MAX_LOG + 1]), "too long\n");
    assert_eq!(report(&[0; MAX_LOG + LOG_RECORD]), "too long\n");
}
