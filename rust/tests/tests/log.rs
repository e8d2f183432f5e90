// SPDX-License-Identifier: MIT
//! The program `log_check` beside the reference, on logs that are piped into
//! it: what it writes, to the byte.

use reference::log::{report, LOG_RECORD, MAX_LOG};
use std::fs::File;
use std::io::Write;
use std::path::PathBuf;
use std::process::{Command, Output, Stdio};
use testkit::Generator;

/// The built program.
fn program() -> PathBuf {
    let path = PathBuf::from(concat!(
        env!("CARGO_MANIFEST_DIR"),
        "/../../target/bin/log_check"
    ));
    assert!(
        path.exists(),
        "target/bin/log_check is missing: scripts/programs builds it"
    );
    path
}

/// Runs the program on a log that arrives in pieces of so many bytes.
fn run(log: &[u8], piece: usize) -> Output {
    let mut child = Command::new(program())
        .stdin(Stdio::piped())
        .stdout(Stdio::piped())
        .stderr(Stdio::piped())
        .spawn()
        .unwrap();
    let mut input = child.stdin.take().unwrap();
    for bytes in log.chunks(piece) {
        // A log that is too long is not read to its end.
        if input.write_all(bytes).is_err() {
            break;
        }
    }
    drop(input);
    child.wait_with_output().unwrap()
}

#[track_caller]
fn compare(log: &[u8]) -> String {
    let want = report(log);
    for piece in [MAX_LOG + 1, 4_095] {
        let output = run(log, piece);
        assert_eq!(String::from_utf8(output.stdout).unwrap(), want);
        assert!(output.stderr.is_empty());
    }
    want
}

fn log(pairs: impl IntoIterator<Item = (u64, u64)>) -> Vec<u8> {
    pairs
        .into_iter()
        .flat_map(|(kid, ctr)| [kid.to_be_bytes(), ctr.to_be_bytes()])
        .flatten()
        .collect()
}

#[test]
fn the_example() {
    let text = compare(&log([(1, 0xff), (2, 0), (1, 0xff)]));
    assert_eq!(
        text,
        "records 3\nrepeated 1\n0000000000000001 00000000000000ff\n"
    );
}

#[test]
fn every_edge_of_length() {
    let bytes = Generator::new(113).bytes(2 * MAX_LOG);
    let lengths = (0..=3 * LOG_RECORD).chain([
        MAX_LOG - LOG_RECORD,
        MAX_LOG - 1,
        MAX_LOG,
        MAX_LOG + 1,
        MAX_LOG + LOG_RECORD,
        2 * MAX_LOG,
    ]);
    for length in lengths {
        compare(&bytes[..length]);
    }
}

#[test]
fn repeats() {
    // Three times, and equal counters under two keys.
    compare(&log([(5, 1), (5, 1), (4, 1), (5, 1)]));
    // Key numbers and counters with the highest bit.
    let high = [
        (1 << 63, 0),
        (u64::MAX, u64::MAX),
        (0, u64::MAX),
        (u64::MAX, 0),
    ];
    compare(&log(high.into_iter().chain(high)));
    // As many pairs as can stand twice, rising, falling and mixed.
    let rising = || (0..2_048).map(|i| (i / 100, i * 3));
    let falling = || (0..2_048).rev().map(|i| (i / 100, i * 3));
    let mixed = || (0..2_048u64).map(|i| (i * 977 % 2_048, i));
    let text = compare(&log(rising().chain(rising())));
    assert_eq!(text.lines().count(), 2 + 2_048);
    compare(&log(falling().chain(falling())));
    compare(&log(rising().chain(falling())));
    compare(&log(mixed().chain(mixed())));
    // One pair throughout.
    let text = compare(&log((0..4_096).map(|_| (7, 7))));
    assert!(text.starts_with("records 4096\nrepeated 1\n"));
}

#[test]
fn random_logs() {
    let mut generator = Generator::new(1_130);
    for _ in 0..150 {
        let records = match generator.one_in(4) {
            true => generator.up_to(4_096),
            false => generator.up_to(60),
        };
        let spread = generator.up_to(2 * records) as u64 + 1;
        let shift = generator.up_to(63);
        let pairs: Vec<_> = (0..records)
            .map(|_| {
                let (a, b) = (generator.u64(), generator.u64());
                ((a % 3) << shift, b % spread)
            })
            .collect();
        compare(&log(pairs));
    }
}

/// A log that cannot be read is not one in which nothing is repeated.
#[test]
fn an_input_that_fails() {
    let folder = File::open(env!("CARGO_MANIFEST_DIR")).unwrap();
    let output = Command::new(program()).stdin(folder).output().unwrap();
    assert!(output.stdout.is_empty());
    let said = String::from_utf8(output.stderr).unwrap();
    assert!(
        said.starts_with("log_check: standard input: "),
        "said {said:?}"
    );
}
