// SPDX-License-Identifier: MIT
//! What `list` shows of a store.

use crate::fingerprint;
use sframe::{Record, State, RECORD};

const TITLES: [&str; 7] = [
    "role",
    "suite",
    "key number",
    "next counter",
    "highest opened",
    "window",
    "fingerprint",
];
/// The columns that end at their right edge.
const NUMBERS: std::ops::RangeInclusive<usize> = 2..=5;

/// A table, each column as wide as it has to be.
pub fn table(store: &[u8], records: &[Record]) -> String {
    let rows: Vec<[String; 7]> = [TITLES.map(String::from)]
        .into_iter()
        .chain(records.iter().map(|record| row(store, record)))
        .collect();
    let text = toolkit::table::table(&rows, NUMBERS);
    let total = store.len() / RECORD;
    text + &format!("{} of {total} records in use\n", records.len())
}

fn row(store: &[u8], record: &Record) -> [String; 7] {
    let none = || String::from("-");
    [
        record.state.to_string(),
        format!("{} {}", record.suite.number(), record.suite),
        record.kid.0.to_string(),
        match record.state {
            State::Receiving => none(),
            _ if record.spent => "none left".into(),
            _ => record.next.0.to_string(),
        },
        record
            .window
            .map_or_else(none, |window| window.highest.0.to_string()),
        record
            .window
            .map_or_else(none, |window| format!("{:016x}", window.mask)),
        fingerprint::of(store, record).unwrap_or_else(none),
    ]
}

/// The same as JSON. Numbers of 64 bits are strings, since many readers of JSON
/// keep but 53 bits of a number.
pub fn json(store: &[u8], records: &[Record]) -> String {
    let keys: Vec<String> = records.iter().map(|record| object(store, record)).collect();
    let keys = match keys.is_empty() {
        true => "[]".into(),
        false => format!("[\n    {}\n  ]", keys.join(",\n    ")),
    };
    let total = store.len() / RECORD;
    format!("{{\n  \"records\": {total},\n  \"keys\": {keys}\n}}\n")
}

fn object(store: &[u8], record: &Record) -> String {
    let quoted = |text: Option<String>| text.map_or("null".into(), |text| format!("\"{text}\""));
    let sends = record.state != State::Receiving;
    let next = (sends && !record.spent).then(|| record.next.0.to_string());
    let window = record.window;
    let members = [
        ("role", quoted(Some(record.state.to_string()))),
        ("suite", record.suite.number().to_string()),
        ("suite_name", quoted(Some(record.suite.to_string()))),
        ("kid", quoted(Some(record.kid.0.to_string()))),
        ("next_counter", quoted(next)),
        ("spent", record.spent.to_string()),
        (
            "highest_opened",
            quoted(window.map(|window| window.highest.0.to_string())),
        ),
        (
            "window",
            quoted(window.map(|window| format!("{:016x}", window.mask))),
        ),
        ("fingerprint", quoted(fingerprint::of(store, record))),
    ];
    let members = members.map(|(name, value)| format!("\"{name}\": {value}"));
    format!("{{{}}}", members.join(", "))
}
