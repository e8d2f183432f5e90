// SPDX-License-Identifier: MIT
//! What `list` shows of a track store. The layout is that of `docs/TRACKS.md`; the
//! layer has judged the bytes before.

use moq::{Location, Suite, RECORD};
use toolkit::hex;
use toolkit::table::table;

const TITLES: [&str; 6] = [
    "role",
    "suite",
    "Key ID",
    "last group",
    "last object",
    "name",
];

/// One record that is in use. Key and salt are not shown.
struct Listed {
    role: &'static str,
    suite: String,
    suite_name: String,
    key_id: u64,
    /// The last pair that was sealed.
    last: Option<Location>,
    /// In hex.
    name: String,
}

fn number(bytes: &[u8]) -> u64 {
    let shifted = |number, &byte: &u8| number << 8 | u64::from(byte);
    bytes.iter().fold(0, shifted)
}

impl Listed {
    fn of(record: &[u8]) -> Option<Self> {
        let role = match record[0] {
            1 => "sending",
            2 => "receiving",
            3 => "retired",
            _ => return None,
        };
        let last = Location {
            group: number(&record[12..20]),
            object: number(&record[20..24]),
        };
        let suite = Suite::from_number(record[1].into());
        let length = number(&record[24..26]) as usize;
        Some(Listed {
            role,
            suite: record[1].to_string(),
            suite_name: suite.map_or_else(String::new, |suite| suite.to_string()),
            key_id: number(&record[4..12]),
            last: (record[2] == 1).then_some(last),
            name: hex::encode(&record[88..88 + length]),
        })
    }

    fn row(&self) -> [String; 6] {
        let none = || String::from("-");
        [
            self.role.into(),
            format!("{} {}", self.suite, self.suite_name),
            self.key_id.to_string(),
            self.last.map_or_else(none, |last| last.group.to_string()),
            self.last.map_or_else(none, |last| last.object.to_string()),
            match self.name.is_empty() {
                true => "(empty)".into(),
                false => self.name.clone(),
            },
        ]
    }

    fn object(&self) -> String {
        let quoted = |text: &str| format!("\"{text}\"");
        let null = || String::from("null");
        let group = |last: Location| quoted(&last.group.to_string());
        let members = [
            ("role", quoted(self.role)),
            ("suite", self.suite.clone()),
            ("suite_name", quoted(&self.suite_name)),
            ("key_id", quoted(&self.key_id.to_string())),
            ("last_group", self.last.map_or_else(null, group)),
            (
                "last_object",
                self.last.map_or_else(null, |last| last.object.to_string()),
            ),
            ("name", quoted(&self.name)),
        ];
        let members = members.map(|(name, value)| format!("\"{name}\": {value}"));
        format!("{{{}}}", members.join(", "))
    }
}

fn listed(store: &[u8]) -> Vec<Listed> {
    store.chunks(RECORD).filter_map(Listed::of).collect()
}

/// A table, and how many records are in use.
pub fn text(store: &[u8]) -> String {
    let tracks = listed(store);
    let rows: Vec<[String; 6]> = [TITLES.map(String::from)]
        .into_iter()
        .chain(tracks.iter().map(Listed::row))
        .collect();
    let total = store.len() / RECORD;
    table(&rows, 2..=4) + &format!("{} of {total} records in use\n", tracks.len())
}

/// The same as JSON. Numbers of 64 bits are strings, since many readers of JSON keep
/// but 53 bits of a number.
pub fn json(store: &[u8]) -> String {
    let tracks: Vec<String> = listed(store).iter().map(Listed::object).collect();
    let tracks = match tracks.is_empty() {
        true => "[]".into(),
        false => format!("[\n    {}\n  ]", tracks.join(",\n    ")),
    };
    let total = store.len() / RECORD;
    format!("{{\n  \"records\": {total},\n  \"tracks\": {tracks}\n}}\n")
}
