// SPDX-License-Identifier: MIT
//! Why a store is not sound, in words. The layer judges; this only explains.

use sframe::{Suite, MAX_COUNTER, MAX_RECORDS, RECORD};

const SENDING: u8 = 1;
const RECEIVING: u8 = 2;
const RETIRED: u8 = 3;

/// Which rule the bytes break first, and where; `None` where they break none.
pub fn of(store: &[u8]) -> Option<String> {
    let length = store.len();
    if length == 0 {
        return Some("the file is empty".into());
    }
    if length > MAX_RECORDS * RECORD {
        return Some(format!(
            "the file has more bytes than {MAX_RECORDS} records of {RECORD}"
        ));
    }
    let records = || store.chunks(RECORD).enumerate();
    let broken = records().find_map(|(place, bytes)| {
        let why = match bytes.len() {
            RECORD => in_record(bytes),
            rest => Some(format!("has {rest} bytes, where a record has {RECORD}")),
        };
        why.map(|why| at(place, &why))
    });
    let broken = broken.or_else(|| in_order(store))?;
    match is_of_tracks(store) {
        true => Some("it is laid out as a track store, which is for moq".into()),
        false => Some(broken),
    }
}

/// The records of a track store, `docs/TRACKS.md`: how long one is, where its name
/// begins, and how many there are at most.
const TRACK: usize = 344;
const NAME: usize = 88;
const MAX_TRACKS: usize = 16;

/// Whether the bytes look like a track store.
fn is_of_tracks(store: &[u8]) -> bool {
    let is_track = |track: &[u8]| {
        let name = number(&track[24..26]) as usize;
        let rest = NAME + name;
        match track[0] {
            0 => is_zero(track),
            SENDING | RECEIVING | RETIRED => {
                let suite = Suite::from_number(track[1].into()).is_some();
                let zeros = is_zero(&track[3..4]) && is_zero(&track[26..28]);
                suite && track[2] <= 1 && zeros && track.get(rest..).is_some_and(is_zero)
            }
            _ => false,
        }
    };
    store.len().is_multiple_of(TRACK)
        && store.len() <= MAX_TRACKS * TRACK
        && store.chunks(TRACK).all(is_track)
}

fn at(place: usize, why: &str) -> String {
    format!("record {} {why}", place + 1)
}

fn is_zero(bytes: &[u8]) -> bool {
    bytes.iter().all(|&byte| byte == 0)
}

fn number(bytes: &[u8]) -> u64 {
    bytes
        .iter()
        .fold(0, |number, &byte| number << 8 | u64::from(byte))
}

fn in_record(bytes: &[u8]) -> Option<String> {
    let (mark, spent) = (bytes[0], bytes[2]);
    match mark {
        0 => return (!is_zero(bytes)).then(|| "is empty by its first byte, and holds more".into()),
        SENDING | RECEIVING | RETIRED => {}
        _ => return Some(format!("begins with {mark}, where 0 to 3 are roles")),
    }
    let Some(suite) = Suite::from_number(bytes[1].into()) else {
        return Some(format!("has suite {}, where they are 1 to 5", bytes[1]));
    };
    let (counter, window) = (number(&bytes[12..20]), &bytes[80..]);
    let (key, past_key) = bytes[32..80].split_at(suite.nk());
    let text = if bytes[3] == 0 {
        "has 0 in byte 3: a store of an earlier version"
    } else if bytes[3] != 1 {
        "has another layout by byte 3 than 1"
    } else if spent > 1 {
        "has neither 0 nor 1 in byte 2, which says whether the last counter is used"
    } else if mark == RECEIVING && (spent, counter) != (0, 0) {
        "is receiving, and has a counter for sending"
    } else if spent == 1 && counter != MAX_COUNTER {
        "has used its last counter by byte 2, and its counter is another"
    } else if mark == RETIRED && !(is_zero(&bytes[20..32]) && is_zero(key) && is_zero(past_key)) {
        "is retired, and holds a key"
    } else if mark != RETIRED && !is_zero(past_key) {
        "has a key that is longer than its suite's"
    } else if mark != RECEIVING && !is_zero(window) {
        "is not receiving, and has a window"
    } else {
        return in_window(number(&window[..8]), number(&window[8..])).map(String::from);
    };
    Some(text.into())
}

fn in_window(highest: u64, mask: u64) -> Option<&'static str> {
    if mask == 0 {
        (highest != 0).then_some("has opened nothing by its window, and a highest counter")
    } else if mask & 1 == 0 {
        Some("has a window without the highest counter")
    } else if u64::from(mask.ilog2()) > highest {
        Some("has a window with counters below 0")
    } else {
        None
    }
}

fn in_order(store: &[u8]) -> Option<String> {
    let records: Vec<&[u8]> = store.chunks(RECORD).collect();
    records.windows(2).enumerate().find_map(|(place, pair)| {
        let (one, next) = (pair[0], pair[1]);
        let why = match (one[0], next[0]) {
            (_, 0) => return None,
            (0, _) => "stands behind an empty one",
            _ if number(&one[4..12]) < number(&next[4..12]) => return None,
            _ => "has a key number that is not above the one before",
        };
        Some(at(place + 1, why))
    })
}
