// SPDX-License-Identifier: MIT
//! The service bench's log of sealings: records of 16 bytes, KID then counter,
//! big-endian.

use std::collections::BTreeMap;

/// The bytes of a record.
pub const LOG_RECORD: usize = 16;
/// The most bytes of a log: 4,096 records.
pub const MAX_LOG: usize = 4_096 * LOG_RECORD;

/// What is reported of a log: the pairs that stand in it more than once, each
/// once, by rising KID and then counter.
pub fn report(log: &[u8]) -> String {
    if log.len() > MAX_LOG {
        return "too long\n".to_string();
    }
    if !log.len().is_multiple_of(LOG_RECORD) {
        return "bad length\n".to_string();
    }
    let mut times = BTreeMap::<(u64, u64), u64>::new();
    for record in log.chunks_exact(LOG_RECORD) {
        let half = |at: usize| {
            let bytes = record[at..at + 8].try_into();
            u64::from_be_bytes(bytes.expect("a record has two halves"))
        };
        *times.entry((half(0), half(8))).or_default() += 1;
    }
    let listed: Vec<_> = times.iter().filter(|&(_, &n)| n > 1).collect();
    let mut text = format!(
        "records {}\nrepeated {}\n",
        log.len() / LOG_RECORD,
        listed.len()
    );
    for ((kid, ctr), _) in listed {
        text += &format!("{kid:016x} {ctr:016x}\n");
    }
    text
}
