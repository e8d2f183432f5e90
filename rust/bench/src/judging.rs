// SPDX-License-Identifier: MIT
//! What judging the whole store costs: calls that are refused right after it.

use crate::stores::{full, UNKNOWN};
use bench::{measure, print_heading, print_time, Times};
use reference::store::Role;
use sframe::Suite;
use std::fmt::Write;
use std::hint::black_box;
use std::path::Path;
use std::{fs, io};

/// Prints the table and writes it to a file.
pub fn run(csv: &Path) -> io::Result<()> {
    print_heading("judging a full store, key number unknown");
    let mut rows = String::from("call,records,ours_ns,reference_ns\n");
    for records in [1, 16, 64, 1_024] {
        for (call, times) in [("remove", remove(records)), ("seal", seal(records))] {
            print_time(&format!("{call}, records: {records}"), times);
            let Times { ours, reference } = times;
            writeln!(rows, "{call},{records},{ours:.1},{reference:.1}")
                .expect("a string takes any text");
        }
    }
    fs::write(csv, rows)
}

fn remove(records: usize) -> Times {
    let mut ours = full(records, Suite::Aes128GcmSha256_128, Role::Sending);
    let mut theirs = ours.clone();
    measure(
        || assert_eq!(sframe::raw::remove(black_box(&mut ours), UNKNOWN), 6),
        || assert!(reference::store::remove(black_box(&mut theirs), UNKNOWN).is_err()),
    )
}

fn seal(records: usize) -> Times {
    let mut ours = full(records, Suite::Aes128GcmSha256_128, Role::Sending);
    let mut theirs = ours.clone();
    let mut room = [0; 64];
    let mut other = room;
    measure(
        || {
            let store = black_box(&mut ours);
            let written = sframe::raw::seal(store, UNKNOWN, &[], &[], &mut room);
            assert_eq!(written.number, 6);
        },
        || {
            let store = black_box(&mut theirs);
            let refused = reference::store::seal(store, UNKNOWN, &[], &[], &mut other);
            assert!(refused.is_err());
        },
    )
}
