// SPDX-License-Identifier: MIT
//! Sealing and opening whole frames.

use crate::calls::{open, seal, Place};
use bench::Times;
use sframe::Suite;
use std::fmt::Write;
use std::path::Path;
use std::{fs, io};
use testkit::Generator;

const LENGTHS: [usize; 4] = [0, 160, 1_200, 32_768];
const RECORDS: [usize; 2] = [1, 64];

/// Prints the table and writes it to a file.
pub fn run(csv: &Path) -> io::Result<()> {
    println!();
    let mut generator = Generator::new(0x6265_6e63_6800_0002);
    println!(
        "frames: the store is judged and the key made ready anew for each frame. Full\n\
         stores, the key in the last record; no metadata; headers of 6 bytes; plaintext,\n\
         store and room stay in place from frame to frame, so they are in the cache. One\n\
         frame is opened again and again: the window is set back before each opening,\n\
         within the time, to where the frame's counter is the next.\n\n\
         call  suite   bytes  records   ours ns    ref. ns  ours MB/s  ref. MB/s  ratio"
    );
    let mut rows = String::from("call,suite,bytes,records,ours_ns,reference_ns\n");
    for suite in Suite::ALL {
        for length in LENGTHS {
            let plaintext = generator.bytes(length);
            for records in RECORDS {
                for (call, times) in [
                    ("seal", seal(suite, records, Place::None, &plaintext)),
                    ("open", open(suite, records, Place::None, &plaintext)),
                ] {
                    let suite = suite.number();
                    print(call, suite, length, records, times);
                    let Times { ours, reference } = times;
                    writeln!(
                        rows,
                        "{call},{suite},{length},{records},{ours:.1},{reference:.1}"
                    )
                    .expect("a string takes any text");
                }
            }
        }
    }
    fs::write(csv, rows)
}

fn print(call: &str, suite: u64, length: usize, records: usize, times: Times) {
    let Times { ours, reference } = times;
    let rate = |ns: f64| match length {
        0 => "-".to_string(),
        _ => format!("{:.1}", length as f64 / ns * 1e3),
    };
    println!(
        "{call}  {suite:>5}  {length:>6}  {records:>7}  {ours:>8.0}  {reference:>9.0}  {:>9}  {:>9}  {:>5.2}",
        rate(ours),
        rate(reference),
        ours / reference
    );
}
