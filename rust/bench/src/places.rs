// SPDX-License-Identifier: MIT
//! Sealing and opening where the caller hands in a place, right or wrong, and
//! where it does not.

use crate::calls::{open, seal, Place};
use bench::Times;
use sframe::Suite;
use std::fmt::Write;
use std::path::Path;
use std::{fs, io};
use testkit::Generator;

const SUITE: Suite = Suite::Aes128GcmSha256_128;
const LENGTHS: [usize; 2] = [0, 1_200];
const RECORDS: [usize; 3] = [1, 64, 1_024];

/// Prints the table and writes it to a file.
pub fn run(csv: &Path) -> io::Result<()> {
    println!();
    let mut generator = Generator::new(0x6265_6e63_6800_0005);
    println!(
        "places: suite 4, full stores, the key in the last record, windows set back as\n\
         above. The reference takes no place.\n\n\
         call   bytes  records  place   ours ns    ref. ns  ratio"
    );
    let mut rows = String::from("call,bytes,records,place,ours_ns,reference_ns\n");
    for length in LENGTHS {
        let plaintext = generator.bytes(length);
        for records in RECORDS {
            for place in Place::each(records) {
                for (call, times) in [
                    ("seal", seal(SUITE, records, place, &plaintext)),
                    ("open", open(SUITE, records, place, &plaintext)),
                ] {
                    let (name, Times { ours, reference }) = (place.name(), times);
                    println!(
                        "{call}  {length:>6}  {records:>7}  {name:<5}  {ours:>8.0}  {reference:>9.0}  {:>5.2}",
                        ours / reference
                    );
                    writeln!(
                        rows,
                        "{call},{length},{records},{name},{ours:.1},{reference:.1}"
                    )
                    .expect("a string takes any text");
                }
            }
        }
    }
    fs::write(csv, rows)
}
