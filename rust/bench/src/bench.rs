// SPDX-License-Identifier: MIT
//! Times of the calls that the sealing layer offers.

mod calls;
#[cfg(has_earlier)]
mod earlier;
mod frames;
mod headers;
mod judging;
mod others;
mod pieces;
mod places;
mod stores;

use bench::{print_method, progress};
use std::path::Path;
use std::process::ExitCode;
use std::{env, fs, io};

const USAGE: &str = "\
usage: bench [FOLDER]

Measures headers, sealing and opening, the judging of stores, places, and other
libraries where they are installed, each beside the reference. It takes about a
minute of processor time, says on standard error what it is at, prints tables,
and leaves them as CSV files in FOLDER, else in rust/target/bench:
frames.csv, judging.csv, places.csv, libraries.csv, and earlier.csv where an
earlier library is built in. scripts/plot draws frames.csv.

When it is built, by cargo run --release -p bench:
  SFRAME_LIB_DIR      the folder of libsframe_c.a, else target/staticlib
  SFRAME_EARLIER_DIR  the folder of an earlier libsframe_c.a to compare with";

/// Takes the folder that the tables are written to as CSV files.
fn main() -> ExitCode {
    if env::args_os()
        .nth(1)
        .is_some_and(|word| word == others::CHILD)
    {
        others::child();
        return ExitCode::SUCCESS;
    }
    let folder = match bench::folder(env::args_os().skip(1), USAGE) {
        Ok(folder) => folder,
        Err(code) => return code,
    };
    match run(&folder) {
        Ok(()) => ExitCode::SUCCESS,
        Err(error) => {
            eprintln!("bench: {}: {error}", folder.display());
            ExitCode::FAILURE
        }
    }
}

fn run(folder: &Path) -> io::Result<()> {
    fs::create_dir_all(folder)?;
    print_method();
    progress("1 of 7: headers");
    headers::run();
    progress("2 of 7: frames");
    frames::run(&folder.join("frames.csv"))?;
    progress("3 of 7: judging the store");
    judging::run(&folder.join("judging.csv"))?;
    progress("4 of 7: places");
    places::run(&folder.join("places.csv"))?;
    progress("5 of 7: pieces");
    pieces::run(&folder.join("pieces.csv"))?;
    progress("6 of 7: an earlier library");
    #[cfg(has_earlier)]
    earlier::run(&folder.join("earlier.csv"))?;
    #[cfg(not(has_earlier))]
    println!("\nno earlier library: SFRAME_EARLIER_DIR names no folder of one");
    progress("7 of 7: other libraries");
    others::run(&folder.join("libraries.csv"))?;
    println!("\nthe tables are in {} as CSV files", folder.display());
    Ok(())
}
