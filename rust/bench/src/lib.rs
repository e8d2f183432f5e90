// SPDX-License-Identifier: MIT
//! Measuring two programs side by side.

#![deny(unsafe_code)]

mod clock;

use clock::now;
use std::ffi::OsString;
use std::path::{Path, PathBuf};
use std::process::ExitCode;
use std::time::Duration;

/// How many runs a median is taken of.
const RUNS: usize = 10;
/// How long a run lasts at least, in processor time.
const RUN_TIME: Duration = Duration::from_millis(10);

/// The median processor time of one call, in nanoseconds.
#[derive(Clone, Copy)]
pub struct Times {
    /// The sealing layer's.
    pub ours: f64,
    /// The reference's.
    pub reference: f64,
}

/// Measures two calls in turns, so that whatever else the machine does falls on
/// both alike.
pub fn measure(mut ours: impl FnMut(), mut reference: impl FnMut()) -> Times {
    let ours_calls = calls_per_run(&mut ours);
    let reference_calls = calls_per_run(&mut reference);
    let mut ours_times = [0.0; RUNS];
    let mut reference_times = [0.0; RUNS];
    for (ours_time, reference_time) in ours_times.iter_mut().zip(&mut reference_times) {
        *ours_time = run_time(ours_calls, &mut ours);
        *reference_time = run_time(reference_calls, &mut reference);
    }
    Times {
        ours: median(ours_times),
        reference: median(reference_times),
    }
}

impl Times {
    /// The time of one of the `count` steps by which `longer` has more.
    pub fn step(self, longer: Times, count: usize) -> Times {
        Times {
            ours: (longer.ours - self.ours) / count as f64,
            reference: (longer.reference - self.reference) / count as f64,
        }
    }
}

/// The folder for the tables that the words behind the program's name give, else
/// `target/bench`. Where they ask for help or are wrong, the program ends with
/// what is answered.
pub fn folder(mut words: impl Iterator<Item = OsString>, usage: &str) -> Result<PathBuf, ExitCode> {
    let folder = match words.next() {
        None => Path::new(env!("CARGO_MANIFEST_DIR")).with_file_name("target/bench"),
        Some(word) if word == "-h" || word == "--help" => {
            println!("{usage}");
            return Err(ExitCode::SUCCESS);
        }
        Some(word) => PathBuf::from(word),
    };
    let is_option = folder.as_os_str().as_encoded_bytes().starts_with(b"-");
    if is_option || words.next().is_some() {
        eprintln!("one folder is taken, and no other option than --help\n\n{usage}");
        return Err(ExitCode::from(64));
    }
    Ok(folder)
}

/// Says how the figures are taken, above the first table.
pub fn print_method() {
    println!(
        "Medians of {RUNS} runs of at least {} ms of processor time, ours and the reference's\n\
         in turns. Output buffers were cleared once before the runs. The last column is\n\
         our time over the reference's: lower is better for us.",
        RUN_TIME.as_millis()
    );
}

/// Says on standard error what is measured now.
pub fn progress(what: &str) {
    eprintln!("bench: {what}");
}

/// Starts a table.
pub fn print_heading(title: &str) {
    println!("\n{title:<44}{:>10} {:>10}      ratio", "ours", "reference");
}

/// Prints a row of times.
pub fn print_time(name: &str, times: Times) {
    print_row(name, "ns", times, |ns| ns);
}

/// Prints a row of rates, for calls that take `bytes` each.
pub fn print_rate(name: &str, bytes: usize, times: Times) {
    print_row(name, "MB/s", times, |ns| bytes as f64 / ns * 1e3);
}

fn print_row(name: &str, unit: &str, times: Times, figure: impl Fn(f64) -> f64) {
    let Times { ours, reference } = times;
    let ratio = ours / reference;
    let (ours, reference) = (figure(ours), figure(reference));
    println!("  {name:<42}{ours:>10.1} {reference:>10.1} {unit:<4} {ratio:>6.2}");
}

/// How many calls fill a run.
fn calls_per_run(call: &mut impl FnMut()) -> u32 {
    let mut calls = 1;
    while run_time(calls, call) * f64::from(calls) < RUN_TIME.as_secs_f64() * 1e9 {
        calls *= 2;
    }
    calls
}

/// The time of one call in a run of `calls`, in nanoseconds.
fn run_time(calls: u32, call: &mut impl FnMut()) -> f64 {
    let start = now();
    for _ in 0..calls {
        call();
    }
    (now() - start).as_secs_f64() * 1e9 / f64::from(calls)
}

fn median(mut times: [f64; RUNS]) -> f64 {
    times.sort_by(f64::total_cmp);
    (times[RUNS / 2 - 1] + times[RUNS / 2]) / 2.0
}
