// SPDX-License-Identifier: MIT
//! `sframe`: seals and opens frames with a store of keys in a file.

mod arguments;
mod commands;
mod diagnosis;
mod failure;
mod fingerprint;
mod help;
mod listing;
mod log_file;
mod pieces;
#[cfg(test)]
mod tests;

use arguments::Command;
use failure::Failure;
use help::TOOL;
use std::env;
use std::io;
use std::process::ExitCode;
use toolkit::console;
use toolkit::disk::RealDisk;

/// The longest store.
const MAX_STORE: usize = sframe::MAX_RECORDS * sframe::RECORD;

fn main() -> ExitCode {
    console::main(&TOOL, run, Failure::status)
}

fn run() -> Result<(), Failure> {
    let command = Command::parse(env::args_os().skip(1))?;
    commands::run(command, &mut RealDisk, &mut io::stdout().lock())
}
