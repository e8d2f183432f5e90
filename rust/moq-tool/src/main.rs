// SPDX-License-Identifier: MIT
//! `moq`: seals and opens MoQ objects with a store of tracks in a file.

mod arguments;
mod commands;
mod failure;
mod help;
mod listing;

use arguments::Command;
use failure::Failure;
use help::TOOL;
use std::env;
use std::io;
use std::process::ExitCode;
use toolkit::console;
use toolkit::disk::RealDisk;

/// The longest store.
const MAX_STORE: usize = moq::MAX_RECORDS * moq::RECORD;

fn main() -> ExitCode {
    console::main(&TOOL, run, Failure::status)
}

fn run() -> Result<(), Failure> {
    let command = Command::parse(env::args_os().skip(1))?;
    commands::run(command, &mut RealDisk, &mut io::stdout().lock())
}
