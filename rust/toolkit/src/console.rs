// SPDX-License-Identifier: MIT
//! The standard streams: what a run says, and whether a person reads it.

use crate::fault::Fault;
use crate::spec::Tool;
use std::env;
use std::fmt;
use std::fs;
use std::io::{self, IsTerminal, StdoutLock, Write};
use std::os::unix::fs::{FileTypeExt, MetadataExt};
use std::process::ExitCode;
use std::sync::OnceLock;

/// The program's name, in front of what it says on standard error.
static NAME: OnceLock<&str> = OnceLock::new();

/// Where results go that are for standard output.
pub trait Console: Write {
    /// Whether it is a terminal.
    fn is_terminal(&self) -> bool;

    /// Whether it was closed when the run began, as far as that can be told.
    fn was_closed(&self) -> bool {
        false
    }
}

impl Console for StdoutLock<'_> {
    fn is_terminal(&self) -> bool {
        IsTerminal::is_terminal(self)
    }

    /// Rust opens the null device in place of a stream that is closed, for reading
    /// and writing. A shell opens it for writing alone where `>/dev/null` is said.
    fn was_closed(&self) -> bool {
        is_null_device("/proc/self/fd/1") && is_open_for_both("/proc/self/fdinfo/1")
    }
}

fn is_null_device(path: &str) -> bool {
    let device = |path: &str| {
        let metadata = fs::metadata(path).ok()?;
        let file_type = metadata.file_type();
        file_type.is_char_device().then_some(metadata.rdev())
    };
    device(path).is_some_and(|number| device("/dev/null") == Some(number))
}

/// Whether a file is open for reading and writing, by what Linux tells of it: the
/// flags of `open` in octal.
fn is_open_for_both(path: &str) -> bool {
    const ACCESS: u32 = 0o3;
    const BOTH: u32 = 0o2;
    let told = fs::read_to_string(path).unwrap_or_default();
    let flags = told.lines().find_map(|line| line.strip_prefix("flags:"));
    let flags = flags.and_then(|flags| u32::from_str_radix(flags.trim(), 8).ok());
    flags.is_some_and(|flags| flags & ACCESS == BOTH)
}

impl Console for Vec<u8> {
    fn is_terminal(&self) -> bool {
        false
    }
}

/// Writes all of `bytes` to standard output.
pub fn give(out: &mut impl Console, bytes: &[u8]) -> Result<(), Fault> {
    let written = out.write_all(bytes).and_then(|()| out.flush());
    written.map_err(|error| match error.kind() {
        io::ErrorKind::BrokenPipe => Fault::ClosedPipe,
        _ => Fault::io("standard output", error),
    })
}

/// Says which program runs.
pub fn named(name: &'static str) {
    let _ = NAME.set(name);
}

/// Says something on standard error, in one line.
pub fn note(text: impl fmt::Display) {
    let name = NAME.get().copied().unwrap_or("toolkit");
    // Where nobody reads it, the status still tells.
    let _ = writeln!(io::stderr(), "{name}: {text}");
}

/// Prints a line of a demonstration. Where nobody reads it any more, the
/// demonstration ends in silence.
pub fn say(text: fmt::Arguments) {
    let line = format!("{text}\n");
    if let Err(fault) = give(&mut io::stdout().lock(), line.as_bytes()) {
        if !matches!(fault, Fault::ClosedPipe) {
            note(&fault);
        }
        std::process::exit(fault.status().into());
    }
}

/// As `println!`, by [`say`](console::say).
#[macro_export]
macro_rules! say {
    ($($words:tt)*) => { $crate::console::say(format_args!($($words)*)) };
}

/// Runs a tool. What goes wrong is said in a line, unless the output was closed;
/// a wrong command line is told with where the right ones are.
pub fn main<E: fmt::Display>(
    tool: &Tool,
    run: impl FnOnce() -> Result<(), E>,
    status: impl Fn(&E) -> u8,
) -> ExitCode {
    named(tool.name);
    let Err(failure) = run() else {
        return ExitCode::SUCCESS;
    };
    let status = status(&failure);
    if status == Fault::usage("").status() {
        note(format!("{failure}; {}", tool.hint(env::args_os().nth(1))));
    } else if status != Fault::ClosedPipe.status() {
        note(failure);
    }
    ExitCode::from(status)
}
