// SPDX-License-Identifier: MIT
//! The command line.

use crate::failure::Failure;
use crate::help::TOOL;
use crate::pieces::{Check, SealPieces};
use sframe::{Ctr, EpochBits, GroupParts, GroupWidths, Kid, Role};
use std::ffi::OsString;
use std::path::PathBuf;
use toolkit::fault::Fault;
use toolkit::output::Output;
use toolkit::place::Place;
use toolkit::store_file::Wait;
use toolkit::words::{one_standard_input, About, Line, Words};

/// What a run is asked to do.
#[derive(Debug, PartialEq, Eq)]
pub enum Command {
    About(About),
    Make {
        store: PathBuf,
        keys: u64,
        wait: Wait,
    },
    Keygen {
        bytes: u64,
        hex: bool,
        output: Output,
    },
    Add {
        store: PathBuf,
        role: Role,
        kid: Kid,
        suite: u64,
        key: Place,
        hex: bool,
        wait: Wait,
    },
    Remove {
        store: PathBuf,
        kid: Kid,
        wait: Wait,
    },
    List {
        store: PathBuf,
        json: bool,
    },
    Seal {
        store: PathBuf,
        kid: Kid,
        offset: u64,
        streams: Streams,
        log: Option<PathBuf>,
        wait: Wait,
    },
    Open {
        store: PathBuf,
        streams: Streams,
        wait: Wait,
    },
    SealPieces(SealPieces),
    Check(Check),
    Report {
        store: PathBuf,
        kid: Kid,
    },
    WriteHeader {
        kid: Kid,
        ctr: Ctr,
        offset: u64,
    },
    ReadHeader {
        frame: Place,
        hex: bool,
    },
    Ratchet {
        suite: u64,
        key: Place,
        hex: bool,
        steps: u64,
        output: Output,
    },
    RatchetKid {
        generation: u64,
        step: u64,
        bits: u64,
    },
    GroupKid {
        parts: GroupParts,
        widths: GroupWidths,
    },
    GroupParts {
        kid: Kid,
        widths: GroupWidths,
    },
    ChangeEpoch {
        store: PathBuf,
        epoch: EpochBits,
        wait: Wait,
    },
}

/// What sealing and opening read and write.
#[derive(Debug, PartialEq, Eq)]
pub struct Streams {
    pub input: Place,
    pub output: Output,
    pub metadata: Option<Place>,
    /// Whether the frame is in hex.
    pub hex: bool,
}

impl Command {
    /// The command that the arguments spell, without the program's name.
    pub fn parse(arguments: impl Iterator<Item = OsString>) -> Result<Command, Failure> {
        let (spec, mut words) = match Line::parse(&TOOL, arguments)? {
            Line::About(about) => return Ok(Command::About(about)),
            Line::Command(spec, words) => (spec, words),
        };
        let command = match spec.name {
            "keygen" => Command::Keygen {
                bytes: words.optional_number("--bytes")?.unwrap_or(32),
                hex: words.flag("--hex"),
                output: key_output(&mut words)?,
            },
            "make" => Command::Make {
                store: words.store()?,
                keys: words.number("--keys")?,
                wait: words.wait()?,
            },
            "add" => Command::Add {
                store: words.store()?,
                role: role(&mut words)?,
                kid: Kid(words.number("--kid")?),
                suite: words.number("--suite")?,
                key: words.required("--key")?.into(),
                hex: words.flag("--hex"),
                wait: words.wait()?,
            },
            "remove" => Command::Remove {
                store: words.store()?,
                kid: Kid(words.number("--kid")?),
                wait: words.wait()?,
            },
            "list" => Command::List {
                store: words.store()?,
                json: words.flag("--json"),
            },
            "seal" => Command::Seal {
                store: words.store()?,
                kid: Kid(words.number("--kid")?),
                offset: offset(&mut words)?,
                streams: streams(&mut words)?,
                log: log(&mut words)?,
                wait: words.wait()?,
            },
            "open" => Command::Open {
                store: words.store()?,
                streams: streams(&mut words)?,
                wait: words.wait()?,
            },
            "seal-pieces" => {
                let log = log(&mut words)?;
                Command::SealPieces(SealPieces::parse(&mut words, log)?)
            }
            "check" => Command::Check(Check::parse(&mut words)?),
            "report" => Command::Report {
                store: words.store()?,
                kid: Kid(words.number("--kid")?),
            },
            "header" => header(&mut words)?,
            "ratchet" => Command::Ratchet {
                suite: words.number("--suite")?,
                key: words.required("--key")?.into(),
                hex: words.flag("--hex"),
                steps: words.number("--steps")?,
                output: key_output(&mut words)?,
            },
            "kid" => Command::RatchetKid {
                generation: words.number("--generation")?,
                step: words.number("--step")?,
                bits: words.number("--bits")?,
            },
            "group-kid" => Command::GroupKid {
                parts: GroupParts {
                    context: words.number("--context")?,
                    index: words.number("--index")?,
                    epoch: words.number("--epoch")?,
                },
                widths: widths(&mut words)?,
            },
            "group-parts" => Command::GroupParts {
                kid: Kid(words.number("--kid")?),
                widths: widths(&mut words)?,
            },
            "change-epoch" => Command::ChangeEpoch {
                store: words.store()?,
                epoch: EpochBits {
                    width: words.number("--epoch-width")?,
                    bits: words.number("--epoch-bits")?,
                },
                wait: words.wait()?,
            },
            other => unreachable!("{other} is offered and not read"),
        };
        words.finish()?;
        Ok(command)
    }
}

/// Where the result stands in what is written; 0 unless it is given.
fn offset(words: &mut Words) -> Result<u64, Failure> {
    Ok(words.optional_number("--offset")?.unwrap_or(0))
}

fn role(words: &mut Words) -> Result<Role, Failure> {
    match words.either("--sending", "--receiving")? {
        true => Ok(Role::Sending),
        false => Ok(Role::Receiving),
    }
}

fn streams(words: &mut Words) -> Result<Streams, Failure> {
    let streams = Streams {
        input: words.place("--in"),
        output: words.output(),
        metadata: words.value("--metadata").map(Place::from),
        hex: words.flag("--hex"),
    };
    let metadata = streams.metadata.as_ref();
    one_standard_input(&[("--in", Some(&streams.input)), ("--metadata", metadata)])?;
    Ok(streams)
}

fn log(words: &mut Words) -> Result<Option<PathBuf>, Failure> {
    match words.value("--log").map(Place::from) {
        None => Ok(None),
        Some(Place::File(path)) => Ok(Some(path)),
        Some(Place::Standard) => {
            let text = "--log is read and replaced, so it must be a file";
            Err(Fault::usage(text).into())
        }
    }
}

fn header(words: &mut Words) -> Result<Command, Failure> {
    match words.value("--in") {
        Some(frame) => Ok(Command::ReadHeader {
            frame: frame.into(),
            hex: words.flag("--hex"),
        }),
        None => Ok(Command::WriteHeader {
            kid: Kid(words.number("--kid")?),
            ctr: Ctr(words.number("--ctr")?),
            offset: offset(words)?,
        }),
    }
}

/// A key goes to standard output only where that is said.
fn key_output(words: &mut Words) -> Result<Output, Failure> {
    let place = words.required("--out")?.into();
    Ok(Output::new(Some(place), false))
}

fn widths(words: &mut Words) -> Result<GroupWidths, Failure> {
    Ok(GroupWidths {
        index: words.number("--index-width")?,
        epoch: words.number("--epoch-width")?,
    })
}
