// SPDX-License-Identifier: MIT
//! The command line.

use crate::failure::Failure;
use crate::help::TOOL;
use moq::{Location, Role};
use std::ffi::OsString;
use std::path::PathBuf;
use toolkit::fault::Fault;
use toolkit::hex;
use toolkit::output::Output;
use toolkit::place::Place;
use toolkit::store_file::Wait;
use toolkit::words::{one_standard_input, About, Line, Words};

/// What a run is asked to do.
pub enum Command {
    About(About),
    Make {
        store: PathBuf,
        tracks: u64,
        wait: Wait,
    },
    Add {
        store: PathBuf,
        role: Role,
        track: OwnTrack,
        suite: u64,
        key: Place,
        hex: bool,
        wait: Wait,
    },
    Remove {
        store: PathBuf,
        track: OwnTrack,
        wait: Wait,
    },
    List {
        store: PathBuf,
        json: bool,
    },
    Seal(Object),
    Open(Object),
}

/// A track, with a name of its own.
pub struct OwnTrack {
    pub name: Vec<u8>,
    pub key_id: u64,
}

/// What sealing and opening are told.
pub struct Object {
    pub store: PathBuf,
    pub track: OwnTrack,
    pub at: Location,
    pub properties: Option<Place>,
    pub input: Place,
    pub output: Output,
    /// Whether the object is in hex.
    pub hex: bool,
    pub wait: Wait,
}

impl Command {
    /// The command that the arguments spell, without the program's name.
    pub fn parse(arguments: impl Iterator<Item = OsString>) -> Result<Command, Failure> {
        let (spec, mut words) = match Line::parse(&TOOL, arguments)? {
            Line::About(about) => return Ok(Command::About(about)),
            Line::Command(spec, words) => (spec, words),
        };
        let command = match spec.name {
            "make" => Command::Make {
                store: words.store()?,
                tracks: words.number("--tracks")?,
                wait: words.wait()?,
            },
            "add" => Command::Add {
                store: words.store()?,
                role: role(&mut words)?,
                track: track(&mut words)?,
                suite: words.number("--suite")?,
                key: words.required("--key")?.into(),
                hex: words.flag("--hex"),
                wait: words.wait()?,
            },
            "remove" => Command::Remove {
                store: words.store()?,
                track: track(&mut words)?,
                wait: words.wait()?,
            },
            "list" => Command::List {
                store: words.store()?,
                json: words.flag("--json"),
            },
            "seal" => Command::Seal(object(&mut words)?),
            "open" => Command::Open(object(&mut words)?),
            other => unreachable!("{other} is offered and not read"),
        };
        words.finish()?;
        Ok(command)
    }
}

fn role(words: &mut Words) -> Result<Role, Failure> {
    match words.either("--sending", "--receiving")? {
        true => Ok(Role::Sending),
        false => Ok(Role::Receiving),
    }
}

fn track(words: &mut Words) -> Result<OwnTrack, Failure> {
    let name = words.required("--name")?;
    let name = name.to_str().and_then(|name| hex::decode(name.as_bytes()));
    Ok(OwnTrack {
        name: name.ok_or_else(|| Fault::NotHex("--name".into()))?,
        key_id: words.number("--key-id")?,
    })
}

fn object(words: &mut Words) -> Result<Object, Failure> {
    let object = Object {
        store: words.store()?,
        track: track(words)?,
        at: Location {
            group: words.number("--group")?,
            object: words.number("--object")?,
        },
        properties: words.value("--properties").map(Place::from),
        input: words.place("--in"),
        output: words.output(),
        hex: words.flag("--hex"),
        wait: words.wait()?,
    };
    let properties = object.properties.as_ref();
    one_standard_input(&[("--in", Some(&object.input)), ("--properties", properties)])?;
    Ok(object)
}
