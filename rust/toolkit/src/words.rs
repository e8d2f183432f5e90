// SPDX-License-Identifier: MIT
//! The words of a command line. None that may be a key by mistake is repeated
//! in a message.

use crate::fault::Fault;
use crate::output::Output;
use crate::place::Place;
use crate::spec::{Spec, Takes, Tool, PAGES};
use std::ffi::{OsStr, OsString};
use std::os::unix::ffi::{OsStrExt, OsStringExt};
use std::path::PathBuf;
use std::time::Duration;

/// What a command line asks for.
pub enum Line {
    /// Something about the tool.
    About(About),
    /// A command, with the words behind it.
    Command(&'static Spec, Words),
}

/// What can be asked about a tool.
#[derive(Clone, Debug, PartialEq, Eq)]
pub enum About {
    /// Help, of one command or of all.
    Help(Option<&'static str>),
    /// The version.
    Version,
    /// A page for man or for a shell.
    Page(String),
}

/// The words behind a command, taken out as they are used.
pub struct Words {
    command: &'static str,
    plain: Vec<OsString>,
    values: Vec<(&'static str, OsString)>,
    flags: Vec<&'static str>,
}

impl Line {
    /// Reads a command line, without the program's name.
    pub fn parse(
        tool: &Tool,
        mut arguments: impl Iterator<Item = OsString>,
    ) -> Result<Line, Fault> {
        let first = arguments.next();
        let name = match first.as_deref() {
            None => return Err(Fault::usage("no command is given")),
            Some(name) => name.to_string_lossy(),
        };
        let name = name.as_ref();
        let rest: Vec<OsString> = arguments.collect();
        match (
            name,
            rest.first().map(|word| word.to_string_lossy()).as_deref(),
        ) {
            ("--help" | "-h", _) | ("help", None) => return Ok(Line::About(About::Help(None))),
            ("--version" | "-V" | "version", _) => return Ok(Line::About(About::Version)),
            ("help", Some(name)) => {
                let spec = tool.command(name).ok_or_else(|| no_command(tool, name))?;
                return Ok(Line::About(About::Help(Some(spec.name))));
            }
            _ => {}
        }
        let spec = tool.command(name).ok_or_else(|| no_command(tool, name))?;
        let options = rest.iter().take_while(|word| *word != "--");
        if options.clone().any(|word| word == "-h" || word == "--help") {
            return Ok(Line::About(About::Help(Some(spec.name))));
        }
        let mut words = Words::parse(tool, spec, rest)?;
        if spec.name != PAGES.name {
            return Ok(Line::Command(spec, words));
        }
        let page = words.plain("which page is missing")?;
        words.finish()?;
        Ok(Line::About(About::Page(page.to_string_lossy().into())))
    }
}

fn no_command(tool: &Tool, name: &str) -> Fault {
    Fault::Usage(match (shown(name), tool.nearest(name)) {
        (Some(""), _) => "the command is an empty word".into(),
        (Some(name), Some(near)) => format!("there is no command {name}; {near} is one"),
        (Some(name), None) => format!("there is no command {name}"),
        (None, _) => "there is no such command".into(),
    })
}

/// A word that is no key, since it has letters and dashes alone and is short.
fn shown(word: &str) -> Option<&str> {
    let plain = |c: char| c.is_ascii_lowercase() || c == '-';
    (word.len() <= 20 && word.chars().all(plain)).then_some(word)
}

impl Words {
    fn parse(tool: &Tool, spec: &'static Spec, words: Vec<OsString>) -> Result<Self, Fault> {
        let mut found = Words {
            command: spec.name,
            plain: vec![],
            values: vec![],
            flags: vec![],
        };
        let mut words = words.into_iter();
        while let Some(word) = words.next() {
            if word == "--" {
                found.plain.extend(words);
                break;
            }
            if !word.as_bytes().starts_with(b"-") || word == "-" {
                found.plain.push(word);
                continue;
            }
            let (name, value) = split(&word);
            let Some(&(name, takes)) = spec.options.iter().find(|(other, _)| *other == name) else {
                return Err(no_option(tool, spec, &name));
            };
            match (takes, value) {
                (Takes::Nothing, None) => found.flags.push(name),
                (Takes::Nothing, Some(_)) => {
                    return Err(Fault::usage(format!("{name} takes no value")));
                }
                _ if found.values.iter().any(|&(other, _)| other == name) => {
                    return Err(Fault::usage(format!("{name} is given twice")));
                }
                (_, value) => {
                    let value = value.or_else(|| words.next());
                    let missing = || Fault::usage(format!("{name} needs a value"));
                    found.values.push((name, value.ok_or_else(missing)?));
                }
            }
        }
        Ok(found)
    }

    /// Whether an option that takes nothing was given.
    pub fn flag(&mut self, name: &str) -> bool {
        let before = self.flags.len();
        self.flags.retain(|&flag| flag != name);
        self.flags.len() < before
    }

    /// The value of an option, if it was given.
    pub fn value(&mut self, name: &str) -> Option<OsString> {
        let at = self.values.iter().position(|&(other, _)| other == name)?;
        Some(self.values.remove(at).1)
    }

    /// The value of an option.
    pub fn required(&mut self, name: &str) -> Result<OsString, Fault> {
        self.value(name)
            .ok_or_else(|| Fault::usage(format!("{name} is missing")))
    }

    /// A number of 64 bits, in decimal or in hex after 0x.
    pub fn number(&mut self, name: &str) -> Result<u64, Fault> {
        let value = self.required(name)?;
        read_number(name, &value)
    }

    /// Likewise, of an option that may be left out.
    pub fn optional_number(&mut self, name: &str) -> Result<Option<u64>, Fault> {
        let value = self.value(name);
        value.map(|value| read_number(name, &value)).transpose()
    }

    /// The next word without a name; `missing` says that there is none.
    pub fn plain(&mut self, missing: &str) -> Result<OsString, Fault> {
        match self.plain.is_empty() {
            true => Err(Fault::usage(missing)),
            false => Ok(self.plain.remove(0)),
        }
    }

    /// The store's file.
    pub fn store(&mut self) -> Result<PathBuf, Fault> {
        self.plain("the store's file is missing").map(PathBuf::from)
    }

    /// Which of two flags was given; true for the first.
    pub fn either(&mut self, one: &str, other: &str) -> Result<bool, Fault> {
        match (self.flag(one), self.flag(other)) {
            (true, false) => Ok(true),
            (false, true) => Ok(false),
            _ => Err(Fault::usage(format!("give one of {one} and {other}"))),
        }
    }

    /// How long to wait for a lock; for ever unless `--wait` says it.
    pub fn wait(&mut self) -> Result<Option<Duration>, Fault> {
        Ok(self.optional_number("--wait")?.map(Duration::from_secs))
    }

    /// A file that may be `-`, or a standard stream where it is left out.
    pub fn place(&mut self, name: &str) -> Place {
        self.value(name).map_or(Place::Standard, Place::from)
    }

    /// Where a result goes, by `--out` and `--force`.
    pub fn output(&mut self) -> Output {
        let named = self.value("--out").map(Place::from);
        Output::new(named, self.flag("--force"))
    }

    /// Checks that every word was used.
    pub fn finish(self) -> Result<(), Fault> {
        let value = self.values.first().map(|&(name, _)| name);
        if let Some(name) = value.or(self.flags.first().copied()) {
            let text = format!("{} takes no {name} here", self.command);
            return Err(Fault::Usage(text));
        }
        match self.plain.first() {
            None => Ok(()),
            Some(_) => Err(Fault::usage("there is an argument too many")),
        }
    }
}

/// The name of an option, and its value where that is behind a `=`.
fn split(word: &OsStr) -> (String, Option<OsString>) {
    let bytes = word.as_bytes();
    let at = bytes.iter().position(|&byte| byte == b'=');
    let name = &bytes[..at.unwrap_or(bytes.len())];
    let value = at.map(|at| OsString::from_vec(bytes[at + 1..].to_vec()));
    (String::from_utf8_lossy(name).into_owned(), value)
}

fn no_option(tool: &Tool, spec: &Spec, name: &str) -> Fault {
    Fault::Usage(match shown(name) {
        Some(name) if tool.has_option(name) => format!("{} takes no {name}", spec.name),
        Some(name) => format!("there is no option {name}"),
        None => "there is no such option".into(),
    })
}

fn read_number(name: &str, value: &OsStr) -> Result<u64, Fault> {
    let text = value.to_str().unwrap_or_default();
    let digits_only = |digits: &str| !digits.starts_with('+');
    match text.strip_prefix("0x") {
        Some(digits) if digits_only(digits) => u64::from_str_radix(digits, 16).ok(),
        None if digits_only(text) => text.parse().ok(),
        _ => None,
    }
    .ok_or_else(|| Fault::usage(format!("{name}: not a number of up to 64 bits")))
}

/// Refuses more than one input from standard input.
pub fn one_standard_input(places: &[(&str, Option<&Place>)]) -> Result<(), Fault> {
    let standard: Vec<&str> = places
        .iter()
        .filter(|(_, place)| *place == Some(&Place::Standard))
        .map(|&(name, _)| name)
        .collect();
    match standard[..] {
        [one, other, ..] => Err(Fault::usage(format!(
            "{one} and {other} cannot both be standard input"
        ))),
        _ => Ok(()),
    }
}
