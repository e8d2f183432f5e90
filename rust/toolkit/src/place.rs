// SPDX-License-Identifier: MIT
//! Where bytes come from and where they go.

use crate::fault::Fault;
use crate::hex;
use std::ffi::OsString;
use std::fs::File;
use std::io::{self, BufRead, BufReader, Read, Seek};
use std::os::fd::AsFd;
use std::path::PathBuf;

/// A file, or the standard stream that `-` names.
#[derive(Clone, Debug, PartialEq, Eq)]
pub enum Place {
    /// Standard input or standard output.
    Standard,
    /// A file.
    File(PathBuf),
}

impl From<OsString> for Place {
    fn from(argument: OsString) -> Self {
        match argument.to_str() {
            Some("-") => Place::Standard,
            _ => Place::File(argument.into()),
        }
    }
}

impl Place {
    /// Reads up to one byte more than `most`, so that what is too long is still
    /// seen to be too long, and no input takes more memory than that.
    pub fn read(&self, most: usize) -> Result<Vec<u8>, Fault> {
        let mut bytes = vec![];
        self.source()
            .and_then(|source| source.take(most as u64 + 1).read_to_end(&mut bytes))
            .map_err(|error| Fault::io(self.name(), error))?;
        Ok(bytes)
    }

    /// As [`read`](Self::read), from hex with any white space between the digits.
    pub fn read_hex(&self, most: usize) -> Result<Vec<u8>, Fault> {
        let is_space = |byte: &io::Result<u8>| matches!(byte, Ok(b) if b.is_ascii_whitespace());
        let digits = self.source().and_then(|source| {
            let digits = source.bytes().filter(|byte| !is_space(byte));
            digits.take(2 * (most + 1)).collect::<io::Result<Vec<u8>>>()
        });
        let digits = digits.map_err(|error| Fault::io(self.name(), error))?;
        hex::decode(&digits).ok_or_else(|| Fault::NotHex(self.name()))
    }

    /// One of the two above.
    pub fn read_as(&self, hex: bool, most: usize) -> Result<Vec<u8>, Fault> {
        match hex {
            true => self.read_hex(most),
            false => self.read(most),
        }
    }

    /// For reading it piece by piece.
    pub fn open(&self) -> Result<Box<dyn BufRead>, Fault> {
        self.source().map_err(self.failed())
    }

    /// The length of a regular file, of standard input what is left to read of one; a
    /// pipe or a device has none yet. To be asked before anything is read.
    pub fn size(&self) -> Result<Option<u64>, Fault> {
        match self {
            Place::Standard => standard_size().map_err(self.failed()),
            Place::File(path) => {
                let metadata = path.metadata().map_err(self.failed())?;
                Ok(metadata.is_file().then_some(metadata.len()))
            }
        }
    }

    /// For `map_err`: reading it failed.
    pub fn failed(&self) -> impl FnOnce(io::Error) -> Fault + '_ {
        |error| Fault::io(self.name(), error)
    }

    fn source(&self) -> io::Result<Box<dyn BufRead>> {
        match self {
            Place::Standard => Ok(Box::new(io::stdin().lock())),
            Place::File(path) => Ok(Box::new(BufReader::new(File::open(path)?))),
        }
    }

    fn name(&self) -> String {
        match self {
            Place::Standard => "standard input".into(),
            Place::File(path) => format!("{path:?}"),
        }
    }
}

fn standard_size() -> io::Result<Option<u64>> {
    let mut file = File::from(io::stdin().as_fd().try_clone_to_owned()?);
    let metadata = file.metadata()?;
    match metadata.is_file() {
        true => Ok(Some(metadata.len().saturating_sub(file.stream_position()?))),
        false => Ok(None),
    }
}
