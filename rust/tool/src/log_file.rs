// SPDX-License-Identifier: MIT
//! A log of sealings in a file: of each frame its key number and counter, 8
//! bytes each, big-endian.

use crate::failure::Failure;
use sframe::{Ctr, Kid, StoreView};
use std::path::Path;
use toolkit::disk::Disk;
use toolkit::fault::Fault;
use toolkit::store_file::{Lock, StoreFile, Wait, LOG};

/// The bytes of a record, and the most of a log that `log_check` reads.
const RECORD: usize = 16;
const MAX_LOG: usize = 65_536;

/// The path of a log. It is replaced as a whole, as a store is: no run that is
/// stopped leaves a part of a record. What it is, its bytes do not tell, so its lock
/// does.
pub struct LogFile(StoreFile);

impl LogFile {
    /// The log at `path`, if there is to be one, of sealings with a store. It may not
    /// exist yet.
    pub fn of(path: Option<&Path>, store: &Path) -> Result<Option<Self>, Failure> {
        let Some(path) = path else {
            return Ok(None);
        };
        let log = StoreFile::called("log", path)?;
        match log.is_at(store) {
            true => Err(Fault::usage("--log is the store").into()),
            false => Ok(Some(LogFile(log))),
        }
    }

    /// Its path.
    pub fn path(&self) -> &Path {
        self.0.path()
    }

    /// Waits until no other run writes to the log, and reads it. What is no log gets
    /// no lock.
    pub fn open(&self, disk: &mut impl Disk, wait: Wait) -> Result<OpenLog<'_>, Failure> {
        self.judge(&self.read(disk)?, &self.0.lock_word()?)?;
        let owner = self.0.status(disk)?.map(|status| status.owner);
        let lock = self.0.lock(owner, wait)?;
        let (pairs, word) = (self.read(disk)?, lock.word()?);
        self.judge(&pairs, &word)?;
        let begun = word == LOG;
        if !begun {
            // A lock that cannot be written to is found before a counter is used.
            lock.write(b"")?;
        }
        Ok(OpenLog {
            file: self,
            lock,
            pairs,
            begun,
        })
    }

    /// The records so far, none where there is no file.
    fn read(&self, disk: &mut impl Disk) -> Result<Vec<u8>, Failure> {
        if self.0.status(disk)?.is_none() {
            return Ok(vec![]);
        }
        self.0.check_changeable(disk)?;
        Ok(self.0.read(disk, MAX_LOG)?)
    }

    /// Refuses a log that is not whole records, or has no room for one more, or is
    /// a store; and every file that this tool did not begin as a log, which may be a
    /// key, or anything else of such a length.
    fn judge(&self, log: &[u8], word: &[u8]) -> Result<(), Failure> {
        let lock = self.0.lock_path();
        let fault = match log.len() {
            length if length % RECORD != 0 => "not a log of whole records".into(),
            length if length >= MAX_LOG => "the log is full: begin another one".into(),
            _ if StoreView::over(log).check().is_ok() => "a store, and not a log".into(),
            _ if word == LOG => return Ok(()),
            0 if word.is_empty() => return Ok(()),
            0 => format!("{lock:?} is there, and is no lock: begin a log of another name"),
            _ => format!(
                "not begun as a log, by {lock:?}: begin a new one, also where this is a log of \
                 an earlier version"
            ),
        };
        Err(Fault::unfit(self.path(), fault).into())
    }
}

/// A log that is locked, with what it holds.
pub struct OpenLog<'a> {
    file: &'a LogFile,
    lock: Lock,
    pairs: Vec<u8>,
    /// Whether the lock says that it is a log's.
    begun: bool,
}

impl OpenLog<'_> {
    /// Puts a record behind those that were read. The lock says that there is a log
    /// before there is one.
    pub fn append(self, disk: &mut impl Disk, Kid(kid): Kid, Ctr(ctr): Ctr) -> Result<(), Failure> {
        if !self.begun {
            self.lock.write(LOG)?;
        }
        let mut log = self.pairs;
        log.extend(kid.to_be_bytes());
        log.extend(ctr.to_be_bytes());
        let owner = self.file.0.status(disk)?.map(|status| status.owner);
        Ok(self.file.0.replace(disk, &log, owner)?)
    }
}
