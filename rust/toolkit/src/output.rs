// SPDX-License-Identifier: MIT
//! A result that is written whole or not at all.

use crate::console::{give, Console};
use crate::disk::{Disk, Owner, PRIVATE, SHARED};
use crate::fault::Fault;
use crate::place::Place;
use crate::store_file::{
    beside, check_link, folder, is_reserved, is_same, names_file, temporary, LOG,
};
use std::fs::{File, OpenOptions};
use std::io::{self, Write};
use std::path::{Path, PathBuf};

/// Where a result goes.
#[derive(Clone, Debug, PartialEq, Eq)]
pub struct Output {
    /// The file or the stream.
    pub place: Place,
    /// Whether it was named, be it as `-`.
    pub named: bool,
    /// Whether it may take the place of a file.
    pub force: bool,
}

/// What a result is.
#[derive(Clone, Copy, Debug, PartialEq, Eq)]
pub enum Content {
    /// Text, which may be shown.
    Text,
    /// Bytes, which are shown on a terminal only where that is asked for.
    Binary,
    /// A key, which is never shown, and takes the place of no file.
    Key,
}

/// The files that a result never takes the place of.
pub struct Spared<'a> {
    /// Each with what it is called in messages.
    pub files: &'a [(&'a str, &'a Path)],
    /// Whether these bytes are a store.
    pub is_store: fn(&[u8]) -> bool,
    /// The longest store.
    pub longest: usize,
}

/// Where a result will be.
enum Plan {
    Standard,
    /// Standard output, which was closed.
    Closed,
    /// A device or a pipe.
    Special(File),
    /// A file that has another name until it is whole.
    File {
        path: PathBuf,
        temporary: PathBuf,
    },
}

/// A place for a result, which has been looked at.
pub struct Slot<'a, F> {
    output: &'a Output,
    plan: Plan,
    /// That of the file which is replaced.
    owner: Option<Owner>,
    mode: u32,
    made: Option<F>,
}

impl Output {
    /// Standard output, unless something else was named.
    pub fn new(named: Option<Place>, force: bool) -> Self {
        Output {
            named: named.is_some(),
            place: named.unwrap_or(Place::Standard),
            force,
        }
    }

    /// Looks at the place, has the result made, and writes it. What is wrong with
    /// the place is found before `make` is called, as far as it can be seen, and
    /// else by [`Slot::make_ready`], which `make` calls before it changes
    /// anything.
    pub fn write<D: Disk, E: From<Fault>>(
        &self,
        disk: &mut D,
        out: &mut impl Console,
        content: Content,
        spared: &Spared,
        make: impl FnOnce(&mut D, &mut Slot<D::File>) -> Result<Vec<u8>, E>,
    ) -> Result<(), E> {
        let mut slot = self.look(disk, out, content, spared)?;
        let written = make(disk, &mut slot).and_then(|bytes| match slot.plan {
            Plan::Standard | Plan::Closed => Ok(give(out, &bytes)?),
            _ => Ok(slot.put(disk, &bytes).and_then(|()| slot.settle(disk))?),
        });
        slot.keep(disk, written)
    }

    /// As [`write`](Self::write), for a result that comes part by part and is never
    /// held as a whole. It goes to a file, since what a stream was given cannot be
    /// taken back.
    pub fn fill<D: Disk, E: From<Fault>>(
        &self,
        disk: &mut D,
        out: &impl Console,
        spared: &Spared,
        fill: impl FnOnce(&mut D, &mut Slot<D::File>) -> Result<(), E>,
    ) -> Result<(), E> {
        let mut slot = self.look(disk, out, Content::Binary, spared)?;
        if !matches!(slot.plan, Plan::File { .. }) {
            let text = "--out must be a file, and no stream, device or pipe";
            return Err(Fault::usage(text).into());
        }
        let written = fill(disk, &mut slot).and_then(|()| Ok(slot.settle(disk)?));
        slot.keep(disk, written)
    }

    fn look<D: Disk>(
        &self,
        disk: &mut D,
        out: &impl Console,
        content: Content,
        spared: &Spared,
    ) -> Result<Slot<'_, D::File>, Fault> {
        let mut slot = Slot {
            output: self,
            plan: Plan::Standard,
            owner: None,
            mode: if content == Content::Key {
                PRIVATE
            } else {
                SHARED
            },
            made: None,
        };
        let Place::File(named) = &self.place else {
            return match (out.is_terminal(), content, self.named) {
                (true, Content::Key, _) => Err(Fault::usage("a key is not shown on a terminal")),
                (true, Content::Binary, false) => Err(Fault::usage(
                    "the result is not text, and would go to the terminal: \
                     give --out FILE, or --out - if that is meant",
                )),
                _ if out.was_closed() => {
                    slot.plan = Plan::Closed;
                    match content {
                        Content::Key => Err(closed()),
                        _ => Ok(slot),
                    }
                }
                _ => Ok(slot),
            };
        };
        spare(named, spared)?;
        // A link is not what gets replaced.
        let path = named.canonicalize().unwrap_or_else(|_| named.clone());
        let status = disk.status(&path).map_err(Fault::at(named))?;
        if status.is_none() {
            spare_logs(disk, &path)?;
        }
        if let Some(status) = status {
            if !status.regular {
                let opened = OpenOptions::new().write(true).open(&path);
                slot.plan = Plan::Special(opened.map_err(Fault::at(named))?);
                return Ok(slot);
            }
            match (content, self.force) {
                (Content::Key, _) => {
                    let text = "there is a file already, and a key is never written over one";
                    return Err(Fault::unfit(named, text));
                }
                (_, false) => {
                    let text = "there is a file already; --force would replace it";
                    return Err(Fault::unfit(named, text));
                }
                (_, true) => spare_stores_and_keys(disk, &path, status.owner.mode, spared)?,
            }
            slot.owner = Some(status.owner);
        }
        let temporary = temporary(&path);
        slot.plan = Plan::File { path, temporary };
        Ok(slot)
    }
}

impl<F> Slot<'_, F> {
    /// Refuses a place where the result would be lost.
    pub fn check_kept(&self) -> Result<(), Fault> {
        match self.plan {
            Plan::Closed => Err(closed()),
            _ => Ok(()),
        }
    }

    /// Makes the file, under another name, that the result will be written to.
    /// Whoever has to wait before calls this behind the wait: a run that is
    /// interrupted there leaves nothing.
    pub fn make_ready(&mut self, disk: &mut impl Disk<File = F>) -> Result<(), Fault> {
        self.check_kept()?;
        let (Plan::File { temporary, .. }, Place::File(named)) = (&self.plan, &self.output.place)
        else {
            return Ok(());
        };
        if self.made.is_some() {
            return Ok(());
        }
        let created = disk.create(temporary, self.mode);
        let file = self.made.insert(created.map_err(Fault::at(named))?);
        match self.owner {
            Some(owner) => disk.give_to(file, owner).map_err(Fault::at(named)),
            None => Ok(()),
        }
    }

    /// Puts bytes behind those that were put there.
    pub fn put(&mut self, disk: &mut impl Disk<File = F>, bytes: &[u8]) -> Result<(), Fault> {
        self.make_ready(disk)?;
        let Place::File(named) = &self.output.place else {
            return Ok(());
        };
        match (&mut self.plan, &mut self.made) {
            (Plan::Special(file), _) => file.write_all(bytes),
            (_, Some(file)) => disk.write(file, bytes),
            _ => Ok(()),
        }
        .map_err(Fault::at(named))
    }

    /// Gives a file that is whole its name.
    fn settle(&mut self, disk: &mut impl Disk<File = F>) -> Result<(), Fault> {
        let (Plan::File { path, temporary }, Some(file), Place::File(named)) =
            (&self.plan, &mut self.made, &self.output.place)
        else {
            return Ok(());
        };
        disk.sync(file)
            .and_then(|()| match self.output.force {
                true => disk.rename(temporary, path),
                false => disk.rename_new(temporary, path),
            })
            .map_err(Fault::at(named))?;
        let folder = folder(path);
        match disk.sync_folder(folder) {
            // The result is there, also where the folder cannot be read.
            Err(error) if error.kind() == io::ErrorKind::PermissionDenied => Ok(()),
            synced => synced.map_err(Fault::at(folder)),
        }
    }

    /// Removes what was written where the result has failed, which stays the
    /// failure to tell.
    fn keep<E>(&self, disk: &mut impl Disk<File = F>, written: Result<(), E>) -> Result<(), E> {
        if let (Err(_), Plan::File { temporary, .. }, Some(_)) = (&written, &self.plan, &self.made)
        {
            let _ = disk.remove(temporary);
        }
        written
    }
}

/// A result that uses something up must not be lost.
fn closed() -> Fault {
    let text = "closed, or /dev/null opened for reading too: give --out FILE, or --out /dev/null";
    Fault::io("standard output", io::Error::other(text))
}

/// Refuses a path that no result goes to, whatever is there.
fn spare(path: &Path, spared: &Spared) -> Result<(), Fault> {
    if !names_file(path) {
        return Err(Fault::usage(format!("--out {path:?}: not a file")));
    }
    for (what, other) in spared.files {
        if is_same(path, other) {
            return Err(Fault::usage(format!("--out is {what}")));
        }
    }
    if is_reserved(path) {
        let text = "--out cannot be named like STORE.lock or .STORE.new";
        return Err(Fault::usage(text));
    }
    check_link(path)
}

/// Refuses the name of a log that is gone. Its lock would say of the result that it is
/// a log, which records may be put behind.
fn spare_logs(disk: &mut impl Disk, path: &Path) -> Result<(), Fault> {
    let lock = beside(path, "", ".lock");
    match disk.read(&lock, LOG.len() + 1) {
        Ok(word) if word == LOG => {
            let text = format!("the name of a log, by {lock:?}: take another, or remove the lock");
            Err(Fault::unfit(path, text))
        }
        _ => Ok(()),
    }
}

/// Refuses a file that is a store or seems to be a key, also where a file may be
/// replaced.
fn spare_stores_and_keys(
    disk: &mut impl Disk,
    path: &Path,
    mode: u32,
    spared: &Spared,
) -> Result<(), Fault> {
    let lock = beside(path, "", ".lock");
    let locked = disk.status(&lock).map_err(Fault::at(&lock))?.is_some();
    let bytes = disk
        .read(path, spared.longest + 1)
        .map_err(Fault::at(path))?;
    let text = if locked || (spared.is_store)(&bytes) {
        "a store, a log or another file that has a lock is never replaced"
    } else if mode & 0o077 == 0 && is_like_a_key(&bytes) {
        "16 to 64 bytes for their owner alone may be a key: not replaced; remove it first"
    } else {
        return Ok(());
    };
    Err(Fault::unfit(path, text))
}

fn is_like_a_key(bytes: &[u8]) -> bool {
    let digits: Vec<u8> = bytes
        .iter()
        .copied()
        .filter(|byte| !byte.is_ascii_whitespace())
        .collect();
    let is_length = |length: usize| (16..=64).contains(&length);
    is_length(bytes.len())
        || is_length(digits.len() / 2) && digits.iter().all(u8::is_ascii_hexdigit)
}
