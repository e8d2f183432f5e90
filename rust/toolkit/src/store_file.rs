// SPDX-License-Identifier: MIT
//! A store in a file, or another file that runs change one after the other.

use crate::console::note;
use crate::disk::{self, Disk, Owner, Status, PRIVATE};
use crate::fault::Fault;
use std::collections::hash_map::RandomState;
use std::ffi::{OsStr, OsString};
use std::fs::{self, File, OpenOptions, TryLockError};
use std::hash::{BuildHasher, Hasher};
use std::io;
use std::os::unix::ffi::OsStrExt;
use std::os::unix::fs::{FileExt, OpenOptionsExt};
use std::path::{Path, PathBuf};
use std::thread;
use std::time::{Duration, Instant};

/// How long to wait for another run that has the store; for ever where nothing
/// is said.
pub type Wait = Option<Duration>;

/// After how long a run says what it waits for.
const SILENT: Duration = Duration::from_secs(1);
/// How often it looks.
const PAUSE: Duration = Duration::from_millis(10);

/// What the lock of a log says once the log is begun. A store's is empty.
pub const LOG: &[u8] = b"log\n";

/// The path of a store. Symbolic links are followed once, so that they lead to
/// the same lock and are not what gets replaced. Hard links cannot be followed:
/// a store that has some is not changed.
#[derive(Clone, Debug, PartialEq, Eq)]
pub struct StoreFile {
    path: PathBuf,
    /// What it is called in messages.
    what: &'static str,
}

/// A lock that is held until it is dropped, at the latest until the process ends.
pub struct Lock {
    file: File,
    path: PathBuf,
}

impl Lock {
    /// What its file says, up to one byte more than a word that is known.
    pub fn word(&self) -> Result<Vec<u8>, Fault> {
        read_word(&self.file).map_err(Fault::at(&self.path))
    }

    /// Has its file say this and nothing else, also after a power cut.
    pub fn write(&self, word: &[u8]) -> Result<(), Fault> {
        let written = self.file.set_len(0).map_err(|error| match error.kind() {
            // It is open for reading alone.
            io::ErrorKind::InvalidInput => io::ErrorKind::PermissionDenied.into(),
            _ => error,
        });
        written
            .and_then(|()| self.file.write_all_at(word, 0))
            .and_then(|()| self.file.sync_all())
            .map_err(Fault::at(&self.path))
    }
}

fn read_word(file: &File) -> io::Result<Vec<u8>> {
    let mut word = vec![0; LOG.len() + 1];
    let length = file.read_at(&mut word, 0)?;
    word.truncate(length);
    Ok(word)
}

impl StoreFile {
    /// The store at `path`, which may not exist yet.
    pub fn at(path: &Path) -> Result<Self, Fault> {
        Self::called("store", path)
    }

    /// Likewise of a file that messages call `what`.
    pub fn called(what: &'static str, path: &Path) -> Result<Self, Fault> {
        if path == Path::new("-") {
            let text = format!("a {what} is a file, and - is a stream; ./- would be a file");
            return Err(Fault::Usage(text));
        }
        if !names_file(path) {
            return Err(Fault::usage(format!("{path:?}: not a file")));
        }
        check_link(path)?;
        let store = StoreFile {
            path: path.canonicalize().unwrap_or_else(|_| path.to_path_buf()),
            what,
        };
        // The lock or the new file of another store could have this name.
        if is_reserved(&store.path) {
            let text = format!("a {what} cannot be named like STORE.lock or .STORE.new");
            return Err(Fault::usage(format!("{path:?}: {text}")));
        }
        Ok(store)
    }

    /// Its path.
    pub fn path(&self) -> &Path {
        &self.path
    }

    /// Whether `path` leads to the same file.
    pub fn is_at(&self, path: &Path) -> bool {
        is_same(&self.path, path)
    }

    /// What is known of the file; `None` where there is none. What is there and
    /// is no file is refused.
    pub fn status(&self, disk: &mut impl Disk) -> Result<Option<Status>, Fault> {
        match disk.status(&self.path).map_err(Fault::at(&self.path))? {
            Some(status) if !status.regular => Err(Fault::unfit(&self.path, "not a file")),
            status => Ok(status),
        }
    }

    /// The file's owner. A file is refused that has a second name, since
    /// replacing it would leave the old counters under that name; and one that
    /// nobody may write to.
    pub fn check_changeable(&self, disk: &mut impl Disk) -> Result<Owner, Fault> {
        let missing = || Fault::at(&self.path)(io::ErrorKind::NotFound.into());
        let status = self.status(disk)?.ok_or_else(missing)?;
        let what = self.what;
        let text = match status.links {
            0 | 1 if status.owner.mode & 0o222 != 0 => return Ok(status.owner),
            0 | 1 => format!("the {what} is read-only (mode {:03o})", status.owner.mode),
            _ => format!("a {what} with several hard links is not changed"),
        };
        Err(Fault::unfit(&self.path, text))
    }

    /// Waits until no other run changes the store, for so long at most; for ever
    /// where nothing is given. The lock's file has the store's owner and mode, and
    /// stays: if it were removed, a run that waits for it and one that makes it
    /// anew would both go on.
    pub fn lock(&self, owner: Option<Owner>, wait: Wait) -> Result<Lock, Fault> {
        let path = self.lock_path();
        let file = open_lock(&path, &temporary(&self.path), owner).map_err(Fault::at(&path))?;
        let begun = Instant::now();
        let mut said = false;
        loop {
            match file.try_lock() {
                Ok(()) => return Ok(Lock { file, path }),
                Err(TryLockError::WouldBlock) => {}
                Err(TryLockError::Error(error)) => return Err(Fault::at(&path)(error)),
            }
            let waited = begun.elapsed();
            if wait.is_some_and(|wait| waited >= wait) {
                let text = format!("{path:?}: another run has the {} locked", self.what);
                return Err(Fault::Busy(text));
            }
            if !said && waited >= SILENT {
                note(format!(
                    "waiting for {path:?}, which another run has locked"
                ));
                said = true;
            }
            thread::sleep(PAUSE);
        }
    }

    /// Where its lock is.
    pub fn lock_path(&self) -> PathBuf {
        self.beside("", ".lock")
    }

    /// What its lock says, which nobody has to hold; nothing where there is none.
    pub fn lock_word(&self) -> Result<Vec<u8>, Fault> {
        let path = self.lock_path();
        match File::open(&path).and_then(|file| read_word(&file)) {
            Err(error) if error.kind() == io::ErrorKind::NotFound => Ok(vec![]),
            word => word.map_err(Fault::at(&path)),
        }
    }

    /// The bytes of the file, up to one more than `longest`.
    pub fn read(&self, disk: &mut impl Disk, longest: usize) -> Result<Vec<u8>, Fault> {
        self.status(disk)?;
        disk.read(&self.path, longest + 1)
            .map_err(Fault::at(&self.path))
    }

    /// Makes the file, where there is none. What is there already gets no lock.
    pub fn make(&self, disk: &mut impl Disk, bytes: &[u8], wait: Wait) -> Result<(), Fault> {
        self.check_free(disk)?;
        let lock = self.lock(None, wait)?;
        self.check_free(disk)?;
        // There was a log once, and its lock is the store's now.
        if lock.word()? == LOG {
            lock.write(b"")?;
        }
        self.replace(disk, bytes, None)
    }

    fn check_free(&self, disk: &mut impl Disk) -> Result<(), Fault> {
        match self.status(disk)? {
            None => Ok(()),
            Some(_) => {
                let what = self.what;
                let text = format!("there is a file already, and a {what} is never made over one");
                Err(Fault::unfit(&self.path, text))
            }
        }
    }

    /// Makes a call on the bytes of the file, up to one more than `longest`, and
    /// keeps them if it is done. What `judge` refuses gets no lock. Once the file
    /// is locked, and before anything is changed, `ready` is called.
    pub fn change<D: Disk, T, E: From<Fault>>(
        &self,
        disk: &mut D,
        longest: usize,
        wait: Wait,
        judge: impl FnOnce(&[u8]) -> Result<(), E>,
        ready: impl FnOnce(&mut D) -> Result<(), Fault>,
        call: impl FnOnce(&mut [u8]) -> Result<T, E>,
    ) -> Result<T, E> {
        judge(&self.read(disk, longest)?)?;
        let owner = self.check_changeable(disk)?;
        let _lock = self.lock(Some(owner), wait)?;
        let owner = self.check_changeable(disk)?;
        let mut bytes = self.read(disk, longest)?;
        ready(disk)?;
        let answer = call(&mut bytes)?;
        self.replace(disk, &bytes, Some(owner))?;
        Ok(answer)
    }

    /// Puts `bytes` in the place of the whole file, and keeps its owner and mode;
    /// a new file is its owner's alone. Whenever this is cut short, the file has
    /// either its old bytes or the new ones; once it is done, the new ones
    /// outlast a power cut.
    pub fn replace(
        &self,
        disk: &mut impl Disk,
        bytes: &[u8],
        owner: Option<Owner>,
    ) -> Result<(), Fault> {
        let new = self.beside(".", ".new");
        // What a stopped run or somebody else left there may be readable to
        // others, or a link.
        disk.remove(&new).map_err(Fault::at(&new))?;
        let mut file = disk.create(&new, PRIVATE).map_err(Fault::at(&new))?;
        let replaced = self.fill(disk, &mut file, &new, bytes, owner);
        if replaced.is_err() {
            // The first failure is the one to tell.
            let _ = disk.remove(&new);
        }
        replaced
    }

    fn fill<D: Disk>(
        &self,
        disk: &mut D,
        file: &mut D::File,
        new: &Path,
        bytes: &[u8],
        owner: Option<Owner>,
    ) -> Result<(), Fault> {
        if let Some(owner) = owner {
            disk.give_to(file, owner).map_err(|error| {
                let text = format!("the {} is not changed, as it", self.what);
                Fault::unfit(&self.path, cannot_be(&text, owner, &error))
            })?;
        }
        disk.write(file, bytes)
            .and_then(|()| disk.sync(file))
            .and_then(|()| disk.rename(new, &self.path))
            .map_err(Fault::at(&self.path))?;
        let folder = folder(&self.path);
        disk.sync_folder(folder).map_err(Fault::at(folder))
    }

    /// A file in the same folder, named after the store.
    fn beside(&self, before: &str, behind: &str) -> PathBuf {
        beside(&self.path, before, behind)
    }
}

fn cannot_be(text: &str, owner: Owner, error: &io::Error) -> String {
    let Owner { user, group, mode } = owner;
    format!("{text} could not stay with user {user}, group {group}, mode {mode:03o}: {error}")
}

/// Opens a lock. One that is not there yet appears at once with its owner and
/// mode, so that no run finds it with others.
fn open_lock(path: &Path, temporary: &Path, owner: Option<Owner>) -> io::Result<File> {
    for _ in 0..3 {
        match OpenOptions::new().read(true).write(true).open(path) {
            Err(error) if error.kind() == io::ErrorKind::NotFound => {}
            // A lock needs no writing, though some file systems ask for it.
            Err(error) if error.kind() == io::ErrorKind::PermissionDenied => {
                return File::open(path).map_err(|_| error);
            }
            Err(error) => return Err(error),
            Ok(file) => {
                if let Some(owner) = owner {
                    // Of an earlier version, or the store's has changed. It locks as it is.
                    let _ = disk::give_to(&file, owner);
                }
                return Ok(file);
            }
        }
        let mut options = OpenOptions::new();
        let options = options.read(true).write(true).create_new(true);
        let file = options.mode(PRIVATE).open(temporary)?;
        let made = match owner {
            Some(owner) => disk::give_to(&file, owner).map_err(|error| {
                let text = "nothing is changed, as store and lock";
                io::Error::other(cannot_be(text, owner, &error))
            }),
            None => Ok(()),
        };
        let made = made.and_then(|()| disk::rename_new(temporary, path));
        match made {
            Ok(()) => return Ok(file),
            Err(error) => {
                let _ = fs::remove_file(temporary);
                if error.kind() != io::ErrorKind::AlreadyExists {
                    return Err(error);
                }
            }
        }
    }
    Err(io::Error::other("the lock comes and goes"))
}

/// Refuses a link that leads nowhere: a file made there would take its place.
pub fn check_link(path: &Path) -> Result<(), Fault> {
    let is_link = fs::symlink_metadata(path).is_ok_and(|found| found.is_symlink());
    match is_link && fs::metadata(path).is_err() {
        true => Err(Fault::unfit(path, "a link that leads nowhere")),
        false => Ok(()),
    }
}

/// Whether a path can be a file's by its form: one that ends in `/` is a folder's.
pub fn names_file(path: &Path) -> bool {
    let bytes = path.as_os_str().as_bytes();
    path.file_name().is_some() && !bytes.ends_with(b"/") && !bytes.ends_with(b"/.")
}

/// Whether a file is named like the lock or the new file of another one.
pub fn is_reserved(path: &Path) -> bool {
    let name = path.file_name().unwrap_or_default().as_encoded_bytes();
    name.ends_with(b".lock") || name.starts_with(b".") && name.ends_with(b".new")
}

/// Whether two paths lead to one file.
pub fn is_same(one: &Path, other: &Path) -> bool {
    use std::os::unix::fs::MetadataExt;
    if let (Ok(one), Ok(other)) = (one.metadata(), other.metadata()) {
        return (one.dev(), one.ino()) == (other.dev(), other.ino());
    }
    match (resolved(one), resolved(other)) {
        (Ok(one), Ok(other)) => one == other,
        _ => one == other,
    }
}

/// A path without links. A file that is not there yet is known by its folder.
fn resolved(path: &Path) -> io::Result<PathBuf> {
    path.canonicalize().or_else(|_| {
        let name = path.file_name().unwrap_or_default();
        Ok(folder(path).canonicalize()?.join(name))
    })
}

/// The folder that a file is in.
pub fn folder(path: &Path) -> &Path {
    match path.parent() {
        Some(folder) if folder != Path::new("") => folder,
        _ => Path::new("."),
    }
}

/// A name beside `path` that no other run has. A process's number would not do:
/// runs in two containers may have the same one, and a folder in common.
pub fn temporary(path: &Path) -> PathBuf {
    let number = RandomState::new().build_hasher().finish();
    beside(path, ".", &format!(".{number:016x}.new"))
}

/// A file in the same folder, named after `path`.
pub fn beside(path: &Path, before: &str, behind: &str) -> PathBuf {
    let mut name = OsString::from(before);
    name.push(path.file_name().unwrap_or(OsStr::new("")));
    name.push(behind);
    path.with_file_name(name)
}
