// SPDX-License-Identifier: MIT
//! The steps on a disk by which files are replaced, one by one, so that tests
//! can stop between any two of them.

use std::fs::{self, File, OpenOptions, Permissions};
use std::io::{self, Write};
use std::os::unix::fs::{fchown, MetadataExt, OpenOptionsExt, PermissionsExt};
use std::path::Path;

/// For a file that its owner alone may read and write.
pub const PRIVATE: u32 = 0o600;
/// For a file that whoever the user's mask allows may read and write.
pub const SHARED: u32 = 0o666;

/// Whose a file is, and who may do what with it.
#[derive(Clone, Copy, Debug, PartialEq, Eq)]
pub struct Owner {
    /// The user's number.
    pub user: u32,
    /// The group's number.
    pub group: u32,
    /// The nine bits of permission, and the three above them.
    pub mode: u32,
}

impl Owner {
    /// The owner of a file.
    pub fn of(metadata: &fs::Metadata) -> Self {
        Owner {
            user: metadata.uid(),
            group: metadata.gid(),
            mode: metadata.mode() & 0o7777,
        }
    }
}

/// What is known of a file without reading it.
#[derive(Clone, Copy, Debug, PartialEq, Eq)]
pub struct Status {
    /// Whether it is a file with bytes, and not a folder, a device or a pipe.
    pub regular: bool,
    /// How many names (hard links) it has.
    pub links: u64,
    /// Whose it is.
    pub owner: Owner,
}

/// A disk with files in folders.
pub trait Disk {
    /// An open file.
    type File;

    /// What is at `path`, where links lead; `None` where there is nothing.
    fn status(&mut self, path: &Path) -> io::Result<Option<Status>>;
    /// The first `most` bytes of a file.
    fn read(&mut self, path: &Path, most: usize) -> io::Result<Vec<u8>>;
    /// Removes a file, if there is one. A link is removed, not what it leads to.
    fn remove(&mut self, path: &Path) -> io::Result<()>;
    /// Makes a file for writing, where nothing has that name. The user's mask
    /// may take permissions away.
    fn create(&mut self, path: &Path, mode: u32) -> io::Result<Self::File>;
    /// Gives a file to an owner, with that mode.
    fn give_to(&mut self, file: &mut Self::File, owner: Owner) -> io::Result<()>;
    /// Writes to a file.
    fn write(&mut self, file: &mut Self::File, bytes: &[u8]) -> io::Result<()>;
    /// Returns once what was written to a file outlasts a power cut.
    fn sync(&mut self, file: &mut Self::File) -> io::Result<()>;
    /// Gives a file another name, in place of the file that has that name.
    fn rename(&mut self, from: &Path, to: &Path) -> io::Result<()>;
    /// Gives a file another name, unless there is a file of that name.
    fn rename_new(&mut self, from: &Path, to: &Path) -> io::Result<()>;
    /// Returns once the names in a folder outlast a power cut.
    fn sync_folder(&mut self, folder: &Path) -> io::Result<()>;
}

/// The machine's own disk.
pub struct RealDisk;

impl Disk for RealDisk {
    type File = File;

    fn status(&mut self, path: &Path) -> io::Result<Option<Status>> {
        match fs::metadata(path) {
            Ok(metadata) => Ok(Some(Status {
                regular: metadata.is_file(),
                links: metadata.nlink(),
                owner: Owner::of(&metadata),
            })),
            Err(error) if error.kind() == io::ErrorKind::NotFound => Ok(None),
            Err(error) => Err(error),
        }
    }

    fn read(&mut self, path: &Path, most: usize) -> io::Result<Vec<u8>> {
        use std::io::Read;
        let mut bytes = vec![];
        File::open(path)?
            .take(most as u64)
            .read_to_end(&mut bytes)?;
        Ok(bytes)
    }

    fn remove(&mut self, path: &Path) -> io::Result<()> {
        match fs::remove_file(path) {
            Err(error) if error.kind() == io::ErrorKind::NotFound => Ok(()),
            result => result,
        }
    }

    fn create(&mut self, path: &Path, mode: u32) -> io::Result<File> {
        let mut options = OpenOptions::new();
        options.write(true).create_new(true).mode(mode).open(path)
    }

    fn give_to(&mut self, file: &mut File, owner: Owner) -> io::Result<()> {
        give_to(file, owner)
    }

    fn write(&mut self, file: &mut File, bytes: &[u8]) -> io::Result<()> {
        file.write_all(bytes)
    }

    fn sync(&mut self, file: &mut File) -> io::Result<()> {
        file.sync_all()
    }

    fn rename(&mut self, from: &Path, to: &Path) -> io::Result<()> {
        fs::rename(from, to)
    }

    fn rename_new(&mut self, from: &Path, to: &Path) -> io::Result<()> {
        rename_new(from, to)
    }

    fn sync_folder(&mut self, folder: &Path) -> io::Result<()> {
        File::open(folder)?.sync_all()
    }
}

/// Gives a file to an owner, with that mode. What is so already is not asked
/// for: only root gives files away.
pub fn give_to(file: &File, owner: Owner) -> io::Result<()> {
    let now = Owner::of(&file.metadata()?);
    if (now.user, now.group) != (owner.user, owner.group) {
        let changed = |old, new| (old != new).then_some(new);
        fchown(
            file,
            changed(now.user, owner.user),
            changed(now.group, owner.group),
        )?;
    }
    if Owner::of(&file.metadata()?) != owner {
        file.set_permissions(Permissions::from_mode(owner.mode))?;
    }
    match Owner::of(&file.metadata()?) == owner {
        true => Ok(()),
        false => Err(io::Error::other("the file system keeps no owner or mode")),
    }
}

/// Gives a file another name, unless there is a file of that name.
pub fn rename_new(from: &Path, to: &Path) -> io::Result<()> {
    match fs::hard_link(from, to) {
        Ok(()) => fs::remove_file(from),
        Err(error) if error.kind() == io::ErrorKind::AlreadyExists => Err(error),
        // A file system without hard links: look first.
        Err(_) => match fs::symlink_metadata(to) {
            Ok(_) => Err(io::ErrorKind::AlreadyExists.into()),
            Err(_) => fs::rename(from, to),
        },
    }
}
