// SPDX-License-Identifier: MIT
//! A disk in memory that can be stopped at any step, and that forgets at a
//! power cut what was not synced.

use std::collections::HashMap;
use std::io;
use std::path::{Path, PathBuf};
use toolkit::disk::{Disk, Owner, Status};

/// What a power cut leaves of what was not synced.
#[derive(Clone, Copy, Debug)]
pub enum Unsynced {
    Kept,
    Lost,
}

/// Who runs the tests.
const USER: u32 = 1000;

/// A file's bytes, as a running system sees them and as last synced.
#[derive(Clone)]
struct Content {
    written: Vec<u8>,
    synced: Vec<u8>,
    owner: Owner,
}

#[derive(Clone, Default)]
pub struct MemoryDisk {
    files: Vec<Content>,
    names: HashMap<PathBuf, usize>,
    synced_names: HashMap<PathBuf, usize>,
    steps: usize,
    stop_at: Option<usize>,
    fail_at: Option<usize>,
}

impl MemoryDisk {
    /// The same disk, which fails from the given step on as if the run had been
    /// killed there.
    pub fn stopping_at(&self, step: usize) -> Self {
        MemoryDisk {
            steps: 0,
            stop_at: Some(step),
            ..self.clone()
        }
    }

    /// The same disk, which fails at the given step alone.
    pub fn failing_at(&self, step: usize) -> Self {
        MemoryDisk {
            steps: 0,
            fail_at: Some(step),
            ..self.clone()
        }
    }

    /// Gives a file to another user.
    pub fn give_away(&mut self, path: &Path) {
        let file = self.find(path).unwrap();
        self.files[file].owner.user = USER + 1;
    }

    /// The names of the files.
    pub fn names(&self) -> Vec<&Path> {
        self.names.keys().map(PathBuf::as_path).collect()
    }

    /// The disk after a restart. A killed run loses nothing; a power cut may
    /// lose names, contents or both.
    pub fn restarted(&self, names: Unsynced, contents: Unsynced) -> Self {
        let names = match names {
            Unsynced::Kept => self.names.clone(),
            Unsynced::Lost => self.synced_names.clone(),
        };
        let files = self.files.iter().map(|content| {
            let bytes = match contents {
                Unsynced::Kept => content.written.clone(),
                Unsynced::Lost => content.synced.clone(),
            };
            Content {
                written: bytes.clone(),
                synced: bytes,
                owner: content.owner,
            }
        });
        MemoryDisk {
            files: files.collect(),
            synced_names: names.clone(),
            names,
            ..MemoryDisk::default()
        }
    }

    fn stopped(&self) -> bool {
        self.stop_at.is_some_and(|step| self.steps >= step)
    }

    fn step(&mut self) -> io::Result<()> {
        if self.stopped() {
            return Err(io::Error::other("stopped"));
        }
        self.steps += 1;
        match self.fail_at {
            Some(step) if self.steps == step + 1 => Err(io::Error::other("failed")),
            _ => Ok(()),
        }
    }

    fn find(&self, path: &Path) -> io::Result<usize> {
        let missing = || io::ErrorKind::NotFound.into();
        self.names.get(path).copied().ok_or_else(missing)
    }
}

impl Disk for MemoryDisk {
    type File = usize;

    fn status(&mut self, path: &Path) -> io::Result<Option<Status>> {
        self.step()?;
        let Ok(file) = self.find(path) else {
            return Ok(None);
        };
        let links = self.names.values().filter(|&&other| other == file).count();
        Ok(Some(Status {
            regular: true,
            links: links as u64,
            owner: self.files[file].owner,
        }))
    }

    fn read(&mut self, path: &Path, most: usize) -> io::Result<Vec<u8>> {
        self.step()?;
        let bytes = &self.files[self.find(path)?].written;
        Ok(bytes[..bytes.len().min(most)].to_vec())
    }

    fn remove(&mut self, path: &Path) -> io::Result<()> {
        self.step()?;
        self.names.remove(path);
        Ok(())
    }

    fn create(&mut self, path: &Path, mode: u32) -> io::Result<usize> {
        self.step()?;
        if self.names.contains_key(path) {
            return Err(io::ErrorKind::AlreadyExists.into());
        }
        self.files.push(Content {
            written: vec![],
            synced: vec![],
            owner: Owner {
                user: USER,
                group: USER,
                mode,
            },
        });
        self.names.insert(path.into(), self.files.len() - 1);
        Ok(self.files.len() - 1)
    }

    /// A file is given to nobody else.
    fn give_to(&mut self, &mut file: &mut usize, owner: Owner) -> io::Result<()> {
        self.step()?;
        if (owner.user, owner.group) != (USER, USER) {
            return Err(io::ErrorKind::PermissionDenied.into());
        }
        self.files[file].owner = owner;
        Ok(())
    }

    /// Where it is stopped, half of the bytes are written.
    fn write(&mut self, &mut file: &mut usize, bytes: &[u8]) -> io::Result<()> {
        let length = if self.stopped() {
            bytes.len() / 2
        } else {
            bytes.len()
        };
        self.files[file].written.extend(&bytes[..length]);
        self.step()
    }

    fn sync(&mut self, &mut file: &mut usize) -> io::Result<()> {
        self.step()?;
        let content = &mut self.files[file];
        content.synced.clone_from(&content.written);
        Ok(())
    }

    fn rename(&mut self, from: &Path, to: &Path) -> io::Result<()> {
        self.step()?;
        let file = self.find(from)?;
        self.names.remove(from);
        self.names.insert(to.into(), file);
        Ok(())
    }

    fn rename_new(&mut self, from: &Path, to: &Path) -> io::Result<()> {
        match self.names.contains_key(to) {
            true => Err(io::ErrorKind::AlreadyExists.into()),
            false => self.rename(from, to),
        }
    }

    fn sync_folder(&mut self, folder: &Path) -> io::Result<()> {
        self.step()?;
        let inside = |path: &Path| path.parent() == Some(folder);
        self.synced_names.retain(|path, _| !inside(path));
        let names = self.names.iter().filter(|(path, _)| inside(path));
        self.synced_names
            .extend(names.map(|(path, &file)| (path.clone(), file)));
        Ok(())
    }
}
