// SPDX-License-Identifier: MIT
//! What each command does.

use crate::arguments::{Command, Object, OwnTrack};
use crate::failure::Failure;
use crate::help::TOOL;
use crate::listing;
use crate::MAX_STORE;
use moq::{
    raw, KeyId, Properties, Refusal, Role, Suite, Track, TrackStore, MAX_BASE_KEY, MAX_PLAINTEXT,
    MAX_PROPERTIES, MAX_RECORDS, RECORD,
};
use std::path::Path;
use toolkit::console::{give, Console};
use toolkit::disk::Disk;
use toolkit::fault::Fault;
use toolkit::output::{Content, Spared};
use toolkit::store_file::{StoreFile, Wait};
use toolkit::{hex, key, pages};

/// The longest object; the suite is one with the longest tag.
const MAX_OBJECT: usize = MAX_PLAINTEXT + Suite::Aes128GcmSha256_128.nt();

/// Runs a command. What it has to say goes to `out`.
pub fn run(command: Command, disk: &mut impl Disk, out: &mut impl Console) -> Result<(), Failure> {
    match command {
        Command::About(about) => print(out, &pages::about(&TOOL, &about)?),
        Command::Make {
            store,
            tracks,
            wait,
        } => make(disk, &store, tracks, wait),
        Command::Add {
            store,
            role,
            track,
            suite,
            key,
            hex,
            wait,
        } => {
            let base_key = key::read(&key, hex, MAX_BASE_KEY)?;
            change(disk, &store, wait, |bytes| {
                add(bytes, role, &track, suite, &base_key)
            })
        }
        Command::Remove { store, track, wait } => change(disk, &store, wait, |bytes| {
            TrackStore::over(bytes).remove(track.as_track())
        }),
        Command::List { store, json } => {
            let bytes = StoreFile::at(&store)?.read(disk, MAX_STORE)?;
            judge(&bytes)?;
            match json {
                true => print(out, &listing::json(&bytes)),
                false => print(out, &listing::text(&bytes)),
            }
        }
        Command::Seal(object) => seal(disk, &object, out),
        Command::Open(object) => open(disk, &object, out),
    }
}

fn print(out: &mut impl Console, text: &str) -> Result<(), Failure> {
    Ok(give(out, text.as_bytes())?)
}

/// The store with the new last pair is on the disk before the object is given
/// out.
fn seal<D: Disk>(disk: &mut D, object: &Object, out: &mut impl Console) -> Result<(), Failure> {
    let plaintext = object.input.read(MAX_PLAINTEXT)?;
    let properties = properties(object)?;
    let content = match object.hex {
        true => Content::Text,
        false => Content::Binary,
    };
    let files = [("the store itself", object.store.as_path())];
    let output = &object.output;
    output.write(disk, out, content, &spared(&files), |disk, slot| {
        let ready = |disk: &mut D| slot.make_ready(disk);
        let sealed = change_for(disk, &object.store, object.wait, ready, |bytes| {
            let track = object.track.as_track();
            let properties = Properties(&properties);
            TrackStore::over(bytes).seal_to_vec(track, object.at, properties, &plaintext)
        });
        let sealed = sealed.map_err(|failure| match failure {
            Failure::Refused(Refusal::TooLong) => too_long(plaintext.len() > MAX_PLAINTEXT),
            other => other,
        })?;
        Ok(match object.hex {
            true => format!("{}\n", hex::encode(&sealed)).into_bytes(),
            false => sealed,
        })
    })
}

fn open(disk: &mut impl Disk, object: &Object, out: &mut impl Console) -> Result<(), Failure> {
    let sealed = object.input.read_as(object.hex, MAX_OBJECT)?;
    let properties = properties(object)?;
    let files = [("the store itself", object.store.as_path())];
    let spared = spared(&files);
    let output = &object.output;
    output.write(disk, out, Content::Binary, &spared, |disk, _| {
        let mut bytes = StoreFile::at(&object.store)?.read(disk, MAX_STORE)?;
        let store = TrackStore::over(&mut bytes);
        let track = object.track.as_track();
        let opened = store.open_to_vec(track, object.at, Properties(&properties), &sealed);
        opened.map_err(|refusal| match refusal {
            Refusal::TooLong => too_long(properties.len() <= MAX_PROPERTIES),
            other => other.into(),
        })
    })
}

/// Says which input was too long.
fn too_long(plaintext: bool) -> Failure {
    let text = match plaintext {
        true => format!("the plaintext has more than {MAX_PLAINTEXT} bytes"),
        false => format!("the properties have more than {MAX_PROPERTIES} bytes"),
    };
    Failure::Explained(Refusal::TooLong, text)
}

impl OwnTrack {
    fn as_track(&self) -> Track<'_> {
        Track {
            name: &self.name,
            key_id: KeyId(self.key_id),
        }
    }
}

fn make(disk: &mut impl Disk, path: &Path, tracks: u64, wait: Wait) -> Result<(), Failure> {
    let file = StoreFile::at(path)?;
    // More records than a store may have are refused like any other number.
    let records = tracks.min(MAX_RECORDS as u64 + 1) as usize;
    let mut bytes = vec![0; records * RECORD];
    if let Err(refusal) = TrackStore::make(&mut bytes) {
        // Which it does only for its length.
        let text = format!("a store has room for 1 to {MAX_RECORDS} tracks");
        return Err(Failure::Explained(refusal, text));
    }

    Ok(file.make(disk, &bytes, wait)?)
}

/// Makes a call that changes the store, and keeps the store if it is done.
fn change<T>(
    disk: &mut impl Disk,
    path: &Path,
    wait: Wait,
    call: impl FnOnce(&mut [u8]) -> Result<T, Refusal>,
) -> Result<T, Failure> {
    change_for(disk, path, wait, |_| Ok(()), call)
}

/// Likewise. Once the store is locked, and before anything is changed, `ready`
/// is called.
fn change_for<D: Disk, T>(
    disk: &mut D,
    path: &Path,
    wait: Wait,
    ready: impl FnOnce(&mut D) -> Result<(), Fault>,
    call: impl FnOnce(&mut [u8]) -> Result<T, Refusal>,
) -> Result<T, Failure> {
    let call = |bytes: &mut [u8]| Ok(call(bytes)?);
    StoreFile::at(path)?.change(disk, MAX_STORE, wait, judge, ready, call)
}

fn judge(bytes: &[u8]) -> Result<(), Failure> {
    match is_store(bytes) {
        true => Ok(()),
        false => Err(Refusal::StoreNotSound.into()),
    }
}

/// Whether the bytes are a sound store. Removing judges it before it looks for a
/// track.
fn is_store(bytes: &[u8]) -> bool {
    let track = Track {
        name: b"",
        key_id: KeyId(0),
    };
    let removed = TrackStore::over(&mut bytes.to_vec()).remove(track);
    removed != Err(Refusal::StoreNotSound)
}

/// The layer itself judges the suite's number, so that its order of refusals
/// holds here too.
fn add(
    store: &mut [u8],
    role: Role,
    track: &OwnTrack,
    suite: u64,
    base_key: &[u8],
) -> Result<(), Refusal> {
    let add = match role {
        Role::Sending => raw::add_sending,
        Role::Receiving => raw::add_receiving,
    };
    match add(store, &track.name, track.key_id, suite, base_key) {
        0 => Ok(()),
        number => Err(Refusal::from_number(number).expect("a number of the library's answers")),
    }
}

fn properties(object: &Object) -> Result<Vec<u8>, Failure> {
    match &object.properties {
        Some(place) => Ok(place.read(MAX_PROPERTIES)?),
        None => Ok(vec![]),
    }
}

/// The files that no result takes the place of.
fn spared<'a>(files: &'a [(&'a str, &'a Path)]) -> Spared<'a> {
    Spared {
        files,
        is_store,
        longest: MAX_STORE,
    }
}
