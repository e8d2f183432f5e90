// SPDX-License-Identifier: MIT
//! What each command does.

use crate::arguments::{Command, Streams};
use crate::diagnosis;
use crate::failure::Failure;
use crate::help::TOOL;
use crate::listing;
use crate::log_file::{LogFile, OpenLog};
use crate::MAX_STORE;
use sframe::{
    frame_room, group_kid, group_parts, ratchet_kid, raw, read_header, write_header_at, Ctr,
    GroupParts, Kid, Metadata, Refusal, Role, Store, StoreView, Suite, MAX_BASE_KEY, MAX_HEADER,
    MAX_METADATA, MAX_PLAINTEXT, MAX_RECORDS, MIN_BASE_KEY, RECORD, WINDOW,
};
use std::path::Path;
use toolkit::console::{give, Console};
use toolkit::disk::Disk;
use toolkit::fault::Fault;
use toolkit::output::{Content, Output, Slot, Spared};
use toolkit::place::Place;
use toolkit::store_file::{StoreFile, Wait};
use toolkit::{hex, key, pages};

/// The longest frame that can be opened; the suite is one with the longest tag.
const MAX_FRAME: usize = frame_room(Suite::Aes128GcmSha256_128, MAX_PLAINTEXT);

/// The largest offset of a result in what is written.
const MAX_OFFSET: usize = 65_536;

/// Runs a command. What it has to say goes to `out`.
pub fn run(command: Command, disk: &mut impl Disk, out: &mut impl Console) -> Result<(), Failure> {
    match command {
        Command::About(about) => print(out, &pages::about(&TOOL, &about)?),
        Command::Keygen { bytes, hex, output } => keygen(disk, bytes, hex, &output, out),
        Command::Make { store, keys, wait } => make(disk, &store, keys, wait),
        Command::Add {
            store,
            role,
            kid,
            suite,
            key,
            hex,
            wait,
        } => {
            let base_key = key::read(&key, hex, MAX_BASE_KEY)?;
            change(disk, &store, wait, Some(kid), |bytes| {
                add(bytes, role, kid, suite, &base_key)
            })
        }
        Command::Remove { store, kid, wait } => change(disk, &store, wait, Some(kid), |bytes| {
            Store::over(bytes).remove(kid)
        }),
        Command::List { store, json } => {
            let bytes = read_store(disk, &store)?;
            let records = StoreView::over(&bytes).records()?;
            match json {
                true => print(out, &listing::json(&bytes, &records)),
                false => print(out, &listing::table(&bytes, &records)),
            }
        }
        Command::Seal {
            store,
            kid,
            offset,
            streams,
            log,
            wait,
        } => {
            let sealing = Sealing {
                store: &store,
                kid,
                offset,
                streams: &streams,
                wait,
            };
            let log = LogFile::of(log.as_deref(), &store)?;
            sealing.give_out(disk, log.as_ref(), out)
        }
        Command::Open {
            store,
            streams,
            wait,
        } => open(disk, &store, &streams, wait, out),
        Command::SealPieces(command) => command.run(disk, out),
        Command::Check(command) => command.run(disk, out),
        Command::Report { store, kid } => {
            let bytes = read_store(disk, &store)?;
            let count = StoreView::over(&bytes).report(kid);
            let count = count.map_err(|refusal| explained(refusal, &bytes, Some(kid)))?;
            print(
                out,
                &format!("{count} of the last {WINDOW} counters opened\n"),
            )
        }
        Command::WriteHeader { kid, ctr, offset } => {
            let (mut room, offset) = room_at(offset, MAX_HEADER);
            let length = write_header_at(kid, ctr, &mut room, offset)?;
            print(out, &format!("{}\n", hex::encode(&room[..offset + length])))
        }
        Command::ReadHeader { frame, hex } => {
            let header = read_header(&frame.read_as(hex, MAX_FRAME)?)?;
            let (Kid(kid), Ctr(ctr), length) = (header.kid, header.ctr, header.length);
            let text = format!("key number {kid}, counter {ctr}, header of {length} bytes\n");
            print(out, &text)
        }
        Command::Ratchet {
            suite,
            key,
            hex,
            steps,
            output,
        } => {
            let base_key = key::read(&key, hex, MAX_BASE_KEY)?;
            let walked = walk(suite, &base_key, steps)?;
            write_key(disk, &walked, hex, &output, out)
        }
        Command::RatchetKid {
            generation,
            step,
            bits,
        } => {
            let Kid(kid) = ratchet_kid(generation, step, bits)?;
            print(out, &format!("{kid}\n"))
        }
        Command::GroupKid { parts, widths } => {
            let Kid(kid) = group_kid(parts, widths)?;
            print(out, &format!("{kid}\n"))
        }
        Command::GroupParts { kid, widths } => {
            let GroupParts {
                context,
                index,
                epoch,
            } = group_parts(kid, widths)?;
            let text = format!("context {context}, index {index}, epoch bits {epoch}\n");
            print(out, &text)
        }
        Command::ChangeEpoch { store, epoch, wait } => change(disk, &store, wait, None, |bytes| {
            Store::over(bytes).change_epoch(epoch)
        }),
    }
}

pub fn print(out: &mut impl Console, text: &str) -> Result<(), Failure> {
    Ok(give(out, text.as_bytes())?)
}

fn keygen(
    disk: &mut impl Disk,
    bytes: u64,
    as_hex: bool,
    output: &Output,
    out: &mut impl Console,
) -> Result<(), Failure> {
    if !(MIN_BASE_KEY as u64..=MAX_BASE_KEY as u64).contains(&bytes) {
        return Err(Refusal::BaseKeyLength.into());
    }
    let key = key::random(bytes as usize)?;
    write_key(disk, &key, as_hex, output, out)
}

/// Writes a key to a new file that only its owner can read.
fn write_key(
    disk: &mut impl Disk,
    key: &[u8],
    as_hex: bool,
    output: &Output,
    out: &mut impl Console,
) -> Result<(), Failure> {
    let bytes = written(key.to_vec(), as_hex);
    output.write(disk, out, Content::Key, &spared(&[]), |_, _| Ok(bytes))
}

/// The bytes themselves, or as a line of hex.
fn written(bytes: Vec<u8>, as_hex: bool) -> Vec<u8> {
    match as_hex {
        true => format!("{}\n", hex::encode(&bytes)).into_bytes(),
        false => bytes,
    }
}

fn make(disk: &mut impl Disk, path: &Path, keys: u64, wait: Wait) -> Result<(), Failure> {
    let file = StoreFile::at(path)?;
    // More records than a store may have are refused like any other number.
    let records = keys.min(MAX_RECORDS as u64 + 1) as usize;
    let mut bytes = vec![0; records * RECORD];
    if let Err(refusal) = Store::make(&mut bytes) {
        // Which it does only for its length.
        let text = format!("a store has room for 1 to {MAX_RECORDS} keys");
        return Err(Failure::Explained(refusal, text));
    }

    Ok(file.make(disk, &bytes, wait)?)
}

/// The bytes of a sound store.
pub fn read_store(disk: &mut impl Disk, path: &Path) -> Result<Vec<u8>, Failure> {
    let bytes = StoreFile::at(path)?.read(disk, MAX_STORE)?;
    judge(&bytes)?;
    Ok(bytes)
}

fn judge(bytes: &[u8]) -> Result<(), Failure> {
    let judged = StoreView::over(bytes).check();
    judged.map_err(|refusal| explained(refusal, bytes, None))
}

/// Makes a call that changes the store, and keeps the store if it is done. `kid`
/// is the key number that the call is about.
fn change<T>(
    disk: &mut impl Disk,
    path: &Path,
    wait: Wait,
    kid: Option<Kid>,
    call: impl FnOnce(&mut [u8]) -> Result<T, Refusal>,
) -> Result<T, Failure> {
    change_for(disk, path, wait, kid, |_| Ok(()), call)
}

/// Likewise. Once the store is locked, and before anything is changed, `ready`
/// is called.
pub fn change_for<D: Disk, T>(
    disk: &mut D,
    path: &Path,
    wait: Wait,
    kid: Option<Kid>,
    ready: impl FnOnce(&mut D) -> Result<(), Fault>,
    call: impl FnOnce(&mut [u8]) -> Result<T, Refusal>,
) -> Result<T, Failure> {
    let call = |bytes: &mut [u8]| {
        let answer = call(bytes);
        answer.map_err(|refusal| explained(refusal, bytes, kid))
    };
    StoreFile::at(path)?.change(disk, MAX_STORE, wait, judge, ready, call)
}

/// A refusal, with what the store tells of its cause.
pub fn explained(refusal: Refusal, store: &[u8], kid: Option<Kid>) -> Failure {
    let records = StoreView::over(store).records().unwrap_or_default();
    let state = kid.and_then(|kid| records.iter().find(|record| record.kid == kid));
    let text = match (refusal, kid, state.map(|record| record.state)) {
        (Refusal::StoreNotSound, ..) => diagnosis::of(store).map(|why| format!("{refusal}: {why}")),
        (Refusal::KidHeld, Some(Kid(kid)), Some(state)) => Some(format!(
            "the store has key number {kid} already, which is {state}"
        )),
        (Refusal::KidUnknown, Some(Kid(kid)), _) => {
            Some(format!("the store does not have key number {kid}"))
        }
        (Refusal::WrongRole, Some(Kid(kid)), Some(state)) => Some(format!(
            "key number {kid} is {state}, which does not allow the call"
        )),
        (Refusal::StoreFull, ..) => Some(format!("all {} records are in use", records.len())),
        _ => None,
    };
    match text {
        Some(text) => Failure::Explained(refusal, text),
        None => Failure::Refused(refusal),
    }
}

/// The layer itself judges the suite's number, so that its order of refusals
/// holds here too.
fn add(
    store: &mut [u8],
    role: Role,
    Kid(kid): Kid,
    suite: u64,
    base_key: &[u8],
) -> Result<(), Refusal> {
    let number = match role {
        Role::Sending => raw::add_sending(store, kid, suite, base_key),
        Role::Receiving => raw::add_receiving(store, kid, suite, base_key),
    };
    match (number, Refusal::from_number(number)) {
        (0, _) => Ok(()),
        (_, Some(refusal)) => Err(refusal),
        (_, None) => unreachable!("the library answers no number {number}"),
    }
}

/// A room of zeros for a result of up to `longest` bytes at an offset, and the
/// offset. One beyond [`MAX_OFFSET`] lies past the end of the room.
fn room_at(offset: u64, longest: usize) -> (Vec<u8>, usize) {
    match usize::try_from(offset) {
        Ok(offset) if offset <= MAX_OFFSET => (vec![0; offset + longest], offset),
        _ => (vec![0; MAX_OFFSET], usize::MAX),
    }
}

/// What a sealing is told.
struct Sealing<'a> {
    store: &'a Path,
    kid: Kid,
    offset: u64,
    streams: &'a Streams,
    wait: Wait,
}

/// A frame behind zero bytes.
struct Packet {
    bytes: Vec<u8>,
    /// Where the frame begins.
    offset: usize,
}

impl Sealing<'_> {
    /// Seals a frame, and writes it where it goes. A log that cannot take its pair
    /// stops the run before a counter is used. Then comes the store with the new
    /// counter, then the log, and only then is the frame answered: a frame that is
    /// given out stands in the log once, and a pair in the log was never another
    /// frame's.
    fn give_out(
        &self,
        disk: &mut impl Disk,
        log: Option<&LogFile>,
        out: &mut impl Console,
    ) -> Result<(), Failure> {
        let plaintext = self.streams.input.read(MAX_PLAINTEXT)?;
        let metadata = read_metadata(&self.streams.metadata)?;
        let content = match self.streams.hex {
            true => Content::Text,
            false => Content::Binary,
        };
        let mut files = vec![("the store itself", self.store)];
        files.extend(log.map(|log| ("the log", log.path())));
        let output = &self.streams.output;
        output.write(disk, out, content, &spared(&files), |disk, slot| {
            slot.check_kept()?;
            let log = open_log(disk, log, self.store, self.wait)?;
            let packet = self.seal(disk, slot, &plaintext, &metadata)?;
            if let Some(log) = log {
                let header = read_header(&packet.bytes[packet.offset..])?;
                log.append(disk, self.kid, header.ctr)?;
            }
            Ok(written(packet.bytes, self.streams.hex))
        })
    }

    /// Seals a frame. The store with the new counter is on the disk before the
    /// frame is answered.
    fn seal<D: Disk>(
        &self,
        disk: &mut D,
        slot: &mut Slot<D::File>,
        plaintext: &[u8],
        metadata: &[u8],
    ) -> Result<Packet, Failure> {
        let (mut room, offset) = room_at(self.offset, MAX_FRAME);
        let (kid, ready) = (self.kid, |disk: &mut D| slot.make_ready(disk));
        let sealed = change_for(disk, self.store, self.wait, Some(kid), ready, |bytes| {
            let metadata = Metadata(metadata);
            Store::over(bytes).seal_at(kid, metadata, plaintext, &mut room, offset)
        });
        let length =
            sealed.map_err(|failure| too_long(failure, plaintext.len(), metadata.len()))?;
        room.truncate(offset + length);
        Ok(Packet {
            bytes: room,
            offset,
        })
    }
}

/// Opens the log, where there is one to be written. A store that is refused leaves no
/// lock of a log.
pub fn open_log<'a>(
    disk: &mut impl Disk,
    log: Option<&'a LogFile>,
    store: &Path,
    wait: Wait,
) -> Result<Option<OpenLog<'a>>, Failure> {
    let Some(log) = log else {
        return Ok(None);
    };
    read_store(disk, store)?;
    Ok(Some(log.open(disk, wait)?))
}

/// Says which input was too long.
fn too_long(failure: Failure, plaintext: usize, metadata: usize) -> Failure {
    let text = match failure {
        Failure::Refused(Refusal::TooLong) if plaintext > MAX_PLAINTEXT => {
            "the plaintext has more than 32,768 bytes"
        }
        Failure::Refused(Refusal::TooLong) if metadata > MAX_METADATA => {
            "the metadata has more than 1,024 bytes"
        }
        other => return other,
    };
    Failure::Explained(Refusal::TooLong, text.into())
}

/// Opens a frame. The store that remembers its counter is on the disk before the
/// plaintext is answered: a run that is stopped between may lose a picture, but
/// no picture is given out twice.
fn open<D: Disk>(
    disk: &mut D,
    path: &Path,
    streams: &Streams,
    wait: Wait,
    out: &mut impl Console,
) -> Result<(), Failure> {
    let frame = streams.input.read_as(streams.hex, MAX_FRAME)?;
    let metadata = read_metadata(&streams.metadata)?;
    let kid = read_header(&frame).ok().map(|header| header.kid);
    let files = [("the store itself", path)];
    let spared = spared(&files);
    let output = &streams.output;
    output.write(disk, out, Content::Binary, &spared, |disk, slot| {
        let ready = |disk: &mut D| slot.make_ready(disk);
        let opened = change_for(disk, path, wait, kid, ready, |bytes| {
            Store::over(bytes).open_to_vec(&frame, Metadata(&metadata))
        });
        // Where the metadata is not too long, the plaintext is.
        let plaintext = match metadata.len() > MAX_METADATA {
            true => 0,
            false => frame.len(),
        };
        opened.map_err(|failure| too_long(failure, plaintext, metadata.len()))
    })
}

/// The files that no result takes the place of.
pub fn spared<'a>(files: &'a [(&'a str, &'a Path)]) -> Spared<'a> {
    Spared {
        files,
        is_store: |bytes| StoreView::over(bytes).check().is_ok(),
        longest: MAX_STORE,
    }
}

/// A base key some steps on. The layer itself judges the suite's number, as in
/// `add`.
fn walk(suite: u64, base_key: &[u8], steps: u64) -> Result<Vec<u8>, Failure> {
    let mut key = [0; MAX_BASE_KEY];
    let written = raw::ratchet(suite, base_key, steps, &mut key);
    match Refusal::from_number(written.number) {
        Some(refusal) => Err(refusal.into()),
        None => Ok(key[..written.length].to_vec()),
    }
}

pub fn read_metadata(metadata: &Option<Place>) -> Result<Vec<u8>, Failure> {
    match metadata {
        Some(place) => Ok(place.read(MAX_METADATA)?),
        None => Ok(vec![]),
    }
}
