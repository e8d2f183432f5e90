// SPDX-License-Identifier: MIT
//! The commands that stream: a frame of any length passes through one small
//! buffer, and is never held as a whole.

use crate::commands::{change_for, explained, open_log, print, read_metadata, read_store, spared};
use crate::failure::Failure;
use crate::log_file::LogFile;
use sframe::{read_header, Kid, Metadata, Refusal, Sealing, Store, StoreView, Suite, MAX_HEADER};
use std::io::{self, Read};
use std::path::PathBuf;
use toolkit::console::Console;
use toolkit::disk::Disk;
use toolkit::fault::Fault;
use toolkit::output::Output;
use toolkit::place::Place;
use toolkit::store_file::Wait;
use toolkit::words::{one_standard_input, Words};

/// The longest tag.
const MAX_TAG: usize = 16;
/// The longest piece.
const PIECE: usize = 1_200;

/// What a sealing in pieces is given.
#[derive(Debug, PartialEq, Eq)]
pub struct SealPieces {
    store: PathBuf,
    kid: Kid,
    input: Place,
    output: Output,
    metadata: Option<Place>,
    /// The plaintext's length, where it is not the file's.
    length: Option<u64>,
    log: Option<PathBuf>,
    wait: Wait,
}

/// What a check is given.
#[derive(Debug, PartialEq, Eq)]
pub struct Check {
    store: PathBuf,
    input: Place,
    metadata: Option<Place>,
    /// The ciphertext's length, where it is not what the file has between header
    /// and tag.
    length: Option<u64>,
}

impl SealPieces {
    pub fn parse(words: &mut Words, log: Option<PathBuf>) -> Result<Self, Failure> {
        let (input, metadata) = inputs(words)?;
        let output = words.output();
        // A frame that cannot be ended must be taken back, so it goes to no stream.
        match output.place {
            Place::File(_) => Ok(SealPieces {
                store: words.store()?,
                kid: Kid(words.number("--kid")?),
                input,
                output,
                metadata,
                length: words.optional_number("--length")?,
                log,
                wait: words.wait()?,
            }),
            Place::Standard => Err(Fault::usage("--out must be a file").into()),
        }
    }

    /// Seals a plaintext in pieces. The store with the new counter is on the disk,
    /// and the pair in the log, before the first byte of the frame is written. The
    /// frame takes its name once it is whole: an input that is shorter or longer than
    /// was announced leaves nothing but the used counter.
    pub fn run<D: Disk>(&self, disk: &mut D, out: &mut impl Console) -> Result<(), Failure> {
        let log = LogFile::of(self.log.as_deref(), &self.store)?;
        let mut files = vec![("the store itself", self.store.as_path())];
        files.extend(log.as_ref().map(|log| ("the log", log.path())));
        let length = length_of(self.length, self.input.size()?)?;
        let mut input = self.input.open()?;
        let metadata = read_metadata(&self.metadata)?;

        let (kid, wait) = (self.kid, self.wait);
        self.output.fill(disk, out, &spared(&files), |disk, slot| {
            let log = open_log(disk, log.as_ref(), &self.store, wait)?;
            let mut room = [0; MAX_HEADER];
            let ready = |disk: &mut D| slot.make_ready(disk);
            let begun = change_for(disk, &self.store, wait, Some(kid), ready, |bytes| {
                Store::over(bytes).seal_begin(kid, Metadata(&metadata), length, &mut room)
            });
            let (sealing, header) = begun?;
            let header = &room[..header];
            if let Some(log) = log {
                log.append(disk, kid, read_header(header)?.ctr)?;
            }
            slot.put(disk, header)?;
            let write = |bytes: &[u8]| Ok(slot.put(disk, bytes)?);
            write_sealed(sealing, &self.input, &mut input, write)
        })
    }
}

/// Writes ciphertext and tag. The layer itself counts the pieces.
fn write_sealed(
    mut sealing: Sealing,
    place: &Place,
    input: &mut impl Read,
    mut write: impl FnMut(&[u8]) -> Result<(), Failure>,
) -> Result<(), Failure> {
    let (mut piece, mut room) = ([0; PIECE], [0; PIECE]);
    loop {
        let length = input.read(&mut piece).map_err(place.failed())?;
        if length == 0 {
            break;
        }
        let sealed = sealing.piece(&piece[..length], &mut room)?;
        write(&room[..sealed])?;
    }
    let tag = sealing.end(&mut room).map_err(Refusal::from)?;
    write(&room[..tag])
}

impl Check {
    pub fn parse(words: &mut Words) -> Result<Self, Failure> {
        let (input, metadata) = inputs(words)?;
        Ok(Check {
            store: words.store()?,
            input,
            metadata,
            length: words.optional_number("--length")?,
        })
    }

    /// Checks a frame in pieces. The store is only read, and nothing of the
    /// plaintext is shown.
    pub fn run(&self, disk: &mut impl Disk, out: &mut impl Console) -> Result<(), Failure> {
        let bytes = read_store(disk, &self.store)?;
        let store = StoreView::over(&bytes);
        let metadata = read_metadata(&self.metadata)?;
        let (place, size) = (&self.input, self.input.size()?);
        let mut input = place.open()?;
        let start = read_start(&mut input).map_err(place.failed())?;
        let kid = read_header(&start).ok().map(|header| header.kid);

        let begin = |length| {
            let begun = store.check_begin(&start, Metadata(&metadata), length);
            begun.map_err(|refusal| explained(refusal, &bytes, kid))
        };
        let length = match (self.length, size) {
            (None, Some(size)) => match between(store, &start, size) {
                Ok(length) => length,
                // The causes that a beginning finds come before this one.
                Err(failure) => {
                    begin(0)?;
                    return Err(failure);
                }
            },
            (length, size) => length_of(length, size)?,
        };
        let mut checking = begin(length)?;
        let mut piece = [0; PIECE];
        let mut left = length;
        while left > 0 {
            let most = left.min(PIECE as u64) as usize;
            let taken = input.read(&mut piece[..most]).map_err(place.failed())?;
            if taken == 0 {
                break;
            }
            checking.piece(&piece[..taken])?;
            left -= taken as u64;
        }
        // One byte more than the longest, so that what is too long is seen to be.
        let mut tag = vec![];
        let mut rest = input.take(MAX_TAG as u64 + 1);
        rest.read_to_end(&mut tag).map_err(place.failed())?;
        let ended = checking.end(&tag).map_err(Refusal::from);
        ended.map_err(|refusal| match (refusal, suite_of(store, &start)) {
            (Refusal::FrameShort, Ok(suite)) => no_tag(&tag, length, suite),
            (refusal, _) => refusal.into(),
        })?;
        let header = read_header(&start)?;
        let (kid, ctr) = (header.kid, header.ctr);
        print(
            out,
            &format!("key number {kid}, counter {ctr}: the tag matches\n"),
        )
    }
}

fn inputs(words: &mut Words) -> Result<(Place, Option<Place>), Failure> {
    let input = words.place("--in");
    let metadata = words.value("--metadata").map(Place::from);
    one_standard_input(&[("--in", Some(&input)), ("--metadata", metadata.as_ref())])?;
    Ok((input, metadata))
}

/// The length that was given, else the file's.
fn length_of(given: Option<u64>, size: Option<u64>) -> Result<u64, Failure> {
    given.or(size).ok_or_else(|| {
        let text = "--length is missing: a pipe or a device has no length to be asked for";
        Fault::usage(text).into()
    })
}

/// The bytes of the header, as far as there are any.
fn read_start(input: &mut impl Read) -> io::Result<Vec<u8>> {
    let mut start = vec![];
    while start.len() < MAX_HEADER && read_header(&start).is_err() {
        if input.by_ref().take(1).read_to_end(&mut start)? == 0 {
            break;
        }
    }
    Ok(start)
}

/// The suite of a frame, where the store knows it.
fn suite_of(store: StoreView, start: &[u8]) -> Result<Suite, Refusal> {
    let header = read_header(start)?;
    let records = store.records()?;
    let record = records.iter().find(|record| record.kid == header.kid);
    Ok(record.ok_or(Refusal::KidUnknown)?.suite)
}

/// How many bytes a frame of `size` has between header and tag.
fn between(store: StoreView, start: &[u8], size: u64) -> Result<u64, Failure> {
    let header = read_header(start)?;
    let tag = suite_of(store, start)?.nt();
    let behind = size.saturating_sub(header.length as u64);
    behind.checked_sub(tag as u64).ok_or_else(|| {
        let text = format!("the header is followed by {behind} bytes, and the tag alone has {tag}");
        Failure::Explained(Refusal::FrameShort, text)
    })
}

/// Says what stands in the place of a tag; of a long rest no more was read than shows
/// that it is none.
fn no_tag(rest: &[u8], length: u64, suite: Suite) -> Failure {
    let left = match rest.len() {
        left if left > MAX_TAG => format!("more than {MAX_TAG}"),
        left => left.to_string(),
    };
    let tag = suite.nt();
    let text = format!("a ciphertext of {length} bytes leaves {left}, and the tag has {tag}");
    Failure::Explained(Refusal::FrameShort, text)
}
