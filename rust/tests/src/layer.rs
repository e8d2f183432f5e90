// SPDX-License-Identifier: MIT
//! The layer that is compared: the linked one, or, where `SFRAME_DRIVER` holds a
//! command, a program that has another build of it linked (`c/driver.c`). Each
//! thread starts that program once, and makes its calls by it.

use sframe::raw::{self, Found, GroupKid, Parts, RatchetKid, Read as ReadHeader, Report, Written};
use std::cell::RefCell;
use std::env;
use std::io::{Read, Write};
use std::process::{Child, ChildStdin, ChildStdout, Command, Stdio};

/// The numbers of the calls in the driver's protocol.
#[derive(Clone, Copy)]
enum Which {
    Make,
    AddSending,
    AddReceiving,
    Remove,
    Seal,
    Open,
    WriteHeader,
    ReadHeader,
    Ratchet,
    RatchetKid,
    SealAt,
    WriteHeaderAt,
    Report,
    RemoveNear,
    Find,
    SealNear,
    OpenNear,
    GroupKid,
    GroupParts,
    ChangeEpoch,
    SealBegin,
    SealPiece,
    SealEnd,
    CheckBegin,
    CheckPiece,
    CheckEnd,
}

/// The most numbers that a call is given.
const NUMBERS: usize = 5;
/// The bytes that a driver answers before store, room and running state.
const HEAD: usize = 4 + 8 * 8;

/// What a driver answers beside those.
struct Answer {
    number: u32,
    length: usize,
    kid: u64,
    ctr: u64,
    count: u64,
    place: usize,
    context: u64,
    index: u64,
    epoch: u64,
}

impl Answer {
    fn written(self) -> Written {
        Written {
            number: self.number,
            length: self.length,
        }
    }
}

struct Driver {
    child: Child,
    /// Until the driver is to end.
    input: Option<ChildStdin>,
    output: ChildStdout,
}

impl Driver {
    /// Starts the command that `SFRAME_DRIVER` holds, words between spaces, if
    /// there is one.
    fn start() -> Option<Self> {
        let command = env::var("SFRAME_DRIVER").ok()?;
        let mut words = command.split(' ');
        let program = words.next().expect("a string has one part at least");
        let mut child = Command::new(program)
            .args(words)
            .stdin(Stdio::piped())
            .stdout(Stdio::piped())
            .spawn()
            .unwrap_or_else(|error| panic!("SFRAME_DRIVER, {command:?}: {error}"));
        Some(Driver {
            input: child.stdin.take(),
            output: child.stdout.take().expect("its output is piped"),
            child,
        })
    }

    fn call(
        &mut self,
        which: Which,
        numbers: &[u64],
        store: &mut [u8],
        [first, second]: [&[u8]; 2],
        room: &mut [u8],
        state: &mut [u8],
    ) -> Answer {
        let strings: [&[u8]; 5] = [store, first, second, room, state];
        let mut call = vec![which as u8];
        for place in 0..NUMBERS {
            let number = numbers.get(place).copied().unwrap_or(0);
            call.extend(number.to_le_bytes());
        }
        for string in strings {
            call.extend((string.len() as u64).to_le_bytes());
        }
        call.extend(strings.concat());
        let input = self.input.as_mut().expect("the driver has not ended");
        input.write_all(&call).expect("the driver reads");

        let mut head = [0; HEAD];
        let mut read = |bytes: &mut [u8]| self.output.read_exact(bytes).expect("it answers");
        read(&mut head);
        read(store);
        read(room);
        read(state);
        let number = |at: usize| u64::from_le_bytes(head[at..at + 8].try_into().unwrap());
        Answer {
            number: u32::from_le_bytes(head[..4].try_into().unwrap()),
            length: number(4) as usize,
            kid: number(12),
            ctr: number(20),
            count: number(28),
            place: number(36) as usize,
            context: number(44),
            index: number(52),
            epoch: number(60),
        }
    }
}

impl Drop for Driver {
    /// Its input ends, and so does it.
    fn drop(&mut self) {
        drop(self.input.take());
        let _ = self.child.wait();
    }
}

thread_local! {
    static DRIVER: RefCell<Option<Driver>> = RefCell::new(Driver::start());
}

/// Makes a call by the driver, if there is one.
fn driven(
    which: Which,
    numbers: &[u64],
    store: &mut [u8],
    strings: [&[u8]; 2],
    room: &mut [u8],
) -> Option<Answer> {
    driven_on(which, numbers, store, strings, room, &mut [])
}

/// The same of a call with a running state.
fn driven_on(
    which: Which,
    numbers: &[u64],
    store: &mut [u8],
    strings: [&[u8]; 2],
    room: &mut [u8],
    state: &mut [u8],
) -> Option<Answer> {
    DRIVER.with_borrow_mut(|driver| {
        let driver = driver.as_mut()?;
        Some(driver.call(which, numbers, store, strings, room, state))
    })
}

pub fn make(store: &mut [u8]) -> u32 {
    match driven(Which::Make, &[], store, [&[]; 2], &mut []) {
        Some(answer) => answer.number,
        None => raw::make(store),
    }
}

pub fn add_sending(store: &mut [u8], kid: u64, suite: u64, base_key: &[u8]) -> u32 {
    let strings = [base_key, &[]];
    match driven(Which::AddSending, &[kid, suite], store, strings, &mut []) {
        Some(answer) => answer.number,
        None => raw::add_sending(store, kid, suite, base_key),
    }
}

pub fn add_receiving(store: &mut [u8], kid: u64, suite: u64, base_key: &[u8]) -> u32 {
    let (numbers, strings) = (&[kid, suite], [base_key, &[]]);
    match driven(Which::AddReceiving, numbers, store, strings, &mut []) {
        Some(answer) => answer.number,
        None => raw::add_receiving(store, kid, suite, base_key),
    }
}

pub fn remove(store: &mut [u8], kid: u64) -> u32 {
    match driven(Which::Remove, &[kid], store, [&[]; 2], &mut []) {
        Some(answer) => answer.number,
        None => raw::remove(store, kid),
    }
}

pub fn remove_near(store: &mut [u8], kid: u64, place: usize) -> u32 {
    let numbers = &[kid, place as u64];
    match driven(Which::RemoveNear, numbers, store, [&[]; 2], &mut []) {
        Some(answer) => answer.number,
        None => raw::remove_near(store, kid, place),
    }
}

pub fn change_epoch(store: &mut [u8], epoch_width: u64, epoch_bits: u64) -> u32 {
    let numbers = &[epoch_width, epoch_bits];
    match driven(Which::ChangeEpoch, numbers, store, [&[]; 2], &mut []) {
        Some(answer) => answer.number,
        None => raw::change_epoch(store, epoch_width, epoch_bits),
    }
}

/// The store that the driver's call left is compared too.
pub fn find(store: &mut [u8], kid: u64) -> Found {
    match driven(Which::Find, &[kid], store, [&[]; 2], &mut []) {
        Some(answer) => Found {
            number: answer.number,
            place: answer.place,
        },
        None => raw::find(store, kid),
    }
}

pub fn seal(
    store: &mut [u8],
    kid: u64,
    metadata: &[u8],
    plaintext: &[u8],
    room: &mut [u8],
) -> Written {
    let strings = [metadata, plaintext];
    match driven(Which::Seal, &[kid], store, strings, room) {
        Some(answer) => answer.written(),
        None => raw::seal(store, kid, metadata, plaintext, room),
    }
}

pub fn seal_at(
    store: &mut [u8],
    kid: u64,
    metadata: &[u8],
    plaintext: &[u8],
    room: &mut [u8],
    offset: usize,
) -> Written {
    let (numbers, strings) = (&[kid, offset as u64], [metadata, plaintext]);
    match driven(Which::SealAt, numbers, store, strings, room) {
        Some(answer) => answer.written(),
        None => raw::seal_at(store, kid, metadata, plaintext, room, offset),
    }
}

pub fn seal_near(
    store: &mut [u8],
    kid: u64,
    place: usize,
    metadata: &[u8],
    plaintext: &[u8],
    room: &mut [u8],
    offset: usize,
) -> Written {
    let numbers = &[kid, place as u64, offset as u64];
    match driven(Which::SealNear, numbers, store, [metadata, plaintext], room) {
        Some(answer) => answer.written(),
        None => raw::seal_near(store, kid, place, metadata, plaintext, room, offset),
    }
}

pub fn open(store: &mut [u8], frame: &[u8], metadata: &[u8], room: &mut [u8]) -> Written {
    match driven(Which::Open, &[], store, [frame, metadata], room) {
        Some(answer) => answer.written(),
        None => raw::open(store, frame, metadata, room),
    }
}

pub fn open_near(
    store: &mut [u8],
    place: usize,
    frame: &[u8],
    metadata: &[u8],
    room: &mut [u8],
) -> Written {
    let numbers = &[place as u64];
    match driven(Which::OpenNear, numbers, store, [frame, metadata], room) {
        Some(answer) => answer.written(),
        None => raw::open_near(store, place, frame, metadata, room),
    }
}

pub fn seal_begin(
    store: &mut [u8],
    kid: u64,
    metadata: &[u8],
    plaintext_len: u64,
    state: &mut [u8],
    room: &mut [u8],
) -> Written {
    let (numbers, strings) = (&[kid, plaintext_len], [metadata, &[]]);
    match driven_on(Which::SealBegin, numbers, store, strings, room, state) {
        Some(answer) => answer.written(),
        None => raw::seal_begin(store, kid, metadata, plaintext_len, state, room),
    }
}

pub fn seal_piece(state: &mut [u8], piece: &[u8], room: &mut [u8]) -> Written {
    let strings = [piece, &[]];
    match driven_on(Which::SealPiece, &[], &mut [], strings, room, state) {
        Some(answer) => answer.written(),
        None => raw::seal_piece(state, piece, room),
    }
}

/// The state that the driver's call left is compared too, here and below.
pub fn seal_end(state: &mut [u8], room: &mut [u8]) -> Written {
    match driven_on(Which::SealEnd, &[], &mut [], [&[]; 2], room, state) {
        Some(answer) => answer.written(),
        None => raw::seal_end(state, room),
    }
}

pub fn check_begin(
    store: &mut [u8],
    header: &[u8],
    metadata: &[u8],
    ciphertext_len: u64,
    state: &mut [u8],
) -> u32 {
    let (numbers, strings) = (&[ciphertext_len], [header, metadata]);
    match driven_on(Which::CheckBegin, numbers, store, strings, &mut [], state) {
        Some(answer) => answer.number,
        None => raw::check_begin(store, header, metadata, ciphertext_len, state),
    }
}

pub fn check_piece(state: &mut [u8], piece: &[u8]) -> u32 {
    let strings = [piece, &[]];
    match driven_on(Which::CheckPiece, &[], &mut [], strings, &mut [], state) {
        Some(answer) => answer.number,
        None => raw::check_piece(state, piece),
    }
}

pub fn check_end(state: &mut [u8], tag: &[u8]) -> u32 {
    let strings = [tag, &[]];
    match driven_on(Which::CheckEnd, &[], &mut [], strings, &mut [], state) {
        Some(answer) => answer.number,
        None => raw::check_end(state, tag),
    }
}

/// The store that the driver's call left is compared too.
pub fn report(store: &mut [u8], kid: u64) -> Report {
    match driven(Which::Report, &[kid], store, [&[]; 2], &mut []) {
        Some(answer) => Report {
            number: answer.number,
            count: answer.count,
        },
        None => raw::report(store, kid),
    }
}

pub fn write_header(kid: u64, ctr: u64, out: &mut [u8]) -> Written {
    match driven(Which::WriteHeader, &[kid, ctr], &mut [], [&[]; 2], out) {
        Some(answer) => answer.written(),
        None => raw::write_header(kid, ctr, out),
    }
}

pub fn write_header_at(kid: u64, ctr: u64, out: &mut [u8], offset: usize) -> Written {
    let numbers = &[kid, ctr, offset as u64];
    match driven(Which::WriteHeaderAt, numbers, &mut [], [&[]; 2], out) {
        Some(answer) => answer.written(),
        None => raw::write_header_at(kid, ctr, out, offset),
    }
}

pub fn read_header(bytes: &[u8]) -> ReadHeader {
    match driven(Which::ReadHeader, &[], &mut [], [bytes, &[]], &mut []) {
        Some(answer) => ReadHeader {
            number: answer.number,
            kid: answer.kid,
            ctr: answer.ctr,
            length: answer.length,
        },
        None => raw::read_header(bytes),
    }
}

pub fn ratchet(suite: u64, base_key: &[u8], steps: u64, out: &mut [u8]) -> Written {
    let (numbers, strings) = (&[suite, steps], [base_key, &[]]);
    match driven(Which::Ratchet, numbers, &mut [], strings, out) {
        Some(answer) => answer.written(),
        None => raw::ratchet(suite, base_key, steps, out),
    }
}

pub fn ratchet_kid(generation: u64, step: u64, bits: u64) -> RatchetKid {
    let numbers = &[generation, step, bits];
    match driven(Which::RatchetKid, numbers, &mut [], [&[]; 2], &mut []) {
        Some(answer) => RatchetKid {
            number: answer.number,
            kid: answer.kid,
        },
        None => raw::ratchet_kid(generation, step, bits),
    }
}

pub fn group_kid(context: u64, index: u64, epoch: u64, s: u64, e: u64) -> GroupKid {
    let numbers = &[context, index, epoch, s, e];
    match driven(Which::GroupKid, numbers, &mut [], [&[]; 2], &mut []) {
        Some(answer) => GroupKid {
            number: answer.number,
            kid: answer.kid,
        },
        None => raw::group_kid(context, index, epoch, s, e),
    }
}

pub fn group_parts(kid: u64, s: u64, e: u64) -> Parts {
    let numbers = &[kid, s, e];
    match driven(Which::GroupParts, numbers, &mut [], [&[]; 2], &mut []) {
        Some(answer) => Parts {
            number: answer.number,
            context: answer.context,
            index: answer.index,
            epoch: answer.epoch,
        },
        None => raw::group_parts(kid, s, e),
    }
}
