// SPDX-License-Identifier: MIT
//! The key store in lent bytes, and the calls on it.
//!
//! Records stand in rising order of their KIDs, and empty ones behind them. Each
//! call tries its causes of refusal in the order in which its comment
//! names them. A refusal changes no lent byte.

use crate::aead::Aead;
use crate::group;
use crate::header::{part, read_header, write_header};
use crate::pieces::{Kind, Running};
use crate::record::{Record, State, RECORD};
use crate::refusal::{Answer, Refusal};
use crate::suites::{nonce, Suite};

/// How many records a store may have.
pub const MAX_RECORDS: usize = 1_024;
/// The longest plaintext.
pub const MAX_PLAINTEXT: usize = 32_768;
/// The longest metadata.
pub const MAX_METADATA: usize = 1_024;
/// The shortest base key.
pub const MIN_BASE_KEY: usize = 16;
/// The longest base key.
pub const MAX_BASE_KEY: usize = 64;

/// What a key is added for.
#[derive(Clone, Copy, Debug, PartialEq, Eq)]
pub enum Role {
    /// For sealing.
    Sending,
    /// For opening.
    Receiving,
}

/// Makes every record empty. Refusals: 1.
pub fn make(store: &mut [u8]) -> Answer {
    if !length_allowed(store) {
        return Err(Refusal::StoreNotSound);
    }
    store.fill(0);
    Ok(0)
}

/// Adds a key at the place of its KID. Refusals: 1, 2, 17, 3, 4, 5.
pub fn add(store: &mut [u8], role: Role, suite: u64, kid: u64, base_key: &[u8]) -> Answer {
    let records = read_store(store)?;
    let suite = Suite::from_number(suite).ok_or(Refusal::NoSuchSuite)?;
    if role == Role::Sending && suite == Suite::Aes128CtrHmacSha256_32 {
        return Err(Refusal::SendingBarred);
    }
    if !(MIN_BASE_KEY..=MAX_BASE_KEY).contains(&base_key.len()) {
        return Err(Refusal::BaseKeyLength);
    }
    if look_up(&records, kid).is_ok() {
        return Err(Refusal::KidHeld);
    }
    if records.iter().all(Option::is_some) {
        return Err(Refusal::StoreFull);
    }

    let state = match role {
        Role::Sending => State::Sending,
        Role::Receiving => State::Receiving,
    };
    let record = Record::new(state, suite, kid, base_key);
    put(store, record);
    Ok(0)
}

/// Puts a record at its place in a sound store, by no rule of adding: a store
/// may hold a sending key of suite 3 from before it was barred.
///
/// # Panics
///
/// Where the store is not sound, no record is empty, or one has the KID.
pub fn put(store: &mut [u8], record: Record) {
    let mut records = read_store(store).expect("a sound store");
    assert!(look_up(&records, record.kid).is_err(), "a new KID");
    assert_eq!(records.pop(), Some(None), "an empty record");
    let above = |slot: &Option<Record>| slot.as_ref().is_none_or(|r| r.kid > record.kid);
    let place = records.iter().position(above).unwrap_or(records.len());
    records.insert(place, Some(record));
    write_store(store, &records);
}

/// Removes a key: a sending one leaves its record retired, and a receiving one's
/// record goes, so that those behind it move up. Refusals: 1, 6, 7.
pub fn remove(store: &mut [u8], kid: u64) -> Answer {
    let mut records = read_store(store)?;
    let (place, record) = look_up(&records, kid)?;
    match record.state {
        State::Sending => records[place] = Some(record.clone().retired()),
        State::Receiving => {
            records.remove(place);
            records.push(None);
        }
        State::Retired => return Err(Refusal::WrongRole),
    }
    write_store(store, &records);
    Ok(0)
}

/// Removes exactly the receiving keys whose KID has `bits` as its low `width`
/// bits, be there none. Refusals: 1, 23, 22.
pub fn change_epoch(store: &mut [u8], width: u64, bits: u64) -> Answer {
    let records = read_store(store)?;
    group::check_epoch(width, bits)?;
    let goes = |record: &Record| {
        record.state == State::Receiving && group::low_bits(record.kid, width) == bits
    };
    let stay = records.iter().flatten().filter(|record| !goes(record));
    let mut left: Vec<Option<Record>> = stay.cloned().map(Some).collect();
    left.resize(records.len(), None);
    write_store(store, &left);
    Ok(0)
}

/// The place of the record of `kid`, counted from 0. Refusals: 1, 6.
pub fn find(store: &[u8], kid: u64) -> Result<usize, Refusal> {
    let records = read_store(store)?;
    look_up(&records, kid).map(|(place, _)| place)
}

/// Seals `plaintext` at the front of `room`. Refusals: 1, 6, 7, 8, 9, 12.
pub fn seal(
    store: &mut [u8],
    kid: u64,
    metadata: &[u8],
    plaintext: &[u8],
    room: &mut [u8],
) -> Answer {
    seal_at(store, kid, metadata, plaintext, room, 0)
}

/// Seals `plaintext` at `offset` in `room`. Refusals: 1, 6, 7, 8, 9, 12.
pub fn seal_at(
    store: &mut [u8],
    kid: u64,
    metadata: &[u8],
    plaintext: &[u8],
    room: &mut [u8],
    offset: usize,
) -> Answer {
    let records = read_store(store)?;
    let (place, record) = may_seal(&records, kid)?;
    check_sizes(plaintext.len(), metadata)?;
    let header = write_header(kid, record.counter);
    let tag_at = header.len() + plaintext.len();
    let length = tag_at + record.suite.nt();
    let frame = part(room, offset, length)?;

    frame[..header.len()].copy_from_slice(&header);
    let data = &mut frame[header.len()..tag_at];
    data.copy_from_slice(plaintext);
    let aad = [&header, metadata].concat();
    let aead = Aead::new(record.suite, record.key());
    let tag = aead.encrypt(&nonce(&record.salt, record.counter), &aad, data);
    frame[tag_at..].copy_from_slice(&tag);

    let advanced = record.clone().advanced();
    write_record(store, place, &Some(advanced));
    Ok(length)
}

/// Begins a frame of `plaintext` bytes: its header goes to the front of `room`, the
/// running state to that of `state`, and its counter is taken. Refusals: 1, 6, 7,
/// 8, 9, 12 for the header's room, 12 for the state.
pub fn seal_begin(
    store: &mut [u8],
    kid: u64,
    metadata: &[u8],
    plaintext: u64,
    state: &mut [u8],
    room: &mut [u8],
) -> Answer {
    let records = read_store(store)?;
    let (place, record) = may_seal(&records, kid)?;
    let announced = announce(plaintext, metadata)?;
    let header = write_header(kid, record.counter);
    let room = part(room, 0, header.len())?;
    let aad = [&header, metadata].concat();
    Running::begin(Kind::Sealing, record, record.counter, &aad, announced).put(state)?;

    room.copy_from_slice(&header);
    write_record(store, place, &Some(record.clone().advanced()));
    Ok(header.len())
}

/// Begins to check a frame of `ciphertext` bytes whose header `header` starts
/// with. It asks for no window and moves none. Refusals: 1, 10, 6, 7, 9, 12 for
/// the state.
pub fn check_begin(
    store: &[u8],
    header: &[u8],
    metadata: &[u8],
    ciphertext: u64,
    state: &mut [u8],
) -> Answer {
    let records = read_store(store)?;
    let (kid, ctr, length) = read_header(header).ok_or(Refusal::BadHeader)?;
    let (_, record) = receives(&records, kid)?;
    let announced = announce(ciphertext, metadata)?;
    let aad = [&header[..length], metadata].concat();
    Running::begin(Kind::Checking, record, ctr, &aad, announced).put(state)?;
    Ok(0)
}

/// Opens `frame` into the front of `room`; nothing is written before the tag
/// is verified. Only an opened frame moves the record's window. Refusals: 1, 10,
/// 6, 7, 11, 9, 12, 14, 15, 13.
pub fn open(store: &mut [u8], metadata: &[u8], frame: &[u8], room: &mut [u8]) -> Answer {
    let records = read_store(store)?;
    let (kid, ctr, header_length) = read_header(frame).ok_or(Refusal::BadHeader)?;
    let (place, record) = receives(&records, kid)?;
    let (header, rest) = frame.split_at(header_length);
    let length = rest
        .len()
        .checked_sub(record.suite.nt())
        .ok_or(Refusal::NoTag)?;
    let (ciphertext, tag) = rest.split_at(length);
    check_sizes(length, metadata)?;
    let plaintext = room.get_mut(..length).ok_or(Refusal::RoomShort)?;
    if record.window.has_opened(ctr) {
        return Err(Refusal::AlreadyOpened);
    }
    if record.window.is_past(ctr) {
        return Err(Refusal::TooOld);
    }

    let aad = [header, metadata].concat();
    let aead = Aead::new(record.suite, record.key());
    let nonce = nonce(&record.salt, ctr);
    if !aead.verify(&nonce, &aad, ciphertext, tag) {
        return Err(Refusal::TagDiffers);
    }
    plaintext.copy_from_slice(ciphertext);
    aead.apply_key_stream(&nonce, plaintext);

    let opened = record.clone().opening(ctr);
    write_record(store, place, &Some(opened));
    Ok(length)
}

/// How many of the last 64 counters of a receiving key were opened. Refusals: 1,
/// 6, 7.
pub fn report(store: &[u8], kid: u64) -> Result<u64, Refusal> {
    let records = read_store(store)?;
    let (_, record) = receives(&records, kid)?;
    Ok(record.window.mask.count_ones().into())
}

fn length_allowed(store: &[u8]) -> bool {
    store.len().is_multiple_of(RECORD) && (1..=MAX_RECORDS).contains(&(store.len() / RECORD))
}

/// The records of a sound store by place, `None` where one is empty.
fn read_store(store: &[u8]) -> Result<Vec<Option<Record>>, Refusal> {
    if !length_allowed(store) {
        return Err(Refusal::StoreNotSound);
    }
    let records: Vec<Option<Record>> = store
        .chunks_exact(RECORD)
        .map(Record::decode)
        .collect::<Result<_, _>>()
        .map_err(|_| Refusal::StoreNotSound)?;

    match records.is_sorted_by(follows) {
        true => Ok(records),
        false => Err(Refusal::StoreNotSound),
    }
}

/// Whether one record may stand behind another: its KID is higher, or it is
/// empty.
fn follows(one: &Option<Record>, next: &Option<Record>) -> bool {
    match (one, next) {
        (_, None) => true,
        (None, Some(_)) => false,
        (Some(one), Some(next)) => one.kid < next.kid,
    }
}

/// The non-empty record of `kid`, and its place.
fn look_up(records: &[Option<Record>], kid: u64) -> Result<(usize, &Record), Refusal> {
    records
        .iter()
        .enumerate()
        .find_map(|(place, slot)| Some((place, slot.as_ref().filter(|r| r.kid == kid)?)))
        .ok_or(Refusal::KidUnknown)
}

/// The sending record of `kid`, which has a counter left. Refusals: 6, 7, 8.
fn may_seal(records: &[Option<Record>], kid: u64) -> Result<(usize, &Record), Refusal> {
    let (place, record) = look_up(records, kid)?;
    match (record.state, record.spent) {
        (State::Sending, false) => Ok((place, record)),
        (State::Sending, true) => Err(Refusal::CounterSpent),
        _ => Err(Refusal::WrongRole),
    }
}

/// The receiving record of `kid`. Refusals: 6, 7.
fn receives(records: &[Option<Record>], kid: u64) -> Result<(usize, &Record), Refusal> {
    let (place, record) = look_up(records, kid)?;
    match record.state {
        State::Receiving => Ok((place, record)),
        _ => Err(Refusal::WrongRole),
    }
}

/// Writes every record of a store.
fn write_store(store: &mut [u8], records: &[Option<Record>]) {
    for (place, record) in records.iter().enumerate() {
        write_record(store, place, record);
    }
}

/// Writes a record, or zeros for an empty one, at its place.
fn write_record(store: &mut [u8], place: usize, record: &Option<Record>) {
    let bytes = record.as_ref().map_or([0; RECORD], Record::encode);
    store[place * RECORD..][..RECORD].copy_from_slice(&bytes);
}

/// The length that a beginning announces. Refusals: 9.
fn announce(length: u64, metadata: &[u8]) -> Result<usize, Refusal> {
    let length = usize::try_from(length).map_err(|_| Refusal::TooLong)?;
    check_sizes(length, metadata)?;
    Ok(length)
}

fn check_sizes(plaintext: usize, metadata: &[u8]) -> Result<(), Refusal> {
    if plaintext > MAX_PLAINTEXT || metadata.len() > MAX_METADATA {
        return Err(Refusal::TooLong);
    }
    Ok(())
}
