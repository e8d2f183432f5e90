// SPDX-License-Identifier: MIT
//! The track store in lent bytes, and the calls on it.
//!
//! Each call tries its causes of refusal in the order in which its comment
//! names them. A refusal changes no lent byte.

use super::object::{aad, nonce};
use super::track::{Track, MAX_NAME, RECORD};
use crate::aead::Aead;
use crate::record::State;
use crate::refusal::{Answer, Refusal};
use crate::store::{Role, MAX_BASE_KEY, MAX_METADATA, MAX_PLAINTEXT, MIN_BASE_KEY};
use crate::suites::Suite;

/// How many records a track store may have.
pub const MAX_RECORDS: usize = 16;

/// Makes every record empty. Refusals: 1.
pub fn make(store: &mut [u8]) -> Answer {
    if !length_allowed(store) {
        return Err(Refusal::StoreNotSound);
    }
    store.fill(0);
    Ok(0)
}

/// Adds a track in the first empty record. Refusals: 1, 2, 17, 3, 9, 4, 5.
pub fn add(
    store: &mut [u8],
    role: Role,
    name: &[u8],
    key_id: u64,
    suite: u64,
    base_key: &[u8],
) -> Answer {
    let tracks = read_store(store)?;
    let suite = Suite::from_number(suite).ok_or(Refusal::NoSuchSuite)?;
    if role == Role::Sending && suite == Suite::Aes128CtrHmacSha256_32 {
        return Err(Refusal::SendingBarred);
    }
    if !(MIN_BASE_KEY..=MAX_BASE_KEY).contains(&base_key.len()) {
        return Err(Refusal::BaseKeyLength);
    }
    if name.len() > MAX_NAME {
        return Err(Refusal::TooLong);
    }
    if look_up(&tracks, name, key_id).is_ok() {
        return Err(Refusal::KidHeld);
    }
    let place = tracks
        .iter()
        .position(Option::is_none)
        .ok_or(Refusal::StoreFull)?;

    let state = match role {
        Role::Sending => State::Sending,
        Role::Receiving => State::Receiving,
    };
    write(
        store,
        place,
        &Track::new(state, suite, name, key_id, base_key),
    );
    Ok(0)
}

/// Removes a track: its record is retired. Refusals: 1, 6, 7.
pub fn remove(store: &mut [u8], name: &[u8], key_id: u64) -> Answer {
    let tracks = read_store(store)?;
    let (place, track) = look_up(&tracks, name, key_id)?;
    if track.state == State::Retired {
        return Err(Refusal::WrongRole);
    }
    write(store, place, &track.clone().retired());
    Ok(0)
}

/// Where an object stands: its track's name and Key ID, its group and object.
#[derive(Clone, Copy, Debug, PartialEq, Eq)]
pub struct Location<'a> {
    /// The serialized full track name.
    pub name: &'a [u8],
    /// The Key ID.
    pub key_id: u64,
    /// The Group ID.
    pub group: u64,
    /// The Object ID.
    pub object: u64,
}

/// Seals `plaintext` at the front of `room`. Refusals: 1, 6, 7, 25, 24, 9, 12.
pub fn seal(
    store: &mut [u8],
    at: Location,
    properties: &[u8],
    plaintext: &[u8],
    room: &mut [u8],
) -> Answer {
    let tracks = read_store(store)?;
    let (place, track) = look_up(&tracks, at.name, at.key_id)?;
    if track.state != State::Sending {
        return Err(Refusal::WrongRole);
    }
    let object = u32::try_from(at.object).map_err(|_| Refusal::ObjectTooLarge)?;
    if track.last.is_some_and(|last| (at.group, object) <= last) {
        return Err(Refusal::PairNotAbove);
    }
    check_sizes(plaintext.len(), properties)?;
    let length = plaintext.len() + track.suite.nt();
    let sealed = room.get_mut(..length).ok_or(Refusal::RoomShort)?;

    let (data, tag) = sealed.split_at_mut(plaintext.len());
    data.copy_from_slice(plaintext);
    let aad = aad(at.key_id, at.group, object, at.name, properties);
    let nonce = nonce(&track.salt, at.group, object);
    let aead = Aead::new(track.suite, track.key());
    tag.copy_from_slice(&aead.encrypt(&nonce, &aad, data));

    write(store, place, &track.clone().advanced(at.group, object));
    Ok(length)
}

/// Opens `sealed` into the front of `room`; nothing is written before the tag
/// is verified. Refusals: 1, 6, 7, 25, 11, 9, 12, 13.
pub fn open(
    store: &[u8],
    at: Location,
    properties: &[u8],
    sealed: &[u8],
    room: &mut [u8],
) -> Answer {
    let tracks = read_store(store)?;
    let (_, track) = look_up(&tracks, at.name, at.key_id)?;
    if track.state != State::Receiving {
        return Err(Refusal::WrongRole);
    }
    let object = u32::try_from(at.object).map_err(|_| Refusal::ObjectTooLarge)?;
    let length = sealed
        .len()
        .checked_sub(track.suite.nt())
        .ok_or(Refusal::NoTag)?;
    check_sizes(length, properties)?;
    let plaintext = room.get_mut(..length).ok_or(Refusal::RoomShort)?;

    let (ciphertext, tag) = sealed.split_at(length);
    let aad = aad(at.key_id, at.group, object, at.name, properties);
    let nonce = nonce(&track.salt, at.group, object);
    let aead = Aead::new(track.suite, track.key());
    if !aead.verify(&nonce, &aad, ciphertext, tag) {
        return Err(Refusal::TagDiffers);
    }
    plaintext.copy_from_slice(ciphertext);
    aead.apply_key_stream(&nonce, plaintext);
    Ok(length)
}

fn length_allowed(store: &[u8]) -> bool {
    store.len().is_multiple_of(RECORD) && (1..=MAX_RECORDS).contains(&(store.len() / RECORD))
}

/// The records of a sound store by place, `None` where one is empty.
fn read_store(store: &[u8]) -> Result<Vec<Option<Track>>, Refusal> {
    if !length_allowed(store) {
        return Err(Refusal::StoreNotSound);
    }
    let tracks: Vec<Option<Track>> = store
        .chunks_exact(RECORD)
        .map(Track::decode)
        .collect::<Result<_, _>>()
        .map_err(|_| Refusal::StoreNotSound)?;

    let held = tracks.iter().flatten();
    let mut ids: Vec<_> = held.map(|track| (&track.name, track.key_id)).collect();
    ids.sort_unstable();
    if ids.windows(2).any(|pair| pair[0] == pair[1]) {
        return Err(Refusal::StoreNotSound);
    }
    Ok(tracks)
}

/// The non-empty record of a name and Key ID, and its place.
fn look_up<'a>(
    tracks: &'a [Option<Track>],
    name: &[u8],
    key_id: u64,
) -> Result<(usize, &'a Track), Refusal> {
    let is_it = |track: &&Track| track.name == name && track.key_id == key_id;
    tracks
        .iter()
        .enumerate()
        .find_map(|(place, slot)| Some((place, slot.as_ref().filter(is_it)?)))
        .ok_or(Refusal::KidUnknown)
}

fn write(store: &mut [u8], place: usize, track: &Track) {
    store[place * RECORD..][..RECORD].copy_from_slice(&track.encode());
}

fn check_sizes(plaintext: usize, properties: &[u8]) -> Result<(), Refusal> {
    if plaintext > MAX_PLAINTEXT || properties.len() > MAX_METADATA {
        return Err(Refusal::TooLong);
    }
    Ok(())
}
