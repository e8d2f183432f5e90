// SPDX-License-Identifier: MIT
//! Secure objects over MoQ (draft-ietf-moq-secure-objects): the safe wrapper over
//! the sealing layer's second static library.
//!
//! A [`TrackStore`] holds tracks in bytes that the caller lends. It seals objects
//! under a track and a pair of group and object, and opens what another store has
//! sealed. A call that cannot be done answers a [`Refusal`] and changes nothing.
//!
//! ```
//! use moq::{KeyId, Location, Properties, Role, Suite, Track, TrackStore, RECORD};
//!
//! // The serialized full track name: namespace ("room"), name "video".
//! let track = Track { name: b"\x01\x04room\x05video", key_id: KeyId(7) };
//! let base_key = [7; 32]; // agreed on elsewhere
//! let (mut publisher, mut subscriber) = ([0; RECORD], [0; RECORD]);
//! let mut publisher = TrackStore::make(&mut publisher)?;
//! let mut subscriber = TrackStore::make(&mut subscriber)?;
//! publisher.add(Role::Sending, track, Suite::Aes128GcmSha256_128, &base_key)?;
//! subscriber.add(Role::Receiving, track, Suite::Aes128GcmSha256_128, &base_key)?;
//!
//! let at = Location { group: 1, object: 2 };
//! let properties = Properties(b"\x02\x07"); // the Key ID property
//! let object = publisher.seal_to_vec(track, at, properties, b"\x05hello")?;
//! assert_eq!(subscriber.open_to_vec(track, at, properties, &object)?, b"\x05hello");
//! # Ok::<(), moq::Refusal>(())
//! ```
//!
//! [`raw`] has the same calls with bare numbers, and [`ffi`] the C functions.
//!
//! # Features
//!
//! Without any the crate needs `core` alone. `alloc` adds the calls that answer a
//! vector and a store in bytes of its own; `std`, which is on by default, adds `alloc` and a [`Refusal`] as a
//! `std::io::Error`.

#![no_std]
#![deny(unsafe_code)]
#![deny(unsafe_op_in_unsafe_fn)]

#[cfg(feature = "alloc")]
extern crate alloc;
#[cfg(feature = "std")]
extern crate std;

#[allow(unsafe_code)]
pub mod ffi;
#[cfg(feature = "alloc")]
mod owned;
#[allow(unsafe_code)]
pub mod raw;
mod refusal;
mod store;

#[cfg(feature = "alloc")]
pub use owned::OwnedTrackStore;
pub use refusal::Refusal;
pub use sframe::{wipe, Role, Suite, MAX_BASE_KEY, MAX_PLAINTEXT, MIN_BASE_KEY};
pub use store::{KeyId, Location, Properties, Track, TrackStore};

/// The length of a record: a store of `n` tracks takes `n` times as many bytes.
pub const RECORD: usize = 344;
/// The most records of a track store.
pub const MAX_RECORDS: usize = 16;
/// The longest serialized full track name.
pub const MAX_NAME: usize = 256;
/// The longest serialized immutable properties.
pub const MAX_PROPERTIES: usize = 1_024;

// The examples of the package's page are compiled.
#[cfg(doctest)]
#[doc = include_str!("../README.md")]
struct Page;
