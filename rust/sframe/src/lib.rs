// SPDX-License-Identifier: MIT
//! SFrame (RFC 9605): the safe wrapper over the sealing layer's static library.
//!
//! A [`Store`] holds the keys in bytes that the caller lends. It seals under a
//! key number and its own counter, and opens what another store has sealed, each
//! frame once. A call that cannot be done answers a [`Refusal`] and changes
//! nothing.
//!
//! ```
//! use sframe::{Kid, Metadata, Refusal, Role, Store, Suite, RECORD};
//!
//! let (mut ward, mut doctor) = ([0; RECORD], [0; RECORD]);
//! let mut ward = Store::make(&mut ward)?;
//! let mut doctor = Store::make(&mut doctor)?;
//! let base_key = [7; 32]; // agreed on elsewhere
//! ward.add(Role::Sending, Kid(200), Suite::Aes256GcmSha512_128, &base_key)?;
//! doctor.add(Role::Receiving, Kid(200), Suite::Aes256GcmSha512_128, &base_key)?;
//!
//! let frame = ward.seal_to_vec(Kid(200), Metadata::NONE, b"a picture")?;
//! assert_eq!(doctor.open_to_vec(&frame, Metadata::NONE)?, b"a picture");
//! let again = doctor.open_to_vec(&frame, Metadata::NONE);
//! assert_eq!(again, Err(Refusal::AlreadyOpened));
//! # Ok::<(), Refusal>(())
//! ```
//!
//! [`raw`] has the same calls with bare numbers, and [`ffi`] the C functions.
//!
//! # Features
//!
//! Without any the crate needs `core` alone. `alloc` adds [`OwnedStore`] and the
//! calls that answer a vector; `std`, which is on by default, adds `alloc` and a
//! [`Refusal`] as a `std::io::Error`.

#![no_std]
#![deny(unsafe_code)]
#![deny(unsafe_op_in_unsafe_fn)]

#[cfg(feature = "alloc")]
extern crate alloc;
#[cfg(feature = "std")]
extern crate std;

#[allow(unsafe_code)]
pub mod ffi;
mod frame;
mod group;
mod header;
mod limits;
mod metadata;
#[cfg(feature = "alloc")]
mod owned;
mod pieces;
mod ratchet;
#[allow(unsafe_code)]
pub mod raw;
mod record;
mod refusal;
mod store;
mod suite;
mod version;
mod view;
#[allow(unsafe_code)]
mod wipe;

pub use frame::FrameReader;
pub use group::{group_kid, group_parts, EpochBits, GroupParts, GroupWidths};
pub use header::{read_header, write_header, write_header_at, Ctr, Header, Kid, MAX_HEADER};
pub use limits::{
    frame_room, MAX_BASE_KEY, MAX_COUNTER, MAX_METADATA, MAX_PLAINTEXT, MAX_RATCHET_BITS,
    MAX_RECORDS, MAX_STEPS, MIN_BASE_KEY, RECORD, WINDOW,
};
pub use metadata::Metadata;
#[cfg(feature = "alloc")]
pub use owned::OwnedStore;
pub use pieces::{Checking, NotEnded, Sealing, STATE};
#[cfg(feature = "alloc")]
pub use ratchet::ratchet_to_vec;
pub use ratchet::{ratchet, ratchet_kid};
pub use record::{Place, Record, State, Window};
pub use refusal::Refusal;
pub use store::{Role, Store};
pub use suite::Suite;
pub use version::version;
pub use view::StoreView;
pub use wipe::wipe;

// The examples of the package's page are compiled.
#[cfg(doctest)]
#[doc = include_str!("../README.md")]
struct Page;
