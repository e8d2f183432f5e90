// SPDX-License-Identifier: MIT
//! SFrame (RFC 9605), cipher suites 1 to 5, with a key store: a second program
//! to compare the sealing layer with.
//!
//! It is written from the text of the public documents alone, in plain Rust:
//! table AES, a 4-bit GHASH, no special processor instructions. It makes no
//! claim about timing.

#![forbid(unsafe_code)]

pub mod aead;
pub mod aes;
pub mod ctr;
pub mod gcm;
pub mod ghash;
pub mod group;
pub mod header;
pub mod hkdf;
pub mod hmac;
pub mod log;
pub mod moq;
pub mod pieces;
pub mod ratchet;
pub mod record;
pub mod refusal;
pub mod sha2;
pub mod store;
pub mod suites;
pub mod window;
