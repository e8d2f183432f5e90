// SPDX-License-Identifier: MIT
//! Secure objects of draft-ietf-moq-secure-objects over a track store.
//!
//! Written from the draft's text and from `docs/TRACKS.md`.

pub mod object;
pub mod store;
pub mod track;
