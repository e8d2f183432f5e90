// SPDX-License-Identifier: MIT
//! What the tests share: hex, the tables of published vectors, a seeded
//! generator of inputs, combinations of choices, checks on lent rooms, and what
//! the C headers say.

#![forbid(unsafe_code)]

mod c_header;
mod combinations;
mod generator;
mod hex;
mod room;
mod vectors;

pub use c_header::answer_texts;
pub use combinations::combinations;
pub use generator::Generator;
pub use hex::{hex, number};
pub use room::{check_filled, check_output, check_refused, PATTERN};
pub use vectors::{
    aead_vectors, group_vectors, header_vectors, sframe_vectors, Case, GroupVector, HeaderVector,
};
