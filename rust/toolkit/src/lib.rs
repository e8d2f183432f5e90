// SPDX-License-Identifier: MIT
//! What the command-line tools `sframe` and `moq` share: how a command line is
//! read, how files are read, locked and replaced, and how help is shown.
//!
//! It knows Unix systems alone: owners, modes and links are theirs.

#![deny(unsafe_code)]

pub mod console;
pub mod disk;
pub mod failure;
pub mod fault;
pub mod hex;
pub mod key;
pub mod output;
pub mod pages;
pub mod place;
pub mod spec;
pub mod store_file;
pub mod table;
pub mod words;
