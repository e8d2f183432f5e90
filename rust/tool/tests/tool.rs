// SPDX-License-Identifier: MIT
//! The command-line tool as a whole, run as a process.

mod tool {
    mod expected;
    pub mod folder;
    mod keys;
    mod logs;
    mod outputs;
    mod pages;
    mod pieces;
    mod refusals;
    mod runs;
    mod stores;
    mod together;
}
