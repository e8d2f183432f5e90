// SPDX-License-Identifier: MIT
//! What lists of calls are made of.

mod given;
mod neighbours;
mod stores;
mod tally;
mod terminal;

pub use given::Given;
pub use stores::{damage, sound_store};
pub use tally::Tally;
pub use terminal::{step, Terminal};
