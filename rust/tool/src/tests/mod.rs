// SPDX-License-Identifier: MIT
//! Tests of the parts, and of what a whole run cannot show.

mod arguments;
mod diagnosis;
mod kills;
mod memory_disk;
mod offers;
mod real_disk;
mod terminal;
