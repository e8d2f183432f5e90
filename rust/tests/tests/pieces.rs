// SPDX-License-Identifier: MIT
//! Sealing and checking in pieces: cuts, edges, running states of every kind, and
//! lines of calls side by side.

mod pieces {
    mod cuts;
    mod edges;
    mod line;
    mod lines;
    mod states;
}
