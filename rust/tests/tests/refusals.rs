// SPDX-License-Identifier: MIT
//! Every refusal of every call, alone and together with each other cause that
//! can hold at the same time: the answer is the first in the call's order.
//!
//! A situation is put together from choices, each of which brings its causes;
//! all combinations of the choices are tried.

mod refusals {
    mod held;
    mod open;
    mod seen;
    mod store;
}
