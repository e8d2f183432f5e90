// SPDX-License-Identifier: MIT
//! A ward round: the ward's terminal seals pictures under key number 200 and
//! the doctor's opens them, under each suite; then each refusal once; then what
//! removing a key does.

mod refusals;
mod removal;
mod round;

use sframe::{Kid, Refusal};
use toolkit::console;

/// The key number of the round. In a signed byte it would be -56.
const KID: Kid = Kid(200);

/// What both ends have agreed on.
const BASE_KEY: &[u8] = b"a base key of thirty-two bytes..";

fn main() -> Result<(), Refusal> {
    console::named("demo");
    round::show()?;
    refusals::show()?;
    removal::show()
}

fn hex(bytes: &[u8]) -> String {
    bytes.iter().map(|byte| format!("{byte:02x}")).collect()
}

/// The refusal that a call must have ended with.
#[track_caller]
fn refusal<T>(answer: Result<T, Refusal>) -> Refusal {
    match answer {
        Err(refusal) => refusal,
        Ok(_) => panic!("the call was to be refused"),
    }
}
