// SPDX-License-Identifier: MIT
//! What becomes of a key that is removed.

use crate::{refusal, BASE_KEY, KID};
use sframe::{Metadata, Refusal, Role, Store, Suite, RECORD};
use toolkit::say;

const SUITE: Suite = Suite::Aes128GcmSha256_128;

pub fn show() -> Result<(), Refusal> {
    let (mut ward, mut doctor) = ([0; 2 * RECORD], [0; 2 * RECORD]);
    let mut ward = Store::make(&mut ward)?;
    let mut doctor = Store::make(&mut doctor)?;
    ward.add(Role::Sending, KID, SUITE, BASE_KEY)?;
    doctor.add(Role::Receiving, KID, SUITE, BASE_KEY)?;
    let frame = ward.seal_to_vec(KID, Metadata::NONE, b"a picture")?;
    doctor.open_to_vec(&frame, Metadata::NONE)?;

    say!("\nKey number 200 is removed at the ward, where it was sending:\n");
    ward.remove(KID)?;
    for record in ward.records()? {
        let (kid, next) = (record.kid.0, record.next.0);
        say!(
            "  key number {kid} is {}, next counter {next}",
            record.state
        );
    }
    let answer = ward.seal_to_vec(KID, Metadata::NONE, b"another picture");
    print("sealing", refusal(answer));
    let answer = ward.add(Role::Sending, KID, SUITE, BASE_KEY);
    print("adding it again", refusal(answer));
    say!("  So its counters never start again, and no nonce comes twice.");

    say!("\nIt is removed at the doctor's, where it was receiving:\n");
    doctor.remove(KID)?;
    let answer = doctor.open_to_vec(&frame, Metadata::NONE);
    print("opening", refusal(answer));
    doctor.add(Role::Receiving, KID, SUITE, BASE_KEY)?;
    let opened = doctor.open_to_vec(&frame, Metadata::NONE)?;
    say!("  added again, it opens \"{}\"", opened.escape_ascii());
    say!("  So it has forgotten what it opened: a number returns with a new base key alone.");
    Ok(())
}

fn print(call: &str, refusal: Refusal) {
    say!("  {call}: refused ({}), {refusal}", refusal.number());
}
