// SPDX-License-Identifier: MIT
//! Frames sealed at one end and opened at the other.

use crate::{hex, BASE_KEY, KID};
use sframe::{read_header, Metadata, Refusal, Role, Store, Suite, RECORD};
use toolkit::say;

/// Bound to each frame, and sent by other means.
const METADATA: Metadata = Metadata(b"ward 3, camera 2");

const PICTURES: [&[u8]; 3] = [b"bed 1: asleep", b"bed 2: reading a letter", b""];

/// What the first byte of a sending record holds.
const SENDING: u8 = 1;

pub fn show() -> Result<(), Refusal> {
    say!("The ward seals pictures under key number 200, the doctor opens them.");
    for suite in Suite::ALL {
        say!("\nSuite {}, {suite}:", suite.number());
        let (mut ward, mut doctor) = ([0; RECORD], [0; RECORD]);
        let mut ward = sender(&mut ward, suite)?;
        let mut doctor = Store::make(&mut doctor)?;
        doctor.add(Role::Receiving, KID, suite, BASE_KEY)?;

        for picture in PICTURES {
            let frame = ward.seal_to_vec(KID, METADATA, picture)?;
            let header = read_header(&frame)?;
            let (start, rest) = frame.split_at(header.length);
            let (ciphertext, tag) = rest.split_at(rest.len() - suite.nt());
            say!(
                "  counter {}  header {}  ciphertext {:<46}  tag {}",
                header.ctr.0,
                hex(start),
                hex(ciphertext),
                hex(tag)
            );
            let opened = doctor.open_to_vec(&frame, METADATA)?;
            assert_eq!(opened, picture);
            say!("             opened: \"{}\"", opened.escape_ascii());
        }
    }
    Ok(())
}

/// A store that sends under [`KID`]. Where no sender is added it is taken from a
/// store of an earlier day: the record of the same key for receiving, marked as a
/// sending one.
fn sender(bytes: &mut [u8], suite: Suite) -> Result<Store<'_>, Refusal> {
    let added = Store::make(bytes)?.add(Role::Sending, KID, suite, BASE_KEY);
    if let Err(refusal) = added {
        assert_eq!(refusal, Refusal::SendingBarred);
        say!(
            "  not added any more ({}); a stored sender goes on:",
            refusal.number()
        );
        Store::over(bytes).add(Role::Receiving, KID, suite, BASE_KEY)?;
        bytes[0] = SENDING;
    }
    Ok(Store::over(bytes))
}
