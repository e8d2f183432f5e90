// SPDX-License-Identifier: MIT
//! A program outside the repository, with both packages.

use sframe::{FrameReader, Kid, Metadata, OwnedStore, Refusal, Role, Suite};

fn main() -> Result<(), Refusal> {
    let (mut ward, mut doctor) = (OwnedStore::make(2)?, OwnedStore::make(2)?);
    let (kid, suite) = (Kid(200), Suite::try_from(4)?);
    ward.lend().add(Role::Sending, kid, suite, &[7; 16])?;
    doctor.lend().add(Role::Receiving, kid, suite, &[7; 16])?;
    let frame = ward.lend().seal_to_vec(kid, Metadata::NONE, b"a picture")?;
    assert_eq!(FrameReader::new(&frame)?.kid(), kid);
    assert_eq!(doctor.lend().open_to_vec(&frame, Metadata::NONE)?, b"a picture");
    assert!(moq::TrackStore::make(&mut [0; moq::RECORD]).is_ok());
    let (major, minor, patch) = sframe::version();
    println!("ruddoshan {major}.{minor}.{patch}, key number {kid}");
    Ok(())
}
