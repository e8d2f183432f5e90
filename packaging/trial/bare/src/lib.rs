// SPDX-License-Identifier: MIT
//! A library for C that needs neither the standard library nor an allocator.

#![no_std]

use sframe::{Kid, Metadata, Refusal, Role, Store, Suite, RECORD};

fn round_trip() -> Result<usize, Refusal> {
    let (mut ward, mut doctor) = ([0; RECORD], [0; RECORD]);
    let mut ward = Store::make(&mut ward)?;
    let mut doctor = Store::make(&mut doctor)?;
    ward.add(Role::Sending, Kid(200), Suite::Aes128GcmSha256_128, &[7; 16])?;
    doctor.add(Role::Receiving, Kid(200), Suite::Aes128GcmSha256_128, &[7; 16])?;
    let (mut room, mut opened) = ([0; 64], [0; 64]);
    let length = ward.seal(Kid(200), Metadata::NONE, b"a picture", &mut room)?;
    doctor.open(&room[..length], Metadata::NONE, &mut opened)
}

/// 0 where a picture of nine bytes is sealed and opened.
#[no_mangle]
pub extern "C" fn bare() -> i32 {
    i32::from(round_trip() != Ok(9))
}

#[panic_handler]
fn panic(_: &core::panic::PanicInfo) -> ! {
    loop {}
}
