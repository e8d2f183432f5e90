// SPDX-License-Identifier: MIT
//! Each refusal once.

use crate::{refusal, BASE_KEY, KID};
use sframe::{
    group_kid, ratchet, ratchet_kid, raw, EpochBits, GroupParts, GroupWidths, Kid, Metadata,
    Refusal, Role, Store, Suite, MAX_COUNTER, MAX_PLAINTEXT, RECORD, WINDOW,
};
use toolkit::say;

const SUITE: Suite = Suite::Aes128GcmSha256_128;
const SHORT_TAGS: Suite = Suite::Aes128CtrHmacSha256_32;

/// Where a record keeps its next counter.
const SPENT_AT: usize = 2;
const COUNTER_AT: usize = 12;

pub fn show() -> Result<(), Refusal> {
    say!("\nEach refusal once. None of them changes a byte of store or room:\n");
    let (mut ward, mut doctor) = ([0; RECORD], [0; RECORD]);
    let mut store = Store::make(&mut ward)?;
    store.add(Role::Sending, KID, SUITE, BASE_KEY)?;
    let frame = store.seal_to_vec(KID, Metadata::NONE, b"a picture")?;
    Store::make(&mut doctor)?.add(Role::Receiving, KID, SUITE, BASE_KEY)?;

    let before = (ward, doctor);
    of_stores(&mut ward, &mut doctor);
    of_sealing(&mut ward, &doctor);
    of_opening(&mut doctor, &frame);
    assert_eq!((ward, doctor), before);
    of_replay(&mut ward, &mut doctor, &frame)?;
    of_pieces(&mut ward)?;
    of_ratchet();
    of_groups(&mut doctor);
    Ok(())
}

fn print(refusal: Refusal, what: &str) {
    say!("{:>4}  {refusal}\n        {what}", refusal.number());
}

fn of_stores(ward: &mut [u8], doctor: &mut [u8]) {
    let mut bytes = [0; 100];
    let answer = Store::make(&mut bytes);
    print(refusal(answer), "a store is made in 100 bytes");

    // The types leave no way to name a suite that does not exist.
    let number = raw::add_sending(ward, 1, 6, BASE_KEY);
    if let Some(refusal) = Refusal::from_number(number) {
        print(refusal, "a key is added for suite 6");
    }
    let mut ward = Store::over(ward);
    let answer = ward.add(Role::Sending, Kid(1), SHORT_TAGS, BASE_KEY);
    print(refusal(answer), "a key for sending is added for suite 3");
    let answer = ward.add(Role::Sending, Kid(1), SUITE, &BASE_KEY[..15]);
    print(refusal(answer), "a base key of 15 bytes is added");
    let answer = ward.add(Role::Sending, KID, SUITE, BASE_KEY);
    print(refusal(answer), "key number 200 is added a second time");
    let answer = ward.add(Role::Sending, Kid(1), SUITE, BASE_KEY);
    print(refusal(answer), "a second key is added to a store for one");
    let answer = Store::over(doctor).remove(Kid(56));
    print(
        refusal(answer),
        "key number 56 is removed, which nobody has added",
    );
}

fn of_sealing(ward: &mut [u8], doctor: &[u8]) {
    let mut room = [0xee; 100];
    let answer = Store::over(&mut doctor.to_vec()).seal(KID, Metadata::NONE, b"", &mut room);
    print(
        refusal(answer),
        "the doctor's terminal, which receives, seals",
    );

    let mut spent = ward.to_vec();
    spent[SPENT_AT] = 1;
    spent[COUNTER_AT..COUNTER_AT + 8].copy_from_slice(&MAX_COUNTER.to_be_bytes());
    let answer = Store::over(&mut spent).seal(KID, Metadata::NONE, b"", &mut room);
    print(
        refusal(answer),
        "a key seals that has used its last counter, 2^64 - 1",
    );

    let mut ward = Store::over(ward);
    let picture = vec![0; MAX_PLAINTEXT + 1];
    let answer = ward.seal(KID, Metadata::NONE, &picture, &mut room);
    print(refusal(answer), "a picture of 32,769 bytes is sealed");
    assert_eq!(room, [0xee; 100]);
}

fn of_opening(doctor: &mut [u8], frame: &[u8]) {
    let mut doctor = Store::over(doctor);
    let mut room = [0xee; 9];
    let answer = doctor.open(&[0x90, 0x00], Metadata::NONE, &mut room);
    print(refusal(answer), "a header ends within its key number");
    let answer = doctor.open(&frame[..12], Metadata::NONE, &mut room);
    print(refusal(answer), "a frame is cut to 12 bytes");
    let answer = doctor.open(frame, Metadata::NONE, &mut room[..8]);
    print(
        refusal(answer),
        "nine bytes of plaintext are opened into eight",
    );

    let mut damaged = frame.to_vec();
    damaged[5] ^= 1;
    let answer = doctor.open(&damaged, Metadata::NONE, &mut room);
    print(refusal(answer), "a frame has one bit changed");
    assert_eq!(room, [0xee; 9]);
}

/// Here frames are opened, so that they can be played again.
fn of_replay(ward: &mut [u8], doctor: &mut [u8], frame: &[u8]) -> Result<(), Refusal> {
    let mut doctor = Store::over(doctor);
    doctor.open_to_vec(frame, Metadata::NONE)?;
    let again = doctor.open_to_vec(frame, Metadata::NONE);
    print(refusal(again), "a frame is played a second time");

    let mut ward = Store::over(ward);
    let mut last = vec![];
    for _ in 0..WINDOW {
        last = ward.seal_to_vec(KID, Metadata::NONE, b"a picture")?;
    }
    doctor.open_to_vec(&last, Metadata::NONE)?;
    let late = doctor.open_to_vec(frame, Metadata::NONE);
    print(
        refusal(late),
        "the same frame once more, after that of counter 64",
    );
    Ok(())
}

fn of_pieces(ward: &mut [u8]) -> Result<(), Refusal> {
    let mut room = [0xee; 16];
    let mut ward = Store::over(ward);
    let (mut sealing, header) = ward.seal_begin(KID, Metadata::NONE, 9, &mut room)?;
    room[..header].fill(0xee);
    let answer = sealing.piece(b"ten bytes!", &mut room);
    print(
        refusal(answer),
        "a piece of ten bytes where nine were announced",
    );
    assert_eq!(room, [0xee; 16]);
    Ok(())
}

fn of_ratchet() {
    let answer = ratchet_kid(0, 1, 17);
    print(refusal(answer), "a key number has 17 bits of the step");
    let mut room = [0xee; 64];
    let answer = ratchet(SUITE, BASE_KEY, 65, &mut room);
    print(refusal(answer), "a base key is walked 65 steps at once");
    assert_eq!(room, [0xee; 64]);
}

fn of_groups(doctor: &mut [u8]) {
    let epoch = EpochBits { width: 4, bits: 16 };
    let answer = Store::over(doctor).change_epoch(epoch);
    print(
        refusal(answer),
        "an epoch is removed whose low 4 bits would be 16",
    );
    let member = GroupParts {
        context: 0,
        index: 3,
        epoch: 14,
    };
    let widths = GroupWidths {
        index: 6,
        epoch: 59,
    };
    let answer = group_kid(member, widths);
    print(
        refusal(answer),
        "a key number has 6 bits of the index and 59 of the epoch",
    );
}
