// SPDX-License-Identifier: MIT
//! A publisher and a subscriber with a relay in between: a short demonstration.

use moq::{KeyId, Location, Properties, Refusal, Role, Suite, Track, TrackStore, RECORD};
use toolkit::{console, say};

/// Namespace ("room"), names "video" and "audio", as the draft serializes them.
const VIDEO: Track = Track {
    name: b"\x01\x04room\x05video",
    key_id: KeyId(7),
};
const AUDIO: Track = Track {
    name: b"\x01\x04room\x05audio",
    key_id: KeyId(7),
};

/// The Secure Object Key ID property: type 2, value 7.
const PROPERTIES: Properties = Properties(b"\x02\x07");

const BASE_KEY: &[u8] = b"agreed on between the two ends";

fn main() -> Result<(), Refusal> {
    console::named("publish");
    let (mut publisher, mut subscriber) = ([0; 2 * RECORD], [0; 2 * RECORD]);
    let mut publisher = TrackStore::make(&mut publisher)?;
    let mut subscriber = TrackStore::make(&mut subscriber)?;
    for (track, suite) in [
        (VIDEO, Suite::Aes256GcmSha512_128),
        (AUDIO, Suite::Aes128CtrHmacSha256_80),
    ] {
        publisher.add(Role::Sending, track, suite, BASE_KEY)?;
        subscriber.add(Role::Receiving, track, suite, BASE_KEY)?;
        say!("Track {}, Key ID 7, {suite}", show(track.name));
    }

    say!("\nThe publisher seals, the relay passes on, the subscriber opens:\n");
    for (track, group, object, text) in [
        (VIDEO, 1, 0, "key frame"),
        (AUDIO, 1, 0, "hello"),
        (VIDEO, 1, 1, "delta"),
        (VIDEO, 2, 0, "next key frame"),
    ] {
        let at = Location { group, object };
        // The payload behind its length; there are no encrypted properties.
        let plaintext = [&[text.len() as u8], text.as_bytes()].concat();
        let sealed = publisher.seal_to_vec(track, at, PROPERTIES, &plaintext)?;
        say!("  group {group} object {object}: {}", hex(&sealed));
        let opened = subscriber.open_to_vec(track, at, PROPERTIES, &sealed)?;
        say!("    opens to \"{}\"", opened[1..].escape_ascii());
    }

    say!("\nWhat is refused:\n");
    let at = |group, object| Location { group, object };
    let seal = publisher.seal_to_vec(VIDEO, at(2, 0), PROPERTIES, b"");
    refused("a pair that was sealed", seal);
    let seal = publisher.seal_to_vec(VIDEO, at(1, 9), PROPERTIES, b"");
    refused("a pair below it", seal);
    let seal = publisher.seal_to_vec(VIDEO, at(3, 1 << 32), PROPERTIES, b"");
    refused("an object number of 33 bits", seal);
    let sealed = publisher.seal_to_vec(AUDIO, at(1, 1), PROPERTIES, b"\x0egood afternoon")?;
    let open = subscriber.open_to_vec(AUDIO, at(1, 2), PROPERTIES, &sealed);
    refused("an object under another pair", open);
    let open = subscriber.open_to_vec(VIDEO, at(1, 1), PROPERTIES, &sealed);
    refused("an object under another track", open);
    let open = subscriber.open_to_vec(AUDIO, at(1, 1), Properties(b"\x02\x08"), &sealed);
    refused("an object with changed properties", open);

    say!("\nThe publisher removes the track of the video:\n");
    publisher.remove(VIDEO)?;
    let seal = publisher.seal_to_vec(VIDEO, at(3, 0), PROPERTIES, b"");
    refused("sealing", seal);
    let add = publisher.add(Role::Sending, VIDEO, Suite::Aes256GcmSha512_128, BASE_KEY);
    refused("adding it again", add);
    say!("  So no pair of it is ever sealed twice, and no nonce comes twice.");
    Ok(())
}

fn refused<T>(call: &str, answer: Result<T, Refusal>) {
    let refusal = answer.err().expect("this is refused");
    say!("  {call}: refused ({}), {refusal}", refusal.number());
}

/// The namespace's only field and the track's name.
fn show(name: &[u8]) -> String {
    format!(
        "{} / {}",
        name[2..6].escape_ascii(),
        name[7..].escape_ascii()
    )
}

fn hex(bytes: &[u8]) -> String {
    bytes.iter().map(|byte| format!("{byte:02x}")).collect()
}
