// SPDX-License-Identifier: MIT
//! Keys in files: read with warnings, made at random.

use crate::console::note;
use crate::disk::RealDisk;
use crate::disk::{Disk, Owner};
use crate::fault::Fault;
use crate::place::Place;
use std::fs::File;
use std::io::Read;

/// Reads a base key of up to `most` bytes. Its path is not shown: by mistake it
/// could be the key. What may be a mistake is said.
pub fn read(place: &Place, hex: bool, most: usize) -> Result<Vec<u8>, Fault> {
    let key = place.read_as(hex, most);
    let key = key.map_err(|fault| fault.naming("--key"))?;
    for warning in warnings(place, hex, &key) {
        note(format!("warning: --key: {warning}"));
    }
    Ok(key)
}

fn warnings(place: &Place, hex: bool, key: &[u8]) -> Vec<String> {
    let mut warnings = vec![];
    if let Some(Owner { mode, .. }) = owner(place) {
        if mode & 0o077 != 0 {
            let text = format!("others may read or write the file (mode {mode:03o}); chmod 600");
            warnings.push(text);
        }
    }
    let text = key.trim_ascii_end();
    if !hex && text.len() >= 32 && text.iter().all(u8::is_ascii_hexdigit) {
        warnings.push("the key is hex digits; without --hex they are its bytes".into());
    }
    if !hex && key.ends_with(b"\n") {
        warnings.push("the key ends in a newline, which is a part of it".into());
    }
    warnings
}

/// The owner of a key's file. A pipe is read by those who have it open.
fn owner(place: &Place) -> Option<Owner> {
    match place {
        Place::Standard => None,
        Place::File(path) => {
            let status = RealDisk.status(path).ok()??;
            status.regular.then_some(status.owner)
        }
    }
}

/// So many bytes from the system's own source of random bytes.
pub fn random(length: usize) -> Result<Vec<u8>, Fault> {
    const SOURCE: &str = "/dev/urandom";
    let mut bytes = vec![0; length];
    File::open(SOURCE)
        .and_then(|mut source| source.read_exact(&mut bytes))
        .map_err(|error| Fault::io(SOURCE, error))?;
    Ok(bytes)
}
