// SPDX-License-Identifier: MIT
//! What a call is given, at random: mostly what it accepts, often an edge, and
//! at times what it must refuse.

use comparison::Call;
use reference::aead::Aead;
use reference::group::low_bits;
use reference::header::write_header;
use reference::record::Record;
use reference::suites::{nonce, SUITES};
use sframe::{Role, RECORD};
use testkit::Generator;

/// A call that owns what it is given.
pub enum Given {
    Add {
        role: Role,
        suite: u64,
        kid: u64,
        base_key: Vec<u8>,
    },
    Remove {
        kid: u64,
    },
    ChangeEpoch {
        width: u64,
        bits: u64,
    },
    Seal {
        kid: u64,
        metadata: Vec<u8>,
        plaintext: Vec<u8>,
        offset: usize,
        room: usize,
    },
    Open {
        frame: Vec<u8>,
        metadata: Vec<u8>,
        room: usize,
    },
    Report {
        kid: u64,
    },
    Find {
        kid: u64,
    },
}

impl Given {
    pub fn call(&self) -> Call<'_> {
        match self {
            Given::Add {
                role,
                suite,
                kid,
                base_key,
            } => Call::Add {
                role: *role,
                suite: *suite,
                kid: *kid,
                base_key,
            },
            Given::Remove { kid } => Call::Remove { kid: *kid },
            Given::ChangeEpoch { width, bits } => Call::ChangeEpoch {
                width: *width,
                bits: *bits,
            },
            Given::Seal {
                kid,
                metadata,
                plaintext,
                offset,
                room,
            } => Call::Seal {
                kid: *kid,
                metadata,
                plaintext,
                offset: *offset,
                room: *room,
            },
            Given::Open {
                frame,
                metadata,
                room,
            } => Call::Open {
                frame,
                metadata,
                room: *room,
            },
            Given::Report { kid } => Call::Report { kid: *kid },
            Given::Find { kid } => Call::Find { kid: *kid },
        }
    }

    pub fn add(generator: &mut Generator, kid: u64) -> Self {
        let suite = match generator.up_to(15) {
            0 => *generator.pick(&[0, 6, 255, 256 + 1, 1 << 32 | 2, u64::MAX]),
            _ => generator.pick(&SUITES).number(),
        };
        let length = match generator.up_to(15) {
            0 => *generator.pick(&[0, 1, 15, 65, 100]),
            1 => 16,
            2 => 64,
            _ => 16 + generator.up_to(48),
        };
        Given::Add {
            role: *generator.pick(&[Role::Sending, Role::Receiving]),
            suite,
            kid,
            base_key: generator.bytes(length),
        }
    }

    /// Mostly the epoch that a key number has, in some width.
    pub fn change_epoch(generator: &mut Generator, kid: u64) -> Self {
        let width = match generator.up_to(15) {
            0 => *generator.pick(&[65, 66, 128, 256 + 4, 1 << 32 | 4, u64::MAX]),
            1 => *generator.pick(&[0, 63, 64]),
            _ => 1 + generator.up_to(61) as u64,
        };
        let bits = match generator.up_to(7) {
            0 => generator.any_width(),
            _ => low_bits(kid, width.min(64)),
        };
        Given::ChangeEpoch { width, bits }
    }

    pub fn seal(generator: &mut Generator, kid: u64) -> Self {
        let length = match generator.up_to(999) {
            0 => 32_767 + generator.up_to(2),
            1..40 => generator.up_to(1_500),
            _ => generator.up_to(70),
        };
        let metadata = match generator.up_to(199) {
            0 => 1_023 + generator.up_to(2),
            1..50 => 0,
            _ => generator.up_to(40),
        };
        let room = match generator.up_to(19) {
            // About what a frame takes: some a little short, some exact.
            0..4 => length + generator.up_to(30),
            4 => generator.up_to(length),
            _ => length + 33,
        };
        // Most offsets come on top of the room; some are taken from it, or lie
        // past its end.
        let (offset, room) = match generator.up_to(19) {
            0 => (generator.up_to(room + 2), room),
            1 => (generator.any_width() as usize, room),
            2..12 => {
                let offset = generator.up_to(40);
                (offset, offset + room)
            }
            _ => (0, room),
        };
        Given::Seal {
            kid,
            metadata: generator.bytes(metadata),
            plaintext: generator.bytes(length),
            offset,
            room,
        }
    }

    /// Opens a frame, as it is or changed.
    pub fn open(generator: &mut Generator, mut frame: Vec<u8>, mut metadata: Vec<u8>) -> Self {
        let at = generator.up_to(frame.len().saturating_sub(1));
        match generator.up_to(19) {
            0 if !frame.is_empty() => frame[at] ^= 1 << generator.up_to(7),
            1 => frame.truncate(at),
            // Into the tag or the header.
            2 => frame.truncate(generator.up_to(18)),
            3 => frame.push(generator.u64() as u8),
            4 => generator.fill(&mut frame),
            5 => metadata.push(0),
            6 if generator.one_in(10) => metadata.resize(1_024 + generator.up_to(1), 0),
            7 if generator.one_in(20) => frame.resize(32_768 + generator.up_to(40), 0),
            _ => (),
        }
        let room = match generator.up_to(9) {
            0 => generator.up_to(frame.len()),
            1 => frame.len().saturating_sub(generator.up_to(20)),
            _ => frame.len(),
        };
        Given::Open {
            frame,
            metadata,
            room,
        }
    }

    /// Any call on a sound store, mostly about key numbers that it has.
    pub fn for_store(generator: &mut Generator, store: &[u8]) -> Self {
        let records: Vec<Record> = store
            .chunks_exact(RECORD)
            .filter_map(|bytes| Record::decode(bytes).expect("the store is sound"))
            .collect();
        if records.is_empty() || generator.one_in(12) {
            let kid = generator.any_width();
            return match generator.up_to(6) {
                0 => Given::Remove { kid },
                6 => Given::change_epoch(generator, kid),
                1 => Given::seal(generator, kid),
                2 => Given::open(generator, write_header(kid, 0), vec![]),
                3 => Given::Report { kid },
                4 => Given::Find { kid },
                _ => Given::add(generator, kid),
            };
        }
        let record = generator.pick(&records).clone();
        match generator.up_to(12) {
            11 => Given::Find { kid: record.kid },
            12 if generator.one_in(4) => Given::change_epoch(generator, record.kid),
            0 => Given::add(generator, record.kid),
            1 => Given::Remove { kid: record.kid },
            2 => Given::Report { kid: record.kid },
            3..6 => Given::seal(generator, record.kid),
            _ => {
                let (frame, metadata) = frame_for(generator, &record);
                Given::open(generator, frame, metadata)
            }
        }
    }
}

/// A frame that is sealed under the key and salt that a record holds, mostly
/// with a counter around the record's window.
fn frame_for(generator: &mut Generator, record: &Record) -> (Vec<u8>, Vec<u8>) {
    let length = generator.up_to(70);
    let highest = record.window.highest;
    let ctr = match generator.up_to(9) {
        0 => generator.any_width(),
        1..4 => highest.saturating_add(1 + generator.up_to(69) as u64),
        4 => highest.saturating_sub(62 + generator.up_to(3) as u64),
        _ => highest.saturating_sub(generator.up_to(69) as u64),
    };
    let mut frame = write_header(record.kid, ctr);
    let metadata = generator.bytes(length / 4);
    let mut data = generator.bytes(length);
    let aad = [&frame[..], &metadata].concat();
    let tag =
        Aead::new(record.suite, record.key()).encrypt(&nonce(&record.salt, ctr), &aad, &mut data);
    frame.extend(data);
    frame.extend(tag);
    (frame, metadata)
}
