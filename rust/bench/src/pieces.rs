// SPDX-License-Identifier: MIT
//! A long frame sealed in pieces, and checked in pieces, beside the whole one.

use crate::stores::{frame, full, set_back, KID};
use bench::{measure, Times};
use reference::pieces as theirs;
use reference::store::{check_begin, seal_begin, Role};
use sframe::raw;
use sframe::{frame_room, Suite, MAX_HEADER, STATE};
use std::fmt::Write;
use std::hint::black_box;
use std::path::Path;
use std::{fs, io};
use testkit::Generator;

const LENGTH: usize = 32_768;
const SIZES: [usize; 3] = [256, 1_200, 8_192];

/// Prints the table and writes it to a file.
pub fn run(csv: &Path) -> io::Result<()> {
    println!();
    let plaintext = Generator::new(0x6265_6e63_6800_0006).bytes(LENGTH);
    println!(
        "pieces: {LENGTH} bytes, a store of one record, no metadata. The whole frame is\n\
         measured in turns with the pieces, all of ours; the last column is the time in\n\
         pieces over it. The reference's is in pieces too.\n\n\
         call   suite  piece   ours ns  whole ns  ratio    ref. ns"
    );
    let mut rows = String::from("call,suite,bytes,piece,ours_ns,whole_ns,reference_ns\n");
    for suite in Suite::ALL {
        for size in SIZES {
            for (call, [beside_whole, beside_reference]) in [
                ("seal", seal(suite, size, &plaintext)),
                ("check", check(suite, size, &plaintext)),
            ] {
                let (ours, whole) = (beside_whole.ours, beside_whole.reference);
                let (number, reference) = (suite.number(), beside_reference.reference);
                println!(
                    "{call:<5}  {number:>5}  {size:>5}  {ours:>8.0}  {whole:>8.0}  {:>5.2}  {reference:>9.0}",
                    ours / whole
                );
                writeln!(
                    rows,
                    "{call},{number},{LENGTH},{size},{ours:.1},{whole:.1},{reference:.1}"
                )
                .expect("a string takes any text");
            }
        }
    }
    fs::write(csv, rows)
}

/// Sealing in pieces beside our whole sealing, and beside the reference's in pieces.
fn seal(suite: Suite, size: usize, plaintext: &[u8]) -> [Times; 2] {
    let mut store = full(1, suite, Role::Sending);
    let mut copy = store.clone();
    let mut other = store.clone();
    let length = plaintext.len() as u64;
    let (mut header, mut state) = ([0; MAX_HEADER], [0; STATE]);
    let mut out = vec![0; frame_room(suite, plaintext.len())];
    let (mut piece_room, mut tag) = (vec![0; size], [0; 16]);
    let mut ours = || {
        let begun = raw::seal_begin(&mut store, KID, &[], length, &mut state, &mut header);
        assert_eq!(begun.number, 0);
        for piece in black_box(plaintext).chunks(size) {
            let sealed = raw::seal_piece(&mut state, piece, &mut piece_room);
            assert_eq!(black_box(sealed).number, 0);
        }
        assert_eq!(raw::seal_end(&state, &mut tag).number, 0);
    };
    let whole = measure(&mut ours, || {
        let sealed = raw::seal(&mut copy, KID, &[], black_box(plaintext), &mut out);
        assert_eq!(black_box(sealed).number, 0);
    });
    let (mut header, mut state) = ([0; MAX_HEADER], [0; STATE]);
    let (mut room, mut tag) = (vec![0; size], [0; 16]);
    let reference = measure(ours, || {
        let begun = seal_begin(&mut other, KID, &[], length, &mut state, &mut header);
        assert!(begun.is_ok());
        for piece in black_box(plaintext).chunks(size) {
            let sealed = theirs::seal_piece(&mut state, piece, &mut room);
            assert!(black_box(sealed).is_ok());
        }
        assert!(theirs::seal_end(&state, &mut tag).is_ok());
    });
    [whole, reference]
}

/// Checking in pieces beside our opening, and beside the reference's check.
fn check(suite: Suite, size: usize, plaintext: &[u8]) -> [Times; 2] {
    let store = full(1, suite, Role::Receiving);
    let mut copy = store.clone();
    let frame = frame(suite, plaintext);
    let tag_at = frame.len() - suite.nt();
    let (front, tag) = frame.split_at(tag_at);
    let ciphertext = &front[tag_at - plaintext.len()..];
    let length = plaintext.len() as u64;
    let mut state = [0; STATE];
    let mut ours = || {
        assert_eq!(raw::check_begin(&store, front, &[], length, &mut state), 0);
        for piece in black_box(ciphertext).chunks(size) {
            assert_eq!(black_box(raw::check_piece(&mut state, piece)), 0);
        }
        assert_eq!(raw::check_end(&state, tag), 0);
    };
    let mut out = vec![0; plaintext.len()];
    let whole = measure(&mut ours, || {
        set_back(&mut copy);
        let opened = raw::open(&mut copy, black_box(&frame), &[], &mut out);
        assert_eq!(black_box(opened).number, 0);
    });
    let mut state = [0; STATE];
    let reference = measure(ours, || {
        let begun = check_begin(&store, front, &[], length, &mut state);
        assert!(begun.is_ok());
        for piece in black_box(ciphertext).chunks(size) {
            assert!(black_box(theirs::check_piece(&mut state, piece)).is_ok());
        }
        assert!(theirs::check_end(&state, tag).is_ok());
    });
    [whole, reference]
}
