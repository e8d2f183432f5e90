// SPDX-License-Identifier: MIT
//! The layer beside an earlier one, in one program and in turns. The earlier
//! archive is the one in the folder that `SFRAME_EARLIER_DIR` names.

use crate::stores::{
    frame, full, kids, set_back, BASE_KEY, COUNTER_AT, FIRST_COUNTER, KID, UNKNOWN,
};
use bench::{measure, Times};
use reference::store::Role;
use sframe::{frame_room, Suite, RECORD};
use std::fmt::Write;
use std::hint::black_box;
use std::path::Path;
use std::{fs, io};
use testkit::Generator;

const LENGTHS: [usize; 3] = [160, 1_200, 32_768];
const RECORDS: [usize; 2] = [1, 64];

/// The lengths that a record has had.
const RECORD_SIZES: [usize; 2] = [80, 96];

/// Suite 3, which differs from 1 by its tag alone, is left out: there are layers
/// that add no sender of it.
const SUITES: [Suite; 4] = [
    Suite::Aes128CtrHmacSha256_80,
    Suite::Aes128CtrHmacSha256_64,
    Suite::Aes128GcmSha256_128,
    Suite::Aes256GcmSha512_128,
];

extern "C" {
    fn earlier_make(store: *mut u8, store_len: usize) -> u32;
    fn earlier_add_sending(
        store: *mut u8,
        store_len: usize,
        kid: u64,
        suite: u64,
        base_key: *const u8,
        base_key_len: usize,
    ) -> u32;
    fn earlier_add_receiving(
        store: *mut u8,
        store_len: usize,
        kid: u64,
        suite: u64,
        base_key: *const u8,
        base_key_len: usize,
    ) -> u32;
    fn earlier_remove(store: *mut u8, store_len: usize, kid: u64) -> u32;
    fn earlier_seal(
        store: *mut u8,
        store_len: usize,
        kid: u64,
        metadata: *const u8,
        metadata_len: usize,
        plaintext: *const u8,
        plaintext_len: usize,
        out: *mut u8,
        out_len: usize,
        length: *mut usize,
    ) -> u32;
    fn earlier_open(
        store: *mut u8,
        store_len: usize,
        frame: *const u8,
        frame_len: usize,
        metadata: *const u8,
        metadata_len: usize,
        out: *mut u8,
        out_len: usize,
        length: *mut usize,
    ) -> u32;
}

/// A full store of the earlier layer, as [`full`] is one of ours.
struct Earlier {
    store: Vec<u8>,
    record: usize,
}

impl Earlier {
    fn full(records: usize, suite: Suite, role: Role) -> Self {
        let record = Self::record_size();
        let mut store = vec![0; records * record];
        let add = match role {
            Role::Sending => earlier_add_sending,
            Role::Receiving => earlier_add_receiving,
        };
        // SAFETY: store and base key are live, apart, and of the lengths given.
        unsafe {
            assert_eq!(earlier_make(store.as_mut_ptr(), store.len()), 0);
            for kid in kids(records) {
                let (bytes, length) = (store.as_mut_ptr(), store.len());
                let key = (BASE_KEY.as_ptr(), BASE_KEY.len());
                assert_eq!(add(bytes, length, kid, suite.number(), key.0, key.1), 0);
            }
        }
        if role == Role::Sending {
            let at = store.len() - record + COUNTER_AT;
            store[at..at + 8].copy_from_slice(&FIRST_COUNTER.to_be_bytes());
        }
        Earlier { store, record }
    }

    /// The least length that a store is made in.
    fn record_size() -> usize {
        let makes = |&length: &usize| {
            let mut store = vec![0; length];
            // SAFETY: the store is live and of that length.
            unsafe { earlier_make(store.as_mut_ptr(), store.len()) == 0 }
        };
        let size = RECORD_SIZES.into_iter().find(makes);
        size.expect("the earlier layer makes a store of one record")
    }

    /// Refused after judging: no store holds the key number.
    fn remove(&mut self, kid: u64) -> u32 {
        // SAFETY: the store is live and of that length.
        unsafe { earlier_remove(self.store.as_mut_ptr(), self.store.len(), kid) }
    }

    fn seal(&mut self, plaintext: &[u8], out: &mut [u8]) -> (u32, usize) {
        let mut length = 0;
        // SAFETY: the slices are live and of the lengths given; store and `out`
        // are borrowed for writing, so they overlap nothing.
        let number = unsafe {
            earlier_seal(
                self.store.as_mut_ptr(),
                self.store.len(),
                KID,
                std::ptr::null(),
                0,
                plaintext.as_ptr(),
                plaintext.len(),
                out.as_mut_ptr(),
                out.len(),
                &mut length,
            )
        };
        (number, length)
    }

    fn open(&mut self, frame: &[u8], out: &mut [u8]) -> (u32, usize) {
        // One whose records have no window opens a frame as often as it comes.
        if self.record == RECORD {
            set_back(&mut self.store);
        }
        let mut length = 0;
        // SAFETY: as in `seal`.
        let number = unsafe {
            earlier_open(
                self.store.as_mut_ptr(),
                self.store.len(),
                frame.as_ptr(),
                frame.len(),
                std::ptr::null(),
                0,
                out.as_mut_ptr(),
                out.len(),
                &mut length,
            )
        };
        (number, length)
    }
}

/// Prints the table and writes it to a file.
pub fn run(csv: &Path) -> io::Result<()> {
    println!();
    let mut generator = Generator::new(0x6265_6e63_6800_0004);
    println!(
        "an earlier library: the same calls, in turns. Its records have {} bytes; where\n\
         there is a window, it is set back before each opening, within the time.\n\n\
         call    suite   bytes  records    now ns  earlier ns  ratio",
        Earlier::record_size()
    );
    let mut rows = String::from("call,suite,bytes,records,now_ns,earlier_ns\n");
    let mut row = |call: &str, suite: u64, length: usize, records: usize, times: Times| {
        let Times { ours, reference } = times;
        println!(
            "{call:<6}  {suite:>5}  {length:>6}  {records:>7}  {ours:>8.0}  {reference:>10.0}  {:>5.2}",
            ours / reference
        );
        writeln!(
            rows,
            "{call},{suite},{length},{records},{ours:.1},{reference:.1}"
        )
        .expect("a string takes any text");
    };
    for records in RECORDS {
        row("judge", 4, 0, records, judge(records));
    }
    for suite in SUITES {
        for length in LENGTHS {
            let plaintext = generator.bytes(length);
            for records in RECORDS {
                let number = suite.number();
                row(
                    "seal",
                    number,
                    length,
                    records,
                    seal(suite, records, &plaintext),
                );
                row(
                    "open",
                    number,
                    length,
                    records,
                    open(suite, records, &plaintext),
                );
            }
        }
    }
    fs::write(csv, rows)
}

/// A removal that is refused right after the store is judged.
fn judge(records: usize) -> Times {
    let suite = Suite::Aes128GcmSha256_128;
    let mut ours = full(records, suite, Role::Sending);
    let mut earlier = Earlier::full(records, suite, Role::Sending);
    measure(
        || assert_eq!(sframe::raw::remove(black_box(&mut ours), UNKNOWN), 6),
        || assert_eq!(black_box(&mut earlier).remove(UNKNOWN), 6),
    )
}

fn seal(suite: Suite, records: usize, plaintext: &[u8]) -> Times {
    let mut ours = full(records, suite, Role::Sending);
    let mut earlier = Earlier::full(records, suite, Role::Sending);
    let mut out = vec![0; frame_room(suite, plaintext.len())];
    let mut room = out.clone();
    measure(
        || {
            let plaintext = black_box(plaintext);
            let written = sframe::raw::seal(&mut ours, KID, &[], plaintext, &mut out);
            assert_eq!(black_box(written).number, 0);
        },
        || {
            let written = earlier.seal(black_box(plaintext), &mut room);
            assert_eq!(black_box(written).0, 0);
        },
    )
}

fn open(suite: Suite, records: usize, plaintext: &[u8]) -> Times {
    let frame = frame(suite, plaintext);
    let mut ours = full(records, suite, Role::Receiving);
    let mut earlier = Earlier::full(records, suite, Role::Receiving);
    let mut out = vec![0; plaintext.len()];
    let mut room = out.clone();
    let times = measure(
        || {
            set_back(&mut ours);
            let written = sframe::raw::open(&mut ours, black_box(&frame), &[], &mut out);
            assert_eq!(black_box(written).number, 0);
        },
        || {
            let written = earlier.open(black_box(&frame), &mut room);
            assert_eq!(black_box(written), (0, plaintext.len()));
        },
    );
    assert_eq!(out, plaintext);
    assert_eq!(room, plaintext);
    times
}
