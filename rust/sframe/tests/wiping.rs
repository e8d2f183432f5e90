// SPDX-License-Identifier: MIT
//! An owned store is wiped before its memory is given back, whatever becomes of
//! it. The allocator looks at what it gets back.

use sframe::{Kid, OwnedStore, Refusal, Role, Suite, RECORD};
use std::alloc::{GlobalAlloc, Layout, System};
use std::sync::atomic::{AtomicUsize, Ordering::SeqCst};

/// So many records that nothing else of this program has as many bytes.
const RECORDS: usize = 977;

/// How often so many bytes were given back, and how many of them were not 0.
static GIVEN_BACK: AtomicUsize = AtomicUsize::new(0);
static LEFT: AtomicUsize = AtomicUsize::new(0);

struct Looking;

// SAFETY: every call is handed on to the system's allocator as it is.
unsafe impl GlobalAlloc for Looking {
    unsafe fn alloc(&self, layout: Layout) -> *mut u8 {
        System.alloc(layout)
    }

    unsafe fn dealloc(&self, bytes: *mut u8, layout: Layout) {
        if layout.size() == RECORDS * RECORD {
            let left = std::slice::from_raw_parts(bytes, layout.size());
            LEFT.fetch_add(left.iter().filter(|byte| **byte != 0).count(), SeqCst);
            GIVEN_BACK.fetch_add(1, SeqCst);
        }
        System.dealloc(bytes, layout)
    }
}

#[global_allocator]
static ALLOCATOR: Looking = Looking;

/// What was given back since the last look: how often, and how many bytes of it
/// were not 0.
fn given_back() -> (usize, usize) {
    (GIVEN_BACK.swap(0, SeqCst), LEFT.swap(0, SeqCst))
}

// One test, since the counts are of the whole program.
#[test]
fn an_owned_store_leaves_nothing() {
    let mut store = OwnedStore::make(RECORDS).unwrap();
    let suite = Suite::Aes256GcmSha512_128;
    store
        .lend()
        .add(Role::Receiving, Kid(200), suite, &[7; 64])
        .unwrap();
    let kept = store.as_bytes().to_vec();
    assert_eq!(given_back(), (0, 0));
    drop(store);
    assert_eq!(given_back(), (1, 0));

    // Bytes that are taken over are not copied, and wiped in their place.
    let store = OwnedStore::from_bytes(kept).unwrap();
    assert_eq!(store.view().find(Kid(200)).map(|place| place.0), Ok(0));
    assert_eq!(given_back(), (0, 0));
    drop(store);
    assert_eq!(given_back(), (1, 0));

    // So are those that are refused.
    let unsound = OwnedStore::from_bytes(vec![0xff; RECORDS * RECORD]);
    assert_eq!(unsound.err(), Some(Refusal::StoreNotSound));
    assert_eq!(given_back(), (1, 0));

    // What is not wiped would be seen.
    drop(std::hint::black_box(vec![7u8; RECORDS * RECORD]));
    assert_eq!(given_back(), (1, RECORDS * RECORD));
}
