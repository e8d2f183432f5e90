// SPDX-License-Identifier: MIT
//! KIDs of an MLS group: those of the RFC's figure, and the edges.

use reference::group::{kid, parts, Parts};
use reference::refusal::Refusal::*;
use testkit::{group_vectors, Generator};

#[test]
fn published_key_numbers() {
    for case in group_vectors() {
        let packed = kid(case.context, case.index, case.epoch, 6, 4);
        assert_eq!(packed, Ok(case.kid));
        let read = Parts {
            context: case.context,
            index: case.index,
            epoch: case.epoch % 16,
        };
        assert_eq!(parts(case.kid, 6, 4), Ok(read));
    }
}

#[test]
fn edges() {
    const MAX: u64 = u64::MAX;
    // One part has all bits, or none has any.
    assert_eq!(kid(0, MAX, 0, 64, 0), Ok(MAX));
    assert_eq!(kid(0, 0, MAX, 0, 64), Ok(MAX));
    assert_eq!(kid(MAX, 0, MAX, 0, 0), Ok(MAX));
    assert_eq!(kid(0, 0xffff_ffff, MAX, 32, 32), Ok(MAX));
    for (s, e) in [(64, 0), (0, 64), (32, 32), (1, 63)] {
        assert_eq!(kid(0, 0, 0, s, e), Ok(0));
        for context in [1, MAX] {
            assert_eq!(kid(context, 0, 0, s, e), Err(GroupKidTooLong));
        }
    }
    // An index of no bits is 0.
    assert_eq!(kid(0, 1, 0, 0, 0), Err(GroupPartTooLarge));
    assert_eq!(kid(0, 1, 0, 0, 64), Err(GroupPartTooLarge));
    for (s, e) in [(64, 1), (1, 64), (0, 65), (65, 0), (MAX, MAX), (MAX, 1)] {
        assert_eq!(kid(0, MAX, 0, s, e), Err(GroupKidTooLong));
        assert_eq!(parts(MAX, s, e), Err(GroupKidTooLong));
    }
    // The index before a KID past 64 bits.
    assert_eq!(kid(1 << 54, 64, 0, 6, 4), Err(GroupPartTooLarge));
    assert_eq!(kid(1 << 54, 63, 0, 6, 4), Err(GroupKidTooLong));
    assert_eq!(kid((1 << 54) - 1, 63, 15, 6, 4), Ok(MAX));
}

/// What is packed is what comes out, and the other way round.
#[test]
fn packing_and_unpacking() {
    let mut generator = Generator::new(0x6772_6f75_7000_0001);
    for _ in 0..100_000 {
        let s = generator.up_to(64) as u64;
        let e = generator.up_to(64 - s as usize) as u64;
        let any = generator.u64();
        let read = parts(any, s, e).unwrap();
        let Parts {
            context,
            index,
            epoch,
        } = read;
        // Bits of the epoch above its low ones do not count.
        let later = match e {
            64 => epoch,
            _ => generator.u64() << e | epoch,
        };
        assert_eq!(kid(context, index, later, s, e), Ok(any));
    }
}
