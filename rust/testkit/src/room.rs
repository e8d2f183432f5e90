// SPDX-License-Identifier: MIT
//! Rooms lent to a call for its output.

/// What a lent room holds before a call.
pub const PATTERN: u8 = 0xa5;

/// Checks that `call` writes `expected` at the front of a room just long enough
/// and of a longer one, leaving the rest, and that it refuses a room one byte
/// short and leaves it as it was. `call` answers whether it is done.
#[track_caller]
pub fn check_output(expected: &[u8], call: impl Fn(&mut [u8]) -> bool) {
    for behind in [0, 5] {
        let mut room = vec![PATTERN; expected.len() + behind];
        assert!(call(&mut room), "refused");
        let (front, rest) = room.split_at(expected.len());
        assert_eq!(front, expected);
        assert!(
            rest.iter().all(|&byte| byte == PATTERN),
            "wrote past its end"
        );
    }
    if let Some(short) = expected.len().checked_sub(1) {
        check_refused(short, call);
    }
}

/// Checks that `call` fills a room of just the right length with `expected`, and
/// that it refuses one a byte shorter or longer and leaves it as it was.
#[track_caller]
pub fn check_filled(expected: &[u8], call: impl Fn(&mut [u8]) -> bool) {
    let mut room = vec![PATTERN; expected.len()];
    assert!(call(&mut room), "refused");
    assert_eq!(room, expected);
    check_refused(expected.len() + 1, &call);
    if let Some(short) = expected.len().checked_sub(1) {
        check_refused(short, call);
    }
}

/// Checks that `call` refuses and leaves a room of `length` bytes as it was.
#[track_caller]
pub fn check_refused(length: usize, call: impl Fn(&mut [u8]) -> bool) {
    let mut room = vec![PATTERN; length];
    assert!(!call(&mut room), "not refused");
    assert!(room.iter().all(|&byte| byte == PATTERN), "changed its room");
}
