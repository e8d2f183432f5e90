// SPDX-License-Identifier: MIT
//! The edges of every size and number, from the last that is accepted to the
//! first that is refused.

use comparison::number::*;
use comparison::{
    after, compare, done, frame, made, retire, set_counter, with_key, Call, Key, COUNTER_AT,
    RECEIVE_ONLY,
};
use reference::suites::SUITES;
use sframe::{Role, MAX_COUNTER, MAX_METADATA, MAX_PLAINTEXT, MAX_RECORDS, MIN_BASE_KEY, RECORD};

const KID: u64 = 1;

fn sender(key: &Key) -> Vec<u8> {
    with_key(&made(1), Role::Sending, key)
}

fn receiver(key: &Key) -> Vec<u8> {
    with_key(&made(1), Role::Receiving, key)
}

/// A call to seal with room for any frame.
fn seal<'a>(metadata: &'a [u8], plaintext: &'a [u8]) -> Call<'a> {
    Call::Seal {
        kid: KID,
        metadata,
        plaintext,
        offset: 0,
        room: plaintext.len() + 64,
    }
}

#[test]
fn make_takes_96_to_98304_bytes_in_steps_of_96() {
    let steps = (65..=1_026).flat_map(|records| [records * 96 - 1, records * 96, records * 96 + 1]);
    for length in (0..=7_000).chain(steps) {
        let accepted = (96..=98_304).contains(&length) && length % 96 == 0;
        let outcome = compare(&vec![0x5a; length], Call::Make);
        assert_eq!(outcome.number == DONE, accepted, "{length} bytes");
        let left = if accepted { 0 } else { 0x5a };
        assert!(outcome.store.iter().all(|&byte| byte == left));
    }
}

#[test]
fn the_last_counter_seals_and_then_none() {
    for suite in SUITES {
        let key = Key::any(suite, KID);
        let mut store = sender(&key);
        set_counter(&mut store, 0, MAX_COUNTER - 1);
        for ctr in [MAX_COUNTER - 1, MAX_COUNTER] {
            let sealed = done(&store, seal(b"m", b"picture"));
            assert_eq!(sealed.result(), frame(&key, ctr, b"m", b"picture"));
            let opening = Call::Open {
                frame: sealed.result(),
                metadata: b"m",
                room: 7,
            };
            assert_eq!(done(&receiver(&key), opening).result(), b"picture");
            store = sealed.store;
        }
        for _ in 0..2 {
            assert_eq!(
                compare(&store, seal(b"m", b"picture")).number,
                COUNTER_SPENT
            );
        }
        // A counter that is used up keeps no one from removing the key; what is
        // kept of it says so still.
        let left = after(&store, Call::Remove { kid: KID });
        assert_eq!(left[..3], [3, suite.number() as u8, 1]);
        assert_eq!(left[COUNTER_AT..][..8], [0xff; 8]);
    }
}

/// A key that an older layer would have called spent goes on, since 2^40 was
/// never used.
#[test]
fn a_counter_of_2_to_the_40_goes_on() {
    for suite in SUITES {
        let key = Key::any(suite, KID);
        let mut store = sender(&key);
        set_counter(&mut store, 0, 1 << 40);
        for ctr in [1 << 40, (1 << 40) + 1] {
            let sealed = done(&store, seal(b"m", b"picture"));
            assert_eq!(sealed.result(), frame(&key, ctr, b"m", b"picture"));
            store = sealed.store;
        }
    }
}

/// Both numbers in eight bytes: the longest header is sealed, in a room that
/// just holds the frame and in none that is shorter.
#[test]
fn headers_of_17_bytes_are_sealed() {
    for suite in SUITES {
        let key = Key::any(suite, u64::MAX);
        let mut store = sender(&key);
        set_counter(&mut store, 0, MAX_COUNTER);
        let enough = 17 + 7 + suite.nt();
        let seal = |room| Call::Seal {
            kid: u64::MAX,
            metadata: b"m",
            plaintext: b"picture",
            offset: 0,
            room,
        };
        assert_eq!(compare(&store, seal(enough - 1)).number, ROOM_SHORT);
        let sealed = done(&store, seal(enough));
        assert_eq!(sealed.length, enough);
        assert_eq!(sealed.result()[..17], [0xff; 17]);
        assert_eq!(sealed.result(), frame(&key, MAX_COUNTER, b"m", b"picture"));
    }
}

/// A frame that was never sealed in a store may carry any counter.
#[test]
fn any_counter_opens() {
    for suite in SUITES {
        let key = Key::any(suite, u64::MAX);
        for ctr in [0, 7, 8, 255, 256, 1 << 40, MAX_COUNTER - 1, MAX_COUNTER] {
            let opening = Call::Open {
                frame: &frame(&key, ctr, b"", b"picture"),
                metadata: b"",
                room: 7,
            };
            assert_eq!(done(&receiver(&key), opening).result(), b"picture");
        }
    }
}

#[test]
fn an_empty_plaintext_seals() {
    for (suite, length) in SUITES.into_iter().zip([11, 9, 5, 17, 17]) {
        let key = Key::any(suite, KID);
        let sealed = done(&sender(&key), seal(b"", b""));
        assert_eq!(sealed.length, length);
        assert_eq!(sealed.result()[0], 0x10);
        let opening = Call::Open {
            frame: sealed.result(),
            metadata: b"",
            room: 0,
        };
        assert_eq!(done(&receiver(&key), opening).length, 0);
    }
}

#[test]
fn plaintext_up_to_32768() {
    let long = vec![0x5a; MAX_PLAINTEXT + 1];
    for suite in SUITES {
        let key = Key::any(suite, KID);
        let (sender, receiver) = (sender(&key), receiver(&key));
        for (length, number) in [(32_767, DONE), (32_768, DONE), (32_769, TOO_LONG)] {
            let plaintext = &long[..length];
            assert_eq!(compare(&sender, seal(b"m", plaintext)).number, number);
            let opening = Call::Open {
                frame: &frame(&key, 0, b"m", plaintext),
                metadata: b"m",
                room: length,
            };
            assert_eq!(compare(&receiver, opening).number, number);
        }
    }
}

#[test]
fn metadata_up_to_1024() {
    let long = vec![0x5a; MAX_METADATA + 1];
    for suite in SUITES {
        let key = Key::any(suite, KID);
        let (sender, receiver) = (sender(&key), receiver(&key));
        for (length, number) in [(1_023, DONE), (1_024, DONE), (1_025, TOO_LONG)] {
            let metadata = &long[..length];
            assert_eq!(compare(&sender, seal(metadata, b"p")).number, number);
            let opening = Call::Open {
                frame: &frame(&key, 0, metadata, b"p"),
                metadata,
                room: 1,
            };
            assert_eq!(compare(&receiver, opening).number, number);
        }
    }
}

/// Every room up to some bytes more than a frame takes. One that is too short
/// costs no counter.
#[test]
fn rooms_of_every_length() {
    for suite in SUITES {
        let key = Key::any(suite, KID);
        let (sender, receiver) = (sender(&key), receiver(&key));
        for plaintext in [&b""[..], b"a picture"] {
            let sealed = frame(&key, 0, b"", plaintext);
            for room in 0..sealed.len() + 3 {
                let sealing = Call::Seal {
                    kid: KID,
                    metadata: b"",
                    plaintext,
                    offset: 0,
                    room,
                };
                let outcome = compare(&sender, sealing);
                if room < sealed.len() {
                    assert_eq!(outcome.number, ROOM_SHORT);
                    let again = done(&outcome.store, seal(b"", plaintext));
                    assert_eq!(again.result(), sealed, "a counter was lost");
                } else {
                    assert_eq!(outcome.result(), sealed);
                }

                let opening = Call::Open {
                    frame: &sealed,
                    metadata: b"",
                    room,
                };
                let outcome = compare(&receiver, opening);
                if room < plaintext.len() {
                    assert_eq!(outcome.number, ROOM_SHORT);
                } else {
                    assert_eq!(outcome.result(), plaintext);
                }
            }
        }
    }
}

#[test]
fn the_1024th_key_fits_and_the_1025th_does_not() {
    for role in [Role::Sending, Role::Receiving] {
        for records in [1, 2, 3, 64, 65, MAX_RECORDS] {
            let mut store = made(records);
            for added in 0..records {
                // Each one goes before those that are there.
                let key = Key::any(SUITES[added % 5], 2_000 - added as u64);
                store = with_key(&store, role, &key);
                assert!(store[added * RECORD] != 0);
                assert!(store[(added + 1) * RECORD..].iter().all(|&byte| byte == 0));
            }
            let more = Key::any(SUITES[0], 3_000);
            assert_eq!(compare(&store, more.add(role)).number, STORE_FULL);

            // The first and the last key work in a full store.
            for (place, kid) in [(0, 2_001 - records as u64), (records - 1, 2_000)] {
                let found = done(&store, Call::Find { kid });
                assert_eq!(found.place, place);
                after(&store, Call::Remove { kid });
                if role == Role::Sending {
                    let sealing = Call::Seal {
                        kid,
                        metadata: b"",
                        plaintext: b"picture",
                        offset: 0,
                        room: 64,
                    };
                    done(&store, sealing);
                }
            }
        }
    }
}

#[test]
fn base_keys_of_16_to_64_bytes() {
    let bytes: Vec<u8> = (0..=255).collect();
    for suite in SUITES {
        for role in [Role::Sending, Role::Receiving] {
            for length in 0..=bytes.len() {
                let key = Key {
                    suite,
                    kid: KID,
                    base_key: bytes[..length].to_vec(),
                };
                let number = match role {
                    Role::Sending if suite == RECEIVE_ONLY => SENDING_BARRED,
                    _ if (MIN_BASE_KEY..=64).contains(&length) => DONE,
                    _ => BASE_KEY_LENGTH,
                };
                assert_eq!(compare(&made(1), key.add(role)).number, number, "{length}");
            }
        }
    }
}

#[test]
fn suites_1_to_5() {
    for suite in (0..=300).chain([1 << 8 | 1, 1 << 16 | 1, 1 << 32 | 1, 1 << 63 | 1, u64::MAX]) {
        for role in [Role::Sending, Role::Receiving] {
            let call = Call::Add {
                role,
                suite,
                kid: KID,
                base_key: &[7; 16],
            };
            let number = match (suite, role) {
                (3, Role::Sending) => SENDING_BARRED,
                (1..=5, _) => DONE,
                _ => NO_SUCH_SUITE,
            };
            assert_eq!(compare(&made(1), call).number, number, "suite {suite}");
        }
    }
}

/// Tags of four bytes: no new key seals with them. One that a store has from
/// before seals its frames of five bytes up to the last counter, and is retired
/// like any other; older terminals are received as ever.
#[test]
fn the_life_of_a_stored_sender_of_suite_3() {
    let key = Key::any(RECEIVE_ONLY, KID);
    let receiver = receiver(&key);
    let mut store = sender(&key);
    for counter in [0, 1, 7, 8, MAX_COUNTER - 1, MAX_COUNTER] {
        set_counter(&mut store, 0, counter);
        let sealed = done(&store, seal(b"", b""));
        assert_eq!(sealed.result(), frame(&key, counter, b"", b""));
        if counter < 8 {
            assert_eq!(sealed.length, 5);
        }
        let opening = Call::Open {
            frame: sealed.result(),
            metadata: b"",
            room: 0,
        };
        done(&receiver, opening);
        store = sealed.store;
    }
    assert_eq!(compare(&store, seal(b"", b"")).number, COUNTER_SPENT);

    let left = after(&store, Call::Remove { kid: KID });
    assert_eq!(left[0], 3);
    for store in [left, retire(&made(1), &key)] {
        assert_eq!(compare(&store, seal(b"", b"")).number, WRONG_ROLE);
        let kept = Call::Remove { kid: KID };
        assert_eq!(compare(&store, kept).number, WRONG_ROLE);
        let again = |suite, role| compare(&store, Key::any(suite, KID).add(role)).number;
        assert_eq!(again(RECEIVE_ONLY, Role::Sending), SENDING_BARRED);
        assert_eq!(again(RECEIVE_ONLY, Role::Receiving), KID_HELD);
        assert_eq!(again(SUITES[0], Role::Sending), KID_HELD);
    }
}

/// A received key gives its record back; a sending one does not, and its key
/// number never returns.
#[test]
fn removed_keys() {
    let key = |kid| Key::any(SUITES[3], kid);
    let mut store = made(3);
    store = with_key(&store, Role::Sending, &key(1));
    store = with_key(&store, Role::Receiving, &key(2));
    store = with_key(&store, Role::Receiving, &key(3));

    // Never used, and retired all the same, where it stands.
    store = after(&store, Call::Remove { kid: 1 });
    assert_eq!(store[0], 3);
    assert_eq!(compare(&store, Call::Remove { kid: 1 }).number, WRONG_ROLE);
    for role in [Role::Sending, Role::Receiving] {
        assert_eq!(compare(&store, key(1).add(role)).number, KID_HELD);
    }
    // The gap is closed by the key behind.
    let third = store[2 * RECORD..].to_vec();
    store = after(&store, Call::Remove { kid: 2 });
    assert_eq!(compare(&store, Call::Remove { kid: 2 }).number, KID_UNKNOWN);
    assert_eq!(store[RECORD..2 * RECORD], third);
    assert_eq!(store[2 * RECORD..], [0; RECORD]);

    // A KID that returns in the other role has its place again.
    store = with_key(&store, Role::Sending, &key(2));
    assert_eq!(store[RECORD], 1);
    assert_eq!(store[2 * RECORD..], third);
    assert_eq!(
        compare(&store, key(4).add(Role::Sending)).number,
        STORE_FULL
    );
    store = after(&store, Call::Remove { kid: 3 });
    store = with_key(&store, Role::Receiving, &key(0));
    assert_eq!([0, 1, 2].map(|place| store[place * RECORD]), [2, 3, 1]);
}

/// Key numbers with the top bit of a byte set are numbers like any other.
#[test]
fn key_numbers_with_their_top_bit_set() {
    for kid in [128, 200, 255, 1 << 15, 1 << 31, 1 << 63, u64::MAX] {
        for suite in SUITES {
            let key = Key::any(suite, kid);
            let sealing = Call::Seal {
                kid,
                metadata: b"",
                plaintext: b"picture",
                offset: 0,
                room: 64,
            };
            let sealed = done(&sender(&key), sealing);
            assert_eq!(sealed.result(), frame(&key, 0, b"", b"picture"));
            let opening = Call::Open {
                frame: sealed.result(),
                metadata: b"",
                room: 7,
            };
            assert_eq!(done(&receiver(&key), opening).result(), b"picture");
        }
    }
}
