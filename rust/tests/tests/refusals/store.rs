// SPDX-License-Identifier: MIT
//! Add, Remove, the change of epoch, Find, Seal and the report.

use super::held::{make_unsound, store, Held, HELD, KID};
use super::seen::Seen;
use comparison::number::*;
use comparison::{retire, with_key, Call, Key, ANY_KEY, RECEIVE_ONLY};
use reference::suites::SUITES;
use sframe::{Role, MAX_METADATA, MAX_PLAINTEXT};
use testkit::combinations;

const ADD: &[u32] = &[
    STORE_NOT_SOUND,
    NO_SUCH_SUITE,
    SENDING_BARRED,
    BASE_KEY_LENGTH,
    KID_HELD,
    STORE_FULL,
];
const REMOVE: &[u32] = &[STORE_NOT_SOUND, KID_UNKNOWN, WRONG_ROLE];
const REPORT: &[u32] = REMOVE;
const CHANGE_EPOCH: &[u32] = &[STORE_NOT_SOUND, GROUP_KID_TOO_LONG, GROUP_PART_TOO_LARGE];
const FIND: &[u32] = &[STORE_NOT_SOUND, KID_UNKNOWN];
const SEAL: &[u32] = &[
    STORE_NOT_SOUND,
    KID_UNKNOWN,
    WRONG_ROLE,
    COUNTER_SPENT,
    TOO_LONG,
    ROOM_SHORT,
];

#[test]
fn add() {
    let mut seen = Seen::new(ADD);
    for [suite, held, unsound, full] in combinations([5, 6, 2, 2]) {
        let (suite, held) = (SUITES[suite], HELD[held]);
        let (unsound, full) = (unsound == 1, full == 1);
        let mut store = match (held, full) {
            (_, false) => store(suite, held, 2),
            (Held::Not, true) => {
                let store = store(suite, held, 2);
                let store = with_key(&store, Role::Receiving, &Key::any(suite, KID + 1));
                retire(&store, &Key::any(suite, KID + 2))
            }
            (_, true) => store(suite, held, 1),
        };
        if unsound {
            make_unsound(&mut store);
        }
        for [number, base_key, role] in combinations([4, 4, 2]) {
            let number = [suite.number(), 0, 6, 256 + suite.number()][number];
            let base_key = [&ANY_KEY[..], &ANY_KEY[..15], &[7; 65], &[]][base_key];
            let role = [Role::Sending, Role::Receiving][role];
            let barred = number == RECEIVE_ONLY.number() && role == Role::Sending;
            let call = Call::Add {
                role,
                suite: number,
                kid: KID,
                base_key,
            };
            let causes = [
                (STORE_NOT_SOUND, unsound),
                (NO_SUCH_SUITE, number != suite.number()),
                (SENDING_BARRED, barred),
                (BASE_KEY_LENGTH, base_key != ANY_KEY),
                (KID_HELD, held != Held::Not),
                (STORE_FULL, full),
            ];
            seen.check(&store, call, causes);
        }
    }
    // A number that is no suite's is not suite 3's.
    seen.finish(&[(NO_SUCH_SUITE, SENDING_BARRED)]);
}

/// A call that is given the key number alone, with the ways to hold it that its
/// role does not allow.
#[track_caller]
fn by_key_number(order: &'static [u32], call: Call, wrong: &[Held]) -> Seen {
    let mut seen = Seen::new(order);
    for [suite, held, unsound] in combinations([5, 6, 2]) {
        let (held, unsound) = (HELD[held], unsound == 1);
        let mut store = store(SUITES[suite], held, 2);
        if unsound {
            make_unsound(&mut store);
        }
        let causes = [
            (STORE_NOT_SOUND, unsound),
            (KID_UNKNOWN, held == Held::Not),
            (WRONG_ROLE, wrong.contains(&held)),
        ];
        seen.check(&store, call, causes);
    }
    seen
}

#[test]
fn remove() {
    let wrong = [Held::Retired, Held::RetiredSpent];
    let seen = by_key_number(REMOVE, Call::Remove { kid: KID }, &wrong);
    seen.finish(&[(KID_UNKNOWN, WRONG_ROLE)]);
}

#[test]
fn change_epoch() {
    let mut seen = Seen::new(CHANGE_EPOCH);
    for [suite, held, unsound] in combinations([5, 6, 2]) {
        let (held, unsound) = (HELD[held], unsound == 1);
        let mut store = store(SUITES[suite], held, 2);
        if unsound {
            make_unsound(&mut store);
        }
        for [width, bits] in combinations([9, 6]) {
            let width = [0, 1, 4, 63, 64, 65, 256 + 4, 1 << 32 | 4, u64::MAX][width];
            let bits = [0, 1, KID % 16, KID, 1 << 63, u64::MAX][bits];
            let causes = [
                (STORE_NOT_SOUND, unsound),
                (GROUP_KID_TOO_LONG, width > 64),
                (GROUP_PART_TOO_LARGE, width < 64 && bits >> width != 0),
            ];
            seen.check(&store, Call::ChangeEpoch { width, bits }, causes);
        }
    }
    // No number of 64 bits is 2^65 or more.
    seen.finish(&[(GROUP_KID_TOO_LONG, GROUP_PART_TOO_LARGE)]);
}

#[test]
fn report() {
    let receiving = |held: &Held| matches!(held, Held::Not | Held::Receiving);
    let wrong: Vec<Held> = HELD.into_iter().filter(|held| !receiving(held)).collect();
    let seen = by_key_number(REPORT, Call::Report { kid: KID }, &wrong);
    seen.finish(&[(KID_UNKNOWN, WRONG_ROLE)]);
}

#[test]
fn find() {
    by_key_number(FIND, Call::Find { kid: KID }, &[]).finish(&[]);
}

#[test]
fn seal() {
    let mut seen = Seen::new(SEAL);
    let long = vec![0x5a; MAX_PLAINTEXT + 1];
    for [suite, held, unsound] in combinations([5, 6, 2]) {
        let (suite, held, unsound) = (SUITES[suite], HELD[held], unsound == 1);
        let mut store = store(suite, held, 2);
        if unsound {
            make_unsound(&mut store);
        }
        for [plaintext, metadata, room, offset] in combinations([3, 2, 3, 3]) {
            let plaintext = [&long[..0], &long[..9], &long][plaintext];
            let metadata = [&long[..4], &long[..MAX_METADATA + 1]][metadata];
            // The header of a first frame under this key number has two bytes.
            let enough = 2 + plaintext.len() + suite.nt();
            let offset = [0, 17, usize::MAX][offset];
            let end = enough.saturating_add(offset);
            let room = [enough + offset.min(17), end.min(100_000) - 1, 0][room];
            let call = Call::Seal {
                kid: KID,
                metadata,
                plaintext,
                offset,
                room,
            };
            let wrong = matches!(held, Held::Receiving | Held::Retired | Held::RetiredSpent);
            let too_long = plaintext.len() > MAX_PLAINTEXT || metadata.len() > MAX_METADATA;
            let causes = [
                (STORE_NOT_SOUND, unsound),
                (KID_UNKNOWN, held == Held::Not),
                (WRONG_ROLE, wrong),
                (
                    COUNTER_SPENT,
                    matches!(held, Held::Spent | Held::RetiredSpent),
                ),
                (TOO_LONG, too_long),
                (ROOM_SHORT, room < end),
            ];
            seen.check(&store, call, causes);
        }
    }
    // An unknown key number has no record whose role or counter could be wrong.
    seen.finish(&[(KID_UNKNOWN, WRONG_ROLE), (KID_UNKNOWN, COUNTER_SPENT)]);
}
