// SPDX-License-Identifier: MIT
//! Keys stand by rising key number, in whatever order they are added: adding
//! puts a record in between, and removing a receiving key closes the gap.

use comparison::number::*;
use comparison::{after, compare, done, made, with_key, Call, Key, COUNTER_AT};
use reference::suites::SUITES;
use sframe::{Role, MAX_RECORDS, RECORD};
use std::collections::BTreeMap;
use testkit::Generator;

/// The key numbers of the ends, and some between.
const KIDS: [u64; 6] = [0, 1, 7, 200, 1 << 40, u64::MAX];

/// One key in either role, of any suite: which, its number tells.
fn key(kid: u64) -> (Role, Key) {
    let role = [Role::Sending, Role::Receiving][(kid % 2) as usize];
    (role, Key::any(SUITES[(kid % 5) as usize], kid))
}

#[track_caller]
fn add(store: &[u8], kid: u64) -> Vec<u8> {
    let (role, key) = key(kid);
    with_key(store, role, &key)
}

/// The numbers in an order that the generator gives.
fn shuffled(generator: &mut Generator, kids: &[u64]) -> Vec<u64> {
    let mut kids = kids.to_vec();
    for end in (1..kids.len()).rev() {
        kids.swap(end, generator.up_to(end));
    }
    kids
}

/// The store in which the keys are added in this order.
#[track_caller]
fn added(records: usize, kids: &[u64]) -> Vec<u8> {
    kids.iter()
        .fold(made(records), |store, &kid| add(&store, kid))
}

/// Checks that the store holds these key numbers, at these places.
#[track_caller]
fn check_order(store: &[u8], rising: &[u64]) {
    for (place, record) in store.chunks_exact(RECORD).enumerate() {
        let expected = rising.get(place);
        let kid = u64::from_be_bytes(record[4..12].try_into().expect("eight bytes"));
        assert_eq!((record[0] != 0).then_some(&kid), expected);
        if let Some(&kid) = expected {
            assert_eq!(done(store, Call::Find { kid }).place, place);
        }
    }
}

/// Every order of six keys.
#[test]
fn every_order() {
    fn orders(kids: &[u64]) -> Vec<Vec<u64>> {
        if kids.is_empty() {
            return vec![vec![]];
        }
        (0..kids.len())
            .flat_map(|first| {
                let mut rest = kids.to_vec();
                let kid = rest.remove(first);
                orders(&rest)
                    .into_iter()
                    .map(move |order| [vec![kid], order].concat())
            })
            .collect()
    }
    let expected = added(7, &KIDS);
    check_order(&expected, &KIDS);
    let orders = orders(&KIDS);
    assert_eq!(orders.len(), 720);
    for order in orders {
        assert!(added(7, &order) == expected, "{order:?}");
    }
}

/// A full store, filled in rising, in falling and in random order.
#[test]
fn a_thousand_keys() {
    let mut generator = Generator::new(0x6f72_6465_7200_0001);
    let mut rising: Vec<u64> = (1..MAX_RECORDS as u64 - 1)
        .map(|n| n * n * n * 1_000_003)
        .collect();
    rising.insert(0, 0);
    rising.push(u64::MAX);
    let falling: Vec<u64> = rising.iter().rev().copied().collect();
    let random = shuffled(&mut generator, &rising);
    let store = added(MAX_RECORDS, &rising);
    check_order(&store, &rising);
    assert!(added(MAX_RECORDS, &falling) == store);
    assert!(added(MAX_RECORDS, &random) == store);
    for role in [Role::Sending, Role::Receiving] {
        let more = Key::any(SUITES[0], 5);
        assert_eq!(compare(&store, more.add(role)).number, STORE_FULL);
    }

    // Emptied of its receiving keys in random order, it keeps the others retired.
    let mut left = store;
    for kid in shuffled(&mut generator, &rising) {
        left = after(&left, Call::Remove { kid });
    }
    rising.retain(|kid| kid % 2 == 0);
    check_order(&left, &rising);
    let retired = left.chunks_exact(RECORD).take(rising.len());
    assert!(retired.map(|record| record[0]).eq(rising.iter().map(|_| 3)));
}

/// Stores of keys that seal while others are added differ by their counters
/// alone.
#[test]
fn the_same_but_for_counters() {
    let mut generator = Generator::new(0x6f72_6465_7200_0002);
    let kids: Vec<u64> = (0..40).map(|n| 2 * n * n).collect();
    let mut without: Option<Vec<u8>> = None;
    for _ in 0..10 {
        let mut store = made(64);
        let mut sealed = BTreeMap::new();
        for kid in shuffled(&mut generator, &kids) {
            store = add(&store, kid);
            sealed.insert(kid, 0u64);
            for _ in 0..generator.up_to(3) {
                let there: Vec<u64> = sealed.keys().copied().collect();
                let kid = *generator.pick(&there);
                let sealing = Call::Seal {
                    kid,
                    metadata: b"",
                    plaintext: b"picture",
                    offset: 0,
                    room: 64,
                };
                store = after(&store, sealing);
                *sealed.entry(kid).or_default() += 1;
            }
        }
        check_order(&store, &kids);
        for (record, count) in store.chunks_exact_mut(RECORD).zip(sealed.values()) {
            let counter = &mut record[COUNTER_AT..COUNTER_AT + 8];
            assert_eq!(counter, count.to_be_bytes());
            counter.fill(0);
        }
        let first = without.get_or_insert_with(|| store.clone());
        assert!(store == *first);
    }
}

/// Random addings and removals beside a map from key numbers to records.
#[test]
fn beside_a_map() {
    let mut generator = Generator::new(0x6f72_6465_7200_0003);
    for records in [1, 2, 3, 5, 17, 64] {
        let mut store = made(records);
        let mut map = BTreeMap::<u64, Vec<u8>>::new();
        for _ in 0..600 {
            let kid = match generator.up_to(4) {
                0 => *generator.pick(&KIDS),
                _ => generator.up_to(2 * records) as u64,
            };
            let (role, key) = key(kid);
            let suite_3 = key.suite.number() == 3;
            if generator.one_in(2) {
                let outcome = compare(&store, key.add(role));
                let number = match (map.contains_key(&kid), map.len() == records) {
                    _ if suite_3 && role == Role::Sending => SENDING_BARRED,
                    (true, _) => KID_HELD,
                    (false, true) => STORE_FULL,
                    (false, false) => DONE,
                };
                assert_eq!(outcome.number, number);
                if number == DONE {
                    let alone = with_key(&made(1), role, &key);
                    map.insert(kid, alone);
                }
                store = outcome.store;
            } else {
                let outcome = compare(&store, Call::Remove { kid });
                let number = match map.get(&kid).map(|record| record[0]) {
                    None => KID_UNKNOWN,
                    Some(3) => WRONG_ROLE,
                    Some(_) => DONE,
                };
                assert_eq!(outcome.number, number);
                if number == DONE && role == Role::Receiving {
                    map.remove(&kid);
                } else if number == DONE {
                    let left = after(&map[&kid], Call::Remove { kid });
                    map.insert(kid, left);
                }
                store = outcome.store;
            }
            // Retired keys fill a store in time: begin anew.
            if map.len() == records && map.values().all(|record| record[0] == 3) {
                store = made(records);
                map.clear();
            }
            let mut expected = map.values().flatten().copied().collect::<Vec<u8>>();
            expected.resize(records * RECORD, 0);
            assert!(store == expected);
        }
    }
}

/// A record that moves is the same at its new place: it seals on from its
/// counter, and has opened what it opened.
#[test]
fn records_that_move() {
    for suite in SUITES {
        let [sender, receiver] = [500, 501].map(|kid| Key::any(suite, kid));
        let mut store = with_key(&made(4), Role::Sending, &sender);
        store = with_key(&store, Role::Receiving, &receiver);
        let other = Key::any(suite, 3);
        for ctr in 0..4 {
            let sealing = Call::Seal {
                kid: 500,
                metadata: b"",
                plaintext: b"picture",
                offset: 0,
                room: 64,
            };
            let sealed = done(&store, sealing);
            let expected = comparison::frame(&sender, ctr, b"", b"picture");
            assert_eq!(sealed.result(), expected);
            let frame = comparison::frame(&receiver, ctr, b"", b"picture");
            let opening = Call::Open {
                frame: &frame,
                metadata: b"",
                room: 7,
            };
            store = after(&sealed.store, opening);
            assert_eq!(compare(&store, opening).number, ALREADY_OPENED);
            let report = done(&store, Call::Report { kid: 501 });
            assert_eq!(report.count, ctr + 1);
            // They move behind another key, and back.
            store = match ctr % 2 {
                0 => with_key(&store, Role::Receiving, &other),
                _ => after(&store, Call::Remove { kid: 3 }),
            };
        }
    }
}
