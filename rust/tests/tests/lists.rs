// SPDX-License-Identifier: MIT
//! Long lists of calls from fixed seeds, each call compared with the reference.
//!
//! Two terminals talk to each other; each has its own store and its own list of
//! calls from one Make to the next. No frame is opened twice, unless its key was
//! added again. At the end of a list every frame that was sealed in it is held
//! against the others.

mod list;

use comparison::number::*;
use comparison::{compare, Call, RECEIVE_ONLY};
use list::{Tally, Terminal};
use testkit::Generator;

/// Lists on stores of each of these sizes.
const RECORDS: [usize; 8] = [1, 2, 3, 5, 8, 16, 33, 70];

#[test]
fn two_terminals() {
    let mut generator = Generator::new(0x6c69_7374_7300_0001);
    let mut tally = Tally::default();
    for round in 0..100 {
        let records = RECORDS[round % RECORDS.len()];
        let older = round % 4 == 3;
        let first = if older {
            Terminal::older
        } else {
            Terminal::new
        };
        let mut terminals = [
            first(&mut tally, records),
            Terminal::new(&mut tally, *generator.pick(&RECORDS)),
        ];
        for _ in 0..3_300 {
            let at = generator.up_to(1);
            let (one, rest) = terminals.split_at_mut(1);
            let (us, peer) = if at == 0 {
                (&mut one[0], &mut rest[0])
            } else {
                (&mut rest[0], &mut one[0])
            };
            list::step(&mut generator, &mut tally, us, peer);
        }
        for terminal in &terminals {
            terminal.check_sealed();
        }
        // No key that was added seals with tags of four bytes.
        let short_tags = terminals.map(|t| t.sealed_under(RECEIVE_ONLY));
        assert_eq!((short_tags[0] > 0, short_tags[1]), (older, 0));
    }
    println!("{tally}");
    tally.check(400_000);
}

/// Sound stores with any records, which no list from a Make need reach:
/// counters up to the ceiling, key numbers of any width.
#[test]
fn any_sound_store() {
    let mut generator = Generator::new(0x6c69_7374_7300_0002);
    let mut tally = Tally::default();
    for _ in 0..3_500 {
        let mut store = list::sound_store(&mut generator);
        for _ in 0..20 {
            let given = list::Given::for_store(&mut generator, &store);
            let outcome = compare(&store, given.call());
            assert_ne!(outcome.number, STORE_NOT_SOUND);
            tally.count(given.call(), outcome.number);
            store = outcome.store;
        }
    }
    println!("{tally}");
    assert!(tally.answered("Seal", COUNTER_SPENT) > 100);
    assert!(tally.answered("Open", DONE) > 1_000);
    assert!(tally.answered("Open", ALREADY_OPENED) > 1_000);
    assert!(tally.answered("Open", TOO_OLD) > 300);
    assert!(tally.answered("Report", DONE) > 300);
    assert!(tally.answered("ChangeEpoch", DONE) > 300);
}

/// Stores damaged at random: bits, bytes, records moved or doubled, lengths.
#[test]
fn any_damaged_store() {
    let mut generator = Generator::new(0x6c69_7374_7300_0003);
    let mut tally = Tally::default();
    for _ in 0..60_000 {
        let mut store = list::sound_store(&mut generator);
        let given = list::Given::for_store(&mut generator, &store);
        list::damage(&mut generator, &mut store);
        let call = if generator.one_in(20) {
            Call::Make
        } else {
            given.call()
        };
        tally.count(call, compare(&store, call).number);
    }
    println!("{tally}");
    for call in [
        "Make",
        "Add",
        "Remove",
        "ChangeEpoch",
        "Seal",
        "Open",
        "Report",
        "Find",
    ] {
        assert!(tally.answered(call, STORE_NOT_SOUND) > 200, "{call}");
    }
}
