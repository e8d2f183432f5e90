// SPDX-License-Identifier: MIT
//! No frame is opened twice: what a key remembers of the counters that it has
//! opened, and what it answers to a frame that comes again or comes late.

use comparison::number::*;
use comparison::{
    after, compare, done, forms, frame, frame_with, made, set_window, window, with_key, Call, Key,
};
use reference::suites::{Suite, SUITES};
use sframe::{Role, MAX_METADATA, MAX_PLAINTEXT, WINDOW};
use std::collections::HashSet;
use testkit::Generator;

const KID: u64 = 200;
const LAST: u64 = u64::MAX;

/// A receiver of one key, and the frames that come to it.
#[derive(Clone)]
struct Receiver {
    key: Key,
    store: Vec<u8>,
}

impl Receiver {
    fn new(suite: Suite) -> Self {
        let key = Key::any(suite, KID);
        let store = with_key(&made(1), Role::Receiving, &key);
        Receiver { key, store }
    }

    /// One that has opened these counters, in this order.
    #[track_caller]
    fn after(suite: Suite, counters: &[u64]) -> Self {
        let mut receiver = Receiver::new(suite);
        for &ctr in counters {
            assert_eq!(receiver.open(ctr), DONE, "{ctr}");
        }
        receiver
    }

    /// Opens the frame of a counter, with room enough.
    #[track_caller]
    fn open(&mut self, ctr: u64) -> u32 {
        let frame = frame(&self.key, ctr, b"m", b"picture");
        self.open_frame(&frame)
    }

    #[track_caller]
    fn open_frame(&mut self, frame: &[u8]) -> u32 {
        let outcome = compare(&self.store, opening(frame));
        if outcome.number == DONE {
            assert_eq!(outcome.result(), b"picture");
        }
        self.store = outcome.store;
        outcome.number
    }

    /// How many of the last counters were opened.
    #[track_caller]
    fn report(&self) -> u64 {
        done(&self.store, Call::Report { kid: KID }).count
    }

    fn window(&self) -> (u64, u64) {
        window(&self.store, 0)
    }
}

fn opening(frame: &[u8]) -> Call<'_> {
    Call::Open {
        frame,
        metadata: b"m",
        room: 7,
    }
}

/// A frame with one bit of its tag changed.
fn forged(key: &Key, ctr: u64) -> Vec<u8> {
    let mut frame = frame(key, ctr, b"m", b"picture");
    *frame.last_mut().expect("a tag") ^= 1;
    frame
}

/// Whichever counter comes first, it opens once.
#[test]
fn the_first_frame() {
    for suite in SUITES {
        for ctr in [0, 1, 7, 8, 62, 63, 64, 65, 1 << 40, LAST - 1, LAST] {
            let mut receiver = Receiver::new(suite);
            assert_eq!((receiver.window(), receiver.report()), ((0, 0), 0));
            assert_eq!(receiver.open(ctr), DONE);
            assert_eq!((receiver.window(), receiver.report()), ((ctr, 1), 1));
            assert_eq!(receiver.open(ctr), ALREADY_OPENED);
        }
    }
}

/// From one counter to a higher one: the lower one is remembered up to a jump of
/// 63, and lies behind the window from 64 on.
#[test]
fn jumps() {
    for suite in SUITES {
        for from in [0, 1, 10, 63, 64, 1_000, 1 << 40, LAST - 130] {
            for jump in (1..=130).chain([LAST - from]) {
                let to = from + jump;
                let mut receiver = Receiver::after(suite, &[from, to]);
                let kept = if jump < 64 { 1 << jump } else { 0 };
                assert_eq!(receiver.window(), (to, kept | 1));
                let number = if jump < 64 { ALREADY_OPENED } else { TOO_OLD };
                assert_eq!(receiver.open(from), number);
                assert_eq!(receiver.open(to), ALREADY_OPENED);
            }
        }
    }
}

/// A whole window, moved by each jump: what is left of it is what lies within.
#[test]
fn jumps_of_a_full_window() {
    let full: Vec<u64> = (1_000..1_064).collect();
    let full = Receiver::after(SUITES[0], &full);
    assert_eq!((full.window(), full.report()), ((1_063, LAST), 64));
    for jump in [1, 2, 31, 62, 63, 64, 65, 1_000, LAST - 1_063] {
        let mut receiver = full.clone();
        assert_eq!(receiver.open(1_063 + jump), DONE);
        let kept = 64 - jump.min(64);
        assert_eq!(receiver.report(), kept.min(63) + 1);
        for ctr in 1_000..1_064 {
            let number = if ctr + 64 > 1_063 + jump {
                ALREADY_OPENED
            } else {
                TOO_OLD
            };
            assert_eq!(receiver.open(ctr), number, "{ctr} after a jump of {jump}");
        }
    }
}

/// Below the highest counter: up to a distance of 63 a frame opens once, from 64
/// on it is too old.
#[test]
fn distances() {
    for suite in SUITES {
        for highest in [100, 1 << 40, LAST] {
            let first = Receiver::after(suite, &[highest]);
            for distance in 1..=100 {
                let mut receiver = first.clone();
                let ctr = highest - distance;
                if distance < WINDOW {
                    assert_eq!(receiver.open(ctr), DONE);
                    assert_eq!(receiver.window(), (highest, 1 << distance | 1));
                    assert_eq!(receiver.open(ctr), ALREADY_OPENED);
                } else {
                    assert_eq!(receiver.open(ctr), TOO_OLD);
                }
                assert_eq!(receiver.open(highest), ALREADY_OPENED);
            }
        }
    }
}

#[test]
fn counter_0_first_and_later() {
    for suite in SUITES {
        let mut receiver = Receiver::after(suite, &[0, 1]);
        assert_eq!(receiver.open(0), ALREADY_OPENED);
        for (highest, number) in [
            (1, DONE),
            (62, DONE),
            (63, DONE),
            (64, TOO_OLD),
            (65, TOO_OLD),
            (LAST, TOO_OLD),
        ] {
            let mut receiver = Receiver::after(suite, &[highest]);
            assert_eq!(receiver.open(0), number, "after {highest}");
            let again = if number == DONE {
                ALREADY_OPENED
            } else {
                TOO_OLD
            };
            assert_eq!(receiver.open(0), again);
        }
    }
}

/// Backwards from a counter: all that lie within open, and then none.
#[test]
fn a_window_filled_backwards() {
    for suite in SUITES {
        for highest in [63, 500, LAST] {
            let mut receiver = Receiver::new(suite);
            for distance in 0..WINDOW {
                assert_eq!(receiver.open(highest - distance), DONE);
                assert_eq!(receiver.report(), distance + 1);
            }
            assert_eq!(receiver.window(), (highest, LAST));
            for distance in 0..WINDOW {
                assert_eq!(receiver.open(highest - distance), ALREADY_OPENED);
            }
        }
    }
}

/// A frame that is not opened, for whatever cause, can be opened later: that it
/// came moves nothing, be its counter the highest there is.
#[test]
fn refused_frames_move_nothing() {
    for suite in SUITES {
        let start = Receiver::after(suite, &[40, 100]);
        for ctr in [37, 99, 101, 163, 164, 1_000, LAST] {
            let whole = frame(&start.key, ctr, b"m", b"picture");
            let header = whole.len() - 7 - suite.nt();
            let mut receiver = start.clone();
            assert_eq!(receiver.open_frame(&forged(&start.key, ctr)), TAG_DIFFERS);
            assert_eq!(receiver.open_frame(&whole[..header]), FRAME_SHORT);
            assert_eq!(receiver.open_frame(&whole[..header - 1]), BAD_HEADER);
            let short = Call::Open {
                frame: &whole,
                metadata: b"m",
                room: 6,
            };
            assert_eq!(compare(&receiver.store, short).number, ROOM_SHORT);
            let other = Call::Open {
                frame: &whole,
                metadata: b"",
                room: 7,
            };
            assert_eq!(compare(&receiver.store, other).number, TAG_DIFFERS);
            assert!(receiver.store == start.store);
            assert_eq!(receiver.open_frame(&whole), DONE);
        }
    }
}

/// The window is looked at behind every length and before the tag.
#[test]
fn among_the_other_causes() {
    let long = vec![0x5a; MAX_PLAINTEXT + 1];
    for suite in SUITES {
        for (ctr, number) in [(100, ALREADY_OPENED), (37, ALREADY_OPENED), (36, TOO_OLD)] {
            let receiver = Receiver::after(suite, &[36, 37, 100]);
            let (key, store) = (&receiver.key, &receiver.store);
            let answer = |frame: &[u8], metadata: &[u8], room| {
                let call = Call::Open {
                    frame,
                    metadata,
                    room,
                };
                compare(store, call).number
            };
            let whole = frame(key, ctr, b"m", b"picture");
            // As it was sealed, forged, and with other metadata.
            assert_eq!(answer(&whole, b"m", 7), number);
            assert_eq!(answer(&forged(key, ctr), b"m", 7), number);
            assert_eq!(answer(&whole, b"", 7), number);
            // Room one byte short; too long; no whole tag.
            assert_eq!(answer(&whole, b"m", 6), ROOM_SHORT);
            assert_eq!(answer(&forged(key, ctr), b"m", 6), ROOM_SHORT);
            assert_eq!(answer(&whole, &long[..MAX_METADATA + 1], 7), TOO_LONG);
            let longer = frame(key, ctr, b"m", &long);
            assert_eq!(answer(&longer, b"m", long.len()), TOO_LONG);
            let header = whole.len() - 7 - suite.nt();
            let cut = &whole[..header + suite.nt() - 1];
            assert_eq!(answer(cut, b"m", 7), FRAME_SHORT);
        }
    }
}

/// It is the counter that is remembered, not the bytes of a frame: another form
/// of the header, another plaintext and other metadata make no new frame.
#[test]
fn the_same_counter_in_other_frames() {
    for suite in [SUITES[0], SUITES[3]] {
        for (kid, ctr) in [(KID, 5), (7, 0), (1 << 40, 0x0123_4567)] {
            let key = Key::any(suite, kid);
            let store = with_key(&made(1), Role::Receiving, &key);
            let forms = forms(kid, ctr);
            for first in &forms {
                let whole = frame_with(first, &key, ctr, b"m", b"picture");
                let opened = after(&store, opening(&whole));
                for form in &forms {
                    let other = frame_with(form, &key, ctr, b"m", b"another");
                    assert_eq!(compare(&opened, opening(&other)).number, ALREADY_OPENED);
                }
            }
        }
    }
}

/// A key number that returns starts with an empty window.
#[test]
fn a_key_added_again() {
    for suite in SUITES {
        let mut receiver = Receiver::after(suite, &[3, 1_000, 998]);
        assert_eq!(receiver.open(998), ALREADY_OPENED);
        assert_eq!(receiver.open(3), TOO_OLD);
        receiver.store = after(&receiver.store, Call::Remove { kid: KID });
        assert!(receiver.store.iter().all(|&byte| byte == 0));
        receiver.store = with_key(&receiver.store, Role::Receiving, &receiver.key);
        assert_eq!((receiver.window(), receiver.report()), ((0, 0), 0));
        for ctr in [3, 998, 1_000] {
            assert_eq!(receiver.open(ctr), DONE);
            assert_eq!(receiver.open(ctr), ALREADY_OPENED);
        }
    }
}

/// Each key of a store has a window of its own.
#[test]
fn windows_side_by_side() {
    let mut generator = Generator::new(0x7769_6e64_6f77_0002);
    let keys: Vec<Key> = (0..64)
        .map(|place| Key::any(SUITES[place % 5], 1_000 + place as u64))
        .collect();
    let mut store = made(64);
    for key in &keys {
        store = with_key(&store, Role::Receiving, key);
    }
    let mut opened = HashSet::new();
    for _ in 0..2_000 {
        let (key, ctr) = (generator.pick(&keys), generator.up_to(39) as u64);
        let outcome = compare(&store, opening(&frame(key, ctr, b"m", b"picture")));
        let number = match opened.insert((key.kid, ctr)) {
            true => DONE,
            false => ALREADY_OPENED,
        };
        assert_eq!(outcome.number, number);
        store = outcome.store;
    }
    for key in &keys {
        let report = done(&store, Call::Report { kid: key.kid });
        let count = opened.iter().filter(|(kid, _)| *kid == key.kid).count();
        assert_eq!(report.count, count as u64);
    }
}

/// Every count that a mask can have, and every place of a single bit.
#[test]
fn reports() {
    let mut generator = Generator::new(0x7769_6e64_6f77_0003);
    let mut receiver = Receiver::new(SUITES[3]);
    let mut count = |mask: u64| {
        set_window(&mut receiver.store, 0, LAST, mask);
        receiver.report()
    };
    for ones in 1..64 {
        assert_eq!(count((1 << ones) - 1), ones);
        assert_eq!(count(1 << ones | 1), 2);
    }
    assert_eq!((count(1), count(LAST)), (1, 64));
    for _ in 0..1_000 {
        let mask = generator.u64() | 1;
        assert_eq!(count(mask), u64::from(mask.count_ones()));
    }
}

/// What is known of the frames that came to a receiver.
#[derive(Default)]
struct Known {
    highest: Option<u64>,
    opened: HashSet<u64>,
    refused: [usize; 2],
}

impl Known {
    /// What the next frame must be answered with: 0 exactly where it lies within
    /// the window, or above it, and was not opened yet.
    fn expect(&mut self, ctr: u64) -> u32 {
        let behind = self.highest.and_then(|highest| highest.checked_sub(ctr));
        if self.opened.contains(&ctr) && behind < Some(WINDOW) {
            self.refused[0] += 1;
            return ALREADY_OPENED;
        }
        if behind >= Some(WINDOW) {
            self.refused[1] += 1;
            return TOO_OLD;
        }
        self.opened.insert(ctr);
        self.highest = self.highest.max(Some(ctr));
        DONE
    }

    /// How many of the last counters were opened.
    fn count(&self) -> u64 {
        let recent = |ctr: &&u64| Some(**ctr) > self.highest.and_then(|h| h.checked_sub(WINDOW));
        self.opened.iter().filter(recent).count() as u64
    }
}

/// The order in which frames arrive: each is delayed by some places, some are
/// lost, and some come several times.
fn arrivals(generator: &mut Generator, start: u64, frames: u64, delay: usize) -> Vec<u64> {
    let mut arrivals = vec![];
    for sent in 0..frames {
        let copies = match generator.up_to(9) {
            0 => 0,
            1 | 2 => 2,
            3 => 3,
            _ => 1,
        };
        for _ in 0..copies {
            let late = match generator.up_to(9) {
                0 => generator.up_to(delay),
                _ => generator.up_to(delay / 20),
            };
            arrivals.push((sent + late as u64, start + sent));
        }
    }
    arrivals.sort_by_key(|&(at, _)| at);
    arrivals.into_iter().map(|(_, ctr)| ctr).collect()
}

/// Thousands of frames with losses and repeats, in many orders: each opens at
/// most once, and each that comes while it lies within the window exactly once.
#[test]
fn random_orders() {
    const FRAMES: u64 = 2_000;
    let mut generator = Generator::new(0x7769_6e64_6f77_0004);
    let mut refused = [0; 2];
    for (round, suite) in SUITES.into_iter().cycle().take(20).enumerate() {
        let start = [0, 50, 1 << 40, LAST - FRAMES + 1][round % 4];
        let delay = [20, 60, 100, 400][round / 5];
        let arrivals = arrivals(&mut generator, start, FRAMES, delay);
        let mut receiver = Receiver::new(suite);
        let mut known = Known::default();
        let mut times = vec![0; FRAMES as usize];
        for &ctr in &arrivals {
            // At times somebody else's frame comes first.
            if generator.one_in(20) {
                let before = receiver.store.clone();
                receiver.open_frame(&forged(&receiver.key.clone(), ctr));
                assert!(receiver.store == before);
            }
            let number = receiver.open(ctr);
            assert_eq!(number, known.expect(ctr), "{ctr} in round {round}");
            times[(ctr - start) as usize] += u32::from(number == DONE);
            if generator.one_in(10) {
                assert_eq!(receiver.report(), known.count());
            }
        }
        let came: HashSet<u64> = arrivals.iter().copied().collect();
        for (ctr, times) in (start..=LAST).zip(times) {
            assert!(times <= 1);
            assert_eq!(times == 1, known.opened.contains(&ctr));
            // Where no frame is 64 behind, each that came was opened.
            if delay < 64 {
                assert_eq!(times == 1, came.contains(&ctr));
            }
        }
        refused = [0, 1].map(|i| refused[i] + known.refused[i]);
    }
    println!("{} opened before, {} too old", refused[0], refused[1]);
    assert!(refused[0] > 10_000 && refused[1] > 1_000);
}
