// SPDX-License-Identifier: MIT
//! Lists of calls on one store in which lines run side by side with whole
//! sealings, addings and removals.

use super::line::{check, ANY_STATE};
use comparison::number::*;
use comparison::{compare, compare_line, frame, made, Call, Key, LineCall};
use reference::header::read_header;
use reference::suites::{nonce, Suite, SUITES};
use sframe::Role;
use std::collections::{BTreeMap, HashSet};
use testkit::Generator;

const KIDS: [u64; 6] = [0, 7, 8, 200, 1 << 40, u64::MAX];

/// How many lines run at once at most.
const LINES: usize = 5;

/// A sealing begun: what it was begun with, and what has become of it.
struct Line {
    key: Key,
    metadata: Vec<u8>,
    announced: usize,
    state: Vec<u8>,
    plaintext: Vec<u8>,
    frame: Vec<u8>,
}

/// One store, and every sealing begun on it.
struct List {
    store: Vec<u8>,
    keys: BTreeMap<u64, Key>,
    lines: Vec<Line>,
    pairs: HashSet<(u64, u64)>,
    nonces: HashSet<(u64, [u8; 12])>,
    begun: usize,
    finished: Vec<Vec<u8>>,
    answers: BTreeMap<(&'static str, u32), u32>,
}

impl List {
    fn new(records: usize) -> Self {
        List {
            store: made(records),
            keys: BTreeMap::new(),
            lines: vec![],
            pairs: HashSet::new(),
            nonces: HashSet::new(),
            begun: 0,
            finished: vec![],
            answers: BTreeMap::new(),
        }
    }

    fn count(&mut self, name: &'static str, number: u32) {
        *self.answers.entry((name, number)).or_default() += 1;
    }

    fn step(&mut self, generator: &mut Generator) {
        let kid = *generator.pick(&KIDS);
        let sending = self.keys.keys().nth(generator.up_to(KIDS.len() - 1));
        let kid = sending.copied().unwrap_or(kid);
        match generator.up_to(99) {
            0..6 if generator.one_in(12) => {
                let outcome = compare(&self.store, Call::Remove { kid });
                self.store = outcome.store;
            }
            0..6 => {
                let kid = *generator.pick(&KIDS);
                self.add(generator, kid);
            }
            6..20 => self.whole(generator, kid),
            20..40 => self.begin(generator, kid),
            40..80 => self.piece(generator),
            80..98 => self.end(generator),
            // Given up.
            _ => {
                let _ = self.pick(generator).map(|at| self.lines.remove(at));
            }
        }
    }

    fn add(&mut self, generator: &mut Generator, kid: u64) {
        let key = Key {
            suite: *generator.pick(&SUITES),
            kid,
            base_key: generator.bytes(20),
        };
        let role = *generator.pick(&[Role::Sending, Role::Sending, Role::Receiving]);
        let outcome = compare(&self.store, key.add(role));
        self.store = outcome.store;
        if outcome.number == DONE && role == Role::Sending {
            let before = self.keys.insert(kid, key);
            assert!(before.is_none(), "KID {kid} was added twice");
        }
    }

    /// A frame that is sealed as a whole takes a counter of the same row.
    fn whole(&mut self, generator: &mut Generator, kid: u64) {
        let length = generator.up_to(100);
        let plaintext = generator.bytes(length);
        let call = Call::Seal {
            kid,
            metadata: b"whole",
            plaintext: &plaintext,
            offset: 0,
            room: length + generator.up_to(40),
        };
        let outcome = compare(&self.store, call);
        self.count("Seal", outcome.number);
        if outcome.number == DONE {
            let sealed = outcome.result().to_vec();
            self.note(kid, &sealed);
            self.finished.push(sealed);
        }
        self.store = outcome.store;
    }

    fn begin(&mut self, generator: &mut Generator, kid: u64) {
        let long = [0; 1_025];
        let count = *generator.pick(&[0, 1, 20, 60, 1_024, 1_025]);
        let metadata = &long[..count];
        let most = *generator.pick(&[0, 50, 300, 33_000]);
        let announced = generator.up_to(most);
        let call = LineCall::SealBegin {
            kid,
            metadata,
            plaintext_len: announced as u64,
            room: generator.up_to(25),
        };
        let size = if generator.one_in(20) { 167 } else { 168 };
        let outcome = compare_line(&self.store, &ANY_STATE[..size], call);
        self.count("Begin", outcome.number);
        let frame = outcome.result().to_vec();
        self.store = outcome.store;
        if outcome.number != DONE {
            return;
        }
        self.note(kid, &frame);
        if self.lines.len() == LINES {
            self.lines.remove(0);
        }
        self.lines.push(Line {
            key: self.keys[&kid].clone(),
            metadata: metadata.to_vec(),
            announced,
            state: outcome.state,
            plaintext: vec![],
            frame,
        });
    }

    fn piece(&mut self, generator: &mut Generator) {
        let Some(at) = self.pick(generator) else {
            return;
        };
        let line = &mut self.lines[at];
        let left = line.announced - line.plaintext.len();
        let length = match generator.up_to(9) {
            0 => left + 1 + generator.up_to(20),
            1..6 => left,
            _ => generator.up_to(left.min(2_000)),
        };
        let piece = generator.bytes(length);
        let room = if generator.one_in(10) {
            generator.up_to(length)
        } else {
            length
        };
        let call = LineCall::SealPiece {
            piece: &piece,
            room,
        };
        let outcome = compare_line(&[], &line.state, call);
        if outcome.number == DONE {
            line.plaintext.extend(&piece);
            line.frame.extend(outcome.result());
        }
        line.state = outcome.state;
        self.count("Piece", outcome.number);
    }

    /// A frame that is ended is the whole one, a check of it is passed, and it opens
    /// to its pieces.
    fn end(&mut self, generator: &mut Generator) {
        let Some(at) = self.pick(generator) else {
            return;
        };
        let line = &self.lines[at];
        let room = if generator.one_in(8) { 3 } else { 16 };
        let outcome = compare_line(&[], &line.state, LineCall::SealEnd { room });
        self.count("End", outcome.number);
        if outcome.number != DONE {
            return;
        }
        let line = self.lines.remove(at);
        let sealed = [&line.frame, outcome.result()].concat();
        let (_, ctr, _) = read_header(&sealed).expect("a frame has a header");
        assert!(sealed == frame(&line.key, ctr, &line.metadata, &line.plaintext));
        let receiver = super::line::receiver(&line.key);
        let (nt, size) = (line.key.suite.nt(), 1 + generator.up_to(1_000));
        assert_eq!(check(&receiver, &line.metadata, &sealed, nt, size), DONE);
        let open = Call::Open {
            frame: &sealed,
            metadata: &line.metadata,
            room: line.plaintext.len(),
        };
        assert_eq!(comparison::done(&receiver, open).result(), line.plaintext);
        self.finished.push(sealed);
    }

    fn pick(&self, generator: &mut Generator) -> Option<usize> {
        let last = self.lines.len().checked_sub(1)?;
        Some(generator.up_to(last))
    }

    /// No two sealings begun share key number and counter, or key number and nonce.
    fn note(&mut self, kid: u64, frame: &[u8]) {
        let (header_kid, ctr, _) = read_header(frame).expect("a frame has a header");
        assert_eq!(header_kid, kid);
        let key = &self.keys[&kid];
        let (_, salt) = key.suite.derive_key_salt(kid, &key.base_key);
        assert!(self.pairs.insert((kid, ctr)), "KID {kid}, CTR {ctr} twice");
        assert!(self.nonces.insert((kid, nonce(&salt, ctr))));
        self.begun += 1;
    }
}

#[test]
fn lines_side_by_side() {
    let mut generator = Generator::new(0x7069_6563_6573_0007);
    let (mut begun, mut finished, mut answers) = (0, 0, BTreeMap::new());
    for round in 0..40 {
        let mut list = List::new(1 + round % 8);
        for _ in 0..500 {
            list.step(&mut generator);
        }
        assert_eq!(list.begun, list.pairs.len());
        // In order, whatever starts with a frame stands right behind it.
        list.finished.sort_unstable();
        let frames = &list.finished;
        assert!(frames.windows(2).all(|pair| !pair[1].starts_with(&pair[0])));
        begun += list.begun;
        finished += frames.len();
        for (answer, count) in list.answers {
            *answers.entry(answer).or_insert(0) += count;
        }
    }
    println!("{begun} sealings begun, {finished} finished, answers {answers:?}");
    assert!(begun > 1_000 && finished > 500 && finished < begun);
    for (name, number) in [
        ("Begin", DONE),
        ("Begin", KID_UNKNOWN),
        ("Begin", WRONG_ROLE),
        ("Begin", TOO_LONG),
        ("Begin", ROOM_SHORT),
        ("Piece", DONE),
        ("Piece", BAD_STATE),
        ("Piece", ROOM_SHORT),
        ("End", DONE),
        ("End", BAD_STATE),
        ("End", ROOM_SHORT),
    ] {
        assert!(
            answers.contains_key(&(name, number)),
            "{name} never {number}"
        );
    }
}

/// Whatever else a store holds, a beginning under a key number answers the same.
#[test]
fn neighbours_change_no_beginning() {
    let mut generator = Generator::new(0x7069_6563_6573_0008);
    for suite in SUITES {
        let key = Key::any(suite, 100);
        for role in [Role::Sending, Role::Receiving] {
            let alone = comparison::with_key(&made(4), role, &key);
            let mut among = alone.clone();
            for kid in [3, 101, u64::MAX] {
                let role = *generator.pick(&[Role::Sending, Role::Receiving]);
                let suite: Suite = *generator.pick(&SUITES);
                among = comparison::with_key(&among, role, &Key::any(suite, kid));
            }
            let begin = LineCall::SealBegin {
                kid: 100,
                metadata: b"m",
                plaintext_len: 10,
                room: 17,
            };
            let check = LineCall::CheckBegin {
                header: &[0x80, 100],
                metadata: b"m",
                ciphertext_len: 10,
            };
            for call in [begin, check] {
                let [one, other] =
                    [&alone, &among].map(|store| compare_line(store, &ANY_STATE, call));
                assert_eq!(one.number, other.number);
                assert!(one.state == other.state && one.room == other.room);
                // The record of 100 is the first of one store, the second of the other.
                assert!(one.store[..96] == other.store[96..192]);
            }
        }
    }
}
