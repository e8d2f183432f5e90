// SPDX-License-Identifier: MIT
//! A terminal: its store, its list of calls since the store was made, and the
//! frames on their way to it.

use super::{damage, Given, Tally};
use comparison::number::DONE;
use comparison::{compare, done, made, with_key, Call, Key, Outcome, RECEIVE_ONLY};
use reference::header::read_header;
use reference::suites::{nonce, Suite, NN};
use sframe::{Role, RECORD};
use std::collections::{HashMap, HashSet};
use testkit::{Generator, PATTERN};

/// The key numbers that lists are about.
const KIDS: [u64; 24] = [
    0,
    1,
    6,
    7,
    8,
    9,
    56,
    127,
    128,
    200,
    255,
    256,
    0xffff,
    1 << 16,
    1 << 24,
    1 << 31,
    1 << 32,
    1 << 40,
    1 << 48,
    1 << 56,
    1 << 63,
    u64::MAX - 55,
    u64::MAX - 1,
    u64::MAX,
];

/// How many frames wait to be opened at most, and how many somebody has kept to
/// play them again.
const WAITING: usize = 8;
const KEPT: usize = 100;

/// A frame that one Seal of the list wrote.
struct Sealed {
    kid: u64,
    ctr: u64,
    nonce: [u8; NN],
    frame: Vec<u8>,
}

/// A key that was added for sending, and a store that receives it and has opened
/// each of its frames.
struct SendingKey {
    suite: Suite,
    salt: [u8; NN],
    receiver: Vec<u8>,
}

pub struct Terminal {
    store: Vec<u8>,
    sending: HashMap<u64, SendingKey>,
    sealed: Vec<Sealed>,
    /// Frames with their metadata, from the other terminal.
    waiting: Vec<(Vec<u8>, Vec<u8>)>,
    /// Some of those that it has sealed, whether they came here or were lost.
    kept: Vec<(Vec<u8>, Vec<u8>)>,
    /// Key number and counter of each frame opened since the key was added.
    opened: HashSet<(u64, u64)>,
}

/// One call of `us`, and what follows from it.
pub fn step(generator: &mut Generator, tally: &mut Tally, us: &mut Terminal, peer: &mut Terminal) {
    let given = us.next_call(generator);
    let call = given.call();
    if generator.one_in(25) {
        let mut store = us.store.clone();
        damage(generator, &mut store);
        tally.count(call, compare(&store, call).number);
    }
    let outcome = compare(&us.store, call);
    tally.count(call, outcome.number);
    us.store.clone_from(&outcome.store);
    if outcome.number != DONE {
        return;
    }
    match call {
        Call::Add {
            role,
            suite,
            kid,
            base_key,
        } => {
            let key = Key {
                suite: Suite::from_number(suite).expect("Add accepted it"),
                kid,
                base_key: base_key.to_vec(),
            };
            us.forget(kid);
            us.added(tally, peer, role, key);
        }
        Call::Seal {
            kid,
            metadata,
            plaintext,
            ..
        } => {
            us.check_opens(tally, kid, metadata, plaintext, &outcome);
            us.note_sealed(kid, &outcome);
            let packet = (outcome.result().to_vec(), metadata.to_vec());
            if generator.one_in(3) {
                peer.keep(generator, packet.clone());
            }
            if peer.waiting.len() < WAITING {
                peer.waiting.push(packet);
            }
        }
        Call::Open { frame, .. } => us.note_opened(frame),
        Call::Make
        | Call::Remove { .. }
        | Call::ChangeEpoch { .. }
        | Call::Report { .. }
        | Call::Find { .. } => (),
    }
}

impl Terminal {
    pub fn new(tally: &mut Tally, records: usize) -> Self {
        let before = vec![PATTERN; records * RECORD];
        let outcome = done(&before, Call::Make);
        tally.count(Call::Make, outcome.number);
        Terminal {
            store: outcome.store,
            sending: HashMap::new(),
            sealed: vec![],
            waiting: vec![],
            kept: vec![],
            opened: HashSet::new(),
        }
    }

    /// A terminal whose store has a sender of [`RECEIVE_ONLY`] from before.
    pub fn older(tally: &mut Tally, records: usize) -> Self {
        let mut terminal = Terminal::new(tally, records);
        let key = Key::any(RECEIVE_ONLY, KIDS[9]);
        terminal.store = with_key(&terminal.store, Role::Sending, &key);
        terminal.note_sending(&key);
        terminal
    }

    /// How many frames of the list were sealed under a suite.
    pub fn sealed_under(&self, suite: Suite) -> usize {
        let under = |sealed: &&Sealed| self.sending[&sealed.kid].suite == suite;
        self.sealed.iter().filter(under).count()
    }

    fn next_call(&mut self, generator: &mut Generator) -> Given {
        let kid = *generator.pick(&KIDS);
        let sending = self.sending_kid(generator);
        match generator.up_to(199) {
            0..20 => Given::add(generator, kid),
            20..22 => Given::Remove { kid },
            22..26 => Given::Report { kid },
            26..29 => Given::Find { kid },
            29..31 => Given::change_epoch(generator, kid),
            31..42 if !self.kept.is_empty() => {
                let (frame, metadata) = generator.pick(&self.kept).clone();
                Given::open(generator, frame, metadata)
            }
            31..100 => match self.waiting.pop() {
                Some((frame, metadata)) => Given::open(generator, frame, metadata),
                None => Given::seal(generator, sending),
            },
            100..110 => Given::seal(generator, kid),
            // Its own frames too; the store does not receive them.
            110..115 if !self.sealed.is_empty() => {
                let frame = generator.pick(&self.sealed).frame.clone();
                Given::open(generator, frame, vec![])
            }
            _ => Given::seal(generator, sending),
        }
    }

    /// A key number that was added for sending, if one was.
    fn sending_kid(&self, generator: &mut Generator) -> u64 {
        let mut kids: Vec<u64> = self.sending.keys().copied().collect();
        kids.sort_unstable();
        match kids[..] {
            [] => *generator.pick(&KIDS),
            _ => *generator.pick(&kids),
        }
    }

    /// The other terminal is given each key in the other role; it may refuse.
    fn added(&mut self, tally: &mut Tally, peer: &mut Terminal, role: Role, key: Key) {
        match role {
            Role::Sending => {
                self.note_sending(&key);
                peer.add(tally, Role::Receiving, &key);
            }
            Role::Receiving => {
                if peer.add(tally, Role::Sending, &key) == DONE {
                    peer.note_sending(&key);
                }
            }
        }
    }

    fn add(&mut self, tally: &mut Tally, role: Role, key: &Key) -> u32 {
        let outcome = compare(&self.store, key.add(role));
        tally.count(key.add(role), outcome.number);
        self.store = outcome.store;
        if outcome.number == DONE {
            self.forget(key.kid);
        }
        outcome.number
    }

    /// A key that is added has opened nothing.
    fn forget(&mut self, kid: u64) {
        self.opened.retain(|&(opened, _)| opened != kid);
    }

    /// No frame was opened before, since its key was added.
    fn note_opened(&mut self, frame: &[u8]) {
        let (kid, ctr, _) = read_header(frame).expect("a frame has a header");
        let new = self.opened.insert((kid, ctr));
        assert!(new, "KID {kid}, CTR {ctr} was opened twice");
    }

    /// Keeps a frame, in the place of another where there are too many.
    fn keep(&mut self, generator: &mut Generator, packet: (Vec<u8>, Vec<u8>)) {
        if self.kept.len() < KEPT {
            self.kept.push(packet);
        } else {
            self.kept[generator.up_to(KEPT - 1)] = packet;
        }
    }

    fn note_sending(&mut self, key: &Key) {
        let (_, salt) = key.suite.derive_key_salt(key.kid, &key.base_key);
        let sending = SendingKey {
            suite: key.suite,
            salt,
            receiver: with_key(&made(1), Role::Receiving, key),
        };
        let before = self.sending.insert(key.kid, sending);
        assert!(before.is_none(), "KID {} was added twice", key.kid);
    }

    /// The frame opens at a store that receives its key, in a room that is just
    /// long enough.
    fn check_opens(
        &mut self,
        tally: &mut Tally,
        kid: u64,
        metadata: &[u8],
        plaintext: &[u8],
        sealed: &Outcome,
    ) {
        let call = Call::Open {
            frame: sealed.result(),
            metadata,
            room: plaintext.len(),
        };
        let key = self.sending.get_mut(&kid).expect("a key that seals");
        let outcome = compare(&key.receiver, call);
        tally.count(call, outcome.number);
        assert_eq!(outcome.number, DONE, "{call}");
        assert_eq!(outcome.result(), plaintext);
        key.receiver = outcome.store;
    }

    fn note_sealed(&mut self, kid: u64, outcome: &Outcome) {
        let frame = outcome.result().to_vec();
        let (header_kid, ctr, header) = read_header(&frame).expect("a frame has a header");
        let key = &self.sending[&kid];
        assert_eq!(header_kid, kid);
        assert!(frame.len() >= header + key.suite.nt());
        self.sealed.push(Sealed {
            kid,
            ctr,
            nonce: nonce(&key.salt, ctr),
            frame,
        });
    }

    /// No two sealed frames of the list share key number and counter, or key
    /// number and nonce, and none is the beginning of another.
    pub fn check_sealed(&self) {
        let counters: HashSet<_> = self.sealed.iter().map(|s| (s.kid, s.ctr)).collect();
        assert_eq!(counters.len(), self.sealed.len());
        let nonces: HashSet<_> = self.sealed.iter().map(|s| (s.kid, s.nonce)).collect();
        assert_eq!(nonces.len(), self.sealed.len());

        // In order, whatever starts with a frame stands right behind it.
        let mut frames: Vec<&[u8]> = self.sealed.iter().map(|s| &s.frame[..]).collect();
        frames.sort_unstable();
        assert!(frames.windows(2).all(|pair| !pair[1].starts_with(pair[0])));
    }
}
