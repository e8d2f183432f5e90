// SPDX-License-Identifier: MIT
//! The five suites beside the reference's: derivation, encryption, decryption.

use primitives::{derive, hkdf, hmac, Aead, Decrypted, Hash};
use reference::header::write_header;
use reference::suites::{nonce, Suite, NN, SUITES};
use testkit::{
    aead_vectors, check_filled, check_output, check_refused, sframe_vectors, Case, Generator,
    PATTERN,
};

/// One frame: what encryption is given, and what the reference makes of it.
struct Frame {
    suite: Suite,
    key: Vec<u8>,
    nonce: [u8; NN],
    header: Vec<u8>,
    metadata: Vec<u8>,
    plaintext: Vec<u8>,
    sealed: Vec<u8>,
}

impl Frame {
    fn new(
        suite: Suite,
        key: Vec<u8>,
        nonce: [u8; NN],
        [header, metadata, plaintext]: [Vec<u8>; 3],
    ) -> Frame {
        let mut sealed = plaintext.clone();
        let aad = [&header[..], &metadata].concat();
        let tag = reference::aead::Aead::new(suite, &key).encrypt(&nonce, &aad, &mut sealed);
        sealed.extend(tag);
        Frame {
            suite,
            key,
            nonce,
            header,
            metadata,
            plaintext,
            sealed,
        }
    }

    /// A frame under a derived key, with a header that carries its numbers.
    fn random(generator: &mut Generator, suite: Suite, longest: [usize; 2]) -> Frame {
        let (kid, ctr) = (generator.any_width(), generator.any_width());
        let (key, salt) = suite.derive_key_salt(kid, &generator.bytes(32));
        let [metadata, plaintext] = longest.map(|most| {
            let length = generator.up_to(most);
            generator.bytes(length)
        });
        let parts = [write_header(kid, ctr), metadata, plaintext];
        Frame::new(suite, key, nonce(&salt, ctr), parts)
    }

    fn aead(&self) -> Aead<'_> {
        Aead {
            suite: self.suite.number(),
            key: &self.key,
            nonce: &self.nonce,
            header: &self.header,
            metadata: &self.metadata,
        }
    }

    /// Both ways give what the reference gives.
    fn check(&self) {
        let aead = self.aead();
        check_filled(&self.sealed, |room| aead.encrypt(&self.plaintext, room));
        check_output(&self.plaintext, |room| {
            aead.decrypt(&self.sealed, room) == Decrypted::Done
        });
    }

    /// Both refuse `sealed` under these parts of the associated data.
    #[track_caller]
    fn check_damaged(&self, header: &[u8], metadata: &[u8], sealed: &[u8]) {
        let aad = [header, metadata].concat();
        let expected = match sealed.len().checked_sub(self.suite.nt()) {
            None => Decrypted::Refused,
            Some(n) => {
                let (ciphertext, tag) = sealed.split_at(n);
                let reference = reference::aead::Aead::new(self.suite, &self.key);
                assert!(!reference.verify(&self.nonce, &aad, ciphertext, tag));
                Decrypted::TagDiffers
            }
        };
        let aead = Aead {
            header,
            metadata,
            ..self.aead()
        };
        let mut room = vec![PATTERN; self.sealed.len()];
        assert_eq!(aead.decrypt(sealed, &mut room), expected);
        assert!(
            room.iter().all(|&byte| byte == PATTERN),
            "wrote before the tag was right"
        );
    }
}

/// `bytes` with each of its bits turned in turn.
fn bits_turned(bytes: &[u8]) -> impl Iterator<Item = Vec<u8>> + '_ {
    (0..8 * bytes.len()).map(|bit| {
        let mut damaged = bytes.to_vec();
        damaged[bit / 8] ^= 1 << (bit % 8);
        damaged
    })
}

fn suite(case: &Case) -> Suite {
    Suite::from_number(case.number("cipher_suite")).unwrap()
}

fn hash(suite: Suite) -> Hash {
    match suite {
        Suite::Aes256GcmSha512_128 => Hash::Sha512,
        _ => Hash::Sha256,
    }
}

#[test]
fn appendix_d2() {
    for case in aead_vectors() {
        let nonce = case.bytes("nonce").try_into().unwrap();
        let aad = case.bytes("aad");
        // Wherever the associated data is parted.
        for at in 0..=aad.len() {
            let (header, metadata) = aad.split_at(at);
            let parts = [header.to_vec(), metadata.to_vec(), case.bytes("pt")];
            let frame = Frame::new(suite(&case), case.bytes("key"), nonce, parts);
            assert_eq!(frame.sealed, case.bytes("ct"));
            frame.check();
        }
    }
}

#[test]
fn appendix_d3() {
    for case in sframe_vectors() {
        let suite = suite(&case);
        let kid = case.number("kid");
        let base_key = case.bytes("base_key");
        let (key, salt) = (case.bytes("sframe_key"), case.bytes("sframe_salt"));
        check_derivation(suite, &base_key, kid, &key, &salt);

        // The same step by step. HKDF-Extract with an empty salt is HMAC under
        // an empty key.
        let name = hash(suite);
        check_output(&case.bytes("sframe_secret"), |room| {
            hmac(name, b"", &base_key, [0, 0], room)
        });
        for (label, expected) in [("sframe_key_label", &key), ("sframe_salt_label", &salt)] {
            let mut okm = vec![0; expected.len()];
            assert!(hkdf(name, &base_key, &case.bytes(label), &mut okm));
            assert_eq!(okm, *expected);
        }

        let nonce = case.bytes("nonce").try_into().unwrap();
        let frame = case.bytes("ct");
        let header = write_header(kid, case.number("ctr"));
        let (front, sealed) = frame.split_at(header.len());
        assert_eq!(front, header);
        let metadata = case.bytes("metadata");
        assert_eq!([&header[..], &metadata].concat(), case.bytes("aad"));
        let parts = [header, metadata, case.bytes("pt")];
        let frame = Frame::new(suite, key, nonce, parts);
        assert_eq!(frame.sealed, sealed);
        frame.check();
    }
}

/// Key and salt come out as expected, each into a room of its own size only.
fn check_derivation(suite: Suite, base_key: &[u8], kid: u64, key: &[u8], salt: &[u8]) {
    let number = suite.number();
    check_filled(key, |room| {
        let mut other = vec![PATTERN; salt.len()];
        let done = derive(number, base_key, kid, room, &mut other);
        assert_eq!(other, if done { salt } else { &[PATTERN; NN] });
        done
    });
    check_filled(salt, |room| {
        let mut other = vec![PATTERN; key.len()];
        let done = derive(number, base_key, kid, &mut other, room);
        assert!(done || other.iter().all(|&byte| byte == PATTERN));
        done
    });
}

#[test]
fn random_derivations() {
    let mut generator = Generator::new(0x7375_6974_6573_0001);
    for suite in SUITES {
        for round in 0..2_000 {
            let base_key = generator.bytes(round % 65);
            let kid = generator.any_width();
            let (key, salt) = suite.derive_key_salt(kid, &base_key);
            check_derivation(suite, &base_key, kid, &key, &salt);
        }
    }
}

#[test]
fn random_frames() {
    let mut generator = Generator::new(0x7375_6974_6573_0002);
    for suite in SUITES {
        for _ in 0..3_000 {
            Frame::random(&mut generator, suite, [40, 200]).check();
        }
        for _ in 0..100 {
            Frame::random(&mut generator, suite, [1_024, 4_000]).check();
        }
    }
}

/// Every length up to 300, and lengths up to the longest plaintext.
#[test]
fn frames_of_every_length() {
    let mut generator = Generator::new(0x7375_6974_6573_0003);
    for suite in SUITES {
        let mut frame = Frame::random(&mut generator, suite, [0, 0]);
        for length in (0..=300).chain([1_199, 1_200, 4_096, 32_767, 32_768]) {
            let plaintext = generator.bytes(length);
            let parts = [frame.header, frame.metadata, plaintext];
            frame = Frame::new(suite, frame.key, frame.nonce, parts);
            frame.check();
        }
    }
}

#[test]
fn every_damaged_bit_is_noticed() {
    let mut generator = Generator::new(0x7375_6974_6573_0004);
    for suite in SUITES {
        for _ in 0..20 {
            let frame = Frame::random(&mut generator, suite, [20, 40]);
            for header in bits_turned(&frame.header) {
                frame.check_damaged(&header, &frame.metadata, &frame.sealed);
            }
            for metadata in bits_turned(&frame.metadata) {
                frame.check_damaged(&frame.header, &metadata, &frame.sealed);
            }
            for sealed in bits_turned(&frame.sealed) {
                frame.check_damaged(&frame.header, &frame.metadata, &sealed);
            }
            for nonce in bits_turned(&frame.nonce) {
                let nonce: [u8; NN] = nonce.try_into().unwrap();
                let mut room = vec![PATTERN; frame.plaintext.len()];
                let aead = Aead {
                    nonce: &nonce,
                    ..frame.aead()
                };
                assert_eq!(
                    aead.decrypt(&frame.sealed, &mut room),
                    Decrypted::TagDiffers
                );
            }
        }
    }
}

#[test]
fn every_truncation_is_noticed() {
    let mut generator = Generator::new(0x7375_6974_6573_0005);
    for suite in SUITES {
        for _ in 0..20 {
            let frame = Frame::random(&mut generator, suite, [20, 100]);
            for length in 0..frame.header.len() {
                frame.check_damaged(&frame.header[..length], &frame.metadata, &frame.sealed);
            }
            for length in 0..frame.metadata.len() {
                frame.check_damaged(&frame.header, &frame.metadata[..length], &frame.sealed);
            }
            for length in 0..frame.sealed.len() {
                frame.check_damaged(&frame.header, &frame.metadata, &frame.sealed[..length]);
            }
        }
    }
}

/// A frame of one suite is none of another's, though both take the same key.
#[test]
fn suites_are_kept_apart() {
    let mut generator = Generator::new(0x7375_6974_6573_0006);
    for suite in SUITES {
        let frame = Frame::random(&mut generator, suite, [20, 40]);
        for other in SUITES {
            if other == suite || other.nk() != suite.nk() {
                continue;
            }
            let aead = Aead {
                suite: other.number(),
                ..frame.aead()
            };
            let mut room = vec![PATTERN; frame.sealed.len()];
            assert_ne!(aead.decrypt(&frame.sealed, &mut room), Decrypted::Done);
            assert!(room.iter().all(|&byte| byte == PATTERN));
        }
    }
}

#[test]
fn unknown_suites_are_refused() {
    let bytes = [0; 64];
    for suite in [0, 6, 257, 65_537, 1 << 32 | 1, u64::MAX] {
        for nk in [16, 32, 48] {
            let aead = Aead {
                suite,
                key: &bytes[..nk],
                nonce: &bytes[..NN],
                header: &[],
                metadata: &[],
            };
            for nt in [4, 8, 10, 16] {
                check_refused(nt, |room| aead.encrypt(&[], room));
            }
            check_refused(64, |room| aead.decrypt(&bytes, room) != Decrypted::Refused);
            check_refused(nk, |room| derive(suite, &bytes, 1, room, &mut [0; NN]));
        }
    }
}

#[test]
fn wrong_sizes_are_refused() {
    let bytes = [0; 66];
    for suite in SUITES {
        let (nk, nt) = (suite.nk(), suite.nt());
        let right = Aead {
            suite: suite.number(),
            key: &bytes[..nk],
            nonce: &bytes[..NN],
            header: &[],
            metadata: &[],
        };
        let refused = |aead: Aead| {
            check_refused(4 + nt, |room| aead.encrypt(b"text", room));
            check_refused(64, |room| aead.decrypt(&bytes, room) != Decrypted::Refused);
        };
        for length in 0..=bytes.len() {
            let wrong = &bytes[..length];
            if length != nk {
                refused(Aead {
                    key: wrong,
                    ..right
                });
            }
            if length != NN {
                refused(Aead {
                    nonce: wrong,
                    ..right
                });
            }
        }
        let base_key = &bytes[..65];
        check_refused(nk, |room| {
            derive(suite.number(), base_key, 1, room, &mut [0; NN])
        });
    }
}
