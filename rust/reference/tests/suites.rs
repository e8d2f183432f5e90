// SPDX-License-Identifier: MIT
//! The published AEAD and SFrame cases, with every intermediate value.

use reference::aead::Aead;
use reference::header::{read_header, write_header};
use reference::sha2::{Sha256, Sha512};
use reference::suites::{nonce, Suite, NN, SUITES};
use reference::{hkdf, suites};
use testkit::{aead_vectors, sframe_vectors, Case, Generator};

fn suite(case: &Case) -> Suite {
    Suite::from_number(case.number("cipher_suite")).unwrap()
}

/// `ciphertext` is what `plaintext` encrypts to, tag at the end, and it
/// verifies and decrypts.
fn check_aead(aead: &Aead, nonce: &[u8; NN], aad: &[u8], plaintext: &[u8], ciphertext: &[u8]) {
    let mut data = plaintext.to_vec();
    let tag = aead.encrypt(nonce, aad, &mut data);
    assert_eq!([&data[..], &tag].concat(), ciphertext);

    assert!(aead.verify(nonce, aad, &data, &tag));
    aead.apply_key_stream(nonce, &mut data);
    assert_eq!(data, plaintext);
}

#[test]
fn appendix_d2() {
    for case in aead_vectors() {
        let key = case.bytes("key");
        let suite = suite(&case);
        let (enc_key, auth_key) = key.split_at(suite.nka().unwrap());
        assert_eq!(enc_key, case.bytes("enc_key"));
        assert_eq!(auth_key, case.bytes("auth_key"));
        check_aead(
            &Aead::new(suite, &key),
            &case.bytes("nonce").try_into().unwrap(),
            &case.bytes("aad"),
            &case.bytes("pt"),
            &case.bytes("ct"),
        );
    }
}

#[test]
fn appendix_d3() {
    for case in sframe_vectors() {
        let suite = suite(&case);
        let (kid, ctr) = (case.number("kid"), case.number("ctr"));
        let base_key = case.bytes("base_key");

        assert_eq!(suite.key_label(kid), case.bytes("sframe_key_label"));
        assert_eq!(suite.salt_label(kid), case.bytes("sframe_salt_label"));
        let secret = match suite {
            Suite::Aes256GcmSha512_128 => hkdf::extract::<Sha512>(b"", &base_key).to_vec(),
            _ => hkdf::extract::<Sha256>(b"", &base_key).to_vec(),
        };
        assert_eq!(secret, case.bytes("sframe_secret"));

        let (key, salt) = suite.derive_key_salt(kid, &base_key);
        assert_eq!(key, case.bytes("sframe_key"));
        assert_eq!(salt[..], case.bytes("sframe_salt"));
        let nonce = nonce(&salt, ctr);
        assert_eq!(nonce[..], case.bytes("nonce"));

        let header = write_header(kid, ctr);
        let aad = [&header[..], &case.bytes("metadata")].concat();
        assert_eq!(aad, case.bytes("aad"));

        let frame = case.bytes("ct");
        assert_eq!(read_header(&frame), Some((kid, ctr, header.len())));
        check_aead(
            &Aead::new(suite, &key),
            &nonce,
            &aad,
            &case.bytes("pt"),
            &frame[header.len()..],
        );
    }
}

#[test]
fn numbers_of_suites() {
    for suite in SUITES {
        assert_eq!(Suite::from_number(suite.number()), Some(suite));
    }
    for number in [0, 6, 257, 65_537, 1 << 32 | 1, u64::MAX] {
        assert_eq!(Suite::from_number(number), None);
    }
}

#[test]
fn every_damaged_bit_is_noticed() {
    let mut generator = Generator::new(0x0000_6165_6164_0001);
    for suite in SUITES {
        let aead = Aead::new(suite, &generator.bytes(suite.nk()));
        let nonce = suites::nonce(&generator.array(), generator.u64());
        let aad = generator.bytes(20);
        let mut data = generator.bytes(33);
        let mut tag = aead.encrypt(&nonce, &aad, &mut data);
        for bit in 0..8 * data.len() {
            data[bit / 8] ^= 1 << (bit % 8);
            assert!(!aead.verify(&nonce, &aad, &data, &tag));
            data[bit / 8] ^= 1 << (bit % 8);
        }
        for bit in 0..8 * tag.len() {
            tag[bit / 8] ^= 1 << (bit % 8);
            assert!(!aead.verify(&nonce, &aad, &data, &tag));
            tag[bit / 8] ^= 1 << (bit % 8);
        }
        assert!(aead.verify(&nonce, &aad, &data, &tag));
        assert!(!aead.verify(&nonce, &aad, &data, &tag[1..]));
    }
}
