// SPDX-License-Identifier: MIT
//! The FIPS 180-4 examples, and a message fed in pieces.

use reference::sha2::{Hash, Sha256, Sha512};
use testkit::{hex, Generator};

const TWO_BLOCKS_256: &str = "abcdbcdecdefdefgefghfghighijhijkijkljklmklmnlmnomnopnopq";
const TWO_BLOCKS_512: &str = "abcdefghbcdefghicdefghijdefghijkefghijklfghijklmghijklmn\
                              hijklmnoijklmnopjklmnopqklmnopqrlmnopqrsmnopqrstnopqrstu";

fn check<H: Hash>(cases: &[(&str, &str)]) {
    for (message, digest) in cases {
        assert_eq!(H::digest(message.as_bytes()).as_ref(), hex(digest));
    }
}

#[test]
fn sha256_examples() {
    check::<Sha256>(&[
        (
            "",
            "e3b0c44298fc1c149afbf4c8996fb92427ae41e4649b934ca495991b7852b855",
        ),
        (
            "abc",
            "ba7816bf8f01cfea414140de5dae2223b00361a396177a9cb410ff61f20015ad",
        ),
        (
            TWO_BLOCKS_256,
            "248d6a61d20638b8e5c026930c3e6039a33ce45964ff2167f6ecedd419db06c1",
        ),
        (
            &"a".repeat(1_000_000),
            "cdc76e5c9914fb9281a1c7e284d73e67f1809a48a497200e046d39ccc7112cd0",
        ),
    ]);
}

#[test]
fn sha512_examples() {
    check::<Sha512>(&[
        (
            "",
            "cf83e1357eefb8bdf1542850d66d8007d620e4050b5715dc83f4a921d36ce9ce
             47d0d13c5d85f2b0ff8318d2877eec2f63b931bd47417a81a538327af927da3e",
        ),
        (
            "abc",
            "ddaf35a193617abacc417349ae20413112e6fa4e89a97ea20a9eeee64b55d39a
             2192992a274fc1a836ba3c23a3feebbd454d4423643ce80e2a9ac94fa54ca49f",
        ),
        (
            TWO_BLOCKS_512,
            "8e959b75dae313da8cf4f72814fc143f8f7779c6eb9f7fa17299aeadb6889018
             501d289e4900f7e4331b99dec4b5433ac7d329eeb6dd26545e96e55b874be909",
        ),
        (
            &"a".repeat(1_000_000),
            "e718483d0ce769644e2e42c7bc15b4638e1f98b13b2044285632a803afa973eb
             de0ff244877ea60a4cb0432ce577c31beb009c5c2c49aa2e4eadb217ad8cc09b",
        ),
    ]);
}

/// Every cut of a message in two gives the digest of the whole.
fn check_cuts<H: Hash>() {
    let message = Generator::new(0x0000_7368_6132_0001).bytes(3 * H::BLOCK);
    for length in 0..message.len() {
        let whole = H::digest(&message[..length]);
        for cut in 0..length {
            let mut hash = H::new();
            hash.update(&message[..cut]);
            hash.update(&message[cut..length]);
            assert_eq!(hash.finish().as_ref(), whole.as_ref());
        }
    }
}

#[test]
fn pieces_give_the_digest_of_the_whole() {
    check_cuts::<Sha256>();
    check_cuts::<Sha512>();
}
