// SPDX-License-Identifier: MIT
//! The cases with 12-byte nonces of the GCM specification (McGrew and Viega),
//! appendix B: 1 to 4 for AES-128, 13 to 16 for AES-256.

use reference::gcm::Gcm;
use testkit::hex;

const NONCE: &str = "cafebabefacedbaddecaf888";
const AAD: &str = "feedfacedeadbeeffeedfacedeadbeefabaddad2";
const PLAINTEXT: &str = "d9313225f88406e5a55909c5aff5269a86a7a9531534f7da2e4c303d8a318a72
                         1c3c0c95956809532fcf0e2449a6b525b16aedf5aa0de657ba637b391aafd255";

/// Encrypts, checks ciphertext and tag, and decrypts.
fn check(key: &[u8], nonce: &[u8], aad: &[u8], plaintext: &[u8], ciphertext: &[u8], tag: &str) {
    let gcm = Gcm::new(key);
    let nonce = nonce.try_into().unwrap();
    let mut data = plaintext.to_vec();
    gcm.apply(nonce, &mut data);
    assert_eq!(data, ciphertext);
    assert_eq!(gcm.tag(nonce, aad, &data)[..], hex(tag));
    gcm.apply(nonce, &mut data);
    assert_eq!(data, plaintext);
}

/// Four cases of one key size: no data; one block of zeros; four blocks; a
/// partial last block with associated data. The last two share their key, and
/// the last one's ciphertext begins the third's.
fn check_size(key: &str, zeros: &str, ciphertext: &str, tags: [&str; 4]) {
    let key = hex(key);
    let zero_key = vec![0; key.len()];
    let (nonce, aad) = (hex(NONCE), hex(AAD));
    let (plaintext, ciphertext) = (hex(PLAINTEXT), hex(ciphertext));

    check(&zero_key, &[0; 12], b"", b"", b"", tags[0]);
    check(&zero_key, &[0; 12], b"", &[0; 16], &hex(zeros), tags[1]);
    check(&key, &nonce, b"", &plaintext, &ciphertext, tags[2]);
    check(
        &key,
        &nonce,
        &aad,
        &plaintext[..60],
        &ciphertext[..60],
        tags[3],
    );
}

#[test]
fn aes128() {
    check_size(
        "feffe9928665731c6d6a8f9467308308",
        "0388dace60b6a392f328c2b971b2fe78",
        "42831ec2217774244b7221b784d0d49ce3aa212f2c02a4e035c17e2329aca12e
         21d514b25466931c7d8f6a5aac84aa051ba30b396a0aac973d58e091473f5985",
        [
            "58e2fccefa7e3061367f1d57a4e7455a",
            "ab6e47d42cec13bdf53a67b21257bddf",
            "4d5c2af327cd64a62cf35abd2ba6fab4",
            "5bc94fbc3221a5db94fae95ae7121a47",
        ],
    );
}

#[test]
fn aes256() {
    check_size(
        "feffe9928665731c6d6a8f9467308308feffe9928665731c6d6a8f9467308308",
        "cea7403d4d606b6e074ec5d3baf39d18",
        "522dc1f099567d07f47f37a32a84427d643a8cdcbfe5c0c97598a2bd2555d1aa
         8cb08e48590dbb3da7b08b1056828838c5f61e6393ba7a0abcc9f662898015ad",
        [
            "530f8afbc74536b9a963b4f1c4cb738b",
            "d0d1c8a799996bf0265b98b5d48ab919",
            "b094dac5d93471bdec1a502270e3cc6c",
            "76fc6ece0f4e1768cddf8853bb2d551b",
        ],
    );
}
