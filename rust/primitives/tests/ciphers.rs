// SPDX-License-Identifier: MIT
//! AES, counter mode and GCM beside the reference's.

use primitives::{aes, aes_repeat, ctr, Gcm};
use reference::aes::Aes;
use testkit::{check_output, check_refused, Generator};

const KEY_LENGTHS: [usize; 2] = [16, 32];

#[test]
fn random_blocks() {
    let mut generator = Generator::new(0x6369_7068_6572_0001);
    for key_length in KEY_LENGTHS {
        for _ in 0..5_000 {
            let key = generator.bytes(key_length);
            let block = generator.array();
            let encrypted = Aes::new(&key).encrypt(&block);
            check_output(&encrypted, |room| aes(&key, &block, room));
        }
    }
}

#[test]
fn blocks_encrypted_many_times_over() {
    let mut generator = Generator::new(0x6369_7068_6572_0006);
    for key_length in KEY_LENGTHS {
        let key = generator.bytes(key_length);
        let block = generator.array();
        let cipher = Aes::new(&key);
        let mut expected = block;
        for n in 0..=1_000 {
            let mut out = [0; 16];
            assert!(aes_repeat(&key, &block, n, &mut out));
            assert_eq!(out, expected, "{n} times");
            expected = cipher.encrypt(&expected);
        }
    }
}

/// Every value of every byte of the block and of the key, the others zero.
#[test]
fn blocks_and_keys_with_one_byte_set() {
    for key_length in KEY_LENGTHS {
        let zero_key = vec![0; key_length];
        for value in 0..=u8::MAX {
            for at in 0..16 {
                let mut block = [0; 16];
                block[at] = value;
                let encrypted = Aes::new(&zero_key).encrypt(&block);
                check_output(&encrypted, |room| aes(&zero_key, &block, room));
            }
            for at in 0..key_length {
                let mut key = zero_key.clone();
                key[at] = value;
                let encrypted = Aes::new(&key).encrypt(&[0; 16]);
                check_output(&encrypted, |room| aes(&key, &[0; 16], room));
            }
        }
    }
}

/// The lengths to compare texts at: 0 to 300, and some up to the longest
/// plaintext that the layer takes.
fn text_lengths(generator: &mut Generator) -> Vec<usize> {
    let mut lengths: Vec<usize> = (0..=300).collect();
    lengths.extend([1_199, 1_200, 4_095, 4_096, 32_767, 32_768]);
    lengths.extend((0..10).map(|_| generator.up_to(32_768)));
    lengths
}

fn check_ctr(key: &[u8], nonce: &[u8; 12], count: u32, input: &[u8]) {
    let mut output = input.to_vec();
    reference::ctr::apply(&Aes::new(key), nonce, count, &mut output);
    check_output(&output, |room| ctr(key, nonce, count, input, room));
}

#[test]
fn counter_mode() {
    let mut generator = Generator::new(0x6369_7068_6572_0002);
    for key_length in KEY_LENGTHS {
        for length in text_lengths(&mut generator) {
            let key = generator.bytes(key_length);
            let nonce = generator.array();
            let input = generator.bytes(length);
            // The counts where the layer starts, those where a byte carries,
            // and any other from which no text of ours runs past 32 bits.
            let any = generator.u64() as u32 & 0x7fff_ffff;
            for count in [0, 1, 2, 0xff, 0xff_ffff, any] {
                check_ctr(&key, &nonce, count, &input);
            }
        }
    }
}

#[test]
fn gcm() {
    let mut generator = Generator::new(0x6369_7068_6572_0003);
    for key_length in KEY_LENGTHS {
        for length in text_lengths(&mut generator) {
            let key = generator.bytes(key_length);
            let nonce = generator.array();
            let header_length = generator.up_to(17);
            let header = generator.bytes(header_length);
            let most = *generator.pick(&[0, 40, 1_024]);
            let metadata_length = generator.up_to(most);
            let metadata = generator.bytes(metadata_length);
            let plaintext = generator.bytes(length);

            let reference = reference::gcm::Gcm::new(&key);
            let mut ciphertext = plaintext.clone();
            reference.apply(&nonce, &mut ciphertext);
            let tag = reference.tag(&nonce, &[&header[..], &metadata].concat(), &ciphertext);

            let gcm = Gcm {
                key: &key,
                nonce: &nonce,
                header: &header,
                metadata: &metadata,
            };
            let sealed = [&ciphertext[..], &tag].concat();
            check_output(&sealed, |room| gcm.seal(&plaintext, room));
            check_output(&tag, |room| gcm.tag(&ciphertext, room));
        }
    }
}

/// Counter mode and GCM refuse a key and a nonce of which one has a wrong size.
fn check_refused_pair(key: &[u8], nonce: &[u8]) {
    let gcm = Gcm {
        key,
        nonce,
        header: &[],
        metadata: &[],
    };
    check_refused(64, |room| ctr(key, nonce, 0, b"text", room));
    check_refused(64, |room| gcm.seal(b"text", room));
    check_refused(64, |room| gcm.tag(b"text", room));
}

#[test]
fn wrong_sizes_are_refused() {
    let bytes = [0; 40];
    let (key, nonce, block) = (&bytes[..16], &bytes[..12], &bytes[..16]);
    for length in 0..=bytes.len() {
        let wrong = &bytes[..length];
        if !KEY_LENGTHS.contains(&length) {
            check_refused(64, |room| aes(wrong, block, room));
            check_refused(16, |room| aes_repeat(wrong, block, 1, room));
            check_refused_pair(wrong, nonce);
        }
        if length != nonce.len() {
            check_refused_pair(key, wrong);
        }
        if length != block.len() {
            check_refused(64, |room| aes(key, wrong, room));
            check_refused(16, |room| aes_repeat(key, wrong, 1, room));
            check_refused(length, |room| aes_repeat(key, block, 1, room));
        }
    }
}
