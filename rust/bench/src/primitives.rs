// SPDX-License-Identifier: MIT
//! Times of the primitives under the sealing layer.

use bench::{measure, print_heading, print_method, print_rate, print_time, Times};
use primitives::{Aead, Decrypted, Gcm, Hash};
use reference::aes::{Aes, BLOCK};
use reference::sha2::{Sha256, Sha512};
use reference::suites::{Suite, SUITES};
use std::hint::black_box;
use std::path::Path;
use std::process::ExitCode;
use std::{env, fs, io};
use testkit::Generator;

/// A frame of the usual size.
const FRAME: usize = 1_200;
/// The longest frame.
const LONGEST: usize = 32_768;

/// How many blocks the time of the block alone is taken over.
const BLOCKS: u32 = 1_000;

const USAGE: &str = "\
usage: bench-primitives [FOLDER]

Measures hashes, ciphers and suites beside the reference, prints tables, and
leaves blocks.csv in FOLDER, else in rust/target/bench. When it is built, by
cargo run --release -p bench --features primitives --bin bench-primitives,
SFRAME_LIB_DIR names the folder of libsframe_test.a, else target/staticlib.";

/// Takes the folder that the table of blocks is written to as a CSV file.
fn main() -> ExitCode {
    let folder = match bench::folder(env::args_os().skip(1), USAGE) {
        Ok(folder) => folder,
        Err(code) => return code,
    };
    match run(&folder) {
        Ok(()) => ExitCode::SUCCESS,
        Err(error) => {
            eprintln!("bench-primitives: {}: {error}", folder.display());
            ExitCode::FAILURE
        }
    }
}

fn run(folder: &Path) -> io::Result<()> {
    print_method();
    let mut generator = Generator::new(0x6265_6e63_6800_0001);
    hashes(&generator.bytes(LONGEST));
    let mut rows = String::from("cipher,what,layer ns,second program ns\n");
    for key_length in [16, 32] {
        let key = generator.bytes(key_length);
        rows += &blocks(&key);
        ciphers(&key, &generator.array(), &generator.bytes(FRAME));
    }
    suites(&mut generator);
    fs::create_dir_all(folder)?;
    fs::write(folder.join("blocks.csv"), rows)?;
    println!("\nblocks.csv is in {}", folder.display());
    Ok(())
}

/// One block, with the key set-up and on a ready key schedule, as rows of CSV.
fn blocks(key: &[u8]) -> String {
    let name = format!("AES-{}", 8 * key.len());
    print_heading(&format!("{name}, one block"));
    let with_set_up = block(key);
    print_time("block with key set-up", with_set_up);
    let alone = block_alone(key);
    print_time("block alone", alone);
    let row = |what: &str, times: Times| {
        format!("{name},{what},{:.1},{:.1}\n", times.ours, times.reference)
    };
    row("block with key set-up", with_set_up) + &row("block alone", alone)
}

fn hashes(message: &[u8]) {
    print_heading("hashes");
    for length in [FRAME, LONGEST] {
        let message = &message[..length];
        let times = hash::<Sha256>(Hash::Sha256, message);
        print_rate(&format!("SHA-256, {length} bytes"), length, times);
        let times = hash::<Sha512>(Hash::Sha512, message);
        print_rate(&format!("SHA-512, {length} bytes"), length, times);
    }
}

fn hash<H: reference::sha2::Hash>(name: Hash, message: &[u8]) -> Times {
    let mut digest = [0; 64];
    let cuts = [message.len(); 2];
    measure(
        || {
            assert!(primitives::hash(
                name,
                black_box(message),
                cuts,
                &mut digest
            ))
        },
        || {
            black_box(H::digest(black_box(message)));
        },
    )
}

fn ciphers(key: &[u8], nonce: &[u8; 12], text: &[u8]) {
    print_heading(&format!("AES-{}, key set-up included", 8 * key.len()));
    let name = |what: &str| format!("{what}, {} bytes", text.len());

    let blocks = text.len() / BLOCK - 1;
    let times = counter_mode(key, nonce, &text[..BLOCK]);
    let longer = counter_mode(key, nonce, &text[..BLOCK + BLOCK * blocks]);
    print_time(
        "each further block of counter mode",
        times.step(longer, blocks),
    );
    print_rate(
        &name("counter mode"),
        text.len(),
        counter_mode(key, nonce, text),
    );
    print_rate(&name("GCM tag"), text.len(), gcm_tag(key, nonce, text));
    print_rate(&name("GCM"), text.len(), gcm_seal(key, nonce, text));
}

fn block(key: &[u8]) -> Times {
    let input = [0; BLOCK];
    let mut out = [0; BLOCK];
    measure(
        || assert!(primitives::aes(black_box(key), &input, &mut out)),
        || {
            black_box(Aes::new(black_box(key)).encrypt(&input));
        },
    )
}

/// A block encrypted many times over, less one encrypted once: the set-up falls
/// out.
fn block_alone(key: &[u8]) -> Times {
    let times = repeated_block(key, 1);
    times.step(repeated_block(key, 1 + BLOCKS), BLOCKS as usize)
}

fn repeated_block(key: &[u8], n: u32) -> Times {
    let input = [0; BLOCK];
    let mut out = input;
    let mut expected = input;
    let times = measure(
        || assert!(primitives::aes_repeat(black_box(key), &input, n, &mut out)),
        || {
            let cipher = Aes::new(black_box(key));
            expected = input;
            for _ in 0..n {
                expected = cipher.encrypt(&expected);
            }
            black_box(&expected);
        },
    );
    assert_eq!(out, expected);
    times
}

fn counter_mode(key: &[u8], nonce: &[u8; 12], text: &[u8]) -> Times {
    let mut out = vec![0; text.len()];
    let mut data = out.clone();
    measure(
        || assert!(primitives::ctr(key, nonce, 0, black_box(text), &mut out)),
        || {
            data.copy_from_slice(black_box(text));
            reference::ctr::apply(&Aes::new(key), nonce, 0, &mut data);
            black_box(&data);
        },
    )
}

/// A header and no metadata: the associated data of most frames.
const HEADER: [u8; 4] = [0x89, 0xc8, 0x12, 0x34];

fn gcm<'a>(key: &'a [u8], nonce: &'a [u8; 12]) -> Gcm<'a> {
    Gcm {
        key,
        nonce,
        header: &HEADER,
        metadata: &[],
    }
}

fn gcm_tag(key: &[u8], nonce: &[u8; 12], text: &[u8]) -> Times {
    let mut tag = [0; reference::gcm::TAG];
    measure(
        || assert!(gcm(key, nonce).tag(black_box(text), &mut tag)),
        || {
            let gcm = reference::gcm::Gcm::new(key);
            black_box(gcm.tag(nonce, &HEADER, black_box(text)));
        },
    )
}

fn gcm_seal(key: &[u8], nonce: &[u8; 12], text: &[u8]) -> Times {
    let mut out = vec![0; text.len() + reference::gcm::TAG];
    let mut sealed = out.clone();
    measure(
        || assert!(gcm(key, nonce).seal(black_box(text), &mut out)),
        || {
            let gcm = reference::gcm::Gcm::new(key);
            let (data, tag) = sealed.split_at_mut(text.len());
            data.copy_from_slice(black_box(text));
            gcm.apply(nonce, data);
            tag.copy_from_slice(&gcm.tag(nonce, &HEADER, data));
            black_box(&sealed);
        },
    )
}

fn suites(generator: &mut Generator) {
    print_heading(&format!("suites, {FRAME} bytes, key set-up included"));
    for suite in SUITES {
        let key = generator.bytes(suite.nk());
        let nonce = generator.array();
        let plaintext = generator.bytes(FRAME);
        let number = suite.number();
        let times = encryption(suite, &key, &nonce, &plaintext);
        print_time(&format!("suite {number}, encryption"), times);
        let times = decryption(suite, &key, &nonce, &plaintext);
        print_time(&format!("suite {number}, decryption"), times);
    }
}

fn aead<'a>(suite: Suite, key: &'a [u8], nonce: &'a [u8; 12]) -> Aead<'a> {
    Aead {
        suite: suite.number(),
        key,
        nonce,
        header: &HEADER,
        metadata: &[],
    }
}

fn encryption(suite: Suite, key: &[u8], nonce: &[u8; 12], plaintext: &[u8]) -> Times {
    let mut out = vec![0; plaintext.len() + suite.nt()];
    let mut sealed = out.clone();
    let times = measure(
        || assert!(aead(suite, key, nonce).encrypt(black_box(plaintext), &mut out)),
        || {
            let (data, tag) = sealed.split_at_mut(plaintext.len());
            data.copy_from_slice(black_box(plaintext));
            let aead = reference::aead::Aead::new(suite, key);
            tag.copy_from_slice(&aead.encrypt(nonce, &HEADER, data));
            black_box(&sealed);
        },
    );
    assert_eq!(out, sealed);
    times
}

fn decryption(suite: Suite, key: &[u8], nonce: &[u8; 12], plaintext: &[u8]) -> Times {
    let mut sealed = plaintext.to_vec();
    let tag = reference::aead::Aead::new(suite, key).encrypt(nonce, &HEADER, &mut sealed);
    sealed.extend(tag);
    let mut out = vec![0; plaintext.len()];
    let mut data = out.clone();
    let times = measure(
        || {
            let result = aead(suite, key, nonce).decrypt(black_box(&sealed), &mut out);
            assert_eq!(result, Decrypted::Done);
        },
        || {
            let (ciphertext, tag) = black_box(&sealed).split_at(plaintext.len());
            let aead = reference::aead::Aead::new(suite, key);
            assert!(aead.verify(nonce, &HEADER, ciphertext, tag));
            data.copy_from_slice(ciphertext);
            aead.apply_key_stream(nonce, &mut data);
            black_box(&data);
        },
    );
    assert_eq!(out, plaintext);
    assert_eq!(data, plaintext);
    times
}
