// SPDX-License-Identifier: MIT
//! Other libraries that a terminal maker could pick, where they are installed.
//!
//! Each is measured twice, in a program of its own: held to plain instructions,
//! as the layer is, and free to use the special ones that the processor has.

use crate::stores::{full, BASE_KEY, FIRST_COUNTER, KID};
use bench::{measure, progress, Times};
use reference::header::write_header;
use reference::store::Role;
use reference::suites::nonce;
use sframe::{frame_room, Suite};
use std::fmt::Write;
use std::hint::black_box;
use std::path::Path;
use std::process::{Command, Stdio};
use std::{env, fs, io};
use testkit::Generator;

const LENGTHS: [usize; 3] = [160, 1_200, 32_768];

/// The word by which the bench starts itself to measure the libraries.
pub const CHILD: &str = "--libraries";

/// How a line begins on which that program writes a comparison.
const ROW: &str = "row ";

/// What keeps libraries from special instructions: they read these variables
/// when they are loaded.
const HELD: [(&str, &str); 2] = [("NETTLE_FAT_OVERRIDE", "none"), ("OPENSSL_ia32cap", "0:0")];
/// What the parts in `others/` look at where the choice is theirs.
const FREE: (&str, &str) = ("BENCH_SPECIAL", "1");

/// Key, nonce, associated data with its length, data with its length, tag. The
/// data is encrypted in place.
type Encrypt =
    unsafe extern "C" fn(*const u8, *const u8, *const u8, usize, *mut u8, usize, *mut u8);

/// A library, which of its code runs held to plain instructions and free, and
/// what it offers for suites 1 and 4 where it is installed.
struct Library {
    name: &'static str,
    code: [&'static str; 2],
    suites: Option<[Encrypt; 2]>,
}

/// A library's entry: its functions in `others/`, where the build found it.
macro_rules! library {
    ($name:literal, $code:expr, $has:meta, $($suite:ident),*) => {{
        #[cfg($has)]
        let suites = {
            extern "C" {
                $(fn $suite(
                    key: *const u8,
                    nonce: *const u8,
                    aad: *const u8,
                    aad_len: usize,
                    data: *mut u8,
                    len: usize,
                    tag: *mut u8,
                );)*
            }
            Some([$($suite as Encrypt),*])
        };
        #[cfg(not($has))]
        let suites = None;
        Library {
            name: $name,
            code: $code,
            suites,
        }
    }};
}

const BEARSSL: [&str; 2] = [
    "aes_big ghash_ctmul64 sha256",
    "aes_x86ni ghash_pclmul sha256",
];
const TOMCRYPT: [&str; 2] = ["C with tables"; 2];
const ASSEMBLER: [&str; 2] = ["x86-64 assembler with tables", "its own choice"];

#[rustfmt::skip]
fn libraries() -> [Library; 4] {
    [
        library!("BearSSL", BEARSSL, has_bearssl, others_bearssl_suite1, others_bearssl_suite4),
        library!("libtomcrypt", TOMCRYPT, has_tomcrypt, others_tomcrypt_suite1, others_tomcrypt_suite4),
        library!("nettle", ASSEMBLER, has_nettle, others_nettle_suite1, others_nettle_suite4),
        library!("OpenSSL", ASSEMBLER, has_openssl, others_openssl_suite1, others_openssl_suite4),
    ]
}

/// Prints the table of the libraries that are here, says which are not, and
/// writes the table to a file.
pub fn run(csv: &Path) -> io::Result<()> {
    println!(
        "\nother libraries: encryption with the key made ready, beside the layer's Seal with\n\
         a store of one record; bytes compared first. Free: with the special instructions\n\
         that the processor has, which the layer does not use.\n\n\
         library      suite   bytes   ours ns  theirs ns  ratio   free ns  ratio"
    );
    let held = measured(&HELD)?;
    let free = measured(&[FREE])?;
    let mut rows = String::from(
        "library,suite,bytes,ours_ns,theirs_ns,ours_again_ns,theirs_free_ns,theirs_code,theirs_free_code\n",
    );
    for (held, free) in held.iter().zip(&free) {
        let (ours, theirs) = (held.times.ours, held.times.reference);
        let (again, quick) = (free.times.ours, free.times.reference);
        println!(
            "{:<11}  {:>5}  {:>6}  {ours:>8.0}  {theirs:>9.0}  {:>5.2}  {quick:>8.0}  {:>5.2}",
            held.library,
            held.suite,
            held.length,
            ours / theirs,
            again / quick
        );
        let all = libraries();
        let [plain, special] = all
            .iter()
            .find(|one| one.name == held.library)
            .map_or([""; 2], |one| one.code);
        writeln!(
            rows,
            "{},{},{},{ours:.1},{theirs:.1},{again:.1},{quick:.1},{plain},{special}",
            held.library, held.suite, held.length
        )
        .expect("a string takes any text");
    }
    for library in libraries().iter().filter(|one| one.suites.is_none()) {
        println!("{}: not compared, as it is not installed", library.name);
    }
    fs::write(csv, rows)
}

/// What one comparison gave.
struct Row {
    library: String,
    suite: String,
    length: String,
    times: Times,
}

/// The rows of a program that is started with these variables set.
fn measured(variables: &[(&str, &str)]) -> io::Result<Vec<Row>> {
    let output = Command::new(env::current_exe()?)
        .arg(CHILD)
        .envs(variables.iter().copied())
        .stderr(Stdio::inherit())
        .output()?;
    if !output.status.success() {
        return Err(io::Error::other("measuring the libraries failed"));
    }
    let text = String::from_utf8_lossy(&output.stdout);
    let rows = text.lines().filter_map(|line| line.strip_prefix(ROW));
    rows.map(row).collect()
}

fn row(line: &str) -> io::Result<Row> {
    let wrong = || io::Error::other(format!("not a row: {line}"));
    let [library, suite, length, ours, theirs] = line.split(',').collect::<Vec<_>>()[..] else {
        return Err(wrong());
    };
    Ok(Row {
        library: library.to_string(),
        suite: suite.to_string(),
        length: length.to_string(),
        times: Times {
            ours: ours.parse().map_err(|_| wrong())?,
            reference: theirs.parse().map_err(|_| wrong())?,
        },
    })
}

/// Measures the libraries that are here and prints a line for each comparison.
pub fn child() {
    let free = env::var_os(FREE.0).is_some();
    for library in libraries() {
        let Some([suite1, suite4]) = library.suites else {
            continue;
        };
        let how = if free { "free" } else { "plain instructions" };
        progress(&format!("{}, {how}", library.name));
        let mut generator = Generator::new(0x6265_6e63_6800_0003);
        for (suite, encrypt) in [
            (Suite::Aes128CtrHmacSha256_80, suite1),
            (Suite::Aes128GcmSha256_128, suite4),
        ] {
            for length in LENGTHS {
                let times = compare(suite, encrypt, &generator.bytes(length));
                let Times { ours, reference } = times;
                println!(
                    "{ROW}{},{},{length},{ours},{reference}",
                    library.name,
                    suite.number()
                );
            }
        }
    }
}

/// Times of the layer's Seal and of a library's encryption. Ends the program
/// where their bytes differ.
fn compare(suite: Suite, encrypt: Encrypt, plaintext: &[u8]) -> Times {
    let number = suite.number();
    let other = reference::suites::Suite::from_number(number).expect("a suite has a number");
    let (key, salt) = other.derive_key_salt(KID, &BASE_KEY);
    let iv = nonce(&salt, FIRST_COUNTER);
    let header = write_header(KID, FIRST_COUNTER);
    let mut tag = vec![0; other.nt()];
    let mut theirs = |data: &mut [u8]| {
        // SAFETY: each pointer is that of a live slice of the length that
        // the function takes: key and tag by the suite, a nonce of 12.
        unsafe {
            encrypt(
                key.as_ptr(),
                iv.as_ptr(),
                header.as_ptr(),
                header.len(),
                data.as_mut_ptr(),
                data.len(),
                tag.as_mut_ptr(),
            );
        }
        tag.clone()
    };
    let mut store = full(1, suite, Role::Sending);
    let mut out = vec![0; frame_room(suite, plaintext.len())];
    let written = sframe::raw::seal(&mut store, KID, &[], plaintext, &mut out);
    let mut data = plaintext.to_vec();
    let tag = theirs(&mut data);
    let expected = [&header[..], &data, &tag].concat();
    assert_eq!(out[..written.length], expected, "suite {number}");

    measure(
        || {
            let plaintext = black_box(plaintext);
            black_box(sframe::raw::seal(&mut store, KID, &[], plaintext, &mut out));
        },
        || {
            black_box(theirs(black_box(&mut data)));
        },
    )
}
