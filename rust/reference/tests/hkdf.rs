// SPDX-License-Identifier: MIT
//! RFC 5869, appendix A.1 to A.3.

use reference::hkdf::{expand, extract};
use reference::sha2::Sha256;
use testkit::hex;

fn check(ikm: &[u8], salt: &[u8], info: &[u8], prk: &str, okm: &str) {
    let extracted = extract::<Sha256>(salt, ikm);
    assert_eq!(extracted[..], hex(prk));
    let okm = hex(okm);
    let mut expanded = vec![0; okm.len()];
    expand::<Sha256>(&extracted, info, &mut expanded);
    assert_eq!(expanded, okm);
}

fn run(first: u8, last: u8) -> Vec<u8> {
    (first..=last).collect()
}

#[test]
fn basic() {
    check(
        &[0x0b; 22],
        &run(0x00, 0x0c),
        &run(0xf0, 0xf9),
        "077709362c2e32df0ddc3f0dc47bba6390b6c73bb50f9c3122ec844ad7c2b3e5",
        "3cb25f25faacd57a90434f64d0362f2a2d2d0a90cf1a5a4c5db02d56ecc4c5bf
         34007208d5b887185865",
    );
}

#[test]
fn longer_inputs_and_outputs() {
    check(
        &run(0x00, 0x4f),
        &run(0x60, 0xaf),
        &run(0xb0, 0xff),
        "06a6b88c5853361a06104c9ceb35b45cef760014904671014a193f40c15fc244",
        "b11e398dc80327a1c8e7f78c596a49344f012eda2d4efad8a050cc4c19afa97c
         59045a99cac7827271cb41c65e590e09da3275600c2f09b8367793a9aca3db71
         cc30c58179ec3e87c14c01d5c1f3434f1d87",
    );
}

#[test]
fn no_salt_and_no_info() {
    check(
        &[0x0b; 22],
        b"",
        b"",
        "19ef24a32c717b167f33a91d6f648bdf96596776afdb6377ac434c1c293ccb04",
        "8da4e775a563c18f715f802a063c5a31b8a11f5c5ee1879ec3454e5f3c738d2d
         9d201395faa4b61a96c8",
    );
}

#[test]
#[should_panic(expected = "at most 255 blocks")]
fn more_than_255_blocks_is_a_fault() {
    expand::<Sha256>(&[0; 32], b"", &mut [0; 255 * 32 + 1]);
}
