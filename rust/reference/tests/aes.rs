// SPDX-License-Identifier: MIT
//! FIPS 197 and SP 800-38A examples.

use reference::aes::Aes;
use reference::ctr;
use testkit::hex;

fn check_block(key: &str, block: &str, output: &str) {
    let block = hex(block).try_into().unwrap();
    assert_eq!(Aes::new(&hex(key)).encrypt(&block)[..], hex(output));
}

#[test]
fn fips_197_appendix_b() {
    check_block(
        "2b7e151628aed2a6abf7158809cf4f3c",
        "3243f6a8885a308d313198a2e0370734",
        "3925841d02dc09fbdc118597196a0b32",
    );
}

#[test]
fn fips_197_appendix_c() {
    let block = "00112233445566778899aabbccddeeff";
    check_block(
        "000102030405060708090a0b0c0d0e0f",
        block,
        "69c4e0d86a7b0430d8cdb78070b4c55a",
    );
    check_block(
        "000102030405060708090a0b0c0d0e0f101112131415161718191a1b1c1d1e1f",
        block,
        "8ea2b7ca516745bfeafc49904b496089",
    );
}

/// SP 800-38A, F.5: both key sizes over one plaintext and first block.
fn check_ctr(key: &str, ciphertext: &str) {
    let aes = Aes::new(&hex(key));
    let nonce = hex("f0f1f2f3f4f5f6f7f8f9fafb").try_into().unwrap();
    let mut data = hex(
        "6bc1bee22e409f96e93d7e117393172aae2d8a571e03ac9c9eb76fac45af8e51
                        30c81c46a35ce411e5fbc1191a0a52eff69f2445df4f9b17ad2b417be66c3710",
    );
    ctr::apply(&aes, &nonce, 0xfcfd_feff, &mut data);
    assert_eq!(data, hex(ciphertext));
}

#[test]
fn sp_800_38a_ctr_aes128() {
    check_ctr(
        "2b7e151628aed2a6abf7158809cf4f3c",
        "874d6191b620e3261bef6864990db6ce9806f66b7970fdff8617187bb9fffdff
         5ae4df3edbd5d35e5b4f09020db03eab1e031dda2fbe03d1792170a0f3009cee",
    );
}

#[test]
fn sp_800_38a_ctr_aes256() {
    check_ctr(
        "603deb1015ca71be2b73aef0857d77811f352c073b6108d72d9810a30914dff4",
        "601ec313775789a5b7a7f504bbf3d228f443e3ca4d62b59aca84e990cacaf5c5
         2b0930daa23de94ce87017ba2d84988ddfc9c58db67aada613c2dd08457941a6",
    );
}
