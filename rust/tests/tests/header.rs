// SPDX-License-Identifier: MIT
//! Headers: written and read by the sealing layer and by the reference.

use comparison::number::{BAD_HEADER, DONE, ROOM_SHORT};
use comparison::{compare_read_header, compare_write_header, forms};
use reference::header::{write_header, MAX_LENGTH};
use sframe::raw::{Read, Written};
use testkit::{header_vectors, hex, Generator};

/// `header` is what both write for `kid` and `ctr`, in a room just long enough
/// and in a longer one, and what both read back, with anything behind it.
#[track_caller]
fn check(kid: u64, ctr: u64, header: &[u8]) {
    assert_eq!(write_header(kid, ctr), header);
    let length = header.len();
    let written = Written { number: 0, length };
    for room in [length, length + 1, length + MAX_LENGTH] {
        assert_eq!(compare_write_header(kid, ctr, room), written);
    }
    let refused = Written {
        number: ROOM_SHORT,
        length: 0,
    };
    for room in 0..length {
        assert_eq!(compare_write_header(kid, ctr, room), refused);
    }

    check_read(kid, ctr, header);
}

/// `header` is what both read as `kid` and `ctr`, with anything behind it, and
/// no front of it is read.
#[track_caller]
fn check_read(kid: u64, ctr: u64, header: &[u8]) {
    let length = header.len();
    let read = Read {
        number: DONE,
        kid,
        ctr,
        length,
    };
    for behind in [&[][..], &[0x00], &[0xff; 20]] {
        assert_eq!(compare_read_header(&[header, behind].concat()), read);
    }
    for cut in 0..length {
        check_refused(&header[..cut]);
    }
}

#[track_caller]
fn check_refused(bytes: &[u8]) {
    assert_eq!(compare_read_header(bytes).number, BAD_HEADER);
}

#[test]
fn published_vectors() {
    for case in header_vectors() {
        check(case.kid, case.ctr, &case.header);
    }
}

#[test]
fn stated_cases() {
    for (kid, ctr, header) in [
        (1, 0xff, "18ff"),
        (1, 0x100, "190100"),
        (1, 0xffff, "19ffff"),
        (1, 0x10000, "1a010000"),
        (1, u64::MAX, "1fffffffffffffffff"),
        (0xff, 0, "80ff"),
        (0xff, 1, "81ff"),
        (0xff, 0xff, "88ffff"),
        (0xff, 0x100, "89ff0100"),
        (0xffffff, 0, "a0ffffff"),
        (0x1000000, 0, "b001000000"),
        (0x1000000, 0xff, "b801000000ff"),
        (0x1000000, 0x100000000, "bc010000000100000000"),
        (7, 7, "77"),
        (8, 7, "8708"),
        (8, 0, "8008"),
        (0, 8, "0808"),
        (200, 0, "80c8"),
    ] {
        check(kid, ctr, &hex(header));
    }
    for bytes in ["", "08"] {
        check_refused(&hex(bytes));
    }
    for (kid, ctr, header) in [
        (0, 5, "0805"),
        (7, 0, "8007"),
        (0xff, 0, "9000ff"),
        (0, 0, "ff00000000000000000000000000000000"),
    ] {
        check_read(kid, ctr, &hex(header));
    }
}

/// Every form of both numbers reads as they are, and the shortest is written.
#[test]
fn every_form() {
    let numbers = [0, 5, 7, 8, 0xff, 0x100, 0x0123_4567, 1 << 40, u64::MAX];
    for kid in numbers {
        for ctr in numbers {
            let forms = forms(kid, ctr);
            assert!(forms.iter().all(|form| form.len() >= forms[0].len()));
            check(kid, ctr, &forms[0]);
            for form in &forms {
                check_read(kid, ctr, form);
            }
        }
    }
}

/// Both numbers at every edge between two lengths.
#[test]
fn edges_between_lengths() {
    let mut edges = vec![0, 1, 7, 8, 9, 127, 128, 200, u64::MAX];
    for bits in (8..64).step_by(8) {
        let edge = 1 << bits;
        edges.extend([edge - 1, edge, edge + 1, edge << 7, (edge << 7) - 1]);
    }
    for &kid in &edges {
        for &ctr in &edges {
            check(kid, ctr, &write_header(kid, ctr));
        }
    }
}

/// Every first byte, with every length of what follows, in several fillings.
/// What is refused is what has fewer bytes than the first one announces.
#[test]
fn every_first_byte() {
    let mut generator = Generator::new(0x6865_6164_6572_0001);
    let mut fillings: Vec<[u8; MAX_LENGTH]> = [0x00, 0x01, 0x07, 0x08, 0x7f, 0x80, 0xff]
        .map(|byte| [byte; MAX_LENGTH])
        .to_vec();
    fillings.push(std::array::from_fn(|i| i as u8));
    fillings.push(std::array::from_fn(|i| (i % 2) as u8));
    fillings.extend((0..16).map(|_| generator.array()));

    for first in 0..=u8::MAX {
        for filling in &fillings {
            let bytes = [&[first][..], filling].concat();
            for length in 1..=bytes.len() {
                let read = compare_read_header(&bytes[..length]);
                let announced = 1 + announced(first >> 4) + announced(first & 0b1111);
                let (number, header) = if length < announced {
                    (BAD_HEADER, 0)
                } else {
                    (DONE, announced)
                };
                assert_eq!((read.number, read.length), (number, header));
            }
        }
    }
}

/// How many bytes of a number follow a first byte with this half.
fn announced(half: u8) -> usize {
    match half {
        0..8 => 0,
        _ => usize::from(half - 7),
    }
}

/// Numbers of every width, written into rooms of every length.
#[test]
fn generated_numbers() {
    let mut generator = Generator::new(0x6865_6164_6572_0002);
    for _ in 0..200_000 {
        let (kid, ctr) = (generator.any_width(), generator.any_width());
        let room = generator.up_to(MAX_LENGTH + 3);
        compare_write_header(kid, ctr, room);
    }
}

/// Headers cut, followed by anything, damaged in a bit or a byte, written in
/// longer forms, and bytes of no plan at all.
#[test]
fn generated_headers() {
    let mut generator = Generator::new(0x6865_6164_6572_0003);
    let (mut done, mut refused) = (0, 0);
    for _ in 0..400_000 {
        let (kid, ctr) = (generator.any_width(), generator.any_width());
        let mut bytes = write_header(kid, ctr);
        let behind = generator.up_to(3);
        bytes.extend(generator.bytes(behind));
        let at = generator.up_to(bytes.len() - 1);
        match generator.up_to(8) {
            0 => (),
            1 | 7 | 8 => bytes.truncate(at),
            2 => bytes[at] ^= 1 << generator.up_to(7),
            3 => bytes[at] = 0,
            4 => bytes[0] = generator.u64() as u8,
            5 => bytes = long_form(&mut generator, kid, ctr),
            _ => generator.fill(&mut bytes),
        }
        match compare_read_header(&bytes).number {
            0 => done += 1,
            _ => refused += 1,
        }
    }
    println!("{done} read, {refused} refused");
    assert!(done > 100_000 && refused > 100_000);
}

/// A header with each number in any of the byte lengths that hold it.
fn long_form(generator: &mut Generator, kid: u64, ctr: u64) -> Vec<u8> {
    let mut header = vec![0];
    for number in [kid, ctr] {
        let unused = generator.up_to((number.leading_zeros() / 8).min(7) as usize);
        header[0] = header[0] << 4 | 0b1000 | (7 - unused) as u8;
        header.extend(&number.to_be_bytes()[unused..]);
    }
    header
}
