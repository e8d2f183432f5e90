// SPDX-License-Identifier: MIT
//! The header on its published vectors and at its edges.

use reference::header::{read_header, write_header, MAX_LENGTH};
use testkit::{header_vectors, hex, Generator};

#[test]
fn published_vectors() {
    for case in header_vectors() {
        assert_eq!(write_header(case.kid, case.ctr), case.header);
        let read = read_header(&case.header);
        assert_eq!(read, Some((case.kid, case.ctr, case.header.len())));
    }
}

#[test]
fn numbers_at_the_edges() {
    for (kid, ctr, header) in [
        (7, 7, "77"),
        (8, 7, "8708"),
        (8, 0, "8008"),
        (0, 8, "0808"),
        (200, 0, "80c8"),
    ] {
        assert_eq!(write_header(kid, ctr), hex(header));
        assert_eq!(
            read_header(&hex(header)),
            Some((kid, ctr, header.len() / 2))
        );
    }
}

#[test]
fn cut_short_is_refused() {
    for bytes in [
        "",
        "08",
        "80",
        "8808",
        "9001",
        "9000",
        "8f0800",
        "8900ff",
        "f000000000000000",
    ] {
        assert_eq!(read_header(&hex(bytes)), None, "{bytes}");
    }
}

#[test]
fn longer_forms_are_read() {
    for (kid, ctr, header) in [
        (0, 5, "0805"),
        (7, 0, "8007"),
        (255, 0, "9000ff"),
        (0, 255, "0900ff"),
        (1, 0, "1f0000000000000000"),
        (0, 0, "ff00000000000000000000000000000000"),
    ] {
        let length = header.len() / 2;
        assert_eq!(read_header(&hex(header)), Some((kid, ctr, length)));
        assert_eq!(read_header(&hex(header)[..length - 1]), None, "{header}");
    }
}

#[test]
fn what_is_written_reads_back_whatever_follows() {
    let mut generator = Generator::new(0x0068_6561_6465_7231);
    for _ in 0..20_000 {
        let (kid, ctr) = (generator.any_width(), generator.any_width());
        let mut bytes = write_header(kid, ctr);
        let length = bytes.len();
        assert!((1..=MAX_LENGTH).contains(&length));
        for cut in 0..length {
            assert_eq!(read_header(&bytes[..cut]), None);
        }
        let rest = generator.up_to(20);
        bytes.extend(generator.bytes(rest));
        assert_eq!(read_header(&bytes), Some((kid, ctr, length)));
    }
}
