// SPDX-License-Identifier: MIT
//! Writing and reading headers.

use bench::{measure, print_heading, print_time};
use std::hint::black_box;

/// The reference writes a header into a new vector each time.
pub fn run() {
    print_heading("headers, by length in bytes");
    for (kid, ctr) in [(1, 0), (200, 0x0123_4567), (u64::MAX, u64::MAX)] {
        let mut out = [0; sframe::MAX_HEADER];
        let written = measure(
            || {
                black_box(sframe::raw::write_header(
                    black_box(kid),
                    black_box(ctr),
                    black_box(&mut out),
                ));
            },
            || {
                black_box(reference::header::write_header(
                    black_box(kid),
                    black_box(ctr),
                ));
            },
        );
        let header = reference::header::write_header(kid, ctr);
        let read = measure(
            || {
                black_box(sframe::raw::read_header(black_box(&header)));
            },
            || {
                black_box(reference::header::read_header(black_box(&header)));
            },
        );
        print_time(&format!("write, header of {}", header.len()), written);
        print_time(&format!("read, header of {}", header.len()), read);
    }
}
