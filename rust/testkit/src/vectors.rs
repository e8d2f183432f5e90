// SPDX-License-Identifier: MIT
//! The published vectors of SFrame: headers from the table that the layer's own
//! program runs, key numbers of a group from a figure, the others from the tables in
//! `reference/data`.

use crate::{hex, number};
use std::collections::HashMap;

/// One header case: its two numbers and its bytes.
pub struct HeaderVector {
    /// The key number.
    pub kid: u64,
    /// The counter.
    pub ctr: u64,
    /// The header that carries both.
    pub header: Vec<u8>,
}

/// The 289 header cases of appendix D.1.
pub fn header_vectors() -> Vec<HeaderVector> {
    let table = include_str!("../../../crates/header_vectors/stdin");
    let cases: Vec<HeaderVector> = lines(table)
        .filter_map(|line| line.strip_prefix("v "))
        .map(|line| {
            let mut fields = line.split(' ');
            let mut next = || fields.next().expect("three fields");
            HeaderVector {
                kid: number(next()),
                ctr: number(next()),
                header: hex(next()),
            }
        })
        .collect();
    assert_eq!(cases.len(), 289);
    cases
}

/// The key number of one member of a group.
pub struct GroupVector {
    /// The epoch.
    pub epoch: u64,
    /// The member's index.
    pub index: u64,
    /// The context.
    pub context: u64,
    /// The key number.
    pub kid: u64,
}

/// The figure of RFC 9605 section 5.2, in which S is 6 and E is 4: epoch, index,
/// context and key number.
const GROUP_FIGURE: [[u64; 4]; 9] = [
    [14, 3, 0, 0x3e],
    [14, 7, 0, 0x7e],
    [14, 20, 0, 0x14e],
    [15, 3, 0, 0x3f],
    [15, 5, 0, 0x5f],
    [16, 2, 2, 0x820],
    [16, 2, 3, 0xc20],
    [17, 33, 0, 0x211],
    [17, 51, 0, 0x331],
];

/// The nine key numbers of that figure.
pub fn group_vectors() -> [GroupVector; 9] {
    GROUP_FIGURE.map(|[epoch, index, context, kid]| GroupVector {
        epoch,
        index,
        context,
        kid,
    })
}

/// One case of named values.
pub struct Case(HashMap<&'static str, &'static str>);

impl Case {
    /// The bytes of the value called `name`.
    pub fn bytes(&self, name: &str) -> Vec<u8> {
        hex(self.0[name])
    }

    /// The number called `name`.
    pub fn number(&self, name: &str) -> u64 {
        number(self.0[name])
    }
}

/// The three AEAD cases of appendix D.2.
pub fn aead_vectors() -> Vec<Case> {
    cases(include_str!("../../reference/data/aead_vectors.txt"), 3)
}

/// The five SFrame cases of appendix D.3.
pub fn sframe_vectors() -> Vec<Case> {
    cases(include_str!("../../reference/data/sframe_vectors.txt"), 5)
}

/// The cases of a table whose cases stand apart by empty lines.
fn cases(table: &'static str, count: usize) -> Vec<Case> {
    let mut cases = Vec::new();
    for line in lines(table) {
        match line.split_once(' ') {
            None => cases.push(Case(HashMap::new())),
            Some((name, value)) => {
                let case = cases.last_mut().expect("a case begins");
                case.0.insert(name, value);
            }
        }
    }
    assert_eq!(cases.len(), count);
    cases
}

/// The lines of a table that are no comment.
fn lines(table: &'static str) -> impl Iterator<Item = &'static str> {
    table.lines().filter(|line| !line.starts_with('#'))
}
