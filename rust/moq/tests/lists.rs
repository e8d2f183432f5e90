// SPDX-License-Identifier: MIT
//! Long lists of calls from fixed seeds between a publisher and a subscriber,
//! each call beside the reference.

mod beside;

use beside::{add, make, open, remove, seal};
use moq::raw::At;
use moq::RECORD;
use reference::store::Role::{Receiving, Sending};
use std::collections::HashSet;
use testkit::Generator;

const NAMES: [&[u8]; 3] = [b"", b"\x01\x04room\x05video", b"\x01\x04room\x05audio"];

#[test]
fn publisher_and_subscriber() {
    let mut generator = Generator::new(0x6d6f_7100_0000_0002);
    let (mut sealed_in_all, mut opened_in_all, mut numbers) = (0, 0, HashSet::new());
    for round in 0..60 {
        let records = 1 + round % 6;
        let (mut publisher, mut subscriber) =
            (vec![1; records * RECORD], vec![1; records * RECORD]);
        assert_eq!((make(&mut publisher), make(&mut subscriber)), (0, 0));
        let mut objects = Vec::new();
        let mut pairs = HashSet::new();
        for step in 0..400 {
            let name = *generator.pick(&NAMES);
            let key_id = generator.up_to(1) as u64;
            let suite = 1 + generator.up_to(4) as u64;
            let base_key = [suite as u8; 32];
            let group = (step / 4 + generator.up_to(3)) as u64;
            let object = generator.up_to(3) as u64 + u64::from(generator.one_in(9)) * 0xffff_fffe;
            let at = At {
                name,
                key_id,
                group,
                object,
            };
            let length = generator.up_to(40);
            let plaintext = generator.bytes(length);
            let number = match generator.up_to(9) {
                0 => {
                    let number = add(&mut publisher, Sending, name, key_id, suite, &base_key);
                    add(&mut subscriber, Receiving, name, key_id, suite, &base_key);
                    number
                }
                1 if generator.one_in(8) => remove(&mut publisher, name, key_id),
                1 if generator.one_in(8) => remove(&mut subscriber, name, key_id),
                2..=6 => {
                    let room = 30 + generator.up_to(30);
                    let (answer, bytes) =
                        seal(&mut publisher, at, &[key_id as u8], &plaintext, room);
                    if answer.0 == 0 {
                        assert!(pairs.insert((name, key_id, group, object)), "a pair twice");
                        objects.push((at, plaintext, bytes));
                        sealed_in_all += 1;
                    }
                    answer.0
                }
                _ if objects.is_empty() => 0,
                _ => {
                    let (at, plaintext, bytes) = &objects[generator.up_to(objects.len() - 1)];
                    let ((number, _), opened) =
                        open(&subscriber, *at, &[at.key_id as u8], bytes, 40);
                    if number == 0 {
                        assert_eq!(&opened, plaintext);
                        opened_in_all += 1;
                    }
                    number
                }
            };
            numbers.insert(number);
        }
    }
    assert!(
        sealed_in_all > 1_000 && opened_in_all > 1_000,
        "{sealed_in_all} {opened_in_all}"
    );
    for number in [0, 4, 6, 7, 12, 17, 24, 25] {
        assert!(numbers.contains(&number), "{number} never came up");
    }
}
