// SPDX-License-Identifier: MIT
//! The store and its calls: every refusal, the edges, and a list of calls.

use reference::record::{Record, State, MAX_COUNTER, RECORD};
use reference::refusal::{number_and_length, Answer, Refusal, Refusal::*};
use reference::store::*;
use reference::suites::{Suite, SUITES};
use testkit::{sframe_vectors, Generator};

const BASE_KEY: [u8; 16] = [7; 16];

fn made(records: usize) -> Vec<u8> {
    let mut store = vec![0xa5; records * RECORD];
    assert_eq!(make(&mut store), Ok(0));
    store
}

/// A made store of one sending key. One of suite 3, which is not added, stands
/// there as a record from before.
fn sender(suite: Suite, kid: u64, base_key: &[u8]) -> Vec<u8> {
    let mut store = made(1);
    match add(&mut store, Role::Sending, suite.number(), kid, base_key) {
        Err(SendingBarred) => {
            let record = Record::new(State::Sending, suite, kid, base_key);
            put(&mut store, record);
        }
        added => assert_eq!(added, Ok(0)),
    }
    store
}

/// A store of three records: KID 1 sending, KID 2 receiving, KID 3 retired.
fn filled(suite: Suite) -> Vec<u8> {
    let mut receiving = made(1);
    add(
        &mut receiving,
        Role::Receiving,
        suite.number(),
        2,
        &BASE_KEY,
    )
    .unwrap();
    let [first, third] = [1, 3].map(|kid| sender(suite, kid, &BASE_KEY));
    let mut store = [first, receiving, third].concat();
    remove(&mut store, 3).unwrap();
    store
}

/// The store of a terminal that receives KID 1 of `filled`.
fn receiver(suite: Suite) -> Vec<u8> {
    let mut store = made(1);
    add(&mut store, Role::Receiving, suite.number(), 1, &BASE_KEY).unwrap();
    store
}

/// Sets the next counter of the first record.
fn set_counter(store: &mut [u8], counter: u64) {
    store[12..20].copy_from_slice(&counter.to_be_bytes());
}

fn seal_to_vec(store: &mut [u8], kid: u64, metadata: &[u8], plaintext: &[u8]) -> Vec<u8> {
    let mut room = vec![0x5a; plaintext.len() + 64];
    let length = seal(store, kid, metadata, plaintext, &mut room).unwrap();
    assert!(room[length..].iter().all(|&byte| byte == 0x5a));
    room.truncate(length);
    room
}

/// The frame of KID 1, with this counter.
fn frame_of(suite: Suite, ctr: u64) -> Vec<u8> {
    let mut store = sender(suite, 1, &BASE_KEY);
    set_counter(&mut store, ctr);
    seal_to_vec(&mut store, 1, b"", b"picture")
}

/// Opens that frame; the store receives KID 1 in its first record.
fn open_counter(store: &mut [u8], ctr: u64) -> Answer {
    let suite = Suite::from_number(store[1].into()).unwrap();
    open(store, b"", &frame_of(suite, ctr), &mut [0; 7])
}

#[test]
fn make_takes_1_to_1024_records() {
    for length in (0..=7_000).chain(98_000..=98_500) {
        let mut store = vec![0xa5; length];
        let allowed = (96..=98_304).contains(&length) && length % 96 == 0;
        assert_eq!(make(&mut store).is_ok(), allowed);
        let left = if allowed { 0 } else { 0xa5 };
        assert!(store.iter().all(|&byte| byte == left));
    }
}

#[test]
fn published_frames() {
    for case in sframe_vectors() {
        let suite = Suite::from_number(case.number("cipher_suite")).unwrap();
        let (kid, ctr) = (case.number("kid"), case.number("ctr"));
        let (metadata, plaintext) = (case.bytes("metadata"), case.bytes("pt"));

        let mut sender = sender(suite, kid, &case.bytes("base_key"));
        set_counter(&mut sender, ctr);
        let frame = seal_to_vec(&mut sender, kid, &metadata, &plaintext);
        assert_eq!(frame, case.bytes("ct"));

        let mut receiver = made(1);
        add(
            &mut receiver,
            Role::Receiving,
            suite.number(),
            kid,
            &case.bytes("base_key"),
        )
        .unwrap();
        let mut room = vec![0; plaintext.len()];
        assert_eq!(
            open(&mut receiver, &metadata, &frame, &mut room),
            Ok(room.len())
        );
        assert_eq!(room, plaintext);
    }
}

#[test]
fn records_as_laid_out() {
    let store = filled(Suite::Aes128GcmSha256_128);
    let (key, salt) = Suite::Aes128GcmSha256_128.derive_key_salt(2, &BASE_KEY);
    let receiving = &store[RECORD..2 * RECORD];
    assert_eq!(receiving[..4], [2, 4, 0, 1]);
    assert_eq!(
        receiving[4..20],
        [0, 0, 0, 0, 0, 0, 0, 2, 0, 0, 0, 0, 0, 0, 0, 0]
    );
    assert_eq!(receiving[20..32], salt);
    assert_eq!(receiving[32..48], key);
    assert_eq!(receiving[48..], [0; 48]);

    let retired = &store[2 * RECORD..];
    assert_eq!(retired[..12], [3, 4, 0, 1, 0, 0, 0, 0, 0, 0, 0, 3]);
    assert_eq!(retired[12..], [0; 84]);

    // Counters 5, 300 and 299 opened; 5 lies too far below the others.
    let mut receiver = receiver(Suite::Aes128GcmSha256_128);
    for ctr in [5, 300, 299] {
        assert_eq!(open_counter(&mut receiver, ctr), Ok(7));
    }
    assert_eq!(receiver[80..88], [0, 0, 0, 0, 0, 0, 1, 44]);
    assert_eq!(receiver[88..], [0, 0, 0, 0, 0, 0, 0, 3]);
}

#[test]
fn every_unsound_record_is_refused() {
    let counter = |n: u64| n.to_be_bytes();
    let sending = filled(Suite::Aes128GcmSha256_128);
    let unsound = |at: usize, bytes: &[u8]| {
        let mut store = sending.clone();
        store[at..at + bytes.len()].copy_from_slice(bytes);
        remove(&mut store, 1) == Err(StoreNotSound)
    };
    let (first, second, third) = (0, RECORD, 2 * RECORD);
    assert!(unsound(first, &[0]) && unsound(first, &[4]) && unsound(first, &[0x81]));
    assert!(unsound(first + 1, &[0]) && unsound(first + 1, &[6]) && unsound(first + 1, &[0x84]));
    for record in [first, second, third] {
        assert!(unsound(record + 2, &[1]));
        for layout in (0..=u8::MAX).filter(|&layout| layout != 1) {
            assert!(unsound(record + 3, &[layout]));
        }
    }
    assert!(unsound(second + 4, &[0, 0, 0, 0, 0, 0, 0, 1]));
    assert!(unsound(third + 4, &[0, 0, 0, 0, 0, 0, 0, 1]));
    for counted in [1, 1 << 40, MAX_COUNTER - 1, MAX_COUNTER] {
        assert!(!unsound(first + 12, &counter(counted)) && !unsound(third + 12, &counter(counted)));
        assert!(unsound(second + 12, &counter(counted)));
    }
    // The byte of a spent counter: 1 behind the last one, and nowhere else.
    let both = |record: usize, spent: u8, counted: u64| {
        let mut bytes = sending[record + 2..record + 20].to_vec();
        bytes[0] = spent;
        bytes[10..].copy_from_slice(&counter(counted));
        unsound(record + 2, &bytes)
    };
    for record in [first, third] {
        assert!(!both(record, 1, MAX_COUNTER) && both(record, 1, MAX_COUNTER - 1));
        assert!(
            both(record, 1, 0) && both(record, 2, MAX_COUNTER) && both(record, 255, MAX_COUNTER)
        );
    }
    assert!(both(second, 1, MAX_COUNTER) && both(second, 1, 0));
    for key_end in [first + 48, first + 79, second + 48, second + 79] {
        assert!(unsound(key_end, &[1]));
    }
    for at in 20..80 {
        assert!(unsound(third + at, &[1]));
    }
    // Highest counter and mask: none unless receiving, and there as the rule says.
    for at in 80..96 {
        assert!(unsound(first + at, &[1]) && unsound(third + at, &[1]));
    }
    let window = |highest: u64, mask: u64| [highest.to_be_bytes(), mask.to_be_bytes()].concat();
    for (highest, mask) in [
        (0, 1),
        (2, 0b111),
        (2, 0b101),
        (63, u64::MAX),
        (u64::MAX, 1),
    ] {
        assert!(!unsound(second + 80, &window(highest, mask)));
        assert!(unsound(first + 80, &window(highest, mask)));
        assert!(unsound(third + 80, &window(highest, mask)));
    }
    for (highest, mask) in [(1, 0), (u64::MAX, 0), (2, 0b1001), (0, 3), (62, u64::MAX)] {
        assert!(unsound(second + 80, &window(highest, mask)));
    }
    for mask in [0b10, 0b110, u64::MAX - 1] {
        assert!(unsound(second + 80, &window(100, mask)));
    }
    // Any value is allowed where a salt or a key stands.
    assert!(!unsound(first + 20, &[0; 28]) && !unsound(second + 20, &[255; 28]));

    for at in 1..RECORD {
        let mut store = made(2);
        store[RECORD + at] = 1;
        assert_eq!(remove(&mut store, 0), Err(StoreNotSound), "byte {at}");
    }
}

#[test]
fn records_decode_to_what_was_encoded() {
    for suite in SUITES {
        for state in [State::Sending, State::Receiving] {
            let record = Record::new(state, suite, u64::MAX, &BASE_KEY);
            assert_eq!(Record::decode(&record.encode()), Ok(Some(record.clone())));
            if state == State::Receiving {
                let opened = record.clone().opening(1 << 40).opening((1 << 40) - 63);
                assert_eq!(Record::decode(&opened.encode()), Ok(Some(opened)));
            }
            let retired = record.retired();
            assert_eq!(Record::decode(&retired.encode()), Ok(Some(retired)));
        }
    }
}

/// `call` refuses with `refusal` and changes nothing in `store` or `room`.
#[track_caller]
fn refused(
    store: &[u8],
    refusal: Refusal,
    call: impl Fn(&mut [u8], &mut [u8]) -> Answer,
    room: usize,
) {
    let mut left = store.to_vec();
    let mut room = vec![0x5a; room];
    assert_eq!(call(&mut left, &mut room), Err(refusal));
    assert_eq!(left, store);
    assert!(room.iter().all(|&byte| byte == 0x5a));
}

#[test]
fn add_refuses_in_order() {
    let store = filled(SUITES[0]);
    let unsound = vec![0; 79];
    let call = |suite, kid, length: usize| {
        move |store: &mut [u8], _: &mut [u8]| {
            add(store, Role::Sending, suite, kid, &vec![9; length])
        }
    };
    refused(&unsound, StoreNotSound, call(0, 1, 0), 0);
    refused(&store, NoSuchSuite, call(0, 1, 0), 0);
    refused(&store, NoSuchSuite, call(6, 1, 0), 0);
    refused(&store, NoSuchSuite, call(1 << 32 | 1, 1, 0), 0);
    refused(&unsound, StoreNotSound, call(3, 1, 0), 0);
    for (kid, length) in [(1, 15), (1, 65), (1, 16), (4, 16)] {
        refused(&store, SendingBarred, call(3, kid, length), 0);
    }
    refused(&store, BaseKeyLength, call(1, 1, 15), 0);
    refused(&store, BaseKeyLength, call(1, 1, 65), 0);
    for kid in 1..=3 {
        refused(&store, KidHeld, call(1, kid, 16), 0);
    }
    refused(&store, StoreFull, call(1, 4, 64), 0);
}

#[test]
fn a_1024th_key_fits_and_a_1025th_does_not() {
    let mut store = made(1_024);
    for kid in 0..1_024 {
        assert_eq!(add(&mut store, Role::Receiving, 1, kid, &BASE_KEY), Ok(0));
    }
    refused(
        &store,
        StoreFull,
        |s, _| add(s, Role::Sending, 1, 1_024, &BASE_KEY),
        0,
    );
}

/// The KID of each record, `None` where it is empty.
fn kids(store: &[u8]) -> Vec<Option<u64>> {
    store
        .chunks_exact(RECORD)
        .map(|bytes| Record::decode(bytes).unwrap().map(|record| record.kid))
        .collect()
}

/// In whatever order keys are added, they stand by rising KID.
#[test]
fn keys_stand_in_rising_order() {
    let mut orders = vec![vec![0, 3, 7, u64::MAX]];
    orders.extend([vec![u64::MAX, 7, 3, 0], vec![7, 0, u64::MAX, 3]]);
    let mut stores = vec![];
    for order in orders {
        let mut store = made(6);
        for kid in order {
            let role = [Role::Sending, Role::Receiving][(kid % 2) as usize];
            assert_eq!(add(&mut store, role, 1 + kid % 2, kid, &BASE_KEY), Ok(0));
        }
        let [low, high] = [Some(0), Some(u64::MAX)];
        assert_eq!(kids(&store), [low, Some(3), Some(7), high, None, None]);
        stores.push(store);
    }
    assert!(stores.iter().all(|store| store == &stores[0]));

    let mut store = stores.remove(0);
    for (place, kid) in [0, 3, 7, u64::MAX].into_iter().enumerate() {
        assert_eq!(find(&store, kid), Ok(place));
    }
    assert_eq!(find(&store, 1), Err(KidUnknown));
    assert_eq!(find(&store[1..], 0), Err(StoreNotSound));
    // A receiving key's record goes, and those behind it move up.
    let behind = store[3 * RECORD..].to_vec();
    assert_eq!(remove(&mut store, 7), Ok(0));
    assert_eq!(store[2 * RECORD..5 * RECORD], behind);
    assert_eq!(store[5 * RECORD..], [0; RECORD]);
    assert_eq!(remove(&mut store, 0), Ok(0));
    assert_eq!((find(&store, 0), store[0]), (Ok(0), State::Retired as u8));
}

#[test]
fn stores_out_of_order_are_refused() {
    let one = |kid| Record::new(State::Receiving, SUITES[0], kid, &BASE_KEY).encode();
    let empty = [0; RECORD];
    let sound = |records: &[[u8; RECORD]]| {
        let answer = find(&records.concat(), 5);
        assert!(matches!(answer, Ok(_) | Err(KidUnknown | StoreNotSound)));
        answer != Err(StoreNotSound)
    };
    assert!(sound(&[one(0), one(1), one(u64::MAX)]));
    assert!(sound(&[one(0), empty, empty]) && sound(&[empty, empty]));
    assert!(!sound(&[one(1), one(0)]) && !sound(&[one(1), one(1)]));
    assert!(!sound(&[empty, one(0)]) && !sound(&[one(0), empty, one(1)]));
    assert!(!sound(&[one(u64::MAX), one(0)]) && !sound(&[one(1), one(3), one(2)]));
    assert!(!sound(&[one(2), one(3), one(1)]) && sound(&[one(2), one(3), one(5)]));
}

#[test]
fn base_keys_of_16_to_64_bytes() {
    for length in 0..=80 {
        let answer = add(&mut made(1), Role::Sending, 5, 0, &vec![1; length]);
        assert_eq!(answer.is_ok(), (16..=64).contains(&length));
    }
}

/// What the room holds besides the frame stays. The room is short where it ends
/// within the frame, and where the offset lies beyond its end.
#[test]
fn frames_at_an_offset() {
    let store = filled(SUITES[0]);
    let frame = seal_to_vec(&mut store.clone(), 1, b"", b"picture");
    let end = |offset: usize| offset + frame.len();
    for offset in [0, 1, 17] {
        let before: Vec<u8> = (0..end(offset) as u8 + 3).collect();
        let mut room = before.clone();
        let answer = seal_at(&mut store.clone(), 1, b"", b"picture", &mut room, offset);
        assert_eq!(answer, Ok(frame.len()));
        let expected = [&before[..offset], &frame, &before[end(offset)..]].concat();
        assert_eq!(room, expected);
    }
    for (offset, room) in [
        (0, end(0) - 1),
        (1, end(1) - 1),
        (17, end(17) - 1),
        (5, 5),
        (6, 5),
    ] {
        let call = |s: &mut [u8], room: &mut [u8]| seal_at(s, 1, b"", b"picture", room, offset);
        refused(&store, RoomShort, call, room);
    }
    let last = |s: &mut [u8], room: &mut [u8]| seal_at(s, 1, b"", b"", room, usize::MAX);
    refused(&store, RoomShort, last, 100);
}

#[test]
fn one_suite_is_for_receiving_alone() {
    for suite in SUITES {
        let barred = suite.nt() == 4;
        for (role, number) in [(Role::Sending, 17), (Role::Receiving, 0)] {
            let answer = add(&mut made(1), role, suite.number(), 1, &BASE_KEY);
            let expected = if barred { number } else { 0 };
            assert_eq!(number_and_length(answer), (expected, 0));
        }
    }
}

#[test]
fn remove_refuses_in_order() {
    let store = filled(SUITES[1]);
    refused(&store[..100], StoreNotSound, |s, _| remove(s, 9), 0);
    refused(&store, KidUnknown, |s, _| remove(s, 9), 0);
    refused(&store, WrongRole, |s, _| remove(s, 3), 0);
}

#[test]
fn a_kid_once_sending_never_returns_and_a_received_one_may() {
    let mut store = filled(SUITES[2]);
    assert_eq!(remove(&mut store, 1), Ok(0));
    assert_eq!(remove(&mut store, 2), Ok(0));
    assert_eq!(kids(&store), [Some(1), Some(3), None]);
    for kid in [1, 3] {
        refused(
            &store,
            KidHeld,
            |s, _| add(s, Role::Sending, 1, kid, &BASE_KEY),
            0,
        );
        refused(
            &store,
            KidHeld,
            |s, _| add(s, Role::Receiving, 1, kid, &BASE_KEY),
            0,
        );
    }
    // The room of KID 2 is the only one left.
    assert_eq!(add(&mut store, Role::Sending, 1, 2, &BASE_KEY), Ok(0));
    assert_eq!(kids(&store), [Some(1), Some(2), Some(3)]);
    assert_eq!(store[RECORD..][..2], [1, 1]);
    refused(
        &store,
        StoreFull,
        |s, _| add(s, Role::Receiving, 1, 4, &BASE_KEY),
        0,
    );
}

#[test]
fn seal_refuses_in_order() {
    let mut store = filled(SUITES[0]);
    let long = vec![0; MAX_PLAINTEXT + 1];
    let call = |kid, metadata: usize, plaintext: usize| {
        let long = &long;
        move |store: &mut [u8], room: &mut [u8]| {
            seal(store, kid, &long[..metadata], &long[..plaintext], room)
        }
    };
    refused(&store[1..], StoreNotSound, call(9, 0, 32_769), 0);
    refused(&store, KidUnknown, call(9, 0, 32_769), 0);
    refused(&store, WrongRole, call(2, 0, 32_769), 0);
    refused(&store, WrongRole, call(3, 0, 32_769), 0);
    refused(&store, TooLong, call(1, 0, 32_769), 0);
    refused(&store, TooLong, call(1, 1_025, 0), 0);
    refused(&store, RoomShort, call(1, 1_024, 0), 10);
    refused(&store, RoomShort, call(1, 1_024, 32_768), 32_768 + 10);
    set_counter(&mut store, MAX_COUNTER);
    store[2] = 1;
    refused(&store, CounterSpent, call(1, 0, 32_769), 0);
}

#[test]
fn lengths_of_empty_frames() {
    for (suite, length) in SUITES.into_iter().zip([11, 9, 5, 17, 17]) {
        let frame = seal_to_vec(&mut filled(suite), 1, b"", b"");
        assert_eq!(frame.len(), length);
        assert_eq!(frame[0], 0x10);
    }
}

#[test]
fn the_last_counter_seals_and_then_no_more() {
    for suite in SUITES {
        let mut store = filled(suite);
        set_counter(&mut store, MAX_COUNTER - 1);
        let frame = seal_to_vec(&mut store, 1, b"", b"last but one");
        assert_eq!(frame[..9], [0x1f, 255, 255, 255, 255, 255, 255, 255, 254]);
        assert_eq!(store[2], 0);
        let frame = seal_to_vec(&mut store, 1, b"", b"last");
        assert_eq!(frame[..9], [0x1f, 255, 255, 255, 255, 255, 255, 255, 255]);
        assert_eq!(store[2], 1);
        assert_eq!(store[12..20], [255; 8]);
        refused(
            &store,
            CounterSpent,
            |s, room| seal(s, 1, b"", b"", room),
            64,
        );
        assert_eq!(open(&mut receiver(suite), b"", &frame, &mut [0; 4]), Ok(4));
    }
}

#[test]
fn the_longest_frame_seals_and_opens() {
    let mut generator = Generator::new(0x0073_746f_7265_0001);
    let plaintext = generator.bytes(MAX_PLAINTEXT);
    let metadata = generator.bytes(MAX_METADATA);
    for suite in SUITES {
        let frame = seal_to_vec(&mut filled(suite), 1, &metadata, &plaintext);
        let mut room = vec![0x5a; MAX_PLAINTEXT + 1];
        let answer = open(&mut receiver(suite), &metadata, &frame, &mut room);
        assert_eq!(answer, Ok(MAX_PLAINTEXT));
        assert_eq!(room[..MAX_PLAINTEXT], plaintext);
        assert_eq!(room[MAX_PLAINTEXT], 0x5a);
    }
}

#[test]
fn open_refuses_in_order() {
    let suite = SUITES[0];
    let store = filled(suite);
    let receiver = receiver(suite);
    let long = vec![0; 2 * MAX_PLAINTEXT];
    let call = |frame: Vec<u8>, metadata: usize| {
        let long = &long;
        move |store: &mut [u8], room: &mut [u8]| open(store, &long[..metadata], &frame, room)
    };
    let frame = seal_to_vec(&mut store.clone(), 1, b"", b"plaintext");
    // KID 1, CTR 0, then as many zeros as a plaintext one byte too long.
    let too_long = [&[0x10][..], &long[..MAX_PLAINTEXT + 1 + suite.nt()]].concat();

    refused(&store[..0], StoreNotSound, call(vec![], 1_025), 0);
    refused(&store, BadHeader, call(vec![], 1_025), 0);
    refused(&store, BadHeader, call(vec![0x09, 0x05], 1_025), 0);
    refused(&store, KidUnknown, call(vec![0x40], 1_025), 0);
    refused(&store, WrongRole, call(vec![0x10], 1_025), 0);
    refused(&store, WrongRole, call(vec![0x30], 1_025), 0);
    refused(&receiver, NoTag, call(frame[..10].to_vec(), 1_025), 0);
    refused(&receiver, TooLong, call(too_long.clone(), 0), 0);
    refused(&receiver, TooLong, call(frame.clone(), 1_025), 0);
    let longest = too_long[..too_long.len() - 1].to_vec();
    refused(&receiver, RoomShort, call(longest, 0), MAX_PLAINTEXT - 1);
    refused(&receiver, RoomShort, call(frame.clone(), 1_024), 8);
    refused(&receiver, TagDiffers, call(frame.clone(), 1_024), 9);

    // The window comes behind the room and before the tag.
    for (highest, refusal) in [(0, AlreadyOpened), (64, TooOld)] {
        let mut store = receiver.clone();
        assert_eq!(open_counter(&mut store, highest), Ok(7));
        refused(&store, NoTag, call(frame[..10].to_vec(), 0), 9);
        refused(&store, TooLong, call(frame.clone(), 1_025), 9);
        refused(&store, RoomShort, call(frame.clone(), 1_024), 8);
        refused(&store, refusal, call(frame.clone(), 1_024), 9);
        refused(&store, refusal, call(frame.clone(), 0), 9);
    }
}

#[test]
fn report_refuses_in_order() {
    let store = filled(SUITES[0]);
    assert_eq!(report(&store[1..], 9), Err(StoreNotSound));
    assert_eq!(report(&store, 9), Err(KidUnknown));
    assert_eq!(report(&store, 1), Err(WrongRole));
    assert_eq!(report(&store, 3), Err(WrongRole));
    assert_eq!(report(&store, 2), Ok(0));
}

#[test]
fn change_epoch_refuses_in_order() {
    let store = filled(SUITES[0]);
    let call = |width, bits| move |store: &mut [u8], _: &mut [u8]| change_epoch(store, width, bits);
    refused(&store[1..], StoreNotSound, call(65, u64::MAX), 0);
    for width in [65, u64::MAX] {
        refused(&store, GroupKidTooLong, call(width, 0), 0);
        refused(&store, GroupKidTooLong, call(width, u64::MAX), 0);
    }
    for (width, bits) in [(0, 1), (1, 2), (4, 16), (63, 1 << 63)] {
        refused(&store, GroupPartTooLarge, call(width, bits), 0);
    }
}

/// Receiving keys of the epoch go; sending and retired records of the same bits,
/// and receiving ones of others, stay as they are and close up.
#[test]
fn a_change_of_epoch() {
    let suite = SUITES[3];
    let mut store = made(8);
    let receive = |store: &mut [u8], kid| {
        add(store, Role::Receiving, suite.number(), kid, &BASE_KEY).unwrap();
    };
    for kid in [0x0e, 0x3e, 0x3f, 0x14e, 0x21e] {
        receive(&mut store, kid);
    }
    for kid in [0x7e, 0x8e] {
        add(&mut store, Role::Sending, suite.number(), kid, &BASE_KEY).unwrap();
    }
    seal_to_vec(&mut store, 0x7e, b"", b"picture");
    remove(&mut store, 0x8e).unwrap();
    let at = |store: &[u8], kid| store[find(store, kid).unwrap() * RECORD..][..RECORD].to_vec();
    let before = store.clone();
    let left = |store: &[u8], kids: &[u64]| {
        let mut expected: Vec<u8> = kids.iter().flat_map(|&kid| at(&before, kid)).collect();
        expected.resize(8 * RECORD, 0);
        assert!(*store == expected);
    };

    // There are none of this epoch.
    assert_eq!(change_epoch(&mut store, 4, 3), Ok(0));
    assert_eq!(store, before);
    assert_eq!(change_epoch(&mut store, 4, 0xe), Ok(0));
    left(&store, &[0x3f, 0x7e, 0x8e]);
    // The epoch comes round again: the numbers are free, but for the sender's.
    receive(&mut store, 0x3e);
    for kid in [0x7e, 0x8e] {
        let again = add(&mut store, Role::Receiving, suite.number(), kid, &BASE_KEY);
        assert_eq!(again, Err(KidHeld));
    }

    // All 64 bits name one KID, and none name every one.
    for (width, bits, kids) in [
        (64, 0x3e, &[0x0e, 0x3f, 0x7e, 0x8e, 0x14e, 0x21e][..]),
        (64, 0x7e, &[0x0e, 0x3e, 0x3f, 0x7e, 0x8e, 0x14e, 0x21e]),
        (0, 0, &[0x7e, 0x8e]),
    ] {
        let mut store = before.clone();
        assert_eq!(change_epoch(&mut store, width, bits), Ok(0));
        left(&store, kids);
    }
}

/// Each frame at most once; a frame whose tag differs moves nothing.
#[test]
fn no_frame_is_opened_twice() {
    for suite in SUITES {
        let mut store = receiver(suite);
        for (count, ctr) in (1..).zip([0, 2, 1, 63, 64]) {
            let damaged = |store: &mut [u8], room: &mut [u8]| {
                let mut frame = frame_of(suite, ctr);
                *frame.last_mut().unwrap() ^= 1;
                open(store, b"", &frame, room)
            };
            refused(&store, TagDiffers, damaged, 7);
            assert_eq!(open_counter(&mut store, ctr), Ok(7));
            let counted = if ctr < 64 { count } else { count - 1 };
            assert_eq!(report(&store, 1), Ok(counted));
            refused(&store, AlreadyOpened, damaged, 7);
        }
        // 0 has left the window, and 1 is its last.
        let again = |ctr| move |store: &mut [u8], _: &mut [u8]| open_counter(store, ctr);
        refused(&store, TooOld, again(0), 7);
        refused(&store, AlreadyOpened, again(1), 7);

        // Added again, the key starts with an empty window.
        assert_eq!(remove(&mut store, 1), Ok(0));
        let added = add(&mut store, Role::Receiving, suite.number(), 1, &BASE_KEY);
        assert_eq!((added, report(&store, 1)), (Ok(0), Ok(0)));
        assert_eq!(open_counter(&mut store, 0), Ok(7));
    }
}

#[test]
fn damaged_and_cut_frames_show_nothing() {
    for suite in SUITES {
        let receiver = receiver(suite);
        let mut store = filled(suite);
        set_counter(&mut store, 300);
        let frame = seal_to_vec(&mut store, 1, b"metadata", b"plaintext");
        let opens = |frame: &[u8]| {
            let mut room = [0x5a; 64];
            let answer = open(&mut receiver.clone(), b"metadata", frame, &mut room);
            assert!(answer.is_ok() || room == [0x5a; 64]);
            answer.is_ok()
        };
        assert!(opens(&frame));
        for bit in 0..8 * frame.len() {
            let mut damaged = frame.clone();
            damaged[bit / 8] ^= 1 << (bit % 8);
            assert!(!opens(&damaged));
        }
        for length in 0..frame.len() {
            assert!(!opens(&frame[..length]));
        }
    }
}

/// Random calls against a plain model of what the store holds: every frame
/// that is sealed has a counter of its own and opens at the other end.
#[test]
fn a_long_list_of_calls() {
    let mut generator = Generator::new(0x0073_746f_7265_0002);
    let mut store = made(8);
    let mut counters = std::collections::HashMap::new();
    let mut sealed = 0;
    for _ in 0..20_000 {
        let kid = generator.up_to(19) as u64;
        let suite = SUITES[kid as usize % 5];
        match generator.up_to(9) {
            0 => {
                let role = *generator.pick(&[Role::Sending, Role::Receiving]);
                let _ = add(&mut store, role, suite.number(), kid, &BASE_KEY);
            }
            1 if generator.one_in(40) => {
                let _ = remove(&mut store, kid);
            }
            _ => {
                let length = generator.up_to(40);
                let plaintext = generator.bytes(length);
                let mut room = vec![0; 128];
                let Ok(length) = seal(&mut store, kid, b"m", &plaintext, &mut room) else {
                    continue;
                };
                sealed += 1;
                let (_, ctr, _) = reference::header::read_header(&room).unwrap();
                let next = counters.entry(kid).or_insert(0);
                assert_eq!(ctr, *next);
                *next += 1;

                let mut other = made(1);
                add(&mut other, Role::Receiving, suite.number(), kid, &BASE_KEY).unwrap();
                let mut opened = vec![0; plaintext.len()];
                let answer = open(&mut other, b"m", &room[..length], &mut opened);
                assert_eq!(answer, Ok(plaintext.len()));
                assert_eq!(opened, plaintext);
            }
        }
    }
    assert!(sealed > 1_000, "{sealed} sealed");
}
