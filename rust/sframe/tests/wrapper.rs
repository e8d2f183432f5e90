// SPDX-License-Identifier: MIT
//! The typed calls, beside the raw ones that they stand on.

use reference::record::{Record, State as ReferenceState};
use reference::suites::Suite as ReferenceSuite;
use sframe::{
    frame_room, group_kid, group_parts, raw, Ctr, EpochBits, FrameReader, GroupParts, GroupWidths,
    Kid, Metadata, OwnedStore, Place, Refusal, Role, State, Store, StoreView, Suite, Window,
    MAX_COUNTER, MAX_METADATA, MAX_PLAINTEXT, MAX_RECORDS, RECORD,
};
use testkit::group_vectors;

const KID: Kid = Kid(200);
const BASE_KEY: [u8; 16] = [7; 16];

/// A store that sends under [`KID`], and one that receives it. A sender of suite
/// 3, which no adding gives, is the record of an older store.
fn stores(suite: Suite) -> ([u8; 2 * RECORD], [u8; 2 * RECORD]) {
    let (mut ward, mut doctor) = ([0; 2 * RECORD], [0; 2 * RECORD]);
    for (bytes, role) in [(&mut ward, Role::Sending), (&mut doctor, Role::Receiving)] {
        let mut store = Store::make(bytes).unwrap();
        match store.add(role, KID, suite, &BASE_KEY) {
            Err(Refusal::SendingBarred) => put_sender(bytes, suite),
            added => added.unwrap(),
        }
    }
    (ward, doctor)
}

fn put_sender(bytes: &mut [u8], suite: Suite) {
    let suite = ReferenceSuite::from_number(suite.number()).unwrap();
    let record = Record::new(ReferenceState::Sending, suite, KID.0, &BASE_KEY);
    reference::store::put(bytes, record);
}

#[test]
fn numbers_and_names_of_refusals() {
    let numbers = (1..=17).chain(20..=23);
    assert_eq!(numbers.clone().count(), Refusal::ALL.len());
    for (number, refusal) in numbers.zip(Refusal::ALL) {
        assert_eq!(refusal.number(), number);
        assert_eq!(Refusal::from_number(number), Some(refusal));
        let same = |other: &&Refusal| other.to_string() == refusal.to_string();
        assert_eq!(Refusal::ALL.iter().filter(same).count(), 1);
    }
    for number in [0, 18, 19, 24, 256 + 1, u32::MAX] {
        assert_eq!(Refusal::from_number(number), None);
    }
}

#[test]
fn numbers_of_suites() {
    for (number, suite) in (1..).zip(Suite::ALL) {
        assert_eq!(suite.number(), number);
        assert_eq!(Suite::from_number(number), Some(suite));
        assert_eq!(Suite::try_from(number), Ok(suite));
    }
    for number in [0, 6, 256 + 1, u64::MAX] {
        assert_eq!(Suite::from_number(number), None);
        assert_eq!(Suite::try_from(number), Err(Refusal::NoSuchSuite));
    }
}

/// The forms that answer a vector give what the others write.
#[test]
fn both_forms_agree() {
    let longest = vec![0x5a; MAX_PLAINTEXT];
    for suite in Suite::ALL {
        let (mut ward, mut doctor) = stores(suite);
        let (mut copy, mut doctors_copy) = (ward, doctor);
        for plaintext in [&b""[..], b"a picture", &longest] {
            for metadata in [Metadata::NONE, Metadata(b"ward 3")] {
                let mut room = vec![0; frame_room(suite, plaintext.len())];
                let mut store = Store::over(&mut ward);
                let length = store.seal(KID, metadata, plaintext, &mut room).unwrap();
                let frame = Store::over(&mut copy)
                    .seal_to_vec(KID, metadata, plaintext)
                    .unwrap();
                assert_eq!(frame, room[..length]);

                // Each frame opens once in each store.
                let mut store = Store::over(&mut doctors_copy);
                assert_eq!(store.open_to_vec(&frame, metadata).unwrap(), plaintext);
                let mut store = Store::over(&mut doctor);
                let mut room = vec![0; plaintext.len()];
                assert_eq!(store.open(&frame, metadata, &mut room), Ok(plaintext.len()));
                assert_eq!(room, plaintext);
                let again = store.open_to_vec(&frame, metadata);
                assert_eq!(again, Err(Refusal::AlreadyOpened));
                let again = store.open(&frame, metadata, &mut room);
                assert_eq!(again, Err(Refusal::AlreadyOpened));
            }
        }
        assert_eq!((ward, doctor), (copy, doctors_copy));
    }
}

/// However long a plaintext or a frame is, the vector forms refuse it as too
/// long and not for want of room.
#[test]
fn vector_forms_refuse_what_is_too_long() {
    let long = vec![0x80; 10 * MAX_PLAINTEXT];
    for suite in Suite::ALL {
        let (mut ward, mut doctor) = stores(suite);
        let mut store = Store::over(&mut ward);
        for length in [MAX_PLAINTEXT + 1, 9 * MAX_PLAINTEXT] {
            let answer = store.seal_to_vec(KID, Metadata::NONE, &long[..length]);
            assert_eq!(answer, Err(Refusal::TooLong));
            let frame = [&[0x80, 200], &long[..length + suite.nt()]].concat();
            let answer = Store::over(&mut doctor).open_to_vec(&frame, Metadata::NONE);
            assert_eq!(answer, Err(Refusal::TooLong));
        }
        let metadata = Metadata(&long[..MAX_METADATA + 1]);
        assert_eq!(store.seal_to_vec(KID, metadata, b""), Err(Refusal::TooLong));
    }
}

#[test]
fn records_of_every_state() {
    let mut bytes = [0; 4 * RECORD];
    let mut store = Store::make(&mut bytes).unwrap();
    assert_eq!(store.records(), Ok(vec![]));
    store
        .add(Role::Receiving, Kid(1), Suite::ALL[0], &BASE_KEY)
        .unwrap();
    store
        .add(Role::Sending, Kid(u64::MAX), Suite::ALL[1], &BASE_KEY)
        .unwrap();
    store
        .add(Role::Sending, Kid(3), Suite::ALL[4], &BASE_KEY)
        .unwrap();
    for _ in 0..3 {
        store.seal_to_vec(Kid(3), Metadata::NONE, b"").unwrap();
    }
    store.remove(Kid(3)).unwrap();
    store.remove(Kid(1)).unwrap();
    store
        .add(Role::Receiving, Kid(4), Suite::ALL[2], &BASE_KEY)
        .unwrap();
    let seen: Vec<_> = store
        .records()
        .unwrap()
        .into_iter()
        .map(|r| (r.place, r.state, r.suite, r.kid, r.next))
        .collect();
    let last = Kid(u64::MAX);
    let expected = [
        (Place(0), State::Retired, Suite::ALL[4], Kid(3), Ctr(3)),
        (Place(1), State::Receiving, Suite::ALL[2], Kid(4), Ctr(0)),
        (Place(2), State::Sending, Suite::ALL[1], last, Ctr(0)),
    ];
    assert_eq!(seen, expected);
    for (place, _, _, kid, _) in expected {
        assert_eq!(store.find(kid), Ok(place));
    }
}

#[test]
fn only_sound_stores_are_listed() {
    for length in [
        0,
        RECORD - 1,
        RECORD + 1,
        RECORD * MAX_RECORDS + 1,
        RECORD * (MAX_RECORDS + 1),
    ] {
        let bytes = vec![0; length];
        let view = StoreView::over(&bytes);
        assert_eq!(view.check(), Err(Refusal::StoreNotSound));
        assert_eq!(view.records(), Err(Refusal::StoreNotSound));
    }
    let (mut ward, _) = stores(Suite::ALL[0]);
    assert_eq!(StoreView::over(&ward).check(), Ok(()));
    ward[12..20].copy_from_slice(&MAX_COUNTER.to_be_bytes());
    let first = |store: &[u8]| StoreView::over(store).records().unwrap()[0];
    assert_eq!(
        (first(&ward).next, first(&ward).spent),
        (Ctr(MAX_COUNTER), false)
    );
    ward[2] = 1;
    assert!(first(&ward).spent);
    ward[19] = 1;
    assert_eq!(StoreView::over(&ward).check(), Err(Refusal::StoreNotSound));
}

/// What a key has opened is listed and reported.
#[test]
fn windows() {
    let (mut ward, mut doctor) = stores(Suite::ALL[3]);
    let mut ward = Store::over(&mut ward);
    let mut doctor = Store::over(&mut doctor);
    let frames: Vec<Vec<u8>> = (0..70)
        .map(|_| ward.seal_to_vec(KID, Metadata::NONE, b"").unwrap())
        .collect();
    assert_eq!(doctor.records().unwrap()[0].window, None);
    assert_eq!(doctor.report(KID), Ok(0));
    for (ctr, highest, mask) in [
        (5, 5, 0b1),
        (3, 5, 0b101),
        (6, 6, 0b1011),
        (66, 66, 1 << 63 | 1 << 61 | 1 << 60 | 1),
        (69, 69, 1 << 63 | 0b1001),
    ] {
        doctor.open_to_vec(&frames[ctr], Metadata::NONE).unwrap();
        let window = doctor.records().unwrap()[0].window.unwrap();
        let expected = Window {
            highest: Ctr(highest),
            mask,
        };
        assert_eq!(window, expected);
        assert_eq!(doctor.report(KID), Ok(window.count()));
    }
    for (ctr, refusal) in [(6, Refusal::AlreadyOpened), (5, Refusal::TooOld)] {
        let answer = doctor.open_to_vec(&frames[ctr], Metadata::NONE);
        assert_eq!(answer, Err(refusal));
    }

    assert_eq!(ward.report(KID), Err(Refusal::WrongRole));
    assert_eq!(ward.report(Kid(7)), Err(Refusal::KidUnknown));
    assert_eq!(ward.records().unwrap()[0].window, None);
    let nothing = StoreView::over(&[]);
    assert_eq!(nothing.report(KID), Err(Refusal::StoreNotSound));
}

/// A place, right or wrong, changes nothing of what a call answers and leaves.
#[test]
fn places() {
    let wrong = [1, 2, 3, usize::MAX / RECORD + 1, usize::MAX];
    for suite in Suite::ALL {
        let (ward, doctor) = stores(suite);
        let mut expected = [0; 40];
        let mut plain = ward;
        let length = Store::over(&mut plain)
            .seal_at(KID, Metadata::NONE, b"", &mut expected, 5)
            .unwrap();
        let frame = &expected[5..5 + length];
        let (mut opened, mut removed) = (doctor, doctor);
        Store::over(&mut opened)
            .open(frame, Metadata::NONE, &mut [])
            .unwrap();
        Store::over(&mut removed).remove(KID).unwrap();

        assert_eq!(StoreView::over(&ward).find(KID), Ok(Place(0)));
        for place in wrong.into_iter().chain([0]).map(Place) {
            let (mut sealing, mut room) = (ward, [0; 40]);
            let answer =
                Store::over(&mut sealing).seal_near(KID, place, Metadata::NONE, b"", &mut room, 5);
            assert_eq!(answer, Ok(length));
            assert_eq!((sealing, room), (plain, expected));
            let mut opening = doctor;
            let answer = Store::over(&mut opening).open_near(place, frame, Metadata::NONE, &mut []);
            assert_eq!((answer, opening), (Ok(0), opened));
            let mut removing = doctor;
            let answer = Store::over(&mut removing).remove_near(KID, place);
            assert_eq!((answer, removing), (Ok(()), removed));

            let unknown = Store::over(&mut removing).remove_near(Kid(0), place);
            assert_eq!(unknown, Err(Refusal::KidUnknown));
        }
        let nothing = StoreView::over(&[]);
        assert_eq!(nothing.find(KID), Err(Refusal::StoreNotSound));
    }
}

/// Key numbers of a group, typed and raw.
#[test]
fn groups() {
    let widths = GroupWidths { index: 6, epoch: 4 };
    for case in group_vectors() {
        let (context, index, epoch) = (case.context, case.index, case.epoch);
        let parts = GroupParts {
            context,
            index,
            epoch,
        };
        let kid = Kid(case.kid);
        assert_eq!(group_kid(parts, widths), Ok(kid));
        assert_eq!(raw::group_kid(context, index, epoch, 6, 4).kid, case.kid);
        let epoch = epoch % 16;
        assert_eq!(group_parts(kid, widths), Ok(GroupParts { epoch, ..parts }));

        let nobody = GroupParts { index: 64, ..parts };
        assert_eq!(group_kid(nobody, widths), Err(Refusal::GroupPartTooLarge));
        for (index, epoch) in [(61, 4), (u64::MAX, u64::MAX)] {
            let widths = GroupWidths { index, epoch };
            assert_eq!(group_kid(nobody, widths), Err(Refusal::GroupKidTooLong));
            assert_eq!(group_parts(kid, widths), Err(Refusal::GroupKidTooLong));
            let raw = raw::group_parts(case.kid, index, epoch);
            assert_eq!((raw.context, raw.index, raw.epoch), (0, 0, 0));
        }
    }
}

#[test]
fn a_change_of_epoch() {
    let (mut ward, mut doctor) = stores(Suite::ALL[0]);
    let epoch = |width, bits| EpochBits { width, bits };
    for bytes in [&mut ward, &mut doctor] {
        let before = *bytes;
        for (other, answer) in [
            (epoch(4, 7), Ok(())),
            (epoch(4, 16), Err(Refusal::GroupPartTooLarge)),
            (epoch(65, 8), Err(Refusal::GroupKidTooLong)),
        ] {
            assert_eq!(Store::over(bytes).change_epoch(other), answer);
            assert_eq!(*bytes, before);
        }
        // The key number is 200, which is 12 * 16 + 8.
        let sending = bytes[0] == 1;
        assert_eq!(Store::over(bytes).change_epoch(epoch(4, 8)), Ok(()));
        assert_eq!(*bytes == before, sending);
        let left = Store::over(bytes).records().unwrap().len();
        assert_eq!(left, usize::from(sending));
    }
    let answer = Store::over(&mut []).change_epoch(epoch(65, 8));
    assert_eq!(answer, Err(Refusal::StoreNotSound));
}

/// Debug output goes to logs, where no key belongs.
#[test]
fn debug_shows_no_key() {
    let (mut ward, _) = stores(Suite::ALL[0]);
    assert_eq!(
        format!("{:?}", StoreView::over(&ward)),
        "StoreView of 192 bytes"
    );
    assert_eq!(
        format!("{:?}", Store::over(&mut ward)),
        "Store of 192 bytes"
    );
    let owned = OwnedStore::from_bytes(ward.to_vec()).unwrap();
    assert_eq!(format!("{owned:?}"), "OwnedStore of 192 bytes");
}

/// One suite is for receiving alone. The sender that an older store holds goes on
/// to its end, and then its key number is taken like any other's.
#[test]
fn one_suite_is_not_added_for_sending() {
    let mut bytes = [0; RECORD];
    for suite in Suite::ALL {
        let barred = suite == Suite::Aes128CtrHmacSha256_32;
        let answer = Store::make(&mut bytes)
            .unwrap()
            .add(Role::Sending, KID, suite, &BASE_KEY);
        assert_eq!(answer == Err(Refusal::SendingBarred), barred, "{suite}");
    }

    let suite = Suite::Aes128CtrHmacSha256_32;
    let (mut ward, mut doctor) = stores(suite);
    let mut ward = Store::over(&mut ward);
    let frame = ward.seal_to_vec(KID, Metadata::NONE, b"").unwrap();
    assert_eq!(frame.len(), 2 + 4);
    let mut doctor = Store::over(&mut doctor);
    assert_eq!(doctor.open_to_vec(&frame, Metadata::NONE), Ok(vec![]));
    ward.remove(KID).unwrap();
    assert_eq!(ward.records().unwrap()[0].state, State::Retired);
    let again = ward.add(Role::Receiving, KID, suite, &BASE_KEY);
    assert_eq!(again, Err(Refusal::KidHeld));
}

#[test]
fn a_suite_that_does_not_exist_is_refused_by_number() {
    let mut bytes = [0; RECORD];
    assert_eq!(raw::make(&mut bytes), 0);
    let number = raw::add_sending(&mut bytes, 1, 6, &BASE_KEY);
    assert_eq!(Refusal::from_number(number), Some(Refusal::NoSuchSuite));
}

/// The frame reader cuts a frame where its header ends, in whatever form.
#[test]
fn frames_are_read_without_a_key() {
    let (mut ward, _) = stores(Suite::ALL[3]);
    let mut ward = Store::over(&mut ward);
    for ctr in 0..300 {
        let frame = ward.seal_to_vec(KID, Metadata::NONE, b"picture").unwrap();
        let reader = FrameReader::new(&frame).unwrap();
        assert_eq!((reader.kid(), reader.ctr()), (KID, Ctr(ctr)));
        assert_eq!([reader.header(), reader.rest()].concat(), frame);
        assert_eq!(reader.rest().len(), 7 + 16);
        for cut in 0..reader.header().len() {
            let read = FrameReader::new(&frame[..cut]);
            assert_eq!(read, Err(Refusal::BadHeader));
        }
    }
    let longer = [0x90, 0, 200, 1, 2];
    let reader = FrameReader::new(&longer).unwrap();
    assert_eq!((reader.kid(), reader.rest()), (KID, &longer[3..]));
}

/// An owned store has as many records as a store may have, and keeps its keys.
#[test]
fn owned_stores() {
    for records in [0, MAX_RECORDS + 1, usize::MAX / RECORD + 1, usize::MAX] {
        let made = OwnedStore::make(records);
        assert_eq!(made.err(), Some(Refusal::StoreNotSound), "{records}");
    }
    for records in [1, 2, MAX_RECORDS] {
        let mut store = OwnedStore::make(records).unwrap();
        assert_eq!(store.as_bytes(), vec![0; records * RECORD]);
        store
            .lend()
            .add(Role::Sending, KID, Suite::ALL[0], &BASE_KEY)
            .unwrap();
        let kept = store.as_bytes().to_vec();
        let again = OwnedStore::from_bytes(kept).unwrap();
        assert_eq!(again.view().records(), store.lend().records());
    }
    for bytes in [vec![], vec![0; RECORD - 1], vec![0xff; RECORD]] {
        let kept = OwnedStore::from_bytes(bytes);
        assert_eq!(kept.err(), Some(Refusal::StoreNotSound));
    }
}

#[test]
fn a_refusal_as_a_failure_of_input_or_output() {
    let error = std::io::Error::from(Refusal::TagDiffers);
    assert_eq!(error.to_string(), Refusal::TagDiffers.to_string());
    let refusal = error.into_inner().and_then(|inner| inner.downcast().ok());
    assert_eq!(refusal, Some(Box::new(Refusal::TagDiffers)));
}
