//! Asks the store that the repository ships (README.md, "Try it"), also where its bytes are damaged.

use clubcard::{check_part, place, By, Facts, Part, Query, Refusal, Refused, Sighting, Store, Verdict};
use std::error::Error;
use std::thread;

const BYTES: &[u8] = include_bytes!("../../../crates/clubcard/data/one_revoked.store");
/// The bytes of a store before its first part.
const HEAD: usize = 10;
const ISSUER: [u8; 32] = [0x11; 32];
const SEEN: Sighting = Sighting { log: [0xaa; 32], time: 1700000000000 };
const LATE: Sighting = Sighting { log: [0xaa; 32], time: 1700000001001 };

/// The SHA-256 of the delta below, made by another program (Python's hashlib).
const TRAILER: [u8; 32] = [
    0xe4, 0xf2, 0x68, 0x10, 0x5b, 0x81, 0xa3, 0x3c, 0xd3, 0xf6, 0x12, 0xea, 0xee, 0xec, 0xf2, 0x99, 0x2d, 0x26, 0xdf,
    0x44, 0x0a, 0xb9, 0x38, 0x18, 0xb8, 0x03, 0x9c, 0x50, 0x92, 0x02, 0xce, 0xd8,
];

/// A delta behind the shipped store, of one range and no block, by the layout of docs/FORMATS.md.
fn delta() -> Vec<u8> {
    let numbers = [SEEN.time, SEEN.time + 2000].map(u64::to_be_bytes).concat();
    let parent = &BYTES[BYTES.len() - 32..];
    [b"CLUBCARD\x01\x01", &2_u64.to_be_bytes()[..], parent, &[0, 1], &SEEN.log, &numbers, &[0; 4], &TRAILER].concat()
}

fn store() -> Store<'static> {
    Store::open(BYTES).expect("the shipped store is one")
}

fn refused<T: std::fmt::Debug>(result: Result<T, Refused>) -> (Refusal, u64, Option<&'static str>) {
    let refused = result.expect_err("there is no answer");
    (refused.refusal, refused.at, refused.field)
}

#[test]
fn verdicts() -> Result<(), Refused> {
    let store = store();
    assert_eq!(store.facts(), Facts { parts: 1, newest_epoch: 1 });
    assert_eq!(store.bytes(), BYTES);
    assert_eq!(store.ask(&ISSUER, &[5], &[SEEN])?, Verdict::Revoked);
    assert_eq!(store.ask(&ISSUER, &[5], &[LATE])?, Verdict::NotCovered);
    assert_eq!(store.ask(&[0x22; 32], &[5], &[LATE, SEEN])?, Verdict::NotEnrolled);
    assert_eq!(store.ask(&ISSUER, &[5], &[])?, Verdict::NotCovered);
    assert_eq!(Verdict::NotEnrolled.to_string(), "not-enrolled");
    Ok(())
}

#[test]
fn serials() {
    for serial in [&[][..], &[5; 33], &[5; 70000]] {
        assert_eq!(refused(store().ask(&ISSUER, serial, &[SEEN])), (Refusal::BadSerial, 0, None));
        let query = Query { issuer: ISSUER, serial, sightings: &[SEEN] };
        assert_eq!(store().ask_each(&[query])[0].unwrap_err().refusal, Refusal::BadSerial);
    }
}

#[test]
fn many_queries() {
    let query = Query { issuer: ISSUER, serial: &[5], sightings: &[SEEN] };
    let late = Query { sightings: &[LATE], ..query };
    let both = Query { sightings: &[LATE, SEEN], ..query };
    let other = Query { issuer: [0x22; 32], ..both };
    let said = store().ask_each(&[query, late, both, other]);
    let verdicts = [Verdict::Revoked, Verdict::NotCovered, Verdict::Revoked, Verdict::NotEnrolled];
    assert_eq!(said, verdicts.map(Ok));
    assert!(store().ask_each(&[]).is_empty());
}

#[test]
fn certificates() {
    assert_eq!(refused(store().ask_cert(&[0x30, 0], &[0x30, 0])), (Refusal::CertMalformed, 0, None));
    assert_eq!(refused(store().ask_cert(&[], &[])), (Refusal::CertMalformed, 0, None));
}

#[test]
fn coverage() {
    assert_eq!(store().covered_until(&SEEN.log), Some(1700000001000));
    assert_eq!(store().covered_until(&ISSUER), None);
}

#[test]
fn places() {
    assert_eq!(place(By::Issuer, &ISSUER, &[5], 65536), Ok(49925));
    assert_eq!(place(By::Identity, &ISSUER, &[5], 65536), Ok(44354));
    assert_eq!(refused(place(By::Issuer, &ISSUER, &[], 0)), (Refusal::BadSerial, 0, None));
    for count in [0, 65537, (1 << 32) + 1] {
        assert_eq!(refused(place(By::Identity, &ISSUER, &[5], count)), (Refusal::BadPlaces, 0, None));
    }
}

#[test]
fn no_store() {
    let short = &BYTES[..BYTES.len() - 1];
    assert_eq!(refused(Store::open(short)), (Refusal::LayoutShort, 147, Some("part.trailer")));
    assert_eq!(refused(Store::open(&[])), (Refusal::LayoutShort, 0, Some("store.magic")));
    let long = [BYTES, &[0]].concat();
    let error = Store::open(&long).unwrap_err();
    assert_eq!(error.to_string(), "a field fails its test, end at 179");
    let error: Box<dyn Error + Send + Sync> = error.into();
    assert!(error.downcast_ref::<Refused>().is_some());
}

#[test]
fn parts() {
    let part = &BYTES[HEAD..];
    let mut trailer = [0; 32];
    trailer.copy_from_slice(&BYTES[BYTES.len() - 32..]);
    assert_eq!(check_part(part), Ok(Part { is_delta: false, epoch: 1, ranges: 1, issuers: 1, trailer }));
    let mut damaged = part.to_vec();
    damaged[10] ^= 1;
    assert_eq!(refused(check_part(&damaged)), (Refusal::LayoutDigest, 137, Some("part.trailer")));
    assert_eq!(refused(check_part(BYTES)), (Refusal::LayoutValue, 0, Some("part.magic")));
    assert_eq!(refused(store().install(part)), (Refusal::NotDelta, 0, None));
    assert_eq!(refused(store().install(&damaged)), (Refusal::LayoutDigest, 137, Some("part.trailer")));
    assert_eq!(refused(store().install(&[])), (Refusal::LayoutShort, 0, Some("part.magic")));
}

#[test]
fn installation() -> Result<(), Refused> {
    assert_eq!(check_part(&delta()), Ok(Part { is_delta: true, epoch: 2, ranges: 1, issuers: 0, trailer: TRAILER }));
    let made = store().install(&delta())?;
    assert_eq!(made, [&BYTES[..HEAD - 1], &[2], &BYTES[HEAD..], &delta()].concat());
    let newer = Store::open(&made)?;
    assert_eq!(newer.facts(), Facts { parts: 2, newest_epoch: 2 });
    assert_eq!(newer.covered_until(&SEEN.log), Some(SEEN.time + 2000));
    assert_eq!(newer.ask(&ISSUER, &[5], &[SEEN])?, Verdict::Revoked);
    assert_eq!(newer.ask(&ISSUER, &[5], &[LATE])?, Verdict::NotEnrolled);
    assert_eq!(refused(newer.install(&delta())), (Refusal::WrongParent, 0, None));
    Ok(())
}

#[test]
fn threads() {
    fn is_shared<T: Send + Sync>(_: &T) {}
    let store = store();
    is_shared(&store);
    thread::scope(|scope| {
        for _ in 0..8 {
            scope.spawn(|| {
                for _ in 0..100 {
                    assert_eq!(store.ask(&ISSUER, &[5], &[SEEN]), Ok(Verdict::Revoked));
                }
            });
        }
    });
}
