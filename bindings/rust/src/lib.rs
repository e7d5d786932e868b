//! Whether a store of pushed certificate revocation says that a certificate is revoked, asked in the caller's process,
//! with nothing asked over a network: a safe layer over the library for C, which it links statically. What the library
//! answers is proved, and `bindings/c/clubcard.h` says it in words; this crate isn't.
//!
//! What a verdict means: of a certificate that one of the jobs behind the store's parts accepted (and that was kept,
//! where the chain began anew), asked with one or more sightings of its accepted entries and no other, it is
//! [`Verdict::Revoked`] where the issuer's CRL lists the serial in an epoch since the certificate was first accepted,
//! and else [`Verdict::Good`]. Of any other certificate, or asked otherwise, either of the two may come, whatever the
//! CRL says: so of one that no job accepted, since it was never shown to the publisher, or shown late, when an earlier
//! job covered its sighting and enrolled its issuer. No call can tell these from the others.
//!
//! A store's bytes, issuers and certificates must be authentic: no signature is checked.
//!
//! ```
//! use clubcard::{Sighting, Store, Verdict};
//!
//! # let name = concat!(env!("CARGO_MANIFEST_DIR"), "/../../crates/clubcard/data/one_revoked.store");
//! let bytes = std::fs::read(name)?;
//! let store = Store::open(&bytes)?;
//! let seen = Sighting { log: [0xaa; 32], time: 1700000000000 };
//! match store.ask(&[0x11; 32], &[5], &[seen])? {
//!     Verdict::Good => println!("not revoked"),
//!     Verdict::Revoked => println!("revoked"),
//!     // The store doesn't know, and the caller settles what then.
//!     Verdict::NotCovered | Verdict::NotEnrolled => println!("unknown"),
//! }
//! # assert_eq!(store.ask(&[0x11; 32], &[5], &[seen])?, Verdict::Revoked);
//! # Ok::<(), Box<dyn std::error::Error>>(())
//! ```

#![deny(missing_docs)]
#![deny(unsafe_op_in_unsafe_fn)]

mod answers;
mod sys;

pub use answers::{Refusal, Refused, Verdict};

use answers::verdict_of;
use std::mem::size_of;

/// The version of the library's interface that this crate speaks.
pub const INTERFACE: u32 = 2;

const DONE: u32 = 0;
const NOT_COVERED: u32 = 1;
const NO_MEMORY: u32 = 112;
/// The most octets of a serial.
const MAX_SERIAL: usize = 32;

/// By what a history is cut.
#[derive(Clone, Copy, Debug, PartialEq, Eq, Hash)]
pub enum By {
    /// By issuers, whose certificates stay together.
    Issuer = 1,
    /// By identities.
    Identity = 2,
}

/// When a log saw a certificate.
#[repr(C)]
#[derive(Clone, Copy, Debug, PartialEq, Eq, Hash)]
pub struct Sighting {
    /// The log's id (RFC 6962, 3.2).
    pub log: [u8; 32],
    /// Milliseconds since 1970.
    pub time: u64,
}

/// A certificate that is asked about.
#[derive(Clone, Copy, Debug, PartialEq, Eq, Hash)]
pub struct Query<'a> {
    /// The SHA-256 of the issuer's DER SubjectPublicKeyInfo.
    pub issuer: [u8; 32],
    /// The contents octets of serialNumber, 1 to 32 of them.
    pub serial: &'a [u8],
    /// When logs saw it.
    pub sightings: &'a [Sighting],
}

/// What a store holds.
#[derive(Clone, Copy, Debug, PartialEq, Eq, Hash)]
pub struct Facts {
    /// How many parts, 1 to 64.
    pub parts: u64,
    /// The epoch of the newest one.
    pub newest_epoch: u64,
}

/// What a part holds.
#[derive(Clone, Copy, Debug, PartialEq, Eq, Hash)]
pub struct Part {
    /// Whether it is a delta, and else a snapshot.
    pub is_delta: bool,
    /// Its epoch.
    pub epoch: u64,
    /// How many ranges of logs it covers.
    pub ranges: u64,
    /// How many issuers it has a block of.
    pub issuers: u64,
    /// The SHA-256 of its bytes before the last 32, which these are.
    pub trailer: [u8; 32],
}

/// A store that was opened: its bytes, which it borrows, and an index of them, by which each question reads no more
/// than it needs. Any number of threads may ask.
#[derive(Clone, Debug)]
pub struct Store<'a> {
    bytes: &'a [u8],
    index: Box<[u32]>,
    facts: Facts,
}

impl<'a> Store<'a> {
    /// Opens a store: reads its bytes whole, and tests them.
    ///
    /// # Errors
    ///
    /// Where the bytes aren't a store, or are 2^32 or more.
    pub fn open(bytes: &'a [u8]) -> Result<Store<'a>, Refused> {
        let mut index = index_for(bytes)?;
        let mut facts = sys::StoreFacts { size: size_of::<sys::StoreFacts>() as u64, ..Default::default() };
        // SAFETY: each pointer is that of as many elements as the length behind it says, and the call keeps none.
        let number =
            unsafe { sys::clubcard_open(bytes.as_ptr(), bytes.len(), index.as_mut_ptr(), index.len(), &mut facts) };
        if number != DONE {
            return Err(Refused::new(number, facts.at, facts.field));
        }
        Ok(Store { bytes, index, facts: Facts { parts: facts.parts, newest_epoch: facts.newest_epoch } })
    }

    /// What the store holds.
    pub fn facts(&self) -> Facts {
        self.facts
    }

    /// The store's bytes.
    pub fn bytes(&self) -> &'a [u8] {
        self.bytes
    }

    /// The verdict on the certificate with this issuer key's hash (the SHA-256 of the issuer's DER
    /// SubjectPublicKeyInfo) and this serial (the contents octets of serialNumber), which logs saw.
    ///
    /// # Errors
    ///
    /// [`Refusal::BadSerial`], where the serial hasn't 1 to 32 octets.
    pub fn ask(&self, issuer: &[u8; 32], serial: &[u8], sightings: &[Sighting]) -> Result<Verdict, Refused> {
        // SAFETY: as in `open`; `issuer` has the 32 bytes that the call reads.
        verdict_of(unsafe {
            sys::clubcard_ask(
                self.bytes.as_ptr(),
                self.bytes.len(),
                self.index.as_ptr(),
                self.index.len(),
                issuer.as_ptr(),
                serial.as_ptr(),
                serial.len(),
                sightings.as_ptr(),
                sightings.len(),
            )
        })
    }

    /// The verdict on a certificate by the timestamps that it carries and its issuer's certificate, both in DER. It has
    /// the meaning that the crate's page says where one of the timestamps is of an accepted entry, and so is each that
    /// a part covers.
    ///
    /// # Errors
    ///
    /// Where a certificate isn't read, or the first carries no timestamps.
    pub fn ask_cert(&self, cert: &[u8], issuer_cert: &[u8]) -> Result<Verdict, Refused> {
        // SAFETY: as in `open`.
        verdict_of(unsafe {
            sys::clubcard_ask_cert(
                self.bytes.as_ptr(),
                self.bytes.len(),
                self.index.as_ptr(),
                self.index.len(),
                cert.as_ptr(),
                cert.len(),
                issuer_cert.as_ptr(),
                issuer_cert.len(),
            )
        })
    }

    /// The answers to many queries, by one call: of each its verdict, or why there is none.
    ///
    /// # Panics
    ///
    /// Where the queries have 2^32 sightings or more together.
    pub fn ask_each(&self, queries: &[Query<'_>]) -> Vec<Result<Verdict, Refused>> {
        let mut sightings = Vec::new();
        let mut lent: Vec<sys::OneQuery> = queries.iter().map(|query| lend(query, &mut sightings)).collect();
        // SAFETY: as in `open`; what the call writes to, `lent`, nobody else has.
        let number = unsafe {
            sys::clubcard_ask_each(
                self.bytes.as_ptr(),
                self.bytes.len(),
                self.index.as_ptr(),
                self.index.len(),
                sightings.as_ptr(),
                sightings.len(),
                lent.as_mut_ptr(),
                lent.len(),
            )
        };
        let answer_of = |query: &sys::OneQuery| verdict_of(if number == DONE { query.answer } else { number });
        lent.iter().map(answer_of).collect()
    }

    /// The last moment of the newest part's range of the log, in milliseconds since 1970, where it has one.
    pub fn covered_until(&self, log: &[u8; 32]) -> Option<u64> {
        let mut until = 0;
        // SAFETY: as in `open`; `log` has the 32 bytes that the call reads.
        let number = unsafe {
            sys::clubcard_covered_until(
                self.bytes.as_ptr(),
                self.bytes.len(),
                self.index.as_ptr(),
                self.index.len(),
                log.as_ptr(),
                &mut until,
            )
        };
        debug_assert!(number == DONE || number == NOT_COVERED);
        (number == DONE).then_some(until)
    }

    /// The bytes of the store that has this part more.
    ///
    /// # Errors
    ///
    /// Where the bytes aren't a part, or it doesn't go on with this store.
    pub fn install(&self, part: &[u8]) -> Result<Vec<u8>, Refused> {
        let mut facts = sys::InstallFacts { size: size_of::<sys::InstallFacts>() as u64, ..Default::default() };
        let mut made = zeros(self.bytes.len() as u64 + part.len() as u64)?;
        // SAFETY: as in `open`; what the call writes to, `made` and `facts`, nobody else has.
        let number = unsafe {
            sys::clubcard_install(
                self.bytes.as_ptr(),
                self.bytes.len(),
                part.as_ptr(),
                part.len(),
                made.as_mut_ptr(),
                made.len(),
                &mut facts,
            )
        };
        if number != DONE {
            return Err(Refused::new(number, facts.at, facts.field));
        }
        made.truncate(facts.length as usize);
        Ok(made)
    }
}

/// Tests a part's bytes, and says what it holds.
///
/// # Errors
///
/// Where the bytes aren't a part.
pub fn check_part(part: &[u8]) -> Result<Part, Refused> {
    let mut facts = sys::PartFacts { size: size_of::<sys::PartFacts>() as u64, ..Default::default() };
    // SAFETY: `part` has as many bytes as its length says, and the call keeps no pointer.
    let number = unsafe { sys::clubcard_check_part(part.as_ptr(), part.len(), &mut facts) };
    if number != DONE {
        return Err(Refused::new(number, facts.at, facts.field));
    }
    let sys::PartFacts { kind, epoch, ranges, issuers, trailer, .. } = facts;
    Ok(Part { is_delta: kind == 1, epoch, ranges, issuers, trailer })
}

/// The place of a certificate, by its issuer key's hash and its serial, where a history is cut into so many, from 0 on.
/// It is asked for in the store of its place: any other may say [`Verdict::Good`] of a revoked one.
///
/// # Errors
///
/// [`Refusal::BadSerial`], where the serial hasn't 1 to 32 octets, and [`Refusal::BadPlaces`], where the places aren't
/// 1 to 65,536.
pub fn place(by: By, issuer: &[u8; 32], serial: &[u8], count: u64) -> Result<u64, Refused> {
    let mut place = 0;
    // SAFETY: as in `check_part`; `issuer` has the 32 bytes that the call reads.
    let number =
        unsafe { sys::clubcard_place(by as u32, issuer.as_ptr(), serial.as_ptr(), serial.len(), count, &mut place) };
    if number != DONE {
        return Err(Refused::by(number));
    }
    Ok(place)
}

/// The version of the interface that the library has: [`INTERFACE`], where it is the one of this crate's tree.
pub fn interface() -> u32 {
    // SAFETY: the call takes nothing.
    unsafe { sys::clubcard_interface() }
}

/// So many zeros, or that memory is wanted.
fn zeros<T: Clone + Default>(count: u64) -> Result<Vec<T>, Refused> {
    let no_memory = Refused::by(NO_MEMORY);
    let count = usize::try_from(count).map_err(|_| no_memory)?;
    let mut made = Vec::new();
    made.try_reserve_exact(count).map_err(|_| no_memory)?;
    made.resize(count, T::default());
    Ok(made)
}

/// An index for a store, with nothing in it. It has no words for bytes that surely aren't one, of which the call that
/// opens it says why.
fn index_for(bytes: &[u8]) -> Result<Box<[u32]>, Refused> {
    let mut words = 0;
    // SAFETY: `bytes` has as many bytes as its length says, and the call keeps no pointer.
    let number = unsafe { sys::clubcard_index_length(bytes.as_ptr(), bytes.len(), &mut words) };
    Ok(zeros(if number == DONE { words } else { 0 })?.into_boxed_slice())
}

/// A query in the layout of C, whose sightings go behind those of the queries before it.
fn lend(query: &Query<'_>, sightings: &mut Vec<Sighting>) -> sys::OneQuery {
    let small = |number: usize| u32::try_from(number).expect("the queries have fewer than 2^32 sightings");
    let kept = query.serial.len().min(MAX_SERIAL);
    let mut serial = [0; MAX_SERIAL];
    serial[..kept].copy_from_slice(&query.serial[..kept]);
    let first_sighting = small(sightings.len());
    sightings.extend_from_slice(query.sightings);
    sys::OneQuery {
        issuer: query.issuer,
        serial,
        // Whatever is above the limit is refused alike.
        serial_len: query.serial.len().min(MAX_SERIAL + 1) as u32,
        first_sighting,
        sightings: small(query.sightings.len()),
        answer: 0,
    }
}

#[cfg(test)]
mod tests {
    use super::*;

    #[test]
    fn the_interface_is_the_crate_s() {
        assert_eq!(interface(), INTERFACE);
    }

    #[test]
    fn a_long_serial_is_told_by_its_length_alone() {
        let mut sightings = Vec::new();
        let query = Query { issuer: [1; 32], serial: &[7; 40], sightings: &[Sighting { log: [2; 32], time: 3 }] };
        let lent = lend(&query, &mut sightings);
        assert_eq!((lent.serial, lent.serial_len, lent.first_sighting, lent.sightings), ([7; 32], 33, 0, 1));
        assert_eq!((lend(&query, &mut sightings).first_sighting, sightings.len()), (1, 2));
    }

    #[test]
    fn memory_that_nobody_has_is_refused() {
        let refused = zeros::<u32>(u64::MAX).unwrap_err();
        assert_eq!(refused.refusal, Refusal::NoMemory);
    }

    #[test]
    fn each_number_is_a_refusal_s_own() {
        for number in 5..200 {
            assert_eq!(verdict_of(number).unwrap_err().refusal.number(), number);
        }
        assert_eq!(verdict_of(0).unwrap_err().refusal, Refusal::Unknown(0));
        assert_eq!(Refused::new(17, 8, 65).field, Some("end"));
        assert_eq!(Refused::new(17, 8, 66).field, None);
    }
}
