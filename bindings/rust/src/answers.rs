//! What the library answers: verdicts, and why there is none. The numbers and names are those of `clubcard.h`.

use std::error::Error;
use std::fmt;

/// What a store says of a certificate. Only [`Good`](Verdict::Good) says that it isn't revoked; the crate's page says
/// what that means.
#[must_use = "a certificate is accepted or not by its verdict"]
#[derive(Clone, Copy, Debug, PartialEq, Eq, Hash)]
pub enum Verdict {
    /// No part covers one of the sightings.
    NotCovered = 1,
    /// Parts cover one, and none of these has a block of the certificate's issuer.
    NotEnrolled = 2,
    /// The certificate isn't revoked.
    Good = 3,
    /// The certificate is revoked.
    Revoked = 4,
}

impl fmt::Display for Verdict {
    fn fmt(&self, to: &mut fmt::Formatter<'_>) -> fmt::Result {
        to.write_str(match self {
            Verdict::NotCovered => "not-covered",
            Verdict::NotEnrolled => "not-enrolled",
            Verdict::Good => "good",
            Verdict::Revoked => "revoked",
        })
    }
}

/// Why there is no answer.
#[non_exhaustive]
#[derive(Clone, Copy, Debug, PartialEq, Eq, Hash)]
pub enum Refusal {
    /// A field isn't all there.
    LayoutShort,
    /// A field fails its test, or bytes lie behind the last.
    LayoutValue,
    /// A digest isn't that of the bytes before it.
    LayoutDigest,
    /// The first part is a delta.
    NotSnapshot,
    /// A later part is a snapshot.
    NotDelta,
    /// A part's parent isn't the trailer of the part before it.
    WrongParent,
    /// A part's epoch isn't above that of the part before it.
    OldEpoch,
    /// A range of the part before it lies in none of a part's.
    CoverageShrinks,
    /// A part has 64 before it.
    ChainFull,
    /// The store has 2^32 bytes or more.
    StoreTooLong,
    /// The serial has no octet, or more than 32.
    BadSerial,
    /// A query's sightings aren't among those that are lent.
    BadSightings,
    /// The places aren't 1 to 65,536.
    BadPlaces,
    /// The certificate isn't one of RFC 5280 in DER, or is longer than 1 MiB.
    CertMalformed,
    /// The certificate carries no signed certificate timestamp of version 1.
    CertNoScts,
    /// The certificate's list of timestamps can't be read.
    CertBadScts,
    /// The certificate carries more than 64 timestamps.
    CertTooManyScts,
    /// The issuer's certificate isn't one of RFC 5280 in DER, or is too long.
    IssuerCertMalformed,
    /// The index is too short, which this crate never lends.
    IndexTooShort,
    /// The room for a new store is too short, which this crate never lends.
    RoomTooShort,
    /// A struct has another size than the library's.
    BadSize,
    /// Memory is wanted.
    NoMemory,
    /// A number that this crate doesn't know, or that isn't one of the call.
    Unknown(u32),
}

impl Refusal {
    /// The library's number.
    pub fn number(self) -> u32 {
        match self {
            Refusal::LayoutShort => 16,
            Refusal::LayoutValue => 17,
            Refusal::LayoutDigest => 18,
            Refusal::NotSnapshot => 32,
            Refusal::NotDelta => 33,
            Refusal::WrongParent => 34,
            Refusal::OldEpoch => 35,
            Refusal::CoverageShrinks => 36,
            Refusal::ChainFull => 37,
            Refusal::StoreTooLong => 38,
            Refusal::BadSerial => 48,
            Refusal::BadSightings => 49,
            Refusal::BadPlaces => 50,
            Refusal::CertMalformed => 64,
            Refusal::CertNoScts => 65,
            Refusal::CertBadScts => 66,
            Refusal::CertTooManyScts => 67,
            Refusal::IssuerCertMalformed => 68,
            Refusal::IndexTooShort => 80,
            Refusal::RoomTooShort => 81,
            Refusal::BadSize => 82,
            Refusal::NoMemory => 112,
            Refusal::Unknown(number) => number,
        }
    }

    /// The refusal of a number.
    fn of(number: u32) -> Refusal {
        match number {
            16 => Refusal::LayoutShort,
            17 => Refusal::LayoutValue,
            18 => Refusal::LayoutDigest,
            32 => Refusal::NotSnapshot,
            33 => Refusal::NotDelta,
            34 => Refusal::WrongParent,
            35 => Refusal::OldEpoch,
            36 => Refusal::CoverageShrinks,
            37 => Refusal::ChainFull,
            38 => Refusal::StoreTooLong,
            48 => Refusal::BadSerial,
            49 => Refusal::BadSightings,
            50 => Refusal::BadPlaces,
            64 => Refusal::CertMalformed,
            65 => Refusal::CertNoScts,
            66 => Refusal::CertBadScts,
            67 => Refusal::CertTooManyScts,
            68 => Refusal::IssuerCertMalformed,
            80 => Refusal::IndexTooShort,
            81 => Refusal::RoomTooShort,
            82 => Refusal::BadSize,
            112 => Refusal::NoMemory,
            _ => Refusal::Unknown(number),
        }
    }
}

impl fmt::Display for Refusal {
    fn fmt(&self, to: &mut fmt::Formatter<'_>) -> fmt::Result {
        to.write_str(match self {
            Refusal::LayoutShort => "a field isn't all there",
            Refusal::LayoutValue => "a field fails its test",
            Refusal::LayoutDigest => "a digest isn't that of the bytes before it",
            Refusal::NotSnapshot => "the first part is a delta",
            Refusal::NotDelta => "a later part is a snapshot",
            Refusal::WrongParent => "a part's parent isn't the part before it",
            Refusal::OldEpoch => "a part's epoch isn't above that of the part before it",
            Refusal::CoverageShrinks => "a part covers less than the part before it",
            Refusal::ChainFull => "a store has 64 parts at most",
            Refusal::StoreTooLong => "the store has 2^32 bytes or more",
            Refusal::BadSerial => "a serial has 1 to 32 octets",
            Refusal::BadSightings => "a query's sightings aren't among those that are lent",
            Refusal::BadPlaces => "places are 1 to 65,536, by issuers or by identities",
            Refusal::CertMalformed => "the certificate isn't read",
            Refusal::CertNoScts => "the certificate carries no timestamp",
            Refusal::CertBadScts => "the certificate's timestamps aren't read",
            Refusal::CertTooManyScts => "the certificate carries more than 64 timestamps",
            Refusal::IssuerCertMalformed => "the issuer's certificate isn't read",
            Refusal::IndexTooShort => "the index is too short",
            Refusal::RoomTooShort => "the room for the new store is too short",
            Refusal::BadSize => "the size of the facts isn't that of this interface",
            Refusal::NoMemory => "memory is wanted",
            Refusal::Unknown(number) => return write!(to, "an unknown answer, {number}"),
        })
    }
}

/// A call gave no answer.
#[derive(Clone, Copy, Debug, PartialEq, Eq, Hash)]
pub struct Refused {
    /// Why.
    pub refusal: Refusal,
    /// For the refusals of the layout, the offset of the field at fault, of a store or of a part; else 0.
    pub at: u64,
    /// For the refusals of the layout, the field's name in docs/FORMATS.md, such as `part.trailer`.
    pub field: Option<&'static str>,
}

impl Refused {
    /// The refusal of a number, with the place that the call told.
    pub(crate) fn new(number: u32, at: u64, field: u64) -> Refused {
        let place = usize::try_from(field).ok().and_then(|number| number.checked_sub(1));
        Refused { refusal: Refusal::of(number), at, field: place.and_then(|place| FIELDS.get(place).copied()) }
    }

    /// The refusal of a number, where the call tells no place.
    pub(crate) fn by(number: u32) -> Refused {
        Refused::new(number, 0, 0)
    }
}

impl fmt::Display for Refused {
    fn fmt(&self, to: &mut fmt::Formatter<'_>) -> fmt::Result {
        match self.field {
            Some(field) => write!(to, "{}, {} at {}", self.refusal, field, self.at),
            None => self.refusal.fmt(to),
        }
    }
}

impl Error for Refused {}

/// The verdict of a number. Any other number is a refusal.
pub(crate) fn verdict_of(number: u32) -> Result<Verdict, Refused> {
    match number {
        1 => Ok(Verdict::NotCovered),
        2 => Ok(Verdict::NotEnrolled),
        3 => Ok(Verdict::Good),
        4 => Ok(Verdict::Revoked),
        _ => Err(Refused::by(number)),
    }
}

/// The names of the layouts' fields, by their numbers from 1 on.
const FIELDS: [&str; 65] = [
    "part.magic",
    "part.version",
    "part.kind",
    "part.epoch",
    "part.parent",
    "part.ranges",
    "range.log",
    "range.from",
    "range.to",
    "part.issuers",
    "block.issuer",
    "block.mode",
    "block.k",
    "block.shift",
    "shard.mode",
    "approx.seed",
    "approx.starts",
    "approx.plane",
    "exact.seed",
    "exact.starts",
    "exact.plane",
    "part.sharded",
    "part.trailer",
    "store.magic",
    "store.version",
    "store.count",
    "ledger.magic",
    "ledger.version",
    "ledger.parts",
    "ledger.epoch",
    "ledger.part_trailer",
    "ledger.ranges",
    "ledger.coverage",
    "ledger.issuers",
    "ledger.issuer",
    "ledger.identities",
    "identity.issuer",
    "identity.length",
    "identity.serial",
    "identity.birth",
    "identity.last",
    "identity.dated",
    "identity.until",
    "ledger.digest",
    "job.magic",
    "job.epoch",
    "job.moment",
    "record.kind",
    "crl.issuer",
    "crl.length",
    "crl.bytes",
    "entry.log",
    "entry.leaf_length",
    "entry.leaf",
    "entry.extra_length",
    "entry.extra",
    "query.magic",
    "query.count",
    "query.issuer",
    "query.length",
    "query.serial",
    "query.sightings",
    "sighting.log",
    "sighting.time",
    "end",
];
