//! A publisher in plain Rust with no proofs, to be timed beside `clubcard sample`, `clubcard snapshot` and `clubcard
//! rehearse` (docs/FORMATS.md has the rules and the layouts; they print and write the same):
//!
//!     publisher_reference sample NUMBER COUNT JOB
//!     publisher_reference snapshot JOB PART LEDGER WORKERS
//!     publisher_reference rehearse QUERIES JOB
//!
//! It reads what the generator's jobs have: a rehearsal is of one job, an x509 entry counts as unread, and a CRL with
//! extensions as malformed. It hashes message after message by the steps of the standard, with no instructions that
//! only some processors have. With WORKERS as many threads of the standard library sort the issuers' members, each those
//! of neighbouring issuers, draw the shards of large issuers, and build the leaves of their filters, which they draw from
//! one counter; all else is done by one.

use std::borrow::Cow;
use std::collections::BTreeMap;
use std::fs::{self, File};
use std::io::{self, BufWriter, Write};
use std::process::exit;
use std::sync::atomic::{AtomicUsize, Ordering};
use std::thread;

mod sha256;
use sha256::{sha256, Key, Message};

fn main() {
    let words: Vec<String> = std::env::args().skip(1).collect();
    let words: Vec<&str> = words.iter().map(String::as_str).collect();
    let done = match words[..] {
        ["sample", number, count, job] => sample(number, count, job),
        ["snapshot", job, part, ledger, workers] => snapshot(job, part, ledger, workers),
        ["rehearse", queries, job] => rehearse(queries, job),
        _ => Err(Refusal::usage()),
    };
    if let Err(refusal) = done {
        println!("{}", refusal.line);
        exit(refusal.status);
    }
}

/// Why a call isn't done: its status and its line.
struct Refusal {
    status: i32,
    line: String,
}

impl Refusal {
    fn new(status: i32, line: String) -> Refusal {
        Refusal { status, line }
    }

    fn usage() -> Refusal {
        Refusal::new(2, "usage".to_string())
    }

    fn unwritten(name: &str) -> Refusal {
        Refusal::new(9, format!("write-fault {name}"))
    }

    fn about(self, name: &str) -> Refusal {
        Refusal::new(self.status, format!("{} {name}", self.line))
    }
}

// ---- The generator

const MOMENT: u64 = 1_700_000_000_000;
const ISSUERS: usize = 4;
const RECORD: usize = 108;

/// UTCTime 231114221320Z.
const DATE: &[u8] = b"\x17\x0d231114221320Z";

/// The AlgorithmIdentifier of ecdsa-with-SHA256 (RFC 5758, 3.2).
const ALGORITHM: &[u8] = b"\x30\x0a\x06\x08\x2a\x86\x48\xce\x3d\x04\x03\x02";

/// What the keys and serials of a job are made of.
struct Names {
    log: Key,
    issuers: [Key; ISSUERS],
    /// "CCSAMPLE", the number, and the place of an entry.
    entry: Message,
}

impl Names {
    fn new(number: u64) -> Names {
        let number = number.to_be_bytes();
        let issuer = |j| Message::new(&[b"CCISSUER", &number, &[j]]).digest();
        Names {
            log: Message::new(&[b"CCLOG", &number]).digest(),
            issuers: [issuer(0), issuer(1), issuer(2), issuer(3)],
            entry: Message::new(&[b"CCSAMPLE", &number, &[0; 4]]),
        }
    }

    fn serial(&mut self, entry: u32) -> [u8; 16] {
        self.entry.bytes[16..20].copy_from_slice(&entry.to_be_bytes());
        let digest = self.entry.digest();
        let mut serial = [1; 16];
        serial[1..].copy_from_slice(&digest[..15]);
        serial
    }
}

fn sequence(contents: &[u8]) -> Vec<u8> {
    let length = contents.len();
    let octets = (length as u64).to_be_bytes();
    let least = &octets[(length as u64).leading_zeros() as usize / 8..];
    let mut out = Vec::with_capacity(length + 10);
    out.push(0x30);
    if length >= 128 {
        out.push(0x80 + least.len() as u8);
        out.extend_from_slice(least);
    } else {
        out.push(length as u8);
    }
    out.extend_from_slice(contents);
    out
}

fn crl_of(revoked: &[u8]) -> Vec<u8> {
    let revoked = if revoked.is_empty() {
        Vec::new()
    } else {
        sequence(revoked)
    };
    let body = [b"\x02\x01\x01", ALGORITHM, b"\x30\x00", DATE, &revoked].concat();
    sequence(&[&sequence(&body), ALGORITHM, b"\x03\x01\x00"].concat())
}

/// The records of the CRLs, and how many serials they hold.
fn crl_records(names: &mut Names, count: u32) -> (Vec<u8>, u32) {
    let mut entries: [Vec<u8>; ISSUERS] = Default::default();
    let mut revoked = 0;
    for entry in (0..count).filter(|entry| entry / 4 % 100 == 0) {
        let out = &mut entries[entry as usize % ISSUERS];
        out.extend_from_slice(b"\x30\x21\x02\x10");
        out.extend_from_slice(&names.serial(entry));
        out.extend_from_slice(DATE);
        revoked += 1;
    }
    let mut records = Vec::new();
    for (issuer, entries) in names.issuers.iter().zip(&entries) {
        let crl = crl_of(entries);
        records.push(2);
        records.extend_from_slice(issuer);
        records.extend_from_slice(&(crl.len() as u32).to_be_bytes());
        records.extend_from_slice(&crl);
    }
    (records, revoked)
}

/// What stands before the entries, and how many serials the CRLs hold.
fn head_of(names: &mut Names, count: u32) -> (Vec<u8>, u32) {
    let (crls, revoked) = crl_records(names, count);
    let last = MOMENT + u64::from(count) - 1;
    let head = [
        b"CLUBJOB1",
        &1u64.to_be_bytes()[..],
        &MOMENT.to_be_bytes(),
        b"\x01",
        &names.log,
        &MOMENT.to_be_bytes(),
        &last.to_be_bytes(),
        &crls,
    ]
    .concat();
    (head, revoked)
}

/// The record of an entry with its time, issuer and serial left zero.
fn blank_record(log: &Key) -> [u8; RECORD] {
    let mut record = [0; RECORD];
    record[0] = 3;
    record[1..33].copy_from_slice(log);
    record[35] = 69;
    record[47] = 1;
    record[82..87].copy_from_slice(b"\x14\x30\x12\x02\x10");
    record
}

fn write_job(names: &mut Names, count: u32, head: &[u8], name: &str) -> io::Result<()> {
    let mut out = BufWriter::with_capacity(65_536, File::create(name)?);
    out.write_all(head)?;
    let mut record = blank_record(&names.log);
    for entry in 0..count {
        record[38..46].copy_from_slice(&(MOMENT + u64::from(entry)).to_be_bytes());
        record[48..80].copy_from_slice(&names.issuers[entry as usize % ISSUERS]);
        record[87..103].copy_from_slice(&names.serial(entry));
        out.write_all(&record)?;
    }
    out.write_all(&[0])?;
    out.flush()
}

fn sample(number: &str, count: &str, name: &str) -> Result<(), Refusal> {
    let number: u64 = number.parse().map_err(|_| Refusal::usage())?;
    let count: u32 = count.parse().map_err(|_| Refusal::usage())?;
    if !(1..=1_000_000).contains(&count) {
        return Err(Refusal::usage());
    }
    let mut names = Names::new(number);
    let (head, revoked) = head_of(&mut names, count);
    write_job(&mut names, count, &head, name).map_err(|_| Refusal::unwritten(name))?;
    let bytes = head.len() + RECORD * count as usize + 1;
    println!("sample {number} entries {count} revoked {revoked} bytes {bytes}");
    Ok(())
}

// ---- Layouts

/// Bytes that are read field by field.
struct Cursor<'a> {
    bytes: &'a [u8],
    at: usize,
}

fn fault(at: usize, field: &str, why: &str) -> Refusal {
    Refusal::new(3, format!("layout {at} {field} {why}"))
}

impl<'a> Cursor<'a> {
    fn new(bytes: &[u8]) -> Cursor<'_> {
        Cursor { bytes, at: 0 }
    }

    fn take(&mut self, field: &str, width: usize) -> Result<&'a [u8], Refusal> {
        let Some((taken, _)) = self.bytes[self.at..].split_at_checked(width) else {
            return Err(fault(self.at, field, "short"));
        };
        self.at += width;
        Ok(taken)
    }

    fn magic(&mut self, field: &str, magic: &[u8]) -> Result<(), Refusal> {
        let at = self.at;
        if self.take(field, magic.len())? != magic {
            return Err(fault(at, field, "value"));
        }
        Ok(())
    }

    fn key(&mut self, field: &str) -> Result<&'a Key, Refusal> {
        Ok(self.take(field, 32)?.try_into().unwrap())
    }

    /// A number of at most 8 bytes, from `least` to `most`.
    fn number(&mut self, field: &str, width: usize, least: u64, most: u64) -> Result<u64, Refusal> {
        let at = self.at;
        let value = number_in(self.take(field, width)?);
        if value < least || most < value {
            return Err(fault(at, field, "value"));
        }
        Ok(value)
    }

    fn end(&self) -> Result<(), Refusal> {
        if self.at < self.bytes.len() {
            return Err(fault(self.at, "end", "value"));
        }
        Ok(())
    }
}

fn number_in(bytes: &[u8]) -> u64 {
    bytes
        .iter()
        .fold(0, |sum, byte| sum << 8 | u64::from(*byte))
}

fn contents_of(name: &str) -> Result<Vec<u8>, Refusal> {
    fs::read(name).map_err(|_| Refusal::new(8, "read-fault".to_string()))
}

// ---- DER (ITU-T X.690), and CRLs and log entries in it

const INTEGER: u8 = 0x02;
const BIT_STRING: u8 = 0x03;
const UTC_TIME: u8 = 0x17;
const GENERALIZED_TIME: u8 = 0x18;
const SEQUENCE: u8 = 0x30;

/// Takes the element in front off the bytes: its tag and contents.
fn element<'a>(bytes: &mut &'a [u8]) -> Option<(u8, &'a [u8])> {
    let (&[tag, first], rest) = bytes.split_first_chunk()?;
    if tag & 0x1f == 0x1f {
        return None;
    }
    let (length, rest) = match first {
        0..=0x7f => (u64::from(first), rest),
        0x81..=0x84 => {
            let (octets, rest) = rest.split_at_checked(usize::from(first - 0x80))?;
            let length = number_in(octets);
            if octets[0] == 0 || length < 128 {
                return None;
            }
            (length, rest)
        }
        _ => return None,
    };
    let (contents, rest) = rest.split_at_checked(length as usize)?;
    *bytes = rest;
    Some((tag, contents))
}

/// Takes the contents of an element of this tag.
fn element_of<'a>(tag: u8, bytes: &mut &'a [u8]) -> Option<&'a [u8]> {
    let (found, contents) = element(bytes)?;
    (found == tag).then_some(contents)
}

/// The contents of the one element that the bytes are.
fn only(tag: u8, mut bytes: &[u8]) -> Option<&[u8]> {
    let contents = element_of(tag, &mut bytes)?;
    bytes.is_empty().then_some(contents)
}

fn begins_with(tags: &[u8], bytes: &[u8]) -> bool {
    bytes.first().is_some_and(|tag| tags.contains(tag))
}

fn days_in(year: i64, month: i64) -> i64 {
    match month {
        2 if year % 4 == 0 && (year % 100 != 0 || year % 400 == 0) => 29,
        2 => 28,
        4 | 6 | 9 | 11 => 30,
        _ => 31,
    }
}

/// Days from 1970-01-01 to a day of the Gregorian calendar.
fn days_to(year: i64, month: i64, day: i64) -> i64 {
    // The year begins in March, so that a leap day is its last.
    let (year, month) = if month > 2 {
        (year, month - 3)
    } else {
        (year - 1, month + 9)
    };
    let leap_days = year.div_euclid(4) - year.div_euclid(100) + year.div_euclid(400);
    365 * year + leap_days + (153 * month + 2) / 5 + day - 719_469
}

/// The number that decimal digits spell.
fn decimal(digits: &[u8]) -> i64 {
    digits
        .iter()
        .fold(0, |sum, digit| 10 * sum + i64::from(digit - b'0'))
}

/// Takes a time: seconds since 1970-01-01 00:00:00 UTC.
fn time(bytes: &mut &[u8]) -> Option<i64> {
    let (tag, contents) = element(bytes)?;
    let digits = contents.strip_suffix(b"Z")?;
    let years = match (tag, digits.len()) {
        (UTC_TIME, 12) => 2,
        (GENERALIZED_TIME, 14) => 4,
        _ => return None,
    };
    if !digits.iter().all(u8::is_ascii_digit) {
        return None;
    }
    let year = match (years, decimal(&digits[..years])) {
        (2, year) if year >= 50 => year + 1900,
        (2, year) => year + 2000,
        (_, year) => year,
    };
    let pair = |place: usize| decimal(&digits[years + 2 * place..years + 2 * place + 2]);
    let (month, day, hours, minutes, seconds) = (pair(0), pair(1), pair(2), pair(3), pair(4));
    let is_day = (1..=12).contains(&month) && (1..=days_in(year, month)).contains(&day);
    let is_time = hours < 24 && minutes < 60 && seconds < 60;
    let of_day = 3600 * hours + 60 * minutes + seconds;
    (is_day && is_time).then(|| 86_400 * days_to(year, month, day) + of_day)
}

/// A serial of 1 to 32 octets, in the order of identities: by length, then by octets.
#[derive(Clone, Copy, PartialEq, Eq, PartialOrd, Ord)]
struct Serial {
    length: u8,
    /// The octets, with zeros behind them.
    words: [u64; 4],
}

impl Serial {
    fn new(octets: &[u8]) -> Option<Serial> {
        if octets.is_empty() || octets.len() > 32 {
            return None;
        }
        let mut padded = [0; 32];
        padded[..octets.len()].copy_from_slice(octets);
        let word = |i: usize| u64::from_be_bytes(padded[8 * i..8 * i + 8].try_into().unwrap());
        Some(Serial {
            length: octets.len() as u8,
            words: [word(0), word(1), word(2), word(3)],
        })
    }

    fn padded(&self) -> [u8; 32] {
        let mut padded = [0; 32];
        for (bytes, word) in padded.chunks_exact_mut(8).zip(self.words) {
            bytes.copy_from_slice(&word.to_be_bytes());
        }
        padded
    }
}

/// What a CRL says.
struct Crl {
    /// In seconds since 1970.
    next_update: Option<i64>,
    serials: Vec<Serial>,
}

/// The serials of a revokedCertificates. One of more than 32 octets is left out.
fn revoked_in(mut bytes: &[u8]) -> Option<Vec<Serial>> {
    let mut serials = Vec::new();
    while !bytes.is_empty() {
        let mut entry = element_of(SEQUENCE, &mut bytes)?;
        let octets = element_of(INTEGER, &mut entry)?;
        let (date, _) = element(&mut entry)?;
        let is_date = date == UTC_TIME || date == GENERALIZED_TIME;
        if octets.is_empty() || !is_date || !entry.is_empty() {
            return None;
        }
        serials.extend(Serial::new(octets));
    }
    Some(serials)
}

fn crl_in(bytes: &[u8]) -> Option<Crl> {
    let mut list = only(SEQUENCE, bytes)?;
    let mut body = element_of(SEQUENCE, &mut list)?;
    element_of(SEQUENCE, &mut list)?;
    only(BIT_STRING, list)?;
    if begins_with(&[INTEGER], body) && element_of(INTEGER, &mut body)? != [1] {
        return None;
    }
    element_of(SEQUENCE, &mut body)?;
    element_of(SEQUENCE, &mut body)?;
    time(&mut body)?;
    let next_update = if begins_with(&[UTC_TIME, GENERALIZED_TIME], body) {
        Some(time(&mut body)?)
    } else {
        None
    };
    let serials = if begins_with(&[SEQUENCE], body) {
        revoked_in(element_of(SEQUENCE, &mut body)?)?
    } else {
        Vec::new()
    };
    body.is_empty().then_some(Crl {
        next_update,
        serials,
    })
}

/// What an entry says.
struct Entry<'a> {
    issuer: &'a Key,
    serial: Serial,
    time: u64,
    /// The end of its certificate's validity, in seconds since 1970.
    until: Option<i64>,
}

/// The end of the validity, where the fields behind the serial have one.
fn until_in(mut fields: &[u8]) -> Option<i64> {
    element(&mut fields)?;
    element(&mut fields)?;
    let mut validity = element_of(SEQUENCE, &mut fields)?;
    element(&mut validity)?;
    let until = time(&mut validity)?;
    validity.is_empty().then_some(until)
}

/// The entry of a precertificate's leaf (RFC 6962, 3.4).
fn entry_in(leaf: &[u8]) -> Option<Entry<'_>> {
    let (front, rest) = leaf.split_at_checked(47)?;
    if front[..2] != [0, 0] || front[10..12] != [0, 1] {
        return None;
    }
    let (certificate, rest) = rest.split_at_checked(number_in(&front[44..]) as usize)?;
    let (width, extensions) = rest.split_at_checked(2)?;
    if number_in(width) != extensions.len() as u64 {
        return None;
    }
    let mut fields = only(SEQUENCE, certificate)?;
    if begins_with(&[0xa0], fields) {
        element(&mut fields)?;
    }
    let serial = Serial::new(element_of(INTEGER, &mut fields)?)?;
    Some(Entry {
        issuer: front[12..44].try_into().unwrap(),
        serial,
        time: number_in(&front[2..10]),
        until: until_in(fields),
    })
}

// ---- Jobs

struct Range {
    log: Key,
    from: u64,
    to: u64,
}

fn covers(ranges: &[Range], log: &[u8], time: u64) -> bool {
    match ranges.binary_search_by(|range| range.log[..].cmp(log)) {
        Ok(place) => (ranges[place].from..=ranges[place].to).contains(&time),
        Err(_) => false,
    }
}

/// A certificate of an accepted entry. Of one serial those without a date come first, and then those with lesser ones.
#[derive(Clone, Copy, PartialEq, Eq, PartialOrd, Ord)]
struct Member {
    serial: Serial,
    until: Option<i64>,
}

/// The certificates of an enrolled issuer.
struct Group {
    issuer: Key,
    /// The serials of its CRLs, ascending.
    listed: Vec<Serial>,
    members: Vec<Member>,
}

#[derive(Default)]
struct Counts {
    unread: usize,
    uncovered: usize,
    unenrolled: usize,
    accepted: usize,
}

/// The records of a job: the kind of the next one is read already.
struct Records<'a> {
    cursor: Cursor<'a>,
    kind: u64,
}

impl Records<'_> {
    fn next_kind(&mut self) -> Result<(), Refusal> {
        let at = self.cursor.at;
        let kind = self.cursor.number("record.kind", 1, 0, 3)?;
        if kind != 0 && kind < self.kind {
            return Err(fault(at, "record.kind", "value"));
        }
        self.kind = kind;
        Ok(())
    }
}

fn is_few(what: &str, count: usize, limit: usize) -> Result<(), Refusal> {
    if count > limit {
        return Err(Refusal::new(6, format!("limit {what} {limit}")));
    }
    Ok(())
}

fn range(cursor: &mut Cursor<'_>, before: Option<&Range>) -> Result<Range, Refusal> {
    let at = cursor.at;
    let log = *cursor.key("range.log")?;
    if before.is_some_and(|before| log <= before.log) {
        return Err(fault(at, "range.log", "value"));
    }
    let from = cursor.number("range.from", 8, 0, u64::MAX)?;
    let to = cursor.number("range.to", 8, from, u64::MAX)?;
    Ok(Range { log, from, to })
}

fn ranges(records: &mut Records<'_>) -> Result<Vec<Range>, Refusal> {
    let mut ranges: Vec<Range> = Vec::new();
    while records.kind == 1 {
        is_few("ranges", ranges.len() + 1, 1024)?;
        ranges.push(range(&mut records.cursor, ranges.last())?);
        records.next_kind()?;
    }
    Ok(ranges)
}

/// The CRLs with their issuers. None is one that isn't accepted.
fn crls(records: &mut Records<'_>) -> Result<Vec<(Key, Option<Crl>)>, Refusal> {
    let mut crls = Vec::new();
    let mut serials = 0;
    while records.kind == 2 {
        is_few("crls", crls.len() + 1, 65_535)?;
        let issuer = *records.cursor.key("crl.issuer")?;
        let length = records.cursor.number("crl.length", 4, 0, 67_108_864)?;
        let crl = crl_in(records.cursor.take("crl.bytes", length as usize)?);
        serials += crl.as_ref().map_or(0, |crl| crl.serials.len());
        is_few("serials", serials, 16_777_216)?;
        crls.push((issuer, crl));
        records.next_kind()?;
    }
    Ok(crls)
}

/// The groups of the issuers that have CRLs none of which is out of date, with no members yet.
fn enrolled(crls: Vec<(Key, Option<Crl>)>, moment: u64) -> Result<Vec<Group>, Refusal> {
    let mut listed: BTreeMap<Key, Option<Vec<Serial>>> = BTreeMap::new();
    for (place, (issuer, crl)) in crls.into_iter().enumerate() {
        let Some(crl) = crl else {
            return Err(Refusal::new(4, format!("crl {place} malformed")));
        };
        let is_stale = |seconds| 1000 * i128::from(seconds) < i128::from(moment);
        let serials = listed.entry(issuer).or_insert_with(|| Some(Vec::new()));
        if crl.next_update.is_some_and(is_stale) {
            *serials = None;
        } else if let Some(serials) = serials {
            serials.extend(crl.serials);
        }
    }
    let groups = listed.into_iter().filter_map(|(issuer, listed)| {
        let mut listed = listed?;
        listed.sort_unstable();
        Some(Group {
            issuer,
            listed,
            members: Vec::new(),
        })
    });
    Ok(groups.collect())
}

/// Puts the accepted entries into their groups.
fn admit(
    records: &mut Records<'_>,
    ranges: &[Range],
    groups: &mut [Group],
) -> Result<Counts, Refusal> {
    let mut counts = Counts::default();
    let mut entries = 0;
    while records.kind == 3 {
        entries += 1;
        is_few("entries", entries, 4_194_304)?;
        let cursor = &mut records.cursor;
        let log = cursor.key("entry.log")?;
        let length = cursor.number("entry.leaf_length", 3, 0, u64::MAX)?;
        let leaf = cursor.take("entry.leaf", length as usize)?;
        let length = cursor.number("entry.extra_length", 3, 0, u64::MAX)?;
        cursor.take("entry.extra", length as usize)?;
        match entry_in(leaf) {
            None => counts.unread += 1,
            Some(entry) if !covers(ranges, log, entry.time) => counts.uncovered += 1,
            Some(entry) => match groups.binary_search_by(|group| group.issuer.cmp(entry.issuer)) {
                Err(_) => counts.unenrolled += 1,
                Ok(place) => {
                    let (serial, until) = (entry.serial, entry.until);
                    groups[place].members.push(Member { serial, until });
                    counts.accepted += 1;
                }
            },
        }
        records.next_kind()?;
    }
    Ok(counts)
}

struct Job {
    epoch: u64,
    ranges: Vec<Range>,
    groups: Vec<Group>,
    counts: Counts,
}

fn job_in(bytes: &[u8]) -> Result<Job, Refusal> {
    let mut cursor = Cursor::new(bytes);
    cursor.magic("job.magic", b"CLUBJOB1")?;
    let epoch = cursor.number("job.epoch", 8, 0, u64::MAX)?;
    let moment = cursor.number("job.moment", 8, 0, u64::MAX)?;
    let mut records = Records { cursor, kind: 0 };
    records.next_kind()?;
    let ranges = ranges(&mut records)?;
    let crls = crls(&mut records)?;
    // A CRL that isn't accepted is told behind all faults of the layout.
    let (mut groups, refusal) = match enrolled(crls, moment) {
        Ok(groups) => (groups, None),
        Err(refusal) => (Vec::new(), Some(refusal)),
    };
    let counts = admit(&mut records, &ranges, &mut groups)?;
    records.cursor.end()?;
    match refusal {
        Some(refusal) => Err(refusal),
        None => Ok(Job {
            epoch,
            ranges,
            groups,
            counts,
        }),
    }
}

// ---- Equations

struct Row {
    start: usize,
    coeff: u128,
    tag: u16,
}

/// The rows of an issuer's certificates in a stage, at a seed.
struct Rows {
    front: [u8; 40],
    starts: u64,
}

impl Rows {
    fn new(stage: u8, seed: u8, issuer: &Key, starts: usize) -> Rows {
        let mut front = [0; 40];
        front[..6].copy_from_slice(b"CCROW1");
        front[6] = stage;
        front[7] = seed;
        front[8..].copy_from_slice(issuer);
        Rows {
            front,
            starts: starts as u64,
        }
    }

    fn row(&self, serial: &Serial) -> Row {
        let octets = &serial.padded()[..usize::from(serial.length)];
        let words = Message::new(&[&self.front, &[serial.length], octets]).state();
        let pair = |i: usize| u64::from(words[i]) << 32 | u64::from(words[i + 1]);
        Row {
            start: (pair(4) % self.starts) as usize,
            coeff: u128::from(pair(0)) << 64 | u128::from(pair(2)) | 1,
            tag: (words[6] >> 16) as u16,
        }
    }
}

fn starts_for(keys: usize) -> usize {
    keys + keys / 8 + 1
}

/// Equations over GF(2), each kept by its lowest column, with a target in each plane.
struct System {
    coeffs: Vec<u128>,
    targets: Vec<u16>,
}

impl System {
    fn new(starts: usize) -> System {
        let columns = starts + 127;
        System {
            coeffs: vec![0; columns],
            targets: vec![0; columns],
        }
    }

    /// Adds an equation, unless it contradicts those that are kept.
    fn add(&mut self, row: &Row, mut target: u16) -> bool {
        let mut at = row.start;
        let mut coeff = row.coeff;
        while coeff != 0 {
            let skipped = coeff.trailing_zeros();
            let odd = coeff >> skipped;
            at += skipped as usize;
            let pivot = self.coeffs[at];
            if pivot == 0 {
                self.coeffs[at] = odd;
                self.targets[at] = target;
                return true;
            }
            coeff = (odd ^ pivot) >> 1;
            target ^= self.targets[at];
            at += 1;
        }
        target == 0
    }

    /// The least solution: from the highest column down, each is zero where that leaves one.
    fn solve(&self, planes: usize) -> Planes {
        let columns = self.coeffs.len();
        let width = columns.div_ceil(64);
        let mut words = vec![0; planes * width];
        let mut windows = [0u128; 16];
        for word in (0..width).rev() {
            for at in (64 * word..columns.min(64 * word + 64)).rev() {
                let (coeff, target) = (self.coeffs[at], self.targets[at]);
                for (plane, window) in windows[..planes].iter_mut().enumerate() {
                    let above = *window << 1;
                    let bit = ((coeff & above).count_ones() ^ u32::from(target >> plane)) & 1;
                    *window = above | u128::from(bit);
                }
            }
            for plane in 0..planes {
                words[plane * width + word] = windows[plane] as u64;
            }
        }
        Planes { words, width }
    }
}

/// A solution, plane after plane.
struct Planes {
    words: Vec<u64>,
    width: usize,
}

impl Planes {
    /// Whether the sum over the row is the target's bit, in each plane.
    fn meets(&self, row: &Row, target: u16) -> bool {
        let (first, shift) = (row.start / 64, row.start % 64);
        self.words
            .chunks_exact(self.width)
            .enumerate()
            .all(|(plane, words)| {
                let low = u128::from(words[first]) | u128::from(words[first + 1]) << 64;
                let above = u128::from(words.get(first + 2).copied().unwrap_or(0));
                let window = low >> shift | above << (127 - shift) << 1;
                let sum = (window & row.coeff).count_ones() & 1;
                sum == u32::from(target >> plane & 1)
            })
    }
}

// ---- Filters

struct Stage {
    rows: Rows,
    planes: Planes,
}

enum Leaf {
    Clean,
    Every,
    Mixed { approx: Option<Stage>, exact: Stage },
}

/// One leaf, or a leaf for each of 2^shift shards.
enum Filter {
    Alone(Leaf),
    Cut { shift: u8, leaves: Vec<Leaf> },
}

/// The stage of the least seed at which there is a solution: the sums over the revoked are their targets, and those
/// over the passed are zero.
fn stage_of(
    number: u8,
    issuer: &Key,
    planes: usize,
    revoked: &[Serial],
    target: impl Fn(&Row) -> u16,
    passed: &[Serial],
) -> Result<Stage, Refusal> {
    let starts = starts_for(revoked.len() + passed.len());
    for seed in 0..=255 {
        let rows = Rows::new(number, seed, issuer, starts);
        let mut system = System::new(starts);
        let solvable = revoked.iter().all(|serial| {
            let row = rows.row(serial);
            system.add(&row, target(&row))
        }) && passed.iter().all(|serial| system.add(&rows.row(serial), 0));
        if solvable {
            let planes = system.solve(planes);
            return Ok(Stage { rows, planes });
        }
    }
    let issuer: String = issuer.iter().map(|byte| format!("{byte:02x}")).collect();
    Err(Refusal::new(7, format!("seeds {issuer} {number}")))
}

fn approx_of(issuer: &Key, revoked: &[Serial], others: usize) -> Result<Option<Stage>, Refusal> {
    let width = (1..=16)
        .take_while(|width| revoked.len() << width <= others)
        .count();
    if width == 0 {
        return Ok(None);
    }
    let mask = u16::MAX >> (16 - width);
    let stage = stage_of(1, issuer, width, revoked, |row| row.tag & mask, &[])?;
    Ok(Some(stage))
}

fn accepts(approx: &Option<Stage>, serial: &Serial) -> bool {
    approx.as_ref().is_none_or(|stage| {
        let row = stage.rows.row(serial);
        stage.planes.meets(&row, row.tag)
    })
}

impl Leaf {
    fn new(issuer: &Key, revoked: &[Serial], others: &[Serial]) -> Result<Leaf, Refusal> {
        if revoked.is_empty() {
            return Ok(Leaf::Clean);
        }
        if others.is_empty() {
            return Ok(Leaf::Every);
        }
        let approx = approx_of(issuer, revoked, others.len())?;
        let passed = others.iter().filter(|serial| accepts(&approx, serial));
        let passed: Vec<Serial> = passed.copied().collect();
        let exact = stage_of(2, issuer, 1, revoked, |_| 1, &passed)?;
        Ok(Leaf::Mixed { approx, exact })
    }

    fn is_revoked(&self, serial: &Serial) -> bool {
        match self {
            Leaf::Clean => false,
            Leaf::Every => true,
            Leaf::Mixed { approx, exact } => {
                accepts(approx, serial) && exact.planes.meets(&exact.rows.row(serial), 1)
            }
        }
    }
}

impl Filter {
    fn is_revoked(&self, issuer: &Key, serial: &Serial) -> bool {
        match self {
            Filter::Alone(leaf) => leaf.is_revoked(serial),
            Filter::Cut { shift, leaves } => leaves[usize::from(shard(issuer, serial, *shift))].is_revoked(serial),
        }
    }
}

/// The number that the first bits of a digest spell.
fn shard(issuer: &Key, serial: &Serial, shift: u8) -> u8 {
    let octets = &serial.padded()[..usize::from(serial.length)];
    let words = Message::new(&[b"CCSHARD", issuer, &[serial.length], octets]).state();
    (words[0] >> 24 >> (8 - shift)) as u8
}

/// How many bits tell the shards of so many members.
fn shift_for(listed: usize, others: usize) -> u8 {
    if listed == 0 || others == 0 {
        return 0;
    }
    (1..=8).rev().find(|shift| 16_384 << shift <= listed + others).unwrap_or(0)
}

/// Leaves each serial once, ascending: with the greatest of its dates, or with none where one of its entries has none.
fn merge(members: &mut Vec<Member>) {
    members.sort_unstable();
    members.dedup_by(|member, kept| {
        let is_same = member.serial == kept.serial;
        if is_same && kept.until.is_some() {
            kept.until = member.until;
        }
        is_same
    });
}

/// The serials that are listed, and the others, ascending.
fn parted(members: &[Member], listed: &[Serial]) -> (Vec<Serial>, Vec<Serial>) {
    let mut listed = listed.iter().peekable();
    members.iter().map(|member| member.serial).partition(|member| {
        while listed.next_if(|serial| *serial < member).is_some() {}
        listed.peek() == Some(&member)
    })
}

/// An issuer's members.
struct Members {
    issuer: Key,
    listed: Vec<Serial>,
    others: Vec<Serial>,
    /// The date of each, listed or not, in the order of all.
    until: Vec<Option<i64>>,
}

fn members_of(mut group: Group) -> Members {
    merge(&mut group.members);
    let (listed, others) = parted(&group.members, &group.listed);
    Members {
        issuer: group.issuer,
        listed,
        others,
        until: group.members.iter().map(|member| member.until).collect(),
    }
}

/// The members of all groups, in order, sorted by so many threads.
fn all_members(groups: Vec<Group>, workers: usize) -> Vec<Members> {
    if workers < 2 {
        return groups.into_iter().map(members_of).collect();
    }
    let share = groups.len().div_ceil(workers).max(1);
    let mut groups = groups.into_iter();
    thread::scope(|scope| {
        let mut handles = Vec::new();
        loop {
            let groups: Vec<Group> = groups.by_ref().take(share).collect();
            if groups.is_empty() {
                break;
            }
            let sort = move || groups.into_iter().map(members_of).collect::<Vec<_>>();
            handles.push(scope.spawn(sort));
        }
        let all = handles.into_iter().flat_map(|handle| handle.join().unwrap());
        all.collect()
    })
}

/// The shard of each serial, drawn by so many threads.
fn shards_of(issuer: &Key, serials: &[Serial], shift: u8, workers: usize) -> Vec<u8> {
    let draw = |serial: &Serial| shard(issuer, serial, shift);
    if workers < 2 {
        return serials.iter().map(draw).collect();
    }
    let share = serials.len().div_ceil(workers).max(1);
    thread::scope(|scope| {
        let shares = serials.chunks(share);
        let draw_all = |share: &[Serial]| share.iter().map(draw).collect::<Vec<u8>>();
        let handles: Vec<_> = shares.map(|share| scope.spawn(move || draw_all(share))).collect();
        handles.into_iter().flat_map(|handle| handle.join().unwrap()).collect()
    })
}

/// The serials of each shard, ascending.
fn cut(issuer: &Key, serials: &[Serial], shift: u8, workers: usize) -> Vec<Vec<Serial>> {
    let shards = shards_of(issuer, serials, shift, workers);
    let mut sizes = vec![0; 1 << shift];
    for shard in &shards {
        sizes[usize::from(*shard)] += 1;
    }
    let mut cuts: Vec<Vec<Serial>> = sizes.into_iter().map(Vec::with_capacity).collect();
    for (shard, serial) in shards.iter().zip(serials) {
        cuts[usize::from(*shard)].push(*serial);
    }
    cuts
}

/// What a leaf is built from.
struct Task<'a> {
    issuer: &'a Key,
    listed: Cow<'a, [Serial]>,
    others: Cow<'a, [Serial]>,
}

/// The leaves of an issuer's filter, and how many bits tell them.
fn tasks_of(members: &Members, workers: usize) -> (u8, Vec<Task<'_>>) {
    let Members {
        issuer,
        listed,
        others,
        ..
    } = members;
    let shift = shift_for(listed.len(), others.len());
    if shift == 0 {
        let (listed, others) = (Cow::Borrowed(&listed[..]), Cow::Borrowed(&others[..]));
        return (shift, vec![Task { issuer, listed, others }]);
    }
    let listed = cut(issuer, listed, shift, workers);
    let others = cut(issuer, others, shift, workers);
    let tasks = listed.into_iter().zip(others).map(|(listed, others)| Task {
        issuer,
        listed: Cow::Owned(listed),
        others: Cow::Owned(others),
    });
    (shift, tasks.collect())
}

/// The leaves, in order, built by so many threads that draw them from one counter.
fn leaves_of(tasks: &[Task<'_>], workers: usize) -> Result<Vec<Leaf>, Refusal> {
    let build = |task: &Task<'_>| Leaf::new(task.issuer, &task.listed, &task.others);
    if workers < 2 {
        return tasks.iter().map(build).collect();
    }
    let next = AtomicUsize::new(0);
    let work = || {
        let places = std::iter::repeat_with(|| next.fetch_add(1, Ordering::Relaxed));
        let drawn = places.map_while(|place| Some((place, build(tasks.get(place)?))));
        drawn.collect::<Vec<_>>()
    };
    let mut done: Vec<_> = thread::scope(|scope| {
        let handles: Vec<_> = (0..workers).map(|_| scope.spawn(&work)).collect();
        handles.into_iter().flat_map(|handle| handle.join().unwrap()).collect()
    });
    done.sort_unstable_by_key(|(place, _)| *place);
    done.into_iter().map(|(_, leaf)| leaf).collect()
}

/// An issuer's filter, and its members.
struct Built {
    filter: Filter,
    members: Members,
}

fn built(members: Members, shift: u8, mut leaves: impl Iterator<Item = Leaf>) -> Built {
    let filter = match shift {
        0 => Filter::Alone(leaves.next().expect("a leaf")),
        _ => Filter::Cut {
            shift,
            leaves: leaves.take(1 << shift).collect(),
        },
    };
    Built { filter, members }
}

/// The filters of all groups, in order, built by so many threads.
fn build_all(groups: Vec<Group>, workers: usize) -> Result<Vec<Built>, Refusal> {
    let members = all_members(groups, workers);
    let mut shifts = Vec::with_capacity(members.len());
    let mut tasks = Vec::with_capacity(members.len());
    for members in &members {
        let (shift, more) = tasks_of(members, workers);
        shifts.push(shift);
        tasks.extend(more);
    }
    let mut leaves = leaves_of(&tasks, workers)?.into_iter();
    drop(tasks);
    let both = members.into_iter().zip(shifts);
    Ok(both.map(|(members, shift)| built(members, shift, leaves.by_ref())).collect())
}

fn report_of(epoch: u64, counts: &Counts, built: &[Built]) -> String {
    let revoked: usize = built.iter().map(|group| group.members.listed.len()).sum();
    let others: usize = built.iter().map(|group| group.members.others.len()).sum();
    format!(
        "epoch {epoch} part 0 issuers {} universe {} revoked {revoked} unread {} uncovered {} unenrolled {} late 0 \
         accepted {}",
        built.len(),
        revoked + others,
        counts.unread,
        counts.uncovered,
        counts.unenrolled,
        counts.accepted,
    )
}

/// What a client holds of a job.
struct Part {
    ranges: Vec<Range>,
    blocks: Vec<(Key, Filter)>,
}

impl Part {
    /// The part of a job, and the line of its report.
    fn publish(job: Job) -> Result<(Part, String), Refusal> {
        let built = build_all(job.groups, 1)?;
        let report = report_of(job.epoch, &job.counts, &built);
        let blocks = built.into_iter().map(|group| (group.members.issuer, group.filter));
        let ranges = job.ranges;
        let blocks = blocks.collect();
        Ok((Part { ranges, blocks }, report))
    }

    fn verdict(&self, query: &Query<'_>) -> &'static str {
        let is_covered = |sighting: &[u8]| {
            let (log, time) = sighting.split_at(32);
            covers(&self.ranges, log, number_in(time))
        };
        if !query.sightings.chunks_exact(SIGHTING).any(is_covered) {
            return "not-covered";
        }
        let found = self
            .blocks
            .binary_search_by(|block| block.0.cmp(query.issuer));
        match found {
            Err(_) => "not-enrolled",
            Ok(place) if self.blocks[place].1.is_revoked(query.issuer, &query.serial) => "revoked",
            Ok(_) => "good",
        }
    }
}

// ---- Snapshots

fn put_ranges(text: &mut Vec<u8>, ranges: &[Range]) {
    text.extend((ranges.len() as u16).to_be_bytes());
    for range in ranges {
        text.extend(range.log);
        text.extend(range.from.to_be_bytes());
        text.extend(range.to.to_be_bytes());
    }
}

fn put_stage(text: &mut Vec<u8>, stage: &Stage) {
    text.push(stage.rows.front[7]);
    text.extend((stage.rows.starts as u32).to_be_bytes());
    for word in &stage.planes.words {
        text.extend(word.to_be_bytes());
    }
}

fn put_leaf(text: &mut Vec<u8>, leaf: &Leaf) {
    match leaf {
        Leaf::Clean => text.push(0),
        Leaf::Every => text.push(1),
        Leaf::Mixed { approx, exact } => {
            text.push(2);
            match approx {
                None => text.push(0),
                Some(stage) => {
                    text.push((stage.planes.words.len() / stage.planes.width) as u8);
                    put_stage(text, stage);
                }
            }
            put_stage(text, exact);
        }
    }
}

fn put_block(text: &mut Vec<u8>, group: &Built) {
    text.extend(group.members.issuer);
    match &group.filter {
        Filter::Alone(leaf) => put_leaf(text, leaf),
        Filter::Cut { shift, leaves } => {
            text.extend([3, *shift]);
            for leaf in leaves {
                put_leaf(text, leaf);
            }
        }
    }
}

fn seal(text: &mut Vec<u8>) -> Key {
    let digest = sha256(text);
    text.extend(digest);
    digest
}

fn part_text(epoch: u64, ranges: &[Range], built: &[Built]) -> (Vec<u8>, Key) {
    let is_cut = |group: &Built| matches!(group.filter, Filter::Cut { .. });
    let version = if built.iter().any(is_cut) { 2 } else { 1 };
    let mut text = b"CLUBCARD".to_vec();
    text.extend([version, 0]);
    text.extend(epoch.to_be_bytes());
    text.extend([0; 32]);
    put_ranges(&mut text, ranges);
    text.extend((built.len() as u32).to_be_bytes());
    for group in built {
        put_block(&mut text, group);
    }
    let trailer = seal(&mut text);
    (text, trailer)
}

fn put_item(text: &mut Vec<u8>, issuer: &Key, serial: &Serial, last: u8, until: Option<i64>) {
    text.extend(issuer);
    text.push(serial.length);
    text.extend(&serial.padded()[..usize::from(serial.length)]);
    text.extend([0, last, u8::from(until.is_some())]);
    if let Some(until) = until {
        text.extend(until.to_be_bytes());
    }
}

/// The members of an issuer, ascending.
fn put_items(text: &mut Vec<u8>, members: &Members) {
    let mut listed = members.listed.iter().peekable();
    let mut others = members.others.iter().peekable();
    for until in &members.until {
        let first = listed.peek().copied();
        match others.next_if(|other| first.is_none_or(|first| *other < first)) {
            Some(other) => put_item(text, &members.issuer, other, 255, *until),
            None => put_item(text, &members.issuer, listed.next().expect("a member"), 0, *until),
        }
    }
}

fn ledger_text(epoch: u64, trailer: &Key, ranges: &[Range], built: &[Built]) -> Vec<u8> {
    let members: usize = built.iter().map(|group| group.members.until.len()).sum();
    let mut text = Vec::with_capacity(128 + 48 * ranges.len() + 32 * built.len() + 76 * members);
    text.extend(b"CLUBLEDG\x02\x01");
    text.extend(epoch.to_be_bytes());
    text.extend(trailer);
    put_ranges(&mut text, ranges);
    text.extend((built.len() as u32).to_be_bytes());
    for group in built {
        text.extend(group.members.issuer);
    }
    text.extend((members as u32).to_be_bytes());
    for group in built {
        put_items(&mut text, &group.members);
    }
    seal(&mut text);
    text
}

fn snapshot(job_name: &str, part_name: &str, ledger_name: &str, workers: &str) -> Result<(), Refusal> {
    let workers = workers.parse().map_err(|_| Refusal::usage())?;
    let job = read_job(job_name).map_err(|refusal| refusal.about(job_name))?;
    let built = build_all(job.groups, workers)?;
    let (part, trailer) = part_text(job.epoch, &job.ranges, &built);
    let ledger = ledger_text(job.epoch, &trailer, &job.ranges, &built);
    for (name, text) in [(part_name, part), (ledger_name, ledger)] {
        fs::write(name, text).map_err(|_| Refusal::unwritten(name))?;
    }
    println!("{}", report_of(job.epoch, &job.counts, &built));
    Ok(())
}

// ---- Rehearsals

const SIGHTING: usize = 40;

struct Query<'a> {
    issuer: &'a Key,
    serial: Serial,
    /// Logs and times, as they stand in the file.
    sightings: &'a [u8],
}

fn query<'a>(cursor: &mut Cursor<'a>) -> Result<Query<'a>, Refusal> {
    let issuer = cursor.key("query.issuer")?;
    let length = cursor.number("query.length", 1, 1, 32)?;
    let octets = cursor.take("query.serial", length as usize)?;
    let count = cursor.number("query.sightings", 1, 1, 64)?;
    let first = cursor.at;
    for _ in 0..count {
        cursor.key("sighting.log")?;
        cursor.number("sighting.time", 8, 0, u64::MAX)?;
    }
    Ok(Query {
        issuer,
        serial: Serial::new(octets).expect("1 to 32 octets"),
        sightings: &cursor.bytes[first..cursor.at],
    })
}

fn queries_in(bytes: &[u8]) -> Result<Vec<Query<'_>>, Refusal> {
    let mut cursor = Cursor::new(bytes);
    cursor.magic("query.magic", b"CLUBQRY1")?;
    let count = cursor.number("query.count", 4, 0, 65_536)?;
    let queries: Result<Vec<Query>, Refusal> = (0..count).map(|_| query(&mut cursor)).collect();
    let queries = queries?;
    cursor.end()?;
    Ok(queries)
}

fn read_job(name: &str) -> Result<Job, Refusal> {
    let bytes = contents_of(name)?;
    job_in(&bytes)
}

fn rehearse(queries_name: &str, job_name: &str) -> Result<(), Refusal> {
    let bytes = contents_of(queries_name).map_err(|refusal| refusal.about(queries_name))?;
    let queries = queries_in(&bytes).map_err(|refusal| refusal.about(queries_name))?;
    let job = read_job(job_name).map_err(|refusal| refusal.about(job_name))?;
    let (part, mut text) = Part::publish(job)?;
    text.push('\n');
    for query in &queries {
        text.push_str(part.verdict(query));
        text.push('\n');
    }
    let written = io::stdout().lock().write_all(text.as_bytes());
    written.map_err(|_| Refusal::unwritten("standard output"))
}
