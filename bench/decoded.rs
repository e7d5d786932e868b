//! A store in plain Rust, decoded into vectors, and its verdicts (docs/FORMATS.md has the layout and what a verdict
//! is): a module of opened_reference.rs.

use crate::sha256::{sha256, Key, Message};

// ---- The decoded store

struct Range {
    log: Key,
    from: u64,
    to: u64,
}

/// A ribbon filter's stage: its planes, one after the other.
struct Stage {
    seed: u8,
    starts: u64,
    /// How many words a plane has.
    width: usize,
    words: Vec<u64>,
}

enum Leaf {
    Clean,
    Every,
    Mixed { approx: Option<Stage>, exact: Stage },
}

/// One leaf, or a leaf for each of 2^shift shards.
enum Filter {
    Alone(Leaf),
    Cut { shift: u8, leaves: Vec<Leaf> },
}

pub struct Part {
    ranges: Vec<Range>,
    /// Ascending; the filter of each stands at the same place.
    issuers: Vec<Key>,
    filters: Vec<Filter>,
}

/// Takes so many bytes off the front.
fn take<'a>(bytes: &mut &'a [u8], count: usize) -> &'a [u8] {
    let (taken, rest) = bytes.split_at(count);
    *bytes = rest;
    taken
}

fn key(bytes: &mut &[u8]) -> Key {
    take(bytes, 32).try_into().unwrap()
}

fn number(bytes: &mut &[u8], width: usize) -> u64 {
    take(bytes, width).iter().fold(0, |sum, byte| sum << 8 | u64::from(*byte))
}

fn range(bytes: &mut &[u8]) -> Range {
    Range { log: key(bytes), from: number(bytes, 8), to: number(bytes, 8) }
}

fn stage(bytes: &mut &[u8], planes: usize) -> Stage {
    let (seed, starts) = (number(bytes, 1) as u8, number(bytes, 4));
    let width = (starts as usize + 127).div_ceil(64);
    let words = take(bytes, 8 * planes * width).chunks_exact(8);
    let words = words.map(|word| u64::from_be_bytes(word.try_into().unwrap())).collect();
    Stage { seed, starts, width, words }
}

fn leaf(bytes: &mut &[u8], mode: u64) -> Leaf {
    match mode {
        0 => Leaf::Clean,
        1 => Leaf::Every,
        _ => {
            let planes = number(bytes, 1) as usize;
            let approx = (planes > 0).then(|| stage(bytes, planes));
            Leaf::Mixed { approx, exact: stage(bytes, 1) }
        }
    }
}

fn filter(bytes: &mut &[u8]) -> Filter {
    let mode = number(bytes, 1);
    if mode < 3 {
        return Filter::Alone(leaf(bytes, mode));
    }
    let shift = number(bytes, 1) as u8;
    let shard = |_| {
        let mode = number(bytes, 1);
        leaf(bytes, mode)
    };
    Filter::Cut { shift, leaves: (0..1 << shift).map(shard).collect() }
}

fn part(bytes: &mut &[u8]) -> Part {
    let whole = *bytes;
    take(bytes, 8 + 1 + 1 + 8 + 32);
    let ranges = (0..number(bytes, 2)).map(|_| range(bytes)).collect();
    let count = number(bytes, 4) as usize;
    let (mut issuers, mut filters) = (Vec::with_capacity(count), Vec::with_capacity(count));
    for _ in 0..count {
        issuers.push(key(bytes));
        filters.push(filter(bytes));
    }
    assert_eq!(sha256(&whole[..whole.len() - bytes.len()]), key(bytes), "a part's digest");
    Part { ranges, issuers, filters }
}

pub fn parts_of(mut store: &[u8]) -> Vec<Part> {
    take(&mut store, 8 + 1);
    let parts = (0..number(&mut store, 1)).map(|_| part(&mut store)).collect();
    assert!(store.is_empty(), "bytes behind the store");
    parts
}

// ---- Verdicts

/// When a log saw a certificate, in the layout of the library.
#[repr(C)]
pub struct Sighting {
    pub log: Key,
    pub time: u64,
}

/// A certificate that is asked about, which one log saw.
pub struct Question {
    pub issuer: Key,
    pub serial: Vec<u8>,
    pub seen: Sighting,
}

pub struct Row {
    pub start: usize,
    pub coeff: u128,
    pub tag: u16,
}

/// A row of an identity, or its shard.
pub enum Digest {
    Row { number: u8, seed: u8, starts: u64 },
    Shard,
}

impl Digest {
    /// Whether both are cut from one digest.
    pub fn is_cut_from_that_of(&self, other: &Digest) -> bool {
        let drawn = |it: &Digest| match *it {
            Digest::Row { number, seed, .. } => Some((number, seed)),
            Digest::Shard => None,
        };
        drawn(self) == drawn(other)
    }
}

/// The row of an identity in a stage of this number.
pub fn row(number: u8, seed: u8, starts: u64, issuer: &Key, serial: &[u8]) -> Row {
    let words = Message::new(&[b"CCROW1", &[number, seed], issuer, &[serial.len() as u8], serial]).state();
    let pair = |i: usize| u64::from(words[i]) << 32 | u64::from(words[i + 1]);
    Row {
        start: (pair(4) % starts) as usize,
        coeff: u128::from(pair(0)) << 64 | u128::from(pair(2)) | 1,
        tag: (words[6] >> 16) as u16,
    }
}

impl Stage {
    fn row(&self, number: u8, issuer: &Key, serial: &[u8]) -> Row {
        row(number, self.seed, self.starts, issuer, serial)
    }

    /// Whether the sum over the row is the target's bit, in each plane.
    fn meets(&self, row: &Row, target: u16) -> bool {
        let (first, shift) = (row.start / 64, row.start % 64);
        self.words.chunks_exact(self.width).enumerate().all(|(plane, words)| {
            let low = u128::from(words[first]) | u128::from(words[first + 1]) << 64;
            let above = u128::from(words.get(first + 2).copied().unwrap_or(0));
            let window = low >> shift | above << (127 - shift) << 1;
            let sum = (window & row.coeff).count_ones() & 1;
            sum == u32::from(target >> plane & 1)
        })
    }
}

impl Leaf {
    fn is_revoked(&self, issuer: &Key, serial: &[u8]) -> bool {
        match self {
            Leaf::Clean => false,
            Leaf::Every => true,
            Leaf::Mixed { approx, exact } => {
                let passes = |stage: &Stage| {
                    let row = stage.row(1, issuer, serial);
                    stage.meets(&row, row.tag)
                };
                approx.as_ref().is_none_or(passes) && exact.meets(&exact.row(2, issuer, serial), 1)
            }
        }
    }
}

pub fn shard(issuer: &Key, serial: &[u8], shift: u8) -> u8 {
    let words = Message::new(&[b"CCSHARD", issuer, &[serial.len() as u8], serial]).state();
    (words[0] >> 24 >> (8 - shift)) as u8
}

impl Filter {
    fn is_revoked(&self, issuer: &Key, serial: &[u8]) -> bool {
        match self {
            Filter::Alone(leaf) => leaf.is_revoked(issuer, serial),
            Filter::Cut { shift, leaves } => {
                leaves[usize::from(shard(issuer, serial, *shift))].is_revoked(issuer, serial)
            }
        }
    }
}

impl Part {
    fn covers(&self, seen: &Sighting) -> bool {
        let found = self.ranges.binary_search_by(|range| range.log.cmp(&seen.log));
        found.is_ok_and(|place| (self.ranges[place].from..=self.ranges[place].to).contains(&seen.time))
    }
}

/// The numbers are the library's.
#[derive(Clone, Copy, PartialEq, Eq, PartialOrd, Ord)]
pub enum Verdict {
    NotCovered = 1,
    NotEnrolled = 2,
    Good = 3,
    Revoked = 4,
}

pub fn verdict(parts: &[Part], issuer: &Key, serial: &[u8], sightings: &[Sighting]) -> Verdict {
    let mut verdict = Verdict::NotCovered;
    for part in parts {
        if !sightings.iter().any(|seen| part.covers(seen)) {
            continue;
        }
        let said = match part.issuers.binary_search(issuer) {
            Err(_) => Verdict::NotEnrolled,
            Ok(place) if part.filters[place].is_revoked(issuer, serial) => return Verdict::Revoked,
            Ok(_) => Verdict::Good,
        };
        verdict = verdict.max(said);
    }
    verdict
}

// ---- The digests that the parts ask of a verdict

fn digests_of_leaf(leaf: &Leaf, issuer: &Key, serial: &[u8], made: &mut Vec<Digest>) {
    let Leaf::Mixed { approx, exact } = leaf else {
        return;
    };
    let row = |stage: &Stage, number| Digest::Row { number, seed: stage.seed, starts: stage.starts };
    if let Some(stage) = approx {
        made.push(row(stage, 1));
        let asked = stage.row(1, issuer, serial);
        if !stage.meets(&asked, asked.tag) {
            return;
        }
    }
    made.push(row(exact, 2));
}

/// Of a certificate that no part says is revoked, or that only the last one does.
pub fn digests_of(parts: &[Part], question: &Question) -> Vec<Digest> {
    let Question { issuer, serial, seen } = question;
    let mut made = Vec::new();
    for part in parts.iter().filter(|part| part.covers(seen)) {
        let Ok(place) = part.issuers.binary_search(issuer) else {
            continue;
        };
        match &part.filters[place] {
            Filter::Alone(leaf) => digests_of_leaf(leaf, issuer, serial, &mut made),
            Filter::Cut { shift, leaves } => {
                made.push(Digest::Shard);
                let leaf = &leaves[usize::from(shard(issuer, serial, *shift))];
                digests_of_leaf(leaf, issuer, serial, &mut made);
            }
        }
    }
    made
}
