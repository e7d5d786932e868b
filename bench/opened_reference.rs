//! Verdicts in plain Rust with no proofs, to be timed beside those of the library for C: it holds the store decoded, in
//! vectors (docs/FORMATS.md has the layout and what a verdict is). It is linked with libclubcard.a, so that both answer
//! the same questions in one process:
//!
//!     opened_reference count STORE QUESTIONS
//!     opened_reference turns STORE TURNS QUESTIONS ..
//!
//! `count` asks each question once of the decoded store, and makes its digests, for callgrind. `turns` asks each of
//! them of both, which must answer alike, a hundred at a time and TURNS times: among all others, and at once again. It
//! prints the least nanoseconds of opening the store by the library, and for each file of questions a line: how many
//! were answered by each verdict, from not-covered to revoked, how many digests the parts ask of a verdict, how many of
//! them differ, the nanoseconds of all by the library's own function for rows (where `--cfg digests` says that it can
//! be called), and those of a verdict by the library and in plain Rust, among others and again. Of each hundred the
//! least time counts.
//!
//! QUESTIONS are records of 112 bytes: an issuer (32), a serial with zeros behind it (32), its length (8), a log (32)
//! and a time (8); numbers are little-endian.

use std::env;
use std::error::Error;
use std::fs;
use std::hint::black_box;
use std::time::Instant;

mod decoded;
mod sha256;
use decoded::{digests_of, parts_of, row, verdict, Digest, Part, Question, Sighting};
use sha256::Key;

/// An identity, and what the digest of a row spells, as the library has them in memory.
#[repr(C)]
struct Identity {
    issuer: Key,
    length: u8,
    octets: [u8; 32],
}

#[repr(C)]
#[derive(Default)]
struct LibraryRow {
    coeff: u128,
    start: u64,
    tag: u16,
}

// The library's own function, under a name that bench/opened.py gives it. Its parameters are those of the code that the
// toolchain makes of it today; `is_right` sees whether they still are.
#[cfg(digests)]
extern "C" {
    fn library_row(row: *mut LibraryRow, number: u32, seed: u32, id: *const Identity);
}

// Where it can't be called.
#[cfg(not(digests))]
unsafe fn library_row(_: *mut LibraryRow, _: u32, _: u32, _: *const Identity) {}

impl Digest {
    /// What the library makes of a row. It stands for a shard, whose message is a byte shorter and of as many blocks.
    fn by_library(&self, id: &Identity) -> LibraryRow {
        let (number, seed, starts) = match *self {
            Digest::Row { number, seed, starts } => (number, seed, starts),
            Digest::Shard => (1, 0, 1),
        };
        let mut row = LibraryRow::default();
        // SAFETY: the function reads an identity and writes a row.
        unsafe { library_row(&mut row, number.into(), seed.into(), id) };
        row.start %= starts;
        row
    }

    fn is_right(&self, question: &Question, id: &Identity) -> bool {
        let Digest::Row { number, seed, starts } = *self else {
            return true;
        };
        let ours = self.by_library(id);
        let row = row(number, seed, starts, &question.issuer, &question.serial);
        (ours.start as usize, ours.coeff, ours.tag) == (row.start, row.coeff, row.tag)
    }
}

/// The digests of a question.
struct Digests {
    id: Identity,
    made: Vec<Digest>,
}

impl Digests {
    fn new(parts: &[Part], question: &Question) -> Digests {
        let mut octets = [0; 32];
        octets[..question.serial.len()].copy_from_slice(&question.serial);
        let id = Identity { issuer: question.issuer, length: question.serial.len() as u8, octets };
        let made = digests_of(parts, question);
        assert!(cfg!(not(digests)) || made.iter().all(|digest| digest.is_right(question, &id)), "digests");
        Digests { id, made }
    }

    /// How many there are, each counted once.
    fn distinct(&self) -> usize {
        let is_new = |at: &usize| !self.made[..*at].iter().any(|other| self.made[*at].is_cut_from_that_of(other));
        (0..self.made.len()).filter(is_new).count()
    }
}

#[inline(never)]
fn all_digests(digests: &[Digests]) -> u64 {
    let starts = digests.iter().flat_map(|of| of.made.iter().map(|digest| digest.by_library(&of.id).start));
    starts.fold(0, u64::wrapping_add)
}

// ---- The library

#[repr(C)]
#[derive(Default)]
struct StoreFacts {
    size: u64,
    parts: u64,
    newest_epoch: u64,
    index_len: u64,
    at: u64,
    field: u64,
}

extern "C" {
    fn clubcard_index_length(store: *const u8, store_len: usize, words: *mut u64) -> u32;
    fn clubcard_open(
        store: *const u8,
        store_len: usize,
        index: *mut u32,
        index_len: usize,
        facts: *mut StoreFacts,
    ) -> u32;
    fn clubcard_ask(
        store: *const u8,
        store_len: usize,
        index: *const u32,
        index_len: usize,
        issuer: *const u8,
        serial: *const u8,
        serial_len: usize,
        sightings: *const Sighting,
        sightings_len: usize,
    ) -> u32;
}

/// A store that the library has opened.
struct Opened {
    bytes: Vec<u8>,
    index: Vec<u32>,
}

impl Opened {
    fn new(bytes: Vec<u8>) -> Opened {
        let mut words = 0;
        // SAFETY: each pointer is that of as many elements as the length behind it says.
        let number = unsafe { clubcard_index_length(bytes.as_ptr(), bytes.len(), &mut words) };
        assert_eq!(number, 0, "the store has an index");
        let mut opened = Opened { bytes, index: vec![0; words as usize] };
        opened.open();
        opened
    }

    fn open(&mut self) {
        let mut facts = StoreFacts { size: size_of::<StoreFacts>() as u64, ..Default::default() };
        let (bytes, index) = (&self.bytes, &mut self.index);
        // SAFETY: as in `new`.
        let number = unsafe { clubcard_open(bytes.as_ptr(), bytes.len(), index.as_mut_ptr(), index.len(), &mut facts) };
        assert_eq!(number, 0, "the store is opened");
    }

    fn ask(&self, issuer: &Key, serial: &[u8], sightings: &[Sighting]) -> u32 {
        // SAFETY: as in `new`.
        unsafe {
            clubcard_ask(
                self.bytes.as_ptr(),
                self.bytes.len(),
                self.index.as_ptr(),
                self.index.len(),
                issuer.as_ptr(),
                serial.as_ptr(),
                serial.len(),
                sightings.as_ptr(),
                sightings.len(),
            )
        }
    }
}

fn question(record: &[u8]) -> Question {
    let number = |at: usize| u64::from_le_bytes(record[at..at + 8].try_into().unwrap());
    Question {
        issuer: record[..32].try_into().unwrap(),
        serial: record[32..32 + number(64) as usize].to_vec(),
        seen: Sighting { log: record[72..104].try_into().unwrap(), time: number(104) },
    }
}

fn questions_of(name: &str) -> Result<Vec<Question>, Box<dyn Error>> {
    Ok(fs::read(name)?.chunks_exact(112).map(question).collect())
}

/// How many questions have each answer.
type Counts = [usize; 5];

#[inline(never)]
fn all_by_plain_rust(parts: &[Part], questions: &[Question]) -> Counts {
    let mut counts = Counts::default();
    for Question { issuer, serial, seen } in questions {
        counts[verdict(parts, issuer, serial, std::slice::from_ref(seen)) as usize] += 1;
    }
    counts
}

#[inline(never)]
fn all_by_library(opened: &Opened, questions: &[Question]) -> Counts {
    let mut counts = Counts::default();
    for Question { issuer, serial, seen } in questions {
        counts[opened.ask(issuer, serial, std::slice::from_ref(seen)) as usize] += 1;
    }
    counts
}

/// Questions that are timed together.
const BATCH: usize = 100;

/// What a call answers, and the least nanoseconds of this call and those before.
fn timed<T>(least: &mut u128, call: impl FnOnce() -> T) -> T {
    let start = Instant::now();
    let answer = black_box(call());
    *least = start.elapsed().as_nanos().min(*least);
    answer
}

/// The least times of a batch: by the library, and in plain Rust.
struct Times {
    by_library: u128,
    by_plain_rust: u128,
}

impl Times {
    const NONE: Times = Times { by_library: u128::MAX, by_plain_rust: u128::MAX };
}

/// The questions of a batch, how they are answered, and the least times: of the library's digests alone, and of the
/// verdicts among other questions, and at once again.
struct Batch<'a> {
    questions: &'a [Question],
    digests: Vec<Digests>,
    counts: Counts,
    of_digests: u128,
    among: Times,
    again: Times,
}

impl<'a> Batch<'a> {
    /// Each question must be answered alike by both.
    fn new(opened: &Opened, parts: &[Part], questions: &'a [Question]) -> Batch<'a> {
        for Question { issuer, serial, seen } in questions {
            let sightings = std::slice::from_ref(seen);
            let ours = opened.ask(issuer, serial, sightings);
            assert_eq!(ours, verdict(parts, issuer, serial, sightings) as u32, "answers");
        }
        let digests = questions.iter().map(|question| Digests::new(parts, question)).collect();
        let counts = Counts::default();
        Batch { questions, digests, counts, of_digests: u128::MAX, among: Times::NONE, again: Times::NONE }
    }

    /// Asks both twice, the one first at even turns and the other at odd ones.
    fn ask(&mut self, turn: usize, opened: &Opened, parts: &[Part]) {
        for times in [&mut self.among, &mut self.again] {
            let mut ours = || timed(&mut times.by_library, || all_by_library(opened, self.questions));
            let mut theirs = || timed(&mut times.by_plain_rust, || all_by_plain_rust(parts, self.questions));
            let answers = if turn % 2 == 0 { (ours(), theirs()) } else { (theirs(), ours()) };
            assert_eq!(answers.0, answers.1, "answers");
            self.counts = answers.0;
        }
        timed(&mut self.of_digests, || all_digests(&self.digests));
    }
}

/// The line of a file of questions.
fn told(batches: &[Batch<'_>]) -> String {
    let asked: usize = batches.iter().map(|batch| batch.questions.len()).sum();
    let count = |verdict: usize| batches.iter().map(|batch| batch.counts[verdict]).sum::<usize>();
    let each = |least: fn(&Batch) -> u128| batches.iter().map(least).sum::<u128>() as f64 / asked as f64;
    let digests: Vec<&Digests> = batches.iter().flat_map(|batch| &batch.digests).collect();
    let made: usize = digests.iter().map(|of| of.made.len()).sum();
    let distinct: usize = digests.iter().map(|of| of.distinct()).sum();
    let counts = [1, 2, 3, 4].map(|verdict| count(verdict).to_string()).join(" ");
    let least: [fn(&Batch) -> u128; 5] = [
        |batch| batch.of_digests,
        |batch| batch.among.by_library,
        |batch| batch.among.by_plain_rust,
        |batch| batch.again.by_library,
        |batch| batch.again.by_plain_rust,
    ];
    let times = least.map(|of| format!("{:.1}", each(of))).join(" ");
    format!("{counts} {:.3} {:.3} {times}", made as f64 / asked as f64, distinct as f64 / asked as f64)
}

/// The least nanoseconds of opening the store so many times, and of those before.
fn open_in_turn(opened: &mut Opened, turns: usize, least: u128) -> u128 {
    let mut opening = least;
    (0..turns).for_each(|_| timed(&mut opening, || opened.open()));
    opening
}

/// The files of questions are asked in turn, too. The store is opened before and behind them, since other work on the
/// machine may last.
fn in_turn(store: Vec<u8>, files: &[Vec<Question>], turns: usize) {
    let parts = parts_of(&store);
    let mut opened = Opened::new(store);
    let opening = open_in_turn(&mut opened, turns, u128::MAX);
    let batch = |questions| Batch::new(&opened, &parts, questions);
    let batches = files.iter().map(|questions| questions.chunks(BATCH).map(batch).collect());
    let mut files: Vec<Vec<Batch<'_>>> = batches.collect();
    for turn in 0..turns {
        files.iter_mut().flatten().for_each(|batch| batch.ask(turn, &opened, &parts));
    }
    println!("{}", open_in_turn(&mut opened, turns, opening));
    files.iter().for_each(|batches| println!("{}", told(batches)));
}

fn main() -> Result<(), Box<dyn Error>> {
    let words: Vec<String> = env::args().skip(1).collect();
    let words: Vec<&str> = words.iter().map(String::as_str).collect();
    match words[..] {
        ["count", store, questions] => {
            let (parts, questions) = (parts_of(&fs::read(store)?), questions_of(questions)?);
            println!("{:?}", all_by_plain_rust(&parts, &questions));
            let digests: Vec<Digests> = questions.iter().map(|question| Digests::new(&parts, question)).collect();
            println!("{}", all_digests(&digests));
        }
        ["turns", store, turns, ref names @ ..] => {
            let files = names.iter().map(|name| questions_of(name)).collect::<Result<Vec<_>, _>>()?;
            in_turn(fs::read(store)?, &files, turns.parse()?);
        }
        _ => return Err("usage: opened_reference count STORE QUESTIONS, or turns STORE TURNS QUESTIONS ..".into()),
    }
    Ok(())
}
